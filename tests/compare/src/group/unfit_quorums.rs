//! First lines whose quorum numbers make no group: refused by 18, or not of the
//! form, also where a lower refusal or a malformed number comes first.

use second::replica::Quorums;

use super::Group;
use crate::prng::Prng;

/// What is wrong with the quorum numbers of a first line.
#[derive(Clone, Copy, Debug, PartialEq, Eq)]
pub enum Unfit {
    FewToDecide,
    ManyToDecide,
    FewToPropose,
    ManyToPropose,
    /// Each may be so, but not both.
    SumOfN,
    /// 18 would refuse them, but 3 or 4 comes before it.
    AfterLimits,
    /// 18 would refuse them, or they are malformed, but 1 or 2 comes before.
    AfterSizes,
    Malformed,
}

/// Those by which 18 refuses.
const REFUSED: [Unfit; 5] = [
    Unfit::FewToDecide,
    Unfit::ManyToDecide,
    Unfit::FewToPropose,
    Unfit::ManyToPropose,
    Unfit::SumOfN,
];

/// All of these, with the names that they are counted by.
pub const UNFIT: [(Unfit, &str); 8] = [
    (Unfit::FewToDecide, "a of 0 or 1"),
    (Unfit::ManyToDecide, "a above N"),
    (Unfit::FewToPropose, "b of 0 or 1"),
    (Unfit::ManyToPropose, "b above N"),
    (Unfit::SumOfN, "a + b = N"),
    (Unfit::AfterLimits, "after a refusal by 3 or 4"),
    (Unfit::AfterSizes, "after a refusal by 1 or 2"),
    (Unfit::Malformed, "not of the form"),
];

/// A group of three has no pair of which each number may be so, but not both.
const LEAST_WITH_SUM: u8 = 4;

impl Group {
    /// The first line of this group, but for its quorum numbers and, where
    /// another refusal comes first, for what that refuses.
    pub fn with_unfit_quorums(&self, prng: &mut Prng, unfit: Unfit) -> Vec<u8> {
        let line = match unfit {
            Unfit::AfterLimits => {
                let group = self.refused(prng);
                group.with_crossed_limits(prng.chance(30)).first_line()
            }
            Unfit::AfterSizes => {
                let line = match prng.chance(50) {
                    true => self.refused(prng).first_line(),
                    false => self.malformed(prng),
                };
                with_wrong_size(prng, &line)
            }
            Unfit::Malformed => match prng.chance(30) {
                true => self.with_crossed_limits(prng.chance(50)).malformed(prng),
                false => self.malformed(prng),
            },
            _ => self.refused_by(prng, unfit).first_line(),
        };
        line.into_bytes()
    }

    fn refused(&self, prng: &mut Prng) -> Group {
        let unfit = prng.pick(&REFUSED);
        self.refused_by(prng, unfit)
    }

    /// With numbers that are refused on one ground alone, but for 0, which
    /// leaves no sum above N.
    fn refused_by(&self, prng: &mut Prng, unfit: Unfit) -> Group {
        let boxes = match unfit {
            Unfit::SumOfN => self.boxes.max(LEAST_WITH_SUM),
            _ => self.boxes,
        };
        let few = prng.pick(&[0, 1, 1]);
        let many = prng.pick(&[boxes + 1, boxes + 1, 2 * boxes, 255]);
        let fitting = prng.between(2, boxes.into()) as u8;
        let part = prng.between(2, i32::from(boxes.max(LEAST_WITH_SUM)) - 2) as u8;
        let (to_decide, to_propose) = match unfit {
            Unfit::FewToDecide => (few, boxes),
            Unfit::FewToPropose => (boxes, few),
            Unfit::ManyToDecide => (many, fitting),
            Unfit::ManyToPropose => (fitting, many),
            _ => (part, boxes - part),
        };
        Group {
            boxes,
            named: Some(Quorums {
                to_decide,
                to_propose,
            }),
            ..*self
        }
    }

    /// With numbers that would do, but not in this form.
    fn malformed(&self, prng: &mut Prng) -> String {
        let Quorums {
            to_decide: a,
            to_propose: b,
        } = self.quorums();
        let group = Group {
            named: None,
            ..*self
        };
        let line = group.first_line();
        let no_number = prng.pick(&["256", "x", "", "-", "-0", "-2", "1.0", "f00000002"]);
        let no_word = prng.pick(&["quorum", "Quorums", "quorums:", "majorities", "2", ""]);
        match prng.below(14) {
            0 => format!("{line} quorums"),
            1 => format!("{line} quorums {a}"),
            2 => format!("{line} quorums {a} {b} {b}"),
            3 => format!("{line} quorums {a} {no_number}"),
            4 => format!("{line} quorums {no_number} {b}"),
            5 => format!("{line} quorums 0{a} {b}"),
            6 => format!("{line} quorums {a} +{b}"),
            7 => format!("{line} quorums {a} {b}{}", prng.pick(&[" ", "\r", "."])),
            8 => format!("{line} {no_word} {a} {b}"),
            9 => format!("{line} {a} {b}"),
            10 => format!("{line} quorums {a} {b} quorums {a} {b}"),
            11 => format!("{line}{}quorums {a} {b}", prng.pick(&["  ", "\t", ""])),
            12 => format!("{line} quorums{}{a} {b}", prng.pick(&["  ", "\t", ""])),
            _ => ahead_of_numbers(prng, &line, &format!("quorums {a} {b}")),
        }
    }
}

/// Quorum numbers ahead of the tables or of the last number.
fn ahead_of_numbers(prng: &mut Prng, line: &str, quorums: &str) -> String {
    let mut words: Vec<&str> = line.split(' ').collect();
    let at = prng.pick(&[5, words.len() - 1]);
    words.insert(at, quorums);
    words.join(" ")
}

/// Refused by 1 or by 2.
fn with_wrong_size(prng: &mut Prng, line: &str) -> String {
    let mut words: Vec<&str> = line.split(' ').collect();
    match prng.chance(50) {
        true => words[1] = prng.pick(&["2", "10", "255"]),
        false => words[2] = prng.pick(&["0", "7", "255"]),
    }
    words.join(" ")
}

#[cfg(test)]
mod tests {
    use super::*;
    use crate::group::first_answer;
    use crate::quorums;

    #[test]
    fn each_has_its_answer() {
        let mut prng = Prng::new(15);
        for turn in 0..2_000 {
            let mut group = Group::random(&mut prng);
            quorums::name_in_turn(turn, &mut group);
            for (unfit, _) in UNFIT {
                let line = group.with_unfit_quorums(&mut prng, unfit);
                let answers = match unfit {
                    Unfit::AfterLimits => ["r3\n", "r4\n"],
                    Unfit::AfterSizes => ["r1\n", "r2\n"],
                    Unfit::Malformed => ["bad\n"; 2],
                    _ => ["r18\n"; 2],
                };
                let answer = first_answer(&line);
                let shown = String::from_utf8_lossy(&line);
                assert!(answers.contains(&answer.as_str()), "{shown:?} {answer}");
            }
        }
    }
}
