//! The group that a script is for: made at random, and written as the first
//! line of a rig script, now and then a spoiled one.

mod unfit_quorums;

use second::law::{Settings, LARGEST_COEFFICIENT};
use second::replica::{Quorums, Replica};
use second::script::bench_settings;

use crate::prng::Prng;
pub use unfit_quorums::{Unfit, UNFIT};

/// 1 in the units of the coefficients.
pub const ONE: i32 = 65_536;

/// Words that are no number within i32; a single is one of them.
const NO_NUMBERS: [&str; 9] = [
    "2147483648",
    "-0",
    "01",
    "+1",
    "1 ",
    "1\r",
    "-",
    "x",
    "f00000000",
];

#[derive(Clone, Copy)]
pub struct Group {
    pub boxes: u8,
    /// The quorum numbers that the first line names, if it names any.
    pub named: Option<Quorums>,
    pub settings: Settings,
    /// Whether a reading may be a single: in scripts for the rig alone.
    pub takes_singles: bool,
}

impl Group {
    pub fn bench() -> Group {
        Group {
            boxes: 3,
            named: None,
            settings: bench_settings(),
            takes_singles: false,
        }
    }

    pub fn random(prng: &mut Prng) -> Group {
        let mut settings = Settings {
            n: prng.between(1, 6) as u8,
            m: prng.between(1, 4) as u8,
            p: prng.between(1, 4) as u8,
            ..Settings::default()
        };
        fill_coefficients(prng, &mut settings);
        for (lower, upper) in settings.lower.iter_mut().zip(&mut settings.upper) {
            (*lower, *upper) = limits(prng);
        }
        settings.start = [0; 6].map(|_| start(prng));
        Group {
            boxes: prng.between(3, 9) as u8,
            named: None,
            settings,
            takes_singles: true,
        }
    }

    /// "without it both are the majority"
    pub fn quorums(&self) -> Quorums {
        self.named.unwrap_or(Quorums::majorities(self.boxes))
    }

    /// The box of this number, fresh.
    pub fn replica(&self, own: u8) -> Replica {
        Replica::new(self.boxes, own, self.quorums(), self.settings).expect("a good group")
    }

    /// `rig N n m p`, A, L, C, K, the lower and the upper limits, the start, and
    /// `quorums a b` where they are named.
    pub fn first_line(&self) -> String {
        let s = &self.settings;
        let (n, m, p) = (usize::from(s.n), usize::from(s.m), usize::from(s.p));
        let mut numbers: Vec<i32> = [self.boxes, s.n, s.m, s.p].map(i32::from).to_vec();
        s.a[..n].iter().for_each(|row| numbers.extend(&row[..n]));
        s.l[..n].iter().for_each(|row| numbers.extend(&row[..m]));
        s.c[..m].iter().for_each(|row| numbers.extend(&row[..n]));
        s.k[..p].iter().for_each(|row| numbers.extend(&row[..n]));
        numbers.extend(&s.lower[..p]);
        numbers.extend(&s.upper[..p]);
        numbers.extend(&s.start[..n]);
        let words: Vec<String> = numbers.iter().map(i32::to_string).collect();
        format!("rig {}{}", words.join(" "), self.named_quorums())
    }

    fn named_quorums(&self) -> String {
        match self.named {
            Some(quorums) => format!(" quorums {} {}", quorums.to_decide, quorums.to_propose),
            None => String::new(),
        }
    }

    /// A first line that makes no group: refused, or not of the form.
    pub fn spoiled_first_line(&self, prng: &mut Prng) -> Vec<u8> {
        let line = self.first_line();
        let mut words: Vec<&str> = line.split(' ').collect();
        let coefficient = 5 + prng.below(usize::from(self.settings.n));
        let last = words.len() - 1;
        match prng.below(14) {
            0 => words[1] = prng.pick(&["0", "1", "2", "10", "255"]),
            1 => words[2] = prng.pick(&["0", "7", "255"]),
            2 => words[prng.pick(&[3, 4])] = prng.pick(&["0", "5", "255"]),
            3 => words[coefficient] = prng.pick(&["16777217", "-16777217", "2147483647"]),
            4 => return self.with_crossed_limits(false).first_line().into_bytes(),
            5 => return self.with_crossed_limits(true).first_line().into_bytes(),
            6 => drop(words.pop()),
            7 => words.push("0"),
            8 => words[prng.pick(&[1, 2, 3, 4])] = prng.pick(&["256", "-1", "+3", "03", ""]),
            9 => words[0] = prng.pick(&["Rig", "rig ", "", "bench", " rig"]),
            10 => words[last] = prng.pick(&NO_NUMBERS),
            11 => words[coefficient] = prng.pick(&["-2147483649", "00", "", "0x1"]),
            12 => return vec![b'r', b'i', b'g', b' ', 0xFF],
            _ => return Vec::new(),
        }
        words.join(" ").into_bytes()
    }

    /// Refused by 4, or by 3 if a coefficient is made too large as well.
    fn with_crossed_limits(&self, too_large: bool) -> Group {
        let mut group = *self;
        (group.settings.lower[0], group.settings.upper[0]) = (1, 0);
        if too_large {
            group.settings.k[0][0] = LARGEST_COEFFICIENT + 1;
        }
        group
    }
}

/// How a script's coefficients are drawn. Most are tame, because under wild
/// ones the states soon stand at the ends of i32 and differ no longer.
#[derive(Clone, Copy)]
enum Manner {
    Tame,
    TameWithEnds,
    Wild,
}

fn fill_coefficients(prng: &mut Prng, settings: &mut Settings) {
    let manner = match prng.below(10) {
        0..=5 => Manner::Tame,
        6..=8 => Manner::TameWithEnds,
        _ => Manner::Wild,
    };
    fill(prng, manner, settings);
}

/// Tame coefficients in all tables.
pub fn fill_tame(prng: &mut Prng, settings: &mut Settings) {
    fill(prng, Manner::Tame, settings);
}

fn fill(prng: &mut Prng, manner: Manner, settings: &mut Settings) {
    for (i, row) in settings.a.iter_mut().enumerate() {
        for (j, place) in row.iter_mut().enumerate() {
            let tame = if i == j {
                (ONE / 3, ONE)
            } else {
                (-ONE / 12, ONE / 12)
            };
            *place = coefficient(prng, manner, tame);
        }
    }
    let rest = (settings.l.iter_mut().flatten())
        .chain(settings.c.iter_mut().flatten())
        .chain(settings.k.iter_mut().flatten());
    for place in rest {
        *place = coefficient(prng, manner, (-ONE / 2, ONE));
    }
}

fn coefficient(prng: &mut Prng, manner: Manner, tame: (i32, i32)) -> i32 {
    let ends = match manner {
        Manner::Tame => 0,
        Manner::TameWithEnds => 4,
        Manner::Wild => 20,
    };
    if prng.chance(ends) {
        return prng.pick(&[LARGEST_COEFFICIENT, -LARGEST_COEFFICIENT]);
    }
    match manner {
        Manner::Wild => prng.between(-LARGEST_COEFFICIENT, LARGEST_COEFFICIENT),
        _ => prng.between(tame.0, tame.1),
    }
}

/// A lower limit and an upper one not below it.
fn limits(prng: &mut Prng) -> (i32, i32) {
    match prng.below(10) {
        0 => {
            let only = prng.between(-1_000, 1_000);
            (only, only)
        }
        1 => (prng.between(-50_000, 0), prng.between(0, 50_000)),
        2 => (i32::MIN, prng.between(i32::MIN, 100_000)),
        3 => (prng.between(-100_000, i32::MAX), i32::MAX),
        _ => (i32::MIN, i32::MAX),
    }
}

/// A starting value that is not 0.
fn start(prng: &mut Prng) -> i32 {
    match prng.below(20) {
        0 => i32::MIN,
        1 => i32::MAX,
        _ => prng.between(1, 100_000) * prng.pick(&[1, -1]),
    }
}

#[cfg(test)]
fn first_answer(line: &[u8]) -> String {
    let mut output = Vec::new();
    second::script::rig(line, &mut output).unwrap();
    String::from_utf8(output).unwrap()
}

#[cfg(test)]
mod tests {
    use super::*;
    use crate::quorums;

    #[test]
    fn random_groups_are_taken_and_spoiled_ones_are_not() {
        let mut prng = Prng::new(1);
        for turn in 0..500 {
            let mut group = Group::random(&mut prng);
            quorums::name_in_turn(turn, &mut group);
            let line = group.first_line();
            assert!(first_answer(line.as_bytes()).starts_with("no "), "{line}");
            let spoiled = group.spoiled_first_line(&mut prng);
            let answer = first_answer(&spoiled);
            let refused = ["bad\n", "r1\n", "r2\n", "r3\n", "r4\n"];
            assert!(refused.contains(&answer.as_str()), "{spoiled:?} {answer}");
        }
    }
}
