//! Stars in the texts that `page` reads: behind commands, as programs print
//! them, and elsewhere, as none does.

use std::fmt;

use super::fields;
use crate::command::Command;
use crate::prng::Prng;

/// The command's place among the fields of a line.
const AT: usize = 9;

type Test = fn(&[u8]) -> bool;

/// Where no program prints a star.
const MISPLACED: [(&str, Test); 4] = [
    ("before the last value", |field| {
        field.contains(&b'*') && !field.ends_with(b"*")
    }),
    ("two stars", |field| field.ends_with(b"**")),
    ("a star alone", |field| field == b"*"),
    ("a star behind a hyphen", |field| field == b"-*"),
];

/// Changes the star of some commands, most of them to one that is misplaced.
pub fn misplace(lines: &mut [Vec<u8>], prng: &mut Prng) {
    for _ in 0..prng.below(6) {
        let at = line_with_command(lines, prng).unwrap_or(prng.below(lines.len()));
        let mut fields: Vec<Vec<u8>> = lines[at]
            .split(|&byte| byte == b' ')
            .map(<[u8]>::to_vec)
            .collect();
        if let Some(field) = fields.get_mut(AT) {
            change(field, prng);
            lines[at] = fields.join(&b' ');
        }
    }
}

/// One of the lines that have a command, mostly.
fn line_with_command(lines: &[Vec<u8>], prng: &mut Prng) -> Option<usize> {
    let has_command = |at: &usize| {
        let field = lines[*at].split(|&byte| byte == b' ').nth(AT);
        field.is_some_and(|field| field != b"-")
    };
    let with: Vec<usize> = (0..lines.len()).filter(has_command).collect();
    (!with.is_empty() && prng.chance(75)).then(|| prng.pick(&with))
}

/// Changes the star of a command, or of the hyphen where there is none.
fn change(field: &mut Vec<u8>, prng: &mut Prng) {
    let plain = field.strip_suffix(b"*").unwrap_or(field).to_vec();
    let values = plain.rsplitn(2, |&byte| byte == b',').count();
    *field = match prng.below(6) {
        0 if values == 2 => before_the_last_value(&plain, b"*,"),
        0 => [b"*", &plain[..]].concat(),
        1 if values == 2 => before_the_last_value(&plain, b",*"),
        1 | 2 => [&plain[..], b"**"].concat(),
        3 => b"*".to_vec(),
        4 => b"-*".to_vec(),
        // A right one, or none.
        _ if plain.len() == field.len() => [&plain[..], b"*"].concat(),
        _ => plain,
    };
}

/// With this in place of the last comma.
fn before_the_last_value(values: &[u8], star: &[u8]) -> Vec<u8> {
    let last = values.iter().rposition(|&byte| byte == b',');
    let (front, behind) = values.split_at(last.expect("two values or more"));
    [front, star, &behind[1..]].concat()
}

/// What stars occurred.
#[derive(Default)]
pub struct Stars {
    texts: usize,
    right: usize,
    misplaced: [usize; MISPLACED.len()],
}

impl Stars {
    /// Counts the stars of a text's commands, those of asks too.
    pub fn count(&mut self, text: &[u8]) {
        let before = self.right;
        for fields in fields(text) {
            if let (Some(field), 10 | 11) = (fields.get(AT), fields.len()) {
                self.right += usize::from(is_right(field));
                for (count, (_, test)) in self.misplaced.iter_mut().zip(MISPLACED) {
                    *count += usize::from(test(field));
                }
            }
        }
        self.texts += usize::from(self.right > before);
    }
}

fn is_right(field: &[u8]) -> bool {
    let field = std::str::from_utf8(field).ok();
    let command = field.and_then(Command::printed);
    command.is_some_and(|command| command.is_marked)
}

impl fmt::Display for Stars {
    fn fmt(&self, out: &mut fmt::Formatter<'_>) -> fmt::Result {
        let named = [
            ("texts with marked commands", self.texts),
            ("  such commands", self.right),
        ];
        for (name, count) in named {
            writeln!(out, "{name:<34}{count:>9}")?;
        }
        writeln!(
            out,
            "{:<34}{:>9}",
            "misplaced stars",
            self.misplaced.iter().sum::<usize>()
        )?;
        for ((name, _), count) in MISPLACED.iter().zip(self.misplaced) {
            writeln!(out, "  {name:<32}{count:>9}")?;
        }
        Ok(())
    }
}

#[cfg(test)]
mod tests {
    use super::*;
    use second::printed;

    /// A line with a misplaced star is passed over, one with a right star is
    /// not.
    #[test]
    fn stars_are_changed_and_counted() {
        let mut prng = Prng::new(31);
        let mut stars = Stars::default();
        for command in ["5", "5*", "1,-2", "1,-2*", "-"] {
            for _ in 0..200 {
                let mut field = command.as_bytes().to_vec();
                change(&mut field, &mut prng);
                let text = [b"1 1 ok 1 0 0 1 0 - ", &field[..]].concat();
                let before = stars.misplaced;
                stars.count(&text);
                let (_, passed_over) = printed::pages(&text);
                let is_misplaced = stars.misplaced != before;
                assert_eq!(passed_over == 1, is_misplaced, "{field:?}");
            }
        }
        assert!(stars.right > 50, "{stars}");
        assert!(stars.misplaced.iter().all(|&count| count > 50), "{stars}");
    }

    #[test]
    fn lines_without_a_command_are_left_or_starred() {
        let mut prng = Prng::new(32);
        for _ in 0..100 {
            let mut lines = [&b"1 bad"[..], b"1 1 ok 1 0 0 1 0 - -", b""].map(<[u8]>::to_vec);
            misplace(&mut lines, &mut prng);
            assert_eq!((&lines[0][..], &lines[2][..]), (&b"1 bad"[..], &b""[..]));
            assert!(lines[1].starts_with(b"1 1 ok 1 0 0 1 0 - "));
        }
    }
}
