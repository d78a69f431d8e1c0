//! A command as demand 3 compares it: its values and its mark. Document 02, L7:
//! "Byte 2 of the command is 1 if that occurred in the update or the command it
//! comes from, otherwise 0. The bench prints `*` directly behind such a
//! command."

use std::fmt;

use second::frame::{command_limited, command_values};

use crate::words::values;

#[derive(Clone, PartialEq, Eq)]
pub struct Command {
    pub values: Vec<i32>,
    pub is_marked: bool,
}

impl Command {
    /// As a program prints it: the star stands once, behind the last value.
    pub fn printed(field: &str) -> Option<Command> {
        let plain = field.strip_suffix('*');
        Some(Command {
            values: values(plain.unwrap_or(field))?,
            is_marked: plain.is_some(),
        })
    }

    /// As a replica writes it; none where byte 2 is no mark.
    pub fn written(bytes: &[u8]) -> Option<Command> {
        Some(Command {
            values: command_values(bytes),
            is_marked: command_limited(bytes)?,
        })
    }
}

/// As it is told: with its star, if it has one.
impl fmt::Debug for Command {
    fn fmt(&self, out: &mut fmt::Formatter<'_>) -> fmt::Result {
        let star = if self.is_marked { "*" } else { "" };
        write!(out, "{:?}{star}", self.values)
    }
}

#[cfg(test)]
mod tests {
    use super::*;

    #[test]
    fn one_star_behind_the_last_value_is_read() {
        let told = |field| Command::printed(field).map(|command| format!("{command:?}"));
        for (field, shown) in [
            ("5", "[5]"),
            ("-5*", "[-5]*"),
            ("1,-2", "[1, -2]"),
            ("1,-2*", "[1, -2]*"),
        ] {
            assert_eq!(told(field), Some(shown.to_string()));
        }
        for field in ["", "*", "-*", "5**", "*5", "1*,2", "1,*2", "1,*", "1* "] {
            assert_eq!(told(field), None, "{field:?}");
        }
    }

    #[test]
    fn byte_2_is_the_mark() {
        let mut bytes = [5, 1, 0, 0, 9, 0, 0, 0, 50, 0, 0, 0];
        let told = |bytes: &[u8]| Command::written(bytes).map(|command| format!("{command:?}"));
        assert_eq!(told(&bytes), Some("[50]".to_string()));
        bytes[2] = 1;
        assert_eq!(told(&bytes), Some("[50]*".to_string()));
        bytes[2] = 2;
        assert_eq!(told(&bytes), None);
    }
}
