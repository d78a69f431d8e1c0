//! How differences are told and counts are printed.

use std::fmt;

/// What both implementations gave, if it is the same; else the error shows
/// the call and both.
pub fn alike<T: fmt::Debug + PartialEq>(
    first: T,
    second: T,
    call: &dyn fmt::Debug,
) -> Result<T, String> {
    match first == second {
        true => Ok(first),
        false => Err(format!(
            "{call:?} differs\n  first:  {first:?}\n  second: {second:?}"
        )),
    }
}

/// By answer; no refusal's number is above 18.
pub type Answers = [usize; 19];

pub fn write_row(out: &mut fmt::Formatter<'_>, name: &str, count: usize) -> fmt::Result {
    writeln!(out, "{name:<38}{count:>9}")
}

/// The answers that occurred.
pub fn write_answers(out: &mut fmt::Formatter<'_>, what: &str, answers: &Answers) -> fmt::Result {
    let occurred = answers.iter().enumerate().filter(|(_, &count)| count > 0);
    for (number, &count) in occurred {
        write_row(out, &format!("{what} answered by {number}"), count)?;
    }
    Ok(())
}

/// The numbers of the answers that occurred.
#[cfg(test)]
pub fn met(answers: &Answers) -> Vec<usize> {
    let numbers = 0..answers.len();
    numbers.filter(|&number| answers[number] > 0).collect()
}
