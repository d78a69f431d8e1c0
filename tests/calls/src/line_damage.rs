//! Damages to one line of a shift page.

use std::ops::Range;

use crate::page_columns::{all_commands, behind_commands, command, numbers, put, word};
use crate::page_columns::{Line, HYPHEN, LINE_FEED, PERIOD, VIEW};
use crate::prng::Prng;
use crate::values::{other_byte, value};

/// Puts a command where there is none, so that there are numbers of every
/// sort.
fn decide(prng: &mut Prng, p: usize, line: &mut Line) {
    if !line[HYPHEN].is_ascii_digit() {
        for j in 0..p {
            put(line, command(j), value(prng).to_string().as_bytes());
        }
    }
}

fn undecide(line: &mut Line) {
    put(line, all_commands(), b"");
    line[HYPHEN] = b'-';
}

/// The columns of a number that does not fill them, on a line with a command:
/// no command fills its own.
fn with_room(prng: &mut Prng, p: usize, line: &mut Line) -> Range<usize> {
    decide(prng, p, line);
    let mut numbers = numbers(p);
    numbers.retain(|columns| line[columns.start] == b' ');
    numbers.swap_remove(prng.below(numbers.len()))
}

/// One of the columns that are such; there is at least one.
fn one_of(prng: &mut Prng, test: impl Fn(usize) -> bool) -> usize {
    let columns = (0..LINE_FEED).filter(|&column| test(column));
    prng.pick(&columns.collect::<Vec<_>>())
}

/// To another digit, which may be a zero ahead of others, out of range or out
/// of order.
pub fn digit(prng: &mut Prng, _: usize, line: &mut Line) {
    let at = one_of(prng, |column| line[column].is_ascii_digit());
    let by = prng.between(1, 9) as u8;
    line[at] = b'0' + (line[at] - b'0' + by) % 10;
}

/// Mostly one beside a word: then a digit or a minus may make it another.
pub fn space(prng: &mut Prng, _: usize, line: &mut Line) {
    let is_space = |column: usize| line[column] == b' ';
    let is_ahead = |column| is_space(column) && line[column + 1] > b' ';
    let is_behind = |column| is_space(column) && column > 0 && line[column - 1] > b' ';
    let at = match prng.below(4) {
        0 => one_of(prng, is_space),
        1 => one_of(prng, is_behind),
        _ => one_of(prng, is_ahead),
    };
    line[at] = match prng.below(6) {
        0 => b'0',
        1 | 2 => b'1' + prng.below(9) as u8,
        3 => b'-',
        4 => b'\t',
        _ => prng.pick(b"\r\n+.,_x\0"),
    };
}

/// To the left by some columns, or to the right by one.
pub fn move_number(prng: &mut Prng, p: usize, line: &mut Line) {
    let columns = with_room(prng, p, line);
    let room = columns.len() - word(line, &columns).len();
    match prng.chance(50) {
        true => line[columns].rotate_left(1 + prng.below(room)),
        false => line[columns.start..=columns.end].rotate_right(1),
    }
}

/// One or more, behind the sign.
pub fn zero(prng: &mut Prng, p: usize, line: &mut Line) {
    let columns = with_room(prng, p, line);
    let mut word = word(line, &columns);
    let digits = usize::from(word[0] == b'-');
    for _ in 0..1 + prng.below(columns.len() - word.len()) {
        word.insert(digits, b'0');
    }
    put(line, columns, &word);
}

/// In place of the minus, where there is one.
pub fn plus(prng: &mut Prng, p: usize, line: &mut Line) {
    let columns = with_room(prng, p, line);
    let word = word(line, &columns);
    let digits = word.strip_prefix(b"-").unwrap_or(&word);
    put(line, columns, &[b"+", digits].concat());
}

pub fn minus_zero(prng: &mut Prng, p: usize, line: &mut Line) {
    let columns = with_room(prng, p, line);
    let zero: &[u8] = prng.pick(&[b"-0", b"-0", b"-00", b"-07"]);
    put(line, columns, zero);
}

/// Ahead of it, or in place of its first digit where there is no room.
pub fn minus(prng: &mut Prng, _: usize, line: &mut Line) {
    let columns = prng.pick(&[PERIOD.start, VIEW.start]);
    let columns = columns..columns + PERIOD.len();
    let word = word(line, &columns);
    let kept = word.len().min(columns.len() - 1);
    let digits = &word[word.len() - kept..];
    put(line, columns, &[b"-", digits].concat());
}

pub fn hyphen(prng: &mut Prng, _: usize, line: &mut Line) {
    undecide(line);
    if prng.chance(60) {
        line[HYPHEN] = b' ';
    }
    let first = all_commands().start;
    let other = match prng.chance(50) {
        true => prng.pick(&[first, HYPHEN - 1, HYPHEN + 1, HYPHEN + 12]),
        false => one_of(prng, |column| column >= first && column != HYPHEN),
    };
    line[other] = b'-';
}

/// A number in the columns of another command, or a byte ahead of the hyphen
/// or behind it.
pub fn hyphen_and_more(prng: &mut Prng, _: usize, line: &mut Line) {
    undecide(line);
    let digit = b'0' + prng.below(10) as u8;
    match prng.below(4) {
        0 => line[HYPHEN - 1 - prng.below(11)] = digit,
        1 => line[HYPHEN + 1] = digit,
        _ => {
            let other = command(1 + prng.below(3));
            put(line, other, value(prng).to_string().as_bytes());
        }
    }
}

/// Where p is 1, that is the line of a period without a command.
pub fn hyphen_for_command(prng: &mut Prng, p: usize, line: &mut Line) {
    decide(prng, p, line);
    put(line, command(prng.below(p)), b"-");
}

pub fn lose_command(prng: &mut Prng, p: usize, line: &mut Line) {
    decide(prng, p, line);
    put(line, command(prng.below(p)), b"");
}

/// One more command where there is room for it, or any byte.
pub fn behind(prng: &mut Prng, p: usize, line: &mut Line) {
    if p < 4 && prng.chance(50) {
        put(line, command(p), value(prng).to_string().as_bytes());
        return;
    }
    let columns = behind_commands(p);
    let at = columns.start + prng.below(columns.len());
    line[at] = match prng.chance(50) {
        true => prng.pick(b"0123456789-"),
        false => other_byte(prng, b' '),
    };
}

/// Just out of range, or such that its lower bits alone are in range.
pub fn out_of_range(prng: &mut Prng, p: usize, line: &mut Line) {
    decide(prng, p, line);
    let (columns, number) = match prng.below(3) {
        0 => (PERIOD, counter_beyond(prng)),
        1 => (VIEW, counter_beyond(prng)),
        _ => (command(prng.below(p)), value_beyond(prng)),
    };
    put(line, columns, number.to_string().as_bytes());
}

fn counter_beyond(prng: &mut Prng) -> i64 {
    let most = 9_999_999_999;
    prng.pick(&[1 << 32, (1 << 32) + 1, 3 << 31, 1 << 33, most])
}

fn value_beyond(prng: &mut Prng) -> i64 {
    let (below, above) = (-(1 << 31) - 1, 1 << 31);
    let (least, most) = (-99_999_999_999, 999_999_999_999);
    prng.pick(&[below, above, below, above, 1 << 32, -(1 << 32), least, most])
}

pub fn line_feed(prng: &mut Prng, _: usize, line: &mut Line) {
    line[LINE_FEED] = match prng.chance(50) {
        true => prng.pick(b"\r \0\t0"),
        false => other_byte(prng, b'\n'),
    };
}
