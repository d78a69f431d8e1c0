//! One line that `bench` or `rig` printed, judged field by field. Changes:
//! "Each line is judged by itself, in form and ranges".

use crate::law::{Command, MAX_COMMANDS, MAX_STATES};
use crate::page::Entry;
use crate::refusal::Refusal;
use crate::replica::MOST_BOXES;
use crate::script::{number, number_in, ticket_number, words, BAD, HEADER, MOST_LINES};

/// A line that one of the programs prints.
#[derive(Debug, PartialEq, Eq)]
pub enum Line {
    /// No entry: the header, a `bad` or a refusal, any answer but `ok`, and an
    /// ask's line whatever its answer is.
    Silent,
    /// An answer that is `ok`.
    Done(Done),
}

/// What a page takes of a line.
#[derive(Debug, PartialEq, Eq)]
pub struct Done {
    period: u32,
    view: u32,
    /// 1 to 4 of them where there is a command.
    pub values: Option<Vec<i32>>,
}

impl Done {
    /// Changes: "a command with another number of values than the first is
    /// passed over and counted".
    pub fn fits(&self, p: usize) -> bool {
        self.values.as_ref().is_none_or(|values| values.len() == p)
    }

    pub fn entry(&self) -> Entry {
        let command = self.values.as_ref().map(|values| {
            let mut command = Command::default();
            command[..values.len()].copy_from_slice(values);
            command
        });
        Entry {
            period: self.period,
            view: self.view,
            command,
        }
    }
}

/// The line, field by field; none for "a line that neither program prints".
/// Nothing relates two fields of a line, nor two lines.
pub fn judge(line: &[u8]) -> Option<Line> {
    if line == HEADER.as_bytes() {
        return Some(Line::Silent);
    }
    let fields: Vec<&[u8]> = words(line).collect();
    match fields[..] {
        [word] if is_bad(word) || is_refusal(word) => Some(Line::Silent),
        [no, word] if is_line_number(no) && is_bad(word) => Some(Line::Silent),
        [ref ten @ .., ticket] if ten.len() == 10 => {
            ticket_number(ticket)?;
            answered(ten, is_asked_frame).map(|_| Line::Silent)
        }
        ref ten => answered(ten, is_frame),
    }
}

fn is_bad(word: &[u8]) -> bool {
    word == BAD.as_bytes()
}

/// Of the line printed, or of one that sent a frame.
fn is_line_number(word: &[u8]) -> bool {
    number_in(word, 1..=MOST_LINES).is_some()
}

fn is_box(word: &[u8]) -> bool {
    number_in(word, 1..=MOST_BOXES.into()).is_some()
}

/// "`r` and the number, as `r9`". The numbers are those of events and
/// settings, 18 among these, that of a return and that of a commit: no script
/// prints a page's refusals or a record's.
fn is_refusal(word: &[u8]) -> bool {
    let last = usize::from(Refusal::LastView.number());
    let missed = usize::from(Refusal::Missed.number());
    let quorums = usize::from(Refusal::Quorums.number());
    word.strip_prefix(b"r")
        .and_then(|number| number_in(number, 1..=quorums))
        .is_some_and(|number| number <= last || number >= missed)
}

/// "line number if a frame was sent .. `-` stands where there is no frame"
fn is_frame(word: &[u8]) -> bool {
    word == b"-" || is_line_number(word)
}

/// Changes: "for the frame `?` where one would be sent".
fn is_asked_frame(word: &[u8]) -> bool {
    word == b"-" || word == b"?"
}

/// "line, box, answer (`ok`, `ignored`, or `r` and the number, as `r9`)", and
/// what stands behind them.
fn answered(fields: &[&[u8]], is_frame: fn(&[u8]) -> bool) -> Option<Line> {
    let [no, who, answer, ref rest @ ..] = *fields else {
        return None;
    };
    if !is_line_number(no) || !is_box(who) {
        return None;
    }
    let done = done(rest, is_frame)?;
    match answer {
        b"ok" => Some(Line::Done(done)),
        b"ignored" => Some(Line::Silent),
        _ => is_refusal(answer).then_some(Line::Silent),
    }
}

/// "period, view, base view, base period, state, line number if a frame was
/// sent, command; `-` stands where there is no frame or command"
fn done(fields: &[&[u8]], is_frame: fn(&[u8]) -> bool) -> Option<Done> {
    let [k, v, vb, kb, x, frame, command] = *fields else {
        return None;
    };
    counter(vb)?;
    counter(kb)?;
    values(x, MAX_STATES)?;
    let done = Done {
        period: counter(k)?,
        view: counter(v)?,
        values: command_values(command)?,
    };
    is_frame(frame).then_some(done)
}

/// A number of 32 bits without a sign.
fn counter(word: &[u8]) -> Option<u32> {
    u32::try_from(number(word)?).ok()
}

/// The values of a command, or none of them where `-` stands; without either
/// there is no line. Changes: "`*` is read and not shown".
fn command_values(word: &[u8]) -> Option<Option<Vec<i32>>> {
    if word == b"-" {
        return Some(None);
    }
    let word = word.strip_suffix(b"*").unwrap_or(word);
    values(word, MAX_COMMANDS).map(Some)
}

/// At least one value and at most so many, with commas between them.
fn values(word: &[u8], most: usize) -> Option<Vec<i32>> {
    let words = word.split(|&byte| byte == b',');
    let values = words.map(|word| i32::try_from(number(word)?).ok());
    let values: Vec<i32> = values.collect::<Option<_>>()?;
    (values.len() <= most).then_some(values)
}

#[cfg(test)]
mod tests {
    use super::*;

    const TEN_FIELDS: &str = "1 1 ok 1 0 0 1 0 1 5";

    #[test]
    fn an_ok_line_is_taken_with_its_command() {
        let done = |values| {
            Line::Done(Done {
                period: 7,
                view: 4_294_967_295,
                values,
            })
        };
        let cases = [
            ("-", done(None)),
            ("-50", done(Some(vec![-50]))),
            ("-50*", done(Some(vec![-50]))),
            ("1,-2,3,-4*", done(Some(vec![1, -2, 3, -4]))),
        ];
        for (command, line) in cases {
            let text = format!("500 9 ok 7 4294967295 2 3 4,5 6 {command}");
            assert_eq!(judge(text.as_bytes()), Some(line));
        }
    }

    /// What each field of a line may hold, and what it may not.
    #[test]
    fn every_field_is_judged_by_itself() {
        let counters = ("0 1 99 4294967295", "- -1 +1 01 00 -0 4294967296 x 1,1 1*");
        let fields = [
            ("1 9 500", "0 501 01 +1 -1 -"),
            ("1 9", "0 10 01 -1 -"),
            (
                "ok ignored r1 r9 r10 r12 r16 r17 r18",
                "r r0 r13 r14 r15 r19 r118 r018 r01 R1 Ok oks bad - 1",
            ),
            counters,
            counters,
            counters,
            counters,
            (
                "0 -1 2147483647 -2147483648 1,2 0,-1,2,-3,4,-5",
                "- 2147483648 -2147483649 01 -0 +1 1, ,1 1,,2 1,- 1;2 1* 1,2,3,4,5,6,7",
            ),
            ("- 1 500", "-- ? 0 501 01 -1 1*"),
            (
                "- 0 -1 5* 1,2,3,4 1,2,3,4* 2147483647 -2147483648*",
                "-- * -* ** 5** *5 5, ,5 5*,6 5*,6* 5,* 2147483648 -2147483649 05 -0 -0* +5 \
                 1,2,3,4,5 1,2,3,4,5* ? 5\r",
            ),
        ];
        for (place, (good, bad)) in fields.into_iter().enumerate() {
            for word in good.split(' ') {
                assert!(with_field(place, word).is_some(), "{place} {word:?}");
            }
            for word in bad.split(' ').chain([""]) {
                assert_eq!(with_field(place, word), None, "{place} {word:?}");
            }
        }
    }

    /// The judgement of a line with one field replaced.
    fn with_field(place: usize, word: &str) -> Option<Line> {
        let mut fields: Vec<&str> = TEN_FIELDS.split(' ').collect();
        fields[place] = word;
        judge(fields.join(" ").as_bytes())
    }

    #[test]
    fn a_line_has_exactly_ten_fields() {
        let ten = TEN_FIELDS;
        assert!(judge(ten.as_bytes()).is_some());
        for (at, _) in ten.match_indices(' ') {
            assert_eq!(judge(&ten.as_bytes()[..at]), None);
            assert_eq!(judge(&ten.as_bytes()[at + 1..]), None);
            let doubled = format!("{} {}", &ten[..at], &ten[at..]);
            assert_eq!(judge(doubled.as_bytes()), None);
        }
        // An ask's line has eleven, but names no line as its frame.
        for behind in [" ", " 1", " *", " -", "\r", "\t"] {
            assert_eq!(judge(format!("{ten}{behind}").as_bytes()), None);
            assert_eq!(judge(format!("{behind}{ten}").as_bytes()), None);
        }
    }

    const ELEVEN_FIELDS: &str = "1 1 ok 1 0 0 1 0 ? 5 1";

    /// The judgement of an ask's line with one field replaced.
    fn asked_with_field(place: usize, word: &str) -> Option<Line> {
        let mut fields: Vec<&str> = ELEVEN_FIELDS.split(' ').collect();
        fields[place] = word;
        judge(fields.join(" ").as_bytes())
    }

    /// Changes: "nor is an ask's line (eleven fields, from L6 on)".
    #[test]
    fn an_asks_line_is_no_entry() {
        assert_eq!(judge(ELEVEN_FIELDS.as_bytes()), Some(Line::Silent));
        let largest = "18446744073709551615";
        let fields = [
            (
                2,
                "ok ignored r1 r12 r16 r17 r18",
                "r0 r13 r14 r15 r19 Ok bad -",
            ),
            (7, "0 -1 1,2", "- ? 01 1,"),
            (8, "- ?", "1 500 ?? -- 0 *"),
            (9, "- 5 5* 1,2,3,4", "? * 1,2,3,4,5"),
            (10, "0 1 9223372036854775808", "- ? -1 -0 +1 01 00 1* x"),
            (10, largest, "18446744073709551616 99999999999999999999"),
        ];
        for (place, good, bad) in fields {
            for word in good.split(' ') {
                let line = asked_with_field(place, word);
                assert_eq!(line, Some(Line::Silent), "{place} {word:?}");
            }
            for word in bad.split(' ').chain([""]) {
                assert_eq!(asked_with_field(place, word), None, "{place} {word:?}");
            }
        }
        for place in [0, 1, 3, 4, 5, 6] {
            for word in ["", "-", "?", "01", "4294967296"] {
                assert_eq!(asked_with_field(place, word), None, "{place} {word:?}");
            }
        }
        // A line of twelve fields is none.
        for behind in [" ", " 1", "\r"] {
            let longer = format!("{ELEVEN_FIELDS}{behind}");
            assert_eq!(judge(longer.as_bytes()), None);
        }
    }
}
