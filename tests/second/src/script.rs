//! Document 01, "The bench": scripts of events for a group of boxes, read
//! from lines and answered line by line. `rig` is the same for any group, and
//! takes readings as document 02's L1 has them, boxes that stop and return as
//! its L4 has them, asks and commits as its L6 has them, and the quorum numbers
//! of its L8. Both print the `*` of its L7.

mod played;
mod remembered;
mod station;

use std::io::{self, BufRead, Write};
use std::ops::RangeInclusive;
use std::str::FromStr;

use crate::fault::{planted, Fault};
use crate::law::{self, Settings, MAX_READINGS};
use crate::reading::{Reading, Row};
use crate::refusal::Refusal;
use crate::replica::{check_group, Quorums, Replica};
use station::{Event, Station, What};

/// "It reads at most 500 lines"
pub(crate) const MOST_LINES: usize = 500;

pub(crate) const HEADER: &str = "no who answer k v vb kb x frame command";

pub(crate) const BAD: &str = "bad";

const BENCH_BOXES: u8 = 3;

/// Document 02, L8: "on the bench 2 and 2".
const BENCH_QUORUMS: Quorums = Quorums {
    to_decide: 2,
    to_propose: 2,
};

/// "N = 3; n = m = p = 1; A, C, K hold 65536, L 32768; widest limits; start 0"
pub fn bench_settings() -> Settings {
    let mut settings = Settings {
        n: 1,
        m: 1,
        p: 1,
        ..Settings::default()
    };
    settings.a[0][0] = 65_536;
    settings.c[0][0] = 65_536;
    settings.k[0][0] = 65_536;
    settings.l[0][0] = 32_768;
    settings.lower[0] = i32::MIN;
    settings.upper[0] = i32::MAX;
    settings
}

/// The program `bench`.
pub fn bench(mut input: impl BufRead, mut output: impl Write) -> io::Result<()> {
    match Group::new(BENCH_BOXES, BENCH_QUORUMS, bench_settings()) {
        Ok(group) => group.run(&mut input, &mut output),
        Err(refusal) => writeln!(output, "{refusal}"),
    }
}

/// The program `rig`: the first line names the group, the rest is as the
/// bench's, but that a reading may be a single, that a box may store its record
/// and return from it, and that it may be asked an event and commit it.
pub fn rig(mut input: impl BufRead, mut output: impl Write) -> io::Result<()> {
    let first = next_line(&mut input)?.unwrap_or_default();
    match rig_group(&first) {
        Ok(group) => group.run(&mut input, &mut output),
        Err(Unfit::Bad) => writeln!(output, "{BAD}"),
        Err(Unfit::Refused(refusal)) => writeln!(output, "{refusal}"),
    }
}

/// Why a first line of the rig makes no group.
#[derive(Debug, PartialEq, Eq)]
enum Unfit {
    Bad,
    Refused(Refusal),
}

impl From<Refusal> for Unfit {
    fn from(refusal: Refusal) -> Unfit {
        Unfit::Refused(refusal)
    }
}

/// Changes: "1 and 2 come before anything after the sizes is looked at; then
/// `bad`, also for ` quorums` not of the form; then 3, 4, 18".
fn rig_group(line: &[u8]) -> Result<Group, Unfit> {
    let mut words = words(line);
    let (boxes, n, m, p) = rig_sizes(&mut words).ok_or(Unfit::Bad)?;
    check_group(boxes, 1)?;
    law::check_sizes(n, m, p)?;
    let settings = rig_settings(n, m, p, &mut words).ok_or(Unfit::Bad)?;
    let quorums = rig_quorums(boxes, &mut words).ok_or(Unfit::Bad)?;
    let group = Group::new(boxes, quorums, settings)?;
    Ok(Group {
        is_rig: true,
        ..group
    })
}

/// `rig N n m p`
fn rig_sizes<'a>(words: &mut impl Iterator<Item = &'a [u8]>) -> Option<(u8, u8, u8, u8)> {
    if words.next()? != b"rig" {
        return None;
    }
    let mut size = || small_number(words.next()?);
    Some((size()?, size()?, size()?, size()?))
}

/// A, L, C, K, the lower and the upper limits and the start.
fn rig_settings<'a>(
    n: u8,
    m: u8,
    p: u8,
    words: &mut impl Iterator<Item = &'a [u8]>,
) -> Option<Settings> {
    let mut settings = Settings {
        n,
        m,
        p,
        ..Settings::default()
    };
    let (n, m, p) = (usize::from(n), usize::from(m), usize::from(p));
    fill_table(&mut settings.a, n, n, words)?;
    fill_table(&mut settings.l, n, m, words)?;
    fill_table(&mut settings.c, m, n, words)?;
    fill_table(&mut settings.k, p, n, words)?;
    fill(&mut settings.lower[..p], words)?;
    fill(&mut settings.upper[..p], words)?;
    fill(&mut settings.start[..n], words)?;
    Some(settings)
}

/// Changes: "the first line may end with ` quorums a b` (each 0 to 255);
/// without it both are the majority".
fn rig_quorums<'a>(boxes: u8, words: &mut impl Iterator<Item = &'a [u8]>) -> Option<Quorums> {
    let majorities = Quorums::majorities(boxes);
    let Some(word) = words.next() else {
        return Some(majorities);
    };
    let mut quorum = || small_number(words.next()?);
    let quorums = Quorums {
        to_decide: quorum()?,
        to_propose: quorum()?,
    };
    let is_of_the_form = word == b"quorums" && words.next().is_none();
    let used = if planted(Fault::QuorumsPresumed) {
        majorities
    } else {
        quorums
    };
    is_of_the_form.then_some(used)
}

fn fill_table<'a, const WIDTH: usize>(
    table: &mut [[i32; WIDTH]],
    rows: usize,
    columns: usize,
    words: &mut impl Iterator<Item = &'a [u8]>,
) -> Option<()> {
    table[..rows]
        .iter_mut()
        .try_for_each(|row| fill(&mut row[..columns], words))
}

fn fill<'a>(places: &mut [i32], words: &mut impl Iterator<Item = &'a [u8]>) -> Option<()> {
    for place in places {
        *place = i32::try_from(number(words.next()?)?).ok()?;
    }
    Some(())
}

/// The words of a line, between "single spaces"; two spaces have an empty
/// word between them, which is no number.
pub(crate) fn words(line: &[u8]) -> impl Iterator<Item = &[u8]> {
    line.split(|&byte| byte == b' ')
}

pub(crate) fn number(word: &[u8]) -> Option<i64> {
    decimal(word)
}

/// A number from 0 to 255.
fn small_number(word: &[u8]) -> Option<u8> {
    u8::try_from(number(word)?).ok()
}

/// Changes: "decimal, 0 to 18446744073709551615".
pub(crate) fn ticket_number(word: &[u8]) -> Option<u64> {
    decimal(word)
}

/// "Decimal without needless zeros or a plus sign, zero without a minus"
fn decimal<Number: FromStr>(word: &[u8]) -> Option<Number> {
    let digits = word.strip_prefix(b"-").unwrap_or(word);
    let plain = digits.iter().all(u8::is_ascii_digit);
    let needless_zero_or_sign = digits.first() == Some(&b'0') && word.len() > 1;
    if !plain || needless_zero_or_sign {
        return None;
    }
    std::str::from_utf8(word).ok()?.parse().ok()
}

/// Changes: "`f` and eight digits of 0 to 9 and a to f: the bits of a single,
/// the highest digit first (`f3fc00000` is 1.5 N)".
fn single(word: &[u8]) -> Option<f32> {
    let digits = word.strip_prefix(b"f")?;
    if digits.len() != 8 {
        return None;
    }
    let mut bits = 0;
    for &digit in digits {
        bits = bits << 4 | u32::from(digit_value(digit)?);
    }
    Some(f32::from_bits(bits))
}

/// Changes: "digits of 0 to 9 and a to f", so no capitals.
fn digit_value(digit: u8) -> Option<u8> {
    match digit {
        b'0'..=b'9' => Some(digit - b'0'),
        b'a'..=b'f' => Some(digit - b'a' + 10),
        _ => None,
    }
}

pub(crate) fn number_in(word: &[u8], range: RangeInclusive<usize>) -> Option<usize> {
    let number = usize::try_from(number(word)?).ok()?;
    range.contains(&number).then_some(number)
}

/// The next line without its line feed; "a last line may lack its line feed".
fn next_line(input: &mut impl BufRead) -> io::Result<Option<Vec<u8>>> {
    let mut line = Vec::new();
    if input.read_until(b'\n', &mut line)? == 0 {
        return Ok(None);
    }
    if line.last() == Some(&b'\n') {
        line.pop();
    }
    Ok(Some(line))
}

/// What a line tells which box to do; boxes are counted from 0 here.
struct Order {
    place: usize,
    what: What,
}

/// The boxes, and the frame that each line up to now sent.
#[derive(Debug, PartialEq, Eq)]
struct Group {
    stations: Vec<Station>,
    sent: Vec<Option<Vec<u8>>>,
    /// Whether a reading may be a single, and a box may store its record and
    /// return, be asked and commit: on the rig, while the bench is as it was.
    is_rig: bool,
}

impl Group {
    /// "fresh replicas whose settings differ in the own number alone", with
    /// lines as the bench's.
    fn new(boxes: u8, quorums: Quorums, settings: Settings) -> Result<Group, Refusal> {
        check_group(boxes, 1)?;
        let making = |own| Replica::new(boxes, own, quorums, settings).map(Station::new);
        Ok(Group {
            stations: (1..=boxes).map(making).collect::<Result<_, _>>()?,
            sent: Vec::new(),
            is_rig: false,
        })
    }

    /// The header, then one line for each line read.
    fn run(mut self, input: &mut impl BufRead, output: &mut impl Write) -> io::Result<()> {
        writeln!(output, "{HEADER}")?;
        while self.sent.len() < MOST_LINES {
            let Some(line) = next_line(input)? else { break };
            writeln!(output, "{}", self.answer(&line))?;
        }
        Ok(())
    }

    /// Runs one line and gives what is printed for it; "other lines and
    /// unsent frames print the line number, a space and `bad`".
    fn answer(&mut self, line: &[u8]) -> String {
        let line_number = self.sent.len() + 1;
        let Some(order) = self.parse(line) else {
            self.sent.push(None);
            return format!("{line_number} {BAD}");
        };
        let played = self.stations[order.place].play(&order.what);
        self.sent.push(played.sent());
        played.row(line_number)
    }

    /// `T r y1 .. ym`, `G r` or `D r f`, and on the rig any of these behind an
    /// `A`, `C r t`, `S r`, `SA r` or `R r k`; none for any other line.
    fn parse(&self, line: &[u8]) -> Option<Order> {
        let mut words = words(line);
        let letter = words.next()?;
        let place = number_in(words.next()?, 1..=self.stations.len())? - 1;
        let what = match letter {
            b"T" | b"G" | b"D" => What::Step(self.parse_event(letter, &mut words)?),
            b"AT" | b"AG" | b"AD" if self.is_rig => {
                What::Ask(self.parse_event(&letter[1..], &mut words)?)
            }
            b"C" if self.is_rig => What::Commit(ticket_number(words.next()?)?),
            b"S" if self.is_rig => What::Store,
            b"SA" if self.is_rig => What::StoreAsked(self.stations[place].asked_record()?),
            b"R" if self.is_rig => self.parse_return(place, words.next()?)?,
            _ => return None,
        };
        words.next().is_none().then_some(Order { place, what })
    }

    /// What stands behind the box of an event with this letter.
    fn parse_event<'a>(
        &self,
        letter: &[u8],
        words: &mut impl Iterator<Item = &'a [u8]>,
    ) -> Option<Event> {
        match letter {
            b"T" => self.parse_row(words).map(Event::Tick),
            b"G" => Some(Event::GiveUp),
            _ => self.sent_frame(words.next()?).map(Event::Deliver),
        }
    }

    /// One word for each reading below m; a script has none beyond.
    fn parse_row<'a>(&self, words: &mut impl Iterator<Item = &'a [u8]>) -> Option<Row> {
        let m = self.stations.first()?.held.replica.settings.m;
        let mut row = [Reading::Missing; MAX_READINGS];
        for reading in &mut row[..m.into()] {
            *reading = self.parse_reading(words.next()?)?;
        }
        Some(row)
    }

    /// Changes: "a reading is a number, `-`, or `f` and eight digits"; the
    /// last of these in the rig alone.
    fn parse_reading(&self, word: &[u8]) -> Option<Reading> {
        match word {
            b"-" => Some(Reading::Missing),
            [b'f', ..] if self.is_rig => single(word).map(Reading::Newtons),
            _ => i32::try_from(number(word)?).ok().map(Reading::Count),
        }
    }

    /// Changes: "with k missed periods (k decimal, 0 to 4294967295); `bad`
    /// where it has stored none".
    fn parse_return(&self, place: usize, word: &[u8]) -> Option<What> {
        let missed = u32::try_from(number(word)?).ok()?;
        let record = self.stations[place].stored_record()?;
        Some(What::Return { record, missed })
    }

    /// The frame that an earlier line sent.
    fn sent_frame(&self, word: &[u8]) -> Option<Vec<u8>> {
        let line_number = number_in(word, 1..=self.sent.len())?;
        self.sent[line_number - 1].clone()
    }
}

#[cfg(test)]
mod tests {
    use super::*;

    const SMALL_RIG: &str = "rig 3 1 1 1 65536 32768 65536 65536 -9 9 7";

    /// Its state becomes the reading before; it stays where that was missing.
    const FOLLOWING_RIG: &str = "rig 3 1 1 1 65536 65536 65536 65536 -2147483648 2147483647 -3";

    /// Words that resemble a single's but are no reading anywhere.
    const MALFORMED_SINGLES: [&str; 20] = [
        "f",
        "f3fc0000",
        "f3fc000000",
        "F3fc00000",
        "f3FC00000",
        "f3fc0000g",
        "-f3fc00000",
        "f-3fc0000",
        "f-3fc00000",
        "f+3fc0000",
        "f3fc0000-",
        "f3fc0000`",
        "f3fc0000:",
        "f3fc0000/",
        "ff3fc00000",
        "0f3fc00000",
        "3fc00000",
        "f0x3fc000",
        "f3fc00000\r",
        "f３fc０",
    ];

    fn run_bench(input: &[u8]) -> String {
        let mut output = Vec::new();
        bench(input, &mut output).unwrap();
        String::from_utf8(output).unwrap()
    }

    fn run_rig(input: &[u8]) -> String {
        let mut output = Vec::new();
        rig(input, &mut output).unwrap();
        String::from_utf8(output).unwrap()
    }

    fn with_header(lines: &str) -> String {
        format!("{HEADER}\n{lines}")
    }

    #[test]
    fn bench_example() {
        let input = "T 1 100\nT 2 102\nD 2 1\nD 1 3\nD 2 4\nT 2 -";
        let expected = with_header(
            "1 1 ok 1 0 0 1 0 1 -\n\
             2 2 ok 1 0 0 0 0 - -\n\
             3 2 ok 1 0 0 1 0 3 -\n\
             4 1 ok 1 0 0 1 0 4 50\n\
             5 2 ok 1 0 0 1 0 - 50\n\
             6 2 ok 2 0 0 1 50 - -\n",
        );
        assert_eq!(run_bench(input.as_bytes()), expected);
        assert_eq!(run_bench(format!("{input}\n").as_bytes()), expected);
    }

    #[test]
    fn numbers_have_one_form() {
        let good = [("0", 0), ("7", 7), ("-7", -7), ("10", 10)];
        for (word, value) in good {
            assert_eq!(number(word.as_bytes()), Some(value));
        }
        let bad = [
            "", "-", "+1", "-0", "00", "01", "-01", "1 ", "--1", "1-", "1e2",
        ];
        for word in bad {
            assert_eq!(number(word.as_bytes()), None, "{word}");
        }
        assert_eq!(number(b"99999999999999999999"), None);
        assert_eq!(number("١".as_bytes()), None);
    }

    #[test]
    fn lines_of_other_forms_are_bad() {
        let lines = [
            "",
            " ",
            "T",
            "T 1",
            "T 1 ",
            "T 0 1",
            "T 4 1",
            "T 1 1 ",
            " T 1 1",
            "T  1 1",
            "T 1  1",
            "T 1 1 1",
            "t 1 1",
            "T 01 1",
            "T 1 01",
            "T 1 -0",
            "T 1 +1",
            "T 1 2147483648",
            "T 1 -2147483649",
            "T 1 1\r",
            "T 1 --",
            "G",
            "G 1 1",
            "G 1 ",
            "G 4",
            "G -1",
            "G 1\r",
            "D 1",
            "D 1 ",
            "D 1 0",
            "D 1 -1",
            "D 1 1 1",
            "D 1 -",
            "X 1 1",
            "T\t1\t1",
            "\0",
        ];
        for line in lines {
            let expected = with_header("1 bad\n");
            assert_eq!(
                run_bench(format!("{line}\n").as_bytes()),
                expected,
                "{line:?}"
            );
        }
        assert_eq!(run_bench(b"\xFF\xFE"), with_header("1 bad\n"));
        let widest = run_bench(b"T 2 2147483647\nT 3 -2147483648\n");
        let expected = with_header("1 2 ok 1 0 0 0 0 - -\n2 3 ok 1 0 0 0 0 - -\n");
        assert_eq!(widest, expected);
    }

    #[test]
    fn singles_are_bad_on_the_bench() {
        let good = ["f3fc00000", "f00000000", "fffffffff"];
        for word in good.iter().chain(&MALFORMED_SINGLES) {
            let output = run_bench(format!("T 1 {word}\n").as_bytes());
            assert_eq!(output, with_header("1 bad\n"), "{word}");
        }
    }

    #[test]
    fn singles_on_the_rig_are_eight_lower_case_digits() {
        for word in MALFORMED_SINGLES {
            let input = format!("{FOLLOWING_RIG}\nT 2 {word}\nT 2 1\n");
            let expected = "1 bad\n2 2 ok 1 0 0 0 -3 - -\n";
            assert_eq!(run_rig(input.as_bytes()), with_header(expected), "{word}");
        }
        // Where no reading stands a single is bad too.
        let lines = [
            "f3fc00000",
            "T f3fc00000 1",
            "T 2 f3fc00000 ",
            "T 2  f3fc00000",
            "T 2 f3fc00000 1",
            "T 2 f 3fc00000",
            "G f3fc00000",
            "D 2 f00000001",
        ];
        for line in lines {
            let output = run_rig(format!("{FOLLOWING_RIG}\n{line}\n").as_bytes());
            assert_eq!(output, with_header("1 bad\n"), "{line}");
        }
        let settings = "rig 3 1 1 1 1 1 1 1 1 1 f00000000\n";
        assert_eq!(run_rig(settings.as_bytes()), "bad\n");
    }

    #[test]
    fn singles_on_the_rig_are_their_bits() {
        let cases = [
            ("f3fc00000", 98_304),
            ("fbfc00000", -98_304),
            ("f00000000", 0),
            ("f80000000", 0),
            ("f00000001", 0),
            ("f80000001", -1),
            ("f46ffffff", 2_147_483_520),
            ("fc7000000", i32::MIN),
            ("fb7800000", -1),
            ("fb7c00000", -2),
            // All sixteen digits.
            ("f46cdef01", 1_727_496_320),
            ("f3ba98752", 339),
            // As missing.
            ("f47000000", -3),
            ("fc7000001", -3),
            ("f7f800000", -3),
            ("fff800000", -3),
            ("f7fc00000", -3),
            ("fffffffff", -3),
            ("-", -3),
            // As a count.
            ("98304", 98_304),
            ("-2", -2),
        ];
        for (word, state) in cases {
            let input = format!("{FOLLOWING_RIG}\nT 2 {word}\nT 2 -\n");
            let expected = format!("1 2 ok 1 0 0 0 -3 - -\n2 2 ok 2 0 0 0 {state} - -\n");
            assert_eq!(run_rig(input.as_bytes()), with_header(&expected), "{word}");
        }
    }

    #[test]
    fn the_rig_takes_rows_of_mixed_kinds() {
        let input = "rig 3 3 3 1 \
                     65536 0 0 0 65536 0 0 0 65536 \
                     65536 0 0 0 65536 0 0 0 65536 \
                     65536 0 0 0 65536 0 0 0 65536 \
                     65536 0 0 -2147483648 2147483647 7 8 9\n\
                     T 1 f3fc00000 -4 -\nT 2 - f7fc00000 5\nD 2 1\nD 1 3\n\
                     T 1 f7f800000 fbfc00000 12\nT 1 - - -\nT 1 f3fc00000 -\n";
        let expected = "1 1 ok 1 0 0 1 7,8,9 1 -\n\
                        2 2 ok 1 0 0 0 7,8,9 - -\n\
                        3 2 ok 1 0 0 1 7,8,9 3 -\n\
                        4 1 ok 1 0 0 1 7,8,9 4 98304\n\
                        5 1 ok 2 0 0 2 98304,-4,9 5 -\n\
                        6 1 ok 3 0 0 3 98304,-98304,12 6 -\n\
                        7 bad\n";
        assert_eq!(run_rig(input.as_bytes()), with_header(expected));
    }

    /// The bench's group on the rig, with these lines.
    fn run_bench_rig(lines: &str) -> String {
        let first = "rig 3 1 1 1 65536 32768 65536 65536 -2147483648 2147483647 0";
        run_rig(format!("{first}\n{lines}").as_bytes())
    }

    #[test]
    fn a_box_of_the_rig_comes_back_from_the_record_it_stored_last() {
        let lines = "R 2 0\nS 2\nT 2 100\nR 2 0\nT 2 100\nS 2\nT 2 7\nT 2 -\n\
                     R 2 1\nR 2 3\nR 2 0\nT 2 -\nR 2 10000\nR 1 0\nR 2 0\n";
        let expected = "1 bad\n\
                        2 2 ok 0 0 0 0 0 - -\n\
                        3 2 ok 1 0 0 0 0 - -\n\
                        4 2 ok 0 0 0 0 0 - -\n\
                        5 2 ok 1 0 0 0 0 - -\n\
                        6 2 ok 1 0 0 0 0 - -\n\
                        7 2 ok 2 0 0 0 50 - -\n\
                        8 2 ok 3 0 0 0 28 - -\n\
                        9 2 ok 2 0 0 0 50 - -\n\
                        10 2 ok 4 0 0 0 50 - -\n\
                        11 2 ok 1 0 0 0 0 - -\n\
                        12 2 ok 2 0 0 0 50 - -\n\
                        13 2 ok 10001 0 0 0 50 - -\n\
                        14 bad\n\
                        15 2 ok 1 0 0 0 0 - -\n";
        assert_eq!(run_bench_rig(lines), with_header(expected));
    }

    /// Changes: "`r16` where returning refuses, and then the box stays as it
    /// was".
    #[test]
    fn a_refused_return_leaves_the_box_as_it_was() {
        let lines = "T 1 100\nS 1\nT 1 102\nR 1 10001\nR 1 4294967295\nT 1 -\n\
                     R 1 10000\nR 1 10001\nR 1 1\n";
        let expected = "1 1 ok 1 0 0 1 0 1 -\n\
                        2 1 ok 1 0 0 1 0 - -\n\
                        3 1 ok 2 0 0 2 50 3 -\n\
                        4 1 r16 2 0 0 2 50 - -\n\
                        5 1 r16 2 0 0 2 50 - -\n\
                        6 1 ok 3 0 0 3 76 6 -\n\
                        7 1 ok 10001 0 0 10001 50 - -\n\
                        8 1 r16 10001 0 0 10001 50 - -\n\
                        9 1 ok 2 0 0 2 50 - -\n";
        assert_eq!(run_bench_rig(lines), with_header(expected));
    }

    /// A coordinator proposes in a missed period, but its frame is lost; what
    /// left before the stop can still be delivered.
    #[test]
    fn lines_that_store_or_return_send_no_frame() {
        let lines = "T 1 100\nS 1\nT 2 102\nD 2 1\nR 1 1\nD 2 2\nD 2 5\n\
                     R 1 0\nD 1 4\nR 1 0\nD 1 4\n";
        let expected = "1 1 ok 1 0 0 1 0 1 -\n\
                        2 1 ok 1 0 0 1 0 - -\n\
                        3 2 ok 1 0 0 0 0 - -\n\
                        4 2 ok 1 0 0 1 0 4 -\n\
                        5 1 ok 2 0 0 2 50 - -\n\
                        6 bad\n7 bad\n\
                        8 1 ok 1 0 0 1 0 - -\n\
                        9 1 ok 1 0 0 1 0 9 50\n\
                        10 1 ok 1 0 0 1 0 - -\n\
                        11 1 ok 1 0 0 1 0 11 50\n";
        assert_eq!(run_bench_rig(lines), with_header(expected));
    }

    /// Box 2 returns into its view change, its own estimate heard and weighed;
    /// with a missed period it has left that view.
    #[test]
    fn a_view_change_is_stored_with_what_was_heard() {
        let lines = "T 2 20\nG 2\nS 2\nT 3 30\nG 3\nT 2 5\nR 2 0\nD 2 5\nR 2 1\nD 2 5\n";
        let expected = "1 2 ok 1 0 0 0 0 - -\n\
                        2 2 ok 1 1 0 0 0 - -\n\
                        3 2 ok 1 1 0 0 0 - -\n\
                        4 3 ok 1 0 0 0 0 - -\n\
                        5 3 ok 1 1 0 0 0 5 -\n\
                        6 2 ok 2 2 0 0 10 6 -\n\
                        7 2 ok 1 1 0 0 0 - -\n\
                        8 2 ok 1 1 1 1 0 8 -\n\
                        9 2 ok 2 2 0 0 10 - -\n\
                        10 2 ignored 2 2 0 0 10 - -\n";
        assert_eq!(run_bench_rig(lines), with_header(expected));
    }

    #[test]
    fn lines_that_store_or_return_have_one_form() {
        let bad = [
            "S",
            "S ",
            "S 0",
            "S 4",
            "S -1",
            "S 01",
            "S 1 ",
            "S 1 1",
            "S  1",
            " S 1",
            "s 1",
            "S 1\r",
            "SA 1",
            "R",
            "R 1",
            "R 1 ",
            "R 0 0",
            "R 4 0",
            "R 01 0",
            "R 1 -",
            "R 1 -1",
            "R 1 -0",
            "R 1 +1",
            "R 1 01",
            "R 1 00",
            "R 1 4294967296",
            "R 1 99999999999999999999",
            "R 1 1 1",
            "R 1 1 ",
            "R 1  1",
            "R  1 1",
            "R 1 f00000000",
            "R 1 0x1",
            "R 1 1\r",
            "r 1 1",
            "R 2 0",
            "R 3 10001",
        ];
        for line in bad {
            let output = run_bench_rig(&format!("S 1\n{line}\nR 1 0\n"));
            let expected = "1 1 ok 0 0 0 0 0 - -\n2 bad\n3 1 ok 0 0 0 0 0 - -\n";
            assert_eq!(output, with_header(expected), "{line:?}");
        }
    }

    /// Changes: "`bench` changes only where document 02 names it".
    #[test]
    fn the_bench_stores_nothing_and_returns_nothing() {
        let output = run_bench(b"S 1\nT 2 1\nS 2\nR 2 0\nR 1 0\n");
        let expected = "1 bad\n2 2 ok 1 0 0 0 0 - -\n3 bad\n4 bad\n5 bad\n";
        assert_eq!(output, with_header(expected));
    }

    #[test]
    fn unsent_frames_are_bad() {
        // Itself, a later line, a line without a frame, a bad line.
        let output = run_bench(b"D 1 1\nD 1 3\nT 2 1\nD 1 3\nD 1 2\n");
        let expected = "1 bad\n2 bad\n3 2 ok 1 0 0 0 0 - -\n4 bad\n5 bad\n";
        assert_eq!(output, with_header(expected));
    }

    #[test]
    fn refused_and_ignored_lines_show_the_replica() {
        let output = run_bench(b"T 1 8\nD 1 1\nG 1\nG 2\nT 3 4\nG 3\nD 1 6\nD 2 6\n");
        let expected = "1 1 ok 1 0 0 1 0 1 -\n\
                        2 1 r9 1 0 0 1 0 - -\n\
                        3 1 ignored 1 0 0 1 0 - -\n\
                        4 2 ignored 0 0 0 0 0 - -\n\
                        5 3 ok 1 0 0 0 0 - -\n\
                        6 3 ok 1 1 0 0 0 6 -\n\
                        7 1 r10 1 0 0 1 0 - -\n\
                        8 2 ignored 0 0 0 0 0 - -\n";
        assert_eq!(output, with_header(expected));
    }

    #[test]
    fn empty_input_prints_the_header_alone() {
        assert_eq!(run_bench(b""), with_header(""));
        assert_eq!(run_rig(b""), "bad\n");
        assert_eq!(run_rig(SMALL_RIG.as_bytes()), with_header(""));
    }

    #[test]
    fn what_stands_after_line_500_is_not_read() {
        let input = "\n".repeat(501);
        assert_eq!(run_bench(input.as_bytes()).lines().count(), 501);
        let input = format!("{SMALL_RIG}\n{input}");
        let output = run_rig(input.as_bytes());
        assert_eq!(output.lines().count(), 501);
        assert!(output.ends_with("\n500 bad\n"));
    }

    #[test]
    fn first_lines_of_the_rig() {
        let cases = [
            ("", "bad"),
            ("rig", "bad"),
            ("rig ", "bad"),
            ("Rig 2 1 1 1", "bad"),
            ("rig 2 1 1", "bad"),
            ("rig 2 1 1 256", "bad"),
            ("rig 2 1 1 -1", "bad"),
            ("rig 2 1 1 01", "bad"),
            ("rig 2 1 1 1x", "bad"),
            ("rig  2 1 1 1", "bad"),
            (" rig 2 1 1 1", "bad"),
            ("rig 2 1 1 1", "r1"),
            ("rig 2 1 1 1 ", "r1"),
            ("rig 2 1 1 1 x", "r1"),
            ("rig 10 0 1 1", "r1"),
            ("rig 0 0 0 0", "r1"),
            ("rig 255 255 255 255", "r1"),
            ("rig 3 0 1 1", "r2"),
            ("rig 3 7 1 1 x", "r2"),
            ("rig 3 1 5 1", "r2"),
            ("rig 3 1 1 0", "r2"),
            ("rig 3 1 1 1", "bad"),
            ("rig 3 1 1 1 1 1 1 1 1 1", "bad"),
            ("rig 3 1 1 1 1 1 1 1 1 1 ", "bad"),
            ("rig 3 1 1 1 1 1 1 1 1 1 1 1", "bad"),
            ("rig 3 1 1 1 1 1 1 1 1 1 1 ", "bad"),
            ("rig 3 1 1 1 1 1 1 1 1 1 1\r", "bad"),
            ("rig 3 1 1 1 1 1 1 1 1 1 2147483648", "bad"),
            ("rig 3 1 1 1 1 1 1 1 1 1 2147483647", HEADER),
            ("rig 3 1 1 1 16777217 1 1 1 2 1 1", "r3"),
            ("rig 3 1 1 1 16777217 1 1 1 2 1 x", "bad"),
            ("rig 3 1 1 1 16777216 1 1 1 2 1 1", "r4"),
            ("rig 9 1 1 1 16777216 1 1 -16777216 1 1 1", HEADER),
        ];
        for (line, expected) in cases {
            let output = run_rig(format!("{line}\n").as_bytes());
            assert_eq!(output, format!("{expected}\n"), "{line}");
        }
    }

    /// Changes: "1 and 2 come before anything after the sizes is looked at; then
    /// `bad`, also for ` quorums` not of the form; then 3, 4, 18".
    #[test]
    fn first_lines_of_the_rig_with_quorums() {
        let cases = [
            ("rig 2 1 1 1 quorums 2", "r1"),
            ("rig 10 1 1 1 1 1 1 1 1 1 1 quorums 0 0", "r1"),
            ("rig 3 0 1 1 quorums", "r2"),
            ("rig 3 1 1 5 1 1 1 1 1 1 1 quorums 0 0", "r2"),
            ("rig 3 1 1 1 quorums 2 2", "bad"),
            ("rig 3 1 1 1 1 1 1 1 1 1 quorums 2 2", "bad"),
            ("rig 3 1 1 1 1 1 1 1 1 1 1 1 quorums 2 2", "bad"),
            ("rig 3 1 1 1 16777217 1 1 1 2 1 1 quorums 0", "bad"),
            ("rig 3 1 1 1 16777217 1 1 1 2 1 1 quorums 0 256", "bad"),
            ("rig 3 1 1 1 16777217 1 1 1 2 1 1 quorums 0 0", "r3"),
            ("rig 3 1 1 1 16777217 1 1 1 1 1 1 quorums 0 0", "r3"),
            ("rig 3 1 1 1 16777216 1 1 1 2 1 1 quorums 0 0", "r4"),
            ("rig 3 1 1 1 16777216 1 1 1 2 1 1 quorums 2 2", "r4"),
            ("rig 3 1 1 1 16777216 1 1 1 1 1 1 quorums 0 0", "r18"),
            ("rig 3 1 1 1 16777216 1 1 1 1 1 1 quorums 255 255", "r18"),
            ("rig 4 1 1 1 1 1 1 1 1 1 1 quorums 2 2", "r18"),
            ("rig 4 1 1 1 1 1 1 1 1 1 1 quorums 2 3", HEADER),
            ("rig 9 1 1 1 1 1 1 1 1 1 1 quorums 9 9", HEADER),
        ];
        for (line, expected) in cases {
            let output = run_rig(format!("{line}\n").as_bytes());
            assert_eq!(output, format!("{expected}\n"), "{line}");
        }
        // "may end with ` quorums a b`", each 0 to 255.
        let behind = [
            (" quorums 2 2", HEADER),
            (" quorums 3 2", HEADER),
            (" quorums 4 2", "r18"),
            (" quorums 3 0", "r18"),
            (" quorums 0 255", "r18"),
            (" quorums", "bad"),
            (" quorums ", "bad"),
            (" quorums 2", "bad"),
            (" quorums 2 ", "bad"),
            (" quorums 2 2 ", "bad"),
            (" quorums 2 2 2", "bad"),
            (" quorums 2 2 quorums 2 2", "bad"),
            ("  quorums 2 2", "bad"),
            (" quorums  2 2", "bad"),
            (" quorums 2  2", "bad"),
            ("quorums 2 2", "bad"),
            (" Quorums 2 2", "bad"),
            (" quorum 2 2", "bad"),
            (" quorumss 2 2", "bad"),
            (" 2 2", "bad"),
            (" quorums 02 2", "bad"),
            (" quorums 2 02", "bad"),
            (" quorums +2 2", "bad"),
            (" quorums -2 2", "bad"),
            (" quorums 2 -0", "bad"),
            (" quorums 2 256", "bad"),
            (" quorums 258 2", "bad"),
            (" quorums 2 99999999999999999999", "bad"),
            (" quorums 2 -", "bad"),
            (" quorums 2,2", "bad"),
            (" quorums 2 2\r", "bad"),
            (" quorums\t2 2", "bad"),
        ];
        for (end, expected) in behind {
            let output = run_rig(format!("{SMALL_RIG}{end}\n").as_bytes());
            assert_eq!(output, format!("{expected}\n"), "{end:?}");
        }
    }

    /// "They are equal in all boxes of a group".
    #[test]
    fn all_boxes_of_the_rig_have_its_quorums() {
        let quorums_of = |line: String| {
            let group = rig_group(line.as_bytes()).unwrap();
            let boxes = group.stations.into_iter();
            let mut quorums: Vec<Quorums> =
                boxes.map(|station| station.held.replica.quorums).collect();
            assert_eq!(quorums.len(), 8);
            quorums.dedup();
            quorums
        };
        let line = "rig 8 1 1 1 65536 32768 65536 65536 -9 9 7";
        let quorums = Quorums {
            to_decide: 2,
            to_propose: 7,
        };
        assert_eq!(quorums_of(format!("{line} quorums 2 7")), [quorums]);
        assert_eq!(quorums_of(line.to_string()), [Quorums::majorities(8)]);
        assert_eq!(Quorums::majorities(8).to_decide, 5);
    }

    #[test]
    fn tables_of_the_rig_are_read_row_by_row() {
        let line = b"rig 4 2 1 3 1 2 3 4 5 6 7 8 9 10 11 12 13 14 15 16 17 18 19 20 21 22";
        let group = rig_group(line).unwrap();
        let settings = group.stations[3].held.replica.settings;
        assert_eq!((settings.n, settings.m, settings.p), (2, 1, 3));
        assert_eq!(settings.a[0][..2], [1, 2]);
        assert_eq!(settings.a[1][..2], [3, 4]);
        assert_eq!((settings.l[0][0], settings.l[1][0]), (5, 6));
        assert_eq!(settings.c[0][..2], [7, 8]);
        assert_eq!(settings.k[2][..2], [13, 14]);
        assert_eq!(settings.lower[..3], [15, 16, 17]);
        assert_eq!(settings.upper[..3], [18, 19, 20]);
        assert_eq!(settings.start[..2], [21, 22]);
    }

    #[test]
    fn the_rig_prints_states_and_commands_with_commas() {
        let input = "rig 3 2 2 2 \
                     65536 0 0 65536 32768 0 0 32768 65536 0 0 65536 65536 0 0 65536 \
                     -100 -100 100 100 4 -4\n\
                     T 1 10 -\nT 2 - -\nD 2 1\nD 1 3\nT 1 300 1\nT 1 -\n";
        let expected = "1 1 ok 1 0 0 1 4,-4 1 -\n\
                        2 2 ok 1 0 0 0 4,-4 - -\n\
                        3 2 ok 1 0 0 1 4,-4 3 -\n\
                        4 1 ok 1 0 0 1 4,-4 4 7,-4\n\
                        5 1 ok 2 0 0 2 7,-4 5 -\n\
                        6 bad\n";
        assert_eq!(run_rig(input.as_bytes()), with_header(expected));
    }
}
