//! Script lines that are answered by `bad`.

mod asks;

use crate::prng::Prng;

/// What a malformed line is made for.
pub struct Place<'a> {
    pub boxes: u8,
    pub readings: u8,
    /// Whether a well-formed single is no malformed word.
    pub takes_singles: bool,
    /// The malformed line's own number.
    pub line: usize,
    /// Earlier lines that sent no frame.
    pub unsent: &'a [usize],
    /// Numbers of boxes that have stored no record.
    pub without_record: &'a [usize],
    /// Numbers of boxes whose latest ask gave no record, or that were asked
    /// nothing.
    pub without_ask: &'a [usize],
}

/// One malformed line of so many resembles an ask, a commit or a store of what
/// was asked.
const ONE_OF_ASKS: usize = 4;

/// Words that resemble a single's and are no reading in any script.
const NO_SINGLES: [&str; 16] = [
    "f",
    "f3fc0000",
    "f3fc000000",
    "F3fc00000",
    "f3FC00000",
    "f3fc0000A",
    "f3fc0000g",
    "fg3fc0000",
    "-f3fc00000",
    "+f3fc00000",
    "f-3fc0000",
    "f+3fc00000",
    "ff3fc00000",
    "3fc00000",
    "f3fc0000-",
    "f1.5",
];

/// Well-formed singles, which only the rig takes.
const SINGLES: [&str; 5] = [
    "f3fc00000",
    "f00000000",
    "f80000001",
    "f7fc00000",
    "fffffffff",
];

/// A malformed line. Those of asks have a generator of their own, so that a
/// script without asks is the same but for them.
pub fn line(prng: &mut Prng, place: &Place) -> Vec<u8> {
    let other = other_line(prng, place);
    let own = &mut Prng::of_script(place.line as u64, other.len());
    match own.below(ONE_OF_ASKS) {
        0 => asks::line(own, place),
        _ => other,
    }
}

fn other_line(prng: &mut Prng, place: &Place) -> Vec<u8> {
    let number = prng.between(1, place.boxes.into()).to_string();
    let reading = match place.takes_singles {
        true => prng.pick(&["7", "f3fc00000"]),
        false => "7",
    };
    let readings = vec![reading; place.readings.into()];
    let tick = |number: &str| format!("T {number} {}", readings.join(" "));
    let good = [tick(&number), format!("G {number}")];
    let good = &good[prng.below(2)];
    let later = place.line + 1 + prng.below(60);
    let text = match prng.below(32) {
        0 => tick(&format!("0{number}")),
        1 => tick(&format!("+{number}")),
        2 => tick("0"),
        3 => tick(&(place.boxes + 1).to_string()),
        4 => with_last(&tick(&number), prng.pick(&["01", "00", "-00", "-01"])),
        5 => with_last(&tick(&number), "+1"),
        6 => with_last(&tick(&number), "-0"),
        7 => with_last(&tick(&number), prng.pick(&["2147483648", "-2147483649"])),
        8 => with_last(&tick(&number), prng.pick(&["", "--", "1.0", "1e2", "x"])),
        9 => good.replacen(' ', "  ", 1),
        10 => format!("{good}\r"),
        11 => format!("{good} "),
        12 => format!(" {good}"),
        13 => format!("{good} 1"),
        14 => good.replacen(' ', "\t", 1),
        15 => prng.pick(&["X", "t", "g", "d", "TT", "P"]).to_string() + &good[1..],
        16 => prng
            .pick(&["", " ", "T", "G", "D", "G ", "\0", "-"])
            .to_string(),
        17 => format!("D {number}"),
        18 => format!("D {number} 0"),
        19 => format!("D {number} {}", place.line),
        20 => format!("D {number} {later}"),
        21 => format!(
            "D {number} {}",
            prng.pick(&["-1", "-", "+1", "99999999999999999999", "f00000001"])
        ),
        22 => with_last(&tick(&number), no_single(prng, place.takes_singles)),
        23 => with_first(&tick(&number), no_single(prng, place.takes_singles)),
        24 if !place.unsent.is_empty() => format!("D {number} {}", prng.pick(place.unsent)),
        25..=27 => no_store(prng, place, &number),
        28..=30 => no_return(prng, place, &number),
        _ => return [good.as_bytes(), &[prng.pick(&[0x80, 0xB1, 0xFF])]].concat(),
    };
    text.into_bytes()
}

/// A line that resembles one by which a record is stored; on the bench it may
/// be such a one.
fn no_store(prng: &mut Prng, place: &Place, number: &str) -> String {
    let above = place.boxes + 1;
    match prng.below(8) {
        0 => format!("S {above}"),
        1 => format!("S 0{number}"),
        2 => format!("S {number} "),
        3 => format!("S {number} {number}"),
        4 => format!("s {number}"),
        5 if !place.takes_singles => format!("S {number}"),
        _ => prng
            .pick(&[
                "S", "S ", "S 0", "S -1", "S +1", "S -", "S  1", " S 1", "S 1\r",
            ])
            .to_string(),
    }
}

/// The same of a return, which also is malformed where no record is stored.
fn no_return(prng: &mut Prng, place: &Place, number: &str) -> String {
    let above = place.boxes + 1;
    match prng.below(8) {
        0 => format!("R {above} 0"),
        1 => format!("R {number}"),
        2 => format!("R {number} 0 0"),
        3 | 4 if !place.without_record.is_empty() => {
            let missed = prng.pick(&["0", "1", "10001", "4294967295"]);
            format!("R {} {missed}", prng.pick(place.without_record))
        }
        5 if !place.takes_singles => format!("R {number} {}", prng.pick(&["0", "1"])),
        _ => {
            let words = [
                "", "-", "-1", "-0", "+1", "01", "00", "x", "0x1", "1.0", "0 ", "0\r",
            ];
            let beyond = ["4294967296", "99999999999999999999", "f00000000"];
            format!("R {number} {}", prng.pick(&[&words[..], &beyond].concat()))
        }
    }
}

/// A word with something of a single that is malformed.
fn no_single(prng: &mut Prng, takes_singles: bool) -> &'static str {
    match !takes_singles && prng.chance(50) {
        true => prng.pick(&SINGLES),
        false => prng.pick(&NO_SINGLES),
    }
}

/// Another first reading.
fn with_first(line: &str, word: &str) -> String {
    let mut words: Vec<&str> = line.split(' ').collect();
    words[2] = word;
    words.join(" ")
}

fn with_last(line: &str, word: &str) -> String {
    let (front, _) = line.rsplit_once(' ').expect("a tick has readings");
    format!("{front} {word}")
}

#[cfg(test)]
mod tests {
    use super::*;

    fn played(takes_singles: bool, script: &[u8]) -> String {
        let first: &[u8] = b"rig 3 1 1 1 65536 32768 65536 65536 -9 9 0\n";
        let mut output = Vec::new();
        match takes_singles {
            true => second::script::rig(&[first, script].concat()[..], &mut output),
            false => second::script::bench(script, &mut output),
        }
        .unwrap();
        String::from_utf8(output).unwrap()
    }

    fn place(takes_singles: bool) -> Place<'static> {
        Place {
            boxes: 3,
            readings: 1,
            takes_singles,
            line: 2,
            unsent: &[1],
            without_record: &[1, 3],
            without_ask: &[1, 2, 3],
        }
    }

    #[test]
    fn each_is_answered_by_bad() {
        let mut prng = Prng::new(2);
        let makers = [other_line, asks::line];
        for (takes_singles, maker) in [(false, 0), (true, 0), (false, 1), (true, 1)] {
            for _ in 0..2_000 {
                let line = makers[maker](&mut prng, &place(takes_singles));
                let script = [b"T 2 5\n".to_vec(), line].concat();
                let output = played(takes_singles, &script);
                // An empty last line is none at all.
                let bad = output.ends_with("\n2 bad\n") || script.ends_with(b"5\n");
                assert!(bad, "{:?}", String::from_utf8_lossy(&script));
            }
        }
    }

    /// An ask sends nothing, and what it gave cannot be stored where it was
    /// ignored.
    #[test]
    fn what_an_ask_has_not_sent_or_given_is_bad() {
        let output = played(true, b"AT 1 5\nD 2 1\nAD 2 1\nSA 2\nAG 2\nSA 2\nSA 1\n");
        let bad = output.lines().filter(|row| row.ends_with(" bad"));
        assert_eq!(bad.count(), 4, "{output}");
        assert!(output.ends_with("\n7 1 ok 0 0 0 0 0 - -\n"), "{output}");
    }

    #[test]
    fn singles_are_malformed_on_the_bench_alone() {
        for word in SINGLES.iter().chain(&NO_SINGLES) {
            for takes_singles in [false, true] {
                let output = played(takes_singles, format!("T 2 {word}\n").as_bytes());
                let taken = takes_singles && SINGLES.contains(word);
                assert_eq!(output.contains(" ok "), taken, "{word}");
                assert_eq!(output.ends_with("\n1 bad\n"), !taken, "{word}");
            }
        }
    }
}
