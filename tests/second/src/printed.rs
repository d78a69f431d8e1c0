//! The program `page`: the shift pages of what `bench` or `rig` printed.
//!
//! Changes: "an entry for each line whose answer is `ok`, of its period k and
//! view v, with the command where there is one".

mod line;

use std::collections::BTreeMap;

use crate::page::{self, Entry, MOST_PERIODS, PAGE_AREA};
use line::{judge, Line};

/// Changes: "a line with a form feed alone between two pages".
const BETWEEN_PAGES: &[u8] = b"\x0C\n";

/// What is printed for a text, and how many of its lines are passed over.
pub fn pages(text: &[u8]) -> (Vec<u8>, usize) {
    let lines: Vec<Option<Line>> = lines(text).map(judge).collect();
    let p = width(&lines);
    let mut entries = Vec::new();
    let mut passed_over = 0;
    for line in lines {
        match line {
            Some(Line::Silent) => {}
            Some(Line::Done(done)) if done.fits(p) => entries.push(done.entry()),
            _ => passed_over += 1,
        }
    }
    (print(p, &entries), passed_over)
}

/// The lines without their line feeds. Changes: "a last line may lack its
/// line feed"; behind a last line feed there is no line.
fn lines(text: &[u8]) -> impl Iterator<Item = &[u8]> {
    let lines = text.split_inclusive(|&byte| byte == b'\n');
    lines.map(|line| line.strip_suffix(b"\n").unwrap_or(line))
}

/// Changes: "p is the number of values of the first command", of those that
/// an entry has. "With no command p is 1".
fn width(lines: &[Option<Line>]) -> usize {
    let mut widths = lines.iter().filter_map(|line| match line {
        Some(Line::Done(done)) => done.values.as_ref().map(Vec::len),
        _ => None,
    });
    widths.next().unwrap_or(1)
}

/// Changes: "More than 60 periods go on several pages, 60 lines each, the
/// lowest periods first".
fn print(p: usize, entries: &[Entry]) -> Vec<u8> {
    let mut by_period: BTreeMap<u32, Vec<Entry>> = BTreeMap::new();
    for entry in entries {
        by_period.entry(entry.period).or_default().push(*entry);
    }
    let rising: Vec<Vec<Entry>> = by_period.into_values().collect();
    let pages = rising.chunks(MOST_PERIODS);
    let pages: Vec<Vec<u8>> = pages.map(|page| written(p, &page.concat())).collect();
    pages.join(BETWEEN_PAGES)
}

/// One page, of entries of at most 60 periods.
fn written(p: usize, entries: &[Entry]) -> Vec<u8> {
    let mut area = [0; PAGE_AREA];
    let length = page::write(p, entries, &mut area).expect("p 1 to 4 and at most 60 periods");
    area[..length].to_vec()
}

#[cfg(test)]
mod tests {
    use super::*;
    use crate::script::{bench, rig, HEADER};

    const EXAMPLE: &[u8] = b"T 1 100\nT 2 102\nD 2 1\nD 1 3\nD 2 4\nT 2 -\n";

    const RIG: &str = "rig 3 2 2 2 \
                       65536 0 0 65536 32768 0 0 32768 65536 0 0 65536 65536 0 0 65536 \
                       -100 -100 100 100 4 -4\n";

    fn printed_by_bench(script: &[u8]) -> Vec<u8> {
        let mut text = Vec::new();
        bench(script, &mut text).unwrap();
        text
    }

    fn printed_by_rig(script: &str) -> Vec<u8> {
        let mut text = Vec::new();
        rig(script.as_bytes(), &mut text).unwrap();
        text
    }

    /// What is printed, where so many lines are passed over.
    fn pages_but(passed_over: usize, text: &str) -> String {
        let (pages, count) = pages(text.as_bytes());
        assert_eq!(count, passed_over, "{text:?}");
        String::from_utf8(pages).unwrap()
    }

    fn whole_pages(text: &str) -> String {
        pages_but(0, text)
    }

    /// A line whose answer is ok, with this command.
    fn ok_line(period: u32, view: u32, command: &str) -> String {
        format!("1 1 ok {period} {view} 0 0 0 - {command}\n")
    }

    #[test]
    fn the_example_has_a_page_of_two_lines() {
        let page = [
            "         1          0           50                                      \n",
            "         2          0            -                                      \n",
        ];
        let text = printed_by_bench(EXAMPLE);
        assert_eq!(pages(&text), (page.concat().into_bytes(), 0));
        // "a last line may lack its line feed"
        let unended = text.strip_suffix(b"\n").unwrap();
        assert_eq!(pages(unended), (page.concat().into_bytes(), 0));
    }

    #[test]
    fn a_rig_of_two_commands_has_pages_of_two() {
        let script = format!("{RIG}T 1 10 -\nT 2 - -\nD 2 1\nD 1 3\nT 1 300 1\nT 1 -\nG 3\n");
        let page = [
            "         1          0            7          -4                          \n",
            "         2          0            -                                      \n",
        ];
        let text = printed_by_rig(&script);
        assert_eq!(pages(&text), (page.concat().into_bytes(), 0));
    }

    #[test]
    fn without_entries_nothing_is_printed() {
        let texts = [
            "",
            "bad\n",
            "r1\n",
            "r12\n",
            "r16\n",
            "r17\n",
            "r18\n",
            "1 bad\n500 bad\n",
            "no who answer k v vb kb x frame command\n",
            "no who answer k v vb kb x frame command\n1 1 ignored 0 0 0 0 0 - -\n",
            "1 1 r1 0 0 0 0 0 - -\n1 1 r12 0 0 0 0 0 - -",
            "1 1 r16 0 0 0 0 0 - -\n1 1 r16 7 0 0 0 0 1 5",
            "1 1 r17 7 0 0 0 0 - -\n1 1 r17 7 0 0 0 0 1 5",
            // Asks, whatever their answer is, also with another number of
            // values.
            "1 1 ok 7 0 0 0 0 ? 5 1\n1 1 ok 7 0 0 0 0 - 1,2 18446744073709551615\n",
            "1 1 ignored 7 0 0 0 0 - - 0\n1 1 r9 7 0 0 0 0 ? 5* 3",
            // Nothing relates two fields of a line.
            "1 1 ignored 0 0 0 0 0 500 5\n1 1 r9 0 0 0 0 0 - 1,2,3*\n",
        ];
        for text in texts {
            assert_eq!(whole_pages(text), "");
        }
    }

    #[test]
    fn numbers_need_not_follow_and_the_header_may_lack_or_come_again() {
        let text = format!(
            "7 9 ok 3 4 5 6 1,2,3,4,5,6 7 8\n{HEADER}\n\
             7 1 ok 2 0 9 9 -2147483648 500 -\n2 bad\n\
             500 9 ok 4294967295 4294967295 4294967295 4294967295 0 1 -2147483648"
        );
        let page = [
            "         2          0            -                                      \n",
            "         3          4            8                                      \n",
            "4294967295 4294967295  -2147483648                                      \n",
        ];
        assert_eq!(whole_pages(&text), page.concat());
    }

    /// "a line that neither program prints is passed over and counted"
    #[test]
    fn lines_that_neither_program_prints_are_counted() {
        let lines = [
            "",
            " ",
            "Bad",
            "bad ",
            " bad",
            "bad\r",
            "1 bad ",
            "0 bad",
            "501 bad",
            "01 bad",
            "-1 bad",
            "+1 bad",
            "1  bad",
            "1 bad bad",
            "1",
            "1 1",
            "r",
            "r0",
            "r13",
            "r14",
            "r15",
            "r19",
            "r160",
            "r016",
            "r01",
            "r-1",
            "R1",
            "r1 ",
            "1 r1",
            "ok",
            "ignored",
            "-",
            "\u{c}",
            "no who answer k v vb kb x frame command ",
            "no who answer k v vb kb x frame",
            "No who answer k v vb kb x frame command",
            "no who answer k v vb kb x frame command\r",
            "\0",
            "         1          0           50                                      ",
        ];
        for line in lines {
            let text = format!("{}{line}\n{}", ok_line(1, 0, "-"), ok_line(2, 0, "5"));
            let without = [ok_line(1, 0, "-"), ok_line(2, 0, "5")].concat();
            assert_eq!(pages_but(1, &text), whole_pages(&without), "{line:?}");
        }
        assert_eq!(pages(b"\xFF\n\xFE 1"), (vec![], 2));
    }

    /// "`*` is read and not shown"
    #[test]
    fn a_star_is_not_shown() {
        for command in ["-7", "1,2", "1,2,3,4"] {
            let starred = ok_line(1, 2, &format!("{command}*"));
            let plain = ok_line(1, 2, command);
            assert_eq!(whole_pages(&starred), whole_pages(&plain));
        }
    }

    /// "p is the number of values of the first command"; "a command with
    /// another number of values than the first is passed over and counted"
    #[test]
    fn p_is_that_of_the_first_command() {
        let text = [
            // No entry's command.
            "1 1 ignored 8 0 0 0 0 - 1,2,3\n",
            &ok_line(1, 0, "-"),
            &ok_line(2, 0, "5,-6"),
            &ok_line(3, 0, "7"),
            &ok_line(2, 1, "8"),
            &ok_line(4, 0, "1,2,3"),
            &ok_line(4, 1, "9,10*"),
            &ok_line(5, 0, "1,2,3,4"),
            "1 1 r9 8 0 0 0 0 - 1,2,3\n",
        ];
        let page = [
            "         1          0            -                                      \n",
            "         2          0            5          -6                          \n",
            "         4          1            9          10                          \n",
        ];
        assert_eq!(pages_but(4, &text.concat()), page.concat());
    }

    #[test]
    fn each_number_of_commands_has_its_page() {
        let commands = ["1", "1,2", "1,2,3", "1,2,3,4"];
        let pages = [
            "         0          7            1                                      \n",
            "         0          7            1           2                          \n",
            "         0          7            1           2           3              \n",
            "         0          7            1           2           3           4  \n",
        ];
        for (command, page) in commands.iter().zip(pages) {
            assert_eq!(whole_pages(&ok_line(0, 7, command)), page);
        }
    }

    #[test]
    fn entries_stand_as_on_a_page() {
        let text = [
            ok_line(2, 0, "-"),
            ok_line(1, 0, "-"),
            ok_line(1, 3, "-"),
            ok_line(2, 1, "4"),
            ok_line(2, 2, "5"),
            ok_line(2, 3, "-"),
        ];
        let page = [
            "         1          0            -                                      \n",
            "         2          1            4                                      \n",
        ];
        assert_eq!(whole_pages(&text.concat()), page.concat());
    }

    #[test]
    fn lines_end_with_line_feeds() {
        let cases = [
            ("", 0),
            ("\n", 1),
            ("\n\n", 2),
            ("bad", 0),
            ("bad\n", 0),
            ("bad\n\n", 1),
            ("\nbad", 1),
            ("bad\r\n", 1),
            ("bad\rbad", 1),
        ];
        for (text, passed_over) in cases {
            assert_eq!(pages_but(passed_over, text), "");
        }
    }

    /// The periods that stand on each of the pages, which are read back.
    fn periods_on(printed: &[u8]) -> Vec<Vec<u32>> {
        let text = std::str::from_utf8(printed).unwrap();
        let pages = text.split("\u{c}\n");
        let read = |page: &str| page::read(1, page.as_bytes()).unwrap();
        pages
            .map(|page| read(page).iter().map(|entry| entry.period).collect())
            .collect()
    }

    /// "More than 60 periods go on several pages, 60 lines each, the lowest
    /// periods first, a line with a form feed alone between two pages."
    #[test]
    fn more_than_60_periods_go_on_several_pages() {
        for count in [1, 59, 60, 61, 119, 120, 121, 500] {
            // Falling, and each twice: the second time with a command.
            let without = (1..=count).rev().map(|period| ok_line(period, 0, "-"));
            let with = (1..=count).map(|period| ok_line(period, 1, "6"));
            let text: String = without.chain(with).collect();
            let (printed, passed_over) = pages(text.as_bytes());
            assert_eq!(passed_over, 0);
            let rising: Vec<u32> = (1..=count).collect();
            let expected: Vec<Vec<u32>> = rising.chunks(60).map(<[u32]>::to_vec).collect();
            assert_eq!(periods_on(&printed), expected);
            let between = 2 * (expected.len() - 1);
            assert_eq!(printed.len(), 73 * count as usize + between);
            assert!(printed.ends_with(b"\n"));
        }
    }

    /// Changes: "Ok `S`, `SA` and `R` lines are entries, also of period 0."
    #[test]
    fn lines_that_store_or_return_are_entries() {
        let script = format!("{RIG}S 1\nT 1 10 -\nS 1\nR 1 10001\nR 1 4\nR 2 0\nR 1 1\n");
        let page = [
            "         0          0            -                                      \n",
            "         1          0            -                                      \n",
            "         2          0            -                                      \n",
            "         5          0            -                                      \n",
        ];
        let text = printed_by_rig(&script);
        assert_eq!(pages(&text), (page.concat().into_bytes(), 0));
        // A command of such a period stands, as anywhere.
        let decided = format!("{script}T 2 1 1\nD 2 2\nR 1 0\nD 1 9\n");
        let text = printed_by_rig(&decided);
        let line = "         1          0            7          -4                          \n";
        let page = [page[0], line, page[2], page[3]];
        assert_eq!(pages(&text), (page.concat().into_bytes(), 0));
    }

    #[test]
    fn what_a_rig_with_power_cycles_prints_is_nowhere_passed_over() {
        let mut seed: u32 = 11;
        let mut next = |bound: u32| {
            seed = seed.wrapping_mul(1_664_525).wrapping_add(1_013_904_223);
            (seed >> 16) % bound
        };
        let mut refused = 0;
        for _ in 0..100 {
            let lines: Vec<String> = (1..=200)
                .map(|number| match next(8) {
                    0 | 1 => format!("T {} {} -\n", 1 + next(3), next(200)),
                    2 => format!("G {}\n", 1 + next(4)),
                    3 => format!("S {}\n", 1 + next(4)),
                    4 => format!(
                        "R {} {}\n",
                        1 + next(3),
                        [0, 1, 2, 10_001][next(4) as usize]
                    ),
                    _ => format!("D {} {}\n", 1 + next(3), next(number)),
                })
                .collect();
            let text = printed_by_rig(&format!("{RIG}{}", lines.concat()));
            refused += String::from_utf8(text.clone())
                .unwrap()
                .matches(" r16 ")
                .count();
            let (printed, passed_over) = pages(&text);
            assert_eq!(passed_over, 0);
            assert!(!printed.is_empty());
        }
        assert!(refused > 100, "{refused}");
    }

    #[test]
    fn what_both_programs_print_is_nowhere_passed_over() {
        let mut seed: u32 = 7;
        let mut next = |bound: u32| {
            seed = seed.wrapping_mul(1_664_525).wrapping_add(1_013_904_223);
            (seed >> 16) % bound
        };
        for _ in 0..300 {
            let lines: Vec<String> = (1..=200)
                .map(|number| match next(8) {
                    0 | 1 => format!("T {} {} -\n", 1 + next(3), next(200)),
                    2 => format!("T {} {}\n", 1 + next(3), next(200)),
                    3 => format!("G {}\n", 1 + next(4)),
                    _ => format!("D {} {}\n", 1 + next(3), next(number)),
                })
                .collect();
            let script = lines.concat();
            let of_bench = pages(&printed_by_bench(script.as_bytes()));
            let of_rig = pages(&printed_by_rig(&format!("{RIG}{script}")));
            assert_eq!((of_bench.1, of_rig.1), (0, 0));
            assert!(!of_bench.0.is_empty() && !of_rig.0.is_empty());
        }
    }
}
