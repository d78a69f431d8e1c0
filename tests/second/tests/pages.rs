//! Document 02, L3, by the public calls alone: pages written and read back,
//! and the faults of both.

mod planted;

use std::collections::BTreeSet;

use planted::Case;
use second::fault;
use second::law::Command;
use second::page::{self, Entry, MOST_PERIODS, PAGE_AREA};
use second::refusal::Refusal;

const FILL: u8 = 0xAA;

/// "lines of exactly 72 bytes plus a line feed"
const LINE: usize = 73;

fn with(period: u32, view: u32, command: Command) -> Entry {
    Entry {
        period,
        view,
        command: Some(command),
    }
}

fn without(period: u32, view: u32) -> Entry {
    Entry {
        period,
        view,
        command: None,
    }
}

/// The page, after which the area keeps what it held.
fn written(p: usize, entries: &[Entry]) -> Vec<u8> {
    let mut area = vec![FILL; PAGE_AREA + 99];
    let length = page::write(p, entries, &mut area).unwrap();
    assert!(area[length..].iter().all(|&byte| byte == FILL));
    area.truncate(length);
    area
}

/// What writing into an area of this length comes to. Refused, "the whole area
/// keeps what it held".
fn write_into(p: usize, entries: &[Entry], length: usize) -> Result<usize, Refusal> {
    let mut area = vec![FILL; length];
    let answer = page::write(p, entries, &mut area);
    if answer.is_err() {
        assert!(area.iter().all(|&byte| byte == FILL));
    }
    answer
}

fn assert_page(p: usize, entries: &[Entry], lines: &[&str]) {
    let page = String::from_utf8(written(p, entries)).unwrap();
    assert_eq!(page, lines.concat());
}

/// So many periods from 1 on, none with a command.
fn periods(count: u32) -> Vec<Entry> {
    (1..=count).map(|period| without(period, 0)).collect()
}

/// A line as it is read, made up of what stands ahead of its spaces.
fn line(start: &str) -> String {
    format!("{start:72}\n")
}

fn read_lines(p: usize, starts: &[&str]) -> Result<Vec<Entry>, Refusal> {
    let lines: Vec<String> = starts.iter().map(|start| line(start)).collect();
    page::read(p, lines.concat().as_bytes())
}

// The sentences of document 02, one by one.

/// "period right-aligned in 10 columns, a space, view in 10, a space, then the
/// commands in 12 columns each, right-aligned, and spaces to the end"
#[test]
fn numbers_stand_in_their_columns() {
    let entries = [
        with(0, 0, [0; 4]),
        with(17, 3, [50, -51, 1234, -5]),
        with(u32::MAX, u32::MAX, [i32::MIN, i32::MAX, 0, -1]),
    ];
    let lines = [
        "         0          0            0           0           0           0  \n",
        "        17          3           50         -51        1234          -5  \n",
        "4294967295 4294967295  -2147483648  2147483647           0          -1  \n",
    ];
    assert_page(4, &entries, &lines);
    let lines = [
        "         0          0            0           0           0              \n",
        "        17          3           50         -51        1234              \n",
        "4294967295 4294967295  -2147483648  2147483647           0              \n",
    ];
    assert_page(3, &entries, &lines);
    let lines = [
        "         0          0            0           0                          \n",
        "        17          3           50         -51                          \n",
        "4294967295 4294967295  -2147483648  2147483647                          \n",
    ];
    assert_page(2, &entries, &lines);
    let lines = [
        "         0          0            0                                      \n",
        "        17          3           50                                      \n",
        "4294967295 4294967295  -2147483648                                      \n",
    ];
    assert_page(1, &entries, &lines);
}

/// "A page has lines of exactly 72 bytes plus a line feed"
#[test]
fn lines_have_72_bytes_and_a_line_feed() {
    for p in 1..=4 {
        for count in [0, 1, 2, 59, 60] {
            let page = written(p, &periods(count));
            assert_eq!(page.len(), LINE * count as usize);
            let mut lines = page.chunks(LINE);
            assert!(lines.all(|line| line.iter().position(|&byte| byte == b'\n') == Some(72)));
        }
    }
}

/// "a period without a command shows a hyphen in the last column of the first
/// command"
#[test]
fn a_period_without_a_command_shows_a_hyphen() {
    let entries = [without(8, 1), without(4_294_967_295, 0)];
    let lines = [
        "         8          1            -                                      \n",
        "4294967295          0            -                                      \n",
    ];
    for p in 1..=4 {
        assert_page(p, &entries, &lines);
    }
}

/// "Equal periods appear as one line, the first given"
#[test]
fn of_equal_periods_the_first_given_stands() {
    let entries = [
        with(5, 2, [20, 21, 0, 0]),
        with(5, 1, [10, 11, 0, 0]),
        without(5, 0),
        with(5, 2, [30, 31, 0, 0]),
    ];
    let lines = ["         5          2           20          21                          \n"];
    assert_page(2, &entries, &lines);
    let entries = [without(5, 7), without(5, 6), without(5, 8)];
    let lines = ["         5          7            -                                      \n"];
    assert_page(2, &entries, &lines);
}

/// "one without a command gives way to one with it"
#[test]
fn one_without_a_command_gives_way() {
    let lines = ["         5          1           10                                      \n"];
    let (first, second) = (with(5, 1, [10; 4]), with(5, 2, [20; 4]));
    let orders: [&[Entry]; 4] = [
        &[without(5, 0), first],
        &[first, without(5, 0)],
        &[without(5, 0), without(5, 3), first, second, without(5, 4)],
        &[without(5, 0), first, without(5, 3), second],
    ];
    for entries in orders {
        assert_page(1, entries, &lines);
    }
}

/// "in rising order"
#[test]
fn periods_stand_in_rising_order() {
    let entries = [
        without(4_294_967_295, 0),
        with(10, 1, [1; 4]),
        without(9, 2),
        with(2_147_483_648, 0, [2; 4]),
        without(0, 3),
        with(9, 1, [3; 4]),
    ];
    let lines = [
        "         0          3            -                                      \n",
        "         9          1            3                                      \n",
        "        10          1            1                                      \n",
        "2147483648          0            2                                      \n",
        "4294967295          0            -                                      \n",
    ];
    assert_page(1, &entries, &lines);
    let reversed: Vec<Entry> = entries.into_iter().rev().collect();
    assert_page(1, &reversed, &lines);
}

/// "At most 60 periods stand on a page"; 60 lines are the area's 4,380 bytes.
#[test]
fn at_most_60_periods_stand_on_a_page() {
    assert_eq!(MOST_PERIODS, 60);
    for length in [PAGE_AREA, 2 * PAGE_AREA] {
        assert_eq!(write_into(1, &periods(60), length), Ok(4_380));
        assert_eq!(write_into(1, &periods(61), length), Err(Refusal::Page));
        assert_eq!(write_into(1, &periods(5_000), length), Err(Refusal::Page));
    }
    // Distinct ones are counted, of any number of entries.
    let entries: Vec<Entry> = (0..100_000)
        .map(|nth| with(nth % 60, nth, [nth as i32; 4]))
        .collect();
    let first: Vec<Entry> = entries[..60].to_vec();
    assert_eq!(written(4, &entries), written(4, &first));
    let with_another = [&entries[..], &[without(60, 0)]].concat();
    let refused = write_into(4, &with_another, PAGE_AREA);
    assert_eq!(refused, Err(Refusal::Page));
}

/// "The page's reading back gives the same periods, views and commands"
#[test]
fn reading_back_gives_the_same() {
    let lines = [
        "         0          3            -                                      \n",
        "         9          1            3  2147483647                          \n",
        "4294967295 4294967295  -2147483648           0                          \n",
    ];
    let entries = vec![
        without(0, 3),
        with(9, 1, [3, i32::MAX, 0, 0]),
        with(u32::MAX, u32::MAX, [i32::MIN, 0, 0, 0]),
    ];
    assert_eq!(page::read(2, lines.concat().as_bytes()), Ok(entries));
}

#[test]
fn an_empty_page_is_the_writing_of_no_entries() {
    for p in 1..=4 {
        assert_eq!(write_into(p, &[], PAGE_AREA), Ok(0));
        assert_eq!(page::read(p, &[]), Ok(vec![]));
    }
}

#[test]
fn values_beyond_p_are_not_looked_at_and_read_as_0() {
    let command = [1, -2, 3, -4];
    for p in 1..=4 {
        let mut kept = [0; 4];
        kept[..p].copy_from_slice(&command[..p]);
        let page = written(p, &[with(1, 2, command)]);
        assert_eq!(page, written(p, &[with(1, 2, kept)]));
        assert_eq!(page::read(p, &page), Ok(vec![with(1, 2, kept)]));
    }
}

// Refusals.

/// "p is given both ways and refused by 2 first"
#[test]
fn p_is_refused_first() {
    let page = written(1, &periods(1));
    for p in [0, 5, 6, 255, 256, 257, 260, usize::MAX] {
        for length in [0, PAGE_AREA - 1, PAGE_AREA] {
            assert_eq!(write_into(p, &[], length), Err(Refusal::Sizes));
            assert_eq!(write_into(p, &periods(61), length), Err(Refusal::Sizes));
        }
        for bytes in [&page[..], &page[1..], &[]] {
            assert_eq!(page::read(p, bytes), Err(Refusal::Sizes));
        }
    }
}

/// "page area checked before entries: 13 on writing, area under 4,380 bytes"
#[test]
fn the_area_is_refused_before_the_entries() {
    assert_eq!(PAGE_AREA, 4_380);
    for p in 1..=4 {
        for length in [0, 1, 72, 73, 4_306, 4_379] {
            for count in [0, 1, 60, 61, 100] {
                let answer = write_into(p, &periods(count), length);
                assert_eq!(answer, Err(Refusal::PageArea));
            }
        }
    }
}

#[test]
fn refusals_have_their_numbers() {
    assert_eq!(Refusal::PageArea.number(), 13);
    assert_eq!(Refusal::Page.number(), 14);
}

/// "14 .. on reading back a page that no writing gives"
#[test]
fn lines_that_no_writing_gives_are_refused() {
    let good = "         7          3           50         -51";
    assert_eq!(
        read_lines(2, &[good]),
        Ok(vec![with(7, 3, [50, -51, 0, 0])])
    );
    let bad = [
        // The period.
        "        07          3           50         -51",
        "       7            3           50         -51",
        "7                   3           50         -51",
        "                    3           50         -51",
        "        -7          3           50         -51",
        "        +7          3           50         -51",
        "         x          3           50         -51",
        "         -          3           50         -51",
        "4294967296          3           50         -51",
        "0000000007          3           50         -51",
        // The view.
        "         7         03           50         -51",
        "         7         3            50         -51",
        "         7           3          50         -51",
        "         7                      50         -51",
        "         7         -3           50         -51",
        "         7 4294967296           50         -51",
        "         7 9999999999           50         -51",
        "         7        3 3           50         -51",
        // The commands.
        "         7          3          050         -51",
        "         7          3           -0         -51",
        "         7          3          50          -51",
        "         7          3           50         51-",
        "         7          3           50         - 1",
        "         7          3           50        --51",
        "         7          3           50        -051",
        "         7          3           50         +51",
        "         7          3           50            ",
        "         7          3                      -51",
        "         7          3                         ",
        "         7          3   2147483648         -51",
        "         7          3  -2147483649         -51",
        "         7          3           50-99999999999",
        "         7          3 000000000050         -51",
        // The hyphen.
        "         7          3            -         -51",
        "         7          3           50           -",
        "         7          3            -           -",
        "         7          3                        -",
        "         7          3           --            ",
        "         7          3 -                       ",
        "         7          3           -             ",
        "         7          3             -           ",
        // Spaces between and to the end.
        "         7-         3           50         -51",
        "         7          3-          50         -51",
        "         7          3           50         -51           0",
        "         7          3            -                       -",
        "         7          3           50         -51 ,",
        "         7          3           50         -51                         .",
        "         7\t         3           50         -51",
        "        7           3           50         -51",
        "          7          3           50         -51",
    ];
    for start in bad {
        assert_eq!(read_lines(2, &[start]), Err(Refusal::Page), "{start:?}");
    }
    assert!(read_lines(2, &["         7          3            -"]).is_ok());
}

#[test]
fn a_page_of_another_p_is_refused_where_it_has_a_command() {
    for p in 1..=4 {
        let of_commands = written(p, &[with(1, 0, [0; 4]), without(2, 0)]);
        let of_none = written(p, &[without(1, 0), without(2, 0)]);
        for other in 1..=4 {
            assert_eq!(page::read(other, &of_commands).is_ok(), p == other);
            assert!(page::read(other, &of_none).is_ok());
        }
    }
}

#[test]
fn pages_that_do_not_rise_are_refused() {
    let lines = [
        "         1          0            -",
        "         2          0            -",
        "        10          0            -",
    ];
    for first in 0..3 {
        for second in 0..3 {
            let read = read_lines(1, &[lines[first], lines[second]]);
            assert_eq!(read.is_ok(), first < second);
            let read = read_lines(1, &[lines[0], lines[first], lines[second]]);
            assert_eq!(read.is_ok(), 0 < first && first < second);
        }
    }
}

#[test]
fn pages_of_other_lengths_are_refused() {
    let page = written(1, &periods(3));
    for length in 0..=page.len() {
        let whole = length % LINE == 0;
        assert_eq!(page::read(1, &page[..length]).is_ok(), whole);
        assert_eq!(page::read(1, &page[length..]).is_ok(), whole);
    }
    for behind in [&b"\n"[..], b" ", b"\x0C\n", b"\0"] {
        let longer = [&page[..], behind].concat();
        assert_eq!(page::read(1, &longer), Err(Refusal::Page));
    }
    // Without their line feeds, or with those of another system.
    let text = String::from_utf8(page).unwrap();
    for feed in ["", "\r\n", "\r", " "] {
        let other = text.replace('\n', feed);
        assert_eq!(page::read(1, other.as_bytes()), Err(Refusal::Page));
    }
}

#[test]
fn a_page_of_61_lines_is_refused() {
    let mut page = written(1, &periods(60));
    assert_eq!(page::read(1, &page), Ok(periods(60)));
    page.extend(written(1, &[without(61, 0)]));
    assert_eq!(page::read(1, &page), Err(Refusal::Page));
}

// Round trips.

/// A generator by shifts, as good as these lists need.
struct Random(u64);

impl Random {
    fn next(&mut self) -> u32 {
        self.0 ^= self.0 << 13;
        self.0 ^= self.0 >> 7;
        self.0 ^= self.0 << 17;
        (self.0 >> 32) as u32
    }

    fn below(&mut self, bound: usize) -> usize {
        self.next() as usize % bound
    }

    /// Numbers of all lengths.
    fn counter(&mut self) -> u32 {
        self.next() >> self.below(32)
    }

    /// Values of all lengths and both signs, with the ends now and then.
    fn value(&mut self) -> i32 {
        match self.below(12) {
            0 => i32::MIN,
            1 => i32::MAX,
            _ => self.next() as i32 >> self.below(32),
        }
    }

    fn entry(&mut self, periods: &[u32]) -> Entry {
        Entry {
            period: periods[self.below(periods.len())],
            view: self.counter(),
            command: (self.below(2) == 0).then(|| std::array::from_fn(|_| self.value())),
        }
    }

    /// Entries of a few periods, which come back often.
    fn entries(&mut self, most: usize) -> Vec<Entry> {
        let count = 1 + self.below(most);
        let periods: Vec<u32> = (0..count).map(|_| self.counter()).collect();
        let length = self.below(3 * count);
        (0..length).map(|_| self.entry(&periods)).collect()
    }
}

/// What stands on the page, by the words: of each period the first with a
/// command, else the first.
fn standing(p: usize, entries: &[Entry]) -> Vec<Entry> {
    let periods: BTreeSet<u32> = entries.iter().map(|entry| entry.period).collect();
    let of_period = |period: u32| {
        let mut given = entries.iter().filter(|entry| entry.period == period);
        let first = given.clone().next().unwrap();
        let mut stands = *given.find(|entry| entry.command.is_some()).unwrap_or(first);
        stands
            .command
            .iter_mut()
            .for_each(|values| values[p..].fill(0));
        stands
    };
    periods.into_iter().map(of_period).collect()
}

/// What was written is read back as what stands on it.
#[test]
fn written_pages_are_read_back() {
    let mut random = Random(0x9E37_79B9_7F4A_7C15);
    let mut refused = 0;
    for nth in 0..20_000 {
        let p = 1 + nth % 4;
        let entries = random.entries(100);
        let standing = standing(p, &entries);
        if standing.len() > 60 {
            assert_eq!(write_into(p, &entries, PAGE_AREA), Err(Refusal::Page));
            refused += 1;
            continue;
        }
        let page = written(p, &entries);
        assert_eq!(page.len(), LINE * standing.len());
        assert_eq!(page::read(p, &page), Ok(standing));
    }
    assert!((1_000..10_000).contains(&refused), "{refused}");
}

/// Whatever reading accepts, writing it gives the very bytes.
fn assert_written_again(p: usize, page: &[u8]) -> bool {
    match page::read(p, page) {
        Ok(entries) => {
            assert_eq!(written(p, &entries), page);
            true
        }
        Err(refusal) => {
            assert_eq!(refusal, Refusal::Page);
            false
        }
    }
}

#[test]
fn what_is_read_is_written_again() {
    let mut random = Random(0x2545_F491_4F6C_DD1D);
    let likely = b"  --0123456789\n";
    let mut taken = 0;
    for nth in 0..60_000 {
        let p = 1 + nth % 4;
        let mut page = written(p, &random.entries(6));
        for _ in 0..random.below(3) {
            if !page.is_empty() {
                let at = random.below(page.len());
                page[at] = likely[random.below(likely.len())];
            }
        }
        taken += usize::from(assert_written_again(1 + random.below(4), &page));
    }
    assert!((6_000..54_000).contains(&taken), "{taken}");
}

#[test]
fn every_changed_byte_is_refused_or_written_again() {
    let entries = [
        with(9, 3, [-4, 50, 0, 0]),
        without(10, 0),
        without(2_000, 1),
    ];
    let page = written(2, &entries);
    // A hyphen is that of both commands, so that one byte makes no number.
    let of_numbers =
        |at: usize| matches!((at / LINE, at % LINE), (_, 0..=9 | 11..=20) | (0, 22..=45));
    for at in 0..page.len() {
        for byte in (0..=u8::MAX).filter(|&byte| byte != page[at]) {
            let mut changed = page.clone();
            changed[at] = byte;
            let taken = assert_written_again(2, &changed);
            assert!(!taken || of_numbers(at), "byte {at} as {byte}");
        }
    }
}

// The planted faults.

/// The columns of a page's first line.
fn columns(entries: &[Entry], columns: std::ops::Range<usize>) -> String {
    let page = written(1, entries);
    String::from_utf8(page[columns].to_vec()).unwrap()
}

/// Each looks at no more than the columns of its own rule; pages that are read
/// are made up. Where a fault is one of writing and of reading, its case breaks
/// only if both have it.
const CASES: [Case; 12] = [
    ("last_given", || {
        let entries = [with(1, 0, [5; 4]), with(1, 0, [6; 4])];
        columns(&entries, 22..34) == "           5"
    }),
    ("without_command_stays", || {
        let entries = [without(1, 0), with(1, 0, [5; 4])];
        columns(&entries, 22..34) == "           5"
    }),
    ("falling_order", || {
        let entries = [without(1, 0), without(2, 0)];
        columns(&entries, 0..10) == "         1"
    }),
    ("sixty_first_period", || {
        let page = [written(1, &periods(60)), written(1, &[without(61, 0)])].concat();
        write_into(1, &periods(61), PAGE_AREA + LINE) == Err(Refusal::Page)
            || page::read(1, &page) == Err(Refusal::Page)
    }),
    ("view_column", || {
        columns(&[without(1, 7)], 10..22) == "          7 "
            || read_lines(1, &["         1          7            5"]).is_ok()
    }),
    ("hyphen_column", || {
        columns(&[without(1, 7)], 22..34) == "           -"
            || read_lines(1, &["         1          7            -"]).is_ok()
    }),
    ("needless_zero_read", || {
        let read = read_lines(1, &["        01          0            5"]);
        read == Err(Refusal::Page)
    }),
    ("short_page_area", || {
        write_into(1, &[], 4_379) == Err(Refusal::PageArea)
    }),
    ("page_area_first", || {
        write_into(5, &[], 0) == Err(Refusal::Sizes)
    }),
    ("periods_before_area", || {
        write_into(1, &periods(62), 0) == Err(Refusal::PageArea)
    }),
    ("any_order_read", || {
        let (first, second) = (
            "         1          0            5",
            "         2          0            5",
        );
        read_lines(1, &[second, first]) == Err(Refusal::Page)
    }),
    ("spaces_behind_read", || {
        let read = read_lines(1, &["         1          0            5           5"]);
        read == Err(Refusal::Page)
    }),
];

#[test]
fn cases_hold() {
    planted::hold(&CASES);
}

#[test]
fn each_fault_breaks_its_case_alone() {
    planted::each_breaks_its_case_alone(&fault::PAGE_NAMES, &CASES);
}
