//! Document 02, L4, by the public calls alone: records written and read,
//! replicas that return from them, and the faults of both.

mod planted;

use planted::Case;
use second::fault;
use second::frame::{COMMAND_AREA, FRAME_AREA};
use second::law::{Readings, Settings};
use second::reading::{Reading, Row};
use second::record::{self, LENGTH};
use second::refusal::Refusal;
use second::replica::{Answer, Areas, Estimate, Heard, Mode, Quorums, Replica, Step};
use second::script::bench_settings;

const FILL: u8 = 0xAA;

type Record = [u8; LENGTH];

fn recorded(replica: &Replica) -> Record {
    let mut area = [FILL; LENGTH + 3];
    record::write(replica, &mut area).unwrap();
    assert_eq!(area[LENGTH..], [FILL; 3]);
    area[..LENGTH].try_into().unwrap()
}

/// A step that is done, and the frame that it sends.
fn done(event: impl FnOnce(Areas) -> (Replica, Step)) -> (Replica, Vec<u8>) {
    let (mut frame, mut command) = ([0; FRAME_AREA], [0; COMMAND_AREA]);
    let (replica, step) = event(Areas {
        frame: &mut frame,
        command: &mut command,
    });
    assert_eq!(step.answer, Answer::Ok);
    (replica, frame[..step.frame_length].to_vec())
}

/// The bench's row: one reading, the others missing.
fn row_of(first: Reading) -> Row {
    let missing = Reading::Missing;
    [first, missing, missing, missing]
}

fn tick(replica: Replica, first: Reading) -> (Replica, Vec<u8>) {
    done(|areas| replica.tick(&row_of(first), areas))
}

fn fresh(own: u8) -> Replica {
    Replica::new(3, own, Quorums::majorities(3), bench_settings()).unwrap()
}

/// So many places of 4 bytes.
fn zeros(places: usize) -> Vec<u8> {
    vec![0; 4 * places]
}

// Records written.

/// Box 2 of 3 with the bench's law, after its tick with 100 and the adopted
/// Propose of box 1, whose reading is −2.
fn adopted() -> Replica {
    let (_, propose) = tick(fresh(1), Reading::Count(-2));
    let (ticked, _) = tick(fresh(2), Reading::Count(100));
    done(|areas| ticked.arrive(&propose, areas)).0
}

#[test]
fn a_worked_record() {
    let expected = [
        // The letter, the version, N, the own number, n, m, p, and 2 and 2.
        vec![82, 2, 3, 2, 1, 1, 1, 34],
        // A, L, C and K.
        [vec![0, 0, 1, 0], zeros(35)].concat(),
        [vec![0, 128, 0, 0], zeros(23)].concat(),
        [vec![0, 0, 1, 0], zeros(23)].concat(),
        [vec![0, 0, 1, 0], zeros(23)].concat(),
        // The limits and the start.
        [vec![0, 0, 0, 128], zeros(3)].concat(),
        [vec![255, 255, 255, 127], zeros(3)].concat(),
        zeros(6),
        // Period, view, base view and base period.
        vec![1, 0, 0, 0, 0, 0, 0, 0, 0, 0, 0, 0, 1, 0, 0, 0],
        // Mode, decided and the boxes heard.
        vec![0; 12],
        // The estimate.
        zeros(6),
        vec![1],
        [vec![254, 255, 255, 255], zeros(3)].concat(),
        // No best estimate.
        vec![0; 51],
    ];
    assert_eq!(recorded(&adopted()).to_vec(), expected.concat());
    assert_eq!(expected.concat().len(), 616);
    assert_eq!(record::read(&expected.concat()), Ok(adopted()));
}

/// Rising from a number on, each place another one.
fn rising<const PLACES: usize>(first: i32) -> [i32; PLACES] {
    std::array::from_fn(|place| first + place as i32)
}

/// Every place in use, and no two bytes of equal numbers beside each other.
fn full() -> Replica {
    let settings = Settings {
        n: 6,
        m: 4,
        p: 3,
        a: std::array::from_fn(|i| rising(0x0001_0200 + 6 * i as i32)),
        l: std::array::from_fn(|i| rising(0x0002_0300 + 4 * i as i32)),
        c: std::array::from_fn(|j| rising(0x0003_0400 + 6 * j as i32)),
        k: std::array::from_fn(|j| rising(0x0004_0500 + 6 * j as i32)),
        lower: rising(0x0506_0700),
        upper: rising(0x0607_0800),
        start: rising(0x0708_0900),
    };
    Replica {
        boxes: 9,
        own: 8,
        quorums: Quorums {
            to_decide: 3,
            to_propose: 7,
        },
        settings,
        period: 0x1112_1314,
        view: 0x2122_2324,
        base_view: 0x2021_2223,
        mode: Mode::ViewChange,
        decided: true,
        estimate: Estimate {
            state: rising(0x3132_3300),
            readings: Readings {
                marks: 0b1111,
                values: rising(0x4142_4300),
            },
            base_period: 0x1011_1213,
        },
        heard: std::array::from_fn(|place| [2, 3, 5, 9].contains(&place)),
        has_best: true,
        best: Heard {
            from: 5,
            base_view: 0x1920_2122,
            estimate: Estimate {
                state: rising(0x5152_5300),
                readings: Readings {
                    marks: 0b1111,
                    values: rising(0x6162_6300),
                },
                base_period: 0x0910_1112,
            },
        },
    }
}

#[test]
fn every_number_has_its_place() {
    let record = recorded(&full());
    let number = |at: usize| u32::from_le_bytes(record[at..at + 4].try_into().unwrap());
    assert_eq!(record[..8], [82, 2, 9, 8, 6, 4, 3, 0x73]);
    // A list, where it starts, and how many values it has.
    let lists = [
        (8, 36, 0x0001_0200),
        (152, 24, 0x0002_0300),
        (248, 24, 0x0003_0400),
        (344, 24, 0x0004_0500),
        (440, 4, 0x0506_0700),
        (456, 4, 0x0607_0800),
        (472, 6, 0x0708_0900),
        (524, 6, 0x3132_3300),
        (549, 4, 0x4142_4300),
        (575, 6, 0x5152_5300),
        (600, 4, 0x6162_6300),
    ];
    for (at, count, first) in lists {
        for nth in 0..count {
            assert_eq!(number(at + 4 * nth), first + nth as u32, "{at}");
        }
    }
    let counters = [
        (496, 0x1112_1314),
        (500, 0x2122_2324),
        (504, 0x2021_2223),
        (508, 0x1011_1213),
        (567, 0x1920_2122),
        (571, 0x0910_1112),
    ];
    for (at, counter) in counters {
        assert_eq!(number(at), counter, "{at}");
    }
    assert_eq!(record[512..514], [1, 1]);
    assert_eq!(record[514..524], [0, 0, 1, 1, 0, 1, 0, 0, 0, 1]);
    assert_eq!((record[548], record[599]), (15, 15));
    assert_eq!(record[565..567], [1, 5]);
    assert_eq!(record::read(&record), Ok(full()));
}

/// Box 2 of 4 in a view change, n 2, m 2, p 1. Wherever places are not in use
/// its settings hold what the ranges would refuse; what it holds is as 15 asks.
fn held() -> Replica {
    let mut settings = Settings {
        n: 2,
        m: 2,
        p: 1,
        a: [[i32::MAX; 6]; 6],
        l: [[i32::MIN; 4]; 6],
        c: [[i32::MAX; 6]; 4],
        k: [[i32::MIN; 6]; 4],
        lower: [i32::MIN, 1, 1, 1],
        upper: [i32::MAX, 0, 0, 0],
        start: [3, 4, 5, 6, 7, 8],
    };
    for i in 0..2 {
        settings.a[i][..2].fill(65_536);
        settings.l[i][..2].fill(32_768);
        settings.c[i][..2].fill(65_536);
        settings.k[i][..2].fill(65_536);
    }
    Replica {
        boxes: 4,
        own: 2,
        quorums: Quorums::majorities(4),
        settings,
        period: 7,
        view: 5,
        base_view: 5,
        mode: Mode::ViewChange,
        decided: false,
        estimate: Estimate {
            state: [10, -20, 0, 0, 0, 0],
            readings: Readings {
                marks: 0b10,
                values: [0, 6, 0, 0],
            },
            base_period: 7,
        },
        heard: std::array::from_fn(|place| [2, 4].contains(&place)),
        has_best: true,
        best: Heard {
            from: 4,
            base_view: 5,
            estimate: Estimate {
                state: [-30, 40, 0, 0, 0, 0],
                readings: Readings {
                    marks: 0b01,
                    values: [-9, 0, 0, 0],
                },
                base_period: 7,
            },
        },
    }
}

/// The same without a best estimate.
fn held_without_best() -> Replica {
    Replica {
        has_best: false,
        best: Heard::default(),
        ..held()
    }
}

/// Changes: "what it holds is written as frames write it (marks below m, 0
/// where absent)".
#[test]
fn a_made_up_replica_is_written_as_frames_write_it() {
    let mut made_up = held();
    made_up.estimate.state[2..].fill(-1);
    made_up.estimate.readings = Readings {
        marks: 0b1111_1110,
        values: [5, 6, 7, 8],
    };
    made_up.best.estimate.state[2..].fill(9);
    made_up.best.estimate.readings = Readings {
        marks: 0b1111_1101,
        values: [-9, 1, 1, 1],
    };
    assert_eq!(recorded(&made_up), recorded(&held()));
}

#[test]
fn a_best_estimate_that_is_not_there_is_written_as_0() {
    let made_up = Replica {
        has_best: false,
        ..held()
    };
    let record = recorded(&made_up);
    assert_eq!(record, recorded(&held_without_best()));
    assert_eq!(record[565..], [0; 51]);
    assert_eq!(record[..565], recorded(&held())[..565]);
}

/// Everything else is written as it stands, "even where 15 would refuse the
/// record".
#[test]
fn what_no_record_may_hold_is_written_as_it_stands() {
    let made_up = Replica {
        base_view: u32::MAX,
        heard: [true; 10],
        estimate: Estimate {
            base_period: 8,
            ..held().estimate
        },
        best: Heard {
            from: 255,
            base_view: 6,
            estimate: Estimate {
                base_period: 0x0908_0706,
                ..held().best.estimate
            },
        },
        ..held()
    };
    let mut expected = recorded(&held());
    expected[504..508].fill(255);
    expected[508] = 8;
    expected[514..524].fill(1);
    expected[566] = 255;
    expected[567] = 6;
    expected[571..575].copy_from_slice(&[6, 7, 8, 9]);
    assert_eq!(recorded(&made_up), expected);
    assert_eq!(record::read(&expected), Err(Refusal::Record));
}

/// The record's area: refused by 1 to 4, then by 18, then by 5. Refused, all
/// of it keeps what it held.
#[test]
fn writing_refuses_settings_then_the_area() {
    let write = |replica: &Replica, length: usize| {
        let mut area = vec![FILL; length];
        let answer = record::write(replica, &mut area);
        assert!(answer.is_ok() || area.iter().all(|&byte| byte == FILL));
        answer
    };
    for length in [616, 617, 10_000] {
        assert_eq!(write(&held(), length), Ok(()));
    }
    let mut replica = held();
    for length in [0, 1, 615] {
        assert_eq!(write(&replica, length), Err(Refusal::Areas));
    }
    replica.quorums.to_decide = 1;
    for length in [0, 615, 616] {
        assert_eq!(write(&replica, length), Err(Refusal::Quorums));
    }
    (replica.settings.lower[0], replica.settings.upper[0]) = (1, 0);
    assert_eq!(write(&replica, 0), Err(Refusal::Limits));
    replica.settings.k[0][1] = 16_777_217;
    assert_eq!(write(&replica, 0), Err(Refusal::Coefficient));
    replica.settings.n = 7;
    assert_eq!(write(&replica, 615), Err(Refusal::Sizes));
    replica.own = 5;
    assert_eq!(write(&replica, 616), Err(Refusal::Group));
}

// Records read.

/// The record with bytes replaced from one on.
fn damaged(replica: &Replica, at: usize, bytes: &[u8]) -> Record {
    let mut record = recorded(replica);
    record[at..at + bytes.len()].copy_from_slice(bytes);
    record
}

fn assert_taken(replica: &Replica, at: usize, bytes: &[u8]) {
    let record = damaged(replica, at, bytes);
    let read = record::read(&record).unwrap_or_else(|_| panic!("{at} as {bytes:?}"));
    assert_eq!(recorded(&read), record);
}

fn assert_refused(replica: &Replica, at: usize, bytes: &[u8]) {
    assert!(is_refused(replica, at, bytes), "{at} as {bytes:?}");
}

fn is_refused(replica: &Replica, at: usize, bytes: &[u8]) -> bool {
    record::read(&damaged(replica, at, bytes)) == Err(Refusal::Record)
}

#[test]
fn records_of_other_lengths_are_refused() {
    let mut record = recorded(&held()).to_vec();
    assert_eq!(record::read(&record), Ok(held()));
    record.push(0);
    assert_eq!(record::read(&record), Err(Refusal::Record));
    for length in 0..LENGTH {
        assert_eq!(record::read(&record[..length]), Err(Refusal::Record));
    }
}

#[test]
fn the_letter_and_the_version_are_looked_at() {
    for (at, right) in [(0, 82), (1, 2)] {
        for byte in (0..=u8::MAX).filter(|&byte| byte != right) {
            assert_refused(&held(), at, &[byte]);
        }
    }
}

/// "or with settings refused at making"
#[test]
fn settings_of_a_record_are_looked_at() {
    // 1: N and the own number.
    for boxes in (0..=2).chain(10..=255) {
        assert_refused(&held_without_best(), 2, &[boxes]);
    }
    for own in [0, 5, 255] {
        assert_refused(&held(), 3, &[own]);
    }
    // 2: n, m and p; the tables are full of what 3 refuses.
    for (at, most) in [(4, 6), (5, 4), (6, 4)] {
        for size in [0, most + 1, 255] {
            assert_refused(&full(), at, &[size]);
        }
    }
    // 3 and 4, in places that are in use.
    let beyond = 16_777_217_i32.to_le_bytes();
    for at in [8, 12, 32, 36, 152, 156, 248, 276, 344, 348] {
        assert_refused(&held(), at, &beyond);
        assert_taken(&held(), at, &16_777_216_i32.to_le_bytes());
        assert_taken(&held(), at, &(-16_777_216_i32).to_le_bytes());
    }
    let equal = Replica {
        settings: Settings {
            lower: [5; 4],
            upper: [5; 4],
            ..held().settings
        },
        ..held()
    };
    assert_refused(&equal, 440, &[6]);
    assert_refused(&equal, 456, &[4]);
    assert_taken(&equal, 440, &[4]);
    // Those that are not in use are not.
    for at in [16, 28, 56, 160, 256, 296, 352, 368, 444, 460, 480, 492] {
        assert_taken(&held(), at, &[1, 2, 3, 127]);
    }
}

/// "a mode or mark of no meaning"
#[test]
fn modes_and_marks_are_0_or_1() {
    for at in [512, 513, 515, 516, 517, 518] {
        assert_taken(&held(), at, &[0]);
        assert_taken(&held(), at, &[1]);
        for byte in 2..=u8::MAX {
            assert_refused(&held(), at, &[byte]);
        }
    }
    for byte in 2..=u8::MAX {
        assert_refused(&held(), 565, &[byte]);
        assert_refused(&held_without_best(), 565, &[byte]);
    }
    // Marks of readings: those of m, which is 2, over values that are 0.
    let mut unread = held();
    unread.estimate.readings = Readings::default();
    unread.best.estimate.readings = Readings::default();
    for at in [548, 599] {
        for marks in 0..=u8::MAX {
            assert_eq!(is_refused(&unread, at, &[marks]), marks > 3);
        }
    }
}

/// Changes: "a box heard above N (or at place 0)".
#[test]
fn boxes_heard_are_those_of_the_group() {
    for (place, at) in (514..524).enumerate() {
        let of_group = (1..=4).contains(&place);
        assert_eq!(is_refused(&held(), at, &[1]), !of_group, "{place}");
        // Of nine, all but place 0 are boxes.
        assert_eq!(is_refused(&full(), at, &[1]), place == 0, "{place}");
    }
    // Of three, box 4 is none.
    assert_taken(&adopted(), 517, &[1]);
    assert_refused(&adopted(), 518, &[1]);
}

/// "a base above its counter"
#[test]
fn bases_are_not_above_their_counters() {
    // View 5, period 7, and all bases as large.
    for (at, largest) in [(504, 5), (508, 7), (567, 5), (571, 7)] {
        for base in 0..=largest {
            assert_taken(&held(), at, &[base]);
        }
        for above in [&[largest + 1][..], &[255], &[0, 1], &[0, 0, 0, 128]] {
            assert_refused(&held(), at, above);
        }
    }
    // A counter below its bases: the estimate's, and the best one's alone.
    let mut low = held();
    (low.base_view, low.estimate.base_period) = (0, 0);
    for (at, counter) in [(500, 5), (496, 7)] {
        for replica in [held(), low] {
            assert_taken(&replica, at, &[counter]);
            assert_refused(&replica, at, &[counter - 1]);
        }
    }
    // The largest counters.
    let mut last = held();
    last.view = u32::MAX;
    last.period = u32::MAX;
    for at in [504, 508, 567, 571] {
        assert_taken(&last, at, &[255; 4]);
    }
}

/// "an absent value not 0"
#[test]
fn absent_values_are_0() {
    // Reading 0 of the estimate, reading 1 of the best.
    for at in (549..553).chain(604..608) {
        for byte in 1..=u8::MAX {
            assert_refused(&held(), at, &[byte]);
        }
    }
    // The present ones.
    for at in (553..557).chain(600..604) {
        assert_taken(&held(), at, &[0]);
        assert_taken(&held(), at, &[255]);
    }
    // Without its mark a present one is absent.
    assert_refused(&held(), 548, &[0]);
    assert_refused(&held(), 599, &[0]);
}

/// Layout: "places that are not in use are 0: states from n on, readings from
/// m on, byte 514, and all of 566 to 615 where byte 565 is 0".
#[test]
fn places_not_in_use_are_0() {
    let unused = (532..548).chain(557..565).chain(583..599).chain(608..616);
    for at in unused {
        for byte in 1..=u8::MAX {
            assert_refused(&held(), at, &[byte]);
        }
    }
    for at in 566..616 {
        for byte in 1..=u8::MAX {
            assert_refused(&held_without_best(), at, &[byte]);
        }
    }
}

#[test]
fn a_best_estimate_is_of_a_box_of_the_group() {
    for from in 0..=u8::MAX {
        let of_group = (1..=4).contains(&from);
        assert_eq!(is_refused(&held(), 566, &[from]), !of_group);
    }
    // All 0 and there: box 0.
    assert_refused(&held_without_best(), 565, &[1]);
    assert_taken(&held_without_best(), 565, &[1, 1]);
    // There and not all 0, but said to be absent.
    assert_refused(&held(), 565, &[0]);
}

/// Changes: "returning a record by 0 periods and recording gives the very
/// bytes (law)".
#[test]
fn every_changed_byte_is_refused_or_written_again() {
    for replica in [held(), held_without_best(), full(), adopted()] {
        let record = recorded(&replica);
        let mut taken = 0;
        for at in 0..LENGTH {
            for byte in 0..=u8::MAX {
                let mut changed = record;
                changed[at] = byte;
                if let Ok(read) = record::return_from(&changed, 0) {
                    assert_eq!(recorded(&read), changed, "byte {at} as {byte}");
                    taken += 1;
                }
            }
        }
        assert!(taken > 10_000, "{taken}");
    }
}

// Returning.

/// What so many ticks without a reading come to, their frames dropped.
fn ticked(mut replica: Replica, count: u32) -> Replica {
    for _ in 0..count {
        replica = tick(replica, Reading::Missing).0;
    }
    replica
}

fn return_to(replica: &Replica, missed: u32) -> Result<Replica, Refusal> {
    record::return_from(&recorded(replica), missed)
}

/// Changes: "recording a replica of any history and returning it by 0 gives
/// that very replica (law)".
#[test]
fn returning_by_0_gives_the_very_replica() {
    for replica in [fresh(1), fresh(3), adopted(), held(), full()] {
        assert_eq!(return_to(&replica, 0), Ok(replica));
    }
}

/// "yields the replica that a box would be which stayed up, was handed no
/// reading in those periods and lost every frame"
#[test]
fn a_missed_period_is_a_tick_without_a_reading() {
    // Box 2 adopted −2 with base period 1: half of it, −1, is the next state.
    let expected = Replica {
        period: 2,
        estimate: Estimate {
            state: [-1, 0, 0, 0, 0, 0],
            readings: Readings::default(),
            base_period: 1,
        },
        ..adopted()
    };
    assert_eq!(return_to(&adopted(), 1), Ok(expected));
    let later = Replica {
        period: 10_001,
        ..expected
    };
    assert_eq!(return_to(&adopted(), 10_000), Ok(later));
    for replica in [fresh(1), fresh(2), adopted(), held(), full()] {
        for missed in [1, 2, 3, 7, 100] {
            assert_eq!(return_to(&replica, missed), Ok(ticked(replica, missed)));
        }
    }
}

/// Changes: "A coordinator in normal mode proposes to nobody in each missed
/// period, and its bases follow".
#[test]
fn a_coordinator_proposes_to_nobody() {
    let (proposed, _) = tick(fresh(1), Reading::Count(100));
    let expected = Replica {
        period: 10_001,
        estimate: Estimate {
            state: [50, 0, 0, 0, 0, 0],
            readings: Readings::default(),
            base_period: 10_001,
        },
        ..proposed
    };
    assert_eq!(return_to(&proposed, 10_000), Ok(expected));
    // From period 0: no update on the first tick.
    let from_fresh = return_to(&fresh(1), 1).unwrap();
    assert_eq!(from_fresh, tick(fresh(1), Reading::Missing).0);
    assert_eq!((from_fresh.period, from_fresh.estimate.base_period), (1, 1));
}

#[test]
fn a_view_change_is_left_by_the_first_missed_period() {
    let expected = Replica {
        period: 8,
        view: 6,
        mode: Mode::Normal,
        heard: [false; 10],
        has_best: false,
        best: Heard::default(),
        estimate: Estimate {
            // x1 + x2 is −10; reading 1 is 16 above that, half of it is 8.
            state: [-2, -2, 0, 0, 0, 0],
            readings: Readings::default(),
            base_period: 7,
        },
        ..held()
    };
    assert_eq!(return_to(&held(), 1), Ok(expected));
}

/// "missed count over 10,000"
#[test]
fn more_than_10_000_missed_periods_are_refused() {
    for replica in [fresh(1), adopted(), held()] {
        assert!(return_to(&replica, 10_000).is_ok());
        for missed in [10_001, 65_536, 1 << 31, u32::MAX] {
            assert_eq!(return_to(&replica, missed), Err(Refusal::Missed));
        }
    }
}

/// "a period .. that would pass its largest value"
#[test]
fn the_last_period_is_not_passed() {
    for left in [0, 1, 2, 9_999, 10_000] {
        let mut replica = adopted();
        replica.period = u32::MAX - left;
        let last = return_to(&replica, left).unwrap();
        assert_eq!(last.period, u32::MAX);
        assert_eq!(return_to(&replica, left + 1), Err(Refusal::Missed));
        assert_eq!(return_to(&replica, 10_000).is_ok(), left == 10_000);
    }
}

/// "or view that would pass its largest value"
#[test]
fn the_last_view_is_not_passed() {
    let mut replica = held();
    replica.view = u32::MAX;
    assert_eq!(return_to(&replica, 0), Ok(replica));
    for missed in [1, 2, 10_000, 10_001] {
        assert_eq!(return_to(&replica, missed), Err(Refusal::Missed));
    }
    // In normal mode the view stays.
    replica.mode = Mode::Normal;
    assert!(return_to(&replica, 10_000).is_ok());
    // 4294967295 mod 4 is 3: raised to the last view, box 4 is coordinator and
    // in view-change mode again, so that the second period is one too many.
    let mut next = held();
    (next.own, next.view) = (4, u32::MAX - 1);
    let waiting = return_to(&next, 1).unwrap();
    assert_eq!((waiting.view, waiting.mode), (u32::MAX, Mode::ViewChange));
    for missed in [2, 10_000] {
        assert_eq!(return_to(&next, missed), Err(Refusal::Missed));
    }
}

/// "on return, in order: 15 .. 16"
#[test]
fn a_record_is_refused_before_the_missed_periods() {
    let mut record = recorded(&held());
    assert_eq!(record::return_from(&record, 10_001), Err(Refusal::Missed));
    record[7] = 1;
    for missed in [0, 1, 10_001] {
        assert_eq!(record::return_from(&record, missed), Err(Refusal::Record));
    }
    assert_eq!(record::return_from(&[], 10_001), Err(Refusal::Record));
}

#[test]
fn refusals_have_their_numbers() {
    assert_eq!(Refusal::Record.number(), 15);
    assert_eq!(Refusal::Missed.number(), 16);
}

// The planted faults.

const CASES: [Case; 18] = [
    ("heard_above_taken", || is_refused(&held(), 519, &[1])),
    ("heard_zero_taken", || is_refused(&held(), 514, &[1])),
    ("base_view_above_taken", || is_refused(&held(), 504, &[6])),
    ("base_period_above_taken", || is_refused(&held(), 508, &[8])),
    ("best_base_above_taken", || {
        is_refused(&held(), 567, &[6]) && is_refused(&held(), 571, &[8])
    }),
    ("absent_value_taken", || {
        is_refused(&held(), 549, &[1]) && is_refused(&held(), 604, &[1])
    }),
    ("unused_state_taken", || {
        is_refused(&held(), 532, &[1]) && is_refused(&held(), 583, &[1])
    }),
    ("unused_reading_taken", || {
        is_refused(&held(), 557, &[1]) && is_refused(&held(), 608, &[1])
    }),
    ("marks_beyond_taken", || {
        is_refused(&held(), 548, &[0b110]) && is_refused(&held(), 599, &[0b101])
    }),
    ("absent_best_taken", || is_refused(&held(), 565, &[0])),
    ("best_box_taken", || {
        is_refused(&held(), 566, &[0]) && is_refused(&held(), 566, &[5])
    }),
    ("version_unread", || is_refused(&held(), 1, &[3])),
    ("second_mode_taken", || is_refused(&held(), 512, &[2])),
    ("record_settings_unread", || {
        is_refused(&held(), 3, &[0]) && is_refused(&held(), 4, &[7])
    }),
    ("missed_without_update", || {
        // Two at least, so that one is left with a tick too few.
        let returned = return_to(&adopted(), 2).unwrap();
        returned.estimate.state[0] == -1
    }),
    ("missed_one_fewer", || {
        return_to(&adopted(), 1).unwrap().period == 2
    }),
    ("missed_beyond_taken", || {
        return_to(&adopted(), 10_001).is_err()
    }),
    ("missed_view_skipped", || {
        let mut replica = held();
        replica.view = u32::MAX;
        return_to(&replica, 2) == Err(Refusal::Missed)
    }),
];

#[test]
fn cases_hold() {
    planted::hold(&CASES);
}

#[test]
fn each_fault_breaks_its_case_alone() {
    planted::each_breaks_its_case_alone(&fault::RECORD_NAMES, &CASES);
}
