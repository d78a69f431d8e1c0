//! Document 02, L8, "Two quorum numbers", by the public calls alone: which
//! pairs are taken and in which order 18 comes, what a group needs to decide
//! and to take over, the records and the scripts with both numbers, and the
//! faults of all these.

mod pairs;
mod planted;

use planted::Case;
use second::calls::{self, DONE, IGNORED};
use second::fault;
use second::frame::{self, Frame, ACK, COMMAND_AREA, DECIDE, ESTIMATE, FRAME_AREA, PROPOSE};
use second::law::Settings;
use second::printed;
use second::reading::{Reading, Row};
use second::record::{self, LENGTH};
use second::refusal::Refusal;
use second::replica::{check_quorums, majority, Answer, Areas, Mode, Quorums, Replica, Step};
use second::script::{self, bench_settings};
use second::ticket_calls;
use second::tickets::{self, Ticketed};

const FILL: u8 = 0xAA;

/// Areas just long enough, and none.
const ENOUGH: [usize; 3] = [LENGTH, FRAME_AREA, COMMAND_AREA];
const NONE: [usize; 3] = [0, 0, 0];

/// The areas lent to a call: for a record, a frame and a command.
struct Lent {
    record: Vec<u8>,
    frame: Vec<u8>,
    command: Vec<u8>,
}

impl Lent {
    fn new(lengths: [usize; 3]) -> Lent {
        let [record, frame, command] = lengths.map(|length| vec![FILL; length]);
        Lent {
            record,
            frame,
            command,
        }
    }

    fn areas(&mut self) -> Areas<'_> {
        self.all().1
    }

    /// The area for a record, and the other two.
    fn all(&mut self) -> (&mut [u8], Areas<'_>) {
        let areas = Areas {
            frame: &mut self.frame,
            command: &mut self.command,
        };
        (&mut self.record, areas)
    }
}

/// a and b.
fn of(to_decide: u8, to_propose: u8) -> Quorums {
    Quorums {
        to_decide,
        to_propose,
    }
}

/// Every group size with each of its allowed pairs.
fn all_pairs() -> impl Iterator<Item = (u8, Quorums)> {
    (3..=9).flat_map(|boxes| {
        pairs::allowed(boxes)
            .into_iter()
            .map(move |pair| (boxes, pair))
    })
}

fn fresh(boxes: u8, own: u8, quorums: Quorums) -> Replica {
    Replica::new(boxes, own, quorums, bench_settings()).unwrap()
}

// Refusal 18.

/// "18 a or b outside 2 to N, or a + b not above N"
#[test]
fn exactly_the_allowed_pairs_are_taken() {
    let counts = [4, 8, 13, 19, 26, 34, 43];
    for (boxes, count) in (3..=9).zip(counts) {
        let allowed = pairs::allowed(boxes);
        assert_eq!(allowed.len(), count);
        for (a, b) in (0..=255).flat_map(|a| (0..=255).map(move |b| (a, b))) {
            let n = u32::from(boxes);
            let is_taken = (2..=n).contains(&a) && (2..=n).contains(&b) && a + b > n;
            let quorums = of(a as u8, b as u8);
            let checked = if is_taken {
                Ok(())
            } else {
                Err(Refusal::Quorums)
            };
            assert_eq!(check_quorums(boxes, quorums), checked, "{boxes} {a} {b}");
            assert_eq!(allowed.contains(&quorums), is_taken);
            let made = Replica::new(boxes, 1, quorums, bench_settings());
            assert_eq!(
                made.map(|replica| replica.quorums),
                checked.map(|()| quorums)
            );
        }
    }
    assert_eq!(Refusal::Quorums.number(), 18);
    assert_eq!(Refusal::Quorums.to_string(), "r18");
}

#[test]
fn the_pairs_of_small_groups() {
    let of_three = [(2, 2), (2, 3), (3, 2), (3, 3)];
    let of_four = [
        (2, 3),
        (2, 4),
        (3, 2),
        (3, 3),
        (3, 4),
        (4, 2),
        (4, 3),
        (4, 4),
    ];
    assert_eq!(pairs::allowed(3), of_three.map(|(a, b)| of(a, b)));
    assert_eq!(pairs::allowed(4), of_four.map(|(a, b)| of(a, b)));
}

/// "P6 becomes: N 4, a 2, b 2 refused by 18."
#[test]
fn p6() {
    assert_eq!(check_quorums(4, of(2, 2)), Err(Refusal::Quorums));
    for own in 1..=4 {
        let made = Replica::new(4, own, of(2, 2), bench_settings());
        assert_eq!(made, Err(Refusal::Quorums));
    }
}

/// Sums that 8 bits do not hold.
#[test]
fn large_numbers_do_not_wrap() {
    for (a, b) in [(255, 255), (255, 5), (5, 255), (254, 4), (128, 132), (0, 0)] {
        assert_eq!(check_quorums(4, of(a, b)), Err(Refusal::Quorums));
    }
    // Alone, 18 looks at any N.
    assert_eq!(check_quorums(255, of(255, 255)), Ok(()));
    assert_eq!(check_quorums(255, of(128, 128)), Ok(()));
    assert_eq!(check_quorums(255, of(128, 127)), Err(Refusal::Quorums));
    assert_eq!(check_quorums(0, of(2, 2)), Err(Refusal::Quorums));
}

// The order of refusals.

/// What is refused by 1, 2, 3, 4 and 18, with the first so many of these
/// repaired.
fn repaired(count: usize, unfit: Quorums) -> Replica {
    let mut replica = fresh(4, 2, of(3, 3));
    let wrong: [fn(&mut Replica); 4] = [
        |replica| replica.own = 5,
        |replica| replica.settings.m = 0,
        |replica| replica.settings.a[0][0] = 16_777_217,
        |replica| replica.settings.upper[0] = i32::MIN,
    ];
    replica.settings.lower[0] = i32::MIN + 1;
    wrong.iter().skip(count).for_each(|make| make(&mut replica));
    if count < 5 {
        replica.quorums = unfit;
    }
    replica
}

const ORDER: [u8; 5] = [1, 2, 3, 4, 18];

/// Of four boxes: none, too few, too many, and a sum of 4.
fn unfit_pairs() -> [Quorums; 9] {
    [
        (0, 0),
        (1, 4),
        (4, 1),
        (2, 2),
        (5, 3),
        (3, 5),
        (0, 255),
        (255, 3),
        (255, 255),
    ]
    .map(|(a, b)| of(a, b))
}

/// "with the settings, after 4: 18", and before the lent areas.
#[test]
fn settings_are_refused_in_order_at_making() {
    for unfit in unfit_pairs() {
        for (count, number) in ORDER.into_iter().chain([5]).enumerate() {
            let Replica {
                boxes,
                own,
                quorums,
                settings,
                ..
            } = repaired(count, unfit);
            let made = Replica::new(boxes, own, quorums, settings);
            let refused = made.map_err(Refusal::number).err();
            assert_eq!(refused, (count < 5).then_some(number));
            let mut area = [FILL; 615];
            let answer = calls::make(boxes, own, quorums, settings, &mut area);
            assert_eq!((answer, area), (number.into(), [FILL; 615]));
        }
    }
}

enum Event {
    Tick,
    GiveUp,
    Arrive(Vec<u8>),
}

impl Event {
    fn happen(&self, replica: Replica, areas: Areas) -> (Replica, Step) {
        let row: Row = [Reading::Count(7); 4];
        match self {
            Event::Tick => replica.tick(&row, areas),
            Event::GiveUp => replica.give_up(areas),
            Event::Arrive(bytes) => replica.arrive(bytes, areas),
        }
    }
}

/// The answer's number, as the calls on records give it; all areas must hold
/// what they held.
fn silent_answer(lengths: [usize; 3], run: impl FnOnce(&mut [u8], Areas) -> Step) -> u32 {
    let mut lent = Lent::new(lengths);
    let (record, areas) = lent.all();
    let step = run(record, areas);
    assert_eq!((step.frame_length, step.command_length), (0, 0));
    let mut bytes = [lent.record, lent.frame, lent.command]
        .into_iter()
        .flatten();
    assert!(bytes.all(|byte| byte == FILL));
    match step.answer {
        Answer::Ok => DONE,
        Answer::Ignored => IGNORED,
        Answer::Refused(refusal) => refusal.number().into(),
    }
}

/// In every step at a replica handed in, made or asked, as 1 to 4 are.
#[test]
fn settings_are_refused_in_order_in_every_step() {
    let events = [
        (Event::Tick, 7),
        (Event::GiveUp, IGNORED),
        (Event::Arrive(vec![]), 8),
    ];
    for unfit in unfit_pairs() {
        for (event, own_answer) in &events {
            for (count, number) in ORDER.into_iter().chain([5]).enumerate() {
                let before = repaired(count, unfit);
                let stepped = |lengths| {
                    silent_answer(lengths, |_, areas| {
                        let (after, step) = event.happen(before, areas);
                        assert_eq!(after, before);
                        step
                    })
                };
                let asked = |lengths| {
                    silent_answer(lengths, |record, areas| {
                        let happen = |replica: Replica, areas: Areas| event.happen(replica, areas);
                        let (after, asked) = Ticketed::new(before).ask(record, areas, happen);
                        assert_eq!(
                            (after.replica, asked.left, asked.ticket),
                            (before, before, 1)
                        );
                        asked.step
                    })
                };
                assert_eq!(stepped(NONE), number.into());
                assert_eq!(asked(NONE), number.into());
                let with_areas = if count < 5 {
                    number.into()
                } else {
                    *own_answer
                };
                assert_eq!(stepped(ENOUGH), with_areas);
                assert_eq!(asked(ENOUGH), with_areas);
            }
        }
    }
}

#[test]
fn settings_are_refused_in_order_at_recording() {
    for unfit in unfit_pairs() {
        for (count, number) in ORDER.into_iter().chain([5]).enumerate() {
            let mut area = [FILL; 615];
            let refused = record::write(&repaired(count, unfit), &mut area);
            assert_eq!(refused.map_err(Refusal::number), Err(number));
            assert_eq!(area, [FILL; 615]);
        }
    }
}

// Deciding and taking over.

/// What a step gives that is ok: the replica, its frame and its command.
fn take(event: impl FnOnce(Areas) -> (Replica, Step)) -> (Replica, Vec<u8>, Vec<u8>) {
    let mut lent = Lent::new(ENOUGH);
    let (replica, step) = event(lent.areas());
    assert_eq!(step.answer, Answer::Ok);
    let frame = lent.frame[..step.frame_length].to_vec();
    (replica, frame, lent.command[..step.command_length].to_vec())
}

/// The boxes of one group, box b at place b − 1.
struct Group {
    replicas: Vec<Replica>,
}

impl Group {
    fn new(boxes: u8, quorums: Quorums) -> Group {
        let making = |own| fresh(boxes, own, quorums);
        Group {
            replicas: (1..=boxes).map(making).collect(),
        }
    }

    fn at(&mut self, number: u8) -> &mut Replica {
        &mut self.replicas[usize::from(number) - 1]
    }

    /// The frame of a tick, whose reading is ten times the box's number.
    fn tick(&mut self, number: u8) -> Vec<u8> {
        let missing = Reading::Missing;
        let row = [
            Reading::Count(10 * i32::from(number)),
            missing,
            missing,
            missing,
        ];
        let replica = self.at(number);
        let (next, frame, command) = take(|areas| replica.tick(&row, areas));
        *replica = next;
        assert!(command.is_empty());
        frame
    }

    fn give_up(&mut self, number: u8) -> Vec<u8> {
        let replica = self.at(number);
        let (next, frame, command) = take(|areas| replica.give_up(areas));
        *replica = next;
        assert!(command.is_empty());
        frame
    }

    /// Frame and command of an arriving frame.
    fn deliver(&mut self, number: u8, bytes: &[u8]) -> (Vec<u8>, Vec<u8>) {
        let replica = self.at(number);
        let (next, frame, command) = take(|areas| replica.arrive(bytes, areas));
        *replica = next;
        (frame, command)
    }

    /// Delivers a Propose and its Acks box by box, until the coordinator
    /// decides; gives the boxes that have acknowledged then, the coordinator
    /// among them, with the Decide and the command. None where it never does.
    fn decide(
        &mut self,
        coordinator: u8,
        others: &[u8],
        propose: &[u8],
    ) -> Option<(usize, Vec<u8>, Vec<u8>)> {
        for (nth, &number) in others.iter().enumerate() {
            let (ack, command) = self.deliver(number, propose);
            assert_eq!((ack[0], command.is_empty()), (ACK, true));
            let (frame, command) = self.deliver(coordinator, &ack);
            assert_eq!(frame.is_empty(), command.is_empty());
            assert_eq!(self.at(coordinator).decided, !command.is_empty());
            if !command.is_empty() {
                assert_eq!(frame[0], DECIDE);
                return Some((nth + 2, frame, command));
            }
        }
        None
    }

    /// Delivers the Estimates of these boxes, until the new coordinator
    /// proposes; gives the boxes heard then, itself among them, with the
    /// Propose. None where it never does.
    fn take_over(&mut self, coordinator: u8, estimates: &[Vec<u8>]) -> Option<(usize, Vec<u8>)> {
        for (nth, estimate) in estimates.iter().enumerate() {
            let (frame, command) = self.deliver(coordinator, estimate);
            assert!(command.is_empty());
            let is_normal = self.at(coordinator).mode == Mode::Normal;
            assert_eq!(frame.is_empty(), !is_normal);
            if !frame.is_empty() {
                assert_eq!(frame[0], PROPOSE);
                return Some((nth + 2, frame));
            }
        }
        None
    }
}

/// All boxes but one, each as the first once.
fn orders_without(boxes: u8, number: u8) -> Vec<Vec<u8>> {
    let others: Vec<u8> = (1..=boxes).filter(|&other| other != number).collect();
    let order = |first| [&others[first..], &others[..first]].concat();
    (0..others.len()).map(order).collect()
}

/// "a, the boxes needed to decide": the a-th box, the coordinator counted, and
/// no box before it.
#[test]
fn a_group_decides_at_the_ath_box() {
    for (boxes, quorums) in all_pairs() {
        for others in orders_without(boxes, 1) {
            let mut group = Group::new(boxes, quorums);
            let propose = group.tick(1);
            for &other in &others {
                assert!(group.tick(other).is_empty());
            }
            let (count, decide, command) = group.decide(1, &others, &propose).unwrap();
            assert_eq!(count, usize::from(quorums.to_decide), "{boxes} {quorums:?}");
            assert_eq!(command[8..], 5_i32.to_le_bytes());
            // The others issue the same, also those that never acknowledged.
            for &other in &others {
                let told = group.deliver(other, &decide);
                assert_eq!(told, (vec![], command.clone()));
            }
        }
    }
}

/// "b, the boxes heard before a new coordinator proposes": the b-th estimate,
/// the own one counted. The coordinator gave up itself, or its first Estimate
/// is of a higher view. What it proposes is decided at the a-th box.
#[test]
fn a_group_takes_over_at_the_bth_box() {
    for (boxes, quorums) in all_pairs() {
        for others in orders_without(boxes, 2) {
            for gives_up in [false, true] {
                let mut group = Group::new(boxes, quorums);
                (1..=boxes).for_each(|number| drop(group.tick(number)));
                // Box 1 coordinates view 0 and gives up nothing: it is handed a
                // view change by hand.
                group.at(1).mode = Mode::ViewChange;
                if gives_up {
                    assert!(group.give_up(2).is_empty());
                }
                let estimates: Vec<Vec<u8>> =
                    others.iter().map(|&other| group.give_up(other)).collect();
                assert!(estimates.iter().all(|frame| frame[0] == ESTIMATE));
                let (count, propose) = group.take_over(2, &estimates).unwrap();
                assert_eq!(
                    count,
                    usize::from(quorums.to_propose),
                    "{boxes} {quorums:?}"
                );
                let (count, _, _) = group.decide(2, &others, &propose).unwrap();
                assert_eq!(count, usize::from(quorums.to_decide), "{boxes} {quorums:?}");
            }
        }
    }
}

/// One box fewer never is enough, however often its frames come.
#[test]
fn a_box_fewer_is_not_enough() {
    for (boxes, quorums) in all_pairs() {
        let others = orders_without(boxes, 1).swap_remove(0);
        let mut group = Group::new(boxes, quorums);
        let propose = group.tick(1);
        others.iter().for_each(|&other| drop(group.tick(other)));
        let fewer = usize::from(quorums.to_decide) - 2;
        assert_eq!(group.decide(1, &others[..fewer], &propose), None);
        for &other in &others[..fewer] {
            let (ack, _) = group.deliver(other, &propose);
            let (again, step) = arrive(*group.at(1), &ack);
            assert_eq!((again, step.answer), (*group.at(1), Answer::Ignored));
        }
    }
}

fn arrive(replica: Replica, bytes: &[u8]) -> (Replica, Step) {
    replica.arrive(bytes, Lent::new(ENOUGH).areas())
}

/// A replica handed in: box 1 of a group in period 1 and view 0, normal, or of
/// view N in view-change mode, with these boxes heard.
fn heard_in(boxes: u8, quorums: Quorums, mode: Mode, heard: &[u8]) -> Replica {
    let mut replica = fresh(boxes, 1, quorums);
    replica.period = 1;
    replica.mode = mode;
    if mode == Mode::ViewChange {
        replica.view = boxes.into();
        replica.has_best = true;
        replica.best.from = 1;
    }
    for &number in heard {
        replica.heard[usize::from(number)] = true;
    }
    replica
}

/// The Ack of view 0, or the Estimate of view N, of a box of this period.
fn frame_for(replica: &Replica, sender: u8) -> Vec<u8> {
    let kind = match replica.mode {
        Mode::Normal => ACK,
        Mode::ViewChange => ESTIMATE,
    };
    let frame = Frame {
        kind,
        sender,
        period: 1,
        view: replica.view,
        ..Frame::default()
    };
    let mut area = [0; FRAME_AREA];
    let length = frame::write(1, 1, &frame, &mut area).unwrap();
    area[..length].to_vec()
}

/// Whether the frame of this box makes the replica decide or propose.
fn goes_on(replica: Replica, sender: u8) -> bool {
    let (after, step) = arrive(replica, &frame_for(&replica, sender));
    assert_eq!(step.answer, Answer::Ok);
    let done = match replica.mode {
        Mode::Normal => after.decided,
        Mode::ViewChange => after.mode == Mode::Normal,
    };
    assert_eq!(step.frame_length > 0, done);
    done
}

/// Each number counts for its own event: a with Acks, b with Estimates,
/// whichever boxes they are; "boxes above N aren't counted", nor place 0.
#[test]
fn any_boxes_heard_are_counted_but_those_above() {
    for (boxes, quorums) in all_pairs() {
        let needed = [
            (Mode::Normal, usize::from(quorums.to_decide)),
            (Mode::ViewChange, usize::from(quorums.to_propose)),
        ];
        // Each set of boxes heard that is without the last one.
        for set in 0..1_u16 << (boxes - 1) {
            let heard: Vec<u8> = (1..boxes)
                .filter(|number| set >> (number - 1) & 1 == 1)
                .collect();
            for (mode, needed) in needed {
                let mut replica = heard_in(boxes, quorums, mode, &heard);
                let is_enough = heard.len() + 1 >= needed;
                assert_eq!(
                    goes_on(replica, boxes),
                    is_enough,
                    "{boxes} {quorums:?} {heard:?}"
                );
                replica.heard[0] = true;
                replica.heard[usize::from(boxes) + 1..].fill(true);
                assert_eq!(
                    goes_on(replica, boxes),
                    is_enough,
                    "{boxes} {quorums:?} {heard:?}"
                );
            }
        }
    }
}

/// Both numbers come back from every step as they were handed in.
#[test]
fn no_step_changes_the_numbers() {
    for (boxes, quorums) in all_pairs() {
        let mut group = Group::new(boxes, quorums);
        let others = orders_without(boxes, 1).swap_remove(0);
        let propose = group.tick(1);
        others.iter().for_each(|&other| drop(group.tick(other)));
        group.decide(1, &others, &propose).unwrap();
        assert!(group
            .replicas
            .iter()
            .all(|replica| replica.quorums == quorums));
    }
}

// Records.

type Record = [u8; LENGTH];

fn recorded(replica: &Replica) -> Record {
    let mut record = [FILL; LENGTH];
    record::write(replica, &mut record).unwrap();
    record
}

fn with(record: &Record, at: usize, byte: u8) -> Record {
    let mut record = *record;
    record[at] = byte;
    record
}

/// "Records of L4 gain both numbers": a + 16 × b at byte 7, and version 2.
#[test]
fn records_of_every_pair_are_read_back() {
    for (boxes, quorums) in all_pairs() {
        for own in 1..=boxes {
            let replica = fresh(boxes, own, quorums);
            let record = recorded(&replica);
            let byte = quorums.to_decide + 16 * quorums.to_propose;
            assert_eq!(record[..8], [82, 2, boxes, own, 1, 1, 1, byte]);
            assert_eq!(record::read(&record), Ok(replica));
            assert_eq!(recorded(&record::read(&record).unwrap()), record);
            let mut made = [FILL; LENGTH];
            let answer = calls::make(boxes, own, quorums, bench_settings(), &mut made);
            assert_eq!((answer, made), (DONE, record));
            for missed in [0, 1, 7] {
                let returned = record::return_from(&record, missed).unwrap();
                assert_eq!((returned.quorums, returned.period), (quorums, missed));
                let mut area = [FILL; LENGTH];
                assert_eq!(calls::return_to(&record, missed, &mut area), DONE);
                assert_eq!(area, recorded(&returned));
                assert_eq!(area[..8], record[..8]);
            }
        }
    }
    // Nothing but byte 7 tells two pairs apart.
    let (one, other) = (
        recorded(&fresh(5, 2, of(2, 4))),
        recorded(&fresh(5, 2, of(4, 2))),
    );
    assert_eq!((one[7], other[7]), (0x42, 0x24));
    assert_eq!(with(&one, 7, 0x24), other);
}

/// What every call on this record answers, with areas and without.
fn answers(record: &Record) -> Vec<u32> {
    let with_areas = |lengths| {
        let mut lent = Lent::new(lengths);
        let mut held = record.to_vec();
        let mut area = ticketed(record);
        let (mut written, mut ticket) = ([0; 2], 0);
        let of_steps = [
            calls::tick(&mut held, &[0; 4], &[0; 4], lent.areas(), &mut written),
            calls::give_up(&mut held, lent.areas(), &mut written),
            calls::arrive(&mut held, &[], lent.areas(), &mut written),
            ticket_calls::ticketed_give_up(&mut area, lent.areas(), &mut written),
        ];
        let (copy, areas) = lent.all();
        let of_records = [
            ticket_calls::ask_give_up(&mut area, copy, areas, &mut written, &mut ticket),
            ticket_calls::commit(&mut area, 1),
            ticket_calls::tickets(record, copy),
            calls::copy(record, copy),
            calls::return_to(record, 0, copy),
            calls::return_to(record, 10_001, copy),
        ];
        [&of_steps[..], &of_records].concat()
    };
    [with_areas(NONE), with_areas(ENOUGH)].concat()
}

/// The record with no ticket behind it, whether it is one or not.
fn ticketed(record: &Record) -> Vec<u8> {
    let mut area = vec![0; tickets::LENGTH];
    area[..LENGTH].copy_from_slice(record);
    area[LENGTH..LENGTH + 2].copy_from_slice(&[84, 1]);
    area
}

/// Changes: 18 "on a record (there 15)", and 15 before 5.
#[test]
fn byte_7_of_no_allowed_pair_is_refused_by_15() {
    for boxes in 3..=9 {
        let record = recorded(&fresh(boxes, 2, Quorums::majorities(boxes)));
        let mut taken = 0;
        for byte in 0..=u8::MAX {
            let changed = with(&record, 7, byte);
            let quorums = of(byte & 15, byte >> 4);
            if pairs::allowed(boxes).contains(&quorums) {
                assert_eq!(record::read(&changed), Ok(fresh(boxes, 2, quorums)));
                assert!(!answers(&changed).contains(&15));
                taken += 1;
            } else {
                assert_eq!(record::read(&changed), Err(Refusal::Record));
                assert_eq!(record::return_from(&changed, 10_001), Err(Refusal::Record));
                assert_eq!(answers(&changed), [15; 20]);
            }
        }
        assert_eq!(taken, pairs::allowed(boxes).len());
    }
}

/// Changes: "a record of the old version is 15".
#[test]
fn records_of_version_1_are_refused_by_15() {
    for (boxes, quorums) in all_pairs() {
        let record = recorded(&fresh(boxes, 2, quorums));
        let newer = with(&record, 1, 1);
        let older = with(&newer, 7, 0);
        for refused in [newer, older, with(&record, 7, 0)] {
            assert_eq!(record::read(&refused), Err(Refusal::Record));
            assert_eq!(answers(&refused), [15; 20]);
        }
    }
}

/// The tickets behind a record stay of their own version 1.
#[test]
fn tickets_stand_behind_the_numbers() {
    let record = recorded(&fresh(5, 2, of(2, 4)));
    let mut area = vec![FILL; tickets::LENGTH];
    assert_eq!(ticket_calls::tickets(&record, &mut area), DONE);
    assert_eq!(area, ticketed(&record));
    let mut lent = Lent::new(ENOUGH);
    let (asked, areas) = lent.all();
    let (mut lengths, mut ticket) = ([0; 2], 0);
    let (kinds, bits) = ([0; 4], [0; 4]);
    let answer = ticket_calls::ask_tick(
        &mut area,
        &kinds,
        &bits,
        asked,
        areas,
        &mut lengths,
        &mut ticket,
    );
    assert_eq!((answer, ticket), (DONE, 1));
    assert_eq!(lent.record[..8], record[..8]);
    assert_eq!(ticket_calls::commit(&mut area, 1), DONE);
    assert_eq!(area[..LENGTH], lent.record);
    assert_eq!(record::read(&lent.record).unwrap().quorums, of(2, 4));
}

// Scripts.

/// The bench's settings on the rig.
fn first_line(boxes: u8, behind: &str) -> String {
    let settings = "1 1 1 65536 32768 65536 65536 -2147483648 2147483647 0";
    format!("rig {boxes} {settings}{behind}\n")
}

fn rig(script: &str) -> Vec<String> {
    let mut output = Vec::new();
    script::rig(script.as_bytes(), &mut output).unwrap();
    let text = String::from_utf8(output).unwrap();
    text.lines().map(str::to_string).collect()
}

/// A script in which all boxes tick, box 1's Propose and the Acks of it are
/// delivered in turn, then all boxes behind box 2 give up, and their Estimates
/// are delivered to it: with the lines of each Ack and of each Estimate that
/// arrives.
fn script_of(boxes: u8) -> (String, Vec<usize>, Vec<usize>) {
    let mut lines: Vec<String> = (1..=boxes)
        .map(|number| format!("T {number} {number}"))
        .collect();
    let mut acks = vec![];
    for other in 2..=boxes {
        lines.push(format!("D {other} 1"));
        lines.push(format!("D 1 {}", lines.len()));
        acks.push(lines.len());
    }
    lines.extend((1..=boxes).map(|number| format!("T {number} {number}")));
    lines.push("G 2".to_string());
    let mut estimates = vec![];
    for other in 3..=boxes {
        lines.push(format!("G {other}"));
        lines.push(format!("D 2 {}", lines.len()));
        estimates.push(lines.len());
    }
    (lines.join("\n"), acks, estimates)
}

/// The place of the first line with a frame among these, counted from 1.
fn first_with_frame(printed: &[String], lines: &[usize]) -> Option<usize> {
    let has_frame = |&line: &usize| {
        let fields: Vec<&str> = printed[line].split(' ').collect();
        fields[8] != "-"
    };
    lines.iter().position(has_frame).map(|place| place + 1)
}

#[test]
fn the_rig_plays_every_pair() {
    for (boxes, quorums) in all_pairs() {
        let Quorums {
            to_decide: a,
            to_propose: b,
        } = quorums;
        let (lines, acks, estimates) = script_of(boxes);
        let printed = rig(&(first_line(boxes, &format!(" quorums {a} {b}")) + &lines));
        let decided = first_with_frame(&printed, &acks);
        assert_eq!(decided, Some(usize::from(a) - 1), "{boxes} {quorums:?}");
        // Box 1 gives up nothing, so N boxes are never heard.
        let proposed = first_with_frame(&printed, &estimates);
        let expected = (b < boxes).then_some(usize::from(b) - 1);
        assert_eq!(proposed, expected, "{boxes} {quorums:?}");
    }
}

/// Changes: "without it both are the majority".
#[test]
fn without_quorums_both_are_the_majority() {
    for boxes in 3..=9 {
        let (lines, ..) = script_of(boxes);
        let number = majority(boxes);
        let named = first_line(boxes, &format!(" quorums {number} {number}"));
        assert_eq!(
            rig(&(first_line(boxes, "") + &lines)),
            rig(&(named + &lines))
        );
    }
}

/// "on the bench 2 and 2"
#[test]
fn the_bench_has_2_and_2() {
    let (lines, acks, estimates) = script_of(3);
    let mut output = Vec::new();
    script::bench(lines.as_bytes(), &mut output).unwrap();
    let text = String::from_utf8(output).unwrap();
    let printed: Vec<String> = text.lines().map(str::to_string).collect();
    assert_eq!(first_with_frame(&printed, &acks), Some(1));
    assert_eq!(first_with_frame(&printed, &estimates), Some(1));
    assert_eq!(printed, rig(&(first_line(3, " quorums 2 2") + &lines)));
    assert_ne!(printed, rig(&(first_line(3, " quorums 3 2") + &lines)));
    assert_ne!(printed, rig(&(first_line(3, " quorums 2 3") + &lines)));
}

/// Changes: "`r18` alone where 18 refuses".
#[test]
fn the_rig_prints_r18_alone() {
    for boxes in 3..=9_u8 {
        for (a, b) in (0..=10).flat_map(|a| (0..=10).map(move |b| (a, b))) {
            let printed = rig(&(first_line(boxes, &format!(" quorums {a} {b}")) + "T 1 1\n"));
            if pairs::allowed(boxes).contains(&of(a, b)) {
                assert_eq!(printed.len(), 2);
            } else {
                assert_eq!(printed, ["r18"], "{boxes} {a} {b}");
            }
        }
    }
    // No entry of a page, and not passed over.
    assert_eq!(printed::pages(b"r18\n"), (vec![], 0));
    assert_eq!(printed::pages(b"r19\n"), (vec![], 1));
}

/// A box returns with the numbers of its group, and commits what it asked by
/// them.
#[test]
fn boxes_that_return_or_ask_count_as_before() {
    let lines =
        "T 1 1\nT 2 2\nT 3 3\nD 2 1\nD 3 1\nD 1 4\nS 1\nD 1 5\nR 1 0\nAD 1 5\nSA 1\nC 1 1\n";
    let printed = rig(&(first_line(4, " quorums 3 2") + lines));
    let expected = [
        "6 1 ok 1 0 0 1 0 - -",
        "7 1 ok 1 0 0 1 0 - -",
        "8 1 ok 1 0 0 1 0 8 0",
        "9 1 ok 1 0 0 1 0 - -",
        "10 1 ok 1 0 0 1 0 ? 0 1",
        "11 1 ok 1 0 0 1 0 - -",
        "12 1 ok 1 0 0 1 0 12 0",
    ];
    assert_eq!(printed[6..], expected);
}

// The planted faults.

/// The boxes at which a group of five decides, and takes over.
fn decides_at(quorums: Quorums) -> Option<usize> {
    let others = orders_without(5, 1).swap_remove(0);
    let mut group = Group::new(5, quorums);
    let propose = group.tick(1);
    others.iter().for_each(|&other| drop(group.tick(other)));
    group.decide(1, &others, &propose).map(|(count, ..)| count)
}

fn takes_over_at(quorums: Quorums) -> Option<usize> {
    let mut group = Group::new(5, quorums);
    (2..=5).for_each(|number| drop(group.tick(number)));
    group.give_up(2);
    let estimates = [3, 4, 5].map(|other| group.give_up(other));
    group.take_over(2, &estimates).map(|(count, _)| count)
}

fn is_refused(boxes: u8, a: u8, b: u8) -> bool {
    check_quorums(boxes, of(a, b)) == Err(Refusal::Quorums)
}

/// Settings that 4 refuses.
fn crossed_limits() -> Settings {
    let mut settings = bench_settings();
    (settings.lower[0], settings.upper[0]) = (1, 0);
    settings
}

/// Where a fault would break the plain case of another, the case compares two
/// pairs, or has equal numbers.
const CASES: [Case; 11] = [
    ("quorums_exchanged", || {
        // Two boxes more, and one more, whether the own one is counted or not.
        let later = |at: fn(Quorums) -> Option<usize>, early, late| at(late) > at(early);
        later(decides_at, of(2, 4), of(4, 2)) && later(takes_over_at, of(4, 2), of(3, 3))
    }),
    ("sum_of_n_taken", || {
        is_refused(4, 2, 2) && is_refused(5, 2, 3) && is_refused(9, 5, 4)
    }),
    ("own_estimate_not_counted", || {
        takes_over_at(of(3, 3)) == Some(3)
    }),
    ("coordinator_not_counted", || {
        decides_at(of(3, 3)) == Some(3)
    }),
    ("quorum_of_one_taken", || {
        is_refused(3, 1, 3) && is_refused(9, 1, 9)
    }),
    ("quorum_above_taken", || {
        is_refused(3, 4, 3) && is_refused(4, 255, 4)
    }),
    ("quorums_before_limits", || {
        let made = Replica::new(4, 1, of(0, 0), crossed_limits());
        made == Err(Refusal::Limits)
    }),
    ("quorums_presumed", || {
        rig(&first_line(4, " quorums 0 0")) == ["r18"]
    }),
    ("quorums_not_in_step", || {
        let mut replica = fresh(4, 2, of(3, 3));
        replica.quorums = of(0, 0);
        let stepped = |_: &mut [u8], areas: Areas| replica.give_up(areas).1;
        silent_answer(ENOUGH, stepped) == 18 && silent_answer(NONE, stepped) == 18
    }),
    ("record_quorums_exchanged", || {
        let record = recorded(&fresh(5, 2, of(2, 4)));
        let read = record::read(&with(&record, 7, 0x53)).unwrap();
        record[7] == 0x42 && read.quorums == of(3, 5)
    }),
    ("first_version_taken", || {
        let newer = with(&recorded(&fresh(4, 2, of(3, 3))), 1, 1);
        let older = with(&newer, 7, 0);
        let read = [newer, older].map(|record| record::read(&record));
        read == [Err(Refusal::Record); 2]
    }),
];

#[test]
fn cases_hold() {
    planted::hold(&CASES);
}

#[test]
fn each_fault_breaks_its_case_alone() {
    let names = [&fault::QUORUM_NAMES[..], &fault::QUORUM_CALL_NAMES].concat();
    assert_eq!(names.len(), CASES.len());
    planted::each_breaks_its_case_alone(&names, &CASES);
}
