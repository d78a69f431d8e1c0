use super::*;
use crate::frame::{COMMAND_AREA, FRAME_AREA};
use crate::reading::{convert_row, Reading};
use crate::script::bench_settings;

const FILL: u8 = 0xAA;

/// A step's replica and answer, with the bytes it wrote.
struct Taken {
    replica: Replica,
    answer: Answer,
    frame: Vec<u8>,
    command: Vec<u8>,
}

impl Taken {
    fn sent(&self) -> Frame {
        let Settings { n, m, .. } = self.replica.settings;
        frame::read(n, m, &self.frame).unwrap()
    }
}

fn run(event: impl FnOnce(Areas) -> (Replica, Step)) -> Taken {
    let mut frame = [FILL; FRAME_AREA + 3];
    let mut command = [FILL; COMMAND_AREA + 3];
    let (replica, step) = event(Areas {
        frame: &mut frame,
        command: &mut command,
    });
    let after = [&frame[step.frame_length..], &command[step.command_length..]].concat();
    assert!(after.iter().all(|&byte| byte == FILL));
    Taken {
        replica,
        answer: step.answer,
        frame: frame[..step.frame_length].to_vec(),
        command: command[..step.command_length].to_vec(),
    }
}

fn tick(replica: Replica, y: i32) -> Taken {
    tick_with(replica, &row_of(Reading::Count(y)))
}

fn tick_with(replica: Replica, row: &Row) -> Taken {
    run(|areas| replica.tick(row, areas))
}

/// The bench's row: one reading, the others missing.
fn row_of(first: Reading) -> Row {
    let missing = Reading::Missing;
    [first, missing, missing, missing]
}

fn give_up(replica: Replica) -> Taken {
    run(|areas| replica.give_up(areas))
}

fn arrive(replica: Replica, bytes: &[u8]) -> Taken {
    run(|areas| replica.arrive(bytes, areas))
}

fn arrive_frame(replica: Replica, frame: &Frame) -> Taken {
    let mut area = [0; FRAME_AREA];
    let Settings { n, m, .. } = replica.settings;
    let length = frame::write(n, m, frame, &mut area).unwrap();
    arrive(replica, &area[..length])
}

fn fresh(boxes: u8, own: u8) -> Replica {
    Replica::new(boxes, own, Quorums::majorities(boxes), bench_settings()).unwrap()
}

/// a and b.
fn of(to_decide: u8, to_propose: u8) -> Quorums {
    Quorums {
        to_decide,
        to_propose,
    }
}

/// All pairs with a and b from 2 to N and a + b above N.
fn allowed(boxes: u8) -> Vec<Quorums> {
    let all = (2..=boxes).flat_map(|a| (2..=boxes).map(move |b| of(a, b)));
    all.filter(|pair| pair.to_decide + pair.to_propose > boxes)
        .collect()
}

/// A replica in period 1.
fn ticked(boxes: u8, own: u8) -> Replica {
    tick(fresh(boxes, own), 100 + i32::from(own)).replica
}

fn ack(sender: u8, period: u32, view: u32) -> Frame {
    Frame {
        kind: ACK,
        sender,
        period,
        view,
        ..Frame::default()
    }
}

fn estimate(sender: u8, period: u32, view: u32, bases: (u32, u32)) -> Frame {
    Frame {
        kind: ESTIMATE,
        sender,
        period,
        view,
        base_view: bases.0,
        base_period: bases.1,
        state: [i32::from(sender) * 10, 0, 0, 0, 0, 0],
        readings: Readings::default(),
    }
}

fn of_view(kind: u8, sender: u8, period: u32, view: u32) -> Frame {
    Frame {
        kind,
        ..estimate(sender, period, view, (view, period))
    }
}

/// The places of the boxes heard when these boxes are.
fn places_of(numbers: &[usize]) -> [bool; HEARD_PLACES] {
    std::array::from_fn(|place| numbers.contains(&place))
}

/// The replica with every place marked that is no box's.
fn with_places_beyond(mut replica: Replica) -> Replica {
    replica.heard[0] = true;
    replica.heard[usize::from(replica.boxes) + 1..].fill(true);
    replica
}

fn assert_unchanged(before: Replica, taken: &Taken, answer: Answer) {
    assert_eq!(taken.answer, answer);
    assert_eq!(taken.replica, before);
    assert!(taken.frame.is_empty() && taken.command.is_empty());
}

fn assert_ignored(before: Replica, frame: &Frame) {
    assert_unchanged(before, &arrive_frame(before, frame), Answer::Ignored);
}

fn assert_refused(before: Replica, frame: &Frame, refusal: Refusal) {
    let taken = arrive_frame(before, frame);
    assert_unchanged(before, &taken, Answer::Refused(refusal));
}

/// Document 02, L8: "P6 becomes: N 4, a 2, b 2 refused by 18."
#[test]
fn p6_quorums() {
    assert_eq!(check_quorums(4, of(2, 2)), Err(Refusal::Quorums));
    let made = Replica::new(4, 1, of(2, 2), bench_settings());
    assert_eq!(made, Err(Refusal::Quorums));
    assert_eq!(Refusal::Quorums.number(), 18);
}

/// "a majority is N/2 rounded down, plus 1 (3 gives 2, 4 gives 3, 9 gives 5)"
#[test]
fn majorities_are_allowed() {
    assert_eq!((majority(3), majority(4), majority(9)), (2, 3, 5));
    for boxes in LEAST_BOXES..=MOST_BOXES {
        let quorums = Quorums::majorities(boxes);
        assert_eq!(quorums, of(majority(boxes), majority(boxes)));
        assert_eq!(check_quorums(boxes, quorums), Ok(()));
    }
}

#[test]
fn p7_coordinator() {
    assert_eq!(coordinator(3, 2), 3);
    assert_eq!(coordinator(3, 3), 1);
}

#[test]
fn p9_p10_best() {
    let heard = |from, base_view, base_period| Heard {
        from,
        base_view,
        estimate: Estimate {
            state: State::default(),
            readings: Readings::default(),
            base_period,
        },
    };
    assert!(heard(3, 5, 3).beats(&heard(2, 4, 4)));
    assert!(!heard(2, 4, 4).beats(&heard(3, 5, 3)));
    assert!(heard(3, 5, 4).beats(&heard(2, 5, 3)));
    assert!(heard(2, 5, 3).beats(&heard(3, 5, 3)));
    assert!(!heard(3, 5, 3).beats(&heard(2, 5, 3)));
}

#[test]
fn n_2_and_10_are_refused() {
    let new = |boxes, own| {
        let quorums = Quorums::majorities(boxes);
        Replica::new(boxes, own, quorums, bench_settings()).err()
    };
    assert_eq!(new(2, 1), Some(Refusal::Group));
    assert_eq!(new(10, 1), Some(Refusal::Group));
    assert_eq!(new(3, 0), Some(Refusal::Group));
    assert_eq!(new(3, 4), Some(Refusal::Group));
    assert_eq!(new(3, 3), None);
    assert_eq!(new(9, 9), None);
}

#[test]
fn first_tick_takes_the_readings_without_an_update() {
    let mut settings = bench_settings();
    settings.a[0][0] = 32_768;
    settings.start = [7; 6];
    let taken = tick(Replica::new(3, 2, of(2, 2), settings).unwrap(), 100);
    assert_eq!(taken.answer, Answer::Ok);
    assert_eq!(taken.replica.estimate.state, [7, 0, 0, 0, 0, 0]);
    assert_eq!(taken.replica.estimate.readings.values, [100, 0, 0, 0]);
    assert_eq!(taken.replica.period, 1);
    // 7/2 and half of the error 100 − 7.
    let second = tick(taken.replica, 0).replica;
    assert_eq!(second.estimate.state[0], 50);
}

#[test]
fn one_period_from_propose_to_decide() {
    let proposed = tick(fresh(4, 1), 100);
    assert_eq!(proposed.sent().kind, PROPOSE);
    assert_eq!(proposed.replica.estimate.base_period, 1);
    let follower = arrive(ticked(4, 2), &proposed.frame);
    assert_eq!(follower.sent(), ack(2, 1, 0));
    assert_eq!(follower.replica.estimate, proposed.replica.estimate);
    let again = arrive(follower.replica, &proposed.frame);
    assert_eq!(again.sent(), ack(2, 1, 0));

    let first = arrive(proposed.replica, &follower.frame);
    assert_eq!(first.answer, Answer::Ok);
    assert!(first.frame.is_empty() && !first.replica.decided);
    assert_ignored(first.replica, &ack(2, 1, 0));
    let decided = arrive_frame(first.replica, &ack(3, 1, 0));
    assert_eq!(decided.sent().kind, DECIDE);
    assert_eq!(decided.command, [5, 1, 0, 0, 1, 0, 0, 0, 50, 0, 0, 0]);
    assert!(decided.replica.decided);

    let told = arrive(ticked(4, 4), &decided.frame);
    assert!(told.frame.is_empty() && told.replica.decided);
    assert_eq!(told.command, decided.command);
    assert_ignored(told.replica, &of_view(PROPOSE, 1, 1, 0));
    assert_unchanged(told.replica, &give_up(told.replica), Answer::Ignored);
}

#[test]
fn nothing_but_a_tick_happens_in_period_0() {
    let replica = fresh(3, 2);
    assert_unchanged(replica, &give_up(replica), Answer::Ignored);
    assert_ignored(replica, &of_view(PROPOSE, 1, 0, 0));
    assert_ignored(replica, &of_view(DECIDE, 1, 0, 0));
    assert_ignored(replica, &estimate(1, 0, 1, (0, 0)));
}

#[test]
fn giving_up_sends_the_estimate_or_waits_for_others() {
    let third = give_up(ticked(3, 3));
    let sent = third.sent();
    assert_eq!((sent.kind, sent.view, sent.base_view), (ESTIMATE, 1, 0));
    assert_eq!(third.replica.mode, Mode::Normal);

    let second = give_up(ticked(3, 2));
    assert!(second.frame.is_empty());
    assert_eq!(second.replica.mode, Mode::ViewChange);
    assert_eq!(second.replica.heard, places_of(&[2]));
    assert!(second.replica.has_best);
    assert_eq!(second.replica.best.from, 2);

    let coordinator = ticked(3, 1);
    assert_unchanged(coordinator, &give_up(coordinator), Answer::Ignored);

    // A tick in view-change mode raises the view again.
    let next = tick(second.replica, 0);
    assert_eq!((next.replica.view, next.replica.mode), (2, Mode::Normal));
    assert_eq!((next.sent().kind, next.sent().view), (ESTIMATE, 2));
}

#[test]
fn at_b_estimates_the_best_is_proposed() {
    let waiting = give_up(ticked(4, 2)).replica;
    let one = arrive_frame(waiting, &estimate(3, 1, 1, (0, 1)));
    assert_eq!(one.answer, Answer::Ok);
    assert!(one.frame.is_empty());
    assert_ignored(one.replica, &estimate(3, 1, 1, (0, 0)));
    let two = arrive_frame(one.replica, &estimate(4, 1, 1, (0, 0)));
    let sent = two.sent();
    assert_eq!((sent.kind, sent.state[0]), (PROPOSE, 30));
    assert_eq!((sent.base_view, sent.base_period), (1, 1));
    assert_eq!(two.replica.mode, Mode::Normal);
    assert_eq!(two.replica.heard, places_of(&[2]));
    assert!(!two.replica.has_best);
    assert_eq!(two.replica.best, Heard::default());
    assert_ignored(two.replica, &estimate(1, 1, 1, (0, 0)));
}

#[test]
fn the_own_estimate_is_weighed() {
    let waiting = give_up(ticked(3, 2)).replica;
    let taken = arrive_frame(waiting, &estimate(3, 1, 1, (0, 0)));
    // Equal bases: box 2's own estimate, not box 3's 30.
    assert_eq!(taken.sent().state[0], 0);
    assert_eq!(taken.sent().readings.values[0], 102);
}

#[test]
fn an_estimate_at_a_higher_view_is_never_a_second_one() {
    let proposed = tick(fresh(4, 1), 100).replica;
    let heard = arrive_frame(proposed, &ack(2, 1, 0)).replica;
    let entered = arrive_frame(heard, &estimate(2, 1, 4, (0, 0)));
    assert_eq!(entered.answer, Answer::Ok);
    assert!(entered.frame.is_empty());
    assert_eq!(entered.replica.view, 4);
    assert_eq!(entered.replica.mode, Mode::ViewChange);
    assert_eq!(entered.replica.heard, places_of(&[1, 2]));
    assert_ignored(entered.replica, &ack(3, 1, 4));
}

#[test]
fn frames_of_other_periods_and_views_are_ignored() {
    let mut replica = ticked(3, 2);
    replica.view = 4;
    assert_ignored(replica, &of_view(PROPOSE, 1, 2, 6));
    assert_ignored(replica, &of_view(DECIDE, 1, 0, 6));
    assert_ignored(replica, &of_view(PROPOSE, 1, 1, 3));
    assert_ignored(replica, &of_view(DECIDE, 1, 1, 3));
    assert_ignored(replica, &estimate(3, 1, 1, (0, 0)));
    assert_ignored(replica, &estimate(3, 1, 4, (0, 0)));
    assert_ignored(replica, &ack(3, 1, 1));
    assert_ignored(replica, &ack(3, 1, 7));
}

#[test]
fn a_higher_view_is_adopted_with_its_frame() {
    let taken = arrive_frame(ticked(3, 2), &of_view(PROPOSE, 3, 1, 5));
    assert_eq!(taken.sent(), ack(2, 1, 5));
    assert_eq!((taken.replica.view, taken.replica.base_view), (5, 5));
    assert_eq!(taken.replica.estimate.state[0], 30);
}

#[test]
fn frame_refusals_come_in_order_and_before_ignoring() {
    let replica = fresh(3, 2);
    let taken = arrive(replica, &[0; 20]);
    assert_unchanged(replica, &taken, Answer::Refused(Refusal::Form));
    for sender in [0, 2, 4, 255] {
        let frame = of_view(PROPOSE, sender, 9, 0);
        assert_refused(replica, &frame, Refusal::Sender);
    }
    let bad_bases = Frame {
        base_view: 7,
        ..of_view(PROPOSE, 3, 9, 0)
    };
    assert_refused(replica, &bad_bases, Refusal::Coordinator);
    assert_refused(replica, &ack(1, 9, 0), Refusal::Coordinator);
    let frame = estimate(1, 9, 2, (0, 0));
    assert_refused(replica, &frame, Refusal::Coordinator);
    assert_refused(fresh(3, 1), &estimate(2, 1, 0, (0, 0)), Refusal::Bases);
}

#[test]
fn base_fields_are_refused_by_11() {
    let replica = fresh(3, 2);
    let bad = [
        Frame {
            base_view: 1,
            ..ack(1, 1, 1)
        },
        Frame {
            base_period: 1,
            ..ack(1, 1, 1)
        },
        Frame {
            base_view: 1,
            ..of_view(PROPOSE, 1, 1, 0)
        },
        Frame {
            base_period: 0,
            ..of_view(DECIDE, 1, 1, 0)
        },
        estimate(1, 1, 1, (1, 1)),
        estimate(1, 1, 1, (0, 2)),
    ];
    for frame in bad {
        assert_refused(replica, &frame, Refusal::Bases);
    }
}

#[test]
fn settings_handed_in_come_before_the_areas_and_these_before_the_event() {
    let step = |replica: Replica, lengths: (usize, usize)| {
        let (mut frame, mut command) = (vec![0; lengths.0], vec![0; lengths.1]);
        let areas = Areas {
            frame: &mut frame,
            command: &mut command,
        };
        let row = [Reading::Count(0); 4];
        replica.tick(&row, areas).1.answer
    };
    let mut replica = fresh(3, 2);
    assert_eq!(step(replica, (69, 24)), Answer::Refused(Refusal::Marks));
    replica.period = u32::MAX;
    assert_eq!(
        step(replica, (69, 24)),
        Answer::Refused(Refusal::LastPeriod)
    );
    assert_eq!(step(replica, (68, 24)), Answer::Refused(Refusal::Areas));
    assert_eq!(step(replica, (69, 23)), Answer::Refused(Refusal::Areas));
    replica.quorums = of(1, 3);
    assert_eq!(step(replica, (0, 0)), Answer::Refused(Refusal::Quorums));
    replica.settings.lower[0] = 1;
    replica.settings.upper[0] = 0;
    assert_eq!(step(replica, (0, 0)), Answer::Refused(Refusal::Limits));
    replica.settings.a[0][0] = i32::MAX;
    assert_eq!(step(replica, (0, 0)), Answer::Refused(Refusal::Coefficient));
    replica.settings.n = 255;
    assert_eq!(step(replica, (0, 0)), Answer::Refused(Refusal::Sizes));
    for (boxes, own) in [(0, 0), (2, 1), (255, 200), (3, 0), (3, 4)] {
        (replica.boxes, replica.own) = (boxes, own);
        assert_eq!(step(replica, (0, 0)), Answer::Refused(Refusal::Group));
    }
}

#[test]
fn the_last_view_is_not_raised() {
    let mut replica = ticked(3, 2);
    // 4294967295 mod 3 is 0: box 1 coordinates.
    replica.view = u32::MAX;
    let refused = Answer::Refused(Refusal::LastView);
    assert_unchanged(replica, &give_up(replica), refused);
    assert_eq!(tick(replica, 1).answer, Answer::Ok);
    replica.mode = Mode::ViewChange;
    assert_unchanged(replica, &tick(replica, 1), refused);
    let mut coordinator = replica;
    coordinator.own = 1;
    assert_unchanged(coordinator, &give_up(coordinator), refused);
    coordinator.mode = Mode::Normal;
    assert_unchanged(coordinator, &give_up(coordinator), Answer::Ignored);
}

#[test]
fn boxes_above_n_are_not_counted_and_stay_until_emptied() {
    let proposed = with_places_beyond(tick(fresh(4, 1), 1).replica);
    let acknowledged = arrive_frame(proposed, &ack(2, 1, 0));
    assert!(acknowledged.frame.is_empty() && !acknowledged.replica.decided);
    let expected = places_of(&[0, 1, 2, 5, 6, 7, 8, 9]);
    assert_eq!(acknowledged.replica.heard, expected);
    let decided = arrive_frame(acknowledged.replica, &ack(3, 1, 0)).replica;
    assert!(decided.decided);
    assert_eq!(decided.heard, places_of(&[0, 1, 2, 3, 5, 6, 7, 8, 9]));

    let waiting = with_places_beyond(give_up(ticked(4, 2)).replica);
    let heard = arrive_frame(waiting, &estimate(3, 1, 1, (0, 0)));
    assert!(heard.frame.is_empty() && heard.replica.mode == Mode::ViewChange);
    assert_eq!(heard.replica.heard, places_of(&[0, 2, 3, 5, 6, 7, 8, 9]));
}

#[test]
fn whatever_empties_the_boxes_heard_empties_every_place() {
    let emptied = |taken: Taken, left: &[usize]| {
        assert_eq!(taken.answer, Answer::Ok);
        assert_eq!(taken.replica.heard, places_of(left));
    };
    let follower = with_places_beyond(ticked(4, 3));
    let coordinator = with_places_beyond(ticked(4, 1));
    let next = with_places_beyond(ticked(4, 2));
    emptied(tick(follower, 1), &[]);
    emptied(tick(coordinator, 1), &[1]);
    emptied(give_up(follower), &[]);
    emptied(give_up(next), &[2]);
    emptied(arrive_frame(follower, &of_view(PROPOSE, 1, 1, 0)), &[]);
    emptied(arrive_frame(follower, &of_view(DECIDE, 1, 1, 0)), &[]);
    let entering = estimate(3, 1, 4, (0, 0));
    emptied(arrive_frame(coordinator, &entering), &[1, 3]);
    let mut waiting = with_places_beyond(give_up(ticked(4, 2)).replica);
    waiting.heard[1] = true;
    emptied(arrive_frame(waiting, &estimate(3, 1, 1, (0, 0))), &[2]);
}

#[test]
fn a_best_estimate_that_is_not_there_takes_no_part() {
    let mut replica = give_up(ticked(3, 2)).replica;
    replica.has_best = false;
    replica.best.base_view = 77;
    let taken = arrive_frame(replica, &estimate(3, 1, 1, (0, 1)));
    assert_eq!(taken.sent().state[0], 30);
}

#[test]
fn more_boxes_heard_than_needed_go_on_too() {
    let mut replica = tick(fresh(5, 1), 1).replica;
    replica.heard[1..=4].fill(true);
    assert_ignored(replica, &ack(2, 1, 0));
    let taken = arrive_frame(replica, &ack(5, 1, 0));
    assert!(taken.replica.decided);
}

#[test]
fn a_best_estimate_handed_in_takes_part() {
    let mut replica = give_up(ticked(3, 2)).replica;
    replica.best.base_view = 77;
    replica.best.estimate.state[0] = 1234;
    let taken = arrive_frame(replica, &estimate(3, 1, 1, (0, 1)));
    assert_eq!(taken.sent().state[0], 1234);
}

#[test]
fn bases_sent_are_those_of_the_rules() {
    let mut replica = tick(fresh(3, 1), 1).replica;
    replica.base_view = 9;
    replica.estimate.base_period = 9;
    let decided = arrive_frame(replica, &ack(2, 1, 0)).sent();
    assert_eq!((decided.base_view, decided.base_period), (0, 1));
    let mut follower = ticked(3, 3);
    follower.base_view = 9;
    follower.estimate.base_period = 9;
    let sent = give_up(follower).sent();
    assert_eq!((sent.base_view, sent.base_period), (9, 9));
}

#[test]
fn odd_readings_handed_in_are_sent_as_the_law_reads_them() {
    let mut replica = ticked(3, 3);
    replica.estimate.readings = Readings {
        marks: 0b1111_1110,
        values: [5; 4],
    };
    let sent = give_up(replica).sent();
    assert_eq!(sent.readings, Readings::default());
}

/// A small generator of numbers for the histories below.
struct Random(u64);

impl Random {
    fn below(&mut self, bound: usize) -> usize {
        self.0 ^= self.0 << 13;
        self.0 ^= self.0 >> 7;
        self.0 ^= self.0 << 17;
        (self.0 >> 20) as usize % bound
    }

    /// Of any kind: counts and singles of the same size, now and then missing,
    /// a single that counts as missing, or so far out that an e(j) is clamped.
    fn reading(&mut self) -> Reading {
        let count = self.below(1000) as i32 - 500;
        match self.below(10) {
            0 => Reading::Missing,
            1 => Reading::Newtons([f32::NAN, f32::INFINITY, -40_000.0][self.below(3)]),
            2 => Reading::Count([i32::MIN, i32::MAX][self.below(2)]),
            3..=5 => Reading::Newtons((count as f32 + 0.5) / 65_536.0),
            _ => Reading::Count(count),
        }
    }
}

/// The first box of the least period.
fn behind(replicas: &[Replica]) -> usize {
    let places = 0..replicas.len();
    places.min_by_key(|&place| replicas[place].period).unwrap()
}

/// Delivers any frame sent, mostly one of the last, to any box; another one
/// if that comes to nothing, a few times over.
fn deliver(replicas: &[Replica], sent: &[Vec<u8>], random: &mut Random) -> (usize, Taken) {
    let recent = sent.len().saturating_sub(6);
    let mut tries = 0;
    loop {
        let from = if random.below(6) == 0 { 0 } else { recent };
        let bytes = &sent[from + random.below(sent.len() - from)];
        let place = random.below(replicas.len());
        let taken = arrive(replicas[place], bytes);
        tries += 1;
        if taken.answer == Answer::Ok || tries == 5 {
            return (place, taken);
        }
    }
}

/// One history of demand 3: its rows and its decided states, by period, each
/// with its command.
#[derive(Default)]
struct History {
    rows: Vec<Vec<Readings>>,
    decided: Vec<Vec<(State, Vec<u8>)>>,
}

impl History {
    fn random(boxes: u8, quorums: Quorums, settings: Settings, random: &mut Random) -> History {
        let mut history = History::default();
        let mut replicas: Vec<Replica> = (1..=boxes)
            .map(|own| Replica::new(boxes, own, quorums, settings).unwrap())
            .collect();
        let mut sent: Vec<Vec<u8>> = Vec::new();
        for _ in 0..150 {
            let any = random.below(replicas.len());
            let (place, taken) = match random.below(20) {
                0 => (any, history.tick(replicas[any], random)),
                // Mostly a box that is behind the others, so that periods meet.
                1 | 2 => {
                    let place = behind(&replicas);
                    (place, history.tick(replicas[place], random))
                }
                3..=5 => (any, give_up(replicas[any])),
                _ if sent.is_empty() => continue,
                _ => deliver(&replicas, &sent, random),
            };
            if !taken.command.is_empty() {
                history.note_decision(&taken);
            }
            if !taken.frame.is_empty() {
                sent.push(taken.frame);
            }
            replicas[place] = taken.replica;
        }
        history
    }

    /// Document 02: "In the run of demand 3 a reading means its converted
    /// value."
    fn tick(&mut self, replica: Replica, random: &mut Random) -> Taken {
        let row = row_of(random.reading());
        let taken = tick_with(replica, &row);
        let period = taken.replica.period as usize;
        self.rows
            .resize_with(self.rows.len().max(period + 1), Vec::new);
        self.rows[period].push(convert_row(&row));
        taken
    }

    fn note_decision(&mut self, taken: &Taken) {
        let period = taken.replica.period as usize;
        self.decided
            .resize_with(self.decided.len().max(period + 1), Vec::new);
        let state = taken.replica.updated().unwrap().state;
        self.decided[period].push((state, taken.command.clone()));
    }

    /// Every state that the single controller can hold, step by step; a
    /// decided period leaves it the decided state alone. With each state stands
    /// whether its update was limited, since a state alone gives no byte 2.
    fn check(&self, settings: &Settings) {
        let mut start = State::default();
        start[0] = settings.start[0];
        let mut states = vec![(start, false)];
        for period in 1..self.decided.len() {
            let rows = &self.rows[period];
            let updated = |x: &State, row| law::update(settings, x, row).unwrap();
            states = states
                .iter()
                .flat_map(|(x, _)| rows.iter().map(|row| updated(x, row)))
                .map(|updated| (updated.state, updated.limited))
                .collect();
            states.sort_unstable();
            states.dedup();
            for (state, command) in &self.decided[period] {
                states.retain(|(reached, limited)| {
                    reached == state
                        && *command == command_k(settings, period as u32, reached, *limited)
                });
                assert!(!states.is_empty(), "no controller decides period {period}");
            }
        }
    }

    fn commands(&self) -> impl Iterator<Item = &Vec<u8>> {
        self.decided.iter().flatten().map(|(_, command)| command)
    }
}

/// The bytes of command k: of the state after step k, and of whether its update
/// was limited.
fn command_k(settings: &Settings, k: u32, x: &State, limited: bool) -> Vec<u8> {
    let command = law::command(settings, x).unwrap();
    let mark = u8::from(limited || command.limited);
    let fields = [k.to_le_bytes(), command.values[0].to_le_bytes()];
    [&[5, 1, mark, 0], fields.as_flattened()].concat()
}

#[test]
fn random_histories_satisfy_demand_3() {
    let mut random = Random(0x9E37_79B9_7F4A_7C15);
    let mut settings = bench_settings();
    settings.a[0][0] = 60_000;
    settings.start[0] = 700;
    // Commands by byte 2, with limits that change many of them and with the
    // widest.
    let mut decisions = [[0; 2]; 2];
    for round in 0..3000 {
        let boxes = 3 + (round % 3) as u8;
        let pairs = allowed(boxes);
        let quorums = pairs[random.below(pairs.len())];
        let widest = round % 2;
        let limits = [(-200, 300), (i32::MIN, i32::MAX)];
        (settings.lower[0], settings.upper[0]) = limits[widest];
        let history = History::random(boxes, quorums, settings, &mut random);
        history.check(&settings);
        for command in history.commands() {
            decisions[widest][usize::from(command[2])] += 1;
        }
    }
    let decisions = decisions.as_flattened();
    assert!(decisions.iter().sum::<usize>() > 3000, "{decisions:?}");
    assert!(decisions.iter().all(|&count| count > 30), "{decisions:?}");
}
