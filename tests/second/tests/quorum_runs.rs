//! Document 02, L8: "demand 3 holds for all allowed pairs". Histories of groups
//! of three to nine boxes with each of their pairs, in which many boxes give up
//! a view together, so that take-overs come to their end beside decisions; and
//! two planted faults with which less than a + b above N is enough, where the
//! check must find violations.

mod one_run;
mod pairs;
mod planted;
mod random;

use one_run::{lend, Left};
use planted::Case;
use random::Random;
use second::fault::Fault;
use second::law::{Readings, Settings};
use second::reading::convert_row;
use second::replica::{Areas, Quorums, Replica, Step};

const PERIODS: usize = 4;

impl Random {
    /// Boxes that are reached, by their places: all, mostly those that were
    /// not reached before, or any.
    fn some_of(&mut self, before: &[usize], boxes: usize) -> Vec<usize> {
        let way = self.below(4);
        let mut is_reached = |place: &usize| match way {
            0 => true,
            1 => !before.contains(place) || self.below(4) == 0,
            _ => self.below(2) == 0,
        };
        (0..boxes).filter(|place| is_reached(place)).collect()
    }
}

struct Group {
    replicas: Vec<Replica>,
    /// Of each box, by its ticks.
    rows: Vec<Vec<Readings>>,
    left: Left,
}

impl Group {
    /// No box where making refuses the pair.
    fn new(boxes: u8, quorums: Quorums, settings: Settings) -> Group {
        let making = |own| Replica::new(boxes, own, quorums, settings).ok();
        let replicas: Vec<Replica> = (1..=boxes).filter_map(making).collect();
        Group {
            rows: vec![Vec::new(); replicas.len()],
            replicas,
            left: Left::default(),
        }
    }

    fn run(&mut self, random: &mut Random) {
        for _ in 0..PERIODS {
            for place in 0..self.replicas.len() {
                self.catch_up(place, random);
            }
            let mut reached = random.some_of(&[], self.replicas.len());
            for _ in 0..3 {
                for _ in 0..4 * reached.len() {
                    self.deliver(&reached, random);
                }
                reached = random.some_of(&reached, self.replicas.len());
                self.give_up_together(&reached, random);
            }
        }
    }

    /// A tick, and often another where the box is behind the others; seldom
    /// none.
    fn catch_up(&mut self, place: usize, random: &mut Random) {
        let latest = self.replicas.iter().map(|replica| replica.period).max();
        while random.below(12) > 0 {
            let row = random.row();
            self.rows[place].push(convert_row(&row));
            self.step(place, |replica, areas| replica.tick(&row, areas));
            if Some(self.replicas[place].period) >= latest {
                return;
            }
        }
    }

    /// Any frame that left, mostly one of the last, at any of the boxes that
    /// are reached; another one if that comes to nothing, many times over.
    fn deliver(&mut self, reached: &[usize], random: &mut Random) {
        let recent = self.left.recent(2 * self.replicas.len());
        for _ in 0..24 {
            let place = reached[random.below(reached.len())];
            let Some(frame) = self.left.frame(recent, random) else {
                return;
            };
            if self.step(place, |replica, areas| replica.arrive(&frame, areas)) {
                return;
            }
        }
    }

    /// Most of the boxes that are reached give up until they are in one view
    /// that none has passed.
    fn give_up_together(&mut self, reached: &[usize], random: &mut Random) {
        let latest = self.replicas.iter().map(|replica| replica.view).max();
        let view = latest.unwrap_or(0) + random.below(3) as u32;
        for &place in reached {
            let stays = random.below(12) == 0;
            while !stays && self.replicas[place].view < view {
                if !self.step(place, Replica::give_up) {
                    break;
                }
            }
        }
    }

    /// Whether the step was ok; what it sends has left.
    fn step(
        &mut self,
        place: usize,
        event: impl FnOnce(Replica, Areas) -> (Replica, Step),
    ) -> bool {
        let (replica, sent) = lend(|areas| event(self.replicas[place], areas));
        self.replicas[place] = replica;
        let is_ok = sent.is_some();
        if let Some(sent) = sent {
            self.left.add(sent);
        }
        is_ok
    }
}

/// How many histories of these groups no single controller's run gives, with
/// how many commands left in all.
fn violations(groups: &[(u8, Quorums)]) -> (usize, usize) {
    let run = |boxes, quorums, settings, random: &mut Random| {
        let mut group = Group::new(boxes, quorums, settings);
        group.run(random);
        (group.left, group.rows)
    };
    let (violations, commands) = one_run::violations(groups, run);
    (violations, commands.iter().sum())
}

#[test]
fn every_allowed_pair_satisfies_demand_3() {
    for boxes in 3..=9 {
        for pair in pairs::allowed(boxes) {
            let (violations, commands) = violations(&[(boxes, pair); 40]);
            assert_eq!(violations, 0, "{boxes} {pair:?}");
            assert!(commands > 3, "{boxes} {pair:?}: only {commands} commands");
        }
    }
}

// The planted faults.

/// So many histories of a group with each pair that has this sum.
fn with_sum(boxes: u8, sum: u8) -> Vec<(u8, Quorums)> {
    let of_sum = |a: u8| Quorums {
        to_decide: a,
        to_propose: sum - a,
    };
    let pairs = (2..=sum - 2).map(of_sum);
    pairs.flat_map(|pair| [(boxes, pair); 120]).collect()
}

/// Whether in groups of some size there is no violation.
fn holds_somewhere(sum: fn(u8) -> u8) -> bool {
    let holds = |boxes| violations(&with_sum(boxes, sum(boxes))).0 == 0;
    (4..=9).any(holds)
}

/// Each is broken where groups of every size have a violation. Of the first
/// there is no command where making refuses its pairs; those of the second are
/// the tightest that it takes.
const CASES: [Case; 2] = [
    ("sum_of_n_taken", || holds_somewhere(|boxes| boxes)),
    ("quorum_smaller", || holds_somewhere(|boxes| boxes + 1)),
];

#[test]
fn cases_hold() {
    planted::hold(&CASES);
}

#[test]
fn each_fault_breaks_its_case_alone() {
    let names = [
        ("sum_of_n_taken", Fault::SumOfNTaken),
        ("quorum_smaller", Fault::QuorumSmaller),
    ];
    planted::each_breaks_its_case_alone(&names, &CASES);
}
