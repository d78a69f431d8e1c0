//! Document 02, L4: "A box that stops and returns is now in every history the
//! group must withstand". Histories of demand 3 with power cycles, at a host
//! that keeps its conditions, and at hosts that break one each.

mod one_run;
mod pairs;
mod random;
mod stored;

use one_run::{lend, Left, Sent};
use random::Random;
use second::law::{Readings, Settings};
use second::reading::convert_row;
use second::replica::{Areas, Quorums, Replica, Step};
use stored::Stored;

/// What a host does with records.
#[derive(Clone, Copy, PartialEq, Eq)]
enum Host {
    /// As document 02 asks.
    Right,
    /// What a step sends leaves before its record is stored.
    SendsFirst,
    /// "none was stored after one made later": here one is.
    StoresEarlier,
    /// "the last one stored is returned": here the one before.
    ReturnsEarlier,
}

/// A box and its host's storage.
struct Station {
    replica: Replica,
    rows: Vec<Readings>,
    /// The last record, and those stored before it.
    stored: Vec<Stored>,
    /// What the last step sent and has not left.
    waiting: Option<Sent>,
}

struct Group {
    host: Host,
    stations: Vec<Station>,
    left: Left,
    returns: usize,
}

impl Station {
    fn new(replica: Replica) -> Station {
        Station {
            replica,
            rows: Vec::new(),
            stored: vec![Stored::new(&replica, &[])],
            waiting: None,
        }
    }

    fn store(&mut self) {
        self.stored.push(Stored::new(&self.replica, &self.rows));
    }

    /// The box stops and returns: what has not left is gone.
    fn come_back(&mut self, host: Host, missed: u32) {
        if host == Host::ReturnsEarlier && self.stored.len() > 1 {
            self.stored.pop();
        }
        let last = self.stored.last().unwrap();
        (self.replica, self.rows) = last.come_back(missed);
        self.waiting = None;
    }
}

impl Group {
    fn new(host: Host, boxes: u8, quorums: Quorums, settings: Settings) -> Group {
        let making = |own| Station::new(Replica::new(boxes, own, quorums, settings).unwrap());
        Group {
            host,
            stations: (1..=boxes).map(making).collect(),
            left: Left::default(),
            returns: 0,
        }
    }

    fn run(&mut self, random: &mut Random) {
        for _ in 0..200 {
            let any = random.below(self.stations.len());
            let place = match random.below(20) {
                0 => self.tick(any, random),
                // Mostly a box that is behind the others, so that periods meet.
                1 | 2 => self.tick(self.behind(), random),
                3..=5 => self.step(any, Replica::give_up),
                _ => self.deliver(random),
            };
            match random.below(12) {
                0 => self.come_back(place, random),
                // Nothing of this step leaves.
                1 => {}
                _ => self.store_and_send(place, random),
            }
        }
    }

    /// The first box of the least period.
    fn behind(&self) -> usize {
        let period = |&place: &usize| self.stations[place].replica.period;
        (0..self.stations.len()).min_by_key(period).unwrap()
    }

    fn tick(&mut self, place: usize, random: &mut Random) -> usize {
        let row = random.row();
        self.stations[place].rows.push(convert_row(&row));
        self.step(place, |replica, areas| replica.tick(&row, areas))
    }

    /// Delivers any frame that left, mostly one of the last, to any box;
    /// another one if that comes to nothing, a few times over.
    fn deliver(&mut self, random: &mut Random) -> usize {
        let recent = self.left.recent(6);
        for _ in 0..5 {
            let place = random.below(self.stations.len());
            let Some(frame) = self.left.frame(recent, random) else {
                break;
            };
            let before = self.stations[place].replica;
            self.step(place, |replica, areas| replica.arrive(&frame, areas));
            if self.stations[place].replica != before {
                return place;
            }
        }
        0
    }

    fn step(
        &mut self,
        place: usize,
        event: impl FnOnce(Replica, Areas) -> (Replica, Step),
    ) -> usize {
        let station = &mut self.stations[place];
        let (replica, sent) = lend(|areas| event(station.replica, areas));
        if let Some(sent) = sent {
            station.replica = replica;
            station.waiting = Some(sent.clone());
            if self.host == Host::SendsFirst {
                self.left.add(sent);
            }
        }
        place
    }

    /// "provided each frame or command left after its step's record was
    /// stored": the record is that of the last step.
    fn store_and_send(&mut self, place: usize, random: &mut Random) {
        let station = &mut self.stations[place];
        let before = station.stored.last().unwrap().clone();
        station.store();
        if self.host == Host::StoresEarlier && random.below(4) == 0 {
            station.stored.push(before);
        }
        if let Some(sent) = station.waiting.take() {
            self.left.add(sent);
        }
    }

    fn come_back(&mut self, place: usize, random: &mut Random) {
        self.stations[place].come_back(self.host, random.missed());
        self.returns += 1;
    }
}

/// How many of the histories no single controller's run gives, with how many
/// commands left and how many boxes returned in all.
fn violations(host: Host) -> (usize, usize, usize) {
    let mut returns = 0;
    let run = |boxes, quorums, settings, random: &mut Random| {
        let mut group = Group::new(host, boxes, quorums, settings);
        group.run(random);
        returns += group.returns;
        let rows = group.stations.into_iter().map(|station| station.rows);
        (group.left, rows.collect())
    };
    let (violations, commands) = one_run::violations(&stored::groups(), run);
    assert!(commands.iter().all(|&count| count > 300), "{commands:?}");
    (violations, commands.iter().sum(), returns)
}

#[test]
fn histories_with_power_cycles_satisfy_demand_3() {
    let (violations, commands, returns) = violations(Host::Right);
    assert_eq!(violations, 0);
    assert!(commands > 3000, "only {commands} commands");
    assert!(returns > 10_000, "only {returns} returns");
}

/// Changes: "some that break one condition each, where the check must find a
/// violation: else the check is blind".
#[test]
fn hosts_that_break_a_condition_are_found() {
    for host in [Host::SendsFirst, Host::StoresEarlier, Host::ReturnsEarlier] {
        let (violations, ..) = violations(host);
        assert!(violations > 10, "{violations}");
    }
}
