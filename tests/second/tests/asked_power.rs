//! Document 02, L6: "In demand 3 the commit counts as writing and sending what
//! its ask gave; none of it leaves earlier." Histories with asks, commits and
//! power cycles, at a host that keeps its conditions, and at hosts that break
//! one each.

mod one_run;
mod pairs;
mod random;
mod stored;

use one_run::{lend, Left, Sent};
use random::Random;
use second::law::{Readings, Settings};
use second::reading::{convert_row, Row};
use second::record::LENGTH;
use second::replica::{Areas, Quorums, Replica, Step};
use second::tickets::Ticketed;
use stored::Stored;

/// What a host does with asks.
#[derive(Clone, Copy, PartialEq, Eq)]
enum Host {
    /// As document 02 asks.
    Right,
    /// "none of it leaves earlier": here it leaves without a commit.
    SendsUncommitted,
    /// "a record of the unstepped replica counts as made before the ask's":
    /// here it is stored after the ask's, and then the ask is committed.
    StoresUnstepped,
}

enum Event {
    Tick(Row),
    GiveUp,
    Arrive(Vec<u8>),
}

impl Event {
    fn happen(&self, replica: Replica, areas: Areas) -> (Replica, Step) {
        match self {
            Event::Tick(row) => replica.tick(row, areas),
            Event::GiveUp => replica.give_up(areas),
            Event::Arrive(bytes) => replica.arrive(bytes, areas),
        }
    }

    /// The rows behind a replica after this event.
    fn rows(&self, before: &[Readings]) -> Vec<Readings> {
        let mut rows = before.to_vec();
        if let Event::Tick(row) = self {
            rows.push(convert_row(row));
        }
        rows
    }
}

/// What an ask gave that was not committed yet.
struct Ask {
    ticket: u64,
    stored: Stored,
    sent: Sent,
}

/// A box and its host's storage.
struct Station {
    held: Ticketed,
    rows: Vec<Readings>,
    stored: Stored,
}

impl Station {
    fn new(replica: Replica) -> Station {
        Station {
            held: Ticketed::new(replica),
            rows: Vec::new(),
            stored: Stored::new(&replica, &[]),
        }
    }

    /// Stores the replica as it is.
    fn store(&mut self) {
        self.stored = Stored::new(&self.held.replica, &self.rows);
    }

    /// What an event gives that is asked; none where it is not ok.
    fn ask(&mut self, event: &Event) -> Option<Ask> {
        let mut record = vec![0; LENGTH];
        let happen = |replica: Replica, areas: Areas| event.happen(replica, areas);
        let ((held, ticket), sent) = lend(|areas| {
            let (held, asked) = self.held.clone().ask(&mut record, areas, happen);
            ((held, asked.ticket), asked.step)
        });
        self.held = held;
        let rows = event.rows(&self.rows);
        sent.map(|sent| Ask {
            ticket,
            stored: Stored { record, rows },
            sent,
        })
    }

    fn commit(&mut self, ask: &Ask) {
        let (held, done) = self.held.clone().commit(ask.ticket);
        done.unwrap();
        self.held = held;
        self.rows = ask.stored.rows.clone();
    }

    /// What a plain step sends; none where it is not ok.
    fn step(&mut self, event: &Event) -> Option<Sent> {
        let happen = |replica: Replica, areas: Areas| event.happen(replica, areas);
        let (held, sent) = lend(|areas| self.held.clone().step(areas, happen));
        self.held = held;
        if sent.is_some() {
            self.rows = event.rows(&self.rows);
        }
        sent
    }

    /// Whether a plain step would be ok.
    fn takes(&self, event: &Event) -> bool {
        let (_, sent) = lend(|areas| event.happen(self.held.replica, areas));
        sent.is_some()
    }

    /// The box stops and returns. Its record may be that of an ask that was
    /// never committed: then the event has occurred.
    fn come_back(&mut self, missed: u32) {
        let (replica, rows) = self.stored.come_back(missed);
        self.held = self.held.clone().returned_as(replica);
        self.rows = rows;
    }
}

struct Group {
    host: Host,
    stations: Vec<Station>,
    left: Left,
    commits: usize,
}

impl Group {
    fn new(host: Host, boxes: u8, quorums: Quorums, settings: Settings) -> Group {
        let making = |own| Station::new(Replica::new(boxes, own, quorums, settings).unwrap());
        Group {
            host,
            stations: (1..=boxes).map(making).collect(),
            left: Left::default(),
            commits: 0,
        }
    }

    fn run(&mut self, random: &mut Random) {
        for _ in 0..200 {
            let any = random.below(self.stations.len());
            let (place, event) = match random.below(20) {
                0 => (any, Event::Tick(random.row())),
                // Mostly a box that is behind the others, so that periods meet.
                1 | 2 => (self.behind(), Event::Tick(random.row())),
                3..=5 => (any, Event::GiveUp),
                _ => self.delivery(random),
            };
            self.take(place, &event, random);
            if random.below(12) == 0 {
                self.stations[place].come_back(random.missed());
            }
        }
    }

    /// The first box of the least period.
    fn behind(&self) -> usize {
        let period = |&place: &usize| self.stations[place].held.replica.period;
        (0..self.stations.len()).min_by_key(period).unwrap()
    }

    /// Any frame that left, mostly one of the last, at any box; another one if
    /// that would come to nothing, a few times over.
    fn delivery(&self, random: &mut Random) -> (usize, Event) {
        let recent = self.left.recent(6);
        for _ in 0..5 {
            let place = random.below(self.stations.len());
            let Some(frame) = self.left.frame(recent, random) else {
                break;
            };
            let event = Event::Arrive(frame);
            if self.stations[place].takes(&event) {
                return (place, event);
            }
        }
        (0, Event::GiveUp)
    }

    /// Takes an event by a plain step or by an ask.
    fn take(&mut self, place: usize, event: &Event, random: &mut Random) {
        let station = &mut self.stations[place];
        if random.below(4) > 0 {
            if let Some(ask) = station.ask(event) {
                self.go_on(place, ask, random);
            }
            return;
        }
        if let Some(sent) = station.step(event) {
            station.store();
            self.left.add(sent);
        }
    }

    /// What the host does with an ask that is ok: a frame or command leaves
    /// after the commit and after its record was stored.
    fn go_on(&mut self, place: usize, ask: Ask, random: &mut Random) {
        let station = &mut self.stations[place];
        let way = random.below(8);
        // Before the ask's own record the unstepped one may be stored.
        if way == 0 {
            station.store();
        }
        let is_stored_first = way < 5;
        if is_stored_first {
            station.stored = ask.stored.clone();
        }
        match self.host {
            Host::StoresUnstepped if way == 1 => station.store(),
            Host::SendsUncommitted if way == 1 => return self.left.add(ask.sent),
            _ => {}
        }
        // "an event never committed has not occurred, unless its record is
        // returned"
        if way == 2 || way == 5 {
            return;
        }
        station.commit(&ask);
        self.commits += 1;
        // Of one that was committed and not stored nothing leaves.
        if way == 6 {
            return;
        }
        if !is_stored_first {
            station.store();
        }
        self.left.add(ask.sent);
    }
}

/// How many of the histories no single controller's run gives, with how many
/// commands left and how many asks were committed in all.
fn violations(host: Host) -> (usize, usize, usize) {
    let mut commits = 0;
    let run = |boxes, quorums, settings, random: &mut Random| {
        let mut group = Group::new(host, boxes, quorums, settings);
        group.run(random);
        commits += group.commits;
        let rows = group.stations.into_iter().map(|station| station.rows);
        (group.left, rows.collect())
    };
    let (violations, commands) = one_run::violations(&stored::groups(), run);
    assert!(commands.iter().all(|&count| count > 300), "{commands:?}");
    (violations, commands.iter().sum(), commits)
}

#[test]
fn histories_with_asks_satisfy_demand_3() {
    let (violations, commands, commits) = violations(Host::Right);
    assert_eq!(violations, 0);
    assert!(commands > 3000, "only {commands} commands");
    assert!(commits > 10_000, "only {commits} commits");
}

/// Changes: "without that clause demand 3 is false".
#[test]
fn hosts_that_break_a_condition_are_found() {
    for host in [Host::SendsUncommitted, Host::StoresUnstepped] {
        let (violations, ..) = violations(host);
        assert!(violations > 10, "{violations}");
    }
}
