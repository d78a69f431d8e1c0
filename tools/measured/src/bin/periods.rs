//! Decided periods of the second implementation, as crate periods plays them: each byte of standard input is a period, `a` of three boxes, `b` of
//! nine, `c` of three whose Propose is lost. The last command of each group is printed.

use std::array;
use std::io::{self, Read};

use measured::boxes::Member;
use measured::group::{Law, VALUES};
use measured::periods::Groups;
use second::reading::{Reading, Row};
use second::replica::{Areas, Quorums, Replica};

/// The calls that are counted, each in a function that is not inlined, so that callgrind has them by name.
mod steps {
    use super::*;

    #[inline(never)]
    pub fn tick(replica: Replica, row: &Row, areas: Areas) -> (Replica, usize) {
        let (replica, step) = replica.tick(row, areas);
        (replica, step.frame_length)
    }

    #[inline(never)]
    pub fn give_up(replica: Replica, areas: Areas) -> (Replica, usize) {
        let (replica, step) = replica.give_up(areas);
        (replica, step.frame_length)
    }

    #[inline(never)]
    pub fn arrive(replica: Replica, bytes: &[u8], areas: Areas) -> (Replica, usize) {
        let (replica, step) = replica.arrive(bytes, areas);
        (replica, step.frame_length)
    }
}

/// A box that is its replica, and the readings of its ticks.
struct Placed {
    replica: Replica,
    row: Row,
}

impl Placed {
    fn new(law: &Law, boxes: u8, own: u8) -> Placed {
        let quorums = Quorums::majorities(boxes);
        let replica = Replica::new(boxes, own, quorums, law.second_settings());
        Placed {
            replica: replica.expect("settings that are taken"),
            row: array::from_fn(|j| match j < law.settings.m {
                true => Reading::Count(VALUES[j]),
                false => Reading::Missing,
            }),
        }
    }

    fn becomes(&mut self, (replica, sent): (Replica, usize)) -> usize {
        self.replica = replica;
        sent
    }
}

impl Member for Placed {
    fn tick(&mut self, areas: Areas) -> usize {
        let stepped = steps::tick(self.replica, &self.row, areas);
        self.becomes(stepped)
    }

    fn give_up(&mut self, areas: Areas) -> usize {
        let stepped = steps::give_up(self.replica, areas);
        self.becomes(stepped)
    }

    fn arrive(&mut self, bytes: &[u8], areas: Areas) -> usize {
        let stepped = steps::arrive(self.replica, bytes, areas);
        self.becomes(stepped)
    }
}

fn main() -> io::Result<()> {
    let mut letters = Vec::new();
    io::stdin().read_to_end(&mut letters)?;
    let mut groups = Groups::new(Placed::new);
    for letter in letters {
        groups.play(letter);
    }
    print!("{}", groups.commands());
    Ok(())
}
