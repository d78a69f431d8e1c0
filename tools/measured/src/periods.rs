//! The decided periods of crate periods: the same frames to the same boxes in the same order, and the same readings.

use second::frame;

use crate::boxes::{Boxes, Member};
use crate::group::Law;

/// The groups of periods a, b and c.
pub struct Groups<M> {
    a: Boxes<M>,
    b: Boxes<M>,
    c: Boxes<M>,
    /// The place of the box in group c whose view it is.
    coordinator: usize,
}

impl<M: Member> Groups<M> {
    /// Each box is made by its law, N and its own number.
    pub fn new(made: impl Fn(&Law, u8, u8) -> M) -> Groups<M> {
        let (small, large) = (Law::new(4, 2, 1), Law::new(6, 4, 4));
        Groups {
            a: Boxes::new(3, |own| made(&small, 3, own)),
            b: Boxes::new(9, |own| made(&large, 9, own)),
            c: Boxes::new(3, |own| made(&small, 3, own)),
            coordinator: 0,
        }
    }

    pub fn play(&mut self, letter: u8) {
        match letter {
            b'a' => normal(&mut self.a, 2),
            b'b' => normal(&mut self.b, 1),
            b'c' => self.coordinator = takeover(&mut self.c, self.coordinator),
            _ => {}
        }
    }

    /// The last command of each group, as program periods prints it.
    pub fn commands(&self) -> String {
        let groups = [("a", 1, &self.a), ("b", 4, &self.b), ("c", 1, &self.c)];
        let line = |(letter, p, group): (&str, usize, &Boxes<M>)| {
            let values = frame::command_values(&group.command);
            let values: Vec<String> = values.iter().take(p).map(i32::to_string).collect();
            format!("{letter} {}\n", values.join(","))
        };
        groups.map(line).concat()
    }

    /// All boxes of all groups.
    pub fn members(&self) -> impl Iterator<Item = &M> {
        [&self.a, &self.b, &self.c]
            .into_iter()
            .flat_map(|group| &group.members)
    }
}

/// Box 1 proposes, and everything arrives.
pub fn normal<M: Member>(group: &mut Boxes<M>, at_once: usize) {
    let proposal = group.tick(0);
    let others: Vec<usize> = (1..group.members.len()).collect();
    for &other in &others {
        group.tick(other);
    }
    decide(group, 0, &others, at_once, &proposal);
}

/// The Propose of a group of three is lost: both others give the view up, and the next box takes over. Gives its place.
fn takeover<M: Member>(group: &mut Boxes<M>, coordinator: usize) -> usize {
    let next = (coordinator + 1) % 3;
    let last = (coordinator + 2) % 3;
    for place in [coordinator, next, last] {
        group.tick(place);
    }
    group.give_up(next);
    let estimate = group.give_up(last);
    let proposal = group.arrive(next, &estimate);
    decide(group, next, &[coordinator, last], 2, &proposal);
    next
}

/// The Propose goes to so many others at once, then their Acks come back, and so on; in the end the Decide goes to all others.
fn decide<M: Member>(
    group: &mut Boxes<M>,
    coordinator: usize,
    others: &[usize],
    at_once: usize,
    proposal: &[u8],
) {
    let mut decision = Vec::new();
    for some in others.chunks(at_once) {
        let acks: Vec<Vec<u8>> = some
            .iter()
            .map(|&other| group.arrive(other, proposal))
            .collect();
        for ack in acks {
            // Empty but for the Ack that decides.
            decision.append(&mut group.arrive(coordinator, &ack));
        }
    }
    for &other in others {
        group.arrive(other, &decision);
    }
}
