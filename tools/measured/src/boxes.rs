//! Boxes of a group, each handed what the play says.

use second::frame::{COMMAND_AREA, FRAME_AREA};
use second::replica::Areas;

/// A box, whatever its replica is kept in. Each event gives the length of the frame that it sends.
pub trait Member {
    fn tick(&mut self, areas: Areas) -> usize;
    fn give_up(&mut self, areas: Areas) -> usize;
    fn arrive(&mut self, bytes: &[u8], areas: Areas) -> usize;
}

/// A group, box j at place j - 1, and the command that it issued last.
pub struct Boxes<M> {
    pub members: Vec<M>,
    pub command: [u8; COMMAND_AREA],
}

impl<M: Member> Boxes<M> {
    /// So many boxes, each made by its own number.
    pub fn new(boxes: u8, made: impl Fn(u8) -> M) -> Boxes<M> {
        Boxes {
            members: (1..=boxes).map(made).collect(),
            command: [0; COMMAND_AREA],
        }
    }

    /// N/2 rounded down, plus 1.
    pub fn majority(&self) -> usize {
        self.members.len() / 2 + 1
    }

    /// Gives the frame that the event sends, empty where there is none; as the others do.
    pub fn tick(&mut self, place: usize) -> Vec<u8> {
        self.event(place, |member, areas| member.tick(areas))
    }

    pub fn give_up(&mut self, place: usize) -> Vec<u8> {
        self.event(place, |member, areas| member.give_up(areas))
    }

    pub fn arrive(&mut self, place: usize, bytes: &[u8]) -> Vec<u8> {
        self.event(place, |member, areas| member.arrive(bytes, areas))
    }

    fn event(&mut self, place: usize, event: impl Fn(&mut M, Areas) -> usize) -> Vec<u8> {
        let mut frame = vec![0; FRAME_AREA];
        let areas = Areas {
            frame: &mut frame,
            command: &mut self.command,
        };
        let length = event(&mut self.members[place], areas);
        frame.truncate(length);
        frame
    }
}
