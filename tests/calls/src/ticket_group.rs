//! A small group whose boxes ask first, or not: orderly periods, lost frames,
//! given-up views, open take-overs, tickets never committed, and boxes that
//! return.

use crate::digest::Digest;
use crate::handed_readings;
use crate::issued::Issued;
use crate::law_call;
use crate::prng::Prng;
use crate::quorum_reach::Reached;
use crate::quorums;
use crate::record_calls::Making;
use crate::record_layout::{sizes, MODE};
use crate::ticket_box::TicketBox;
use crate::ticket_calls::Event;
use crate::traffic::Traffic;

/// A life has fewer calls than so many for each box of the group.
const CALLS_OF_BOX: usize = 10;

/// What a group calls, in the order of `Group::calls`.
pub const CALLS: [&str; 6] = [
    "made",
    "returned",
    "asks",
    "commits",
    "commits again",
    "steps without an ask",
];

const MADE: usize = 0;
const RETURNED: usize = 1;
const ASKED: usize = 2;
const COMMITTED: usize = 3;
const AGAIN: usize = 4;
const STEPPED: usize = 5;

pub struct Group {
    /// Box 1, box 2 and so on.
    boxes: Vec<TicketBox>,
    pub traffic: Traffic,
    /// Calls that it still makes.
    left: usize,
    /// Calls that it made.
    pub calls: [usize; CALLS.len()],
}

impl Group {
    /// A group that stops anywhere in its life, between an ask and its commit
    /// too; its boxes have a digest or none. The error says what differs.
    pub fn live(prng: &mut Prng, digest: Option<Digest>) -> Result<Group, String> {
        let mut group = Group::make(prng, digest)?;
        group.left = prng.below(CALLS_OF_BOX * group.boxes.len());
        while group.left > 0 {
            group.tick_most(prng)?;
            for _ in 0..1 + prng.below(3) {
                if prng.chance(50) {
                    group.give_up_some(prng)?;
                }
                group.deliver(prng)?;
            }
        }
        Ok(group)
    }

    fn make(prng: &mut Prng, digest: Option<Digest>) -> Result<Group, String> {
        let (sizes, settings) = law_call::whole_settings(prng);
        let boxes = 3 + prng.below(7) as u8;
        let quorums = quorums::allowed(&mut prng.apart(), boxes);
        let made = (1..=boxes).map(|own| {
            let making = Making {
                boxes,
                own,
                quorums,
                sizes,
                settings,
            };
            TicketBox::make(making, digest.clone())
        });
        let mut group = Group {
            boxes: made.collect::<Result<_, _>>()?,
            traffic: Traffic::default(),
            left: 0,
            calls: [0; CALLS.len()],
        };
        group.calls[MADE] = boxes.into();
        Ok(group)
    }

    /// An event at the box of a place: a step, or an ask and what a host makes
    /// of it.
    fn happen(&mut self, prng: &mut Prng, place: usize, event: &Event) -> Result<(), String> {
        let way = prng.below(20);
        if way < 6 {
            return self.step(place, event);
        }
        if !self.may_call(ASKED) {
            return Ok(());
        }
        let Some(offer) = self.boxes[place].ask(event)? else {
            return Ok(());
        };
        match way {
            // The event never occurs.
            6 | 7 => return Ok(()),
            // It occurs all the same, and the ticket is void.
            8 => return self.step(place, event),
            // It has occurred, and its frame never leaves.
            9 => {
                self.boxes[place].store(&offer);
                return self.come_back(place, prng.below(2) as u32);
            }
            // The ticket stands.
            10 => self.refuse(place)?,
            _ => {}
        }
        self.boxes[place].store(&offer);
        if self.may_call(COMMITTED) {
            let frame = self.boxes[place].commit(offer)?;
            self.traffic.send(self.boxes.len(), place, &frame);
            if way == 11 && self.may_call(AGAIN) {
                self.boxes[place].commit_again()?;
            }
        }
        Ok(())
    }

    fn step(&mut self, place: usize, event: &Event) -> Result<(), String> {
        if self.may_call(STEPPED) {
            let frame = self.boxes[place].step(event)?;
            self.traffic.send(self.boxes.len(), place, &frame);
        }
        Ok(())
    }

    fn refuse(&mut self, place: usize) -> Result<(), String> {
        match self.may_call(STEPPED) {
            true => self.boxes[place].refuse(),
            false => Ok(()),
        }
    }

    fn come_back(&mut self, place: usize, missed: u32) -> Result<(), String> {
        match self.may_call(RETURNED) {
            true => self.boxes[place].come_back(missed),
            false => Ok(()),
        }
    }

    /// Whether there is a call left, which is counted as one of these.
    fn may_call(&mut self, call: usize) -> bool {
        if self.left == 0 {
            return false;
        }
        self.left -= 1;
        self.calls[call] += 1;
        true
    }

    /// Most boxes tick, in any order; a few return instead.
    fn tick_most(&mut self, prng: &mut Prng) -> Result<(), String> {
        let mut places: Vec<usize> = (0..self.boxes.len()).collect();
        prng.shuffle(&mut places);
        for place in places {
            match prng.below(20) {
                0 => {}
                1 => self.come_back(place, prng.below(3) as u32)?,
                _ => {
                    let m = sizes(&self.boxes[place].replica).m;
                    let readings = handed_readings::below(prng, m);
                    self.happen(prng, place, &Event::Tick { readings })?;
                }
            }
        }
        Ok(())
    }

    /// Few boxes or most of them.
    fn give_up_some(&mut self, prng: &mut Prng) -> Result<(), String> {
        let percent = prng.pick(&[30, 80, 100]);
        for place in 0..self.boxes.len() {
            if prng.chance(percent) {
                self.happen(prng, place, &Event::GiveUp)?;
            }
        }
        Ok(())
    }

    /// Frames arrive in any order, with those that are sent on them; some are
    /// lost, some stay under way.
    fn deliver(&mut self, prng: &mut Prng) -> Result<(), String> {
        let percent = prng.pick(&[0, 50, 90, 100]);
        while self.left > 0 {
            let Some((place, bytes)) = self.traffic.next(prng) else {
                break;
            };
            if prng.chance(percent) {
                self.happen(prng, place, &Event::Arrive { bytes })?;
            }
        }
        Ok(())
    }

    /// Adds what the calls of all boxes left.
    pub fn add_to(&self, digest: &mut Digest) {
        self.boxes.iter().for_each(|one| one.add_to(digest));
    }

    /// Commands that asks and steps of all boxes gave.
    pub fn issued(&self) -> Issued {
        let mut issued = Issued::default();
        for one in &self.boxes {
            issued.add(one.issued);
        }
        issued
    }

    /// Quorums that they reached.
    pub fn reached(&self) -> Reached {
        let mut reached = Reached::default();
        for one in &self.boxes {
            reached.add(one.reached);
        }
        reached
    }

    /// One box, more often one in view-change mode, and the frames of all.
    pub fn into_one(mut self, prng: &mut Prng) -> (TicketBox, Traffic) {
        let in_change = |place: &usize| self.boxes[*place].replica[MODE] == 1;
        let changing: Vec<usize> = (0..self.boxes.len()).filter(in_change).collect();
        let place = match changing.is_empty() || prng.chance(40) {
            true => prng.below(self.boxes.len()),
            false => prng.pick(&changing),
        };
        (self.boxes.swap_remove(place), self.traffic)
    }
}
