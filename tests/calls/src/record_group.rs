//! A small group that lives a few periods by its records, each call by both
//! implementations: orderly periods, lost frames, given-up views, open
//! take-overs, and boxes that return.

use crate::areas::Sizes;
use crate::digest::Digest;
use crate::handed_readings;
use crate::issued::Issued;
use crate::law_call;
use crate::prng::Prng;
use crate::quorum_reach::Reached;
use crate::quorums;
use crate::record_calls::{called_by_both, Asked, Call, Making, ENOUGH};
use crate::record_layout::{quorums_of, sizes, Record, MODE};
use crate::record_tables::{arrived, sent};
use crate::traffic::Traffic;

/// A life has fewer calls than so many for each box of the group.
const STEPS_OF_BOX: usize = 9;

pub struct Group {
    /// Of box 1, box 2 and so on.
    records: Vec<Record>,
    pub traffic: Traffic,
    /// Calls that it still makes.
    left: usize,
    /// Calls that it made.
    pub calls: usize,
    /// Commands that it issued.
    pub issued: Issued,
    /// Quorums that it reached.
    pub reached: Reached,
    /// Of what its calls left, where it is asked for.
    pub digest: Option<Digest>,
}

impl Group {
    /// A group that stops anywhere in its life, with a digest or without. The
    /// error says what differs.
    pub fn live(prng: &mut Prng, digest: Option<Digest>) -> Result<Group, String> {
        let mut group = Group::make(prng, digest)?;
        group.left = prng.below(STEPS_OF_BOX * group.records.len());
        while group.left > 0 {
            group.tick_most(prng)?;
            for _ in 0..1 + prng.below(3) {
                if prng.chance(50) {
                    group.give_up_some(prng)?;
                }
                group.deliver(prng)?;
            }
        }
        Ok(group)
    }

    fn make(prng: &mut Prng, digest: Option<Digest>) -> Result<Group, String> {
        let (sizes, settings) = law_call::whole_settings(prng);
        let boxes = 3 + prng.below(7) as u8;
        let quorums = quorums::allowed(&mut prng.apart(), boxes);
        let mut group = Group {
            records: vec![],
            traffic: Traffic::default(),
            left: boxes.into(),
            calls: 0,
            issued: Issued::default(),
            reached: Reached::default(),
            digest,
        };
        for own in 1..=boxes {
            group.records.push(vec![]);
            let making = Making {
                boxes,
                own,
                quorums,
                sizes,
                settings,
            };
            group.call(usize::from(own) - 1, Asked::Make(Box::new(making)))?;
        }
        Ok(group)
    }

    /// One call at the box of a place, while there are calls left. It is done
    /// or ignored: frames are whole, and go where they belong.
    fn call(&mut self, place: usize, asked: Asked) -> Result<(), String> {
        if self.left == 0 {
            return Ok(());
        }
        self.left -= 1;
        self.calls += 1;
        let call = Call {
            record: self.records[place].clone(),
            asked,
            lent: ENOUGH,
        };
        let left = called_by_both(&call)?;
        if let Some(digest) = &mut self.digest {
            left.add_to(digest);
        }
        match left.answer {
            0 => {
                self.records[place] = left.given(&call.asked).to_vec();
                if call.asked.is_step() {
                    let boxes = self.records.len();
                    self.traffic.send(boxes, place, left.sent());
                    self.issued.count(&left.command, left.lengths[1]);
                    let quorums = quorums_of(&call.record);
                    self.reached
                        .count(boxes as u8, quorums, arrived(&call), sent(&left));
                }
                Ok(())
            }
            winder::IGNORED => Ok(()),
            number => Err(format!("{call:?}: refused by {number}")),
        }
    }

    /// Most boxes tick, in any order; a few return instead.
    fn tick_most(&mut self, prng: &mut Prng) -> Result<(), String> {
        let mut places: Vec<usize> = (0..self.records.len()).collect();
        prng.shuffle(&mut places);
        for place in places {
            let Sizes { m, .. } = sizes(&self.records[place]);
            match prng.below(20) {
                0 => {}
                1 => {
                    let missed = prng.below(3) as u32;
                    self.call(place, Asked::Return { missed })?;
                }
                _ => {
                    let readings = handed_readings::below(prng, m);
                    self.call(place, Asked::Tick { readings })?;
                }
            }
        }
        Ok(())
    }

    /// Few boxes or most of them.
    fn give_up_some(&mut self, prng: &mut Prng) -> Result<(), String> {
        let percent = prng.pick(&[30, 80, 100]);
        for place in 0..self.records.len() {
            if prng.chance(percent) {
                self.call(place, Asked::GiveUp)?;
            }
        }
        Ok(())
    }

    /// Frames arrive in any order, with those that are sent on them; some are
    /// lost, some stay under way.
    fn deliver(&mut self, prng: &mut Prng) -> Result<(), String> {
        let percent = prng.pick(&[0, 50, 90, 100]);
        while self.left > 0 {
            let Some((place, bytes)) = self.traffic.next(prng) else {
                break;
            };
            if prng.chance(percent) {
                self.call(place, Asked::Arrive { bytes })?;
            }
        }
        Ok(())
    }

    /// The record of one box, more often of one in view-change mode.
    pub fn record_of_one(&self, prng: &mut Prng) -> Record {
        let in_change = |record: &&Record| record[MODE] == 1;
        let changing: Vec<&Record> = self.records.iter().filter(in_change).collect();
        let all: Vec<&Record> = self.records.iter().collect();
        match changing.is_empty() || prng.chance(40) {
            true => prng.pick(&all).clone(),
            false => prng.pick(&changing).clone(),
        }
    }
}
