//! Boxes whose replicas are records, and the calls on records of both implementations by one interface.

use std::marker::PhantomData;

use second::law::Settings;
use second::replica::{majority, Areas, Quorums};
use winder::{Lent, RECORD};

use crate::boxes::Member;
use crate::counted;
use crate::group::{Law, VALUES};

pub type Record = [u8; RECORD];

/// Settings for both, so that neither makes them in a call.
pub struct Given {
    law: Law,
    settings: Settings,
}

impl Given {
    pub fn new(law: Law) -> Given {
        let settings = law.second_settings();
        Given { law, settings }
    }

    /// Those of every tick: counts in the first m places.
    pub fn readings(&self) -> Readings {
        let (mut kinds, mut bits) = ([0; 4], [0; 4]);
        for j in 0..self.law.settings.m {
            kinds[j] = 1;
            bits[j] = VALUES[j].cast_unsigned();
        }
        Readings { kinds, bits }
    }
}

/// Readings as a tick takes them.
pub struct Readings {
    kinds: [u8; 4],
    bits: [u32; 4],
}

/// The calls of one implementation.
pub trait Calls {
    fn make(given: &Given, boxes: u8, own: u8, area: &mut [u8]) -> u32;
    fn tick(record: &mut [u8], with: &Readings, areas: Areas, lengths: &mut [usize; 2]) -> u32;
    fn give_up(record: &mut [u8], areas: Areas, lengths: &mut [usize; 2]) -> u32;
    fn arrive(record: &mut [u8], bytes: &[u8], areas: Areas, lengths: &mut [usize; 2]) -> u32;
    fn record(record: &[u8], area: &mut [u8]) -> u32;
    fn return_from(record: &[u8], missed: u32, area: &mut [u8]) -> u32;
}

/// The archive's calls.
pub enum First {}

impl Calls for First {
    fn make(given: &Given, boxes: u8, own: u8, area: &mut [u8]) -> u32 {
        let (law, quorum) = (&given.law, majority(boxes));
        winder::make(&law.settings, &law.start, boxes, own, quorum, quorum, area)
    }

    fn tick(record: &mut [u8], with: &Readings, areas: Areas, lengths: &mut [usize; 2]) -> u32 {
        winder::tick(record, &with.kinds, &with.bits, lent(areas, lengths))
    }

    fn give_up(record: &mut [u8], areas: Areas, lengths: &mut [usize; 2]) -> u32 {
        winder::give_up(record, lent(areas, lengths))
    }

    fn arrive(record: &mut [u8], bytes: &[u8], areas: Areas, lengths: &mut [usize; 2]) -> u32 {
        winder::arrive(record, bytes, lent(areas, lengths))
    }

    fn record(record: &[u8], area: &mut [u8]) -> u32 {
        winder::record(record, area)
    }

    fn return_from(record: &[u8], missed: u32, area: &mut [u8]) -> u32 {
        winder::return_from(record, missed, area)
    }
}

fn lent<'a>(areas: Areas<'a>, lengths: &'a mut [usize; 2]) -> Lent<'a> {
    Lent {
        frame: areas.frame,
        command: areas.command,
        lengths,
    }
}

/// The second implementation's.
pub enum Second {}

impl Calls for Second {
    fn make(given: &Given, boxes: u8, own: u8, area: &mut [u8]) -> u32 {
        let quorums = Quorums::majorities(boxes);
        counted::make(&given.settings, boxes, own, quorums, area)
    }

    fn tick(record: &mut [u8], with: &Readings, areas: Areas, lengths: &mut [usize; 2]) -> u32 {
        counted::tick(record, &with.kinds, &with.bits, areas, lengths)
    }

    fn give_up(record: &mut [u8], areas: Areas, lengths: &mut [usize; 2]) -> u32 {
        counted::give_up(record, areas, lengths)
    }

    fn arrive(record: &mut [u8], bytes: &[u8], areas: Areas, lengths: &mut [usize; 2]) -> u32 {
        counted::arrive(record, bytes, areas, lengths)
    }

    fn record(record: &[u8], area: &mut [u8]) -> u32 {
        counted::record(record, area)
    }

    fn return_from(record: &[u8], missed: u32, area: &mut [u8]) -> u32 {
        counted::r#return(record, missed, area)
    }
}

/// A box that is its record.
pub struct Recorded<C> {
    pub record: Record,
    readings: Readings,
    calls: PhantomData<C>,
}

impl<C: Calls> Recorded<C> {
    /// Panics where the settings are refused.
    pub fn new(given: &Given, boxes: u8, own: u8) -> Recorded<C> {
        let mut record = [0; RECORD];
        assert_eq!(C::make(given, boxes, own, &mut record), 0);
        Recorded {
            record,
            readings: given.readings(),
            calls: PhantomData,
        }
    }
}

impl<C: Calls> Member for Recorded<C> {
    fn tick(&mut self, areas: Areas) -> usize {
        let mut lengths = [0; 2];
        C::tick(&mut self.record, &self.readings, areas, &mut lengths);
        lengths[0]
    }

    fn give_up(&mut self, areas: Areas) -> usize {
        let mut lengths = [0; 2];
        C::give_up(&mut self.record, areas, &mut lengths);
        lengths[0]
    }

    fn arrive(&mut self, bytes: &[u8], areas: Areas) -> usize {
        let mut lengths = [0; 2];
        C::arrive(&mut self.record, bytes, areas, &mut lengths);
        lengths[0]
    }
}
