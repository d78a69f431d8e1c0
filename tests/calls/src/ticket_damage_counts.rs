//! How many damaged replicas with tickets were handed in, and how many of them
//! were refused by 15.

use std::fmt;

use crate::record_damage::{self, OF_STEPPED};
use crate::ticket_damage::{Damage, DAMAGES};

const RECORD_DAMAGES: usize = record_damage::DAMAGES.len();

/// Handed in, and refused by 15.
type Counted = [usize; 2];

#[derive(Debug)]
pub struct ByDamage {
    whole: usize,
    of_tickets: [Counted; DAMAGES.len()],
    of_record: [Counted; RECORD_DAMAGES],
    /// Where the ticket is not open, and where it is.
    of_left: [[Counted; RECORD_DAMAGES]; 2],
}

impl Default for ByDamage {
    fn default() -> ByDamage {
        ByDamage {
            whole: 0,
            of_tickets: [[0; 2]; DAMAGES.len()],
            of_record: [[0; 2]; RECORD_DAMAGES],
            of_left: [[[0; 2]; RECORD_DAMAGES]; 2],
        }
    }
}

impl ByDamage {
    pub fn count(&mut self, damage: Damage, is_open: bool, is_refused: bool) {
        let [count, refused] = match damage {
            Damage::Whole => {
                self.whole += 1;
                return;
            }
            Damage::OfTickets(place) => &mut self.of_tickets[place],
            Damage::OfRecord(place) => &mut self.of_record[place],
            Damage::OfLeft(place) => &mut self.of_left[usize::from(is_open)][place],
        };
        *count += 1;
        *refused += usize::from(is_refused);
    }

    #[cfg(test)]
    pub fn are_everywhere(&self) -> bool {
        let [closed, open] = &self.of_left;
        let parts: [&[Counted]; 4] = [
            &self.of_tickets,
            &self.of_record[1..],
            &closed[OF_STEPPED],
            &open[OF_STEPPED],
        ];
        let mut all = parts.into_iter().flatten();
        all.all(|&[count, _]| count > 0)
    }
}

impl fmt::Display for ByDamage {
    fn fmt(&self, out: &mut fmt::Formatter<'_>) -> fmt::Result {
        write_head(out, "replicas")?;
        write_counted(out, "whole", &[self.whole, 0])?;
        write_head(out, "tickets")?;
        for ((name, _), counted) in DAMAGES.iter().zip(&self.of_tickets) {
            write_counted(out, name, counted)?;
        }
        write_head(out, "records")?;
        let of_record = record_damage::DAMAGES.iter().zip(&self.of_record);
        for (damage, counted) in of_record.skip(1) {
            write_counted(out, damage.name, counted)?;
        }
        for (head, counts) in [
            "what the step leaves, not open",
            "what the step leaves, open",
        ]
        .iter()
        .zip(&self.of_left)
        {
            write_head(out, head)?;
            for place in OF_STEPPED {
                write_counted(out, record_damage::DAMAGES[place].name, &counts[place])?;
            }
        }
        Ok(())
    }
}

fn write_head(out: &mut fmt::Formatter<'_>, what: &str) -> fmt::Result {
    writeln!(out, "{what:<38}{:>9}{:>12}", "calls", "refused: 15")
}

fn write_counted(
    out: &mut fmt::Formatter<'_>,
    name: &str,
    [count, refused]: &Counted,
) -> fmt::Result {
    writeln!(out, "  {name:<36}{count:>9}{refused:>12}")
}
