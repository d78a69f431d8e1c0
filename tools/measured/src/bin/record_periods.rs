//! Decided periods on records, by the calls of one implementation: `record_periods first|second`. Standard input and output are those of program
//! periods.

use std::env;
use std::io::{self, Read};

use measured::periods::Groups;
use measured::records::{Calls, First, Given, Recorded, Second};

fn main() -> io::Result<()> {
    let mut letters = Vec::new();
    io::stdin().read_to_end(&mut letters)?;
    let commands = match env::args().nth(1).as_deref() {
        Some("first") => played::<First>(&letters),
        Some("second") => played::<Second>(&letters),
        _ => return Err(io::Error::other("record_periods first|second")),
    };
    print!("{commands}");
    Ok(())
}

fn played<C: Calls>(letters: &[u8]) -> String {
    let mut groups =
        Groups::new(|law, boxes, own| Recorded::<C>::new(&Given::new(law.clone()), boxes, own));
    for &letter in letters {
        groups.play(letter);
    }
    groups.commands()
}
