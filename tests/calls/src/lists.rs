//! The comparison of shift pages written: from lists of entries, with what was
//! written read back.

pub use crate::list_counts::Counts;
use crate::page_calls::{read_by_both, written_by_both};
use crate::page_lists;
use crate::prng::Prng;

/// The list of one number. The error says what differs.
pub fn compare(seed: u64, number: usize, counts: &mut Counts) -> Result<(), String> {
    let call = page_lists::make(&mut Prng::of_script(seed, number));
    let written = written_by_both(&call)?;
    if written.answer == 0 {
        let read = read_by_both(call.p, written.page())?;
        if read.answer != 0 {
            return Err(format!("refused by {}: {written:?}", read.answer));
        }
        counts.count_lines(read.entries().len());
    }
    counts.count(&call, written.answer);
    Ok(())
}

#[cfg(test)]
mod tests {
    use super::*;

    #[test]
    fn every_answer_and_every_sort_of_list_is_met() {
        let mut counts = Counts::default();
        for number in 1..=2_000 {
            compare(1, number, &mut counts).unwrap();
        }
        assert!(counts.are_everywhere(), "{counts}");
    }
}
