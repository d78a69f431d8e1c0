//! What left in a script with records, by which line, and whether records were
//! stored in the order in which they were made: document 02's conditions on the
//! host, judged by the script and what was printed.

mod shelf;

use std::collections::BTreeMap;

use crate::played::{Host, Played, What};
use shelf::Shelf;

/// For each line the one by which its frame and its command left, if they did.
pub fn leaving(host: Host, played: &[Option<Played>]) -> Vec<Option<usize>> {
    match host {
        Host::Plain => (0..played.len()).map(Some).collect(),
        Host::Storing => Stored::of(played).left,
    }
}

/// That every frame had left when it arrived, or when it was asked for, and
/// that no record was stored after one made later. The last condition holds in
/// any script: `R` takes what was stored last.
pub fn conditions_kept(host: Host, played: &[Option<Played>]) -> Result<(), String> {
    let left = leaving(host, played);
    for (at, line) in played.iter().enumerate() {
        let Some(frame) = line.as_ref().and_then(Played::arriving) else {
            continue;
        };
        let has_left = left.get(frame).is_some_and(|left| match host {
            Host::Plain => frame < at,
            Host::Storing => left.is_some_and(|left| left < at),
        });
        if !has_left {
            let (line, frame) = (at + 1, frame + 1);
            return Err(format!(
                "line {line}: the frame of line {frame} has not left"
            ));
        }
    }
    match Stored::of(played).out_of_order {
        Some(at) => Err(format!(
            "line {}: stored after one that counts as made later",
            at + 1
        )),
        None => Ok(()),
    }
}

/// What came of the records that a script's lines store.
struct Stored {
    left: Vec<Option<usize>>,
    /// The first line that stores a record after one made later.
    out_of_order: Option<usize>,
    boxes: BTreeMap<usize, Shelf>,
}

impl Stored {
    fn of(played: &[Option<Played>]) -> Stored {
        let mut stored = Stored {
            left: vec![None; played.len()],
            out_of_order: None,
            boxes: BTreeMap::new(),
        };
        for (at, line) in played.iter().enumerate() {
            if let Some(line) = line {
                stored.take(at, line);
            }
        }
        stored
    }

    fn take(&mut self, at: usize, line: &Played) {
        let shelf = self.boxes.entry(line.place).or_default();
        match line.what {
            What::Event(_) => shelf.step(at, line.is_ok),
            What::Ask(_, ticket) => shelf.ask(at, line.is_ok, ticket),
            What::Return { .. } if line.is_ok => shelf.come_back(at),
            What::Commit(ticket) if line.is_ok => {
                let left = shelf.commit(at, ticket);
                self.note(at, left, true);
            }
            What::Store if line.is_ok => {
                let (left, in_order) = shelf.store(at);
                self.note(at, left, in_order);
            }
            What::StoreAsked if line.is_ok => {
                let (left, in_order) = shelf.store_asked();
                self.note(at, left, in_order);
            }
            _ => {}
        }
    }

    /// By this line what that step made has left.
    fn note(&mut self, at: usize, left: Option<usize>, in_order: bool) {
        if let Some(step) = left {
            self.left[step] = Some(at);
        }
        if !in_order {
            self.out_of_order.get_or_insert(at);
        }
    }
}

#[cfg(test)]
mod tests {
    use super::*;
    use crate::played::played;

    /// The lines on the bench's group, with what the second implementation
    /// prints for them.
    fn of(lines: &str) -> Vec<Option<Played>> {
        let (lines, output) = crate::words::on_the_bench_group(lines);
        played(&lines, &output).unwrap()
    }

    fn left_by(lines: &str) -> Vec<Option<usize>> {
        leaving(Host::Storing, &of(lines))
    }

    fn kept(lines: &str) -> Result<(), String> {
        conditions_kept(Host::Storing, &of(lines))
    }

    #[test]
    fn a_step_leaves_by_the_store_while_its_replica_is_there() {
        assert_eq!(left_by("T 1 5\nS 1\n"), [Some(1), None]);
        // Another box, a bad line and a refused return are between.
        let lines = "S 1\nT 1 5\nT 2 5\nx\nR 1 10001\nS 1\n";
        let left = left_by(lines);
        assert_eq!(left[1..3], [Some(5), None]);
        // An event of the box is between, be it ignored, or a return.
        assert_eq!(left_by("T 1 5\nG 1\nS 1\n"), [None, Some(2), None]);
        assert_eq!(left_by("S 1\nT 1 5\nR 1 0\nS 1\n"), [None; 4]);
        // Only once.
        assert_eq!(left_by("T 1 5\nS 1\nS 1\n"), [Some(1), None, None]);
    }

    #[test]
    fn a_plain_host_lets_all_leave_at_once() {
        let played = of("T 1 5\nD 2 1\n");
        assert_eq!(leaving(Host::Plain, &played), [Some(0), Some(1)]);
        assert!(conditions_kept(Host::Plain, &played).is_ok());
    }

    #[test]
    fn frames_must_have_left() {
        assert!(kept("T 1 5\nS 1\nD 2 1\n").is_ok());
        assert!(kept("T 1 5\nS 1\nR 1 0\nD 2 1\n").is_ok());
        let early = kept("T 1 5\nD 2 1\nS 1\n").unwrap_err();
        assert_eq!(early, "line 2: the frame of line 1 has not left");
        assert!(kept("T 1 5\nAD 2 1\nS 1\n").is_err());
        assert!(kept("S 1\nT 1 5\nR 1 0\nS 1\nD 2 2\n").is_err());
        // A bad line delivers nothing.
        assert!(kept("T 2 5\nD 1 1\n").is_ok());
    }

    #[test]
    fn a_commit_leaves_once_its_record_is_stored() {
        assert_eq!(left_by("AT 1 5\nSA 1\nC 1 1\n"), [None, None, Some(2)]);
        assert_eq!(left_by("AT 1 5\nC 1 1\nSA 1\n"), [None, Some(2), None]);
        assert_eq!(left_by("AT 1 5\nC 1 1\nS 1\n"), [None, Some(2), None]);
        // Never committed, or the wrong ticket.
        assert_eq!(left_by("AT 1 5\nSA 1\nS 1\n"), [None; 3]);
        assert_eq!(left_by("AT 1 5\nSA 1\nC 1 2\n"), [None; 3]);
        // The record of the replica as it was is not the ask's.
        assert_eq!(left_by("AT 1 5\nS 1\nC 1 1\n"), [None; 3]);
        // By `SA` also when the box has gone on, but not once that is stored.
        let left = left_by("AT 1 5\nC 1 1\nT 1 6\nSA 1\n");
        assert_eq!(left, [None, Some(3), None, None]);
        let left = left_by("AT 1 5\nC 1 1\nT 1 6\nS 1\nSA 1\n");
        assert_eq!(left, [None, None, Some(3), None, None]);
    }

    #[test]
    fn a_step_leaves_while_another_is_asked() {
        assert_eq!(left_by("T 1 5\nAT 1 6\nS 1\n"), [Some(2), None, None]);
        // Not once the ask's record is stored, also where it is void then.
        assert_eq!(left_by("T 1 5\nAT 1 6\nSA 1\nAG 1\nS 1\n"), [None; 5]);
        // Not what was asked before a return.
        assert_eq!(left_by("S 1\nAT 1 5\nR 1 0\nC 1 1\nS 1\n"), [None; 5]);
    }

    #[test]
    fn no_record_is_stored_after_one_made_later() {
        let unstepped = kept("AT 1 5\nSA 1\nS 1\nC 1 1\n").unwrap_err();
        assert_eq!(
            unstepped,
            "line 3: stored after one that counts as made later"
        );
        assert!(kept("AT 1 5\nS 1\nSA 1\nC 1 1\nS 1\n").is_ok());
        // Void: a new ask, or a step.
        assert!(kept("AT 1 5\nSA 1\nAT 1 6\nS 1\nC 1 2\n").is_ok());
        assert!(kept("AT 1 5\nSA 1\nT 1 6\nS 1\n").is_ok());
        assert!(kept("AT 1 5\nSA 1\nAG 1\nS 1\n").is_ok());
        // An ask's record after one of a step made since.
        assert!(kept("AT 1 5\nT 1 6\nSA 1\nS 1\n").is_ok());
        assert!(kept("AT 1 5\nT 1 6\nS 1\nSA 1\n").is_err());
        assert!(kept("AT 1 5\nC 1 1\nS 1\nSA 1\n").is_err());
        // The same once more.
        assert!(kept("AT 1 5\nSA 1\nSA 1\nC 1 1\nSA 1\n").is_ok());
        assert!(kept("AT 1 5\nS 1\nS 1\nC 1 1\n").is_ok());
        // After a return all begins anew.
        assert!(kept("AT 1 5\nSA 1\nR 1 0\nS 1\nAT 1 6\nSA 1\n").is_ok());
    }
}
