//! What occurred of asks, commits and records that asks gave.

use std::fmt;

use second::replica::Answer;

/// Why a ticket was refused by 17.
#[derive(Clone, Copy, Debug, PartialEq, Eq)]
pub enum Ground {
    Zero,
    /// Another than the latest ask's.
    Earlier,
    Later,
    /// The latest ask's, but a step was made since.
    Void,
    Committed,
    /// The latest ask was ignored or refused.
    Idle,
    /// Nothing was asked since the box was made or returned.
    NoneAsked,
}

const GROUNDS: [&str; 7] = [
    "ticket 0",
    "an earlier ask's",
    "no ask's yet",
    "void by a step",
    "committed before",
    "ask ignored or refused",
    "none asked since a return",
];

#[derive(Clone, Debug, Default, PartialEq, Eq)]
pub struct Asks {
    pub ok: usize,
    pub ignored: usize,
    pub refused_asks: usize,
    /// Asks that could be committed until a newer ask.
    pub void_by_ask: usize,
    /// The same until a step.
    pub void_by_step: usize,
    pub committed: usize,
    /// With other lines between the ask and its commit than those of its own
    /// record.
    pub committed_late: usize,
    /// With an event between that was ignored or refused at the box.
    pub committed_after_refused: usize,
    /// With a return between that was refused.
    pub committed_after_return: usize,
    /// Commits refused, by their ground.
    pub refused: [usize; GROUNDS.len()],
    /// Records of asks stored while these could be committed, some of which
    /// never were.
    pub stored_open: usize,
    pub stored_committed: usize,
    pub stored_void: usize,
    /// Where there was none to store.
    pub bad_stores: usize,
    /// Returns from the record of an ask that was never committed.
    pub returned: usize,
}

impl Asks {
    /// An ask, and whether one before it could be committed.
    pub fn count_ask(&mut self, answer: Answer, was_asked: bool) {
        match answer {
            Answer::Ok => self.ok += 1,
            Answer::Ignored => self.ignored += 1,
            Answer::Refused(_) => self.refused_asks += 1,
        }
        self.void_by_ask += usize::from(was_asked);
    }

    /// The record of an ask is stored.
    pub fn count_store(&mut self, is_open: bool, is_void: bool) {
        match (is_open, is_void) {
            (true, _) => self.stored_open += 1,
            (false, true) => self.stored_void += 1,
            (false, false) => self.stored_committed += 1,
        }
    }

    /// All counts, for a test that none is 0.
    #[cfg(test)]
    pub fn all(&self) -> Vec<usize> {
        let named = self.named().into_iter().map(|(_, count)| count);
        named.chain(self.refused).collect()
    }

    fn named(&self) -> [(&'static str, usize); 14] {
        [
            ("asks: ok", self.ok),
            ("asks: ignored", self.ignored),
            ("asks: refused", self.refused_asks),
            ("  void by a newer ask", self.void_by_ask),
            ("  void by a step", self.void_by_step),
            ("commits", self.committed),
            ("  late", self.committed_late),
            ("  after a refused event", self.committed_after_refused),
            ("  after a refused return", self.committed_after_return),
            ("SA: while it can be committed", self.stored_open),
            ("SA: after the commit", self.stored_committed),
            ("SA: of a void ask", self.stored_void),
            ("SA: bad", self.bad_stores),
            ("returns from an ask not committed", self.returned),
        ]
    }
}

impl fmt::Display for Asks {
    fn fmt(&self, out: &mut fmt::Formatter<'_>) -> fmt::Result {
        for (name, count) in self.named() {
            writeln!(out, "{name:<34}{count:>9}")?;
        }
        writeln!(
            out,
            "{:<34}{:>9}",
            "commits refused",
            self.refused.iter().sum::<usize>()
        )?;
        for (name, count) in GROUNDS.iter().zip(self.refused) {
            writeln!(out, "  {name:<32}{count:>9}")?;
        }
        Ok(())
    }
}
