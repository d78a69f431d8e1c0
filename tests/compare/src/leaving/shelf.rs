//! The records of one box, in the order in which they count as made.

/// The records of one box. They are counted by the lines that made them, two
/// for a line: "a record of the unstepped replica counts as made before the
/// ask's".
#[derive(Default)]
pub struct Shelf {
    /// The step that the present replica is of, while that has not left.
    present: Option<Step>,
    /// The latest ask, if its answer was ok.
    ask: Option<Ask>,
    /// The first record that may still be stored.
    first: usize,
}

/// The line of a step, and its record.
#[derive(Clone, Copy)]
struct Step {
    line: usize,
    record: usize,
}

#[derive(Clone, Copy)]
struct Ask {
    line: usize,
    ticket: u64,
    /// Whether it can be committed.
    is_open: bool,
    is_stored: bool,
    /// The line of its commit.
    committed: Option<usize>,
}

impl Ask {
    /// The record that it gave.
    fn record(&self) -> usize {
        made_by(self.line)
    }
}

/// The record that a line made, of the replica after it.
fn made_by(line: usize) -> usize {
    2 * line + 1
}

/// The record of the replica as it was before a line.
fn made_before(line: usize) -> usize {
    2 * line
}

impl Shelf {
    /// The replica is now the one that this line's own step gave back, also
    /// where that was ignored or refused.
    pub fn step(&mut self, at: usize, is_ok: bool) {
        self.present = Some(Step {
            line: at,
            record: made_by(at),
        });
        if let (Some(ask), true) = (&mut self.ask, is_ok) {
            ask.is_open = false;
        }
    }

    /// "A new ask of any answer .. voids the earlier ticket". The replica is
    /// still that of the step before.
    pub fn ask(&mut self, at: usize, is_ok: bool, ticket: u64) {
        self.ask = is_ok.then_some(Ask {
            line: at,
            ticket,
            is_open: true,
            is_stored: false,
            committed: None,
        });
    }

    /// "the commit counts as writing and sending what its ask gave; none of it
    /// leaves earlier". What is stored already leaves at once.
    pub fn commit(&mut self, at: usize, ticket: u64) -> Option<usize> {
        let open = self
            .ask
            .as_mut()
            .filter(|ask| ask.is_open && ask.ticket == ticket);
        let Some(ask) = open else {
            // No program may print this; then it is like any step.
            self.step(at, true);
            return None;
        };
        ask.is_open = false;
        ask.committed = Some(at);
        let step = Step {
            line: at,
            record: ask.record(),
        };
        self.present = (!ask.is_stored).then_some(step);
        ask.is_stored.then_some(at)
    }

    /// `S`: its record counts as made now, "but just before the latest ask's
    /// while that ask can be committed". Gives the step that leaves by it, and
    /// whether no record made later was stored before.
    pub fn store(&mut self, at: usize) -> (Option<usize>, bool) {
        let record = match self.ask.filter(|ask| ask.is_open) {
            Some(ask) => made_before(ask.line),
            None => made_before(at),
        };
        let first = self.first;
        let left = self.present.take().filter(|step| step.record >= first);
        (left.map(|step| step.line), self.put(record))
    }

    /// `SA`, before or after the commit; before it nothing leaves.
    pub fn store_asked(&mut self) -> (Option<usize>, bool) {
        let Some(ask) = &mut self.ask else {
            return (None, true);
        };
        let (record, committed) = (ask.record(), ask.committed);
        let is_new = record >= self.first;
        ask.is_stored |= is_new;
        if self.present.is_some_and(|step| step.record == record) {
            self.present = None;
        }
        (committed.filter(|_| is_new), self.put(record))
    }

    /// The record stored last may be stored once more.
    fn put(&mut self, record: usize) -> bool {
        let in_order = record + 1 >= self.first;
        self.first = self.first.max(record + 1);
        in_order
    }

    /// "what was made before a stop and not stored by then is gone"
    pub fn come_back(&mut self, at: usize) {
        *self = Shelf {
            first: made_before(at),
            ..Shelf::default()
        };
    }
}
