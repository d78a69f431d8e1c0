//! A replica handed in, as either implementation takes it, and the second
//! implementation's replica in the areas of the first.

use second::law::Readings;
use second::replica::{Estimate, Heard, Mode, Replica};
use steps::Held;

use crate::areas::{row, Sizes};
use crate::handed_in::{Fit, HandedIn};
use crate::{counterpart, first};

pub fn settings_of(handed_in: &HandedIn) -> steps::Settings {
    let HandedIn {
        boxes,
        own,
        quorums,
        sizes,
        settings,
        ..
    } = handed_in;
    steps::Settings {
        group: [*boxes, *own, quorums.to_decide, quorums.to_propose],
        law: first::sized(*sizes, settings),
        start: settings.start,
    }
}

pub fn replica_of(handed_in: &HandedIn) -> Replica {
    let held = &handed_in.held;
    let [period, view, base_view, base_period, best_base_view, best_base_period] = held.counters;
    let [view_change, decided, has_best, from] = held.marks;
    Replica {
        boxes: handed_in.boxes,
        own: handed_in.own,
        quorums: handed_in.quorums,
        settings: counterpart::sized(handed_in.sizes, &handed_in.settings),
        period,
        view,
        base_view,
        mode: match view_change {
            0 => Mode::Normal,
            _ => Mode::ViewChange,
        },
        decided: decided != 0,
        estimate: Estimate {
            state: held.state,
            readings: row(&held.present, &held.values),
            base_period,
        },
        heard: held.heard.map(|mark| mark != 0),
        has_best: has_best != 0,
        best: Heard {
            from,
            base_view: best_base_view,
            estimate: Estimate {
                state: held.best_state,
                readings: row(&held.best_present, &held.best_values),
                base_period: best_base_period,
            },
        },
    }
}

pub fn held_of(replica: &Replica) -> Held {
    let (estimate, best) = (&replica.estimate, &replica.best);
    let view_change = replica.mode == Mode::ViewChange;
    Held {
        counters: [
            replica.period,
            replica.view,
            replica.base_view,
            estimate.base_period,
            best.base_view,
            best.estimate.base_period,
        ],
        marks: [
            view_change.into(),
            replica.decided.into(),
            replica.has_best.into(),
            best.from,
        ],
        heard: replica.heard.map(u8::from),
        state: estimate.state,
        present: marks_of(&estimate.readings),
        values: estimate.readings.values,
        best_state: best.estimate.state,
        best_present: marks_of(&best.estimate.readings),
        best_values: best.estimate.readings.values,
    }
}

/// A replica as it may be handed in, with settings that nothing refuses.
pub fn handed_in_of(replica: &Replica) -> HandedIn {
    let settings = replica.settings;
    let [n, m, p] = [settings.n, settings.m, settings.p].map(usize::from);
    let (boxes, own) = (replica.boxes, replica.own);
    HandedIn {
        boxes,
        own,
        quorums: replica.quorums,
        sizes: Sizes { n, m, p },
        settings,
        held: held_of(replica),
        fit: Fit { boxes, own, n, m },
    }
}

fn marks_of(readings: &Readings) -> [u8; 4] {
    [0, 1, 2, 3].map(|j| readings.is_present(j).into())
}
