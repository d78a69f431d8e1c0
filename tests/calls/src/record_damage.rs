//! Records whole and damaged: one field out of its range, at its edge, or as
//! no record has it.

use std::ops::Range;

use crate::areas::Sizes;
use crate::field_damage::*;
use crate::prng::Prng;
use crate::record_layout::*;
use crate::values::{byte, noise};

type OfRecord = fn(&mut Prng, &mut Record);

pub struct Damage {
    pub name: &'static str,
    /// Whether the record has the field.
    has: fn(&[u8]) -> bool,
    damage: OfRecord,
}

/// The damages of a field: the length of the record stays.
pub const OF_FIELDS: Range<usize> = 4..44;

/// The damage of the quorums.
pub const OF_QUORUMS: usize = 12;

/// The damages of a field that a step changes.
pub const OF_STEPPED: Range<usize> = 20..43;

/// Every damage.
pub const DAMAGES: [Damage; 44] = [
    any("whole", |_, _| {}),
    any("a length of 615", |_, record| record.truncate(615)),
    any("a length of 617", |prng, record| record.push(byte(prng))),
    any("another length", other_length),
    any("letter", |prng, record| {
        record[LETTER] = prng.pick(b"\0rSQ\xff")
    }),
    any("version", |prng, record| {
        record[VERSION] = prng.pick(&[0, 1, 3, 255])
    }),
    any("a record of version 1", |_, record| {
        record[VERSION] = 1;
        record[QUORUMS] = 0;
    }),
    any("N", |prng, record| {
        record[BOXES] = prng.pick(&[0, 2, 3, 9, 10, 255]);
    }),
    any("own number", |prng, record| {
        record[OWN] = box_number(prng, record)
    }),
    any("n", |prng, record| record[N] = size(prng, 6)),
    any("m", |prng, record| record[M] = size(prng, 4)),
    any("p", |prng, record| record[P] = size(prng, 4)),
    any("byte 7", |prng, record| record[QUORUMS] = byte(prng)),
    any("a coefficient of A", |prng, record| {
        let Sizes { n, .. } = sizes(record);
        coefficient(prng, record, A, [n, n], [6, 6]);
    }),
    any("a coefficient of L", |prng, record| {
        let Sizes { n, m, .. } = sizes(record);
        coefficient(prng, record, L, [n, m], [6, 4]);
    }),
    any("a coefficient of C", |prng, record| {
        let Sizes { n, m, .. } = sizes(record);
        coefficient(prng, record, C, [m, n], [4, 6]);
    }),
    any("a coefficient of K", |prng, record| {
        let Sizes { n, p, .. } = sizes(record);
        coefficient(prng, record, K, [p, n], [4, 6]);
    }),
    any("a lower limit", lower_limit),
    any("an upper limit", upper_limit),
    any("the starting state", |prng, record| {
        let at = START + 4 * prng.below(6);
        put_value(record, at, noise(prng));
    }),
    any("period", |prng, record| {
        near_to(prng, record, PERIOD, BASE_PERIOD)
    }),
    any("view", |prng, record| {
        near_to(prng, record, VIEW, BASE_VIEW)
    }),
    any("base view", |prng, record| {
        near_to(prng, record, BASE_VIEW, VIEW)
    }),
    any("base period", |prng, record| {
        near_to(prng, record, BASE_PERIOD, PERIOD)
    }),
    any("mode", |prng, record| record[MODE] = mark(prng)),
    any("decided", |prng, record| record[DECIDED] = mark(prng)),
    any("place 0 heard", |prng, record| {
        record[HEARD] = prng.pick(&[1, 2, 255]);
    }),
    any("a box of the group heard", |prng, record| {
        let box_number = 1 + prng.below(record[BOXES].into());
        record[HEARD + box_number] = mark(prng);
    }),
    row(
        "a box above N heard",
        |record| record[BOXES] < 9,
        heard_above,
    ),
    any("a state below n", |prng, record| {
        let at = HELD.state + 4 * prng.below(sizes(record).n);
        put_value(record, at, noise(prng));
    }),
    row("a state from n on", has_unused_state, |prng, record| {
        state_from_n(prng, record, HELD)
    }),
    any("a mark at or above m", |prng, record| {
        mark_from_m(prng, record, HELD)
    }),
    any("an absent value not 0", |prng, record| {
        absent_value(prng, record, HELD)
    }),
    row("a value from m on", has_unused_value, |prng, record| {
        value_from_m(prng, record, HELD)
    }),
    any("whether there is a best", |prng, record| {
        record[BEST] = mark(prng);
    }),
    any("no best, and a byte not 0", absent_best),
    any("best: its box", |prng, record| {
        put_best(prng, record);
        record[BEST_BOX] = box_number(prng, record);
    }),
    any("best: base view", |prng, record| {
        put_best(prng, record);
        near_to(prng, record, BEST_BASE_VIEW, VIEW);
    }),
    any("best: base period", |prng, record| {
        put_best(prng, record);
        near_to(prng, record, BEST_BASE_PERIOD, PERIOD);
    }),
    row(
        "best: a state from n on",
        has_unused_state,
        |prng, record| {
            put_best(prng, record);
            state_from_n(prng, record, HEARD_BEST);
        },
    ),
    any("best: a mark at or above m", |prng, record| {
        put_best(prng, record);
        mark_from_m(prng, record, HEARD_BEST);
    }),
    any("best: an absent value not 0", |prng, record| {
        put_best(prng, record);
        absent_value(prng, record, HEARD_BEST);
    }),
    row(
        "best: a value from m on",
        has_unused_value,
        |prng, record| {
            put_best(prng, record);
            value_from_m(prng, record, HEARD_BEST);
        },
    ),
    any("a byte at random", |prng, record| {
        let at = prng.below(record.len());
        record[at] = byte(prng);
    }),
];

const fn any(name: &'static str, damage: OfRecord) -> Damage {
    row(name, |_| true, damage)
}

const fn row(name: &'static str, has: fn(&[u8]) -> bool, damage: OfRecord) -> Damage {
    Damage { name, has, damage }
}

/// What is done to a record, which is whole: its place in `DAMAGES`. Half of
/// them stay whole, and so do those without the field that was drawn.
pub fn damage(prng: &mut Prng, record: &mut Record) -> usize {
    if prng.chance(50) {
        return 0;
    }
    damage_one(prng, record, 1..DAMAGES.len())
}

/// The same with one of these damages, unless the record is without the field.
pub fn damage_one(prng: &mut Prng, record: &mut Record, places: Range<usize>) -> usize {
    let place = drawn(prng, places);
    let Damage { has, damage, .. } = DAMAGES[place];
    match has(record) {
        true => {
            damage(prng, record);
            place
        }
        false => 0,
    }
}

/// The quorums come more often, so that their byte has every value.
fn drawn(prng: &mut Prng, places: Range<usize>) -> usize {
    match places.contains(&OF_QUORUMS) && prng.chance(15) {
        true => OF_QUORUMS,
        false => places.start + prng.below(places.len()),
    }
}

#[cfg(test)]
mod tests {
    use super::*;
    use crate::record_group::Group;

    /// Those that leave a record, and those that may.
    const HARMLESS: [&str; 3] = ["whole", "the starting state", "a state below n"];
    const PERHAPS: [&str; 23] = [
        "N",
        "own number",
        "n",
        "m",
        "p",
        "byte 7",
        "a coefficient of A",
        "a coefficient of L",
        "a coefficient of C",
        "a coefficient of K",
        "a lower limit",
        "an upper limit",
        "period",
        "view",
        "base view",
        "base period",
        "mode",
        "decided",
        "a box of the group heard",
        "whether there is a best",
        "best: its box",
        "best: base view",
        "best: base period",
    ];

    #[test]
    fn the_damages_of_fields_are_where_they_are_said_to_be() {
        let ends = |places: Range<usize>| [places.start, places.end - 1].map(|at| DAMAGES[at].name);
        assert_eq!(ends(OF_FIELDS), ["letter", "a byte at random"]);
        assert_eq!(ends(OF_STEPPED), ["period", "best: a value from m on"]);
        assert_eq!(DAMAGES[OF_QUORUMS].name, "byte 7");
    }

    #[test]
    fn every_other_damage_is_refused() {
        let mut left = [[0; 2]; DAMAGES.len()];
        for number in 1..=8_000 {
            let prng = &mut Prng::of_script(2, number);
            let mut record = Group::live(prng, None).unwrap().record_of_one(prng);
            assert!(second::record::read(&record).is_ok());
            let place = damage(prng, &mut record);
            let taken = second::record::read(&record).is_ok();
            left[place][usize::from(taken)] += 1;
        }
        for (damage, [refused, taken]) in DAMAGES.iter().zip(left) {
            let name = damage.name;
            let may_be_taken = HARMLESS.contains(&name) || PERHAPS.contains(&name);
            if name != "a byte at random" {
                assert_eq!(refused > 0, !HARMLESS.contains(&name), "{name}");
                assert_eq!(taken > 0, may_be_taken, "{name}");
            }
            assert!(refused + taken > 0, "{name}");
        }
    }
}
