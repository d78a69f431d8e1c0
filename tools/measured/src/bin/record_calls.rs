//! Calls on records, of one implementation: `record_calls first|second KIND N n m p COUNT` makes so many calls of a kind and prints what the last
//! left. Without words it prints a line for each kind: its number, its function, how many calls a figure is the mean of, and its name.

use std::env;
use std::hint::black_box;

use measured::record_kinds::{Kind, Measured, KINDS};
use measured::records::{Calls, First, Second};

fn main() {
    let words: Vec<String> = env::args().skip(1).collect();
    let number = |word: &String| word.parse().expect("a number");
    match words.as_slice() {
        [] => list(),
        [side, kind, boxes, n, m, p, count] => {
            let boxes = u8::try_from(number(boxes)).expect("at most 9");
            let group = Measured::new(boxes, number(n), number(m), number(p));
            let kind = &KINDS[number(kind) - 1];
            match side.as_str() {
                "first" => run::<First>(&group, kind, number(count)),
                _ => run::<Second>(&group, kind, number(count)),
            }
        }
        _ => panic!("record_calls [first|second KIND N n m p COUNT]"),
    }
}

fn list() {
    let group = Measured::new(3, 4, 2, 1);
    for (number, kind) in (1..).zip(&KINDS) {
        let function = group.call(kind).asked.function();
        println!("{number} {function} {} {}", kind.calls, kind.name);
    }
}

/// Each call gets the record that the first got, and must leave the same.
fn run<C: Calls>(group: &Measured, kind: &Kind, count: usize) {
    let call = group.call(kind);
    let first = group.called::<C>(&call);
    assert_eq!(first.answer, kind.answer, "{}", kind.name);
    for _ in 1..count {
        assert_eq!(group.called::<C>(black_box(&call)), first);
    }
    println!("{first:?}");
}
