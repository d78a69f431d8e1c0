//! Frames read, by one implementation: `frame_calls first|second KIND n m COUNT` reads the frame of a kind so many times and prints what the last
//! call left. Without words it prints a line for each kind: its number, how many calls a figure is the mean of, and its name.

use std::env;
use std::hint::black_box;

use measured::frame_kinds::{read_by_first, read_by_second, Kind, Left, Sizes, CALLS, KINDS};

fn main() {
    let words: Vec<String> = env::args().skip(1).collect();
    let number = |word: &String| word.parse().expect("a number");
    let size = |word: &String| word.parse().expect("at most 6");
    match words.as_slice() {
        [] => list(),
        [side, kind, n, m, count] => {
            let sizes = Sizes {
                n: size(n),
                m: size(m),
            };
            let kind = &KINDS[number(kind) - 1];
            match side.as_str() {
                "first" => run(read_by_first, sizes, kind, number(count)),
                _ => run(read_by_second, sizes, kind, number(count)),
            }
        }
        _ => panic!("frame_calls [first|second KIND n m COUNT]"),
    }
}

fn list() {
    for (number, kind) in (1..).zip(&KINDS) {
        println!("{number} {CALLS} {}", kind.name);
    }
}

/// Each call gets the bytes that the first got, and must leave the same.
fn run(read: fn(Sizes, &[u8]) -> Left, sizes: Sizes, kind: &Kind, count: usize) {
    let bytes = kind.bytes(sizes);
    let first = read(sizes, &bytes);
    assert_eq!(first.answer, kind.answer, "{}", kind.name);
    for _ in 1..count {
        assert_eq!(read(sizes, black_box(&bytes)), first);
    }
    println!("{first:?}");
}
