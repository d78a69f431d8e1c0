//! The frames whose reading is measured: both implementations read the same, and what their kinds say.

use measured::areas::pattern;
use measured::frame_kinds::{read_by_first, read_by_second, Kind, Sizes, KINDS};
use second::frame::{ACK, PROPOSE};

#[test]
fn frames_of_a_kind_are_read_as_it_says() {
    for sizes in [Sizes { n: 4, m: 2 }, Sizes { n: 6, m: 4 }] {
        let present = usize::from(sizes.m);
        let said = [
            Some((PROPOSE, present)),
            Some((PROPOSE, present - 1)),
            Some((PROPOSE, 0)),
            Some((ACK, 0)),
            None,
            None,
            None,
        ];
        assert_eq!(KINDS.each_ref().map(|kind| read(kind, sizes)), said);
    }
}

/// The kind of the frame and how many readings are present; none where it is refused, with its fields as they were.
fn read(kind: &Kind, sizes: Sizes) -> Option<(u8, usize)> {
    let bytes = kind.bytes(sizes);
    let left = read_by_first(sizes, &bytes);
    assert_eq!(left, read_by_second(sizes, &bytes), "{}", kind.name);
    assert_eq!(left.answer, kind.answer, "{}", kind.name);
    if left.answer != 0 {
        assert_eq!(left.fields, pattern(), "{}", kind.name);
        return None;
    }
    let present = left.fields.present.iter().filter(|&&mark| mark == 1);
    Some((left.fields.kind_and_sender[0], present.count()))
}
