//! Where everything stands in a record. Layout: "A record is 616 bytes,
//! whatever the settings. Numbers are little-endian; i32 is two's complement."

/// Layout: "82, the letter R".
pub const LETTER: u8 = b'R';

/// Layout: "version of the layout: 2".
pub const VERSION: u8 = 2;

pub const LETTER_AT: usize = 0;
pub const VERSION_AT: usize = 1;

/// "group size N"
pub const BOXES_AT: usize = 2;
/// "own number"
pub const OWN_AT: usize = 3;
pub const N_AT: usize = 4;
pub const M_AT: usize = 5;
pub const P_AT: usize = 6;
/// Document 02, L8: "Records of L4 gain both numbers". Layout: "a in its four
/// low bits, b in its four high bits".
pub const QUORUMS_AT: usize = 7;

// "The seven tables and lists of the settings (8 to 495) stand whole".

/// "table A, 36 i32 values: A(i,j) is value i × 6 + j, counted from 0"
pub const A_AT: usize = 8;
/// "table L, 24 values: L(i,j) is value i × 4 + j"
pub const L_AT: usize = 152;
/// "table C, 24 values: C(j,i) is value j × 6 + i"
pub const C_AT: usize = 248;
/// "table K, 24 values: K(j,i) is value j × 6 + i"
pub const K_AT: usize = 344;
/// "lower limits, 4 values"
pub const LOWER_AT: usize = 440;
/// "upper limits, 4 values"
pub const UPPER_AT: usize = 456;
/// "starting state, 6 values"
pub const START_AT: usize = 472;

pub const PERIOD_AT: usize = 496;
pub const VIEW_AT: usize = 500;
pub const BASE_VIEW_AT: usize = 504;
pub const BASE_PERIOD_AT: usize = 508;

/// "mode: 0 normal, 1 view change"
pub const MODE_AT: usize = 512;
/// "decided: 0 or 1"
pub const DECIDED_AT: usize = 513;
/// "boxes heard: byte 514 + j is 1 where box j was heard, else 0"
pub const HEARD_AT: usize = 514;

/// "the estimate's state", with its readings behind it.
pub const ESTIMATE_AT: usize = 524;

/// "best estimate heard: 0 none, 1 there is one"
pub const HAS_BEST_AT: usize = 565;
/// "the box that it came from"
pub const BEST_BOX_AT: usize = 566;
pub const BEST_BASE_VIEW_AT: usize = 567;
pub const BEST_BASE_PERIOD_AT: usize = 571;
/// "its state", with its readings behind it.
pub const BEST_ESTIMATE_AT: usize = 575;

/// "end"
pub const LENGTH: usize = 616;

// Of either estimate, counted from its state: 524, 548 and 549 of the one
// held, 575, 599 and 600 of the best.

/// "6 values"
pub const STATE_IN: usize = 0;
/// "present marks of its readings, bit j for reading j"
pub const MARKS_IN: usize = 24;
/// "its readings, 4 values, 0 where absent"
pub const READINGS_IN: usize = 25;
