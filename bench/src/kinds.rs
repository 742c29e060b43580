//! What a call tells as three numbers: a kind, as `crates/encoding/src/kinds.rt` has them, and two
//! values, 0 where there is none.
use crate::plain::Told;

/// The kinds in the order of their numbers, from 0, and last that of `NO_CALL`.
pub const NAMES: [&str; 11] = ["done", "chart", "running", "ended", "value", "notice", "spent", "refused", "written", "shown", "no call"];

/// Of a kind that is none of a call's, as `crates/test_script/src/lib.rt` has it.
pub const NO_CALL: [u32; 3] = [16, 0, 0];

/// The place of a kind in `NAMES`.
pub fn place(kind: u32) -> usize {
    if kind == NO_CALL[0] {
        NAMES.len() - 1
    } else {
        kind as usize
    }
}

pub fn numbers(told: Told) -> [u32; 3] {
    match told {
        Told::Done => [0, 0, 0],
        Told::Chart { inputs, boxes } => [1, inputs.into(), boxes.into()],
        Told::Running(steps) => [2, steps, 0],
        Told::Ended(steps) => [3, steps, 0],
        Told::Value { value, steps } => [4, value, steps],
        Told::Notice { steps, named } => [5, steps, named.into()],
        Told::Spent(steps) => [6, steps, 0],
        Told::Refused(number, detail) => [7, number, detail],
        Told::Written(length) => [8, length as u32, 0],
    }
}

/// Of a box shown.
pub fn shown(part: &[u8]) -> [u32; 3] {
    [9, part.len() as u32, 0]
}
