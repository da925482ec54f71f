//! Values around the boundaries, and how they are written.

use super::random::Random;
use crate::host::{ADDRESS_RANGE, ALREADY_ACCEPTED, BUSY, NO_REPLY_LEFT, OPERAND_INVALID, SIZE_MISMATCH};
use crate::print;

pub const PAGE: u64 = 0x1000;
pub const MIDDLE: u64 = 0x20_0000;
pub const LARGE: u64 = 0x4000_0000;

/// The unit size of a table that building makes, and the addresses that one word of its bitmap covers.
pub const UNIT: u64 = 0x20_0000;
pub const WORD: u64 = 64 * UNIT;

/// Statuses that walks tell apart, and some of the same classes with a lower half.
pub const REPLIES: [u64; 14] = [
    0,
    ALREADY_ACCEPTED,
    SIZE_MISMATCH,
    OPERAND_INVALID,
    BUSY,
    ADDRESS_RANGE,
    NO_REPLY_LEFT,
    1,
    0xFFFF_FFFF,
    ALREADY_ACCEPTED + 1,
    SIZE_MISMATCH + 0xFFFF_FFFF,
    BUSY + 7,
    0xC000_0300 << 32,
    0xC000_0999 << 32,
];

/// A status, more often a usual one than not.
pub fn reply(random: &mut Random) -> u64 {
    match random.below(4) {
        0 => 0,
        1 => random.pick(&REPLIES[..6]),
        2 => random.pick(&REPLIES),
        _ => random.pick(&[0, ALREADY_ACCEPTED, SIZE_MISMATCH]),
    }
}

const ANCHORS: [u64; 13] = [
    0,
    MIDDLE,
    0x40_0000,
    WORD,
    LARGE,
    LARGE + WORD,
    1 << 32,
    1 << 46,
    1 << 52,
    1 << 63,
    0u64.wrapping_sub(WORD),
    0u64.wrapping_sub(2 * WORD),
    0u64.wrapping_sub(MIDDLE),
];

const STEPS: [u64; 10] = [0, 0, 1, 0x800, PAGE, MIDDLE - 1, MIDDLE, 3 * MIDDLE, WORD, LARGE];

/// An address at, a little above or a little below a boundary; one below 0 is one near 2^64.
pub fn address(random: &mut Random) -> u64 {
    let anchor = random.pick(&ANCHORS);
    let step = random.pick(&STEPS);
    let small = random.pick(&[0, 0, 0, 1, 0x7FF, PAGE]);
    let near = if random.once_in(2) { anchor.wrapping_add(step) } else { anchor.wrapping_sub(step) };
    if random.once_in(2) {
        near.wrapping_add(small)
    } else {
        near.wrapping_sub(small)
    }
}

/// A point of a window over [start, end), on or beside an edge of it or of a unit, or anywhere.
pub fn point(random: &mut Random, start: u64, end: u64, unit: u64) -> u64 {
    let units = (end.saturating_sub(start) / unit).max(1);
    let edge = start.saturating_add(random.below(units).saturating_mul(unit));
    let near = match random.below(8) {
        0 => start,
        1 => end,
        2 => return random.pick(&[0, u64::MAX, start.wrapping_sub(unit), end.wrapping_add(unit)]),
        3 => start.wrapping_add(random.below(end.saturating_sub(start).max(1))),
        _ => edge,
    };
    match random.below(8) {
        0 => near.wrapping_sub(1),
        1 => near.wrapping_add(1),
        2 => near.wrapping_add(unit / 2),
        3 => near.wrapping_add(PAGE),
        4 => near.wrapping_sub(PAGE),
        _ => near,
    }
}

/// Two points, mostly in their order.
pub fn window(random: &mut Random, start: u64, end: u64, unit: u64) -> (u64, u64) {
    let one = point(random, start, end, unit);
    let other = point(random, start, end, unit);
    if random.once_in(16) {
        (one, other)
    } else {
        (one.min(other), one.max(other))
    }
}

/// A line whose words are a list, runs in one word.
pub fn list_line(name: &str, values: &[u64]) -> String {
    format!("{name}{}\n", print::values(values))
}

pub fn map_line(base: u64, bytes: &[u8]) -> String {
    format!("map {base:#x}{}\n", print::values(bytes))
}

/// A line of a call with two numbers.
pub fn range_line(name: &str, (start, end): (u64, u64)) -> String {
    format!("{name} {start:#x} {end:#x}\n")
}
