//! Sizes of tables, and building them.

use super::random::Random;
use super::values::{address, list_line, range_line, UNIT, WORD};

/// The highest end that a coverage may have.
const HIGHEST: u64 = 0u64.wrapping_sub(UNIT);

const POINTS: [u64; 20] = [
    0,
    1,
    0xFFF,
    0x1000,
    UNIT - 1,
    UNIT,
    UNIT + 1,
    WORD - 1,
    WORD,
    WORD + 1,
    WORD + UNIT,
    0x4000_0000,
    1 << 63,
    HIGHEST - WORD,
    HIGHEST - WORD + UNIT,
    HIGHEST - UNIT,
    HIGHEST - 1,
    HIGHEST,
    HIGHEST + 1,
    u64::MAX,
];

const COVERAGE_POINTS: [u64; 17] = [
    0,
    1,
    UNIT - 1,
    UNIT,
    UNIT + 1,
    WORD - 1,
    WORD,
    WORD + 1,
    2 * WORD + UNIT,
    HIGHEST - WORD - UNIT,
    HIGHEST - WORD,
    HIGHEST - WORD + UNIT,
    HIGHEST - UNIT - 1,
    HIGHEST - UNIT,
    HIGHEST,
    HIGHEST + 1,
    u64::MAX,
];

/// What an image holds before a table is built in it.
const FILLINGS: [u64; 3] = [u64::MAX, 0, 0x5555];

/// The words of an image for a coverage, if that is one, as counted from its ends.
pub fn image_words(start: u64, end: u64) -> Option<u64> {
    if start >= end || end > HIGHEST {
        return None;
    }
    let units = end.div_ceil(UNIT) - start / UNIT;
    Some(3 + units.div_ceil(64))
}

pub fn ranges(random: &mut Random, count: u64) -> Vec<(u64, u64)> {
    let range = |_| {
        let (one, other) = (address(random), address(random));
        if random.once_in(12) {
            (one, other)
        } else {
            (one.min(other), one.max(other))
        }
    };
    (0..count).map(range).collect()
}

pub fn ranges_line(name: &str, ranges: &[(u64, u64)]) -> String {
    let words: String = ranges.iter().map(|(start, end)| format!(" {start:#x} {end:#x}")).collect();
    format!("{name}{words}\n")
}

pub fn random(random: &mut Random) -> String {
    let mut text = String::new();
    for _ in 0..1 + random.below(4) {
        if random.once_in(2) {
            text += &range_line("size", ranges(random, 1)[0]);
        } else {
            let count = random.below(6);
            text += &ranges_line("sizes", &ranges(random, count));
        }
    }
    if random.once_in(200) {
        let count = 1023 + random.below(3);
        text += &ranges_line("sizes", &many(count));
    }
    text
}

/// As many ranges of a page each.
fn many(count: u64) -> Vec<(u64, u64)> {
    (0..count).map(|place| (place * 0x1000, (place + 1) * 0x1000)).collect()
}

pub fn random_build(random: &mut Random) -> String {
    let (start, end) = coverage(random);
    let exact = image_words(start, end).filter(|&words| words < 200);
    let length = match exact {
        Some(words) if !random.once_in(4) => words + random.below(4) - 1,
        _ => random.below(8),
    };
    let filling = random.pick(&FILLINGS);
    let words: Vec<u64> = (0..length).map(|_| filling).collect();
    list_line("image", &words) + &range_line("build", (start, end))
}

/// A coverage, mostly of few words.
fn coverage(random: &mut Random) -> (u64, u64) {
    let start = address(random);
    if random.once_in(4) {
        return (start, address(random));
    }
    let size = random.pick(&[1, UNIT - 1, UNIT, UNIT + 1, WORD - UNIT, WORD - 1, WORD, WORD + 1, 2 * WORD, 5 * WORD]);
    (start, start.saturating_add(size))
}

/// The sizes of every range between two of the points, and of lists.
pub fn chosen() -> Vec<String> {
    let mut cases: Vec<String> =
        POINTS.iter().map(|&start| POINTS.map(|end| range_line("size", (start, end))).concat()).collect();
    for first in [(0, UNIT), (UNIT, 2 * WORD), (WORD, WORD), (HIGHEST - 1, u64::MAX), (5, 4)] {
        let seconds = POINTS.map(|start| ranges_line("sizes", &[first, (start, WORD)]));
        cases.push(seconds.concat());
    }
    cases.push(ranges_line("sizes", &[]) + &ranges_line("sizes", &[(1, 2)]));
    for count in [1023, 1024, 1025] {
        cases.push(ranges_line("sizes", &many(count)));
    }
    cases
}

/// Building for every coverage between two of the points, in an image that is one word too short, exact and too long.
pub fn chosen_builds() -> Vec<String> {
    let mut cases = Vec::new();
    for (place, start) in COVERAGE_POINTS.into_iter().enumerate() {
        for end in COVERAGE_POINTS {
            let lengths = match image_words(start, end) {
                Some(words) if words < 16 => vec![words - 1, words, words + 2],
                _ if start < end => vec![4],
                // A few of the empty coverages tell enough.
                _ if place < 4 => vec![0, 4],
                _ => Vec::new(),
            };
            for length in lengths {
                let words: Vec<u64> = (0..length).map(|_| u64::MAX).collect();
                cases.push(list_line("image", &words) + &range_line("build", (start, end)));
            }
        }
    }
    cases
}
