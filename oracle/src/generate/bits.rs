//! Bitmaps.

use super::random::Random;
use super::values::{list_line, range_line};

/// The words of bitmaps that are tried whole.
const PATTERNS: [&[u64]; 12] = [
    &[],
    &[0],
    &[u64::MAX],
    &[1],
    &[1 << 63],
    &[0x5555_5555_5555_5555],
    &[0, 0],
    &[u64::MAX, u64::MAX],
    &[1 << 63, 1],
    &[u64::MAX >> 1, u64::MAX - 1],
    &[0, 1 << 33, 0],
    &[u64::MAX, u64::MAX - (1 << 20), u64::MAX],
];

const UNITS: [u64; 12] = [0, 1, 62, 63, 64, 65, 127, 128, 129, 191, 192, u64::MAX];
const CHANGED: [u64; 8] = [0, 1, 63, 64, 65, 128, 192, u64::MAX];

fn word(random: &mut Random) -> u64 {
    match random.below(6) {
        0 => 0,
        1 => u64::MAX,
        2 => 1 << random.below(64),
        3 => u64::MAX << random.below(64),
        4 => random.number() & random.number() & random.number(),
        _ => random.number(),
    }
}

fn unit(random: &mut Random, words: u64) -> u64 {
    let edge = 64 * random.below(words + 2);
    match random.below(8) {
        0 => random.pick(&[u64::MAX, 1 << 63, 1 << 32, 1 << 58]),
        1 => random.below(64 * (words + 1)),
        2 => edge.wrapping_sub(1),
        3 => edge + 1,
        _ => edge,
    }
}

pub fn random(random: &mut Random) -> String {
    let count = if random.once_in(3) { random.below(41) } else { random.below(4) };
    let words: Vec<u64> = if random.once_in(4) {
        let same = word(random);
        (0..count).map(|_| same).collect()
    } else {
        (0..count).map(|_| word(random)).collect()
    };
    let mut text = list_line("bits", &words);
    for _ in 0..1 + random.below(8) {
        let name = random.pick(&["fset", "fzero", "bany", "bset", "bclear", "bcount", "bcap"]);
        if name == "bcount" || name == "bcap" {
            text += &format!("{name}\n");
        } else {
            let (start, end) = (unit(random, count), unit(random, count));
            text += &range_line(name, (start, end));
        }
    }
    text
}

/// Each search from each unit to each, and each change, over each pattern.
pub fn chosen() -> Vec<String> {
    let mut cases = Vec::new();
    for pattern in PATTERNS {
        cases.push(list_line("bits", pattern) + "bcount\nbcap\n");
        for start in UNITS {
            cases.push(list_line("bits", pattern) + &searches(start));
        }
    }
    for pattern in &PATTERNS[1..] {
        for start in CHANGED {
            for end in CHANGED {
                if start < end || start == 64 {
                    cases.push(list_line("bits", pattern) + &changes(start, end));
                }
            }
        }
    }
    cases
}

fn searches(start: u64) -> String {
    let calls = |end| ["fset", "fzero", "bany"].map(|name| range_line(name, (start, end))).concat();
    UNITS.map(calls).concat()
}

fn changes(start: u64, end: u64) -> String {
    let inner = (start.saturating_add(1), end.saturating_sub(1));
    range_line("bset", (start, end)) + "bcount\n" + &range_line("bclear", inner) + "bcount\n" + &range_line("fzero", (0, end))
}
