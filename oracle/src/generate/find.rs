//! Finding a table by its entries.

use super::random::Random;
use super::values::list_line;
use crate::entries::TABLE_GUID;

const FOREIGN_GUIDS: [[u8; 16]; 3] = [[0; 16], [0xFF; 16], {
    let mut guid = TABLE_GUID;
    guid[15] ^= 1;
    guid
}];

pub const UNIT_SIZES: [u64; 8] = [1, 2, 512, 4096, 1 << 16, 1 << 21, 1 << 30, 1 << 31];
const BAD_UNIT_SIZES: [u64; 4] = [0, 3, 0x30_0000, 0xFFFF_FFFF];

/// What finding reads: the fields of a header, the words behind it, and the entries.
#[derive(Clone)]
struct Found {
    version: u64,
    unit: u64,
    base: u64,
    length: u64,
    /// The words of the whole image.
    words: u64,
    entries: Vec<u8>,
}

impl Found {
    fn text(&self) -> String {
        let mut image = vec![self.unit << 32 | self.version, self.base, self.length];
        image.resize(self.words as usize, 0x8000_0000_0000_0001);
        list_line("image", &image) + &format!("find {}\n", digits(&self.entries))
    }
}

fn digits(bytes: &[u8]) -> String {
    if bytes.is_empty() {
        return "-".into();
    }
    bytes.iter().map(|byte| format!("{byte:02x}")).collect()
}

fn entry(guid: [u8; 16], pointer: u64) -> Vec<u8> {
    let mut bytes = guid.to_vec();
    bytes.extend(pointer.to_le_bytes());
    bytes
}

/// The line that finds the image as a table.
pub fn find_line() -> String {
    format!("find {}\n", digits(&entry(TABLE_GUID, 0x1000)))
}

fn usual() -> Found {
    Found { version: 1, unit: 1 << 21, base: 0x4000_0000, length: 8, words: 4, entries: entry(TABLE_GUID, 0x1000) }
}

/// A base at or beside which the covered end is 2^64.
fn top_base(unit: u64, length: u64) -> u64 {
    0u64.wrapping_sub(unit.wrapping_mul(8).wrapping_mul(length))
}

pub fn base(random: &mut Random, unit: u64, length: u64) -> u64 {
    match random.below(6) {
        0 => 0,
        1 => top_base(unit, length).wrapping_add(random.below(3)).wrapping_sub(1 + random.below(2)),
        2 => random.number(),
        3 => random.number() >> 20,
        4 => random.pick(&[1, 0x1000, 0x20_0000, 0x4000_0000, u64::MAX]),
        _ => unit.wrapping_mul(random.below(1 << 16)),
    }
}

fn pointer(random: &mut Random) -> u64 {
    match random.below(12) {
        0 => 0,
        1 => 0x1000 + 1 + random.below(7),
        2 => u64::MAX - random.below(40),
        3 => 0u64.wrapping_sub(24 + 8 * random.below(3)),
        4 => random.number() & !7,
        _ => 0x1000,
    }
}

fn entry_list(random: &mut Random) -> Vec<u8> {
    let mut bytes = Vec::new();
    for _ in 0..random.below(4) {
        let foreign = random.pick(&FOREIGN_GUIDS);
        bytes.extend(entry(foreign, pointer(random)));
    }
    if !random.once_in(12) {
        bytes.extend(entry(TABLE_GUID, pointer(random)));
    }
    for _ in 0..random.below(3) {
        let guid = if random.once_in(2) { TABLE_GUID } else { random.pick(&FOREIGN_GUIDS) };
        bytes.extend(entry(guid, pointer(random)));
    }
    if random.once_in(12) {
        let length = random.below(bytes.len() as u64 + 1);
        bytes.truncate(length as usize);
    }
    bytes
}

pub fn random(random: &mut Random) -> String {
    let unit = if random.once_in(8) { random.pick(&BAD_UNIT_SIZES) } else { random.pick(&UNIT_SIZES) };
    let words = random.below(5);
    let length = match random.below(12) {
        0 => random.pick(&[0, 1, 4, 7, 9, 12, u64::MAX, 1 << 61, 1 << 63, (1 << 61) - 8, 0u64.wrapping_sub(8)]),
        1 => random.number() & !7,
        _ => 8 * (1 + words),
    };
    let image = match random.below(10) {
        0 => random.below(4),
        1 => 3 + words,
        2 => 4 + words + random.below(3),
        _ => 4 + words,
    };
    let version = if random.once_in(12) { random.pick(&[0, 2, 0xFFFF_FFFF]) } else { 1 };
    let base = base(random, unit, length);
    let entries = if random.once_in(2) { entry(TABLE_GUID, pointer(random)) } else { entry_list(random) };
    Found { version, unit, base, length, words: image, entries }.text()
}

/// Each field by itself at its boundaries, each fault before each other, and the entries.
pub fn chosen() -> Vec<String> {
    let mut found = Vec::new();
    found.extend(fields());
    found.extend(pairs());
    found.extend(coverages());
    found.extend(entry_lists());
    found.iter().map(Found::text).collect()
}

fn fields() -> Vec<Found> {
    let mut found = Vec::new();
    found.extend([0, 1, 2, 0x101, 0xFFFF_FFFF].map(|version| Found { version, ..usual() }));
    found.extend(UNIT_SIZES.map(|unit| Found { unit, ..usual() }));
    found.extend(BAD_UNIT_SIZES.map(|unit| Found { unit, ..usual() }));
    found.extend((0..=6).map(|words| Found { words, ..usual() }));
    for length in (0..=32).chain([(1 << 61) - 8, 1 << 61, 1 << 63, u64::MAX - 7, u64::MAX]) {
        found.push(Found { length, words: 8, ..usual() });
    }
    found
}

/// Two faults at once: which of them is told.
fn pairs() -> Vec<Found> {
    let faults: [fn(&mut Found); 9] = [
        |found| found.version = 2,
        |found| found.unit = 3,
        |found| found.length = 12,
        |found| found.length = 0,
        |found| found.base = u64::MAX,
        |found| found.words = 2,
        |found| found.words = 3,
        |found| found.entries = entry(TABLE_GUID, 0x1004),
        |found| found.entries = entry(TABLE_GUID, 0),
    ];
    let mut found = Vec::new();
    for first in faults {
        for second in faults {
            let mut both = usual();
            first(&mut both);
            second(&mut both);
            found.push(both);
        }
    }
    found
}

/// Covered ends just below, at and just above 2^64.
fn coverages() -> Vec<Found> {
    let mut found = Vec::new();
    for unit in UNIT_SIZES {
        for length in [8, 16, 40] {
            let words = 3 + length / 8;
            let top = top_base(unit, length);
            found.extend([top - 1, top, top + 1].map(|base| Found { unit, base, length, words, ..usual() }));
        }
    }
    found
}

fn entry_lists() -> Vec<Found> {
    let foreign = FOREIGN_GUIDS.map(|guid| entry(guid, 0x1000));
    let table = entry(TABLE_GUID, 0x1000);
    let null = entry(TABLE_GUID, 0);
    let mut lists = vec![
        Vec::new(),
        foreign.concat(),
        [foreign.concat(), table.clone()].concat(),
        [table.clone(), foreign.concat()].concat(),
        [table.clone(), null.clone()].concat(),
        [null.clone(), table.clone()].concat(),
        [foreign[0].clone(), null].concat(),
    ];
    lists.extend((0..16).map(|place| {
        let mut guid = TABLE_GUID;
        guid[place] ^= 0x80;
        entry(guid, 0x1000)
    }));
    lists.extend((1..48).map(|length| [table.clone(), foreign[1].clone()].concat()[..length].to_vec()));
    lists.extend((0..8).map(|remainder| entry(TABLE_GUID, 0x1000 + remainder)));
    lists.extend((0..34).map(|below| entry(TABLE_GUID, u64::MAX - below)));
    lists.extend([1, 8, 1 << 47, 1 << 63].map(|pointer| entry(TABLE_GUID, pointer)));
    lists.into_iter().map(|entries| Found { entries, ..usual() }).collect()
}
