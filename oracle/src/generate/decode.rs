//! Classes.

use super::random::Random;

const CLASSES: [u64; 20] = [
    0x0000_0B0A,
    0x8000_0200,
    0x8000_0810,
    0xC000_0100,
    0xC000_0101,
    0xC000_0300,
    0xC000_0606,
    0xC000_0608,
    0xC000_0704,
    0xC000_0B0B,
    0xC000_0C00,
    0xC000_0C01,
    0xC000_0C02,
    0xC000_0C03,
    0xC000_0D03,
    0xC000_0D04,
    0xC000_0D05,
    0xC000_0D07,
    0xC000_0D08,
    0xE000_0604,
];

fn lines(classes: impl Iterator<Item = u64>) -> String {
    classes.map(|class| format!("decode {class:#x}\n")).collect()
}

pub fn random(random: &mut Random) -> String {
    let count = 1 + random.below(12);
    let class = |_| {
        let named = random.pick(&CLASSES);
        match random.below(6) {
            0 => random.number(),
            1 => random.number() >> 32,
            2 => named ^ 1 << random.below(64),
            3 => named + random.below(3) - 1,
            _ => named,
        }
    };
    lines((0..count).map(class).collect::<Vec<_>>().into_iter())
}

/// Every class with a name, each with every one of its 64 bits turned, and those around them.
pub fn chosen() -> Vec<String> {
    let mut cases = vec![
        lines(CLASSES.into_iter()),
        lines(CLASSES.into_iter().flat_map(|class| [class - 1, class + 1])),
        lines(CLASSES.into_iter().map(|class| class << 32)),
        lines([0, 1, u64::MAX, 0xFFFF_FFFF, 1 << 32, 0xC000_0999].into_iter()),
    ];
    cases.extend(CLASSES.map(|class| lines((0..64).map(|bit| class ^ 1 << bit))));
    cases
}
