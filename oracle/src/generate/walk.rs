//! Walks: over a map with layers, and over a list of replies.

use super::random::Random;
use super::values::{list_line, map_line, range_line, reply, window, LARGE, MIDDLE, PAGE, REPLIES};

/// The line of a walk, whose ends mostly are those of pages.
fn walk(random: &mut Random, start: u64, end: u64, unit: u64) -> String {
    let (first, last) = window(random, start, end, unit);
    let of_page = |random: &mut Random, point: u64| if random.once_in(5) { point } else { point - point % PAGE };
    let ends = (of_page(random, first), of_page(random, last));
    range_line("walk", ends)
}

const BASES: [u64; 12] = [
    0,
    PAGE,
    MIDDLE - PAGE,
    MIDDLE,
    2 * MIDDLE - 3 * PAGE,
    LARGE - MIDDLE,
    LARGE - PAGE,
    LARGE,
    2 * LARGE,
    1 << 46,
    1 << 63,
    0x1ED_6004_9000,
];

/// The bytes of pages: absent, pending at each level, accepted, and two that count as absent.
const BYTES: [u8; 7] = [0, 1, 2, 3, 4, 5, 0xFF];
const USUAL_BYTES: [u8; 4] = [1, 2, 3, 4];

/// The pages of a map, by runs: few, some blocks of 2 MiB, or some more.
fn pages(random: &mut Random) -> Vec<u8> {
    let most = random.pick(&[6, 40, 700, 1536, 1536, 2100, 4200]);
    let lengths: &[usize] = if most < 100 { &[1, 1, 2, 3] } else { &[1, 2, 3, 511, 512, 512, 512, 513, 1024] };
    let odd = random.once_in(3);
    let mut pages = Vec::new();
    while pages.len() < most {
        let byte = if odd { random.pick(&BYTES) } else { random.pick(&USUAL_BYTES) };
        let length = random.pick(lengths);
        pages.resize(pages.len() + length, byte);
    }
    let length = most - random.pick(&[0, 0, 1, most / 2, most]);
    pages.truncate(length);
    pages
}

/// More than a block of 1 GiB that is pending, with a few pages that are not.
fn many_pages(random: &mut Random) -> Vec<u8> {
    let length = random.pick(&[262_144, 262_143, 262_145, 262_144 + 512]);
    let mut pages = vec![random.pick(&[3, 3, 2]); length];
    for _ in 0..random.below(3) {
        let place = random.below(length as u64) as usize;
        pages[place] = random.pick(&BYTES);
    }
    pages
}

fn base(random: &mut Random, pages: usize) -> u64 {
    let size = pages as u64 * PAGE;
    match random.below(6) {
        0 => 0u64.wrapping_sub(PAGE).wrapping_sub(size),
        1 => 0u64.wrapping_sub(MIDDLE).wrapping_sub(size.next_multiple_of(MIDDLE)),
        2 => random.below(1 << 36) * PAGE,
        _ => random.pick(&BASES),
    }
}

/// The lines of the layers of a case, which may be refused.
pub fn layers(random: &mut Random) -> String {
    let mut text = String::new();
    if random.once_in(2) {
        let words: Vec<u64> = (0..random.below(12)).map(|_| reply(random)).collect();
        text += &list_line("inject", &words);
    }
    if random.once_in(3) {
        let count = if random.once_in(40) { random.pick(&[8, 256, u64::MAX]) } else { random.below(8) };
        text += &format!("retry {count}\n");
    }
    if random.once_in(3) {
        let level = if random.once_in(40) { random.pick(&[3, 258, u64::MAX]) } else { random.below(3) };
        text += &format!("cap {level}\n");
    }
    text
}

pub fn random(random: &mut Random) -> String {
    if random.once_in(60) {
        return random_large(random);
    }
    let pages = pages(random);
    let mut base = base(random, pages.len());
    if random.once_in(60) {
        base = base.wrapping_add(random.pick(&[1, 0x800, PAGE, MIDDLE]));
    }
    let end = base.saturating_add(pages.len() as u64 * PAGE);
    let unit = random.pick(&[PAGE, MIDDLE, MIDDLE]);
    let host = map_line(base, &pages) + &layers(random);
    let walks: String = (0..1 + random.below(4)).map(|_| walk(random, base, end, unit)).collect();
    host + &walks
}

fn random_large(random: &mut Random) -> String {
    let pages = many_pages(random);
    let base = random.pick(&[LARGE, LARGE - PAGE, LARGE - MIDDLE, 2 * LARGE]);
    let start = random.pick(&[LARGE, LARGE - PAGE, LARGE - MIDDLE, base]);
    let end = base + pages.len() as u64 * PAGE - random.pick(&[0, 0, 1, PAGE, MIDDLE]);
    let cap = random.pick(&["", "", "cap 1\n", "cap 2\n"]);
    map_line(base, &pages) + cap + &range_line("walk", (start, end)) + &range_line("walk", (base, end))
}

pub fn random_stepped(random: &mut Random) -> String {
    let length = random.pick(&[0, 1, 2, 3, 6, 12, 40]);
    let replies: Vec<u64> = (0..random.below(length + 1)).map(|_| reply(random)).collect();
    let mut text = list_line("script", &replies);
    for _ in 0..1 + random.below(3) {
        let base = random.pick(&[0, MIDDLE, LARGE, 3 * LARGE, 1 << 63, 0u64.wrapping_sub(2 * LARGE)]);
        let unit = random.pick(&[PAGE, MIDDLE, LARGE]);
        text += &walk(random, base, base.saturating_add(3 * unit), unit);
    }
    text
}

pub fn chosen() -> Vec<String> {
    let mut cases = few_pages();
    cases.extend(one_block());
    cases.extend(spans());
    cases.extend(under_layers());
    cases.extend(refused_hosts());
    cases.extend(at_the_top());
    cases.extend(large_blocks());
    cases
}

/// Every map of one and of two pages, walked twice.
fn few_pages() -> Vec<String> {
    let walks = |end| range_line("walk", (0x1000, end)).repeat(2);
    let mut cases = Vec::new();
    for first in BYTES {
        cases.push(map_line(0x1000, &[first]) + &walks(0x2000));
        for second in BYTES {
            cases.push(map_line(0x1000, &[first, second]) + &walks(0x3000));
        }
    }
    cases
}

/// A block of 2 MiB of each kind of page, with one page of each other kind.
fn one_block() -> Vec<String> {
    let mut cases = Vec::new();
    for byte in &BYTES[1..5] {
        for place in [0, 1, 511] {
            for odd in &BYTES[..6] {
                let mut pages = vec![*byte; 512];
                pages[place] = *odd;
                cases.push(map_line(MIDDLE, &pages) + &range_line("walk", (MIDDLE, 2 * MIDDLE)).repeat(2));
            }
        }
    }
    cases
}

/// Every span between points on and beside the edges of pages and blocks.
fn spans() -> Vec<String> {
    let points = [0, 0x1F_E000, 0x1F_F000, 0x1F_F001, MIDDLE, 0x20_0001, 0x20_1000, 0x3F_F000, 0x40_0000, 0x40_0800, 0x40_1000];
    let mut cases = Vec::new();
    for start in points {
        for end in points {
            cases.push(map_line(0x1F_E000, &[3; 516]) + &range_line("walk", (start, end)));
        }
    }
    cases
}

/// A walk of three requests and more under every layer.
fn under_layers() -> Vec<String> {
    let mut cases = Vec::new();
    let map = map_line(0x1F_F000, &[3; 514]);
    let walks = range_line("walk", (0x1F_F000, 0x40_1000)).repeat(2);
    for level in 0..3 {
        cases.push(format!("{map}cap {level}\n{walks}"));
    }
    for reply in REPLIES {
        for place in 0..3 {
            let mut words = vec![0; place];
            words.push(reply);
            cases.push(map.clone() + &list_line("inject", &words) + &walks);
        }
        for level in 0..2 {
            cases.push(map.clone() + &list_line("inject", &[0, reply, reply]) + &format!("cap {level}\n") + &walks);
        }
    }
    let busy = REPLIES[4];
    for count in 0..8 {
        for times in [1, 2, 7, 8] {
            let words = list_line("inject", &vec![busy; times]);
            cases.push(format!("{map}{words}retry {count}\n{walks}"));
        }
        let words = list_line("inject", &[busy, busy + 7, 0, busy, REPLIES[5]]);
        cases.push(format!("{map}{words}retry {count}\ncap 1\n{walks}"));
    }
    cases
}

/// Numbers of hosts that are not possible, and those beside them that are.
fn refused_hosts() -> Vec<String> {
    let walk = range_line("walk", (0, 0x1000));
    let top = 0u64.wrapping_sub(PAGE);
    let mut cases: Vec<String> = [
        map_line(1, &[1]),
        map_line(0x800, &[]),
        map_line(0xFFF, &[1, 2]),
        map_line(top, &[1]),
        map_line(top, &[]),
        map_line(top - PAGE, &[1]),
        map_line(top - PAGE, &[1, 1]),
        map_line(0, &[]),
    ]
    .map(|map| map + &walk)
    .into();
    for layer in ["cap 2", "cap 3", "cap 256", "cap 18446744073709551615", "retry 7", "retry 8", "retry 256"] {
        cases.push(map_line(0, &[1]) + layer + "\n" + &walk);
        cases.push(map_line(0, &[1]) + "inject 0\n" + layer + "\n" + &walk);
    }
    cases.push(range_line("walk", (0, 0x1000)));
    cases
}

/// Spans that end near 2^64.
fn at_the_top() -> Vec<String> {
    let base = 0u64.wrapping_sub(2 * MIDDLE);
    let ends = [base + MIDDLE, 0u64.wrapping_sub(2 * PAGE), 0u64.wrapping_sub(PAGE), 0u64.wrapping_sub(PAGE) + 1, u64::MAX];
    let mut cases = Vec::new();
    for byte in [1, 3, 4] {
        for start in [base - PAGE, base, base + PAGE, base + MIDDLE, 0u64.wrapping_sub(PAGE)] {
            for end in ends {
                cases.push(map_line(base, &[byte; 1023]) + &range_line("walk", (start, end)));
            }
        }
    }
    cases
}

/// Blocks of 1 GiB, whole and with one other page.
fn large_blocks() -> Vec<String> {
    let mut cases = Vec::new();
    for odd in [3, 2, 4, 0] {
        let mut pages = vec![3; 262_144];
        pages[1000] = odd;
        let map = map_line(LARGE, &pages);
        cases.push(map.clone() + &range_line("walk", (LARGE, 2 * LARGE)));
        cases.push(map + "cap 1\n" + &range_line("walk", (LARGE, 2 * LARGE - PAGE)));
    }
    cases
}

/// Every list of up to two replies, and some of three, to walks that begin at each level.
pub fn chosen_stepped() -> Vec<String> {
    let spans = [(LARGE, 3 * LARGE), (MIDDLE, 3 * MIDDLE), (PAGE, 3 * PAGE), (LARGE - PAGE, 2 * LARGE + PAGE)];
    let told = &REPLIES[..6];
    let mut cases = Vec::new();
    for span in spans {
        let walk = range_line("walk", span);
        cases.push(list_line("script", &[]) + &walk);
        for first in REPLIES {
            cases.push(list_line("script", &[first]) + &walk);
        }
        for first in told {
            for second in told {
                cases.push(list_line("script", &[*first, *second]) + &walk);
            }
        }
        for second in &told[..4] {
            for third in &told[..4] {
                cases.push(list_line("script", &[told[2], *second, *third, 0, *second]) + &walk + &walk);
            }
        }
    }
    for (start, end) in [
        (PAGE, PAGE),
        (PAGE + 1, PAGE + 1),
        (0x3001, PAGE),
        (0x1001, 0x3000),
        (PAGE, 0x1800),
        (PAGE, 0x2800),
        (u64::MAX, u64::MAX),
        (0, u64::MAX),
    ] {
        cases.push("script 0*6\n".to_string() + &range_line("walk", (start, end)));
    }
    cases
}
