//! Calls on a table that is built, or that is found.

use super::find::{base as found_base, find_line, UNIT_SIZES};
use super::random::Random;
use super::sizes::{image_words, ranges_line};
use super::values::{list_line, map_line, range_line, reply, window, MIDDLE, PAGE, UNIT, WORD};
use super::walk::layers;

/// Where tables that are built begin.
const BASES: [u64; 8] =
    [0, WORD, 0x3BC0_0000, 0x4000_0000, 1 << 40, 1 << 63, 0u64.wrapping_sub(3 * WORD), 0u64.wrapping_sub(WORD)];

/// The pages of a region by runs, which mostly are whole blocks of 2 MiB.
fn pages(random: &mut Random, count: u64) -> Vec<u8> {
    let usual: &[u8] = match random.below(4) {
        0 => &[3],
        1 => &[2, 3],
        2 => &[1, 2, 3, 4],
        _ => &[0, 1, 2, 3, 3, 3, 4, 5],
    };
    let uneven = random.once_in(3);
    let mut pages = Vec::new();
    while (pages.len() as u64) < count {
        let byte = random.pick(usual);
        let blocks = 512 * (1 + random.below(6));
        let length = if uneven { blocks + random.below(3) - 1 } else { blocks };
        pages.resize(pages.len() + length as usize, byte);
    }
    pages.truncate(count as usize);
    pages
}

/// A map of pages from an address on, and layers over it.
fn host(random: &mut Random, start: u64, count: u64) -> String {
    if random.once_in(8) {
        let replies: Vec<u64> = (0..random.below(60)).map(|_| reply(random)).collect();
        return list_line("script", &replies);
    }
    let start = start - start % PAGE;
    let count = count.min((0u64.wrapping_sub(PAGE) - start.min(0u64.wrapping_sub(PAGE))) / PAGE);
    map_line(start, &pages(random, count)) + &layers(random)
}

/// A region in which ranges are registered: its start and its end.
fn region(random: &mut Random) -> (u64, u64) {
    let start = random.pick(&BASES) + random.below(4) * UNIT;
    let size = random.pick(&[UNIT, 4 * UNIT, WORD - UNIT, WORD, WORD, WORD + UNIT, 2 * WORD]);
    (start, start.saturating_add(size))
}

fn image(random: &mut Random, (start, end): (u64, u64)) -> String {
    let exact = image_words(start, end).unwrap_or(4);
    let length = exact + random.pick(&[0, 0, 0, 1, 2]) - u64::from(random.once_in(20));
    let filling = random.pick(&[u64::MAX, 0, 0x5555]);
    list_line("image", &(0..length).map(|_| filling).collect::<Vec<_>>())
}

/// A few ranges in a region, in parts that follow each other and so do not overlap, some with an edge in a page or a unit.
fn parts(random: &mut Random, (start, end): (u64, u64)) -> Vec<(u64, u64)> {
    let mut parts = Vec::new();
    let mut at = start;
    while at < end && parts.len() < 6 && !random.once_in(4) {
        let first = at.saturating_add(random.below(5) * random.pick(&[PAGE, MIDDLE, MIDDLE]));
        let size = random.pick(&[PAGE, 3 * PAGE, MIDDLE, 2 * MIDDLE, 2 * MIDDLE + PAGE, 5 * MIDDLE, 9 * MIDDLE - PAGE]);
        let last = first.saturating_add(size).min(end.max(first.saturating_add(1)));
        let odd = if random.once_in(30) { 0x800 } else { 0 };
        parts.push((first, last.saturating_add(odd)));
        at = last.saturating_add(odd);
    }
    if random.once_in(2) {
        parts.reverse();
    }
    parts
}

/// A few calls on a table that covers [start, end).
fn calls(random: &mut Random, start: u64, end: u64, unit: u64) -> String {
    let mut text = String::new();
    let mut claims = 0;
    for _ in 0..random.below(8) {
        let name = random
            .pick(&["accept", "accept", "claim", "claim", "claim", "settle", "restore", "count", "pending", "accepted", "cover"]);
        // Before a claim there is none to settle.
        let name = if claims == 0 && ["settle", "restore"].contains(&name) && !random.once_in(10) { "claim" } else { name };
        if name == "claim" {
            claims += 1;
        }
        text += &match name {
            "count" | "cover" => format!("{name}\n"),
            "settle" | "restore" if random.once_in(20) => format!("{name} {}\n", u64::MAX),
            "settle" | "restore" => format!("{name} {}\n", random.below(claims + 1) / 2),
            _ if random.once_in(8) => range_line(name, (0, u64::MAX)),
            _ => range_line(name, window(random, start, end, unit)),
        };
    }
    text
}

/// The host of a region, with a little more on either side.
fn host_of(random: &mut Random, (start, end): (u64, u64)) -> String {
    let before = random.pick(&[0, 0, UNIT, 2 * UNIT]).min(start);
    let behind = random.pick(&[0, UNIT, 4 * UNIT]);
    host(random, start - before, (end.saturating_add(behind) - start + before) / PAGE)
}

fn new(random: &mut Random) -> String {
    let region = region(random);
    let mut ranges = parts(random, region);
    if random.once_in(12) {
        ranges.push((region.1, region.0));
    }
    let start = ranges.iter().map(|range| range.0).min().unwrap_or(region.0);
    let end = ranges.iter().map(|range| range.1).max().unwrap_or(region.1);
    image(random, (start, end)) + &host_of(random, region) + &ranges_line("new", &ranges) + &calls(random, start, end, UNIT)
}

fn register(random: &mut Random) -> String {
    let region = region(random);
    let mut text = image(random, region) + &host_of(random, region) + &range_line("build", region);
    for part in parts(random, region) {
        text += &range_line("reg", part);
        if random.once_in(6) {
            text += &range_line("reg", part);
        }
    }
    if random.once_in(2) {
        text += &range_line("reg", window(random, region.0, region.1, UNIT));
    }
    if !random.once_in(12) {
        text += "done\n";
    }
    text + &calls(random, region.0, region.1, UNIT)
}

fn found(random: &mut Random) -> String {
    let unit = random.pick(&UNIT_SIZES);
    let words = if random.once_in(10) { 1 + random.below(40) } else { 1 + random.below(3) };
    let base = if random.once_in(3) { PAGE * random.below(1 << 20) } else { found_base(random, unit, 8 * words) };
    let end = base.saturating_add(unit.saturating_mul(64 * words));
    let mut image = vec![unit << 32 | 1, base, 8 * words];
    image.extend((0..words).map(|_| match random.below(5) {
        0 => 0,
        1 => u64::MAX,
        2 => 1 << random.below(64),
        3 => (1 << random.below(64)) - 1 << random.below(32),
        _ => random.number() & random.number() & random.number(),
    }));
    image.extend((0..random.below(3)).map(|_| 0x77));
    let count = (end.saturating_sub(base) / PAGE + 2).min(random.pick(&[26, 1024, 4096, 32768]));
    list_line("image", &image) + &host(random, base, count) + &find_line() + &calls(random, base, end, unit)
}

pub fn random(random: &mut Random) -> String {
    match random.below(3) {
        0 => new(random),
        1 => register(random),
        _ => found(random),
    }
}
