//! Makes scripts: cases chosen around the boundaries, and random ones that follow from a seed.

mod bits;
mod decode;
mod find;
mod random;
mod sizes;
mod tables;
mod values;
mod walk;

use std::ops::Range;

use random::Random;

/// A kind of cases.
pub struct Kind {
    pub name: &'static str,
    /// One case's lines, between `case` and `end`.
    random: fn(&mut Random) -> String,
    /// The lines of all chosen cases.
    chosen: fn() -> Vec<String>,
}

pub const KINDS: [Kind; 8] = [
    Kind { name: "decode", random: decode::random, chosen: decode::chosen },
    Kind { name: "walk", random: walk::random, chosen: walk::chosen },
    Kind { name: "stepped", random: walk::random_stepped, chosen: walk::chosen_stepped },
    Kind { name: "bits", random: bits::random, chosen: bits::chosen },
    Kind { name: "sizes", random: sizes::random, chosen: sizes::chosen },
    Kind { name: "build", random: sizes::random_build, chosen: sizes::chosen_builds },
    Kind { name: "find", random: find::random, chosen: find::chosen },
    Kind { name: "tables", random: tables::random, chosen: Vec::new },
];

pub fn kind(name: &str) -> Option<&'static Kind> {
    KINDS.iter().find(|kind| kind.name == name)
}

impl Kind {
    /// Whether the list that the repository keeps has cases of this kind: the port has code for all of their calls.
    pub fn is_listed(&self) -> bool {
        self.name != "tables"
    }
}

/// Cases of the kinds by turns, from a seed: those at the places of a range.
pub fn random_cases(seed: u64, places: Range<u64>, kinds: &[&Kind]) -> String {
    let mut text = String::new();
    for place in places {
        let kind = kinds[(place % kinds.len() as u64) as usize];
        // Each case has numbers of its own, so that one case is the same however many come before it.
        let mut random = Random::new(Random::new(seed).number() ^ place.wrapping_mul(0xD6E8_FEB8_6659_FD93));
        let lines = (kind.random)(&mut random);
        text += &format!("case {}-{seed}-{place}\n{lines}end\n", kind.name);
    }
    text
}

/// The chosen cases of the kinds.
pub fn chosen_cases(kinds: &[&Kind]) -> String {
    let mut text = String::new();
    for kind in kinds {
        for (place, lines) in (kind.chosen)().iter().enumerate() {
            text += &format!("case {}-{place}\n{lines}end\n", kind.name);
        }
    }
    text
}
