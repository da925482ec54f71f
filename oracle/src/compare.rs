//! Compares what the original and the port print for a script. A difference that docs/DIFFERENCES.md lists is known by a rule
//! of this file, which has a name and looks at the case's input; every other one is shown.

use std::collections::{BTreeMap, BTreeSet};
use std::ops::Range;

use crate::entries;
use crate::places;
use crate::print;
use crate::run::{CANNOT_ASK, PANIC};
use crate::script::{self, Call, Line};

/// A case of a script.
pub struct Case<'a> {
    /// The line `case NAME`.
    pub head: &'a str,
    /// The lines up to `end`, each as it is written and as it was read.
    pub lines: Vec<(&'a str, Line)>,
}

/// What a case's call or its end came to, on both sides.
pub struct Judged<'a> {
    /// The place of the line that printed it, among the case's lines; none for what `end` prints.
    pub place: Option<usize>,
    pub original: &'a str,
    /// Empty where a side printed no such line.
    pub port: &'a str,
    /// The second line of a refusal, which the port alone prints.
    pub places: Option<&'a str>,
    pub verdict: Verdict,
}

pub enum Verdict {
    Same,
    Listed(&'static str),
    NotCompared(&'static str),
    Different,
}

const NO_NUMBER: &str = "find: none, for a reason that the Rust does not log";
const NO_ENTRIES: &str = "find: entries that are no whole number of entries";
const HIGH_POINTER: &str = "find: a pointer at which no header can lie";
const CUT_OFF: &str = "find: a bitmap that does not lie wholly in the image";
const NO_HEADER: &str = "find: a header that does not lie wholly in the image";
const HIGH_END: &str = "build: a covered end of 2^64 and more";
const HIGH_END_SHORT: &str = "build: a covered end of 2^64 and more, in an image that is too short";
const MANY_RANGES: &str = "sizes: more than 1,024 ranges";

const NO_CODE: &str = "a call of the table, of which the port has no code yet";
const CHECK_ONLY: &str = "build: the port only checks, and the check passes";
const BEHIND: &str = "behind such a call, in the same case";

pub fn cases(script: &str) -> Result<Vec<Case<'_>>, String> {
    let mut cases: Vec<Case> = Vec::new();
    let mut heads = BTreeSet::new();
    let mut inside = false;
    for text in script.lines() {
        // A line that cannot be read, or cannot stand where it does, is one at which both sides have to print the same reason.
        match script::read(text).unwrap_or(Line::Nothing) {
            Line::Case if !inside => {
                if !heads.insert(text) {
                    return Err(format!("two cases have the line {text}"));
                }
                cases.push(Case { head: text, lines: Vec::new() });
                inside = true;
            }
            Line::End => inside = false,
            line => {
                if let Some(case) = cases.last_mut().filter(|_| inside) {
                    case.lines.push((text, line));
                }
            }
        }
    }
    Ok(cases)
}

/// What a side printed for a case.
#[derive(Default)]
struct Printed<'a> {
    /// The lines of calls and of what cannot be read, each with the second line of its refusal.
    calls: Vec<(&'a str, Option<&'a str>)>,
    /// The lines that `end` printed.
    end: Vec<&'a str>,
}

impl<'a> Printed<'a> {
    fn take(&mut self, line: &'a str) {
        if line.starts_with("  ! ") {
            if let Some((_, places)) = self.calls.last_mut() {
                *places = Some(line);
            }
        } else if line.contains(" = ") || line.starts_with("line ") {
            self.calls.push((line, None));
        } else {
            self.end.push(line);
        }
    }

    /// The line that `end` printed of this name, or an empty one.
    fn at_end(&self, name: &str) -> &'a str {
        self.end.iter().find(|line| line.split(' ').next() == Some(name)).unwrap_or(&"")
    }

    fn shown(&self) -> String {
        self.calls.iter().map(|(line, _)| line).chain(&self.end).map(|line| format!("\n    {line}")).collect()
    }
}

/// The lines that `end` may print, in their order.
const AT_END: [&str; 4] = ["image", "bits", "map", "open"];

/// What a side printed, case by case.
fn printed(text: &str) -> BTreeMap<&str, Printed<'_>> {
    let mut cases = BTreeMap::new();
    let mut head = "";
    let mut case = Printed::default();
    for line in text.lines() {
        if line.starts_with("case ") {
            head = line;
            case = Printed::default();
        } else if line == "end" {
            cases.insert(head, std::mem::take(&mut case));
        } else {
            case.take(line);
        }
    }
    cases
}

/// Judges all cases of a script, each by a call of `take`. A case whose lines cannot be laid side by side is an error.
pub fn judge<'a>(
    cases: &'a [Case<'a>],
    original: &'a str,
    port: &'a str,
    mut take: impl FnMut(&'a Case<'a>, Result<Vec<Judged<'a>>, String>),
) {
    let original = printed(original);
    let port = printed(port);
    for case in cases {
        let judged = match (original.get(case.head), port.get(case.head)) {
            (Some(original), Some(port)) => judge_case(case, original, port),
            (None, _) => Err("the original's side did not end it".into()),
            (_, None) => Err("the port's side did not end it".into()),
        };
        take(case, judged);
    }
}

fn judge_case<'a>(case: &Case, original: &Printed<'a>, port: &Printed<'a>) -> Result<Vec<Judged<'a>>, String> {
    let known = |line: &&str| AT_END.iter().any(|name| line.split(' ').next() == Some(name));
    if original.calls.len() != port.calls.len() || !port.end.iter().all(|line| known(&line)) {
        return Err(format!("other lines:\n  original{}\n  port{}", original.shown(), port.shown()));
    }
    let mut next = 0;
    let mut parted = false;
    let mut judged = Vec::new();
    for (&(original, _), &(port, places)) in original.calls.iter().zip(&port.calls) {
        let place = place_of(case, next, original);
        let call = place.and_then(|place| match &case.lines[place].1 {
            Line::Call(call) => Some(call),
            _ => None,
        });
        if let Some(place) = place {
            next = place + 1;
        }
        let verdict = match call {
            Some(call) if !places::fit(call, port, places) => Verdict::Different,
            _ if parted => Verdict::NotCompared(BEHIND),
            _ => verdict(case, call, original, port),
        };
        parted |= parts(&verdict, call);
        judged.push(Judged { place, original, port, places, verdict });
    }
    for name in AT_END {
        let (original, port) = (original.at_end(name), port.at_end(name));
        let verdict = match (original, port) {
            ("", "") => continue,
            // Where the two part, the port has no table: its image is as it came.
            _ if parted && name == "image" && port != image_line(case) => Verdict::Different,
            _ if parted => Verdict::NotCompared(BEHIND),
            _ if original == port => Verdict::Same,
            _ => Verdict::Different,
        };
        judged.push(Judged { place: None, original, port, places: None, verdict });
    }
    Ok(judged)
}

/// The place of the script's line that printed this line.
fn place_of(case: &Case, from: usize, printed: &str) -> Option<usize> {
    let (name, _) = printed.split_once(" = ")?;
    let printed_it =
        |(text, line): &(&str, Line)| !matches!(line, Line::Nothing) && text.split_ascii_whitespace().next() == Some(name);
    let found = case.lines[from..].iter().position(printed_it)?;
    Some(from + found)
}

fn verdict(case: &Case, call: Option<&Call>, original: &str, port: &str) -> Verdict {
    if original == port {
        return Verdict::Same;
    }
    let Some(call) = call else {
        return Verdict::Different;
    };
    let (original, (port, requests)) = (parts_of(original).0, parts_of(port));
    // Every difference that is known is one at which the port asks nothing.
    if requests != "0:" {
        return Verdict::Different;
    }
    if port == "not now" {
        return without_code(call, original);
    }
    let listed = match call {
        Call::Find(bytes) => listed_find(case, bytes, original, port),
        Call::Build(coverage) if matches!(original, "ok" | "err 2") => listed_build(coverage, original, port),
        Call::New(ranges) => listed_ranges(ranges, port).or_else(|| listed_build(&coverage_of(ranges)?, original, port)),
        Call::Sizes(ranges) => listed_ranges(ranges, port),
        _ => None,
    };
    listed.map_or(Verdict::Different, Verdict::Listed)
}

/// The result that a line prints, and the requests with their number.
fn parts_of(line: &str) -> (&str, &str) {
    let behind = line.split_once(" = ").map_or("", |(_, behind)| behind);
    behind.split_once(" ; ").unwrap_or((behind, ""))
}

fn without_code(call: &Call, original: &str) -> Verdict {
    match call {
        // A check that is passed and a call that nothing allows read the same; only the first can be here.
        Call::Build(_) if original == "ok" => Verdict::NotCompared(CHECK_ONLY),
        Call::Register(_)
        | Call::Done
        | Call::New(_)
        | Call::Accept(_)
        | Call::Claim(_)
        | Call::Settle(_)
        | Call::Restore(_)
        | Call::Count
        | Call::Pending(_)
        | Call::Accepted(_) => Verdict::NotCompared(NO_CODE),
        _ => Verdict::Different,
    }
}

fn listed_find(case: &Case, bytes: &[u8], original: &str, port: &str) -> Option<&'static str> {
    let pointer = entries::first_match(bytes).unwrap_or(0);
    match (original, port) {
        ("refuse", "refuse 8") if pointer == 0 => Some(NO_NUMBER),
        ("refuse", "refuse 12") if pointer != 0 => Some(NO_NUMBER),
        (CANNOT_ASK, "refuse 7") if bytes.len() % entries::ENTRY != 0 => Some(NO_ENTRIES),
        (CANNOT_ASK, "refuse 6" | "refuse 9" | "refuse 10" | "refuse 11") if entries::is_too_high(pointer) => Some(HIGH_POINTER),
        (CANNOT_ASK | PANIC, _) => None,
        ("found", "refuse 6") if is_cut_off(case) => Some(CUT_OFF),
        (_, "refuse 6") if is_without_header(case) => Some(NO_HEADER),
        _ => None,
    }
}

fn image<'a>(case: &'a Case) -> Option<&'a [u64]> {
    case.lines.iter().find_map(|(_, line)| match line {
        Line::Image(words) => Some(&words[..]),
        _ => None,
    })
}

/// The line that `end` prints of an image that has not changed.
fn image_line(case: &Case) -> String {
    format!("image{}", print::values(image(case).unwrap_or_default()))
}

fn is_without_header(case: &Case) -> bool {
    image(case).is_some_and(|image| image.len() < 3)
}

/// Whether the case's image has a header and ends before its bitmap does.
fn is_cut_off(case: &Case) -> bool {
    image(case).is_some_and(|image| image.len() >= 3 && (image.len() as u64 - 3) < image[2] / 8)
}

fn listed_build(coverage: &Range<u64>, original: &str, port: &str) -> Option<&'static str> {
    match (original, port) {
        _ if !ends_above(coverage) => None,
        ("err 2", "err 4") => Some(HIGH_END_SHORT),
        (_, "err 4") => Some(HIGH_END),
        _ => None,
    }
}

/// Whether a table for a coverage that is one would cover addresses of 2^64 and more: it covers whole words of 64 units.
fn ends_above(coverage: &Range<u64>) -> bool {
    const UNIT: u128 = 1 << 21;
    let (start, end) = (u128::from(coverage.start), u128::from(coverage.end));
    let base = start / UNIT * UNIT;
    let units = end.div_ceil(UNIT) - start / UNIT;
    start < end && end <= (1 << 64) - UNIT && base + units.div_ceil(64) * 64 * UNIT >= 1 << 64
}

fn coverage_of(ranges: &[Range<u64>]) -> Option<Range<u64>> {
    let start = ranges.iter().map(|range| range.start).min()?;
    let end = ranges.iter().map(|range| range.end).max()?;
    Some(start..end)
}

fn listed_ranges(ranges: &[Range<u64>], port: &str) -> Option<&'static str> {
    (ranges.len() > 1024 && port == "err 2").then_some(MANY_RANGES)
}

/// Whether the two sides differ from here on, in what the case has.
fn parts(verdict: &Verdict, call: Option<&Call>) -> bool {
    match verdict {
        Verdict::Same | Verdict::Different => false,
        Verdict::Listed(name) => *name == HIGH_END || (*name == MANY_RANGES && matches!(call, Some(Call::New(_)))),
        Verdict::NotCompared(_) => !matches!(call, Some(Call::Count | Call::Pending(_) | Call::Accepted(_))),
    }
}

/// Counts of what was compared.
#[derive(Default)]
pub struct Tally {
    pub cases: u64,
    pub same: u64,
    pub different: u64,
    listed: BTreeMap<&'static str, u64>,
    not_compared: BTreeMap<&'static str, u64>,
}

impl Tally {
    pub fn add(&mut self, verdict: &Verdict) {
        match verdict {
            Verdict::Same => self.same += 1,
            Verdict::Listed(name) => *self.listed.entry(name).or_default() += 1,
            Verdict::NotCompared(name) => *self.not_compared.entry(name).or_default() += 1,
            Verdict::Different => self.different += 1,
        }
    }

    pub fn text(&self) -> String {
        let mut text = format!("{} cases\n{:>9} lines agree\n", self.cases, self.same);
        for (name, count) in &self.listed {
            text += &format!("{count:>9} listed: {name}\n");
        }
        for (name, count) in &self.not_compared {
            text += &format!("{count:>9} not compared: {name}\n");
        }
        text + &format!("{:>9} differ\n", self.different)
    }
}
