//! Scripts: their lines as values.

use std::ops::Range;

pub enum Line {
    Nothing,
    Case,
    End,
    Image(Vec<u64>),
    Bits(Vec<u64>),
    Map { base: u64, bytes: Vec<u8> },
    Inject(Vec<u64>),
    Cap(u64),
    Retry(u64),
    Script(Vec<u64>),
    Call(Call),
}

pub enum Call {
    Size(Range<u64>),
    Sizes(Vec<Range<u64>>),
    Build(Range<u64>),
    Register(Range<u64>),
    Done,
    New(Vec<Range<u64>>),
    Find(Vec<u8>),
    Cover,
    Accept(Range<u64>),
    Claim(Range<u64>),
    Settle(u64),
    Restore(u64),
    Count,
    Pending(Range<u64>),
    Accepted(Range<u64>),
    Walk(Range<u64>),
    FindSet(Range<u64>),
    FindZero(Range<u64>),
    HasSet(Range<u64>),
    SetRange(Range<u64>),
    ClearRange(Range<u64>),
    BitCount,
    BitCapacity,
    Decode(u64),
}

impl Call {
    pub fn name(&self) -> &'static str {
        match self {
            Call::Size(_) => "size",
            Call::Sizes(_) => "sizes",
            Call::Build(_) => "build",
            Call::Register(_) => "reg",
            Call::Done => "done",
            Call::New(_) => "new",
            Call::Find(_) => "find",
            Call::Cover => "cover",
            Call::Accept(_) => "accept",
            Call::Claim(_) => "claim",
            Call::Settle(_) => "settle",
            Call::Restore(_) => "restore",
            Call::Count => "count",
            Call::Pending(_) => "pending",
            Call::Accepted(_) => "accepted",
            Call::Walk(_) => "walk",
            Call::FindSet(_) => "fset",
            Call::FindZero(_) => "fzero",
            Call::HasSet(_) => "bany",
            Call::SetRange(_) => "bset",
            Call::ClearRange(_) => "bclear",
            Call::BitCount => "bcount",
            Call::BitCapacity => "bcap",
            Call::Decode(_) => "decode",
        }
    }
}

/// Reads one line, or says why it cannot be read, in the words of docs/SCRIPTS.md.
pub fn read(text: &str) -> Result<Line, &'static str> {
    let mut words = text.split_ascii_whitespace();
    let Some(name) = words.next() else {
        return Ok(Line::Nothing);
    };
    if name.starts_with('#') {
        return Ok(Line::Nothing);
    }
    let words: Vec<&str> = words.collect();
    let line = match name {
        "case" if words.is_empty() => return Err(TOO_FEW),
        "case" => Line::Case,
        "end" => alone(&words, Line::End)?,
        "image" => Line::Image(list(&words)?),
        "bits" => Line::Bits(list(&words)?),
        "map" => map(&words)?,
        "inject" => Line::Inject(list(&words)?),
        "cap" => Line::Cap(only(&words)?),
        "retry" => Line::Retry(only(&words)?),
        "script" => Line::Script(list(&words)?),
        _ => Line::Call(call(name, &words)?),
    };
    Ok(line)
}

const TOO_FEW: &str = "too few words";
const TOO_MANY: &str = "too many words";

/// The name of a case, as it stands behind the first word.
pub fn case_name(text: &str) -> &str {
    let text = text.trim_ascii();
    text.strip_prefix("case").unwrap_or(text).trim_ascii()
}

/// A line without further words.
fn alone<T>(words: &[&str], line: T) -> Result<T, &'static str> {
    if words.is_empty() {
        Ok(line)
    } else {
        Err(TOO_MANY)
    }
}

fn call(name: &str, words: &[&str]) -> Result<Call, &'static str> {
    let call = match name {
        "size" => Call::Size(range(words)?),
        "sizes" => Call::Sizes(ranges(words)?),
        "build" => Call::Build(range(words)?),
        "reg" => Call::Register(range(words)?),
        "done" => alone(words, Call::Done)?,
        "new" => Call::New(ranges(words)?),
        "find" => Call::Find(entry_bytes(words)?),
        "cover" => alone(words, Call::Cover)?,
        "accept" => Call::Accept(range(words)?),
        "claim" => Call::Claim(range(words)?),
        "settle" => Call::Settle(only(words)?),
        "restore" => Call::Restore(only(words)?),
        "count" => alone(words, Call::Count)?,
        "pending" => Call::Pending(range(words)?),
        "accepted" => Call::Accepted(range(words)?),
        "walk" => Call::Walk(range(words)?),
        "fset" => Call::FindSet(range(words)?),
        "fzero" => Call::FindZero(range(words)?),
        "bany" => Call::HasSet(range(words)?),
        "bset" => Call::SetRange(range(words)?),
        "bclear" => Call::ClearRange(range(words)?),
        "bcount" => alone(words, Call::BitCount)?,
        "bcap" => alone(words, Call::BitCapacity)?,
        "decode" => Call::Decode(only(words)?),
        _ => return Err("an unknown first word"),
    };
    Ok(call)
}

/// The most items that a list may have.
const MOST_ITEMS: u64 = 4_194_304;
const TOO_LONG: &str = "a list of more than 4194304 items";

pub fn number(word: &str) -> Result<u64, &'static str> {
    let (digits, radix) = match word.strip_prefix("0x") {
        Some(digits) => (digits, 16),
        None => (word, 10),
    };
    if digits.is_empty() || !digits.chars().all(|digit| digit.is_digit(radix)) {
        return Err("no number");
    }
    u64::from_str_radix(digits, radix).map_err(|_| "a number of 2^64 or more")
}

/// A list of numbers, in which `x*n` is n times x.
fn list(words: &[&str]) -> Result<Vec<u64>, &'static str> {
    items(words, Ok)
}

fn items<T: Clone>(words: &[&str], item: impl Fn(u64) -> Result<T, &'static str>) -> Result<Vec<T>, &'static str> {
    let mut items = Vec::new();
    for word in words {
        let (value, times) = match word.split_once('*') {
            Some((value, times)) => (number(value)?, number(times)?),
            None => (number(word)?, 1),
        };
        let item = item(value)?;
        if times > MOST_ITEMS - items.len() as u64 {
            return Err(TOO_LONG);
        }
        items.resize(items.len() + times as usize, item);
    }
    Ok(items)
}

fn map(words: &[&str]) -> Result<Line, &'static str> {
    let (base, bytes) = words.split_first().ok_or(TOO_FEW)?;
    let base = number(base)?;
    let bytes = items(bytes, |byte| u8::try_from(byte).map_err(|_| "a page's byte above 255"))?;
    Ok(Line::Map { base, bytes })
}

fn only(words: &[&str]) -> Result<u64, &'static str> {
    let (word, rest) = words.split_first().ok_or(TOO_FEW)?;
    alone(rest, number(word)?)
}

/// The range that the first two words tell, and the words behind them.
fn first_range<'a, 'b>(words: &'a [&'b str]) -> Result<(Range<u64>, &'a [&'b str]), &'static str> {
    let (start, rest) = words.split_first().ok_or(TOO_FEW)?;
    let start = number(start)?;
    let (end, rest) = rest.split_first().ok_or(TOO_FEW)?;
    Ok((start..number(end)?, rest))
}

fn range(words: &[&str]) -> Result<Range<u64>, &'static str> {
    let (range, rest) = first_range(words)?;
    alone(rest, range)
}

fn ranges(mut words: &[&str]) -> Result<Vec<Range<u64>>, &'static str> {
    let mut ranges = Vec::new();
    while !words.is_empty() {
        let (range, rest) = first_range(words)?;
        ranges.push(range);
        words = rest;
    }
    Ok(ranges)
}

fn entry_bytes(words: &[&str]) -> Result<Vec<u8>, &'static str> {
    let (word, rest) = words.split_first().ok_or(TOO_FEW)?;
    let digits = alone(rest, if *word == "-" { "" } else { word })?;
    let pairs = digits.as_bytes().chunks(2);
    pairs.map(|pair| byte_of(pair).ok_or("no pairs of hexadecimal digits")).collect()
}

fn byte_of(pair: &[u8]) -> Option<u8> {
    let [high, low] = pair else {
        return None;
    };
    let digit = |character: u8| char::from(character).to_digit(16);
    u8::try_from(16 * digit(*high)? + digit(*low)?).ok()
}
