//! The second line of a refusal, which the port alone prints: whether it fits the first line. What the first line tells of the
//! refusal, the requests and the error must stand in it; what the original does not tell is not looked at.

use tdx_guest::tdcall::TdCallError;

use crate::host::Request;
use crate::script::{number, Call};

/// The first line of a refusal.
struct Refusal<'a> {
    number: &'a str,
    /// The name of the TDCALL error, for refusal 5.
    error: Option<&'a str>,
    /// The number of requests, as it is printed.
    count: &'a str,
    last: Option<Request>,
}

/// The places of a second line, as they are printed.
struct Places<'a> {
    number: &'a str,
    layer: &'a str,
    status: u64,
    level: u64,
    address: u64,
    count: &'a str,
    part: &'a str,
    unit: &'a str,
}

/// Whether a line that the port printed for a call has a second line just where it is a refusal, and one that fits it.
pub fn fit(call: &Call, line: &str, places: Option<&str>) -> bool {
    match (refusal(line), places) {
        (None, None) => true,
        (Some(refusal), Some(places)) => read(places).is_some_and(|places| fits(call, &refusal, &places)),
        _ => false,
    }
}

fn refusal(line: &str) -> Option<Refusal<'_>> {
    let (_, behind) = line.split_once(" = ")?;
    let (result, requests) = behind.split_once(" ; ")?;
    let mut words = result.strip_prefix("err ").or_else(|| result.strip_prefix("refuse "))?.split(' ');
    let (count, requests) = requests.split_once(':')?;
    let last = requests.split(' ').next_back().and_then(last_of);
    Some(Refusal { number: words.next()?, error: words.next(), count, last })
}

/// The last request of a run, `level@address` or `level@address*n`.
fn last_of(run: &str) -> Option<Request> {
    let (level, behind) = run.split_once('@')?;
    let (address, times) = behind.split_once('*').unwrap_or((behind, "1"));
    let first = Request { level: number(level).ok()?, address: number(address).ok()? };
    let further = number(times).ok()?.checked_sub(1)?.checked_mul(first.size())?;
    Some(Request { address: first.address.checked_add(further)?, ..first })
}

fn read(line: &str) -> Option<Places<'_>> {
    let mut words = line.strip_prefix("  ! ")?.split(' ');
    let number_word = words.next()?;
    let mut place = |name: &str| words.next()?.strip_prefix(name)?.strip_prefix('=');
    let places = Places {
        number: number_word,
        layer: place("layer")?,
        status: number(place("status")?).ok()?,
        level: number(place("level")?).ok()?,
        address: number(place("address")?).ok()?,
        count: place("count")?,
        part: place("part")?,
        unit: place("unit")?,
    };
    words.next().is_none().then_some(places)
}

fn fits(call: &Call, refusal: &Refusal, places: &Places) -> bool {
    let of_number = match refusal.number {
        "1" => places.layer == "walk" && places.status == 0 && places.level == 0,
        "5" => places.layer == "host" && fits_reply(refusal, places),
        _ => places.layer == "table" && places.status == 0 && places.level == 0 && places.address == 0,
    };
    let of_call = match call {
        Call::Register(_) | Call::New(_) => true,
        Call::Accept(_) => places.part == "0",
        Call::Walk(span) => has_no_unit(places) && (refusal.number != "1" || places.address == stopped_at(span.start, refusal)),
        _ => has_no_unit(places),
    };
    places.number == refusal.number && places.count == refusal.count && of_number && of_call
}

/// A refusal by a reply has the last request and a reply that names the error.
fn fits_reply(refusal: &Refusal, places: &Places) -> bool {
    let error = format!("{:?}", TdCallError::from(places.status >> 32));
    let last = Request { level: places.level, address: places.address };
    places.status != 0 && refusal.error == Some(error.as_str()) && refusal.last == Some(last)
}

fn has_no_unit(places: &Places) -> bool {
    places.part == "0" && places.unit == "0"
}

/// Where a walk is at which no block fits: behind the last block that it passed, or at its start.
fn stopped_at(start: u64, refusal: &Refusal) -> u64 {
    refusal.last.map_or(start, |last| last.address.saturating_add(last.size()))
}
