//! Runs a script over the original's functions and prints what they do.

use std::cell::RefCell;
use std::io::{self, Write};
use std::ops::Range;
use std::panic::{catch_unwind, AssertUnwindSafe};
use std::pin::Pin;
use std::ptr::NonNull;
use std::sync::atomic::{AtomicU64, Ordering};

use tdx_guest::tdcall::TdCallError;
use tdx_guest::unaccepted_memory::{BitmapRef, EfiUnacceptedMemory, EfiUnacceptedMemoryBuilder};
use tdx_guest::{accept_memory, AcceptError};

use crate::entries;
use crate::host::{Cap, Host, Inject, Map, Replies, Request, Retry};
use crate::print;
use crate::reasons;
use crate::script::{self, Call, Line};

/// The leaf of TDCALL that accepts a page.
const ACCEPT: u64 = 6;
/// The bits of RCX below the address.
const LEVEL_BITS: u64 = 4095;

const NOT_NOW: &str = "not now";
const NO_CLAIM: &str = "no claim";
/// What is printed where the original cannot be run on a script's input.
pub const CANNOT_ASK: &str = "cannot ask";
pub const PANIC: &str = "panic";

thread_local! {
    static HOST: RefCell<Option<Box<dyn Host>>> = const { RefCell::new(None) };
}

/// What the original's TDCALL comes to.
fn module(leaf: u64, rcx: u64) -> u64 {
    assert_eq!(leaf, ACCEPT, "page acceptance makes no other call");
    let request = Request { level: rcx & LEVEL_BITS, address: rcx & !LEVEL_BITS };
    HOST.with_borrow_mut(|host| host.as_mut().expect("a call that asks has a host").accept(request))
}

pub fn run(script: &[u8], out: &mut impl Write) -> io::Result<()> {
    tdx_guest::asm::set_module(module);
    reasons::listen();
    // A panic of the original is printed in its place.
    std::panic::set_hook(Box::new(|_| {}));
    let mut case = Case::default();
    let mut number = 0;
    let lines = script.strip_suffix(b"\n").unwrap_or(script);
    for bytes in lines.split(|&byte| byte == b'\n') {
        number += 1;
        let read = std::str::from_utf8(bytes).map_err(|_| "no UTF-8 text").and_then(|text| Ok((text, script::read(text)?)));
        let placed = read.and_then(|(text, line)| case.place(&line).map(|()| (text, line)));
        match placed {
            Ok((text, line)) => case.take(line, text, out)?,
            Err(reason) => writeln!(out, "line {number}: {reason}")?,
        }
    }
    if case.inside {
        writeln!(out, "line {}: the last case has no end", number + 1)?;
    }
    let _ = std::panic::take_hook();
    Ok(())
}

#[derive(Default)]
enum Table {
    #[default]
    None,
    Registering(EfiUnacceptedMemoryBuilder),
    Built(NonNull<EfiUnacceptedMemory>),
}

/// The words of an image, in memory of their own in which the original's table may stand. Behind them are words that are no
/// part of the image: the original reads a header without asking how long the memory is.
struct Image {
    memory: NonNull<u64>,
    length: usize,
}

impl Image {
    const BEHIND: usize = 4;

    /// The memory is never freed: the original's tables are references for good.
    fn new(words: &[u64]) -> Self {
        let mut memory = words.to_vec();
        memory.resize(words.len() + Self::BEHIND, 0);
        let memory = NonNull::from(memory.leak()).cast();
        Self { memory, length: words.len() }
    }

    fn words(&self) -> Vec<u64> {
        // SAFETY: the memory has `length` words and more.
        (0..self.length).map(|place| unsafe { self.memory.add(place).read() }).collect()
    }

    fn size(&self) -> usize {
        self.length * size_of::<u64>()
    }
}

#[derive(Default)]
struct Case {
    image: Option<Image>,
    bits: Option<Vec<AtomicU64>>,
    table: Table,
    claims: Vec<Range<u64>>,
    /// Between `case` and `end`.
    inside: bool,
    /// What stands highest: the place of its name in LAYERS.
    highest: Option<usize>,
    /// A host was refused: what follows up to the end is not run.
    stopped: bool,
}

/// A map and the layers over it, from below.
const LAYERS: [&str; 4] = ["map", "inject", "retry", "cap"];

impl Case {
    /// Whether a line may stand here.
    fn place(&self, line: &Line) -> Result<(), &'static str> {
        const AGAIN: Result<(), &str> = Err("the case has one already");
        match line {
            Line::Nothing => Ok(()),
            Line::Case if self.inside => Err("the case before has no end"),
            Line::Case => Ok(()),
            _ if !self.inside => Err("outside a case"),
            _ if self.stopped => Ok(()),
            Line::Image(_) if self.image.is_some() => AGAIN,
            Line::Bits(_) if self.bits.is_some() => AGAIN,
            Line::Map { .. } | Line::Script(_) if HOST.with_borrow(Option::is_some) => AGAIN,
            Line::Inject(_) => self.place_layer(1),
            Line::Retry(_) => self.place_layer(2),
            Line::Cap(_) => self.place_layer(3),
            _ => Ok(()),
        }
    }

    fn place_layer(&self, layer: usize) -> Result<(), &'static str> {
        match self.highest {
            None => Err("no map below the layer"),
            Some(highest) if highest == layer => Err("the case has one already"),
            Some(highest) if highest > layer => Err("not in the order inject, retry, cap"),
            Some(_) => Ok(()),
        }
    }

    fn take(&mut self, line: Line, text: &str, out: &mut impl Write) -> io::Result<()> {
        match line {
            Line::Nothing => Ok(()),
            Line::Case => {
                *self = Case { inside: true, ..Case::default() };
                HOST.set(None);
                writeln!(out, "case {}", script::case_name(text))
            }
            Line::End => {
                self.inside = false;
                self.end(out)
            }
            _ if self.stopped => Ok(()),
            Line::Image(words) => {
                self.image = Some(Image::new(&words));
                Ok(())
            }
            Line::Bits(words) => {
                self.bits = Some(words.into_iter().map(AtomicU64::new).collect());
                Ok(())
            }
            Line::Map { base, bytes } => match Map::new(base, bytes) {
                Ok(map) => {
                    HOST.set(Some(Box::new(map)));
                    self.highest = Some(0);
                    Ok(())
                }
                Err(_) => self.refuse(LAYERS[0], out),
            },
            Line::Script(replies) => {
                HOST.set(Some(Box::new(Replies::new(replies))));
                Ok(())
            }
            Line::Inject(words) => self.layer(1, |below| Ok(Box::new(Inject::new(words, below))), out),
            Line::Retry(count) => self.layer(2, |below| Ok(Box::new(Retry::new(count, below)?)), out),
            Line::Cap(level) => self.layer(3, |below| Ok(Box::new(Cap::new(level, below)?)), out),
            Line::Call(call) => self.call(call, out),
        }
    }

    /// Puts a layer over the host so far, which there is.
    fn layer(
        &mut self,
        layer: usize,
        over: impl FnOnce(Box<dyn Host>) -> Result<Box<dyn Host>, Box<dyn Host>>,
        out: &mut impl Write,
    ) -> io::Result<()> {
        let below = HOST.take().expect("a layer stands over a map");
        match over(below) {
            Ok(host) => {
                HOST.set(Some(host));
                self.highest = Some(layer);
                Ok(())
            }
            Err(below) => {
                HOST.set(Some(below));
                self.refuse(LAYERS[layer], out)
            }
        }
    }

    fn refuse(&mut self, name: &str, out: &mut impl Write) -> io::Result<()> {
        self.stopped = true;
        writeln!(out, "{name} = refuse 13 ; 0:")
    }

    fn call(&mut self, call: Call, out: &mut impl Write) -> io::Result<()> {
        let before = received().len();
        let result = catch_unwind(AssertUnwindSafe(|| self.result(&call))).unwrap_or_else(|_| PANIC.into());
        let requests = received().split_off(before);
        writeln!(out, "{} = {result} ; {}:{}", call.name(), requests.len(), print::requests(&requests))
    }

    fn result(&mut self, call: &Call) -> String {
        match call {
            Call::Decode(class) => format!("{:?}", TdCallError::from(*class)),
            Call::Size(range) => size(EfiUnacceptedMemory::required_size_for_range(range.clone())),
            Call::Sizes(ranges) => size(EfiUnacceptedMemory::required_size(ranges)),
            // SAFETY: the make-believe host takes any request.
            Call::Walk(span) => asking(|| done(unsafe { accept_memory(span.start, span.end) })),
            Call::FindSet(_)
            | Call::FindZero(_)
            | Call::HasSet(_)
            | Call::SetRange(_)
            | Call::ClearRange(_)
            | Call::BitCount
            | Call::BitCapacity => match &self.bits {
                Some(words) => on_bits(BitmapRef::new(words), call),
                None => NOT_NOW.into(),
            },
            Call::Build(coverage) => self.build(coverage.clone()),
            Call::New(ranges) => asking(|| self.new_table(ranges)),
            Call::Find(bytes) => self.find(bytes),
            Call::Register(range) => match &mut self.table {
                // SAFETY: as at `walk`.
                Table::Registering(builder) => asking(|| done(unsafe { builder.register_range(range.start, range.end) })),
                _ => NOT_NOW.into(),
            },
            Call::Done => match std::mem::take(&mut self.table) {
                Table::Registering(builder) => {
                    self.table = built(builder.build());
                    "ok".into()
                }
                table => {
                    self.table = table;
                    NOT_NOW.into()
                }
            },
            Call::Cover
            | Call::Accept(_)
            | Call::Claim(_)
            | Call::Settle(_)
            | Call::Restore(_)
            | Call::Count
            | Call::Pending(_)
            | Call::Accepted(_) => match self.table {
                // SAFETY: the table stands in the image's memory, with its whole bitmap, and nothing else holds it.
                Table::Built(table) => self.on_table(unsafe { table.as_ref() }, call),
                _ => NOT_NOW.into(),
            },
        }
    }

    fn build(&mut self, coverage: Range<u64>) -> String {
        let Some(image) = &self.image else {
            return NOT_NOW.into();
        };
        // SAFETY: the memory has this size and is written by nothing else.
        match unsafe { EfiUnacceptedMemory::builder(image.memory.cast(), image.size(), coverage) } {
            Ok(builder) => {
                self.table = Table::Registering(builder);
                "ok".into()
            }
            Err(error) => refusal(&error),
        }
    }

    fn new_table(&mut self, ranges: &[Range<u64>]) -> String {
        let Some(image) = &self.image else {
            return NOT_NOW.into();
        };
        // SAFETY: as at `build`.
        match unsafe { EfiUnacceptedMemory::new(image.memory.cast(), image.size(), ranges) } {
            Ok(table) => {
                self.table = built(table);
                "ok".into()
            }
            Err(error) => refusal(&error),
        }
    }

    fn find(&mut self, bytes: &[u8]) -> String {
        let Some(image) = &self.image else {
            return NOT_NOW.into();
        };
        let Some(entries) = entries::typed(bytes, &image.words(), image.memory) else {
            return CANNOT_ASK.into();
        };
        reasons::forget();
        // SAFETY: the first matching pointer is null, or a header can be read at it.
        let Some(table) = (unsafe { EfiUnacceptedMemory::from_configuration_tables(&entries) }) else {
            return match reasons::number() {
                Some(number) => format!("refuse {number}"),
                None => "refuse".into(),
            };
        };
        // SAFETY: the header was read there a moment ago.
        let bitmap = unsafe { table.as_ref() }.bitmap_size_bytes();
        // A table whose bitmap does not lie in the image cannot be called: its calls would read and write other memory.
        if size_of::<EfiUnacceptedMemory>() as u128 + u128::from(bitmap) <= image.size() as u128 {
            self.table = Table::Built(table);
        }
        "found".into()
    }

    fn on_table(&mut self, table: &EfiUnacceptedMemory, call: &Call) -> String {
        match call {
            Call::Cover => {
                let coverage = table.coverage_range();
                format!("{:#x} {:#x}", coverage.start, coverage.end)
            }
            // SAFETY: as at `walk`.
            Call::Accept(window) => asking(|| done(unsafe { table.accept_range(window.start, window.end) })),
            Call::Claim(window) => {
                // SAFETY: there is one thread.
                match unsafe { table.claim_next_pending_run(window.start, window.end) } {
                    Ok(Some((start, end))) => {
                        self.claims.push(start..end);
                        format!("some {start:#x} {end:#x}")
                    }
                    Ok(None) => "none".into(),
                    Err(error) => refusal(&error),
                }
            }
            Call::Settle(place) => asking(|| self.settle(*place)),
            Call::Restore(place) => match self.open(*place) {
                Some(place) => {
                    let claim = self.claims.remove(place);
                    // SAFETY: there is one thread, and the claim was open.
                    unsafe { table.restore_pending_range(claim.start, claim.end) };
                    "ok".into()
                }
                None => NO_CLAIM.into(),
            },
            Call::Count => table.pending_unit_count().to_string(),
            Call::Pending(window) => table.is_range_pending(window.start, window.end).to_string(),
            Call::Accepted(window) => table.is_fully_accepted(window.start, window.end).to_string(),
            _ => NOT_NOW.into(),
        }
    }

    /// The original leaves it to its caller to accept what was claimed.
    fn settle(&mut self, place: u64) -> String {
        let Some(place) = self.open(place) else {
            return NO_CLAIM.into();
        };
        let claim = self.claims[place].clone();
        // SAFETY: as at `walk`.
        let answer = unsafe { accept_memory(claim.start, claim.end) };
        if answer.is_ok() {
            self.claims.remove(place);
        }
        done(answer)
    }

    fn open(&self, place: u64) -> Option<usize> {
        usize::try_from(place).ok().filter(|&place| place < self.claims.len())
    }

    fn end(&mut self, out: &mut impl Write) -> io::Result<()> {
        if let Some(image) = &self.image {
            writeln!(out, "image{}", print::values(&image.words()))?;
        }
        if let Some(bits) = &self.bits {
            let words: Vec<u64> = bits.iter().map(|word| word.load(Ordering::Relaxed)).collect();
            writeln!(out, "bits{}", print::values(&words))?;
        }
        let map = HOST.with_borrow(|host| Some(print::values(host.as_ref()?.map_bytes()?)));
        if let Some(bytes) = map {
            writeln!(out, "map{bytes}")?;
        }
        if !self.claims.is_empty() {
            let claims: String = self.claims.iter().map(|claim| format!(" {:#x} {:#x}", claim.start, claim.end)).collect();
            writeln!(out, "open{claims}")?;
        }
        writeln!(out, "end")
    }
}

fn on_bits(bitmap: BitmapRef, call: &Call) -> String {
    let found = |unit: Option<u64>| match unit {
        Some(unit) => format!("some {unit:#x}"),
        None => "none".into(),
    };
    match call {
        Call::FindSet(range) => found(bitmap.find_next_set(range.start, range.end)),
        Call::FindZero(range) => found(bitmap.find_next_zero(range.start, range.end)),
        Call::HasSet(range) => bitmap.has_set_bit(range.start, range.end).to_string(),
        Call::SetRange(range) => {
            bitmap.set_range(range.start, range.end);
            "ok".into()
        }
        Call::ClearRange(range) => {
            bitmap.clear_range(range.start, range.end);
            "ok".into()
        }
        Call::BitCount => bitmap.pending_unit_count().to_string(),
        Call::BitCapacity => bitmap.capacity().to_string(),
        _ => NOT_NOW.into(),
    }
}

fn built(table: Pin<&'static mut EfiUnacceptedMemory>) -> Table {
    // SAFETY: the table is not moved.
    Table::Built(NonNull::from(unsafe { Pin::get_unchecked_mut(table) }))
}

/// The result of a call that makes requests: there must be a host to make them to.
fn asking(call: impl FnOnce() -> String) -> String {
    if HOST.with_borrow(Option::is_none) {
        return NOT_NOW.into();
    }
    call()
}

/// The requests that the host has received so far: what came to the layer that stands highest.
fn received() -> Vec<Request> {
    HOST.with_borrow(|host| host.as_ref().map_or(Vec::new(), |host| host.received().to_vec()))
}

fn done(answer: Result<(), AcceptError>) -> String {
    match answer {
        Ok(()) => "ok".into(),
        Err(error) => refusal(&error),
    }
}

fn size(answer: Result<usize, AcceptError>) -> String {
    match answer {
        Ok(bytes) => format!("ok {bytes}"),
        Err(error) => refusal(&error),
    }
}

/// The refusal's number, in section 10 of docs/SPECIFICATION.md.
fn refusal(error: &AcceptError) -> String {
    match error {
        AcceptError::InvalidAlignment => "err 1".into(),
        AcceptError::OutOfBounds => "err 2".into(),
        AcceptError::Overlap => "err 3".into(),
        AcceptError::ArithmeticOverflow => "err 4".into(),
        AcceptError::TdCall(error) => format!("err 5 {error:?}"),
    }
}
