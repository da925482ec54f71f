//! Why the original refused a table that it looked for: it answers none, and says the reason in its log.

use std::cell::RefCell;

use log::{LevelFilter, Log, Metadata, Record};

thread_local! {
    static LAST: RefCell<String> = const { RefCell::new(String::new()) };
}

struct Listener;

impl Log for Listener {
    fn enabled(&self, _: &Metadata) -> bool {
        true
    }

    fn log(&self, record: &Record) {
        LAST.set(record.args().to_string());
    }

    fn flush(&self) {}
}

pub fn listen() {
    if log::set_logger(&Listener).is_ok() {
        log::set_max_level(LevelFilter::Trace);
    }
}

pub fn forget() {
    LAST.take();
}

/// The number of the refusal that the last line of the log tells, if there was a line.
pub fn number() -> Option<u64> {
    let line = LAST.take();
    if line.is_empty() {
        return None;
    }
    let told = [
        ("Unknown unaccepted memory table version", 9),
        ("Invalid unaccepted memory table unit size", 10),
        ("Invalid unaccepted memory table bitmap size", 11),
        ("Unaccepted memory table coverage overflows", 12),
    ];
    let number = told.iter().find(|(start, _)| line.starts_with(start)).map(|&(_, number)| number);
    Some(number.unwrap_or_else(|| panic!("a line of the log that is not known: {line}")))
}
