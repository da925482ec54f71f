//! The hosts: what stands for the TDX module. Written from section 6 of docs/SPECIFICATION.md.

pub const OPERAND_INVALID: u64 = 0xC000_0100 << 32;
pub const ADDRESS_RANGE: u64 = 0xC000_0101 << 32;
pub const ALREADY_ACCEPTED: u64 = 0x0000_0B0A << 32;
pub const SIZE_MISMATCH: u64 = 0xC000_0B0B << 32;
pub const BUSY: u64 = 0x8000_0200 << 32;
/// The reply of a list of replies that is used up.
pub const NO_REPLY_LEFT: u64 = 0xFFFF_FFFF << 32;

const PAGE: u64 = 4096;

/// A request to accept the block of a level at an address.
#[derive(Clone, Copy, PartialEq)]
pub struct Request {
    pub level: u64,
    pub address: u64,
}

impl Request {
    /// The number of pages of a block of the level, for a level up to 2.
    fn pages(self) -> u64 {
        512u64.pow(self.level as u32)
    }

    /// The number of addresses of the block, for a level up to 2.
    pub fn size(self) -> u64 {
        PAGE * self.pages()
    }
}

/// A host's numbers are not possible: refusal 13.
pub struct BadHost;

pub trait Host {
    /// Takes a request and answers the status.
    fn accept(&mut self, request: Request) -> u64;

    /// The requests that have come to this host, the first of them first.
    fn received(&self) -> &[Request];

    /// The bytes of the map that stands lowest, if one does.
    fn map_bytes(&self) -> Option<&[u8]>;
}

fn class(status: u64) -> u64 {
    status >> 32
}

pub struct Map {
    base: u64,
    bytes: Vec<u8>,
    received: Vec<Request>,
}

impl Map {
    pub fn new(base: u64, bytes: Vec<u8>) -> Result<Self, BadHost> {
        let end = u128::from(base) + u128::from(PAGE) * bytes.len() as u128;
        if base % PAGE != 0 || end >= 1 << 64 {
            return Err(BadHost);
        }
        Ok(Self { base, bytes, received: Vec::new() })
    }

    /// The bytes of a block's pages, or `None` where a page is outside of the map.
    fn block(&mut self, request: Request) -> Option<&mut [u8]> {
        let first = request.address.checked_sub(self.base)? / PAGE;
        let end = first + request.pages();
        let places = usize::try_from(first).ok()?..usize::try_from(end).ok()?;
        self.bytes.get_mut(places)
    }
}

fn is_absent(byte: u8) -> bool {
    byte == 0 || byte > 4
}

impl Host for Map {
    fn accept(&mut self, request: Request) -> u64 {
        self.received.push(request);
        if request.level > 2 || request.address % request.size() != 0 {
            return OPERAND_INVALID;
        }
        let Some(pages) = self.block(request) else {
            return ADDRESS_RANGE;
        };
        if pages.iter().any(|&byte| is_absent(byte)) {
            return ADDRESS_RANGE;
        }
        if pages.contains(&4) {
            return ALREADY_ACCEPTED;
        }
        // What is left are pending pages: byte 1, 2, 3 for one that is mapped at level 0, 1, 2.
        if pages.iter().any(|&byte| u64::from(byte - 1) < request.level) {
            return SIZE_MISMATCH;
        }
        pages.fill(4);
        0
    }

    fn received(&self) -> &[Request] {
        &self.received
    }

    fn map_bytes(&self) -> Option<&[u8]> {
        Some(&self.bytes)
    }
}

pub struct Cap {
    level: u64,
    below: Box<dyn Host>,
    received: Vec<Request>,
}

impl Cap {
    pub fn new(level: u64, below: Box<dyn Host>) -> Result<Self, Box<dyn Host>> {
        if level > 2 {
            return Err(below);
        }
        Ok(Self { level, below, received: Vec::new() })
    }
}

impl Host for Cap {
    fn accept(&mut self, request: Request) -> u64 {
        self.received.push(request);
        if request.level > self.level {
            return SIZE_MISMATCH;
        }
        self.below.accept(request)
    }

    fn received(&self) -> &[Request] {
        &self.received
    }

    fn map_bytes(&self) -> Option<&[u8]> {
        self.below.map_bytes()
    }
}

pub struct Retry {
    count: u64,
    below: Box<dyn Host>,
    received: Vec<Request>,
}

impl Retry {
    pub fn new(count: u64, below: Box<dyn Host>) -> Result<Self, Box<dyn Host>> {
        if count > 7 {
            return Err(below);
        }
        Ok(Self { count, below, received: Vec::new() })
    }
}

impl Host for Retry {
    fn accept(&mut self, request: Request) -> u64 {
        self.received.push(request);
        let mut status = self.below.accept(request);
        let mut again = 0;
        while class(status) == class(BUSY) && again < self.count {
            status = self.below.accept(request);
            again += 1;
        }
        status
    }

    fn received(&self) -> &[Request] {
        &self.received
    }

    fn map_bytes(&self) -> Option<&[u8]> {
        self.below.map_bytes()
    }
}

pub struct Inject {
    words: std::vec::IntoIter<u64>,
    below: Box<dyn Host>,
    received: Vec<Request>,
}

impl Inject {
    pub fn new(words: Vec<u64>, below: Box<dyn Host>) -> Self {
        Self { words: words.into_iter(), below, received: Vec::new() }
    }
}

impl Host for Inject {
    fn accept(&mut self, request: Request) -> u64 {
        self.received.push(request);
        let word = self.words.next().unwrap_or(0);
        if word != 0 && class(word) != class(ALREADY_ACCEPTED) {
            return word;
        }
        self.below.accept(request)
    }

    fn received(&self) -> &[Request] {
        &self.received
    }

    fn map_bytes(&self) -> Option<&[u8]> {
        self.below.map_bytes()
    }
}

/// A list of replies, each given once, to whatever is asked.
pub struct Replies {
    left: std::vec::IntoIter<u64>,
    received: Vec<Request>,
}

impl Replies {
    pub fn new(replies: Vec<u64>) -> Self {
        Self { left: replies.into_iter(), received: Vec::new() }
    }
}

impl Host for Replies {
    fn accept(&mut self, request: Request) -> u64 {
        self.received.push(request);
        self.left.next().unwrap_or(NO_REPLY_LEFT)
    }

    fn received(&self) -> &[Request] {
        &self.received
    }

    fn map_bytes(&self) -> Option<&[u8]> {
        None
    }
}
