//! Reading a trace, or telling why a text is none.

use crate::attrs::{El, Kind};
use crate::machine::{Action, Barrier, Event};
use crate::regs::Reg;
use crate::rows::{Policy, Size};
use crate::tlbi::{Op, Operation};
use crate::walk::Access;
use std::collections::TryReserveError;

/// The most bytes of a trace, of a line without its end, and of all ranges of memory.
pub const MOST_BYTES: usize = 16 << 20;
const MOST_LINE: usize = 200;
const MOST_MEMORY: u64 = 64 << 20;

/// The most cores, ranges and events.
const MOST_CORES: u64 = 8;
const MOST_RANGES: usize = 16;
const MOST_EVENTS: usize = 50_000;

/// Where physical memory ends at most.
const END_OF_MEMORY: u64 = 1 << 52;

/// A range of memory, in bytes.
#[derive(Clone, Copy)]
pub struct Extent {
    pub start: u64,
    pub length: u64,
}

/// The events of a machine's cores in order, and what they are on.
pub struct Trace {
    pub cores: u8,
    pub ranges: Vec<Extent>,
    pub size: Size,
    pub policy: Policy,
    pub events: Vec<Event>,
}

/// Why a line is refused. Places of words count from 1.
#[derive(Clone, Copy)]
pub enum LineRefusal {
    NotText,
    LongLine,
    BadWord(u32),
    BadNumber(u32),
    OutOfRange(u32),
    Unsupported(&'static str),
    NotAtEl1,
    TooMany,
    AfterEnd,
    NoHeader,
}

/// Why a text is no trace. Lines count from 1.
#[derive(Clone, Copy)]
pub enum Refusal {
    TooLarge,
    NoHeader,
    NoEnd,
    Line(u32, LineRefusal),
}

/// Which line is due.
#[derive(Clone, Copy, PartialEq, Eq)]
enum Phase {
    Cores,
    Ranges,
    Policy,
    Events,
    Ended,
}

impl Extent {
    /// Whether an address lies in it.
    fn holds(&self, pa: u64) -> bool {
        pa.wrapping_sub(self.start) < self.length
    }

    /// Whether a byte lies in both.
    fn meets(&self, other: &Extent) -> bool {
        self.holds(other.start) || other.holds(self.start)
    }
}

/// Whether a byte is text.
#[inline]
fn is_text(byte: u8) -> bool {
    (0x20..=0x7e).contains(&byte) | (byte == b'\t')
}

/// Whether all of a text is lines of text that end in nothing but a newline.
fn is_plain(text: &[u8]) -> bool {
    text.iter().fold(true, |plain, byte| plain & (is_text(*byte) | (*byte == b'\n')))
}

/// The value of each byte as a digit, 0xff where it is none.
const DIGITS: [u8; 256] = {
    let mut digits = [0xff; 256];
    let mut digit = 0;
    while digit < 16 {
        digits[b"0123456789abcdef"[digit] as usize] = digit as u8;
        digits[b"0123456789ABCDEF"[digit] as usize] = digit as u8;
        digit += 1;
    }
    digits
};

/// The number that digits in hexadecimal are.
#[inline]
fn hexadecimal(digits: &[u8]) -> Option<u64> {
    let (mut n, mut seen) = (0, 0);
    for byte in digits {
        let digit = DIGITS[*byte as usize];
        n = n << 4 | digit as u64;
        seen |= digit;
    }
    ((1..=16).contains(&digits.len()) && seen < 16).then_some(n)
}

/// The number that digits in decimal are.
#[inline]
fn decimal(digits: &[u8]) -> Option<u64> {
    let mut n = 0u64;
    for byte in digits {
        let digit = DIGITS[*byte as usize];
        if digit > 9 {
            return None;
        }
        n = n.checked_mul(10)?.checked_add(digit as u64)?;
    }
    (1..=20).contains(&digits.len()).then_some(n)
}

/// The number that a word is.
#[inline]
fn number(word: &[u8]) -> Option<u64> {
    match word {
        [b'0', b'x', digits @ ..] => hexadecimal(digits),
        digits => decimal(digits),
    }
}

/// The lines of a text without their newlines; None behind the last one.
struct Lines<'a>(Option<&'a [u8]>);

impl<'a> Iterator for Lines<'a> {
    type Item = &'a [u8];

    #[inline]
    fn next(&mut self) -> Option<&'a [u8]> {
        let text = self.0?;
        let (line, rest) = match text.iter().position(|byte| *byte == b'\n') {
            Some(end) => (&text[..end], Some(&text[end + 1..])),
            None => (text, None),
        };
        self.0 = rest;
        Some(line)
    }
}

/// A line without a carriage return at its end, where it is text.
fn without_return(line: &[u8]) -> Result<&[u8], LineRefusal> {
    let line = line.strip_suffix(b"\r").unwrap_or(line);
    if line.iter().all(|byte| is_text(*byte)) {
        Ok(line)
    } else {
        Err(LineRefusal::NotText)
    }
}

/// The words of a line from some place on.
struct Words<'a> {
    rest: &'a [u8],
    place: u32,
}

impl<'a> Words<'a> {
    /// The next word, if there is one.
    #[inline]
    fn next(&mut self) -> Option<&'a [u8]> {
        let start = self.rest.iter().position(|byte| *byte > b' ')?;
        let rest = &self.rest[start..];
        let end = rest.iter().position(|byte| *byte <= b' ').unwrap_or(rest.len());
        let (word, rest) = rest.split_at(end);
        self.rest = rest;
        self.place += 1;
        Some(word)
    }

    /// The next word, which has to be there.
    #[inline]
    fn word(&mut self) -> Result<&'a [u8], LineRefusal> {
        self.next().ok_or(LineRefusal::BadWord(self.place + 1))
    }

    /// What the next word names.
    #[inline]
    fn named<T>(&mut self, named: impl FnOnce(&'a [u8]) -> Option<T>) -> Result<T, LineRefusal> {
        let word = self.word()?;
        named(word).ok_or(LineRefusal::BadWord(self.place))
    }

    /// The number that the next word is.
    #[inline]
    fn number(&mut self) -> Result<u64, LineRefusal> {
        let word = self.word()?;
        number(word).ok_or(LineRefusal::BadNumber(self.place))
    }

    /// The number that the next word is, which has to pass a test.
    #[inline]
    fn number_in(&mut self, passes: impl FnOnce(u64) -> bool) -> Result<u64, LineRefusal> {
        let n = self.number()?;
        if passes(n) {
            Ok(n)
        } else {
            Err(LineRefusal::OutOfRange(self.place))
        }
    }

    /// Refuses a word more.
    #[inline]
    fn end(&mut self) -> Result<(), LineRefusal> {
        match self.next() {
            None => Ok(()),
            Some(_) => Err(LineRefusal::BadWord(self.place)),
        }
    }
}

/// How many rows a core keeps.
fn size(word: &[u8]) -> Option<Size> {
    match word {
        b"none" => Some(Size::None),
        b"small" => Some(Size::Small),
        b"medium" => Some(Size::Medium),
        b"large" => Some(Size::Large),
        _ => None,
    }
}

/// The exception level of an access.
fn level(word: &[u8]) -> Option<El> {
    match word {
        b"el0" => Some(El::El0),
        b"el1" => Some(El::El1),
        _ => None,
    }
}

/// What an access does.
fn kind(word: &[u8]) -> Option<Kind> {
    match word {
        b"read" => Some(Kind::Read),
        b"write" => Some(Kind::Write),
        b"fetch" => Some(Kind::Fetch),
        _ => None,
    }
}

/// Whether a TLBI is issued at EL1.
fn origin(word: &[u8]) -> Option<bool> {
    match word {
        b"el1" => Some(true),
        b"el2" => Some(false),
        _ => None,
    }
}

/// Which accesses a DSB waits for.
fn barrier(word: &[u8]) -> Option<Barrier> {
    match word {
        b"nsh" => Some(Barrier::Nsh),
        b"ish" => Some(Barrier::Ish),
        b"sy" => Some(Barrier::Sy),
        _ => None,
    }
}

/// What has been read of a trace.
pub struct Reader {
    trace: Trace,
    phase: Phase,
}

impl Reader {
    /// A reader of a text of so many bytes, with room for its events.
    pub fn new(bytes: usize) -> Result<Reader, TryReserveError> {
        // The shortest line of an event has six bytes.
        let mut events = Vec::new();
        events.try_reserve_exact((bytes / 6).min(MOST_EVENTS))?;
        let (size, policy) = (Size::None, Policy::Fifo);
        let trace = Trace { cores: 0, ranges: Vec::new(), size, policy, events };
        Ok(Reader { trace, phase: Phase::Cores })
    }

    /// Reads a trace.
    pub fn read(mut self, text: &[u8]) -> Result<Trace, Refusal> {
        if text.len() > MOST_BYTES {
            return Err(Refusal::TooLarge);
        }
        let is_plain = is_plain(text);
        for (line, number) in Lines(Some(text)).zip(1..) {
            self.line(line, is_plain).map_err(|why| match why {
                LineRefusal::NoHeader => Refusal::NoHeader,
                why => Refusal::Line(number, why),
            })?;
        }
        match self.phase {
            Phase::Ended => Ok(self.trace),
            Phase::Events => Err(Refusal::NoEnd),
            _ => Err(Refusal::NoHeader),
        }
    }

    /// A line without its newline; `is_plain` says that it is known to be text alone.
    #[inline]
    fn line(&mut self, line: &[u8], is_plain: bool) -> Result<(), LineRefusal> {
        let line = if is_plain { line } else { without_return(line)? };
        if line.len() > MOST_LINE {
            return Err(LineRefusal::LongLine);
        }
        let mut words = Words { rest: line, place: 0 };
        match words.next() {
            None | Some([b'#', ..]) => Ok(()),
            Some(first) if self.phase == Phase::Events => self.event_or_end(first, &mut words),
            Some(first) => self.header(first, &mut words),
        }
    }

    /// A line of the header, or one behind the end.
    fn header(&mut self, first: &[u8], words: &mut Words) -> Result<(), LineRefusal> {
        match (self.phase, first) {
            (Phase::Cores, b"cores") => self.cores(words),
            (Phase::Ranges, b"memory") => self.range(words),
            (Phase::Ranges, b"caches") => self.caches(words),
            (Phase::Policy, b"policy") => self.policy(words),
            (Phase::Ended, _) => Err(LineRefusal::AfterEnd),
            _ => Err(LineRefusal::NoHeader),
        }
    }

    /// `cores N`.
    fn cores(&mut self, words: &mut Words) -> Result<(), LineRefusal> {
        let cores = words.number_in(|n| (1..=MOST_CORES).contains(&n))?;
        words.end()?;
        self.trace.cores = cores as u8;
        self.phase = Phase::Ranges;
        Ok(())
    }

    /// `memory BASE SIZE`.
    fn range(&mut self, words: &mut Words) -> Result<(), LineRefusal> {
        let ranges = &mut self.trace.ranges;
        if ranges.len() == MOST_RANGES {
            return Err(LineRefusal::TooMany);
        }
        let left = MOST_MEMORY - ranges.iter().map(|range| range.length).sum::<u64>();
        let start = words.number_in(|start| start % 8 == 0 && start < END_OF_MEMORY)?;
        let most = left.min(END_OF_MEMORY - start);
        let length = words.number_in(|size| size % 8 == 0 && size > 0 && size <= most)?;
        words.end()?;
        let range = Extent { start, length };
        if ranges.iter().any(|other| range.meets(other)) {
            return Err(LineRefusal::OutOfRange(2));
        }
        ranges.push(range);
        Ok(())
    }

    /// `caches SIZE`.
    fn caches(&mut self, words: &mut Words) -> Result<(), LineRefusal> {
        self.trace.size = words.named(size)?;
        words.end()?;
        self.phase = Phase::Policy;
        Ok(())
    }

    /// `policy lru`, `policy fifo` or `policy random START`.
    fn policy(&mut self, words: &mut Words) -> Result<(), LineRefusal> {
        self.trace.policy = match words.word()? {
            b"lru" => Policy::Lru,
            b"fifo" => Policy::Fifo,
            b"random" => Policy::Random(words.number()?),
            _ => return Err(LineRefusal::BadWord(words.place)),
        };
        words.end()?;
        self.phase = Phase::Events;
        Ok(())
    }

    /// The core of an event.
    #[inline]
    fn core(&self, words: &mut Words) -> Result<u8, LineRefusal> {
        Ok(words.number_in(|core| core < self.trace.cores as u64)? as u8)
    }

    /// An event, or the end.
    #[inline]
    fn event_or_end(&mut self, first: &[u8], words: &mut Words) -> Result<(), LineRefusal> {
        if first == b"end" {
            words.end()?;
            self.phase = Phase::Ended;
            return Ok(());
        }
        if self.trace.events.len() == MOST_EVENTS {
            return Err(LineRefusal::TooMany);
        }
        let event = self.event(first, words)?;
        self.trace.events.push(event);
        Ok(())
    }

    /// An event.
    #[inline]
    fn event(&self, first: &[u8], words: &mut Words) -> Result<Event, LineRefusal> {
        let action: fn(&Reader, &mut Words) -> Result<Action, LineRefusal> = match first {
            b"access" => Reader::access,
            b"prefetch" => Reader::prefetch,
            b"store" => Reader::store,
            b"msr" => Reader::msr,
            b"tlbi" => Reader::tlbi,
            b"dsb" => |_, words| Ok(Action::Dsb(words.named(barrier)?)),
            b"settle" => |_, _| Ok(Action::Settle),
            b"isb" => |_, _| Ok(Action::Isb),
            b"deliver" => |_, _| Ok(Action::Deliver),
            _ => return Err(LineRefusal::BadWord(1)),
        };
        let core = self.core(words)?;
        let action = action(self, words)?;
        words.end()?;
        Ok(Event { core, action })
    }

    /// `access CORE EL KIND VA [pan]`, from EL on.
    fn access(&self, words: &mut Words) -> Result<Action, LineRefusal> {
        let (el, kind) = (words.named(level)?, words.named(kind)?);
        let va = words.number()?;
        let pan = match words.next() {
            None => false,
            Some(b"pan") => true,
            Some(_) => return Err(LineRefusal::BadWord(words.place)),
        };
        Ok(Action::Access(Access { va, el, kind, pan }))
    }

    /// `prefetch CORE EL KIND VA`, from EL on.
    fn prefetch(&self, words: &mut Words) -> Result<Action, LineRefusal> {
        let (el, kind) = (words.named(level)?, words.named(kind)?);
        let va = words.number()?;
        Ok(Action::Prefetch(Access { va, el, kind, pan: false }))
    }

    /// `store CORE PA VALUE`, from PA on.
    fn store(&self, words: &mut Words) -> Result<Action, LineRefusal> {
        let is_held = |pa| self.trace.ranges.iter().any(|range| range.holds(pa));
        let pa = words.number_in(|pa| pa % 8 == 0 && is_held(pa))?;
        Ok(Action::Store { pa, value: words.number()? })
    }

    /// `msr CORE REG VALUE`, from REG on.
    fn msr(&self, words: &mut Words) -> Result<Action, LineRefusal> {
        let (reg, value) = (words.named(Reg::named)?, words.number()?);
        words.end()?;
        match reg.unsupported(value) {
            Some(name) => Err(LineRefusal::Unsupported(name)),
            None => Ok(Action::Msr { reg, value }),
        }
    }

    /// `tlbi CORE EL OP [OPERAND]`, from EL on.
    fn tlbi(&self, words: &mut Words) -> Result<Action, LineRefusal> {
        let (at_el1, (op, shared)) = (words.named(origin)?, words.named(Op::named)?);
        let operand = if op.has_operand() { words.number()? } else { 0 };
        words.end()?;
        if at_el1 && op.needs_el2() {
            return Err(LineRefusal::NotAtEl1);
        }
        Ok(Action::Tlbi(Operation { op, shared, at_el1, operand }))
    }
}
