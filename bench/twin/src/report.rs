//! The report of a run, and the line of a refusal.

use crate::attrs::{Attrs, Cache, Device, El, Kind, MemType, Policy, Share};
use crate::machine::Answer;
use crate::parse::{LineRefusal, Refusal};
use crate::text::{Short, Text};
use crate::walk::{Class, Fault, Item, Mapping, Stage, What};
use std::io::{self, Write};

/// The bytes of the buffer, and the most that the lines of one answer take.
const ROOM: usize = 64 << 10;
const MOST_OF_ANSWER: usize = 8 << 10;

/// The end of the lines of items that were read at one moment.
type Tail = Short<24>;

/// A report that is written while a run goes on.
pub struct Report<W> {
    out: W,
    buffer: Vec<u8>,
    used: usize,
    counts: Counts,
}

impl<W: Write> Report<W> {
    /// A report without lines.
    pub fn new(out: W) -> Report<W> {
        Report { out, buffer: vec![0; ROOM], used: 0, counts: Counts::default() }
    }

    /// Tells an answer. What waits is handed on before there is no room for one more.
    pub fn answer(&mut self, answer: &Answer) -> io::Result<()> {
        self.counts.add(answer);
        self.put(|text| text.answer(answer));
        if ROOM - self.used < MOST_OF_ANSWER {
            self.hand_on()?;
        }
        Ok(())
    }

    /// Ends the report with its summary.
    pub fn end(mut self) -> io::Result<()> {
        let counts = self.counts;
        self.put(|text| text.summary(&counts));
        self.hand_on()?;
        self.out.flush()
    }

    /// Puts lines behind those that wait.
    #[inline]
    fn put(&mut self, put: impl FnOnce(&mut Text)) {
        let mut text = Text::new(&mut self.buffer[self.used..]);
        put(&mut text);
        self.used = ROOM - text.left();
    }

    /// Writes all that waits.
    fn hand_on(&mut self) -> io::Result<()> {
        self.out.write_all(&self.buffer[..self.used])?;
        self.used = 0;
        Ok(())
    }
}

/// How many accesses and prefetches came out how, how many answers were old and stale, and how many
/// rows had to leave.
#[derive(Clone, Copy, Default)]
pub struct Counts {
    pub mapped: u32,
    faulted: u32,
    conflicts: u32,
    prefetches: u32,
    old: u32,
    stale: u32,
    evicted: u32,
}

impl Counts {
    /// Counts an answer.
    pub fn add(&mut self, answer: &Answer) {
        match answer.outcome {
            Ok(_) => self.mapped += 1,
            Err(fault) if fault.class == Class::Conflict => self.conflicts += 1,
            Err(_) => self.faulted += 1,
        }
        self.prefetches += answer.is_prefetch as u32;
        self.old += answer.marks.old as u32;
        self.stale += answer.marks.stale as u32;
        self.evicted += answer.marks.evicted;
    }
}

/// The most bytes of a line's head, `s1 word level 0 at 0x`.
const HEAD: usize = 21;

/// The head of an item's line, by stage, kind and level.
static HEADS: [[[[u8; HEAD]; 4]; 2]; 2] = [
    [levels(*b"s1 base level 0 at 0x"), levels(*b"s1 word level 0 at 0x")],
    [levels(*b"s2 base level 0 at 0x"), levels(*b"s2 word level 0 at 0x")],
];

/// A head for each level.
const fn levels(head: [u8; HEAD]) -> [[u8; HEAD]; 4] {
    let mut heads = [head; 4];
    let mut level = 0;
    while level < 4 {
        heads[level][14] += level as u8;
        level += 1;
    }
    heads
}

impl Text<'_> {
    /// Puts the lines of an answer.
    fn answer(&mut self, answer: &Answer) {
        self.access(answer);
        if answer.marks.old {
            self.old_items(answer.trail.items());
        } else {
            self.items(answer.trail.items(), answer.moment);
        }
        match &answer.outcome {
            Ok(mapping) => self.mapped(mapping),
            Err(fault) if fault.class == Class::Conflict => {
                self.conflict(answer.met.second.items(), *fault);
            }
            Err(fault) => self.fault(*fault),
        }
    }

    /// Puts the other trail of a conflict, and its last line.
    fn conflict(&mut self, second: &[Item], fault: Fault) {
        self.put(b"or\n");
        self.old_items(second);
        self.put(b"conflict fsc 0x");
        self.hex_byte(fault.code());
        self.put(b"\n");
    }

    /// Puts the lines of items that were read at one moment.
    #[inline(always)]
    fn items(&mut self, items: &[Item], moment: u32) {
        let tail = Tail::of(|text| {
            text.put(b" moment ");
            text.decimal(moment);
            text.put(b"\n");
        });
        for item in items {
            self.item(item, &tail);
        }
    }

    /// Puts the lines of items that were read at several moments.
    #[inline(never)]
    fn old_items(&mut self, items: &[Item]) {
        for group in items.chunk_by(|one, next| one.moment == next.moment) {
            self.items(group, group[0].moment);
        }
    }

    /// Puts the line of an access.
    fn access(&mut self, answer: &Answer) {
        let access = answer.access;
        self.put(b"event ");
        self.decimal(answer.moment);
        self.put(b" core ");
        self.digit(answer.core);
        if answer.is_prefetch {
            self.put(b" prefetch 0x");
        } else {
            self.put(b" access 0x");
        }
        self.hex(access.va);
        match access.el {
            El::El0 => self.put(b" el0"),
            El::El1 => self.put(b" el1"),
        }
        match access.kind {
            Kind::Read => self.put(b" read"),
            Kind::Write => self.put(b" write"),
            Kind::Fetch => self.put(b" fetch"),
        }
        if access.pan {
            self.put(b" pan");
        }
        self.put(b" asid 0x");
        self.hex(answer.asid as u64);
        self.put(b" vmid 0x");
        self.hex(answer.vmid as u64);
        self.put(b"\n");
    }

    /// Puts the line of an item.
    #[inline(always)]
    fn item(&mut self, item: &Item, tail: &Tail) {
        self.put(&HEADS[item.stage as usize][item.what as usize][item.level as usize & 3]);
        self.hex(item.pa);
        if item.what == What::Word {
            self.put(b" value 0x");
            self.hex(item.value);
        }
        self.short(tail);
    }

    /// Puts the line of a fault.
    fn fault(&mut self, fault: Fault) {
        match fault.stage {
            Stage::S1 => self.put(b"fault stage 1 level "),
            Stage::S2 => self.put(b"fault stage 2 level "),
        }
        self.digit(fault.level);
        match fault.class {
            Class::Translation => self.put(b" translation"),
            Class::AddressSize => self.put(b" address-size"),
            Class::AccessFlag => self.put(b" access-flag"),
            Class::Permission => self.put(b" permission"),
            Class::External => self.put(b" external"),
            Class::Conflict => {} // A conflict has a line of its own.
        }
        self.put(b" fsc 0x");
        self.hex_byte(fault.code());
        if fault.s1ptw {
            self.put(b" s1ptw");
        }
        self.put(b"\n");
    }

    /// Puts the line of a mapping.
    fn mapped(&mut self, mapping: &Mapping) {
        let Attrs { perms, mem, share } = mapping.attrs;
        self.put(b"mapped 0x");
        self.hex(mapping.pa);
        self.put(b" el0 ");
        self.put(&perms.letters(El::El0));
        self.put(b" el1 ");
        self.put(&perms.letters(El::El1));
        self.mem(mem);
        match share {
            Share::Nsh => self.put(b" nsh\n"),
            Share::Ish => self.put(b" ish\n"),
            Share::Osh => self.put(b" osh\n"),
        }
    }

    /// Puts a memory type.
    fn mem(&mut self, mem: MemType) {
        match mem {
            MemType::Device(Device::NGnRnE) => self.put(b" device-nGnRnE"),
            MemType::Device(Device::NGnRE) => self.put(b" device-nGnRE"),
            MemType::Device(Device::NGRE) => self.put(b" device-nGRE"),
            MemType::Device(Device::GRE) => self.put(b" device-GRE"),
            MemType::Normal { outer, inner, tagged } => {
                self.put(b" normal outer ");
                self.cache(outer);
                self.put(b" inner ");
                self.cache(inner);
                if tagged {
                    self.put(b" tagged");
                }
            }
        }
    }

    /// Puts a cacheability.
    fn cache(&mut self, cache: Cache) {
        match cache.policy {
            Policy::NonCacheable => return self.put(b"nc"),
            Policy::WriteThrough => self.put(b"wt"),
            Policy::WriteBack => self.put(b"wb"),
        }
        if cache.read {
            self.put(b"+r");
        }
        if cache.write {
            self.put(b"+w");
        }
        if cache.transient {
            self.put(b"+t");
        }
    }

    /// Puts the last line of a report.
    fn summary(&mut self, counts: &Counts) {
        let answers = counts.mapped + counts.faulted + counts.conflicts;
        self.put(b"summary accesses ");
        self.decimal(answers - counts.prefetches);
        self.put(b" prefetches ");
        self.decimal(counts.prefetches);
        self.put(b" mapped ");
        self.decimal(counts.mapped);
        self.put(b" faulted ");
        self.decimal(counts.faulted);
        self.put(b" conflicts ");
        self.decimal(counts.conflicts);
        self.put(b" old ");
        self.decimal(counts.old);
        self.put(b" stale ");
        self.decimal(counts.stale);
        self.put(b" evicted ");
        self.decimal(counts.evicted);
        self.put(b"\n");
    }
}

/// The line of a file that is not there: its name is shown by its first 64 bytes.
pub fn no_file(name: &str) -> String {
    let glyph = |byte: u8| if byte.is_ascii_graphic() { byte as char } else { '?' };
    let shown: String = name.bytes().take(64).map(glyph).collect();
    format!("vmsa: no file {shown}\n")
}

/// The line of a trace that is refused.
pub fn refused(why: Refusal) -> String {
    let (number, why) = match why {
        Refusal::TooLarge => return "vmsa: trace: too large\n".into(),
        Refusal::NoHeader => return "vmsa: trace: no header\n".into(),
        Refusal::NoEnd => return "vmsa: trace: no end\n".into(),
        Refusal::Line(number, why) => (number, why),
    };
    let why = match why {
        LineRefusal::NotText => "not text".into(),
        LineRefusal::LongLine => "long line".into(),
        LineRefusal::BadWord(place) => format!("bad word {place}"),
        LineRefusal::BadNumber(place) => format!("bad number {place}"),
        LineRefusal::OutOfRange(place) => format!("out of range {place}"),
        LineRefusal::Unsupported(name) => format!("unsupported {name}"),
        LineRefusal::NotAtEl1 => "not at el1".into(),
        LineRefusal::TooMany => "too many".into(),
        LineRefusal::AfterEnd => "after end".into(),
        LineRefusal::NoHeader => "no header".into(),
    };
    format!("vmsa: trace: line {number}: {why}\n")
}
