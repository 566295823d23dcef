//! The walk of an access through both stages.

use crate::attrs::{Attrs, El, Kind, LeafBits, MemType, Perms, Share, TableBits};
use crate::memory::Memory;
use crate::regs::{field, flag, Context, Level, Side, Stage2, Tables};
use crate::rows::{Found, Met, NewRow, Row, RowKind, Rows};

/// A stage of translation.
#[derive(Clone, Copy, PartialEq, Eq)]
pub enum Stage {
    S1,
    S2,
}

/// What an item of a trail is.
#[derive(Clone, Copy, PartialEq, Eq)]
pub enum What {
    Base,
    Word,
}

/// One thing that a walk used, with the moment of its reading: the base of a start table, or a
/// descriptor with its place and value.
#[derive(Clone, Copy)]
pub struct Item {
    pub pa: u64,
    pub value: u64,
    pub moment: u32,
    pub stage: Stage,
    pub level: u8,
    pub what: What,
}

impl Item {
    /// A place without an item.
    pub const BLANK: Item =
        Item { pa: 0, value: 0, moment: 0, stage: Stage::S1, level: 0, what: What::Base };
}

/// The most items of a trail.
const MOST_ITEMS: usize = 42;

/// The items of a walk in order.
pub struct Trail {
    items: [Item; MOST_ITEMS],
    len: usize,
}

impl Trail {
    /// A trail without items.
    pub fn new() -> Trail {
        Trail { items: [Item::BLANK; MOST_ITEMS], len: 0 }
    }

    /// Takes all items away.
    pub fn clear(&mut self) {
        self.len = 0;
    }

    /// Appends an item.
    #[inline]
    fn push(&mut self, item: Item) {
        self.items[self.len] = item;
        self.len += 1;
    }

    /// Appends several items.
    pub fn extend(&mut self, items: &[Item]) {
        self.items[self.len..][..items.len()].copy_from_slice(items);
        self.len += items.len();
    }

    /// The items in order.
    pub fn items(&self) -> &[Item] {
        &self.items[..self.len]
    }
}

/// What kind of fault it is; External is a word that memory lacks, and Conflict is several rows
/// that match.
#[derive(Clone, Copy, PartialEq, Eq)]
pub enum Class {
    Translation,
    AddressSize,
    AccessFlag,
    Permission,
    External,
    Conflict,
}

/// A fault; `s1ptw` marks one of stage 2 for the place of a stage 1 descriptor.
#[derive(Clone, Copy)]
pub struct Fault {
    pub stage: Stage,
    pub level: u8,
    pub class: Class,
    pub s1ptw: bool,
}

impl Fault {
    /// Several rows match.
    const CONFLICT: Fault =
        Fault { stage: Stage::S1, level: 0, class: Class::Conflict, s1ptw: false };

    /// A fault of stage 1.
    fn stage1(level: u8, class: Class) -> Fault {
        Fault { stage: Stage::S1, level, class, s1ptw: false }
    }

    /// The fault status code.
    pub fn code(self) -> u8 {
        let first = match self.class {
            Class::AddressSize => 0x00,
            Class::Translation => 0x04,
            Class::AccessFlag => 0x08,
            Class::Permission => 0x0c,
            Class::External => 0x14,
            Class::Conflict => 0x30,
        };
        first + self.level
    }
}

/// An access to a virtual address; `pan` is PSTATE.PAN.
#[derive(Clone, Copy)]
pub struct Access {
    pub va: u64,
    pub el: El,
    pub kind: Kind,
    pub pan: bool,
}

/// Where an access leads, and what both stages give there.
#[derive(Clone, Copy)]
pub struct Mapping {
    pub pa: u64,
    pub attrs: Attrs,
}

/// How an access comes out.
pub type Outcome = Result<Mapping, Fault>;

/// What stage 1 gives, and the leaf that it is from.
struct Output<'a> {
    out: u64,
    attrs: Attrs,
    leaf: Leaf1<'a>,
}

/// The leaf of stage 1: there is none while it is off; one was read now; or a row has it, and also
/// the chain of stage 2 behind it.
enum Leaf1<'a> {
    Off,
    Read { class: u32, granule: u32, word: u64 },
    Row(&'a [Item]),
}

/// Where stage 2 leads: an address, and the leaf's class, level and word.
#[derive(Clone, Copy)]
struct Leaf2 {
    out: u64,
    class: u32,
    level: u8,
    word: u64,
}

/// Where a walk goes on: the table and its level, and where its items begin in the trail.
struct Start {
    table: u64,
    level: u8,
    from: usize,
}

impl Leaf2 {
    /// The rights that it gives.
    #[inline]
    fn perms(self) -> Perms {
        Perms::stage2(flag(self.word, 6), flag(self.word, 7), field(self.word, 54, 53))
    }

    /// The memory type that it gives.
    #[inline]
    fn mem(self) -> MemType {
        MemType::of_stage2(field(self.word, 5, 2))
    }

    /// All that it gives.
    fn attrs(self) -> Attrs {
        let share = Share::of(field(self.word, 9, 8));
        Attrs { perms: self.perms(), mem: self.mem(), share }
    }
}

/// What a descriptor means, by its shape.
enum Descriptor {
    Invalid,
    Table(u64),
    Leaf(u64),
}

impl Level {
    /// The place of the word that an address selects in a table of this level.
    #[inline]
    fn place(&self, table: u64, address: u64) -> u64 {
        table + 8 * (address >> self.class & self.indices)
    }

    /// The class of a leaf at a place, with output `out`. The Contiguous bit counts where `out` is
    /// that of the leaf's number in the run.
    #[inline]
    fn leaf_class(&self, word: u64, out: u64, place: u64) -> u32 {
        if flag(word, 52) {
            let run = (1 << self.run) - 1;
            let number = (place / 8) << self.class;
            if out & run == number & run {
                return self.run;
            }
        }
        self.class
    }
}

/// Where a leaf of a class with output `out` sends an address.
#[inline]
fn output(class: u32, out: u64, address: u64) -> u64 {
    let low = (1 << class) - 1;
    out & !low | address & low
}

impl Tables {
    /// The level of a number.
    #[inline]
    fn level(&self, number: u8) -> &Level {
        &self.levels[number as usize & 3]
    }

    /// The granule: the class of a page.
    fn granule(&self) -> u32 {
        self.levels[3].class
    }

    /// The address in a table descriptor.
    #[inline]
    fn next(&self, word: u64) -> u64 {
        word & self.table | (word & self.high) << 36
    }

    /// The address in a leaf of a level.
    #[inline]
    fn leaf(&self, level: &Level, word: u64) -> u64 {
        word & level.leaf | (word & self.high) << 36
    }

    /// What a word of a level means.
    #[inline]
    fn decode(&self, level: &Level, word: u64) -> Descriptor {
        match word & 3 {
            3 if level.has_tables => Descriptor::Table(self.next(word)),
            3 => Descriptor::Leaf(self.leaf(level, word)),
            1 if level.has_blocks => Descriptor::Leaf(self.leaf(level, word)),
            _ => Descriptor::Invalid,
        }
    }

    /// The start table, whose base comes next in a trail of so many items.
    #[inline]
    fn first(&self, from: usize) -> Start {
        Start { table: self.base, level: self.start, from }
    }

    /// The table that a row leads to, whose items begin at a place of the trail.
    fn behind(&self, items: &[Item], from: usize) -> Option<Start> {
        let last = items.last()?;
        Some(Start { table: self.next(last.value), level: last.level + 1, from })
    }

    /// The leaf of stage 2 that an item is, for an address.
    fn leaf2(&self, item: &Item, ipa: u64) -> Leaf2 {
        let level = self.level(item.level);
        let out = self.leaf(level, item.value);
        let class = level.leaf_class(item.value, out, item.pa);
        Leaf2 { out: output(class, out, ipa), class, level: item.level, word: item.value }
    }

    /// Whether an address doesn't fit the output size.
    #[inline]
    fn is_too_large(&self, address: u64) -> bool {
        address & self.too_large != 0
    }
}

impl Side {
    /// The joined bits of the tables whose words are among the items.
    fn table_bits(&self, items: &[Item]) -> TableBits {
        let is_table = |item: &&Item| item.stage == Stage::S1 && item.what == What::Word;
        let join = |bits: TableBits, item: &Item| bits.join(item.value & self.table_mask);
        items.iter().filter(is_table).fold(TableBits::default(), join)
    }
}

/// An address without its tag.
fn untagged(va: u64) -> u64 {
    field(va, 55, 0)
}

/// The walk of one access at a moment. With `ROWS` it asks rows, and tells what it met.
pub struct Walk<'a, const ROWS: bool> {
    pub context: &'a Context,
    pub memory: &'a Memory,
    pub access: &'a Access,
    pub moment: u32,
    pub trail: &'a mut Trail,
    pub rows: Option<&'a Rows>,
    pub met: &'a mut Met,
}

impl<'a, const ROWS: bool> Walk<'a, ROWS> {
    /// Walks both stages, one behind the other.
    pub fn run(&mut self) -> Outcome {
        let Output { out, attrs, leaf } = self.stage1()?;
        let Some(stage2) = &self.context.stage2 else {
            self.make_combined(&leaf, None);
            return Ok(Mapping { pa: out, attrs: attrs.alone() });
        };
        let leaf2 = match (&leaf, &stage2.tables) {
            (Leaf1::Row([.., last]), Some(tables)) if ROWS => tables.leaf2(last, out),
            _ => self.stage2(stage2, out, false)?,
        };
        if let Leaf1::Row(chain) = &leaf {
            self.trail.extend(chain);
        }
        if !leaf2.perms().allows(self.access.el, self.access.kind) {
            let (stage, class) = (Stage::S2, Class::Permission);
            return Err(Fault { stage, level: leaf2.level, class, s1ptw: false });
        }
        self.make_combined(&leaf, Some(&leaf2));
        Ok(Mapping { pa: leaf2.out, attrs: attrs.combine(leaf2.attrs()) })
    }

    /// The rows that are asked.
    #[inline]
    fn rows(&self) -> Option<&'a Rows> {
        self.rows.filter(|_| ROWS)
    }

    /// A row serves: its items come behind those that are there.
    fn serve(&mut self, rows: &Rows, row: &Row) {
        self.met.serve(row);
        self.trail.extend(rows.items(row));
    }

    /// Two rows match: the trail ends with the one, and the second trail with the other.
    fn conflict(&mut self, rows: &Rows, one: &Row, two: &Row) -> Fault {
        self.met.conflict = one.kind();
        self.met.second.extend(self.trail.items());
        self.met.second.extend(rows.items(two));
        self.trail.extend(rows.items(one));
        Fault::CONFLICT
    }

    /// The row of a word that was just read is made: its items begin at a place of the trail.
    #[inline]
    fn make(&mut self, kind: RowKind, tables: &Tables, class: u32, address: u64, from: usize) {
        if ROWS {
            let (granule, to) = (tables.granule(), self.trail.len);
            let is_global = !kind.is_stage1();
            self.met.make(NewRow {
                kind,
                address,
                class,
                whole: class,
                granule,
                is_global,
                from,
                to,
            });
        }
    }

    /// The row of a translation is made where its stage 1 leaf was read now.
    #[inline]
    fn make_combined(&mut self, leaf: &Leaf1, leaf2: Option<&Leaf2>) {
        if let (true, &Leaf1::Read { class, granule, word }) = (ROWS, leaf) {
            self.met.make(NewRow {
                kind: RowKind::Leaf1,
                address: untagged(self.access.va),
                class: leaf2.map_or(class, |leaf2| leaf2.class.min(class)),
                whole: class,
                granule,
                is_global: !flag(word, 11),
                from: 0,
                to: self.trail.len,
            });
        }
    }

    /// The moment of an item that is read now. Without rows no one asks for it.
    #[inline]
    fn now(&self) -> u32 {
        if ROWS {
            self.moment
        } else {
            0
        }
    }

    /// Appends the base of a start table.
    #[inline]
    fn keep_base(&mut self, stage: Stage, tables: &Tables) {
        let (pa, value, level) = (tables.base, tables.base, tables.start);
        let (moment, what) = (self.now(), What::Base);
        self.trail.push(Item { pa, value, moment, stage, level, what });
    }

    /// Reads a descriptor and appends it; None where memory lacks it.
    #[inline]
    fn read(&mut self, stage: Stage, level: u8, pa: u64) -> Option<u64> {
        let value = self.memory.load(pa)?;
        let (moment, what) = (self.now(), What::Word);
        self.trail.push(Item { pa, value, moment, stage, level, what });
        Some(value)
    }

    /// Stage 1 of the access.
    fn stage1(&mut self) -> Result<Output<'a>, Fault> {
        let (context, Access { va, kind, .. }) = (self.context, *self.access);
        let high = flag(va, 55);
        let side = &context.sides[high as usize];
        let top = if kind == Kind::Fetch { side.top_of_fetch } else { side.top };
        if !context.mmu_on {
            if va << (63 - top) >> (63 - top + 52) != 0 {
                return Err(Fault::stage1(0, Class::AddressSize));
            }
            let (out, attrs) = (field(va, 51, 0), Attrs::mmu_off(kind, context.icache));
            return Ok(Output { out, attrs, leaf: Leaf1::Off });
        }
        let Some(tables) = self.tables(side, top, high) else {
            return Err(Fault::stage1(0, Class::Translation));
        };
        match self.rows() {
            Some(rows) => self.rows1(rows, side, tables),
            None => self.begin1(side, tables),
        }
    }

    /// The tables of an access, None where stage 1 refuses it before any of them.
    #[inline]
    fn tables<'c>(&self, side: &'c Side, top: u32, high: bool) -> Option<&'c Tables> {
        let tables = side.tables.as_ref()?;
        let upper = ((self.access.va << (63 - top)) as i64) >> (63 - top + tables.input);
        let is_extended = upper == -(high as i64);
        let is_stopped = side.e0pd & (self.access.el == El::El0);
        (is_extended & !is_stopped).then_some(tables)
    }

    /// Stage 1 by rows: one leaf gives all of it, else a table gives its beginning.
    fn rows1(&mut self, rows: &'a Rows, side: &Side, tables: &Tables) -> Result<Output<'a>, Fault> {
        let (key, address) = (&self.context.key, untagged(self.access.va));
        match rows.leaves(RowKind::Leaf1, key, address) {
            Found::One(row) => return self.hit1(rows, side, tables, row),
            Found::Several(one, two) => return Err(self.conflict(rows, one, two)),
            Found::Nothing => {}
        }
        let Some(row) = rows.table(RowKind::Table1, key, address) else {
            return self.begin1(side, tables);
        };
        self.serve(rows, row);
        let items = rows.items(row);
        match tables.behind(items, 0) {
            Some(start) => self.walk1(side, tables, start, side.table_bits(items)),
            None => self.begin1(side, tables),
        }
    }

    /// Stage 1 by the row of a leaf.
    fn hit1(
        &mut self,
        rows: &'a Rows,
        side: &Side,
        tables: &Tables,
        row: &Row,
    ) -> Result<Output<'a>, Fault> {
        self.met.serve(row);
        let items = rows.items(row);
        let chain = items.iter().rev().take_while(|item| item.stage == Stage::S2).count();
        let (front, chain) = items.split_at(items.len() - chain);
        self.trail.extend(front);
        let leaf = front[front.len() - 1];
        let Some(attrs) = self.permit(leaf.value, side.table_bits(&front[..front.len() - 1]))
        else {
            return Err(Fault::stage1(leaf.level, Class::Permission));
        };
        let level = tables.level(leaf.level);
        let out = tables.leaf(level, leaf.value);
        let class = level.leaf_class(leaf.value, out, leaf.pa);
        let out = output(class, out, self.access.va);
        Ok(Output { out, attrs, leaf: Leaf1::Row(chain) })
    }

    /// Stage 1 from the register on.
    #[inline]
    fn begin1(&mut self, side: &Side, tables: &Tables) -> Result<Output<'a>, Fault> {
        self.keep_base(Stage::S1, tables);
        if tables.is_too_large(tables.base) {
            return Err(Fault::stage1(0, Class::AddressSize));
        }
        self.walk1(side, tables, tables.first(0), TableBits::default())
    }

    /// The words of stage 1 from a table on, under the bits of the tables above.
    fn walk1(
        &mut self,
        side: &Side,
        tables: &Tables,
        start: Start,
        mut bits: TableBits,
    ) -> Result<Output<'a>, Fault> {
        let va = self.access.va;
        let Start { mut table, level: mut number, .. } = start;
        loop {
            let level = tables.level(number);
            let fault = |class| Err(Fault::stage1(number, class));
            let place = self.descriptor_place(level.place(table, va))?;
            let Some(word) = self.read(Stage::S1, number, place) else {
                return fault(Class::External);
            };
            match tables.decode(level, word) {
                Descriptor::Invalid => return fault(Class::Translation),
                Descriptor::Table(out) | Descriptor::Leaf(out) if tables.is_too_large(out) => {
                    return fault(Class::AddressSize);
                }
                Descriptor::Table(next) => {
                    self.make(RowKind::Table1, tables, level.class, untagged(va), 0);
                    table = next;
                    bits = bits.join(word & side.table_mask);
                    number += 1;
                }
                Descriptor::Leaf(_) if !flag(word, 10) => return fault(Class::AccessFlag),
                Descriptor::Leaf(out) => {
                    let Some(attrs) = self.permit(word, bits) else {
                        return fault(Class::Permission);
                    };
                    let class = level.leaf_class(word, out, place);
                    let leaf = Leaf1::Read { class, granule: tables.granule(), word };
                    return Ok(Output { out: output(class, out, va), attrs, leaf });
                }
            }
        }
    }

    /// What a leaf of stage 1 gives, None where it doesn't permit the access.
    #[inline]
    fn permit(&self, word: u64, tables: TableBits) -> Option<Attrs> {
        let context = self.context;
        let leaf = LeafBits {
            user: flag(word, 6),
            read_only: flag(word, 7),
            pxn: flag(word, 53),
            uxn: flag(word, 54),
        };
        let perms = Perms::stage1(leaf, tables, context.wxn);
        let Access { el, kind, pan, .. } = *self.access;
        let fetches = context.epan & !(leaf.uxn | tables.uxn());
        let user = perms.allows(El::El0, Kind::Read) | fetches;
        let guarded = pan & (el == El::El1) & (kind != Kind::Fetch) & user;
        let mem = context.mair[field(word, 4, 2) as usize];
        let share = Share::of(field(word, 9, 8));
        (perms.allows(el, kind) & !guarded).then_some(Attrs { perms, mem, share })
    }

    /// Where a descriptor of stage 1 stands, by the stage 2 of its place.
    #[inline]
    fn descriptor_place(&mut self, ipa: u64) -> Result<u64, Fault> {
        let Some(stage2) = &self.context.stage2 else {
            return Ok(ipa);
        };
        let leaf = self.stage2(stage2, ipa, true)?;
        if !leaf.perms().allows(El::El1, Kind::Read) | (stage2.ptw & leaf.mem().is_device()) {
            let (stage, class) = (Stage::S2, Class::Permission);
            return Err(Fault { stage, level: leaf.level, class, s1ptw: true });
        }
        Ok(leaf.out)
    }

    /// Stage 2 of an address; `s1ptw` says that a descriptor of stage 1 stands there.
    fn stage2(&mut self, stage2: &Stage2, ipa: u64, s1ptw: bool) -> Result<Leaf2, Fault> {
        let fault = |class| Err(Fault { stage: Stage::S2, level: 0, class, s1ptw });
        let Some(tables) = stage2.tables.as_ref().filter(|tables| ipa >> tables.input == 0) else {
            return fault(Class::Translation);
        };
        if let Some(rows) = self.rows() {
            return self.rows2(rows, tables, ipa, s1ptw);
        }
        self.begin2(tables, ipa, s1ptw)
    }

    /// Stage 2 by rows: one leaf gives all of it, else a table gives its beginning.
    fn rows2(
        &mut self,
        rows: &'a Rows,
        tables: &Tables,
        ipa: u64,
        s1ptw: bool,
    ) -> Result<Leaf2, Fault> {
        let (key, from) = (&self.context.key, self.trail.len);
        match rows.leaves(RowKind::Leaf2, key, ipa) {
            Found::One(row) => {
                self.serve(rows, row);
                return Ok(tables.leaf2(&self.trail.items[self.trail.len - 1], ipa));
            }
            Found::Several(one, two) => return Err(self.conflict(rows, one, two)),
            Found::Nothing => {}
        }
        let Some(row) = rows.table(RowKind::Table2, key, ipa) else {
            return self.begin2(tables, ipa, s1ptw);
        };
        self.serve(rows, row);
        match tables.behind(rows.items(row), from) {
            Some(start) => self.walk2(tables, start, ipa, s1ptw),
            None => self.begin2(tables, ipa, s1ptw),
        }
    }

    /// Stage 2 from the register on.
    #[inline]
    fn begin2(&mut self, tables: &Tables, ipa: u64, s1ptw: bool) -> Result<Leaf2, Fault> {
        let start = tables.first(self.trail.len);
        self.keep_base(Stage::S2, tables);
        if tables.is_too_large(tables.base) {
            let (stage, class) = (Stage::S2, Class::AddressSize);
            return Err(Fault { stage, level: 0, class, s1ptw });
        }
        self.walk2(tables, start, ipa, s1ptw)
    }

    /// The words of stage 2 from a table on.
    fn walk2(
        &mut self,
        tables: &Tables,
        start: Start,
        ipa: u64,
        s1ptw: bool,
    ) -> Result<Leaf2, Fault> {
        let Start { mut table, level: mut number, from } = start;
        loop {
            let level = tables.level(number);
            let fault = |class| Err(Fault { stage: Stage::S2, level: number, class, s1ptw });
            let place = level.place(table, ipa);
            let Some(word) = self.read(Stage::S2, number, place) else {
                return fault(Class::External);
            };
            match tables.decode(level, word) {
                Descriptor::Invalid => return fault(Class::Translation),
                Descriptor::Table(out) | Descriptor::Leaf(out) if tables.is_too_large(out) => {
                    return fault(Class::AddressSize);
                }
                Descriptor::Table(next) => {
                    self.make(RowKind::Table2, tables, level.class, ipa, from);
                    table = next;
                    number += 1;
                }
                Descriptor::Leaf(_) if !flag(word, 10) => return fault(Class::AccessFlag),
                Descriptor::Leaf(out) => {
                    let class = level.leaf_class(word, out, place);
                    self.make(RowKind::Leaf2, tables, class, ipa, from);
                    let out = output(class, out, ipa);
                    return Ok(Leaf2 { out, class, level: number, word });
                }
            }
        }
    }
}
