//! The rows of translations that a core keeps: four caches, each of sets of a few rows.

use crate::tlbi::Invalidation;
use crate::walk::{Item, Trail};

/// What a row is of: a stage 1 leaf with the stage 2 of its output, a stage 1 table, or a leaf or a
/// table of stage 2.
#[derive(Clone, Copy, PartialEq, Eq)]
pub enum RowKind {
    Leaf1,
    Table1,
    Leaf2,
    Table2,
}

/// How many rows a core keeps.
#[derive(Clone, Copy)]
pub enum Size {
    None,
    Small,
    Medium,
    Large,
}

/// Which row leaves a full set; a random one by draws that begin at a number.
#[derive(Clone, Copy, PartialEq, Eq)]
pub enum Policy {
    Lru,
    Fifo,
    Random(u64),
}

/// The register fields that rows depend on, as `Regs::config` packs them.
pub type Config = [u64; 4];

/// Under what a row was made, and under what one is looked for.
#[derive(Clone, Copy, PartialEq, Eq)]
pub struct Key {
    pub config: Config,
    pub asid: u16,
    pub vmid: u16,
}

/// A row but for its items.
#[derive(Clone, Copy)]
pub struct Row {
    /// Its region begins at `start` times 2^class.
    start: u64,
    key: Key,
    /// The moment of its making, and its place among the rows of that moment.
    made: u64,
    class: u8,
    /// The class of the region that an invalidation tests, and the granule of its tables.
    whole: u8,
    granule: u8,
    /// Whether it serves under every ASID, as rows of stage 2 do. Those have ASID 0.
    is_global: bool,
    kind: RowKind,
    /// Where its items stand, and how many they are.
    slot: u16,
    len: u8,
}

/// A row that an access makes: its address and sizes, and its part of the trail.
pub struct NewRow {
    pub kind: RowKind,
    pub address: u64,
    pub class: u32,
    pub whole: u32,
    pub granule: u32,
    pub is_global: bool,
    pub from: usize,
    pub to: usize,
}

/// A row that served, by what `Cache::touch` finds it with.
struct Service {
    kind: RowKind,
    start: u64,
    slot: u16,
}

/// What an access met: the rows that served it, those that it makes, and the second trail of a
/// conflict.
pub struct Met {
    served: Vec<Service>,
    made: Vec<NewRow>,
    pub second: Trail,
    /// The kind of the rows of the last conflict.
    pub conflict: RowKind,
}

/// The rows that match an address: of several the two that were made first.
#[derive(Clone, Copy)]
pub enum Found<'a> {
    Nothing,
    One(&'a Row),
    Several(&'a Row, &'a Row),
}

/// How many sets of how many rows a cache has.
type Shape = (usize, usize);

/// The slot of a row that has never been there.
const NO_SLOT: u16 = u16::MAX;

/// The most rows that an access makes, and the most that serve it.
const MOST_MADE: usize = 24;
const MOST_SERVED: usize = 6;

impl RowKind {
    /// All kinds, in the order of their numbers.
    pub const ALL: [RowKind; 4] =
        [RowKind::Leaf1, RowKind::Table1, RowKind::Leaf2, RowKind::Table2];

    /// Whether it is of stage 1.
    pub fn is_stage1(self) -> bool {
        matches!(self, RowKind::Leaf1 | RowKind::Table1)
    }

    /// Whether it is of a table.
    pub fn is_table(self) -> bool {
        matches!(self, RowKind::Table1 | RowKind::Table2)
    }

    /// The most items of a row.
    fn most_items(self) -> usize {
        match self {
            RowKind::Leaf1 => 30,
            RowKind::Table1 => 19,
            RowKind::Leaf2 => 5,
            RowKind::Table2 => 4,
        }
    }
}

impl Size {
    /// The shapes of the caches in the order of their kinds, None without rows.
    fn shapes(self) -> Option<[Shape; 4]> {
        match self {
            Size::None => None,
            Size::Small => Some([(1, 8); 4]),
            Size::Medium => Some([(16, 4), (4, 4), (8, 4), (4, 4)]),
            Size::Large => Some([(64, 8), (16, 4), (32, 4), (16, 4)]),
        }
    }
}

impl Met {
    /// What an access met that met nothing.
    pub fn new() -> Met {
        Met {
            served: Vec::with_capacity(MOST_SERVED),
            made: Vec::with_capacity(MOST_MADE),
            second: Trail::new(),
            conflict: RowKind::Leaf1,
        }
    }

    /// Takes all away.
    pub fn clear(&mut self) {
        self.served.clear();
        self.made.clear();
        self.second.clear();
    }

    /// Notes that a row serves.
    pub fn serve(&mut self, row: &Row) {
        self.served.push(Service { kind: row.kind, start: row.start, slot: row.slot });
    }

    /// Notes a row that is to be made.
    pub fn make(&mut self, row: NewRow) {
        self.made.push(row);
    }

    /// The kinds of the rows that served.
    pub fn services(&self) -> impl Iterator<Item = RowKind> + '_ {
        self.served.iter().map(|service| service.kind)
    }

    /// Whether a row served.
    pub fn is_served(&self) -> bool {
        !self.served.is_empty()
    }
}

impl Row {
    /// A row that is made now; its items stand nowhere yet.
    fn of(new: &NewRow, key: &Key, made: u64) -> Row {
        let asid = if new.kind.is_stage1() { key.asid } else { 0 };
        Row {
            start: new.address >> new.class,
            key: Key { asid, ..*key },
            made,
            class: new.class as u8,
            whole: new.whole as u8,
            granule: new.granule as u8,
            is_global: new.is_global,
            kind: new.kind,
            slot: NO_SLOT,
            len: 0,
        }
    }

    /// A place where no row has been.
    fn blank(kind: RowKind) -> Row {
        Row {
            start: 0,
            key: Key { config: [0; 4], asid: 0, vmid: 0 },
            made: 0,
            class: 0,
            whole: 0,
            granule: 0,
            is_global: false,
            kind,
            slot: NO_SLOT,
            len: 0,
        }
    }

    /// What it is of.
    pub fn kind(&self) -> RowKind {
        self.kind
    }

    /// Whether it is of this region and matches a key.
    #[inline]
    fn matches(&self, class: u32, start: u64, key: &Key) -> bool {
        self.start == start
            && self.class as u32 == class
            && self.key.vmid == key.vmid
            && (self.is_global || self.key.asid == key.asid)
            && self.key.config == key.config
    }

    /// Whether another row would serve the same.
    fn equals(&self, other: &Row) -> bool {
        self.start == other.start
            && self.class == other.class
            && self.is_global == other.is_global
            && self.key == other.key
    }

    /// Whether it serves a piece of what an invalidation tests.
    fn is_piece(&self) -> bool {
        self.class != self.whole
    }

    /// Whether an invalidation that reaches its kind covers it.
    fn is_covered(&self, invalidation: &Invalidation) -> bool {
        let start = self.start << self.class >> self.whole << self.whole;
        invalidation.takes_vmid(self.key.vmid)
            && invalidation.takes_asid(self.key.asid, self.is_global)
            && invalidation.takes_granule(self.granule as u32)
            && invalidation.meets(start, start + (1 << self.whole))
    }
}

impl<'a> Found<'a> {
    /// These rows and one more.
    fn with(self, row: &'a Row) -> Found<'a> {
        match self {
            Found::Nothing => Found::One(row),
            Found::One(one) if row.made < one.made => Found::Several(row, one),
            Found::One(one) => Found::Several(one, row),
            Found::Several(one, _) if row.made < one.made => Found::Several(row, one),
            Found::Several(one, two) if row.made < two.made => Found::Several(one, row),
            several => several,
        }
    }
}

/// The numbers of the bits that a mask has, the lowest first.
struct Bits(u64);

impl Iterator for Bits {
    type Item = u32;

    #[inline]
    fn next(&mut self) -> Option<u32> {
        let bit = self.0.trailing_zeros();
        self.0 &= self.0.wrapping_sub(1);
        (bit < u64::BITS).then_some(bit)
    }
}

/// Which row leaves a full set.
struct Chooser {
    policy: Policy,
    last_drawn: u64,
}

impl Chooser {
    /// The chooser of a core before its first draw.
    fn new(policy: Policy, core: u8) -> Chooser {
        let start = if let Policy::Random(start) = policy { start } else { 0 };
        Chooser { policy, last_drawn: start.wrapping_add(core as u64) }
    }

    /// The way of the row that leaves a set of so many.
    fn victim(&mut self, ways: usize) -> usize {
        let Policy::Random(_) = self.policy else {
            return 0;
        };
        let product = self.last_drawn.wrapping_mul(6364136223846793005);
        self.last_drawn = product.wrapping_add(1442695040888963407);
        (self.last_drawn >> 33) as usize % ways
    }
}

/// How many rows of a kind came, had to leave a full set, and were removed by invalidations.
#[derive(Clone, Copy, Default)]
pub struct Changes {
    pub came: u64,
    pub evicted: u64,
    pub removed: u64,
}

/// The rows of a kind. Those of a set stand in the order of rank, and behind them places without a
/// row, which keep their slots.
struct Cache {
    kind: RowKind,
    ways: usize,
    lens: Vec<u8>,
    rows: Vec<Row>,
    /// The items of all slots; a slot is given at its first use.
    items: Vec<Item>,
    /// How many rows each class has, the classes that have some, and how many rows are pieces.
    counts: [u16; 64],
    classes: u64,
    pieces: usize,
    changes: Changes,
}

impl Cache {
    /// A cache without rows.
    fn new(kind: RowKind, (sets, ways): Shape) -> Cache {
        Cache {
            kind,
            ways,
            lens: vec![0; sets],
            rows: vec![Row::blank(kind); sets * ways],
            items: Vec::with_capacity(sets * ways * kind.most_items()),
            counts: [0; 64],
            classes: 0,
            pieces: 0,
            changes: Changes::default(),
        }
    }

    /// The number of the set of a region; the number of sets is a power of 2.
    #[inline]
    fn set_of(&self, start: u64) -> usize {
        start as usize & (self.lens.len() - 1)
    }

    /// The rows of a set.
    #[inline]
    fn set(&self, set: usize) -> &[Row] {
        &self.rows[set * self.ways..][..self.lens[set] as usize]
    }

    /// The rows of a set, to be moved.
    fn set_mut(&mut self, set: usize) -> &mut [Row] {
        &mut self.rows[set * self.ways..][..self.lens[set] as usize]
    }

    /// The rows that match an address.
    fn find(&self, key: &Key, address: u64) -> Found<'_> {
        let mut found = Found::Nothing;
        for class in Bits(self.classes) {
            let start = address >> class;
            for row in self.set(self.set_of(start)) {
                if row.matches(class, start, key) {
                    found = found.with(row);
                }
            }
        }
        found
    }

    /// The row of the smallest region that matches an address. No two of a region do, for these
    /// are tables.
    fn deepest(&self, key: &Key, address: u64) -> Option<&Row> {
        Bits(self.classes).find_map(|class| {
            let start = address >> class;
            self.set(self.set_of(start)).iter().find(|row| row.matches(class, start, key))
        })
    }

    /// Where the items of a slot begin.
    fn first_item(&self, slot: u16) -> usize {
        slot as usize * self.kind.most_items()
    }

    /// The items of a row.
    fn items(&self, row: &Row) -> &[Item] {
        &self.items[self.first_item(row.slot)..][..row.len as usize]
    }

    /// A row that served goes last in its set.
    fn touch(&mut self, service: &Service) {
        let rows = self.set_mut(self.set_of(service.start));
        if let Some(way) = rows.iter().position(|row| row.slot == service.slot) {
            rows[way..].rotate_left(1);
        }
    }

    /// Takes a row out of a set.
    fn remove(&mut self, set: usize, way: usize) {
        let rows = self.set_mut(set);
        let row = rows[way];
        rows[way..].rotate_left(1);
        self.lens[set] -= 1;
        self.pieces -= row.is_piece() as usize;
        let count = &mut self.counts[row.class as usize];
        *count -= 1;
        if *count == 0 {
            self.classes &= !(1 << row.class);
        }
    }

    /// Puts a row behind the others of a set, which has room for it.
    fn push(&mut self, set: usize, row: Row, items: &[Item]) {
        let place = set * self.ways + self.lens[set] as usize;
        let slot = self.slot(place);
        let first = self.first_item(slot);
        self.items[first..][..items.len()].copy_from_slice(items);
        self.rows[place] = Row { slot, len: items.len() as u8, ..row };
        self.lens[set] += 1;
        self.pieces += row.is_piece() as usize;
        self.counts[row.class as usize] += 1;
        self.classes |= 1 << row.class;
    }

    /// The slot of a place without a row.
    fn slot(&mut self, place: usize) -> u16 {
        let slot = self.rows[place].slot;
        if slot != NO_SLOT {
            return slot;
        }
        let (used, more) = (self.items.len(), self.kind.most_items());
        self.items.resize(used + more, Item::BLANK);
        (used / more) as u16
    }

    /// Adds a row unless one would serve the same; answers whether another had to leave.
    fn add(&mut self, row: Row, items: &[Item], chooser: &mut Chooser) -> bool {
        let set = self.set_of(row.start);
        if self.set(set).iter().any(|other| other.equals(&row)) {
            return false;
        }
        let is_full = self.lens[set] as usize == self.ways;
        if is_full {
            self.remove(set, chooser.victim(self.ways));
            self.changes.evicted += 1;
        }
        self.push(set, row, items);
        self.changes.came += 1;
        is_full
    }

    /// Takes the rows of a set away that an invalidation covers.
    fn sweep(&mut self, set: usize, invalidation: &Invalidation) {
        for way in (0..self.lens[set] as usize).rev() {
            if self.rows[set * self.ways + way].is_covered(invalidation) {
                self.remove(set, way);
                self.changes.removed += 1;
            }
        }
    }

    /// Takes the rows away that an invalidation covers; `last` is its last address.
    fn kill(&mut self, invalidation: &Invalidation, last: u64) {
        let regions = |class: u32| (invalidation.start >> class, last >> class);
        let (low, high) = regions(self.classes.trailing_zeros());
        if self.pieces == 0 && high - low < self.lens.len() as u64 / 2 {
            // So few regions of the smallest class: only their sets have rows that are covered.
            for class in Bits(self.classes) {
                let (low, high) = regions(class);
                (low..=high).for_each(|start| self.sweep(self.set_of(start), invalidation));
            }
        } else {
            (0..self.lens.len()).for_each(|set| self.sweep(set, invalidation));
        }
    }
}

/// The rows of a core.
pub struct Rows {
    caches: [Cache; 4],
    chooser: Chooser,
}

impl Rows {
    /// The rows of a core before its first access, None where it keeps none.
    pub fn new(size: Size, policy: Policy, core: u8) -> Option<Rows> {
        let shapes = size.shapes()?;
        let caches = RowKind::ALL.map(|kind| Cache::new(kind, shapes[kind as usize]));
        Some(Rows { caches, chooser: Chooser::new(policy, core) })
    }

    /// The leaves of a kind that match an address.
    pub fn leaves(&self, kind: RowKind, key: &Key, address: u64) -> Found<'_> {
        self.caches[kind as usize].find(key, address)
    }

    /// The table of a kind with the smallest region that matches an address.
    pub fn table(&self, kind: RowKind, key: &Key, address: u64) -> Option<&Row> {
        self.caches[kind as usize].deepest(key, address)
    }

    /// The items of a row.
    pub fn items(&self, row: &Row) -> &[Item] {
        self.caches[row.kind as usize].items(row)
    }

    /// What became of the rows of each kind until now.
    pub fn changes(&self) -> impl Iterator<Item = (RowKind, Changes)> + '_ {
        self.caches.iter().map(|cache| (cache.kind, cache.changes))
    }

    /// The step of an access ends: under `lru` the rows that served go last, and then rows are
    /// made. Answers how many rows had to leave.
    pub fn fill(&mut self, met: &Met, trail: &Trail, key: &Key, moment: u32) -> u32 {
        if self.chooser.policy == Policy::Lru {
            for service in &met.served {
                self.caches[service.kind as usize].touch(service);
            }
        }
        let mut evicted = 0;
        for (order, new) in (0..).zip(&met.made) {
            let row = Row::of(new, key, (moment as u64) << 8 | order);
            let items = &trail.items()[new.from..new.to];
            let cache = &mut self.caches[new.kind as usize];
            evicted += cache.add(row, items, &mut self.chooser) as u32;
        }
        evicted
    }

    /// An invalidation takes effect.
    pub fn kill(&mut self, invalidation: &Invalidation) {
        let Some(last) = invalidation.last() else {
            return;
        };
        for cache in &mut self.caches {
            if cache.classes != 0 && invalidation.op.reaches(cache.kind) {
                cache.kill(invalidation, last);
            }
        }
    }
}
