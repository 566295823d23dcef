//! Access rights, memory types and shareability: as each stage gives them, and both together.

/// The exception level of an access.
#[derive(Clone, Copy, PartialEq, Eq)]
pub enum El {
    El0,
    El1,
}

/// What an access does.
#[derive(Clone, Copy, PartialEq, Eq)]
pub enum Kind {
    Read,
    Write,
    Fetch,
}

/// A set of rights: bits 0 to 2 are read, write and fetch of EL0, bits 3 to 5 those of EL1.
#[derive(Clone, Copy)]
pub struct Perms(u8);

/// The bits of a stage 1 leaf that bear on rights.
#[derive(Clone, Copy)]
pub struct LeafBits {
    pub user: bool,
    pub read_only: bool,
    pub pxn: bool,
    pub uxn: bool,
}

/// The joined APTable, PXNTable and UXNTable of the tables above a descriptor: bits 59 to 62 where
/// they stand in a word.
#[derive(Clone, Copy, Default)]
pub struct TableBits(u64);

impl TableBits {
    /// PXNTable, UXNTable, and the two bits of APTable.
    const PXN: u64 = 1 << 59;
    const UXN: u64 = 1 << 60;
    const NO_EL0: u64 = 1 << 61;
    const READ_ONLY: u64 = 1 << 62;

    /// Joins the bits of one table descriptor more.
    pub fn join(self, word: u64) -> TableBits {
        TableBits(self.0 | word)
    }

    /// Whether a table above sets a bit.
    fn has(self, bit: u64) -> bool {
        self.0 & bit != 0
    }

    /// Whether a table above forbids fetches at EL0.
    pub fn uxn(self) -> bool {
        self.has(TableBits::UXN)
    }
}

impl Perms {
    /// All rights, as stage 1 gives them while it is off.
    pub const ALL: Perms = Perms(0x3f);

    /// The set of rights to read, write and fetch of both exception levels.
    fn new(el0: [bool; 3], el1: [bool; 3]) -> Perms {
        let bits = |r: [bool; 3]| r[0] as u8 | (r[1] as u8) << 1 | (r[2] as u8) << 2;
        Perms(bits(el0) | bits(el1) << 3)
    }

    /// The rights of a stage 1 leaf under its tables.
    pub fn stage1(leaf: LeafBits, tables: TableBits, wxn: bool) -> Perms {
        let writable = !(tables.has(TableBits::READ_ONLY) | leaf.read_only);
        let user = leaf.user & !tables.has(TableBits::NO_EL0);
        let user_writes = user & writable;
        let user_fetches = !(leaf.uxn | tables.uxn()) & !(wxn & user_writes);
        let pxn = leaf.pxn | tables.has(TableBits::PXN);
        let fetches = !pxn & !user_writes & !(wxn & writable);
        Perms::new([user, user_writes, user_fetches], [true, writable, fetches])
    }

    /// The rights of a stage 2 leaf, by S2AP and XN.
    pub fn stage2(read: bool, write: bool, xn: u64) -> Perms {
        Perms::new([read, write, read & (xn < 2)], [read, write, read & (xn == 0 || xn == 3)])
    }

    /// The rights that both sets have.
    pub fn both(self, other: Perms) -> Perms {
        Perms(self.0 & other.0)
    }

    /// Whether the set has the right that an access needs.
    pub fn allows(self, el: El, kind: Kind) -> bool {
        self.0 >> (3 * el as u32 + kind as u32) & 1 == 1
    }

    /// The letters of an exception level's rights.
    pub fn letters(self, el: El) -> [u8; 3] {
        let letter = |kind, name| if self.allows(el, kind) { name } else { b'-' };
        [letter(Kind::Read, b'r'), letter(Kind::Write, b'w'), letter(Kind::Fetch, b'x')]
    }
}

/// How Normal memory is cached at one level.
#[derive(Clone, Copy, PartialEq, Eq)]
pub enum Policy {
    NonCacheable,
    WriteThrough,
    WriteBack,
}

/// A cacheability with its allocation hints.
#[derive(Clone, Copy, PartialEq, Eq)]
pub struct Cache {
    pub policy: Policy,
    pub transient: bool,
    pub read: bool,
    pub write: bool,
}

/// The kinds of Device memory, the strongest first.
#[derive(Clone, Copy, PartialEq, Eq, PartialOrd, Ord)]
pub enum Device {
    NGnRnE,
    NGnRE,
    NGRE,
    GRE,
}

/// A memory type.
#[derive(Clone, Copy)]
pub enum MemType {
    Device(Device),
    Normal { outer: Cache, inner: Cache, tagged: bool },
}

/// Shareability, the widest last.
#[derive(Clone, Copy, PartialEq, Eq, PartialOrd, Ord)]
pub enum Share {
    Nsh,
    Ish,
    Osh,
}

/// What a stage gives of a place besides its address.
#[derive(Clone, Copy)]
pub struct Attrs {
    pub perms: Perms,
    pub mem: MemType,
    pub share: Share,
}

impl Cache {
    /// Non-cacheable.
    const NONE: Cache = Cache::plain(Policy::NonCacheable);

    /// A cacheability without hints.
    const fn plain(policy: Policy) -> Cache {
        Cache { policy, transient: false, read: false, write: false }
    }

    /// The cacheability of a half of a byte of MAIR_EL1, None for the reserved 0000.
    fn of_mair(code: u8) -> Option<Cache> {
        let policy = match code {
            0 => return None,
            4 => return Some(Cache::NONE),
            1..=3 | 8..=11 => Policy::WriteThrough,
            _ => Policy::WriteBack,
        };
        Some(Cache { policy, transient: code < 8, read: code & 2 != 0, write: code & 1 != 0 })
    }

    /// The cacheability of two bits of a stage 2 MemAttr.
    fn of_stage2(code: u64) -> Cache {
        Cache::plain(match code {
            3 => Policy::WriteBack,
            2 => Policy::WriteThrough,
            _ => Policy::NonCacheable,
        })
    }

    /// The weaker of this one of stage 1 and one of stage 2, with the hints of stage 1.
    fn weaker(self, other: Cache) -> Cache {
        match (self.policy, other.policy) {
            (Policy::NonCacheable, _) | (_, Policy::NonCacheable) => Cache::NONE,
            (_, Policy::WriteThrough) => Cache { policy: Policy::WriteThrough, ..self },
            (_, Policy::WriteBack) => self,
        }
    }
}

impl Device {
    /// The kind that two bits name.
    fn of(code: u64) -> Device {
        match code {
            0 => Device::NGnRnE,
            1 => Device::NGnRE,
            2 => Device::NGRE,
            _ => Device::GRE,
        }
    }
}

impl MemType {
    /// The memory type of a byte of MAIR_EL1.
    pub fn of_mair(byte: u8) -> MemType {
        if byte & 0xf3 == 0 {
            return MemType::Device(Device::of((byte >> 2) as u64));
        }
        if byte == 0xf0 {
            let cache =
                Cache { policy: Policy::WriteBack, transient: false, read: true, write: true };
            return MemType::Normal { outer: cache, inner: cache, tagged: true };
        }
        match (Cache::of_mair(byte >> 4), Cache::of_mair(byte & 15)) {
            (Some(outer), Some(inner)) => MemType::Normal { outer, inner, tagged: false },
            _ => MemType::Device(Device::NGnRnE),
        }
    }

    /// The memory type of a stage 2 MemAttr.
    pub fn of_stage2(code: u64) -> MemType {
        if code < 4 {
            return MemType::Device(Device::of(code));
        }
        MemType::Normal {
            outer: Cache::of_stage2(code >> 2),
            inner: Cache::of_stage2(code & 3),
            tagged: false,
        }
    }

    /// Whether it is Device memory.
    pub fn is_device(self) -> bool {
        matches!(self, MemType::Device(_))
    }

    /// The memory type of this one of stage 1 and one of stage 2 together.
    fn combine(self, other: MemType) -> MemType {
        match (self, other) {
            (MemType::Device(a), MemType::Device(b)) => MemType::Device(a.min(b)),
            (MemType::Device(kind), _) | (_, MemType::Device(kind)) => MemType::Device(kind),
            (
                MemType::Normal { outer, inner, tagged },
                MemType::Normal { outer: outer2, inner: inner2, .. },
            ) => {
                let (outer, inner) = (outer.weaker(outer2), inner.weaker(inner2));
                let cached = outer.policy == Policy::WriteBack && inner.policy == Policy::WriteBack;
                MemType::Normal { outer, inner, tagged: tagged & cached }
            }
        }
    }

    /// Device and wholly Non-cacheable memory is Outer Shareable.
    fn raise(self, share: Share) -> Share {
        match self {
            MemType::Normal { outer, inner, .. }
                if outer.policy != Policy::NonCacheable || inner.policy != Policy::NonCacheable =>
            {
                share
            }
            _ => Share::Osh,
        }
    }
}

impl Share {
    /// The shareability of SH.
    pub fn of(code: u64) -> Share {
        match code {
            2 => Share::Osh,
            3 => Share::Ish,
            _ => Share::Nsh,
        }
    }
}

impl Attrs {
    /// What stage 1 gives while it is off; `cached` is SCTLR_EL1.I.
    pub fn mmu_off(kind: Kind, cached: bool) -> Attrs {
        let through =
            Cache { policy: Policy::WriteThrough, transient: false, read: true, write: false };
        let mem = match (kind, cached) {
            (Kind::Fetch, true) => {
                MemType::Normal { outer: through, inner: through, tagged: false }
            }
            (Kind::Fetch, false) => {
                MemType::Normal { outer: Cache::NONE, inner: Cache::NONE, tagged: false }
            }
            _ => MemType::Device(Device::NGnRnE),
        };
        Attrs { perms: Perms::ALL, mem, share: Share::Osh }
    }

    /// What stage 1 gives without a stage 2.
    pub fn alone(self) -> Attrs {
        Attrs { share: self.mem.raise(self.share), ..self }
    }

    /// What both stages give together; `self` is that of stage 1.
    pub fn combine(self, other: Attrs) -> Attrs {
        let mem = self.mem.combine(other.mem);
        let share = mem.raise(self.share.max(other.share));
        Attrs { perms: self.perms.both(other.perms), mem, share }
    }
}
