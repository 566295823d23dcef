//! System registers, and what a walk needs of them.

use crate::attrs::MemType;
use crate::rows::{Config, Key};

/// A register that steers translation.
#[derive(Clone, Copy, PartialEq, Eq)]
pub enum Reg {
    Sctlr,
    Tcr,
    Ttbr0,
    Ttbr1,
    Mair,
    Hcr,
    Vtcr,
    Vttbr,
}

/// Bits `hi` to `lo` of a word.
#[inline]
pub fn field(word: u64, hi: u32, lo: u32) -> u64 {
    word >> lo & (u64::MAX >> (63 - (hi - lo)))
}

/// One bit of a word.
#[inline]
pub fn flag(word: u64, bit: u32) -> bool {
    word >> bit & 1 == 1
}

impl Reg {
    /// The register of this name.
    pub fn named(name: &[u8]) -> Option<Reg> {
        Some(match name {
            b"SCTLR_EL1" => Reg::Sctlr,
            b"TCR_EL1" => Reg::Tcr,
            b"TTBR0_EL1" => Reg::Ttbr0,
            b"TTBR1_EL1" => Reg::Ttbr1,
            b"MAIR_EL1" => Reg::Mair,
            b"HCR_EL2" => Reg::Hcr,
            b"VTCR_EL2" => Reg::Vtcr,
            b"VTTBR_EL2" => Reg::Vttbr,
            _ => return None,
        })
    }

    /// The lowest field that a value sets and that a run does not support, with the register's
    /// name.
    pub fn unsupported(self, value: u64) -> Option<&'static str> {
        let refused: &[(u32, &'static str)] = match self {
            Reg::Sctlr => &[(25, "SCTLR_EL1.EE")],
            Reg::Tcr => &[(39, "TCR_EL1.HA"), (40, "TCR_EL1.HD"), (59, "TCR_EL1.DS")],
            Reg::Hcr => &[
                (12, "HCR_EL2.DC"),
                (27, "HCR_EL2.TGE"),
                (32, "HCR_EL2.CD"),
                (33, "HCR_EL2.ID"),
                (46, "HCR_EL2.FWB"),
            ],
            Reg::Vtcr => &[(21, "VTCR_EL2.HA"), (22, "VTCR_EL2.HD"), (32, "VTCR_EL2.DS")],
            _ => &[],
        };
        refused.iter().find(|(bit, _)| flag(value, *bit)).map(|(_, name)| *name)
    }
}

/// The values of all registers.
#[derive(Clone, Default)]
pub struct Regs([u64; 8]);

/// One level of a stage's tables.
#[derive(Clone, Copy)]
pub struct Level {
    /// How many input bits an entry leaves.
    pub class: u32,
    /// As many, or those that a run of entries with the Contiguous bit leaves.
    pub run: u32,
    /// The numbers of a table's entries.
    pub indices: u64,
    /// The bits below 2^48 of the address in a leaf.
    pub leaf: u64,
    /// Whether the level has blocks, and whether it has tables.
    pub has_blocks: bool,
    pub has_tables: bool,
}

/// The tables of one side of stage 1, or those of stage 2.
#[derive(Clone, Copy)]
pub struct Tables {
    /// The input size in bits.
    pub input: u32,
    /// The bits of an address that the output size leaves out.
    pub too_large: u64,
    /// The bits below 2^48 of the address in a table descriptor.
    pub table: u64,
    /// The bits of a descriptor that are bits 51 to 48 of its address.
    pub high: u64,
    /// The start table's level and address.
    pub start: u8,
    pub base: u64,
    /// All levels; those above the start are not used.
    pub levels: [Level; 4],
}

/// One half of the virtual addresses.
#[derive(Clone, Copy)]
pub struct Side {
    /// None where TxSZ is out of range, or EPD forbids walks.
    pub tables: Option<Tables>,
    /// E0PD, which forbids walks for EL0.
    pub e0pd: bool,
    /// The highest bit of an address that is no tag, by TBI: of a read or write, and of a fetch.
    pub top: u32,
    pub top_of_fetch: u32,
    /// What counts of the bits of table descriptors: none with HPD.
    pub table_mask: u64,
}

/// Stage 2 while it is on.
#[derive(Clone, Copy)]
pub struct Stage2 {
    /// None where the sizes are out of range or don't suit each other.
    pub tables: Option<Tables>,
    /// HCR_EL2.PTW.
    pub ptw: bool,
}

impl Side {
    /// The base of the start table.
    pub fn base(&self) -> Option<u64> {
        self.tables.as_ref().map(|tables| tables.base)
    }
}

impl Stage2 {
    /// The base of the start table.
    pub fn base(&self) -> Option<u64> {
        self.tables.as_ref().map(|tables| tables.base)
    }
}

/// All that a walk needs of the registers. A run has no hardware updates: no register has HA or HD.
pub struct Context {
    /// SCTLR_EL1.M, I, WXN and EPAN.
    pub mmu_on: bool,
    pub icache: bool,
    pub wxn: bool,
    pub epan: bool,
    /// The memory types of MAIR_EL1.
    pub mair: [MemType; 8],
    /// The low half of the addresses, then the high one.
    pub sides: [Side; 2],
    /// There while stage 2 is on.
    pub stage2: Option<Stage2>,
    /// The ASID and the VMID in force, and the fields that rows depend on.
    pub key: Key,
}

/// M, I, WXN and EPAN of SCTLR_EL1; VM and PTW of HCR_EL2, which stand beside them one bit higher.
const SCTLR_FIELDS: u64 = 1 | 1 << 12 | 1 << 19 | 1 << 57;
const HCR_FIELDS: u64 = 1 | 1 << 2;

/// Of TCR_EL1 TxSZ, EPD, SH and TG of both sides, IPS, TBI, HPD, TBID and E0PD; of VTCR_EL2 T2SZ,
/// SL0, TG0, PS and SL2.
const TCR_FIELDS: u64 = 0xf0bf_f0bf | 7 << 32 | 3 << 37 | 3 << 41 | 3 << 51 | 3 << 55;
const VTCR_FIELDS: u64 = 0xff | 3 << 14 | 7 << 16 | 1 << 33;

/// The granule of TG0.
fn granule0(code: u64) -> u32 {
    match code {
        1 => 16,
        2 => 14,
        _ => 12,
    }
}

/// The granule of TG1.
fn granule1(code: u64) -> u32 {
    match code {
        1 => 14,
        3 => 16,
        _ => 12,
    }
}

/// The output size that IPS or PS names.
fn output_size(granule: u32, code: u64) -> u32 {
    let named = [32, 36, 40, 42, 44, 48, 52, 52][code as usize & 7];
    if granule == 16 {
        named
    } else {
        named.min(48)
    }
}

/// The class of a run of entries with the Contiguous bit, None where a level has no run.
fn run_class(granule: u32, level: u32) -> Option<u32> {
    Some(match (granule, level) {
        (12, 1) => 34,
        (12, 2) => 25,
        (12, 3) => 16,
        (14, 2) => 30,
        (14, 3) => 21,
        (16, 2) => 34,
        (16, 3) => 21,
        _ => return None,
    })
}

/// How many input bits an entry of a level leaves.
fn class(granule: u32, level: u32) -> u32 {
    granule + (3 - level) * (granule - 3)
}

/// The bits from `low` up to 2^48.
fn bits_from(low: u32) -> u64 {
    ((1 << 48) - 1) & (u64::MAX << low)
}

/// Whether TxSZ is in range.
fn is_size(granule: u32, txsz: u32) -> bool {
    if granule == 16 {
        (12..=47).contains(&txsz)
    } else {
        (16..=48).contains(&txsz)
    }
}

/// An ASID or VMID in bits 63 to 48.
fn id(word: u64, wide: bool) -> u16 {
    (word >> 48) as u16 & if wide { 0xffff } else { 0xff }
}

impl Level {
    /// A level of tables of a granule and an input size, whose start level is another one or this.
    fn new(granule: u32, input: u32, start: u32, level: u32) -> Level {
        let class = class(granule, level);
        let bits = if level == start { input - class } else { granule - 3 };
        let run = run_class(granule, level).filter(|run| *run <= input);
        Level {
            class,
            run: run.unwrap_or(class),
            indices: (1 << bits) - 1,
            leaf: bits_from(class),
            has_blocks: level == 2 || (level == 1 && granule != 14),
            has_tables: level < 3,
        }
    }
}

impl Tables {
    /// Tables from a start level on, by the raw code of the output size and the register that
    /// holds the base.
    fn new(granule: u32, input: u32, start: u32, ps: u64, ttbr: u64) -> Tables {
        let base = if granule == 16 && ps >= 6 {
            field(ttbr, 5, 2) << 48 | field(ttbr, 47, 6) << 6
        } else {
            field(ttbr, 47, 1) << 1
        };
        let size = 3 + input - class(granule, start);
        Tables {
            input,
            too_large: u64::MAX << output_size(granule, ps),
            table: bits_from(granule),
            high: if granule == 16 { 0xf000 } else { 0 },
            start: start as u8,
            base: base >> size << size,
            levels: [0, 1, 2, 3].map(|level| Level::new(granule, input, start, level)),
        }
    }

    /// The tables of stage 1, None where TxSZ is out of range.
    fn stage1(granule: u32, txsz: u32, ips: u64, ttbr: u64) -> Option<Tables> {
        if !is_size(granule, txsz) {
            return None;
        }
        let input = 64 - txsz;
        let start = 3 - (input - 1 - granule) / (granule - 3);
        Some(Tables::new(granule, input, start, ips, ttbr))
    }

    /// The tables of stage 2, None where its sizes are refused.
    fn stage2(vtcr: u64, vttbr: u64) -> Option<Tables> {
        let (granule, t2sz) = (granule0(field(vtcr, 15, 14)), field(vtcr, 5, 0) as u32);
        let start = match (granule, field(vtcr, 7, 6) as u32) {
            (12, 3) => 3,
            (_, 3) => return None,
            (12, sl0) => 2 - sl0,
            (_, sl0) => 3 - sl0,
        };
        let input = 64 - t2sz;
        let least = class(granule, start) + 1;
        let suits = is_size(granule, t2sz) && input >= least && input <= least + granule;
        suits.then(|| Tables::new(granule, input, start, field(vtcr, 18, 16), vttbr))
    }
}

impl Regs {
    /// The value of a register.
    pub fn get(&self, reg: Reg) -> u64 {
        self.0[reg as usize]
    }

    /// Changes a register.
    pub fn set(&mut self, reg: Reg, value: u64) {
        self.0[reg as usize] = value;
    }

    /// Whether ASIDs have 16 bits.
    pub fn wide_asid(&self) -> bool {
        flag(self.get(Reg::Tcr), 36)
    }

    /// The VMID in force.
    pub fn vmid(&self) -> u16 {
        id(self.get(Reg::Vttbr), flag(self.get(Reg::Vtcr), 19))
    }

    /// The ASID in force.
    fn asid(&self) -> u16 {
        let ttbr = if flag(self.get(Reg::Tcr), 22) { Reg::Ttbr1 } else { Reg::Ttbr0 };
        id(self.get(ttbr), self.wide_asid())
    }

    /// The low half of the addresses.
    fn low(&self) -> Side {
        let tcr = self.get(Reg::Tcr);
        let granule = granule0(field(tcr, 15, 14));
        self.side(granule, field(tcr, 5, 0), Reg::Ttbr0, [7, 37, 51, 55, 41])
    }

    /// The high half of the addresses.
    fn high(&self) -> Side {
        let tcr = self.get(Reg::Tcr);
        let granule = granule1(field(tcr, 31, 30));
        self.side(granule, field(tcr, 21, 16), Reg::Ttbr1, [23, 38, 52, 56, 42])
    }

    /// A half of the addresses; the bits are those of EPD, TBI, TBID, E0PD and HPD.
    fn side(&self, granule: u32, txsz: u64, ttbr: Reg, bits: [u32; 5]) -> Side {
        let tcr = self.get(Reg::Tcr);
        let [epd, tbi, tbid, e0pd, hpd] = bits.map(|bit| flag(tcr, bit));
        let tables = Tables::stage1(granule, txsz as u32, field(tcr, 34, 32), self.get(ttbr));
        let top = |is_tagged| if is_tagged { 55 } else { 63 };
        Side {
            tables: tables.filter(|_| !epd),
            e0pd,
            top: top(tbi),
            top_of_fetch: top(tbi && !tbid),
            table_mask: if hpd { 0 } else { 0xf << 59 },
        }
    }

    /// Stage 2, None while it is off.
    fn stage2(&self) -> Option<Stage2> {
        let hcr = self.get(Reg::Hcr);
        flag(hcr, 0).then(|| Stage2 {
            tables: Tables::stage2(self.get(Reg::Vtcr), self.get(Reg::Vttbr)),
            ptw: flag(hcr, 2),
        })
    }

    /// What a walk needs of them.
    pub fn context(&self) -> Context {
        let sctlr = self.get(Reg::Sctlr);
        Context {
            mmu_on: flag(sctlr, 0),
            icache: flag(sctlr, 12),
            wxn: flag(sctlr, 19),
            epan: flag(sctlr, 57),
            mair: self.get(Reg::Mair).to_le_bytes().map(MemType::of_mair),
            sides: [self.low(), self.high()],
            stage2: self.stage2(),
            key: Key { config: self.config(), asid: self.asid(), vmid: self.vmid() },
        }
    }

    /// The fields that rows depend on. Reserved codes of a granule are read as 4 KB.
    fn config(&self) -> Config {
        let mut tcr = self.get(Reg::Tcr) & TCR_FIELDS;
        let mut vtcr = self.get(Reg::Vtcr) & VTCR_FIELDS;
        if field(tcr, 15, 14) == 3 {
            tcr &= !(3 << 14);
        }
        if field(tcr, 31, 30) == 0 {
            tcr |= 2 << 30;
        }
        if field(vtcr, 15, 14) == 3 {
            vtcr &= !(3 << 14);
        }
        let switches = self.get(Reg::Sctlr) & SCTLR_FIELDS | (self.get(Reg::Hcr) & HCR_FIELDS) << 1;
        [self.get(Reg::Mair), tcr, vtcr, switches]
    }
}
