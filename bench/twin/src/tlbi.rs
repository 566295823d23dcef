//! Invalidations: the operations of TLBI and what their operands name.

use crate::regs::{field, flag, Reg, Regs};
use crate::rows::RowKind;

/// An operation of TLBI without its broadcast.
#[derive(Clone, Copy, PartialEq, Eq)]
pub enum Op {
    Vmalle1,
    Vae1,
    Vaae1,
    Vale1,
    Vaale1,
    Aside1,
    Ipas2e1,
    Ipas2le1,
    Vmalls12e1,
    Alle1,
    Rvae1,
    Rvaae1,
    Rvale1,
    Rvaale1,
    Ripas2e1,
    Ripas2le1,
}

/// A TLBI as a core issues it; `operand` is 0 where the operation has none.
pub struct Operation {
    pub op: Op,
    pub shared: bool,
    pub at_el1: bool,
    pub operand: u64,
}

impl Op {
    /// The operation of this name, and whether it is the IS form.
    pub fn named(name: &[u8]) -> Option<(Op, bool)> {
        let (local, shared) = match name.strip_suffix(b"IS") {
            Some(local) => (local, true),
            None => (name, false),
        };
        let op = match local {
            b"VMALLE1" => Op::Vmalle1,
            b"VAE1" => Op::Vae1,
            b"VAAE1" => Op::Vaae1,
            b"VALE1" => Op::Vale1,
            b"VAALE1" => Op::Vaale1,
            b"ASIDE1" => Op::Aside1,
            b"IPAS2E1" => Op::Ipas2e1,
            b"IPAS2LE1" => Op::Ipas2le1,
            b"VMALLS12E1" => Op::Vmalls12e1,
            b"ALLE1" => Op::Alle1,
            b"RVAE1" => Op::Rvae1,
            b"RVAAE1" => Op::Rvaae1,
            b"RVALE1" => Op::Rvale1,
            b"RVAALE1" => Op::Rvaale1,
            b"RIPAS2E1" => Op::Ripas2e1,
            b"RIPAS2LE1" => Op::Ripas2le1,
            _ => return None,
        };
        Some((op, shared))
    }

    /// Whether the operation has an operand.
    pub fn has_operand(self) -> bool {
        !matches!(self, Op::Vmalle1 | Op::Vmalls12e1 | Op::Alle1)
    }

    /// Whether EL2 alone issues it.
    pub fn needs_el2(self) -> bool {
        use Op::{Alle1, Ipas2e1, Ipas2le1, Ripas2e1, Ripas2le1, Vmalls12e1};
        matches!(self, Ipas2e1 | Ipas2le1 | Vmalls12e1 | Alle1 | Ripas2e1 | Ripas2le1)
    }

    /// Whether its operand names an ASID.
    fn names_asid(self) -> bool {
        matches!(self, Op::Vae1 | Op::Vale1 | Op::Rvae1 | Op::Rvale1 | Op::Aside1)
    }

    /// Whether it spares tables.
    fn is_last_level(self) -> bool {
        use Op::{Ipas2le1, Ripas2le1, Rvaale1, Rvale1, Vaale1, Vale1};
        matches!(self, Vale1 | Vaale1 | Rvale1 | Rvaale1 | Ipas2le1 | Ripas2le1)
    }

    /// Whether it may cover rows of a kind.
    pub fn reaches(self, kind: RowKind) -> bool {
        use Op::{Alle1, Ipas2e1, Ipas2le1, Ripas2e1, Ripas2le1, Vmalls12e1};
        let is_of_stage = match self {
            Vmalls12e1 | Alle1 => true,
            Ipas2e1 | Ipas2le1 | Ripas2e1 | Ripas2le1 => !kind.is_stage1(),
            _ => kind.is_stage1(),
        };
        is_of_stage && !(kind.is_table() && self.is_last_level())
    }

    /// Whether its operand names a range.
    fn names_range(self) -> bool {
        self.names_va_range() || matches!(self, Op::Ripas2e1 | Op::Ripas2le1)
    }

    /// Whether its operand names a range of virtual addresses.
    fn names_va_range(self) -> bool {
        matches!(self, Op::Rvae1 | Op::Rvaae1 | Op::Rvale1 | Op::Rvaale1)
    }

    /// The start and the length of what its operand names.
    fn range(self, operand: u64) -> (u64, u64) {
        match self {
            Op::Vmalle1 | Op::Aside1 | Op::Vmalls12e1 | Op::Alle1 => (0, END_VA),
            Op::Vae1 | Op::Vaae1 | Op::Vale1 | Op::Vaale1 => (field(operand, 43, 0) << 12, 4096),
            Op::Ipas2e1 | Op::Ipas2le1 => (field(operand, 39, 0) << 12, 4096),
            _ if self.names_va_range() => range(operand, END_VA, true),
            _ => range(operand, END_IPA, false),
        }
    }
}

/// What a TLBI gives; `start` and `count` are bytes of address space.
#[derive(Clone, Copy)]
pub struct Invalidation {
    pub start: u64,
    pub count: u64,
    pub granule: Option<u32>,
    pub asid: u16,
    pub vmid: u16,
    pub op: Op,
    pub issuer: u8,
    pub broadcast: bool,
}

/// Where virtual addresses and IPAs end.
const END_VA: u64 = 1 << 56;
const END_IPA: u64 = 1 << 52;

/// The granule of a range's TG, None for the reserved code.
fn granule(operand: u64) -> Option<u32> {
    match field(operand, 47, 46) {
        0 => None,
        tg => Some(10 + 2 * tg as u32),
    }
}

/// The start and the length of a range of an address space of this size; the start is extended
/// where it is signed.
fn range(operand: u64, end: u64, signed: bool) -> (u64, u64) {
    let Some(granule) = granule(operand) else {
        return (0, 0);
    };
    let mut start = field(operand, 36, 0) << granule;
    if signed && flag(operand, 36) {
        start += end - (1 << (37 + granule));
    }
    let granules = (field(operand, 43, 39) + 1) << (5 * field(operand, 45, 44) + 1);
    (start, (granules << granule).min(end.saturating_sub(start)))
}

impl Invalidation {
    /// What a TLBI of a core gives, by its registers in force.
    pub fn new(operation: &Operation, regs: &Regs, issuer: u8) -> Invalidation {
        let &Operation { op, shared, at_el1, operand } = operation;
        let (start, count) = op.range(operand);
        let asid_mask = if regs.wide_asid() { 0xffff } else { 0xff };
        let forced = at_el1 && flag(regs.get(Reg::Hcr), 9) && !op.needs_el2();
        Invalidation {
            start,
            count,
            granule: if op.names_range() { granule(operand) } else { None },
            asid: if op.names_asid() { (operand >> 48) as u16 & asid_mask } else { 0 },
            vmid: regs.vmid(),
            op,
            issuer,
            broadcast: shared || forced,
        }
    }

    /// Whether it covers rows of a VMID.
    pub fn takes_vmid(&self, vmid: u16) -> bool {
        self.op == Op::Alle1 || self.vmid == vmid
    }

    /// Whether it covers rows of an ASID, or of a global leaf.
    pub fn takes_asid(&self, asid: u16, is_global: bool) -> bool {
        if self.op == Op::Aside1 {
            return !is_global && self.asid == asid;
        }
        !self.op.names_asid() || is_global || self.asid == asid
    }

    /// Whether it covers rows of tables of a granule.
    pub fn takes_granule(&self, granule: u32) -> bool {
        self.granule.is_none_or(|named| named == granule)
    }

    /// The last address that it names, None where it names none.
    pub fn last(&self) -> Option<u64> {
        (self.count > 0).then(|| self.start + (self.count - 1))
    }

    /// Whether it has an address in common with a region, which ends before `end`.
    pub fn meets(&self, start: u64, end: u64) -> bool {
        start < self.start + self.count && self.start < end && self.count > 0
    }
}
