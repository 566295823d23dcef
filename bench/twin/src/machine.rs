//! The machine: cores that act on one memory.

use crate::memory::Memory;
use crate::parse::Trace;
use crate::regs::{flag, Context, Reg, Regs};
use crate::rows::{Key, Met, Rows};
use crate::tlbi::{Invalidation, Operation};
use crate::walk::{Access, Class, Item, Outcome, Stage, Trail, Walk, What};
use std::collections::VecDeque;

/// The most register writes, and the most invalidations, that wait for a core.
const MOST_WAITING: usize = 64;

/// Which accesses a DSB waits for.
#[derive(Clone, Copy, PartialEq, Eq)]
pub enum Barrier {
    Nsh,
    Ish,
    Sy,
}

/// What a core does in one step of a trace.
pub enum Action {
    Store { pa: u64, value: u64 },
    Msr { reg: Reg, value: u64 },
    Settle,
    Isb,
    Tlbi(Operation),
    Dsb(Barrier),
    Deliver,
    Access(Access),
    Prefetch(Access),
}

/// One step of a trace.
pub struct Event {
    pub core: u8,
    pub action: Action,
}

/// How an access or a prefetch came out, under the ASID and VMID of its moment.
pub struct Answer<'a> {
    pub moment: u32,
    pub core: u8,
    pub access: &'a Access,
    pub is_prefetch: bool,
    pub asid: u16,
    pub vmid: u16,
    pub trail: &'a Trail,
    /// What it met, with the other trail of a conflict.
    pub met: &'a Met,
    pub outcome: Outcome,
    pub marks: Marks,
}

/// What rows did in a step: whether an item is of an earlier moment, whether one is not what memory
/// or a register has now, and how many rows had to leave.
#[derive(Clone, Copy, Default)]
pub struct Marks {
    pub old: bool,
    pub stale: bool,
    pub evicted: u32,
}

/// A core: its registers, the writes that wait, and its inbox of invalidations, each with the
/// oldest first; and its rows, None where it keeps none.
pub struct Core {
    regs: Regs,
    context: Context,
    pub rows: Option<Rows>,
    /// Whether `context` is that of the registers in force.
    is_current: bool,
    queue: VecDeque<(Reg, u64)>,
    inbox: VecDeque<Invalidation>,
    /// How often one more came while so many waited.
    pub full_queues: u64,
    pub full_inboxes: u64,
}

impl Core {
    /// A core whose registers are all 0.
    fn new(rows: Option<Rows>) -> Core {
        let regs = Regs::default();
        Core {
            context: regs.context(),
            regs,
            rows,
            is_current: true,
            queue: VecDeque::with_capacity(MOST_WAITING),
            inbox: VecDeque::with_capacity(MOST_WAITING),
            full_queues: 0,
            full_inboxes: 0,
        }
    }

    /// The oldest register write takes effect; answers whether there was one.
    fn settle(&mut self) -> bool {
        let Some((reg, value)) = self.queue.pop_front() else {
            return false;
        };
        self.regs.set(reg, value);
        self.is_current = false;
        true
    }

    /// A register write waits behind the others.
    fn msr(&mut self, reg: Reg, value: u64) {
        if self.queue.len() == MOST_WAITING {
            self.full_queues += 1;
            self.settle();
        }
        self.queue.push_back((reg, value));
    }

    /// All register writes take effect.
    fn isb(&mut self) {
        while self.settle() {}
    }

    /// The oldest invalidation takes effect.
    fn deliver(&mut self) {
        if let (Some(oldest), Some(rows)) = (self.inbox.front(), &mut self.rows) {
            rows.kill(oldest);
        }
        self.inbox.pop_front();
    }

    /// An invalidation comes in.
    fn post(&mut self, invalidation: Invalidation) {
        if self.inbox.len() == MOST_WAITING {
            self.full_inboxes += 1;
            self.deliver();
        }
        self.inbox.push_back(invalidation);
    }

    /// The invalidations that a DSB of a core completes take effect.
    fn finish(&mut self, core: u8, barrier: Barrier) {
        self.inbox.retain(|invalidation| {
            let is_awaited = barrier != Barrier::Nsh || !invalidation.broadcast;
            let is_left = invalidation.issuer != core || !is_awaited;
            if let (false, Some(rows)) = (is_left, &mut self.rows) {
                rows.kill(invalidation);
            }
            is_left
        });
    }

    /// Works out what a walk needs of the registers in force, where one of them has changed.
    #[inline]
    fn refresh(&mut self) {
        if !self.is_current {
            self.context = self.regs.context();
            self.is_current = true;
        }
    }
}

/// The cores and the memory, and what each access uses again.
pub struct Machine {
    memory: Memory,
    pub cores: Vec<Core>,
    trail: Trail,
    met: Met,
}

/// Whether an item is not what memory or a register has now. The fields that rows depend on are
/// those of its reading.
fn is_stale(item: &Item, context: &Context, high: bool, memory: &Memory) -> bool {
    let now = match (item.what, item.stage) {
        (What::Word, _) => memory.load(item.pa),
        (What::Base, Stage::S1) => context.sides[high as usize].base(),
        (What::Base, Stage::S2) => context.stage2.as_ref().and_then(|stage2| stage2.base()),
    };
    now != Some(item.value)
}

impl Machine {
    /// The machine of a trace before its first event.
    fn new(trace: &Trace) -> Machine {
        let core = |number| Core::new(Rows::new(trace.size, trace.policy, number));
        let cores = (0..trace.cores).map(core).collect();
        let memory = Memory::new(&trace.ranges);
        Machine { memory, cores, trail: Trail::new(), met: Met::new() }
    }

    /// Does an event, and answers an access.
    fn step<'a>(&'a mut self, moment: u32, event: &'a Event) -> Option<Answer<'a>> {
        let core = &mut self.cores[event.core as usize];
        match &event.action {
            Action::Access(access) => {
                return Some(self.access(moment, event.core, access, false));
            }
            Action::Prefetch(access) => {
                return Some(self.access(moment, event.core, access, true));
            }
            Action::Store { pa, value } => self.memory.store(*pa, *value),
            Action::Msr { reg, value } => core.msr(*reg, *value),
            Action::Settle => _ = core.settle(),
            Action::Isb => core.isb(),
            Action::Deliver => core.deliver(),
            Action::Tlbi(operation) => self.tlbi(event.core, operation),
            Action::Dsb(barrier) => self.dsb(event.core, *barrier),
        }
        None
    }

    /// Does an access or a prefetch.
    #[inline]
    fn access<'a>(
        &'a mut self,
        moment: u32,
        core: u8,
        access: &'a Access,
        is_prefetch: bool,
    ) -> Answer<'a> {
        let Machine { memory, cores, trail, met } = self;
        let actor = &mut cores[core as usize];
        actor.refresh();
        trail.clear();
        let (outcome, marks) = match &actor.rows {
            None => (walk::<false>(actor, moment, access, memory, trail, met), Marks::default()),
            Some(_) => by_rows(actor, moment, access, memory, trail, met),
        };
        let Key { asid, vmid, .. } = actor.context.key;
        Answer { moment, core, access, is_prefetch, asid, vmid, trail, met, outcome, marks }
    }

    /// A TLBI reaches its own core, or all of them.
    fn tlbi(&mut self, core: u8, operation: &Operation) {
        let regs = &self.cores[core as usize].regs;
        let invalidation = Invalidation::new(operation, regs, core);
        if invalidation.broadcast {
            self.cores.iter_mut().for_each(|reached| reached.post(invalidation));
        } else {
            self.cores[core as usize].post(invalidation);
        }
    }

    /// A DSB completes invalidations at all cores.
    fn dsb(&mut self, core: u8, barrier: Barrier) {
        self.cores.iter_mut().for_each(|reached| reached.finish(core, barrier));
    }
}

/// Walks for an access of a core, whose context is current.
#[inline]
fn walk<const ROWS: bool>(
    core: &Core,
    moment: u32,
    access: &Access,
    memory: &Memory,
    trail: &mut Trail,
    met: &mut Met,
) -> Outcome {
    let (context, rows) = (&core.context, core.rows.as_ref());
    Walk::<ROWS> { context, memory, access, moment, trail, rows, met }.run()
}

/// Does an access of a core that keeps rows. A conflict makes and moves none.
fn by_rows(
    core: &mut Core,
    moment: u32,
    access: &Access,
    memory: &Memory,
    trail: &mut Trail,
    met: &mut Met,
) -> (Outcome, Marks) {
    met.clear();
    let outcome = walk::<true>(core, moment, access, memory, trail, met);
    if outcome.is_err_and(|fault| fault.class == Class::Conflict) {
        return (outcome, Marks { old: true, stale: false, evicted: 0 });
    }
    let (context, high) = (&core.context, flag(access.va, 55));
    let is_changed = |item: &Item| item.moment < moment && is_stale(item, context, high, memory);
    let old = met.is_served();
    let stale = old && trail.items().iter().any(is_changed);
    let rows = core.rows.as_mut();
    let evicted = rows.map_or(0, |rows| rows.fill(met, trail, &context.key, moment));
    (outcome, Marks { old, stale, evicted })
}

/// Runs a trace and tells each answer as soon as it is there. Answers the machine at the end.
pub fn run<E>(trace: &Trace, mut tell: impl FnMut(&Answer) -> Result<(), E>) -> Result<Machine, E> {
    let mut machine = Machine::new(trace);
    for (moment, event) in (0..).zip(&trace.events) {
        if let Some(answer) = machine.step(moment, event) {
            tell(&answer)?;
        }
    }
    Ok(machine)
}
