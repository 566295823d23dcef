//! What the rules met in a run, counted by name.

use crate::machine::{Answer, Machine};
use crate::parse::Trace;
use crate::rows::{Policy, RowKind};
use crate::walk::Class;
use std::collections::BTreeMap;
use std::io::{self, Write};

/// A count for each name, in the order of the names.
pub struct Tally(BTreeMap<String, u64>);

impl RowKind {
    /// Its name in a count.
    fn name(self) -> &'static str {
        match self {
            RowKind::Leaf1 => "leaf1",
            RowKind::Table1 => "table1",
            RowKind::Leaf2 => "leaf2",
            RowKind::Table2 => "table2",
        }
    }
}

impl Policy {
    /// One of each policy.
    const ALL: [Policy; 3] = [Policy::Lru, Policy::Fifo, Policy::Random(0)];

    /// The count of evictions under it.
    fn evictions(self) -> &'static str {
        match self {
            Policy::Lru => "eviction.lru",
            Policy::Fifo => "eviction.fifo",
            Policy::Random(_) => "eviction.random",
        }
    }
}

impl Tally {
    /// A tally in which every name has 0.
    pub fn new() -> Tally {
        let alone = ["full.inbox", "full.queue", "old", "refused", "stale"].map(String::from);
        let conflicts = [RowKind::Leaf1, RowKind::Leaf2].map(|kind| of_kind("conflict", kind));
        let evictions = Policy::ALL.map(Policy::evictions);
        let by_kind = ["came", "removed", "service"].into_iter().chain(evictions);
        let by_kind =
            by_kind.flat_map(|name| RowKind::ALL.into_iter().map(move |kind| of_kind(name, kind)));
        let names = by_kind.chain(alone).chain(conflicts);
        Tally(names.map(|name| (name, 0)).collect())
    }

    /// Adds to a count.
    fn add(&mut self, name: &str, more: u64) {
        *self.0.entry(name.to_owned()).or_default() += more;
    }

    /// Counts an answer: the rows that served it, and what came of them.
    pub fn answer(&mut self, answer: &Answer) {
        for kind in answer.met.services() {
            self.add(&of_kind("service", kind), 1);
        }
        if answer.outcome.is_err_and(|fault| fault.class == Class::Conflict) {
            self.add(&of_kind("conflict", answer.met.conflict), 1);
        }
        self.add("old", answer.marks.old as u64);
        self.add("stale", answer.marks.stale as u64);
    }

    /// Counts what the cores of a trace kept count of until its end.
    pub fn machine(&mut self, trace: &Trace, machine: &Machine) {
        for core in &machine.cores {
            self.add("full.inbox", core.full_inboxes);
            self.add("full.queue", core.full_queues);
            for (kind, changes) in core.rows.iter().flat_map(|rows| rows.changes()) {
                self.add(&of_kind("came", kind), changes.came);
                self.add(&of_kind(trace.policy.evictions(), kind), changes.evicted);
                self.add(&of_kind("removed", kind), changes.removed);
            }
        }
    }

    /// Counts a trace that is refused.
    pub fn refused(&mut self) {
        self.add("refused", 1);
    }

    /// Writes a line for each name.
    pub fn write(&self, mut out: impl Write) -> io::Result<()> {
        self.0.iter().try_for_each(|(name, count)| writeln!(out, "{name} {count}"))?;
        out.flush()
    }
}

/// The name of a count of rows of a kind.
fn of_kind(name: &str, kind: RowKind) -> String {
    format!("{name}.{}", kind.name())
}
