#!/usr/bin/env python3
"""traces.py big N CORES GRANULE [--stage2] [--pages N] [--memory KB] [--seed SEED] [--caches SIZE] [--policy POLICY]
                        a long valid trace, of which 4 of 5 events map through all levels
traces.py random SEED [--rows]
                        a small trace of everything, about one in ten of them refused

GRANULE is 4, 16 or 64 (KB). 64 KB has three levels at most. The tables map so many pages (a sixtieth of the events), and
memory is one range of so many KB (as many as the tables need). SIZE is `none` where nothing else is said, and POLICY `fifo`;
`random START` is one word here. With --rows a random trace has any size and policy, prefetches, and addresses that come
again. The trace goes to standard output."""
import random
import sys

EVERY_OP = ["VMALLE1", "VAE1", "VAAE1", "VALE1", "VAALE1", "ASIDE1", "IPAS2E1", "IPAS2LE1", "VMALLS12E1", "ALLE1", "RVAE1",
            "RVAAE1", "RVALE1", "RVAALE1", "RIPAS2E1", "RIPAS2LE1"]
NO_OPERAND = ("VMALLE1", "VMALLS12E1", "ALLE1")
EL2_ALONE = ("IPAS2E1", "IPAS2LE1", "VMALLS12E1", "ALLE1", "RIPAS2E1", "RIPAS2LE1")
REGS = ["SCTLR_EL1", "TCR_EL1", "TTBR0_EL1", "TTBR1_EL1", "MAIR_EL1", "HCR_EL2", "VTCR_EL2", "VTTBR_EL2"]
REFUSED = {"SCTLR_EL1": [25], "TCR_EL1": [39, 40, 59], "HCR_EL2": [12, 27, 32, 33, 46], "VTCR_EL2": [21, 22, 32]}
RUNS = {(12, 1): 34, (12, 2): 25, (12, 3): 16, (14, 2): 30, (14, 3): 21, (16, 2): 34, (16, 3): 21}
SIZES = [32, 36, 40, 42, 44, 48, 52, 52]


def bits(w, hi, lo):
    return w >> lo & ((1 << (hi - lo + 1)) - 1)


class Tables:
    """The tables of a stage: granule and sizes in bits, start level and base."""

    def __init__(self, granule, size_in, start, ps, ttbr):
        self.granule, self.input, self.start = granule, size_in, start
        self.output = SIZES[ps] if granule == 16 else min(SIZES[ps], 48)
        base = ttbr & 0xfffffffffffe
        if granule == 16 and ps >= 6:
            base = bits(ttbr, 5, 2) << 48 | ttbr & 0xffffffffffc0
        self.base = base & -self.start_bytes()

    def start_bytes(self):
        return 8 << (self.input - self.rank(self.start))

    def rank(self, level):
        return self.granule + (3 - level) * (self.granule - 3)

    def place(self, level, table, address):
        count = self.input - self.rank(level) if level == self.start else self.granule - 3
        return table + 8 * (address >> self.rank(level) & ((1 << count) - 1))

    def has_block(self, level):
        return level == 2 or (level == 1 and self.granule != 14)

    def put_address(self, address):
        """The bits of a descriptor for an address, which are too few for one above 2^48 unless the granule is 64 KB."""
        low = address & 0xffffffffffff & -(1 << self.granule)
        return low | (bits(address, 51, 48) << 12 if self.granule == 16 else 0)

    def address(self, word, rank):
        low = word & 0xffffffffffff & -(1 << rank)
        return low | (bits(word, 15, 12) << 48 if self.granule == 16 else 0)


# ---------------------------------------------------------------- big


def big(count, cores, kb, stage2, seed, pages=None, memory=None, caches="none", policy="fifo"):
    rng = random.Random("big %d" % seed)
    granule = {4: 12, 16: 14, 64: 16}[kb]
    page = 1 << granule
    base, room = 0x80000000, 64 << 20
    offset = 0x40000000 if stage2 else 0      # IPAs lie so far above the places
    free = base
    lines = []

    def alloc(size=page):
        nonlocal free
        free = (free + size - 1) & -size
        free += size
        assert free <= base + room, "too many tables"
        return free - size

    class Mapped:
        """One stage's tables as far as they are built; `at` gives the place of a word's address."""

        def __init__(self, tables, new, at):
            self.tables, self.new, self.at, self.words = tables, new, at, {}

        def put(self, address, leaf):
            t, table = self.tables, self.tables.base
            for level in range(t.start, 3):
                place = t.place(level, table, address)
                if place not in self.words:
                    self.words[place] = self.new()
                    lines.append("store 0 0x%x 0x%x" % (self.at(place), t.put_address(self.words[place]) | 3))
                table = self.words[place]
            place = self.at(t.place(3, table, address))
            lines.append("store 0 0x%x 0x%x" % (place, leaf))
            return place

    txsz = 64 - 48 if granule != 16 else 64 - 52
    tg0, tg1 = {12: (0, 2), 14: (2, 1), 16: (1, 3)}[granule]
    ps = 6 if granule == 16 else 5
    tcr = txsz | txsz << 16 | tg0 << 14 | tg1 << 30 | ps << 32 | 1 << 36 | 1 << 37 | 3 << 12 | 3 << 28
    start = 0 if granule != 16 else 1
    if stage2:
        sl0, size2 = {12: (2, 48), 14: (2, 48), 16: (2, 52)}[granule]
        start2 = 2 - sl0 if granule == 12 else 3 - sl0
        empty = Tables(granule, size2, start2, ps, 0)
        base2 = alloc(empty.start_bytes())
        two = Mapped(Tables(granule, size2, start2, ps, base2), alloc, lambda pa: pa)
        vtcr = 64 - size2 | sl0 << 6 | tg0 << 14 | ps << 16 | 1 << 19

        def new_ipa():
            pa = alloc()
            two.put(pa + offset, two.tables.put_address(pa) | 0x7ff)
            return pa + offset
    else:
        new_ipa = alloc
    one = Mapped(Tables(granule, 64 - txsz, start, ps, new_ipa()), new_ipa, lambda ipa: ipa - offset)
    one.tables.base = one.tables.base & -page or one.tables.base

    # Pages: a group shares its last table. Each is of a kind that says which accesses it permits.
    pages = pages or max(4, min(768, count // 60))
    groups = max(2, pages // (24 if granule != 16 else 96))
    kinds = {"user": (0x40 | 1 << 53, ["el0 read", "el0 write", "el1 read", "el1 write", "el0 fetch"]),
             "code": (0xc0, ["el0 read", "el0 fetch", "el1 read", "el1 fetch"]),
             "kernel": (0 | 1 << 54, ["el1 read", "el1 write", "el1 fetch", "el1 read", "el1 write"])}
    roots = [rng.getrandbits(64 - txsz) & -(1 << (2 * granule - 3)) for _ in range(groups)]
    targets = []
    outputs = []
    for n in range(min(pages, 256)):
        out = 0x100000000 + n * page
        if stage2:
            two.put(out, two.tables.put_address(0x900000000 + rng.randrange(1 << 16) * page) | 0x7c3 | rng.choice((0x3c, 0x28, 0x04)))
        outputs.append(out)
    for n in range(pages):
        va = roots[n % groups] + rng.randrange(1 << (granule - 3)) * page
        kind = rng.choice(sorted(kinds))
        leaf = one.tables.put_address(outputs[n % len(outputs)]) | kinds[kind][0] | 0x703 | rng.randrange(8) << 2 | 1 << 11
        targets.append((va, kinds[kind][1], one.put(va, leaf), leaf))
    last = {}
    for target in targets:                      # of pages at one address the last one stands
        last[target[0]] = target
    targets = sorted(last.values())
    mair = 0x00444488bbffff04
    for core in range(cores):
        values = {"TCR_EL1": tcr, "TTBR0_EL1": one.tables.base | (core + 1) << 48, "TTBR1_EL1": one.tables.base,
                  "MAIR_EL1": mair, "SCTLR_EL1": 0x1001}
        if stage2:
            values.update({"VTCR_EL2": vtcr, "VTTBR_EL2": base2 | 7 << 48, "HCR_EL2": 1})
        lines.extend("msr %d %s 0x%x" % (core, reg, value) for reg, value in values.items())
        lines.append("isb %d" % core)
    assert len(lines) < count, "N is less than the %d events of the tables" % len(lines)

    high = (1 << 64) - (1 << (64 - txsz))
    data = alloc()
    size = memory << 10 if memory else (free - base + 0xffff) & -0x10000
    assert free - base <= size, "the tables need %d bytes" % (free - base)
    header = ["cores %d" % cores, "memory 0x%x 0x%x" % (base, size), "caches " + caches, "policy " + policy]
    accesses = 0
    while len(lines) < count:
        core = rng.randrange(cores)
        if accesses < 0.8 * len(lines) or rng.random() < 0.72 or count - len(lines) < 2:
            va, allowed, _, _ = rng.choice(targets)
            va |= rng.randrange(page)
            if rng.random() < 0.3:
                va |= high
            elif rng.random() < 0.3:
                va |= rng.randrange(256) << 56
            asked = rng.choice(allowed)
            pan = " pan" if asked.startswith("el0") and rng.random() < 0.1 else ""
            lines.append("access %d %s 0x%x%s" % (core, asked, va, pan))
            accesses += 1
            continue
        what = rng.randrange(8)
        if what == 0:
            _, _, place, leaf = rng.choice(targets)
            lines.append("store %d 0x%x 0x%x" % (core, place, leaf & ~0x1c | rng.randrange(8) << 2 | rng.randrange(16) << 55))
        elif what == 1:
            lines.append("store %d 0x%x 0x%x" % (core, data + 8 * rng.randrange(page // 8), rng.getrandbits(64)))
        elif what == 2:
            lines.append("msr %d TTBR0_EL1 0x%x" % (core, one.tables.base | rng.randrange(1 << 16) << 48))
            lines.append("isb %d" % core)
        elif what == 3:
            lines.append("msr %d MAIR_EL1 0x%x" % (core, rng.choice((mair, 0xff44040c, 0xf0ffbb00))))
            lines.append("isb %d" % core)
        elif what < 6:
            lines.append(tlbi(rng, core, rng.choice(targets)[0]))
        elif what == 6:
            lines.append("dsb %d %s" % (core, rng.choice(("nsh", "ish", "ish", "sy"))))
        else:
            lines.append("deliver %d" % core)
    return "\n".join(header + lines + ["end"]) + "\n"


def tlbi(rng, core, va):
    """A line of an invalidation, with an operand of the form that it needs."""
    op = rng.choice(EVERY_OP)
    level = "el2" if op in EL2_ALONE or rng.random() < 0.3 else "el1"
    name = op + ("IS" if rng.random() < 0.5 else "")
    if op in NO_OPERAND:
        return "tlbi %d %s %s" % (core, level, name)
    operand = rng.randrange(1 << 16) << 48 | va >> 12 & (1 << 44) - 1
    if op.startswith("R"):
        operand = operand & ~(3 << 46 | 0xff << 37) | rng.randrange(4) << 46 | rng.randrange(128) << 39
    if rng.random() < 0.1:
        operand = rng.getrandbits(64)
    return "tlbi %d %s %s 0x%x" % (core, level, name, operand)


# ---------------------------------------------------------------- random


class Random:
    """A random trace. Memory and registers are followed, so that an access finds descriptors on its way."""

    MOST = 200                                    # events of a trace
    AGAIN = 0.6                                   # how often an address comes again
    OTHER_WORD, OTHER_SIZE = "prefetched", "caches tiny"    # words that no program knows

    def __init__(self, seed):
        self.rng = random.Random("random %s" % seed)
        rng = self.rng
        self.cores = rng.choice((1, 1, 2, 3, 8))
        self.lines, self.words = [], {}
        self.regs = [{reg: 0 for reg in REGS} for _ in range(self.cores)]
        self.queues = [[] for _ in range(self.cores)]
        self.vas = [[] for _ in range(self.cores)]
        self.ranges = self.memory()
        self.need = max(20, (self.ranges[0][0] + self.ranges[0][1] - 1).bit_length())   # bits of an address of the tables
        self.free = self.ranges[0][0]
        self.ready = []                           # cores whose registers are set

    def chance(self, p):
        return self.rng.random() < p

    def memory(self):
        rng = self.rng
        size = rng.choice((0x10000, 0x200000, 0x400000, 0x1000000))
        base = rng.choice((0, 0, 0x10000, 0x40000000, 0x80000000, rng.getrandbits(14) << 16, rng.getrandbits(16) << 16,
                           rng.getrandbits(20) << 16, rng.getrandbits(24) << 16, rng.getrandbits(32) << 16,
                           rng.getrandbits(36) << 16)) & (1 << 52) - 0x1000000
        ranges = [(base, size)]
        at = base + size
        for _ in range(rng.choice((0, 0, 1, 3, 15))):
            at += rng.choice((0, 8, 0x1000))
            more = rng.choice((8, 16, 0x1000, 0x10000))
            if at + more <= 1 << 52:
                ranges.append((at, more))
            at += more
        if self.chance(0.02):
            ranges = []
        return ranges or [(0, 0)]

    def holds(self, pa):
        return any(start <= pa < start + size for start, size in self.ranges)

    def alloc(self, size):
        """Room for a table, which may be that of another one where memory is short."""
        start, length = self.ranges[0]
        at = (self.free + size - 1) & -size
        if at + size > start + length:
            span = max(1, length // size)
            return ((start + size - 1) & -size) + self.rng.randrange(span) * size
        self.free = at + size
        return at

    # registers

    def noise(self, reg, value, p=0.12):
        if self.chance(p):
            value ^= self.rng.getrandbits(64) & self.rng.getrandbits(64) & self.rng.getrandbits(64) & self.rng.getrandbits(64)
        for bit in REFUSED.get(reg, ()):
            value &= ~(1 << bit)
        return value

    def txsz(self, granule):
        rng = self.rng
        if self.chance(0.05):
            return rng.randrange(64)
        low, high = (12, 47) if granule == 16 else (16, 48)
        return rng.choice((low, high, rng.randint(low, high), rng.randint(low, high), 25))

    def a_granule(self):
        return 16 if self.need > 48 and not self.chance(0.1) else self.rng.choice((12, 12, 14, 16))

    def size_code(self):
        """IPS or PS, nearly always one that the tables fit into."""
        code = self.rng.choice((0, 1, 2, 3, 4, 5, 5, 6, 6, 7))
        return code if SIZES[code] >= self.need or self.chance(0.08) else self.rng.choice((5, 6, 7) if self.need <= 48 else (6, 7))

    def tcr(self):
        rng = self.rng
        value = 0
        for half, codes in ((0, {12: 0, 14: 2, 16: 1}), (16, {12: 2, 14: 1, 16: 3})):
            granule = self.a_granule()
            code = codes[granule] if not self.chance(0.05) else rng.randrange(4)
            value |= (self.txsz(granule) | code << 14 | rng.randrange(64) << 8) << half
        value |= self.size_code() << 32
        for bit, p in ((7, .05), (23, .05), (22, .3), (36, .5), (37, .5), (38, .5), (39, .3), (40, .5), (41, .2), (42, .2),
                       (51, .3), (52, .3), (55, .1), (56, .1), (57, .1)):
            value |= self.chance(p) << bit
        return value

    def vtcr(self):
        rng = self.rng
        for _ in range(30):
            granule = self.a_granule()
            sl0 = rng.randrange(4 if granule == 12 else 3)
            start = {0: 2, 1: 1, 2: 0, 3: 3}[sl0] if granule == 12 else 3 - sl0
            least = (3 - start) * (granule - 3) + granule + 1
            most = min(least + granule, 52 if granule == 16 else 48)
            size = rng.randint(max(17 if granule == 16 else 16, least), most)
            if size >= self.need or self.chance(0.02):
                break
        t2sz = 64 - size if not self.chance(0.06) else rng.randrange(64)
        value = t2sz | sl0 << 6 | {12: 0, 14: 2, 16: 1}[granule] << 14 | self.size_code() << 16
        for bit, p in ((19, .5), (21, .3), (22, .5), (33, .1)):
            value |= self.chance(p) << bit
        return value

    def ttbr(self, reg, core):
        """A base of tables that the registers of now make."""
        rng = self.rng
        tables = self.tables_of(core, reg)
        size = tables.start_bytes() if tables else 4096
        base = self.alloc(max(8, size))
        if self.chance(0.05):
            base = rng.getrandbits(52) & -4096
        value = base & 0xffffffffffff
        if tables and tables.granule == 16 and base >> 48:
            value |= bits(base, 51, 48) << 2
        return value | rng.choice((0, 1, 0xabcd, rng.getrandbits(16))) << 48 | self.chance(0.2)

    def value(self, core, reg):
        rng = self.rng
        if reg == "SCTLR_EL1":
            value = (not self.chance(0.07)) | self.chance(.5) << 12 | self.chance(.25) << 19 | self.chance(.3) << 57
        elif reg == "TCR_EL1":
            value = self.tcr()
        elif reg == "VTCR_EL2":
            value = self.vtcr()
        elif reg == "HCR_EL2":
            value = self.chance(.5) | self.chance(.3) << 2 | self.chance(.4) << 9
        elif reg == "MAIR_EL1":
            some = (0x00, 0x04, 0x08, 0x0c, 0x44, 0xff, 0xf0, 0xbb, 0x4f, 0xf4, 0x88, 0x77, 0x33, 0x40, 0x01, 0xf1)
            value = int.from_bytes(bytes(rng.choice((rng.choice(some), rng.randrange(256))) for _ in range(8)), "little")
        else:
            return self.ttbr(reg, core)
        return self.noise(reg, value)

    def tables_of(self, core, reg):
        """The tables of a side or of stage 2, None where their sizes are out of range."""
        regs = self.regs[core]
        tcr, vtcr = regs["TCR_EL1"], regs["VTCR_EL2"]
        if reg == "VTTBR_EL2":
            granule = {1: 16, 2: 14}.get(bits(vtcr, 15, 14), 12)
            size, sl0, ps = 64 - bits(vtcr, 5, 0), bits(vtcr, 7, 6), bits(vtcr, 18, 16)
            start = {0: 2, 1: 1, 2: 0, 3: 3}[sl0] if granule == 12 else 3 - sl0
            least = (3 - start) * (granule - 3) + granule + 1
            if (sl0 == 3 and granule != 12) or not least <= size <= least + granule:
                return None
        else:
            high = reg == "TTBR1_EL1"
            granule = {1: 14, 3: 16}.get(bits(tcr, 31, 30), 12) if high else {1: 16, 2: 14}.get(bits(tcr, 15, 14), 12)
            size, ps = 64 - bits(tcr, 21, 16) if high else 64 - bits(tcr, 5, 0), bits(tcr, 34, 32)
            start = 3 - (size - 1 - granule) // (granule - 3)
        if not (17 <= size <= 52 if granule == 16 else 16 <= size <= 48):
            return None
        return Tables(granule, size, start, ps, regs[reg])

    def msr(self, core, reg, value):
        self.lines.append("msr %d %s 0x%x" % (core, reg, value))
        self.queues[core].append((reg, value))
        if len(self.queues[core]) > 64:
            self.settle(core)

    def settle(self, core):
        if self.queues[core]:
            reg, value = self.queues[core].pop(0)
            self.regs[core][reg] = value

    def isb(self, core):
        self.lines.append("isb %d" % core)
        while self.queues[core]:
            self.settle(core)

    # descriptors

    def store(self, core, pa, value):
        self.lines.append("store %d 0x%x 0x%x" % (core, pa, value))
        self.words[pa] = value

    def leaf(self, tables, level, place, out, is_last):
        """A block or page of a place whose output is about `out`."""
        rng = self.rng
        rank = tables.rank(level)
        contiguous = self.chance(0.2)
        run = RUNS.get((tables.granule, level))
        if contiguous and run and self.chance(0.7):
            out = (out & -(1 << run)) + (place // 8 % (1 << (run - rank)) << rank)
        out &= (1 << 52) - (1 << rank)
        if not self.chance(0.06):
            out &= (1 << tables.output) - 1
        word = tables.put_address(out) & ~((1 << tables.granule) - 1) | (tables.put_address(out) & 0xf000 if tables.granule == 16 else 0)
        word |= (3 if is_last else 1) | contiguous << 52
        return word | self.rng.choice((0x600, 0x400, 0x700, 0x300, 0x500)) if self.chance(0.9) else word

    def ones(self, p):
        """Some of the bits that no address takes, each with this chance."""
        return sum(1 << bit for bit in (2, 3, 4, 5, 6, 7, 8, 9, 11, 51, 53, 54, 55, 58, 59, 60, 61, 62, 63) if self.chance(p))

    def descriptor(self, tables, level, place, address, wants_memory, stage2, out_bits):
        rng = self.rng
        if self.chance(0.03):
            return rng.choice((0, 2, rng.getrandbits(64)))
        block = level == 3 or (tables.has_block(level) and self.chance(0.3))
        if not block:
            if self.chance(0.03):
                return rng.getrandbits(64) | 3
            table = self.alloc(1 << tables.granule) if not self.chance(0.03) else rng.getrandbits(48) & -(1 << tables.granule)
            return tables.put_address(table) | 3 | (self.ones(0.06) & 0xfff << 52) | rng.randrange(1 << 10) << 2 & 0xffc
        if wants_memory or self.chance(0.2):
            out = address if level < 3 or self.chance(0.5) else self.alloc(1 << tables.granule)
        else:
            out = rng.getrandbits(min(out_bits, rng.choice((32, tables.output, tables.output, 48, 52))))
        word = self.leaf(tables, level, place, out, level == 3)
        if stage2:
            word |= self.ones(0.12) | (0xc0 if self.chance(0.85) else 0) | rng.choice((0x3c, 0x3c, 0, 0x14, 0x28, rng.randrange(16) << 2))
        else:
            word |= self.ones(0.12) | rng.choice((0, 0x40, 0x40, 0xc0, 0x80)) | rng.randrange(8) << 2
        return word

    def build(self, core, tables, address, at, wants_memory, stage2, out_bits):
        """Walks tables for an address and puts descriptors where there are none. It answers the output, or None."""
        table = tables.base
        for level in range(tables.start, 4):
            place = at(tables.place(level, table, address))
            if place is None or place % 8 or not self.holds(place):
                return None
            word = self.words.get(place, 0)
            if len(self.lines) > self.MOST - 15:
                return None
            if word == 0 or self.chance(0.03):
                word = self.descriptor(tables, level, place, address, wants_memory, stage2, out_bits)
                self.store(core, place, word)
            if word & 1 == 0 or (word & 3 == 1 and not tables.has_block(level)):
                return None
            if word & 2 and level < 3:
                table = tables.address(word, tables.granule)
                continue
            rank = tables.rank(level)
            return tables.address(word, rank) | address & (1 << rank) - 1
        return None

    def prepare(self, core, va):
        """Puts descriptors on the way of an access."""
        regs = self.regs[core]
        two = self.tables_of(core, "VTTBR_EL2") if regs["HCR_EL2"] & 1 else None

        def through(ipa, wants_memory):
            if not regs["HCR_EL2"] & 1:
                return ipa
            if two is None or ipa >> two.input:
                return None
            return self.build(core, two, ipa, lambda pa: pa, wants_memory, True, 52)

        inner = two.input if two and not self.chance(0.1) else 52
        out = va & (1 << 52) - 1
        if regs["SCTLR_EL1"] & 1:
            one = self.tables_of(core, "TTBR1_EL1" if va >> 55 & 1 else "TTBR0_EL1")
            if one is None:
                return
            out = self.build(core, one, va, lambda ipa: through(ipa, True), self.chance(0.5), False, inner)
        if out is not None:
            through(out, False)

    # events

    def va(self, core):
        rng = self.rng
        if self.vas[core] and self.chance(self.AGAIN):
            va = rng.choice(self.vas[core])
            return va ^ (1 << rng.randrange(64)) if self.chance(0.15) else va ^ rng.getrandbits(12)
        high = self.chance(0.4)
        tcr = self.regs[core]["TCR_EL1"]
        size = max(1, 64 - (bits(tcr, 21, 16) if high else bits(tcr, 5, 0)))
        va = rng.getrandbits(min(size, 55))
        if self.chance(0.3):
            va &= 0xffffffff
        if high:
            va |= (1 << 64) - (1 << min(size, 55))
        if self.chance(0.15):
            va = va & (1 << 56) - 1 | rng.getrandbits(8) << 56
        if self.chance(0.03):
            va = rng.getrandbits(64)
        self.vas[core].append(va)
        return va

    def access(self, core):
        rng = self.rng
        va = self.va(core)
        if self.chance(0.85):
            self.prepare(core, va)
        pan = " pan" if self.chance(0.25) else ""
        el, kind = rng.choice(("el0", "el1", "el1")), rng.choice(("read", "read", "write", "fetch"))
        self.lines.append("access %d %s %s 0x%x%s" % (core, el, kind, va, pan))

    def event(self):
        rng = self.rng
        core = rng.choice(self.ready) if self.ready and not self.chance(0.08) else rng.randrange(self.cores)
        what = rng.random()
        if what < 0.55:
            self.access(core)
        elif what < 0.63 and self.words:
            place = rng.choice(sorted(self.words))
            self.store(core, place, self.words[place] ^ 1 << rng.randrange(64) if self.chance(0.7) else rng.getrandbits(64))
        elif what < 0.73:
            reg = rng.choice(REGS)
            self.msr(core, reg, self.value(core, reg))
            if self.chance(0.6):
                self.isb(core)
        elif what < 0.78:
            self.lines.append("settle %d" % core)
            self.settle(core)
        elif what < 0.80:
            self.isb(core)
        elif what < 0.88:
            self.lines.append(tlbi(rng, core, rng.getrandbits(64)))
        elif what < 0.93:
            self.lines.append("dsb %d %s" % (core, rng.choice(("nsh", "ish", "sy"))))
        elif what < 0.97:
            self.lines.append("deliver %d" % core)
        elif what < 0.985 and len(self.lines) < 120:
            for _ in range(rng.randint(60, 70)):
                self.msr(core, rng.choice(REGS[2:5]), rng.getrandbits(64))
        elif len(self.lines) < 120:
            self.lines.extend(tlbi(rng, core, rng.getrandbits(64)) for _ in range(rng.randint(60, 70)))

    def text(self):
        rng = self.rng
        for core in range(self.cores):
            if core and self.chance(0.3 if self.cores < 8 else 0.7):
                continue
            self.ready.append(core)
            order = [1, 6, 4, 5, 0]
            for number in order:
                self.msr(core, REGS[number], self.value(core, REGS[number]))
            self.isb(core)
            for number in (2, 3, 7):
                self.msr(core, REGS[number], self.value(core, REGS[number]))
            if not self.chance(0.05):
                self.isb(core)
        target = rng.randint(max(20, len(self.lines)), self.MOST - 5)
        while len(self.lines) < target:
            self.event()
        lines = ["cores %d" % self.cores]
        lines += ["memory 0x%x 0x%x" % r for r in self.ranges if r[1]]
        lines += self.caches() + self.lines[:self.MOST] + ["end"]
        return self.dressed(lines)

    def caches(self):
        """The lines of the header on rows."""
        return ["caches none", "policy fifo"]

    def dressed(self, lines):
        """The text in forms that are read as the same, and now and then spoilt."""
        rng = self.rng
        if self.chance(0.12):
            lines = self.spoilt(lines)
        text = []
        for line in lines:
            if self.chance(0.04):
                text.append(rng.choice(("", "# a comment", "   ", "\t#x", "#" * 200)))
            words = line.split(" ")
            if self.chance(0.1):
                words = [self.other_number(w) for w in words]
            if self.chance(0.05):
                line = "".join(w + rng.choice((" ", "\t", "  ")) for w in words)
            else:
                line = " ".join(words)
            text.append(line + ("\r" if self.chance(0.03) else ""))
        whole = ("\n".join(text) + ("" if self.chance(0.2) else "\n")).encode("latin-1")
        if self.chance(0.03):
            at = rng.randrange(len(whole))
            spoilt = bytearray(whole)
            spoilt[at] = rng.choice((rng.randrange(256), ord("0") + rng.randrange(10), 10, 32, 13, 9))
            whole = bytes(spoilt)
        return whole

    def other_number(self, word):
        """A number in another form."""
        if not word.startswith("0x"):
            return word
        try:
            n = int(word, 16)
        except ValueError:
            return word
        return self.rng.choice((str(n), "0x%016x" % n, "0x%X" % n, ("%020d" % n)[-20:]))

    def spoilt(self, lines):
        rng = self.rng
        lines = list(lines)
        at = rng.randrange(len(lines))
        words = lines[at].split(" ")
        place = rng.randrange(len(words))
        how = rng.randrange(16)
        if how == 0:
            words[place] = rng.choice(("x", "0x", "-1", "0xg", "99999999999999999999", "0x00000000000000001", self.OTHER_WORD,
                                        "el3"))
        elif how == 1:
            words.append(rng.choice(("x", "0", "pan")))
        elif how == 2:
            words.pop()
        elif how == 3:
            words[place] = words[place].swapcase()
        elif how == 4:
            del lines[at]
            return lines
        elif how == 5:
            lines.insert(at, lines[rng.randrange(len(lines))])
            return lines
        elif how == 6:
            lines.insert(at, rng.choice(("msr 0 HCR_EL2 0x%x" % rng.getrandbits(64), "msr 0 TCR_EL1 0x800000000000000",
                                         "msr 0 SCTLR_EL1 0x2000000", "msr 0 VTCR_EL2 0x100000000", "msr 0 HCR_EL2 0x300001000",
                                         "msr 0 TCR_EL1 0x18000000000", "msr 0 VTCR_EL2 0x400000")))
            return lines
        elif how == 7:
            lines.insert(at, "tlbi 0 el1 %s%s" % (rng.choice(EL2_ALONE), rng.choice(("", " 0x0", "IS", "IS 0x1 2"))))
            return lines
        elif how == 8:
            words.append(" " * rng.choice((150, 190, 200, 250)))
        elif how == 9:
            words[place] += rng.choice(("\x7f", "\r", "\0", "\xe9", "\x1f"))
        elif how == 10:
            return lines[:at]
        elif how == 11:
            lines.append(rng.choice(("isb 0", "end", "x")))
            return lines
        elif how == 12:
            lines[1:1] = ["memory 0x%x 0x%x" % (rng.choice(self.ranges)[0] + rng.choice((-8, 0, 8, 4)), rng.choice((8, 16, 4, 0)))]
            return lines
        elif how == 13:
            lines[1:1] = ["memory 0x%x 0x8" % (0x1000 + 16 * n) for n in range(17)]
            return lines
        elif how == 14:
            lines[1:1] = [rng.choice(("memory 0x0 0x4000008", "memory 0xffffffffffff8 0x10", "memory 0x10000000000000 0x8",
                                      "memory 0x0 0xfffffffffffffff8", self.OTHER_SIZE, "policy fifo"))]
            return lines
        else:
            lines.insert(at, "store 0 0x%x 0x0" % rng.choice((self.ranges[0][0] + self.ranges[0][1], self.ranges[0][0] + 4, 1 << 63)))
            return lines
        lines[at] = " ".join(words)
        return lines


class RandomRows(Random):
    """A random trace with rows: most addresses come again under registers that change little, and invalidations name them."""

    MOST = 700
    AGAIN = 0.9
    OTHER_WORD, OTHER_SIZE = "prefetch", "caches small"

    def caches(self):
        rng = self.rng
        start = rng.choice(("0x0", "0x%x" % rng.getrandbits(64), "0xffffffffffffffff", "12345"))
        policy = rng.choice(("lru", "lru", "fifo", "random " + start))
        return ["caches " + rng.choice(("none", "small", "small", "medium", "medium", "large", "large")), "policy " + policy]

    def access(self, core):
        super().access(core)
        words = self.lines[-1].split(" ")
        if self.chance(0.6):                      # what most leaves permit
            words[2:] = ["el1", "read", words[4]]
        if self.chance(0.15):
            words = ["prefetch"] + words[1:5]
        self.lines[-1] = " ".join(words)

    def other_id(self, core):
        """Another ASID or VMID, and nearly always the same base."""
        rng = self.rng
        reg = rng.choice(("TTBR0_EL1", "TTBR1_EL1", "VTTBR_EL2"))
        self.msr(core, reg, self.regs[core][reg] & (1 << 48) - 1 | rng.choice((0, 1, 2, 0xabcd)) << 48)
        self.isb(core)

    def other_field(self, core):
        """A register of before, in which one bit or nothing differs."""
        reg = self.rng.choice(REGS)
        value = self.regs[core][reg] ^ self.rng.choice((0, 1 << self.rng.randrange(64)))
        for bit in REFUSED.get(reg, ()):
            value &= ~(1 << bit)
        self.msr(core, reg, value)
        if self.chance(0.8):
            self.isb(core)

    def other_word(self, core):
        """A store to a descriptor of which one bit or its validity differs, or which another descriptor gives."""
        rng = self.rng
        place = rng.choice(sorted(self.words))
        word = self.words[place]
        self.store(core, place, rng.choice((0, word ^ 1 << rng.randrange(64), word ^ 1 << 52, word ^ 1 << 11,
                                            self.words[rng.choice(sorted(self.words))])))

    def invalidation(self, core):
        """A TLBI whose operand names an address of before, at times as an IPA, and an ASID of now."""
        rng = self.rng
        va = rng.choice(self.vas[core] or [0]) ^ rng.choice((0, 0, 1 << rng.randrange(12, 40)))
        words = tlbi(rng, core, va).split(" ")
        if len(words) == 5 and self.chance(0.6):
            asid = self.regs[core]["TTBR%d_EL1" % (self.regs[core]["TCR_EL1"] >> 22 & 1)] >> 48
            words[4] = "0x%x" % (int(words[4], 16) & (1 << 48) - 1 | asid << 48)
        self.lines.append(" ".join(words))

    def event(self):
        rng = self.rng
        core = rng.choice(self.ready) if self.ready and not self.chance(0.05) else rng.randrange(self.cores)
        what = rng.random()
        if what < 0.72:
            self.access(core)
        elif what < 0.77 and self.words:
            self.other_word(core)
        elif what < 0.80:
            self.other_id(core)
        elif what < 0.81:
            self.other_field(core)
        elif what < 0.91:
            self.invalidation(core)
        elif what < 0.95:
            self.lines.append("dsb %d %s" % (core, rng.choice(("nsh", "ish", "sy"))))
        elif what < 0.99:
            self.lines.append("deliver %d" % core)
        else:
            super().event()


def main():
    words = sys.argv[1:]
    flags = {"--stage2": False, "--rows": False}
    for name in flags:
        if name in words:
            flags[name] = True
            words.remove(name)
    options = {"--seed": 1, "--pages": None, "--memory": None, "--caches": "none", "--policy": "fifo"}
    for name in options:
        if name in words:
            at = words.index(name)
            options[name] = words[at + 1] if name in ("--caches", "--policy") else int(words[at + 1])
            del words[at:at + 2]
    if len(words) == 4 and words[0] == "big" and words[3] in ("4", "16", "64"):
        count, cores, kb = map(int, words[1:])
        text = big(count, cores, kb, flags["--stage2"], *options.values()).encode()
    elif len(words) == 2 and words[0] == "random":
        text = (RandomRows if flags["--rows"] else Random)(words[1]).text()
    else:
        sys.exit(__doc__)
    sys.stdout.buffer.write(text)


if __name__ == "__main__":
    main()
