#!/usr/bin/env python3
"""Writes the worked runs, as theorems, from traces and their reports.

python3 scripts/worked_runs.py            writes each file that crates/machine_spec/data/worked_runs.txt names
python3 scripts/worked_runs.py NAME.trace ..      prints such a file for these traces

Each NAME.trace has its NAME.report beside it, as `vmsa run` prints it. A theorem says that the run of the trace has,
at the steps that the report shows, just these answers, and comes to the summary, where the report has one. The
checker computes both from the definitions alone. A first line of the trace that begins with `#` is the theorem's
comment. A report may leave out events; what it shows is compared whole."""
import os
import sys
import textwrap

CRATE = os.path.join(os.path.dirname(os.path.dirname(os.path.abspath(__file__))), "crates", "machine_spec")
DATA = os.path.join(CRATE, "data")
PROOFS = os.path.join(CRATE, "proofs")
WIDTH = 150
REGS = {"SCTLR_EL1": "SctlrEl1", "TCR_EL1": "TcrEl1", "TTBR0_EL1": "Ttbr0El1", "TTBR1_EL1": "Ttbr1El1",
        "MAIR_EL1": "MairEl1", "HCR_EL2": "HcrEl2", "VTCR_EL2": "VtcrEl2", "VTTBR_EL2": "VttbrEl2"}
SIZES = {"none": "NoRows", "small": "Small", "medium": "Medium", "large": "Large"}
CLASSES = {"translation": "Translation", "address-size": "AddressSize", "access-flag": "AccessFlag",
           "permission": "Permission", "external": "External"}
MEMORY = {"device-nGnRnE": "NGnRnE", "device-nGnRE": "NGnRE", "device-nGRE": "NGRE", "device-GRE": "GRE"}
COUNTS = ["accesses", "prefetches", "mapped", "faulted", "conflicts", "old", "stale", "evicted"]

PREFIX = "Rattle."
VARIANTS = {
    "sysregs.specs.declared.regs.Reg": sorted(REGS.values()),
    "sysregs.specs.declared.regs.Op": ["Vmalle1", "Vae1", "Vaae1", "Vale1", "Vaale1", "Aside1", "Ipas2e1", "Ipas2le1",
                                       "Vmalls12e1", "Alle1", "Rvae1", "Rvaae1", "Rvale1", "Rvaale1", "Ripas2e1", "Ripas2le1"],
    "permissions.specs.declared.bits.El": ["El0", "El1"],
    "permissions.specs.declared.bits.Kind": ["Read", "Write", "Fetch"],
    "attributes.specs.declared.kinds.Cache": ["Nc"],
    "attributes.specs.declared.kinds.Device": ["NGnRnE", "NGnRE", "NGRE", "GRE"],
    "attributes.specs.declared.kinds.MemType": ["Device", "Normal"],
    "attributes.specs.declared.kinds.Share": ["Nsh", "Ish", "Osh"],
    "fault_codes.specs.declared.fault.Stage": ["S1", "S2"],
    "fault_codes.specs.declared.fault.Class": sorted(CLASSES.values()),
    "trails.specs.declared.event.Barrier": ["Nsh as DsbNsh", "Ish as DsbIsh", "Sy as DsbSy"],
    "trails.specs.declared.event.Origin": ["El1 as FromEl1", "El2 as FromEl2"],
    "trails.specs.declared.event.Event": ["Store", "Msr", "Settle", "Isb", "Tlbi", "Dsb", "Deliver", "Access", "Prefetch"],
    "trace_lang.specs.declared.header.Size": sorted(SIZES.values()),
    "trace_lang.specs.declared.header.Policy": ["Lru", "Fifo", "Random"],
}
LISTS = ["[]", "◌∷◌"]
COMMON = LISTS + ["true", "false", "refl"]
WORDS = ["header", "on_worked_runs", "Comes", "ReportsAs", "told", "conflict_told", "mapped", "fault", "fault2",
         "start1", "start2", "word1", "word2", "access"]


def camel(name):
    return name[0] + name[1:].lower()


def number(word):
    return word if word.startswith("0x") else str(int(word))


def event_of(words):
    kind, core, rest = words[0], words[1], words[2:]
    if kind == "store":
        return "Store %s %s %s" % (core, number(rest[0]), number(rest[1]))
    if kind == "msr":
        return "Msr %s %s %s" % (core, REGS[rest[0]], number(rest[1]))
    if kind in ("settle", "isb", "deliver"):
        return "%s %s" % (kind.capitalize(), core)
    if kind == "tlbi":
        shared = rest[1].endswith("IS")
        op = camel(rest[1][:-2] if shared else rest[1])
        operand = number(rest[2]) if len(rest) > 2 else "0"
        return "Tlbi %s From%s %s %s %s" % (core, rest[0].capitalize(), op, str(shared).lower(), operand)
    if kind == "dsb":
        return "Dsb %s Dsb%s" % (core, rest[0].capitalize())
    pan = str(len(rest) > 3).lower()
    return "%s %s (access %s %s %s %s)" % (kind.capitalize(), core, number(rest[2]), rest[0].capitalize(),
                                           rest[1].capitalize(), pan)


def read_trace(path):
    with open(path, encoding="ascii") as f:
        lines = f.read().splitlines()
    comment = lines[0][1:].strip() if lines[0].startswith("#") else None
    header, events = {"ranges": []}, []
    for line in lines:
        words = line.split()
        if not words or words[0].startswith("#") or words[0] == "end":
            continue
        if words[0] == "cores":
            header["cores"] = words[1]
        elif words[0] == "memory":
            header["ranges"].append("(%s, %s)" % (number(words[1]), number(words[2])))
        elif words[0] == "caches":
            header["size"] = SIZES[words[1]]
        elif words[0] == "policy":
            header["policy"] = words[1].capitalize() if len(words) == 2 else "(Random %s)" % number(words[2])
        else:
            events.append(event_of(words))
    return comment, header, events


def cache(word):
    kind, *hints = word.split("+")
    return "Nc" if kind == "nc" else '(%s "%s")' % (kind, "".join(hints))


def outcome(line):
    words = line.split()
    if words[0] == "conflict":
        return "conflict"
    if words[0] == "fault":
        name = "fault2" if words[-1] == "s1ptw" else "fault"
        stage = [] if name == "fault2" else ["S" + words[2]]
        if name == "fault2" and words[2] != "2":
            sys.exit("a fault for a descriptor's place is of stage 2: " + line)
        return "(%s)" % " ".join([name] + stage + [words[4], CLASSES[words[5]]])
    pa, el0, el1, memory = words[1], words[3], words[5], words[6:-1]
    if memory[0] == "normal":
        kind = "(Normal %s %s %s)" % (cache(memory[2]), cache(memory[4]), str(memory[-1] == "tagged").lower())
    else:
        kind = "(Device %s)" % MEMORY[memory[0]]
    return '(mapped %s "%s" "%s" %s %s)' % (pa, el0, el1, kind, words[-1].capitalize())


def item(line):
    words = line.split()
    if words[1] == "base":
        return "start%s %s %s %s" % (words[0][1], words[3], words[5], words[7])
    return "word%s %s %s %s %s" % (words[0][1], words[3], words[5], words[7], words[9])


def read_report(path):
    """The answers, each (step, ASID, VMID, trails, outcome), and the counts of the summary or None."""
    answers, counts = [], None
    with open(path, encoding="ascii") as f:
        for line in f.read().splitlines():
            words = line.split()
            if words[0] == "event":
                at = words.index("asid")
                answers.append([words[1], words[at + 1], words[at + 3], [[]], None])
            elif words[0] == "summary":
                counts = words[2::2]
                if words[1::2] != COUNTS:
                    sys.exit("another summary: " + line)
            elif words[0] == "or":
                answers[-1][3].append([])
            elif words[0] in ("s1", "s2"):
                answers[-1][3][-1].append(item(line))
            else:
                answers[-1][4] = outcome(line)
    return answers, counts


def wrapped(parts, indent, last, width=WIDTH):
    """Parts joined to a list, over as many lines as they need."""
    lines, line = [], indent
    for part in parts + [last]:
        piece = part if part == last else part + " ∷ "
        if len(line) + len(piece) > width and line != indent:
            lines.append(line.rstrip())
            line = indent
        line += piece
    return lines + [line]


def theorem(path):
    comment, header, events = read_trace(path)
    answers, counts = read_report(path[:-len("trace")] + "report")
    name = os.path.basename(path)[:-len(".trace")]
    ranges = " ∷ ".join(header["ranges"] + ["[]"])
    out = textwrap.wrap(comment or name.replace("_", " "), 117, initial_indent="-- ", subsequent_indent="-- ")
    out.append("%s : Comes (header %s (%s) %s %s)" % (name, header["cores"], ranges, header["size"], header["policy"]))
    out += wrapped(events, "    ", "[]")
    out[-len(wrapped(events, "    ", "[]"))] = "    (" + out[-len(wrapped(events, "    ", "[]"))].lstrip()
    out[-1] += ")"
    out.append("    (" + answer(answers[0]) if answers else "    ([]")
    for one in answers[1:]:
        out[-1] += " ∷"
        out.append("    " + answer(one))
    out[-1] += " ∷ [])" if answers else ")"
    out.append("    (%s)" % ("Some (%s)" % " ∷ ".join(counts + ["[]"]) if counts else "None"))
    return "\n".join(out + ["unfolding on_worked_walks on_worked_runs", "%s = (refl, %s)" % (name, "refl" if counts else "tt")])


def answer(one):
    step, asid, vmid, trails, end = one
    head = "%s %s %s %s %s" % ("told" if len(trails) == 1 else "conflict_told", step, asid, vmid, end)
    if len(trails) == 2:
        head = "conflict_told %s %s %s" % (step, asid, vmid)
    text = head
    for trail in trails:
        lines = wrapped(trail, "    ", "[]", WIDTH - 5)
        text += "\n" + "\n".join(lines).replace("    ", "    (", 1) + ")"
    return text


def file_of(paths):
    """The text of a file with a theorem for each trace."""
    body = "\n\n".join(theorem(path) for path in paths)
    lines = ["-- Worked runs, computed. Written by scripts/worked_runs.py from traces and their reports.",
             "use Rattle.std.proofs.Common.{%s}" % ", ".join(n for n in COMMON if n in LISTS or has(body, n)),
             "use Rattle.std.specs.Prelude.{%s}" % ", ".join(n for n in ["Some", "None"] if has(body, n))]
    for module, names in VARIANTS.items():
        used = [n for n in names if has(body, n.split(" as ")[-1])]
        if used:
            lines.append("use %s%s.TheVariants.{%s}" % (PREFIX, module, ", ".join(used)))
    walks = [n for n in ["on_worked_walks", "access", "wb", "wt"] if has(body, n)]
    lines.append("use Rattle.walk_spec.proofs.Worked.{%s}" % ", ".join(walks))
    runs = [n for n in WORDS if n != "access" and has(body, n)]
    lines.append("use Rattle.machine_spec.proofs.Worked.{%s}" % ", ".join(runs))
    return "\n".join(lines + ["", body, ""])


def listed():
    """The files, and the traces of each: a line ends in a colon where it names a file."""
    files = {}
    with open(os.path.join(DATA, "worked_runs.txt"), encoding="ascii") as f:
        for line in f.read().splitlines():
            word = line.strip()
            if word.endswith(":"):
                files[word[:-1]] = traces = []
            elif word and not word.startswith("#"):
                traces.append(os.path.join(DATA, word + ".trace"))
    return files


def main():
    if sys.argv[1:]:
        sys.stdout.write(file_of(sys.argv[1:]))
        return
    for name, paths in listed().items():
        with open(os.path.join(PROOFS, name + ".antt"), "w", encoding="utf-8") as f:
            f.write(file_of(paths))


def has(body, name):
    body = "\n".join(line for line in body.split("\n") if not line.startswith("--"))
    return any(w == name for w in body.replace("(", " ").replace(")", " ").split())


if __name__ == "__main__":
    main()
