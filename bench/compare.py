#!/usr/bin/env python3
"""compare.py PROGRAM TWIN FOLDER|--random N [--from SEED] [--rows] [--counts]

Runs `PROGRAM run T` and `TWIN run T` on each trace T of a folder (each file that ends with .trace, or each file where none
does), or on N random traces of traces.py, with rows where it is said, and compares standard output, standard error and exit
status. It prints what differs, and last `N passed, M failed`. Of random traces that fail the text is kept in
failed/SEED.trace.

With --counts it also runs `TWIN counts T`, and prints before the last line how often all traces together reached what, a line
`NAME N` each, also where N is 0: rows that came, were evicted by policy, were removed by invalidations and served, conflicts
and evictions by the kind of the rows, messages and register writes that met 64 waiting ones, old and stale answers, and traces
that are refused."""
import difflib
import os
import subprocess
import sys
import tempfile

HERE = os.path.dirname(os.path.abspath(__file__))
SECONDS = 120


def run(program, path, command="run"):
    try:
        p = subprocess.run([program, command, path], stdin=subprocess.DEVNULL, capture_output=True, timeout=SECONDS)
    except subprocess.TimeoutExpired:
        return None
    return p.returncode, p.stdout, p.stderr


def diff(name, one, two):
    one, two = (text.decode("latin-1").split("\n") for text in (one, two))
    lines = list(difflib.unified_diff(one, two, "%s of the program" % name, "%s of the twin" % name, lineterm="", n=1))
    more = ["... %d more lines" % (len(lines) - 20)] if len(lines) > 20 else []
    return ["    " + line for line in lines[:20] + more]


def differences(program, twin, path):
    """What differs, as lines of text."""
    one, two = run(program, path), run(twin, path)
    if one is None or two is None:
        return ["  no end within %d seconds: %s" % (SECONDS, program if one is None else twin)]
    found = []
    if one[0] != two[0]:
        found.append("  status %d of the program, %d of the twin" % (one[0], two[0]))
    for name, a, b in (("stdout", one[1], two[1]), ("stderr", one[2], two[2])):
        if a != b:
            found += diff(name, a, b)
    return found


def add_counts(twin, path, counts):
    """Adds what a trace reached to the counts; what went wrong, as lines of text."""
    done = run(twin, path, "counts")
    if done is None or done[0] != 0:
        return ["  no counts of the twin"]
    for line in done[1].decode().splitlines():
        name, count = line.split(" ")
        counts[name] = counts.get(name, 0) + int(count)
    return []


def in_folder(folder):
    names = sorted(name for name in os.listdir(folder) if os.path.isfile(os.path.join(folder, name)))
    traces = [name for name in names if name.endswith(".trace")] or names
    for name in traces:
        yield name, os.path.join(folder, name), None


def at_random(count, first, rows):
    sys.path.insert(0, HERE)
    sys.dont_write_bytecode = True
    import traces
    with tempfile.TemporaryDirectory() as folder:
        path = os.path.join(folder, "t")
        for seed in range(first, first + count):
            text = (traces.RandomRows if rows else traces.Random)(str(seed)).text()
            with open(path, "wb") as f:
                f.write(text)
            yield "random %d" % seed, path, os.path.join(HERE, "failed", "%d.trace" % seed)


def keep(path, kept):
    os.makedirs(os.path.dirname(kept), exist_ok=True)
    with open(path, "rb") as f, open(kept, "wb") as g:
        g.write(f.read())


def compare(program, twin, cases, counts):
    """Compares on each trace, counts where counts are wanted, and answers how many passed and failed."""
    passed = failed = 0
    for name, path, kept in cases:
        found = differences(program, twin, path)
        if counts is not None:
            found += add_counts(twin, path, counts)
        if not found:
            passed += 1
            continue
        failed += 1
        print("FAIL %s" % name)
        print("\n".join(found))
        if kept:
            keep(path, kept)
    return passed, failed


def main():
    words = sys.argv[1:]
    first = 0
    rows, counted = "--rows" in words, "--counts" in words
    words = [word for word in words if word not in ("--rows", "--counts")]
    if "--from" in words:
        at = words.index("--from")
        first = int(words[at + 1])
        del words[at:at + 2]
    if len(words) == 4 and words[2] == "--random":
        program, twin, cases = words[0], words[1], at_random(int(words[3]), first, rows)
    elif len(words) == 3:
        program, twin, cases = words[0], words[1], in_folder(words[2])
    else:
        sys.exit(__doc__)
    counts = {} if counted else None
    passed, failed = compare(os.path.abspath(program), os.path.abspath(twin), cases, counts)
    for name, count in sorted((counts or {}).items()):
        print("%s %d" % (name, count))
    print("%d passed, %d failed" % (passed, failed))
    sys.exit(1 if failed else 0)


if __name__ == "__main__":
    main()
