#!/usr/bin/env python3
"""bench.py TRACE PROGRAM.. [--times N]   the cost of N runs (5) of `PROGRAM run TRACE`
bench.py table A B [--times N] [--rows] a Markdown table of both programs' cost on many traces of traces.py: without rows, of
                                       many lengths, or with --rows of 50,000 events on 8 cores, of each size and policy

Programs take turns, and their output goes to /dev/null. Of one trace: median, mean and least of user+sys, medians of user,
of sys and of wall time, page faults, and peak memory; for a program named twin also of `run --quiet TRACE`. In the table:
medians of user+sys, instructions where valgrind is installed, minor page faults, and peak memory."""
import itertools
import os
import re
import shutil
import statistics
import subprocess
import sys
import tempfile
import time

NULL = [(os.POSIX_SPAWN_OPEN, 1, "/dev/null", os.O_WRONLY, 0)]
HEADS = ["user+sys A, ms", "B", "A / B", "M instructions A", "B", "A / B", "page faults A", "B", "peak A, MB", "B"]
POLICIES = ["lru", "fifo", "random 0x1"]
MEMORY = {64: "64 KB", 4 << 10: "4 MB", 64 << 10: "64 MB"}


def once(words):
    """User, sys and wall time in ms, and page faults."""
    start = time.perf_counter()
    pid = os.posix_spawn(words[0], words, os.environ, file_actions=NULL)
    _, status, usage = os.wait4(pid, 0)
    assert status == 0, status
    wall = time.perf_counter() - start
    return 1e3 * usage.ru_utime, 1e3 * usage.ru_stime, 1e3 * wall, usage.ru_minflt


def peak(words):
    """The peak memory in KB, looked up each time that output is there. wait4 would tell no less than Python's own peak."""
    most = 0
    with subprocess.Popen(words, stdout=subprocess.PIPE, bufsize=0) as run:
        while run.stdout.read(1 << 14):
            with open("/proc/%d/status" % run.pid) as status:
                found = re.search(r"VmHWM:\s*(\d+)", status.read())
            most = max(most, int(found[1]) if found else 0)
    return most


def instructions(words):
    """The instructions in millions, None without valgrind."""
    if not shutil.which("valgrind"):
        return None
    asked = ["valgrind", "--tool=callgrind", "--callgrind-out-file=/dev/null"] + words
    told = subprocess.run(asked, stdout=subprocess.DEVNULL, stderr=subprocess.PIPE, text=True).stderr
    return int(re.search(r"Collected : (\d+)", told)[1]) / 1e6


def in_turns(asked, times):
    """The costs of each command, as lists of user, sys and wall times and of page faults."""
    runs = [[once(words) for words in asked] for _ in range(times)]
    return [list(zip(*costs)) for costs in zip(*runs)]


def middle_of_both(user, system):
    return statistics.median(u + s for u, s in zip(user, system))


def commands(programs, trace):
    for program in programs:
        yield [program, "run", trace]
        if os.path.basename(program) == "twin":
            yield [program, "run", "--quiet", trace]


def told(words, costs):
    user, system, wall, faults = costs
    both = [u + s for u, s in zip(user, system)]
    middle = statistics.median
    return ("%s %s: median %.1f ms, mean %.1f, best %.1f; user %.1f, sys %.1f, wall %.1f; %d page faults, peak %d KB"
            % (os.path.basename(words[0]), " ".join(words[1:-1]), middle(both), statistics.mean(both), min(both), middle(user),
               middle(system), middle(wall), middle(faults), peak(words)))


def pair(form, a, b):
    """Two cells and their ratio."""
    return ["", "", ""] if a is None or b is None else [form % a, form % b, "%.2f" % (a / b)]


def row(asked, times):
    """The cells of a trace."""
    costs = in_turns(asked, times)
    times_of_both = [middle_of_both(user, system) for user, system, _, _ in costs]
    faults = ["%d" % statistics.median(faults) for _, _, _, faults in costs]
    peaks = ["%.1f" % (peak(words) / 1024) for words in asked]
    return pair("%.2f", *times_of_both) + pair("%.1f", *map(instructions, asked)) + faults + peaks


def by_length():
    """The traces without rows: the cells that name each, and what traces.py is asked for."""
    for stages, events, cores, memory in itertools.product((1, 2), (1000, 10000, 50000), (1, 2, 8), MEMORY):
        asked = ["big", str(events), str(cores), "4", "--memory", str(memory)]
        asked += ["--stage2"] * (stages - 1) + ["--pages", "16"] * (memory == 64)     # 64 KB have room for few tables
        yield ["%d" % stages, "{:,}".format(events), "%d" % cores, MEMORY[memory]], asked


def by_size():
    """The same of the traces with rows."""
    for stages, (size, policy) in itertools.product((1, 2), itertools.product(("small", "medium", "large"), POLICIES)):
        asked = ["big", "50000", "8", "4", "--caches", size, "--policy", policy] + ["--stage2"] * (stages - 1)
        yield ["%d" % stages, size, policy], asked


def write_trace(path, asked):
    maker = os.path.join(os.path.dirname(os.path.abspath(__file__)), "traces.py")
    with open(path, "wb") as file:
        subprocess.run([sys.executable, maker] + asked, stdout=file, check=True)


def table(a, b, times, rows):
    print("A is %s, B is %s; medians of %d turns.\n" % (os.path.basename(a), os.path.basename(b), times))
    names = ["stages", "caches", "policy"] if rows else ["stages", "events", "cores", "memory"]
    print("| " + " | ".join(names + HEADS) + " |")
    print("|---" * (len(names) + len(HEADS)) + "|")
    with tempfile.TemporaryDirectory() as folder:
        path = os.path.join(folder, "t")
        for cells, asked in by_size() if rows else by_length():
            write_trace(path, asked)
            print("| " + " | ".join(cells + row([[a, "run", path], [b, "run", path]], times)) + " |", flush=True)


def main():
    words = sys.argv[1:]
    times = 5
    rows = "--rows" in words
    if rows:
        words.remove("--rows")
    if "--times" in words:
        at = words.index("--times")
        times = int(words[at + 1])
        del words[at:at + 2]
    if len(words) == 3 and words[0] == "table":
        table(words[1], words[2], times, rows)
    elif len(words) >= 2 and words[0] != "table":
        asked = list(commands(words[1:], words[0]))
        for command, costs in zip(asked, in_turns(asked, times)):
            print(told(command, costs))
    else:
        sys.exit(__doc__)


if __name__ == "__main__":
    main()
