#!/usr/bin/env python3
"""usage: minutes.py [CRATE..]

Prints what the gate costs from nothing, as docs/minutes.txt: the CPU minutes of each crate's check, tests and mutants, the sum of
each, what the system counted for all processes, and the wall time. It calls `rt ci --anew` at the top, over all crates or over these
and those below them, and three times a second reads what each process below it has used so far; so it misses some tenths of a second
of each, and the system's count is higher. That count also has the compilers of programs, the runs of programs and tests, and rt
itself. Call it in a clone of its own with nothing else running: half an hour on four processors. What the gate prints goes to
standard error, and a gate that fails is the status.
"""
import collections
import os
import resource
import subprocess
import sys
import time

TOP = os.path.realpath(os.path.join(os.path.dirname(os.path.abspath(__file__)), ".."))
TICKS = os.sysconf("SC_CLK_TCK")
KINDS = ["check", "tests", "edits"]


def text_of(path):
    try:
        with open(path, encoding="utf-8", errors="replace") as file:
            return file.read()
    except OSError:
        return ""


def status_of(number):
    """The parent of a process, when it began, and the ticks that it has used."""
    fields = text_of(f"/proc/{number}/stat").rpartition(")")[2].split()
    return (fields[1], fields[19], int(fields[11]) + int(fields[12])) if fields else None


def work_of(number):
    """The crate that a process checks, and how."""
    words = text_of(f"/proc/{number}/cmdline").split("\0")
    if "--crate-name" not in words:
        return None
    try:
        is_edit = "/rt-edit-" in os.readlink(f"/proc/{number}/cwd")
    except OSError:
        return None
    crate = words[words.index("--crate-name") + 1]
    return crate, "edits" if is_edit else "tests" if "--test" in words else "check"


def look(gate, works, ticks):
    """Notes what the processes below the gate have used."""
    seen = {it: status_of(it) for it in os.listdir("/proc") if it.isdigit()}
    for number, status in seen.items():
        above = status
        while above and above[0] in seen and above[0] != gate:
            above = seen[above[0]]
        if not above or above[0] != gate:
            continue
        key = number, status[1]
        if works.get(key) is None:
            works[key] = work_of(number)
        ticks[key] = status[2]


def show(name, cells):
    print(f"{name:18}" + "".join(f"{it:>7}" for it in cells))


def main():
    if any(it.startswith("-") or not os.path.isdir(f"{TOP}/crates/{it}") for it in sys.argv[1:]):
        sys.exit(__doc__.splitlines()[0])
    works, ticks, begun = {}, {}, time.time()
    gate = subprocess.Popen(["rt", "ci", "--anew", *sys.argv[1:]], cwd=TOP, stdout=sys.stderr)
    while gate.poll() is None:
        look(str(gate.pid), works, ticks)
        time.sleep(0.3)
    clock = (time.time() - begun) / 60
    minutes = collections.Counter()
    for key, work in works.items():
        if work:
            minutes[work] += ticks[key] / TICKS / 60
    day, kit = time.strftime("%Y-%m-%d", time.gmtime()), subprocess.run(["rt", "version"], capture_output=True, text=True).stdout.split()
    print(f"# CPU minutes of the gate from nothing, by tools/minutes.py; {day}, {kit[0] if kit else 'rt'}, {os.cpu_count()} processors")
    show("crate", KINDS)
    for crate in sorted({crate for crate, _ in minutes}):
        show(crate, [f"{minutes[crate, kind]:.1f}" if minutes[crate, kind] else "-" for kind in KINDS])
    sums = [sum(it for (_, at), it in minutes.items() if at == kind) for kind in KINDS]
    show("all", [f"{it:.0f}" for it in sums])
    used = resource.getrusage(resource.RUSAGE_CHILDREN)
    print(f"# in all {sum(sums):.1f}, with compilers, programs and rt {(used.ru_utime + used.ru_stime) / 60:.1f}, of wall time {clock:.1f}")
    sys.exit(gate.returncode)


main()
