#!/usr/bin/env python3
"""What the gate takes, by crate.

    gate.py [--table FILE] [COMMAND ..]

Runs the command, or ./prove, and looks twice a second at the processes below it. At the end it writes a table to FILE,
or out/gate.md: the processor minutes of each crate's proofs, tests and edits, the most memory that one of its processes
held, and the minutes at which the crate was begun and ended. What follows the last look at a process counts for no crate."""
import os
import re
import resource
import signal
import subprocess
import sys
import time
from types import SimpleNamespace

TOP = os.path.dirname(os.path.dirname(os.path.realpath(__file__)))
TICKS = os.sysconf("SC_CLK_TCK")


def read(pid, name):
    with open(f"/proc/{pid}/{name}", "rb") as it:
        return it.read()


def process_of(pid):
    """Returns the process, or None where it has ended."""
    try:
        # (its name, before the last bracket, may hold blanks and brackets)
        words = read(pid, "stat").rpartition(b")")[2].split()
        seconds = (int(words[11]) + int(words[12])) / TICKS
        of_stat = {"pid": pid, "parent": int(words[1]), "started": int(words[19]), "seconds": seconds}
        return SimpleNamespace(**of_stat, memory=0, crate="", first=None)
    except (OSError, IndexError):
        return None


def work_of(pid):
    """Returns the crate that a process of rattle works on and the kind of its work, or nothing. A trial program is no proof."""
    words = read(pid, "cmdline").decode(errors="replace").split("\0")
    if os.path.basename(words[0]) != "rattle" or "--crate-name" not in words[:-1]:
        return "", ""
    is_edit = os.path.basename(os.readlink(f"/proc/{pid}/cwd")).startswith("rt-edit-")
    return words[words.index("--crate-name") + 1], "edits" if is_edit else "tests" if "--test" in words else "proofs"


def memory_of(pid):
    """Returns the most memory that the process has held, in bytes. One that has ended has no such line."""
    found = re.search(rb"VmHWM:\s+(\d+)", read(pid, "status"))
    return 1024 * int(found[1]) if found else 0


class Family:
    """A process and those below it, as they were at the last look, and all that worked on each crate."""

    def __init__(self, top):
        self.top, self.living, self.strangers, self.crates = top, {}, set(), {}

    def look(self, now):
        here = {int(it) for it in os.listdir("/proc") if it.isdigit()}
        self.strangers &= here
        found = {it.pid: it for it in map(process_of, here - self.strangers) if it}
        self.living = {pid: it for pid, it in self.living.items() if pid in found and found[pid].started == it.started}
        for pid in found:
            above = pid
            # (those above it may be as new)
            while above in found and above not in self.living and above != self.top:
                above = found[above].parent
            if above in self.living or above == self.top:
                self.see(found[pid], now)
            else:
                self.strangers.add(pid)

    def see(self, seen, now):
        one = self.living.setdefault(seen.pid, seen)
        one.first, one.last, one.seconds = now if one.first is None else one.first, now, seen.seconds
        above = self.living.get(one.parent, one)
        try:
            # (a new process may become rattle's yet; what rattle starts, as clang, works on rattle's crate)
            if not one.crate:
                one.crate, one.kind = (above.crate, above.kind) if above.crate else work_of(one.pid)
                if one.crate:
                    self.crates.setdefault(one.crate, []).append(one)
            one.memory = max(one.memory, memory_of(one.pid))
        except OSError:
            pass


def longest_chain(crates):
    """Returns the crates, each above the one before it, whose proofs took the longest in a row, and how long each took."""
    with open(f"{TOP}/crates.txt", encoding="utf-8") as it:
        rows = [line.partition("#")[0].partition(":") for line in it]
    uses, chains = {head.split()[0]: tail.split() for head, _, tail in rows if head.split()}, {}
    length = lambda chain: sum(own for _, own in chain)

    def chain(crate):
        if crate not in chains:
            spans = [(it.first, it.last) for it in crates.get(crate, []) if it.kind == "proofs"]
            own = max(last for _, last in spans) - min(first for first, _ in spans) if spans else 0
            chains[crate] = [*max((chain(it) for it in uses[crate] if it in uses), key=length, default=[]), (crate, own)]
        return chains[crate]

    return [it for it in max(map(chain, uses), key=length, default=[]) if it[1]]


def row(name, processes):
    seconds = [sum(it.seconds for it in processes if it.kind == kind) for kind in ("proofs", "tests", "edits")]
    begun, ended = min(it.first for it in processes), max(it.last for it in processes)
    shown = [f"{it / 60:.2f}" for it in (*seconds, sum(seconds), begun, ended)]
    return f"| {' | '.join([name, *shown[:4], f'{max(it.memory for it in processes) / 1e9:.2f}', *shown[4:]])} |"


def table(crates, words, status, wall):
    seconds_of = lambda name: sum(it.seconds for it in crates[name])
    used, chain = resource.getrusage(resource.RUSAGE_CHILDREN), longest_chain(crates)
    # (what a command that was stopped leaves running is in no total of it)
    rest = max(used.ru_utime + used.ru_stime - sum(map(seconds_of, crates)), 0)
    yield f"`{' '.join(words)}` ended with status {status}. Times are minutes, memory is GB of one process.\n"
    yield "| crate | proofs | tests | edits | all | memory | begun | ended |\n|:--|--:|--:|--:|--:|--:|--:|--:|"
    yield from (row(name, crates[name]) for name in sorted(crates, key=seconds_of, reverse=True))
    yield from [row("all", [it for processes in crates.values() for it in processes])] if crates else []
    yield f"\nProcessor time: user {used.ru_utime / 60:.2f}, system {used.ru_stime / 60:.2f}, of both {rest / 60:.2f} for no crate."
    yield f"By the clock: {wall / 60:.2f}."
    yield f"The longest chain of proofs, by the clock: {sum(own for _, own in chain) / 60:.2f}"
    yield f"({', '.join(f'{name} {own / 60:.2f}' for name, own in chain)})."


def main(words):
    if words[:1] in (["-h"], ["--help"]):
        return print(__doc__)
    if words == ["--table"]:
        sys.exit("gate.py: --table wants a file")
    file, words = (words[1], words[2:]) if words[:1] == ["--table"] else (f"{TOP}/out/gate.md", words)
    words, began = words or [f"{TOP}/prove"], time.monotonic()
    ran = subprocess.Popen(words)
    # (Ctrl-C reaches the command too; either way the table tells of what was seen)
    signal.signal(signal.SIGINT, signal.SIG_IGN)
    signal.signal(signal.SIGTERM, lambda *_: ran.terminate())
    family = Family(ran.pid)
    while ran.poll() is None:
        family.look(time.monotonic() - began)
        time.sleep(0.5)
    lines = table(family.crates, words, ran.returncode, time.monotonic() - began)
    os.makedirs(os.path.dirname(os.path.abspath(file)), exist_ok=True)
    with open(file, "w", encoding="utf-8") as it:
        print(*lines, sep="\n", file=it)
    return ran.returncode if ran.returncode >= 0 else 128 - ran.returncode


sys.exit(main(sys.argv[1:]))
