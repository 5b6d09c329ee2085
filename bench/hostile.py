#!/usr/bin/env python3
"""Makes each list of each format as long as its file may be, and looks whether a built `ledgerd` stalls there.

    bench/hostile.py PROGRAM [CASE ..] [--part P] [--seconds S] [--growth] [--list]

Of each case, or of those whose name has one of the words, there are three inputs: one of a P-th of the most bytes that
its file may have (a fourth; n items), one of twice as many, and one of all. A call takes at most S processor seconds
(60); one that takes more at n is tried with a fourth of n, until it ends. The table has the processor seconds (user and
system), the memory at its peak, and what was said; with --growth the largest is left out. The bars: twice the items in at most 2.5 times the
time (not judged below a tenth of a second), the largest in at most 60 s and 4 GB. The status is 1 where one is missed.
"""

import argparse
import itertools
import multiprocessing
import os
import resource
import subprocess
import sys
import tempfile
from collections.abc import Callable
from typing import NamedTuple, Optional

TOP = os.path.dirname(os.path.dirname(os.path.abspath(__file__)))
sys.path.insert(0, os.path.join(TOP, "tools"))

# pylint: disable=wrong-import-position
from hostile_cases import CASES, Call, Case

MOST_GROWTH, MOST_SECONDS, MOST_MEMORY = 2.5, 60, 4 * 10**9
# what is shorter isn't judged, and no run gets more memory than this
LEAST_SECONDS, MOST_ADDRESSES = 0.1, 8 << 30


class Ran(NamedTuple):
    """What a call took; no seconds where it was stopped."""

    count: int
    seconds: Optional[float]
    memory: int
    status: int
    said: str


def put_files(case: int, size: int, folder: str) -> tuple[list[str], int]:
    """Puts the files of a call; its words and the number of items."""
    call: Call = CASES[case].make(size)
    for name, data in (*call.files.items(), ("stdin", call.stdin)):
        with open(os.path.join(folder, name), "wb") as file:
            file.write(data)
    return call.words, call.count


def run(program: str, case: int, size: int, seconds: int) -> Ran:
    """One call, over a file of so many bytes."""
    with tempfile.TemporaryDirectory() as folder:
        # in a process of its own: a call's peak of memory is no less than that of the process that begins it
        with multiprocessing.Pool(1) as pool:
            words, count = pool.apply(put_files, (case, size, folder))

        def limit() -> None:
            resource.setrlimit(resource.RLIMIT_CPU, (seconds + 1, seconds + 1))
            resource.setrlimit(resource.RLIMIT_AS, (MOST_ADDRESSES, MOST_ADDRESSES))

        def opened(name: str, mode: str):
            return open(os.path.join(folder, name), mode)

        with opened("stdin", "rb") as stdin, opened("out", "wb") as stdout, opened("err", "wb") as stderr:
            child = subprocess.Popen(
                [program, *words], cwd=folder, stdin=stdin, stdout=stdout, stderr=stderr, preexec_fn=limit
            )
            _, ended, usage = os.wait4(child.pid, 0)
        child.returncode = status = os.waitstatus_to_exitcode(ended)
        took = usage.ru_utime + usage.ru_stime
        said = last_bytes(os.path.join(folder, "out")) + last_bytes(os.path.join(folder, "err"))
    return Ran(count, took if status >= 0 else None, usage.ru_maxrss * 1024, status, said)


def last_bytes(path: str) -> str:
    with open(path, "rb") as file:
        file.seek(max(0, os.path.getsize(path) - 300))
        return file.read().decode(errors="replace")


def measured(program: str, case: int, part: int, seconds: int, is_whole: bool) -> tuple[Ran, Ran, Optional[Ran]]:
    """A run of n items, one of 2n, and one of the most, where it is asked for and can be told that it ends."""
    most = CASES[case].most
    size = most // part
    one = run(program, case, size, seconds)
    while one.seconds is None and size > 1000:
        size //= 4
        one = run(program, case, size, seconds)
    two = run(program, case, 2 * size, seconds * 4)
    fits = is_whole and size == most // part and two.seconds is not None and two.seconds * part / 2 < seconds * 2
    return one, two, run(program, case, most, seconds * 2) if fits else None


def faults_of(case: Case, is_whole: bool, one: Ran, two: Ran, largest: Optional[Ran]) -> list[str]:
    faults = []
    if two.seconds is None or one.seconds is None:
        faults.append("too long")
    elif two.seconds >= LEAST_SECONDS and two.seconds > MOST_GROWTH * one.seconds:
        faults.append(f"{two.seconds / one.seconds:.1f} times")
    if is_whole and (largest is None or largest.seconds is None or largest.seconds > MOST_SECONDS):
        faults.append(f"over {MOST_SECONDS} s")
    if largest is not None and largest.memory > MOST_MEMORY:
        faults.append("over 4 GB")
    faults += [f"says {ran.said[-40:]!r} ({ran.status})" for ran in (one, largest) if ran and case.says not in ran.said]
    return faults


def shown(seconds: Optional[float]) -> str:
    return "-" if seconds is None else f"{seconds:.2f}"


def row_of(case: Case, one: Ran, two: Ran, largest: Optional[Ran]) -> str:
    """The row of the table."""
    growth = "-" if one.seconds is None or two.seconds is None else f"{two.seconds / max(one.seconds, 0.01):.1f}"
    last = (f"{largest.count:,}", shown(largest.seconds), f"{largest.memory / 10**6:,.0f}") if largest else ("-",) * 3
    cells = (case.name, f"{one.count:,}", shown(one.seconds), shown(two.seconds), growth, *last, case.says.strip())
    return f"| {' | '.join(cells)} |"


def main() -> int:
    words = argparse.ArgumentParser(usage=__doc__)
    words.add_argument("program")
    words.add_argument("cases", nargs="*")
    words.add_argument("--part", type=int, default=4)
    words.add_argument("--seconds", type=int, default=MOST_SECONDS)
    words.add_argument("--growth", action="store_true")
    words.add_argument("--list", action="store_true")
    given = words.parse_intermixed_args()
    program = os.path.abspath(given.program)
    failed = 0
    print("| Case | n | Seconds | at 2n | Growth | Most | Seconds | MB | Said | Bars |\n|" + "---|" * 10)
    for place, case in enumerate(CASES):
        if given.cases and not any(word in case.name for word in given.cases):
            continue
        if given.list:
            print(case.name)
            continue
        ran = measured(program, place, given.part, given.seconds, not given.growth)
        faults = faults_of(case, not given.growth, *ran)
        failed += bool(faults)
        print(row_of(case, *ran), ", ".join(faults) or "ok", "|", flush=True)
    print(f"{failed} cases miss a bar")
    return failed > 0


if __name__ == "__main__":
    sys.exit(main())
