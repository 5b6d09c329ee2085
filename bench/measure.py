#!/usr/bin/env python3
"""Measures a built `ledgerd` beside `plain`, and prints a table. See run.sh.

Times are processor seconds (user and system), the least of the rounds; the two programs take turns. Behind a
slash is the least real time. `same` says that both wrote the same transcript, image, journal and digests.

Where a case is the tenth of another, a round of it is ten runs in a row and their mean, so that it lasts as long
as one of the whole and meets as much of what else the machine does: the least of single short runs would make
the growth look greater than it is. Growth is measured in turns: each round of the whole follows a round of its
tenth, and the growth is the median of what the rounds show, so that both meet the same moods of the machine."""
import os
import statistics
import subprocess
import sys
import time

HERE = os.path.dirname(os.path.abspath(__file__))
OUT = os.path.join(HERE, "out")
SETTINGS = ["--save", "x", "--clock", "0", "--block-size", "100"]

# name of the case, words of inputs.py, the case with a tenth of its rows and how many times as long it may take
CASES = [
    ("gen 1000", ["gen", "1000"], None, None),
    ("gen 10000", ["gen", "10000"], "gen 1000", 12),
    ("rising tenth", ["inserts", "rising"], None, None),
    ("rising 4 MiB", ["inserts", "rising"], "rising tenth", 12),
    ("random tenth", ["inserts", "random"], None, None),
    ("random 4 MiB", ["inserts", "random"], "random tenth", 20),
    ("10^5 updates, 1 row", ["updates"], None, None),
    ("10^5 updates, 1000 rows", ["updates", "1000"], None, None),
    ("4 indexes, 500 rows", ["indexes", "500"], None, None),
    ("4 indexes, 5000 rows", ["indexes", "5000"], "4 indexes, 500 rows", 12),
    ("1 statement of 1000 rows", ["wide", "1"], None, None),
    ("100 statements of 1000 rows", ["wide", "100"], None, None),
    ("1000 rows, all changed 10 times", ["all", "10"], None, None),
    ("1000 rows, all changed 100 times", ["all", "100"], "1000 rows, all changed 10 times", 12),
    ("1000 rows, all changed 1000 times", ["all", "1000"], "1000 rows, all changed 100 times", 12),
]
TENTHS = {tenth for _, _, tenth, _ in CASES if tenth}
WORDS = {name: words for name, words, _, _ in CASES}
MOST_RATIO = 3
MOST_SECONDS = 20
# What lasts less is shown and not judged: a case beside plain Rust, and a round of which growth is told.
LEAST_SECONDS = 0.02
LEAST_ROUND = 0.1


def input_of(name, words):
    path = os.path.join(OUT, name.replace(" ", "_").replace("^", "") + ".txt")
    if not os.path.exists(path):
        text = subprocess.run([sys.executable, os.path.join(HERE, "inputs.py"), *words], check=True, capture_output=True).stdout
        if name.endswith("tenth"):
            lines = text.splitlines(keepends=True)
            rows = (len(lines) - 2) // 10
            text = b"".join(lines[: rows + 1] + lines[-1:])
        with open(path, "wb") as file:
            file.write(text)
    return path


def run(program, words, folder, source, limit):
    """Status, processor seconds and real seconds of one run; none past the limit."""
    os.makedirs(folder, exist_ok=True)
    began = time.monotonic()
    with open(source or os.devnull, "rb") as stdin, open(os.path.join(folder, "out"), "wb") as stdout:
        with open(os.path.join(folder, "err"), "wb") as stderr:
            child = subprocess.Popen([program, *words], cwd=folder, stdin=stdin, stdout=stdout, stderr=stderr)
    while True:
        pid, status, usage = os.wait4(child.pid, os.WNOHANG)
        if pid:
            break
        if time.monotonic() - began > limit:
            os.kill(child.pid, 9)
            os.wait4(child.pid, 0)
            return None
        time.sleep(0.002)
    child.returncode = os.waitstatus_to_exitcode(status)
    return child.returncode, usage.ru_utime + usage.ru_stime, time.monotonic() - began


def bytes_of(folder, name):
    try:
        with open(os.path.join(folder, name), "rb") as file:
            return file.read()
    except FileNotFoundError:
        return None


def same(a, b):
    return all(bytes_of(a, n) == bytes_of(b, n) for n in ["out", "x.img", "x.journal", "x.digests"])


def least(found, new):
    return new if found is None else (new[0], min(found[1], new[1]), min(found[2], new[2]))


def mean_of_runs(count, *words):
    """As `run`, of so many runs in a row: the worst status, and the mean times."""
    found = []
    for _ in range(count):
        one = run(*words)
        if one is None:
            return None
        found.append(one)
    statuses, processor, real = zip(*found)
    return max(statuses), sum(processor) / count, sum(real) / count


def folder_of(n, name):
    return os.path.join(OUT, f"{n}_{name.replace(' ', '_').replace('^', '').replace(',', '')}")


def round_of(program, n, call, name, limit):
    """One round of a case: a run, or where it is the tenth of another ten in a row and their mean."""
    words = ["step", *SETTINGS] if call == "step" else ["verify", "x.img", "x.digests"]
    source = input_of(name, WORDS[name]) if call == "step" else None
    return mean_of_runs(10 if name in TENTHS else 1, program, words, folder_of(n, name), source, limit)


def measure(programs, call, name, tenth, rounds, limit):
    """Of each program the least times, and the growth from the tenth, if there is one, in turns with it."""
    best, growths = [None, None], [[], []]
    for _ in range(rounds):
        for n, program in enumerate(programs):
            before = round_of(program, n, call, tenth, limit) if tenth else None
            one = round_of(program, n, call, name, limit)
            if one is None:
                return best[0], None, None
            best[n] = least(best[n], one)
            if before is not None:
                growths[n].append(one[1] / max(before[1], 0.0001))
    return *best, statistics.median(growths[1]) if growths[1] else None


def shown(one):
    return "too long" if one is None else f"{one[1]:8.3f} /{one[2]:8.3f}"


def compressions(program, words, source):
    with open(source or os.devnull, "rb") as stdin:
        err = subprocess.run([program, *words], cwd=OUT, stdin=stdin, capture_output=True,
                             env={"PLAIN_COUNT": "1"}).stderr
    return int(err.split()[-1])


def verdict_on(ledgerd, plain, judged):
    if ledgerd is None:
        return "-", ["too long"]
    ratio = ledgerd[1] / max(plain[1], 0.001)
    faults = []
    if judged and ratio > MOST_RATIO:
        faults.append(f"more than {MOST_RATIO} times")
    if ledgerd[0] != 0:
        faults.append(f"status {ledgerd[0]}")
    return f"{ratio:.2f}", faults


def main(words):
    ledgerd, rounds, limit = os.path.abspath(words[0]), int(words[1]), float(words[2])
    only = words[3:]
    plain = os.path.join(HERE, "plain")
    os.makedirs(OUT, exist_ok=True)
    programs = [plain, ledgerd]
    failed = 0
    form = "{:34} {:7} {:>19} {:>19} {:>6} {:>6}  {}"
    print(form.format("case", "call", "plain cpu / real", "ledgerd cpu / real", "ratio", "growth", "bars"))
    for name, _, tenth, growth in CASES:
        if only and not any(o in name for o in only):
            continue
        for call in ["step", "verify"]:
            one, two, grown = measure(programs, call, name, tenth, rounds, limit)
            ratio, faults = verdict_on(two, one, one[1] >= LEAST_SECONDS)
            if two is not None and call == "step":
                if not same(folder_of(0, name), folder_of(1, name)):
                    faults.append("not the same bytes")
                if name.endswith("4 MiB") and two[1] > MOST_SECONDS:
                    faults.append(f"more than {MOST_SECONDS} s")
            if two is not None and call == "verify" and bytes_of(folder_of(1, name), "out") != b"Yes\n":
                faults.append("not Yes")
            if grown is not None and two[1] >= LEAST_ROUND and grown > growth:
                faults.append(f"more than {growth} times the tenth")
            failed += len(faults)
            shown_growth = "-" if grown is None else f"{grown:.1f}"
            print(form.format(name, call, shown(one), shown(two), ratio, shown_growth, ", ".join(faults) or "ok"), flush=True)
            if two is None:
                break
    print()
    for count in [1000, 2000]:
        source = input_of(f"gen {count}", ["gen", str(count)])
        step = compressions(plain, ["step", *SETTINGS], source)
        verify = compressions(plain, ["verify", "x.img", "x.digests"], None)
        fine = step - 28 * count == verify - 28 * count == 60
        failed += not fine
        print(f"gen {count}: plain has {step} compressions in step and {verify} in verify, 28 a count and "
              f"{step - 28 * count} and {verify - 28 * count} of the setup{'' if fine else ': NOT AS WANTED'}")
    print(f"{failed} bars missed")
    return failed > 0


sys.exit(main(sys.argv[1:]))
