#!/usr/bin/env python3
"""Measures `asof` beside `verify` and `step`.

    asof.py PROGRAM [ROUNDS [CHANGES]]   of an image of 1,000 rows that were all changed CHANGES times (1,000): processor
                                         seconds (user and system), the least of ROUNDS (3), of `verify`, of `asof` at the
                                         last transaction, which verifies the image too, and so of opening it alone; and
                                         of one SELECT by key in `asof` and in `step`

The folder is made below the system's for temporary files.
"""
import os
import shutil
import subprocess
import sys
import tempfile

SELECTS = 20_000


def seconds(program, folder, words, lines):
    """The processor seconds of a call, which has to end with status 0."""
    with open(f"{folder}/input", "w") as file:
        file.writelines(line + "\n" for line in lines)
    with open(f"{folder}/input") as source, open(os.devnull, "w") as sink:
        child = subprocess.Popen([program, *words], cwd=folder, stdin=source, stdout=sink, stderr=subprocess.DEVNULL)
        _, status, used = os.wait4(child.pid, 0)
        child.returncode = os.waitstatus_to_exitcode(status)
    if child.returncode != 0:
        sys.exit(f"{words[0]} ended with {child.returncode}")
    return used.ru_utime + used.ru_stime


def main(program, rounds=3, changes=1000):
    folder = tempfile.mkdtemp(prefix="asof-")
    rows = ", ".join(f"({n}, 0)" for n in range(1000))
    made = ["a: CREATE TABLE t (id INT PRIMARY KEY, v INT)", f"a: INSERT INTO t VALUES {rows}"]
    made += ["a: UPDATE t SET v = v + 1"] * changes
    selects = [f"SELECT * FROM t WHERE id = {n * 37 % 1000}" for n in range(SELECTS)]
    calls = {
        "step": (["step", "--save", "x", "--clock", "0"], made),
        "step, with SELECTs": (["step", "--save", "y", "--clock", "0"], made + [f"a: {text}" for text in selects]),
        "verify": (["verify", "x.img", "x.digests"], []),
        "asof": (["asof", "x.img", str(changes + 2)], []),
        "asof, with SELECTs": (["asof", "x.img", str(changes + 2)], selects),
    }
    took = {name: [] for name in calls}
    for _ in range(rounds):
        for name, (words, lines) in calls.items():
            took[name].append(seconds(program, folder, words, lines))
    least = {name: min(times) for name, times in took.items()}
    shutil.rmtree(folder)
    for name, time in least.items():
        print(f"{name}: {time:.2f} s")
    opening = least["asof"] - least["verify"]
    print(f"opening {1000 * (changes + 1)} versions: {opening:.2f} s, {opening / least['verify']:.2f} times verify (bar 1.5)")
    for name in "asof", "step":
        each = (least[f"{name}, with SELECTs"] - least[name]) / SELECTS
        print(f"one SELECT by key in {name}: {1000 * each:.3f} ms")


if __name__ == "__main__":
    if len(sys.argv) not in (2, 3, 4):
        sys.exit(__doc__)
    main(os.path.abspath(sys.argv[1]), *map(int, sys.argv[2:]))
