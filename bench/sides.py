#!/usr/bin/env python3
"""Runs `run` many times over, and measures it beside `step`.

    sides.py runs PROGRAM [TIMES [COUNT]]   TIMES runs (1,000) of 8 sessions that change the same rows while blocks are
                                            closed, COUNT statements (20) each; `verify` has to accept each image that
                                            a run saved with its digests, and `replay` to lead to the last of them
    sides.py columns PROGRAM [TIMES [COUNT]]  the same of 3 sessions that insert, update and read while a fourth adds
                                            columns to their table and drops them; what a SELECT that is a transaction
                                            of its own shows, `asof` has to show at the place of its end line
    sides.py snapshots PROGRAM [TIMES [COUNT]]  the same of these four with five snapshots among them: what a snapshot
                                            was answered, `asof` has to answer of the image that it names and of the
                                            last one, behind as many transactions as that image has
    sides.py cost PROGRAM [ROUNDS]          4 sessions on 4 tables, the same statements by `step` and by `run` in
                                            turns: seconds by the clock, the least of ROUNDS (5)

A run that takes more than 60 seconds counts as one that hangs. Folders are made below the system's for temporary files,
that of a run that fails stays.
"""
import glob
import json
import os
import pathlib
import random
import re
import shutil
import subprocess
import sys
import tempfile
import time

sys.path.insert(0, os.path.join(os.path.dirname(os.path.abspath(__file__)), "..", "tools"))
from ledger import Transaction, read_journal  # noqa: E402

DIGEST = "EXECUTE sp_generate_database_ledger_digest"


def call(program, folder, *words, lines=None):
    """The exit status and the output of a call in a folder."""
    text = None if lines is None else "".join(line + "\n" for line in lines)
    ended = subprocess.run([program, *words], cwd=folder, input=text, capture_output=True, text=True, timeout=60)
    return ended.returncode, ended.stdout


def contention(count, seed):
    """Sessions that change the same four rows of two tables, alone and in transactions."""
    yield "-- setup"
    for table in "ab":
        yield f"CREATE TABLE {table} (id INT PRIMARY KEY, v INT)"
        yield f"INSERT INTO {table} VALUES (0, 0), (1, 0)"
    source = random.Random(seed)
    for session in range(8):
        yield f"-- session s{session}"
        for n in range(count):
            row, table = source.randrange(2), source.choice("ab")
            yield source.choice([
                f"UPDATE {table} SET v = v + 1 WHERE id = {row}",
                f"INSERT INTO {table} VALUES ({100 * session + n + 2}, 0)",
                f"SELECT * FROM {table} WHERE id = {row}",
                "BEGIN TRANSACTION", "COMMIT", "ROLLBACK", DIGEST, "SAVE IMAGE"])


def altering(count, seed):
    """Three sessions that change and read one table, while another adds columns to it and drops them, again and again
    until no lock is in the way."""
    yield "-- setup"
    yield "CREATE TABLE a (id INT PRIMARY KEY, v INT)"
    yield "INSERT INTO a VALUES (0, 0), (1, 0)"
    source = random.Random(seed)
    yield "-- session s0"
    for n in range(count):
        change = source.choice([f"ADD w{n % 7} INT", f"ADD w{n % 7} NVARCHAR(5)", f"DROP COLUMN w{(n + 4) % 7}"])
        yield from [f"ALTER TABLE a {change}"] * 5
    for session in range(1, 4):
        yield f"-- session s{session}"
        for n in range(count):
            row, column, new = source.randrange(2), f"w{source.randrange(7)}", 100 * session + n
            yield from source.choice([
                [f"UPDATE a SET v = v + 1 WHERE id = {row}"], [f"UPDATE a SET {column} = NULL, v = v + 1"],
                [f"INSERT INTO a (id, v) VALUES ({new}, 0)"], [f"INSERT INTO a (id, {column}) VALUES ({new}, NULL)"],
                [f"DELETE FROM a WHERE id = {new - 1}"],
                ["SELECT * FROM a"], [f"SELECT * FROM a WHERE id = {row}"], [f"SELECT id, {column}, v FROM a"],
                ["SELECT * FROM a_Ledger"], ["SELECT * FROM MSSQL_LedgerHistoryFor_3"], [DIGEST], ["SAVE IMAGE"],
                ["BEGIN TRANSACTION", f"INSERT INTO a (id) VALUES ({new})", "SAVE TRANSACTION p",
                 f"UPDATE a SET v = 1 WHERE id = {new}", "ROLLBACK TRANSACTION p", "COMMIT"]])


def texts_of_snapshot(source, count):
    """What a snapshot is asked: SELECTs of all parts, some of which are refused, and what is none."""
    for _ in range(count):
        yield source.choice([
            "SELECT * FROM a", "SELECT COUNT(*), SUM(v) FROM a", f"SELECT * FROM a WHERE id = {source.randrange(2)}",
            f"SELECT id, w{source.randrange(7)} FROM a ORDER BY id DESC", "SELECT * FROM a_Ledger",
            "SELECT * FROM MSSQL_LedgerHistoryFor_3", "SELECT * FROM sys_ledger_columns",
            "SELECT COUNT(*) FROM sys_ledger_tables", "SELECT * FROM b", "SELECT * FROM a WHERE v = 'x'",
            "DELETE FROM a", "SAVE IMAGE", "BEGIN TRANSACTION", "SELEC", "SELECT * FROM a -- all"])


def reading(count, seed):
    """These four, with a snapshot before each and one behind the last."""
    source, number = random.Random(-1 - seed), 0
    for line in [*altering(count, seed), None]:
        if line is None or line.startswith("-- session"):
            yield f"-- snapshot r{number}"
            yield from texts_of_snapshot(source, count)
            number += 1
        if line is not None:
            yield line


def snapshots_of(lines, transcript):
    """Of each snapshot of an input its texts, the number of items of its image, and what they were answered."""
    heads = [n for n, line in enumerate(lines) if line.startswith("--")]
    for head, end in zip(heads, heads[1:] + [len(lines)]):
        if lines[head].startswith("-- snapshot "):
            name = lines[head].split()[2]
            entries = re.findall(rf"^{name}: (.*\n(?:  .*\n)+)", transcript, re.MULTILINE)
            kept = re.fullmatch(r"SAVE IMAGE\n  image (\d+)\n", entries[0])
            yield lines[head + 1:end], kept and kept[1], "".join(entries[1:])


def reads_of(transcript):
    """Of each SELECT that was a transaction of its own and met no lock: how many were committed, and its entry."""
    for entry in re.findall(r"^\w+: (SELECT .*\n(?:  .*\n)+)", transcript, re.MULTILINE):
        lines = entry.split("\n")[:-1]
        ended = re.fullmatch(r"  ended \d+ after (\d+)", lines[-1])
        if ended and not lines[1].startswith("  E20"):
            yield int(ended[1]), lines[:-1]


def verdict(program, folder, image):
    """What `verify` says of an image: of the last one with all digests, of another with those whose blocks it has."""
    _, said = call(program, folder, "verify", image, "side.digests")
    later = re.fullmatch(r"No V1 digest (\d+)\n", said)
    if later and image != "side.img":
        with open(f"{folder}/side.digests") as all_digests, open(f"{folder}/before.digests", "w") as before:
            json.dump(json.load(all_digests)[:int(later[1])], before)
        _, said = call(program, folder, "verify", image, "before.digests")
    return said.strip()


def fault_of(program, folder, lines):
    """What is wrong with one run, if anything is."""
    try:
        status, transcript = call(program, folder, "run", "--save", "side", "--block-size", "3", lines=lines)
        if status != 0:
            return f"run ended with {status}"
        for image in sorted(os.path.basename(p) for p in glob.glob(f"{folder}/side*.img")):
            said = verdict(program, folder, image)
            if said != "Yes":
                return f"verify says {said} of {image}"
        if call(program, folder, "replay", "side.journal", "--save", "again")[0] != 0:
            return "replay doesn't accept the journal"
        for end in ("img", "journal"):
            with open(f"{folder}/side.{end}", "rb") as first, open(f"{folder}/again.{end}", "rb") as second:
                if first.read() != second.read():
                    return f"replay leads to another {end}"
        items = read_journal(pathlib.Path(folder, "side.journal").read_bytes())[1]
        for texts, kept, answers in snapshots_of(lines, transcript):
            if kept is None:
                return "a snapshot has no image"
            place = sum(isinstance(item, Transaction) for item in items[:int(kept)])
            for image in f"side-{kept}.img", "side.img":
                if call(program, folder, "asof", image, str(place), lines=texts) != (0, answers):
                    return f"asof {place} of {image} answers a snapshot's texts otherwise"
        for place, entry in reads_of(transcript):
            if call(program, folder, "asof", "side.img", str(place), lines=entry[:1])[1].splitlines() != entry:
                return f"asof {place} answers {entry[0]} otherwise"
    except subprocess.TimeoutExpired:
        return "it hangs"
    return None


def runs(program, times=1000, count=20, statements=contention):
    failed = 0
    for n in range(times):
        folder = tempfile.mkdtemp(prefix="sides-")
        fault = fault_of(program, folder, list(statements(count, n)))
        if fault is None:
            shutil.rmtree(folder)
        else:
            failed += 1
            print(f"run {n}: {fault} ({folder})")
    print(f"{times} runs, {failed} failed")
    return failed


def columns(program, times=1000, count=20):
    return runs(program, times, count, altering)


def snapshots(program, times=1000, count=20):
    return runs(program, times, count, reading)


def one_row(session):
    return [f"INSERT INTO t{session} VALUES ({n}, {n % 7})" for n in range(4000)]


def wide(session):
    rows = ", ".join(f"({n}, {n % 7})" for n in range(1000))
    return [f"INSERT INTO t{session} VALUES {rows}"] + [f"UPDATE t{session} SET v = v + 1"] * 50


def seconds(program, command, lines):
    folder = tempfile.mkdtemp(prefix="sides-")
    began = time.monotonic()
    status, _ = call(program, folder, command, "--save", "side", lines=lines)
    took = time.monotonic() - began
    shutil.rmtree(folder)
    if status != 0:
        sys.exit(f"{command} ended with {status}")
    return took


def cost(program, rounds=5):
    print("| Statements | `step` | `run` | Speed |\n|---|---|---|---|")
    for name, statements in ("one row each", one_row), ("1,000 rows each", wide):
        tables = [f"CREATE TABLE t{s} (id INT PRIMARY KEY, v INT)" for s in range(4)]
        work = [statements(s) for s in range(4)]
        in_turn = [f"s{s}: {work[s][n]}" for n in range(len(work[0])) for s in range(4)]
        sections = [line for s in range(4) for line in (f"-- session s{s}", *work[s])]
        took = {"step": [], "run": []}
        for _ in range(rounds):
            took["step"].append(seconds(program, "step", [f"setup: {t}" for t in tables] + in_turn))
            took["run"].append(seconds(program, "run", ["-- setup", *tables, *sections]))
        step, run = min(took["step"]), min(took["run"])
        print(f"| {name} | {step:.3f} | {run:.3f} | {step / run:.2f} |")


if __name__ == "__main__":
    if len(sys.argv) < 3 or sys.argv[1] not in ("runs", "columns", "snapshots", "cost"):
        sys.exit(__doc__)
    what = {"runs": runs, "columns": columns, "snapshots": snapshots, "cost": cost}[sys.argv[1]]
    sys.exit(1 if what(os.path.abspath(sys.argv[2]), *map(int, sys.argv[3:])) else 0)
