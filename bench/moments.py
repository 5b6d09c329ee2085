#!/usr/bin/env python3
"""Tries `asof` at each moment of random scripts.

    moments.py PROGRAM [SCRIPTS [SEED]]   SCRIPTS random scripts (1) from SEED (3) on, of 60 transactions each, whose ids don't
                                          follow the order of their commits, with later tables and indexes, columns that are
                                          added and dropped, dropped tables, rows that end in their own transaction and
                                          savepoints that are taken back. At each of the 61 numbers n of transactions `asof` of
                                          the last image has to answer what `asof` answers of the image to which `replay` of the
                                          first n transactions leads, and, where no id of a transaction is shown, what `step`
                                          answers behind the scripts of these transactions, one after another

Folders are made below the system's for temporary files; that of a script that fails stays.
"""
import os
import random
import re
import shutil
import subprocess
import sys
import tempfile

sys.path.insert(0, os.path.join(os.path.dirname(os.path.abspath(__file__)), "..", "tools"))
from ledger import Reader, Transaction, read_journal, short, number  # noqa: E402

COUNT = 60


def call(program, folder, *words, lines=None):
    """The exit status and the output of a call in a folder."""
    text = None if lines is None else "".join(line + "\n" for line in lines)
    ended = subprocess.run([program, *words], cwd=folder, input=text, capture_output=True, text=True, timeout=120)
    return ended.returncode, ended.stdout


def script(choice):
    """The lines of an input of `step`, which commits more transactions than are tried."""
    yield "a: CREATE TABLE t0 (id INT PRIMARY KEY, v NVARCHAR(9))"
    names = 1
    for i in range(4 * COUNT):
        kind, table = choice.random(), choice.randrange(names)
        if kind < .1 and names < 8:
            options = choice.choice(["", " WITH (LEDGER = ON (APPEND_ONLY = ON))"])
            yield f"a: CREATE TABLE t{names} (id INT PRIMARY KEY, v NVARCHAR(9)){options}"
            names += 1
        elif kind < .2:
            yield f"a: CREATE INDEX x{i} ON t{table} (v{choice.choice(['', ', id'])})"
        elif kind < .26:
            yield f"a: ALTER TABLE t{table} ADD w{i} {choice.choice(['INT', 'NVARCHAR(9)'])}"
            yield f"a: UPDATE t{table} SET w{i} = NULL"
        elif kind < .29:
            yield f"a: ALTER TABLE t{table} DROP COLUMN {choice.choice(['v', f'w{choice.randrange(i + 1)}'])}"
        elif kind < .3:
            yield f"a: DROP TABLE t{table}"
        elif kind < .5:
            yield f"a: INSERT INTO t{table} (id, v) VALUES ({i}, 'x{i}'), ({i + 100}, NULL)"
        elif kind < .7:
            yield f"b: UPDATE t{table} SET v = 'y{i}' WHERE id < {i}"
        elif kind < .8:
            yield f"b: DELETE FROM t{table} WHERE id < {choice.randrange(30)}"
        elif kind < .9:
            yield "c: BEGIN TRANSACTION"
            yield f"c: INSERT INTO t0 (id) VALUES ({1000 + i})"
            yield "b: BEGIN TRANSACTION"
            yield f"b: INSERT INTO t{table} (id) VALUES ({2000 + i})"
            yield "c: SAVE TRANSACTION s"
            yield f"c: UPDATE t0 SET v = NULL WHERE id = {1000 + i}"
            yield "c: ROLLBACK TRANSACTION s"
            yield f"c: DELETE FROM t0 WHERE id = {1000 + i}"
            yield "b: COMMIT"
            yield "c: COMMIT"
        else:
            yield "a: EXECUTE sp_generate_database_ledger_digest"


def texts():
    """What is asked at each moment, and shows no id of a transaction."""
    yield "SELECT * FROM sys_ledger_tables"
    yield "SELECT * FROM sys_ledger_columns"
    for n in range(9):
        yield f"SELECT * FROM t{n}"
        yield f"SELECT * FROM MSSQL_DroppedLedgerTable_t{n}_{n + 3}"
        yield f"SELECT v, id FROM t{n} WHERE v IS NOT NULL ORDER BY v DESC"
        yield f"SELECT COUNT(*) FROM t{n} WHERE id = 5"
        yield f"SELECT id, v FROM MSSQL_LedgerHistoryFor_{n + 3} ORDER BY id, v"
        yield f"SELECT id, ledger_operation_type FROM t{n}_Ledger ORDER BY id, ledger_operation_type"
    yield "SELEC"
    yield "DELETE FROM t0"


def texts_with_ids():
    """What is asked besides, and shows ids."""
    for n in range(9):
        yield f"SELECT * FROM t{n}_Ledger"
        yield f"SELECT * FROM MSSQL_LedgerHistoryFor_{n + 3}"


def first_lines(lines, transcript):
    """Of the lines of an input of `step` those up to the last of so many commits, by its transcript."""
    committed = re.compile(rf"  committed \d+ at {COUNT}")
    entries = 0
    for line in transcript.split("\n"):
        if committed.fullmatch(line):
            return lines[:entries]
        entries += not line.startswith("  ")
    return None


def items_of(data):
    """The bytes before the items of a journal, and each item with its bytes."""
    database, items = read_journal(data)
    at = 5 + len(short(database)) + 8
    pieces = []
    for item in items:
        source = Reader(data[at:])
        if isinstance(item, Transaction):
            source.number(1), source.number(8), source.text(2), source.number(8), source.number(1)
            for _ in range(source.number(8)):
                source.text(8), source.text(8)
        else:
            source.number(1), source.number(4)
        pieces.append((item, data[at:at + source.at]))
        at += source.at
    return data[:5] + short(database), pieces


def upto(head, pieces, n):
    """The journal of the first n transactions, which ends with the last of them."""
    kept, left = [], n
    for item, piece in pieces:
        if left == 0:
            break
        kept.append(piece)
        left -= isinstance(item, Transaction)
    return head + number(len(kept), 8) + b"".join(kept)


def in_turn(pieces, n):
    """The lines of an input of `step` that runs the first n transactions one after another."""
    for item in [item for item, _ in pieces if isinstance(item, Transaction)][:n]:
        yield from [f"{item.session}: BEGIN TRANSACTION"] * item.explicit
        yield from (f"{item.session}: {text}" for text, _ in item.statements)
        yield from [f"{item.session}: COMMIT"] * item.explicit


def answers_of_step(transcript, session):
    """What `step` answered a session, as `asof` writes it."""
    for entry in re.findall(rf"^{session}: (.*\n(?:  .*\n)+)", transcript, re.MULTILINE):
        yield re.sub(r"  ended \d+ after \d+\n", "", entry)


def fault_of(program, folder, seed):
    """What is wrong with one script, if anything is, and how many moments were tried."""
    lines, asked = list(script(random.Random(seed))), list(texts())
    step = ["step", "--save", "all", "--clock", "0", "--block-size", "9"]
    lines = first_lines(lines, call(program, folder, *step, lines=lines)[1])
    if lines is None:
        return f"fewer than {COUNT} transactions were committed", 0
    call(program, folder, *step, lines=lines)
    with open(f"{folder}/all.journal", "rb") as file:
        head, pieces = items_of(file.read())
    ids = [item.id for item, _ in pieces if isinstance(item, Transaction)]
    if len(ids) != COUNT or ids == sorted(ids):
        return "its transactions are others, or in the order of their ids", 0
    for n in range(COUNT + 1):
        with open(f"{folder}/first.journal", "wb") as file:
            file.write(upto(head, pieces, n))
        if call(program, folder, "replay", "first.journal", "--save", "then") != (0, f"replayed {n}\n"):
            return f"the first {n} transactions aren't replayed", n
        both = asked + list(texts_with_ids())
        found = call(program, folder, "asof", "all.img", str(n), lines=both)
        wanted = call(program, folder, "asof", "then.img", str(n), lines=both)
        if found != wanted or found[0] != 0:
            return f"asof {n} answers otherwise than of the image of then", n
        selects = [text for text in asked if text.startswith("SELECT")]
        lines = list(in_turn(pieces, n)) + [f"asks: {text}" for text in selects]
        _, transcript = call(program, folder, "step", "--save", "turn", lines=lines)
        _, answers = call(program, folder, "asof", "all.img", str(n), lines=selects)
        if "".join(answers_of_step(transcript, "asks")) != answers:
            return f"asof {n} answers otherwise than step", n
    if call(program, folder, "asof", "all.img", str(COUNT + 1), lines=[])[0] != 16:
        return "one transaction more isn't refused", COUNT
    return None, COUNT + 1


def main(words):
    program = os.path.abspath(words[0])
    scripts = int(words[1]) if len(words) > 1 else 1
    first = int(words[2]) if len(words) > 2 else 3
    moments = 0
    for seed in range(first, first + scripts):
        folder = tempfile.mkdtemp(prefix="moments-")
        fault, tried = fault_of(program, folder, seed)
        if fault:
            print(f"seed {seed}: {fault}; its files are in {folder}")
            return 1
        moments += tried
        shutil.rmtree(folder)
    print(f"{scripts} scripts, {moments} moments: asof answers what was answered then")
    return 0


if __name__ == "__main__":
    if len(sys.argv) not in (2, 3, 4):
        sys.exit(__doc__)
    sys.exit(main(sys.argv[1:]))
