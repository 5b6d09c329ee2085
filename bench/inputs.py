#!/usr/bin/env python3
"""Writes an input for `step` to standard output.

    inputs.py gen COUNT         4 tables, 4 sessions in turn, COUNT rows each, every tenth changed once
    inputs.py inserts rising    4 MiB of INSERTs of one row, by rising keys
    inputs.py inserts random    the same statements' keys in random order
    inputs.py updates           10^5 UPDATEs of one row by its key
    inputs.py updates MANY      10^5 UPDATEs of MANY rows by key, each key in turn
    inputs.py indexes COUNT     a table with four indexes: COUNT rows, each changed once
    inputs.py wide TIMES        TIMES statements that insert 1,000 rows each
    inputs.py all TIMES         1,000 rows, and TIMES statements that change all of them
Each ends with the statement that asks for a digest.
"""
import random
import sys

MOST = 4 << 20
DIGEST = "EXEC sp_generate_database_ledger_digest\n"


def gen(count):
    for i in range(1, 5):
        yield f"s1: CREATE TABLE t{i} (id INT PRIMARY KEY, v BIGINT)\n"
    for j in range(count):
        for i in range(1, 5):
            yield f"s{i}: INSERT INTO t{i} VALUES ({j}, {(31 * j + i) % 1000})\n"
        if j % 10 == 9:
            for i in range(1, 5):
                yield f"s{i}: UPDATE t{i} SET v = v + 1 WHERE id = {j}\n"
    yield "s1: " + DIGEST


# As many statements as 4 MiB take, each a row.
def inserts(order):
    head = "s: CREATE TABLE t (id INT PRIMARY KEY, v INT)\n"
    last = "s: " + DIGEST
    left = MOST - len(head) - len(last)
    lines = []
    while True:
        n = 100_000 + len(lines)
        line = f"s: INSERT INTO t VALUES ({n}, {n % 1000})\n"
        if len(line) > left:
            break
        left -= len(line)
        lines.append(line)
    if order == "random":
        random.Random(1).shuffle(lines)
    yield head
    yield from lines
    yield last


def updates(rows):
    yield "s: CREATE TABLE t (id INT PRIMARY KEY, v INT)\n"
    for row in range(rows):
        yield f"s: INSERT INTO t VALUES ({row}, 0)\n"
    for n in range(100_000):
        yield f"s: UPDATE t SET v=v+1 WHERE id={n % rows}\n"
    yield "s: " + DIGEST


def indexes(count):
    yield "s: CREATE TABLE t (id INT PRIMARY KEY, a INT, b INT, c INT, d INT)\n"
    for name in "abcd":
        yield f"s: CREATE INDEX by_{name} ON t ({name})\n"
    source = random.Random(2)
    for n in range(count):
        a, b, c, d = (source.randrange(1000) for _ in range(4))
        yield f"s: INSERT INTO t VALUES ({n}, {a}, {b}, {c}, {d})\n"
    for n in range(count):
        yield f"s: UPDATE t SET a = a + 1, b = b - 1, c = c + 2, d = d - 2 WHERE id = {n}\n"
    yield "s: " + DIGEST


def wide(times):
    yield "s: CREATE TABLE t (id INT PRIMARY KEY, v INT)\n"
    for n in range(times):
        rows = ", ".join(f"({m}, {m % 7})" for m in range(1000 * n, 1000 * n + 1000))
        yield f"s: INSERT INTO t VALUES {rows}\n"
    yield "s: " + DIGEST


def all_rows(times):
    rows = ", ".join(f"({m}, {m % 7})" for m in range(1000))
    yield "s: CREATE TABLE t (id INT PRIMARY KEY, v INT)\n"
    yield f"s: INSERT INTO t VALUES {rows}\n"
    for _ in range(times):
        yield "s: UPDATE t SET v = v + 1\n"
    yield "s: " + DIGEST


def main(words):
    kind, rest = words[0], words[1:]
    if kind == "gen":
        lines = gen(int(rest[0]))
    elif kind == "inserts":
        lines = inserts(rest[0])
    elif kind == "updates":
        lines = updates(int(rest[0]) if rest else 1)
    elif kind == "indexes":
        lines = indexes(int(rest[0]))
    elif kind == "wide":
        lines = wide(int(rest[0]))
    else:
        lines = all_rows(int(rest[0]))
    text = "".join(lines)
    if len(text) > MOST:
        sys.exit("more than 4 MiB")
    sys.stdout.write(text)


main(sys.argv[1:])
