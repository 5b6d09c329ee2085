#!/usr/bin/env python3
"""Has `ledgerd verify` and `tools/verify.py` judge altered images, and compares what they say.

    bench/mutate.py PROGRAM [--count N] [--seed S] [--keep FOLDER]

Some images and digest files have a few of their bytes changed. Other images are forged: values, rows, columns, entries
or blocks are altered, and of what stands above the change (index rows, the system's rows, roots, blocks, digests) some
is made anew by docs/reference/formats.md. Where PROGRAM, a built ledgerd, makes receipts, one file in ten is a receipt
with bytes changed, which `ledgerd check` and `tools/check_receipt.py` judge. 10,000 files take some minutes. The last
line is 'N of M agree', after how often each answer came, and the status 1 where N isn't M. What disagrees is kept in
FOLDER.
"""

import argparse
import collections
import contextlib
import io
import json
import os
import random
import subprocess
import sys
import tempfile
from typing import NamedTuple

TOP = os.path.dirname(os.path.dirname(os.path.abspath(__file__)))
sys.path.insert(0, os.path.join(TOP, "tools"))

# pylint: disable=wrong-import-position
import check_receipt
import verify
from forge import Forger, image_bytes
from ledger import Image, read_image

HONEST = ("blocks", "control", "honest", "locks", "points", "shop", "shop-4")
INPUT = """
a: CREATE TABLE p (n INT, k NVARCHAR(5), b BIT, w BIGINT, d DECIMAL(10,2), t DATE, x VARBINARY(4), PRIMARY KEY (k, n))
a: CREATE INDEX pd ON p (d, b)
a: CREATE INDEX px ON p (x)
a: CREATE TABLE q (n INT PRIMARY KEY, s NVARCHAR(20) NULL) WITH (LEDGER = ON (APPEND_ONLY = ON))
a: INSERT INTO p VALUES (1, 'a', 1, -5, 1.25, '2020-02-29', 0x00), (2, 'a', 0, NULL, -3.5, NULL, 0x)
a: INSERT INTO p VALUES (1, 'b', NULL, 7, 0, '0001-01-01', NULL)
b: INSERT INTO q VALUES (1, NULL), (2, 'zwei'), (3, '')
b: BEGIN TRANSACTION
b: UPDATE p SET d = d * 2 WHERE k = 'a'
b: DELETE FROM p WHERE k = 'b'
b: INSERT INTO p VALUES (1, 'b', 1, 1, 1, '9999-12-31', 0xFFFE)
b: INSERT INTO q VALUES (4, 'vier')
b: COMMIT
a: EXECUTE sp_generate_database_ledger_digest
a: CREATE TABLE r (a INT PRIMARY KEY)
a: INSERT INTO r VALUES (1), (2), (3)
a: DELETE FROM r
a: INSERT INTO r VALUES (2)
b: UPDATE p SET x = 0x01, w = NULL
b: CREATE INDEX qs ON q (s)
a: EXECUTE sp_generate_database_ledger_digest
a: DELETE FROM p WHERE n = 2
a: ALTER TABLE p ADD y NVARCHAR(3)
a: UPDATE p SET y = 'neu'
a: ALTER TABLE p DROP COLUMN d
a: INSERT INTO p VALUES (3, 'c', NULL, NULL, NULL, NULL, NULL)
a: ALTER TABLE q DROP COLUMN s
b: ALTER TABLE q ADD s INT
b: INSERT INTO q VALUES (5, 5)
a: DROP TABLE r
a: EXECUTE sp_generate_database_ledger_digest
b: ALTER TABLE q ADD u BIT
"""


def digests_of(image: Image) -> bytes:
    """A digest of each block."""
    digests = [
        {"block_id": place, "database_name": image.database, "hash": "0x" + record.hash().hex()}
        for place, record in enumerate(image.blocks)
    ]
    return json.dumps(digests).encode()


def with_other_bytes(data: bytes, choice: random.Random) -> bytes:
    """A few bytes changed, one put in or left out, or two pieces exchanged."""
    found = bytearray(data)
    place = choice.randrange(len(found))
    how = choice.random()
    if how < 0.04:
        del found[place]
    elif how < 0.08:
        found.insert(choice.choice((place, len(found))), choice.randrange(256))
    elif how < 0.1:
        del found[place:]
    else:
        for _ in range(choice.choice((1, 1, 1, 2))):
            place = choice.randrange(len(found))
            found[place] = choice.choice((found[place] ^ 1 << choice.randrange(8), choice.randrange(256), 0, 1, 2))
    return bytes(found)


class Altered(NamedTuple):
    """An altered file and digests: what judges it, and how it was altered."""

    command: str
    how: str
    data: bytes
    digests: bytes


def altered_image(honest: list[tuple[bytes, bytes]], choice: random.Random) -> Altered:
    data, digests = choice.choice(honest)
    how = choice.choice(("bytes", "forged"))
    if how == "bytes":
        data = with_other_bytes(data, choice)
    else:
        forged = Forger(read_image(data), choice).forge()
        data = image_bytes(forged)
        if choice.random() < 0.8:
            digests = digests_of(forged)
    if choice.random() < 0.1:
        digests = b"[]"
    elif choice.random() < 0.1:
        digests = with_other_bytes(digests, choice)
    return Altered("verify", how, data, digests)


def altered_receipt(receipts: list[tuple[bytes, bytes]], choice: random.Random) -> Altered:
    data, digests = choice.choice(receipts)
    return Altered("check", "bytes", with_other_bytes(data, choice), digests)


def judged_by_tool(command: str, *names: str) -> tuple[int, str]:
    line = io.StringIO()
    with contextlib.redirect_stdout(line), contextlib.redirect_stderr(io.StringIO()):
        try:
            status = TOOLS[command](list(names)) or 0
        except SystemExit as ended:
            status = ended.code
    return status, line.getvalue()


TOOLS = {"verify": verify.main, "check": check_receipt.main}


def called(program: str, *words: str, lines: str = "") -> tuple[int, str]:
    it = subprocess.run([program, *words], input=lines, capture_output=True, text=True, check=False)
    return it.returncode, it.stdout


def read(name: str) -> bytes:
    with open(name, "rb") as file:
        return file.read()


def write(name: str, content: bytes) -> None:
    with open(name, "wb") as file:
        file.write(content)


def honest_images(program: str) -> list[tuple[bytes, bytes]]:
    """Images with digests that they are accepted with, the one of INPUT first and as often as all others."""
    called(program, "step", "--save", "made", "--block-size", "3", lines=INPUT)
    stored = [read(os.path.join(TOP, "crates/test_commands/data", name + ".img")) for name in HONEST]
    return [(data, digests_of(read_image(data))) for data in [read("made.img")] * len(HONEST) + stored]


def honest_receipts(program: str, image: bytes, digests: bytes) -> list[tuple[bytes, bytes]]:
    """The receipts of the transactions of an image, if the program makes any."""
    write("x.img", image)
    write("x.digests", digests)
    ids = [str(entry.id) for entry in read_image(image).entries]
    made = [id for id in ids if called(program, "receipt", "x.img", "x.digests", id, "--save", f"r{id}")[0] == 0]
    return [(read(f"r{id}.receipt"), digests) for id in made]


def compare(program: str, count: int, seed: int, keep: str | None) -> int:
    """Alters so many files, and says of how many both say the same."""
    choice = random.Random(seed)
    said: collections.Counter[str] = collections.Counter()
    agreed = 0
    honest = honest_images(program)
    receipts = honest_receipts(program, *honest[0])
    for place in range(count):
        it = altered_receipt(receipts, choice) if receipts and place % 10 == 9 else altered_image(honest, choice)
        write("x.file", it.data)
        write("x.digests", it.digests)
        ours = judged_by_tool(it.command, "x.file", "x.digests")
        theirs = called(program, it.command, "x.file", "x.digests")
        line = " ".join(theirs[1].split()[:2]) or f"status {theirs[0]}"
        said[f"{it.command} {it.how} {line}"] += 1
        if ours == theirs:
            agreed += 1
            continue
        print(f"{it.command} {place} of seed {seed}: the tool says {ours}, the program {theirs}", flush=True)
        if keep:
            os.makedirs(keep, exist_ok=True)
            write(f"{keep}/{seed}-{place}.{it.command}", it.data)
            write(f"{keep}/{seed}-{place}.digests", it.digests)
    print(", ".join(f"{line}: {times}" for line, times in sorted(said.items())))
    return agreed


def main() -> int:
    words = argparse.ArgumentParser(usage=__doc__)
    words.add_argument("program")
    words.add_argument("--count", type=int, default=10_000)
    words.add_argument("--seed", type=int, default=1)
    words.add_argument("--keep")
    given = words.parse_args()
    program, keep = os.path.abspath(given.program), given.keep and os.path.abspath(given.keep)
    with tempfile.TemporaryDirectory() as room:
        os.chdir(room)
        agreed = compare(program, given.count, given.seed, keep)
    print(f"{agreed} of {given.count} agree")
    return 0 if agreed == given.count else 1


if __name__ == "__main__":
    sys.exit(main())
