#!/usr/bin/env python3
"""Has `ledgerd step` and `ledgerd run` go on from journals, and compares with what one call leaves.

    bench/days.py PROGRAM [INPUT ..] [--days K] [--count N] [--seed S] [--sizes SIZE ..]

Each INPUT of `step`, and N (10) inputs made at random from S (1) on, is run whole in blocks of each SIZE. Then it is cut
in two at each line before which no transaction is open, and once in K days (4) at some of these; each day goes on from
the journal of the day before. The last day's image and journal have to be those of the whole, byte for byte, and the
texts, the digests and the images that were kept those of the whole, one day behind the other. Where an id was drawn
before a cut that no transaction of the journal has, nor one with a greater id, it is drawn again behind the cut, and the
days needn't be as the whole.

Besides, days have blocks of other sizes than the day before, smaller ones than stand in its journal among them; `run`
goes on from a journal of `step`, and `step` from one of `run`; and journals are missing, too long, damaged or illegal,
which have to be refused before the input is read, with the status and the place that are told.

Of all days that go on `verify` has to say Yes of the last image with the digests of each day, `replay` of the last
journal has to lead to the last image, and each journal has to begin with the items of the one before.

The last line is 'N trials: M as one call, L with ids drawn again, F failed', and the status 1 where F isn't 0.
"""

import argparse
import json
import os
import random
import re
import subprocess
import sys
import tempfile
from typing import Iterator, NamedTuple, Optional

TOP = os.path.dirname(os.path.dirname(os.path.abspath(__file__)))
sys.path.insert(0, os.path.join(TOP, "tools"))

# pylint: disable=wrong-import-position
from ledger import Transaction, number, read_journal, short

DIGEST = "EXECUTE sp_generate_database_ledger_digest"
LONGEST = 256 * 1024 * 1024


class Left(NamedTuple):
    """What a call left under a name."""

    name: str
    text: str
    image: bytes
    journal: bytes
    digests: list
    kept: dict[int, bytes]


class Folder:
    """Where the program is run."""

    def __init__(self, program: str, path: str):
        self.program = program
        self.path = path

    def call(self, *words: str, data: bytes = b"") -> tuple[int, str, str]:
        """The status of a call, and what it wrote and said."""
        ended = subprocess.run([self.program, *words], input=data, capture_output=True, cwd=self.path, check=False)
        return ended.returncode, ended.stdout.decode(), ended.stderr.decode()

    def call_on_a_folder(self, *words: str) -> int:
        """The status of a call whose input can't be read."""
        source = os.open(self.path, os.O_RDONLY)
        try:
            return subprocess.run([self.program, *words], stdin=source, capture_output=True, cwd=self.path,
                                  check=False).returncode
        finally:
            os.close(source)

    def read(self, file: str) -> bytes:
        """The bytes of a file."""
        with open(os.path.join(self.path, file), "rb") as source:
            return source.read()

    def write(self, file: str, data: bytes) -> None:
        """Puts a file."""
        with open(os.path.join(self.path, file), "wb") as sink:
            sink.write(data)

    def empty(self) -> None:
        """Takes all files away."""
        for file in os.listdir(self.path):
            os.remove(os.path.join(self.path, file))

    def left(self, name: str, text: str) -> Left:
        """What lies under a name."""
        images = (re.fullmatch(re.escape(name) + r"-(\d+)\.img", file) for file in os.listdir(self.path))
        kept = {int(found[1]): self.read(found[0]) for found in images if found}
        return Left(name, text, self.read(name + ".img"), self.read(name + ".journal"),
                    json.loads(self.read(name + ".digests")), kept)

    def day(self, name: str, lines: list[str], size: int, before: Optional[Left] = None, command: str = "step") -> Left:
        """Runs the lines of a day behind the day before, at the moment 0, and answers what is left."""
        words = [command, "--save", name, "--block-size", str(size), "--clock", "0"]
        if before:
            words += ["--from", before.name + ".journal"]
        status, text, said = self.call(*words, data="".join(line + "\n" for line in lines).encode())
        if status:
            raise RuntimeError(f"{' '.join(words)} ended with {status}: {said}")
        return self.left(name, text)


class Tally:
    """How many trials came to what."""

    def __init__(self) -> None:
        self.same = self.again = self.failed = 0

    def add(self, what: str, faults: list[str], again: bool = False) -> None:
        """Counts a trial, and says its faults."""
        if faults:
            self.failed += 1
            print(f"{what}: {'; '.join(faults)}")
        elif again:
            self.again += 1
        else:
            self.same += 1

    def __str__(self) -> str:
        trials = self.same + self.again + self.failed
        return f"{trials} trials: {self.same} as one call, {self.again} with ids drawn again, {self.failed} failed"


# --- What has to be so ------------------------------------------------------------------------------------------------


def items_of(left: Left) -> list:
    """The items of the journal that was left."""
    return read_journal(left.journal)[1]


def chain_faults(folder: Folder, days: list[Left]) -> list[str]:
    """What isn't so of days each of which goes on from the one before."""
    faults, last = [], days[-1]
    for day in days:
        _, line, said = folder.call("verify", last.name + ".img", day.name + ".digests")
        if line != "Yes\n":
            faults.append(f"verify {last.name}.img {day.name}.digests: {(line + said).strip()}")
    status, _, said = folder.call("replay", last.name + ".journal", "--save", "again")
    if status or folder.read("again.img") != last.image:
        faults.append(f"replay ended with {status}, or led to another image: {said.strip()}")
    for before, after in zip(days, days[1:]):
        old = items_of(before)
        if items_of(after)[:len(old)] != old:
            faults.append(f"{after.name}.journal doesn't begin with {before.name}.journal")
    return faults


def whole_faults(whole: Left, days: list[Left]) -> list[str]:
    """In what the days differ from one call of all lines."""
    last = days[-1]
    kept = {items: image for day in days for items, image in day.kept.items()}
    same = {
        "the image": last.image == whole.image,
        "the journal": last.journal == whole.journal,
        "the text": "".join(day.text for day in days) == whole.text,
        "the digests": [digest for day in days for digest in day.digests] == whole.digests,
        "the images that were kept": kept == whole.kept,
    }
    return [f"{what} isn't that of the whole" for what, is_same in same.items() if not is_same]


# --- Cuts -------------------------------------------------------------------------------------------------------------


class Cut(NamedTuple):
    """A line that a day may begin with, and whether an id is drawn again behind it."""

    place: int
    again: bool


def answers_of(text: str) -> Iterator[list[str]]:
    """The answer to each line of a transcript of `step`."""
    answer: Optional[list[str]] = None
    for line in text.splitlines():
        if answer is not None and line.startswith("  "):
            answer.append(line[2:])
        else:
            if answer is not None:
                yield answer
            answer = []
    if answer is not None:
        yield answer


def cuts_of(text: str, count: int) -> Iterator[Cut]:
    """Where an input of so many lines, to which this is the transcript, may be cut."""
    inside: set[int] = set()
    drawn = committed = 0
    for place, answer in zip(range(count), answers_of(text)):
        if place and not inside:
            yield Cut(place, drawn > committed)
        for found in filter(None, (re.match(r"(begun|committed|ended) (\d+)", line) for line in answer)):
            transaction_id = int(found[2])
            drawn = max(drawn, transaction_id)
            if found[1] == "begun":
                inside.add(transaction_id)
            else:
                inside.discard(transaction_id)
            if found[1] == "committed":
                committed = max(committed, transaction_id)


def lines_of(path: str) -> list[str]:
    """The lines of an input of `step` that have statements."""
    with open(path, encoding="utf-8") as source:
        return [line.rstrip("\n") for line in source if line.strip() and not line.startswith("--")]


def days_at(folder: Folder, lines: list[str], size: int, places: list[int]) -> list[Left]:
    """What the days leave in which an input is cut at these places."""
    folder.empty()
    days: list[Left] = []
    for low, high in zip([0, *places], [*places, len(lines)]):
        days.append(folder.day(f"day{len(days)}", lines[low:high], size, days[-1] if days else None))
    return days


def try_cuts(folder: Folder, tally: Tally, given: argparse.Namespace, what: str, lines: list[str]) -> None:
    """Cuts an input in two at each line where it may be cut, and once in so many days."""
    for size in given.sizes:
        folder.empty()
        whole = folder.day("whole", lines, size)
        cuts = list(cuts_of(whole.text, len(lines)))
        trials = [[cut] for cut in cuts]
        if 2 < given.days <= len(cuts) + 1:
            trials.append(sorted(random.sample(cuts, given.days - 1)))
        for trial in trials:
            again = any(cut.again for cut in trial)
            days = days_at(folder, lines, size, [cut.place for cut in trial])
            faults = chain_faults(folder, days) + ([] if again else whole_faults(whole, days))
            places = ", ".join(str(cut.place + 1) for cut in trial)
            tally.add(f"{what}, blocks of {size}, cut before line {places}", faults, again)


# --- Inputs made at random --------------------------------------------------------------------------------------------

TABLES = ["a: CREATE TABLE t (id INT PRIMARY KEY, n INT, s NVARCHAR(9) NULL)",
          "a: CREATE TABLE u (k NVARCHAR(5), id INT, v INT NULL, PRIMARY KEY (k, id)) WITH (LEDGER = ON (APPEND_ONLY = ON))",
          "b: CREATE INDEX tn ON t (n)", "a: INSERT INTO t VALUES (1, 1, NULL), (2, 2, 'x'), (3, 3, NULL), (4, 4, 'y')"]


def change(source: random.Random) -> str:
    """A statement that changes rows or reads them, and may be refused."""
    key = source.randint(1, 6)
    return source.choice([
        f"INSERT INTO t (id, n) VALUES ({key}, {source.randint(1, 5)})",
        f"INSERT INTO t (id, n, s) VALUES ({key + 20}, 1, NULL), ({key + 40}, 2, 'x')",
        f"INSERT INTO u VALUES ('{source.choice('pqr')}', {key}, NULL)", f"INSERT INTO u (k, id) VALUES ('s', {key})",
        f"UPDATE t SET n = n + 1 WHERE id = {key}", f"UPDATE t SET s = 'y' WHERE n < {key}", "UPDATE t SET s = NULL, n = 5",
        f"DELETE FROM t WHERE id = {key + 20}", f"DELETE FROM t WHERE n > {source.randint(4, 6)}",
        f"SELECT * FROM {source.choice(['t', 'u', 't_Ledger', 'u_Ledger', 'MSSQL_LedgerHistoryFor_3'])}"])


def definition(source: random.Random) -> str:
    """A statement that makes or drops a table, an index or a column, and may be refused."""
    some = source.randrange(3)
    return source.choice([
        f"CREATE TABLE w{some} (a INT PRIMARY KEY)", f"DROP TABLE w{some}", f"CREATE INDEX i{some} ON u (v)",
        f"ALTER TABLE t ADD c{some} INT", f"ALTER TABLE t ADD c{some} INT", f"ALTER TABLE t DROP COLUMN c{some}"])


def transaction(source: random.Random) -> Iterator[str]:
    """The lines of a transaction, with one of another session among them."""
    session, other = source.sample("abc", 2)
    yield f"{session}: BEGIN TRANSACTION"
    yield f"{session}: {change(source)}"
    yield f"{session}: SAVE TRANSACTION p"
    yield f"{other}: {change(source)}"
    yield f"{session}: {change(source)}"
    if source.random() < .3:
        yield f"{session}: ROLLBACK TRANSACTION p"
    yield f"{session}: {source.choice(['COMMIT', 'COMMIT', 'ROLLBACK'])}"


def made_input(source: random.Random) -> Iterator[str]:
    """The lines of an input: rows come, change and go, tables and columns too; some digests and images are made."""
    yield from TABLES
    for _ in range(source.randint(10, 25)):
        session, kind = source.choice("abc"), source.random()
        if kind < .2:
            yield from transaction(source)
        elif kind < .35:
            yield f"{session}: {definition(source)}"
        elif kind < .5:
            yield f"{session}: {source.choice([DIGEST, 'SAVE IMAGE'])}"
        else:
            yield f"{session}: {change(source)}"


# --- Other days -------------------------------------------------------------------------------------------------------

DAYS = [
    ["a: CREATE TABLE t (id INT PRIMARY KEY, n INT)", "a: CREATE INDEX tn ON t (n)", "a: INSERT INTO t VALUES (1, 1), (2, 2)",
     "a: " + DIGEST, "a: INSERT INTO t VALUES (3, 3)"],
    ["b: BEGIN TRANSACTION", "b: UPDATE t SET n = 5 WHERE id = 1", "b: SAVE TRANSACTION s", "b: DELETE FROM t",
     "b: ROLLBACK TRANSACTION s", "b: COMMIT", "a: DELETE FROM t WHERE id = 2", "a: ALTER TABLE t ADD s NVARCHAR(5)",
     "b: " + DIGEST, "a: UPDATE t SET s = 'new'"],
    ["b: INSERT INTO t VALUES (2, 7, 'two')", "a: UPDATE t SET n = n + 1", "a: SELECT * FROM t", "a: SELECT * FROM t_Ledger",
     "c: CREATE TABLE u (id INT PRIMARY KEY)", "c: INSERT INTO u VALUES (1)", "c: " + DIGEST, "c: SAVE IMAGE"],
]
SIZES = [(1000, 2, 1), (3, 2, 5), (2, 1000, 1), (1, 1, 7), (100000, 100000, 1)]
SIDES = """-- setup
INSERT INTO t VALUES (100, 1, NULL)
-- session a
INSERT INTO t VALUES (101, 1, 'a')
UPDATE t SET n = 9 WHERE id = 101
-- session b
INSERT INTO t VALUES (102, 1, 'b')
INSERT INTO t VALUES (103, 1, 'b')
-- session c
BEGIN TRANSACTION
INSERT INTO t VALUES (104, 1, 'c')
COMMIT
-- snapshot d
SELECT n, s FROM t WHERE id = 1
SELECT n, s FROM t WHERE id = 100""".splitlines()
READ = ["d: SELECT n, s FROM t WHERE id = 1\n  5|N'new'\n  1 rows\n", "d: SELECT n, s FROM t WHERE id = 100\n  1|NULL\n  1 rows\n"]


def pending_behind(left: Left) -> int:
    """How many transactions of the journal no block has."""
    return sum(1 if isinstance(item, Transaction) else -item for item in items_of(left))


def try_sizes(folder: Folder, tally: Tally) -> None:
    """Days whose blocks have other sizes than those of the day before: rows and replies are those of one call."""
    def without_hashes(text: str) -> str:
        return re.sub(r"^  (digest|image) .*$", r"  \1", text, flags=re.MULTILINE)

    for sizes in SIZES:
        folder.empty()
        days: list[Left] = []
        for lines, size in zip(DAYS, sizes):
            days.append(folder.day(f"day{len(days)}", lines, size, days[-1] if days else None))
        faults = chain_faults(folder, days)
        for day, size in zip(days, sizes):
            if pending_behind(day) >= size:
                faults.append(f"{day.name}: {pending_behind(day)} transactions are pending, and a block takes {size}")
        whole = folder.day("whole", sum(DAYS, []), 1000)
        if without_hashes(whole.text) != without_hashes("".join(day.text for day in days)):
            faults.append("the texts aren't those of the whole")
        tally.add(f"blocks of {sizes}", faults)


def try_sides(folder: Folder, tally: Tally) -> None:
    """`run` goes on from a journal of `step`, `run` from one of `run`, and `step` from that."""
    for _ in range(3):
        folder.empty()
        first = folder.day("first", DAYS[0] + DAYS[1], 2)
        sides = folder.day("sides", SIDES, 3, first, "run")
        again = folder.day("more", ["-- setup", "DELETE FROM t WHERE id > 100", "-- session a", "COMMIT"], 2, sides, "run")
        last = folder.day("last", DAYS[2], 2, again)
        faults = chain_faults(folder, [first, sides, again, last])
        if sides.text.count("  committed ") != 6:
            faults.append(f"other than six transactions were committed: {sides.text}")
        faults += [f"the snapshot wasn't answered {entry!r}" for entry in READ if entry not in sides.text]
        tally.add("run between two calls of step", faults)


# --- Journals from which nothing goes on ------------------------------------------------------------------------------


class Case(NamedTuple):
    """The bytes of a journal, where they aren't what stands there, how a call ends that goes on from it, what that says,
    and whether `replay` runs it."""

    data: Optional[bytes]
    status: int
    said: str = ""
    replays: bool = False


def journal_bytes(items: list, version: int = 2, database: str = "LedgerDB") -> bytes:
    """The bytes of a journal."""
    data = b"LGJN" + number(version, 1) + short(database) + number(len(items), 8)
    for item in items:
        if isinstance(item, Transaction):
            data += number(1, 1) + number(item.id, 8) + short(item.session) + number(item.time, 8) + number(item.explicit, 1)
            data += number(len(item.statements), 8)
            for text in (text for line in item.statements for text in line):
                data += number(len(text.encode()), 8) + text.encode()
        else:
            data += number(2, 1) + number(item, 4)
    return data


def cases_of(items: list) -> Iterator[tuple[str, Case]]:
    """Journals made of these items, one transaction of which was begun by BEGIN."""
    good, place = journal_bytes(items), next(n for n, item in enumerate(items) if isinstance(item, Transaction) and item.explicit)
    script = items[place].statements

    def altered(*lines: tuple[str, str]) -> bytes:
        return journal_bytes([*items[:place], items[place]._replace(statements=list(lines)), *items[place + 1:]])

    def refused(data: bytes, why: str = " doesn't have the form of a journal") -> Case:
        return Case(data, 9, "bad journal: x.journal" + why)

    def illegal(data: bytes, statement: int, replays: bool = False) -> Case:
        return Case(data, 9, f"bad journal: x.journal isn't legal at item {place}, statement {statement}", replays)

    yield "that is missing", Case(None, 7, "no such file: x.journal")
    yield "of no bytes", refused(b"", " is empty")
    yield "that is cut", refused(good[:-1])
    yield "with a byte behind it", refused(good + b"x")
    yield "that says it is an image", refused(b"LGIM" + good[4:], " is an image")
    yield "of version 3", refused(good[:4] + number(3, 1) + good[5:], ": version 3, this program reads 1 and 2")
    yield "with an id twice", refused(journal_bytes([items[0], *items]))
    yield "with another reply", illegal(altered((script[0][0], "7 rows\n"), *script[1:]), 0)
    yield "with COMMIT inside", illegal(altered(*script[:2], ("COMMIT", ""), *script[2:]), 2, True)
    yield "with ROLLBACK inside", illegal(altered(("rollback transaction", ""), *script), 0, True)
    older = items[place]._replace(statements=[*script, ("DROP TABLE t", "E01\n")])
    data = journal_bytes([*items[:place], older], 1)
    yield "of version 1, a text of which is a statement today", illegal(data, len(script), True)
    yield "of version 1", Case(journal_bytes(items[:place], 1), 0, replays=True)
    yield "of another database", Case(journal_bytes([], database="Other"), 0, replays=True)


def case_faults(folder: Folder, command: str, line: str, case: Case) -> list[str]:
    """What isn't so of a call that is to go on from the journal x.journal."""
    words, faults = [command, "--save", "y", "--from", "x.journal"], []
    status, text, said = folder.call(*words, data=line.encode())
    if status != case.status or case.said not in said or (status and text):
        return [f"{command} ended with {status}, wrote {text!r} and said {said!r}"]
    if case.status:
        if not said.endswith(f"ledgerd: {case.said}\n"):
            faults.append(f"{command} said {said!r}")
        if folder.call(*words, data=b"\xff")[0] != status or folder.call_on_a_folder(*words) != status:
            faults.append(f"{command} reads the input first")
    elif case.data is not None:
        database, items = read_journal(case.data)
        journal = folder.read("y.journal")
        if journal[4] != 2 or read_journal(journal)[0] != database or read_journal(journal)[1][:len(items)] != items:
            faults.append(f"{command} leaves a journal that doesn't begin with it")
    return faults


def try_refused(folder: Folder, tally: Tally) -> None:
    """Journals from which nothing goes on, and some that are odd."""
    folder.empty()
    items = items_of(folder.day("good", DAYS[0] + DAYS[1], 2))
    inputs = {"step": "a: CREATE TABLE v (id INT PRIMARY KEY)\n", "run": "-- session a\nCREATE TABLE v (id INT PRIMARY KEY)\n"}
    for what, case in cases_of(items):
        if case.data is not None:
            folder.write("x.journal", case.data)
            status = folder.call("replay", "x.journal", "--save", "again")[0]
            tally.add(f"a journal {what}", [] if (status == 0) == case.replays else [f"replay ended with {status}"])
        for command, line in inputs.items():
            tally.add(f"a journal {what}", case_faults(folder, command, line, case))
    with open(os.path.join(folder.path, "x.journal"), "r+b") as sink:
        sink.truncate(LONGEST + 1)
    case = Case(None, 3, f"a limit was exceeded: x.journal: more than {LONGEST} bytes")
    for command, line in inputs.items():
        tally.add("a journal that is too long", case_faults(folder, command, line, case))
    for words in (["--from", "good.journal", "--database", "X"], ["--from", "a/b"], ["--from"], ["--from=good.journal"] * 2):
        status, _, said = folder.call("step", "--save", "y", *words)
        tally.add(f"the words {words}", [] if status == 2 else [f"ended with {status}: {said}"])


def main() -> int:
    """Tries all."""
    parser = argparse.ArgumentParser(description=__doc__, formatter_class=argparse.RawDescriptionHelpFormatter)
    parser.add_argument("program")
    parser.add_argument("inputs", nargs="*")
    parser.add_argument("--days", type=int, default=4)
    parser.add_argument("--count", type=int, default=10)
    parser.add_argument("--seed", type=int, default=1)
    parser.add_argument("--sizes", type=int, nargs="+", default=[1, 2, 3, 100000])
    given = parser.parse_args()
    random.seed(given.seed)
    tally = Tally()
    with tempfile.TemporaryDirectory(prefix="days-") as path:
        folder = Folder(os.path.abspath(given.program), path)
        for file in given.inputs:
            try_cuts(folder, tally, given, os.path.basename(file), lines_of(file))
        for seed in range(given.seed, given.seed + given.count):
            try_cuts(folder, tally, given, f"input of seed {seed}", list(made_input(random.Random(seed))))
        try_sizes(folder, tally)
        try_sides(folder, tally)
        try_refused(folder, tally)
    print(tally)
    return 1 if tally.failed else 0


if __name__ == "__main__":
    sys.exit(main())
