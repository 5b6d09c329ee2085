"""The cases of hostile.py: of each list of each format an input as long as asked for."""

import dataclasses
import hashlib
import itertools
import struct
from collections.abc import Callable, Iterable
from typing import NamedTuple

import verify
from ledger import COLUMNS, TABLES, Column, Definition, Index, Type, short
from made import Book, NULL, Row, Start, entry_bytes, image_bytes, listed, numbers, table, whole

INPUT, IMAGE, DIGESTS, RECEIPT = 4 << 20, 256 << 20, 32 << 20, 16 << 20


class Call(NamedTuple):
    """A call of the program, with how many items its list has."""

    words: list[str]
    count: int
    files: dict[str, bytes]
    stdin: bytes = b""


class Case(NamedTuple):
    """A list, the most bytes of its file, the call for so many bytes, and what the answer has near its end."""

    name: str
    most: int
    make: Callable[[int], Call]
    says: str


def filled(size: int, head: str, item: str | Callable[[int], str], tail: str = "") -> tuple[str, int]:
    """A text of at most so many bytes: the head, as many items as fit, the tail; and the number of items."""
    left = size - len(head) - len(tail)
    if isinstance(item, str):
        count = left // len(item)
        return head + item * count + tail, count
    items = []
    for n in itertools.count():
        items.append(item(n))
        left -= len(items[-1])
        if left < 0:
            return head + "".join(items[:-1]) + tail, n
    raise AssertionError


# --- SQL: the input of step, run and asof ----------------------------------------------------------------------------

STEP = ["step", "--save", "x", "--clock", "0"]
TABLE = "a:CREATE TABLE t(k INT PRIMARY KEY,v INT)\n"


def step(head: str, item: str | Callable[[int], str], tail: str = "\n", words: list[str] = STEP) -> Callable[[int], Call]:
    """A script of a head, items and a tail."""

    def make(size: int) -> Call:
        text, count = filled(size, head, item, tail)
        return Call(words, count, {}, text.encode())

    return make


def halves(head: str, item, middle: str, other, tail: str = "\n") -> Callable[[int], Call]:
    """A script with two lists, each of half of the bytes."""

    def make(size: int) -> Call:
        front, count = filled(size // 2, head, item)
        back, _ = filled(size // 2, middle, other, tail)
        return Call(STEP, count, {}, (front + back).encode())

    return make


def rows_of(line: str, value: str = "0") -> Callable[[int], str]:
    """Lines that insert 1,000 rows each, cut into as many pieces as rows."""

    def item(n: int) -> str:
        front = f"\n{line} VALUES" if n % 1000 == 0 else ","
        return f"{front}({n},{value})"

    return item


def in_turns(*lines: str) -> Callable[[int], str]:
    """The lines, again and again, with the number of the turn in the place of #."""
    return lambda n: "".join(line.replace("#", str(n)) + "\n" for line in lines)


ONE_ROW = TABLE + "a:INSERT t VALUES(1,1)\n"
SQL = [
    ("columns", step("a:CREATE TABLE t(k INT PRIMARY KEY", lambda n: f",a{n} INT", ")\n"), "E16"),
    ("columns of the key", step("a:CREATE TABLE t(k INT,PRIMARY KEY(k", lambda n: f",a{n}", "))\n"), "E16"),
    ("columns, and as many of the key", halves(
        "a:CREATE TABLE t(k INT", lambda n: f",a{n} INT", ",PRIMARY KEY(k", lambda n: f",b{n}", "))\n"), "E16"),
    ("columns of equal names", step("a:CREATE TABLE t(k INT PRIMARY KEY", ",a INT", ")\n"), "E03"),
    ("columns of an index", step(TABLE + "a:CREATE INDEX i ON t(k", lambda n: f",a{n}", ")\n"), "E16"),
    ("names of INSERT", step(TABLE + "a:INSERT t(k", lambda n: f",a{n}", ")VALUES(1)\n"), "E04"),
    ("names of SET", step(TABLE + "a:UPDATE t SET v=1", lambda n: f",a{n}=1"), "E04"),
    ("rows of VALUES", step(TABLE + "a:INSERT t VALUES(0,0)", lambda n: f",({n},0)"), "E16"),
    ("values of a row", step(TABLE + "a:INSERT t VALUES(0", ",1", ")\n"), "E18"),
    ("values of 1,000 rows", lambda size: Call(STEP, size // 2, {}, (
        TABLE + "a:INSERT t VALUES" + ",".join(["(0" + ",1" * (size // 2000 - 10) + ")"] * 1000) + "\n").encode()), "E18"),
    ("names of SELECT", step(ONE_ROW + "a:SELECT k", ",k", " FROM t\n"), "1 rows"),
    ("names of SELECT that aren't there", step(ONE_ROW + "a:SELECT k", lambda n: f",a{n}", " FROM t\n"), "E04"),
    ("names of ORDER BY", step(ONE_ROW + "a:SELECT k FROM t ORDER BY k", ",k"), "1 rows"),
    ("names of ORDER BY, and as many rows", halves(
        TABLE, rows_of("a:INSERT t"), "\na:SELECT COUNT(*) FROM t\na:SELECT k FROM t ORDER BY v", ",v"), " rows"),
    ("sums", step(ONE_ROW + "a:SELECT SUM(k)", ",SUM(k)", " FROM t\n"), "1 rows"),
    ("sums, and as many rows", halves(
        TABLE, rows_of("a:INSERT t"), "\na:SELECT SUM(v)", ",SUM(v)", " FROM t\n"), "1 rows"),
    ("operators", step(TABLE + "a:SELECT k FROM t WHERE k=1", "+1"), "E01"),
    ("ANDs", step(TABLE + "a:SELECT k FROM t WHERE k=1", " AND k=1"), "E01"),
    ("NOTs", step(TABLE + "a:SELECT k FROM t WHERE", " NOT", " k=1\n"), "E01"),
    ("signs", step(TABLE + "a:SELECT k FROM t WHERE k=", "- ", "1\n"), "E01"),
    ("parentheses", step(TABLE + "a:SELECT k FROM t WHERE ", "("), "E01"),
    ("a text", step(TABLE + "a:INSERT t VALUES(1,'", "x", "')\n"), "E05"),
    ("quotes of a text", step(TABLE + "a:INSERT t VALUES(1,'", "''", "')\n"), "E05"),
    ("bytes", step(TABLE + "a:INSERT t VALUES(1,0x", "AB", ")\n"), "E05"),
    ("digits of a number", step(TABLE + "a:INSERT t VALUES(1,", "1", ")\n"), "E01"),
    ("letters of a name", step("a:SELECT k FROM t", "x"), "E02"),
    ("letters of a name in brackets", step("a:SELECT k FROM [", "x", "]\n"), "E02"),
    ("letters of a column's name", step("a:CREATE TABLE t(k INT PRIMARY KEY,a", "x", " INT)\n"), "E16"),
    ("blanks", step(TABLE + "a:SELECT COUNT(*)", " ", "FROM t\n"), "1 rows"),
    ("lines", step("", "\n", "a:x\n"), "E01"),
    ("comments", step("", "--\n", "a:x\n"), "E01"),
    ("statements outside the grammar", step("", "a:x\n"), "E01"),
    ("sessions in turn", step(TABLE, lambda n: f"s{n % 63}:SELECT v FROM t WHERE k=1\n"), "0 rows"),
    ("transactions of a row", step(TABLE, in_turns("a:INSERT t VALUES(#,0)")), "committed"),
    ("transactions of a row, keys falling", step(TABLE, lambda n: f"a:INSERT t VALUES({10**6 - n},0)\n"), "committed"),
    ("transactions, the first open", step(
        TABLE + "b:BEGIN TRAN\nb:INSERT t VALUES(-1,0)\n", in_turns("a:INSERT t VALUES(#,0)")), "(end)"),
    ("rows of one transaction", step(TABLE + "a:BEGIN TRAN", rows_of("a:INSERT t"), "\na:COMMIT\n"), "committed"),
    ("statements of one transaction", step(
        TABLE + "a:BEGIN TRAN\n", in_turns("a:INSERT t VALUES(#,0)"), "a:COMMIT\n"), "committed"),
    ("statements of one transaction, rolled back", step(
        TABLE + "a:BEGIN TRAN\n", in_turns("a:INSERT t VALUES(#,0)"), "a:ROLLBACK\n"), "ended"),
    ("rows of an old transaction", halves(
        TABLE + "b:BEGIN TRAN", rows_of("\na:INSERT t"), "\n", lambda n: f"b:INSERT t VALUES({-n - 1},0)\n"), "(end)"),
    ("versions of one key", step(ONE_ROW, "a:UPDATE t SET v=2 WHERE k=1\n"), "committed"),
    ("versions of one key in one transaction", step(
        ONE_ROW + "a:BEGIN TRAN\n", "a:UPDATE t SET v=2 WHERE k=1\n", "a:ROLLBACK\n"), "ended"),
    ("rows that come and go", step(TABLE, in_turns("a:INSERT t VALUES(1,1)", "a:DELETE t WHERE k=1")), "committed"),
    ("rows of four indexes", step(
        TABLE + "".join(f"a:CREATE INDEX i{n} ON t(v)\n" for n in range(4)), in_turns("a:INSERT t VALUES(#,0)")),
        "committed"),
    ("savepoints", step(TABLE + "a:BEGIN TRAN\n", "a:SAVE TRAN s\n"), "(end)"),
    ("ways back to a savepoint", step(
        TABLE + "a:BEGIN TRAN", lambda n: "\na:SAVE TRAN s" if n < 1 else "\na:ROLLBACK TRAN s"), "(end)"),
    ("ways back over 1,000 rows", step(
        TABLE + "a:BEGIN TRAN" + "".join(map(rows_of("a:INSERT t"), range(1000))) + "\na:SAVE TRAN s\n",
        in_turns("a:INSERT t VALUES(-1,0)", "a:ROLLBACK TRAN s")), "(end)"),
    ("locks of one transaction, and as many others", halves(
        TABLE + "b:BEGIN TRAN", rows_of("b:INSERT t"), "\n", "a:DELETE t WHERE k=-1\n"), "ended"),
    ("locks of one transaction, met", halves(
        TABLE + "b:BEGIN TRAN", rows_of("b:INSERT t"), "\n", "a:SELECT * FROM t\n"), "E20"),
    ("locks of 63 transactions", step(
        TABLE + "".join(f"s{n}:BEGIN TRAN\n" for n in range(63)), lambda n: f"s{n % 63}:INSERT t VALUES({n},0)\n"),
        "(end)"),
    ("tables refused", step("", lambda n: f"a:CREATE TABLE t{n}(k INT PRIMARY KEY)\n"), "E16"),
    ("digests", step(TABLE, in_turns("a:INSERT t VALUES(#,0)", "a:EXEC sp_generate_database_ledger_digest")), "digest"),
    ("blocks of one entry", step(TABLE, in_turns("a:INSERT t VALUES(#,0)"), "", [*STEP, "--block-size", "1"]), "committed"),
    ("images kept", step(TABLE, lambda n: f"a:INSERT t VALUES({n},0)\n" if n % 1000 else f"s{n // 2000}:SAVE IMAGE\n"), ""),
]

# In each of 63 sections, and of the statements of `run`, whatever their order.
RUN = [
    ("run: statements of a section", step(
        "-- setup\nCREATE TABLE t(k INT PRIMARY KEY,v INT)\n-- session a\n", in_turns("INSERT t VALUES(#,0)"), "",
        ["run", *STEP[1:]]), "committed"),
    ("run: statements of the setup", step(
        "-- setup\nCREATE TABLE t(k INT PRIMARY KEY,v INT)\n", in_turns("INSERT t VALUES(#,0)"), "-- session a\nx\n",
        ["run", *STEP[1:]]), "E01"),
    ("run: sections named in vain", step(
        "-- session a\n", "-- sessions\n", "x\n", ["run", *STEP[1:]]), "E01"),
]

# --- Images ----------------------------------------------------------------------------------------------------------

VERIFY = ["verify", "x.img", "x.digests"]
ROW = 16 + 2 + 2 * 13


def pictured(each: int, make: Callable[[int], Book | bytes], words: list[str] = VERIFY) -> Callable[[int], Call]:
    """An image of as many items as fit, so many bytes each, and no digests."""

    def call(size: int) -> Call:
        count = max(1, (size - 5000) // each)
        made = make(count)
        return Call(words, count, {"x.img": made if isinstance(made, bytes) else made.image(), "x.digests": b"[]"})

    return call


def blocks(count: int) -> list[bytes]:
    """Records, each with the hash of the one before, of one entry that isn't there."""
    records, previous = [], bytes(32)
    for n in range(count):
        records.append(struct.pack(">Q", n) + bytes(32) + struct.pack(">Q", 1) + previous)
        previous = hashlib.sha256(records[-1]).digest()
    return records


def bare(parts: list[bytes], entries: list[bytes], definitions: list[Definition]) -> bytes:
    """An image without rows."""
    book = Book()
    for it in definitions:
        book.add_definition(it)
    return image_bytes(parts, entries, book.definitions, book.rows)


def entries(count: int, roots: int, same: bool = False) -> list[bytes]:
    root = {n: [bytes(32)] for n in range(roots)}
    return [b"".join(entry_bytes(1 if same else n + 1, root)) for n in range(count)]


def many_roots(count: int) -> Book:
    """Transactions of 255 events, each in a table of its own."""
    book = Book(table(id) for id in range(3, 258))
    for n in range(count):
        row = numbers(n, 0)
        for id in range(3, 258):
            book.start(id, 10**6 + n, row)
    return book


def one_transaction(count: int) -> Book:
    book = Book([table(3)])
    for n in range(count):
        book.start(3, 4, numbers(n, 0))
    return book


def many_transactions(count: int, falling: bool = False) -> Book:
    """Transactions of one event, by rising ids or by falling ones."""
    book = Book([table(3)])
    for n in range(count):
        book.start(3, 2**40 - n if falling else n + 4, numbers(n, 0))
    return book


def one_key(count: int, transactions: bool) -> Book:
    """Versions of one key, each ended where the next one starts, by one transaction or by as many."""
    book, row = Book([table(3)]), numbers(0, 0)
    update(book, row, book.start(3, 4, row), (n + 5 if transactions else 4 for n in range(count)))
    return book


def update(book: Book, row: Row, start: Start, transactions: Iterable[int]) -> None:
    """UPDATEs of the row of table 3 that started there, which leave its values as they are."""
    for transaction in transactions:
        book.end(3, transaction, start, row)
        start = book.start(3, transaction, row)


def carried_on(count: int) -> Book:
    """Versions of one key, each of which has the value of a dropped column from the one before."""
    made, row = table(3, 3), numbers(0, 0, 0)
    book = Book([made])
    start = book.start(3, 4, row)
    gone = made.columns[1]._replace(name="MSSQL_DroppedLedgerColumn_c1_2", dropped=1)
    book.definitions = [made._replace(columns=(made.columns[0], gone, made.columns[2]))]
    said = list(verify.item_rows(book.definitions[0])[1])
    said[2] = whole(1)
    book.start(COLUMNS, 5, Row(said))
    update(book, row, start, range(6, count + 6))
    return book


def ended_backwards(count: int) -> Book:
    """Rows that one transaction started, and others ended from the last to the first."""
    book = Book([table(3)])
    rows = [numbers(n, 0) for n in range(count)]
    starts = [book.start(3, 4, row) for row in rows]
    for n, (start, row) in enumerate(reversed(list(zip(starts, rows)))):
        book.end(3, n + 5, start, row)
    return book


def one_live_key(count: int) -> Book:
    book, row = Book([table(3)]), numbers(0, 0)
    for _ in range(count):
        book.start(3, 4, row)
    return book


def table_rows(count: int, tables: bool, transactions: bool = False) -> Book:
    """Rows of the table of tables, by one transaction or by as many: changes of one, or one each about as many."""
    book = Book([table(3)])
    said = list(verify.table_row(table(3)))
    for n in range(1, count):
        said[0], said[1] = (whole(3 + n), whole(0)) if tables else (whole(3), whole(n))
        book.start(TABLES, n + 3 if transactions else 4, Row(said))
    return book


def column_rows(count: int, place: int, transactions: bool = False) -> Book:
    """Rows of the table of columns, by one transaction or by as many: about as many tables (0), items (1) or changes
    (2)."""
    book = Book([table(3)])
    said = list(verify.item_rows(table(3))[1])
    for n in range(3, count):
        said[place] = whole(n + 1 if place == 0 else n if place == 1 else n - 2)
        book.start(COLUMNS, n + 1 if transactions else 4, Row(said))
    return book


def names_taken(count: int) -> Book:
    """Rows about as many tables, all of one name, that stand before those of the table that has it."""
    book = Book()
    said = list(verify.table_row(table(3)))
    for n in range(1, count):
        said[0] = whole(3 + n)
        book.start(TABLES, n + 3, Row(said))
    book.define(table(3), 3)
    return book


def definitions_with_rows(count: int) -> Book:
    return Book(table(n + 3, 1) for n in range(count))


def bare_definition(id: int, columns: tuple[Column, ...] = (), indexes: tuple[Index, ...] = ()) -> Definition:
    return Definition(id, 1, f"t{id}", "", f"v{id}", columns, indexes)


def many_columns(count: int, same: bool) -> bytes:
    """Definitions of 65,535 columns each."""

    def columns(n: int) -> tuple[Column, ...]:
        return tuple(Column("c" if same else f"c{c}", Type(2), 0, 0) for c in range(min(65535, count - n)))

    return bare([], [], [bare_definition(n // 65535 + 3, columns(n)) for n in range(0, count, 65535)])


def many_indexes(count: int) -> bytes:
    """Definitions with 255 indexes of 255 columns each; as many ordinals."""
    columns = tuple(Column(f"c{c}", Type(2), 0, 0) for c in range(255))
    indexes = tuple(Index(f"i{n}", tuple(range(1, 256))) for n in range(255))
    return bare([], [], [bare_definition(n + 3, columns, indexes) for n in range(count // 65025)])


def index_rows(count: int) -> Book:
    """Rows in four indexes that differ in the key alone."""
    indexes = tuple(Index(f"i{n}", (2,)) for n in range(4))
    book = Book([table(3)._replace(indexes=indexes)])
    for n in range(count):
        book.start(3, 4, numbers(n, 0))
        for own in book.rows[3].indexes:
            own.append(numbers(0, n).bytes)
    return book


def wide_rows(count: int) -> Book:
    """Rows of 65,535 values, all NULL; as many values."""
    book, row = Book([table(3)]), Row([None] * 65535)
    for _ in range(0, count, 65535):
        book.start(3, 4, row)
    return book


def null_rows(count: int) -> Book:
    """Rows of 64 columns, all NULL but the key, with as many changes of the last one in the table of columns."""
    it = table(3, 64)
    book = Book([it])
    said = list(verify.item_rows(it)[-1])
    for n in range(count):
        said[2] = whole(n + 1)
        book.start(COLUMNS, 4, Row(said))
        book.start(3, 5, Row([whole(n), *[None] * 63]))
    return book


def long_keys(count: int) -> Book:
    """Rows with a key of 64 columns, equal but for the last."""
    book = Book([table(3, 64, 64)])
    for n in range(count):
        book.start(3, 4, numbers(*[0] * 63, n))
    return book


IMAGES = [
    ("image: blocks", pictured(80, lambda n: bare(blocks(n), [], [])), "No V3 block 0"),
    ("image: entries", pictured(57, lambda n: bare([], entries(n, 1), [])), "No V5 transaction 1 table 0"),
    ("image: entries of one id", pictured(57, lambda n: bare([], entries(n, 1, True), [])), "No V4 entry 1"),
    ("image: entries of 255 roots", pictured(21 + 255 * 36, lambda n: bare([], entries(n, 255), [])), "No V5 transaction"),
    ("image: 255 events and roots", pictured(21 + 255 * (36 + ROW), many_roots), "No V7 table 35"),
    ("image: 255 events and roots, 4 workers", pictured(
        21 + 255 * (36 + ROW), many_roots, [*VERIFY, "--workers", "4"]), "No V7 table 35"),
    ("image: events of one transaction", pictured(ROW, one_transaction), "Yes"),
    ("image: transactions", pictured(57 + ROW, many_transactions), "Yes"),
    ("image: transactions, ids falling", pictured(57 + ROW, lambda n: many_transactions(n, True)), "Yes"),
    ("image: transactions, 4 workers", pictured(
        57 + ROW, many_transactions, [*VERIFY, "--workers", "4"]), "Yes"),
    ("image: versions of one key", pictured(16 + ROW, lambda n: one_key(n, False)), "Yes"),
    ("image: versions of one key, a transaction each", pictured(57 + 16 + ROW, lambda n: one_key(n, True)), "Yes"),
    ("image: rows ended from the last to the first", pictured(57 + 16 + ROW, ended_backwards), "Yes"),
    ("image: live rows of one key", pictured(ROW, one_live_key), "No V6 table 3"),
    ("image: updates that carry a dropped value on", pictured(57 + 16 + 13 + ROW, carried_on), "Yes"),
    ("image: changes of one table", pictured(94, lambda n: table_rows(n, False)), "No V7 table 3"),
    ("image: changes of one table, a transaction each", pictured(
        57 + 94, lambda n: table_rows(n, False, True)), "No V7 table 3"),
    ("image: rows about as many tables", pictured(94, lambda n: table_rows(n, True)), "No V7 table 4"),
    ("image: as many tables of one name", pictured(57 + 94, names_taken), "No V7 table 3"),
    ("image: rows of columns, as many tables", pictured(132, lambda n: column_rows(n, 0)), "No V7 table 4"),
    ("image: rows of columns, as many items", pictured(132, lambda n: column_rows(n, 1)), "No V7 table 3"),
    ("image: rows of columns, as many changes", pictured(132, lambda n: column_rows(n, 2)), "No V7 table 3"),
    ("image: rows of columns, as many changes, a transaction each", pictured(
        57 + 132, lambda n: column_rows(n, 2, True)), "No V7 table 3"),
    ("image: definitions", pictured(52, lambda n: bare([], [], [bare_definition(i + 3) for i in range(n)])), "No V7 table 3"),
    ("image: definitions with their rows", pictured(390, definitions_with_rows), "No V7 table 35"),
    ("image: columns of definitions", pictured(16, lambda n: many_columns(n, False)), "No V7 table 3"),
    ("image: columns of equal names", pictured(11, lambda n: many_columns(n, True)), "No V7 table 3"),
    ("image: ordinals of indexes", pictured(3, many_indexes), "No V7 table 3"),
    ("image: rows of four indexes", pictured(ROW + 4 * 28, index_rows), "Yes"),
    ("image: values of a row", pictured(1, wide_rows), "No V6 table 3"),
    ("image: values that are NULL, and changes of a column", pictured(94 + 132, null_rows), "No V7 table 3"),
    ("image: keys of 64 columns", pictured(18 + 64 * 13, long_keys), "No V7 table 3"),
]

# --- Digest files, receipts, chains ----------------------------------------------------------------------------------


def small() -> tuple[bytes, bytes]:
    """An image with one block, and the hash of that."""
    image = one_transaction(1).image()
    return image, hashlib.sha256(image[23:103]).digest()


def digest(block: int, found: bytes, more: str = "") -> str:
    return f'{{"block_id":{block},"database_name":"LedgerDB","hash":"0x{found.hex()}"{more}}}'


def digests(item: str | Callable[[int], str], head: str = "[", tail: str = "]", words: list[str] = VERIFY) -> Callable[[int], Call]:
    """A small image and a digest file of a head, items and a tail; @ is a digest of the image's block."""

    def call(size: int) -> Call:
        image, found = small()
        right = digest(0, found)
        parts = [part.replace("@", right) if isinstance(part, str) else part for part in (head, item, tail)]
        text, count = filled(size, parts[0], parts[1], parts[2])
        return Call(words, count, {"x.img": image, "y.img": image, "x.digests": text.encode()})

    return call


EXTRACT = ["extract", "x.img", "y.img", "x.digests"]
DIGEST_FILES = [
    ("digests: right ones", digests("@,", tail="@]"), "Yes"),
    ("digests: extract", digests("@,", tail="@]", words=EXTRACT), "Same"),
    ("digests: of no block", digests(lambda n: digest(n + 1, bytes(32)) + ",", tail="@]"), "No V1 digest 0"),
    ("digests: asof", digests("@,", tail="@]", words=["asof", "x.img", "1", "--digests", "x.digests"]), ""),
    ("digests: receipt", digests("@,", tail="@]", words=["receipt", "x.img", "x.digests", "4", "--save", "r"]), "receipt 0 1"),
    ("digests: keys of an object", digests(lambda n: f'"{n}":0,', "[@,{", '"":0}]'), "at index 1"),
    ("digests: equal keys", digests('"hash":0,', "[@,{", '"":0}]'), "at index 1"),
    ("digests: a text of escapes", digests("\\u0041", '[@,"', '"]'), "at index 1"),
    ("digests: a text of pairs of escapes", digests("\\ud83d\\ude00", '[@,"', '"]'), "at index 1"),
    ("digests: digits of a number", digests("1", "[@,", "]"), "in JSON"),
    ("digests: digits behind the point", digests("0", "[@,0.", "1]"), "at index 1"),
    ("digests: digits of an exponent", digests("0", "[@,1e", "1]"), "at index 1"),
    ("digests: digits of a small number", digests("9", "[@,0.", "e-330]"), "at index 1"),
    ("digests: arrays", digests("[],", "[@,", "[]]"), "at index 1"),
    ("digests: arrays in arrays", digests("[" * 125 + "]" * 125 + ",", "[@,", "[]]"), "at index 1"),
    ("digests: too many arrays in arrays", digests("[", "[@,"), "in JSON"),
    ("digests: objects in objects", digests('{"":' * 125 + "0" + "}" * 125 + ",", "[@,", "[]]"), "at index 1"),
    ("digests: blanks", digests(" ", "[", "@]"), "Yes"),
]


def chain(size: int) -> Call:
    """A chain, and the digests of as many of its blocks as fit their file."""
    count = (size - 100) // 80
    records = blocks(count)
    right = [digest(n, hashlib.sha256(record).digest()) for n, record in enumerate(records)]
    files = {"x.chain": b"LGCC\1" + short("LedgerDB") + listed(8, records), "x.digests": f"[{','.join(right)}]".encode()}
    return Call(["check", "x.chain", "x.digests"], count, files)


def receipt_records(size: int) -> Call:
    """A receipt with as many records."""
    count = (size - 300) // 80
    front, rest = entry_bytes(1, {3: [bytes(32)]})
    entry = b"\1" + front[:8] + bytes(12) + front[8:] + rest
    records, previous = [], bytes(32)
    for n in range(count):
        root = hashlib.sha256(b"\0" + entry).digest()
        records.append(struct.pack(">Q", n) + root + struct.pack(">Q", 1) + previous)
        previous = hashlib.sha256(records[-1]).digest()
    body = short("LedgerDB") + len(entry).to_bytes(4, "big") + entry + b"\0" + listed(8, records)
    files = {"x.receipt": b"LGRC\1" + body, "x.digests": f"[{digest(count - 1, previous)}]".encode()}
    return Call(["check", "x.receipt", "x.digests"], count, files)


def joined(size: int) -> Call:
    """An image with a block for each transaction, and digests of the first and the last one."""
    count = (size - 5000) // (80 + 57 + ROW)
    image = many_transactions(count).image(1)
    found = [hashlib.sha256(image[23 + 80 * n : 103 + 80 * n]).digest() for n in (0, count)]
    held = f"[{digest(0, found[0])},{digest(count, found[1])}]".encode()
    return Call(["join", "x.img", "x.digests", "--save", "y"], count, {"x.img": image, "x.digests": held})


def extracted(size: int) -> Call:
    """Two images of the same transactions, with the digest of their last block."""
    count = (size - 5000) // (57 + ROW)
    image = many_transactions(count).image()
    last = (count + 1 + 99_999) // 100_000 - 1
    held = f"[{digest(last, hashlib.sha256(image[23 + 80 * last : 103 + 80 * last]).digest())}]".encode()
    return Call(EXTRACT, count, {"x.img": image, "y.img": image, "x.digests": held})


def asked(size: int) -> Call:
    """A question about an image of as many transactions."""
    count = (size - 5000) // (57 + ROW)
    image = many_transactions(count).image()
    return Call(["asof", "x.img", str(count)], count, {"x.img": image}, b"SELECT COUNT(*) FROM t3\n")


def texts(size: int) -> Call:
    """As many questions about a small image."""
    text, count = filled(size, "", "SELECT c1 FROM t3 WHERE c0=1\n")
    return Call(["asof", "x.img", "1"], count, {"x.img": small()[0]}, text.encode())


OTHERS = [
    ("chain: records, and as many digests", RECEIPT // 2, chain, "Yes"),
    ("receipt: records", RECEIPT, receipt_records, "Yes"),
    ("join: blocks", IMAGE, joined, "joined 0"),
    ("extract: transactions of both", IMAGE, extracted, "Same"),
    ("upgrade: transactions", IMAGE, pictured(
        57 + ROW, many_transactions, ["upgrade", "x.img", "--save", "y"]), "upgraded"),
    ("asof: transactions", IMAGE, asked, "1 rows"),
    ("asof: texts", INPUT, texts, "0 rows"),
]

# --- Journals --------------------------------------------------------------------------------------------------------

REPLAY = ["replay", "x.journal", "--save", "y"]
MADE = ("CREATE TABLE t(k INT PRIMARY KEY,v INT)", "made\n")


def transaction(id: int, statements: list[tuple[str, str]], explicit: int = 0) -> bytes:
    spelled = [len(text).to_bytes(8, "big") + text.encode() for both in statements for text in both]
    head = b"\1" + struct.pack(">Q", id) + short("a") + bytes(8) + bytes([explicit])
    return head + len(statements).to_bytes(8, "big") + b"".join(spelled)


def journal(items: list[bytes]) -> bytes:
    return b"LGJN\1" + short("LedgerDB") + listed(8, items)


def replayed(each: int, items: Callable[[int], list[bytes]]) -> Callable[[int], Call]:
    def call(size: int) -> Call:
        count = (size - 500) // each
        return Call(REPLAY, count, {"x.journal": journal([transaction(1, [MADE]), *items(count)])})

    return call


def inserts(count: int, closed: bool = False) -> list[bytes]:
    """Transactions of a row, closed one by one where that is asked."""
    close = b"\2" + (1).to_bytes(4, "big") if closed else b""
    made = [transaction(n + 2, [(f"INSERT t VALUES({n},0)", "1 rows\n")]) for n in range(count)]
    return made if not closed else [item for one in made for item in (one, close)]


def script(count: int, text: str, reply: Callable[[int], str], front: list[tuple[str, str]] = []) -> list[bytes]:
    """One transaction of as many statements, and a row."""
    last = ("INSERT t VALUES(1,1)", "1 rows\n")
    return [transaction(2, [*front, last, *[(text, reply(n)) for n in range(count)]], 1)]


def thousands(count: int) -> list[bytes]:
    """Rows by the thousand."""
    return [
        transaction(n + 2, [("INSERT t VALUES" + ",".join(f"({row},0)" for row in range(n, n + 1000)), "1000 rows\n")])
        for n in range(0, count, 1000)
    ]


def long_statement(head: str, item: str | Callable[[int], str], tail: str, reply: str) -> Callable[[int], Call]:
    """A transaction of a row and one statement that fills the journal."""

    def call(size: int) -> Call:
        text, count = filled(size - 500, head, item, tail)
        items = [transaction(1, [MADE]), transaction(2, [("INSERT t VALUES(1,1)", "1 rows\n"), (text, reply)], 1)]
        return Call(REPLAY, count, {"x.journal": journal(items)})

    return call


JOURNALS = [
    ("journal: transactions of a row", replayed(80, inserts), "replayed"),
    ("journal: transactions and closings", replayed(85, lambda n: inserts(n, True)), "replayed"),
    ("journal: rows by the thousand", replayed(14, thousands), "replayed"),
    ("journal: versions of one key", replayed(
        83, lambda n: inserts(1) + [transaction(i + 3, [("UPDATE t SET v=1 WHERE k=0", "1 rows\n")]) for i in range(n)]),
        "replayed"),
    ("journal: ids", replayed(44, lambda n: [transaction(i + 2, [("x", "E01\n")]) for i in range(n)]), "item 1"),
    ("journal: statements outside the grammar", replayed(21, lambda n: script(n, "x", lambda i: "E01\n")), "replayed"),
    ("journal: savepoints", replayed(
        40, lambda n: script(n, "SAVE TRAN s", lambda i: "saved\n" if i < 64 else "E16\n")), "replayed"),
    ("journal: ways back", replayed(
        40, lambda n: script(n, "ROLLBACK TRAN s", lambda i: "back\n", [("SAVE TRAN s", "saved\n")])), "item 1"),
    ("journal: lookups of one transaction", replayed(
        56, lambda n: script(n, "SELECT v FROM t WHERE k=1", lambda i: "1\n1 rows\n")), "replayed"),
    ("journal: tokens of a statement", long_statement("", "(", "", "E01\n"), "replayed"),
    ("journal: rows of VALUES", long_statement("INSERT t VALUES(0,0)", lambda n: f",({n},0)", "", "E16\n"), "replayed"),
    ("journal: names of INSERT", long_statement("INSERT t(k", lambda n: f",a{n}", ")VALUES(1)", "E04\n"), "replayed"),
    ("journal: names of SET", long_statement("UPDATE t SET v=1", lambda n: f",a{n}=1", "", "E04\n"), "replayed"),
    ("journal: letters of a text", long_statement("INSERT t VALUES(1,'", "x", "')", "E05\n"), "replayed"),
]

CASES = [
    *(Case(name, INPUT, make, says) for name, make, says in (*SQL, *RUN)),
    *(Case(name, DIGESTS, make, says) for name, make, says in DIGEST_FILES),
    *(Case(name, most, make, says) for name, most, make, says in OTHERS),
    *(Case(name, IMAGE, make, says) for name, make, says in (*JOURNALS, *IMAGES)),
]
