"""Makes up images by docs/reference/formats.md with all the hashes that `verify` asks for, as large as an image may be.

What `ledgerd` wouldn't make itself can be made here. Rows are bytes from the beginning, so that millions take a minute.
"""

import hashlib
import itertools
import struct
from collections.abc import Iterable

import verify
from forge import definition_bytes
from ledger import COLUMNS, INT, TABLES, Column, Definition, Type, Value, short

Start = tuple[int, int]

NULL = b"\0"
# Transactions from here on create indexes.
FIRST_OF_INDEXES = 2**48


class Row:
    """The values of a row: their bytes in an image, and in a leaf."""

    def __init__(self, values: Iterable[Value | None]):
        spelled, told = [], []
        for ordinal, value in enumerate(values, 1):
            if value is None:
                spelled.append(NULL)
                continue
            kind = struct.pack(">BHB", *value.type) + struct.pack(">I", len(value.data)) + value.data
            spelled.append(b"\1" + kind)
            told.append(struct.pack(">H", ordinal) + kind)
        self.bytes = struct.pack(">H", len(spelled)) + b"".join(spelled)
        self.leaf = struct.pack(">H", len(told)) + b"".join(told)


def whole(number: int) -> Value:
    return Value(Type(INT), struct.pack(">i", number))


def numbers(*values: int) -> Row:
    return Row(map(whole, values))


class Rows:
    """The rows of a table: base rows by start, history rows, and those of each index."""

    def __init__(self) -> None:
        self.base: dict[Start, bytes] = {}
        self.history: list[tuple[Start, bytes]] = []
        self.indexes: list[list[bytes]] = []

    def bytes(self) -> bytes:
        base = [struct.pack(">QQ", *start) + row for start, row in sorted(self.base.items())]
        history = [row for _, row in sorted(self.history)]
        return b"".join(listed(8, part) for part in (base, history, *self.indexes))


class Book:
    """An image in the making. Its transactions have one entry each, in the order in which they are named first."""

    def __init__(self, definitions: Iterable[Definition] = ()):
        self.definitions: list[Definition] = []
        self.rows = {TABLES: Rows(), COLUMNS: Rows()}
        # of each transaction the count of its events, and the hashes of its leaves by table
        self.counts: dict[int, int] = {}
        self.hashes: dict[int, dict[int, list[bytes]]] = {}
        for it in definitions:
            self.define(it, it.id)

    def define(self, it: Definition, transaction: int) -> None:
        """A definition, with its rows in the system's tables: those of CREATE TABLE, which the transaction starts, and
        those of each CREATE INDEX, of a transaction of its own."""
        self.add_definition(it)
        self.start(TABLES, transaction, Row(verify.table_row(it)))
        items = iter(verify.item_rows(it))
        for item in itertools.islice(items, len(it.columns)):
            self.start(COLUMNS, transaction, Row(item))
        for own, index in enumerate(it.indexes, FIRST_OF_INDEXES + 256 * it.id):
            for item in itertools.islice(items, len(index.ordinals)):
                self.start(COLUMNS, own, Row(item))

    def add_definition(self, it: Definition) -> None:
        """A definition of which the system's tables say nothing."""
        self.definitions.append(it)
        self.rows[it.id] = Rows()
        self.rows[it.id].indexes += [[] for _ in it.indexes]

    def event(self, table: int, kind: bytes, transaction: int, at_start: bytes, row: Row) -> int:
        number = self.counts.get(transaction, 0)
        self.counts[transaction] = number + 1
        head = b"\1" + struct.pack(">I", table) + kind + struct.pack(">QQ", transaction, number)
        leaf = hashlib.sha256(b"\0" + head + at_start + row.leaf).digest()
        self.hashes.setdefault(transaction, {}).setdefault(table, []).append(leaf)
        return number

    def start(self, table: int, transaction: int, row: Row) -> Start:
        """A new version; its start."""
        start = transaction, self.event(table, b"\1", transaction, b"", row)
        self.rows[table].base[start] = row.bytes
        return start

    def end(self, table: int, transaction: int, start: Start, row: Row) -> None:
        """The end of the version that started there and has these values."""
        number = self.event(table, b"\2", transaction, struct.pack(">QQ", *start), row)
        both = struct.pack(">QQQQ", *start, transaction, number)
        self.rows[table].history.append((start, both + self.rows[table].base.pop(start)))

    def image(self, block: int = 100_000) -> bytes:
        """The image, in blocks of so many entries."""
        entries, blocks, previous = [], [], bytes(32)
        transactions = list(self.hashes.items())
        for place in range(0, len(transactions), block):
            leaves = []
            for ordinal, (transaction, tables) in enumerate(transactions[place : place + block]):
                front, rest = entry_bytes(transaction, tables)
                entries.append(front + rest)
                leaves.append(b"\0\1" + front[:8] + struct.pack(">QI", len(blocks), ordinal) + front[8:] + rest)
            root = tree_root([hashlib.sha256(leaf).digest() for leaf in leaves])
            blocks.append(struct.pack(">Q", len(blocks)) + root + struct.pack(">Q", len(leaves)) + previous)
            previous = hashlib.sha256(blocks[-1]).digest()
        return image_bytes(blocks, entries, self.definitions, self.rows)


def image_bytes(
    blocks: list[bytes], entries: list[bytes], definitions: list[Definition], rows: dict[int, Rows]
) -> bytes:
    return b"LGIM\2" + short("LedgerDB") + b"".join((
        listed(8, blocks), listed(8, entries), listed(4, [definition_bytes(it) for it in definitions]),
        *(rows[table].bytes() for table in (TABLES, COLUMNS, *(it.id for it in definitions))),
    ))


def listed(width: int, items: list[bytes]) -> bytes:
    return len(items).to_bytes(width, "big") + b"".join(items)


def entry_bytes(transaction: int, tables: dict[int, list[bytes]]) -> tuple[bytes, bytes]:
    """An entry as an image has it: its id and time, and the rest."""
    roots = [struct.pack(">I", table) + tree_root(hashes) for table, hashes in sorted(tables.items())]
    return struct.pack(">QQ", transaction, 0), short("a") + b"\1" + listed(1, roots)


def tree_root(hashes: list[bytes]) -> bytes:
    """The tree hash of leaves with these hashes: two neighbours become one, and who has none goes up as it is."""
    while len(hashes) > 1:
        pairs = [hashlib.sha256(b"\1" + a + b).digest() for a, b in zip(hashes[::2], hashes[1::2])]
        hashes = pairs + hashes[len(pairs) * 2 :]
    return hashes[0]


def table(id: int, columns: int = 2, key: int = 1, name: str = "") -> Definition:
    """An updatable table of so many INT columns, the first ones of the key."""
    name = name or f"t{id}"
    made = tuple(Column(f"c{n}", Type(INT), int(n >= key), n + 1 if n < key else 0) for n in range(columns))
    return Definition(id, 2, name, f"h{id}", f"v{id}", made)
