#!/usr/bin/env python3
"""Checks a receipt or a chain against held digests, without the image and without ledgerd.

    tools/check_receipt.py RECEIPT DIGESTS

Writes `Yes`, of a chain `Yes A B` with the blocks of its first and last record (status 0); or `No join of block K`,
`No digest of block K` or `No receipt` (1); and on standard error what the receipt shows or lacks. The status is 15
where the bytes have no receipt's form, 8 where the digests can't be read, 7 where a file can't. This file needs no
other, and is written from docs/reference/formats.md alone (sections "Receipt", "Receipts of rows" and "Chain"). Of the
events that a receipt shows it looks at the heads alone, and not at their values.
"""

import hashlib
import json
import re
import sys


def need(condition: bool, status: int, lack: str, line: str = "No receipt") -> None:
    """Ends the check with what a receipt lacks."""
    if not condition:
        if status == 1:
            print(line)
        print(f"check_receipt.py: {lack}", file=sys.stderr)
        sys.exit(status)


def sha256(data: bytes) -> bytes:
    return hashlib.sha256(data).digest()


class Reader:
    """Bytes, read from the front, and the status where they lack their form."""

    def __init__(self, data: bytes, status: int = 15):
        self.data, self.at, self.status = data, 0, status

    def take(self, count: int) -> bytes:
        self.at += count
        need(self.at <= len(self.data), self.status, "the receipt is too short")
        return self.data[self.at - count : self.at]

    def number(self, width: int, least: int = 0, most: int = 2**64) -> int:
        found = int.from_bytes(self.take(width), "big")
        need(least <= found <= most, self.status, "a number of the receipt is out of its range")
        return found

    def name(self, form: bytes) -> bytes:
        found = self.take(self.number(2))
        need(re.fullmatch(form, found) is not None, self.status, "a name of the receipt lacks its form")
        return found

    def close(self) -> None:
        need(self.at == len(self.data), self.status, "bytes stand behind the end of the receipt")


def read_file(path: str) -> bytes:
    try:
        with open(path, "rb") as file:
            return file.read()
    except OSError as error:
        need(False, 7, str(error))
        raise


def read_entry(source: Reader) -> dict:
    """Section "Transaction entry"."""
    source.number(1, 1, 1)
    entry = {"id": source.number(8, 1, 2**63 - 1), "block": source.number(8), "ordinal": source.number(4),
             "time": source.number(8, 0, 2534023007999999999), "session": source.name(rb"[A-Za-z0-9_]{1,32}").decode()}
    source.number(1, 1, 1)
    roots: dict[int, bytes] = {}
    for _ in range(source.number(1, 1)):
        table = source.number(4, max(roots) + 1 if roots else 0)
        roots[table] = source.take(32)
    source.close()
    return {**entry, "roots": roots, "tables": list(roots)}


def read_leaf(leaf: bytes) -> tuple[int, int]:
    """The transaction and the table of an event (section "Leaf")."""
    source = Reader(leaf, 1)
    source.number(1, 1, 1)
    table = source.number(4)
    end = source.number(1, 1, 2) == 2
    transaction = source.number(8)
    source.take(8 + 16 * end)
    for _ in range(source.number(2)):
        source.take(6)
        source.take(source.number(4))
    source.close()
    return transaction, table


def root_under(path: list[bytes], place: int, count: int, leaf: bytes) -> bytes | None:
    """The root to which a path leads from the leaf at a place of so many (RFC 9162, section 2.1.3.2)."""
    at, last, found = place, count - 1, sha256(b"\0" + leaf)
    for other in path:
        if last == 0:
            return None
        if at % 2 == 1 or at == last:
            found = sha256(b"\1" + other + found)
            while at % 2 == 0 and at != 0:
                at, last = at // 2, last // 2
        else:
            found = sha256(b"\1" + found + other)
        at, last = at // 2, last // 2
    return found if last == 0 else None


def tree_hash(leaves: list[bytes]) -> bytes:
    """RFC 6962, section 2.1, of one leaf and more."""
    if len(leaves) == 1:
        return sha256(b"\0" + leaves[0])
    half = 1 << (len(leaves) - 1).bit_length() - 1
    return sha256(b"\1" + tree_hash(leaves[:half]) + tree_hash(leaves[half:]))


def root_over(leaf: bytes, steps: list[tuple[int, bytes]]) -> bytes:
    """The root to which steps lead from a leaf."""
    found = sha256(b"\0" + leaf)
    for before, other in steps:
        found = sha256(b"\1" + (other + found if before else found + other))
    return found


def read_digests(data: bytes) -> list[dict]:
    """Section "Digest file", though this reads some files that it refuses."""
    items = json.loads(data.decode())
    items = items if isinstance(items, list) else [items]
    for it in items:
        has_block = type(it["block_id"]) is int and 0 <= it["block_id"] < 2**64
        if not (has_block and type(it["database_name"]) is str and re.fullmatch("0x[0-9A-Fa-f]{64}", it["hash"])):
            raise ValueError("no digest")
    return items


def check_records(records: list[bytes], database: str, held: list[dict]) -> list[int]:
    """The numbers of the blocks of records that lead to a held digest."""
    ids = [int.from_bytes(record[:8], "big") for record in records]
    digest = next((it for it in held if it["block_id"] == ids[-1]), None)
    need(digest is not None, 1, "the list has no digest of the last block", f"No digest of block {ids[-1]}")
    need(digest["database_name"] == database, 1, "the digest is of another database")
    need(bytes.fromhex(digest["hash"][2:]) == sha256(records[-1]), 1, "the last record is not the one of the digest")
    need(ids == list(range(ids[0], ids[0] + len(ids))), 1, "the records are of other blocks")
    linked = all(after[48:] == sha256(before) for before, after in zip(records, records[1:]))
    need(linked, 1, "a record doesn't keep the hash of the one before")
    return ids


def check_entry(leaf: bytes, entry: dict, path: list[bytes], first: bytes) -> None:
    """The entry stands in the block of a record."""
    size = int.from_bytes(first[40:48], "big")
    need(entry["ordinal"] < size <= 100_000, 1, "the block has no such place")
    root = root_under(path, entry["ordinal"], size, leaf)
    need(root == first[8:40], 1, "the path doesn't lead to the root of the block")


def is_joined(digest: dict, database: str, ids: range, records: list[bytes]) -> bool:
    """Whether a digest is of the database, and of a record of a chain."""
    if digest["block_id"] not in ids or digest["database_name"] != database:
        return False
    return bytes.fromhex(digest["hash"][2:]) == sha256(records[digest["block_id"] - ids[0]])


def check_chain(database: str, records: list[bytes], held: list[dict]) -> tuple[str, str]:
    """Each digest of the list is that of a record of the chain."""
    ids = check_records(records, database, held)
    left = [it["block_id"] for it in held if not is_joined(it, database, range(ids[0], ids[-1] + 1), records)]
    need(not left, 1, "the chain doesn't join every digest of the list", f"No join of block {min(left, default=0)}")
    return f"Yes {ids[0]} {ids[-1]}", f"the digest of block {ids[-1]} continues all digests of the list"


def check(data: bytes, digests: bytes) -> tuple[str, str]:
    """The line of an accepted receipt, and what it shows."""
    source = Reader(data)
    kind = source.take(5)
    need(kind in (b"LGRC\1", b"LGRA\1", b"LGRR\1", b"LGCC\1"), 15, "this is no receipt")
    database = source.name(rb"[A-Za-z0-9][A-Za-z0-9_.-]{0,63}").decode()
    if kind != b"LGCC\1":
        leaf = source.take(source.number(4))
        entry = read_entry(Reader(leaf))
        path = [source.take(32) for _ in range(source.number(1, 0, 17))]
    records = [source.take(80) for _ in range(source.number(8, 1))]
    events = []
    if kind == b"LGRA\1":
        events = [source.take(source.number(4)) for _ in range(source.number(8, 1))]
    if kind == b"LGRR\1":
        events = [source.take(source.number(4))]
        steps = [(source.number(1, 0, 1), source.take(32)) for _ in range(source.number(1, 0, 63))]
    source.close()
    try:
        held = read_digests(digests)
    except (ValueError, KeyError, TypeError, RecursionError) as error:
        need(False, 8, f"the digests were refused: {error}")
        raise

    if kind == b"LGCC\1":
        return check_chain(database, records, held)
    ids = check_records(records, database, held)
    need(ids[0] == entry["block"], 1, "the records are of other blocks")
    check_entry(leaf, entry, path, records[0])
    shown = "transaction {id} of {session} at tick {time}, in block {block} at {ordinal}, tables {tables}".format(**entry)
    if not events:
        return "Yes", shown
    table = read_leaf(events[0])[1]
    need(all(read_leaf(it) == (entry["id"], table) for it in events), 1, "an event is another transaction's or table's")
    root = tree_hash(events) if kind == b"LGRA\1" else root_over(events[0], steps)
    need(entry["roots"].get(table) == root, 1, "the events don't lead to the root of their table")
    which = "all" if kind == b"LGRA\1" else "one"
    return "Yes", f"{shown}: {which} of its events in table {table}"


def main(words: list[str]) -> None:
    need(len(words) == 2, 2, "check_receipt.py RECEIPT DIGESTS")
    line, shown = check(*map(read_file, words))
    print(line)
    print(f"check_receipt.py: {shown}", file=sys.stderr)


if __name__ == "__main__":
    main(sys.argv[1:])
