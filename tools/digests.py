"""Digest files of ledgerd, read by docs/reference/formats.md alone (section "Digest file")."""

import json
import re
from typing import NamedTuple

from ledger import Malformed, decoded, need


class Digest(NamedTuple):
    """What a reader looks at of a digest."""

    database: str
    block: int
    hash: bytes


class NoDigest(Exception):
    """An item of a digest file that is no digest, by its index."""


def read_digests(data: bytes) -> list[Digest]:
    """Section "Digest file": refuses what isn't JSON as Malformed, and an item as NoDigest."""
    items = read_json(decoded(data))
    digests = []
    for index, item in enumerate(items if isinstance(items, list) else [items]):
        try:
            digests.append(read_digest(item))
        except Malformed as error:
            raise NoDigest(index) from error
    return digests


def read_digest(item: object) -> Digest:
    need(isinstance(item, dict), "no object")
    database, block, digits = (item.get(key) for key in ("database_name", "block_id", "hash"))
    need(isinstance(database, str), "no database")
    need(isinstance(block, Number) and block.text.isdigit() and int(block.text) < 2**64, "no block")
    need(isinstance(digits, str) and re.fullmatch("0x[0-9A-Fa-f]{64}", digits) is not None, "no hash")
    return Digest(database, int(block.text), bytes.fromhex(digits[2:]))


class Number(NamedTuple):
    """A number as JSON writes it."""

    text: str


def read_json(text: str) -> object:
    """Reads JSON as RFC 8259 has it, and refuses what section "Digest file" refuses besides."""
    try:
        value = json.loads(text, parse_int=read_number, parse_float=read_number, parse_constant=refuse)
        for string in re.findall(STRING, text):
            json.loads(string).encode()
    except (ValueError, RecursionError) as error:
        raise Malformed("no JSON") from error
    need(depth(text) <= 127, "nested too deep")
    return value


STRING = r'"(?:\\.|[^"\\])*"'


def read_number(text: str) -> Number:
    need(abs(float(text)) < float("inf"), "a number beyond all floats")
    return Number(text)


def refuse(word: str) -> None:
    raise Malformed(word)


def depth(text: str) -> int:
    """How many arrays and objects stand in each other at most."""
    most = now = 0
    for sign in re.findall(r"[][{}]", re.sub(STRING, "", text)):
        now += 1 if sign in "[{" else -1
        most = max(most, now)
    return most
