"""Mutations of a file: of its bytes, its numbers, its fields and its lines."""

import random
import re
from collections.abc import Callable

NUMBERS = [0, 1, 2, 3, 7, 8, 59, 60, 61, 127, 128, 255, 256, 604_799, 604_800, 2**24 - 1, 2**24, 2**25, 2**31 - 1, 2**31,
           2**32 - 1, 2**32, 2**56, 2**63 - 1, 2**63, 2**64 - 1, 2**64, 10**18, 10**30, 10**31]
BYTES = b"\x00\x09\x0a\x0d\x20\"',.-+:;%@#0129AZaz\x7f\x80\xbf\xc3\xe2\xef\xfe\xff"
PIECES = [b"", b"\n", b"\r\n", b"\xef\xbb\xbf", b"%20%", b"%0a%", b"\"\"", b"end\n", b"any* ", b"((((", b"{3,}",
          b"query x\n", b"none\n"]
NUMBER = re.compile(rb"-?[0-9]+")
FIELD = re.compile(rb"[^ ,\n]+")


def _place(text: bytes, rng: random.Random) -> int:
    return rng.randrange(len(text) + 1)


def _range(text: bytes, rng: random.Random) -> tuple[int, int]:
    start = _place(text, rng)
    return start, min(len(text), start + rng.choice((1, 2, 4, 8, 20, 100, 1000)))


def change_bit(text: bytes, rng: random.Random) -> bytes:
    at = rng.randrange(max(1, len(text)))
    return text[:at] + bytes(byte ^ 1 << rng.randrange(8) for byte in text[at:at + 1]) + text[at + 1:]


def change_byte(text: bytes, rng: random.Random) -> bytes:
    at = _place(text, rng)
    return text[:at] + bytes([rng.choice(BYTES)]) + text[at + 1:]


def insert(text: bytes, rng: random.Random) -> bytes:
    at = _place(text, rng)
    return text[:at] + (rng.choice(PIECES) or bytes([rng.choice(BYTES)]) * rng.choice((1, 2, 70, 5000))) + text[at:]


def cut(text: bytes, rng: random.Random) -> bytes:
    start, end = _range(text, rng)
    return text[:start] + text[end:]


def truncate(text: bytes, rng: random.Random) -> bytes:
    return text[:_place(text, rng)]


def repeat(text: bytes, rng: random.Random) -> bytes:
    start, end = _range(text, rng)
    return text[:end] + text[start:end] * rng.choice((1, 1, 2, 50)) + text[end:]


def change_number(text: bytes, rng: random.Random) -> bytes:
    """A decimal number, as texts have them, in the place of another."""
    found = list(NUMBER.finditer(text))
    if not found:
        return change_word(text, rng)
    number = rng.choice(found)
    value = int(number[0]) if len(number[0]) < 40 else 0
    new = rng.choice([*NUMBERS, value - 1, value + 1, -value, value * 2])
    form = rng.choice((b"%d",) * 9 + (b"0%d", b"%d.0", b"-%d"))
    return text[:number.start()] + form % new + text[number.end():]


def change_word(text: bytes, rng: random.Random) -> bytes:
    """A number of 4 or 8 bytes, as records have them, in the place of what stands there."""
    size = rng.choice((4, 8))
    at = rng.randrange(max(1, len(text) - size + 1))
    return text[:at] + (rng.choice(NUMBERS) % 256**size).to_bytes(size, "big") + text[at + size:]


def change_field(text: bytes, rng: random.Random) -> bytes:
    """A field in the place of another."""
    found = list(FIELD.finditer(text))
    if not found:
        return insert(text, rng)
    old, new = rng.choice(found), rng.choice(found)
    return text[:old.start()] + new[0] + text[old.end():]


def _with_lines(change: Callable[[list[bytes], random.Random], None]) -> Callable[[bytes, random.Random], bytes]:
    def changed(text: bytes, rng: random.Random) -> bytes:
        lines = text.split(b"\n")
        change(lines, rng)
        return b"\n".join(lines)
    changed.__name__ = change.__name__
    return changed


@_with_lines
def swap_lines(lines: list[bytes], rng: random.Random) -> None:
    one, other = rng.randrange(len(lines)), rng.randrange(len(lines))
    lines[one], lines[other] = lines[other], lines[one]


@_with_lines
def drop_line(lines: list[bytes], rng: random.Random) -> None:
    del lines[rng.randrange(len(lines))]


@_with_lines
def double_line(lines: list[bytes], rng: random.Random) -> None:
    lines.insert(rng.randrange(len(lines)), rng.choice(lines))


MUTATIONS = [change_bit, change_byte, insert, cut, truncate, repeat, change_number, change_number, change_word, change_field,
             change_field, swap_lines, drop_line, double_line]


def splice(text: bytes, other: bytes, rng: random.Random) -> bytes:
    """A front of one file and a tail of another."""
    return text[:_place(text, rng)] + other[_place(other, rng):]


def mutate(text: bytes, others: list[bytes], rng: random.Random) -> bytes:
    """The file after one to four changes; `others` are files that have the same place in other calls."""
    for _ in range(rng.choice((1, 1, 1, 2, 2, 4))):
        text = splice(text, rng.choice(others), rng) if others and rng.random() < 0.05 else rng.choice(MUTATIONS)(text, rng)
    return text
