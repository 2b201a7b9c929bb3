"""Names for C: legal, of the names of blocks alone, and each for one thing."""
from __future__ import annotations

import re
import unicodedata

from .errors import DesignError, WordsError

SIGNIFICANT = 63
"""How many first characters of a name every compiler of C99 looks at."""


def legal(name: str) -> str:
    """A name in upper-case letters, digits and underscores; letters of other alphabets by their numbers.

    >>> legal("motor.drive"), legal("größe 2"), legal("ω")
    ('MOTOR_DRIVE', 'GROSSE_2', 'U03A9')
    """
    parts = []
    for letter in unicodedata.normalize("NFKD", name.upper()):
        if letter.isascii() and letter.isalnum():
            parts.append(letter)
        elif letter.isalnum():
            parts.append(f"U{ord(letter):04X}")
        elif not unicodedata.combining(letter):
            parts.append("_")
    made = re.sub("_+", "_", "".join(parts)).strip("_")
    return made or "".join(f"U{ord(letter):04X}" for letter in name)


def checked_prefix(prefix: str) -> str:
    """The prefix of all names, or a WordsError where it is none for C.

    >>> checked_prefix("motor")
    'MOTOR'
    """
    if not re.fullmatch(r"[A-Za-z][A-Za-z0-9_]*", prefix):
        raise WordsError(f"the prefix {prefix!r} begins no name in C: take letters, digits and underscores, a"
                         " letter first, as MOTOR")
    return prefix.upper().rstrip("_")


def comment(text: str) -> str:
    """A text that may stand in a comment of C: on one line, without what ends or begins a comment.

    >>> comment("a */ b")
    'a * / b'
    """
    line = "".join(letter if letter.isprintable() else " " for letter in text)
    return line.replace("*/", "* /").replace("/*", "/ *").replace("??", "? ?").replace("\\", "/")


class Taken:
    """The names that are taken, each with who has it."""

    def __init__(self) -> None:
        self._known: dict[str, tuple[str, str]] = {}

    def take(self, name: str, owner: str) -> str:
        """Takes a name for its owner; a DesignError names both where another has it, or one much alike."""
        other, holder = self._known.setdefault(name[:SIGNIFICANT].upper(), (name, owner))
        if holder == owner:
            return name
        if other.upper() == name.upper():
            raise DesignError(f"{holder} and {owner} would both be {name} in C: give one of them another"
                              " name")
        raise DesignError(f"{holder} and {owner} would be {other} and {name} in C, the same in their first"
                          f" {SIGNIFICANT} characters, and compilers need not look at more: give one of them"
                          " a shorter name")


def cksum(content: bytes) -> int:
    """The checksum that the command `cksum` of POSIX prints.

    >>> cksum(b"")
    4294967295
    """
    value = 0
    length, tail = len(content), bytearray()
    while length:
        tail.append(length & 255)
        length >>= 8
    for byte in content + bytes(tail):
        value = (value << 8 & 0xFFFFFFFF) ^ _TABLE[value >> 24 ^ byte]
    return value ^ 0xFFFFFFFF


def _table() -> list[int]:
    rows = []
    for byte in range(256):
        value = byte << 24
        for _ in range(8):
            value = (value << 1 ^ (0x04C11DB7 if value >> 31 else 0)) & 0xFFFFFFFF
        rows.append(value)
    return rows


_TABLE = _table()
