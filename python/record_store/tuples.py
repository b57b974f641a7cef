"""The tuples that a store's schema is written in: whole numbers, texts, truth values, null and nested tuples."""
from __future__ import annotations

from typing import Any

NULL, TEXT, NESTED, ZERO, FALSE, TRUE = 0x00, 0x02, 0x05, 0x14, 0x26, 0x27


def text_at(data: bytes, at: int) -> tuple[str, int]:
    """The text whose bytes begin here, and where they end."""
    out = bytearray()
    while True:
        end = data.index(NULL, at)
        out += data[at:end]
        if data[end + 1:end + 2] != b"\xff":
            return out.decode(), end + 1
        out.append(NULL)
        at = end + 2


def element_at(data: bytes, at: int) -> tuple[object, int]:
    """The element that begins here, and where it ends."""
    code = data[at]
    if code == TEXT:
        return text_at(data, at + 1)
    if code == NESTED:
        return nested_at(data, at + 1)
    if ZERO <= code <= ZERO + 8:
        end = at + 1 + code - ZERO
        return int.from_bytes(data[at + 1:end], "big"), end
    if code in (FALSE, TRUE):
        return code == TRUE, at + 1
    raise ValueError(f"a schema has no element of the code {code}")


def nested_at(data: bytes, at: int) -> tuple[Any, int]:
    """The tuple whose elements begin here, and where it ends. A null within it is followed by ff."""
    items: list[object] = []
    while True:
        if data[at] == NULL and data[at + 1:at + 2] == b"\xff":
            items.append(None)
            at += 2
        elif data[at] == NULL:
            return tuple(items), at + 1
        else:
            item, at = element_at(data, at)
            items.append(item)


def unpacked(data: bytes) -> Any:
    """The tuple that bytes spell."""
    return nested_at(data + b"\0", 0)[0]
