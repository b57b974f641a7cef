#!/usr/bin/env python3
"""Works out, from the grammar of packed tuples alone, what each prefix and each single-byte change of one pack is
refused for, and which tuple it is where it isn't refused.

Prints the file cases/tuple_refusals.words, whose lines are run against the built program. It shares no code with the
crates: it is the other side of those cases.
"""
import json
import uuid

# The pack of ("a\0", (null, 5), -1, true).
PACK = bytes.fromhex("02" "6100ff00" "05" "00ff" "1505" "00" "13fe" "27")
BYTES = bytes.fromhex("00 01 02 05 0b 0c 13 14 15 16 1c 1d 26 30 33 61 c3 fe ff")
SINGLE = {0x00: None, 0x14: 0, 0x26: False, 0x27: True}
FIXED = {0x30: 16, 0x33: 12}


class Refused(Exception):
    pass


def closed(data, at):
    """The content of an escaped string that begins behind `at`, and the place behind its closing byte."""
    content, i = bytearray(), at + 1
    while i < len(data):
        if data[i]:
            content.append(data[i])
            i += 1
        elif i + 1 < len(data) and data[i + 1] == 0xFF:
            content.append(0)
            i += 2
        else:
            return bytes(content), i + 1
    raise Refused("Truncated", at)


def text(content, at):
    try:
        return content.decode("utf-8")
    except UnicodeDecodeError:
        raise Refused("NotUtf8", at) from None


def number(data, at, code):
    """The whole number at `at`, whose magnitude, or its complement below zero, has as many bytes as its code says."""
    end = at + 1 + abs(code - 0x14)
    if end > len(data):
        raise Refused("Truncated", at)
    if data[at + 1] == (0x00 if code > 0x14 else 0xFF):
        raise Refused("NotMinimal", at)
    digits = data[at + 1 : end]
    value = int.from_bytes(digits, "big")
    value = value if code > 0x14 else value - (256 ** len(digits) - 1)
    return (value if -(2**63) <= value < 2**63 else {"int": str(value)}), end


def element(data, at, depth):
    """The element that begins at `at`, in a tuple of this depth, in JSON, and the place behind it."""
    code = data[at]
    if code in SINGLE:
        return SINGLE[code], at + 1
    if code in (0x01, 0x02):
        content, end = closed(data, at)
        return (text(content, at) if code == 0x02 else {"hex": content.hex()}), end
    if code == 0x05:
        if depth == 16:
            raise Refused("TooDeep", at)
        return nested(data, at, depth + 1)
    if 0x0C <= code <= 0x1C:
        return number(data, at, code)
    if code in FIXED:
        end = at + 1 + FIXED[code]
        if end > len(data):
            raise Refused("Truncated", at)
        digits = data[at + 1 : end].hex()
        return ({"uuid": str(uuid.UUID(digits))} if code == 0x30 else {"stamp": digits}), end
    raise Refused("UnknownCode", at)


def nested(data, opened, depth):
    elements, at = [], opened + 1
    while at < len(data):
        if data[at] != 0x00:
            value, at = element(data, at, depth)
            elements.append(value)
        elif at + 1 < len(data) and data[at + 1] == 0xFF:
            elements.append(None)
            at += 2
        else:
            return elements, at + 1
    raise Refused("Truncated", opened)


def told(data):
    """The tuple in JSON, or behind '! ' the refusal and its place."""
    try:
        elements, at = [], 0
        while at < len(data):
            value, at = element(data, at, 0)
            elements.append(value)
        return json.dumps(elements, ensure_ascii=False, separators=(",", ":"))
    except Refused as refused:
        return f"! refused {refused.args[0]} at {refused.args[1]}"


def main():
    print("# each prefix of one pack, and each of its bytes changed to each of some others: tools/tuple_refusals.py")
    changes = [PACK[:place] + bytes([byte]) + PACK[place + 1 :] for place in range(len(PACK)) for byte in BYTES]
    for data in [*(PACK[:length] for length in range(len(PACK) + 1)), *changes]:
        print(f"unpack `{data.hex()}` => {told(data)}")


main()
