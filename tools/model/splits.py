"""The place that the bytes of a split stand for, by which resolvers and servers share the places of all stores."""
from keys import AFTER, BYTES, FIRST, NULL, NUMBER, TEXT, ZERO, Cut


def number_of(code, rest):
    """The whole number that begins so, the least one where its end is missing, and what follows."""
    size = abs(code - ZERO)
    raw = rest[:size]
    least = int.from_bytes(raw + bytes(size - len(raw)), "big")
    if code < ZERO:
        return least - (1 << 8 * size) + 1, rest[size:]
    return max(least, 1 << 8 * (size - 1)) if size else 0, rest[size:]


def string_of(rest):
    """The bytes of a string that begins so, and what follows its end, or None where the end is missing."""
    at = 0
    while at < len(rest) and (rest[at] or rest[at + 1:at + 2] == b"\xff"):
        at += 1 if rest[at] else 2
    raw = rest[:at].replace(b"\0\xff", b"\0")
    return raw, rest[at + 1:] if at < len(rest) else None


def next_atom(rest):
    """The first cell that bytes spell, as it is compared, and what follows, or None where nothing is compared."""
    code = rest[0]
    if rest == b"\0":
        return (-1,), None
    if code == NULL:
        return (NULL,), rest[1:]
    if code in (BYTES, TEXT):
        raw, after = string_of(rest[1:])
        return ((code, raw.decode() if code == TEXT else raw) if len(rest) > 1 else (code,)), after
    if NUMBER <= code <= 2 * ZERO - NUMBER:
        number, after = number_of(code, rest[1:])
        return (NUMBER, number), after
    return (code,), None


def cut_of(raw):
    """The place of a split among those of all stores."""
    order, rest = (), raw
    while rest:
        atom, rest = next_atom(rest)
        order += (atom,)
    return Cut(order, raw)


def owned(splits):
    """For each owner, in order, the range of its places."""
    cuts = [FIRST, *(cut_of(bytes.fromhex(it)) for it in splits), AFTER]
    return list(zip(cuts, cuts[1:]))
