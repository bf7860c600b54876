"""The compiled library: the constants of its members, and the composition table among them."""

import struct

PIECE = 16


def members(data):
    """The members of an archive: name and bytes."""
    if data[:8] != b"!<arch>\n":
        raise SystemExit("not an archive")
    at, found = 8, []
    while at + 60 <= len(data):
        size = int(data[at + 48:at + 58])
        found.append((data[at:at + 16].decode().rstrip(" /"), data[at + 60:at + 60 + size]))
        at += 60 + size + size % 2
    return found


def sections(data):
    """The sections of a 64-bit object that hold constants: name and bytes."""
    if data[:5] != b"\x7fELF\x02":
        return []
    place, = struct.unpack_from("<Q", data, 40)
    size, count, names = struct.unpack_from("<HHH", data, 58)
    heads = [struct.unpack_from("<IIQQQQ", data, place + size * k) for k in range(count)]
    text = data[heads[names][4]:heads[names][4] + heads[names][5]]
    found = []
    for name, _, flags, _, start, length in heads:
        called = text[name:text.index(b"\0", name)].decode()
        if called.startswith((".rodata", ".data")) and length:
            found.append((called, data[start:start + length]))
    return found


def pieces(table):
    return [table[k:k + PIECE] for k in range(0, len(table), PIECE)]


def aligned(data):
    return {data[k:k + PIECE] for k in range(0, len(data), PIECE)}


def constants(path):
    """The sections of constants of an archive's objects."""
    with open(path, "rb") as file:
        return [one for _, data in members(file.read()) for one in sections(data)]


def held(path, table):
    """How many pieces of 16 bytes of the table the library holds, and whether they stand in one row."""
    found = constants(path)
    whole = any(table in data for _, data in found)
    there = set().union(*(aligned(data) for _, data in found))
    return sum(piece in there for piece in pieces(table)), whole


def arrays(path, table):
    """The constants of a library by section: bytes, how many of them are of the table, and how many of a run of it."""
    rows = []
    for name, data in constants(path):
        own = set(pieces(table))
        mine = sum(PIECE for k in range(0, len(data), PIECE) if data[k:k + PIECE] in own)
        rows.append((name, len(data), mine))
    return rows
