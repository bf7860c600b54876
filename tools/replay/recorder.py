"""Makes calls of the library on this machine and writes them with their answers, for a replay elsewhere.

What is written has, of each call, its number in the header's order (1 byte), each argument, the answer (4 bytes) and each
buffer's change, all little endian. A number is 1 or 8 bytes. A buffer is the count of its bytes (4), and a 0 with the bytes
or a 1 with the byte that fills it. A change is a count (4) and as many first bytes afterwards; behind them the buffer is as
before.
"""
import ctypes
import random
import struct

from signatures import signatures

FORMATS = {1: "B", 2: "H", 8: "Q"}
TYPES = {1: ctypes.c_uint8, 8: ctypes.c_uint64}
ROOM = 66000  # bytes, of the largest buffer


class Lent:
    """A buffer whose contents before the call do not matter."""

    def __init__(self, places):
        self.places = places


class Recorder:
    def __init__(self, header, library, seed, out):
        self.calls = signatures(header)
        self.numbers = {name: number for number, name in enumerate(self.calls)}
        self.functions = {name: declared(ctypes.CDLL(library), name, found) for name, found in self.calls.items()}
        self.random = random.Random(seed)
        self.rooms = [(ctypes.c_uint64 * (ROOM // 8))() for _ in range(20)]
        self.out = out
        self.made = 0
        self.places = []  # of each call: where its answer begins, and where it ends
        self.accepted = dict.fromkeys(self.calls, 0)
        self.refused = dict.fromkeys(self.calls, 0)

    def call(self, name, *values):
        """Makes and writes one call, of numbers, lists of numbers and Lent: its answer, and the buffers afterwards."""
        due = len(self.calls[name])
        if len(values) != due:
            raise SystemExit(f"{name} takes {due} arguments, and tools/replay/sound.py gives it {len(values)}")
        written = bytearray([self.numbers[name]])
        words, lent = [], []
        for room, argument, value in zip(self.rooms, self.calls[name], values):
            if argument.buffer:
                content, length = self.content(argument, value, written)
                ctypes.memmove(room, content, len(content))
                lent.append((argument, room, content))
                words += [ctypes.addressof(room)] + [length] * argument.length
            else:
                value &= (1 << 8 * argument.size) - 1
                written += value.to_bytes(argument.size, "little")
                words.append(value)
        answer = self.functions[name](*words)
        answered = len(written)
        written += struct.pack("<I", answer)
        after = [changed(*one, written) for one in lent]
        begin = self.out.tell()
        self.places.append((begin + answered, begin + len(written)))
        self.out.write(written)
        self.made += 1
        (self.refused if answer and lent else self.accepted)[name] += 1
        return answer, after

    def content(self, argument, value, written):
        """The bytes of a buffer, and its length; appends them to what is written."""
        lent = isinstance(value, Lent)
        places = value.places if lent else len(value)
        fill = self.random.randrange(256)
        content = bytes([fill]) * (places * argument.size) if lent else packed(argument, value)
        written += struct.pack("<I", len(content))
        written += bytes([1, fill]) if lent else b"\0" + content
        return content, places

    def damaged(self, name, *values):
        """The same call with one argument damaged."""
        values = list(values)
        place = self.random.randrange(len(values))
        values[place] = self.damage(self.calls[name][place], values[place])
        return self.call(name, *values)

    def damage(self, argument, value):
        draw = self.random
        if not argument.buffer:
            other = [0, 1, 2, 63, 64, 65, 255, draw.getrandbits(64), value ^ 1 << draw.randrange(64), value + 1]
            return draw.choice(other)
        if isinstance(value, Lent):
            return Lent(max(0, value.places + draw.choice([-1, 1]))) if argument.length else value
        if argument.length and draw.random() < 0.3:
            return value[:-1] if draw.random() < 0.5 else value + [0]
        return flipped(draw, argument, value) if value else value


def declared(library, name, found):
    function = library["sukhlent_" + name]
    function.restype = ctypes.c_uint8 if found else ctypes.c_uint32
    function.argtypes = [kind for argument in found for kind in types(argument)]
    return function


def types(argument):
    return [ctypes.c_void_p] + [ctypes.c_uint64] * argument.length if argument.buffer else [TYPES[argument.size]]


def packed(argument, value):
    return struct.pack(f"<{len(value)}{FORMATS[argument.size]}", *value)


def changed(argument, room, content, written):
    """What a buffer holds afterwards; appends its change to what is written."""
    now = ctypes.string_at(room, len(content))
    count, most = 0, len(now)  # from most on they are the same
    while count < most:
        middle = (count + most) // 2
        if now[middle:] == content[middle:]:
            most = middle
        else:
            count = middle + 1
    written += struct.pack("<I", count) + now[:count]
    return list(struct.unpack(f"<{len(now) // argument.size}{FORMATS[argument.size]}", now))


def flipped(draw, argument, value):
    """One bit of a list flipped, often a low one."""
    k = draw.randrange(len(value))
    bit = draw.randrange(8 * argument.size if draw.random() < 0.3 else 3)
    return value[:k] + [value[k] ^ 1 << bit] + value[k + 1 :]
