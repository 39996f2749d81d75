"""Reads rustc's coverage mapping and counters, and reports what was reached.

coverage.py PROGRAM PROFILE SOURCES UNREACHABLE

The program's mapping (format of LLVM 22, version 7) and its raw profile
(version 10) are decoded here, so no other tool of that age is needed. A place
is a code region or one outcome of a branch in the carried functions.
"""
import hashlib
import os
import re
import struct
import sys
import zlib

CARRIED = ["time.rs", "devices/nv.rs", "devices/bma150.rs"] + [
    "devices/bma150/" + name + ".rs"
    for name in ("analog", "filter", "interrupts", "control", "i2c")
]
# Left out by the scope, or called by nothing that a call reaches.
LEFT_OUT = {
    "validate", "rebuild", "serially_idle", "serial_effect_edges", "idle",
    "effect_edges", "fmt", "from_micros", "as_micros", "seconds", "rebase",
    "deadline", "rising", "lose_volatile", "nonvolatile_busy",
}


def sections(path):
    """The named sections of a 64-bit little-endian ELF file."""
    with open(path, "rb") as file:
        data = file.read()
    assert data[:6] == b"\x7fELF\x02\x01", "not a 64-bit ELF file"
    offset, = struct.unpack_from("<Q", data, 0x28)
    size, count, names = struct.unpack_from("<HHH", data, 0x3A)
    heads = [struct.unpack_from("<IIQQQQ", data, offset + n * size) for n in range(count)]
    table = heads[names][4]
    found = {}
    for name, _, _, _, start, length in heads:
        end = data.index(b"\0", table + name)
        found[data[table + name:end].decode()] = data[start:start + length]
    return found


class Reader:
    def __init__(self, data):
        self.data, self.at = data, 0

    def number(self):
        value = shift = 0
        while True:
            byte = self.data[self.at]
            self.at += 1
            value |= (byte & 0x7F) << shift
            shift += 7
            if byte < 0x80:
                return value

    def take(self, length):
        self.at += length
        return self.data[self.at - length:self.at]


def low_word(data):
    return struct.unpack("<Q", hashlib.md5(data).digest()[:8])[0]


def file_names(section):
    """File names by the hash that functions refer to."""
    found, at = {}, 0
    while at + 16 <= len(section):
        _, length, _, version = struct.unpack_from("<IIII", section, at)
        assert version == 6, f"mapping version {version + 1}"
        blob = section[at + 16:at + 16 + length]
        reader = Reader(blob)
        count, whole, packed = reader.number(), reader.number(), reader.number()
        names = Reader(zlib.decompress(reader.take(packed)) if packed else reader.take(whole))
        found[low_word(blob)] = [
            names.take(names.number()).decode() for _ in range(count)
        ]
        at = (at + 16 + length + 7) & ~7
    return found


def region(reader, previous_line):
    """One region: (kind, counters, start line, column, end line, column)."""
    head = reader.number()
    if head & 3:
        kind, counters = "code", [head]
    elif head >> 3 == 4:
        kind, counters = "branch", [reader.number(), reader.number()]
    elif head == 0:
        kind, counters = "code", [0]
    else:
        raise ValueError(f"region head {head}")
    line = previous_line + reader.number()
    column, lines, end = reader.number(), reader.number(), reader.number()
    if end >> 31:
        kind = "gap"
    return kind, counters, line, column, line + lines, end & 0x7FFFFFFF


def functions(section, names):
    """(name hash, function hash, expressions, [(file, region)])."""
    at = 0
    while at + 28 <= len(section):
        name, length, code, files = struct.unpack_from("<QIQQ", section, at)
        reader = Reader(section[at + 28:at + 28 + length])
        at = (at + 28 + length + 7) & ~7
        ids = [reader.number() for _ in range(reader.number())]
        expressions = [
            (reader.number(), reader.number()) for _ in range(reader.number())
        ]
        regions = []
        for file in ids:
            line = 0
            for _ in range(reader.number()):
                got = region(reader, line)
                line = got[2]
                regions.append((names[files][file], got))
        yield name, code, expressions, regions


def profile(path):
    """Counters by (name hash, function hash)."""
    with open(path, "rb") as file:
        data = file.read()
    head = struct.unpack_from("<16Q", data)
    assert head[1] == 10, f"profile version {head[1]}"
    ids, count, before, delta = head[2], head[3], head[4], head[10]
    start = 128 + ids
    base = start + count * 64 + before
    found = {}
    for n in range(count):
        entry = struct.unpack_from("<QQQ", data, start + n * 64)
        number, = struct.unpack_from("<I", data, start + n * 64 + 48)
        offset = (entry[2] - delta + n * 64) % 2**64
        values = struct.unpack_from(f"<{number}Q", data, base + offset)
        old = found.get(entry[:2])
        found[entry[:2]] = values if old is None else tuple(map(sum, zip(old, values)))
    return found


def count(counter, counters, expressions):
    kind, index = counter & 3, counter >> 2
    if kind == 0:
        return 0
    if kind == 1:
        return counters[index] if index < len(counters) else 0
    left, right = (count(c, counters, expressions) for c in expressions[index])
    return left - right if kind == 2 else left + right


class Source:
    def __init__(self, path):
        with open(path) as file:
            self.lines = file.read().split("\n")

    def function(self, line):
        for text in reversed(self.lines[:line]):
            found = re.match(r"\s*(?:pub(?:\([a-z]+\))? )?(?:const )?fn (\w+)", text)
            if found:
                return found[1]
        return ""

    def snippet(self, line, column, end, last):
        text = self.lines[line - 1][column - 1:last - 1 if end == line else None]
        return " ".join(text.split())[:60]


def mapping(program, root):
    """Every place of the carried functions, with the counter that counts it and the function that has it."""
    found = sections(program)
    names = file_names(found["__llvm_covmap"])
    sources = {name: Source(os.path.join(root, name)) for name in CARRIED}
    for name, code, expressions, regions in functions(found["__llvm_covfun"], names):
        for file, (kind, numbers, line, column, end, last) in regions:
            carried = next((c for c in CARRIED if file.endswith("src/" + c)), None)
            if carried is None or kind == "gap":
                continue
            source = sources[carried]
            if source.function(line) in LEFT_OUT:
                continue
            text = source.snippet(line, column, end, last)
            outcomes = ["code"] if kind == "code" else ["true", "false"]
            for outcome, number in zip(outcomes, numbers):
                yield (carried, line, column, outcome, text), (name, code), number, expressions


def gather(places, counters):
    """Counts by place; a place that is compiled twice is reached if one is."""
    found = {}
    for key, function, number, expressions in places:
        got = count(number, counters.get(function, ()), expressions)
        found[key] = max(found.get(key, 0), got)
    return found


def label(key):
    file, line, column, outcome, _ = key
    return f"{file}:{line}:{column} {outcome}"


def reasons(path):
    """Places that no call reaches: `file:line:column outcome | why`."""
    found = {}
    with open(path) as file:
        for text in file:
            if text.strip() and not text.startswith("#"):
                place, why = text.split("|", 1)
                found[place.strip()] = why.strip()
    return found


def main():
    program, raw, root, unreachable = sys.argv[1:]
    places = gather(mapping(program, root), profile(raw))
    known = reasons(unreachable)
    failed = False
    print(f"{'file':30} {'regions':>12} {'outcomes':>12}")
    for name in CARRIED + [""]:
        figures = []
        for wanted in (("code",), ("true", "false")):
            mine = [n for k, n in places.items()
                    if k[3] in wanted and (k[0] == name or not name)]
            figures.append(f"{sum(n > 0 for n in mine)}/{len(mine)}")
        print(f"{name or 'all':30} {figures[0]:>12} {figures[1]:>12}")
    for key in sorted(places):
        text = key[4]
        place = label(key)
        if places[key] == 0:
            why = known.get(place)
            failed |= why is None
            print(f"not reached: {place}: {text} ({why or 'UNEXPLAINED'})")
        elif place in known:
            failed = True
            print(f"reached after all: {place}: {text}")
    sys.exit(failed)


if __name__ == "__main__":
    main()
