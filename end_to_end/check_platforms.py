#!/usr/bin/env python3
"""Compares what the program says of NFITs, regions and addresses with a plain model, on tables made by hand and at random.

    python3 end_to_end/check_platforms.py [COUNT] [SEED] [PROGRAM]
"""

import random
import struct
import sys
import tempfile
from pathlib import Path

from check_lists import ROOT, run
from platform_images import PERSISTENT_MEMORY, Mapping, Region, nfit
from platform_model import GREATEST, Control, Lines, Part, Platform, Range, first_fault, table

BASE, GIB = 1 << 32, 1 << 30
MOST = (1 << 64) - 1
CONTROLS = [Control(index, index) for index in range(18)]
RULES = ("no-mapping", "too-many-ways", "empty", "sizes-differ", "capacity-differs", "overflow", "module-twice",
         "offset-twice", "no-control", "dpa-overlap")


def spoiled(*by: str) -> Platform:
    """A region of two ways that breaks these rules."""
    ways = 0 if "no-mapping" in by else 17 if "too-many-ways" in by else 2
    size = 0 if by == ("empty",) else 4096
    parts = [
        Part(
            1 if "module-twice" in by else i + 1, 1, 4097 if "sizes-differ" in by and i == 1 and size else size,
            0 if "offset-twice" in by else i, control=99 if "no-control" in by and i == 1 else 1,
        )
        for i in range(ways)
    ]
    if "dpa-overlap" in by:
        parts.append(Part(1, 2, 4096, base=4095))
    length = 0 if "empty" in by else ways * 4096 + ("capacity-differs" in by)
    base = GREATEST + 1 if "overflow" in by else BASE
    return Platform([Range(1, base, length), Range(2, BASE << 4, 4096)], parts, CONTROLS, [])


def rules():
    """Each rule alone and with each later one, with the rule that is told; None stands for what the model tells."""
    yield spoiled(), ""
    for i, first in enumerate(RULES):
        yield spoiled(first), first
        for other in RULES[i + 1 :]:
            if i or other in ("empty", "overflow"):
                yield spoiled(first, other), first


def bounds():
    """Values at the bounds of the rules, and the rule that is told."""
    for base, length, dpa, size, rule in (
        (GREATEST - 4096, 4096, 0, 4096, ""), (GREATEST - 4095, 4096, 0, 4096, "overflow"), (BASE, 4096, GREATEST - 4096, 4096, ""),
        (BASE, 4096, GREATEST - 4095, 4096, "overflow"), (MOST, 4096, 0, 4096, "overflow"), (BASE, 4096, MOST, 4096, "overflow"),
        (MOST, MOST, MOST, MOST, "overflow"), (0, GREATEST, 0, GREATEST, ""), (1, GREATEST, 0, GREATEST, "overflow"),
        (BASE, 4096, 0, 4097, "capacity-differs"), (BASE, 4096, 0, MOST, "capacity-differs"),
    ):
        yield Platform([Range(1, base, length)], [Part(1, 1, size, base=dpa)], CONTROLS, []), rule
    for length, rule in ((0, "empty"), (1, "capacity-differs")):
        yield Platform([Range(1, 0, length)], [Part(1, 1, GREATEST), Part(2, 1, GREATEST, 1)], CONTROLS, []), rule


def neighbours():
    """A mapping of the same module beside a member at addresses 4,096 to 8,191. Ranges 2 and 3 are regions, of which only 2
    can be used; 0, 4 and 9 are none."""
    for handle, region, dpa, size, rule in (
        (1, 2, 0, 4096, ""), (1, 2, 0, 4097, "dpa-overlap"), (1, 2, 8192, 4096, ""), (1, 2, 8191, 4096, "dpa-overlap"),
        (1, 2, 0, 16384, "dpa-overlap"), (1, 3, 0, 4096, ""), (1, 3, 0, 4097, "dpa-overlap"), (1, 3, 4096, MOST, "dpa-overlap"),
        (1, 3, 6000, 0, ""), (2, 2, 4096, 4096, ""), (1, 0, 4096, 4096, ""), (1, 4, 4096, 4096, ""), (1, 9, 4096, 4096, ""),
    ):
        ranges = [Range(4, 4 * BASE, 4096, bytes(16)), Range(3, 3 * BASE, 1), Range(2, 2 * BASE, size), Range(1, BASE, 4096), Range(0, 5 * BASE, 4096)]
        yield Platform(ranges, [Part(handle, region, size, base=dpa), Part(1, 1, 4096, base=4096)], CONTROLS, []), rule


def two_modules(first: Part, second: Part) -> tuple:
    platform = Platform([Range(1, BASE, 128 * GIB)], [first, second], CONTROLS, [Lines(1, 4096, (0, 2))])
    return platform, (f"  region index=1 spa=0x0000000100000000 size={128 * GIB} ways=2 cookie=0x0002e2420000346b"
                      " status=missing dimm=0x00000001\nok regions=1\n")


def unordered(ways: int) -> Platform:
    """A region of so many ways, its mappings by descending offset, with regions, line tables and modules in no order."""
    parts = [Part(ways - i, 1, 4096, 4096 * (ways - i), interleave=1, ways=2) for i in range(ways)]
    parts += [Part(0x300, 0, 0, control=0), Part(1, 9, 0, control=0)]
    ranges = [Range(7, 2 * BASE, 0), Range(5, 0, 0, bytes(16)), Range(1, BASE, 4096 * ways)]
    return Platform(ranges, parts, CONTROLS, [Lines(7, 4096, ()), Lines(0, 4096, (5,)), Lines(1, 4096, (0, 2))])


def crowded(regions: int, ways: int, more: int) -> Platform:
    """Regions of so many ways on modules 1, 2, .., and so many mappings of module 1 that name the last of them."""
    ranges = [Range(i + 1, (i + 1) * GIB, 4096 * ways) for i in range(regions)]
    parts = [Part(way + 1, i + 1, 4096, 4096 * way, (i + 1) * GIB) for i in range(regions) for way in range(ways)]
    return Platform(ranges, parts + [Part(1, regions, 4096, base=i) for i in range(more)], CONTROLS, [])


def platforms():
    """Platforms, lines, and what is said. No module has an area."""
    first, second = Part(0x1, 1, 64 * GIB, 0, 0, 1, 1, 2), Part(0x101, 1, 64 * GIB, 4096, 0, 2, 1, 2)
    for platform, text in (two_modules(first, second), two_modules(second, first)):
        yield platform, [
            ("list-regions", text), ("list region=2", "refused unknown-region region=2\n"),
            ("list-held dimm=0x101", "refused not-ready missing dimm=0x00000101\n"),
            ("list-held dimm=0x102", "refused unknown-dimm dimm=0x00000102\n"),
        ]
    empty = "  region index=7 spa=0x0000000200000000 size=0 status=unusable rule=no-mapping\nok regions=2\n"
    start = "  region index=1 spa=0x0000000100000000 size="
    cookie = unordered(16).cookie(Range(1, BASE, 65536))
    yield unordered(16), [
        ("list-regions", f"{start}65536 ways=16 cookie=0x{cookie:016x} status=missing dimm=0x00000001\n{empty}"),
        ("list region=5", "refused unknown-region region=5\n"), ("list region=0", "refused unknown-region region=0\n"),
        ("init-labels dimm=0x300", "refused not-ready missing dimm=0x00000300\n"),
        ("init-labels dimm=16", "refused not-ready missing dimm=0x00000010\n"),
        ("init-labels dimm=17", "refused unknown-dimm dimm=0x00000011\n"),
    ]
    yield unordered(17), [("list-regions", f"{start}69632 status=unusable rule=too-many-ways\n{empty}")]
    for regions, ways, more, size in ((0, 0, 21_831, 1_048_504), (64, 1, 21_692, 1_048_488), (64, 16, 0, 53_352)):
        platform = crowded(regions, ways, more)
        assert len(platform.table()) == size
        rule = platform.rule(platform.regions()[-1]) if regions else ""
        assert rule == ("too-many-ways" if regions and more else "")
        yield platform, [
            ("list-regions", platform.list_regions()),
            (f"init-labels dimm={max(ways, 1)}", f"refused not-ready missing dimm=0x{max(ways, 1):08x}\n"),
            (f"init-labels dimm={max(ways, 1) + 1}", f"refused unknown-dimm dimm=0x{max(ways, 1) + 1:08x}\n"),
        ]
    for rule in RULES:
        yield spoiled(rule), [
            (line, f"refused unusable rule={rule}\n")
            for line in ("list region=1", "list-free region=1", "to-module region=1 spa=0", "to-spa region=1 dimm=9 dpa=0")
        ]


def tables(chance: random.Random):
    """Tables with a fault, or none, made from structures and from changed bytes."""
    ends = [Range(1, BASE, 8192).bytes(), Control(1, 1).bytes(), Part(1, 1, 4096).bytes(), Lines(1, 4096, (0, 2)).bytes(), struct.pack("<HH", 9, 4)]
    for kind in (0, 1, 2, 3, 4, 9, 65535):
        for length in (0, 3, 4, 5, 15, 16, 19, 20, 31, 32, 47, 48, 55, 56, 57, 64):
            yield table(struct.pack("<HH", kind, length).ljust(max(length, 4), b"\0"))
    for lines in (0, 1, 2, 1 << 30, (1 << 32) - 1):
        yield table(struct.pack("<HHHxxII", 2, 20, 1, lines, 4096) + bytes(4))
    for first in ends:
        for second in ends:
            yield table(first + second)
    for count in (64, 65):
        yield table(b"".join(Range(i + 1, BASE, 1).bytes() for i in range(count)))
        yield table(b"".join(Range(i + 1, BASE, 1, bytes(16)).bytes() for i in range(count)))
        yield table(b"".join(Range(0, BASE, 1).bytes() for _ in range(count)))
        yield table(b"".join(Part(i, 0, 1).bytes() for i in range(count)))
        yield table(b"".join(Part(7, 0, 1).bytes() for _ in range(count)))
    good = table(b"".join(ends))
    for at in range(len(good)):
        yield good[:at] + bytes([good[at] ^ (1 << chance.randrange(8))]) + good[at + 1 :]
        changed = good[40:at] + bytes([good[at] ^ (1 << chance.randrange(8))]) + good[at + 1 :] if at >= 40 else good[40:]
        yield table(changed)
        if at % 9 == 0:
            yield good[:at]
            yield table(good[40 : max(at, 40)])


def structure(kind: int, told: int, size: int) -> bytes:
    """A structure of a type that tells a length: so many bytes, at least 4, with zeros behind its type and length."""
    return struct.pack("<HH", kind, told).ljust(max(size, 4), b"\0")


def named(kind: int, index: int) -> bytes:
    """A structure of the least length of its type with an index, which stands in a mapping where a range's index does."""
    least = {0: 56, 1: 48, 2: 16, 4: 32}[kind]
    at = 12 if kind == 1 else 4
    text = structure(kind, least, least)
    return text[:at] + struct.pack("<H", index) + text[at + 2 :]


def lines_told(count: int) -> bytes:
    """An interleave structure of 20 bytes, with room for one line, that tells so many."""
    return struct.pack("<HHHxxIII", 2, 20, 1, count, 4096, 7)


def ranges(count: int, guid: bytes = PERSISTENT_MEMORY) -> bytes:
    return b"".join(Range(i + 1, BASE, 1, guid).bytes() for i in range(count))


def modules(count: int) -> bytes:
    return b"".join(Part(i, 1, 1).bytes() for i in range(count))


def changed(length: int, adds: dict, fixed: bool) -> bytes:
    """The table of two modules, cut or with zeros behind it, with numbers added to some bytes, and the checksum set or not."""
    text = bytearray(nfit([Region(1, BASE, [Mapping(0x1, 1, 64 * GIB), Mapping(0x101, 2, 64 * GIB, 4096)])])[:length].ljust(length, b"\0"))
    for at, by in adds.items():
        text[at] = (text[at] + by) % 256
    if fixed:
        text[9] = (text[9] - sum(text)) % 256
    return bytes(text)


def changed_tables():
    """Changes of the table of two modules, which has 280 bytes, and the first fault."""
    yield changed(280, {}, False), ""
    for length in (0, 1, 39):
        yield changed(length, {}, False), f"short length={length}"
    for length in (40, 279, 281):
        yield changed(length, {}, False), f"length told=280 length={length}"
    for adds, fault in (
        ({0: 255}, "signature"), ({3: 0x20}, "signature"), ({4: 1}, "length told=281 length=280"),
        ({7: 1}, f"length told={0x0100_0118} length=280"), ({8: 1}, "revision value=2"), ({8: 255}, "revision value=0"),
        ({42: 200}, "structure at=40"),
    ):
        yield changed(280, adds, True), fault
    for at in (9, 10, 39, 40, 150, 279):
        yield changed(280, {at: 1}, False), "checksum sum=1"
    for length, adds, fault in (
        (39, {0: 255}, "short length=39"), (280, {0: 255, 4: 1}, "signature"), (280, {4: 1, 8: 1}, "length told=281 length=280"),
        (280, {8: 1}, "revision value=2"), (280, {42: 200}, "checksum sum=200"),
    ):
        yield changed(length, adds, False), fault


def written_tables():
    """Structures, and the first fault of their table, or none."""
    one, other = named(0, 1), bytes(16)
    for accepted in (
        b"", one + structure(0, 56, 56), one + structure(0, 64, 64), one + structure(1, 48, 48), one + structure(1, 49, 49),
        one + structure(2, 16, 16), one + structure(2, 20, 20), one + structure(3, 4, 4), one + structure(4, 32, 32),
        one + structure(4, 80, 80), one + structure(9, 4, 4), one + structure(9, 20, 20), one + structure(65535, 65535, 65535),
        one + lines_told(0), one + lines_told(1), named(0, 0) * 2, named(2, 0) * 2 + named(4, 0) * 2, one + named(2, 1) + named(4, 1),
        named(1, 1) * 2 + one, one + named(0, 257) + named(0, 513), ranges(64), ranges(65, other) + Range(0, BASE, 1).bytes() * 65,
        modules(64) * 2, Part(0x101, 1, 1).bytes() * 65, modules(64) + ranges(64) + structure(9, 4, 4), ranges(18_700, other),
        structure(9, 65535, 65535) * 15 + structure(9, 65511, 65511),
    ):
        yield accepted, ""
    for misshapen in (
        structure(0, 55, 55), structure(0, 57, 56), structure(0, 0, 56), structure(1, 47, 47), structure(2, 15, 15), structure(4, 31, 31),
        structure(9, 3, 4), structure(9, 0, 4), structure(9, 5, 4), bytes(1), bytes(2), bytes(3), lines_told(2), lines_told(1 << 30),
        lines_told((1 << 30) + 1), lines_told((1 << 32) - 1),
    ):
        yield one + misshapen, "structure at=96"
    for doubled, kind, index in (
        (named(0, 3) * 2, 0, 3), (named(2, 5) * 2, 2, 5), (named(4, 7) * 2, 4, 7),
        (one + named(4, 2) + named(0, 9) + named(4, 2) + one, 4, 2), (one + named(2, 1) + named(0, 2) * 2 + named(2, 1), 0, 2),
        (named(0, 65535) + named(2, 4) + named(0, 65535), 0, 65535), (named(4, 256) + named(4, 1) + named(4, 256), 4, 256),
        (ranges(65) + named(4, 8) * 2, 4, 8), (ranges(18_699, other) + named(0, 1), 0, 1),
    ):
        yield doubled, f"twice-index kind={kind} index={index}"
    yield ranges(65), "too-many kind=0"
    yield modules(65) * 2, "too-many kind=1"
    yield modules(65) + ranges(65), "too-many kind=0"
    yield one * 2 + bytes(1), "structure at=152"


def woven_pair(size: int, second: tuple, line_size: int, lines: tuple, others: tuple = ()) -> Platform:
    """A region of two ways. The second member has this region offset and interleave index, and tells these ways."""
    offset, interleave, ways = second
    parts = [Part(0x1, 1, size, interleave=1, ways=2), Part(0x101, 1, size, offset, interleave=interleave, ways=ways)]
    return Platform([Range(1, BASE, 2 * size)], parts, CONTROLS, [Lines(1, line_size, lines), Lines(2, line_size, others)])


def told_faults():
    """Regions, and the first fault of their translation: each alone, and the first of two."""
    size, second, two = 1 << 16, (4096, 1, 2), (0, 2)
    yield woven_pair(size, second, 4096, two), ""
    yield woven_pair(size, (4096, 0, 2), 4096, two), "no-interleave"
    yield woven_pair(size, (4096, 3, 2), 4096, two), "no-interleave"
    yield woven_pair(size, (4096, 1, 3), 4096, two), "ways-differ"
    yield woven_pair(size, (4096, 2, 2), 4096, two, (0,)), "lines-differ"
    yield woven_pair(size, (4097, 1, 2), 4096, two), "offset-not-line"
    yield woven_pair(size - 4096, second, 4096, two), "ragged"
    yield woven_pair(size, second, 4096, (0, 1)), "not-partition line=1"
    yield woven_pair(size, second, 4096, ()), "lines-differ"
    yield woven_pair(size, second, 0, two), "lines-differ"
    yield woven_pair(size, second, 4096, (0, (1 << 32) - 1)), "not-partition line=2"
    yield woven_pair(size, (4097, 1, 3), 4096, (0, 1)), "ways-differ"
    yield woven_pair(size - 4096, (4097, 1, 2), 4096, (0, 1)), "offset-not-line"
    yield woven_pair(size - 4096, second, 4096, (0, 1)), "ragged"
    yield woven_pair(size, (4096, 1, 3), 4096, (0,) * 4097), "too-many-lines"
    parts = [Part(0x1, 1, 64 * GIB, ways=2), Part(0x101, 1, 64 * GIB, 4096, ways=2)]
    yield Platform([Range(1, BASE, 128 * GIB)], parts, CONTROLS, [Lines(1, 4096, two)]), "no-interleave"


def pairs():
    """Regions, and addresses of bytes of theirs with the module and the address there. The region's end is outside."""
    second = (4096, 1, 2)
    yield woven_pair(64 * GIB, second, 4096, (0, 2)), (
        (BASE, 0x1, 0), (BASE + 0x3005, 0x101, 0x1005), (BASE + 0x5000, 0x101, 0x2000), (BASE + 128 * GIB - 1, 0x101, 64 * GIB - 1),
    )
    yield Platform([Range(1, BASE, GIB)], [Part(0x7, 1, GIB, 12345, ways=9)], CONTROLS, []), (
        (BASE, 0x7, 0), (BASE + 12345, 0x7, 12345), (BASE + GIB - 1, 0x7, GIB - 1),
    )
    three = [Part(i + 1, 1, 1024, 256 * i, interleave=1, ways=3) for i in range(3)]
    yield Platform([Range(1, BASE, 3072)], three, CONTROLS, [Lines(1, 256, (3, 0))]), (
        (BASE, 0x1, 256), (BASE + 0x103, 0x2, 0x103), (BASE + 768, 0x1, 0), (BASE + 1536, 0x1, 768), (BASE + 3071, 0x3, 767),
    )
    yield woven_pair(64 * GIB, second, 4096, tuple(2 * line for line in reversed(range(1024)))), (
        (BASE + 0x7F_E005, 0x1, 5), (BASE + 0x7F_F005, 0x101, 5), (BASE, 0x1, 0x3F_F000), (BASE + 0x80_0000, 0x1, 0x7F_F000),
    )


def written_translations():
    """Regions, lines, and what is said."""
    for platform, fault in told_faults():
        assert platform.translation_fault(platform.regions()[0]) == fault, fault
        refused = f"refused no-translation {fault}\n"
        yield platform, [
            (f"to-module region=1 spa={BASE}", refused if fault else "ok dimm=0x00000001 dpa=0x0000000000000000\n"),
            ("to-spa region=1 dimm=2 dpa=0", refused if fault else "refused not-in-region dimm=0x00000002\n"),
            (f"to-runs region=1 spa={BASE} length=0", refused if fault else "refused outside\n"),
        ]
    for platform, places in pairs():
        length, size = platform.ranges[0].length, platform.parts[0].size
        last = platform.parts[-1].handle
        rows = [
            (f"to-module region=1 spa={BASE - 1}", "refused outside\n"), (f"to-module region=1 spa={BASE + length}", "refused outside\n"),
            (f"to-spa region=1 dimm={last} dpa={size}", "refused outside\n"),
            ("to-spa region=1 dimm=77 dpa=0", "refused not-in-region dimm=0x0000004d\n"),
            (f"to-runs region=1 spa={BASE} length={length + 1}", "refused outside\n"),
            (f"to-runs region=1 spa={BASE + length} length=1", "refused outside\n"),
            (f"to-runs region=1 spa={BASE} length={length}", "".join(
                f"  run dimm=0x{part.handle:08x} dpa=0x0000000000000000 length={size}\n" for part in platform.parts
            ) + f"ok runs={len(platform.parts)}\n"),
        ]
        for spa, handle, dpa in places:
            rows.append((f"to-module region=1 spa={spa}", f"ok dimm=0x{handle:08x} dpa=0x{dpa:016x}\n"))
            rows.append((f"to-spa region=1 dimm={handle} dpa={dpa}", f"ok spa=0x{spa:016x}\n"))
            rows.append((f"to-runs region=1 spa={spa} length=1", f"  run dimm=0x{handle:08x} dpa=0x{dpa:016x} length=1\nok runs=1\n"))
        yield platform, rows


def woven(chance: random.Random) -> Platform:
    """A small region whose addresses can be translated, or miss it by a field."""
    ways, m, s = chance.randint(1, 4), chance.randint(1, 4), chance.choice((1, 2, 16))
    periods = chance.randint(1, 3)
    order = list(range(ways * m))
    chance.shuffle(order)
    own = [sorted(order[i::ways]) if chance.random() < 0.5 else order[i::ways] for i in range(ways)]
    firsts = [min(lines) for lines in own]
    tables_ = [Lines(i + 1, s, tuple(line - first for line in lines)) for i, (lines, first) in enumerate(zip(own, firsts))]
    size = periods * m * s
    parts = [Part(16 * i + 1, 1, size, first * s, chance.choice((0, 7, 4096)), interleave=i + 1, ways=ways) for i, first in enumerate(firsts)]
    if ways == 1 and chance.random() < 0.5:
        parts = [Part(1, 1, size, chance.choice((0, 5)), 9)]
    elif chance.random() < 0.3:
        i = chance.randrange(ways)
        part, lines = parts[i], tables_[i]
        wrong = chance.choice(("interleave", "ways", "size", "lines", "line size", "offset", "none"))
        if wrong == "interleave":
            parts[i] = Part(part.handle, 1, size, part.offset, part.base, interleave=chance.choice((0, 77)), ways=ways)
        elif wrong == "ways":
            parts[i] = Part(part.handle, 1, size, part.offset, part.base, interleave=i + 1, ways=ways + 1)
        elif wrong == "size":
            parts = [Part(p.handle, 1, size + 1, p.offset, p.base, interleave=p.interleave, ways=ways) for p in parts]
        elif wrong == "lines":
            tables_[i] = Lines(i + 1, s, lines.lines[:-1] + (chance.choice((0, 1, 99, (1 << 32) - 1)),))
        elif wrong == "line size":
            tables_[i] = Lines(i + 1, chance.choice((0, s + 1)), lines.lines)
        elif wrong == "offset":
            parts[i] = Part(part.handle, 1, size, part.offset + 64 * s + 1, part.base, interleave=i + 1, ways=ways)
        else:
            tables_[i] = Lines(i + 1, s, ())
    length = sum(part.size for part in parts)
    return Platform([Range(1, BASE, length)], parts, CONTROLS, tables_)


def translations(chance: random.Random, platform: Platform):
    """What is asked of addresses of region 1, and the answers."""
    region = platform.regions()[0]
    rule, fault = platform.rule(region), platform.translation_fault(region)
    refused = f"refused unusable rule={rule}\n" if rule else f"refused no-translation {fault}\n" if fault else ""
    spa = BASE + chance.randrange(region.length + 2) - 1
    part = chance.choice(platform.members(region))
    dpa = part.base + chance.randrange(part.size + 2) - (1 if part.base else 0)
    start = BASE + chance.randrange(region.length)
    length = chance.randint(0, BASE + region.length - start + 1)
    known = None if refused else platform.bytes_of(region)
    inside = BASE <= spa < BASE + region.length
    yield f"to-module region=1 spa={spa}", refused or (
        "ok dimm=0x%08x dpa=0x%016x\n" % known[spa] if inside else "refused outside\n")
    yield f"to-spa region=1 dimm={part.handle} dpa={dpa}", refused or (
        f"ok spa=0x{platform.spa(region, part, dpa - part.base):016x}\n" if part.base <= dpa < part.base + part.size else "refused outside\n")
    yield "to-spa region=1 dimm=9 dpa=0", refused or "refused not-in-region dimm=0x00000009\n"
    yield f"to-runs region=1 spa={start} length={length}", refused or (
        platform.runs(region, start, length) if length and start + length <= BASE + region.length else "refused outside\n")


class Compared:
    def __init__(self, program: str, folder: Path):
        self.program, self.folder, self.rows, self.wrong = program, folder, 0, 0
        folder.mkdir()

    def table(self, text: bytes) -> None:
        (self.folder / "nfit.bin").write_bytes(text)

    def row(self, line: str, text: str) -> None:
        status = 5 if text == "error limit nfit\n" else 3 if text.startswith("error nfit") else int(text.startswith("refused"))
        self.rows += 1
        answer = run(self.program, self.folder, line)
        if answer != (status, text):
            self.wrong += 1
            print(f"{line}\n  model   {text!r:.1500}\n  program {answer!r:.1500}\n  NFIT {(self.folder / 'nfit.bin').read_bytes().hex():.3000}")


def main() -> int:
    count = int(sys.argv[1]) if len(sys.argv) > 1 else 200
    seed = int(sys.argv[2]) if len(sys.argv) > 2 else 1
    program = sys.argv[3] if len(sys.argv) > 3 else str(ROOT / "crates/nd_cli/out/nd_cli")
    chance = random.Random(seed)
    with tempfile.TemporaryDirectory() as scratch:
        compared = Compared(program, Path(scratch, "image"))
        for build in (rules, bounds, neighbours):
            for platform, rule in build():
                found = platform.rule(next(region for region in platform.regions() if region.index == 1))
                assert found == rule, (rule, found)
                compared.table(platform.table())
                compared.row("list-regions", platform.list_regions())
        for build in (platforms, written_translations):
            for platform, lines in build():
                compared.table(platform.table())
                for line, text in lines:
                    compared.row(line, text)
        told = [(table(text), fault) for text, fault in written_tables()] + list(changed_tables())
        for text, fault in told + [(text, first_fault(text)) for text in tables(chance)]:
            assert first_fault(text) == fault, (fault, first_fault(text))
            compared.table(text)
            compared.row("# x", f"error nfit {fault}\n" if fault else "")
        compared.table(table(structure(9, 65535, 65535) * 15 + structure(9, 65512, 65512)))
        compared.row("# x", "error limit nfit\n")
        for _ in range(count):
            platform = woven(chance)
            compared.table(platform.table())
            for line, text in translations(chance, platform):
                compared.row(line, text)
    print(f"{compared.rows} replies on tables, {compared.wrong} wrong")
    return 1 if compared.wrong or not compared.rows else 0


if __name__ == "__main__":
    sys.exit(main())
