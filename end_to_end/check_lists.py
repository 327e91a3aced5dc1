#!/usr/bin/env python3
"""Runs the lists of the program on images made by hand, and compares each reply, byte by byte.

    python3 end_to_end/check_lists.py [PROGRAM]
"""

import subprocess
import sys
import tempfile
from dataclasses import replace
from pathlib import Path

from platform_images import (
    LOCAL, MIB, RAW, ROLABEL, SECTOR, UPDATING, Label, Mapping, Region, area, index_block, nfit, write,
)

ROOT = Path(__file__).resolve().parent.parent
FIRST, SECOND = 0x1, 0x101
SIZE = 131072


def uuid(number: int) -> str:
    return f"00000000-0000-4000-8000-{number:012x}"


U1, U2, U3, U4 = (uuid(n) for n in (1, 2, 3, 4))
PART = 64 * MIB
PAIR = Region(1, 0x1_0000_0000, [Mapping(FIRST, 1, PART), Mapping(SECOND, 2, PART, 4096)])


def pair(number: str, dpa: int, size: int, position: int, **fields) -> Label:
    return Label(number, dpa, size, PAIR.cookie(), nlabel=2, position=position, **fields)


def both(number: str, dpa: int, size: int, **fields) -> list:
    return [pair(number, dpa, size, position, **fields) for position in (0, 1)]


def image(first: list, second: list, regions=(PAIR,), size=SIZE) -> tuple:
    """The table, and the areas of two modules. None stands for a module without an area."""
    areas = {handle: None if labels is None else area(size, labels) for handle, labels in ((FIRST, first), (SECOND, second))}
    return nfit(list(regions)), areas


def space(number: str, offset: int, length: int, name="-", region=1, ways=2, mode="raw", sector=512, pending="no",
          read_only="no") -> str:
    return (f"  namespace uuid={number} name={name} region={region} mode={mode} sector={sector} offset={offset}"
            f" length={length} size={ways * length} pending={pending} read-only={read_only}\n")


def held(number: str, dpa: int, size: int, local="no", read_only="no", updating="no") -> str:
    return f"  held uuid={number} dpa=0x{dpa:016x} size={size} local={local} read-only={read_only} updating={updating}\n"


def free(*extents: tuple, largest: int) -> str:
    lines = "".join(f"  free offset={offset} length={length}\n" for offset, length in extents)
    return f"{lines}ok free={len(extents)} largest={largest}\n"


def set_line(status: str, index=1, spa=0x1_0000_0000, size=2 * PART, ways=2, cookie=0x0002_E242_0000_346B) -> str:
    return f"  region index={index} spa=0x{spa:016x} size={size} ways={ways} cookie=0x{cookie:016x} status={status}\n"


NO_SPACES = "ok namespaces=0\n"


def empty_pair():
    yield image([], []), [
        ("list", 0, NO_SPACES),
        ("list region=1", 0, NO_SPACES),
        ("list-regions", 0, set_line("ready") + "ok regions=1\n"),
        ("list-free region=1", 0, free((0, PART), largest=2 * PART)),
        ("list-held dimm=1", 0, "ok held=0 spare=510\n"),
        ("list-free", 1, "refused words missing key=region\n"),
        ("list region=2", 1, "refused unknown-region region=2\n"),
        ("list-free region=2", 1, "refused unknown-region region=2\n"),
        ("list-held dimm=2", 1, "refused unknown-dimm dimm=0x00000002\n"),
        ("list-regions region=1", 1, "refused words key piece=1\n"),
        ("#" + "x" * 4096, 1, "refused words too-long\n"),
        ("list\n", 1, "refused words byte at=4\n"),
        ("", 0, ""),
        ("# list", 0, ""),
    ]


def namespaces():
    """In any order of slots; names of 64 bytes and odd ones; ROLABEL and UPDATING."""
    long = b"n" * 64
    first = [
        pair(U3, 12 * MIB, 2 * MIB, 0, name=b"-", abstraction=SECTOR, sector=4096),
        pair(U1, 0, 4 * MIB, 0, name=long, flags=ROLABEL | UPDATING),
        pair(U2, 4 * MIB, 2 * MIB, 0, name=b'a b%"\x80\0rest', abstraction=bytes(15) + b"\1"),
    ]
    second = [
        pair(U2, 4 * MIB, 2 * MIB, 1, flags=UPDATING),
        pair(U1, 0, 4 * MIB, 1, name=b"other"),
        pair(U3, 12 * MIB, 2 * MIB, 1),
    ]
    listed = (
        space(U1, 0, 4 * MIB, "n" * 64, read_only="yes")
        + space(U2, 4 * MIB, 2 * MIB, "a%20b%25%22%80", mode="other", pending="yes")
        + space(U3, 12 * MIB, 2 * MIB, "%2D", mode="sector", sector=4096)
        + "ok namespaces=3\n"
    )
    yield image(first, second), [
        ("list", 0, listed),
        ("list region=1", 0, listed),
        ("list-free region=1", 0, free((6 * MIB, 6 * MIB), (14 * MIB, PART - 14 * MIB), largest=2 * (PART - 14 * MIB))),
        ("list-held dimm=0x101", 0, "ok held=0 spare=507\n"),
    ]


def stopped_create():
    """A create that was stopped after its first label, with both modules and with one."""
    label = pair(U1, 0, 2 * MIB, 0, flags=UPDATING)
    yield image([label], []), [
        ("list", 0, NO_SPACES),
        ("list-free region=1", 0, free((0, PART), largest=2 * PART)),
        ("list-held dimm=1", 0, "ok held=0 spare=510\n"),
    ]
    missing = "refused not-ready missing dimm=0x00000101\n"
    yield image([label], None), [
        ("list", 0, NO_SPACES),
        ("list region=1", 1, missing),
        ("list-free region=1", 1, missing),
        ("list-held dimm=0x101", 1, missing),
        ("list-held dimm=1", 0, held(U1, 0, 2 * MIB, updating="yes") + "ok held=1 spare=509\n"),
        ("list-regions", 0, set_line("missing dimm=0x00000101") + "ok regions=1\n"),
    ]


def replaced_module():
    yield image([pair(U1, 0, 2 * MIB, 0)], []), [
        ("list-held dimm=1", 0, held(U1, 0, 2 * MIB) + "ok held=1 spare=509\n"),
        ("list-free region=1", 0, free((2 * MIB, PART - 2 * MIB), largest=2 * (PART - 2 * MIB))),
        ("list", 0, NO_SPACES),
    ]


def missing_member():
    """A namespace one of whose modules has no area: its labels are held, marked or not, and come back with the area."""
    labels = zip(both(U1, 4 * MIB, 2 * MIB), both(U2, 8 * MIB, 2 * MIB, flags=UPDATING))
    first, second = [list(own) for own in labels]
    one, two = held(U1, 4 * MIB, 2 * MIB), held(U2, 8 * MIB, 2 * MIB, updating="yes")
    yield image(first, None), [
        ("list-held dimm=1", 0, one + two + "ok held=2 spare=508\n"),
        ("list", 0, NO_SPACES),
        ("list-free region=1", 1, "refused not-ready missing dimm=0x00000101\n"),
    ]
    yield image(first, second), [
        ("list", 0, space(U1, 4 * MIB, 2 * MIB) + space(U2, 8 * MIB, 2 * MIB, pending="yes") + "ok namespaces=2\n"),
        ("list-held dimm=1", 0, "ok held=0 spare=508\n"),
    ]


def clash():
    """Two whole uuids that overlap, and a region beside them that is Ready."""
    lone = Region(2, 0x10_0000_0000, [Mapping(FIRST, 1, 8 * MIB, 0, PART)])
    other = Label(U3, PART + 2 * MIB, 2 * MIB, lone.cookie())
    refused = f"refused not-ready clash first={U1} second={U2}\n"
    first, second = [list(labels) for labels in zip(both(U1, 0, 4 * MIB), both(U2, 2 * MIB, 4 * MIB))]
    first.append(other)
    alone = space(U3, 2 * MIB, 2 * MIB, region=2, ways=1)
    yield image(first, second, (PAIR, lone)), [
        ("list region=1", 1, refused),
        ("list-free region=1", 1, refused),
        ("list region=2", 0, alone + "ok namespaces=1\n"),
        ("list", 0, alone + "ok namespaces=1\n"),
        ("list-free region=2", 0, free((0, 2 * MIB), (4 * MIB, 4 * MIB), largest=4 * MIB)),
        ("list-regions", 0, set_line(f"clash first={U1} second={U2}")
         + set_line("ready", 2, lone.spa, 8 * MIB, 1, lone.cookie()) + "ok regions=2\n"),
        ("list-held dimm=1", 0, "ok held=0 spare=507\n"),
    ]


def foreign_labels():
    """Labels that belong to no region, in the order of held labels: by address, size, uuid and flags."""
    edge = PART - 2 * MIB
    top = (1 << 64) - 256
    first = [
        pair(U1, 0, 2 * MIB, 0, type_guid=RAW),
        pair(U1, 0, MIB, 0, flags=LOCAL),
        pair(U2, 0, MIB, 0, flags=ROLABEL | UPDATING),
        pair(U1, 0, MIB, 1),
        replace(pair(U3, 4 * MIB, 2 * MIB, 0), nlabel=3),
        replace(pair(U3, 4 * MIB, 2 * MIB, 0), cookie=7),
        pair(U4, edge, 2 * MIB, 0),
        pair(uuid(5), edge, 2 * MIB + 1, 0),
        pair(uuid(6), top, 256, 0),
        pair(uuid(7), top, 512, 7),
        pair(uuid(8), 6 * MIB, 0, 0),
    ]
    lines = (
        held(U1, 0, MIB) + held(U1, 0, MIB, local="yes") + held(U2, 0, MIB, read_only="yes", updating="yes")
        + held(U1, 0, 2 * MIB) + held(U3, 4 * MIB, 2 * MIB) + held(U3, 4 * MIB, 2 * MIB) + held(uuid(8), 6 * MIB, 0)
        + held(U4, edge, 2 * MIB) + held(uuid(5), edge, 2 * MIB + 1) + held(uuid(6), top, 256) + held(uuid(7), top, 512)
    )
    yield image(first, []), [
        ("list-held dimm=1", 0, lines + "ok held=11 spare=499\n"),
        ("list-free region=1", 0, free((2 * MIB, 2 * MIB), (6 * MIB, edge - 6 * MIB), largest=2 * (edge - 6 * MIB))),
        ("list", 0, NO_SPACES),
    ]


def doubled():
    """A uuid that stands twice in one module is held there and elsewhere, marked or not."""
    first = [pair(U1, 0, 2 * MIB, 0, flags=UPDATING), pair(U1, 0, 2 * MIB, 0, flags=UPDATING)]
    second = [pair(U1, 0, 2 * MIB, 1, flags=UPDATING)]
    line = held(U1, 0, 2 * MIB, updating="yes")
    yield image(first, second), [
        ("list-held dimm=1", 0, line + line + "ok held=2 spare=508\n"),
        ("list-held dimm=0x101", 0, line + "ok held=1 spare=509\n"),
        ("list-free region=1", 0, free((2 * MIB, PART - 2 * MIB), largest=2 * (PART - 2 * MIB))),
    ]


def held_ranges():
    """Ranges that held labels take from a region of one module, and the extents that are left."""
    edge = 1 << 63
    for size, ranges, left in (
        (100, [], [(0, 100)]), (100, [(0, 10)], [(10, 90)]), (100, [(90, 10)], [(0, 90)]), (100, [(90, 20)], [(0, 90)]),
        (100, [(100, 1)], [(0, 100)]), (100, [(30, 0)], [(0, 100)]), (100, [(0, 100)], []), (100, [(0, (1 << 64) - 1)], []),
        (100, [(40, 10), (10, 10)], [(0, 10), (20, 20), (50, 50)]), (100, [(40, 20), (10, 40)], [(0, 10), (60, 40)]),
        (100, [(10, 50), (20, 0), (20, 10)], [(0, 10), (60, 40)]), (100, [(20, 10), (20, 10)], [(0, 20), (30, 70)]),
        (100, [(30, 10), (20, 10)], [(0, 20), (40, 60)]), (100, [(10, 10), (30, 10)], [(0, 10), (20, 10), (40, 60)]),
        (100, [(0, 50), (50, 50)], []), (edge, [(2 * edge - 1, 2 * edge - 1), (edge - 9, 20)], [(0, edge - 9)]),
    ):
        lone = Region(1, 0, [Mapping(FIRST, 1, size)])
        labels = [Label(uuid(at), start, length, 7) for at, (start, length) in enumerate(ranges)]
        largest = edge - 2 * MIB if size == edge else 0
        yield (nfit([lone]), {FIRST: area(SIZE, labels)}), [("list-free region=1", 0, free(*left, largest=largest))]
    for start, largest in ((2 * MIB, 4), (2 * MIB + 1, 2), (2 * MIB - 1, 4), (1, 4)):
        lone = Region(1, 0, [Mapping(FIRST, 1, 7 * MIB)])
        labels = [Label(U1, 0, start, 7)]
        yield (nfit([lone]), {FIRST: area(SIZE, labels)}), [
            ("list-free region=1", 0, free((start, 7 * MIB - start), largest=largest * MIB)),
        ]


def unusable():
    """A region whose members' parts have other sizes than its range, and a label that names it."""
    broken = replace(PAIR, length=4 * PART)
    yield image(*[[label] for label in both(U1, 0, 2 * MIB)], (broken,)), [
        ("list-regions", 0, "  region index=1 spa=0x0000000100000000 size=268435456 status=unusable rule=capacity-differs\nok regions=1\n"),
        ("list region=1", 1, "refused unusable rule=capacity-differs\n"),
        ("list-free region=1", 1, "refused unusable rule=capacity-differs\n"),
        ("list", 0, NO_SPACES),
        ("list-held dimm=1", 0, held(U1, 0, 2 * MIB) + "ok held=1 spare=509\n"),
    ]


def shared_module():
    """Two regions that share a module: each label belongs to the region whose part of the module it lies in."""
    lone = Region(2, 0x10_0000_0000, [Mapping(SECOND, 2, 16 * MIB, 0, PART)])
    own = Label(U2, PART, 4 * MIB, lone.cookie(), b"own")
    astray = Label(U3, PART - 2 * MIB, 4 * MIB, lone.cookie())
    first, second = [[label] for label in both(U1, 2 * MIB, 2 * MIB)]
    yield image(first, second + [own, astray], (lone, PAIR)), [
        ("list", 0, space(U1, 2 * MIB, 2 * MIB) + space(U2, 0, 4 * MIB, "own", 2, 1) + "ok namespaces=2\n"),
        ("list-free region=1", 0, free((0, 2 * MIB), (4 * MIB, PART - 6 * MIB), largest=2 * (PART - 6 * MIB))),
        ("list-free region=2", 0, free((4 * MIB, 12 * MIB), largest=12 * MIB)),
        ("list-held dimm=0x101", 0, held(U3, PART - 2 * MIB, 4 * MIB) + "ok held=1 spare=507\n"),
    ]


def states():
    """Areas in each state that isn't Ready: the block of a foreign one tells the place of a greater area's."""
    table = nfit([PAIR])
    foreign = index_block(MIB, 0, 3, 0).ljust(1024, b"\0")
    for state, second in (("wrong-size", bytes(1000)), ("uninit", bytes(1024)), ("foreign", foreign)):
        refused = f"refused not-ready {state} dimm=0x00000101\n"
        yield (table, {FIRST: area(1024), SECOND: second}), [
            ("list region=1", 1, refused),
            ("list-held dimm=0x101", 1, refused),
            ("list-held dimm=1", 0, "ok held=0 spare=2\n"),
            ("list-regions", 0, set_line(f"{state} dimm=0x00000101") + "ok regions=1\n"),
        ]


def largest_areas():
    """Areas of 1,048,576 bytes with all 4,090 slots in use."""
    first, second = [], []
    for number in range(4090):
        a, b = both(uuid(number), 4096 * number, 4096)
        first.append(a)
        second.append(b)
    listed = "".join(space(uuid(number), 4096 * number, 4096) for number in range(4090))
    at = 4090 * 4096
    room = PART - (at + 2 * MIB - 1) // (2 * MIB) * 2 * MIB
    yield image(first, second, size=MIB), [
        ("list", 0, listed + "ok namespaces=4090\n"),
        ("list-free region=1", 0, free((at, PART - at), largest=2 * room)),
        ("list-held dimm=1", 0, "ok held=0 spare=0\n"),
    ]


IMAGES = [
    empty_pair, namespaces, stopped_create, replaced_module, missing_member, clash, foreign_labels, doubled, held_ranges, unusable,
    shared_module, states, largest_areas,
]


def run(program: str, folder: Path, line: str) -> tuple:
    done = subprocess.run([program, "do", str(folder), line], capture_output=True, timeout=60)
    return done.returncode, done.stdout.decode()


def main() -> int:
    program = sys.argv[1] if len(sys.argv) > 1 else str(ROOT / "crates/nd_cli/out/nd_cli")
    rows = wrong = 0
    with tempfile.TemporaryDirectory() as scratch:
        for build in IMAGES:
            for number, ((table, areas), lines) in enumerate(build()):
                folder = Path(scratch, f"{build.__name__}{number}")
                write(folder, table, areas)
                before = {path.name: path.read_bytes() for path in folder.iterdir()}
                for line, status, text in lines:
                    rows += 1
                    answer = run(program, folder, line)
                    if answer != (status, text):
                        wrong += 1
                        print(f"{folder.name}: {line[:60]}\n  expected {status} {text!r:.2000}\n  answered {answer[0]} {answer[1]!r:.2000}")
                if before != {path.name: path.read_bytes() for path in folder.iterdir()}:
                    wrong += 1
                    print(f"{folder.name}: a list changed the image")
    print(f"{rows} rows, {wrong} wrong")
    return 1 if wrong or not rows else 0


if __name__ == "__main__":
    sys.exit(main())
