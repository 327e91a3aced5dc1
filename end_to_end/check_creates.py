#!/usr/bin/env python3
"""Makes namespaces on images made by hand, and compares each reply, and what the lists tell then, byte by byte: worked
examples, each refusal alone, each with its neighbour in their order, and what a stopped create left.

    python3 end_to_end/check_creates.py [PROGRAM]
"""

import subprocess
import sys
import tempfile
from dataclasses import replace
from pathlib import Path

from check_lists import (
    FIRST, NO_SPACES, PAIR, PART, ROOT, SECOND, both, free, image, pair, run, space,
)
from platform_images import MIB, ROLABEL, SECTOR, UPDATING, Label, Mapping, Region, area, index_block, nfit, write

GIB = 1 << 30
U1, U2, U3, U4, U5 = (f"0f6b1a52-7c3e-4d28-9a41-5be0c7d2e81{digit}" for digit in "34567")

LONE = Region(1, 0x1_0000_0000, [Mapping(FIRST, 1, 64 * MIB)])
WIDE = Region(1, 0x1_0000_0000, [Mapping(FIRST, 1, 64 * GIB), Mapping(SECOND, 2, 64 * GIB, 4096)])

SMALL = 1024
"""The size of an area with two slots."""


def create(size, number=None, name="", region=1, more="") -> str:
    given = (f" name={name}" if name else "") + (f" uuid={number}" if number else "")
    return f"create-namespace region={region} size={size}{given}{more}"


def created(number: str, offset: int, size: int, spare: int, region=1, ways=2) -> str:
    return f"ok created uuid={number} region={region} offset={offset} length={size // ways} size={size} spare={spare}\n"


def worked():
    """The worked examples: a large region, one module, a region that is filled, and three namespaces side by side."""
    yield image([], [], (WIDE,)), [
        (create("16G", U1, "db0"), 0, created(U1, 0, 16 * GIB, 509)),
        ("list", 0, space(U1, 0, 8 * GIB, "db0") + "ok namespaces=1\n"),
    ]
    yield (nfit([LONE]), {FIRST: area(SMALL)}), [
        (create("4M", U1, "db0"), 0, created(U1, 0, 4 * MIB, 1, ways=1)),
    ]
    yield image([], []), [
        (create("128M", U1), 0, created(U1, 0, 128 * MIB, 509)),
        (create("4M", U2), 1, "refused no-space largest=0\n"),
    ]
    yield image([], []), [
        (create("3M"), 1, "refused bad-size unit=4194304\n"),
        (create("0"), 1, "refused bad-size unit=4194304\n"),
        (create("4M", U1), 0, created(U1, 0, 4 * MIB, 509)),
        (create("4M", U2), 0, created(U2, 2 * MIB, 4 * MIB, 508)),
        (create("4M", U3), 0, created(U3, 4 * MIB, 4 * MIB, 507)),
        ("list-free region=1", 0, free((6 * MIB, PART - 6 * MIB), largest=2 * PART - 12 * MIB)),
    ]
    yield image([], [], size=SMALL), [
        (create("4M", U1), 0, created(U1, 0, 4 * MIB, 1)),
        (create("4M", U2), 1, "refused no-slots dimm=0x00000001 spare=1\n"),
    ]
    yield image([], []), [
        (create("4M", U1, "db0"), 0, created(U1, 0, 4 * MIB, 509)),
        (create("4M", U2, "db0"), 1, f"refused name-in-use uuid={U1}\n"),
        (create("4M", U1, "db1"), 1, "refused uuid-in-use dimm=0x00000001\n"),
        (create("4M", region=2), 1, "refused unknown-region region=2\n"),
        (create("4M", U2, more=" mode=sector sector-size=4096"), 0, created(U2, 2 * MIB, 4 * MIB, 508)),
        ("list", 0, space(U1, 0, 2 * MIB, "db0") + space(U2, 2 * MIB, 2 * MIB, mode="sector", sector=4096)
         + "ok namespaces=2\n"),
    ]


def places():
    """The first range that fits, between namespaces and held labels, at a multiple of 2 MiB."""
    first, second = [list(own) for own in zip(both(U1, 4 * MIB, 4 * MIB), both(U2, 10 * MIB, 2 * MIB))]
    first.append(Label(U3, MIB, MIB, 1))
    yield image(first, second), [
        (create("8M", U4), 0, created(U4, 12 * MIB, 8 * MIB, 506)),
        (create("4M", U5), 0, created(U5, 2 * MIB, 4 * MIB, 505)),
        ("list-free region=1", 0, free((0, MIB), (8 * MIB, 2 * MIB), (16 * MIB, PART - 16 * MIB),
                                       largest=2 * (PART - 16 * MIB))),
    ]
    replaced = [pair(U1, 0, 2 * MIB, 0)]
    yield image(replaced, []), [(create("4M", U2), 0, created(U2, 2 * MIB, 4 * MIB, 508))]


def stopped():
    """A create that was stopped: its labels are dead, or its namespace is pending, until the next create."""
    label = pair(U1, 0, 2 * MIB, 0, flags=UPDATING)
    yield image([label], []), [
        ("list", 0, NO_SPACES),
        (create("4M", U1), 0, created(U1, 0, 4 * MIB, 509)),
        ("list-held dimm=1", 0, "ok held=0 spare=509\n"),
    ]
    yield image([label], None), [(create("4M", U1), 1, "refused not-ready missing dimm=0x00000101\n")]
    first, second = [[own] for own in both(U1, 0, 2 * MIB, flags=UPDATING)]
    before = space(U1, 0, 2 * MIB, pending="yes") + "ok namespaces=1\n"
    yield image(first, second), [
        ("list", 0, before),
        (create("3M", U2), 1, "refused bad-size unit=4194304\n"),
        ("list", 0, before),
        (create("4M", U2), 0, created(U2, 2 * MIB, 4 * MIB, 508)),
        ("list", 0, space(U1, 0, 2 * MIB) + space(U2, 2 * MIB, 2 * MIB) + "ok namespaces=2\n"),
    ]
    renamed = [pair(U1, 0, 2 * MIB, 0, name=b"new", flags=UPDATING)], [pair(U1, 0, 2 * MIB, 1, name=b"old")]
    yield image(*renamed), [
        (create("4M", U2, "old"), 0, created(U2, 2 * MIB, 4 * MIB, 508)),
        (create("4M", U3, "new"), 1, f"refused name-in-use uuid={U1}\n"),
        ("list", 0, space(U1, 0, 2 * MIB, "new") + space(U2, 2 * MIB, 2 * MIB, "old") + "ok namespaces=2\n"),
    ]


def labelled(flips: int, *labels: tuple) -> str:
    """What `labels` says of an area that was current by its first block, with sequence number 3, before so many flips:
    the labels with their slots."""
    lines = ""
    for slot, label in labels:
        name = label.name.decode() or "-"
        lines += (f"  slot={slot} uuid={label.uuid} name={name} flags=0x{label.flags:08x} nlabel={label.nlabel}"
                  f" position={label.position} cookie=0x{label.cookie:016x} dpa=0x{label.dpa:016x} size={label.size}\n")
    return f"{lines}ok labels={len(labels)} slots=510 seq={(2 + flips) % 3 + 1} place={flips % 2}\n"


def healed():
    """Pending namespaces of each form: the next create makes their labels agree with that of position 0, by one flip for
    each that needs it, and none for the others."""
    first, second = both(U1, 0, 2 * MIB, name=b"db0")
    marked = replace(first, flags=UPDATING)
    forms = [
        (marked, second), (first, replace(second, flags=UPDATING)), (marked, replace(second, flags=UPDATING)),
        (marked, replace(second, name=b"old")), (marked, replace(second, sector=4096)),
        (marked, replace(second, abstraction=SECTOR)), (marked, replace(second, size=4 * MIB)),
    ]
    made = both(U2, 2 * MIB, 2 * MIB)
    for labels in forms:
        after = []
        for handle, own, whole, new in zip((FIRST, SECOND), labels, (first, second), made):
            # A label that is replaced goes to slot 1. The new namespace's takes the least free slot, and then the next.
            flips, slot = (3, 1) if own != whole else (2, 0)
            after.append((f"labels 0x{handle:x}", 0, labelled(flips, (slot, whole), (2, new))))
        yield image(*[[label] for label in labels]), [
            ("list", 0, space(U1, 0, 2 * MIB, "db0", pending="yes") + "ok namespaces=1\n"),
            (create("4M", U2), 0, created(U2, 2 * MIB, 4 * MIB, 508)),
            ("list", 0, space(U1, 0, 2 * MIB, "db0") + space(U2, 2 * MIB, 2 * MIB) + "ok namespaces=2\n"),
            *after,
        ]
    numbers = U1, U2, U3
    three = [both(number, 2 * MIB * place, 2 * MIB, flags=UPDATING) for place, number in enumerate(numbers)]
    spaces = [(number, 2 * MIB * place, 2 * MIB) for place, number in enumerate(numbers)]
    yield image(*[list(own) for own in zip(*three)]), [
        ("list", 0, "".join(space(*own, pending="yes") for own in spaces) + "ok namespaces=3\n"),
        (create("4M", U4), 0, created(U4, 6 * MIB, 4 * MIB, 506)),
        ("list", 0, "".join(space(*own) for own in spaces) + space(U4, 6 * MIB, 2 * MIB) + "ok namespaces=4\n"),
    ]


def initialised():
    """A module of two regions gets an area: a label that another module held is dead then, and both regions are Ready."""
    lone = Region(2, 0x10_0000_0000, [Mapping(SECOND, 2, 16 * MIB, 0, PART)])
    table, areas = image([pair(U1, 0, 2 * MIB, 0, flags=UPDATING)], [], (PAIR, lone))
    uninit = "refused not-ready uninit dimm=0x00000101\n"
    yield (table, areas | {SECOND: bytes(131072)}), [
        (create("4M", U2), 1, uninit),
        (create("4M", U2, region=2), 1, uninit),
        ("init-labels dimm=0x101", 0, "ok initialised dimm=0x00000101 slots=510\n"),
        ("list-held dimm=1", 0, "ok held=0 spare=510\n"),
        (create("4M", U2, region=2), 0, created(U2, 0, 4 * MIB, 509, 2, 1)),
        (create("4M", U1), 0, created(U1, 0, 4 * MIB, 508)),
        ("list", 0, space(U1, 0, 2 * MIB) + space(U2, 0, 4 * MIB, region=2, ways=1) + "ok namespaces=2\n"),
    ]


def states():
    """Regions that cannot be used, and those that are not Ready, by each cause."""
    broken = replace(PAIR, length=4 * PART)
    rule = "refused unusable rule=capacity-differs\n"
    yield image([], [], (broken,)), [(create("4M"), 1, rule)]
    yield image([], None, (broken,)), [(create("4M"), 1, rule), (create("4M", region=7), 1, "refused unknown-region region=7\n")]
    foreign = index_block(MIB, 0, 3, 0).ljust(SMALL, b"\0")
    for state, bytes_of in (("wrong-size", bytes(1000)), ("uninit", bytes(SMALL)), ("foreign", foreign), ("missing", None)):
        refused = f"refused not-ready {state} dimm=0x00000101\n"
        full = area(SMALL, [pair(U1, 0, 2 * MIB, 0, flags=UPDATING), Label(U2, 0, MIB, 1)])
        yield (nfit([PAIR]), {FIRST: full, SECOND: bytes_of}), [
            (create("4M"), 1, refused), (create("3M", U1), 1, refused),
        ]
    first, second = [list(labels) for labels in zip(both(U1, 0, 4 * MIB), both(U2, 2 * MIB, 4 * MIB, flags=UPDATING))]
    clash = f"refused not-ready clash first={U1} second={U2}\n"
    yield image(first, second, size=SMALL), [(create("4M"), 1, clash), (create("3M", U1), 1, clash)]


def refused():
    """Each refusal alone, and each where the next one of their order applies as well."""
    first, second = [[own] for own in both(U1, 0, 2 * MIB, name=b"db0", flags=UPDATING)]
    second.append(Label(U2, 0, MIB, 1))
    unhealed = "refused unhealed dimm=0x00000101\n"
    yield image(first, second, size=SMALL), [
        (create("4M", U3), 1, unhealed), (create("3M", U3), 1, unhealed), (create("1T", U1, "db0"), 1, unhealed),
    ]
    first, second = [[own] for own in both(U1, 0, 2 * MIB, name=b"db0")]
    name, number = f"refused name-in-use uuid={U1}\n", "refused uuid-in-use dimm=0x00000001\n"
    largest = 2 * PART - 4 * MIB
    yield image(first, second, size=SMALL), [
        (create("5M", U1, "db0"), 1, "refused bad-size unit=4194304\n"),
        (create("4M", U2, "db0"), 1, name),
        (create("4M", U1, "db0"), 1, name),
        (create("1T", U2, "db0"), 1, name),
        (create("4M", U1), 1, number),
        (create("1T", U1, "db1"), 1, number),
        (create("1T", U2, "db1"), 1, f"refused no-space largest={largest}\n"),
        (create("4M", U2, "db1"), 1, "refused no-slots dimm=0x00000001 spare=1\n"),
        ("list", 0, space(U1, 0, 2 * MIB, "db0") + "ok namespaces=1\n"),
    ]
    # The uuid of a held label, of a read-only namespace, and of one in another region.
    lone = Region(2, 0x10_0000_0000, [Mapping(SECOND, 2, 16 * MIB, 0, PART)])
    own = Label(U3, PART, 4 * MIB, lone.cookie(), b"own")
    first, second = [[own] for own in both(U1, 0, 2 * MIB, flags=ROLABEL)]
    yield image(first, second + [own, Label(U2, 0, MIB, 1)], (PAIR, lone)), [
        (create("4M", U1), 1, number),
        (create("4M", U2), 1, "refused uuid-in-use dimm=0x00000101\n"),
        (create("4M", U3), 1, "refused uuid-in-use dimm=0x00000101\n"),
        (create("4M", U4, "own"), 0, created(U4, 2 * MIB, 4 * MIB, 506)),
        (create("4M", U5, "own", 2), 1, f"refused name-in-use uuid={U3}\n"),
    ]


IMAGES = [worked, places, stopped, healed, initialised, states, refused]


def said(program: str, folder: Path, line: str) -> tuple:
    """What a line says, or, for `labels HANDLE`, the listing of that module."""
    if not line.startswith("labels "):
        return run(program, folder, line)
    done = subprocess.run([program, "labels", str(folder), line.split()[1]], capture_output=True, timeout=60)
    return done.returncode, done.stdout.decode()


def seeds(program: str, folder: Path) -> bool:
    """Two runs make namespaces of two uuids."""
    write(folder, *image([], []))
    replies = [run(program, folder, create("4M"))[1].split() for _ in range(2)]
    return all(reply[:2] == ["ok", "created"] for reply in replies) and replies[0][2] != replies[1][2]


def main() -> int:
    program = sys.argv[1] if len(sys.argv) > 1 else str(ROOT / "crates/nd_cli/out/nd_cli")
    rows = wrong = 0
    with tempfile.TemporaryDirectory() as scratch:
        for build in IMAGES:
            for number, ((table, areas), lines) in enumerate(build()):
                folder = Path(scratch, f"{build.__name__}{number}")
                write(folder, table, areas)
                for line, status, text in lines:
                    rows += 1
                    before = {path.name: path.read_bytes() for path in folder.iterdir()}
                    answer = said(program, folder, line)
                    kept = before == {path.name: path.read_bytes() for path in folder.iterdir()}
                    if answer != (status, text) or kept != (not text.startswith(("ok created", "ok initialised"))):
                        wrong += 1
                        print(f"{folder.name}: {line}\n  expected {status} {text!r:.2000}\n  answered {answer}, kept: {kept}")
        rows += 1
        if not seeds(program, Path(scratch, "seeds")):
            wrong += 1
            print("two namespaces without a uuid of their own have the same")
    print(f"{rows} rows, {wrong} wrong")
    return 1 if wrong or not rows else 0


if __name__ == "__main__":
    sys.exit(main())
