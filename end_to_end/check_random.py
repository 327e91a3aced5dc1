#!/usr/bin/env python3
"""Compares the lists of the program with a plain model of the table, on images made at random.

    python3 end_to_end/check_random.py [COUNT] [SEED] [PROGRAM]
"""

import random
import sys
import tempfile
from pathlib import Path

from check_lists import ROOT, run, uuid
from platform_images import (
    FSDAX, LOCAL, MIB, RAW, ROLABEL, SECTOR, UPDATING, Label, Mapping, Region, area, index_block, nfit, slot_count, write,
)
from table_model import Module, Table

SIZES = (1024, 4096, 131072)
PART = 32 * MIB
NAMES = (b"", b"-", b"db0", b"db0\0x", b"n" * 64, b"a b", b"\xff\"%")


def platform(chance: random.Random) -> list:
    """One to three regions of one to four ways over four modules, one part of each module to each region."""
    handles = [0x1, 0x2, 0x101, 0x1002]
    regions = []
    for number, index in enumerate(chance.sample((1, 2, 7, 300, 65535), chance.randint(1, 3))):
        ways = chance.randint(1, 4)
        offsets = [4096 * at for at in range(ways)]
        chance.shuffle(offsets)
        chosen = chance.sample(handles, ways)
        parts = [Mapping(handle, 1 + handles.index(handle), PART, at, number * PART) for handle, at in zip(chosen, offsets)]
        broken = chance.random() < 0.1
        regions.append(Region(index, (number + 1) << 40, parts, 3 * PART * ways if broken else None))
    return regions


def any_label(chance: random.Random, regions: list, handle: int) -> Label:
    """A label that may belong to a region of the module, or miss one by a field."""
    own = [region for region in regions if handle in [part.handle for part in region.mappings]] or regions
    region = chance.choice(own)
    members = sorted(region.mappings, key=lambda part: part.offset)
    position = next((at for at, part in enumerate(members) if part.handle == handle), 0)
    fields = dict(
        uuid=uuid(chance.randint(0, 5)), dpa=members[position].base + MIB * chance.choice((0, 0, 2, 4, 5, 30)),
        size=MIB * chance.choice((1, 2, 2, 2, 4)), cookie=region.cookie(), nlabel=len(members), position=position,
        name=chance.choice(NAMES), flags=chance.choice((0, 0, 0, UPDATING, UPDATING, ROLABEL, ROLABEL | UPDATING)),
        sector=chance.choice((0, 512, 4096)), abstraction=chance.choice((RAW, SECTOR, FSDAX, bytes(15) + b"\1")),
    )
    if chance.random() < 0.2:
        wrong = chance.choice(("cookie", "nlabel", "position", "type_guid", "flags", "size", "dpa"))
        fields[wrong] = dict(
            cookie=3, nlabel=9, position=chance.randint(0, 5), type_guid=RAW, flags=LOCAL | chance.choice((0, UPDATING)),
            size=chance.choice((0, 1, PART, (1 << 64) - 1)), dpa=chance.choice((0, PART - 256, 3 * PART - 1, (1 << 64) - 256)),
        )[wrong]
    return Label(**fields)


def namespace(chance: random.Random, region: Region) -> dict:
    """Labels of one namespace in all modules of a region, often with a mark or a module that differs."""
    members = sorted(region.mappings, key=lambda part: part.offset)
    number, at = uuid(chance.randint(6, 40)), MIB * chance.choice((0, 2, 4, 6, 8, 10, 12, 14, 15, 30))
    size, flags = MIB * chance.choice((1, 2, 2, 2, 4)), chance.choice((0, 0, 0, UPDATING, ROLABEL))
    labels = {}
    for position, part in enumerate(members):
        if chance.random() < 0.05:
            continue
        other = chance.random() < 0.1
        labels[part.handle] = Label(
            number, part.base + at, size + (MIB if other and chance.random() < 0.5 else 0), region.cookie(), chance.choice(NAMES),
            UPDATING if other else flags, len(members), position, 512, abstraction=chance.choice((RAW, SECTOR)),
        )
    return labels


def image(chance: random.Random) -> tuple:
    regions = platform(chance)
    handles = sorted({part.handle for region in regions for part in region.mappings})
    stored = {handle: [] for handle in handles}
    for _ in range(chance.randint(0, 12)):
        for handle, label in namespace(chance, chance.choice(regions)).items():
            stored[handle].append(label)
    modules, areas = {}, {}
    for handle in handles:
        size = chance.choice(SIZES)
        labels = stored[handle] + [any_label(chance, regions, handle) for _ in range(chance.choice((0, 0, 1, 3)))]
        chance.shuffle(labels)
        labels = labels[: slot_count(size)]
        kind = chance.choice(("ready",) * 12 + ("missing", "uninit", "foreign", "wrong-size"))
        modules[handle] = Module(kind, slot_count(size), tuple(labels) if kind == "ready" else ())
        areas[handle] = {
            "ready": lambda: area(size, labels), "missing": lambda: None, "uninit": lambda: bytes(size),
            "foreign": lambda: index_block(1 << 20, 0, 3, 0).ljust(size, b"\0"), "wrong-size": lambda: bytes(1000),
        }[kind]()
    return nfit(regions), areas, Table(regions, modules)


def questions(table: Table) -> list:
    asked = [("list", table.list_all()), ("list-regions", table.list_regions())]
    for region in table.regions:
        asked.append((f"list region={region.index}", table.list_region(region)))
        asked.append((f"list-free region={region.index}", table.list_free(region)))
    return asked + [(f"list-held dimm={handle}", table.list_held(handle)) for handle in table.modules]


def main() -> int:
    count = int(sys.argv[1]) if len(sys.argv) > 1 else 200
    seed = int(sys.argv[2]) if len(sys.argv) > 2 else 1
    program = sys.argv[3] if len(sys.argv) > 3 else str(ROOT / "crates/nd_cli/out/nd_cli")
    rows = wrong = spaces = held = 0
    with tempfile.TemporaryDirectory() as scratch:
        folder = Path(scratch, "image")
        for number in range(count):
            table, areas, model = image(random.Random(seed * 1_000_003 + number))
            write(folder, table, areas)
            for line, text in questions(model):
                rows += 1
                spaces += text.count("  namespace ")
                held += text.count("  held ")
                answer = run(program, folder, line)
                if answer != (1 if text.startswith("refused") else 0, text):
                    wrong += 1
                    print(f"image {number} of seed {seed}: {line}\n  model   {text!r}\n  program {answer}")
            for path in folder.iterdir():
                path.unlink()
    print(f"{rows} replies on {count} images, with {spaces} namespaces and {held} held labels: {wrong} wrong")
    return 1 if wrong or not spaces or not held else 0


if __name__ == "__main__":
    sys.exit(main())
