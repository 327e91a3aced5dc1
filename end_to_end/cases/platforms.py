"""NFITs and their first faults, regions with their rules and cookies, and translations between addresses."""

from dataclasses import replace

from case_model import Cases
from check_platforms import bounds, changed_tables, neighbours, rules, written_tables, written_translations
from platform_images import Mapping, Region, nfit
from platform_model import Control, Lines, Part, Platform, Range, table

GIB = 1 << 30
PAIR = nfit([Region(1, 4 * GIB, [Mapping(0x1, 1, 64 * GIB), Mapping(0x101, 2, 64 * GIB, 4096)])])
SMALL = 100_000
"""Tables of more bytes are left to the checks of the whole program."""

REGIONS = "  region index=1 spa=0x0000000100000000 size=137438953472 ways=2 cookie=0x0002e2420000346b status=missing dimm=0x00000001\nok regions=1\n"

# Lines on two modules that are interleaved by lines of 4,096 bytes, and what is said.
PLACES = (
    (0x1_0000_3005, 0x101, 0x1005), (0x1_0000_5000, 0x101, 0x2000), (0x1_0000_0000, 0x1, 0),
    (0x20_FFFF_FFFF, 0x101, 64 * GIB - 1),
    (0x1_0000_1000, 0x101, 0), (0x1_0000_2000, 0x1, 0x1000), (0x1_0000_4FFF, 0x1, 0x2FFF),
)
LINES = (
    ("to-module region=1 spa=0x2100000000", "refused outside\n"),
    (f"to-spa region=1 dimm=0x101 dpa={64 * GIB}", "refused outside\n"),
    ("to-spa region=1 dimm=0x101 dpa=0", "ok spa=0x0000000100001000\n"),
    ("to-spa region=1 dimm=2 dpa=0", "refused not-in-region dimm=0x00000002\n"),
    ("to-runs region=1 spa=0x100001000 length=12K",
     "  run dimm=0x00000001 dpa=0x0000000000001000 length=4096\n  run dimm=0x00000101 dpa=0x0000000000000000 length=8192\nok runs=2\n"),
    ("to-runs region=1 spa=0x100001000 length=0", "refused outside\n"),
    ("to-runs region=1 spa=0x20fffff000 length=4097", "refused outside\n"),
    ("to-runs region=1 spa=0x20fffff000 length=4K",
     "  run dimm=0x00000101 dpa=0x0000000ffffff000 length=4096\nok runs=1\n"),
    ("to-runs region=1 spa=0x100000fff length=2", "  run dimm=0x00000001 dpa=0x0000000000000fff length=1\n"
     "  run dimm=0x00000101 dpa=0x0000000000000000 length=1\nok runs=2\n"),
    ("to-runs region=1 spa=0xffffffffffffffff length=1", "refused outside\n"),
    ("to-module region=2 spa=0", "refused unknown-region region=2\n"),
    ("list-regions", REGIONS), ("list region=2", "refused unknown-region region=2\n"),
    ("list-held dimm=0x102", "refused unknown-dimm dimm=0x00000102\n"),
)

# Three ways over two lines in another order, with a part of each module that begins at an address of its own.
THREE = Platform(
    [Range(1, 4 * GIB, 3072)], [Part(i + 1, 1, 1024, 256 * i, 1 << 20, interleave=1, ways=3) for i in range(3)],
    [Control(1, 1)], [Lines(1, 256, (3, 0))],
)


def with_numbers(text: bytes) -> bytes:
    """A table with a number in each field of its header that means nothing here."""
    new = bytearray(text)
    for at, value in ((10, 1), (16, 2), (24, 3), (28, 4), (32, 5), (36, 6), (39, 7)):
        new[at] = value
    new[9] = (new[9] - sum(new)) % 256
    return bytes(new)


def tables(cases: Cases) -> None:
    cases.case("tables")
    cases.table(PAIR, "")
    cases.table(PAIR[:279], "length told=280 length=279")
    cases.table(with_numbers(table(PAIR[40:] + b"\t\0\6\0\xab\xcd")), "")
    for text, fault in [(table(text), fault) for text, fault in written_tables()] + list(changed_tables()):
        if len(text) < SMALL:
            cases.table(text, fault)


def translations(cases: Cases) -> None:
    cases.case("two modules")
    cases.nfit(PAIR)
    for spa, dimm, dpa in PLACES:
        cases.do(f"to-module region=1 spa={spa}", f"ok dimm=0x{dimm:08x} dpa=0x{dpa:016x}\n")
        cases.do(f"to-spa region=1 dimm={dimm} dpa={dpa}", f"ok spa=0x{spa:016x}\n")
    for line, said in LINES:
        cases.do(line, said)
    cases.case("ways differ")
    first, second = Part(0x1, 1, 64 * GIB, interleave=1, ways=3), Part(0x101, 1, 64 * GIB, 4096, 0, 2, 1, 2)
    controls, lines = [Control(1, 1), Control(2, 2)], [Lines(1, 4096, (0, 2))]
    cases.nfit(Platform([Range(1, 4 * GIB, 128 * GIB)], [first, second], controls, lines).table())
    cases.do("to-module region=1 spa=0x100000000", "refused no-translation ways-differ\n")
    cases.nfit(Platform([Range(1, 4 * GIB, 128 * GIB)], [replace(second, offset=0, handle=1), second], controls,
                        lines).table())
    cases.do("to-module region=1 spa=0x100001000", "ok dimm=0x00000101 dpa=0x0000000000000000\n")
    cases.case("three ways")
    cases.nfit(THREE.table())
    for byte in (*range(0, 3072, 128), 255, 256, 767, 768, 1535, 3071):
        cases.do(f"to-module region=1 spa={4 * GIB + byte}")
        cases.do(f"to-spa region=1 dimm={byte % 3 + 1} dpa={(1 << 20) + byte // 3}")
        cases.do(f"to-runs region=1 spa={4 * GIB + byte} length={3072 - byte}")
    for place, (platform, rows) in enumerate(written_translations()):
        cases.case(f"translation {place}")
        cases.nfit(platform.table())
        for line, said in rows:
            if "length=137438953472" not in line:
                cases.do(line, said)


def regions(cases: Cases) -> None:
    for build in (rules, bounds, neighbours):
        for place, (platform, rule) in enumerate(build()):
            cases.case(f"{build.__name__} {place} {rule}")
            cases.nfit(platform.table())
            said = cases.do("list-regions", platform.list_regions())
            assert not rule or f"index=1 spa=0x{said.split('index=1 spa=0x')[1][:16]}" in said and f"rule={rule}\n" in said
            for line in ("list region=1", "list-free region=1", "create-namespace region=1 size=4M",
                         "to-module region=1 spa=0"):
                cases.do(line, f"refused unusable rule={rule}\n" if rule else None)


def ask(cases: Cases) -> None:
    tables(cases)
    translations(cases)
    regions(cases)
