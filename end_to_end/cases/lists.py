"""What is shown of two modules with labels by hand: namespaces, free space, held labels, and each reply that a list
has."""

from case_model import Cases
from cases.pairs import (
    ALL_FREE, CLASH, HELD, MARKED, MISSING, NOTHING, PART, both, create, created, free, held, label, place, release,
    space, spaces,
    uuid,
)
from platform_images import (
    FSDAX, LOCAL, MIB, ROLABEL, SECTOR, Label, Mapping, Region, area, index_block, nfit,
)
from table_model import DEVDAX

OTHER_MODE = bytes((1,)) * 16
THREE = (
    [label(0x14, 0, 4 * MIB), label(0x13, 0, 0), label(0x15, 0, 6 * MIB, 4 * MIB)],
    [label(0x15, 1, 6 * MIB, 4 * MIB), label(0x13, 1, 0), label(0x14, 1, 4 * MIB)],
)
THREE_FREE = free((2 * MIB, 2 * MIB), (10 * MIB, PART - 10 * MIB), largest=2 * (PART - 10 * MIB))
LOST = [label(0x13, 1, 0)]

# The labels of two modules, and what is said of the namespaces, the free space and the held labels of both.
STATES = (
    ("no labels", [], [], NOTHING, ALL_FREE, held(14), held(14)),
    ("namespaces in any order of slots", *THREE, spaces(space(0x13, 0), space(0x14, 4 * MIB),
                                                        space(0x15, 6 * MIB, 4 * MIB)),
     THREE_FREE, held(11), held(11)),
    ("a clash", [label(0x14, 0, 2 * MIB), label(0x13, 0, 0, 4 * MIB)],
     [label(0x13, 1, 0, 4 * MIB), label(0x14, 1, 2 * MIB)],
     CLASH, CLASH, held(12), held(12)),
    ("a stopped create", [label(0x13, 0, 0, flags=MARKED)], [], NOTHING, ALL_FREE, held(14), held(14)),
    ("a stopped create beside a missing area", [label(0x13, 0, 0, flags=MARKED)], None, MISSING, MISSING,
     held(13, (0x13, 0, 2 * MIB, True)), MISSING),
    ("a replaced module", [], LOST, NOTHING, HELD, held(14), held(13, (0x13, 0, 2 * MIB, False))),
    ("a pending one", [label(0x13, 0, 0, flags=MARKED)], [label(0x13, 1, 0)], spaces(space(0x13, 0, pending="yes")),
     HELD, held(13),
     held(13)),
    ("a pending one by its second label", [label(0x13, 0, 0)], [label(0x13, 1, 0, flags=MARKED)],
     spaces(space(0x13, 0, pending="yes")), HELD, held(13), held(13)),
    ("a read-only one", [label(0x13, 0, 0, flags=MARKED)], [label(0x13, 1, 0, flags=ROLABEL)],
     spaces(space(0x13, 0, read_only="yes")), HELD, held(13), held(13)),
    ("a doubled uuid", both(0x13, 0, flags=MARKED)[:1] * 2, both(0x13, 0, flags=MARKED)[1:], NOTHING, HELD,
     held(12, *[(0x13, 0, 2 * MIB, True)] * 2), held(13, (0x13, 0, 2 * MIB, True))),
    ("offsets that differ", [label(0x13, 0, 0)], [label(0x13, 1, 2 * MIB)], NOTHING,
     free((4 * MIB, PART - 4 * MIB), largest=2 * (PART - 4 * MIB)), held(13, (0x13, 0, 2 * MIB, False)),
     held(13, (0x13, 2 * MIB, 2 * MIB, False))),
    ("positions that are exchanged", [label(0x13, 1, 0)], [label(0x13, 0, 0)], NOTHING, HELD,
     held(13, (0x13, 0, 2 * MIB, False)),
     held(13, (0x13, 0, 2 * MIB, False))),
    ("a longer first label that is marked", [label(0x13, 0, 0, 4 * MIB, MARKED)], [label(0x13, 1, 0)],
     spaces(space(0x13, 0, 4 * MIB, pending="yes")), free((4 * MIB, PART - 4 * MIB), largest=2 * (PART - 4 * MIB)),
     held(13), held(13)),
    ("a longer first label", [label(0x13, 0, 0, 4 * MIB)], [label(0x13, 1, 0)], NOTHING,
     free((4 * MIB, PART - 4 * MIB), largest=2 * (PART - 4 * MIB)), held(13, (0x13, 0, 4 * MIB, False)),
     held(13, (0x13, 0, 2 * MIB, False))),
)

# The labels of the first module, the second one without index blocks, and what is said once that is initialised.
INITIALISED = (
    ("a stale label", [label(0x13, 0, 0, flags=MARKED)], ALL_FREE, held(14), held(14)),
    ("a held label", [label(0x13, 0, 0)], HELD, held(13, (0x13, 0, 2 * MIB, False)), held(14)),
)

# Modes by the GUID of the abstraction, sector sizes and names as they are printed.
MODES = (
    (bytes(16), "raw"), (SECTOR, "sector"), (FSDAX, "fsdax"), (DEVDAX, "devdax"), (OTHER_MODE, "other"),
    (bytes(15) + b"\1", "other"),
)


def shows(cases: Cases, listed: str, free_space: str, *holds: str) -> None:
    cases.do("list region=1", listed)
    cases.do("list", NOTHING if listed.startswith("refused") else listed)
    cases.do("list-free region=1", free_space)
    for handle, said in zip((0x1, 0x101), holds):
        cases.do(f"list-held dimm={handle}", said)
    cases.do("list-regions")


def states(cases: Cases) -> None:
    for name, first, second, *said in STATES:
        place(cases, name, first, second)
        shows(cases, *said)
    place(cases, "known regions and modules", [], [])
    cases.do("list-regions", "  region index=1 spa=0x0000000100000000 size=137438953472 ways=2 cookie=0x0002e2420000346b status=ready\n"
             "ok regions=1\n")
    cases.do("list region=2", "refused unknown-region region=2\n")
    cases.do("list-free region=2", "refused unknown-region region=2\n")
    cases.do("list-held dimm=2", "refused unknown-dimm dimm=0x00000002\n")
    for name, labels, *said in INITIALISED:
        place(cases, f"{name} beside an area that is initialised", labels, None)
        cases.area(0x101, bytes(4096))
        cases.do("init-labels dimm=0x101", "ok initialised dimm=0x00000101 slots=14\n")
        shows(cases, NOTHING, *said)
        cases.do("init-labels dimm=0x101", "refused already-ready dimm=0x00000101\n")
        cases.dumps()


def fits(cases: Cases) -> None:
    """What is free is the same where it is kept within a run and where it is found anew, behind a label that is given
    up."""
    for name, first, second, offset, space_left in (
        ("no labels", [], [], 0, ALL_FREE), ("three namespaces", *THREE, 2 * MIB, THREE_FREE),
        ("a held label", [], LOST, 2 * MIB, HELD),
    ):
        for one_run in (True, False):
            place(cases, f"fits beside {name} {'in one run' if one_run else 'in new runs'}",
                  first + [label(0x20, 0, 0x4000_0000)], second)
            least = min(13 - len(first), 13 - len(second))
            rows = (
                (release(0x20), "ok released=1\n"), ("list-free region=1", space_left),
                (create(0x21), created(0x21, offset, least)),
                ("list-free region=2", "refused unknown-region region=2\n"),
            )
            if one_run:
                cases.run("\n".join(line for line, _ in rows), 1, "".join(said for _, said in rows))
            else:
                for line, said in rows:
                    cases.do(line, said)
            cases.dumps()


def replies(cases: Cases) -> None:
    """Names, modes and sector sizes; regions of one and of sixteen ways; each kind of area."""
    for number, (guid, word) in enumerate(MODES):
        place(cases, f"mode {number} {word}", *[[own] for own in both(0x13, 0, name=b"db0", abstraction=guid)])
        cases.do("list", spaces(space(0x13, 0, name="db0", mode=word)))
    odd = b'%" \xe9'.ljust(64, b"x")
    wide = Region(65535, 1 << 40, [Mapping(0x100 * at + 1, at + 1, 16 * MIB, 4096 * at) for at in range(16)])
    cases.case("sixteen ways")
    cases.nfit(nfit([wide]))
    for at, part in enumerate(wide.mappings):
        own = Label(uuid(0x14), 2 * MIB, 2 * MIB, wide.cookie(), odd, MARKED * (at == 3), 16, at, 4096,
                    abstraction=OTHER_MODE)
        cases.area(part.handle, area(1024, [own]))
    cases.do("list", f"  namespace uuid={uuid(0x14)} name=%25%22%20%E9{'x' * 60} region=65535 mode=other sector=4096 offset=2097152"
             f" length=2097152 size=33554432 pending=yes read-only=no\nok namespaces=1\n")
    cases.do("list-free region=65535", "  free offset=0 length=2097152\n  free offset=4194304 length=12582912\nok free=2 largest=201326592\n")
    cases.do("list-regions")
    both_of = spaces(space(0x13, 0, name="%2D"), space(0x14, 2 * MIB, name="x", sector=4096, mode="sector"))
    first, second = [list(own) for own in zip(both(0x13, 0, name=b"-"),
                                              both(0x14, 2 * MIB, name=b"x\0y", sector=4096, abstraction=SECTOR))]
    place(cases, "two namespaces", first, second)
    cases.do("list", both_of)
    kinds = (("wrong-size", bytes(1000)), ("uninit", bytes(1024)),
             ("foreign", index_block(MIB, 0, 3, 0).ljust(1024, b"\0")))
    for word, text in kinds:
        place(cases, f"beside a {word} area", [], None)
        cases.area(0x101, text)
        refused = f"refused not-ready {word} dimm=0x00000101\n"
        cases.do("list-regions", "  region index=1 spa=0x0000000100000000 size=137438953472 ways=2 cookie=0x0002e2420000346b"
                 f" status={word} dimm=0x00000101\nok regions=1\n")
        for line in ("list region=1", "list-free region=1", "list-held dimm=0x101", "create-namespace region=1 size=3M",
                     release(0x13, 0x101)):
            cases.do(line, refused)
        cases.nd("labels . 0x101", 1, refused)
        if word != "uninit":
            cases.do("init-labels dimm=0x101", refused)
    held_lines = "".join(
        f"  held uuid={uuid(0x13)} dpa=0x0000000000000000 size=2097152 local={local} read-only={fixed} updating={mark}\n"
        for local, fixed, mark in (("no", "no", "no"), ("no", "yes", "no"), ("yes", "no", "no"), ("yes", "yes", "yes"))
    )
    flags = (LOCAL | ROLABEL | MARKED, LOCAL, ROLABEL, 0)
    place(cases, "held labels in their order", [Label(uuid(0x13), 0, 2 * MIB, 7, flags=flag) for flag in flags], [])
    cases.do("list-held dimm=1", f"{held_lines}ok held=4 spare=10\n")
    place(cases, "the labels of a module", [label(0x13, 0, 0, name=b"db0", flags=MARKED),
                                            Label(uuid(0x14), 5, 6, 7, b'"', 0xFFFF_FFF0, 8, 9)], [])
    cases.nd("labels . 1", 0, (
        f"  slot=0 uuid={uuid(0x13)} name=db0 flags=0x00000008 nlabel=2 position=0 cookie=0x0002e2420000346b dpa=0x0000000000000000"
        f" size=2097152\n  slot=1 uuid={uuid(0x14)} name=%22 flags=0xfffffff0 nlabel=8 position=9 cookie=0x0000000000000007"
        " dpa=0x0000000000000005 size=6\nok labels=2 slots=14 seq=3 place=0\n"
    ))


def ask(cases: Cases) -> None:
    states(cases)
    fits(cases)
    replies(cases)
