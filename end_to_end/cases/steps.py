"""Commands that change areas, on labels by hand: refusals in their order, what is looked up, which bytes are written in
which order, and what is left."""

from dataclasses import replace

from case_model import Cases
from cases.pairs import (
    CLASH, HELD, MARKED, MISSING, NOTHING, PAIR, PART, both, create, created, destroy, free, held, label, place,
    release, rename, space,
    spaces, uuid,
)
from platform_images import LOCAL, MIB, ROLABEL, SECTOR, Label, Mapping, Region, area, free_block, index_block, nfit
from platform_model import Control, Part, Platform, Range, regions_of

UNKNOWN, AMBIGUOUS = "refused unknown-namespace\n", "refused ambiguous count=2\n"
BAD_SIZE = "refused bad-size unit=4194304\n"


def in_use(last: int) -> str:
    return f"refused name-in-use uuid={uuid(last)}\n"


def uuid_in_use(handle: int) -> str:
    return f"refused uuid-in-use dimm=0x{handle:08x}\n"


def no_slots(handle: int, spare: int) -> str:
    return f"refused no-slots dimm=0x{handle:08x} spare={spare}\n"


def fixed(last: int) -> str:
    return f"refused read-only uuid={uuid(last)}\n"


def destroyed(last: int) -> str:
    return f"ok destroyed uuid={uuid(last)}\n"


def renamed(last: int, name: str) -> str:
    return f"ok renamed uuid={uuid(last)} name={name}\n"


def shown(cases: Cases) -> None:
    """All that is said of the region and its modules, and all bytes."""
    for line in ("list", "list-regions", "list-free region=1", "list-held dimm=1", "list-held dimm=257"):
        cases.do(line)
    cases.dumps()


def asked(cases: Cases, *rows: tuple) -> None:
    """Lines, one after the other, each in a run of its own, with what is said, and all that is kept of the writes."""
    for line, said in rows:
        cases.keep()
        calls = cases.rig.calls
        cases.do(line, said)
        for call in range(calls, cases.rig.calls):
            cases.kept(call)
    cases.dumps()


def in_one_run(cases: Cases, *rows: tuple) -> None:
    """The same lines as one input."""
    cases.run("".join(f"{line}\n" for line, _ in rows), int(any(said.startswith("refused") for _, said in rows)),
              "".join(said for _, said in rows))
    shown(cases)


# The labels of two modules in areas of 4,096 bytes, and lines with what is said.

NAMED = (both(0x13, 4 * MIB, name=b"db0"), both(0x14, 0, name=b"db0\0x"), both(0x15, 2 * MIB))
KEYS = (
    (destroy("db0"), AMBIGUOUS), (rename("db0", "x"), AMBIGUOUS), (create(0x20, more=" name=db0"), in_use(0x14)),
    (destroy("db"), UNKNOWN), (destroy("db0x"), UNKNOWN), (rename(uuid(0x14), "db0"), in_use(0x13)),
    (rename(uuid(0x15), "db0"), in_use(0x14)), (rename(uuid(0x13), "db0"), in_use(0x14)),
    (destroy(uuid(0x16)), UNKNOWN),
    (rename(uuid(0x15), ""), renamed(0x15, "-")), (create(0x20), created(0x20, 6 * MIB, 10)),
    (rename(uuid(0x14), "x"), renamed(0x14, "x")),
    (rename("db0", "db0"), renamed(0x13, "db0")), (destroy("db0"), destroyed(0x13)), (destroy("x"), destroyed(0x14)),
)


def pairs_of(*spaces_: list) -> tuple:
    """The labels of two modules that have these namespaces, in the order of slots."""
    return [space_[0] for space_ in spaces_], [space_[1] for space_ in spaces_]


def looked_up(cases: Cases) -> None:
    place(cases, "names end at their first zero byte", *pairs_of(*NAMED))
    asked(cases, *KEYS)
    place(cases, "names in one run", *pairs_of(*NAMED))
    in_one_run(cases, *KEYS)
    # The pending ones are healed by offset, and no others: of two at one offset the region is none that is Ready.
    for name, offsets, flags, said in (
        ("none is pending", (4, 2), 0, created(0x20, 6 * MIB, 10)),
        ("by offset", (4, 2), MARKED, created(0x20, 6 * MIB, 10)),
        ("by offset again", (2, 4), MARKED, created(0x20, 6 * MIB, 10)), ("at one offset", (2, 2), MARKED, CLASH),
        ("at one offset and not pending", (2, 2), 0, CLASH), ("at one offset and read-only", (2, 2), MARKED | ROLABEL,
                                                              CLASH),
        ("read-only", (4, 2), MARKED | ROLABEL, created(0x20, 6 * MIB, 10)),
    ):
        one, two = (offset * MIB for offset in offsets)
        first = [label(0x12, 0, 0), label(0x14, 0, two), label(0x13, 0, one)]
        second = [label(0x12, 1, 0), label(0x14, 1, two, flags=flags), label(0x13, 1, one, flags=flags)]
        place(cases, f"pending {name}", first, second)
        asked(cases, (create(0x20), said))
        shown(cases)


# A region of the modules 0x101 and 0x1, and a module that no region has.
BESIDE = Platform(
    [Range(1, 4 << 30, 128 * MIB)], [Part(0x101, 1, 64 * MIB), Part(0x1, 1, 64 * MIB, 4096, control=2),
                                     Part(0x201, 9, MIB, control=3)],
    [Control(1, 1), Control(2, 2), Control(3, 3)], [],
)


def beside(last: int, position: int, dpa: int, flags: int = 0) -> Label:
    return Label(uuid(last), dpa, 2 * MIB, regions_of(BESIDE)[0].cookie(), flags=flags, nlabel=2, position=position)


def holders(cases: Cases) -> None:
    """A uuid is in use by a label of a namespace, by one that is held, and by one of a module without a region, but not
    by one that is dead."""
    lost = beside(0x15, 1, 8 * MIB)
    areas = {
        0x101: [beside(0x13, 0, 0), beside(0x14, 0, 4 * MIB, MARKED)], 0x1: [beside(0x13, 1, 0), lost],
        0x201: [lost, beside(0x16, 0, 0, MARKED)],
    }
    for last, handle in ((0x12, None), (0x13, 0x1), (0x14, None), (0x15, 0x1), (0x16, 0x201)):
        cases.case(f"the holder of {last:x}")
        cases.nfit(BESIDE.table())
        cases.areas({own: area(4096, labels) for own, labels in areas.items()})
        asked(cases, (create(last), uuid_in_use(handle) if handle else created(last, 2 * MIB, 11)))
        cases.do("list-held dimm=513")


def slots(cases: Cases) -> None:
    """A dead label takes a slot that is not free, and leaves it for new labels."""
    dead, own = label(0x13, 0, 0, flags=MARKED), label(0x14, 1, 4 * MIB)
    place(cases, "a dead label and a held one", [dead], [own])
    for handle, spare in ((0x1, held(14)), (0x101, held(13, (0x14, 4 * MIB, 2 * MIB, False)))):
        cases.load(handle, "1000 e 100 3 0 d 10000000000000 10000000000000")
        cases.do(f"list-held dimm={handle}", spare)
    for name, first, second, said in (
        ("the second is short", [dead], [own], no_slots(0x101, 1)),
        ("the first is short", [own], [dead], no_slots(0x1, 1)),
        ("both are short", [own], [own], no_slots(0x1, 1)), ("none is short", [dead], [label(0x13, 0, 0, flags=MARKED)],
                                                             None),
    ):
        place(cases, f"slots where {name}", first, second, size=1024)
        asked(cases, (create(0x20), said))
    pending = both(0x13, 0, flags=MARKED)
    place(cases, "a pending one and no spare slot", [pending[0], own], [pending[1], own], size=1024)
    unhealed = "refused unhealed dimm=0x00000001\n"
    asked(cases, *[(line, unhealed) for line in (create(0x20, "3M"), destroy("x"), rename("x", ""),
                                                 destroy(uuid(0x13)))])
    place(cases, "a pending one and no spare slot in the second", pending[:1], [pending[1], own], size=1024)
    asked(cases, *[(line, unhealed.replace("001\n", "101\n")) for line in (create(0x20, "3M"), destroy("x"))])


def lone_ranges(cases: Cases) -> None:
    """The space of a namespace that is destroyed is free but where a held label has an address of it. A dead label
    takes nothing from it, nor does one without a length."""
    for dpa, size, extents in (
        (0, 2 * MIB, ((2 * MIB, PART - 2 * MIB),)), (1, 2 * MIB, ((0, 1), (2 * MIB + 1, PART - 2 * MIB - 1))),
        (4 * MIB - 1, 2 * MIB, ((0, 4 * MIB - 1), (6 * MIB - 1, PART - 6 * MIB + 1))),
        (4 * MIB, 2 * MIB, ((0, 4 * MIB), (6 * MIB, PART - 6 * MIB))), (3 * MIB, 0, ((0, PART),)),
    ):
        first = [label(0x13, 0, 2 * MIB), label(0x14, 0, 2 * MIB, flags=MARKED)]
        second = [label(0x13, 1, 2 * MIB), label(0x15, 1, dpa, size)]
        end = extents[-1][0]
        largest = 2 * (PART - (end + 2 * MIB - 1) // (2 * MIB) * 2 * MIB)
        rows = (destroy(uuid(0x13)), destroyed(0x13)), ("list-free region=1", free(*extents, largest=largest))
        place(cases, f"a lone range beside {dpa} in one run", first, second)
        in_one_run(cases, *rows)
        place(cases, f"a lone range beside {dpa} in new runs", first, second)
        asked(cases, *rows)
        shown(cases)


# Labels of the first module, in an area of 14 slots, and its free slots before and after a sweep: a rename of another
# namespace replaces its label by two flips more, which leaves as many slots free.
SWEPT = (
    ("none is dead", [label(0x13, 0, 8 * MIB)], [], 12, 12), ("one is dead", [label(0x13, 0, 8 * MIB, flags=MARKED)],
                                                              [], 12, 13),
    ("two are dead", [label(0x13, 0, 0), label(0x14, 0, 4 * MIB, flags=MARKED), label(0x15, 0, 6 * MIB, flags=MARKED)],
     [], 10, 12),
    ("two are dead in both", [label(0x14, 0, 4 * MIB, flags=MARKED)], [label(0x15, 1, 6 * MIB, flags=MARKED)], 12, 13),
)


def sweeps(cases: Cases) -> None:
    for name, first, second, before, after in SWEPT:
        own = both(0x30, 32 * MIB)
        place(cases, f"a sweep where {name}", [*first, own[0]], [*second, own[1]])
        cases.load(0x1, f"1000 e 100 3 0 {before:x} {'1' * (14 - before)}{'0' * before} {'1' * (14 - before)}{'0' * before}")
        asked(cases, (rename(uuid(0x30), "x"), renamed(0x30, "x")))
        cases.load(0x1)
        assert cases.rows[-1][2].split()[6] == f"{after:x}", cases.rows[-1]
    # Junk: a slot in use without a label.
    for handle, others in ((0x1, 0x101), (0x101, 0x1)):
        place(cases, f"junk in {handle:x}", [], [])
        cases.area(handle, free_block(4096, 0, 3, 0x1DF6) + free_block(4096, 1, 2, 0x1DF6) + b"\xee" * 3584)
        cases.do(f"list-held dimm={handle}", held(14))
        asked(cases, (create(0x20), created(0x20, 0, 13)), (rename(uuid(0x20), "x"), renamed(0x20, "x")),
              (destroy("x"), destroyed(0x20)))
        cases.load(others)


# Refusals in their order, and what is done where there are none, on modules with two slots each. Rows with the same
# labels are asked of one case.
WHOLE, READ_ONLY = both(0x13, 0, name=b"x"), both(0x13, 0, name=b"x", flags=ROLABEL)
UNIT = ((create(0x20, "3M"), BAD_SIZE), (create(0x20, "0"), BAD_SIZE), (create(0x20, "6M"), BAD_SIZE))
REFUSALS = (
    ("an empty region", [], [], (*UNIT, (create(0x13, "256T"), f"refused no-space largest={2 * PART}\n"),
                                 (create(0x13), created(0x13, 0, 1)))),
    ("one namespace", WHOLE[:1], WHOLE[1:], (
        (create(0x13, "3M", " name=x"), BAD_SIZE), (create(0x13, "256T", " name=x"), in_use(0x13)),
        (create(0x13, "256T"), uuid_in_use(0x1)),
        (create(0x20, "256T"), f"refused no-space largest={2 * (PART - 2 * MIB)}\n"), (create(0x20), no_slots(0x1, 1)),
        (release(0x13), "refused not-held\n"), (release(0x13, 0x101), "refused not-held\n"),
        (rename("y", "x"), UNKNOWN),
        (rename("x", "y"), renamed(0x13, "y")), (destroy("y"), destroyed(0x13)),
    )),
    ("a read-only one", READ_ONLY[:1], READ_ONLY[1:], (
        (destroy("x"), fixed(0x13)), (rename("x", "x"), fixed(0x13)), (create(0x20), no_slots(0x1, 1)),
        (release(0x13), "refused not-held\n"),
    )),
    ("what a stopped create left", both(0x13, 0, flags=MARKED)[:1], [],
     ((release(0x13), "refused not-held\n"), (create(0x13), created(0x13, 0, 1)))),
    ("a lost module", WHOLE[:1], [], (
        ("list-held dimm=1", held(1, (0x13, 0, 2 * MIB, False))), (release(0x10), "refused not-held\n"),
        (release(0x13, 0x101), "refused not-held\n"),
        (release(0x13, 2), "refused unknown-dimm dimm=0x00000002\n"), (create(0x13), uuid_in_use(0x1)),
        (create(0x20), no_slots(0x1, 1)),
        (release(0x13), "ok released=1\n"), (release(0x13), "refused not-held\n"), (create(0x13), created(0x13, 0, 1)),
    )),
    ("beside a missing area", both(0x13, 0, flags=MARKED)[:1], None, (
        (release(0x13), MISSING), (release(0x13, 0x101), MISSING), (create(0x20, "3M"), MISSING),
        (destroy("x"), MISSING), (rename("x", ""), MISSING),
        ("list-held dimm=1", held(1, (0x13, 0, 2 * MIB, True))), ("init-labels dimm=257", MISSING),
    )),
    ("a read-only held label", [label(0x13, 0, 0, flags=ROLABEL)], [], ((release(0x13), fixed(0x13)),)),
    ("a local one", [label(0x13, 0, 0, flags=LOCAL)], [], ((release(0x13), fixed(0x13)),)),
    ("two with one uuid of which one is local", [label(0x13, 0, 0, flags=LOCAL), label(0x13, 0, 4 * MIB)], [],
     ((release(0x13), fixed(0x13)),)),
    ("a doubled uuid", [label(0x13, 0, 0, flags=MARKED)] * 2, [label(0x13, 1, 0, flags=MARKED)], (
        (create(0x13), uuid_in_use(0x1)), (release(0x13), "ok released=2\n"), ("list-held dimm=257", held(2)),
        (create(0x13), created(0x13, 0, 1)),
    )),
    ("a clash", *pairs_of(both(0x13, 0, 4 * MIB), both(0x14, 2 * MIB)), (
        (create(0x20, "3M"), CLASH), (destroy(uuid(0x13)), CLASH), (rename(uuid(0x13), "x"), CLASH),
        (release(0x13), "refused not-held\n"),
    )),
    ("a full region", *pairs_of(both(0x13, 0, PART)), (
        (create(0x20), "refused no-space largest=0\n"), ("list-free region=1", "ok free=0 largest=0\n"),
        (destroy(uuid(0x13)), destroyed(0x13)),
    )),
    ("no spare slots", *pairs_of(both(0x13, 0), both(0x14, 2 * MIB)), tuple(
        (line, no_slots(0x1, 0)) for line in (create(0x20), destroy(uuid(0x13)), rename(uuid(0x14), "x"))
    )),
)


def refusals(cases: Cases) -> None:
    for name, first, second, rows in REFUSALS:
        place(cases, f"steps on {name}", first, second, size=1024)
        asked(cases, *rows)
        shown(cases)
        place(cases, f"steps on {name} in one run", first, second, size=1024)
        in_one_run(cases, *rows)
    place(cases, "initialised once", None, None)
    cases.area(0x1, bytes(1024))
    cases.area(0x101, index_block(MIB, 0, 3, 0).ljust(1024, b"\0"))
    asked(cases, ("init-labels dimm=0x101", "refused not-ready foreign dimm=0x00000101\n"),
          ("init-labels dimm=2", "refused unknown-dimm dimm=0x00000002\n"),
          ("init-labels dimm=1", "ok initialised dimm=0x00000001 slots=2\n"),
          ("init-labels dimm=1", "refused already-ready dimm=0x00000001\n"))


# Pending namespaces of each form, whose labels become like that of position 0.
FIRST, SECOND = both(0x13, 0, name=b"db0", alignment=7)
FORMS = (
    ("the first is marked", replace(FIRST, flags=MARKED), SECOND),
    ("the second is marked", FIRST, replace(SECOND, flags=MARKED | 0x30)),
    ("both are marked", replace(FIRST, flags=MARKED | 0x10), replace(SECOND, flags=MARKED)),
    ("another name", replace(FIRST, flags=MARKED), replace(SECOND, name=b"old")),
    ("another sector size", replace(FIRST, flags=MARKED), replace(SECOND, sector=4096)),
    ("another mode", replace(FIRST, flags=MARKED), replace(SECOND, abstraction=SECTOR)),
    ("another size", replace(FIRST, flags=MARKED), replace(SECOND, size=4 * MIB)),
    ("all others", replace(FIRST, flags=MARKED), replace(SECOND, name=b"old", sector=4096, abstraction=SECTOR,
                                                         size=4 * MIB, alignment=9)),
    ("another name behind its end", replace(FIRST, flags=MARKED), replace(SECOND, name=b"db0\0y")),
)


def heals(cases: Cases) -> None:
    for name, first, second in FORMS:
        for line, said in (
            (create(0x20), created(0x20, 2 * MIB, 12)), (rename("db0", "new"), renamed(0x13, "new")),
            (destroy("db0"), destroyed(0x13)),
        ):
            place(cases, f"{line.split('-')[0]} where {name}", [first], [second])
            asked(cases, (line, said))
            shown(cases)


def two_regions(cases: Cases) -> None:
    """Two regions share a module: what is changed in one is shown of both, in one run as in new ones."""
    pair = Region(1, 4 << 30, [Mapping(0x1, 1, 64 * MIB), Mapping(0x2, 2, 64 * MIB, 4096)])
    lone = Region(2, 1 << 40, [Mapping(0x2, 2, 64 * MIB, 0, 64 * MIB)])
    other = [line.replace("region=1", "region=2") for line in (create(8), rename(uuid(8), "x"), destroy("x"))]
    rows = (create(7), other[0], create(9), other[1], destroy(uuid(7)), other[2])
    asks = ["list", "list-free region=1", "list-free region=2", "list-held dimm=1", "list-held dimm=2"]
    for one_run in (True, False):
        cases.case(f"two regions over one module {'in one run' if one_run else 'in new runs'}")
        cases.nfit(nfit([pair, lone]))
        cases.areas({0x1: area(4096), 0x2: area(4096)})
        if one_run:
            cases.run("\n".join(line for row in rows for line in [row, *asks]))
        else:
            for row in rows:
                asked(cases, *[(line, None) for line in (row, *asks)])
        cases.dumps()


def ask(cases: Cases) -> None:
    for table in (looked_up, holders, slots, lone_ranges, sweeps, refusals, heals, two_regions):
        table(cases)
