"""Whole runs: lists of lines, seeds, which calls of a rig and reads of a source fail, how often the rig is read, and
stops within a list of lines. What is told of them is worked out by hand."""

from case_model import Cases, hexed
from cases.areas import OTHER, ZEROS, first, second
from cases.pairs import PAIR, create, created, space, spaces, uuid
from platform_images import area, nfit

TABLE = nfit([PAIR])
EMPTY = "ok labels=0 slots=2 seq=3 place=0\n"
NONE, NONE_HELD = "ok namespaces=0\n", "ok held=0 spare=2\n"
INITIALISED = "ok initialised dimm=0x00000001 slots=2\n"
FAILED, OTHER_FAILED = "error area dimm=0x00000001\n", "error area dimm=0x00000101\n"
MISSING = "refused not-ready missing dimm=0x00000101\n"
REGIONS = ("  region index=1 spa=0x0000000100000000 size=137438953472 ways=2 cookie=0x0002e2420000346b"
           " status=missing dimm=0x00000101\nok regions=1\n")
READY = first(3, 3) + second(2, 3)
CREATE = create(0x13, more=" name=db0")
CREATED, LISTED, PENDING = created(0x13, 0, 1), spaces(space(0x13, 0, name="db0")), spaces(space(0x13, 0, name="db0", pending="yes"))
SOURCE = "error source nfit\n"
INIT = "do . init-labels dimm=1"

# The calls that fail, the room, how often the rig is read, the words, the status, and what is said of one area.
FAULTS = (
    ((), 64, 2, "labels . 1", 0, EMPTY), ((0,), 64, 1, "labels . 1", 4, FAILED), ((1,), 64, 2, "labels . 1", 4, FAILED),
    ((2,), 64, 2, "labels . 1", 7, ""), ((0, 1), 64, 1, "labels . 1", 7, ""), ((1, 2), 64, 2, "labels . 1", 7, ""),
    ((), 33, 2, "labels . 1", 7, ""), ((), 34, 2, "labels . 1", 0, EMPTY),
    ((), 64, 1, "labels . 2", 1, "refused not-ready missing dimm=0x00000002\n"),
    ((0,), 64, 1, "labels . 2", 4, "error area dimm=0x00000002\n"),
    ((1,), 64, 1, "labels . 2", 7, ""), ((0,), 64, 0, "labels", 7, ""), ((), 64, 0, "labels", 2, "error words\n"),
)

# The call that fails, how often the rig is read, and the same of two modules of which one has no area.
LISTS = (
    (3, 3, "do . # x", 0, ""), (9, 3, "do . list-regions", 0, REGIONS), (0, 1, "do . list", 4, FAILED),
    (1, 2, "do . list-held dimm=1", 4, FAILED), (2, 3, "do . list-free region=1", 4, OTHER_FAILED),
    (9, 3, "do . list region=1", 1, MISSING),
    (9, 3, "do . list-held dimm=1", 0, NONE_HELD), (3, 3, "do . list", 7, ""), (3, 3, "do . x", 7, ""),
    (9, 3, "do . x", 1, "refused words unknown\n"),
)

# The call that fails while an area is initialised, the status, and which of the two index blocks are written then.
# Behind the three calls that read the areas they are the area's size, three reads, two writes, and the reply.
WRITTEN = (
    (0, 4, 0), (1, 4, 0), (2, 4, 0), (3, 4, 0), (4, 4, 0), (5, 4, 0), (6, 4, 0), (7, 4, 0), (8, 4, 1), (9, 7, 2),
    (10, 0, 2),
)

# The read of the NFIT that fails, the call of the rig that fails, how often the source failed, and the same of an area
# without index blocks. The NFIT is read by two calls.
SOURCES = (
    (0, 99, 1, INIT, 5, SOURCE), (1, 99, 1, INIT, 5, SOURCE), (0, 0, 1, INIT, 7, ""), (2, 99, 0, INIT, 0, INITIALISED),
    (2, 0, 0, INIT, 4, FAILED), (0, 99, 1, "do . # x", 5, SOURCE), (1, 99, 1, "do . x", 5, SOURCE),
    (0, 99, 0, "do .", 2, "error words\n"),
    (0, 99, 0, "run", 2, "error words\n"), (0, 99, 1, "run .", 5, SOURCE),
    (0, 99, 0, "labels . 1", 1, "refused not-ready uninit dimm=0x00000001\n"),
)

# NFITs that are none, and what is said.
TABLES = (
    (b"", 3, "error nfit short length=0\n"), (TABLE[:39], 3, "error nfit short length=39\n"),
    (TABLE[:279], 3, "error nfit length told=280 length=279\n"),
    (bytes(40), 3, "error nfit signature\n"), (TABLE[:9] + bytes(((TABLE[9] + 1) % 256,)) + TABLE[10:], 3,
                                               "error nfit checksum sum=1\n"),
    (b"x" * 8192, 3, "error nfit signature\n"),
)

# The bytes of an input, the status, and what is said of two modules without labels.
RUNS = (
    ("", 0, ""), ("\n\n# x\n", 0, ""), ("list", 0, NONE), ("list-free\n", 1, "refused words missing key=region\n"),
    ("list\n\nlist-held dimm=1\n", 0, NONE + NONE_HELD), ("x\n# x\nlist", 1, "refused words unknown\n" + NONE),
    ("list\r\n", 1, "refused words byte at=4\n"), ("list-held dimm=1\n \0\n", 1,
                                                   NONE_HELD + "refused words byte at=1\n"),
    ("list\nlist", 0, NONE + NONE), ("x".ljust(4097) + "\nlist", 1, "refused words too-long\n" + NONE),
    (f"list\n{CREATE}\nlist\n", 0, NONE + CREATED + LISTED),
    (f"{CREATE}\ndestroy-namespace region=1 namespace=db0\nlist\n", 0,
     f"{CREATED}ok destroyed uuid={uuid(0x13)}\n{NONE}"),
)

# How many bytes the input has, the read of it that fails, how often the areas are read, the status, and what is said.
# Up to 4,096 bytes are read at once.
INPUTS = (
    (1_048_576, 999, 4, 1, "refused words too-long\n"), (1_048_577, 999, 0, 5, "error limit input\n"),
    (4_097, 1, 0, 5, "error source input\n"),
    (4_096, 2, 4, 0, ""), (4_096, 1, 0, 5, "error source input\n"), (0, 0, 0, 5, "error source input\n"),
)

# A seed, the number of the line of a create without a uuid, and the uuid that another library makes of both.
SEEDS = (
    (0, 1, "11116e73-1c03-5de6-9130-5f9925ae8ab4"), (1, 1, "c6ae59cd-4100-5d14-850d-f8202b722a98"),
    (1, 4, "cbb21cb2-75b1-5657-831a-a9df31933706"),
)

# A list of lines on two modules, the first without index blocks. The fourth line makes a namespace, and the last one is
# blank.
INPUT = "init-labels dimm=1\n\n# none\ncreate-namespace region=1 size=4M name=db0\nlist\ninit-labels dimm=1\n"
OWN = "cbb21cb2-75b1-5657-831a-a9df31933706"
SAID = (
    INITIALISED, f"ok created uuid={OWN} region=1 offset=0 length=2097152 size=4194304 spare=1\n",
    f"  namespace uuid={OWN} name=db0 region=1 mode=raw sector=512 offset=0 length=2097152 size=4194304 pending=no read-only=no\n"
    "ok namespaces=1\n", "refused already-ready dimm=0x00000001\n",
)


def modules(cases: Cases, name: str, first_area: bytes, second_area: bytes, room: int = None) -> None:
    cases.case(name, room)
    cases.nfit(TABLE)
    cases.areas({0x1: first_area, 0x101: second_area})


def both(cases: Cases, name: str) -> None:
    modules(cases, name, READY + ZEROS * 2, READY + ZEROS * 2)


def rigs(cases: Cases) -> None:
    own = READY + OTHER * 2
    for place, (failing, room, reads, line, status, said) in enumerate(FAULTS):
        modules(cases, f"faults of a rig {place}", own, None, room)
        cases.fail_rig(*failing)
        cases.nd(line, status, said, reads)
        cases.dump(1, own)
    for place, (call, reads, line, status, said) in enumerate(LISTS):
        modules(cases, f"faults of lists {place}", own, None, 256)
        cases.fail_rig(call)
        words = line.split(" ", 2)
        cases.nd(words, status, said, reads)
        cases.dump(1, own)
    for call, status, blocks in WRITTEN:
        modules(cases, f"faults of an initialisation {call}", OTHER * 4, None)
        cases.fail_rig(call)
        said = {4: OTHER_FAILED if call == 2 else FAILED, 7: ""}.get(status, INITIALISED)
        cases.nd(INIT, status, said)
        cases.dump(1, (READY[: 256 * blocks] + OTHER * 4)[:1024])
    modules(cases, "initialised again", ZEROS * 4, None)
    cases.area(2, OTHER * 4)
    for line, status, said in (
        (INIT, 0, INITIALISED), ("do . init-labels dimm=0x1", 1, "refused already-ready dimm=0x00000001\n"),
        ("labels . 1", 0, EMPTY), ("do . # x", 0, ""),
    ):
        cases.nd(line, status, said)
        cases.dump(1, READY + ZEROS * 2)
        cases.dump(2, OTHER * 4)


def sources(cases: Cases) -> None:
    for place, (read, call, faults, line, status, said) in enumerate(SOURCES):
        modules(cases, f"faults of the source {place}", ZEROS * 4, None)
        cases.fail_nfit(read)
        cases.fail_rig(call)
        cases.nd(line, status, said, nfit_faults=faults)
    both(cases, "tables that are none")
    for text, status, said in TABLES:
        cases.nfit(text)
        for line in ("do . list", "run ."):
            cases.nd(line, status, said, 0)
    for size, read, reads, status, said in INPUTS:
        both(cases, f"an input of {size}")
        cases.input(b"#" * size)
        cases.fail_input(read)
        cases.nd("run .", status, said, reads)


def inputs(cases: Cases) -> None:
    for place, (text, status, said) in enumerate(RUNS):
        both(cases, f"run {place}")
        cases.input(text.encode())
        cases.nd("run .", status, said, 4)
        cases.dumps()
    both(cases, "the same by do")
    cases.do(CREATE, CREATED)
    cases.dumps()
    for seed, line, own in SEEDS:
        both(cases, f"seed {seed} line {line}")
        cases.seed(seed)
        said = f"ok created uuid={own} region=1 offset=0 length=2097152 size=4194304 spare=1\n"
        cases.run("\n" * (line - 1) + "create-namespace region=1 size=4M", 0, said)
        if line == 1:
            both(cases, f"seed {seed} by do")
            cases.seed(seed)
            cases.do("create-namespace region=1 size=4M", said)
    # The call that fails, and what is said of two lists. Four calls read the areas.
    for call, status, said in ((0, 4, FAILED), (1, 4, FAILED), (2, 4, OTHER_FAILED), (3, 4, OTHER_FAILED), (4, 7, ""),
                               (5, 7, NONE_HELD), (6, 0, NONE_HELD * 2)):
        both(cases, f"two lists and a fault at call {call}")
        cases.fail_rig(call)
        cases.run("list-held dimm=1\nlist-held dimm=0x101\n", status, said)
    # The fifth write of a create fails, behind four calls that read the areas: the first pass was done, so the
    # namespace stands.
    both(cases, "a create that fails in its second pass")
    cases.fail_rig(8)
    for line, said in (
        (CREATE, OTHER_FAILED), ("list", PENDING), (CREATE, f"refused name-in-use uuid={uuid(0x13)}\n"),
        ("create-namespace region=1 size=3M", "refused bad-size unit=4194304\n"),
        ("create-namespace region=1 size=4M", "refused no-slots dimm=0x00000001 spare=1\n"),
    ):
        cases.nd(["do", ".", line], 4 if said.startswith("error") else int(said.startswith("refused")), said)
    both(cases, "a create that fails behind a list")
    cases.fail_rig(9)
    cases.run(f"list\n{CREATE}\nlist\n", 4, NONE + OTHER_FAILED)
    cases.do("list", PENDING)


# The call of a create within which all stops, whether its new bytes stand then or zeros, and what is said of the
# namespaces.
CRASHES = ((4, False, NONE), (7, False, NONE), (7, True, PENDING), (9, True, PENDING), (11, True, LISTED))


def stops(cases: Cases) -> None:
    both(cases, "a create that is stopped")
    cases.keep(9, 8192)
    cases.do(CREATE, CREATED)
    for call, whole, said in CRASHES:
        new = cases.rig.kept[call][4] if cases.keeping is None else cases.keeping.kept[call][4]
        cases.stop(call, new if whole else bytes(len(new)))
        cases.do("list", said)
        cases.dumps()
        cases.back()
    modules(cases, "a list that is stopped", ZEROS * 4, READY + ZEROS * 2, 4096)
    cases.keep(32, 8192)
    cases.run(INPUT, 1, "".join(SAID))
    kept = dict(cases.rig.kept)
    # Two writes of an initialisation, eight of a create, and four replies.
    assert len(kept) == 14
    for call, (kind, *parts) in kept.items():
        cases.kept(call)
        old, new = parts[2:] if kind == "write" else (parts[0][: len(parts[0]) // 2], parts[0])
        for torn in (old, new):
            stopped(cases, call, torn)
    calls = cases.rig.calls
    for call in range(calls):
        modules(cases, f"a list and a fault at call {call}", ZEROS * 4, READY + ZEROS * 2, 4096)
        cases.fail_rig(call)
        cases.run(INPUT)
        cases.fail_rig()
        holds(cases)


def stopped(cases: Cases, call: int, torn: bytes) -> None:
    cases.stop(call, torn)
    holds(cases)
    cases.back()


def holds(cases: Cases) -> None:
    """Where the reply to the create was said the namespace stands, and where that of the command before it was not, it
    does not."""
    cases.counts()
    said = len(cases.rig.said)
    text = cases.nd("do . list")
    stands = text.endswith("ok namespaces=1\n")
    assert said >= len(SAID[0]) if stands else said < len(SAID[0] + SAID[1]), (said, text)
    cases.dumps()


def ask(cases: Cases) -> None:
    rigs(cases)
    sources(cases)
    inputs(cases)
    stops(cases)
