"""Commands that are stopped at each write, or of which each call fails in turn, over 1, 2, 3 and 16 ways. The platform
is a region of these ways, and another region of one module with a pending namespace and a slot of junk.

At each stop the lists are asked and the bytes of the areas are looked at: over 16 ways those of the module that is
written to and of another one by turns, else all.
"""

from case_model import Cases, unsigned
from platform_images import MIB, UPDATING, Label, Mapping, Region, free_block, nfit

WAYS = (1, 2, 3, 16)
BASE, PART, LENGTH, SLOTS, SIZE = 32 * MIB, 16 * MIB, 2 * MIB, 14, 4096
OTHER = 0x1001
EARLIER, LATER = (f"0f6b1a52-7c3e-4d28-9a41-5be0c7d2e8{last}" for last in ("21", "22"))
NAMES = {EARLIER: "earlier", LATER: "later"}
JUNK = b"\xee" * 256


def handle(position: int) -> int:
    return position * 0x100 + 1


def regions(ways: int) -> list:
    parts = [Mapping(handle(position), position + 1, PART, 4096 * position, BASE) for position in range(ways)]
    return [Region(1, 1 << 32, parts), Region(2, 2 << 32, [Mapping(OTHER, 1, PART, 0, BASE)])]


def ready_area(used: int, slot: bytes = JUNK) -> bytes:
    """An area with these slots in use, as bits of a number, and bytes in the first one."""
    free = (1 << SLOTS) - 1 & ~used
    return (free_block(SIZE, 0, 3, free) + free_block(SIZE, 1, 2, free) + slot).ljust(SIZE, b"\0")


def areas(ways: int, used: int) -> dict:
    """The areas of all modules. Those of region 1 have these slots in use, none of them with a label."""
    pending = Label("0f6b1a52-7c3e-4d28-9a41-5be0c7d2e813", BASE, 4 * MIB, regions(ways)[1].cookie(), flags=UPDATING)
    return {**{handle(position): ready_area(used) for position in range(ways)}, OTHER: ready_area(3, pending.bytes(0))}


# Commands.

def create(ways: int, number: str = LATER) -> str:
    return f"create-namespace region=1 size={ways * LENGTH} name={NAMES[number]} uuid={number}"


def destroy(ways: int) -> str:
    return f"destroy-namespace region=1 namespace={EARLIER}"


def rename(ways: int) -> str:
    return "rename-namespace region=1 namespace=earlier name=new"


def init(ways: int) -> str:
    return f"init-labels dimm={handle(ways - 1)}"


def release(ways: int) -> str:
    return f"release-held dimm=1 uuid={EARLIER}"


# Where an earlier create was stopped: the write, counted from the last one on, and whether it left the old bytes, the
# new ones, or these unsigned.
EARLIERS = {
    "never": None, "at the last sweep": lambda ways: (4 * ways + 1, "old"),
    "ahead of the last flip of the first pass": lambda ways: (2 * ways + 2, "new"),
    "behind that flip": lambda ways: (2 * ways + 1, "new"), "within the second pass": lambda ways: (ways, "unsigned"),
    "not at all": lambda ways: (1, "new"),
}
LEFT = {"old": lambda old, new: old, "new": lambda old, new: new, "unsigned": lambda old, new: unsigned(new)}

NONE, ONE, PENDING = (), ((EARLIER, "no"),), ((EARLIER, "yes"),)
NEW, AFTER = ((LATER, "no"),), ((EARLIER, "no"), (LATER, "no"))

# The command, the slots in use in each module of region 1 without a label, where an earlier create was stopped, by how
# many of the last writes the table is the one behind the command, and the namespaces before it and behind it.
ROWS = (
    (create, 0, "never", lambda ways: 2 * ways, NONE, NEW),
    (create, 0x2001, "never", lambda ways: 2 * ways, NONE, NEW),
    (create, 0x0001, "at the last sweep", lambda ways: 2 * ways, NONE, NEW),
    (create, 0, "ahead of the last flip of the first pass", lambda ways: 2 * ways, NONE, NEW),
    (create, 0, "behind that flip", lambda ways: 2 * ways, PENDING, AFTER),
    (create, 0, "within the second pass", lambda ways: 2 * ways, PENDING, AFTER),
    (destroy, 0, "not at all", lambda ways: ways - 1, ONE, NONE),
    (destroy, 0, "behind that flip", lambda ways: ways - 1, PENDING, NONE),
    (destroy, 0, "within the second pass", lambda ways: ways - 1, PENDING, NONE),
    (rename, 0, "not at all", lambda ways: 2 * ways, ONE, ONE),
    (rename, 0, "behind that flip", lambda ways: 2 * ways, PENDING, ONE),
    (rename, 0, "within the second pass", lambda ways: 2 * ways, PENDING, ONE),
    (destroy, 0x2004, "not at all", lambda ways: ways - 1, ONE, NONE),
    (rename, 0x2004, "not at all", lambda ways: 2 * ways, ONE, ONE),
)


def told(ways: int, spaces: tuple, new_name: bool) -> str:
    """What is said where region 1 has these namespaces, one behind the other, and its modules hold no label."""
    lines = "".join(
        f"  namespace uuid={number} name={'new' if new_name else NAMES[number]} region=1 mode=raw sector=512 offset={place * LENGTH}"
        f" length={LENGTH} size={ways * LENGTH} pending={pending} read-only=no\n" for place,
        (number, pending) in enumerate(spaces)
    )
    taken = len(spaces) * LENGTH
    return (f"{lines}ok namespaces={len(spaces)}\n  free offset={taken} length={PART - taken}\nok free=1 largest={ways * (PART - taken)}\n"
            + f"ok held=0 spare={SLOTS - len(spaces)}\n" * ways)


def told_before_init(ways: int) -> str:
    """The last module has no index blocks, and each other one holds a label."""
    refused = f"refused not-ready uninit dimm=0x{handle(ways - 1):08x}\n"
    held = f"  held uuid={EARLIER} dpa=0x{BASE:016x} size={LENGTH} local=no read-only=no updating=yes\nok held=1 spare=13\n"
    return refused * 2 + held * (ways - 1) + refused


def told_of_releases(ways: int, first_holds: bool) -> str:
    """The last module was replaced, and the others hold a label, or all but the first."""
    held = f"  held uuid={EARLIER} dpa=0x{BASE:016x} size={LENGTH} local=no read-only=no updating=no\nok held=1 spare=13\n"
    empty = "ok held=0 spare=14\n"
    taken = LENGTH if first_holds or ways > 2 else 0
    free = f"  free offset={taken} length={PART - taken}\nok free=1 largest={ways * (PART - taken)}\n"
    return "ok namespaces=0\n" + free + (held if first_holds else empty) + held * (ways - 2) + empty


def asks(ways: int) -> str:
    """What tells the state of region 1 and its modules."""
    return "list region=1\nlist-free region=1\n" + "".join(f"list-held dimm={handle(position)}\n" for position in range(ways))


def place(cases: Cases, name: str, ways: int, stored: dict) -> None:
    cases.case(name)
    cases.nfit(nfit(regions(ways)))
    cases.areas(stored)
    cases.input(asks(ways).encode())


def left(ways: int, used: int, earlier: str) -> dict:
    """The areas after an earlier create was stopped. They are those of the models, which a case of that create looks
    at."""
    if EARLIERS[earlier] is None:
        return areas(ways, used)
    scratch = Cases()
    place(scratch, "earlier", ways, areas(ways, used))
    scratch.keep()
    scratch.do(create(ways, EARLIER))
    back, which = EARLIERS[earlier](ways)
    writes = [(call, kept) for call, kept in scratch.rig.kept.items() if kept[0] == "write"]
    call, (*_, old, new) = writes[-back]
    return scratch.rig.stopped(call, LEFT[which](old, new)).areas


class Stops:
    """A command that is done on areas whose writes are kept, and is stopped then."""

    def __init__(self, cases: Cases, name: str, ways: int, stored: dict, command: str, behind: int, before: str,
                 after: str):
        self.cases, self.ways, self.command, self.behind, self.before, self.after = cases, ways, command, behind, before, after
        place(cases, f"{name} over {ways} ways", ways, stored)
        cases.keep()
        cases.do(command)
        self.calls, self.kept = cases.rig.calls, dict(cases.rig.kept)
        self.writes = [call for call, kept in self.kept.items() if kept[0] == "write"]
        for call in range(self.calls):
            cases.kept(call)
        cases.dumps()
        self.state(after)
        self.stops()
        self.faults()

    def state(self, wanted: str) -> None:
        """The lists of region 1 and its modules. The marks of pending namespaces are those of the models."""
        said = self.cases.nd("run .")
        assert said.replace("pending=yes", "pending=no") == wanted.replace("pending=yes", "pending=no"), (self.command, said, wanted)

    def look(self, call: int, wanted: str, dimm: int) -> None:
        self.state(wanted)
        handles = sorted(self.cases.rig.areas)
        for own in handles if self.ways < 4 else sorted({dimm, handles[call % len(handles)]}):
            self.cases.dump(own)

    def stops(self) -> None:
        """Stops each write in each way, or over many ways in one of them by turns, and the reply in its midst."""
        for place_, call in enumerate(self.writes):
            _, dimm, _, old, new = self.kept[call]
            to_come = len(self.writes) - place_
            for number, (which, torn) in enumerate(LEFT.items()):
                if self.ways > 3 and call % 3 != number:
                    continue
                is_behind = to_come <= self.behind or to_come == self.behind + 1 and which == "new"
                self.cases.stop(call, torn(old, new))
                self.look(call, self.after if is_behind else self.before, dimm)
                self.cases.back()
        self.cases.stop(self.calls - 1, self.kept[self.calls - 1][1][:9])
        self.cases.counts()
        self.cases.back()

    def faults(self) -> None:
        """Each call fails in turn, from the areas on that were there before."""
        start = self.writes[0]
        for call in range(self.calls):
            to_come = sum(write >= call for write in self.writes)
            self.cases.stop(start, self.kept[start][3])
            self.cases.fail_rig(call)
            self.cases.do(self.command)
            self.cases.fail_rig()
            dimm = self.cases.rig.failed_dimm
            assert call == self.calls - 1 or call not in self.writes or dimm == self.kept[call][1]
            self.look(call, self.after if to_come <= self.behind else self.before, dimm or OTHER)
            self.cases.back()


def changes(cases: Cases) -> None:
    for ways in WAYS:
        for command, used, earlier, behind, before, after in ROWS:
            stored = left(ways, used, earlier)
            name = f"{command.__name__} with {used:x} in use where a create was stopped {earlier}"
            Stops(cases, name, ways, stored, command(ways), behind(ways), told(ways, before, False),
                  told(ways, after, command is rename))


def others(cases: Cases) -> None:
    """A module that is initialised where the others hold labels of a stopped create, which are dead then; and the label
    of a namespace that is given up, whose last module was replaced."""
    for ways in WAYS:
        stored = {**left(ways, 0, "ahead of the last flip of the first pass"), handle(ways - 1): bytes(SIZE)}
        Stops(cases, "init", ways, stored, init(ways), 1, told_before_init(ways), told(ways, NONE, False))
    for ways in WAYS[1:]:
        for used in (1, 0x2004):
            stored = {**left(ways, used & ~1, "not at all"), handle(ways - 1): ready_area(1)}
            before, after = (told_of_releases(ways, holds) for holds in (True, False))
            Stops(cases, f"release with {used:x} in use", ways, stored, release(ways), 0, before, after)


def ask(cases: Cases) -> None:
    changes(cases)
    others(cases)
