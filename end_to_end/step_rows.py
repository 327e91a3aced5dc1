"""Rows of the model of the step: tables made by hand, whose replies are worked out from the rules, and tables made at
random, where what a command makes of the labels must be what the rules say of the namespaces, the held labels and the
spare slots alone.

    python3 end_to_end/step_model.py [COUNT]
"""

import random
import sys
from dataclasses import replace

from platform_images import LOCAL, MIB, ROLABEL, UPDATING, Label, Mapping, Region
from step_model import (
    ABSTRACTIONS, create_namespace, destroy_namespace, init_labels, is_name, is_pending, name_of, own_uuid, region_at,
    release_held, rename_namespace, without,
)
from table_model import Module, Table

FIRST, SECOND = 0x1, 0x101
U1, U2, U3, U4, U5 = (f"0f6b1a52-7c3e-4d28-9a41-5be0c7d2e81{digit}" for digit in (3, 4, 5, 6, 7))
GIB = 1 << 30


def one_module(slots: int = 2) -> Table:
    """A region of 64 MiB on one module."""
    region = Region(1, 1 << 32, [Mapping(FIRST, 1, 64 * MIB)])
    return Table([region], {FIRST: Module("ready", slots)})


def two_modules(part: int = 64 * MIB, slots: int = 510, first: tuple = (), second: tuple = ()) -> Table:
    """A region of two ways. None stands for a module without an area."""
    region = Region(1, 1 << 32, [Mapping(FIRST, 1, part), Mapping(SECOND, 2, part, 4096)])
    modules = {
        handle: Module("missing") if labels is None else Module("ready", slots, tuple(labels))
        for handle, labels in ((FIRST, first), (SECOND, second))
    }
    return Table([region], modules)


def pair(number: str, dpa: int, size: int, name: bytes = b"", flags: int = 0) -> list:
    """The labels of a namespace of two modules."""
    cookie = two_modules().regions[0].cookie()
    return [Label(number, dpa, size, cookie, name, flags, 2, position) for position in (0, 1)]


def create(size: int, number: str, name: bytes = b"", index: int = 1) -> tuple:
    return create_namespace, index, size, number, name


def destroy(key: str, index: int = 1) -> tuple:
    return destroy_namespace, index, key


def rename(key: str, name: bytes, index: int = 1) -> tuple:
    return rename_namespace, index, key, name


def release(number: str, handle: int = FIRST) -> tuple:
    return release_held, handle, number


def created(number: str, offset: int, length: int, spare: int, ways: int = 2) -> str:
    return f"ok created uuid={number} region=1 offset={offset} length={length} size={ways * length} spare={spare}"


def space(number: str, offset: int, length: int, name: str = "-", pending: str = "no", read_only: str = "no") -> str:
    return (f"  namespace uuid={number} name={name} region=1 mode=raw sector=512 offset={offset} length={length}"
            f" size={2 * length} pending={pending} read-only={read_only}\n")


def held(number: str, size: int, updating: str, dpa: int = 0) -> str:
    return f"  held uuid={number} dpa=0x{dpa:016x} size={size} local=no read-only=no updating={updating}\n"


class Checked:
    def __init__(self):
        self.rows, self.wrong = 0, 0

    def says(self, what: str, answer, text) -> None:
        self.rows += 1
        if answer != text:
            self.wrong += 1
            print(f"{what}\n  rules {text!r}\n  model {answer!r}")

    def steps(self, table: Table, *steps: tuple) -> Table:
        """Makes commands, in order. A refused one must leave the very table."""
        for (command, *words), text in steps:
            after, reply = command(table, *words)
            self.says(f"{command.__name__} {words}", reply, text + "\n")
            if reply.startswith("refused"):
                self.says("a refused command changed the table", after is table, True)
            table = after
        return table

    def lists(self, table: Table, text: str) -> None:
        self.says("list", table.list_region(table.regions[0]), text)

    def holds(self, table: Table, handle: int, text: str) -> None:
        self.says(f"list-held {handle}", table.list_held(handle), text)

    def frees(self, table: Table, text: str) -> None:
        self.says("list-free", table.list_free(table.regions[0]), text)


def creates(checked: Checked) -> None:
    """Namespaces are made at the first place, and what is made is listed."""
    table = checked.steps(two_modules(64 * GIB), (create(16 * GIB, U1, b"db0"), created(U1, 0, 8 * GIB, 509)))
    checked.lists(table, space(U1, 0, 8 * GIB, "db0") + "ok namespaces=1\n")
    one = checked.steps(one_module(), (create(4 * MIB, U1, b"db0"), created(U1, 0, 4 * MIB, 1, 1)))
    label = Label(U1, 0, 4 * MIB, 0xA3DE_0000_1235, b"db0")
    checked.says("the label of a new namespace", one.modules[FIRST].labels, (label,))
    checked.steps(
        two_modules(), (create(128 * MIB, U1), created(U1, 0, 64 * MIB, 509)),
        (create(4 * MIB, U2), "refused no-space largest=0"),
    )
    unit = "refused bad-size unit=4194304"
    checked.steps(
        two_modules(), (create(3 * MIB, U1), unit), (create(0, U1), unit), (create(6 * MIB, U1), unit),
        (create(4 * MIB, U1.upper()), created(U1, 0, 2 * MIB, 509)),
    )
    table, reply = create_namespace(two_modules(), 1, 4 * MIB, U1, b"", "fsdax", 4096)
    checked.says("a mode and a sector size", reply, created(U1, 0, 2 * MIB, 509) + "\n")
    line = space(U1, 0, 2 * MIB).replace("mode=raw sector=512", "mode=fsdax sector=4096")
    checked.lists(table, line + "ok namespaces=1\n")


def places(checked: Checked) -> None:
    """What is freed is taken again, by what fits."""
    table = checked.steps(
        two_modules(), (create(4 * MIB, U1), created(U1, 0, 2 * MIB, 509)),
        (create(4 * MIB, U2), created(U2, 2 * MIB, 2 * MIB, 508)), (create(4 * MIB, U3), created(U3, 4 * MIB, 2 * MIB, 507)),
        (destroy(U2), f"ok destroyed uuid={U2}"), (create(8 * MIB, U4), created(U4, 6 * MIB, 4 * MIB, 507)),
        (create(4 * MIB, U5), created(U5, 2 * MIB, 2 * MIB, 506)),
    )
    checked.frees(table, "  free offset=10485760 length=56623104\nok free=1 largest=113246208\n")
    # A label at an odd place is held: it keeps its bytes, and new namespaces begin at multiples of 2 MiB.
    odd = Label(U1, 1, 2 * MIB, 7)
    checked.steps(
        two_modules(second=[odd]), (create(4 * MIB, U2), created(U2, 4 * MIB, 2 * MIB, 508)),
        (create(4 * MIB, U1), "refused uuid-in-use dimm=0x00000101"),
    )


def few_slots(checked: Checked) -> None:
    """The last slot of a module is left to changes of what is there."""
    table = checked.steps(
        two_modules(slots=2), (create(4 * MIB, U1), created(U1, 0, 2 * MIB, 1)),
        (create(4 * MIB, U2), "refused no-slots dimm=0x00000001 spare=1"),
        (rename(U1, b"a"), f"ok renamed uuid={U1} name=a"), (destroy("a"), f"ok destroyed uuid={U1}"),
    )
    checked.lists(table, "ok namespaces=0\n")
    first, second = pair(U1, 0, 2 * MIB)
    full = two_modules(slots=1, first=[first], second=[second])
    slots = "refused no-slots dimm=0x00000001 spare=0"
    checked.steps(full, (create(4 * MIB, U2), slots), (destroy(U1), slots), (rename(U1, b"a"), slots))
    first, second = pair(U1, 0, 2 * MIB, flags=UPDATING)
    full = two_modules(slots=2, first=[first], second=[second, Label(U2, 0, MIB, 7)])
    unhealed = "refused unhealed dimm=0x00000101"
    checked.steps(full, (create(0, U2), unhealed), (destroy("x"), unhealed), (rename("x", b""), unhealed))
    # The label of U2 is dead where its region has all modules: it takes no slot.
    dead = pair(U2, 8 * MIB, 2 * MIB, flags=UPDATING)[0]
    checked.steps(
        two_modules(slots=2, first=[dead]), (create(4 * MIB, U2), created(U2, 0, 2 * MIB, 1)),
        (create(4 * MIB, U3), "refused no-slots dimm=0x00000001 spare=1"),
    )


def names(checked: Checked) -> None:
    """Names and uuids are keys; a name that is not empty stands once in a region."""
    in_use, unknown = f"refused name-in-use uuid={U1}", "refused unknown-namespace"
    table = checked.steps(
        two_modules(), (create(4 * MIB, U1, b"db0"), created(U1, 0, 2 * MIB, 509)), (create(4 * MIB, U2, b"db0"), in_use),
        (create(4 * MIB, U1, b"db1"), "refused uuid-in-use dimm=0x00000001"),
        (rename("db0", b"db0"), f"ok renamed uuid={U1} name=db0"), (destroy("db9"), unknown), (destroy(U2), unknown),
        (create(4 * MIB, U2), created(U2, 2 * MIB, 2 * MIB, 508)), (create(4 * MIB, U3), created(U3, 4 * MIB, 2 * MIB, 507)),
        (rename(U2, b"db0"), in_use), (rename("db0", b""), f"ok renamed uuid={U1} name=-"),
        (rename(U2.upper(), b"db0"), f"ok renamed uuid={U2} name=db0"), (destroy("db0"), f"ok destroyed uuid={U2}"),
    )
    checked.lists(table, space(U1, 0, 2 * MIB) + space(U3, 4 * MIB, 2 * MIB) + "ok namespaces=2\n")
    no_region = "refused unknown-region region=2"
    checked.steps(
        table, (destroy(U1, 2), no_region), (create(0, U1, b"", 2), no_region), (rename("x", b"", 2), no_region),
    )


def foreign_names(checked: Checked) -> None:
    """Names that another tool gave to several namespaces, or that look like a uuid, which no key fits."""
    first, second = map(list, zip(
        pair(U1, 0, 2 * MIB, b"x\0y"), pair(U2, 2 * MIB, 2 * MIB, b"x"), pair(U3, 4 * MIB, 2 * MIB, b"r", ROLABEL | UPDATING),
    ))
    two, in_use, read_only = "refused ambiguous count=2", f"refused name-in-use uuid={U1}", f"refused read-only uuid={U3}"
    checked.steps(
        two_modules(first=first, second=second), (destroy("x"), two), (rename("x", b"r"), two), (destroy("r"), read_only),
        (rename(U3, b"x"), read_only), (create(4 * MIB, U4, b"x"), in_use), (rename(U2, b"x"), in_use),
        (rename(U2, b"y"), f"ok renamed uuid={U2} name=y"), (destroy("x"), f"ok destroyed uuid={U1}"),
    )
    first, second = pair(U1, 0, 2 * MIB, U2.encode())
    checked.steps(
        two_modules(first=[first], second=[second]), (destroy(U2), "refused unknown-namespace"),
        (destroy(U1), f"ok destroyed uuid={U1}"),
    )


def orders(checked: Checked) -> None:
    """The first of several refusals is told."""
    first, second = map(list, zip(pair(U1, 0, 32 * MIB, b"x"), pair(U2, 32 * MIB, 30 * MIB)))
    checked.steps(
        two_modules(slots=3, first=first, second=second), (create(MIB, U1, b"x"), "refused bad-size unit=4194304"),
        (create(8 * MIB, U1, b"x"), f"refused name-in-use uuid={U1}"),
        (create(8 * MIB, U1, b"y"), "refused uuid-in-use dimm=0x00000001"),
        (create(8 * MIB, U3, b"y"), "refused no-space largest=4194304"),
        (create(4 * MIB, U3, b"y"), "refused no-slots dimm=0x00000001 spare=1"),
    )
    first, second = map(list, zip(pair(U1, 0, 2 * MIB, b"x", ROLABEL), pair(U2, 2 * MIB, 2 * MIB, b"y")))
    checked.steps(
        two_modules(slots=2, first=first, second=second), (rename("x", b"y"), f"refused read-only uuid={U1}"),
        (rename("y", b"x"), f"refused name-in-use uuid={U1}"), (destroy("x"), f"refused read-only uuid={U1}"),
        (rename("y", b"z"), "refused no-slots dimm=0x00000001 spare=0"),
    )
    broken = two_modules()
    broken = Table([replace(broken.regions[0], length=4 * MIB)], broken.modules)
    first, second = map(list, zip(pair(U1, 0, 4 * MIB), pair(U2, 2 * MIB, 2 * MIB)))
    for table, text in (
        (broken, "refused unusable rule=capacity-differs"),
        (two_modules(first=None), "refused not-ready missing dimm=0x00000001"),
        (two_modules(first=first, second=second), f"refused not-ready clash first={U1} second={U2}"),
    ):
        checked.steps(table, (create(0, U1), text), (destroy("x"), text), (rename("x", b""), text))


def half_created(checked: Checked) -> None:
    """A create was stopped after its first label, which is dead, or held where the other module is missing."""
    half = pair(U1, 0, 2 * MIB, flags=UPDATING)[0]
    table = two_modules(first=[half])
    checked.lists(table, "ok namespaces=0\n")
    checked.frees(table, "  free offset=0 length=67108864\nok free=1 largest=134217728\n")
    checked.holds(table, FIRST, "ok held=0 spare=510\n")
    checked.steps(table, (create(4 * MIB, U1), created(U1, 0, 2 * MIB, 509)))
    alone = two_modules(first=[half], second=None)
    missing = "refused not-ready missing dimm=0x00000101"
    checked.lists(alone, missing + "\n")
    checked.holds(alone, FIRST, held(U1, 2 * MIB, "yes") + "ok held=1 spare=509\n")
    unknown = "refused unknown-dimm dimm=0x00000009"
    checked.steps(alone, (release(U1), missing), (release(U1, SECOND), missing), (release(U1, 9), unknown))


def pending(checked: Checked) -> None:
    """A create that stands, a rename of which only the first label is done, and a first label that is longer. An
    accepted change of the region finishes them."""
    first, second = map(list, zip(pair(U1, 0, 2 * MIB, flags=UPDATING), pair(U2, 2 * MIB, 2 * MIB)))
    table = two_modules(first=first, second=second)
    other, third = space(U2, 2 * MIB, 2 * MIB), space(U3, 4 * MIB, 2 * MIB)
    before = space(U1, 0, 2 * MIB, pending="yes") + other + "ok namespaces=2\n"
    checked.lists(table, before)
    for step, reply, left in (
        (create(4 * MIB, U3), created(U3, 4 * MIB, 2 * MIB, 507), other + third), (destroy(U2), f"ok destroyed uuid={U2}", ""),
        (rename(U2, b"b"), f"ok renamed uuid={U2} name=b", space(U2, 2 * MIB, 2 * MIB, "b")),
    ):
        after = checked.steps(table, (step, reply))
        checked.lists(after, space(U1, 0, 2 * MIB) + left + f"ok namespaces={1 + left.count('uuid')}\n")
    checked.lists(checked.steps(table, (create(0, U3), "refused bad-size unit=4194304")), before)
    first, second = replace(pair(U1, 0, 2 * MIB, b"b")[0], flags=UPDATING), pair(U1, 0, 2 * MIB, b"a")[1]
    table = two_modules(first=[first], second=[second])
    checked.lists(table, space(U1, 0, 2 * MIB, "b", pending="yes") + "ok namespaces=1\n")
    after = checked.steps(
        table, (destroy("a"), "refused unknown-namespace"), (create(4 * MIB, U2, b"a"), created(U2, 2 * MIB, 2 * MIB, 508)),
    )
    checked.says("the names of U1", [after.with_uuid(handle, U1)[0].name for handle in (FIRST, SECOND)], [b"b", b"b"])
    first = pair(U1, 0, 4 * MIB, flags=UPDATING)[0]
    table = two_modules(first=[first], second=[second])
    after = checked.steps(table, (rename(U1, b"c"), f"ok renamed uuid={U1} name=c"))
    checked.says("the lengths of U1", [after.with_uuid(handle, U1)[0].size for handle in (FIRST, SECOND)], [4 * MIB] * 2)


def releases(checked: Checked) -> None:
    """A module was replaced by an empty one: what was in the other is held until it is released."""
    table = two_modules(first=[pair(U1, 0, 2 * MIB)[0]])
    checked.holds(table, FIRST, held(U1, 2 * MIB, "no") + "ok held=1 spare=509\n")
    table = checked.steps(
        table, (create(4 * MIB, U2), created(U2, 2 * MIB, 2 * MIB, 508)), (release(U2), "refused not-held"),
        (release(U1.upper()), "ok released=1"), (release(U1), "refused not-held"), (release(U1, SECOND), "refused not-held"),
    )
    checked.holds(table, FIRST, "ok held=0 spare=509\n")
    for flags in (LOCAL, ROLABEL, ROLABEL | UPDATING):
        table = two_modules(first=[Label(U1, 0, MIB, 7), Label(U1, 0, MIB, 7, flags=flags)])
        checked.steps(table, (release(U1), f"refused read-only uuid={U1}"))
    # A held label of a region whose module is missing: that is told before marks that refuse it.
    home = Region(2, 1 << 40, [Mapping(FIRST, 1, MIB, 0, 64 * MIB), Mapping(9, 3, MIB, 4096)])
    labels = (Label(U1, 0, MIB, 7, flags=ROLABEL), Label(U1, 64 * MIB, MIB, home.cookie(), nlabel=2))
    modules = {FIRST: Module("ready", 4, labels), SECOND: Module("uninit", 4), 9: Module("foreign")}
    table = Table([*two_modules().regions, home], modules)
    checked.steps(table, (release(U1), "refused not-ready foreign dimm=0x00000009"))


def released_twins(checked: Checked) -> None:
    """A uuid that stands twice in a module is held in all. Where it is released there, what is stale elsewhere is dead."""
    first, second = pair(U1, 0, 2 * MIB, flags=UPDATING)
    dead = pair(U2, 8 * MIB, MIB, flags=UPDATING)[0]
    table = two_modules(first=[first, first, dead], second=[second])
    checked.holds(table, FIRST, held(U1, 2 * MIB, "yes") * 2 + "ok held=2 spare=508\n")
    checked.holds(table, SECOND, held(U1, 2 * MIB, "yes") + "ok held=1 spare=509\n")
    table = checked.steps(table, (release(U1), "ok released=2"))
    checked.holds(table, FIRST, "ok held=0 spare=510\n")
    checked.holds(table, SECOND, "ok held=0 spare=510\n")
    left = [len(table.modules[handle].labels) for handle in (FIRST, SECOND)]
    checked.says("the labels that are left", left, [0, 1])


def initialises(checked: Checked) -> None:
    """A module gets an area: its region may have all modules then, and what is stale there is dead."""
    table = two_modules(first=[pair(U1, 0, 2 * MIB, flags=UPDATING)[0], pair(U2, 2 * MIB, 2 * MIB)[0]])
    table = Table(table.regions, {**table.modules, SECOND: Module("uninit", 14)})
    other = held(U2, 2 * MIB, "no", 2 * MIB)
    checked.holds(table, FIRST, held(U1, 2 * MIB, "yes") + other + "ok held=2 spare=508\n")
    table = checked.steps(
        table, ((init_labels, FIRST), "refused already-ready dimm=0x00000001"),
        ((init_labels, 9), "refused unknown-dimm dimm=0x00000009"),
        ((init_labels, SECOND), "ok initialised dimm=0x00000101 slots=14"),
    )
    checked.holds(table, FIRST, other + "ok held=1 spare=509\n")
    checked.holds(table, SECOND, "ok held=0 spare=14\n")
    checked.steps(table, (create(4 * MIB, U1), created(U1, 0, 2 * MIB, 13)))
    for state in ("missing", "wrong-size", "foreign"):
        table = Table(table.regions, {**table.modules, SECOND: Module(state)})
        checked.steps(table, ((init_labels, SECOND), f"refused not-ready {state} dimm=0x00000101"))


# What the rules say of the namespaces, the held labels and the spare slots alone.


def shown(table: Table) -> tuple:
    """The regions, each with its status and namespaces, and the modules, each with its state, spare and held labels."""
    regions, modules = {}, {}
    for region in table.regions:
        spaces = [
            (offset, number, name_of(label), label.abstraction, label.sector, label.size, is_pending(flags), flags & ROLABEL)
            for offset, number, label, flags in table.namespaces(region)
        ]
        regions[region.index] = (table.rule(region) or table.cause(region) or "ready", spaces)
    for handle, module in table.modules.items():
        own = []
        for label in module.labels:
            if table.is_held(handle, label):
                home = table.home(handle, label)
                flags = tuple(bool(label.flags & flag) for flag in (LOCAL, ROLABEL, UPDATING))
                own.append((label.dpa, label.size, label.uuid, flags, home.index if home else 0))
        modules[handle] = (module.state, table.spare(handle) if module.state == "ready" else 0, sorted(own))
    return regions, modules


def settled(table: Table, regions: dict, modules: dict) -> tuple:
    """Takes away the held labels that are dead now: each is stale, its region has all modules, its uuid is no namespace
    there and stands in no module of it twice."""
    def has_twice(handle: int, number: str) -> bool:
        own = [region.index for region in table.regions if handle in [part.handle for part in region.mappings]]
        spaces = [entry[1] for index in own for entry in regions[index][1]]
        return (spaces + [entry[2] for entry in modules[handle][2]]).count(number) > 1

    def is_dead(entry: tuple) -> bool:
        _, _, number, (_, read_only, updating), index = entry
        if not updating or read_only or not index:
            return False
        handles = [part.handle for part in region_at(table, index).mappings]
        all_ready = all(modules[handle][0] == "ready" for handle in handles)
        is_space = number in [entry[1] for entry in regions[index][1]]
        return all_ready and not is_space and not any(has_twice(handle, number) for handle in handles)

    left = {}
    for handle, (state, spare, own) in modules.items():
        held_still = [entry for entry in own if not is_dead(entry)]
        left[handle] = (state, spare + len(own) - len(held_still), held_still)
    return regions, left


def spared(modules: dict, region: Region, by: int) -> dict:
    """The modules, with more spare slots in those of a region."""
    handles = [part.handle for part in region.mappings]
    return {handle: (state, spare + by * (handle in handles), own) for handle, (state, spare, own) in modules.items()}


def by_rules(table: Table, command, words: tuple, reply: str) -> tuple:
    """What an accepted command makes of what is shown."""
    regions, modules = shown(table)
    told = dict(word.split("=") for word in reply.split()[2:] if "=" in word)
    if command is init_labels:
        modules[words[0]] = ("ready", table.modules[words[0]].slots, [])
        for region in table.regions:
            if words[0] in [part.handle for part in region.mappings] and not table.rule(region):
                others = [part.handle for part in table.members(region) if modules[part.handle][0] != "ready"]
                regions[region.index] = (f"{modules[others[0]][0]} dimm=0x{others[0]:08x}" if others else "ready", [])
        return settled(table, regions, modules)
    if command is release_held:
        handle, number = words
        state, spare, own = modules[handle]
        left = [entry for entry in own if entry[2] != number]
        assert reply == f"ok released={len(own) - len(left)}\n"
        modules[handle] = (state, spare + len(own) - len(left), left)
        return settled(table, regions, modules)
    region = region_at(table, words[0])
    status, spaces = regions[region.index]
    spaces = [(*entry[:6], False, entry[7]) for entry in spaces]
    if command is create_namespace:
        _, size, number, name, mode, sector = words
        length = size // len(region.mappings)
        spaces.append((int(told["offset"]), number, name, ABSTRACTIONS[mode], sector, length, False, False))
        modules = spared(modules, region, -1)
        assert int(told["spare"]) == min(modules[part.handle][1] for part in region.mappings)
    elif command is destroy_namespace:
        spaces = [entry for entry in spaces if entry[1] != told["uuid"]]
        modules = spared(modules, region, 1)
    else:
        spaces = [(*entry[:2], words[2], *entry[3:]) if entry[1] == told["uuid"] else entry for entry in spaces]
    regions[region.index] = (status, sorted(spaces))
    return regions, modules


def any_command(chance: random.Random, table: Table) -> tuple:
    """A command that may be accepted, on a region or a module of the table."""
    region, handle = chance.choice(table.regions), chance.choice(sorted(table.modules))
    spaces = table.namespaces(region)
    numbers = [f"00000000-0000-4000-8000-{chance.randint(0, 99):012x}"]
    number = chance.choice(numbers + [label.uuid for label in table.modules[handle].labels])
    given = [name_of(label) for _, _, label, _ in spaces]
    name = chance.choice([b"", b"", b"new", b"db0", b"n" * 63] + [name for name in given if is_name(name)])
    key = chance.choice([number, "db0", "none"] + [own for _, own, _, _ in spaces] * 4)
    size = MIB * len(region.mappings) * chance.choice((1, 2, 2, 2, 4, 8, 16, 32))
    mode, sector = chance.choice(list(ABSTRACTIONS)), chance.choice((512, 4096))
    empty = [handle for handle, module in sorted(table.modules.items()) if module.state == "uninit"]
    if empty and chance.random() < 0.4:
        return init_labels, (chance.choice(empty),)
    return chance.choice((
        (init_labels, (handle,)), (release_held, (handle, number)), (destroy_namespace, (region.index, key)),
        (rename_namespace, (region.index, key, name)),
        *[(create_namespace, (region.index, size, number, name, mode, sector))] * 2,
    ))


def calmed(table: Table) -> Table:
    """The table where each module has an area that can be used, and no two namespaces overlap."""
    modules = {
        handle: module if module.state == "ready" else Module("uninit", max(module.slots, 2))
        for handle, module in table.modules.items()
    }
    table = Table(table.regions, modules)
    for region in table.regions:
        while not table.rule(region) and "clash" in table.cause(region):
            table = without(table, region, table.cause(region).split("second=")[1])
    return table


def at_random(checked: Checked, count: int) -> dict:
    """Runs commands on tables made at random, and counts the replies by their first words."""
    from check_random import image

    replies = {}
    for seed in range(count):
        chance = random.Random(seed)
        table = image(chance)[2]
        if seed % 4:
            table = calmed(table)
        for _ in range(12):
            command, words = any_command(chance, table)
            after, reply = command(table, *words)
            kind = f"{command.__name__} {' '.join(reply.split()[:2])}".split("=")[0]
            replies[kind] = replies.get(kind, 0) + 1
            wanted = shown(table) if reply.startswith("refused") else by_rules(table, command, words, reply)
            checked.says(f"table {seed}: {command.__name__} {words} {reply}", shown(after), wanted)
            table = after
    return replies


def main() -> int:
    checked = Checked()
    for look in (
        creates, places, few_slots, names, foreign_names, orders, half_created, pending, releases, released_twins,
        initialises,
    ):
        look(checked)
    # The first 16 bytes that sha1sum gives of 16 zero bytes and the digit 1, with the version and the variant set.
    checked.says("a uuid of one's own", own_uuid(0, 1), "11116e73-1c03-5de6-9130-5f9925ae8ab4")
    by_hand = checked.rows
    replies = at_random(checked, int(sys.argv[1]) if len(sys.argv) > 1 else 200)
    for kind in sorted(replies):
        print(f"  {kind}: {replies[kind]}")
    print(f"{by_hand} rows by hand and {checked.rows - by_hand} steps at random, {checked.wrong} wrong")
    return 1 if checked.wrong or not by_hand else 0

