#!/usr/bin/env python3
"""What the commands that change areas make of a table, as a plain model: refusals in their order, changes, replies.

Each command takes a table and gives the table afterwards, which is the same one where it is refused, and its reply. Only
how many slots a module has matters here, and not which of them a label is in. Junk is in no table.

    python3 end_to_end/step_model.py [COUNT]

runs the rows of step_rows.py.
"""

import sys
from dataclasses import replace
from uuid import UUID, uuid5

from platform_images import LOCAL, MIB, ROLABEL, UPDATING, Label, Mapping, Region
from table_model import ALIGNMENT, MODES, Module, Table, printed

ABSTRACTIONS = {word: guid for guid, word in MODES.items()}


def own_uuid(seed: int, line: int) -> str:
    """The uuid of a namespace that is made without one, by a line with this number."""
    return str(uuid5(UUID(int=seed), str(line)))


def changed(table: Table, labels: dict) -> Table:
    """The table in which modules have these labels."""
    modules = {handle: replace(table.modules[handle], labels=tuple(own)) for handle, own in labels.items()}
    return Table(table.regions, {**table.modules, **modules})


def name_of(label: Label) -> bytes:
    return label.name.split(b"\0")[0]


def is_uuid(key: str) -> bool:
    parts = key.split("-")
    digits = all(c in "0123456789abcdefABCDEF" for part in parts for c in part)
    return digits and [len(part) for part in parts] == [8, 4, 4, 4, 12]


def is_name(name: bytes) -> bool:
    """Whether a name can be given in a line."""
    is_text = all(c < 128 and chr(c).isalnum() or c in b"._-" for c in name)
    return is_text and len(name) < 64 and not is_uuid(name.decode())


def is_pending(flags: int) -> bool:
    return bool(flags & UPDATING) and not flags & ROLABEL


# What an accepted command makes of the labels.


def swept(table: Table, handle: int) -> list:
    """The labels of a module that are not dead."""
    return [label for label in table.modules[handle].labels if not table.is_dead(handle, label)]


def with_values(table: Table, region: Region, number: str, values: dict) -> Table:
    """The table where the labels of a namespace have these values, and no mark."""
    labels = {}
    for part in region.mappings:
        own = table.modules[part.handle].labels
        labels[part.handle] = [
            replace(label, flags=label.flags & ~UPDATING, **values) if label.uuid == number else label for label in own
        ]
    return changed(table, labels)


def without(table: Table, region: Region, number: str) -> Table:
    """The table without the labels of a region's modules that have a uuid."""
    labels = {}
    for part in region.mappings:
        labels[part.handle] = [label for label in table.modules[part.handle].labels if label.uuid != number]
    return changed(table, labels)


def healed(table: Table, region: Region, number: str) -> Table:
    """The table where the labels of a namespace have the values of the first."""
    first = table.with_uuid(table.members(region)[0].handle, number)[0]
    values = dict(name=first.name, size=first.size, sector=first.sector, abstraction=first.abstraction)
    return with_values(table, region, number, values)


def recovered(table: Table, region: Region) -> Table:
    """The region's modules have no dead label, and none of its namespaces is pending."""
    table = changed(table, {part.handle: swept(table, part.handle) for part in region.mappings})
    for _, number, _, flags in table.namespaces(region):
        if is_pending(flags):
            table = healed(table, region, number)
    return table


# The refusals that commands share.


def region_refusal(table: Table, index: int) -> str:
    """The first refusal of a change of a region before its command's: unknown, unusable, not Ready, unhealed."""
    region = region_at(table, index)
    if region is None:
        return f"refused unknown-region region={index}\n"
    if table.refusal(region):
        return table.refusal(region)
    if any(is_pending(flags) for *_, flags in table.namespaces(region)):
        for part in table.members(region):
            if table.spare(part.handle) == 0:
                return f"refused unhealed dimm=0x{part.handle:08x}\n"
    return ""


def region_at(table: Table, index: int):
    return next((region for region in table.regions if region.index == index), None)


def key_refusal(spaces: list) -> str:
    """The first refusal of the namespaces that a key fits: none, several, or one that is read-only."""
    if not spaces:
        return "refused unknown-namespace\n"
    if len(spaces) > 1:
        return f"refused ambiguous count={len(spaces)}\n"
    _, number, _, flags = spaces[0]
    return f"refused read-only uuid={number}\n" if flags & ROLABEL else ""


def name_refusal(table: Table, region: Region, name: bytes, but: str = "") -> str:
    """Whether a namespace of the region, but the one that is named, has a name that is not empty."""
    for _, number, label, _ in table.namespaces(region):
        if name and name_of(label) == name and number != but:
            return f"refused name-in-use uuid={number}\n"
    return ""


def slot_refusal(table: Table, region: Region, least: int) -> str:
    """Whether a module of the region has fewer spare slots."""
    for part in table.members(region):
        if table.spare(part.handle) < least:
            return f"refused no-slots dimm=0x{part.handle:08x} spare={table.spare(part.handle)}\n"
    return ""


def fitting(table: Table, region: Region, key: str) -> list:
    """The namespaces of the region that a key fits: the one with a uuid, or those with a name."""
    if is_uuid(key):
        return [space for space in table.namespaces(region) if space[1] == key.lower()]
    return [space for space in table.namespaces(region) if name_of(space[2]) == key.encode()]


# The commands.


def init_labels(table: Table, handle: int) -> tuple:
    """A module without index blocks has its number of slots in the table already."""
    if handle not in table.modules:
        return table, f"refused unknown-dimm dimm=0x{handle:08x}\n"
    module = table.modules[handle]
    if module.state == "ready":
        return table, f"refused already-ready dimm=0x{handle:08x}\n"
    if module.state != "uninit":
        return table, f"refused not-ready {module.state} dimm=0x{handle:08x}\n"
    after = Table(table.regions, {**table.modules, handle: Module("ready", module.slots)})
    return after, f"ok initialised dimm=0x{handle:08x} slots={module.slots}\n"


def create_refusal(table: Table, region: Region, size: int, number: str, name: bytes) -> str:
    unit = len(region.mappings) * ALIGNMENT
    if size == 0 or size % unit:
        return f"refused bad-size unit={unit}\n"
    if name_refusal(table, region, name):
        return name_refusal(table, region, name)
    for handle in sorted(table.modules):
        if any(not table.is_dead(handle, label) for label in table.with_uuid(handle, number)):
            return f"refused uuid-in-use dimm=0x{handle:08x}\n"
    if table.largest(region) < size:
        return f"refused no-space largest={table.largest(region)}\n"
    return slot_refusal(table, region, 2)


def first_fit(table: Table, region: Region, length: int) -> int:
    """The least multiple of 2 MiB from which so many bytes are common free."""
    starts = [(-(-at // ALIGNMENT) * ALIGNMENT, at + size) for at, size in table.free(region)]
    return min(start for start, end in starts if start + length <= end)


def create_namespace(table: Table, index: int, size: int, number: str, name: bytes = b"", mode: str = "raw",
                     sector: int = 512) -> tuple:
    refusal = region_refusal(table, index)
    if refusal:
        return table, refusal
    region, number = region_at(table, index), number.lower()
    refusal = create_refusal(table, region, size, number, name)
    if refusal:
        return table, refusal
    ways = len(region.mappings)
    length = size // ways
    offset = first_fit(table, region, length)
    after = recovered(table, region)
    labels = {}
    for position, part in enumerate(table.members(region)):
        label = Label(number, part.base + offset, length, region.cookie(), name, 0, ways, position, sector,
                      abstraction=ABSTRACTIONS[mode])
        labels[part.handle] = [*after.modules[part.handle].labels, label]
    after = changed(after, labels)
    spare = min(after.spare(part.handle) for part in region.mappings)
    return after, f"ok created uuid={number} region={index} offset={offset} length={length} size={size} spare={spare}\n"


def destroy_namespace(table: Table, index: int, key: str) -> tuple:
    refusal = region_refusal(table, index)
    if refusal:
        return table, refusal
    region = region_at(table, index)
    spaces = fitting(table, region, key)
    refusal = key_refusal(spaces) or slot_refusal(table, region, 1)
    if refusal:
        return table, refusal
    number = spaces[0][1]
    after = recovered(table, region)
    after = without(after, region, number)
    return after, f"ok destroyed uuid={number}\n"


def rename_namespace(table: Table, index: int, key: str, name: bytes) -> tuple:
    refusal = region_refusal(table, index)
    if refusal:
        return table, refusal
    region = region_at(table, index)
    spaces = fitting(table, region, key)
    number = spaces[0][1] if spaces else ""
    refusal = key_refusal(spaces) or name_refusal(table, region, name, number) or slot_refusal(table, region, 1)
    if refusal:
        return table, refusal
    after = with_values(recovered(table, region), region, number, dict(name=name))
    return after, f"ok renamed uuid={number} name={printed(name)}\n"


def release_refusal(table: Table, handle: int, number: str) -> str:
    if handle not in table.modules:
        return f"refused unknown-dimm dimm=0x{handle:08x}\n"
    if table.modules[handle].state != "ready":
        return f"refused not-ready {table.modules[handle].state} dimm=0x{handle:08x}\n"
    held = [label for label in table.with_uuid(handle, number) if table.is_held(handle, label)]
    if not held:
        return "refused not-held\n"
    homes = [region for region in table.regions if any(table.home(handle, label) is region for label in held)]
    for region in homes:
        if not table.all_ready(region):
            return f"refused not-ready {table.cause(region)}\n"
    return f"refused read-only uuid={number}\n" if any(label.flags & (ROLABEL | LOCAL) for label in held) else ""


def release_held(table: Table, handle: int, number: str) -> tuple:
    number = number.lower()
    refusal = release_refusal(table, handle, number)
    if refusal:
        return table, refusal
    left = [label for label in swept(table, handle) if label.uuid != number or not table.is_held(handle, label)]
    count = len(swept(table, handle)) - len(left)
    return changed(table, {handle: left}), f"ok released={count}\n"


if __name__ == "__main__":
    from step_rows import main

    sys.exit(main())
