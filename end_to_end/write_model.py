"""The order in which an accepted command writes, as a plain model over bytes: flips, sweeps, heals, recovery, and the
passes of each command. What a command answers, and whether it is accepted, is the business of step_model.py.
"""

from dataclasses import replace

from area_model import area_of, is_size
from platform_images import UPDATING, Label, Region
from step_model import ABSTRACTIONS, is_pending, region_at
from table_model import Module, Table

HEALED = ("name", "size", "sector", "abstraction")
"""The fields of a label that a heal takes from the one of position 0."""


def module_of(text: bytes) -> Module:
    """What the bytes of an area are in a table."""
    area = area_of(text)
    if area.state == "ready":
        return Module("ready", area.slots, tuple(area.labels.values()))
    return Module(area.state, area.slots if area.state == "uninit" else 0)


def differs(label: Label, wanted: dict) -> bool:
    """Whether a label has other values. Names are compared up to their first zero byte."""
    own = {field: getattr(label, field) for field in HEALED}
    return any(own[field] != value for field, value in wanted.items() if field != "name") or (
        own["name"].split(b"\0")[0] != wanted["name"].split(b"\0")[0]
    )


class Writes:
    """The areas of a rig as a command changes them."""

    def __init__(self, rig, regions: list, handles: list):
        self.rig, self.regions, self.handles = rig, regions, handles
        self.last = None, None

    def area(self, handle: int):
        return area_of(self.rig.areas.get(handle))

    def table(self) -> Table:
        """The table of the areas as they are now."""
        stored = [self.rig.areas.get(handle) for handle in self.handles]
        if self.last[0] != stored:
            self.last = stored, Table(self.regions, dict(zip(self.handles, map(module_of, stored))))
        return self.last[1]

    def flip(self, handle: int, label: Label = None, freed: list = ()) -> None:
        for at, new in self.area(handle).flip(label, freed):
            self.rig.write(handle, at, new)

    def own(self, handle: int, number: str) -> tuple:
        """The slot and the label of a namespace in a module."""
        return next((slot, label) for slot, label in self.area(handle).labels.items() if label.uuid == number)

    def change(self, handle: int, number: str, **fields) -> None:
        """One flip that replaces the label of a namespace by one with other fields."""
        slot, label = self.own(handle, number)
        self.flip(handle, replace(label, **fields), [slot])

    def useless(self, handle: int) -> list:
        """The slots of a module with junk or a dead label."""
        table, area = self.table(), self.area(handle)
        return area.junk() + [slot for slot, label in area.labels.items() if table.is_dead(handle, label)]

    def sweep(self, handle: int) -> None:
        if self.useless(handle):
            self.flip(handle, freed=self.useless(handle))

    def members(self, region: Region) -> list:
        return [part.handle for part in self.table().members(region)]

    def heal(self, region: Region, number: str) -> None:
        """The labels of a namespace become like that of position 0, which is unmarked last."""
        first, *others = self.members(region)
        wanted = {field: getattr(self.own(first, number)[1], field) for field in HEALED}
        for handle in others:
            label = self.own(handle, number)[1]
            if label.flags & UPDATING or differs(label, wanted):
                self.change(handle, number, flags=label.flags & ~UPDATING, **wanted)
        label = self.own(first, number)[1]
        if label.flags & UPDATING:
            self.change(first, number, flags=label.flags & ~UPDATING)

    def recover(self, region: Region) -> None:
        for handle in self.members(region):
            self.sweep(handle)
        for _, number, _, flags in self.table().namespaces(region):
            if is_pending(flags):
                self.heal(region, number)

    def load(self, handle: int) -> None:
        """An area that is not to be initialised is read again, so that the refusal tells what it is now."""
        size = self.rig.size(handle)
        if size is not None and is_size(size):
            self.rig.read(handle, 0, 0)

    # The commands, where they are accepted.

    def init_labels(self, handle: int) -> None:
        """The area is looked at once more, at the three places where a block may stand."""
        area = self.area(handle)
        self.rig.size(handle)
        for _ in range(3):
            self.rig.read(handle, 0, 0)
        for at, new in area.vacant_blocks():
            self.rig.write(handle, at, new)

    def create_namespace(self, index: int, number: str, name: bytes, mode: str, sector: int, offset: int,
                         length: int) -> None:
        region = region_at(self.table(), index)
        self.recover(region)
        parts = self.table().members(region)
        for position, part in enumerate(parts):
            self.flip(part.handle, Label(
                number, part.base + offset, length, region.cookie(), name, UPDATING, len(parts), position, sector,
                abstraction=ABSTRACTIONS[mode],
            ))
        self.heal(region, number)

    def rename_namespace(self, index: int, number: str, name: bytes) -> None:
        region = region_at(self.table(), index)
        self.recover(region)
        first = self.members(region)[0]
        self.change(first, number, name=name, flags=self.own(first, number)[1].flags | UPDATING)
        self.heal(region, number)

    def destroy_namespace(self, index: int, number: str) -> None:
        region = region_at(self.table(), index)
        self.recover(region)
        handles = self.members(region)
        for handle in handles:
            self.change(handle, number, flags=self.own(handle, number)[1].flags | UPDATING)
        for handle in handles:
            self.flip(handle, freed=[self.own(handle, number)[0]])

    def release_held(self, handle: int, number: str) -> None:
        table, labels = self.table(), self.area(handle).labels.items()
        held = [slot for slot, label in labels if label.uuid == number and table.is_held(handle, label)]
        self.flip(handle, freed=sorted({*held, *self.useless(handle)}))
