"""What the labels of all modules stand for, as a plain model over lists: slow, and shared with nothing that is tested.

A module is None where it has no area, or its state and its labels in the order of slots.
"""

from dataclasses import dataclass

from platform_images import FSDAX, LOCAL, MIB, PERSISTENT_MEMORY, RAW, ROLABEL, SECTOR, UPDATING, Label, Mapping, Region
from uuid import UUID

DEVDAX = UUID("97a86d9c-3cdd-4eda-986f-5068b4f80088").bytes_le
MODES = {RAW: "raw", SECTOR: "sector", FSDAX: "fsdax", DEVDAX: "devdax"}
ALIGNMENT = 2 * MIB
GREATEST = (1 << 64) - 1


@dataclass(frozen=True)
class Module:
    state: str
    slots: int = 0
    labels: tuple = ()


def printed(name: bytes) -> str:
    name = name.split(b"\0")[0]
    if not name:
        return "-"
    if name == b"-":
        return "%2D"
    return "".join(chr(c) if 0x21 <= c <= 0x7E and c not in b'%"' else f"%{c:02X}" for c in name)


def yes(flag: bool) -> str:
    return "yes" if flag else "no"


class Table:
    def __init__(self, regions: list, modules: dict):
        self.regions = sorted(regions, key=lambda region: region.index)
        self.modules = modules
        self.known = {}

    def rule(self, region: Region) -> str:
        """The rule that is known, or else, of the rules, those that the images of the other checks can break."""
        if region.rule is not None:
            return region.rule
        if len({part.size for part in region.mappings}) > 1:
            return "sizes-differ"
        if region.length is not None and region.length != sum(part.size for part in region.mappings):
            return "capacity-differs"
        return ""

    def members(self, region: Region) -> list:
        return region.members

    def belongs(self, region: Region, handle: int, label: Label) -> bool:
        members = self.members(region)
        if self.rule(region) or label.position >= len(members):
            return False
        part = members[label.position]
        return (
            part.handle == handle and label.cookie == region.cookie() and label.nlabel == len(members)
            and label.type_guid == PERSISTENT_MEMORY and not label.flags & LOCAL and label.size > 0
            and part.base <= label.dpa and label.dpa + label.size <= part.base + part.size
        )

    def home(self, handle: int, label: Label):
        return next((region for region in self.regions if self.belongs(region, handle, label)), None)

    def with_uuid(self, handle: int, number: str) -> list:
        return [label for label in self.modules[handle].labels if label.uuid == number]

    def all_ready(self, region: Region) -> bool:
        return all(self.modules[part.handle].state == "ready" for part in region.mappings)

    def is_doubled(self, region: Region, number: str) -> bool:
        return any(len(self.with_uuid(part.handle, number)) > 1 for part in region.mappings)

    def namespace(self, region: Region, number: str):
        """The label of position 0 of a namespace, its offset and the flags of all its labels, or None."""
        key = region.index, number
        if key not in self.known:
            self.known[key] = self.found_namespace(region, number)
        return self.known[key]

    def found_namespace(self, region: Region, number: str):
        if self.rule(region) or not self.all_ready(region):
            return None
        labels = []
        for position, part in enumerate(self.members(region)):
            own = self.with_uuid(part.handle, number)
            if len(own) != 1 or not self.belongs(region, part.handle, own[0]) or own[0].position != position:
                return None
            labels.append((own[0], own[0].dpa - part.base))
        flags = 0
        for label, _ in labels:
            flags |= label.flags
        one_size = len({label.size for label, _ in labels}) == 1
        if len({offset for _, offset in labels}) > 1:
            return None
        if not one_size and not (labels[0][0].flags & UPDATING and not flags & ROLABEL):
            return None
        return labels[0][0], labels[0][1], flags

    def namespaces(self, region: Region) -> list:
        first = self.modules[self.members(region)[0].handle]
        found = {label.uuid: self.namespace(region, label.uuid) for label in first.labels}
        listed = [(offset, number, label, flags) for number, space in found.items() if space for label, offset, flags in [space]]
        return sorted(listed, key=lambda space: (space[0], UUID(space[1]).bytes))

    def is_stale(self, handle: int, label: Label) -> bool:
        return bool(label.flags & UPDATING) and not label.flags & ROLABEL and self.home(handle, label) is not None

    def is_dead(self, handle: int, label: Label) -> bool:
        region = self.home(handle, label)
        return (
            self.is_stale(handle, label) and self.all_ready(region)
            and self.namespace(region, label.uuid) is None and not self.is_doubled(region, label.uuid)
        )

    def is_held(self, handle: int, label: Label) -> bool:
        region = self.home(handle, label)
        of_namespace = region is not None and self.namespace(region, label.uuid) is not None
        return not self.is_dead(handle, label) and not of_namespace

    def spare(self, handle: int) -> int:
        module = self.modules[handle]
        return module.slots - sum(not self.is_dead(handle, label) for label in module.labels)

    def cause(self, region: Region) -> str:
        """Why a usable region is not Ready, or nothing."""
        for part in self.members(region):
            if self.modules[part.handle].state != "ready":
                return f"{self.modules[part.handle].state} dimm=0x{part.handle:08x}"
        spaces = self.namespaces(region)
        for one, other in zip(spaces, spaces[1:]):
            if other[0] < one[0] + one[2].size and one[0] < other[0] + other[2].size:
                return f"clash first={one[1]} second={other[1]}"
        return ""

    def free(self, region: Region) -> list:
        size = region.mappings[0].size
        taken = [(offset, offset + label.size) for offset, _, label, _ in self.namespaces(region)]
        for part in region.mappings:
            for label in self.modules[part.handle].labels:
                if self.is_held(part.handle, label):
                    taken.append((label.dpa - part.base, label.dpa - part.base + label.size))
        extents, at = [], 0
        for start, end in sorted((max(start, 0), min(end, size)) for start, end in taken if end > 0 and start < min(end, size)):
            if at < start:
                extents.append((at, start - at))
            at = max(at, end)
        return extents + ([(at, size - at)] if at < size else [])

    def largest(self, region: Region) -> int:
        """The size of the greatest new namespace."""
        aligned = [(at + size) // ALIGNMENT * ALIGNMENT - -(-at // ALIGNMENT) * ALIGNMENT for at, size in self.free(region)]
        return min(len(region.mappings) * max([0, *aligned]), GREATEST)

    # The replies.

    def refusal(self, region: Region) -> str:
        if self.rule(region):
            return f"refused unusable rule={self.rule(region)}\n"
        cause = self.cause(region)
        return f"refused not-ready {cause}\n" if cause else ""

    def space_lines(self, region: Region) -> list:
        ways = len(region.mappings)
        return [
            f"  namespace uuid={number} name={printed(label.name)} region={region.index}"
            f" mode={MODES.get(label.abstraction, 'other')} sector={label.sector} offset={offset} length={label.size}"
            f" size={ways * label.size} pending={yes(flags & UPDATING and not flags & ROLABEL)}"
            f" read-only={yes(flags & ROLABEL)}\n"
            for offset, number, label, flags in self.namespaces(region)
        ]

    def list_spaces(self, regions: list) -> str:
        lines = [line for region in regions for line in self.space_lines(region)]
        return "".join(lines) + f"ok namespaces={len(lines)}\n"

    def list_all(self) -> str:
        return self.list_spaces([region for region in self.regions if not self.refusal(region)])

    def list_region(self, region: Region) -> str:
        return self.refusal(region) or self.list_spaces([region])

    def list_regions(self) -> str:
        lines = []
        for region in self.regions:
            size = sum(part.size for part in region.mappings) if region.length is None else region.length
            start = f"  region index={region.index} spa=0x{region.spa:016x} size={size}"
            if self.rule(region):
                lines.append(f"{start} status=unusable rule={self.rule(region)}\n")
            else:
                status = self.cause(region) or "ready"
                lines.append(f"{start} ways={len(region.mappings)} cookie=0x{region.cookie():016x} status={status}\n")
        return "".join(lines) + f"ok regions={len(lines)}\n"

    def list_free(self, region: Region) -> str:
        if self.refusal(region):
            return self.refusal(region)
        extents = self.free(region)
        lines = "".join(f"  free offset={at} length={size}\n" for at, size in extents)
        return f"{lines}ok free={len(extents)} largest={self.largest(region)}\n"

    def list_held(self, handle: int) -> str:
        module = self.modules[handle]
        if module.state != "ready":
            return f"refused not-ready {module.state} dimm=0x{handle:08x}\n"
        held = []
        for label in module.labels:
            if self.is_held(handle, label):
                region = self.home(handle, label)
                flags = tuple(bool(label.flags & flag) for flag in (LOCAL, ROLABEL, UPDATING))
                held.append((label.dpa, label.size, UUID(label.uuid).bytes, flags, region.index if region else 0, label))
        lines = [
            f"  held uuid={label.uuid} dpa=0x{label.dpa:016x} size={label.size} local={yes(flags[0])}"
            f" read-only={yes(flags[1])} updating={yes(flags[2])}\n"
            for *_, flags, _, label in sorted(held, key=lambda entry: entry[:5])
        ]
        return "".join(lines) + f"ok held={len(lines)} spare={self.spare(handle)}\n"
