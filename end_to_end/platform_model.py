"""NFITs by their structures, and a plain model of what they say: the first fault, the rules of regions, translation.

It is written from docs/FORMATS.md and ACPI 6.2, section 5.2.25, and shares nothing with the program that is tested.
"""

import struct
from dataclasses import dataclass

from platform_images import PERSISTENT_MEMORY, Mapping, Region, fletcher64

GREATEST = 1 << 63


@dataclass(frozen=True)
class Range:
    index: int
    base: int
    length: int
    guid: bytes = PERSISTENT_MEMORY

    def bytes(self) -> bytes:
        return struct.pack("<HHHHII16sQQQ", 0, 56, self.index, 0, 0, 0, self.guid, self.base, self.length, 0)


@dataclass(frozen=True)
class Part:
    handle: int
    range: int
    size: int
    offset: int = 0
    base: int = 0
    control: int = 1
    interleave: int = 0
    ways: int = 1

    def bytes(self) -> bytes:
        return struct.pack("<HHIHHHHQQQHHHH", 1, 48, self.handle, 0, 0, self.range, self.control, self.size, self.offset,
                           self.base, self.interleave, self.ways, 0, 0)


@dataclass(frozen=True)
class Lines:
    index: int
    size: int
    lines: tuple

    def bytes(self) -> bytes:
        return struct.pack(f"<HHHxxII{len(self.lines)}I", 2, 16 + 4 * len(self.lines), self.index, len(self.lines), self.size, *self.lines)


@dataclass(frozen=True)
class Control:
    index: int
    serial: int

    def bytes(self) -> bytes:
        return struct.pack("<HHHHHHHHHBBHHIHH", 4, 32, self.index, 0x1234, 0, 0, 0, 0, 0, 0, 0, 0, 0, self.serial, 0x301, 0)


def table(structures: bytes) -> bytes:
    """The table of these structures, with its length and its checksum."""
    text = b"NFIT" + struct.pack("<IBB6s8sI4sII", 40 + len(structures), 1, 0, b"", b"", 0, b"", 0, 0) + structures
    return text[:9] + bytes([-sum(text) % 256]) + text[10:]


def first_fault(text: bytes) -> str:
    """The first fault of a table, or nothing."""
    if len(text) < 40:
        return f"short length={len(text)}"
    if text[:4] != b"NFIT":
        return "signature"
    told = int.from_bytes(text[4:8], "little")
    if told != len(text):
        return f"length told={told} length={len(text)}"
    if text[8] != 1:
        return f"revision value={text[8]}"
    if sum(text) % 256:
        return f"checksum sum={sum(text) % 256}"
    at, seen, ranges, handles = 40, set(), 0, set()
    found = []
    while at < len(text):
        if len(text) - at < 4:
            return f"structure at={at}"
        kind, length = struct.unpack_from("<HH", text, at)
        least = {0: 56, 1: 48, 2: 16, 4: 32}.get(kind, 4)
        if kind == 2 and length >= 16 and at + 12 <= len(text):
            least = 16 + 4 * int.from_bytes(text[at + 8 : at + 12], "little")
        if length < least or at + length > len(text):
            return f"structure at={at}"
        found.append((kind, text[at : at + length]))
        at += length
    for kind, piece in found:
        index = int.from_bytes(piece[4:6], "little")
        if kind in (0, 2, 4) and index:
            if (kind, index) in seen:
                return f"twice-index kind={kind} index={index}"
            seen.add((kind, index))
        if kind == 0 and index and piece[16:32] == PERSISTENT_MEMORY:
            ranges += 1
        if kind == 1:
            handles.add(piece[4:8])
    if ranges > 64:
        return "too-many kind=0"
    return "too-many kind=1" if len(handles) > 64 else ""


class Platform:
    def __init__(self, ranges: list, parts: list, controls: list, lines: list):
        self.ranges, self.parts, self.controls, self.lines = ranges, parts, controls, lines

    def table(self) -> bytes:
        return table(b"".join(piece.bytes() for piece in [*self.ranges, *self.controls, *self.lines, *self.parts]))

    def regions(self) -> list:
        return sorted((r for r in self.ranges if r.index and r.guid == PERSISTENT_MEMORY), key=lambda r: r.index)

    def members(self, region: Range) -> list:
        return sorted((part for part in self.parts if part.range == region.index), key=lambda part: part.offset)

    def serial(self, part: Part):
        return next((control.serial for control in self.controls if control.index and control.index == part.control), None)

    def cookie(self, region: Range) -> int:
        return fletcher64(b"".join(struct.pack("<QIHHB31x", part.offset, self.serial(part), 0x1234, 0, 0) for part in self.members(region)))

    def rule(self, region: Range) -> str:
        """The first rule by which a region cannot be used, or nothing."""
        parts = self.members(region)
        names = {other.index for other in self.regions()}
        if not parts:
            return "no-mapping"
        if len(parts) > 16:
            return "too-many-ways"
        if not region.length:
            return "empty"
        if len({part.size for part in parts}) > 1:
            return "sizes-differ"
        if len(parts) * parts[0].size != region.length:
            return "capacity-differs"
        if region.base + region.length > GREATEST or any(part.base + part.size > GREATEST for part in parts):
            return "overflow"
        if len({part.handle for part in parts}) < len(parts):
            return "module-twice"
        if len({part.offset for part in parts}) < len(parts):
            return "offset-twice"
        if any(self.serial(part) is None for part in parts):
            return "no-control"
        for part in parts:
            for other in self.parts:
                if other.range in names and other.range != region.index and other.handle == part.handle and part.size and other.size \
                        and part.base < other.base + other.size and other.base < part.base + part.size:
                    return "dpa-overlap"
        return ""

    def list_regions(self) -> str:
        said = ""
        for region in self.regions():
            rule = self.rule(region)
            said += f"  region index={region.index} spa=0x{region.base:016x} size={region.length}"
            if rule:
                said += f" status=unusable rule={rule}\n"
            else:
                ways, first = len(self.members(region)), self.members(region)[0]
                said += f" ways={ways} cookie=0x{self.cookie(region):016x} status=missing dimm=0x{first.handle:08x}\n"
        return said + f"ok regions={len(self.regions())}\n"

    def line_table(self, part: Part):
        return next((lines for lines in self.lines if lines.index and lines.index == part.interleave), None)

    def translation_fault(self, region: Range) -> str:
        parts = self.members(region)
        if len(parts) == 1 and parts[0].interleave == 0:
            return ""
        tables = [self.line_table(part) for part in parts]
        if None in tables:
            return "no-interleave"
        if any(len(lines.lines) > 4096 for lines in tables):
            return "too-many-lines"
        if any(part.ways != len(parts) for part in parts):
            return "ways-differ"
        m, s = len(tables[0].lines), tables[0].size
        if any((len(lines.lines), lines.size) != (m, s) for lines in tables) or not m or not s:
            return "lines-differ"
        if any(part.offset % s for part in parts):
            return "offset-not-line"
        if parts[0].size % (m * s):
            return "ragged"
        count = {}
        for part, lines in zip(parts, tables):
            for line in lines.lines:
                count[part.offset // s + line] = count.get(part.offset // s + line, 0) + 1
        for line in range(len(parts) * m):
            if count.get(line, 0) != 1:
                return f"not-partition line={line}"
        return ""

    def spa(self, region: Range, part: Part, byte: int) -> int:
        """The address of a byte of a member's part."""
        lines = self.line_table(part)
        if lines is None:
            return region.base + byte
        m, s = len(lines.lines), lines.size
        line, sub = divmod(byte, s)
        skip, j = divmod(line, m)
        return region.base + part.offset + lines.lines[j] * s + skip * len(self.members(region)) * m * s + sub

    def bytes_of(self, region: Range) -> dict:
        """Every address of a small region, with its module and the address there."""
        return {
            self.spa(region, part, byte): (part.handle, part.base + byte)
            for part in self.members(region) for byte in range(part.size)
        }

    def runs(self, region: Range, spa: int, length: int) -> str:
        """The bytes of each module behind a range, by position, in as few runs as there are."""
        found, said, count = self.bytes_of(region), "", 0
        for part in self.members(region):
            own = sorted(dpa for at in range(spa, spa + length) for handle, dpa in [found[at]] if handle == part.handle)
            start = 0
            for i in range(1, len(own) + 1):
                if i == len(own) or own[i] != own[i - 1] + 1:
                    said += f"  run dimm=0x{part.handle:08x} dpa=0x{own[start]:016x} length={i - start}\n"
                    start, count = i, count + 1
        return said + f"ok runs={count}\n"


def platform_in(text: bytes) -> Platform:
    """The platform that a table without a fault describes."""
    found, at = {0: [], 1: [], 2: [], 4: []}, 40
    while at < len(text):
        kind, length = struct.unpack_from("<HH", text, at)
        found.setdefault(kind, []).append(text[at : at + length])
        at += length
    ranges = [Range(index, base, size, guid) for index, guid, base, size in (struct.unpack_from("<H10x16sQQ", own, 4) for own in found[0])]
    parts = []
    for own in found[1]:
        handle, index, control, size, offset, base, interleave, ways = struct.unpack_from("<I4xHHQQQHH", own, 4)
        parts.append(Part(handle, index, size, offset, base, control, interleave, ways))
    lines = []
    for own in found[2]:
        index, count, size = struct.unpack_from("<HxxII", own, 4)
        lines.append(Lines(index, size, struct.unpack_from(f"<{count}I", own, 16)))
    controls = []
    for own in found[4]:
        index, vendor, location, date, serial = struct.unpack_from("<HH11xBH2xI", own, 4)
        assert (vendor, location, date) == (0x1234, 0, 0), "the model of cookies knows one kind of module"
        controls.append(Control(index, serial))
    return Platform(ranges, parts, controls, lines)


def regions_of(platform: Platform) -> list:
    """Its regions, as the model of the table has them: a mapping's control is the serial number."""
    regions = []
    for own in platform.regions():
        parts = [Mapping(part.handle, platform.serial(part) or 0, part.size, part.offset, part.base) for part in platform.members(own)]
        regions.append(Region(own.index, own.base, parts, own.length, platform.rule(own)))
    return regions


def module_at(platform: Platform, region: Range, spa: int):
    """The member and the byte of its part at an address of a region that can be translated, or None."""
    parts, byte = platform.members(region), spa - region.base
    if not 0 <= byte < region.length:
        return None
    if not parts[0].interleave:
        return parts[0], byte
    own = platform.line_table(parts[0])
    period = len(parts) * len(own.lines) * own.size
    skip, rest = divmod(byte, period)
    line, sub = divmod(rest, own.size)
    for part in parts:
        for place, at in enumerate(platform.line_table(part).lines):
            if part.offset // own.size + at == line:
                return part, (skip * len(own.lines) + place) * own.size + sub
    raise AssertionError("a line of no member")


def runs_between(platform: Platform, region: Range, spa: int, length: int) -> list:
    """The bytes of each module behind a range: handle, start and length, by position, in as few runs as there are."""
    parts, found = platform.members(region), {}
    step = platform.line_table(parts[0]).size if parts[0].interleave else region.length
    at = spa
    while at < spa + length:
        end = min(spa + length, region.base + ((at - region.base) // step + 1) * step)
        part, byte = module_at(platform, region, at)
        found.setdefault(parts.index(part), []).append((part.base + byte, end - at))
        at = end
    runs = []
    for place in sorted(found):
        for dpa, count in sorted(found[place]):
            if runs and runs[-1][0] == parts[place].handle and runs[-1][1] + runs[-1][2] == dpa:
                runs[-1][2] += count
            else:
                runs.append([parts[place].handle, dpa, count])
    return runs
