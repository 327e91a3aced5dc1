"""Platform images by the public layouts: ACPI 6.2, section 5.2.25, and UEFI 2.7, section 13.19.

Nothing here is shared with the program that is tested.
"""

import struct
from dataclasses import dataclass
from functools import cached_property
from pathlib import Path
from uuid import UUID

MIB = 1 << 20
PERSISTENT_MEMORY = UUID("66f0d379-b4f3-4074-ac43-0d3318b78cdb").bytes_le
RAW = bytes(16)
SECTOR = UUID("18633bfc-1735-4217-8ac9-17239282d3f8").bytes_le
FSDAX = UUID("266400ba-fb9f-4677-bcb0-968f11d0d225").bytes_le

ROLABEL, LOCAL, UPDATING = 1, 2, 8


def fletcher64(data: bytes) -> int:
    low = high = 0
    for (word,) in struct.iter_unpack("<I", data):
        low = (low + word) % (1 << 32)
        high = (high + low) % (1 << 32)
    return high << 32 | low


@dataclass(frozen=True)
class Label:
    """A label of 256 bytes, for a module at a position of an interleave set."""

    uuid: str
    dpa: int
    size: int
    cookie: int = 0
    name: bytes = b""
    flags: int = 0
    nlabel: int = 1
    position: int = 0
    sector: int = 512
    type_guid: bytes = PERSISTENT_MEMORY
    abstraction: bytes = RAW
    alignment: int = 0

    def bytes(self, slot: int) -> bytes:
        text = LABEL.pack(
            UUID(self.uuid).bytes, self.name, self.flags, self.nlabel, self.position, self.cookie,
            self.sector, self.dpa, self.size, slot, self.alignment, self.type_guid, self.abstraction,
        )
        return text + struct.pack("<Q", fletcher64(text + bytes(8)))


LABEL = struct.Struct("<16s64sIHHQQQQIB3x16s16s88x")


def label_in(text: bytes, slot: int):
    """The label that 256 bytes are in a slot, or None."""
    number, name, flags, nlabel, position, cookie, sector, dpa, size, own, alignment, guid, abstraction = LABEL.unpack(text[:248])
    if own != slot or fletcher64(text[:248] + bytes(8)) != int.from_bytes(text[248:], "little"):
        return None
    return Label(str(UUID(bytes=number)), dpa, size, cookie, name.rstrip(b"\0"), flags, nlabel, position, sector, guid,
                 abstraction, alignment)


def block_size(size: int, label: int = 256) -> int:
    return -(-(72 + (size // label + 7) // 8) // 256) * 256


def slot_count(size: int, label: int = 256) -> int:
    return (size - 2 * block_size(size, label)) // label


def checked_block(text: bytes) -> bytes:
    """An index block with the checksum of its bytes."""
    return text[:64] + struct.pack("<Q", fletcher64(text[:64] + bytes(8) + text[72:])) + text[72:]


def free_block(size: int, place: int, seq: int, free: int, label: int = 256) -> bytes:
    """The index block at a place of an area, for labels of a size. The bit n of a number tells that slot n is free."""
    block, slots = block_size(size, label), slot_count(size, label)
    return checked_block(struct.pack(
        "<16s3xBIQQQQIHHQ", b"NAMESPACE_INDEX\0", int(label == 256), seq, place * block, block, (1 - place) * block,
        2 * block, slots, 1, 2 if label == 256 else 1, 0,
    ) + free.to_bytes(block - 72, "little"))


def index_block(size: int, place: int, seq: int, used: int) -> bytes:
    """The index block at a place, with the first slots in use."""
    return free_block(size, place, seq, (1 << slot_count(size)) - (1 << used))


def area(size: int, labels: list = ()) -> bytes:
    """A label storage area with labels in its first slots. The block at 0 is the current one."""
    text = index_block(size, 0, 3, len(labels)) + index_block(size, 1, 2, len(labels))
    text += b"".join(label.bytes(slot) for slot, label in enumerate(labels))
    return text.ljust(size, b"\0")


@dataclass(frozen=True)
class Mapping:
    """A module's part of a region."""

    handle: int
    control: int
    size: int
    offset: int = 0
    base: int = 0


@dataclass(frozen=True)
class Region:
    """An address range with its members, and the rule by which it cannot be used, where that is known."""

    index: int
    spa: int
    mappings: list
    length: int = None
    rule: str = None

    @cached_property
    def members(self) -> list:
        """The mappings in the order of positions."""
        return sorted(self.mappings, key=lambda part: part.offset)

    @cached_property
    def _cookie(self) -> int:
        entries = sorted((part.offset, part.control) for part in self.mappings)
        return fletcher64(b"".join(struct.pack("<QIHHB31x", at, serial, 0x1234, 0, 0) for at, serial in entries))

    def cookie(self) -> int:
        return self._cookie


def line_table(index: int, ways: int) -> bytes:
    """Lines of 4,096 bytes: each module of a set has two, one in each period."""
    return struct.pack("<HHHxxIIII", 2, 24, index, 2, 4096, 0, ways)


def nfit(regions: list) -> bytes:
    """A table whose control regions have their index as the serial number, of vendor 0x1234."""
    structures = b""
    controls = {part.control for region in regions for part in region.mappings}
    for region in regions:
        length = sum(part.size for part in region.mappings) if region.length is None else region.length
        structures += struct.pack("<HHHHII16sQQQ", 0, 56, region.index, 0, 0, 0, PERSISTENT_MEMORY, region.spa, length, 0)
    for index in sorted(controls):
        structures += struct.pack("<HHHHHHHHHBBHHIHH", 4, 32, index, 0x1234, 0, 0, 0, 0, 0, 0, 0, 0, 0, index, 0x301, 0)
    for region in regions:
        ways = len(region.mappings)
        interleave = region.index if ways > 1 else 0
        if interleave:
            structures += line_table(interleave, ways)
        for part in region.mappings:
            structures += struct.pack("<HHIHHHHQQQHHHH", 1, 48, part.handle, 0, 0, region.index, part.control,
                                      part.size, part.offset, part.base, interleave, ways, 0, 0)
    text = b"NFIT" + struct.pack("<IBB6s8sI4sII", 40 + len(structures), 1, 0, b"", b"", 0, b"", 0, 0) + structures
    return text[:9] + bytes([-sum(text) % 256]) + text[10:]


def write(folder: Path, table: bytes, areas: dict) -> None:
    """Writes an image: the table, and the area of each handle. None stands for a module without one."""
    folder.mkdir(parents=True, exist_ok=True)
    (folder / "nfit.bin").write_bytes(table)
    for handle, text in areas.items():
        path = folder / f"dimm-{handle:08x}.lsa"
        path.unlink(missing_ok=True)
        if text is not None:
            path.write_bytes(text)
