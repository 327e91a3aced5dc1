"""A label storage area by its bytes, written from docs/FORMATS.md: its index blocks, its kind, its labels, and the
writes of a flip and of an initialisation. Nothing here is shared with the program that is tested.
"""

from functools import cached_property, lru_cache

from platform_images import Label, block_size, checked_block, free_block, label_in, slot_count

LEAST, GREATEST, UNIT = 1024, 1 << 20, 256
WINDOW = 4096


def is_size(size: int) -> bool:
    return LEAST <= size <= GREATEST and size % UNIT == 0


def geometry(size: int, label: int):
    """The size of an index block and the number of slots, or None."""
    return (block_size(size, label), slot_count(size, label)) if is_size(size) and label in (128, 256) else None


def is_signed(window: bytes) -> bool:
    """Whether the bytes from a place on begin with a block that has the signature and the right checksum."""
    own = int.from_bytes(window[32:40], "little")
    if window[:16] != b"NAMESPACE_INDEX\0" or own % UNIT or not UNIT <= own <= min(len(window), WINDOW):
        return False
    return checked_block(window[:own]) == window[:own]


def usable_seq(window: bytes, place: int, size: int, label: int = 256) -> int:
    """The sequence number of a usable block at a place of an area, or 0."""
    if not is_signed(window):
        return 0
    seq = window[20] % 4
    wanted = free_block(size, place, seq, 0, label)
    looked_at = (slice(19, 20), slice(24, 64))
    return seq if all(window[part] == wanted[part] for part in looked_at) else 0


def current(first: int, second: int):
    """The place of the current block of two with these sequence numbers, of which 0 is none."""
    if not first or not second:
        return 0 if first else 1 if second else None
    return 0 if first == next_seq(second) else 1


def next_seq(seq: int) -> int:
    return seq % 3 + 1


class Area:
    """What the bytes of an area stand for. None stands for a module without an area."""

    def __init__(self, text: bytes):
        self.text = text

    @cached_property
    def block(self) -> int:
        return block_size(len(self.text))

    @cached_property
    def slots(self) -> int:
        return slot_count(len(self.text))

    def window(self, at: int) -> bytes:
        return self.text[at : at + WINDOW]

    @cached_property
    def seqs(self) -> tuple:
        return tuple(usable_seq(self.window(place * self.block), place, len(self.text)) for place in (0, 1))

    @cached_property
    def place(self):
        return current(*self.seqs)

    @property
    def seq(self) -> int:
        return self.seqs[self.place]

    @cached_property
    def state(self) -> str:
        if self.text is None:
            return "missing"
        if not is_size(len(self.text)):
            return "wrong-size"
        if self.place is not None:
            return "ready"
        places = {0, self.block, block_size(len(self.text), 128)}
        return "foreign" if any(is_signed(self.window(at)) for at in places) else "uninit"

    @cached_property
    def free(self) -> int:
        """The free slots, as bits of a number."""
        at = self.place * self.block + 72
        return int.from_bytes(self.text[at : at + (self.slots + 7) // 8], "little") % (1 << self.slots)

    def used(self) -> list:
        return [slot for slot in range(self.slots) if not self.free >> slot & 1]

    def slot_at(self, slot: int) -> int:
        return 2 * self.block + 256 * slot

    @cached_property
    def labels(self) -> dict:
        """The live labels by slot."""
        found = {slot: label_in(self.text[self.slot_at(slot) :][:256], slot) for slot in self.used()}
        return {slot: label for slot, label in found.items() if label}

    def junk(self) -> list:
        return [slot for slot in self.used() if slot not in self.labels]

    def first_free(self) -> int:
        return (self.free & -self.free).bit_length() - 1

    def flip(self, label: Label = None, freed: tuple = ()) -> list:
        """The writes, as offsets and bytes, that put a label into the least free slot, if there is one, and free slots."""
        free, writes = self.free, []
        if label:
            slot = self.first_free()
            writes.append((self.slot_at(slot), label.bytes(slot)))
            free &= ~(1 << slot)
        for slot in freed:
            free |= 1 << slot
        other = 1 - self.place
        return writes + [(other * self.block, free_block(len(self.text), other, next_seq(self.seq), free))]

    def vacant_blocks(self) -> list:
        """The writes that initialise the area."""
        all_free = (1 << self.slots) - 1
        return [(place * self.block, free_block(len(self.text), place, 3 - place, all_free)) for place in (0, 1)]


@lru_cache(maxsize=4096)
def area_of(text: bytes) -> Area:
    return Area(text)
