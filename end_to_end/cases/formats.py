"""Index blocks, bitmaps, labels, printed names and checksums, as bytes. What is told is worked out by hand."""

from dataclasses import replace

from case_model import Cases
from platform_images import FSDAX, PERSISTENT_MEMORY, SECTOR, Label, checked_block, free_block, label_in

LABEL = Label("0f6b1a52-7c3e-4d28-9a41-5be0c7d2e813", 0, 0x40_0000, 0xA3DE_0000_1235, b"db0", flags=8)

# The sizes of an area and of its labels; the size of an index block there and the number of slots.
GEOMETRIES = (
    (1024, 256, (256, 2)),
    (4096, 256, (256, 14)),
    (131_072, 256, (256, 510)),
    (1_048_576, 256, (768, 4090)),
    (1024, 128, (256, 4)),
    (131_072, 128, (256, 1020)),
    (1_048_576, 128, (1280, 8172)),
    (0, 256, None),
    (768, 256, None),
    (1000, 256, None),
    (1_048_832, 256, None),
    ((1 << 64) - 1, 256, None),
    (131_072, 0, None),
    (131_072, 64, None),
    (131_072, 192, None),
    (131_072, 512, None),
    (1280, 256, (256, 3)),
    (1025, 256, None),
    (376_832, 256, (256, 1470)),
    (377_088, 256, (512, 1469)),
    (1_048_576, 255, None),
    ((1 << 32) + 4096, 256, None),
)

# The sequence numbers of the usable blocks, of which 0 is none, and the current place.
PLACES = (
    (3, 1, 1), (1, 3, 0), (2, 2, 1), (0, 2, 1), (0, 0, None), (1, 2, 1), (2, 3, 1), (2, 1, 0), (3, 2, 0), (1, 1, 1),
    (3, 3, 1),
    (1, 0, 0), (2, 0, 0), (3, 0, 0), (0, 1, 1), (0, 3, 1),
)

# The number of slots, and once the first, the last and one in the middle are used, the first free one and how many are
# free.
BITS = (
    (1, None, 0), (2, None, 0), (3, None, 0), (4, 1, 1), (7, 1, 4), (8, 1, 5), (9, 1, 6), (16, 1, 13), (17, 1, 14),
    (510, 1, 507),
    (1020, 1, 1017), (4090, 1, 4087),
)

# Bytes that are changed in the first block of an area of 1,024 bytes with the sequence number 3, with the checksum that
# goes with them, and the kind of the block.
BLOCKS = (
    ({}, "usable 3"),
    ({15: 1}, "unsigned"),
    ({16: 9}, "usable 3"),
    ({19: 0}, "foreign"),
    ({20: 0}, "foreign"),
    ({20: 4}, "foreign"),
    ({20: 7}, "usable 3"),
    ({20: 1}, "usable 1"),
    ({24: 1}, "foreign"),
    ({32: 0, 33: 0}, "unsigned"),
    ({32: 128, 33: 0}, "unsigned"),
    ({33: 2}, "unsigned"),
    ({41: 2}, "foreign"),
    ({49: 1}, "foreign"),
    ({56: 3}, "foreign"),
    ({60: 2}, "foreign"),
    ({62: 1}, "foreign"),
    ({255: 1}, "usable 3"),
    ({18: 255}, "usable 3"),
    ({20: 2}, "usable 2"),
    ({21: 255, 22: 255, 23: 255}, "usable 3"),
    ({31: 1}, "foreign"),
    ({39: 1}, "unsigned"),
    ({40: 1}, "foreign"),
    ({48: 1}, "foreign"),
    ({55: 1}, "foreign"),
    ({59: 1}, "foreign"),
    ({61: 1}, "foreign"),
    ({63: 1}, "foreign"),
    ({72: 0xFC}, "usable 3"),
    ({0: 0}, "unsigned"),
)

# A label's slot, changes of the bytes of the label in slot 1, and whether they are a label in that slot.
DECODED = (
    (1, (), True), (0, (), False), (2, (), False), (257, (), False), (1, (0,), False), (1, (86,), False),
    (1, (125,), False),
    (1, (160,), False), (1, (247,), False), (1, (248,), False), (1, (255,), False), (0, (120,), False),
)

# Labels with a number of its own in each field, which is written as it was read.
LABELS = (
    LABEL,
    replace(LABEL, name=b"x" * 64, flags=0xFFFF_FFFF, alignment=255),
    replace(LABEL, dpa=(1 << 64) - 1, size=(1 << 64) - 2, cookie=(1 << 64) - 3, sector=(1 << 64) - 4),
    replace(LABEL, nlabel=65535, position=65534, type_guid=bytes(range(16)), abstraction=bytes(range(16, 32))),
    replace(LABEL, name=b"x\0y", abstraction=FSDAX), replace(LABEL, type_guid=SECTOR, abstraction=PERSISTENT_MEMORY),
)

NAMES = (
    (b"", "-"), (b"-", "%2D"), (b"--", "--"), (b"-\0-", "%2D"), (b"\0db0", "-"), (b"db0", "db0"), (b"db0\0 \"", "db0"),
    (b"a b", "a%20b"), (b"100%", "100%25"), (b"\"", "%22"), (b"\x01\x1f \x21", "%01%1F%20!"),
    (b"\x7e\x7f\x80\xab\xff", "~%7F%80%AB%FF"), (b"x" * 64, "x" * 64), (b"\xff" * 64, "%FF" * 64), (b"-a", "-a"),
    (b"%" * 64, "%25" * 64),
    (b"#$&'()*+,./:;<=>?@[\\]^_`{|}", "#$&'()*+,./:;<=>?@[\\]^_`{|}"),
)

CHECKSUMS = (
    (b"", 0), (b"\1\0\0\0\2\0\0\0", 0x0000_0004_0000_0003), (b"\xff\xff\xff\xff\1\0\0\0", 0xFFFF_FFFF_0000_0000),
    (b"\1\0\0\0", 0x0000_0001_0000_0001), (b"\4\3\2\1", 0x0102_0304_0102_0304), (b"\xff" * 8, 0xFFFF_FFFD_FFFF_FFFE),
)

# A hole of eight bytes, bytes, and their checksum with the hole as zeros.
HOLES = (
    (0, b"\xff\xff\xff\xff\1\0\0\0", 0),
    (4, b"\1\0\0\0" + b"\t" * 8 + b"\2\0\0\0", 0x0000_0006_0000_0003),
    (8, b"\1\0\0\0\1\0\0\0" + b"\xff" * 8, 0x0000_0007_0000_0002),
)


def changed(text: bytes, changes: dict) -> bytes:
    new = bytearray(text)
    for at, value in changes.items():
        new[at] = value
    return bytes(new)


def turned(text: bytes, *places: int) -> bytes:
    """The bytes with one bit turned at some places."""
    return changed(text, {at: text[at] ^ 1 for at in places})


def blocks(cases: Cases) -> None:
    cases.case("blocks")
    first, second = free_block(1024, 0, 3, 3), free_block(1024, 1, 2, 3)
    for changes, kind in BLOCKS:
        cases.block(0, 1024, 256, checked_block(changed(first, changes)), kind)
    for at in range(256):
        cases.block(0, 1024, 256, turned(first, at), "unsigned")
    for place, block, kind in ((1, first, "foreign"), (1, second, "usable 2"), (0, second, "foreign")):
        cases.block(place, 1024, 256, block, kind)
    # What stands behind a block in its window is not looked at. One that tells a greater size is signed by all its
    # bytes.
    wide = checked_block(changed(first + b"\xee" * 256, {33: 2}))
    for window, kind in ((first + b"\xee" * 768, "usable 3"), (wide, "foreign"), (wide[:-1] + b"\0", "unsigned")):
        cases.block(0, 1024, 256, window, kind)
    old = free_block(1024, 1, 1, 0x0A, 128)
    for place, label, kind in ((1, 128, "usable 1"), (0, 128, "foreign"), (1, 256, "foreign")):
        cases.block(place, 1024, label, old, kind)
    cases.make_block(0, 3, 1024, 256, b"\xff", 0x2793_83A7_D832_3A33)
    cases.make_block(1, 1, 1024, 128, b"\xfa", 0xEB62_88D7_D731_3A3A)


def bitmaps(cases: Cases) -> None:
    cases.case("bitmaps")
    cases.bits(16, b"\5\x80", 0, 3)
    for slots, first, count in BITS:
        free = b"\xff" * 512
        cases.bits(slots, free, 0, slots)
        for slot in (0, slots - 1, slots // 2):
            free = cases.use(slots, free, slot)
        cases.bits(slots, free, first, count)
        cases.unuse(slots, free, slots - 1)


def labels(cases: Cases) -> None:
    cases.case("labels")
    text = LABEL.bytes(1)
    for slot, places, is_label in DECODED:
        cases.decode(slot, turned(text, *places), turned(text, *places).hex() if is_label else "none")
    for label in LABELS:
        cases.decode(3, label.bytes(3), label.bytes(3).hex())
    # Zero bytes have the checksum 0 and are the label of slot 0.
    cases.decode(0, bytes(256), bytes(256).hex())
    cases.decode(1, bytes(256), "none")
    assert label_in(text, 1) == LABEL


def ask(cases: Cases) -> None:
    cases.case("geometries")
    for size, label, told in GEOMETRIES:
        cases.geometry(size, label, told)
    cases.case("sequence numbers")
    for seq, told in ((1, 2), (2, 3), (3, 1)):
        cases.next(seq, told)
    for first, second, told in PLACES:
        cases.current(first, second, told)
    bitmaps(cases)
    blocks(cases)
    labels(cases)
    cases.case("printed names")
    for name, told in NAMES:
        cases.printed_name(name, told)
    cases.case("checksums")
    for text, told in CHECKSUMS:
        cases.checksum(text, told)
    # That of a whole label, worked out by hand.
    cases.checksum_but(248, LABEL.bytes(1), 0x2160_E1C5_251C_5B9D)
    for hole, text, told in HOLES:
        cases.checksum_but(hole, text, told)
