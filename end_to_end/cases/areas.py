"""Label storage areas of 1,024 bytes: their kinds, what they show, their flips, and the stops of each write."""

from dataclasses import replace

from case_model import Cases, unsigned
from cases.formats import LABEL
from platform_images import area, block_size, free_block, index_block, slot_count

PLAIN = replace(LABEL, name=b"", flags=0)
ZEROS, OTHER = bytes(256), b"\xee" * 256


# What stands in one of the four parts of an area, its two index blocks and its two slots.

def first(seq: int, free: int) -> bytes:
    return free_block(1024, 0, seq, free)


def second(seq: int, free: int) -> bytes:
    return free_block(1024, 1, seq, free)


def torn(text: bytes) -> bytes:
    return text[:200] + bytes((text[200] ^ 0x80,)) + text[201:]


def label(slot: int) -> bytes:
    return PLAIN.bytes(slot)


OLD_FIRST, OLD_SECOND = free_block(1024, 0, 1, 15, 128), free_block(1024, 1, 1, 15, 128)

# What stands at the two places, and the kind of the area.
KINDS = (
    (first(3, 3), second(2, 3), "ready"),
    (torn(first(3, 3)), second(2, 3), "ready"),
    (first(1, 0), ZEROS, "ready"),
    (ZEROS, second(1, 0), "ready"),
    (first(3, 3), OLD_SECOND, "ready"),
    (OLD_FIRST, second(1, 3), "ready"),
    (ZEROS, ZEROS, "uninit"),
    (torn(first(3, 3)), torn(second(2, 3)), "uninit"),
    (OLD_FIRST, ZEROS, "foreign"),
    (ZEROS, OLD_SECOND, "foreign"),
    (torn(first(3, 3)), OLD_SECOND, "foreign"),
    (second(1, 3), ZEROS, "foreign"),
    (ZEROS, first(1, 3), "foreign"),
    (second(2, 3), first(3, 3), "foreign"),
    (first(0, 3), second(2, 3), "ready"),
    (first(0, 3), second(0, 3), "foreign"),
    (OTHER, OTHER, "uninit"),
    (torn(OLD_FIRST), torn(OLD_SECOND), "uninit"),
)

# The parts of an area, and what it shows: its sequence number and place, how many slots are free, a digit for each slot
# in use, and one for each live label.
SHOWN = (
    ((first(3, 0), second(2, 3), label(0), torn(label(1))), "3 0 0 11 10"),
    ((torn(first(3, 0)), second(2, 1), label(0), label(1)), "2 1 1 01 01"),
    ((first(3, 0), second(1, 2), label(1), label(1)), "1 1 1 10 00"),
    ((first(2, 0), second(2, 3), label(0), label(1)), "2 1 2 00 00"),
    ((first(1, 0), second(3, 3), label(0), label(1)), "1 0 0 11 11"),
    ((first(1, 0), second(2, 2), ZEROS, label(1)), "2 1 1 10 10"),
)

# The sizes of areas, those that are wrong among them, with zeros in all bytes.
SIZES = (0, 256, 768, 1000, 1023, 1024, 1025, 1280, 4096, 131_072, 1_048_576, 1_048_832)

# Areas, a flip, and what it makes of them: with each sequence number, each place current, and one slot, a junk one
# among them, or both in use. A flip puts a label, in the place of another one or of none, or frees a slot.
FLIPS = (
    ((first(3, 2), ZEROS, label(0), OTHER), ("put",), (first(3, 2), second(1, 0), label(0), label(1))),
    ((first(3, 2), ZEROS, label(0), OTHER), ("put", 0), (first(3, 2), second(1, 1), label(0), label(1))),
    ((first(3, 2), ZEROS, label(0), OTHER), ("free", 0), (first(3, 2), second(1, 3), label(0), OTHER)),
    ((first(1, 3), second(2, 1), OTHER, label(1)), ("put",), (first(3, 0), second(2, 1), label(0), label(1))),
    ((first(1, 3), second(2, 1), OTHER, label(1)), ("put", 1), (first(3, 2), second(2, 1), label(0), label(1))),
    ((first(1, 3), second(2, 1), OTHER, label(1)), ("free", 1), (first(3, 3), second(2, 1), OTHER, label(1))),
    ((torn(first(2, 0)), second(1, 2), torn(label(0)), OTHER), ("put",),
     (first(2, 0), second(1, 2), torn(label(0)), label(1))),
    ((first(1, 2), OLD_SECOND, torn(label(0)), OTHER), ("free", 0), (first(1, 2), second(2, 3), torn(label(0)), OTHER)),
    ((first(3, 0), second(2, 3), label(0), label(1)), ("free", 1), (first(3, 0), second(1, 2), label(0), label(1))),
    ((first(3, 0), second(2, 3), label(0), label(1)), ("free", 0, 1), (first(3, 0), second(1, 3), label(0), label(1))),
    ((first(3, 3), second(3, 3), OTHER, OTHER), ("put",), (first(1, 2), second(3, 3), label(0), OTHER)),
    ((ZEROS, second(2, 3), OTHER, OTHER), ("put",), (first(3, 2), second(2, 3), label(0), OTHER)),
)

# What stands in the place of the first block of an area that is initialised.
BEFORE = (ZEROS, OTHER, torn(first(3, 0)), torn(OLD_FIRST))

WIDE = (1280, 4096, 131_072, 262_144, 1_048_576)
"""Sizes of areas that are initialised, and take labels in their first and last slots."""


def left_by(old: bytes, new: bytes) -> tuple:
    """What a stop leaves of a write: the old bytes, the new ones, a front of these, ones, or the new ones unsigned."""
    return old, new, new[:64] + old[64:], b"\xff" * len(new), unsigned(new)


def flip(cases: Cases, change: tuple, told: str = None) -> None:
    word, *slots = change
    if word == "put":
        cases.put(label(0), *slots, told=told)
    else:
        cases.free(*slots, told=told)


def stops(cases: Cases) -> None:
    """Stops each kept write in each way, and looks at the area."""
    for call, (kind, *parts) in list(cases.rig.kept.items()):
        cases.kept(call)
        for torn_bytes in left_by(*parts[2:]):
            cases.stop(call, torn_bytes)
            cases.dump(1)
            cases.load(1)
            if cases.loaded is not None:
                cases.label(0)
                cases.label(1)
            cases.back()


def flips(cases: Cases) -> None:
    for place, (before, change, after) in enumerate(FLIPS):
        cases.case(f"flip {place}")
        cases.area(1, b"".join(before))
        cases.load(1)
        flip(cases, change)
        cases.dump(1, b"".join(after))
        cases.shows()
        cases.load(1)
        cases.case(f"stops of flip {place}")
        cases.area(1, b"".join(before))
        cases.load(1)
        cases.keep(2, 1024)
        flip(cases, change)
        stops(cases)
        for call in (2, 3):
            cases.case(f"flip {place} with a fault at call {call}")
            cases.area(1, b"".join(before))
            cases.fail_rig(call)
            cases.load(1)
            flip(cases, change, "failed" if call == 2 or change[0] == "put" else "ok")
            cases.dump(1)


def initialised(cases: Cases) -> None:
    for place, before in enumerate(BEFORE):
        cases.case(f"initialised over {place}")
        cases.area(1, before + ZEROS + OTHER + OTHER)
        cases.init(1, "2")
        cases.dump(1, first(3, 3) + second(2, 3) + OTHER + OTHER)
        cases.init(1, "already-ready")
        cases.dump(1)
        cases.load(1, "400 2 100 3 0 2 00 00")
    cases.case("stops of an initialisation")
    cases.area(1, ZEROS + ZEROS + OTHER + OTHER)
    cases.keep(2, 1024)
    cases.init(1, "2")
    stops(cases)
    cases.case("vacant areas")
    cases.vacant(1, 1024, "400 2 100 3 0 2 00 00")
    for size in SIZES:
        cases.vacant(1, size)


def wide_areas(cases: Cases) -> None:
    """Areas of other sizes: initialised, filled from one slot up to the last, and freed."""
    for size in WIDE:
        cases.case(f"an area of {size}")
        cases.area(1, bytes(size))
        cases.init(1, f"{slot_count(size):x}")
        cases.load(1)
        cases.put(label(0), told="0")
        cases.put(PLAIN.bytes(1), told="1")
        cases.put(PLAIN.bytes(2), 0, told="2")
        cases.shows()
        top = slot_count(size) - 1
        text = free_block(size, 0, 1, 1 << top) + index_block(size, 1, 3, 0)
        cases.area(2, text + bytes(size - 2 * block_size(size)))
        cases.load(2)
        cases.put(label(0), told=f"{top:x}")
        cases.label(top)
        cases.shows()
        cases.free(*range(0, top, 7), told="ok")
        cases.shows()


def ask(cases: Cases) -> None:
    for place, (one, other, kind) in enumerate(KINDS):
        cases.case(f"kind {place} {kind}")
        text = one + other + OTHER + OTHER
        cases.area(1, text)
        cases.load(1, None if kind == "ready" else f"{kind} 400")
        cases.init(1, {"ready": "already-ready", "uninit": "2"}.get(kind, kind))
        cases.dump(1, text if kind != "uninit" else first(3, 3) + second(2, 3) + OTHER + OTHER)
    cases.case("what areas show")
    for parts, told in SHOWN:
        cases.area(1, b"".join(parts))
        cases.load(1, f"400 2 100 {told}")
        for slot in range(2):
            cases.label(slot)
    cases.case("sizes of areas")
    cases.load(1, "missing")
    cases.init(1, "missing")
    for size in SIZES:
        cases.area(1, bytes(size))
        cases.load(1)
        cases.init(1)
    cases.case("labels of an area")
    cases.area(1, area(4096, [PLAIN, LABEL]))
    cases.load(1)
    for slot in range(14):
        cases.label(slot)
    flips(cases)
    initialised(cases)
    wide_areas(cases)
