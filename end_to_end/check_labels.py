#!/usr/bin/env python3
"""Runs the listing of labels, the initialisation of areas and the translation of addresses on files made by hand, and
compares what is said and the areas that are left, byte by byte. Some of the files cannot be read.

    python3 end_to_end/check_labels.py [PROGRAM]
"""

import struct
import subprocess
import sys
import tempfile
from pathlib import Path

from check_lists import ROOT
from platform_images import Label, Mapping, Region, fletcher64, index_block, nfit, write

GIB = 1 << 30
PAIR = Region(1, 0x1_0000_0000, [Mapping(0x1, 1, 64 * GIB), Mapping(0x101, 2, 64 * GIB, 4096)])
TABLE = nfit([PAIR])
FREE, ZEROS = b"\xee" * 256, bytes(256)
ALL_FREE = 3

EMPTY = "ok labels=0 slots=2 seq=3 place=0\n"
SECOND = "ok labels=0 slots=2 seq=2 place=1\n"
UNINIT = "refused not-ready uninit dimm=0x00000001\n"
FOREIGN = "refused not-ready foreign dimm=0x00000001\n"
WRONG_SIZE = "refused not-ready wrong-size dimm=0x00000001\n"

LABEL = Label("0f6b1a52-7c3e-4d28-9a41-5be0c7d2e813", 0, 4194304, 0xA3DE00001235, b"db0")
GREATEST = Label(
    "ffffffff-ffff-ffff-ffff-ffffffffffff", (1 << 64) - 1, (1 << 64) - 1, (1 << 64) - 1, b"\xff" * 64, (1 << 32) - 1,
    65535, 65535, (1 << 64) - 1, b"\xff" * 16, b"\xff" * 16,
)


def block(second: bool, seq: int, free: int, old: bool = False) -> bytes:
    """An index block of an area of 1,024 bytes, of version 1.2 with two slots or of version 1.1 with four."""
    mine, other = (256, 0) if second else (0, 256)
    text = struct.pack("<16s3xBIQQQQIHHQB", b"NAMESPACE_INDEX\0", 0 if old else 1, seq, mine, 256, other, 512,
                       4 if old else 2, 1, 1 if old else 2, 0, 15 if old else free).ljust(256, b"\0")
    return text[:64] + struct.pack("<Q", fletcher64(text)) + text[72:]


def torn(text: bytes) -> bytes:
    """The same bytes with one bit of the padding turned."""
    return text[:200] + bytes([text[200] ^ 0x80]) + text[201:]


NEW = block(False, 3, ALL_FREE) + block(True, 2, ALL_FREE)


def with_fields(text: bytes, fields: dict) -> bytes:
    """An index block, and bytes behind it up to its size, with other bytes at some offsets and the checksum of them all."""
    for at, field in fields.items():
        text = text[:at] + field + text[at + len(field):]
    return text[:64] + struct.pack("<Q", fletcher64(text[:64] + bytes(8) + text[72:])) + text[72:]


def line_of(label: Label, slot: int, name: str) -> str:
    return (f"  slot={slot} uuid={label.uuid} name={name} flags=0x{label.flags:08x} nlabel={label.nlabel}"
            f" position={label.position} cookie=0x{label.cookie:016x} dpa=0x{label.dpa:016x} size={label.size}\n")


def sequences():
    """The sequence numbers of two blocks, and what is said."""
    for first, second, seq, place in ((3, 2, 3, 0), (1, 2, 2, 1), (2, 3, 3, 1), (2, 1, 2, 0), (1, 3, 1, 0), (3, 1, 1, 1), (2, 2, 2, 1)):
        area = block(False, first, ALL_FREE) + block(True, second, ALL_FREE) + FREE + FREE
        yield area, "labels 1", 0, f"ok labels=0 slots=2 seq={seq} place={place}\n"


def other_blocks():
    """Blocks of which one or none is usable."""
    first, second, old = block(False, 3, ALL_FREE), block(True, 2, ALL_FREE), block(False, 2, 15, True)
    for one, other, text in (
        (torn(first), second, SECOND), (first, torn(second), EMPTY), (torn(first), torn(second), UNINIT),
        (second, first, FOREIGN), (old, ZEROS, FOREIGN), (torn(old), ZEROS, UNINIT), (old, second, SECOND), (ZEROS, ZEROS, UNINIT),
    ):
        yield one + other + FREE + FREE, "labels 1", int(text.startswith("refused")), text


def block_of_512():
    """A first block that tells 512 bytes is signed where the checksum is that of 512 bytes, and not usable."""
    told = with_fields(block(False, 3, ALL_FREE) + b"\xff" * 256, {32: struct.pack("<Q", 512)})
    assert told[64:72] == (0x3422_8047_D832_3AF3).to_bytes(8, "little")
    yield told + FREE + FREE, "labels 1", 1, FOREIGN
    yield told[:511] + b"\0" + FREE + FREE, "labels 1", 1, UNINIT
    yield told[:64] + block(False, 3, ALL_FREE)[64:72] + told[72:] + FREE + FREE, "labels 1", 1, UNINIT
    yield block(False, 3, ALL_FREE) + b"\xff" * 768, "labels 1", 0, EMPTY


def last_byte_of_a_bitmap():
    """Areas of 3,328 bytes have eleven slots: three bits of the second byte, and five that are not looked at."""
    start = index_block(3328, 0, 3, 0)
    for bits, slot in ((b"\xff\3", 10), (b"\xff\xfb", 10), (b"\xff\5", 9), (b"\xff\6", 8), (b"\x7f\7", 7), (b"\xff\7", None)):
        area = with_fields(start, {72: bits}) + bytes(256)
        area += b"".join(LABEL.bytes(at) for at in range(11))
        found = "" if slot is None else line_of(LABEL, slot, "db0")
        yield area, "labels 1", 0, f"{found}ok labels={int(slot is not None)} slots=11 seq=3 place=0\n"


def names():
    for name, printed in (
        (b"db0", "db0"), (b"", "-"), (b"-", "%2D"), (b"--", "--"), (b'a b%"\x7f\xff~!', "a%20b%25%22%7F%FF~!"),
        (b"line\nend", "line%0Aend"), (b"cut\0here", "cut"), (b"x" * 64, "x" * 64),
    ):
        label = Label(LABEL.uuid, LABEL.dpa, LABEL.size, LABEL.cookie, name)
        area = block(False, 2, 1) + block(True, 1, ALL_FREE) + FREE + label.bytes(1)
        yield area, "labels 1", 0, line_of(label, 1, printed) + "ok labels=1 slots=2 seq=2 place=0\n"


def slots():
    """A slot in use that holds no label of its own, or one whose bytes are all zero, or the greatest values."""
    start = block(False, 1, 2) + torn(block(True, 2, ALL_FREE))
    wrong = LABEL.bytes(0)[:255] + bytes([LABEL.bytes(0)[255] ^ 1])
    none = "ok labels=0 slots=2 seq=1 place=0\n"
    one = "ok labels=1 slots=2 seq=1 place=0\n"
    for slot in (wrong, LABEL.bytes(1), FREE):
        yield start + slot + FREE, "labels 1", 0, none
    zero = Label("00000000-0000-0000-0000-000000000000", 0, 0, nlabel=0)
    yield start + ZEROS + FREE, "labels 1", 0, line_of(zero, 0, "-") + one
    yield start + GREATEST.bytes(0) + FREE, "labels 1", 0, line_of(GREATEST, 0, "%FF" * 64) + one


def words_and_sizes():
    for size, words, status, text in (
        (1024, "labels 0x1", 1, UNINIT), (4096, "labels 1", 1, UNINIT), (0, "labels 1", 1, WRONG_SIZE), (1000, "labels 1", 1, WRONG_SIZE),
        (768, "labels 1", 1, WRONG_SIZE), (1_048_832, "labels 1", 1, WRONG_SIZE),
        (1024, "labels 4294967295", 1, "refused not-ready missing dimm=0xffffffff\n"),
        (1024, "labels 4294967296", 2, "error words\n"), (1024, "run", 2, "error words\n"), (1024, "labels", 2, "error words\n"),
    ):
        yield bytes(size), words, status, text


def lines():
    """Lines that ask no area for anything."""
    for line, status, text in (
        ("", 0, ""), ("#", 0, ""), ("# init-labels dimm=1", 0, ""), ("#" + "x" * 4095, 0, ""),
        ("#" + "x" * 4096, 1, "refused words too-long\n"),
        ("init-label dimm=1", 1, "refused words unknown\n"), ("init-labels x", 1, "refused words key piece=1\n"),
        ("init-labels dimm=1 dimm=1", 1, "refused words twice key=dimm\n"), ("init-labels", 1, "refused words missing key=dimm\n"),
        ("init-labels dimm=4294967296", 1, "refused words value key=dimm\n"), ("init-labels dimm=\n", 1, "refused words byte at=17\n"),
        ("é", 1, "refused words byte at=0\n"), ("init-labels dimm=0x2", 1, "refused unknown-dimm dimm=0x00000002\n"),
        ("to-module region=1 spa=0x100003005", 0, "ok dimm=0x00000101 dpa=0x0000000000001005\n"),
        ("to-module region=1 spa=0x2100000000", 1, "refused outside\n"),
        ("to-module region=2 spa=0", 1, "refused unknown-region region=2\n"),
        ("to-spa region=1 dimm=0x101 dpa=0x1005", 0, "ok spa=0x0000000100003005\n"),
        ("to-spa region=1 dimm=0x101 dpa=0x2000", 0, "ok spa=0x0000000100005000\n"),
        ("to-spa region=1 dimm=2 dpa=0", 1, "refused not-in-region dimm=0x00000002\n"),
        ("to-spa region=1 dimm=1 dpa=0x1000000000", 1, "refused outside\n"),
        ("to-spa region=7 dimm=2 dpa=0", 1, "refused unknown-region region=7\n"),
        ("to-spa region=1 dpa=0", 1, "refused words missing key=dimm\n"),
        ("to-runs region=1 spa=0x100001000 length=12K", 0,
         "  run dimm=0x00000001 dpa=0x0000000000001000 length=4096\n  run dimm=0x00000101 dpa=0x0000000000000000 length=8192\nok runs=2\n"),
        ("to-runs region=1 spa=0x100000000 length=0", 1, "refused outside\n"),
    ):
        yield bytes(1024), ["do", line], status, text


def tables():
    """NFITs that are refused."""
    raised = TABLE[:9] + bytes([(TABLE[9] + 1) % 256]) + TABLE[10:]
    header = b"NFIT" + struct.pack("<IBB30x", 44, 1, 0) + bytes(4)
    misshapen = header[:9] + bytes([-sum(header) % 256]) + header[10:]
    for table, status, text in (
        (TABLE[:39], 3, "nfit short length=39"), (b"", 3, "nfit short length=0"), (TABLE[:279], 3, "nfit length told=280 length=279"),
        (bytes(40), 3, "nfit signature"), (TABLE[:8] + b"\2" + TABLE[9:], 3, "nfit revision value=2"),
        (raised, 3, "nfit checksum sum=1"), (misshapen, 3, "nfit structure at=40"),
        (nfit([PAIR, PAIR]), 3, "nfit twice-index kind=0 index=1"), (bytes(1_048_576), 3, "nfit signature"),
        (bytes(1_048_577), 5, "limit nfit"),
    ):
        yield table, status, f"error {text}\n"


# The size of an area, the offset of a sound index block of version 1.1 in it, its kind, and its slots once it is
# initialised. The blocks for labels of 256 bytes have 256 bytes up to 262,144, and 768 at 1,048,576. Those for labels of
# 128 have 256 at 1,024, 512 at 196,608 and 262,144, and 1,280 at 1,048,576.
SIZES = (
    (768, 0, "wrong-size", None), (1000, 0, "wrong-size", None), (1_048_832, 0, "wrong-size", None),
    (1024, 256, "foreign", None), (1024, 512, "uninit", 2), (196_608, 256, "foreign", None), (196_608, 512, "foreign", None),
    (196_608, 768, "uninit", 766), (262_144, 0, "foreign", None), (262_144, 768, "uninit", 1022),
    (1_048_576, 768, "foreign", None), (1_048_576, 1280, "foreign", None), (1_048_576, 256, "uninit", 4090),
)


def sizes():
    """Areas before and after they are initialised, and the areas that are left."""
    for size, at, kind, slots_ in SIZES:
        old = block(True, 1, 0, True)
        before = bytes(at) + old + bytes(size - at - len(old))
        refused = f"refused not-ready {kind} dimm=0x00000001\n"
        yield before, "labels 1", 1, refused, before
        if slots_ is None:
            yield before, ["do", "init-labels dimm=1"], 1, refused, before
            continue
        blocks = index_block(size, 0, 3, 0) + index_block(size, 1, 2, 0)
        after = blocks + before[len(blocks):]
        yield before, ["do", "init-labels dimm=1"], 0, f"ok initialised dimm=0x00000001 slots={slots_}\n", after
        yield after, "labels 1", 0, f"ok labels=0 slots={slots_} seq=3 place=0\n", after


def unread(program: str, folder: Path):
    """Files that are missing or cannot be read: the words, and what is said. Nothing is made in their places."""
    area = NEW + FREE + FREE
    write(folder, TABLE, {1: area})
    first, second, table = (folder / name for name in ("dimm-00000001.lsa", "dimm-00000101.lsa", "nfit.bin"))
    missing = "refused not-ready missing dimm=0x00000101\n"
    failed = "error area dimm=0x{:08x}\n"
    absent = folder / "absent"
    yield run(program, absent, "labels 1"), (1, missing.replace("101", "001"))
    yield run(program, absent, ["do", "# x"]), (5, "error source nfit\n")
    yield run(program, first, "labels 1"), (4, failed.format(1))
    yield run(program, first, ["do", "# x"]), (5, "error source nfit\n")
    yield run(program, folder, "labels 0x101"), (1, missing)
    yield run(program, folder, ["do", "init-labels dimm=0x101"]), (1, missing)
    yield absent.exists() or second.exists(), False
    for make in (lambda path: path.mkdir(), lambda path: path.symlink_to("/dev/null")):
        make(second)
        for words in ("labels 257", ["do", "init-labels dimm=257"], ["do", "list-regions"], ["do", "list"], ["do", "list-held dimm=257"]):
            yield run(program, folder, words), (4, failed.format(257))
        second.rmdir() if second.is_dir() else second.unlink()
        table.unlink()
        yield run(program, folder, ["do", "list"]), (5, "error source nfit\n")
        make(table)
        yield run(program, folder, ["do", "list"]), (5, "error source nfit\n")
        yield run(program, folder, "labels 1"), (0, EMPTY)
        table.rmdir() if table.is_dir() else table.unlink()
        table.write_bytes(TABLE)
    yield first.read_bytes(), area


def run(program: str, folder: Path, words) -> tuple:
    words = words.split() if isinstance(words, str) else words
    done = subprocess.run([program, words[0], str(folder), *words[1:]] if len(words) > 1 else [program, *words],
                          capture_output=True, timeout=60)
    return done.returncode, done.stdout.decode()


class Rows:
    def __init__(self, program: str, folder: Path):
        self.program, self.folder, self.rows, self.wrong = program, folder, 0, 0

    def row(self, table: bytes, area: bytes, words, status: int, text: str, left: bytes) -> None:
        """Runs these words on the image, and looks at what is said and at the area that is left."""
        write(self.folder, table, {1: area})
        self.rows += 1
        answer = run(self.program, self.folder, words)
        now = (self.folder / "dimm-00000001.lsa").read_bytes()
        if answer != (status, text) or now != left:
            self.wrong += 1
            print(f"{words}\n  expected {status} {text!r:.2000}\n  answered {answer!r:.2000}, area {'as expected' if now == left else 'changed'}")


def main() -> int:
    program = sys.argv[1] if len(sys.argv) > 1 else str(ROOT / "crates/nd_cli/out/nd_cli")
    with tempfile.TemporaryDirectory() as scratch:
        rows = Rows(program, Path(scratch, "image"))
        for build in (sequences, other_blocks, block_of_512, last_byte_of_a_bitmap, names, slots, words_and_sizes, lines):
            for area, words, status, text in build():
                rows.row(TABLE, area, words, status, text, area)
        initialise, done = ["do", "init-labels dimm=1"], "ok initialised dimm=0x00000001 slots={}\n"
        for table, status, text in tables():
            rows.row(table, bytes(1024), initialise, status, text, bytes(1024))
        for size, blocks, slots_ in ((1024, NEW, 2), (1 << 20, index_block(1 << 20, 0, 3, 0) + index_block(1 << 20, 1, 2, 0), 4090)):
            old = b"\xee" * size
            rows.row(TABLE, old, initialise, 0, done.format(slots_), blocks + old[len(blocks):])
        for area, words, status, text, left in sizes():
            rows.row(TABLE, area, words, status, text, left)
        for answer, expected in unread(program, Path(scratch, "unread")):
            rows.rows += 1
            if answer != expected:
                rows.wrong += 1
                print(f"unread file\n  expected {expected!r:.2000}\n  answered {answer!r:.2000}")
        rows.row(TABLE, NEW + FREE + FREE, initialise, 1, "refused already-ready dimm=0x00000001\n", NEW + FREE + FREE)
    print(f"{rows.rows} rows, {rows.wrong} wrong")
    return 1 if rows.wrong or not rows.rows else 0


if __name__ == "__main__":
    sys.exit(main())
