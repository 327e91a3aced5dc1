#!/usr/bin/env python3
"""Runs lines on one image that none of them changes, and compares what is said: how a line is read, and its first fault.

    python3 end_to_end/check_words.py [PROGRAM]
"""

import sys
import tempfile
from pathlib import Path

from check_lists import ROOT, free, run
from platform_images import Mapping, Region, area, nfit, write

PART = 1 << 61
PAIR = Region(1, 0x1_0000_0000, [Mapping(0x1, 1, PART), Mapping(0x101, 2, PART, 4096)])
MOST = (1 << 64) - 1
GIB, TIB = 1 << 30, 1 << 40
OUTSIDE = "refused outside\n"
UUID = "0f6b1a52-7c3e-4d28-9a41-5be0c7d2e813"
LETTERS, DIGITS = "ABCDEFGHIJKLMNOPQRSTUVWXYZ", "0123456789"
NAME_CHARACTERS = LETTERS + LETTERS.lower() + DIGITS + "._-"


def unknown_region(index: int) -> str:
    return f"refused unknown-region region={index}\n"


def runs(*parts: tuple) -> str:
    """Runs from the starts of modules on."""
    lines = "".join(f"  run dimm=0x{dimm:08x} dpa=0x0000000000000000 length={length}\n" for dimm, length in parts)
    return f"{lines}ok runs={len(parts)}\n"


def commands():
    """Lines that are commands, blank or comments. Both modules are Ready, and of the regions there is 1 alone."""
    ready = "refused already-ready dimm=0x00000001\n"
    status = f"  region index=1 spa=0x0000000100000000 size={2 * PART} ways=2 cookie=0x0002e2420000346b status=ready\n"
    yield from (
        ("", ""), ("   ", ""), ("#", ""), ("  #to-spa x", ""), ("   # x=1 x=1", ""),
        ("init-labels dimm=1", ready), ("init-labels dimm=257", "refused already-ready dimm=0x00000101\n"),
        ("  init-labels   dimm=0xFFffffff  ", "refused unknown-dimm dimm=0xffffffff\n"),
        ("init-labels dimm=4294967295", "refused unknown-dimm dimm=0xffffffff\n"),
        ("init-labels dimm=1".ljust(4096), ready),
        ("create-namespace region=2 size=4M", unknown_region(2)),
        (f"create-namespace uuid={UUID.upper()} sector-size=4096 mode=devdax name=db0 size=16G region=3", unknown_region(3)),
        ("destroy-namespace region=2 namespace=db0", unknown_region(2)),
        (f"destroy-namespace namespace={UUID} region=1", "refused unknown-namespace\n"),
        ("rename-namespace region=2 namespace=db0 name=", unknown_region(2)),
        (f"rename-namespace name=db1 namespace={UUID.upper()} region=3", unknown_region(3)),
        (f"release-held dimm=2 uuid={UUID}", "refused unknown-dimm dimm=0x00000002\n"),
        (f"release-held uuid={UUID.upper()} dimm=0x101", "refused not-held\n"),
        ("list", "ok namespaces=0\n"), ("list region=1", "ok namespaces=0\n"), ("list region=0xffff", unknown_region(65535)),
        ("list-regions", status + "ok regions=1\n"),
        ("list-free region=1", free((0, PART), largest=2 * PART)),
        ("list-held dimm=0x101", "ok held=0 spare=2\n"),
        ("to-module region=65535 spa=0x0000000100000000", unknown_region(65535)),
        ("to-module spa=18446744073709551615 region=00000000000000000007", unknown_region(7)),
        ("to-module spa=18446744073709551615 region=00000000000000000001", OUTSIDE),
        ("to-spa dpa=0 dimm=257 region=0x2", unknown_region(2)),
        ("to-spa dpa=0 dimm=257 region=0x1", "ok spa=0x0000000100001000\n"),
        ("to-runs region=1 spa=0xffffffffffffffff length=2M", OUTSIDE),
        ("to-runs length=4K spa=4294971392 region=1", runs((0x101, 4096))),
    )


def faults():
    """Lines, and their first faults."""
    yield from (
        ("#" + "x" * 4096, "too-long"), ("\t".ljust(4097), "too-long"), ("\t" + "x" * 4096, "too-long"),
        ("# \t", "byte at=2"), ("x\x7f\n", "byte at=1"), ("\xe9", "byte at=0"), ("#".ljust(4096, "\x7f"), "byte at=1"),
        ("x".ljust(4095) + "\n", "byte at=4095"), ("   \x1f", "byte at=3"), ("to-spa x ~\t", "byte at=10"),
        ("labels dimm=1", "unknown"), ("To-spa x", "unknown"), ("dimm=1 init-labels", "unknown"), ("init-labels=1", "unknown"),
        ("init-labels #", "key piece=1"), ("init-labels region=1", "key piece=1"), ("init-labels Dimm=1", "key piece=1"),
        ("init-labels dimm", "key piece=1"), ("init-labels dimm= =1", "key piece=2"), ("list-regions region=1", "key piece=1"),
        ("to-spa dimm=1 x dimm=2", "key piece=2"), ("to-runs region=1 spa=0 length=1 x", "key piece=4"),
        ("to-spa dimm=1 dimm=2 x", "twice key=dimm"), ("list region=1 region=1", "twice key=region"),
        ("to-runs spa= length= region= length= spa=", "twice key=length"), ("to-module spa=1 spa=1 spa", "twice key=spa"),
        ("to-spa dpa=x dpa=1", "twice key=dpa"),
        ("list-free", "missing key=region"), ("init-labels", "missing key=dimm"), ("to-runs length=x", "missing key=region"),
        ("to-spa dpa=x region=x", "missing key=dimm"), ("to-spa dimm=x region=x", "missing key=dpa"),
        ("to-module region=x", "missing key=spa"), ("to-runs region=x spa=x", "missing key=length"),
        ("list region=", "value key=region"), ("to-spa dpa=x dimm= region=1", "value key=dimm"),
        ("to-spa dpa=x dimm=1 region=1", "value key=dpa"), ("to-module spa= region=7", "value key=spa"),
        ("to-runs spa=0 region=65536 length=x", "value key=region"), ("to-runs spa=0 region=2 length=x", "value key=length"),
        ("init-labels dimm=4294967296", "value key=dimm"), ("init-labels dimm=0x100000000", "value key=dimm"),
        ("init-labels dimm==1", "value key=dimm"), ("list region=0x10000", "value key=region"),
        ("list-held dimm=1 ".ljust(4096) + "#", "too-long"),
        ("create-namespace region=x name=/", "missing key=size"), ("create-namespace size=x uuid=x", "missing key=region"),
        ("create-namespace region=2 size=1 dimm=1", "key piece=3"), ("create-namespace mode=x mode=x", "twice key=mode"),
        ("create-namespace size=1 region=2 Name=x", "key piece=3"), ("create-namespace uuid= uuid=", "twice key=uuid"),
        ("create-namespace sector-size=512 name=x sector-size", "key piece=3"), ("create-namespace name= name", "key piece=2"),
        ("create-namespace sector=512", "key piece=1"), ("create-namespace abstraction=raw", "key piece=1"),
        ("destroy-namespace region=x", "missing key=namespace"), ("destroy-namespace namespace=/", "missing key=region"),
        ("destroy-namespace region=2 name=x", "key piece=2"), ("rename-namespace region=x namespace=/", "missing key=name"),
        ("rename-namespace name=/ region=x", "missing key=namespace"), ("rename-namespace uuid=x", "key piece=1"),
        ("rename-namespace name= namespace= region=x", "value key=region"), ("release-held uuid=x dimm=x", "value key=dimm"),
        ("rename-namespace name=/ namespace= region=2", "value key=namespace"), ("release-held region=1", "key piece=1"),
        ("rename-namespace name=/ namespace=x region=2", "value key=name"), ("release-held uuid=x", "missing key=dimm"),
        ("release-held dimm=x", "missing key=uuid"), ("release-held uuid= dimm=2", "value key=uuid"),
    )
    bad = ("region=x", "size=x", "name=/", "mode=x", "sector-size=x", "uuid=x")
    sound = ("region=2", "size=1", "name=x", "mode=raw", "sector-size=512")
    for count, piece in enumerate(bad):
        pieces = " ".join(reversed(sound[:count] + bad[count:]))
        yield f"create-namespace {pieces}", f"value key={piece.split('=')[0]}"


def numbers():
    """A text, the number that it is, and the length in bytes that it is. None stands for none. Where it is an address,
    it is none of the region's."""
    yield from (
        ("0", 0, 0), ("18446744073709551615", MOST, MOST), ("18446744073709551616", None, None),
        ("99999999999999999999", None, None), ("000000000000000000001", None, None), ("00000000000000000001", 1, 1),
        ("0xfFfFfFfFfFfFfFfF", MOST, MOST), ("0x00000000000000001", None, None), ("0x000000000000aBcD", 0xABCD, 0xABCD),
        ("0x10000000000000000", None, None), ("0x", None, None), ("0X1", None, None), ("+1", None, None), ("-1", None, None),
        ("1_0", None, None), ("ff", None, None), ("0xg", None, None), ("1.0", None, None), ("65536", 65536, 65536),
        ("1K", None, 1024), ("0x1000", 4096, 4096), ("2M", None, 2 << 20), ("3G", None, 3 * GIB), ("0T", None, 0),
        ("00000000000000000002T", None, 2 * TIB), ("000000000000000000002T", None, None),
        ("4194304T", None, 4194304 * TIB), ("4194305T", None, 4194305 * TIB), ("16777215T", None, 16777215 * TIB),
        ("16777216T", None, None), ("18446744073709551616K", None, None), ("18014398509481983K", None, MOST - 1023),
        ("18014398509481984K", None, None), ("17592186044415M", None, MOST - (1 << 20) + 1), ("17592186044416M", None, None),
        ("17179869183G", None, MOST - GIB + 1), ("17179869184G", None, None), ("K", None, None), ("1k", None, None),
        ("1KK", None, None), ("0x1K", None, None), ("1P", None, None), ("1KB", None, None),
    )


def values():
    """Pieces with values of a namespace, and whether these are of their kinds."""
    yield from ((f"name={byte:c}", chr(byte) in NAME_CHARACTERS) for byte in range(0x21, 0x7f))
    yield from (
        ("name=", True), ("name=" + "x" * 63, True), ("name=" + "x" * 64, False), ("name=" + "." * 4000, False),
        ("name=" + NAME_CHARACTERS[:63], True), ("name=a/b", False), ("name=x=x", False), ("name=0x1", True),
        (f"name={UUID}", False), (f"name={UUID.upper()}", False), (f"name={UUID}0", True), (f"name={UUID[:-1]}", True),
        (f"name={UUID[:-1]}g", True), (f"name={UUID.replace('-', '')}", True), (f"name={UUID.replace('-', '_')}", True),
        (f"name={'-' * 36}", True), (f"name={{{UUID}}}", False),
        ("mode=raw", True), ("mode=sector", True), ("mode=fsdax", True), ("mode=devdax", True), ("mode=", False),
        ("mode=Raw", False), ("mode=RAW", False), ("mode=ra", False), ("mode=raws", False), ("mode=raw=", False),
        ("sector-size=512", True), ("sector-size=4096", True), ("sector-size=", False), ("sector-size=0512", False),
        ("sector-size=0x200", False), ("sector-size=4K", False), ("sector-size=520", False), ("sector-size=1024", False),
        ("sector-size=512.", False), ("sector-size=0", False), ("sector-size=+512", False), ("sector-size=04096", False),
        (f"uuid={UUID}", True), (f"uuid={UUID.upper()}", True), (f"uuid={UUID[:18].upper()}{UUID[18:]}", True),
        ("uuid=00000000-0000-0000-0000-000000000000", True), ("uuid=ffffffff-ffff-ffff-ffff-ffffffffffff", True),
        ("uuid=", False), (f"uuid={UUID}0", False), (f"uuid={UUID[:-1]}", False), (f"uuid={UUID[:-1]}g", False),
        (f"uuid={{{UUID}}}", False), (f"uuid=urn:uuid:{UUID}", False), (f"uuid={'-' * 36}", False),
        (f"uuid={UUID.replace('-', '')}", False), (f"uuid={UUID.replace('-', '_')}", False),
        (f"uuid={UUID[1:9]}{UUID[0]}{UUID[9:]}", False),
    )
    for at in range(36):
        text = UUID[:at] + "-" * (UUID[at] != "-") + "0" * (UUID[at] == "-") + UUID[at + 1:]
        yield from ((f"name={text}", True), (f"uuid={text}", False))


def address(number) -> str:
    """What is said of a byte of the first module: two lines of it stand for each four of the region's."""
    if number is None:
        return "refused words value key=dpa\n"
    line, byte = divmod(number, 4096)
    return f"ok spa=0x{(1 << 32) + (line // 2 * 4 + line % 2 * 2) * 4096 + byte:016x}\n" if number < PART else OUTSIDE


def behind(length) -> str:
    """What is said of the bytes from the start of the region on, for lengths that end in its first line or with a period."""
    if length is None:
        return "refused words value key=length\n"
    if not 0 < length <= 2 * PART:
        return OUTSIDE
    if length <= 4096:
        return runs((0x1, length))
    if length % 16384:
        line, rest = divmod(length, 4096)
        own = [sum(4096 if at < line else rest for at in range(line + 1) if at % 2 == side) for side in (0, 1)]
        return runs((0x1, own[0]), (0x101, own[1]))
    return runs((0x1, length // 2), (0x101, length // 2))


def rows():
    for line, text in commands():
        yield line, text
    for line, fault in faults():
        yield line, f"refused words {fault}\n"
    for text, number, length in numbers():
        yield f"to-module region=1 spa={text}", "refused words value key=spa\n" if number is None else OUTSIDE
        yield f"to-spa region=1 dimm=1 dpa={text}", address(number)
        yield f"to-runs region=1 spa=0x100000000 length={text}", behind(length)
        size = "refused words value key=size\n" if length is None else unknown_region(2)
        yield f"create-namespace region=2 size={text}", size
    for piece, is_of_its_kind in values():
        key, value = piece.split("=", 1)
        answer = unknown_region(2) if is_of_its_kind else f"refused words value key={key}\n"
        yield f"create-namespace region=2 size=1 {piece}", answer
        if key == "name":
            yield f"rename-namespace region=2 namespace=x {piece}", answer
            tells = (is_of_its_kind or value.lower() == UUID) and value
            answer = unknown_region(2) if tells else "refused words value key=namespace\n"
            yield f"destroy-namespace region=2 namespace={value}", answer
        if key == "uuid":
            answer = "refused unknown-dimm dimm=0x00000002\n" if is_of_its_kind else answer
            yield f"release-held dimm=2 {piece}", answer
    for text in ("4294979589", "00000000004294979589", "0x100003005", "0x0000000100003005"):
        yield f"to-module region=1 spa={text}", "ok dimm=0x00000101 dpa=0x0000000000001005\n"
    yield "to-module region=1 spa=0x10000aBcD", "ok dimm=0x00000001 dpa=0x0000000000005bcd\n"


def main() -> int:
    program = sys.argv[1] if len(sys.argv) > 1 else str(ROOT / "crates/nd_cli/out/nd_cli")
    count = wrong = 0
    with tempfile.TemporaryDirectory() as scratch:
        folder = Path(scratch, "image")
        write(folder, nfit([PAIR]), {0x1: area(1024), 0x101: area(1024)})
        before = {path.name: path.read_bytes() for path in folder.iterdir()}
        for line, text in rows():
            count += 1
            answer = run(program, folder, line)
            if answer != (int(text.startswith("refused")), text):
                wrong += 1
                print(f"{line!r:.200}\n  expected {text!r:.500}\n  answered {answer!r:.500}")
        if before != {path.name: path.read_bytes() for path in folder.iterdir()}:
            wrong += 1
            print("a line changed the image")
    print(f"{count} lines, {wrong} wrong")
    return 1 if wrong or not count else 0


if __name__ == "__main__":
    sys.exit(main())
