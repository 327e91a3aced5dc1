"""Rigs and sources in memory: which calls fail, which are kept, and what a stop leaves. What is told is worked out by
hand."""

from case_model import Cases, hexed

BYTES, WRITTEN = bytes(range(10, 16)), bytes((10, 11, 22, 23, 14, 15))

# The call that is listed, which of the calls answer, at `+`, or fail, at `-`, what is said then, how often the calls
# failed, those of `say` apart, the module of the last that did, and how often the rig was read.
#
# The calls are a read, the size of an area, the size of none, texts of 3, 3 and 2 bytes in a room of 5, a write behind
# the size of the area, and a read of the whole of it behind its size.
CALLS = (
    (0, "-+++-+++++", b"abcde", (1, 1), 0x101, 6),
    (1, "+-++-+++++", b"abcde", (1, 1), 0x1, 6),
    (2, "++-+-+++++", b"abcde", (1, 1), 0x2, 6),
    (3, "+++-++++++", b"defde", (0, 1), 0, 6),
    (4, "++++-+++++", b"abcde", (0, 1), 0, 6),
    (5, "++++--++++", b"abc", (0, 2), 0, 6),
    (6, "++++-+-+++", b"abcde", (1, 1), 0x101, 6),
    (7, "++++-++-++", b"abcde", (1, 1), 0x101, 6),
    (8, "++++-+++-+", b"abcde", (1, 1), 0x101, 6),
    (9, "++++-++++-", b"abcde", (1, 1), 0x101, 6),
    (10, "++++-+++++", b"abcde", (0, 1), 0, 6),
)

# The reads that are listed, what each of them gives, and how often they fail. They are into places of 0, 1, 3, 8, 8 and
# 0 bytes, of a source of "abcdef".
READS = (
    ((6, 7), ("", "a", "bcd", "ef", "", ""), 0), ((0, 0), (None, "a", "bcd", "ef", "", ""), 1),
    ((1, 6), ("", None, "abc", "def", "", ""), 1), ((3, 2), ("", "a", None, None, "bcdef", ""), 2),
    ((4, 5), ("", "a", "bcd", "ef", None, None), 2), ((), ("", "a", "bcd", "ef", "", ""), 0),
    ((0, 1, 2, 3, 4, 5), (None,) * 6, 6),
)

# The kept calls of the case below, and what they were; and stops of them, with the area and the bytes said that are
# left.
KEPT = (
    (0, "none"), (1, "write 101 2 0c0d 1617"), (2, "none"), (3, "write 101 3 17 21"), (4, "write 101 0 0a 28"),
    (5, "say 616263"),
    (6, "none"), ((1 << 64) - 1, "none"),
)
STOPS = (
    (1, b"\1\2", (10, 11, 1, 2, 14, 15), b""), (3, b"\3", (10, 11, 22, 3, 14, 15), b""),
    (4, b"\x28", (40, 11, 22, 33, 14, 15), b""),
    (5, b"ab", (40, 11, 22, 33, 14, 15), b"ab"), (5, b"", (40, 11, 22, 33, 14, 15), b""),
    (5, b"abc", (40, 11, 22, 33, 14, 15), b"abc"),
    (1, b"\x16\x17", (10, 11, 22, 23, 14, 15), b""), (3, b"\x17", (10, 11, 22, 23, 14, 15), b""),
)
NO_STOPS = ((0, b"a"), (1, b"a"), (1, b"abc"), (5, b"b"), (5, b"abcd"), (6, b""), (2, b""))


def new_rig(cases: Cases, name: str, *failing: int) -> None:
    cases.case(name, room=5)
    for dimm, text in ((0x1, bytes((7, 8))), (0x1, bytes((9,))), (0x101, BYTES)):
        cases.area(dimm, text)
    cases.fail_rig(*failing)


def calls(cases: Cases, listed: int, marks: str, said: bytes, faults: tuple, dimm: int, reads: int) -> None:
    new_rig(cases, f"call {listed}", listed)
    told = ["failed" if mark == "-" else None for mark in marks]
    after = BYTES if told[7] else WRITTEN
    cases.read(0x101, 2, 3, told[0] or "0c0d0e")
    cases.size(0x1, told[1] or "1")
    cases.size(0x2, told[2] or "none")
    for place, text in ((3, b"abc"), (4, b"def"), (5, b"de")):
        cases.say(text, told[place] or "ok")
    cases.size(0x101, told[6] or "6")
    cases.write(0x101, 2, bytes((22, 23)), told[7] or "ok")
    for dimm_, text in ((0x101, after), (0x1, bytes((9,)))):
        cases.dump(dimm_, text)
    cases.dump(0x2)
    cases.size(0x101, told[8] or "6")
    cases.read(0x101, 0, 6, told[9] or after.hex())
    numbers = (reads, *faults, dimm, 10)
    cases.counts(numbers, said)


def keeping(cases: Cases, name: str, listed: int, count: int, size: int) -> None:
    new_rig(cases, name, listed)
    cases.keep(count, size)


def kept(cases: Cases) -> None:
    """Three writes and a text, which are the calls 1, 3, 4 and 5, with the size asked before the first two."""
    keeping(cases, "kept calls", 9, 4, 11)
    cases.size(0x101, "6")
    cases.write(0x101, 2, bytes((22, 23)), "ok")
    cases.size(0x101, "6")
    cases.write(0x101, 3, bytes((33,)), "ok")
    cases.write(0x101, 0, bytes((40,)), "ok")
    cases.say(b"abc", "ok")
    for call, told in KEPT:
        cases.kept(call, told)
    for call, torn in NO_STOPS:
        cases.stop(call, torn, "none")
    for call, torn, area, said in STOPS:
        cases.stop(call, torn, "stopped")
        cases.dump(0x101, bytes(area))
        cases.dump(0x1, bytes((9,)))
        cases.counts((0, 0, 0, 0, 0), said)
        cases.say(b"x" * 6, "failed")
        cases.back()


def listed_and_past(cases: Cases) -> None:
    """A listed write leaves its old bytes, and a stop within it any. Calls past what can be kept change nothing."""
    keeping(cases, "a listed write", 0, 4, 11)
    cases.write(0x101, 2, bytes((22, 23)), "failed")
    cases.dump(0x101, BYTES)
    cases.kept(0, "write 101 2 0c0d 1617")
    cases.stop(0, b"\1\2", "stopped")
    cases.dump(0x101, bytes((10, 11, 1, 2, 14, 15)))
    cases.back()
    keeping(cases, "past the kept bytes", 9, 1, 3)
    cases.write(0x101, 2, bytes((22, 23)), "failed")
    cases.say(b"abcd", "failed")
    cases.say(b"abc", "ok")
    cases.say(b"", "failed")
    cases.counts((0, 1, 2, 0x101, 4), b"abc")
    cases.dump(0x101, BYTES)
    for call, told in ((0, "none"), (1, "none"), (2, "say 616263"), (3, "none")):
        cases.kept(call, told)


def ask(cases: Cases) -> None:
    for row in CALLS:
        calls(cases, *row)
    kept(cases)
    listed_and_past(cases)
    cases.case("sources")
    for failing, gives, faults in READS:
        cases.fail_input(*failing)
        told = " ".join("failed" if text is None else hexed(text.encode()) for text in gives)
        cases.source(b"abcdef", (0, 1, 3, 8, 8, 0), f"{told} {faults:x}")
