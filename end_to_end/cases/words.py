"""The words of a command line: the forms `labels`, `do` and `run`, told apart by what is said."""

from case_model import Cases
from platform_images import Mapping, Region, area, nfit

TABLE = nfit([Region(1, 1 << 32, [Mapping(1, 1, 1 << 30)])])

# Words, and the handle that they name in the form `labels`. There is no area.
LABELS = (
    ("labels", None), ("labels pm", None), ("labels . 1", 1), ("labels pm 0x101", 257), ("labels pm 0xfF", 255),
    ("labels pm 0XFF", None), ("labels pm FF", None), ("labels pm 4294967295", 4_294_967_295),
    ("labels pm 4294967296", None),
    ("labels pm 0xffffffff", 4_294_967_295), ("labels pm 0x100000000", None), ("labels pm 00000000000000000001", 1),
    ("labels pm 000000000000000000001", None), ("labels pm 0x0000000000000010", 16),
    ("labels pm 0x00000000000000010", None),
    ("labels pm 0x", None), ("labels pm +1", None), ("labels pm -- +1", None), ("labels pm -1", None),
    ("labels pm -- -1", None),
    ("labels pm ", None), ("labels pm 1 2", None), ("Labels pm 1", None), ("-- labels pm 1", 1), ("labels -- pm 1", 1),
    ("labels pm -- 1", 1), ("labels pm 1 --", 1), ("labels pm 1 -- x", None), ("labels -x 1", None),
    ("labels -- -x 1", 1),
    ("labels - 1", 1), ("-- labels -- 1", 1), ("-- -- labels . 1", None), ("--help", None), ("-h", None),
    ("labels pm - 1", None),
    ("labels pm 1K", None), ("labels pm -- 1 --", None),
)

# Words, and whether they are the form `run`. The input is a line that is refused.
RUNS = (
    ("run pm", True), ("run", False), ("run pm x", False), ("run -- -x", True), ("run -x", False), ("run pm --", True),
    ("run pm -- ", False), ("run -", True), ("-- run pm", True), ("Run pm", False), ("runs pm", False),
    ("run -- pm --", False),
)

# Words, and the line that they are in the form `do`.
LINES = (
    ("do pm x", "x"), ("do pm x y=1", "x y=1"), ("do pm x  y", "x  y"), ("do pm ", ""), ("do pm a ", "a "),
    ("do pm  a", " a"),
    ("do pm", None), ("do", None), ("do -x y", None), ("do -- -x y", "y"), ("do pm -x", None), ("do pm - x", "- x"),
    ("do pm -- -x", "-x"), ("do pm -- -- x", "-- x"), ("do -- pm a -- b", "a -- b"), ("do pm x --", "x"),
    ("do pm --", None),
    ("do pm -- ", ""), ("-- do pm x", "x"), ("-- -- do pm x", None), ("do labels pm 1", "pm 1"), ("Do pm x", None),
    ("do. pm x", None),
    ("", None),
)

# The folder that these words name, where it is not `pm`.
FOLDERS = {
    "labels": ".", "labels . 1": ".", "labels -x 1": "-x", "labels -- -x 1": "-x", "labels - 1": "-", "-- labels -- 1": "--",
    "-- -- labels . 1": "labels", "--help": ".", "-h": ".", "run": ".", "run -- -x": "-x", "run -x": "-x", "run -": "-", "do": ".",
    "do -x y": "-x", "do -- -x y": "-x", "-- -- do pm x": "do", "do labels pm 1": "labels", "": ".",
}

# The same words around a line that tells its pieces: with one space between each two, a name, and a byte that is none
# of text.
SPACED = (
    ("do . list-held dimm=1", 0, "ok held=0 spare=2\n"), ("do . list-held  dimm=1", 0, "ok held=0 spare=2\n"),
    ("do -- . list-held dimm=1", 0, "ok held=0 spare=2\n"), ("do . list-held -- dimm=1", 0, "ok held=0 spare=2\n"),
    ("do . list-held -- -- dimm=1", 1, "refused words key piece=1\n"),
    ("do . list-held --", 1, "refused words missing key=dimm\n"),
    ("do . # x", 0, ""), ("do . x\n", 1, "refused words byte at=1\n"), ("do . é", 1, "refused words byte at=0\n"),
    ("do . list-held dimm=1 ", 0, "ok held=0 spare=2\n"),
)

ERROR = "error words\n"


def ask(cases: Cases) -> None:
    cases.case("words")
    cases.nfit(TABLE)
    cases.input(b"x")
    cases.nd([], 2, ERROR)
    for line, handle in LABELS:
        missing = f"refused not-ready missing dimm=0x{handle or 0:08x}\n"
        cases.nd(line, 2 if handle is None else 1, ERROR if handle is None else missing)
    for line, is_run in RUNS:
        cases.nd(line, 1 if is_run else 2, "refused words unknown\n" if is_run else ERROR)
    for line, told in LINES:
        status, said = (2, ERROR) if told is None else (1, "refused words unknown\n") if told.strip() else (0, "")
        cases.nd(line, status, said)
        if told is not None:
            # A byte behind the line, as a word more, tells its length.
            cases.nd([*line.split(" "), "\1"], 1, f"refused words byte at={len(told) + 1}\n")
    cases.case("words of a line")
    cases.nfit(TABLE)
    cases.area(1, area(1024))
    for line, status, said in SPACED:
        cases.nd(line, status, said)
    cases.case("folders")
    for line, _ in (*LABELS, *RUNS, *LINES):
        cases.folder(line, FOLDERS.get(line, "pm"))
