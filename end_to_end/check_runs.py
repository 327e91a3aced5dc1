#!/usr/bin/env python3
"""Gives the program lists of lines on its standard input, and compares all that it says, byte by byte: lines made by hand,
and at random on images made at random, with the model of the step. Each random list is then done again on the same image,
line by line by `do`, and says and leaves the same.

    python3 end_to_end/check_runs.py [COUNT] [SEED] [PROGRAM]
"""

import random
import subprocess
import sys
import tempfile
from pathlib import Path

from check_changes import destroy, destroyed
from check_creates import U1, U2, U3, U4, U5, create, created
from check_lists import FIRST, PAIR, PART, ROOT, both, free, image as images, pair, run as do, space
from check_random import image, questions
from check_steps import SLOTS, line_of
from platform_images import MIB, area, write
from step_rows import any_command, calmed

MOST = 1 << 20
"""As many bytes may the input have."""

LINES = 300
REGION = "ok regions=1\n"
FAULTS = {
    "x": "refused words unknown\n", "list region=": "refused words value key=region\n",
    "list-free": "refused words missing key=region\n", "list\t": "refused words byte at=4\n",
    "list region=1 region=1": "refused words twice key=region\n", "list dimm=1": "refused words key piece=1\n",
}
SILENT = ("", "  ", "#", "# x", " #list")


def run(program: str, folder: Path, lines: bytes) -> tuple:
    done = subprocess.run([program, "run", str(folder)], input=lines, capture_output=True, timeout=120)
    return done.returncode, done.stdout


def wanted(texts: list) -> tuple:
    """The status of a list whose lines are answered so, and all that is said."""
    return int(any(text.startswith("refused") for text in texts)), "".join(texts).encode()


# Lines made by hand, on two modules without labels: the bytes of the input, the status, and what is said.

EMPTY = "ok namespaces=0\n"
HELD = "ok held=0 spare=510\n"
LONG, BYTE = "refused words too-long\n", "refused words byte at="


def by_hand():
    yield b"", 0, ""
    yield b"\n", 0, ""
    yield b"\n \n# x\n\n", 0, ""
    yield b"list", 0, EMPTY
    yield b"list\n", 0, EMPTY
    yield b"list\nlist-held dimm=1", 0, EMPTY + HELD
    yield b"\nlist\n\nlist-held dimm=1\n\n", 0, EMPTY + HELD
    yield b"list-free\nlist\n", 1, FAULTS["list-free"] + EMPTY
    yield b"list\r\nlist\n", 1, f"{BYTE}4\n{EMPTY}"
    yield b"list\0\nlist", 1, f"{BYTE}4\n{EMPTY}"
    yield b"\xff\nlist", 1, f"{BYTE}0\n{EMPTY}"
    yield b"list".ljust(4096) + b"\nlist", 0, EMPTY + EMPTY
    yield b"list".ljust(4097) + b"\nlist", 1, LONG + EMPTY
    yield b"#".ljust(4096, b"x"), 0, ""
    yield b"#".ljust(4097, b"x"), 1, LONG
    yield b"list" + b"\n" * (MOST - 4), 0, EMPTY
    yield b"list" + b"\n" * (MOST - 3), 5, "error limit input\n"
    yield b"list\n".ljust(MOST, b"#"), 1, EMPTY + LONG
    yield b"list\n".ljust(MOST + 1, b"#"), 5, "error limit input\n"
    made = create("4M", U1, "db0").encode()
    other = create("4M", U2, "db0").encode()
    yield made + b"\n" + other + b"\nlist", 1, (
        created(U1, 0, 4 * MIB, 509) + f"refused name-in-use uuid={U1}\n" + space(U1, 0, 2 * MIB, "db0") + "ok namespaces=1\n"
    )


def behind_a_destroy():
    """Images, and rows of one list: the space of a namespace is free at once, but where a label holds it."""
    shown = "list-free region=1"
    yield images([], []), [
        (create("4M", U1), created(U1, 0, 4 * MIB, 509)),
        (create("4M", U2), created(U2, 2 * MIB, 4 * MIB, 508)),
        (destroy(U1), destroyed(U1)),
        (shown, free((0, 2 * MIB), (4 * MIB, PART - 4 * MIB), largest=2 * PART - 8 * MIB)),
        (create("8M", U4), created(U4, 4 * MIB, 8 * MIB, 508)),
        (create("4M", U5), created(U5, 0, 4 * MIB, 507)),
        (destroy(U2), destroyed(U2)),
        (destroy(U4), destroyed(U4)),
        (shown, free((2 * MIB, PART - 2 * MIB), largest=2 * PART - 4 * MIB)),
    ]
    first, second = both(U1, 0, 2 * MIB)
    rest = free((0, MIB), (3 * MIB, PART - 3 * MIB), largest=2 * PART - 8 * MIB)
    yield images([first, pair(U3, MIB, 2 * MIB, 0)], [second]), [
        (shown, free((3 * MIB, PART - 3 * MIB), largest=2 * PART - 8 * MIB)),
        (destroy(U1), destroyed(U1)),
        (shown, rest),
        (create("4M", U2), created(U2, 4 * MIB, 4 * MIB, 508)),
        (destroy(U2), destroyed(U2)),
        (shown, rest),
    ]


def check_by_hand(program: str, scratch: Path) -> tuple:
    wrong = rows = 0
    for number, (made, answers) in enumerate(behind_a_destroy()):
        rows += 1
        folder = Path(scratch, f"destroy{number}")
        write(folder, *made)
        lines, said = "\n".join(line for line, _ in answers), "".join(text for _, text in answers)
        wrong += differs(f"behind a destroy, {number}", run(program, folder, lines.encode()), (0, said.encode()))
    for number, (lines, status, said) in enumerate(by_hand()):
        rows += 1
        folder = Path(scratch, f"hand{number}")
        write(folder, *images([], []))
        wrong += differs(f"lines {number}", run(program, folder, lines), (status, said.encode()))
    for table, said in ((b"", "error nfit short length=0\n"), (None, "error source nfit\n")):
        rows += 1
        folder = Path(scratch, "none")
        write(folder, table or b"", {FIRST: area(1024)})
        if table is None:
            Path(folder, "nfit.bin").unlink()
        wrong += differs("no NFIT", run(program, folder, b"list\n" * (MOST // 5 + 1)), (3 if table == b"" else 5, said.encode()))
    return rows, wrong


# Lines at random.


def any_line(chance: random.Random, model) -> tuple:
    """A line, what the model answers, and the model afterwards."""
    kind = chance.random()
    if kind < 0.1:
        return chance.choice(SILENT), "", model
    if kind < 0.2:
        line = chance.choice(list(FAULTS))
        return line, FAULTS[line], model
    if kind < 0.4:
        line, text = chance.choice(questions(model))
        return line, text, model
    command, words = any_command(chance, model)
    after, text = command(model, *words)
    return line_of(command, words), text, after


def check_at_random(program: str, scratch: Path, count: int, seed: int) -> tuple:
    rows = wrong = accepted = 0
    for number in range(count):
        chance = random.Random(seed * 1_000_003 + number)
        table, areas, model = image(chance)
        if number % 4:
            model = calmed(model)
            for handle, module in model.modules.items():
                size = SLOTS[module.slots]
                areas[handle] = area(size, module.labels) if module.state == "ready" else bytes(size)
        folders = [Path(scratch, f"{way}{number}") for way in ("run", "do")]
        for folder in folders:
            write(folder, table, areas)
        lines, texts = [], []
        for _ in range(LINES):
            line, text, model = any_line(chance, model)
            lines.append(line)
            texts.append(text)
            accepted += text.startswith(("ok created", "ok initialised"))
        rows += LINES
        name = f"image {number} of seed {seed}"
        wrong += differs(name, run(program, folders[0], "\n".join(lines).encode()), wanted(texts))
        said = "".join(do(program, folders[1], line)[1] for line in lines)
        wrong += differs(f"{name}, line by line", said, "".join(texts))
        for path in folders[0].iterdir():
            other = Path(folders[1], path.name)
            wrong += differs(f"{name}, {path.name}", path.read_bytes() == other.read_bytes(), True)
        if wrong > 20:
            break
    return rows, wrong, accepted


def differs(name: str, answer, text) -> int:
    if answer == text:
        return 0
    print(f"{name}:\n  wanted  {text!r:.2000}\n  program {answer!r:.2000}")
    return 1


def main() -> int:
    count = int(sys.argv[1]) if len(sys.argv) > 1 else 20
    seed = int(sys.argv[2]) if len(sys.argv) > 2 else 1
    program = sys.argv[3] if len(sys.argv) > 3 else str(ROOT / "crates/nd_cli/out/nd_cli")
    with tempfile.TemporaryDirectory() as scratch:
        rows, wrong = check_by_hand(program, Path(scratch))
        lines, more, accepted = check_at_random(program, Path(scratch), count, seed)
    print(f"{rows} lists by hand and {lines} lines on {count} images, with {accepted} changes: {wrong + more} wrong")
    return 1 if wrong or more or not accepted else 0


if __name__ == "__main__":
    sys.exit(main())
