#!/usr/bin/env python3
"""Kills the program at a moment by chance while it does a list of commands from its input, again and again on one image.
What it said is a front of the replies that the model gives, and what stands afterwards is the table behind the commands
whose replies were said, or behind one more. Marks of pending namespaces may differ.

    python3 end_to_end/check_run_kills.py [COUNT] [SEED] [PROGRAM]
"""

import random
import subprocess
import sys
import tempfile
import time
from pathlib import Path

from check_lists import ROOT, run
from check_random import questions
from check_steps import line_of
from platform_images import MIB, area, nfit, write
from step_model import create_namespace, destroy_namespace, rename_namespace
from step_rows import two_modules

SIZE = 131072
LINES = 12

# The longest wait, by the time that a list takes which is left alone.
LONGEST = 1.1


def any_change(chance: random.Random, table, number: int) -> tuple:
    """A command on the namespaces of the region, which may be refused."""
    spaces = table.namespaces(table.regions[0])
    key = chance.choice([own for _, own, _, _ in spaces] or ["none"])
    made = f"00000000-0000-4000-8000-{number:012x}"
    name = chance.choice((b"", b"logs", f"n{number}".encode()))
    create = create_namespace, (1, MIB * chance.choice((4, 4, 8, 6)), made, name, "raw", 512)
    return chance.choice((create, create, (destroy_namespace, (1, key)), (rename_namespace, (1, key, name))))


def shown(program: str, folder: Path, table) -> tuple:
    """What the program shows of an image, and what the model does, without marks."""
    asked = questions(table)
    told = [run(program, folder, line)[1].replace("pending=yes", "pending=no") for line, _ in asked]
    return told, [text.replace("pending=yes", "pending=no") for _, text in asked]


def main() -> int:
    count = int(sys.argv[1]) if len(sys.argv) > 1 else 100
    chance = random.Random(int(sys.argv[2]) if len(sys.argv) > 2 else 1)
    program = sys.argv[3] if len(sys.argv) > 3 else str(ROOT / "crates/nd_cli/out/nd_cli")
    table = two_modules()
    killed = unsaid = wrong = made = 0
    longest = 0.0
    with tempfile.TemporaryDirectory() as scratch:
        folder = Path(scratch, "image")
        write(folder, nfit(table.regions), {handle: area(SIZE) for handle in table.modules})
        for number in range(count):
            tables, replies, lines = [table], [], []
            for _ in range(LINES):
                made += 1
                command, words = any_change(chance, tables[-1], made)
                after, reply = command(tables[-1], *words)
                tables.append(after)
                replies.append(reply)
                lines.append(line_of(command, words) + "\n")
            seconds = chance.uniform(longest / 20, longest) if longest else 60
            start = time.perf_counter()
            done = subprocess.run(
                ["timeout", "-s", "KILL", f"{seconds:.6f}", program, "run", str(folder)],
                input="".join(lines), capture_output=True, text=True,
            )
            longest = longest or LONGEST * (time.perf_counter() - start)
            said = done.stdout
            acknowledged = said.count("\n")
            behind = [at for at in (acknowledged, acknowledged + 1) if at < len(tables)]
            seen = {at: shown(program, folder, tables[at]) for at in behind}
            fits = [at for at in behind if seen[at][0] == seen[at][1]]
            if not fits or not "".join(replies).startswith(said):
                wrong += 1
                print(f"list {number}, killed after {seconds:.6f} s, said {said!r}\n  {seen!r:.3000}")
                return 1
            killed += acknowledged < len(replies)
            unsaid += fits[0] > acknowledged
            table = tables[fits[0]]
    print(f"{killed} of {count} lists killed, {unsaid} of them behind a command that was not said: {wrong} wrong")
    return 1 if wrong or not killed else 0


if __name__ == "__main__":
    sys.exit(main())
