#!/usr/bin/env python3
"""Compares the commands that change areas with the model of the step, on images made at random: the reply of each, and
every list after it.

    python3 end_to_end/check_steps.py [COUNT] [SEED] [PROGRAM]
"""

import random
import sys
import tempfile
from pathlib import Path

from check_lists import ROOT, run
from check_random import SIZES, image, questions
from platform_images import area, slot_count, write
from step_model import create_namespace, destroy_namespace, init_labels, release_held
from step_rows import any_command, calmed

SLOTS = {slot_count(size): size for size in SIZES}

def line_of(command, words: tuple) -> str:
    """The line of a command with these words."""
    if command is init_labels:
        return f"init-labels dimm={words[0]}"
    if command is release_held:
        return f"release-held dimm={words[0]} uuid={words[1]}"
    if command is create_namespace:
        index, size, number, name, mode, sector = words
        given = f" name={name.decode()}" if name else ""
        return f"create-namespace region={index} size={size}{given} mode={mode} sector-size={sector} uuid={number}"
    if command is destroy_namespace:
        return f"destroy-namespace region={words[0]} namespace={words[1]}"
    return f"rename-namespace region={words[0]} namespace={words[1]} name={words[2].decode()}"


def main() -> int:
    count = int(sys.argv[1]) if len(sys.argv) > 1 else 100
    first = int(sys.argv[2]) if len(sys.argv) > 2 else 1
    program = sys.argv[3] if len(sys.argv) > 3 else str(ROOT / "crates/nd_cli/out/nd_cli")
    rows = wrong = accepted = 0
    with tempfile.TemporaryDirectory() as scratch:
        for number in range(count):
            chance = random.Random(first * 1_000_003 + number)
            table, areas, model = image(chance)
            if number % 4:
                model = calmed(model)
                for handle, module in model.modules.items():
                    size = SLOTS[module.slots]
                    areas[handle] = area(size, module.labels) if module.state == "ready" else bytes(size)
            folder = Path(scratch, str(number))
            write(folder, table, areas)
            for _ in range(12):
                command, words = any_command(chance, model)
                model, text = command(model, *words)
                accepted += text.startswith("ok")
                asked = questions(model) if text.startswith("ok") else []
                for line, wanted in [(line_of(command, words), text), *asked]:
                    rows += 1
                    answer = run(program, folder, line)
                    if answer != (int(wanted.startswith("refused")), wanted):
                        wrong += 1
                        print(f"image {number} of seed {first}: {line}")
                        print(f"  model   {wanted!r:.2000}\n  program {answer!r:.2000}")
                if wrong > 20:
                    return 1
    print(f"{rows} replies on {count} images, with {accepted} changes: {wrong} wrong")
    return 1 if wrong or not accepted else 0


if __name__ == "__main__":
    sys.exit(main())
