#!/usr/bin/env python3
"""Runs the worked example of README.md in a new folder, and compares what each command says, line by line.

    python3 end_to_end/check_readme.py [PROGRAM]
"""

import re
import subprocess
import sys
import tempfile
from pathlib import Path

from check_lists import ROOT


def commands(text: str):
    """The commands of the README's blocks, each with the lines that it says."""
    for block in re.findall(r"```text\n(.*?)```", text, re.S):
        said = None
        for line in block.splitlines():
            if line.startswith("$ "):
                said = []
                yield line[2:], said
            elif said is not None and line:
                said.append(line)


def main() -> int:
    program = sys.argv[1] if len(sys.argv) > 1 else str(ROOT / "crates/nd_cli/out/nd_cli")
    rows = wrong = 0
    with tempfile.TemporaryDirectory() as folder:
        Path(folder, "examples").symlink_to(ROOT / "examples")
        Path(folder, "nd").symlink_to(program)
        subprocess.run(["sh", "examples/make-image", "image"], cwd=folder, check=True)
        for command, said in list(commands((ROOT / "README.md").read_text())):
            rows += 1
            done = subprocess.run(command, shell=True, cwd=folder, capture_output=True, text=True, timeout=60)
            if done.stdout.splitlines() != said:
                wrong += 1
                print(f"$ {command}\n  README says {said}\n  it said {done.stdout.splitlines()} {done.stderr}")
    print(f"{rows} commands of README.md, {wrong} wrong")
    return 1 if wrong or not rows else 0


if __name__ == "__main__":
    sys.exit(main())
