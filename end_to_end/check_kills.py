#!/usr/bin/env python3
"""Kills the program at a moment by chance while it makes a namespace, again and again on one image, and lists the
namespaces after each: those that stood stand still, and the new one does where its reply was said.

    python3 end_to_end/check_kills.py [COUNT] [SEED] [PROGRAM]
"""

import random
import subprocess
import sys
import tempfile
import time
from pathlib import Path

from check_lists import ROOT

# The longest wait, by the time that a create takes which is left alone.
LONGEST = 1.1


def main() -> int:
    count = int(sys.argv[1]) if len(sys.argv) > 1 else 100
    chance = random.Random(int(sys.argv[2]) if len(sys.argv) > 2 else 1)
    program = sys.argv[3] if len(sys.argv) > 3 else str(ROOT / "crates/nd_cli/out/nd_cli")
    killed = unsaid = pending = wrong = 0
    with tempfile.TemporaryDirectory() as folder:
        subprocess.run(["sh", str(ROOT / "examples/make-image"), "image"], cwd=folder, check=True)

        def said(*line: str, seconds: float = 0) -> str:
            words = [program, "do", str(Path(folder, "image")), *line]
            limit = ["timeout", "-s", "KILL", f"{seconds:.6f}"] if seconds else []
            return subprocess.run(limit + words, capture_output=True, text=True).stdout

        for module in ("0x1", "0x101"):
            said("init-labels", f"dimm={module}")
        start = time.perf_counter()
        said("create-namespace", "region=1", "size=4M", "name=first", seconds=60)
        longest = LONGEST * (time.perf_counter() - start)
        names = ["first"]
        for number in range(count):
            name = f"n{number}"
            seconds = chance.uniform(longest / 20, longest)
            reply = said("create-namespace", "region=1", "size=4M", f"name={name}", seconds=seconds)
            listed = said("list", "region=1")
            shown = [line.split("name=")[1].split()[0] for line in listed.splitlines()[:-1]]
            is_said = reply.startswith("ok created ") and reply.endswith("\n")
            stands = shown == names + [name]
            if not (stands or shown == names) or (is_said and not stands):
                wrong += 1
                print(f"create {number}, killed after {seconds:.6f} s: {reply!r}\n{listed}")
            killed += not is_said
            unsaid += stands and not is_said
            pending += "pending=yes" in listed
            names = shown
    print(f"{killed} of {count} creates killed, {unsaid} of them done, {pending} lists with pending=yes: {wrong} wrong")
    return 1 if wrong or not killed else 0


if __name__ == "__main__":
    sys.exit(main())
