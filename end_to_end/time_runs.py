#!/usr/bin/env python3
"""Times lists of commands from outside: commands a second of each kind, on files, with the start of the program in it.

    python3 end_to_end/time_runs.py [FOLDER] [PROGRAM]

The files are made in FOLDER, which tells the storage that is timed: the system's folder for temporary files where none is
given. In a folder in memory, such as /dev/shm, a sync costs nothing.
"""

import subprocess
import sys
import tempfile
import time
from pathlib import Path

from check_lists import ROOT
from platform_images import MIB, Mapping, Region, area, nfit, write

SIZE = 131072
GIB = 1 << 30
NAMESPACES = 250
TELLING = 10_000
CHANGES = 100


def image(folder: Path, ways: int) -> None:
    """A region of so many modules, each with an empty area of 131,072 bytes."""
    parts = [Mapping(1 + 0x100 * at, 1 + at, 16 * GIB, 4096 * at) for at in range(ways)]
    write(folder, nfit([Region(1, 1 << 40, parts)]), {part.handle: area(SIZE) for part in parts})


def main() -> int:
    base = sys.argv[1] if len(sys.argv) > 1 else None
    program = sys.argv[2] if len(sys.argv) > 2 else str(ROOT / "crates/nd_cli/out/nd_cli")

    with tempfile.TemporaryDirectory(dir=base) as scratch:
        def seconds(folder: Path, lines: list, accepted: bool) -> float:
            start = time.perf_counter()
            done = subprocess.run([program, "run", str(folder)], input="\n".join(lines), capture_output=True, text=True)
            took = time.perf_counter() - start
            if done.returncode != (0 if accepted else 1):
                raise SystemExit(f"status {done.returncode}: {done.stdout[-200:]!r}")
            return took

        def told(label: str, folder: Path, lines: list, accepted: bool = True) -> None:
            took = seconds(folder, lines, accepted)
            print(f"  {label}: {len(lines) / took:,.0f} a second ({len(lines)} in {took:.3f} s)")

        for ways in (2, 4):
            folder = Path(scratch, f"image{ways}")
            image(folder, ways)
            size = 2 * MIB * ways
            for stand in (0, NAMESPACES):
                if stand:
                    seconds(folder, [f"create-namespace region=1 size={size} name=s{at}" for at in range(stand)], True)
                print(f"{ways} modules, {stand} namespaces")
                told("list-free", folder, ["list-free region=1"] * TELLING)
                told("to-module", folder, ["to-module region=1 spa=0x10000001000"] * TELLING)
                told("refused create", folder, ["create-namespace region=1 size=1"] * TELLING, False)
                told("create", folder, [f"create-namespace region=1 size={size} name=n{at}" for at in range(CHANGES)])
                told("rename", folder, [f"rename-namespace region=1 namespace=n{at} name=m{at}" for at in range(CHANGES)])
                told("destroy", folder, [f"destroy-namespace region=1 namespace=m{at}" for at in range(CHANGES)])
                turns = [line for at in range(CHANGES // 2) for line in
                         (f"create-namespace region=1 size={size} name=t{at}", f"destroy-namespace region=1 namespace=t{at}")]
                told("create and destroy by turns", folder, turns)
    return 0


if __name__ == "__main__":
    sys.exit(main())
