#!/usr/bin/env python3
"""Counts the calls of the system that runs make on the files of areas, and times the listing of one area.

    python3 end_to_end/time_calls.py [PROGRAM]

The calls are those that strace tells. Once the file of a module is open, a write should be two: one that writes, and one that
syncs. The times are the best of some runs, with the start of the program in them.
"""

import re
import shutil
import subprocess
import sys
import tempfile
import time
from pathlib import Path

from check_lists import ROOT, uuid
from platform_images import MIB, Label, Mapping, Region, area, nfit, slot_count, write

SMALL = 131072
COMMANDS = 50
RUNS = 40
CALL = re.compile(r"^(?:\d+ +)?(\w+)\((.*)")


def platform(folder: Path, ways: int, size: int) -> None:
    """A region of so many modules, each with an empty area."""
    parts = [Mapping(1 + 0x100 * at, 1 + at, 16 << 30, 4096 * at) for at in range(ways)]
    write(folder, nfit([Region(1, 1 << 40, parts)]), {part.handle: area(size) for part in parts})


def calls_on_areas(program: str, folder: Path, lines: list) -> list:
    """The names of the calls on files of areas in a run of these lines, in their order, with the file of each."""
    trace = folder / "trace"
    subprocess.run(["strace", "-y", "-o", str(trace), program, "run", str(folder)], input="\n".join(lines), text=True,
                   capture_output=True, check=True)
    calls = []
    for line in trace.read_text().splitlines():
        found = CALL.match(line)
        file = found and re.search(r"dimm-[0-9a-f]{8}\.lsa", found[2])
        if file:
            calls.append((found[1], file[0]))
    return calls


def count_calls(program: str, folder: Path) -> bool:
    """Says how many calls writes take, and whether these are two each."""
    all_two = True
    for ways in (1, 2, 16):
        image = folder / f"calls{ways}"
        platform(image, ways, SMALL)
        lines = [f"create-namespace region=1 size={2 * MIB * ways} name=n{at}" for at in range(COMMANDS)]
        calls = calls_on_areas(program, image, lines)
        names = [name for name, _ in calls]
        begin = names.index("pwrite64")
        # What closes the files comes behind all writes.
        end = len(names) - names[::-1].index("fdatasync")
        writes = names.count("pwrite64")
        takes = (end - begin) / writes
        all_two = all_two and names[begin:end] == ["pwrite64", "fdatasync"] * writes
        print(f"{ways} modules: {writes} writes, {takes:.2f} calls a write;"
              f" {begin / ways:.2f} calls a module before, {(len(names) - end) / ways:.2f} behind")
    return all_two


def labels(count: int) -> list:
    return [Label(uuid(number), 2 * MIB * number, 2 * MIB, number) for number in range(count)]


def time_labels(program: str, folder: Path) -> None:
    for size in (SMALL, MIB):
        for count in (0, slot_count(size)):
            write(folder, b"", {1: area(size, labels(count))})
            best = 9.0
            for _ in range(RUNS):
                start = time.perf_counter()
                subprocess.run([program, "labels", str(folder), "1"], stdout=subprocess.DEVNULL, check=True)
                best = min(best, time.perf_counter() - start)
            print(f"labels of {size:,} bytes with {count:,} labels: {best * 1000:.2f} ms")


def main() -> int:
    program = sys.argv[1] if len(sys.argv) > 1 else str(ROOT / "crates/nd_cli/out/nd_cli")
    with tempfile.TemporaryDirectory() as scratch:
        time_labels(program, Path(scratch, "labels"))
        if not shutil.which("strace"):
            print("calls are not counted: there is no strace")
            return 0
        return 0 if count_calls(program, Path(scratch)) else 1


if __name__ == "__main__":
    sys.exit(main())
