#!/usr/bin/env python3
"""Times the lists on the greatest platform: four regions of 16 ways, each module with an area of 1,048,576 bytes.

    python3 end_to_end/time_lists.py [PROGRAM]

All 4,090 slots of each module are in use: by labels that belong, so that a region has 4,090 namespaces; by labels that
belong to no region; and by labels of one uuid. Without labels, what is left is the reading.
"""

import os
import sys
import tempfile
import time
from pathlib import Path

from check_lists import ROOT, uuid
from platform_images import MIB, Label, Mapping, Region, area, nfit, write

WAYS = 16
PART = 64 << 30
SLOTS = 4090


def regions() -> list:
    mappings = [[Mapping(16 * k + i, 1 + 16 * k + i, PART, 4096 * i) for i in range(WAYS)] for k in range(4)]
    return [Region(k + 1, (k + 1) << 44, parts) for k, parts in enumerate(mappings)]


def labels(kind: str, region: Region, position: int) -> list:
    cookie = region.cookie() if kind != "held" else 1
    return [
        Label(uuid(0 if kind == "one uuid" else number), 2 * MIB * number, 2 * MIB, cookie, nlabel=WAYS, position=position)
        for number in range(SLOTS if kind != "none" else 0)
    ]


def write_platform(folder: Path, kind: str) -> None:
    areas = {
        part.handle: area(MIB, labels(kind, region, position))
        for region in regions()
        for position, part in enumerate(region.mappings)
    }
    write(folder, nfit(regions()), areas)


def timed(program: str, folder: Path, line: str) -> tuple:
    """Seconds of wall and of processor time, and the most memory in MB: the least of five runs."""
    runs = []
    for _ in range(5):
        start = time.monotonic()
        pid = os.posix_spawn(program, [program, "do", str(folder), line], os.environ,
                             file_actions=[(os.POSIX_SPAWN_OPEN, 1, "/dev/null", os.O_WRONLY, 0)])
        _, status, used = os.wait4(pid, 0)
        runs.append((time.monotonic() - start, used.ru_utime + used.ru_stime, used.ru_maxrss // 1024, os.waitstatus_to_exitcode(status)))
    return min(runs)


def main() -> None:
    program = sys.argv[1] if len(sys.argv) > 1 else str(ROOT / "crates/nd_cli/out/nd_cli")
    with tempfile.TemporaryDirectory() as scratch:
        for kind in ("none", "namespaces", "held", "one uuid"):
            folder = Path(scratch, kind.replace(" ", "-"))
            write_platform(folder, kind)
            for line in ("list-regions", "list", "list-free region=1", "list-held dimm=1"):
                wall, processor, memory, status = timed(program, folder, line)
                print(f"{kind:<12}{line:<20}{wall:6.3f} s, {processor:6.3f} s of processor time, {memory} MB, status {status}")


if __name__ == "__main__":
    main()
