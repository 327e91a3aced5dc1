#!/usr/bin/env python3
"""Times a create from outside, with the start of the program: on a region without namespaces, and on one with 250.

    python3 end_to_end/time_creates.py [PROGRAM]
"""

import shutil
import statistics
import subprocess
import sys
import tempfile
import time
from pathlib import Path

from check_lists import ROOT

NAMESPACES = 250
RUNS = 21


def main() -> int:
    program = sys.argv[1] if len(sys.argv) > 1 else str(ROOT / "crates/nd_cli/out/nd_cli")
    with tempfile.TemporaryDirectory() as scratch:
        subprocess.run(["sh", str(ROOT / "examples/make-image"), "image"], cwd=scratch, check=True)
        image = Path(scratch, "image")

        def said(folder: Path, *line: str) -> str:
            return subprocess.run([program, "do", str(folder), *line], capture_output=True, text=True).stdout

        def seconds() -> float:
            """The median of creates, each on a copy of the image."""
            times = []
            for run in range(RUNS):
                copy = Path(scratch, "copy")
                shutil.copytree(image, copy)
                start = time.perf_counter()
                reply = said(copy, "create-namespace", "region=1", "size=4M")
                times.append(time.perf_counter() - start)
                shutil.rmtree(copy)
                if not reply.startswith("ok created "):
                    raise SystemExit(f"it said {reply!r}")
            return statistics.median(times)

        for module in ("0x1", "0x101"):
            said(image, "init-labels", f"dimm={module}")
        print(f"    0 namespaces: {seconds() * 1000:.2f} ms")
        for number in range(NAMESPACES):
            said(image, "create-namespace", "region=1", "size=4M", f"name=n{number}")
        print(f"{NAMESPACES:5} namespaces: {seconds() * 1000:.2f} ms")
    return 0


if __name__ == "__main__":
    sys.exit(main())
