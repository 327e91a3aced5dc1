#!/usr/bin/env python3
"""Writes labels as another tool would have left them into the image of `make-image`: a namespace of 8 GiB over both
modules, and in the first one a label of 1 GiB that nothing goes with.

    python3 examples/put_labels.py FOLDER
"""

import sys
from pathlib import Path

sys.path.insert(0, str(Path(__file__).resolve().parent.parent / "end_to_end"))
from platform_images import FSDAX, Label, area  # noqa: E402

GIB = 1 << 30
COOKIE = 0x0002_E242_0000_346B
SIZE = 131072


def main() -> None:
    folder = Path(sys.argv[1])
    first, second = (
        Label("0f6b1a52-7c3e-4d28-9a41-5be0c7d2e813", 0, 4 * GIB, COOKIE, b"db0", nlabel=2, position=position, abstraction=FSDAX)
        for position in (0, 1)
    )
    alone = Label("9c1d7f4e-52a0-4be6-8d3b-6a0f2e84c715", 8 * GIB, GIB, COOKIE, b"old", nlabel=2)
    (folder / "dimm-00000001.lsa").write_bytes(area(SIZE, [first, alone]))
    (folder / "dimm-00000101.lsa").write_bytes(area(SIZE, [second]))


if __name__ == "__main__":
    main()
