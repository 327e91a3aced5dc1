#!/usr/bin/env python3
"""Destroys and renames namespaces and releases held labels on images made by hand, and compares each reply, and what the
lists tell then, byte by byte: worked examples, each refusal alone, each with its neighbour in their order, and what stopped
commands left.

    python3 end_to_end/check_changes.py [PROGRAM]
"""

import sys
import tempfile
from dataclasses import replace
from pathlib import Path

from check_creates import GIB, LONE, SMALL, U1, U2, U3, U4, U5, create, created, said
from check_lists import FIRST, NO_SPACES, PAIR, PART, ROOT, SECOND, both, free, held, image, pair, space
from platform_images import LOCAL, MIB, ROLABEL, UPDATING, Label, Mapping, Region, area, nfit, write


def destroy(key: str, region=1) -> str:
    return f"destroy-namespace region={region} namespace={key}"


def rename(key: str, name: str, region=1) -> str:
    return f"rename-namespace region={region} namespace={key} name={name}"


def release(number: str, handle=FIRST) -> str:
    return f"release-held dimm=0x{handle:x} uuid={number}"


def destroyed(number: str) -> str:
    return f"ok destroyed uuid={number}\n"


def renamed(number: str, name: str) -> str:
    return f"ok renamed uuid={number} name={name}\n"


def worked():
    """The worked examples: space that is given back and filled again, few slots, names, and a module that was replaced."""
    yield image([], []), [
        (create("4M", U1), 0, created(U1, 0, 4 * MIB, 509)),
        (create("4M", U2), 0, created(U2, 2 * MIB, 4 * MIB, 508)),
        (create("4M", U3), 0, created(U3, 4 * MIB, 4 * MIB, 507)),
        (destroy(U2), 0, destroyed(U2)),
        (create("8M", U4), 0, created(U4, 6 * MIB, 8 * MIB, 507)),
        (create("4M", U5), 0, created(U5, 2 * MIB, 4 * MIB, 506)),
        ("list-free region=1", 0, free((10 * MIB, PART - 10 * MIB), largest=2 * PART - 20 * MIB)),
    ]
    yield image([], [], size=SMALL), [
        (create("4M", U1, "db0"), 0, created(U1, 0, 4 * MIB, 1)),
        (create("4M", U2), 1, "refused no-slots dimm=0x00000001 spare=1\n"),
        (rename("db0", "db1"), 0, renamed(U1, "db1")),
        (destroy("db1"), 0, destroyed(U1)),
        ("list", 0, NO_SPACES),
        ("list-free region=1", 0, free((0, PART), largest=2 * PART)),
        ("list-held dimm=0x101", 0, "ok held=0 spare=2\n"),
    ]
    yield (nfit([LONE]), {FIRST: area(SMALL)}), [
        (create("4M", U1, "db0"), 0, created(U1, 0, 4 * MIB, 1, ways=1)),
        (rename(U1, ""), 0, renamed(U1, "-")),
        (destroy(U1), 0, destroyed(U1)),
        ("list-free region=1", 0, free((0, 64 * MIB), largest=64 * MIB)),
    ]
    yield image([], []), [
        (create("4M", U1, "db0"), 0, created(U1, 0, 4 * MIB, 509)),
        (rename("db0", "db0"), 0, renamed(U1, "db0")),
        (destroy("db9"), 1, "refused unknown-namespace\n"),
        (rename(U1, "x" * 63), 0, renamed(U1, "x" * 63)),
        ("list", 0, space(U1, 0, 2 * MIB, "x" * 63) + "ok namespaces=1\n"),
    ]
    yield image([pair(U1, 0, 2 * MIB, 0)], []), [
        ("list-held dimm=1", 0, held(U1, 0, 2 * MIB) + "ok held=1 spare=509\n"),
        (create("4M", U2), 0, created(U2, 2 * MIB, 4 * MIB, 508)),
        (release(U1), 0, "ok released=1\n"),
        (release(U1), 1, "refused not-held\n"),
        ("list-free region=1", 0, free((0, 2 * MIB), (4 * MIB, PART - 4 * MIB), largest=2 * PART - 8 * MIB)),
    ]


def stopped():
    """What stopped commands left: a pending namespace is destroyed, renamed, and healed by a change of another one; labels of
    a create and of a destroy that were stopped are cleared away."""
    marked = both(U1, 0, 2 * MIB, name=b"db0", flags=UPDATING)
    other = both(U2, 2 * MIB, 2 * MIB, name=b"db1")
    first, second = [list(own) for own in zip(marked, other)]
    both_stand = space(U1, 0, 2 * MIB, "db0") + space(U2, 2 * MIB, 2 * MIB, "new") + "ok namespaces=2\n"
    yield image(first, second), [(rename("db1", "new"), 0, renamed(U2, "new")), ("list", 0, both_stand)]
    yield image(first, second), [
        (destroy("db0"), 0, destroyed(U1)), ("list", 0, space(U2, 2 * MIB, 2 * MIB, "db1") + "ok namespaces=1\n"),
        ("list-free region=1", 0, free((0, 2 * MIB), (4 * MIB, PART - 4 * MIB), largest=2 * PART - 8 * MIB)),
    ]
    yield image(first, second), [
        (destroy("db1"), 0, destroyed(U2)), ("list", 0, space(U1, 0, 2 * MIB, "db0") + "ok namespaces=1\n"),
    ]
    # A rename that was stopped behind its first flip: the name is that of position 0's label.
    half = replace(marked[0], name=b"b"), replace(marked[1], name=b"a", flags=0)
    yield image([half[0]], [half[1]]), [
        ("list", 0, space(U1, 0, 2 * MIB, "b", pending="yes") + "ok namespaces=1\n"),
        (destroy("a"), 1, "refused unknown-namespace\n"),
        (rename("b", "c"), 0, renamed(U1, "c")),
        ("list", 0, space(U1, 0, 2 * MIB, "c") + "ok namespaces=1\n"),
    ]
    # One label is left of a create or of a destroy that was stopped.
    yield image([], [marked[1], other[1]]), [
        ("list", 0, NO_SPACES),
        (release(U1, SECOND), 1, "refused not-held\n"),
        ("list-held dimm=0x101", 0, held(U2, 2 * MIB, 2 * MIB) + "ok held=1 spare=509\n"),
        (release(U2, SECOND), 0, "ok released=1\n"),
        ("list-held dimm=0x101", 0, "ok held=0 spare=510\n"),
        (create("4M", U1), 0, created(U1, 0, 4 * MIB, 509)),
    ]


def settled():
    """Stale labels of another module are dead once the labels that stood twice are released."""
    twice = [pair(U1, 0, 2 * MIB, 0, flags=UPDATING), pair(U1, 4 * MIB, 2 * MIB, 0, flags=UPDATING)]
    yield image(twice, [pair(U1, 0, 2 * MIB, 1, flags=UPDATING)]), [
        ("list-held dimm=0x101", 0, held(U1, 0, 2 * MIB, updating="yes") + "ok held=1 spare=509\n"),
        (create("4M", U1), 1, "refused uuid-in-use dimm=0x00000001\n"),
        (release(U1), 0, "ok released=2\n"),
        ("list-held dimm=1", 0, "ok held=0 spare=510\n"),
        ("list-held dimm=0x101", 0, "ok held=0 spare=510\n"),
        ("list-free region=1", 0, free((0, PART), largest=2 * PART)),
        (create("4M", U1), 0, created(U1, 0, 4 * MIB, 509)),
    ]
    # A label that holds space under a namespace: the space is free once both are gone.
    first, second = both(U1, 0, 4 * MIB)
    yield image([first, Label(U2, MIB, 2 * MIB, 1)], [second]), [
        (destroy(U1), 0, destroyed(U1)),
        ("list-free region=1", 0, free((0, MIB), (3 * MIB, PART - 3 * MIB), largest=2 * PART - 8 * MIB)),
        (release(U2), 0, "ok released=1\n"),
        ("list-free region=1", 0, free((0, PART), largest=2 * PART)),
    ]


def states():
    """Regions that cannot be used, and those that are not Ready."""
    broken = replace(PAIR, length=4 * PART)
    rule = "refused unusable rule=capacity-differs\n"
    unknown = "refused unknown-region region=7\n"
    yield image([], None, (broken,)), [
        (destroy(U1), 1, rule), (rename(U1, "x"), 1, rule), (destroy(U1, 7), 1, unknown), (rename(U1, "x", 7), 1, unknown),
    ]
    uninit = "refused not-ready uninit dimm=0x00000101\n"
    full = area(SMALL, [pair(U1, 0, 2 * MIB, 0, flags=UPDATING), Label(U2, 0, MIB, 1, flags=ROLABEL)])
    yield (nfit([PAIR]), {FIRST: full, SECOND: bytes(SMALL)}), [
        (destroy(U1), 1, uninit), (rename(U1, "x"), 1, uninit),
        # The label of the region is all that may be left of a namespace; the other belongs to none.
        (release(U1), 1, uninit), (release(U2), 1, f"refused read-only uuid={U2}\n"),
        (release(U3), 1, "refused not-held\n"), (release(U1, SECOND), 1, uninit), (release(U3, SECOND), 1, uninit),
        (release(U1, 0x2), 1, "refused unknown-dimm dimm=0x00000002\n"),
    ]
    first, second = [list(labels) for labels in zip(both(U1, 0, 4 * MIB), both(U2, 2 * MIB, 4 * MIB))]
    clash = f"refused not-ready clash first={U1} second={U2}\n"
    yield image(first + [pair(U3, 16 * MIB, 2 * MIB, 0)], second), [
        (destroy(U1), 1, clash), (rename("none", "x"), 1, clash), (release(U3), 0, "ok released=1\n"),
        (release(U1), 1, "refused not-held\n"),
    ]


def keyed():
    """Each refusal of a destroy and of a rename alone, and each where the next one of their order applies as well."""
    first, second = [[own] for own in both(U1, 0, 2 * MIB, name=b"db0", flags=UPDATING)]
    second.append(Label(U2, 0, MIB, 1))
    unhealed = "refused unhealed dimm=0x00000101\n"
    yield image(first, second, size=SMALL), [
        (destroy(U1), 1, unhealed), (destroy("none"), 1, unhealed), (rename("db0", "x"), 1, unhealed),
        (rename(U2, "x"), 1, unhealed),
    ]
    labels = [
        both(U1, 0, 2 * MIB, name=b"x"), both(U2, 2 * MIB, 2 * MIB, name=b"x\0y"), both(U3, 4 * MIB, 2 * MIB, name=b"ro", flags=ROLABEL),
        both(U4, 6 * MIB, 2 * MIB, name=b"own"),
    ]
    first, second = [list(own) for own in zip(*labels)]
    taken, fixed = f"refused name-in-use uuid={U1}\n", f"refused read-only uuid={U3}\n"
    several, unknown = "refused ambiguous count=2\n", "refused unknown-namespace\n"
    for size, spare in ((131072, True), (1536, False)):
        # An area of 1,536 bytes has four slots, and none of them is spare.
        few = "refused no-slots dimm=0x00000001 spare=0\n"
        yield image(first, second, size=size), [
            (destroy("none"), 1, unknown), (rename("none", "x"), 1, unknown), (destroy(U5), 1, unknown),
            (destroy("x"), 1, several), (rename("x", "own"), 1, several),
            (destroy("ro"), 1, fixed), (rename(U3, "own"), 1, fixed), (rename("ro", "x"), 1, fixed),
            (rename("own", "x"), 1, taken), (rename(U4, "ro"), 1, f"refused name-in-use uuid={U3}\n"),
            (rename(U1, "x"), 1, f"refused name-in-use uuid={U2}\n"),
            (rename("own", "own"), 0 if spare else 1, renamed(U4, "own") if spare else few),
            (destroy(U1), 0 if spare else 1, destroyed(U1) if spare else few),
            (destroy("x"), 0 if spare else 1, destroyed(U2) if spare else several),
        ]


def held_labels():
    """Each refusal of a release alone, and each where the next one applies as well."""
    lone = Region(2, 0x10_0000_0000, [Mapping(FIRST, 1, 16 * MIB, 0, PART), Mapping(0x2, 3, 16 * MIB, 4096)])
    own = Label(U1, PART, 2 * MIB, lone.cookie(), nlabel=2, flags=ROLABEL)
    missing = "refused not-ready missing dimm=0x00000002\n"
    labels = [own, Label(U2, 0, MIB, 1, flags=LOCAL), pair(U3, 4 * MIB, 2 * MIB, 0, flags=ROLABEL), pair(U4, 8 * MIB, 2 * MIB, 0)]
    yield image(labels, [], (PAIR, lone)), [
        (release(U1), 1, missing), (release(U2), 1, f"refused read-only uuid={U2}\n"),
        (release(U3), 1, f"refused read-only uuid={U3}\n"), (release(U5), 1, "refused not-held\n"),
        (release(U1, 0x2), 1, missing), (release(U4), 0, "ok released=1\n"),
        ("list-held dimm=1", 0, held(U2, 0, MIB, local="yes") + held(U3, 4 * MIB, 2 * MIB, read_only="yes")
         + held(U1, PART, 2 * MIB, read_only="yes") + "ok held=3 spare=507\n"),
    ]
    # A namespace's label is not held.
    first, second = both(U1, 0, 2 * MIB)
    yield image([first], [second]), [(release(U1), 1, "refused not-held\n"), (release(U1, SECOND), 1, "refused not-held\n")]


IMAGES = [worked, stopped, settled, states, keyed, held_labels]
CHANGES = ("ok created", "ok destroyed", "ok renamed", "ok released")


def main() -> int:
    program = sys.argv[1] if len(sys.argv) > 1 else str(ROOT / "crates/nd_cli/out/nd_cli")
    rows = wrong = 0
    with tempfile.TemporaryDirectory() as scratch:
        for build in IMAGES:
            for number, ((table, areas), lines) in enumerate(build()):
                folder = Path(scratch, f"{build.__name__}{number}")
                write(folder, table, areas)
                for line, status, text in lines:
                    rows += 1
                    before = {path.name: path.read_bytes() for path in folder.iterdir()}
                    answer = said(program, folder, line)
                    kept = before == {path.name: path.read_bytes() for path in folder.iterdir()}
                    if answer != (status, text) or kept != (not text.startswith(CHANGES)):
                        wrong += 1
                        print(f"{folder.name}: {line}\n  expected {status} {text!r:.2000}\n  answered {answer}, kept: {kept}")
    print(f"{rows} rows of changes, {wrong} wrong")
    return 1 if wrong or not rows else 0


if __name__ == "__main__":
    sys.exit(main())
