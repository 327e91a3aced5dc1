"""Two modules in one region, whose labels a row of a table tells."""

from case_model import Cases
from platform_images import MIB, UPDATING, Label, Mapping, Region, area, nfit

GIB = 1 << 30
PART = 64 * GIB
PAIR = Region(1, 4 * GIB, [Mapping(0x1, 1, PART), Mapping(0x101, 2, PART, 4096)])


def uuid(last: int) -> str:
    """The uuid that ends with a byte."""
    return f"0f6b1a52-7c3e-4d28-9a41-5be0c7d2e8{last:02x}"


def label(last: int, position: int, dpa: int, size: int = 2 * MIB, flags: int = 0, **fields) -> Label:
    """A label of the region, with addresses and sizes in bytes."""
    return Label(uuid(last), dpa, size, PAIR.cookie(), flags=flags, nlabel=2, position=position, **fields)


def both(last: int, dpa: int, size: int = 2 * MIB, flags: int = 0, **fields) -> list:
    return [label(last, position, dpa, size, flags, **fields) for position in (0, 1)]


def place(cases: Cases, name: str, first: list, second: list, size: int = 4096) -> None:
    """A case of the two modules with these labels in their first slots. None stands for a module without an area."""
    cases.case(name)
    cases.nfit(nfit([PAIR]))
    for handle, labels in ((0x1, first), (0x101, second)):
        cases.area(handle, None if labels is None else area(size, labels))


def space(last: int, offset: int, length: int = 2 * MIB, name="-", pending="no", read_only="no", mode="raw",
          sector=512) -> str:
    return (f"  namespace uuid={uuid(last)} name={name} region=1 mode={mode} sector={sector} offset={offset} length={length}"
            f" size={2 * length} pending={pending} read-only={read_only}\n")


def spaces(*lines: str) -> str:
    return "".join(lines) + f"ok namespaces={len(lines)}\n"


def free(*extents: tuple, largest: int) -> str:
    return "".join(f"  free offset={at} length={size}\n" for at,
                   size in extents) + f"ok free={len(extents)} largest={largest}\n"


def held(spare: int, *labels: tuple) -> str:
    """What `list-held` says of labels without marks but UPDATING: the last byte of the uuid, the address, the size, the
    mark."""
    lines = "".join(
        f"  held uuid={uuid(last)} dpa=0x{dpa:016x} size={size} local=no read-only=no updating={'yes' if mark else 'no'}\n"
        for last, dpa, size, mark in labels
    )
    return f"{lines}ok held={len(labels)} spare={spare}\n"


def created(last: int, offset: int, spare: int, length: int = 2 * MIB) -> str:
    return f"ok created uuid={uuid(last)} region=1 offset={offset} length={length} size={2 * length} spare={spare}\n"


def create(last: int, size: str = "4M", more: str = "") -> str:
    return f"create-namespace region=1 size={size} uuid={uuid(last)}{more}"


def destroy(key: str) -> str:
    return f"destroy-namespace region=1 namespace={key}"


def rename(key: str, name: str) -> str:
    return f"rename-namespace region=1 namespace={key} name={name}"


def release(last: int, handle: int = 0x1) -> str:
    return f"release-held dimm={handle} uuid={uuid(last)}"


ALL_FREE = free((0, PART), largest=2 * PART)
HELD = free((2 * MIB, PART - 2 * MIB), largest=2 * (PART - 2 * MIB))
"""The first 2 MiB are held."""

NOTHING = "ok namespaces=0\n"
MISSING = "refused not-ready missing dimm=0x00000101\n"
CLASH = f"refused not-ready clash first={uuid(0x13)} second={uuid(0x14)}\n"
MARKED = UPDATING
