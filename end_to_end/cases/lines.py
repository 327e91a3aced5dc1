"""Lines, and the commands that they are or their first faults."""

from case_model import Cases

UUID = "0f6b1a52-7c3e-4d28-9a41-5be0c7d2e813"
LONGEST = "aZ._" + "9" * 58 + "-"
TOO_LONG = "1234567890" * 6 + "1234"

# Lines without a fault. The keys and the values of a command are told by the model of lines, field by field.
COMMANDS = (
    "", "   ", "#", "  #to-spa x", "init-labels dimm=1", "  init-labels   dimm=0xFFffffff  ", "list",
    "list region=0xffff",
    "list-regions", "list-free region=1", "list-held dimm=0x101", "to-module region=65535 spa=0x0000000100000000",
    "to-module spa=18446744073709551615 region=00000000000000000007", "to-spa dpa=0 dimm=257 region=0x2",
    "to-runs region=1 spa=0xffffffffffffffff length=2M",
    "create-namespace region=1 size=4M",
    "create-namespace mode=raw sector-size=512 name= size=4194304 region=0x1",
    f"create-namespace uuid=0F6b1A52-7c3E-4d28-9A41-5bE0C7d2e813 sector-size=4096 mode=fsdax name={LONGEST} size=0 region=65535",
    "destroy-namespace namespace=0F6B1A52-7c3e-4d28-9a41-5be0c7d2e813 region=1",
    f"rename-namespace region=1 namespace={LONGEST} name=",
    f"release-held uuid={UUID} dimm=0x101",
    "create-namespace region=1 size=1K mode=sector", "create-namespace region=1 size=2G mode=devdax",
    "create-namespace region=1 size=16777215T", "# ~", "#list", "list ", " list region=0",
    "to-runs length=0x10 spa=1 region=3",
    f"rename-namespace region=1 namespace={UUID}0 name=x", f"rename-namespace name={UUID[1:]} region=1 namespace=-",
    "init-labels dimm=4294967295", "list region=65535", "destroy-namespace region=1 namespace=.",
)

# Pieces behind `create-namespace region=1 size=1`, and the key whose value is not of its kind.
VALUES = (
    (f"name={UUID}", "name"), (f"name={UUID.upper()}", "name"), (f"name={UUID[:-1]}", None),
    (f"name={UUID[:-1]}g", None),
    ("name=0f6b1a52-7c3e-4d28-9a4125be0c7d2e813", None), ("name=a/b", "name"), (f"name={TOO_LONG}", "name"),
    ("mode=devdax", None),
    ("mode=Raw", "mode"), ("mode=", "mode"), ("sector-size=0512", "sector-size"), ("sector-size=0x200", "sector-size"),
    (f"uuid={UUID.replace('-', '')}", "uuid"), (f"uuid={{{UUID}}}", "uuid"), (f"uuid={UUID[:-1]}g", "uuid"),
    ("uuid=", "uuid"),
    (f"uuid={UUID.upper()}", None), ("sector-size=4096", None), ("sector-size=", "sector-size"),
    ("sector-size=1024", "sector-size"),
    (f"name={TOO_LONG[:63]}", None), (f"uuid={UUID}0", "uuid"), (f"uuid={UUID[1:]}0-", "uuid"), ("name=x=x", "name"),
)

# Lines, and their first faults.
FAULTS = (
    ("# \t", "byte at=2"), ("labels dimm=1", "unknown"), ("to-spa dimm=1 x dimm=2", "key piece=2"),
    ("to-spa dimm=1 dimm=2 x", "twice key=dimm"), ("to-runs length=x", "missing key=region"),
    ("init-labels dimm==1", "value key=dimm"),
    ("create-namespace name=x region=x", "missing key=size"),
    ("create-namespace uuid=x sector-size=x mode=x name=/ size=x region=x", "value key=region"),
    ("create-namespace uuid=x sector-size=x mode=x name=/ size=x region=1", "value key=size"),
    ("create-namespace uuid=x sector-size=x mode=x name=/ size=1 region=1", "value key=name"),
    ("create-namespace uuid=x sector-size=x mode=x size=1 region=1", "value key=mode"),
    ("create-namespace uuid=x sector-size=x size=1 region=1", "value key=sector-size"),
    ("create-namespace uuid=x size=1 region=1", "value key=uuid"),
    ("rename-namespace region=x namespace=/", "missing key=name"),
    ("rename-namespace name=/ namespace= region=1", "value key=namespace"),
    (f"rename-namespace name={UUID} namespace=x region=1", "value key=name"),
    (f"destroy-namespace region=1 namespace={TOO_LONG}", "value key=namespace"),
    ("release-held dimm=1", "missing key=uuid"), ("release-held dimm=1 uuid=x", "value key=uuid"),
    ("List", "unknown"), ("list region=65536", "value key=region"), ("list-held dimm=4294967296", "value key=dimm"),
    ("list region=000000000000000000001", "value key=region"), ("list region=0x", "value key=region"),
    ("to-module region=1 spa=18446744073709551616", "value key=spa"),
    ("to-runs region=1 spa=0 length=16777216T", "value key=length"),
    ("to-runs region=1 spa=0 length=0x1K", "value key=length"), ("to-spa region=1 dpa=1K dimm=1", "value key=dpa"),
    ("list-regions x", "key piece=1"), ("to-module region=1 spa=1 spa", "key piece=3"),
    ("to-runs spa=x region=1", "missing key=length"),
)


def ask(cases: Cases) -> None:
    cases.case("lines")
    for line in COMMANDS:
        cases.line(line.encode())
    for piece, key in VALUES:
        cases.line(f"create-namespace region=1 size=1 {piece}".encode(), key and f"value key={key}")
    for line, fault in FAULTS:
        cases.line(line.encode(), fault)
    for line, fault in (
        (b"init-labels dimm=1".ljust(4096), None), (b"\t".ljust(4097), "too-long"),
        (b"#".ljust(4096, b"\xff"), "byte at=1"),
        (b"#".ljust(4096, b"x"), None), (b"#".ljust(4097, b"x"), "too-long"), (b"list\0", "byte at=4"),
        (b"\x7f", "byte at=0"),
        (b"list\r", "byte at=4"), (b"list \x1f", "byte at=5"), ("é".encode(), "byte at=0"),
    ):
        cases.line(line, fault)
