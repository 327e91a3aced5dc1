"""How a line is read, written from docs/FORMATS.md: the command and the values of its keys, or its first fault."""

import re

from step_model import is_name, is_uuid

KEYS = {
    "init-labels": ("dimm",), "create-namespace": ("region", "size", "name?", "mode?", "sector-size?", "uuid?"),
    "destroy-namespace": ("region", "namespace"), "rename-namespace": ("region", "namespace", "name"),
    "release-held": ("dimm", "uuid"), "list": ("region?",), "list-regions": (), "list-free": ("region",),
    "list-held": ("dimm",),
    "to-module": ("region", "spa"), "to-spa": ("region", "dimm", "dpa"), "to-runs": ("region", "spa", "length"),
}
UNITS = {"K": 10, "M": 20, "G": 30, "T": 40}
MOST = 1 << 64


class Fault(Exception):
    """The first fault of a line."""


def number(text: str, below: int = MOST):
    """The number that a text is, where it is below a bound, or None."""
    if re.fullmatch(r"[0-9]{1,20}", text):
        value = int(text)
    elif re.fullmatch(r"0x[0-9a-fA-F]{1,16}", text):
        value = int(text[2:], 16)
    else:
        return None
    return value if value < below else None


def size(text: str):
    if re.fullmatch(r"[0-9]{1,20}[KMGT]", text):
        value = int(text[:-1]) << UNITS[text[-1]]
        return value if value < MOST else None
    return number(text)


def value_of(key: str, text: str):
    """The value of a key, or None where the text is not of its kind."""
    if key in ("region", "dimm"):
        return number(text, 1 << 16 if key == "region" else 1 << 32)
    if key in ("spa", "dpa"):
        return number(text)
    if key in ("size", "length"):
        return size(text)
    if key == "name":
        return text.encode() if is_name(text.encode()) else None
    if key == "namespace":
        return text if is_uuid(text) or text and is_name(text.encode()) else None
    if key == "uuid":
        return text.lower() if is_uuid(text) else None
    if key == "mode":
        return text if text in ("raw", "sector", "fsdax", "devdax") else None
    return int(text) if text in ("512", "4096") else None


def read_line(line: bytes):
    """The command of a line and the values of its keys, or None where it is blank or a comment."""
    if len(line) > 4096:
        raise Fault("too-long")
    for at, byte in enumerate(line):
        if not 0x20 <= byte <= 0x7E:
            raise Fault(f"byte at={at}")
    pieces = line.decode().split()
    if not pieces or pieces[0].startswith("#"):
        return None
    if pieces[0] not in KEYS:
        raise Fault("unknown")
    keys, given = [key.rstrip("?") for key in KEYS[pieces[0]]], {}
    for place, piece in enumerate(pieces[1:], 1):
        key, equals, text = piece.partition("=")
        if not equals or key not in keys:
            raise Fault(f"key piece={place}")
        if key in given:
            raise Fault(f"twice key={key}")
        given[key] = text
    for key in KEYS[pieces[0]]:
        if key not in given and not key.endswith("?"):
            raise Fault(f"missing key={key}")
    values = {key: value_of(key, given[key]) for key in keys if key in given}
    for key, value in values.items():
        if value is None:
            raise Fault(f"value key={key}")
    return pieces[0], values
