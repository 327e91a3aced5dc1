"""A whole run of the program over a rig, as a plain model: what it says, what it writes and with which status it ends.
It is made of the models of lines, platforms, tables, steps and writes, and shares nothing with the program that is
tested.
"""

from dataclasses import replace
from functools import lru_cache

import step_model
from area_model import area_of, is_size
from line_model import Fault, number, read_line
from platform_model import first_fault, module_at, platform_in, regions_of, runs_between
from rig_model import Failed
from step_model import own_uuid, region_at
from table_model import printed
from write_model import Writes

MOST_READ, MOST_BYTES = 4096, 1 << 20


class SourceModel:
    """Bytes that are read, and the reads that fail."""

    def __init__(self, text: bytes, failing: set = frozenset()):
        self.left, self.failing, self.reads, self.faults = text, failing, 0, 0

    def read(self, length: int) -> bytes:
        self.reads += 1
        if self.reads - 1 in self.failing:
            self.faults += 1
            raise Failed
        text, self.left = self.left[:length], self.left[length:]
        return text


class End(Exception):
    """A run ends with a status, and a line of the fault."""

    def __init__(self, status: int, line: str):
        self.status, self.line = status, line


def read_source(source: SourceModel, name: str) -> bytes:
    text = b""
    try:
        while part := source.read(MOST_READ):
            text += part
            if len(text) > MOST_BYTES:
                raise End(5, f"error limit {name}\n")
    except Failed:
        raise End(5, f"error source {name}\n")
    return text


def folder_of(words: list) -> str:
    """The second word without a first `--`, or the folder where the program runs."""
    dashes = words.index("--") if "--" in words else len(words)
    words = words[:dashes] + words[dashes + 1 :]
    return words[1] if len(words) > 1 else "."


def form_of(words: list) -> tuple:
    """What words ask for: a form and what goes with it, or the form `error`."""
    dashes = words.index("--") if "--" in words else len(words)
    words = words[:dashes] + words[dashes + 1 :]
    if any(word.startswith("-") and word != "-" for word in words[:dashes]):
        return "error", None
    if words[:1] == ["do"] and len(words) > 2:
        return "do", " ".join(words[2:])
    if words[:1] == ["run"] and len(words) == 2:
        return "run", None
    if words[:1] == ["labels"] and len(words) == 3 and number(words[2], 1 << 32) is not None:
        return "labels", number(words[2])
    return "error", None


@lru_cache(maxsize=64)
def platform_of(text: bytes) -> tuple:
    platform = platform_in(text)
    return platform, regions_of(platform)


class Run:
    def __init__(self, rig, nfit: SourceModel, given: SourceModel, seed: int):
        self.rig, self.nfit, self.given, self.seed = rig, nfit, given, seed

    def nd(self, words: list) -> int:
        """The status of a run with these words."""
        try:
            try:
                return self.forms(*form_of(words))
            except End as end:
                self.rig.say(end.line.encode())
                return end.status
        except Failed:
            return 7

    def forms(self, form: str, what) -> int:
        if form == "error":
            raise End(2, "error words\n")
        if form == "labels":
            return self.labels(what)
        table = read_source(self.nfit, "nfit")
        if first_fault(table):
            raise End(3, f"error nfit {first_fault(table)}\n")
        lines = [what.encode()] if form == "do" else read_source(self.given, "input").split(b"\n")
        self.platform, regions = platform_of(table)
        self.writes = Writes(self.rig, regions, sorted({part.handle for part in self.platform.parts}))
        for handle in self.writes.handles:
            self.load(handle)
        replies = [self.line(place, line) for place, line in enumerate(lines, 1)]
        return int(any(reply.startswith("refused") for reply in replies))

    def load(self, handle: int) -> None:
        """Reads the area of a module."""
        try:
            size = self.rig.size(handle)
            if size is not None and is_size(size):
                self.rig.read(handle, 0, size)
        except Failed:
            raise End(4, f"error area dimm=0x{handle:08x}\n")

    def labels(self, handle: int) -> int:
        self.load(handle)
        area = area_of(self.rig.areas.get(handle))
        if area.state != "ready":
            self.rig.say(f"refused not-ready {area.state} dimm=0x{handle:08x}\n".encode())
            return 1
        said = "".join(
            f"  slot={slot} uuid={label.uuid} name={printed(label.name)} flags=0x{label.flags:08x} nlabel={label.nlabel}"
            f" position={label.position} cookie=0x{label.cookie:016x} dpa=0x{label.dpa:016x} size={label.size}\n"
            for slot, label in area.labels.items()
        )
        self.rig.say(f"{said}ok labels={len(area.labels)} slots={area.slots} seq={area.seq} place={area.place}\n".encode())
        return 0

    def line(self, place: int, line: bytes) -> str:
        """Does the line with a number, and says its reply."""
        try:
            command = read_line(line)
        except Fault as fault:
            reply = f"refused words {fault}\n"
        else:
            if command is None:
                return ""
            reply = self.reply(place, *command)
        self.rig.say(reply.encode())
        return reply

    def reply(self, place: int, command: str, values: dict) -> str:
        """The reply to a command, which is done."""
        if command.startswith("to-"):
            return self.translation(command, values)
        if command.startswith("list"):
            return shown(self.writes.table(), command, values.get("region"), values.get("dimm"))
        try:
            return self.change(place, command, values)
        except Failed:
            raise End(4, f"error area dimm=0x{self.rig.failed_dimm:08x}\n")

    def change(self, place: int, command: str, values: dict) -> str:
        table, region = self.writes.table(), values.get("region")
        if command == "init-labels":
            after, reply = step_model.init_labels(table, values["dimm"])
            todo = self.writes.init_labels, values["dimm"]
            if not reply.startswith("ok") and values["dimm"] in table.modules:
                self.writes.load(values["dimm"])
        elif command == "release-held":
            after, reply = step_model.release_held(table, values["dimm"], values["uuid"])
            todo = self.writes.release_held, values["dimm"], values["uuid"]
        elif command == "create-namespace":
            own = (values.get("uuid", own_uuid(self.seed, place)), values.get("name", b""), values.get("mode", "raw"),
                   values.get("sector-size", 512))
            after, reply = step_model.create_namespace(table, region, values["size"], *own)
            told = dict(word.split("=") for word in reply.split()[2:] if "=" in word)
            todo = self.writes.create_namespace, region, *own, int(told.get("offset", 0)), int(told.get("length", 0))
        elif command == "destroy-namespace":
            after, reply = step_model.destroy_namespace(table, region, values["namespace"])
            todo = self.writes.destroy_namespace, region, reply[-37:-1]
        else:
            after, reply = step_model.rename_namespace(table, region, values["namespace"], values["name"])
            todo = self.writes.rename_namespace, region, reply[16:52], values["name"]
        if reply.startswith("ok"):
            todo[0](*todo[1:])
            assert same(after, self.writes.table()), f"the models of steps and of writes differ: {command} {values}"
        return reply

    def translation(self, command: str, values: dict) -> str:
        region = next((region for region in self.platform.regions() if region.index == values["region"]), None)
        if region is None:
            return f"refused unknown-region region={values['region']}\n"
        if self.platform.rule(region):
            return f"refused unusable rule={self.platform.rule(region)}\n"
        if self.platform.translation_fault(region):
            return f"refused no-translation {self.platform.translation_fault(region)}\n"
        if command == "to-spa":
            return self.to_spa(region, values["dimm"], values["dpa"])
        spa, length = values["spa"], values.get("length", 1)
        if not length or spa < region.base or spa + length > region.base + region.length:
            return "refused outside\n"
        if command == "to-module":
            part, byte = module_at(self.platform, region, spa)
            return f"ok dimm=0x{part.handle:08x} dpa=0x{part.base + byte:016x}\n"
        runs = runs_between(self.platform, region, spa, length)
        lines = "".join(f"  run dimm=0x{dimm:08x} dpa=0x{dpa:016x} length={count}\n" for dimm, dpa, count in runs)
        return f"{lines}ok runs={len(runs)}\n"

    def to_spa(self, region, handle: int, dpa: int) -> str:
        part = next((part for part in self.platform.members(region) if part.handle == handle), None)
        if part is None:
            return f"refused not-in-region dimm=0x{handle:08x}\n"
        if not part.base <= dpa < part.base + part.size:
            return "refused outside\n"
        return f"ok spa=0x{self.platform.spa(region, part, dpa - part.base):016x}\n"


def shown(table, command: str, index: int, handle: int) -> str:
    """The reply to a list."""
    if command == "list-held":
        return table.list_held(handle) if handle in table.modules else f"refused unknown-dimm dimm=0x{handle:08x}\n"
    if command == "list-regions":
        return table.list_regions()
    if index is None:
        return table.list_all()
    region = region_at(table, index)
    if region is None:
        return f"refused unknown-region region={index}\n"
    return table.list_free(region) if command == "list-free" else table.list_region(region)


def same(one, other) -> bool:
    """Whether two tables have the same modules, in whichever slots the labels are and whatever stands behind the ends of
    names."""
    return content(one) == content(other)


def content(table) -> dict:
    return {handle: (module.state, module.slots, sorted(map(named, module.labels)))
            for handle, module in table.modules.items()}


def named(label) -> str:
    return repr(replace(label, name=label.name.split(b"\0")[0]))
