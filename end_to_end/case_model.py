"""Lines for the program of cases (`crates/nd_cases`), and what each is to be answered by the models. A case begins
anew, and its lines are asked one after the other. Where a table tells an answer itself, the models have to agree with
it.
"""

from area_model import area_of, current, geometry, is_signed, is_size, next_seq, usable_seq
from line_model import Fault, read_line
from platform_images import area, fletcher64, free_block, label_in
from platform_model import first_fault
from program_model import Run, SourceModel, folder_of
from rig_model import Failed, RigModel
from step_model import ABSTRACTIONS, is_uuid
from table_model import printed
from uuid import UUID

ROOM = 0x10000


def hexed(text: bytes) -> str:
    """Bytes as they are written in a line."""
    return text.hex() or "-"


def listed(numbers) -> str:
    return "".join(f" {number:x}" for number in numbers)


def unsigned(text: bytes) -> bytes:
    """What a stop may leave of a write: the new bytes, with zeros in place of the first eight."""
    return bytes(8) + text[8:]


def parts_of(text: bytes) -> str:
    """The bytes of an area, in parts of 256 with what is no zero."""
    parts = ((at, text[at : at + 256].rstrip(b"\0")) for at in range(0, len(text), 256))
    return "".join(f" {at:x}:{part.hex()}" for at, part in parts if part)


class Cases:
    def __init__(self):
        self.rows, self.wrong = [], []
        self.name = ""

    # Setting.

    def ask(self, line: str, wanted: str, told: str = None) -> None:
        """A line, what the models answer, and what a table tells."""
        if told is not None and told != wanted:
            self.wrong.append((self.name, line, told, wanted))
        self.rows.append((self.name, line, wanted if told is None else told))

    def case(self, name: str, room: int = None) -> None:
        """Begins anew, with room for so many bytes said."""
        self.name, self.rig, self.seed_of_runs = name.replace(" ", "-"), RigModel(ROOM if room is None else room), 1
        self.keeping, self.loaded = None, None
        self.nfit_text = self.input_text = b""
        self.nfit_failing = self.input_failing = frozenset()
        self.ask(f"case {self.name}", f"case {self.name}")
        if room is not None:
            self.ask(f"room {room:x}", "ok")

    def area(self, dimm: int, text: bytes) -> None:
        """Puts an area, or none, before anything is asked of the rig."""
        if text is not None:
            self.rig.areas[dimm] = text
            self.ask(f"area {dimm:x} {len(text):x}{parts_of(text)}", "ok")

    def areas(self, areas: dict) -> None:
        for dimm, text in areas.items():
            self.area(dimm, text)

    def nfit(self, text: bytes) -> None:
        self.nfit_text = text
        self.ask(f"nfit {hexed(text)}", "ok")

    def input(self, text: bytes) -> None:
        self.input_text = text
        self.ask(f"input {hexed(text)}", "ok")

    def fail_rig(self, *calls: int) -> None:
        self.rig.failing = set(calls)
        self.ask(f"fail-rig{listed(calls)}", "ok")

    def fail_nfit(self, *calls: int) -> None:
        self.nfit_failing = set(calls)
        self.ask(f"fail-nfit{listed(calls)}", "ok")

    def fail_input(self, *calls: int) -> None:
        self.input_failing = set(calls)
        self.ask(f"fail-input{listed(calls)}", "ok")

    def seed(self, number: int) -> None:
        self.seed_of_runs = number
        self.ask(f"seed {number:x}", "ok")

    def keep(self, calls: int = 512, count: int = 1 << 19) -> None:
        self.rig.keep(calls, count)
        self.ask(f"keep {calls:x} {count:x}", "ok")

    # Runs.

    def nd(self, words, status: int = None, said: str = None, reads: int = None, nfit_faults: int = None) -> str:
        """Runs words, and what is said. A table may tell the status, what is said, how often the rig is read, and how
        often the source of the NFIT fails."""
        words = words.split(" ") if isinstance(words, str) else words
        nfit, given = SourceModel(self.nfit_text, self.nfit_failing), SourceModel(self.input_text, self.input_failing)
        start = len(self.rig.said)
        ended = Run(self.rig, nfit, given, self.seed_of_runs).nd(words)
        rig, text = self.rig, self.rig.said[start:]
        found = [rig.reads, rig.faults, rig.say_faults, rig.failed_dimm, rig.calls, nfit.faults, given.faults]
        told = None
        if status is not None:
            own = [*found]
            own[0], own[5] = found[0] if reads is None else reads, found[5] if nfit_faults is None else nfit_faults
            told = f"nd {status:x} {hexed(said.encode())}{listed(own)}"
        self.ask("nd" + "".join(" " + hexed(word.encode()) for word in words),
                 f"nd {ended:x} {hexed(text)}{listed(found)}", told)
        return text.decode()

    def folder(self, line: str, told: str) -> None:
        """The folder that words name."""
        words = line.split(" ")
        asked = "dir" + "".join(" " + hexed(word.encode()) for word in words)
        self.ask(asked, f"dir {hexed(folder_of(words).encode())}", f"dir {hexed(told.encode())}")

    def do(self, line: str, said: str = None) -> str:
        """Runs the form `do` with a line."""
        return self.nd(["do", ".", line], None if said is None else int(said.startswith("refused")), said)

    def run(self, text: str, status: int = None, said: str = None) -> str:
        """Runs the form `run` with an input."""
        self.input(text.encode())
        return self.nd("run .", status, said)

    def counts(self, told: tuple = None, said: bytes = b"") -> None:
        """The counts of the rig: its reads, its faults, those of `say`, the module of the last, and its calls."""
        rig = self.rig
        found = (rig.reads, rig.faults, rig.say_faults, rig.failed_dimm, rig.calls)
        self.ask("counts", f"counts{listed(found)} {hexed(rig.said)}", told and f"counts{listed(told)} {hexed(said)}")

    def dump(self, dimm: int, told: bytes = None) -> None:
        text = self.rig.areas.get(dimm)
        self.ask(f"dump {dimm:x}", "dump none" if text is None else f"dump {text.hex()}", told and f"dump {told.hex()}")

    def dumps(self) -> None:
        for dimm in sorted(self.rig.areas):
            self.dump(dimm)

    def kept(self, call: int, told: str = None) -> None:
        kind, *parts = (self.rig.kept or {}).get(call, ("none",))
        if kind == "write":
            dimm, at, old, new = parts
            kind = f"write {dimm:x} {at:x} {hexed(old)} {hexed(new)}"
        elif kind == "say":
            kind = f"say {hexed(parts[0])}"
        self.ask(f"kept {call:x}", kind, told)

    def stop(self, call: int, torn: bytes, told: str = None) -> bool:
        rig = self.rig if self.keeping is None else self.keeping
        stopped = rig.stopped(call, torn)
        self.ask(f"stop {call:x} {hexed(torn)}", "stopped" if stopped else "none", told)
        if stopped:
            self.keeping, self.rig = rig, stopped
        return bool(stopped)

    def back(self) -> None:
        self.rig, self.keeping = self.keeping or self.rig, None
        self.ask("back", "ok")

    # Calls of a rig and of a source.

    def call(self, word: str, make, told: str) -> None:
        """A call of the rig, and what a table tells of its answer behind its word."""
        try:
            answer = make()
        except Failed:
            answer = "failed"
        self.ask(word, f"{word.split()[0]} {answer}", told and f"{word.split()[0]} {told}")

    def size(self, dimm: int, told: str = None) -> None:
        def make() -> str:
            size = self.rig.size(dimm)
            return "none" if size is None else f"{size:x}"
        self.call(f"size {dimm:x}", make, told)

    def read(self, dimm: int, at: int, length: int, told: str = None) -> None:
        self.call(f"read {dimm:x} {at:x} {length:x}", lambda: hexed(self.rig.read(dimm, at, length)), told)

    def write(self, dimm: int, at: int, new: bytes, told: str = None) -> None:
        self.call(f"write {dimm:x} {at:x} {hexed(new)}", lambda: self.rig.write(dimm, at, new) or "ok", told)

    def say(self, text: bytes, told: str = None) -> None:
        self.call(f"say {hexed(text)}", lambda: self.rig.say(text) or "ok", told)

    def source(self, text: bytes, lengths: tuple, told: str = None) -> None:
        """Reads of a text into places of these lengths."""
        self.input(text)
        source, results = SourceModel(text, self.input_failing), []
        for length in lengths:
            try:
                results.append(hexed(source.read(length)))
            except Failed:
                results.append("failed")
        answer = f"source {' '.join(results)} {source.faults:x}"
        self.ask(f"source{listed(lengths)}", answer, told and f"source {told}")

    # Calls of an area.

    def look(self, word: str, text: bytes) -> str:
        """What is shown of an area behind a word."""
        own = area_of(text)
        if own.state != "ready":
            return f"{word} {own.state}" + ("" if text is None else f" {len(text):x}")
        used, live = ("".join(str(int(slot in found)) for slot in range(own.slots)) for found in (set(own.used()), own.labels))
        return (f"{word} {len(text):x} {own.slots:x} {own.block:x} {own.seq:x} {own.place} {own.free.bit_count():x}"
                f" {used} {live}")

    def load(self, dimm: int, told: str = None) -> None:
        def make() -> str:
            size = self.rig.size(dimm)
            if size is not None and is_size(size):
                self.rig.read(dimm, 0, size)
            text = self.rig.areas.get(dimm)
            self.loaded = dimm if area_of(text).state == "ready" else None
            return self.look("load", text)[5:]
        self.call(f"load {dimm:x}", make, told)

    def shows(self, told: str = None) -> None:
        self.ask("shows", self.look("load", self.rig.areas[self.loaded]), told and f"load {told}")

    def label(self, slot: int, told: str = None) -> None:
        label = area_of(self.rig.areas[self.loaded]).labels.get(slot)
        self.ask(f"label {slot:x}", f"label {label.bytes(slot).hex() if label else 'none'}", told and f"label {told}")

    def put(self, text: bytes, replaced: int = None, told: str = None) -> None:
        own, label = area_of(self.rig.areas[self.loaded]), label_in(text, int.from_bytes(text[120:124], "little"))
        freed = () if replaced is None else (replaced,)
        def make() -> str:
            for at, new in own.flip(label, freed):
                self.rig.write(self.loaded, at, new)
            return f"{own.first_free():x}"
        word = f"put {text.hex()}{listed(freed)}"
        self.call(word, make, told)

    def free(self, *slots: int, told: str = None) -> None:
        def make() -> str:
            for at, new in area_of(self.rig.areas[self.loaded]).flip(freed=slots):
                self.rig.write(self.loaded, at, new)
            return "ok"
        self.call(f"free{listed(slots)}", make, told)

    def init(self, dimm: int, told: str = None) -> None:
        def make() -> str:
            size = self.rig.size(dimm)
            own = area_of(self.rig.areas.get(dimm))
            if size is None or not is_size(size):
                return own.state
            for at in (0, own.block, 2 * own.block):
                self.rig.read(dimm, at, 0)
            if own.state != "uninit":
                return {"ready": "already-ready"}.get(own.state, own.state)
            for at, new in own.vacant_blocks():
                self.rig.write(dimm, at, new)
            return f"{own.slots:x}"
        self.call(f"init {dimm:x}", make, told)

    def vacant(self, dimm: int, size: int, told: str = None) -> None:
        self.ask(f"vacant {dimm:x} {size:x}", self.look("load", area(size)) if is_size(size) else "load none",
                 told and f"load {told}")

    # Formats.

    def geometry(self, size: int, label: int, told: tuple) -> None:
        self.format(f"geometry {size:x} {label:x}", geometry(size, label), told)

    def format(self, line: str, found, told) -> None:
        """A question with numbers or None as its answer."""
        texts = [f"{line.split()[0]}{listed(answer) if answer is not None else ' none'}" for answer in (found, told)]
        self.ask(line, *texts)

    def current(self, first: int, second: int, told: int) -> None:
        found = current(first, second)
        self.format(f"current {first} {second}", None if found is None else (found,), None if told is None else (told,))

    def next(self, seq: int, told: int) -> None:
        self.format(f"next {seq}", (next_seq(seq),), (told,))

    def block(self, place: int, size: int, label: int, window: bytes, told: str) -> None:
        seq = usable_seq(window, place, size, label)
        found = f"usable {seq}" if seq else "foreign" if is_signed(window) else "unsigned"
        self.ask(f"block {place} {size:x} {label:x} {window.hex()}", f"block {found}", f"block {told}")

    def make_block(self, place: int, seq: int, size: int, label: int, free: bytes, checksum: int) -> None:
        """A block that is written. Of its bytes a table tells the checksum."""
        slots = geometry(size, label)[1]
        made = free_block(size, place, seq, int.from_bytes(free, "little") % (1 << slots), label)
        told = made[:64] + checksum.to_bytes(8, "little") + made[72:]
        self.ask(f"make-block {place} {seq} {size:x} {label:x} {free.hex()}", f"make-block {made.hex()}",
                 f"make-block {told.hex()}")

    def bits(self, slots: int, free: bytes, first, count: int) -> None:
        own = int.from_bytes(free, "little") % (1 << slots)
        digits = "".join(str(own >> slot & 1) for slot in range(slots))
        found = f"{(own & -own).bit_length() - 1:x}" if own else "none"
        told = f"bits {'none' if first is None else format(first, 'x')} {count:x} {digits}"
        self.ask(f"bits {slots:x} {free.hex()}", f"bits {found} {own.bit_count():x} {digits}", told)

    def use(self, slots: int, free: bytes, slot: int) -> bytes:
        left = (int.from_bytes(free, "little") & ~(1 << slot)).to_bytes(len(free), "little")
        self.ask(f"use {slots:x} {free.hex()} {slot:x}", f"use {left.hex()}")
        return left

    def unuse(self, slots: int, free: bytes, slot: int) -> bytes:
        left = (int.from_bytes(free, "little") | 1 << slot).to_bytes(len(free), "little")
        self.ask(f"unuse {slots:x} {free.hex()} {slot:x}", f"unuse {left.hex()}")
        return left

    def decode(self, slot: int, text: bytes, told: str = None) -> None:
        label = label_in(text, slot)
        self.ask(f"decode {slot:x} {text.hex()}", f"decode {label.bytes(slot).hex() if label else 'none'}",
                 told and f"decode {told}")

    def printed_name(self, name: bytes, told: str) -> None:
        self.ask(f"name {hexed(name)}", f"name {hexed(printed(name).encode())}", f"name {hexed(told.encode())}")

    def checksum(self, text: bytes, told: int) -> None:
        self.format(f"sum {hexed(text)}", (fletcher64(text),), (told,))

    def checksum_but(self, hole: int, text: bytes, told: int) -> None:
        found = fletcher64(text[:hole] + bytes(8) + text[hole + 8 :])
        self.format(f"sum-but {hole:x} {hexed(text)}", (found,), (told,))

    def table(self, text: bytes, told: str) -> None:
        """A table's first fault, or nothing, as a table of cases tells it."""
        answers = [f"table {debug_fault(fault) if fault else 'same'}" for fault in (first_fault(text), told)]
        self.ask(f"table {hexed(text)}", *answers)

    def line(self, line: bytes, told: str = None) -> None:
        """How a line is read. A table may tell its first fault."""
        try:
            command = read_line(line)
            found = f"Ok({f'Some({debug_command(*command)})' if command else 'None'})"
        except Fault as fault:
            found = f"Err({debug_words(str(fault))})"
        self.ask(f"line {hexed(line)}", f"line {found}", told and f"line Err({debug_words(told)})")


# Values as they are printed for a programmer.

def camel(words: str) -> str:
    return "".join(part.capitalize() for part in words.split("-"))


def numbers_of(fault: str, names: dict) -> str:
    """The numbers of a fault as fields, with their names in the program where these are others."""
    fields = [pair.split("=") for pair in fault.split()[1:]]
    return " { " + ", ".join(f"{names.get(key, key)}: {value}" for key, value in fields) + " }" if fields else ""


def debug_fault(fault: str) -> str:
    return camel(fault.split()[0]) + numbers_of(fault, {"length": "len"})


def debug_words(fault: str) -> str:
    kind, _, rest = fault.partition(" ")
    if rest.startswith("key="):
        return f"{camel(kind)} {{ key: {camel(rest[4:])} }}"
    return camel(kind) + numbers_of(fault, {})


def debug_bytes(text: bytes) -> str:
    return "[" + ", ".join(map(str, text)) + "]"


def debug_name(name: bytes) -> str:
    return debug_bytes(name.ljust(64, b"\0"))


NAMES = {
    "init-labels": "InitLabels", "create-namespace": "Create", "destroy-namespace": "Destroy",
    "rename-namespace": "Rename",
    "release-held": "ReleaseHeld", "list": "ListSpaces", "list-regions": "ListRegions", "list-free": "ListFree",
    "list-held": "ListHeld", "to-module": "ToModule", "to-spa": "ToSpa", "to-runs": "ToRuns",
}


def debug_value(command: str, key: str, value) -> str:
    if key == "name":
        return f"name: {debug_name(value)}"
    if key == "mode":
        return f"abstraction: {debug_bytes(ABSTRACTIONS[value])}"
    if key == "sector-size":
        return f"sector: {value}"
    if key == "namespace":
        kind = f"Uuid({debug_bytes(UUID(value).bytes)})" if is_uuid(value) else f"Name({debug_name(value.encode())})"
        return f"key: {kind}"
    text = debug_bytes(UUID(value).bytes) if key == "uuid" else str(value)
    if command == "create-namespace" and key == "uuid" or command == "list":
        text = f"Some({text})"
    return f"{key}: {text}"


def debug_command(command: str, values: dict) -> str:
    if command == "create-namespace":
        values = {"region": values["region"], "size": values["size"], "name": values.get("name", b""),
                  "mode": values.get("mode", "raw"), "sector-size": values.get("sector-size", 512), **values}
    fields = [debug_value(command, key, value) for key, value in values.items()]
    if command == "create-namespace" and "uuid" not in values:
        fields.append("uuid: None")
    if command == "list" and not values:
        fields.append("region: None")
    return NAMES[command] + (" { " + ", ".join(fields) + " }" if fields else "")
