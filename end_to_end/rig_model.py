"""The label storage areas of all modules and the output, in memory: calls that fail, calls that are kept, and what a
stop leaves.
"""


class Failed(Exception):
    pass


class RigModel:
    def __init__(self, room: int, areas: dict = None, said: bytes = b""):
        self.room, self.areas, self.said = room, dict(areas or {}), said
        self.failing, self.calls, self.reads, self.faults, self.say_faults, self.failed_dimm = set(), 0, 0, 0, 0, 0
        self.kept, self.undone, self.limits, self.start = None, set(), None, None

    def next_fails(self) -> bool:
        self.calls += 1
        return self.calls - 1 in self.failing

    def fault(self, dimm: int):
        self.faults, self.failed_dimm = self.faults + 1, dimm
        raise Failed

    def size(self, dimm: int):
        self.reads += 1
        if self.next_fails():
            self.fault(dimm)
        return None if dimm not in self.areas else len(self.areas[dimm])

    def read(self, dimm: int, at: int, length: int) -> bytes:
        self.reads += 1
        if self.next_fails():
            self.fault(dimm)
        return self.areas[dimm][at : at + length]

    def write(self, dimm: int, at: int, new: bytes) -> None:
        fails, area = self.next_fails(), self.areas[dimm]
        old = area[at : at + len(new)]
        if not self.keep_call(("write", dimm, at, old, new), 2 * len(new), fails) or fails:
            self.fault(dimm)
        self.areas[dimm] = area[:at] + new + area[at + len(new) :]

    def say(self, text: bytes) -> None:
        fails = self.next_fails() or len(self.said) + len(text) > self.room
        if not self.keep_call(("say", text), len(text), fails) or fails:
            self.say_faults += 1
            raise Failed
        self.said += text

    # Calls that are kept.

    def keep(self, calls: int, count: int) -> None:
        self.kept, self.undone, self.limits, self.start = {}, set(), [calls, count], (dict(self.areas), self.said)

    def keep_call(self, call: tuple, count: int, fails: bool) -> bool:
        """Keeps a call, if calls are kept, and says whether there was room for it."""
        if self.kept is None:
            return True
        if self.limits[0] < 1 or self.limits[1] < count:
            return False
        self.limits = [self.limits[0] - 1, self.limits[1] - count]
        self.kept[self.calls - 1] = call
        if fails:
            self.undone.add(self.calls - 1)
        return True

    def stopped(self, call: int, torn: bytes):
        """The rig as it stands where a kept call was stopped with these bytes in its range, or None."""
        kept = self.kept.get(call) if self.kept is not None else None
        if kept is None or (len(torn) != len(kept[4]) if kept[0] == "write" else not kept[1].startswith(torn)):
            return None
        rig = RigModel(self.room, *self.start)
        for number, (kind, *parts) in self.kept.items():
            if number > call or number in self.undone and number != call:
                continue
            if kind == "say":
                rig.said += torn if number == call else parts[0]
            else:
                dimm, at, _, new = parts
                area = rig.areas[dimm]
                rig.areas[dimm] = area[:at] + (torn if number == call else new) + area[at + len(new) :]
        return rig
