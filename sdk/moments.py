"""A space right after one of its events, as explain tells it: the event, registers, and memory around what it reads or writes."""

import re

from elf32 import Refused

PC = re.compile(r"pc ([0-9a-f]{8})")
STORE = re.compile(r" stores [0-9a-f]+ at ([0-9a-f]{8})")
LOAD = re.compile(r" l[bhw]u? \w+, (-?[0-9]+)\((\w+)\)")
BYTES = re.compile(r"([^:]+)(?::([1-9][0-9]{0,3}))?")
# How many bytes are shown if nobody says it, and at most.
USUAL, MOST = 64, 4096
SKIPPED = ("pages", "changed", "space")


class Memory:
    """Bytes from an address on."""

    def __init__(self, word, lines):
        found = BYTES.fullmatch(word)
        try:
            if not found or int(found[2] or USUAL) > MOST:
                raise Refused(f"{word}: neither PLACE nor PLACE:COUNT, with a COUNT of at most {MOST}")
            self.start = lines.address(found[1])
        except Refused as e:
            raise Refused(f"sdk/page: bytes: {e}")
        self.count = min(int(found[2] or USUAL), 2**32 - self.start)

    def __str__(self):
        return f"0x{self.start:08x}:{self.count}"


class Around(Memory):
    """Memory around an address."""

    def __init__(self, address):
        self.start = min(max(0, (address & ~15) - 16), 2**32 - USUAL)
        self.count = USUAL


def registers(lines):
    """The registers in an answer of explain, by name."""
    found = (line["value"].split(" ") for line in lines if re.fullmatch("x[0-9]+", line["name"]))
    return {name: int(value, 16) for name, value in found}


def state(asked, path, number, memory):
    words = ["--bytes", str(memory)] if memory else []
    return asked.ask("at", f"{path}:{number}", before=words)


def moment(asked, path, number, memory):
    """The event, and the space before and after it; None if the run has no such event."""
    event = asked.ask("trace", path, str(number), str(number))
    if not event:
        return None
    text = event[0]["value"]
    store, load = STORE.search(text), LOAD.search(text)
    if not memory and store:
        memory = Around(int(store[1], 16))
    before = state(asked, path, number - 1, memory) if number > 1 else []
    after = None
    if not memory and load and before:
        memory = Around(registers(before)[load[2]] + int(load[1]) & 0xFFFFFFFF)
    if not memory:
        after = state(asked, path, number, None)
        memory = Around(registers(after)["sp"])
    after = state(asked, path, number, memory)
    kept = [[[line["name"], line["value"]] for line in lines if line["name"] not in SKIPPED] for lines in (before, after)]
    return {"text": text, "pc": int(PC.match(text)[1], 16), "before": kept[0], "after": kept[1]}
