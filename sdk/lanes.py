"""The lanes of a run: its spaces, their events, and the earliest step at which each event can happen.

What happened comes from `det run` and `explain trace` (docs/EXPLAIN.md). A step is the time of one event. An event comes one step after the event
before it in its space. The first event of a space comes one step after the call that starts it, and a call that waits for a space comes one step after
that space has stopped (docs/KERNEL.md, "Meetings"). So the last step is what the run would take if a processor was free whenever a space could go on.
"""

import concurrent.futures
import heapq
import json
import os
import pathlib
import re
import subprocess

from elf32 import Refused

ROOT = pathlib.Path(__file__).resolve().parent.parent

CALL = re.compile(r" ecall ([a-z-]+) a0 ([0-9a-f]{8})")
STOP = re.compile(r" stops ([a-z-]+) ([0-9a-f]{8})")
STORE = re.compile(r" stores [0-9a-f]+ at ([0-9a-f]{5})")
PAGE = re.compile(r" page ([0-9a-f]{5})000")
PC = re.compile(r"pc ([0-9a-f]{8})")
# Changes of the registers that a call reads.
CHANGE = re.compile(r" x(1[0-47]) a\d ([0-9a-f]{8}) -> ([0-9a-f]{8})")
A0, A1, A2, A3, A4, A7 = 10, 11, 12, 13, 14, 17

# Calls by their numbers, as far as a conflict may stop one; and options of Put and Get.
MERGING = {2: "get", 19: "tjoin"}
REGS, START, TREE = 1, 64, 256
CHILDREN = 65536
STARTS = ("put", "fork", "tfork", "qstart")
MEETINGS = STARTS + ("get", "wait", "tjoin", "qcommit")
# How many events of a run, times its traces, take about a second; and how many of them a space counts for.
WORTH, EACH = 25000000, 400
# How many traces are asked for before their answers are read: the same on every host.
BATCH = 8


def program(variable, name):
    return os.environ.get(variable, str(ROOT / f"crates/{name}/out/{name}"))


def named(path):
    """A file as a word of a command: one that begins with a dash is no option."""
    return "./" + path if path.startswith("-") else path


class Asked:
    """The two programs, asked about one run."""

    def __init__(self, image, script, limit, source):
        self.files = [named(image), named(script)]
        self.limit = ["--limit", limit]
        self.source = ["--source", named(source)] if source else []

    @staticmethod
    def run(words, out):
        try:
            return subprocess.run(words, stdin=subprocess.DEVNULL, stdout=out, stderr=subprocess.PIPE)
        except OSError as e:
            raise Refused(f"{words[0]}: {e.strerror}")

    def report(self):
        """The status of the run, and the lines of its report."""
        done = self.run([program("DET", "det"), "run", *self.limit, *self.files], subprocess.DEVNULL)
        lines = done.stderr.decode("ascii", "backslashreplace").splitlines()
        if done.returncode not in (0, 1):
            raise Refused(lines[-1] if lines else f"det ends with {done.returncode}", done.returncode if done.returncode > 0 else 2)
        return done.returncode, [line.split(" ") for line in lines]

    def ask(self, command, *rest, hook=None, before=()):
        """The lines of an answer of explain, or what the hook makes of each."""
        words = [program("EXPLAIN", "explain"), command, "--json", *self.limit, *self.source, *before, *self.files, *rest]
        done = self.run(words, subprocess.PIPE)
        if done.returncode:
            said = done.stderr.decode("ascii", "backslashreplace").rstrip("\n") or f"explain ends with {done.returncode}"
            raise Refused(said, done.returncode if done.returncode > 0 else 2)
        return json.loads(done.stdout, object_pairs_hook=hook)


class Event:
    """An own event that is a call or a stop."""

    def __init__(self, number, text, registers):
        self.number, self.text, self.registers = number, text, registers
        self.pc = int(PC.match(text)[1], 16)
        self.pages = len(PAGE.findall(text))
        stop, call = STOP.search(text), CALL.search(text)
        self.name = "stops" if stop else call[1]
        self.cause, self.value = (stop[1], stop[2]) if stop else (None, None)
        self.time = None
        # the children that it meets, each with its part
        self.met = []


class Part:
    """A space from where it is started to where it stops, which is the next part's start."""

    def __init__(self, first):
        self.first, self.last = first, first - 1
        self.events = []
        # registers as far as the trace tells: their values now, and those with which the part began
        self.now, self.initial = {}, {}
        self.start = self.end = self.by = None
        self.cause = self.value = None


class Reading:
    """What the trace of a path tells: parts with their events, and the pages that were written."""

    def __init__(self, most):
        self.most, self.count = most, 0
        self.parts, self.written = [Part(1)], set()

    def take(self, pairs):
        text = pairs[1][1]
        self.count += 1
        part = self.parts[-1]
        part.last = self.count
        store = STORE.search(text)
        if store:
            self.written.add(store[1])
        elif " ecall " in text or " stops " in text:
            self.add(part, text)
        else:
            self.change(part, text)

    @staticmethod
    def change(part, text):
        for number, old, new in CHANGE.findall(text):
            part.initial.setdefault(int(number), int(old, 16))
            part.now[int(number)] = int(new, 16)

    def add(self, part, text):
        before = dict(part.now)
        self.change(part, text)
        self.written.update(PAGE.findall(text))
        event = Event(self.count, text, before)
        part.events.append(event)
        if event.cause:
            part.cause, part.value = event.cause, event.value
            self.parts.append(Part(self.count + 1))

    def done(self):
        if not self.parts[-1].last >= self.parts[-1].first:
            self.parts.pop()
        return self


class Space:
    """A lane: all that was ever at one path."""

    def __init__(self, path):
        self.path = path
        self.key = tuple(map(int, path.split("/")[1:])) if path != "/" else ()
        self.reading = None
        self.parts, self.told = [], None
        self.is_there, self.copied, self.children = False, [], {}
        # the cause with which it stands still
        self.cause = "fresh"

    def child(self, number):
        return f"{self.path.rstrip('/')}/{number}"

    @property
    def current(self):
        return self.parts[-1] if self.parts else None


class Lanes:
    """All spaces of a run. So many of them at most are traced, each up to so many events."""

    def __init__(self, asked, spaces, events):
        self.asked, self.events = asked, events
        self.status, lines = asked.report()
        self.spaces = {}
        for line in lines:
            self.at(line[0]).told = line
        self.trace(spaces)
        self.happen()

    def at(self, path):
        if path not in self.spaces:
            self.spaces[path] = Space(path)
            if path != "/":
                self.at(path.rpartition("/")[0] or "/").children[path] = self.spaces[path]
        return self.spaces[path]

    def in_order(self):
        """Spaces that were ever there, each after its parent, children by rising number."""
        there = {space.path for space in self.spaces.values() if space.parts or space.told or space.copied}
        there |= {path for space in self.spaces.values() for _, path, _ in space.copied}
        there |= {path[:at] or "/" for path in there for at in range(len(path)) if path[at] == "/"}
        return sorted((self.spaces[path] for path in there), key=lambda space: space.key)

    def strays(self):
        """Spaces that the lanes and the report do not agree on: none, if all was traced."""
        return [space.path for space in self.in_order() if space.is_there != bool(space.told)]

    # ---- Traces ----

    def budget(self, seen):
        """How many traces take about a second: the more events and spaces are known, the fewer."""
        known = sum(int(space.told[4]) if space.told else space.reading.count if space.reading else 0 for space in self.spaces.values())
        return max(1, WORTH // (EACH * len(seen) + known))

    def trace(self, spaces):
        """Traces the root, and then the spaces of which the report tells least; so many at most, if it is said."""
        parents = {path.rpartition("/")[0] or "/" for path in self.spaces}
        waiting, seen = [(0, (), "/")], {"/"}
        for path in self.spaces:
            self.wait(waiting, seen, path, parents)
        with concurrent.futures.ThreadPoolExecutor(min(4, os.cpu_count() or 1)) as pool:
            done = 0
            while waiting and done < (spaces or self.budget(seen)):
                batch = [heapq.heappop(waiting)[2] for _ in range(min(BATCH, (spaces or self.budget(seen)) - done, len(waiting)))]
                done += len(batch)
                for path, reading in zip(batch, pool.map(self.read, batch)):
                    self.at(path).reading = reading
                    for child in self.started(path, reading):
                        self.wait(waiting, seen, child, parents)

    def wait(self, waiting, seen, path, parents):
        if path not in seen:
            seen.add(path)
            space = self.at(path)
            least = 1 if path in parents else 2 if not space.told else 3 if space.told[1] != "ret" else 4
            heapq.heappush(waiting, (least, space.key, path))

    def read(self, path):
        reading = Reading(self.events)
        self.asked.ask("trace", path, "1", str(self.events), hook=reading.take)
        return reading.done()

    def started(self, path, reading):
        """The children that a space starts, as far as its trace tells by itself."""
        for part in reading.parts:
            for event in part.events:
                number = event.registers.get(A1, part.initial.get(A1))
                if event.name in STARTS and number is not None and number < CHILDREN:
                    yield self.at(path).child(number)

    def register(self, space, part, event, number):
        """A register before a call. One that has no other value in the whole part is as it is after the call."""
        for known in (event.registers, part.initial):
            if number in known:
                return known[number]
        if space.path == "/" and part.first == 1:
            return 0
        said = {line["name"]: line["value"] for line in self.asked.ask("at", f"{space.path}:{event.number}")}
        part.initial[number] = int(said[f"x{number}"].split(" ")[1], 16)
        return part.initial[number]

    # ---- Steps ----

    def happen(self):
        """Lets all events happen, each at its earliest step."""
        root = self.at("/")
        root.is_there = True
        self.start(root, 0, None)
        self.whole(root)
        while True:
            left = [space for space in self.spaces.values() if space.current and space.current.end is None]
            if not left:
                break
            for space in left:
                self.ended(space)

    def start(self, space, time, by):
        """A part of a space begins: that of its trace, or one as long as the report says."""
        space.is_there = True
        at = len(space.parts)
        if space.reading and at < len(space.reading.parts):
            part = space.reading.parts[at]
        else:
            part = Part(space.current.last + 1 if space.current else 1)
            if not space.reading and not space.parts and space.told:
                part.last = int(space.told[4]) + (space.told[1] in ("fuel", "limit"))
                part.cause, part.value = space.told[1], space.told[2]
        part.start, part.by = time, by
        space.parts.append(part)
        return at

    def ended(self, space):
        """The step at which a space stops, after the last start; 0 if it never ran."""
        part = space.current
        if part is None:
            return 0
        if part.end is None:
            self.run(space, part)
        return part.end

    def run(self, space, part):
        time, number = part.start, part.first - 1
        for event in part.events:
            time += event.number - number
            number = event.number
            time = event.time = self.meet(space, part, event, time)
        if space.reading and space.reading.count == self.events and space.told and part is space.reading.parts[-1]:
            part.last = max(part.last, int(space.told[4]))
        part.end = time + part.last - number
        space.cause = part.cause or "fuel"

    def below(self, space):
        """The spaces that are below one."""
        found = []
        for child in space.children.values():
            if child.is_there:
                found += [child, *self.below(child)]
        return found

    def whole(self, space):
        """The step at which a space and all below it have stopped."""
        time = self.ended(space)
        return max([time, *(self.whole(child) for child in list(space.children.values()) if child.is_there)])

    def meet(self, space, part, event, time):
        """The step of an event that may come at a step as far as its own space is concerned, and what it does to children."""
        name = event.name
        if event.cause == "conflict":
            name = MERGING.get(self.register(space, part, event, A7))
        if name not in MEETINGS:
            return time
        read = lambda number: self.register(space, part, event, number)
        count = read(A2) if name in ("qstart", "qcommit") else 1
        children = [self.at(space.child(read(A1) + at)) for at in range(count)]
        if name in ("put", "get") and read(A0) & TREE:
            return self.copy_tree(space, event, children[0], name, read, time)
        wait = self.whole if name == "wait" else self.ended
        known = [child for child in children if child.is_there]
        time = max([time, *(wait(child) + 1 for child in known if child.parts)])
        self.change(name, event, children, known, time, name == "put" and read(A0) & START)
        return time

    def change(self, name, event, children, known, time, is_started):
        """What a meeting does to children, at its step."""
        begun = children if name in ("fork", "tfork") or is_started else []
        if name == "qstart":
            begun = [child for child in known if child.cause == "limit"]
        if name == "put":
            for child in children:
                child.is_there = True
        for child in begun:
            event.met.append((child, self.start(child, time, event)))
        if name not in STARTS:
            event.met += [(child, len(child.parts) - 1) for child in known if child.parts]
        if name == "wait":
            for child in known:
                self.remove(child)

    def remove(self, space):
        for other in [space, *self.below(space)]:
            other.is_there = False
            other.cause = "fresh"

    def copy_tree(self, space, event, child, name, read, time):
        """A Put or Get with Tree: a copy of a space and all below it, with their causes."""
        if name == "put":
            source, target = self.at(space.child(read(A3))), self.at(child.child(read(A4)))
            awaited = (child, source)
        else:
            source, target = self.at(child.child(read(A3))), self.at(space.child(read(A4)))
            awaited = (child, target)
        time = max([time, *(self.whole(it) + 1 for it in awaited if it.is_there and it.parts)])
        copies = [(source.path, it.path, it.cause) for it in [source, *self.below(source)] if source.is_there]
        self.remove(target)
        if name == "put":
            child.is_there = True
        for old, path, cause in copies:
            made = self.at(target.path + path[len(old) :])
            made.is_there, made.cause = True, cause
            made.copied.append((time, path, event))
        return time
