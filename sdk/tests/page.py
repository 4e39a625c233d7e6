"""Pages of runs: sdk/tests/page.py DET EXPLAIN ROOM

Each example has its page. A page is compared with the report of `det run`, and with traces that are read here by other means than those of sdk/lanes.py.
If chromium is there it opens each page.
"""

import concurrent.futures
import html.parser
import json
import os
import re
import subprocess

import browsing
from trying import DET, EXPLAIN, ROOM, SDK, Wrong, example, kit, main, run, same, script, stored

page = script("page")
EXAMPLES = SDK.parent / "examples"
STARTS = ("put", "fork", "tfork", "qstart")
# They use up a million events, of which a page needs few.
LONG = ("nobody_waits", "waits_for_the_child")
VOID = ("meta", "input", "br", "link", "img")


class Run:
    """A run, its page, and what the page says."""

    def __init__(self, name, image, devices, *words):
        self.name, self.files, self.words = name, [str(image), str(devices)], list(words)
        self.out = ROOM / f"{name}.html"

    def made(self):
        self.out.unlink(missing_ok=True)
        page.make(page.parsed([*self.words, *self.files, "-o", str(self.out)]))
        self.page = Parsed(self.out.read_text())
        self.data = self.page.data
        return self

    def limit(self):
        return ["--limit", str(self.data["limit"])]

    def paths(self):
        return paths(self.data["spaces"])


class Parsed(html.parser.HTMLParser):
    """A page: its elements, which have to be well formed, and the data in it."""

    def __init__(self, text):
        super().__init__()
        self.open, self.scripts, self.names, self.said, self.policy = [], [], [], {}, ""
        self.feed(text)
        self.close()
        same(self.open, [], "elements that do not end")
        same([kind for kind, _ in self.scripts], ["application/json", None], "the scripts")
        self.data = json.loads(self.scripts[0][1])

    def handle_starttag(self, name, words):
        self.names.append((name, dict(words)))
        if name == "meta" and dict(words).get("http-equiv") == "Content-Security-Policy":
            self.policy = dict(words)["content"]
        if name == "script":
            self.scripts.append([dict(words).get("type"), ""])
        if name not in VOID:
            self.open.append(name)

    def handle_endtag(self, name):
        same(self.open[-1:], [name], "an element that ends")
        self.open.pop()

    def handle_data(self, text):
        if self.open[-1:] == ["script"]:
            self.scripts[-1][1] += text
        elif self.open:
            self.said[self.open[-1]] = self.said.get(self.open[-1], "") + text


def paths(rows):
    """The path of each space, by the rows of their parents."""
    found = []
    for parent, number, *_ in rows:
        found.append("/" if parent < 0 else found[parent].rstrip("/") + f"/{number}")
    return found


def assembled(name):
    path = ROOM / f"{name}.img"
    with open(path, "wb") as image:
        subprocess.run([DET, "asm", str(EXAMPLES / f"{name}.s")], stdout=image, check=True)
    return path


def runs():
    """A run of each example that can run."""
    for source in sorted(EXAMPLES.glob("*.s")):
        if "source: " not in source.with_suffix(".report").read_text():
            devices = source.with_suffix(".script")
            words = ["--source", str(source)] if source.stem not in LONG else ["--source", str(source), "--events", "1000"]
            yield Run(source.stem, assembled(source.stem), devices if devices.exists() else os.devnull, *words)
    for image in sorted((SDK / "examples").glob("*.elf")):
        devices = image.with_suffix(".script")
        words = ["--limit", "200000", "--events", "60000" if image.stem == "every_call" else "20000"]
        yield Run("c_" + image.stem, image, devices if devices.exists() else os.devnull, *words)


# ---- What a page says, compared with what det and explain say ----


def lines_of(*words):
    status, out, _ = run(*words)
    same(status, 0, words)
    return out.decode("ascii").splitlines()


def compare_report(it):
    """Every space of the report once, in its order, and what the report says of it."""
    _, _, report = run(DET, "run", *it.limit(), *it.files)
    rows, names = it.data["spaces"], it.paths()
    same(len(set(names)), len(names), f"{it.name}: spaces that are there twice")
    told = [[names[at], it.data["causes"][row[2]], row[3], f"{row[4]:08x}", str(row[5])] for at, row in enumerate(rows) if row[7] & 1]
    same(told, [line.split(" ") for line in report.decode().splitlines()], f"{it.name}: the report")
    used = sum(int(line[4]) for line in told) + sum(max(0, row[5]) for row in rows if not row[7] & 1)
    same(it.data["work"], used, f"{it.name}: events of all")
    same([note for note in it.data["notes"] if "agree" in note], [], f"{it.name}: spaces that the traces tell otherwise")


def traced(it, path):
    events = it.words[it.words.index("--events") + 1] if "--events" in it.words else "1000000"
    return lines_of(EXPLAIN, "trace", *it.limit(), *it.files, path, "1", events)


def compare_traces(it):
    """Calls and stops of each space with its trace, and the pages that are written there. What comes after the part that was read has no lane."""
    is_cut = any(row[7] & 4 for row in it.data["spaces"])
    for path, row in zip(it.paths(), it.data["spaces"]):
        if not row[7] & 2:
            continue
        want, pages = [], set()
        for line in traced(it, path):
            name, words = line.split(" ")[0], line.split(" ")[3:]
            written = [words[at + 1] for at, word in enumerate(words[:-1]) if word == "page"]
            pages |= {address[:5] for address in written}
            if "stores" in words:
                pages.add(words[words.index("at") + 1][:5])
            if "ecall" in words or "stops" in words:
                kind = "stops" if "stops" in words else words[words.index("ecall") + 1]
                want.append((name, kind, line.split(" ")[2], len(written)))
        got = [(f"{path}:{event[0]}", it.data["kinds"][event[2]], f"{event[3]:08x}", event[4]) for event in row[9]]
        same(got, want[: len(got)] if is_cut else want, f"{it.name}: the events of {path}")
        same(row[6], len(pages), f"{it.name}: the pages of {path}")


def is_conflict(it, row, event):
    """Whether a merge of a child has stopped the space at this event."""
    return any(part[2] == event[0] and it.data["causes"][part[4]] == "conflict" for part in row[8])


def compare_steps(it):
    """Each event comes one step after the one before it, or after a stop for which its call waits."""
    rows = it.data["spaces"]
    ends = {part[3] + 1 for row in rows for part in row[8]}
    for path, row in zip(it.paths(), rows):
        at, first, last = 0, 1, 0
        for part in row[8]:
            same(part[0], last + 1, f"{it.name}: where a part of {path} begins")
            step, number, last = part[1], part[0] - 1, part[2]
            while at < len(row[9]) and row[9][at][0] <= part[2]:
                event = row[9][at]
                meets = it.data["kinds"][event[2]] in page.MEETINGS or is_conflict(it, row, event)
                soonest = step + event[0] - number
                if event[1] != soonest and not (meets and event[1] > soonest and event[1] in ends):
                    raise Wrong(f"{it.name}: {path}:{event[0]} is at step {event[1]}, and not {soonest}")
                step, number, at = event[1], event[0], at + 1
            same(part[3], step + part[2] - number, f"{it.name}: where {path} stops")


def compare_arrows(it):
    """An arrow leads to a child of its space, to a part that begins there, or from one that has stopped before."""
    rows = it.data["spaces"]
    for parent, row in enumerate(rows):
        for at, event in enumerate(row[9]):
            for child, number in zip(event[5 + 1 :: 2], event[5 + 2 :: 2]):
                part = rows[child][8][number]
                is_start = it.data["kinds"][event[2]] in STARTS
                well = part[1] == event[1] and part[6] == at if is_start else part[3] < event[1]
                if rows[child][0] != parent or not well:
                    raise Wrong(f"{it.name}: an arrow of {it.paths()[parent]}:{event[0]} to {it.paths()[child]}, part {number}")
            if it.data["kinds"][event[2]] == "wait":
                compare_wait(it, event, event[6::2])
        for part in row[8]:
            if row[0] >= 0 and (part[6] < 0 or parent not in rows[row[0]][9][part[6]][6::2]):
                raise Wrong(f"{it.name}: a part of {it.paths()[parent]} that nothing starts")


def compare_wait(it, event, children):
    """WAIT comes after the stops of all spaces below the child."""
    names = it.paths()
    for path, row in zip(names, it.data["spaces"]):
        if any(path.startswith(names[child] + "/") for child in children) and any(part[1] < event[1] <= part[3] for part in row[8]):
            raise Wrong(f"{it.name}: a wait at step {event[1]}, while {path} runs")


def compare_why(it):
    """The lines of explain why, each with the space that its first line names."""
    source = it.words[:2] if it.words[:1] == ["--source"] else []
    want, path = {}, None
    for line in lines_of(EXPLAIN, "why", *it.limit(), *source, *it.files):
        word, name = (line.split(" ") + [""])[:2]
        path = name if word in ("conflict", "trap") else path
        if path:
            want.setdefault(path, []).append(line)
    same({it.paths()[int(row)]: lines for row, lines in it.data["why"].items()}, want, f"{it.name}: why")


def compare_page(it):
    """Nothing of the network, and nothing but what is in the file."""
    same(it.page.said["title"], it.data["image"], f"{it.name}: the title")
    same(it.page.policy.split(";")[0], "default-src 'none'", f"{it.name}: what the page may fetch")
    for name, words in it.page.names:
        if name in ("link", "img", "iframe", "object", "base") or {"src", "href", "action", "srcset"} & set(words):
            raise Wrong(f"{it.name}: an element that reads another file: {name} {words}")
    code = it.page.scripts[1][1] + it.page.said["style"]
    for word in ("http:", "https:", "fetch(", "XMLHttpRequest", "WebSocket", "import(", "@import", "url(", "innerHTML", "document.write"):
        if word in code:
            raise Wrong(f"{it.name}: the page says {word}")


def try_examples():
    with concurrent.futures.ThreadPoolExecutor(4) as pool:
        list(pool.map(whole, runs()))


def whole(it):
    it.made()
    for compare in (compare_page, compare_report, compare_steps, compare_arrows, compare_why):
        compare(it)
    if it.name not in LONG:
        compare_traces(it)
    MADE[it.name] = it


MADE = {}


# ---- Pages of other runs ----


HOSTILE = """
.segment 0x1000 1
        lw t0, 0(zero)      ; </script><script>@DATA@ "\\'&lt; <!--
"""


def try_names():
    """A file may have any name, and a source any text: none is read as HTML, and none ends the data."""
    name = "<!--<script><b x=\"'&amp;@DATA@\u2028.img"
    source = stored("hostile.s", HOSTILE.encode())
    image = stored(name, run(DET, "asm", source)[1])
    it = Run("names", image, os.devnull, "--source", str(source)).made()
    same(it.data["image"], name, "the name")
    same(it.page.said["title"], it.data["image"], "the title")
    same([line[2] for line in it.data["lines"].values()], [" ".join(source.read_text().split("\n")[2].split())], "the source line")
    text = it.out.read_text()
    same((text.count("<script"), text.count("</script"), text.count("<!--"), "<b " in text), (2, 2, 0, False), "what the page has")


def try_source_lines():
    """Lines of an executable that has them, of a source of the assembler, and none of an image."""
    it = Run("lines", SDK / "tests/lines.elf", os.devnull).made()
    line = next(at for at, text in enumerate((SDK / "tests/lines.c").read_text().splitlines(), 1) if "the load" in text)
    pc = str(it.data["spaces"][0][4])
    same(it.data["files"][it.data["lines"][pc][0]], "lines.c", "the file")
    same(it.data["lines"][pc][1:], [line, "return *nothing + x; /* <b>the load</b> */"], "the line")
    it = MADE["conflict"]
    text = (EXAMPLES / "conflict.s").read_text().splitlines()
    said = [line for lines in it.data["why"].values() for line in lines if " sb t1, 0(t0) " in line]
    for line in said:
        file, number, shown = it.data["lines"][str(int(re.search("pc ([0-9a-f]{8})", line)[1], 16))]
        same((it.data["files"][file], shown, shown.startswith("sb t1, 0(t0)") or ": sb t1" in shown), ("conflict.s", text[number - 1].strip(), True), line)
    same(len(said) > 1, True, "stores that are named")
    same(Run("no_lines", assembled("conflict"), os.devnull).made().data["lines"], {}, "lines of an image")


def try_damaged_lines():
    """A table of lines that is damaged has none, or some; no page fails of it."""
    elf = (SDK / "tests/lines.elf").read_bytes()
    at = elf.rindex(b"lines.c") - 120
    for where in range(at, at + 160, 3):
        damaged = stored("damaged.elf", elf[:where] + bytes([elf[where] ^ 0x5A]) + elf[where + 1 :])
        for row in page.SourceLines(damaged).rows[:50]:
            row.address + row.line


def try_few_traces():
    """With few traces, few events or little fuel the report is still there, and the page says what is not."""
    notes = []
    cases = [("--traces", "1"), ("--traces", "3"), ("--events", "9"), ("--limit", "40"), ("--limit", "700")]
    for name in ("merge_sort", "files_of_children", "copied_tree", "mailbox"):
        for at, words in enumerate(cases):
            it = Run(f"few_{name}_{at}", assembled(name), os.devnull, *words).made()
            compare_report(it)
            compare_arrows(it)
            notes.append(it.data["notes"])
            MADE.setdefault("few", it)
    said = [[bool(re.search(word, " ".join(note))) for word in ("--traces", "--events")] for note in notes[:3]]
    same(said, [[True, False], [True, False], [False, True]], "the notes")
    same(notes[4], [], "notes if all is read")


# The root waits for a process that has forked another and ended, and so on, four deep. The last one counts for a while.
DEEP = """
.segment 0x1000 1
        li s0, 0
        li a1, 1
        li a7, 16
        ecall
        bne a0, zero, child
        li a1, 1
        li a7, 17
        ecall
        li a7, 3
        ecall
child:  addi s0, s0, 1
        li t0, 4
        beq s0, t0, last
        li a1, 1
        li a7, 16
        ecall
        bne a0, zero, child
        li a7, 3
        ecall
last:   li t1, 50
loop:   addi t1, t1, -1
        bne t1, zero, loop
        li a7, 3
        ecall
"""


def try_wait_for_all_below():
    """WAIT comes a step after the last stop below its child, however deep, though each parent there stops at once."""
    image = stored("deep.img", run(DET, "asm", stored("deep.s", DEEP.encode()))[1])
    it = Run("deep", image, os.devnull).made()
    compare_steps(it)
    waits = [event[1] for event in it.data["spaces"][0][9] if it.data["kinds"][event[2]] == "wait"]
    same((len(it.data["spaces"]), waits), (5, [1 + max(part[3] for row in it.data["spaces"][1:] for part in row[8])]), "spaces, and the step of the wait")


def try_twice():
    """A run has one page, whatever order Python gives to sets."""
    made = set()
    for seed in ("1", "2"):
        os.environ["PYTHONHASHSEED"] = seed
        out = ROOM / f"twice{seed}.html"
        same(kit("page", example("build_farm"), os.devnull, "-o", out), (0, b"", b""), "a page")
        made.add(out.read_bytes())
    del os.environ["PYTHONHASHSEED"]
    same(len(made), 1, "pages of one run")


def try_fuel_of_a_space_that_is_gone():
    """The report has no line of it: the lane has the number that explain tells of its last event. Stops by a limit take no fuel."""
    it = MADE["c_build_farm"]
    gone = [(path, row) for path, row in zip(it.paths(), it.data["spaces"]) if not row[7] & 1]
    same(len(gone), 3, "spaces that are gone")
    for path, row in gone:
        said = lines_of(EXPLAIN, "at", *it.limit(), *it.files, f"{path}:{row[9][-1][0]}")
        same(row[5], int(next(line for line in said if line.startswith("used ")).split(" ")[1]), f"the fuel of {path}")


def try_show():
    it = Run("show", example("conflict"), os.devnull, "--show", "/1:3").made()
    row, event = it.data["show"]
    same((it.paths()[row], event), ("/1", 3), "what the page begins with")


def state(*words):
    """An answer of explain at: what of it a page shows."""
    lines = [line.split(" ", 1) for line in lines_of(EXPLAIN, "at", *words)]
    return [line for line in lines if line[0] not in ("space", "pages", "changed")]


def try_any_event():
    """Registers before and after an event, be it a call or not, and memory: where it stores, where it loads, at the stack, or what is asked for."""
    image = example("wrong_number")
    for name, memory in (("/2:208", "0x00013190:64"), ("/2:1", None), ("/:1", None), ("/2:491", None)):
        path, number = name.split(":")
        it = Run("any", image, os.devnull, "--show", name).made()
        at = it.data["at"]
        same([at["text"]], [lines_of(EXPLAIN, "trace", image, os.devnull, path, number, number)[0].split(" ", 1)[1]], f"the event {name}")
        start, count = next(value for kind, value in at["after"] if kind == "bytes").split(" ")[0], 64
        words = ["--bytes", memory or f"0x{start}:{count}", image, os.devnull]
        same(at["after"], state(*words, name), f"the space after {name}")
        without = lambda lines: [line for line in lines if line[0] != "bytes"]
        want = state(image, os.devnull, f"{path}:{int(number) - 1}") if number != "1" else []
        same(without(at["before"]), want, f"the space before {name}")
        MADE["any" + name.replace("/", "_").replace(":", "_")] = it
        it.out = it.out.rename(ROOM / f"any{name.replace('/', '_').replace(':', '_')}.html")
    it = Run("asked", image, os.devnull, "--show", "/2:209", "--bytes", "results+88:44").made()
    same(it.data["at"]["after"], state("--bytes", "0x00013180:44", image, os.devnull, "/2:209"), "bytes of a name")
    same(it.data["lines"][str(it.data["at"]["pc"])][1], 29, "the line of the event")
    it = Run("late", image, os.devnull, "--events", "5", "--traces", "1", "--show", "/2:208").made()
    same((it.data["at"]["text"].split(" ")[2], it.data["show"]), ("main+352", [3, 208]), "an event of a space that was not traced")


def try_loads_and_stacks():
    """Memory around the address that an event loads from, and around sp for other events."""
    image = example("wrong_number")
    trace = lines_of(EXPLAIN, "trace", image, os.devnull, "/2", "1", "491")
    load = next(line for line in trace if re.search(r" lw \w+, 40\(s0\)", line)).split(" ")[0]
    other = next(line for line in trace if " addi " in line and int(line.split(" ")[0].split(":")[1]) > 1).split(" ")[0]
    registers = lambda name: {words[1].split(" ")[0]: int(words[1].split(" ")[1], 16) for words in state(image, os.devnull, name) if words[0][0] == "x"}
    before = load.split(":")[0] + ":" + str(int(load.split(":")[1]) - 1)
    for name, address in ((load, registers(before)["s0"] + 40), (other, registers(other)["sp"])):
        it = Run("around", image, os.devnull, "--show", name).made()
        starts = [int(value.split(" ")[0], 16) for kind, value in it.data["at"]["after"] if kind == "bytes"]
        same(starts[0], (address & ~15) - 16, f"memory at {name}")


FILES = """
.segment 0x1000 1
        li a1, 0
        jal ra, fork
        li a1, 1
        jal ra, fork
        li a1, 0
        li a7, 17
        ecall
        li a1, 1
        li a7, 17
        ecall
        li a0, 0
end:    li a7, 3
        ecall
fork:   li a7, 16
        ecall
        bne a0, zero, child
        jalr zero, 0(ra)
child:  li a1, name
        li a2, 4
        li a3, 0
        li a7, 24
        ecall
        li a0, 0
        jal zero, end
.segment 0x2000 1
name:   .word 0x65746f6e
"""


def try_files_in_conflict():
    """A space that has a file in conflict and returned: explain names its WAIT, which the page has as a call of it."""
    image = stored("files.img", run(DET, "asm", stored("files.s", FILES.encode()))[1])
    it = Run("files", image, os.devnull).made()
    compare_why(it)
    lines = it.data["why"]["0"]
    number = int(re.search(r"changed by /:([0-9]+) ", lines[1])[1])
    same((lines[0], it.data["causes"][it.data["spaces"][0][2]]), ("conflict / file note slot 0", "ret"), "a file in conflict")
    same([it.data["kinds"][event[2]] for event in it.data["spaces"][0][9] if event[0] == number], ["wait"], "the call that found it")
    MADE[it.name] = it


def refused(status, said, *words):
    """A line, a status, and no file."""
    out = ROOM / "refused.html"
    got, console, err = kit("page", *words, "-o", out)
    lines = err.decode(errors="replace").splitlines()
    there = [path.name for path in ROOM.iterdir() if path.name.startswith((".page-", "refused"))]
    if (got, console, lines[:1], there) != (status, b"", [said], []):
        raise Wrong(f"{words}: status {got}, {lines[:2]}, {there}, and not {said}")


def try_refusals():
    hello, none = example("hello"), os.devnull
    refused(2, f"sdk/page: image: {ROOM}/nothing.elf: No such file or directory", ROOM / "nothing.elf", none)
    refused(2, f"sdk/page: image: {ROOM}: Is a directory", ROOM, none)
    refused(2, f"sdk/page: script: {ROOM}/nothing: No such file or directory", hello, ROOM / "nothing")
    strange = ROOM / os.fsdecode(b"no \xff text")
    strange.write_bytes(hello.read_bytes())
    refused(2, "det: usage: run|walk|asm|bench", strange, none)
    refused(3, "det: image: truncated at 0", stored("short", b"abc"), none)
    refused(3, "det: script: line 2", hello, stored("bad.script", b"in well\nout badly\n"))
    refused(2, f"sdk/page: source: {ROOM}/nothing.s: No such file or directory", hello, none, "--source", ROOM / "nothing.s")
    refused(3, "det: source: line 1: word", hello, none, "--source", SDK / "tests/lines.c")
    refused(2, "sdk/page: show: /7: the run has no such space", hello, none, "--show", "/7")
    wrong = example("wrong_number")
    refused(2, "sdk/page: show: /2:492: the space has 491 events", wrong, none, "--show", "/2:492")
    refused(2, "sdk/page: show: /2:492: the run has no such event", wrong, none, "--show", "/2:492", "--events", "5")
    refused(2, "sdk/page: show: /2:492: the run has no such event", wrong, none, "--show", "/2:492", "--traces", "1")
    refused(2, f"sdk/page: bytes: reslut: {wrong} has no such name", wrong, none, "--show", "/2:1", "--bytes", "reslut")
    refused(2, "sdk/page: bytes: results:4097: neither PLACE nor PLACE:COUNT, with a COUNT of at most 4096", wrong, none, "--show", "/2:1", "--bytes", "results:4097")
    refused(2, "sdk/page: bytes: --show names no event", wrong, none, "--show", "/2", "--bytes", "results")
    for words in ([], [hello], ["--limit", "0", hello, none], ["--show", "0", hello, none], ["--why", "-1", hello, none], [hello, none, none]):
        status, _, err = kit("page", *words, "-o", ROOM / "refused.html")
        same((status, b"usage: sdk/page" in err), (2, True), words)


def try_files_that_cannot_be_written():
    words = [example("hello"), os.devnull]
    same(kit("page", *words)[0], 2, "no -o")
    rows = [("no/folder.html", "No such file or directory"), ("", "Is a directory"), ("/dev/full", "No space left on device")]
    for name, said in rows:
        out = ROOM / name
        same(kit("page", *words, "-o", out), (2, b"", f"sdk/page: write: {out}: {said}\n".encode()), out)
    known = stored("known.html", b"known")
    said = f"sdk/page: write: {known}: File exists: --replace replaces it\n".encode()
    same((kit("page", *words, "-o", known), known.read_bytes()), ((2, b"", said), b"known"), "a page that was there before")
    bad = stored("bad.script", b"in well\nout badly\n")
    same((kit("page", example("hello"), bad, "--replace", "-o", known)[0], known.read_bytes()), (3, b"known"), "a run that is refused")
    same((kit("page", *words, "--replace", "-o", known), known.read_bytes()[:9]), ((0, b"", b""), b"<!doctype"), "a page that is replaced")


def try_no_programs():
    for name in ("DET", "EXPLAIN"):
        known, os.environ[name] = os.environ[name], str(ROOM / "none")
        got = kit("page", example("hello"), os.devnull, "-o", ROOM / "refused.html")
        os.environ[name] = known
        same(got, (2, b"", f"sdk/page: {ROOM}/none: No such file or directory\n".encode()), name)


MANY = """
.segment 0x1000 1
        li s0, 0
        li s1, 10000
fork:   addi a1, s0, 0
        li a7, 18
        ecall
        bne a0, zero, child
        addi s0, s0, 1
        blt s0, s1, fork
join:   addi s0, s0, -1
        addi a1, s0, 0
        li a7, 19
        ecall
        bne s0, zero, join
        li a0, 0
child:  li a7, 3
        ecall
"""


def try_10000_threads():
    """A page of 10,001 spaces has at most 2 MB, and takes few traces."""
    compare_arrows(many("many", MANY))


def try_10000_processes():
    """The same of processes, which are gone once they were waited for: no report tells of them."""
    many("gone", MANY.replace("a7, 18", "a7, 16").replace("a7, 19", "a7, 17"))


def many(name, text):
    image = stored(f"{name}.img", run(DET, "asm", stored(f"{name}.s", text.encode()))[1])
    it = Run(name, image, os.devnull).made()
    same(sum(1 for row in it.data["spaces"] if row[7] & 2) <= 8, True, "the traces")
    same(len(it.data["spaces"]), 10001, "the spaces")
    same(it.out.stat().st_size <= 2000000, True, f"{it.out.stat().st_size} bytes")
    compare_report(it)
    compare_steps(it)
    MADE[it.name] = it
    return it


# ---- In a browser ----


def try_in_a_browser():
    if browsing.CHROMIUM is None:
        return
    said, console = browsing.opened([it.out for it in MADE.values()], ROOM)
    same(console, [], "the console of the browser")
    if said is None:
        print("  pages are not tried in a browser: chromium does not start", flush=True)
        return
    for it in MADE.values():
        browsing.compare(it, STARTS, *said.get(it.out.name, browsing.NOTHING))


main(globals())
