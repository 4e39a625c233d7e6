"""Source lines of addresses and events (sdk/lines): sdk/tests/lines.py DET EXPLAIN ROOM"""

import os

from trying import DET, EXPLAIN, ROOM, SDK, example, kit, main, run, same, stored

EXAMPLES = SDK.parent / "examples"
NONE = os.devnull


def line_with(path, text):
    """The number of the one line of a source that has a text."""
    found = [at for at, line in enumerate(path.read_text().splitlines(), 1) if text in line]
    same(len(found), 1, f"lines of {path.name} with {text}")
    return found[0]


def try_events():
    """The last store to a word that is wrong: explain names the event, sdk/lines its line."""
    image = example("wrong_number")
    trace = run(EXPLAIN, "trace", image, NONE, "/2", "1", "1000000")[1].decode().splitlines()
    stores = [line.split(" ") for line in trace if " stores " in line and line.endswith(" results+128")]
    names = [(words[0], words[2]) for words in stores]
    source = SDK / "examples/wrong_number.c"
    texts = ["result[BEST] = mark;"] * 3 + ["result[mark / 10]++;"]
    want = [f"{name} pc {pc} wrong_number.c:{line_with(source, text)} {text}\n" for (name, pc), text in zip(names, texts)]
    same(kit("lines", image, NONE, *[name for name, _ in names]), (0, "".join(want).encode(), b""), "lines of the stores")


def try_places():
    """Addresses and names of an executable, and of a source of det asm."""
    image = example("wrong_number")
    line = line_with(SDK / "examples/wrong_number.c", "main(void)") + 1
    same(kit("lines", image, "main", "main+0")[:2], (0, f"main wrong_number.c:{line} {{\nmain+0 wrong_number.c:{line} {{\n".encode()), "main")
    same(kit("lines", image, "results")[:2], (1, b"results has no line\n"), "a name of data")
    source = stored("two.s", b".segment 0x1000 1\nfirst: li a7, 3 ; two words\n\nlast:\n  ecall\n.segment 0x2000 2\ncell: .zero 5\nend: .byte 1\n")
    want = b"first two.s:2 first: li a7, 3 ; two words\n00001004 two.s:2 first: li a7, 3 ; two words\nlast two.s:5 ecall\n"
    want += b"0x2004 two.s:7 cell: .zero 5\nend two.s:8 end: .byte 1\n"
    same(kit("lines", source, "first", "00001004", "last", "0x2004", "end"), (0, want, b""), "a source")
    same(kit("lines", source, "0x2006", "first")[:2], (1, b"0x2006 has no line\nfirst two.s:2 first: li a7, 3 ; two words\n"), "past the end")


def try_source():
    """Events of an image that was made from a source: the instruction of each is in its line."""
    source = EXAMPLES / "two_children.s"
    image = stored("two_children.img", run(DET, "asm", source)[1])
    got = kit("lines", "--source", source, image, NONE, "/1:1", "/1:4")
    lines = [(name, pc, line_with(source, text)) for name, pc, text in (("/1:1", "00001068", "slli a0, s0, 4"),)]
    same((got[0], got[1].decode().splitlines()[0].split(" ")[:4]), (0, [lines[0][0], "pc", lines[0][1], f"two_children.s:{lines[0][2]}"]), "an event")


def refused(status, said, *words):
    got = kit("lines", *words)
    same((got[0], got[1], got[2].decode().splitlines()[:1]), (status, b"", [said]), words)


def try_refusals():
    image, plain = example("wrong_number"), example("hello")
    refused(2, f"sdk/lines: image: {ROOM}/none: No such file or directory", ROOM / "none", "main")
    refused(2, f"sdk/lines: script: {ROOM}/none: No such file or directory", image, ROOM / "none", "/:1")
    refused(2, f"sdk/lines: source: {ROOM}/none: No such file or directory", "--source", ROOM / "none", image, NONE, "/:1")
    refused(2, f"sdk/lines: mian: {image} has no such name", image, "main", "mian")
    refused(2, "sdk/lines: 12: neither an address nor a name", image, "12")
    refused(2, "sdk/lines: /2:492: the run has no such event", image, NONE, "/2:1", "/2:492")
    refused(2, "sdk/lines: /7:1: the run has no such event", image, NONE, "/7:1")
    refused(2, "sdk/lines: main: no event", image, NONE, "main", "/:1")
    refused(2, f"sdk/lines: {plain}: it has no source lines: build it with -g, or give the source by --source", plain, "00010000")
    refused(3, "det: script: line 1", image, stored("bad.script", b"out badly\n"), "/:1")
    for words in ([], [image], ["--limit", "0", image, NONE, "/:1"]):
        status, out, err = kit("lines", *words)
        same((status, out, b"usage: sdk/lines" in err), (2, b"", True), words)


main(globals())
