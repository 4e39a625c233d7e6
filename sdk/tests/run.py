"""Programs in one command: sdk/tests/run.py DET EXPLAIN ROOM [COMPILER..]"""

import os
import sys

from trying import ROOM, Wrong, example, kit, main, same, stored
import elf32

COMPILERS = sys.argv[4:]


def try_values():
    same(kit("run", example("hello")), (0, b"hello, world\n", b""), "hello")
    status, _, err = kit("run", "--report", "--script", example("echo").with_suffix(".script"), example("echo"))
    same((status, err.split(b" ")[:3]), (3, [b"/", b"ret", b"00000003"]), "echo")


def returns(value):
    """An executable that returns a value: hello with other code at its entry."""
    elf = bytearray(example("hello").read_bytes())
    (load,) = [load for load in elf32.loads(elf, "hello") if load.flags & elf32.EXECUTABLE]
    at = load.offset + elf32.entry(elf) - load.address
    words = [value + 0x800 >> 12 << 12 & 0xFFFFF000 | 0x537, (value & 0xFFF) << 20 | 0x50513, 3 << 20 | 0x893, 0x73]
    elf[at : at + 16] = b"".join(word.to_bytes(4, "little") for word in words)
    return stored(f"returns{value}.elf", bytes(elf))


def try_large_values():
    for value, status in [(0, 0), (1, 1), (125, 125), (126, 125), (255, 125), (256, 125), (0xFFFFFFFF, 125)]:
        said = f"sdk/run: the root returned {value}\n".encode() if value > 125 else b""
        same(kit("run", returns(value)), (status, b"", said), value)


def try_traps():
    status, _, err = kit("run", example("conflict"))
    lines = err.decode().splitlines()
    if status != 126 or not lines[0].startswith("/ conflict ") or not any(line.startswith("conflict / tjoin of ") for line in lines):
        raise Wrong(f"conflict: {status}, {lines}")
    status, _, err = kit("run", "--limit", "100", example("hello"))
    same((status, err.split(b" ")[:2], err.endswith(b"\nnothing to explain\n")), (126, [b"/", b"fuel"], True), "a limit")


def try_input():
    text = b"first\n\nwith a carriage return\r\nlast"
    same(kit("run", "--input", stored("input", text), example("echo"))[1], kit("run", "--script", script_of(text), example("echo"))[1], "echo")


def script_of(text):
    return stored("script", b"raw " + text.hex().encode() + b"\n")


def try_files_and_arguments():
    path = stored("note", b"a note\n")
    back = ROOM / "run_out"
    same(kit("run", "--in", f"note={path}", "--in", f"@log={path}", "--out", back, example("hello"), "--", "a", "b c")[0], 0, "the status")
    got = {name: (back / name).read_bytes() for name in os.listdir(back)}
    same(got, {"note": b"a note\n", "log": b"a note\n", "args": b"a\nb c\n"}, "the files")


def refused(words, said):
    status, out, err = kit("run", *words)
    if status != 127 or out or said not in err.decode():
        raise Wrong(f"{words}: status {status}, {err!r}, and not {said}")


def try_refusals():
    hello = example("hello")
    refused([], "usage: sdk/run")
    refused(["--limit"], "usage")
    refused(["--in", "a", hello], "sdk/files: file: a: it is not NAME=PATH")
    refused(["--in", "a=/no/file", hello], "sdk/files: file: /no/file: No such file")
    refused(["--script", stored("bad_script", b"out\n"), hello], "det: script: line 1")
    refused(["--script", ROOM / "nothing", hello], "det: read fault")
    refused(["--limit", "many", hello], "det: usage: ")
    refused(["--input", ROOM / "nothing", hello], f"sdk/run: {ROOM}/nothing: No such file")
    refused(["--input", stored("large", b"x" * 600000), hello], "more input than a script holds")
    refused(["--long", hello], "--long is for sources")
    refused([stored("no_image", b"abc")], "det: image: truncated at 0")


def try_sources():
    source = stored("args.c", b'#include <stdio.h>\nint main(int argc, char **argv) { printf("%s\\n", argv[argc - 1]); return argc; }\n')
    for compiler in COMPILERS:
        os.environ["CC"] = compiler
        same(kit("run", source, "--", "one", "two words"), (3, b"two words\n", b""), compiler)
        same(kit("run", "-DX=1", "--long", source, "--", "one"), (2, b"one\n", b""), compiler)
        refused([stored("bad.c", b"int main(void) { return x; }\n")], "bad.c")
        refused([ROOM / "nothing.c"], "nothing.c")


main(globals())
