"""What docs/PROGRAMS.md shows: sdk/tests/pages.py DET EXPLAIN ROOM [COMPILER]

A comment before a block says how it is tried: <!-- tried: kept -->, without a compiler, or <!-- tried: COMPILER -->, if that compiler is there. A block of
console has commands behind `$ `, and what comes of each; PC and USED stand for numbers that are the compiler's. A block of C is a file, whose name
stands behind the compiler: <!-- tried: COMPILER, NAME -->. All blocks are tried in one folder, in their order.
"""

import os
import re
import subprocess
import sys

from trying import DET, EXPLAIN, ROOM, SDK, Wrong, main

PAGE = SDK.parent / "docs/PROGRAMS.md"
TRIED = re.compile(r"<!-- tried: ([^ ,]+)(?:, (\S+))? -->\n\n```[a-z]*\n(.*?)```\n", re.S)
COMMAND = re.compile(r"^\$ (.*)\n((?:(?!\$ ).*\n)*)", re.M)
COMPILER = (sys.argv[4:] or [""])[0]


def as_in_the_repository():
    """The folder in which commands are tried: its names lead to the kit, and to the programs."""
    for name in ("sdk", "docs", "examples", "README.md"):
        (ROOM / name).symlink_to(SDK.parent / name)
    for name, program in (("det", DET), ("explain", EXPLAIN)):
        (ROOM / f"crates/{name}/out").mkdir(parents=True)
        (ROOM / f"crates/{name}/out/{name}").symlink_to(program)


def shown(text):
    """A report without pc and used."""
    return re.sub(r"^(/\S* \S+ [0-9a-f]{8}) [0-9a-f]{8} \d+$", r"\1 PC USED", text, flags=re.M)


def compare(command, want):
    done = subprocess.run(["bash", "-c", command], cwd=ROOM, stdin=subprocess.DEVNULL, stdout=subprocess.PIPE, stderr=subprocess.STDOUT)
    got = shown(done.stdout.decode(errors="replace"))
    if got != want:
        raise Wrong(f"$ {command}: {got!r}, and not {want!r}")


def try_the_page():
    as_in_the_repository()
    os.environ["CC"] = COMPILER
    count = 0
    for by, name, block in TRIED.findall(PAGE.read_text()):
        if by not in ("kept", COMPILER):
            continue
        if name:
            (ROOM / name).write_text(block)
            continue
        for command, want in COMMAND.findall(block):
            compare(command, want)
            count += 1
    print(f"{PAGE.name}: {count} commands print what it shows")


main(globals())
