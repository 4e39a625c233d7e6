"""What a release says of its proofs: crates and functions of the programs, the kit, the commit."""

import os
import pathlib
import re
import subprocess

TOP = pathlib.Path(__file__).resolve().parent.parent
# The programs of a release: the installed name, and the crate that has it.
PROGRAMS = {
    "det": "det",
    "det-explain": "explain",
}
FUNCTION = re.compile(r"^\s*(?:pub(?:\([a-z]+\))? )?(?:const )?(?:unsafe )?fn \w+", re.M)


def crates():
    """The crates of the programs, from those in crates.txt that they stand on."""
    below = {}
    for line in (TOP / "crates.txt").read_text(encoding="utf-8").splitlines():
        name, colon, rest = line.partition("#")[0].partition(":")
        if colon:
            below[name.split()[0]] = rest.split()
    found, left = set(), list(PROGRAMS.values())
    while left:
        name = left.pop()
        if name in below and name not in found:
            found.add(name)
            left += below[name]
    return sorted(found)


def functions(names):
    """How many functions with a body these crates have: the gate proves each."""
    return sum(len(FUNCTION.findall(file.read_text(encoding="utf-8"))) for name in names for file in (TOP / "crates" / name / "src").rglob("*.rt"))


def said(command):
    """What a command says; none if it is not there or fails."""
    try:
        done = subprocess.run(command, cwd=TOP, stdout=subprocess.PIPE, stderr=subprocess.DEVNULL, text=True, check=False)
    except OSError:
        return None
    return done.stdout.strip() if done.returncode == 0 else None


def commit():
    """The commit of the working tree; none outside a checkout."""
    return said(["git", "rev-parse", "HEAD"])


def is_clean():
    """Whether the files are those of the commit."""
    return said(["git", "status", "--porcelain"]) == ""


def kit():
    """The line of `rt version`; none where the kit is not there."""
    return said(["rt", "version"])


def is_there(path):
    return os.access(path, os.X_OK)
