"""What the tests in Python share. A test is a function whose name begins with try_; it raises where something is wrong."""

import importlib.machinery
import importlib.util
import os
import pathlib
import subprocess
import sys
import traceback

sys.dont_write_bytecode = True
SDK = pathlib.Path(__file__).resolve().parent.parent
sys.path.insert(0, str(SDK))

DET, EXPLAIN, ROOM = sys.argv[1:4]
ROOM = pathlib.Path(ROOM)
os.environ.update(DET=DET, EXPLAIN=EXPLAIN)


class Wrong(Exception):
    pass


def script(name):
    """A script of the kit as a module."""
    loader = importlib.machinery.SourceFileLoader(name, str(SDK / name))
    module = importlib.util.module_from_spec(importlib.util.spec_from_loader(name, loader))
    loader.exec_module(module)
    return module


def same(got, want, of):
    if got != want:
        raise Wrong(f"{of}: {got!r:.300}, and not {want!r:.300}")


def run(*words):
    """Status, standard output and standard error of a command."""
    done = subprocess.run([str(word) for word in words], stdin=subprocess.DEVNULL, stdout=subprocess.PIPE, stderr=subprocess.PIPE)
    return done.returncode, done.stdout, done.stderr


def kit(name, *words):
    return run(SDK / name, *words)


def example(name):
    return SDK / "examples" / (name + ".elf")


def stored(name, data):
    """A file in the room."""
    path = ROOM / name
    path.parent.mkdir(parents=True, exist_ok=True)
    path.write_bytes(data)
    return path


def main(tests):
    """Says in a line for each test whether it passed; sdk/check counts these lines."""
    for name, test in list(tests.items()):
        if not name.startswith("try_"):
            continue
        try:
            test()
            print("passed", name, flush=True)
        except Exception as e:
            said = str(e) if isinstance(e, Wrong) else traceback.format_exc()
            print("failed", name, said.replace("\n", " / "), flush=True)
