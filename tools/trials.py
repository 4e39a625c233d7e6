"""What tools/stress and tools/refuse_memory share: programs, shims that a C compiler makes, runs with a time limit."""

import argparse
import collections
import os
import pathlib
import shutil
import signal
import subprocess
import sys
import threading

ROOT = pathlib.Path(__file__).resolve().parent.parent
TOOLS = ROOT / "tools"
EMPTY_SCRIPT = ROOT / "cases" / "empty.script"
COMPILERS = ("gcc", "cc")
SHIM_FLAGS = ("-O2", "-fPIC", "-shared", "-ftls-model=initial-exec")
# the status of a shim that was only asked whether it is there
PROBE_STATUS = 97
# the statuses of a run: the root returned, or it stopped; and out of memory
RAN = (0, 1)
NO_MEMORY = 6
# how many times its time limit a busy run may have
PATIENCE = 4
# how long a command may take that does little, on a host that is very busy
SHORT_SECONDS = 600
# options that say how a program is run, and those that say what is run
ENGINE_OPTIONS = ("--engine", "--workers", "--nodes", "--link")
KEPT_OPTIONS = ("--limit",)

# A program with its script, and the options that belong to it.
Program = collections.namedtuple("Program", "name image script options")
# What came of a run.
Outcome = collections.namedtuple("Outcome", "status console report")


def quiet_run(words, **more):
    """Runs a command for its standard output."""
    none = subprocess.DEVNULL
    return subprocess.run(words, stdin=none, stdout=subprocess.PIPE, stderr=none, timeout=SHORT_SECONDS, **more)


def make_shim(source, folder):
    """Makes a library of a C source of this folder; answers its path, or None if no compiler makes it."""
    library = pathlib.Path(folder) / (pathlib.Path(source).stem + ".so")
    for compiler in filter(shutil.which, COMPILERS):
        if quiet_run([compiler, *SHIM_FLAGS, str(TOOLS / source), "-o", str(library), "-ldl"]).returncode == 0:
            return library
    return None


def probe(det, settings):
    """What a shim prints when asked whether the program loads it. None if it does not: a static program, say."""
    done = quiet_run([det], env=dict(os.environ, **settings))
    return done.stdout.decode() if done.returncode == PROBE_STATUS else None


class Programs:
    """Programs of this repository and of files. Sources are assembled into a folder."""

    def __init__(self, det, folder):
        self.det = det
        self.folder = pathlib.Path(folder)
        self.images = {}

    def image(self, source):
        """The image of a source, or None if it is refused."""
        if source not in self.images:
            done = quiet_run([self.det, "asm", str(source)])
            path = self.folder / f"{len(self.images)}_{source.stem}.img"
            path.write_bytes(done.stdout)
            self.images[source] = path if done.returncode == 0 else None
        return self.images[source]

    def program(self, file, name=None, script=None, options=()):
        """The program of an image or of a source; None if it is not there or is refused."""
        if file.suffix == ".img" and not file.exists():
            file = file.with_suffix(".s")
        if not file.is_file():
            return None
        image = self.image(file) if file.suffix == ".s" else file
        own = file.with_suffix(".script")
        script = script or (own if own.is_file() else EMPTY_SCRIPT)
        return image and Program(name or file.stem, str(image), str(script), tuple(options))

    def examples(self):
        """The examples, and those in C."""
        files = sorted((ROOT / "examples").glob("*.s")) + sorted((ROOT / "sdk" / "examples").glob("*.elf"))
        found = [self.program(file, str(file.relative_to(ROOT).with_suffix(""))) for file in files]
        return [program for program in found if program]

    def cases(self, subject):
        """The programs of a folder of cases: each that a line of it runs, once."""
        found = {}
        for file in sorted((ROOT / "cases" / subject).glob("*.words")):
            for line in file.read_text().splitlines():
                program = self.case(file.parent, line.split())
                if program:
                    found.setdefault(program[1:], program)
        return list(found.values())

    def case(self, folder, words):
        """The program of a case's line; None if the line runs none."""
        options, files = plain_words(words)
        if words[:1] != ["run"] or len(files) != 2:
            return None
        image, script = (pathlib.Path(os.path.normpath(str(folder / word))) for word in files)
        if not script.is_file():
            return None
        name = " ".join([str(image.relative_to(ROOT).with_suffix("")), *options])
        return self.program(image, name, script, options)


def plain_words(words):
    """Options and files of a line that runs a program, without the engine."""
    options, files, rest = [], [], iter(words[1:])
    for word in rest:
        name = word.split("=")[0]
        if name in ENGINE_OPTIONS + KEPT_OPTIONS:
            pair = [name, word.split("=")[1] if "=" in word else next(rest, "")]
            options += pair if name in KEPT_OPTIONS else []
        else:
            files.append(word)
    return options, files


class Runner:
    """Runs commands with a time limit. When it is stopped it ends those that still run."""

    def __init__(self, seconds):
        self.seconds = seconds
        self.lock = threading.Lock()
        self.running = set()
        self.stopped = False

    def run(self, command, settings, look=None, **more):
        """The outcome of a command; None if it does not end in time, or if runs are stopped.

        If the time limit is over, `look` gets the process, and whether this was the last time that it gets. It answers
        whether the process is busy, which then has the same time again.
        """
        with self.lock:
            if self.stopped:
                return None
            words = {"stdin": subprocess.DEVNULL, "stdout": subprocess.PIPE, "stderr": subprocess.PIPE, **more}
            process = subprocess.Popen(command, env=dict(os.environ, **settings), **words)
            self.running.add(process)
        try:
            written = self.wait(process, look)
            return None if written is None or self.stopped else Outcome(process.returncode, *written)
        finally:
            end(process)
            self.running.discard(process)

    def wait(self, process, look):
        """What a process writes until it ends; None if it does not end in time."""
        for left in reversed(range(PATIENCE)):
            try:
                return process.communicate(timeout=self.seconds)
            except subprocess.TimeoutExpired:
                if look is None or not look(process, left == 0):
                    break
        return None

    def stop(self):
        """Ends what runs, and lets nothing more begin."""
        with self.lock:
            self.stopped = True
            for process in list(self.running):
                process.kill()


def end(process):
    """Ends a process if it still runs, and waits for it."""
    process.kill()
    process.communicate()


def leave(number, _):
    """Ends the tool, once."""
    signal.signal(number, signal.SIG_IGN)
    sys.exit(1)


def end_by_signals():
    """Lets a signal that ends the tool go the way of any other end, so that temporary folders and processes go, too."""
    for number in (signal.SIGTERM, signal.SIGHUP):
        signal.signal(number, leave)


def reader(name, page):
    """A reader of command lines that prints this page as its help."""
    return argparse.ArgumentParser(
        prog=f"tools/{name}",
        description=page,
        formatter_class=argparse.RawDescriptionHelpFormatter,
        allow_abbrev=False,
        usage=argparse.SUPPRESS,
    )


def program_file(parser, path):
    """The path of a program on the command line; ends with 2 if there is none."""
    found = os.path.abspath(path)
    if not (os.path.isfile(found) and os.access(found, os.X_OK)):
        parser.error(f"no program: {path}")
    return found


def at_least_one(word):
    """A number above 0 on the command line."""
    if not word.isdecimal() or int(word) < 1:
        raise argparse.ArgumentTypeError(f"{word!r} is no number from 1 on")
    return int(word)


def some_of(names):
    """Reads some of these names, with commas between them."""

    def chosen(word):
        given = word.split(",")
        for name in given:
            if name not in names:
                raise argparse.ArgumentTypeError(f"{name!r} is none of {', '.join(names)}")
        return tuple(given)

    return chosen
