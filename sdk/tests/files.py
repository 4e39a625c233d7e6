"""Files into a run and out of it: sdk/tests/files.py DET EXPLAIN ROOM"""

import os
import random
import struct

from trying import ROOM, Wrong, example, kit, main, run, same, script, stored
import elf32

files = script("files")

HELLO = example("hello")
ROOM_OF_A_FILE = files.ROOM


def some_bytes(count):
    return random.Random(count).getrandbits(8 * count + 8).to_bytes(count + 1, "little")[:count]


def folder(path):
    """The files of a folder of the host, by name."""
    return {name: (path / os.fsdecode(name)).read_bytes() for name in map(os.fsencode, os.listdir(path))}


def there_and_back(contents, label):
    """Puts files in, takes them out, and compares. The image writes what it wrote without them."""
    words = [f"{os.fsdecode(name)}={stored(f'{label}/{at}', data)}" for at, (name, data) in enumerate(contents.items())]
    image = ROOM / (label + ".elf")
    same(kit("files", "in", HELLO, image, *words), (0, b"", b""), "in")
    same(run(os.environ["DET"], "run", image, "/dev/null"), run(os.environ["DET"], "run", HELLO, "/dev/null"), "the run")
    back = ROOM / (label + ".back")
    same(kit("files", "out", image, "/dev/null", back), (0, b"", b""), "out")
    same(folder(back), {files.host_name(name): data for name, data in contents.items()}, "the files")


def try_64_files():
    lengths = [0, 1, 4095, 4096, 4097, ROOM_OF_A_FILE - 1, ROOM_OF_A_FILE]
    lengths += [random.Random(at).randrange(ROOM_OF_A_FILE) for at in range(64 - len(lengths))]
    there_and_back({b"file %d" % at: some_bytes(length) for at, length in enumerate(lengths)}, "many")


def try_names():
    names = [b"x", b"n" * 32, b"-in", b"a/b", b"../up", b"..", b".", b"/", b"a%2Fb", b"\xff\\x", "größe".encode(), b"a version 1 length 2 base 3", b"@"]
    there_and_back({name: b"of " + name for name in names if name != b"@"}, "names")
    same(len({files.host_name(name) for name in names}), len(names), "names of the host")


def try_long_files():
    lengths = [ROOM_OF_A_FILE + 1, 2 * ROOM_OF_A_FILE, 2 * ROOM_OF_A_FILE + 1, 5 * ROOM_OF_A_FILE - 7, ROOM_OF_A_FILE]
    there_and_back({b"long%d" % at: some_bytes(length) for at, length in enumerate(lengths)}, "long")


def try_the_longest_file():
    there_and_back({b"n" * 31: some_bytes(64 * ROOM_OF_A_FILE)}, "longest")


def try_append_and_arguments():
    image = ROOM / "append.elf"
    log = stored("log", some_bytes(ROOM_OF_A_FILE + 5))
    same(kit("files", "in", HELLO, image, f"@log={log}", "--args", "one", "two words", "", "--args"), (0, b"", b""), "in")
    status, out, _ = run(os.environ["EXPLAIN"], "at", image, "/dev/null", "/")
    listed = [line.split() for line in out.decode().splitlines() if line.startswith("file ")]
    same([line[2] for line in listed if line[-1] == "append"], ["log", "log\\x81"], "files of append")
    same(kit("files", "out", image, "/dev/null", ROOM / "append")[0], 0, "out")
    same(folder(ROOM / "append"), {b"log": log.read_bytes(), b"args": b"one\ntwo words\n\n--args\n"}, "the files")


def try_files_of_children():
    back = ROOM / "children"
    same(kit("files", "out", example("build_farm"), "/dev/null", back), (0, b"", b""), "out")
    log = b"alpha.o: made\nbeta: does not compile\ngamma.o: made\n"
    same(folder(back), {b"alpha.o": b"ALPHA\n", b"gamma.o": b"GAMMA\n", b"log": log, b"program": b"ALPHA\nGAMMA\n"}, "the files")


# ---- Slots as a program may leave them ----


def slot(name, data, flags=0):
    made = bytearray(files.slot_of(files.File(name, data, False)))
    struct.pack_into("<I", made, 20, flags)
    return bytes(made)


def left(slots, label):
    """An image whose root has these slots, and what out makes of it."""
    data = b"".join(slots)
    image = stored(label + ".elf", elf32.with_load(HELLO.read_bytes(), "hello", files.BASE, data, len(data), 0))
    status, out, err = kit("files", "out", image, "/dev/null", ROOM / label)
    return status, err.decode(), folder(ROOM / label)


def try_conflicted_and_deleted_files():
    got = left([slot(b"a", b"1"), slot(b"b", b"2", 2), slot(b"c", b"", 4), slot(b"d", b"4", 1), slot(b"e", b"5", 6)], "marks")
    said = "sdk/files: conflicted: b\nsdk/files: deleted: c\nsdk/files: conflicted: e\nsdk/files: deleted: e\n"
    same(got, (1, said, {b"a": b"1", b"d": b"4"}), "out")


def try_hidden_and_free_slots():
    got = left([slot(b"a", b"1"), b"DTF2" + slot(b"x", b"")[4:], slot(b"a", b"2"), slot(b"x", b"3", 8)], "hidden")
    same(got, (0, "", {b"a": b"1"}), "out")


def try_parts_that_are_left():
    full = some_bytes(ROOM_OF_A_FILE)
    slots = [slot(b"a\x81", b"", 4), slot(b"a", b"short"), slot(b"b", full), slot(b"b\x81", b"", 4), slot(b"c\x81", b"rest"), slot(b"c", full)]
    same(left(slots, "parts"), (0, "", {b"a": b"short", b"b": full, b"c": full + b"rest"}), "out")
    got = left([slot(b"a", full), slot(b"a\x81", b"x", 2)], "parts_in_conflict")
    same(got, (1, "sdk/files: conflicted: a\n", {}), "out")


def try_links_of_the_host():
    (ROOM / "linked").mkdir()
    (ROOM / "linked" / "a").symlink_to(ROOM / "elsewhere")
    status, out, err = kit("files", "out", stored_image("a", b"1"), "/dev/null", ROOM / "linked")
    same((status, err.startswith(b"sdk/files: write: "), (ROOM / "elsewhere").exists()), (2, True, False), "out")


def stored_image(name, data):
    image = ROOM / "one.elf"
    kit("files", "in", HELLO, image, f"{name}={stored('one', data)}")
    return image


# ---- Refusals ----


def refused(words, named):
    """in with these words is refused with one line that names something, and makes nothing."""
    out = ROOM / "refused.elf"
    status, console, err = kit("files", "in", *(out if word == "OUT" else word for word in words))
    lines = err.decode().splitlines()
    if status != 2 or console or len(lines) != 1 or named not in lines[0] or out.exists():
        raise Wrong(f"{words}: status {status}, {err!r}, and not a line with {named}")


def try_names_that_are_refused():
    path = stored("path", b"bytes")
    long = stored("path_long", some_bytes(ROOM_OF_A_FILE + 1))
    refused([HELLO, "OUT", f"={path}"], "name: ")
    refused([HELLO, "OUT", f"@={path}"], "name: ")
    refused([HELLO, "OUT", f"{'n' * 33}={path}"], "name: " + "n" * 33)
    refused([HELLO, "OUT", f"{'n' * 32}={long}"], "name: " + "n" * 32)
    refused([HELLO, "OUT", f"a={path}", f"b={path}", f"@a={path}"], "twice: a")
    refused([HELLO, "OUT", f"args={path}", "--args", "x"], "twice: args")
    refused([HELLO, "OUT", f"a={long}", os.fsdecode(b"a\x81") + f"={path}"], "twice: a\\x81")
    refused([HELLO, "OUT", path], f"file: {path}")
    try:
        files.slots_of([files.File(b"a\0b", b"", False)])
        raise Wrong("a name with a byte 0 is taken")
    except elf32.Refused as e:
        same(str(e), "name: a\0b: it has a byte 0", "the line")


def try_paths_that_are_refused():
    refused([HELLO, "OUT", f"a={ROOM}/nothing"], f"file: {ROOM}/nothing: No such file")
    refused([HELLO, "OUT", f"a={ROOM}"], f"file: {ROOM}: Is a directory")
    refused([ROOM / "nothing.elf", "OUT", "a=/dev/null"], f"image: {ROOM}/nothing.elf: No such file")
    refused([HELLO, "OUT", "--args", "a\nb"], "args: 'a\\nb': it has a line feed")
    refused([HELLO, "OUT", "--args", *["a" * 1000] * 62], "args: 62062 bytes, and not at most 61440")
    status, _, err = kit("files", "in", HELLO, ROOM / "no" / "folder.elf", "a=/dev/null")
    same((status, err), (2, f"sdk/files: write: {ROOM}/no/folder.elf: No such file or directory\n".encode()), "in")


def try_too_many_slots():
    path = stored("path", b"bytes")
    refused([HELLO, "OUT", *(f"f{at}={path}" for at in range(65))], "slots: f64")
    refused([HELLO, "OUT", f"a={path}", f"b={stored('full', some_bytes(64 * ROOM_OF_A_FILE))}"], "slots: b")
    refused([HELLO, "OUT", f"a={stored('full', some_bytes(64 * ROOM_OF_A_FILE + 1))}"], "slots: a")


def with_headers(count, kind, address):
    """An executable with more program headers."""
    elf = HELLO.read_bytes()
    headers = elf32.headers(elf, "hello")
    added = [elf32.Segment(kind, 0, address + 4096 * at, 0, 0, 1, 4, 4) for at in range(count - len(headers))]
    out = bytearray(elf) + b"".join(elf32.PROGRAM_HEADER.pack(*header) for header in headers + added)
    struct.pack_into("<I", out, 28, len(elf))
    struct.pack_into("<H", out, 44, count)
    return bytes(out)


def try_images_that_are_refused():
    elf = HELLO.read_bytes()
    no_elf = {"dti": b"DTI1" + elf[4:], "class": elf[:4] + b"\2" + elf[5:], "order": elf[:5] + b"\2" + elf[6:], "short": elf[:51], "empty": b""}
    for label, data in no_elf.items():
        refused([stored(label, data), "OUT", "a=/dev/null"], f"{label}: no ELF32")
    refused([stored("cut", elf[:60]), "OUT", "a=/dev/null"], "no program headers where it says")
    refused([stored_image("a", b"1"), "OUT", "b=/dev/null"], "there is a load at c0000000 already")
    reaching = elf32.with_load(elf, "hello", files.BASE - 1, b"ab", 2, 4)
    refused([stored("reaching", reaching), "OUT", "a=/dev/null"], "there is a load at bfffffff already")
    loads = len(elf32.loads(elf, "hello"))
    headers = len(elf32.headers(elf, "hello"))
    refused([stored("loads", with_headers(headers - loads + 32, elf32.LOAD, 0x20000000)), "OUT", "a=/dev/null"], "too many loads: 32")
    refused([stored("headers", with_headers(64, 4, 0)), "OUT", "a=/dev/null"], "too many program headers: 64")


def try_words_of_in():
    for words in [[], ["in"], ["in", HELLO], ["in", HELLO, ROOM / "x"], ["in", HELLO, "--args", "a"], ["put"]]:
        status, _, err = kit("files", *words)
        same((status, err[:10], (ROOM / "x").exists()), (2, b"usage: sdk", False), words)


def try_what_det_refuses():
    out = ROOM / "never"
    devices = stored("script", b"in well\nout badly\n")
    same(kit("files", "out", HELLO, devices, out), (3, b"", b"det: script: line 2\n"), "a script")
    same(kit("files", "out", ROOM / "nothing", devices, out), (4, b"", b"det: read fault\n"), "no image")
    same(kit("files", "out", stored("no_image", b"abc"), "/dev/null", out), (3, b"", b"det: image: truncated at 0\n"), "an image")
    same(kit("files", "out", "--limit", "many", HELLO, "/dev/null", out), (2, b"", b"explain: usage: at|trace|why\n"), "a limit")
    same(out.exists(), False, "the folder is there")


def try_no_explain():
    known = os.environ["EXPLAIN"]
    os.environ["EXPLAIN"] = str(ROOM / "no_explain")
    got = kit("files", "out", HELLO, "/dev/null", ROOM / "never")
    os.environ["EXPLAIN"] = known
    same(got, (2, b"", f"sdk/files: {ROOM}/no_explain: No such file or directory\n".encode()), "out")


def try_a_limit():
    back = ROOM / "limited"
    status, _, err = kit("files", "out", "--limit", "1", example("build_farm"), "/dev/null", back)
    same((status, err, folder(back)), (0, b"", {}), "out")


main(globals())
