"""Pages of runs in a browser, if chromium is there: for sdk/tests/page.py."""

import html
import json
import re
import shutil

from trying import run, same, stored

CHROMIUM = next(filter(None, map(shutil.which, ("chromium", "chromium-browser", "google-chrome"))), None)
# What a page says that was not opened.
NOTHING = ("", "[]", "", "", [""] * 9, 0, "", "[]")

# Opens each page in a frame, presses its keys, and searches it. The second half of what is pressed undoes the first.
FRAMES = """<!doctype html><meta charset="utf-8"><body><iframe id="frame" width="1300" height="700"></iframe><script>
const frame = document.getElementById("frame"), pages = %s, said = {};
const KEYS = ["Escape", "ArrowDown", "ArrowDown", "ArrowRight", "ArrowLeft", "ArrowUp", "n", "PageDown", "End",
  "z", "+", "[", "s", "t", "t", "s", "]", "-", "0", "Home", "?", "Escape"];
frame.onload = () => {
  if (!pages.length) return;
  const page = frame.contentDocument, find = name => page.getElementById(name);
  const press = (key, box) => box.dispatchEvent(new frame.contentWindow.KeyboardEvent("keydown", {key, bubbles: true}));
  const places = [], first = find("details").textContent.slice(0, 9000);
  for (const key of KEYS) { press(key, page); places.push(frame.contentWindow.location.hash); }
  const details = find("details").textContent.slice(0, 9000);
  find("search").value = "stops";
  find("search").dispatchEvent(new frame.contentWindow.Event("input"));
  const found = find("found").textContent;
  press("Enter", find("search"));
  said[pages[0]] = [page.body.dataset.drawn, page.body.dataset.arrows, details, found, places,
    find("details").querySelectorAll(".chosen").length, first, page.body.dataset.red];
  pages.shift();
  next();
};
function next() { if (pages.length) frame.src = pages[0]; else document.body.textContent = JSON.stringify(said); }
next();
</script>"""


def opened(pages, room):
    """What each page says of itself in the browser, and what the browser's console says."""
    frames = stored("frames.html", (FRAMES % json.dumps([page.name for page in pages])).encode())
    words = [CHROMIUM, "--headless", "--no-sandbox", "--disable-gpu", "--allow-file-access-from-files", f"--user-data-dir={room}/browser"]
    words += ["--enable-logging=stderr", "--virtual-time-budget=100000", "--dump-dom", frames.as_uri()]
    status, out, err = run(*words)
    found = re.search("<body>({.*})</body>", out.decode())
    console = [line for line in err.decode(errors="replace").splitlines() if "CONSOLE" in line]
    return json.loads(html.unescape(found[1])) if found else None, console


def compare(it, starts, counts, drawn, details, found, places, chosen, first, red):
    compare_drawn(it, starts, counts, drawn, details)
    compare_moment(it, first)
    same(json.loads(red), reds(it), f"{it.name}: lanes that are red")
    compare_pressed(it, found, places, chosen)


def compare_drawn(it, starts, counts, drawn, details):
    """What a page says in the browser: its arrows from lane to lane, and the lines of explain why."""
    rows, arrows = it.data["spaces"], []
    for parent, row in enumerate(rows):
        for event in row[9]:
            for child, number in zip(event[6::2], event[7::2]):
                start = [parent, event[1], child, rows[child][8][number][1]]
                stop = [child, rows[child][8][number][3], parent, event[1]]
                arrows.append(start if it.data["kinds"][event[2]] in starts else stop)
    arrows += [[source, time, row, time] for row, space in enumerate(rows) for time, source in space[10]]
    same(counts, f"{len(rows)} spaces, {len(arrows)} arrows, {sum(len(row[9]) for row in rows)} events", f"{it.name} in the browser")
    same(json.loads(drawn), arrows[:500], f"{it.name}: arrows in the browser")
    lines = [line for lines in it.data["why"].values() for line in lines] or ["Nothing to explain"]
    same([line for line in lines if line not in details], [], f"{it.name}: lines that the browser does not show")


def reds(it):
    """The spaces that a trap has stopped, or that have a file in conflict, as explain why tells it."""
    paths = [line.split(" ")[1] for lines in it.data["why"].values() for line in lines if line.startswith(("trap ", "conflict "))]
    return [row for row, path in enumerate(it.paths()) if path in paths]


def compare_moment(it, first):
    """A page that begins with an event has all that explain tells of it."""
    if it.data["at"]:
        said = [it.data["at"]["text"], *(f"{name} {value}" if name != "bytes" else value for name, value in it.data["at"]["after"])]
        same([line for line in said if line not in first], [], f"{it.name}: lines of the event that the browser does not show")


def compare_pressed(it, found, places, chosen):
    """What a search finds, and where the keys have led."""
    names = it.paths()
    second, last = "#" + names[min(1, len(names) - 1)], "#" + names[-1]
    same(places[:3], ["", "#/", second], f"{it.name}: keys down")
    same(places[8], last, f"{it.name}: the key End")
    same(places[-1], "", f"{it.name}: the key Escape")
    stops = sum(1 for row in it.data["spaces"] for event in row[9] if event[5] and "stops" in event[5] or it.data["kinds"][event[2]] == "stops")
    if stops:
        same((int(found.split(" ")[0]) >= stops, chosen == 1 or bool(it.data["why"])), (True, True), f"{it.name}: a search for stops finds {found}")
