// Choosing, zooming, searching, by mouse and keys; and the beginning.

// ---- Choosing ----

function choose(row, number) {
  [state.chosen, state.event] = [row, number];
  if (row !== null) {
    const scroll = byId("scroll"), y = row * rowHeight(), h = scroll.clientHeight;
    if (y < scroll.scrollTop || y + rowHeight() > scroll.scrollTop + h) scroll.scrollTop = y - h / 2;
    const event = spaces[row].events.find(event => event.number === number);
    if (event) show(scale().at(event.time));
  }
  const place = row === null ? location.pathname : "#" + spaces[row].path + (number === null ? "" : ":" + number);
  try { history.replaceState(null, "", place); } catch (e) { /* a page without an address of its own */ }
  details();
  draw();
}

function show(u) {
  if (u < state.left || u > state.left + state.span) pan(u - state.left - state.span / 2);
}
function pan(by) {
  state.left = Math.max(-state.span * 0.05, Math.min(scale().end - state.span * 0.95, state.left + by));
  draw();
}
function zoom(by, u) {
  const span = Math.max(Math.min(4, scale().end), Math.min(scale().end, state.span * by));
  state.left = u - (u - state.left) * span / state.span;
  state.span = span;
  if (span >= scale().end) state.left = 0; else pan(0);
  draw();
}
const middle = () => {
  const event = state.chosen !== null && spaces[state.chosen].events.find(one => one.number === state.event);
  return event ? scale().at(event.time) : state.left + state.span / 2;
};
function fit() {
  [state.left, state.span] = [0, scale().end];
  draw();
}
function fitLane() {
  const parts = state.chosen === null ? [] : spaces[state.chosen].parts;
  if (!parts.length) return fit();
  const from = scale().at(parts[0].start), to = scale().at(parts[parts.length - 1].end);
  const span = Math.min(scale().end, Math.max(4, (to - from) * 1.15));
  [state.span, state.left] = [span, 0];
  pan((from + to - span) / 2);
}
function setScale(name) {
  state.scale = name;
  byId("scale").textContent = name === "even" ? "Even" : "Steps";
  fit();
}
function setHeight(by) {
  const middleRow = (byId("scroll").scrollTop + byId("scroll").clientHeight / 2) / rowHeight();
  state.height = Math.max(0, Math.min(HEIGHTS.length - 1, state.height + by));
  drawNow();
  byId("scroll").scrollTop = middleRow * rowHeight() - byId("scroll").clientHeight / 2;
  draw();
}
function setTheme(name) {
  document.documentElement.dataset.theme = name;
  readColors();
  details();
  draw();
}
function nextFault() {
  const faults = spaces.filter(isFault);
  if (faults.length) choose((faults.find(space => state.chosen === null || space.row > state.chosen) || faults[0]).row, null);
}
function moveSpace(by) {
  choose(state.chosen === null ? 0 : Math.max(0, Math.min(spaces.length - 1, state.chosen + by)), null);
}
function moveEvent(by) {
  if (state.chosen === null) return choose(0, null);
  const events = spaces[state.chosen].events, at = events.findIndex(event => event.number === state.event);
  const to = at < 0 ? (by > 0 ? 0 : events.length - 1) : at + by;
  if (to >= 0 && to < events.length) choose(state.chosen, events[to].number);
}

// ---- Searching ----

function search() {
  const word = byId("search").value.trim().toLowerCase();
  [state.found, state.at] = [[], -1];
  const place = word.match(/^(\/[0-9/]*?)(?::([0-9]+))?$/);
  if (place && rowOf.has(place[1])) state.found.push([rowOf.get(place[1]), place[2] ? Number(place[2]) : null]);
  else if (word) for (const space of spaces) matches(space, word);
  byId("found").textContent = !word ? "" : state.found.length ? `${state.found.length} found` : "not found";
}
function matches(space, word) {
  const said = [space.isTold ? `${space.cause} ${space.value}` : "gone", ...(data.why[space.row] || [])].join("\n").toLowerCase();
  if (space.path.startsWith(word) || said.includes(word)) state.found.push([space.row, null]);
  for (const event of space.events) {
    const line = data.lines[event.pc], words = (event.text || event.kind) + (line ? `\n${data.files[line[0]]}:${line[1]}\n${line[2]}` : "");
    if (words.toLowerCase().includes(word)) state.found.push([space.row, event.number]);
  }
}
function nextFound(by) {
  if (!state.found.length) return;
  state.at = (state.at + by + state.found.length + (state.at < 0 && by < 0 ? 1 : 0)) % state.found.length;
  byId("found").textContent = `${state.at + 1} of ${state.found.length}`;
  choose(...state.found[state.at]);
}

// ---- Mouse and keys ----

function under(mouse) {
  const box = byId("canvas").getBoundingClientRect(), x = mouse.clientX - box.left;
  const row = Math.floor((mouse.clientY - box.top + byId("scroll").scrollTop) / rowHeight());
  if (row < 0 || row >= spaces.length) return null;
  let best = null, least = 9;
  for (const event of spaces[row].events) {
    const far = Math.abs(toX(event.time) - x);
    if (far < least) [best, least] = [event, far];
  }
  return {row, event: best, x};
}

function tip(mouse) {
  const box = byId("tip"), at = under(mouse);
  box.style.display = at ? "block" : "none";
  if (!at) return;
  const space = spaces[at.row], time = Math.round(scale().back(toU(at.x)));
  box.textContent = at.event ? `${nameOf(space, at.event)} ${at.event.text || at.event.kind}  step ${at.event.time}` : `${space.path}  step ${time}`;
  box.style.left = Math.min(mouse.clientX + 14, innerWidth - box.offsetWidth - 6) + "px";
  box.style.top = Math.min(mouse.clientY + 16, innerHeight - box.offsetHeight - 6) + "px";
}

function mice() {
  const canvas = byId("canvas");
  let grip = null;
  canvas.onmousedown = mouse => { grip = {x: mouse.clientX, left: state.left, isMoved: false}; };
  window.onmousemove = mouse => {
    if (!grip) return;
    if (Math.abs(mouse.clientX - grip.x) > 3) grip.isMoved = true;
    if (grip.isMoved) { state.left = grip.left; pan((grip.x - mouse.clientX) / (width - 2 * EDGE) * state.span); }
  };
  window.onmouseup = mouse => {
    const at = grip && !grip.isMoved && under(mouse);
    grip = null;
    if (at) choose(at.row, at.event ? at.event.number : null);
  };
  canvas.onmousemove = tip;
  canvas.onmouseleave = () => { byId("tip").style.display = "none"; };
  byId("scroll").addEventListener("wheel", wheel => {
    if (wheel.ctrlKey || wheel.metaKey) {
      wheel.preventDefault();
      zoom(wheel.deltaY > 0 ? 1.25 : 0.8, toU(wheel.clientX - canvas.getBoundingClientRect().left));
    } else if (wheel.shiftKey || Math.abs(wheel.deltaX) > Math.abs(wheel.deltaY)) {
      wheel.preventDefault();
      pan((wheel.deltaX || wheel.deltaY) / width * state.span);
    }
  }, {passive: false});
  byId("scroll").onscroll = draw;
  byId("map").onclick = mouse => {
    const h = byId("scroll").clientHeight, each = Math.min(h / spaces.length, rowHeight());
    byId("scroll").scrollTop = mouse.offsetY / each * rowHeight() - h / 2;
  };
  window.onresize = draw;
}

const PRESSED = {
  ArrowDown: () => moveSpace(1), ArrowUp: () => moveSpace(-1), PageDown: () => moveSpace(20), PageUp: () => moveSpace(-20),
  Home: () => choose(0, null), End: () => choose(spaces.length - 1, null),
  ArrowRight: () => moveEvent(1), ArrowLeft: () => moveEvent(-1), Escape: () => choose(null, null), "?": () => choose(null, null),
  "/": () => byId("search").focus(), n: nextFault,
  "+": () => zoom(0.6, middle()), "=": () => zoom(0.6, middle()), "-": () => zoom(1.6, middle()), 0: fit, z: fitLane,
  "[": () => setHeight(-1), "]": () => setHeight(1), s: () => setScale(state.scale === "even" ? "steps" : "even"), t: () => byId("theme").click(),
};

function keys() {
  document.onkeydown = key => {
    if (key.ctrlKey || key.metaKey || key.altKey) return;
    if (key.target === byId("search")) {
      if (key.key === "Enter") nextFound(key.shiftKey ? -1 : 1);
      if (key.key === "Escape") byId("scroll").focus();
    } else if (PRESSED[key.key]) {
      key.preventDefault();
      PRESSED[key.key]();
    }
  };
  byId("search").oninput = search;
  byId("fault").onclick = nextFault;
  byId("less").onclick = PRESSED["-"];
  byId("more").onclick = PRESSED["+"];
  byId("fit").onclick = fit;
  byId("scale").onclick = PRESSED.s;
  byId("help").onclick = PRESSED["?"];
  byId("theme").onclick = () => setTheme(document.documentElement.dataset.theme === "dark" ? "light" : "dark");
}

// ---- The page ----

function head() {
  const root = spaces[0], count = n => make("b", "", n.toLocaleString("en"));
  byId("title").textContent = data.image;
  byId("ended").textContent = root.isTold ? root.cause + " " + root.value : "";
  byId("ended").className = "badge " + tone(root.cause);
  byId("facts").append(count(spaces.length), spaces.length === 1 ? " space, " : " spaces, ", count(data.work), " events in ", count(data.end), " steps");
  if (data.work > data.end * 1.005) byId("facts").append(", ", make("b", "", (data.work / data.end).toFixed(2)), " at a time");
  byId("fault").hidden = !spaces.some(isFault);
}

function begin() {
  for (const space of spaces) for (const event of space.events) if (event.kind === "stops") {
    const part = space.parts.find(one => one.last === event.number);
    [event.cause, event.value] = part ? [part.cause, part.value] : ["", ""];
    event.goesOn = part !== space.parts[space.parts.length - 1];
  }
  document.documentElement.dataset.theme = matchMedia("(prefers-color-scheme: dark)").matches ? "dark" : "light";
  readColors();
  head();
  mice();
  keys();
  setScale(state.scale);
  drawNow();
  goTo();
  drawNow();
  window.onhashchange = goTo;
  document.body.dataset.drawn = `${spaces.length} spaces, ${arrows.length} arrows, ${count} events`;
  document.body.dataset.red = JSON.stringify(spaces.filter(space => toneOf(space) === "bad").map(space => space.row));
  document.body.dataset.arrows = JSON.stringify(arrows.slice(0, 500).map(({from, start, to, end}) => [from, start, to, end]));
}

function goTo() {
  const place = decodeURIComponent(location.hash.slice(1)).match(/^(\/[0-9/]*?)(?::([0-9]+))?$/);
  if (place && rowOf.has(place[1])) choose(rowOf.get(place[1]), place[2] ? Number(place[2]) : null);
  else if (data.show) choose(data.show[0], data.show[1]);
  else choose(null, null);
}
begin();
