"use strict";
// Draws the lanes of a run. What happened is in the element #data; sdk/page says what each number there is. Texts become text nodes or
// letters on a canvas, never HTML.
const byId = name => document.getElementById(name);
const data = JSON.parse(byId("data").textContent);
const WAYS_OUT = data.waysOut, STARTS = data.starts, MEETINGS = data.meetings;
const HEIGHTS = [4, 11, 20, 28, 54];
const hex = n => n.toString(16).padStart(8, "0");

// ---- What happened ----

const spaces = data.spaces.map(([parent, number, cause, value, pc, used, pages, flags, parts, events, copies], row) => ({
  row, parent, number, value, pc, used, pages, copies,
  cause: cause < 0 ? "" : data.causes[cause], isTold: (flags & 1) > 0, isTraced: (flags & 2) > 0, isCut: (flags & 4) > 0,
  parts: parts.map(([first, start, last, end, why, worth, by]) =>
    ({first, start, last, end, cause: why < 0 ? "" : data.causes[why], value: worth, by})),
  events: events.map(([n, time, kind, at, changed, text, ...met]) =>
    ({number: n, time, kind: data.kinds[kind], pc: at, pages: changed, text, met})),
}));
for (const space of spaces) space.path = space.parent < 0 ? "/" : (space.parent ? spaces[space.parent].path : "") + "/" + space.number;
const rowOf = new Map(spaces.map(space => [space.path, space.row]));
const isBad = cause => cause !== "" && !WAYS_OUT.includes(cause);
const tone = cause => cause === "ret" ? "ok" : cause === "fuel" || cause === "limit" ? "warn" : isBad(cause) ? "bad" : "none";
const isFault = space => isBad(space.cause) || space.row in data.why;
// How many files of a space are in conflict, as explain why tells it.
const filesOf = space => (data.why[space.row] || []).filter(line => /^conflict \S+ file /.test(line)).length;
const toneOf = space => filesOf(space) ? "bad" : tone(space.isTold ? space.cause : "");
for (const space of spaces) for (const part of space.parts) part.by = part.by < 0 ? null : spaces[space.parent].events[part.by];
const count = spaces.reduce((sum, space) => sum + space.events.length, 0);
for (const lines of Object.values(data.why)) for (const line of lines) addNamed(line);
const nameOf = (space, event) => space.path + ":" + event.number;

// The step of any own event: one after the event before.
function stepOf(space, number) {
  const part = space.parts.find(one => one.first <= number && number <= one.last);
  if (!part) return null;
  let [time, before] = [part.start, part.first - 1];
  for (const event of space.events) if (event.number >= part.first && event.number < number) [time, before] = [event.time, event.number];
  return time + number - before;
}

// An event that explain why names has a mark, as the store of a byte in conflict.
function addNamed(line) {
  const found = line.match(/(\/[0-9/]*):([0-9]+) pc ([0-9a-f]{8}) (.*)$/), space = found && spaces[rowOf.get(found[1])], number = found && Number(found[2]);
  if (space) addEvent(space, number, "named", parseInt(found[3], 16), found[4]);
}

// An event that is no call has a mark too, if it is named; a call that is named is red.
function addEvent(space, number, kind, pc, text) {
  const there = space.events.find(event => event.number === number);
  if (there) {
    there.isNamed = there.isNamed || kind === "named";
    return;
  }
  const time = stepOf(space, number), after = space.events.findIndex(event => event.number > number);
  if (time !== null) space.events.splice(after < 0 ? space.events.length : after, 0, {number, time, kind, pc, pages: 0, text, met: []});
}
if (data.at) addEvent(spaces[data.show[0]], data.show[1], "shown", data.at.pc, data.at.text.replace(/^pc [0-9a-f]{8} /, ""));

// An arrow goes from a lane at a step to another lane at a step.
const arrows = [];
for (const space of spaces) for (const event of space.events) for (let at = 0; at < event.met.length; at += 2) {
  const child = spaces[event.met[at]], part = child.parts[event.met[at + 1]];
  if (STARTS.includes(event.kind)) arrows.push({kind: "fork", from: space.row, start: event.time, to: child.row, end: part.start});
  else arrows.push({kind: event.kind === "stops" || event.isNamed && filesOf(space) ? "conflict" : "join", from: child.row, start: part.end, to: space.row, end: event.time});
}
for (const space of spaces) for (const [time, of] of space.copies) arrows.push({kind: "fork", from: of, start: time, to: space.row, end: time});

// ---- Where a step is drawn ----

const momentsOf = space => space.parts.flatMap(part => [part.start, part.end]).concat(space.events.map(event => event.time));
const moments = [...new Set([0, data.end].concat(spaces.flatMap(momentsOf)))].sort((a, b) => a - b);
const scales = {
  steps: {at: time => time, back: u => u, end: Math.max(1, data.end)},
  even: {at: rank, back: u => moments[Math.max(0, Math.min(moments.length - 1, Math.round(u)))], end: Math.max(1, moments.length - 1)},
};
function rank(time) {
  let low = 0, high = moments.length - 1;
  while (low < high) {
    const middle = (low + high + 1) >> 1;
    if (moments[middle] <= time) low = middle; else high = middle - 1;
  }
  return low;
}
const state = {
  scale: isCrowded() ? "even" : "steps", left: 0, span: 1, height: spaces.length > 40 ? 2 : spaces.length > 11 ? 3 : 4,
  chosen: null, event: null, found: [], at: -1,
};
const EDGE = 22;
let width = 600, colors = {};

// Whether most moments would be drawn on top of one another.
function isCrowded() {
  let close = 0;
  for (let at = 1; at < moments.length; at++) close += (moments[at] - moments[at - 1]) * 700 < 5 * data.end;
  return moments.length <= 2000 && close * 3 > moments.length;
}
const scale = () => scales[state.scale];
const toX = time => EDGE + (scale().at(time) - state.left) / state.span * (width - 2 * EDGE);
const toU = x => state.left + (x - EDGE) / (width - 2 * EDGE) * state.span;
const rowHeight = () => HEIGHTS[state.height];

// ---- Drawing ----

function sized(canvas, w, h) {
  const ratio = window.devicePixelRatio || 1;
  canvas.width = Math.round(w * ratio);
  canvas.height = Math.round(h * ratio);
  const pen = canvas.getContext("2d");
  pen.setTransform(ratio, 0, 0, ratio, 0, 0);
  pen.font = "11px ui-monospace, Menlo, Consolas, 'DejaVu Sans Mono', monospace";
  return pen;
}

function readColors() {
  const style = getComputedStyle(document.documentElement);
  for (const name of ["paper", "line", "ink", "quiet", "band", "chosen", "run", "wait", "bad", "warn", "ok", "fork", "join"]) {
    colors[name] = style.getPropertyValue("--" + name).trim();
  }
  colors.none = colors.quiet;
}

let isDue = false;
function draw() {
  if (isDue) return;
  isDue = true;
  requestAnimationFrame(() => { isDue = false; drawNow(); });
}

function drawNow() {
  const scroll = byId("scroll"), h = scroll.clientHeight, high = rowHeight();
  byId("view").style.height = h + "px";
  byId("spacer").style.height = Math.max(0, spaces.length * high + 24 - h) + "px";
  width = Math.max(120, scroll.clientWidth - byId("labels").offsetWidth);
  byId("canvas").style.width = width + "px";
  byId("canvas").style.height = h + "px";
  const pen = sized(byId("canvas"), width, h), top = scroll.scrollTop;
  const first = Math.max(0, Math.floor(top / high)), last = Math.min(spaces.length - 1, Math.floor((top + h) / high));
  const view = {pen, h, high, first, last, y: row => row * high - top + high / 2};
  for (let row = first; row <= last; row++) band(view, row);
  drawArrows(view);
  for (let row = first; row <= last; row++) lane(view, spaces[row]);
  labels(view, top);
  ruler();
  map(top, h);
}

function band(view, row) {
  const chosen = state.chosen === row;
  if (!chosen && row % 2) return;
  view.pen.fillStyle = chosen ? colors.chosen : colors.band;
  view.pen.fillRect(0, view.y(row) - view.high / 2, width, view.high);
}

// Where a part runs, and where it waits in a call: from an event to the step before the next.
function lane(view, space) {
  const {pen, high} = view, y = view.y(space.row), thick = Math.max(2, Math.min(high > 40 ? 14 : 10, high - 10));
  let at = 0;
  for (const [nth, part] of space.parts.entries()) {
    const color = colors[isBad(part.cause) || filesOf(space) && nth === space.parts.length - 1 ? "bad" : nth === space.parts.length - 1 && tone(part.cause) === "warn" ? "warn" : "run"];
    let time = part.start, number = part.first - 1;
    const run = (until, reached) => {
      bar(pen, toX(time), toX(Math.min(until, time + reached - number)), y, thick, color);
      bar(pen, toX(Math.min(until, time + reached - number)), toX(until), y, 2, colors.wait);
      [time, number] = [until, reached];
    };
    for (; at < space.events.length && space.events[at].number <= part.last; at++) run(space.events[at].time, space.events[at].number);
    if (part.end > time) run(part.end, part.last);
    if (!space.isTraced && high >= 11) ring(pen, toX(part.end), y, high >= 20 ? 4.5 : 3, colors[tone(part.cause)], part.cause !== "");
  }
  for (const [time] of space.copies) ring(pen, toX(time), y, 4, colors.fork);
  if (high >= 11) marks(view, space, y);
}

function bar(pen, from, to, y, thick, color) {
  from = Math.max(-4, from);
  to = Math.min(width + 4, to);
  if (to < from) return;
  pen.fillStyle = color;
  pen.fillRect(from, y - thick / 2, Math.max(1, to - from), thick);
}

function ring(pen, x, y, size, color, isFull) {
  pen.beginPath();
  pen.arc(x, y, size, 0, 7);
  pen.fillStyle = isFull ? color : colors.paper;
  pen.fill();
  pen.strokeStyle = color;
  pen.lineWidth = 1.6;
  pen.stroke();
}

function markColor(event) {
  if (event.kind === "named" || event.isNamed) return colors.bad;
  if (event.kind === "stops") return colors[event.goesOn && tone(event.cause) === "warn" ? "quiet" : tone(event.cause)];
  return STARTS.includes(event.kind) ? colors.fork : MEETINGS.includes(event.kind) ? colors.join : colors.quiet;
}

// Rings, and ticks where rings would cover one another.
function marks(view, space, y) {
  const size = view.high >= 20 ? 4.5 : 3;
  const near = space.events.map(event => [event, toX(event.time)]).filter(([, x]) => x > -8 && x < width + 8);
  const isDense = near.length * size * 2 > width * 0.7;
  let before = -9;
  for (const [event, x] of near) {
    const isChosen = state.chosen === space.row && state.event === event.number;
    const isLast = event.kind === "stops" && !event.goesOn, isLoud = event.kind === "stops" && isBad(event.cause);
    if (x - before < 2 && !isChosen && !isLoud && !isLast) continue;
    before = x;
    if (isDense && !isChosen && !isLoud && !isLast) {
      view.pen.fillStyle = markColor(event);
      view.pen.fillRect(x - 0.75, y - size - 2.5, 1.5, 2 * size + 5);
      continue;
    }
    ring(view.pen, x, y, isLoud ? size + 1 : size, markColor(event), event.kind === "stops" || isChosen);
    if (isChosen) {
      view.pen.strokeStyle = colors.ink;
      view.pen.beginPath();
      view.pen.arc(x, y, size + 4, 0, 7);
      view.pen.stroke();
    }
  }
  if (view.high > 40 && !isDense) words(view, space, y);
}

function wordOf(event) {
  if (event.kind === "named" || event.kind === "shown") return (event.text.match(/stores [0-9a-f]+/) || [event.kind === "shown" ? event.text.split(" ")[0] : "changes it"])[0].replace(/ 0+(?=.)/, " ");
  return event.kind === "stops" ? event.cause : event.kind + (event.met.length === 2 ? " " + spaces[event.met[0]].number : "");
}

// What an event is, under its mark, where there is room.
function words({pen}, space, y) {
  let free = -99;
  pen.textAlign = "center";
  for (const event of space.events) {
    const said = wordOf(event);
    const half = pen.measureText(said).width / 2 + 3, at = toX(event.time), x = Math.max(half, Math.min(width - half, at));
    if (x - half < free || at < 0 || at > width) continue;
    free = x + half;
    pen.strokeStyle = state.chosen === space.row ? colors.chosen : space.row % 2 ? colors.paper : colors.band;
    pen.lineWidth = 4;
    pen.lineJoin = "round";
    pen.strokeText(said, x, y + 20);
    pen.fillStyle = event.kind === "stops" && isBad(event.cause) ? colors.bad : colors.quiet;
    pen.fillText(said, x, y + 20);
  }
}

// An arrow one of whose lanes is in view. Many in one column of dots are drawn once.
function drawArrows(view) {
  const seen = new Set(), inside = [], outside = [];
  for (const arrow of arrows) {
    const low = Math.min(arrow.from, arrow.to), high = Math.max(arrow.from, arrow.to);
    const isSeen = row => row >= view.first && row <= view.last;
    if (!isSeen(low) && !isSeen(high)) continue;
    const x1 = toX(arrow.start), x2 = toX(arrow.end);
    if (x2 < 0 || x1 > width) continue;
    const key = isSeen(low) && isSeen(high) ? "" : arrow.kind + Math.round(x2 / 2) + (isSeen(low) ? "d" : "u" + high);
    if (key && seen.has(key)) continue;
    seen.add(key);
    (key ? outside : inside).push([arrow, x1, x2]);
  }
  for (const [arrow, x1, x2] of outside) arrowAt(view, arrow, x1, x2, Math.min(0.4, 12 / outside.length));
  const faint = Math.max(0.06, Math.min(state.chosen === null ? 0.75 : 0.45, 90 / inside.length));
  for (const [arrow, x1, x2] of inside) arrowAt(view, arrow, x1, x2, faint);
}

function arrowAt(view, arrow, x1, x2, faint) {
  const {pen, high, h} = view, y1 = view.y(arrow.from), y2 = view.y(arrow.to);
  const isChosen = (state.chosen === arrow.from || state.chosen === arrow.to) && (state.chosen > 0 || arrows.length < 40);
  const color = colors[arrow.kind === "conflict" ? "bad" : arrow.kind === "fork" ? "fork" : "join"];
  pen.strokeStyle = pen.fillStyle = color;
  pen.globalAlpha = isChosen || arrow.kind === "conflict" ? 1 : faint;
  pen.lineWidth = isChosen ? 1.8 : 1.2;
  // a space that has stopped waits for its parent
  if (x2 > x1 && y1 > -high && y1 < h + high) {
    pen.setLineDash([2, 3]);
    pen.beginPath();
    pen.moveTo(x1, y1);
    pen.lineTo(x2, y1);
    pen.stroke();
  }
  const way = Math.sign(y2 - y1), tip = y2 - way * Math.min(6, high / 3);
  pen.setLineDash(arrow.kind === "conflict" ? [5, 3] : []);
  pen.beginPath();
  pen.moveTo(x2, Math.max(-20, Math.min(h + 20, y1)));
  pen.lineTo(x2, Math.max(-20, Math.min(h + 20, tip)));
  pen.stroke();
  pen.setLineDash([]);
  if (high >= 11 && tip > -9 && tip < h + 9) {
    pen.beginPath();
    pen.moveTo(x2, tip);
    pen.lineTo(x2 - 3.5, tip - way * 6);
    pen.lineTo(x2 + 3.5, tip - way * 6);
    pen.fill();
  }
  pen.globalAlpha = 1;
}

function short(n) {
  if (n < 10000) return String(n);
  const [unit, name] = n < 1e6 ? [1e3, "k"] : n < 1e9 ? [1e6, "M"] : [1e9, "G"];
  return (n / unit).toFixed(n < unit * 100 ? 1 : 0) + name;
}

function labels(view, top) {
  const box = byId("labels"), kept = [];
  for (let row = view.first; row <= view.last && view.high >= 11; row++) kept.push(label(spaces[row], view.high, row * view.high - top));
  box.replaceChildren(...kept);
  byId("scroll").setAttribute("aria-activedescendant", state.chosen === null ? "" : "row" + state.chosen);
}

function label(space, high, y) {
  const line = make("div", "columns"), name = make("span", "mono");
  const parent = space.parent < 0 ? "" : spaces[space.parent].path.replace(/\/$/, "");
  name.append(make("i", "", parent), space.path.slice(parent.length) + (space.row ? "" : " root"));
  line.id = "row" + space.row;
  line.setAttribute("role", "option");
  line.setAttribute("aria-selected", String(state.chosen === space.row));
  line.style.cssText = `top:${y}px;height:${high}px;line-height:${high}px;font-size:${high < 20 ? 9 : 13}px`;
  const worth = isBad(space.cause) || parseInt(space.value, 16) ? " 0x" + space.value.replace(/^0+(?=.)/, "") : "";
  const said = space.isTold ? space.cause + worth + (filesOf(space) ? ", file conflict" : "") : "gone";
  const cause = make("span", "dot " + toneOf(space), said);
  line.append(name, cause, make("span", "", space.used < 0 ? "" : short(space.used)), make("span", "", space.pages < 0 ? "" : String(space.pages)));
  line.onclick = () => choose(space.row, null);
  return line;
}

function ticks() {
  if (state.scale === "even") {
    const each = Math.max(1, Math.ceil(70 * state.span / (width - 2 * EDGE)));
    return moments.filter((_, at) => at % each === 0);
  }
  const rough = Math.max(1, state.span * 80 / width), power = 10 ** Math.floor(Math.log10(rough));
  const each = Math.max(1, [1, 2, 5, 10].map(k => k * power).find(k => k >= rough));
  const found = [];
  for (let at = Math.max(0, Math.ceil(state.left / each) * each); at <= state.left + state.span && at <= data.end; at += each) found.push(at);
  return found;
}

function ruler() {
  const box = byId("ruler"), w = box.clientWidth, pen = sized(box, w, 26);
  pen.fillStyle = colors.quiet;
  pen.strokeStyle = colors.line;
  pen.textAlign = "center";
  for (const time of ticks()) {
    const x = toX(time);
    if (x < 8 || x > width - 8) continue;
    pen.fillText(time.toLocaleString("en"), x, 16);
    pen.fillRect(Math.round(x), 22, 1, 4);
  }
}

// All lanes in one strip: a dot of it has the loudest of its lanes.
function map(top, h) {
  const box = byId("map"), pen = sized(box, 16, h), high = rowHeight(), each = Math.min(h / spaces.length, high), whole = spaces.length * high + 24;
  const names = ["wait", "run", "warn", "bad"], loud = new Uint8Array(Math.ceil(Math.min(h, spaces.length * each)) + 1);
  for (const space of spaces) {
    const at = Math.floor(space.row * each), how = isFault(space) ? 3 : tone(space.cause) === "warn" ? 2 : space.isTold ? 1 : 0;
    for (let y = at; y <= Math.min(at + 11, at + each - 2); y++) loud[y] = Math.max(loud[y], how + 1);
    loud[at] = Math.max(loud[at], how + 1);
  }
  for (const [y, how] of loud.entries()) if (how) {
    pen.globalAlpha = how > 2 ? 1 : 0.35;
    pen.fillStyle = colors[names[how - 1]];
    pen.fillRect(3, y, 10, how > 2 && each < 2 ? 2 : 1);
  }
  pen.globalAlpha = 1;
  pen.strokeStyle = colors.ink;
  if (whole > h) pen.strokeRect(1.5, top / whole * h + 0.5, 13, Math.max(6, h / whole * h));
}
