// What is written next to the lanes: of the run, or of the space that is chosen.

// ---- Details ----

function make(kind, name, text) {
  const made = document.createElement(kind);
  if (name) made.className = name;
  if (text !== undefined) made.textContent = text;
  return made;
}

function pairs(rows) {
  const list = make("dl");
  for (const [word, said] of rows) if (said !== null) list.append(make("dt", "", word), wrapped(make("dd"), said));
  return list;
}
function wrapped(box, said) {
  box.append(...[].concat(said));
  return box;
}

function link(text, row, number) {
  const made = make("a", "mono", text);
  made.onclick = () => choose(row, number);
  made.onkeydown = key => { if (key.key === "Enter") choose(row, number); };
  made.tabIndex = 0;
  return made;
}

// A line of explain, in which names of events lead to them.
function linked(box, line) {
  let at = 0;
  for (const found of line.matchAll(/(\/[0-9/]*)(?::([0-9]+))?(?=\s|$)/g)) {
    const row = rowOf.get(found[1]);
    if (row === undefined) continue;
    box.append(line.slice(at, found.index), link(found[0], row, found[2] ? Number(found[2]) : null));
    at = found.index + found[0].length;
  }
  box.append(line.slice(at));
  return box;
}

function source(pc) {
  const found = data.lines[pc];
  if (!found) return null;
  const made = make("span", "source mono");
  made.append(data.files[found[0]] + ":" + found[1] + (found[2] ? "  " : ""), make("b", "", found[2]));
  return made;
}

function whyBox(row) {
  const box = make("div", "why mono");
  for (const line of data.why[row]) {
    const [word] = line.split(" ", 1), one = make("div");
    if (word === "conflict" || word === "trap") one.append(make("em", "", word));
    linked(one, word === "conflict" || word === "trap" ? line.slice(word.length) : line);
    const pc = line.match(/ pc ([0-9a-f]{8})/), from = pc && source(parseInt(pc[1], 16));
    if (from) one.append(from);
    box.append(one);
  }
  return box;
}

function details() {
  const box = byId("details"), parts = state.chosen === null ? overview() : about(spaces[state.chosen]);
  box.replaceChildren(...parts);
  const chosen = box.querySelector(".chosen");
  if (chosen) chosen.scrollIntoView({block: "center"}); else box.scrollTop = 0;
}

function overview() {
  const faults = spaces.filter(isFault), count = faults.length === 1 ? "1 space" : `${faults.length} spaces`;
  const parts = [make("h2", "", faults.length ? count + " to explain" : "Nothing to explain")];
  for (const space of faults.slice(0, 60)) {
    if (space.row in data.why) parts.push(whyBox(space.row));
    else parts.push(wrapped(make("div"), [link(space.path, space.row, null), ` ${space.cause} ${space.value}`]));
  }
  if (!faults.length) parts.push(make("p", "note", "No space was stopped by a conflict or another trap. Click a lane, a mark or a name."));
  return parts.concat(data.notes.map(note => make("p", "note", note)), legend());
}

// The events of the parent that start a space, and those that meet it.
function metBy(space) {
  const by = [], joins = [], parent = spaces[space.parent];
  const add = (list, event) => list.push(link(nameOf(parent, event), parent.row, event.number), ` ${event.kind} `);
  for (const part of space.parts) if (part.by) add(by, part.by);
  for (const event of parent ? parent.events : []) {
    if (!STARTS.includes(event.kind) && event.met.some((row, at) => at % 2 === 0 && row === space.row)) add(joins, event);
  }
  return [by, joins];
}

function about(space) {
  const [by, joins] = metBy(space), last = space.parts[space.parts.length - 1], head = make("h2", "mono", space.path);
  const badge = make("span", "badge " + tone(space.isTold ? space.cause : ""), space.isTold ? `${space.cause} ${space.value}` : "gone at the end");
  head.append(" ", badge);
  const rows = [
    ["pc", space.isTold ? [make("span", "mono", hex(space.pc)), source(space.pc) || ""] : null],
    ["fuel", space.used < 0 ? null : `${space.used.toLocaleString("en")} of ${data.limit.toLocaleString("en")}`],
    ["pages written", space.pages < 0 ? "not traced" : String(space.pages)],
    ["steps", last ? `${space.parts[0].start.toLocaleString("en")} to ${last.end.toLocaleString("en")}` : "never ran"],
    ["started by", by.length ? by.slice(0, 40) : null], ["met by", joins.length ? joins.slice(0, 40) : null],
    ["copied by", space.copies.length ? space.copies.map(([time, of]) => `copy of ${spaces[of].path} at step ${time} `) : null],
  ];
  const why = space.row in data.why ? [whyBox(space.row)] : isBad(space.cause) && space.isTold ? [make("p", "note", data.whyNote)] : [];
  const moment = data.at && data.show[0] === space.row && state.event === data.show[1] ? momentBox(space) : [];
  return [head, pairs(rows)].concat(moment, why, eventsOf(space));
}

// The space right after the event that --show names: what the event has changed is bold.
function momentBox(space) {
  const head = make("div", "mono"), box = make("div", "moment mono"), before = new Map(data.at.before), from = source(data.at.pc);
  head.append(data.at.text);
  if (from) head.append(from);
  const isMemory = ([name]) => name === "bytes";
  for (const [name, value] of [...data.at.after.filter(isMemory), ...data.at.after.filter(line => !isMemory(line))]) {
    const old = before.get(name), one = make("div");
    if (name === "bytes") momentBytes(one, value);
    else one.append(name + " ", make(old !== undefined && old !== value ? "b" : "span", "", value));
    box.append(one);
  }
  return [make("h3", "", `At ${space.path}:${state.event}`), head, box];
}

// A line of memory, in which bytes are bold that were others before the event.
function momentBytes(box, value) {
  const [address, ...now] = value.split(" ");
  const line = data.at.before.find(([name, old]) => name === "bytes" && old.split(" ")[0] === address);
  const old = line ? line[1].split(" ").slice(1) : now;
  box.append(address);
  now.forEach((byte, at) => box.append(" ", byte === old[at] ? byte : make("b", "", byte)));
}

// The events around the chosen one.
function eventsOf(space) {
  if (!space.events.length) return [make("p", "note", space.isTraced ? "It made no calls." : "Its own events were not traced (--traces).")];
  const near = space.events.findIndex(event => event.number === state.event), from = Math.max(0, near - 100);
  const to = Math.min(space.events.length, from + 300);
  const box = make("div", "events mono");
  for (const event of space.events.slice(from, to)) {
    const one = make("div", event.number === state.event ? "chosen" : "");
    one.append(link(nameOf(space, event), space.row, event.number), ` pc ${hex(event.pc)} `);
    linked(one, event.text || event.kind + (event.cause ? ` ${event.cause} ${event.value}` : ""));
    for (let at = 0; at < Math.min(event.met.length, 40); at += 2) one.append(" ", link(spaces[event.met[at]].path, event.met[at], null));
    const from = source(event.pc);
    if (from) one.append(from);
    box.append(one);
  }
  const isPart = to - from < space.events.length;
  const cut = space.isCut ? [make("p", "note", "Events after these were not read (--events).")] : [];
  return [make("h3", "", isPart ? `Calls and stops ${from + 1} to ${to} of ${space.events.length}` : "Calls and stops"), box, ...cut];
}

const LEGEND = [
  [pen => bar(pen, 4, 42, 8, 8, colors.run), "it runs"],
  [pen => bar(pen, 4, 42, 8, 2, colors.wait), "it waits in a call for a child"],
  [pen => ring(pen, 23, 8, 4.5, colors.fork), "it starts a child, or makes another call"],
  [pen => ring(pen, 23, 8, 4.5, colors.join), "it meets a child that has stopped"],
  [pen => ring(pen, 23, 8, 4.5, colors.ok, true), "it returns"],
  [pen => ring(pen, 23, 8, 4.5, colors.warn, true), "its fuel or limit is used up"],
  [pen => ring(pen, 23, 8, 5.5, colors.bad, true), "a conflict or another trap stops it"],
  [pen => ring(pen, 23, 8, 4.5, colors.bad), "an event that explain why names"],
];
const KEYS = [
  ["↑ ↓", "space"], ["← →", "call or stop"], ["Esc", "the whole run"], ["/", "search; Enter, Shift+Enter: next, previous"], ["n", "next fault"],
  ["+ − 0", "zoom, fit; also Ctrl and wheel"], ["z", "zoom to the space"], ["[ ]", "lower, higher lanes"], ["s", "steps in proportion, or even"],
  ["t", "light or dark"],
];

function legend() {
  const box = make("div", "legend"), keys = make("div", "keys"), pens = [];
  for (const [paint, words] of LEGEND) {
    const canvas = make("canvas");
    pens.push([canvas, paint]);
    box.append(canvas, make("span", "", words));
  }
  for (const [key, words] of KEYS) keys.append(make("kbd", "", key), make("span", "", words));
  for (const [canvas, paint] of pens) paint(sized(canvas, 46, 16));
  const step = "A step is the time of one event, if a processor is free whenever a space can go on. "
    + "A call that waits for a space comes one step after that space has stopped.";
  return [make("h3", "", "In the lanes"), box, make("h3", "", "Keys"), keys, make("p", "note", step)];
}
