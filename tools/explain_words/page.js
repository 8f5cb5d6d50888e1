"use strict";
// The lanes stand in `data`; what a click shows (entries, rows, calls) stands in compressed pieces that are opened when they are asked for.
const data = JSON.parse(document.getElementById("data").textContent);
const SVG = "http://www.w3.org/2000/svg", LABEL = 240, AFTER = 270, ROW = 20, TOKENS = 44;
const byId = (id) => document.getElementById(id);
const moments = new Float64Array(data.moments.length);
data.moments.forEach((step, at) => { moments[at] = (at ? moments[at - 1] : 0) + step; });
const count = moments.length, lastMoment = count ? moments[count - 1] : 0;
const lanes = [["entries", "entries", count + " entries", null, [], []]].concat(data.lanes);
const tops = [0];
lanes.forEach((lane) => tops.push(tops[tops.length - 1] + (lane[1] === "tokens" ? TOKENS : ROW)));
let byEntry = data.byEntry, view = [0, 1], chosen = null, chosenEntry = null, isAsked = false;

// ---- the axis

const range = () => (byEntry ? [1, Math.max(count, 2)] : [0, Math.max(lastMoment, 1)]);
function share(entry, moment) {
  const [first, last] = range(), value = byEntry ? entry : moment;
  return ((value - first) / (last - first) - view[0]) / (view[1] - view[0]);
}
const valueAt = (part) => { const [first, last] = range(); return first + (view[0] + part * (view[1] - view[0])) * (last - first); };
let width = 800;        // of the lanes, measured once for each drawing
const plotWidth = () => width;
const place = (entry, moment) => LABEL + share(entry, moment) * plotWidth();
function timeWords(time) {
  if (!time) return "0";
  const unit = [["s", 1e9], ["ms", 1e6], ["µs", 1e3], ["ns", 1]].find(([, size]) => Math.abs(time) >= size) || ["ns", 1];
  return +(time / unit[1]).toFixed(3) + " " + unit[0];
}
function roundStep(least) {
  const power = Math.pow(10, Math.floor(Math.log10(Math.max(least, 1))));
  return power * [1, 2, 5, 10].find((by) => power * by >= least);
}
function nearestEntry(x) {
  const value = valueAt((x - LABEL) / plotWidth());
  if (byEntry) return Math.min(count, Math.max(1, Math.round(value)));
  let low = 0, high = count - 1;
  while (low < high) { const middle = (low + high) >> 1; if (moments[middle] < value) low = middle + 1; else high = middle; }
  return low && value - moments[low - 1] < moments[low] - value ? low : low + 1;
}
function setView(from, to) {
  const size = Math.min(1, Math.max(to - from, 1e-9)), start = Math.min(1 - size, Math.max(0, from));
  view = [start, start + size];
  ask();
}
const zoom = (by, middle = 0.5) => { const size = view[1] - view[0], at = view[0] + middle * size; setView(at - middle * size * by, at + (1 - middle) * size * by); };

// ---- drawing: the lanes that are seen, and of many things at one pixel the first

function make(name, attributes, text) {
  const element = document.createElementNS(SVG, name);
  for (const key in attributes) element.setAttribute(key, attributes[key]);
  if (text !== undefined) element.textContent = text;
  return element;
}
function ask() { if (!isAsked) { isAsked = true; requestAnimationFrame(() => { isAsked = false; draw(); }); } }
function draw() {
  width = Math.max(200, byId("lanes").clientWidth - LABEL - AFTER);
  const area = byId("lanes"), plot = byId("plot"), height = area.clientHeight, from = area.scrollTop;
  byId("room").style.height = tops[lanes.length] + "px";
  plot.setAttribute("height", Math.min(height, tops[lanes.length]));
  const parts = [];
  let at = 0;
  while (at < lanes.length && tops[at + 1] <= from) at++;
  drawAxis(height, parts);
  for (; at < lanes.length && tops[at] < from + height; at++) drawLane(lanes[at], tops[at] - from, tops[at + 1] - tops[at], at, parts);
  plot.replaceChildren(...parts);
  byId("by-time").className = byEntry ? "" : "on";
  byId("by-entry").className = byEntry ? "on" : "";
}
function drawAxis(height, parts) {
  const axis = byId("axis"), low = valueAt(0), high = valueAt(1), step = roundStep((high - low) / (width / 110)), words = [];
  for (let value = Math.ceil(low / step) * step; value <= high; value += step) {
    const x = LABEL + ((value - low) / (high - low)) * width;
    words.push(make("text", { x, y: 16, "text-anchor": "middle" }, byEntry ? String(value) : timeWords(value)));
    parts.push(make("path", { d: `M${x} 0V${height}`, stroke: "#e6e9ed" }));
  }
  axis.replaceChildren(...words);
}
function drawLane(lane, top, height, index, parts) {
  const [name, group, after, ref, items, pieces] = lane, middle = top + height / 2, right = LABEL + plotWidth();
  const label = make("text", { x: 12, y: middle + 4, class: "name", "data-ref": ref || "" }, name);
  parts.push(label);
  if (group === "entries") drawEntries(top, parts);
  const last = {};
  for (const shape of ["bar", "level", "line", "mark"])
    for (const item of items) if (item[0] === shape) drawItem(item, top, height, right, last, parts);
  if (group === "tokens") parts.push(make("path", { d: `M${LABEL} ${middle}H${right}`, stroke: "#b3261e", "stroke-dasharray": "5 3" }));
  drawPieces(pieces, top, height, parts);
  const end = make("text", { x: right + 12, y: middle + 4, class: "after" }, after.length > 40 ? after.slice(0, 39) + ".." : after);
  end.append(make("title", {}, after));
  parts.push(end);
  if (chosen && chosen === ref) parts.push(make("rect", { x: 2, y: top + 1, width: right - 2, height: height - 2, fill: "none", stroke: "#4d8ac0" }));
}
function drawEntries(top, parts) {
  parts.push(make("rect", { x: LABEL, y: top + 2, width: plotWidth(), height: ROW - 4, fill: "#f3f5f7", class: "hit", "data-ref": "entries" }));
  let drawn = -1, path = "";
  const first = Math.max(1, nearestEntry(LABEL) - 1), last = Math.min(count, nearestEntry(LABEL + plotWidth()) + 1);
  const stride = Math.max(1, Math.floor((last - first) / (plotWidth() * 4)));
  for (let entry = first; entry <= last; entry += stride) {
    const x = Math.round(place(entry, moments[entry - 1]));
    if (x !== drawn && x >= LABEL && x <= LABEL + plotWidth()) { path += `M${x} ${top + 5}v${ROW - 10}`; drawn = x; }
  }
  parts.push(make("path", { d: path, stroke: "#9aa3ab", "pointer-events": "none" }));
  if (chosenEntry) parts.push(make("path", { d: `M${place(chosenEntry, moments[chosenEntry - 1])} ${top}v${ROW}`, stroke: "#4d8ac0", "stroke-width": 3, "pointer-events": "none" }));
}
function drawItem(item, top, height, right, last, parts) {
  const [shape, kind, entry, moment, lastEntry, lastMoment, words, ref, level] = item;
  let one = place(entry, moment), other = place(lastEntry, lastMoment);
  if (other < LABEL || one > right) return;
  const key = shape + kind + Math.round(one) + (other - one < 1 ? "" : "+");
  if (last[key]) return;
  if (other - one < 1) last[key] = true;
  one = Math.max(one, LABEL); other = Math.min(other, right);
  const middle = top + height / 2;
  let element;
  if (shape === "bar") {
    const inset = kind === "call" ? 2 : 5;
    element = make("rect", { x: one, y: top + inset, width: Math.max(other - one, 1.5), height: height - 2 * inset, fill: data.colours[kind] });
  } else if (shape === "level") {
    const size = Math.max((height - 6) * level, 1);
    element = make("rect", { x: one, y: top + height - 3 - size, width: Math.max(other - one, 1), height: size, fill: data.colours[kind] });
  } else if (shape === "line") {
    element = make("path", { d: `M${one} ${middle}H${Math.max(other, one + 1)}`, stroke: data.colours[kind], "stroke-width": 1.6, "stroke-dasharray": "3 3" });
  } else element = markShape(kind, one, middle);
  element.setAttribute("class", "hit");
  element.setAttribute("data-ref", ref);
  element.append(make("title", {}, words));
  parts.push(element);
}
function markShape(kind, x, y) {
  const colour = data.marks[kind], cross = `M${x - 4} ${y + 4}L${x + 4} ${y - 4}`;
  if (kind === "failed" || kind === "lost") return make("path", { d: cross + `M${x - 4} ${y - 4}L${x + 4} ${y + 4}`, stroke: colour, "stroke-width": 2.4 });
  if (kind === "cut") return make("path", { d: cross, stroke: colour, "stroke-width": 2.4 });
  if (["send", "dial", "deadline", "result"].includes(kind)) return make("path", { d: `M${x} ${y - 6}V${y + 6}`, stroke: colour, "stroke-width": kind === "deadline" ? 2.4 : 1.6 });
  if (["commit", "goaway", "withheld"].includes(kind)) {
    const isOpen = kind === "withheld";
    return make("path", { d: `M${x} ${y - 5}L${x + 5} ${y}L${x} ${y + 5}L${x - 5} ${y}Z`, fill: isOpen ? "#fff" : colour, stroke: isOpen ? colour : "none", "stroke-width": 1.6 });
  }
  return make("circle", { cx: x, cy: y, r: 4.2, fill: kind === "open" ? "#fff" : colour, stroke: colour });
}
function drawPieces(pieces, top, height, parts) {
  const paths = ["", ""], drawn = [-1, -1];
  for (const piece of pieces) {
    const entry = Math.abs(piece), way = piece > 0 ? 0 : 1, x = Math.round(place(entry, moments[entry - 1]));
    if (x === drawn[way] || x < LABEL || x > LABEL + plotWidth()) continue;
    drawn[way] = x;
    paths[way] += way ? `M${x} ${top + height - 5}v4` : `M${x} ${top + 1}v4`;
  }
  paths.forEach((path) => { if (path) parts.push(make("path", { d: path, stroke: "#1f2429", "stroke-width": 1, "pointer-events": "none" })); });
}

// ---- what a click shows

const opened = new Map();
async function unpack(name, place) {
  const piece = Math.floor(place / data.chunk), key = name + piece;
  if (!opened.has(key)) {
    const bytes = Uint8Array.from(atob(data[name][piece]), (letter) => letter.charCodeAt(0));
    const stream = new Blob([bytes]).stream().pipeThrough(new DecompressionStream("deflate"));
    opened.set(key, new Response(stream).json());
  }
  return (await opened.get(key))[place % data.chunk];
}
function node(name, text, className) {
  const element = document.createElement(name);
  if (text !== undefined) element.textContent = text;
  if (className) element.className = className;
  return element;
}
const since = (entry) => "+" + timeWords(moments[entry - 1]);
async function entryNode(entry, what) {
  const [line, words, actions] = await unpack("entries", entry - 1), part = node("div", undefined, "entry" + (entry === chosenEntry ? " chosen" : ""));
  const head = node("div"), link = node("a", `line ${entry + 1}`);
  link.dataset.ref = "e" + entry;
  head.append(link, `  ${since(entry)}  ${what ? what + ": " : ""}${words}`);
  const list = node("ul");
  actions.forEach((action) => list.append(node("li", action)));
  part.append(head, list, node("code", line));
  return part;
}
function facts(pairs) {
  const table = node("table");
  pairs.forEach(([name, words]) => { const row = table.insertRow(); row.insertCell().textContent = name; row.insertCell().textContent = words; });
  return table;
}
async function callNodes(number) {
  const [, path, pairs, steps, rows] = await unpack("calls", number - 1);
  const parts = [facts(pairs), node("h2", "how")], list = node("table");
  for (const [entry, words] of steps) {
    const row = list.insertRow(), link = node("a", `line ${entry + 1}`);
    link.dataset.ref = "e" + entry;
    row.insertCell().append(link);
    row.insertCell().textContent = `${since(entry)}  ${words}`;
  }
  parts.push(list);
  if (rows.length) parts.push(node("h2", "attempts"));
  for (const place of rows) parts.push(await rowLine(place));
  return ["call " + number + "  " + path, parts];
}
async function rowLine(place) {
  const [line, text, , name] = await unpack("rows", place - 1), part = node("div", undefined, "entry"), link = node("a", `line ${line}`);
  link.dataset.ref = "r" + place;
  const head = node("div");
  head.append(link, "  attempt " + name);
  part.append(head, node("code", text));
  return part;
}
async function rowNodes(place) {
  const [, , call, name, entries] = await unpack("rows", place - 1), [title, parts] = await callNodes(call);
  const own = [await rowLine(place)], named = new Map();
  entries.forEach(([what, entry]) => named.set(entry, (named.has(entry) ? named.get(entry) + ", " : "") + what));
  for (const [entry, what] of [...named].sort((one, other) => one[0] - other[0])) own.push(await entryNode(entry, what));
  return [`${title}, attempt ${name}`, own.concat([node("h2", "its call")], parts)];
}
async function show(ref) {
  if (!("DecompressionStream" in window)) {
    byId("lines").textContent = "This browser cannot open compressed pieces (DecompressionStream); a newer one can.";
    byId("details").hidden = false;
    return;
  }
  const number = Number(ref.slice(1));
  chosen = ref;
  chosenEntry = ref[0] === "e" ? number : null;
  const [title, parts] = ref[0] === "e" ? [`entry ${number} of ${count}`, [await entryNode(number)]] : ref[0] === "r" ? await rowNodes(number) : await callNodes(number);
  byId("what").textContent = title;
  byId("lines").replaceChildren(...parts);
  byId("details").hidden = false;
  byId("before").hidden = byId("after").hidden = ref[0] !== "e";
  byId("fit").hidden = ref[0] === "e";
  history.replaceState(null, "", "#" + ref);
  ask();
}
function fit() {
  const items = lanes.flatMap((lane) => (lane[4].some((item) => item[7] === chosen) ? lane[4] : [])), [first, last] = range();
  if (!items.length) return;
  const part = byEntry ? [2, 4] : [3, 5], ends = [Math.min(...items.map((item) => item[part[0]])), Math.max(...items.map((item) => item[part[1]]))];
  const [from, to] = ends.map((value) => (value - first) / (last - first)), margin = Math.max((to - from) / 8, 1e-9);
  setView(from - margin, to + margin);
}
function step(by) { if (chosenEntry) show("e" + Math.min(count, Math.max(1, chosenEntry + by))); }
function close() { byId("details").hidden = true; chosen = chosenEntry = null; ask(); }

// ---- mouse and keys

let drag = null;
byId("plot").addEventListener("mousedown", (event) => { drag = event.offsetX >= LABEL ? event.offsetX : null; });
byId("plot").addEventListener("mouseup", (event) => {
  const x = event.offsetX;
  if (drag !== null && Math.abs(x - drag) > 6) {
    const parts = [drag, x].sort((one, other) => one - other).map((at) => view[0] + ((at - LABEL) / plotWidth()) * (view[1] - view[0]));
    setView(parts[0], parts[1]);
    drag = "was dragged";
  } else drag = null;
});
byId("plot").addEventListener("click", (event) => {
  if (drag === "was dragged") { drag = null; return; }
  const hit = event.target.closest("[data-ref]"), ref = hit && hit.getAttribute("data-ref");
  if (ref === "entries") show("e" + nearestEntry(event.clientX - byId("plot").getBoundingClientRect().left));
  else if (ref) show(ref);
});
byId("lines").addEventListener("click", (event) => { const link = event.target.closest("a[data-ref]"); if (link) show(link.dataset.ref); });
byId("lanes").addEventListener("wheel", (event) => {
  if (!event.ctrlKey && !event.shiftKey) return;
  event.preventDefault();
  if (event.ctrlKey) zoom(event.deltaY > 0 ? 1.25 : 0.8, Math.min(1, Math.max(0, (event.offsetX - LABEL) / plotWidth())));
  else { const by = ((event.deltaY || event.deltaX) / 1000) * (view[1] - view[0]); setView(view[0] + by, view[1] + by); }
}, { passive: false });
byId("lanes").addEventListener("scroll", ask);
addEventListener("resize", ask);
byId("by-time").onclick = () => { byEntry = false; view = [0, 1]; ask(); };
byId("by-entry").onclick = () => { byEntry = true; view = [0, 1]; ask(); };
byId("closer").onclick = () => zoom(0.5);
byId("wider").onclick = () => zoom(2);
byId("all").onclick = () => setView(0, 1);
byId("before").onclick = () => step(-1);
byId("after").onclick = () => step(1);
byId("close").onclick = close;
byId("fit").onclick = fit;
addEventListener("keydown", (event) => {
  if (event.target.tagName === "INPUT") return;
  const size = view[1] - view[0];
  const keys = { "+": () => zoom(0.5), "-": () => zoom(2), 0: () => setView(0, 1), f: fit, Escape: close,
    ArrowLeft: () => (chosenEntry ? step(-1) : setView(view[0] - size / 5, view[1] - size / 5)), ArrowRight: () => (chosenEntry ? step(1) : setView(view[0] + size / 5, view[1] + size / 5)) };
  if (keys[event.key] && !event.ctrlKey && !event.metaKey) { keys[event.key](); event.preventDefault(); }
});
let lastFound = -1;
byId("find").addEventListener("keydown", (event) => { if (event.key === "Enter") find(byId("find").value.trim()); });
function find(text) {
  const matches = lanes.map((lane, at) => [lane, at]).filter(([lane]) => lane[1] === "call" && text && (/^\d+$/.test(text) ? lane[0].startsWith("call " + text + " ") || lane[0] === "call " + text : lane[0].includes(text)));
  byId("found").textContent = matches.length ? `${matches.length} found` : text ? "none found" : "";
  if (!matches.length) return;
  const next = matches.find(([, at]) => at > lastFound) || matches[0];
  lastFound = next[1];
  byId("lanes").scrollTop = tops[next[1]] - 40;
  if (next[0][3]) show(next[0][3]);
}

// ---- the beginning

function legend() {
  const named = [["call", "call"], ["queue", "waits for a link"], ["placed", "on a link, not sent"], ["sent", "waits for the answer"], ["answer", "the response comes"], ["wait", "backoff or hedging delay"]];
  const marks = [["ok", "OK"], ["failed", "failed, lost"], ["cut", "cut by the client"], ["commit", "committed"], ["withheld", "hedge withheld"], ["goaway", "GOAWAY"]];
  const states = ["IDLE", "CONNECTING", "READY", "TRANSIENT_FAILURE", "SHUTDOWN"].map((state) => ["state-" + state, state]);
  for (const [kind, words] of named.concat(states)) byId("legend").append(sample(make("rect", { width: 12, height: 10, y: 1, fill: data.colours[kind], stroke: kind === "call" ? "#c3c9d0" : "none" }), words));
  for (const [kind, words] of marks) byId("legend").append(sample(markShape(kind, 6, 6), words));
}
function sample(shape, words) {
  const part = node("span"), box = make("svg", { width: 12, height: 12 });
  box.append(shape);
  part.append(box, words);
  return part;
}
byId("title").textContent = data.title;
document.title = data.title;
legend();
if (data.isPart && count > 1) {
  const [first, last] = range(), at = data.view.map((entry) => ((byEntry ? entry : moments[entry - 1]) - first) / (last - first)), margin = Math.max((at[1] - at[0]) / 50, 1e-6);
  view = [Math.max(0, at[0] - margin), Math.min(1, at[1] + margin)];
}
draw();
if (/^#[ecr]\d+$/.test(location.hash)) {
  const ref = location.hash.slice(1), at = lanes.findIndex((lane) => lane[3] === ref || lane[4].some((item) => item[7] === ref));
  if (at > 0) byId("lanes").scrollTop = Math.max(0, tops[at] - 60);
  show(ref);
}
