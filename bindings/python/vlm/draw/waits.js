// Who waits for whom, as a table and as a graph.

const MOST_ROWS = 100;
const ARROWS = "An arrow leads from a process that waits to the process for which it waits.";
const SEARCHED = "The waits before the search. The cycle is drawn thick; the victim's process has a dashed border.";

// What is needed to show the waits of the present state: plain words, so it stays right in another state.
function waitModel(found) {
  const queued = [...state.locks.values()].filter((it) => it.want).sort((a, b) => a.lock - b.lock).map((it) => ({
    lock: it.lock, pid: it.pid, name: nameOf(it.pid), resource: resourceName(it.resource), modes: modesOf(it),
    isVictim: Boolean(found) && found.victim === it.lock,
    others: state.hasManyWaits ? [] : [...(state.waits.get(it.lock) || [])].sort((a, b) => a - b).map((other) => ({
      lock: other, pid: state.locks.get(other).pid, name: nameOf(state.locks.get(other).pid),
      isFound: Boolean(found) && found.waits.some(([from, to]) => from === it.lock && to === other)})),
  }));
  return {queued, isWhole: !state.hasManyWaits, victim: found ? found.victim : 0};
}

// The arrows between processes: all waits of one process for another are one arrow.
function arrowsOf(model) {
  const arrows = new Map();
  for (const request of model.queued) {
    for (const other of request.others) {
      const key = `${request.pid} ${other.pid}`;
      if (!arrows.has(key)) arrows.set(key, {from: request.pid, to: other.pid, resources: new Set(), isCycle: false});
      arrows.get(key).resources.add(request.resource);
      if (other.isFound) arrows.get(key).isCycle = true;
    }
  }
  if (!model.victim) markCycles([...arrows.values()]);
  return [...arrows.values()];
}

// Marks each arrow that is part of a cycle: its end leads back to its beginning.
function markCycles(arrows) {
  const next = new Map();
  for (const {from, to} of arrows) next.set(from, [...(next.get(from) || []), to]);
  for (const arrow of arrows) arrow.isCycle = leadsTo(next, arrow.to, arrow.from);
}

function leadsTo(next, from, wanted) {
  const seen = new Set([from]), rest = [from];
  while (rest.length) {
    const pid = rest.pop();
    if (pid === wanted) return true;
    for (const it of next.get(pid) || []) {
      if (!seen.has(it)) rest.push(it);
      seen.add(it);
    }
  }
  return false;
}

function waitNodes(model) {
  if (!model.queued.length) return [element("p", {class: "none"}, "no request waits")];
  if (model.isWhole) return [arrowsOf(model).length ? graphFigure(model, ARROWS) : "", waitTable(model)];
  const reason = `With more than ${data.mostRequests} requests or ${data.mostWaits} waits a graph can't be read.`;
  return [element("p", {class: "more"}, `${reason} The table lists the requests.`), waitTable(model)];
}

function waitTable(model) {
  const rows = model.queued.slice(0, MOST_ROWS).map((it) => element("tr", {},
    element("th", {scope: "row"}, `${it.name}, lock ${it.lock}`), element("td", {}, it.resource),
    element("td", {}, it.modes), element("td", {}, model.isWhole ? othersText(it.others) : "not followed")));
  return element("div", {},
    element("table", {}, tableHead(["request", "resource", "mode", "waits for"]), element("tbody", {}, ...rows)),
    moreNode(model.queued.length - rows.length));
}

function othersText(others) {
  return others.map((it) => `${it.name} (lock ${it.lock})`).join(", ") || "nobody";
}

// A search that found a victim: the waits before it, with the cycle.
function renderSearch(line) {
  const section = byId("search");
  section.hidden = !line.cycle;
  section.replaceChildren(element("h2", {}, "What the search found"));
  if (!line.cycle) return;
  const number = state.at;
  goTo(number - 1);
  const model = waitModel(line.cycle);
  goTo(number);
  const {text} = line.cycle, end = text.lastIndexOf("The victim is ");
  section.append(element("p", {}, text.slice(0, end), element("span", {class: "victim"}, text.slice(end))));
  if (model.isWhole) section.append(graphFigure(model, SEARCHED));
}

// ---- The graph ----

// Processes stand on a circle, from the top on and clockwise. (graph.py draws it so too: a page draws each of
// its thousands of graphs only when it is looked at.)
function graphFigure(model, caption) {
  const arrows = arrowsOf(model);
  const names = new Map();
  for (const request of model.queued) {
    for (const other of request.others) names.set(request.pid, request.name).set(other.pid, other.name);
  }
  const pids = [...names.keys()].sort((a, b) => a - b);
  const victim = model.queued.filter((it) => it.isVictim).map((it) => it.pid)[0];
  const places = placesOf(pids, names);
  const label = arrows.map((it) =>
    `${names.get(it.from)} waits for ${names.get(it.to)}${it.isCycle ? ", in a cycle" : ""}`).join("; ");
  const svg = drawn("svg", {class: "graph", role: "img", "aria-label": label, ...frameOf([...places.values()], arrows)},
    ...arrows.map((it) => arrowLine(it, places)),
    ...pids.map((pid) => processNode(names.get(pid), places.get(pid), pid === victim)),
    ...arrows.map((it) => arrowLabel(it, places)));
  return element("figure", {}, svg, element("figcaption", {}, caption));
}

// The size of a picture with these boxes, with room for arrows that bend out or lead back to their own box.
function frameOf(boxes, arrows) {
  const above = arrows.some(({from, to}) => from === to) ? 75 : 40;
  const x = Math.min(...boxes.map((it) => it.x - it.half)) - 60, y = Math.min(...boxes.map((it) => it.y)) - above;
  const width = Math.max(...boxes.map((it) => it.x + it.half)) + 60 - x;
  const height = Math.max(...boxes.map((it) => it.y)) + 60 - y;
  return {width, height, viewBox: `${x} ${y} ${width} ${height}`};
}

// The middle of each process's box, and half of its width.
function placesOf(pids, names) {
  const radius = pids.length < 2 ? 0 : Math.max(90, 26 * pids.length);
  const top = pids.length === 2 ? Math.PI : Math.PI * 3 / 2;
  return new Map(pids.map((pid, place) => {
    const angle = top + 2 * Math.PI * place / pids.length, half = Math.max(30, 4.5 * names.get(pid).length + 10);
    return [pid, {x: radius * 1.5 * Math.cos(angle), y: radius * Math.sin(angle), half}];
  }));
}

function processNode(name, {x, y, half}, isVictim) {
  const label = drawn("text", {x, y: isVictim ? y - 6 : y}, name);
  const box = drawn("rect", {
    class: classes("process", isVictim && "victim"), x: x - half, y: y - 18, width: 2 * half, height: 36, rx: 9});
  return drawn("g", {}, box, label, isVictim ? drawn("text", {class: "told", x, y: y + 9}, "victim") : "");
}

// The curve of an arrow: its bend, and where it leaves and reaches the boxes.
function curveOf({from, to}, places) {
  const a = places.get(from), b = places.get(to);
  if (from === to) {
    return {start: {x: a.x - 14, y: a.y - 18}, bend: {x: a.x, y: a.y - 84}, end: {x: a.x + 14, y: a.y - 20}};
  }
  const x = b.x - a.x, y = b.y - a.y, length = Math.hypot(x, y);
  const bend = {x: (a.x + b.x) / 2 - y / length * 34, y: (a.y + b.y) / 2 + x / length * 34};
  return {start: a, bend, end: edgeOf(b, bend)};
}

// Where a line from a point outside meets the box of a process, a little before it.
function edgeOf(box, from) {
  const x = from.x - box.x, y = from.y - box.y;
  const part = Math.min(x ? (box.half + 4) / Math.abs(x) : Infinity, y ? 22 / Math.abs(y) : Infinity);
  return {x: box.x + x * part, y: box.y + y * part};
}

function arrowLine(arrow, places) {
  const {start, bend, end} = curveOf(arrow, places);
  const length = Math.hypot(end.x - bend.x, end.y - bend.y) || 1;
  const size = arrow.isCycle ? 15 : 11, dx = (end.x - bend.x) / length, dy = (end.y - bend.y) / length;
  const tail = {x: end.x - dx * size, y: end.y - dy * size}, half = size / 2.4;
  const line = `M${start.x} ${start.y}Q${bend.x} ${bend.y} ${tail.x} ${tail.y}`;
  const head = [end.x, end.y, tail.x - dy * half, tail.y + dx * half, tail.x + dy * half, tail.y - dx * half];
  return drawn("g", {"data-wait": `${arrow.from} ${arrow.to}`},
    drawn("path", {class: classes("wait", arrow.isCycle && "cycle"), d: line}),
    drawn("polygon", {class: classes("head", arrow.isCycle && "cycle"), points: head.join(" ")}));
}

function arrowLabel(arrow, places) {
  const {start, bend, end} = curveOf(arrow, places);
  const names = [...arrow.resources];
  const text = names.length > 2 ? `${names[0]} and ${names.length - 1} more` : names.join(", ");
  // Nearer to the beginning, so that the labels of two arrows between the same processes are apart.
  const place = {x: .36 * start.x + .48 * bend.x + .16 * end.x, y: .36 * start.y + .48 * bend.y + .16 * end.y};
  return drawn("text", {class: "label", ...place}, text.length > 24 ? `${text.slice(0, 23)}…` : text);
}
