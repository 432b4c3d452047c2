// Shows the present line and what is there after it. Names are only ever set as text.

const QUEUES = ["granted", "converting", "waiting"];
// No more of these are shown at once: those that the line changed, and the first ones.
const MOST_CARDS = 40, MOST_IN_QUEUE = 30;

// ---- Elements ----

// An element with attributes and children; a child that is no element is text.
function element(name, attributes = {}, ...children) {
  return filled(document.createElement(name), attributes, children);
}

function drawn(name, attributes = {}, ...children) {
  return filled(document.createElementNS("http://www.w3.org/2000/svg", name), attributes, children);
}

function filled(made, attributes, children) {
  for (const [key, value] of Object.entries(attributes)) made.setAttribute(key, value);
  made.append(...children.filter((it) => it !== ""));
  return made;
}

function byId(id) {
  return document.getElementById(id);
}

function classes(...names) {
  return names.filter(Boolean).join(" ");
}

function plural(count, word) {
  return `${count.toLocaleString("en")} ${word}${count === 1 ? "" : "s"}`;
}

// ---- Words for things ----

function nameOf(pid) {
  return state.processes.has(pid) ? state.processes.get(pid).name : endedName("p", pid, 0);
}

function resourceName(serial) {
  return state.resources.has(serial) ? state.resources.get(serial).name : endedName("r", serial, 2);
}

// The name of a process or a resource that the present line took away, and the place of the name in its fields.
function endedName(kind, key, place) {
  return changesOf(state.at).find(([it, its]) => it === kind && its === key)[2][place];
}

function modesOf(lock) {
  return [lock.held, lock.want].filter(Boolean).join(" → ");
}

function statusName(block) {
  return block.status ? data.conditions[block.status] : block.lock ? "pending" : "none";
}

function astText([kind, routine, param, lock]) {
  return `${kind} ${routine} param ${param} lock ${lock}`;
}

// The bytes of a value: their text if they are readable, and their digits.
function valueNodes(digits) {
  if (!digits) return ["zeros"];
  const bytes = digits.replace(/(00)+$/, (zeros) => (zeros.length % 2 ? "0" : "")).match(/../g) || [];
  const codes = bytes.map((it) => parseInt(it, 16));
  const text = codes.every((it) => it >= 32 && it < 127) ? `“${String.fromCharCode(...codes)}” ` : "";
  return [text, element("code", {}, digits)];
}

// ---- What a line changed ----

// The things that the present line changed, by kind and key.
function marksOf(changes) {
  const marks = new Set();
  for (const [kind, key, other, , , come] of changes) {
    if (kind === "q") come.forEach((lock) => marks.add(`l ${lock}`));
    if (kind === "b") marks.add(`b ${key} ${other}`);
    marks.add(`${kind} ${key}`);
  }
  return marks;
}

// A sentence for each change that has one, and for the first ones if there are many.
function sentencesOf(changes) {
  const texts = [];
  for (const [kind, ...words] of changes) {
    const text = sentences[kind] ? sentences[kind](...words) : "";
    if (text && texts.length === MOST_CARDS) return [...texts, "and more"];
    if (text) texts.push(text);
  }
  return texts;
}

const sentences = {
  p: (pid, old, now) => (now ? `Process ${now[0]} is declared.` : `Process ${old[0]} has ended.`),
  b: (pid, number, old, now) => now && state.processes.has(pid) ? blockSentence(pid, number, old, now) : "",
  a: (pid, at, gone, come) => (state.processes.has(pid) ? [
    ...gone.map((ast) => `${nameOf(pid)} takes the AST ${astText(ast)}.`),
    ...come.map((ast) => `${nameOf(pid)} has a new AST: ${astText(ast)}.`)].join(" ") : ""),
  r: resourceSentence,
  l: lockSentence,
};

function blockSentence(pid, number, old, now) {
  const [status, lock] = now, subject = `Status block ${number} of ${nameOf(pid)}`;
  const isSet = old ? old[0] === status && old[1] === lock : !lock;
  return isSet ? `${subject} has a new value.` : `${subject} is ${statusName({status, lock})}, lock ${lock}.`;
}

function resourceSentence(serial, old, now) {
  if (!old) return `Resource ${now[2]} is made.`;
  if (!now) return `Resource ${old[2]} is gone with its last lock.`;
  const isWritten = old[3] !== now[3] || old[5] !== now[5] || (!old[4] && now[4]);
  if (isWritten) return `The value block of ${now[2]} is written.`;
  return `${old[4] === now[4] ? "The tail of the value block" : "The value block"} of ${now[2]} is invalid.`;
}

function lockSentence(lock, old, now) {
  const [pid, serial, held, want] = now || old;
  const subject = `Lock ${lock} of ${nameOf(pid)} on ${resourceName(serial)}`;
  if (!now) return `${subject} is gone; it ${old[2] ? `held ${old[2]}` : `wanted ${old[3]}`}.`;
  if (!old) return want ? `${subject} waits for ${want}.` : `${subject} is granted in ${held}.`;
  if (want) return `${subject} holds ${held} and waits for ${want}.`;
  if (old[3]) return old[3] === held ? `${subject} is granted in ${held}.` : `${subject} holds ${held} again.`;
  return old[2] === held ? "" : `${subject} goes from ${old[2]} to ${held}.`;
}

// ---- The sections ----

function render() {
  const line = lineAt(state.at), marks = marksOf(changesOf(state.at));
  renderLine(line);
  renderSearch(line);
  byId("resources").replaceChildren(...cards([...state.resources.values()], resourceCard, marks, "no resources"));
  byId("processes").replaceChildren(...cards([...state.processes.values()], processCard, marks, "no processes"));
  byId("waits").replaceChildren(...waitNodes(waitModel(null)));
}

function renderLine(line) {
  const lines = data.lines.length;
  byId("line-title").textContent = state.at ? `Line ${state.at} of ${lines}` : "Before the first line";
  byId("source").textContent = state.at ? line.text || " " : "";
  byId("printed").textContent = line.printed || "";
  byId("changes").replaceChildren(...sentencesOf(changesOf(state.at)).map((it) => element("li", {}, it)));
  byId("fault").hidden = !(data.fault && state.at === lines);
  byId("fault").textContent = data.fault ? `The script ends here by a fault: ${data.fault}` : "";
  for (const id of ["first", "back"]) byId(id).disabled = state.at === 0;
  for (const id of ["next", "last"]) byId(id).disabled = state.at === lines;
  byId("number").value = state.at;
}

function moreNode(count) {
  return count > 0 ? element("p", {class: "more"}, `and ${count.toLocaleString("en")} more`) : "";
}

// Cards for some resources or processes: all of them, or those that the line changed and the first others.
function cards(things, card, marks, none) {
  if (!things.length) return [element("p", {class: "none"}, none)];
  things.sort((a, b) => a.key - b.key);
  const chosen = chosenOf(things, MOST_CARDS, (it) => isTouched(it, marks));
  const made = element("div", {class: "cards"}, ...chosen.map((it) => card(it, marks)));
  return [made, moreNode(things.length - chosen.length)];
}

// Whether a line changed a resource or a process, or something of it.
function isTouched(thing, marks) {
  return thing.kinds.some((kind) => marks.has(`${kind} ${thing.key}`));
}

// Some of a list, in their order and up to a limit: the wanted ones first, then from the head.
function chosenOf(list, most, isWanted) {
  if (list.length <= most) return list;
  const wanted = new Set(list.filter(isWanted).slice(0, most));
  for (const it of list) {
    if (wanted.size >= most) break;
    wanted.add(it);
  }
  return list.filter((it) => wanted.has(it));
}

function resourceCard(resource, marks) {
  const domain = resource.group === null ? "system" : `group ${resource.group}`;
  const parent = resource.parent ? `, below ${resourceName(resource.parent)}` : "";
  const columns = QUEUES.map((word, queue) => queueColumn(word, resource.queues[queue], marks));
  return element("article", {class: cardClass(resource, marks), "data-resource": resource.key},
    element("h3", {}, element("span", {class: "name"}, resource.name)),
    element("p", {class: "facts"}, `resource ${resource.key}, ${domain}${parent}`),
    valueLine("value block ", resource.value, resource.isValid),
    resource.tail || !resource.isTailValid ? valueLine("tail ", resource.tail, resource.isTailValid) : "",
    element("div", {class: "queues"}, ...columns));
}

function cardClass(thing, marks) {
  return classes("card", isTouched(thing, marks) && "changed");
}

function valueLine(word, digits, isValid) {
  return element("p", {class: "facts"}, word, ...valueNodes(digits), isValid ? "" : ", invalid");
}

function queueColumn(word, locks, marks) {
  const chosen = chosenOf(locks, MOST_IN_QUEUE, (lock) => marks.has(`l ${lock}`));
  const boxes = chosen.map((lock) => element("li", {}, lockBox(state.locks.get(lock), word, marks)));
  return element("div", {class: "queue"}, element("h4", {}, locks.length > 1 ? `${word} (${locks.length})` : word),
    locks.length ? element("ol", {}, ...boxes) : element("p", {class: "none"}, "—"),
    moreNode(locks.length - chosen.length));
}

function lockBox(lock, word, marks) {
  const isChanged = marks.has(`l ${lock.lock}`);
  const facts = [`lock ${lock.lock}`, lock.parent ? `below lock ${lock.parent}` : "", isChanged ? "changed" : ""];
  const marked = {class: classes("lock", word, isChanged && "changed"), "data-lock": lock.lock, "data-queue": word};
  return element("span", marked, element("b", {}, modesOf(lock)), ` ${nameOf(lock.pid)}`,
    element("small", {}, facts.filter(Boolean).join(", ")));
}

function processCard(process, marks) {
  const facts = [`process ${process.key}`, `node ${process.node}`, `group ${process.group}`, `quota ${process.quota}`,
    plural(process.count, "status block"), process.syslck ? "SYSLCK" : ""];
  const blocks = [...process.blocks.values()].sort((a, b) => a.number - b.number);
  return element("article", {class: cardClass(process, marks), "data-process": process.key},
    element("h3", {}, element("span", {class: "name"}, process.name)),
    element("p", {class: "facts"}, facts.filter(Boolean).join(", ")),
    blocks.length ? blockTable(process.key, blocks, marks) : element("p", {class: "none"}, "no status block in use"),
    astList(process, marks));
}

function tableHead(words) {
  return element("thead", {}, element("tr", {}, ...words.map((it) => element("th", {scope: "col"}, it))));
}

function blockTable(pid, blocks, marks) {
  const rows = blocks.map((block) => blockRow(block, marks.has(`b ${pid} ${block.number}`)));
  return element("table", {class: "blocks"}, tableHead(["block", "status", "lock", "value"]),
    element("tbody", {}, ...rows));
}

function blockRow(block, isChanged) {
  const tail = block.tail ? [", tail ", ...valueNodes(block.tail)] : [];
  return element("tr", {class: classes(isChanged && "changed"), "data-block": block.number},
    element("th", {scope: "row"}, String(block.number)), element("td", {}, statusName(block)),
    element("td", {}, String(block.lock || "none")), element("td", {}, ...valueNodes(block.value), ...tail));
}

function astList(process, marks) {
  if (!process.asts.length) return element("p", {class: "none"}, "no pending AST");
  const isChanged = marks.has(`a ${process.key}`);
  const items = process.asts.slice(0, MOST_IN_QUEUE).map((ast) => element("li", {}, astText(ast)));
  return element("div", {class: "pending"},
    element("p", {class: classes("facts", isChanged && "changed")}, "pending ASTs"),
    element("ol", {class: "asts"}, ...items), moreNode(process.asts.length - items.length));
}

// ---- Going about ----

function show(line) {
  goTo(Math.min(Math.max(0, line), data.lines.length));
  render();
  markInScript();
  if (lineOfAddress() !== state.at) history.replaceState(null, "", `#line=${state.at}`);
}

// The nearest line before or after that does something.
function neighbour(step) {
  let line = state.at + step;
  while (line > 0 && line < data.lines.length && data.lines[line - 1].idle) line += step;
  return line;
}

function markInScript() {
  const list = byId("script"), before = list.querySelector("[aria-current]");
  if (before) before.removeAttribute("aria-current");
  const here = state.at ? list.children[state.at - 1].querySelector("a") : null;
  if (!here) return;
  here.setAttribute("aria-current", "step");
  const box = list.parentElement, top = here.getBoundingClientRect().top - box.getBoundingClientRect().top;
  if (top < 0 || top > box.clientHeight - 40) box.scrollTop += top - box.clientHeight / 2;
}

function fillScript() {
  byId("script").append(...data.lines.map((line, place) => {
    const words = [element("span", {class: "at"}, String(place + 1)), element("span", {}, line.text || " ")];
    return element("li", {}, line.idle ? element("span", {class: "note"}, ...words)
      : element("a", {href: `#line=${place + 1}`}, ...words));
  }));
}

function lineOfAddress() {
  const found = /^#line=(\d+)$/.exec(location.hash);
  return found ? Number(found[1]) : null;
}

const keys = {
  ArrowRight: () => neighbour(1), ArrowLeft: () => neighbour(-1), Home: () => 0, End: () => data.lines.length,
};

function onKey(event) {
  const isTyped = event.target instanceof HTMLInputElement;
  if (isTyped || event.altKey || event.ctrlKey || event.metaKey || event.shiftKey || !keys[event.key]) return;
  event.preventDefault();
  show(keys[event.key]());
}

function begin() {
  fillScript();
  byId("count").textContent = data.lines.length.toLocaleString("en");
  byId("number").max = data.lines.length;
  byId("first").addEventListener("click", () => show(0));
  byId("back").addEventListener("click", () => show(neighbour(-1)));
  byId("next").addEventListener("click", () => show(neighbour(1)));
  byId("last").addEventListener("click", () => show(data.lines.length));
  byId("number").addEventListener("change", () => show(Math.trunc(byId("number").valueAsNumber) || 0));
  document.addEventListener("keydown", onKey);
  window.addEventListener("hashchange", () => show(lineOfAddress() ?? state.at));
  show(lineOfAddress() ?? 0);
}

begin();
