"use strict";
// What is there after a line of the script. The page holds what each line changed (state.py says how), so it goes from
// line to line by making these changes or undoing them.

const data = JSON.parse(document.getElementById("data").textContent);
// What is there after the line `at`; 0 is the start.
const state = {
  at: 0, processes: new Map(), resources: new Map(), locks: new Map(), waits: new Map(), hasManyWaits: false,
};

const changers = {
  p: (forward, pid, old, now) => replace(state.processes, pid, forward ? now : old,
    ([name, node, group, syslck, quota, count]) =>
      ({key: pid, kinds: ["p", "b", "a"], name, node, group, syslck, quota, count, blocks: new Map(), asts: []})),
  b: (forward, pid, number, old, now) => replace(state.processes.get(pid).blocks, number, forward ? now : old,
    ([status, lock, value, tail]) => ({number, status, lock, value, tail})),
  a: (forward, pid, at, gone, come) => splice(state.processes.get(pid).asts, forward, at, gone, come),
  r: (forward, serial, old, now) => setResource(serial, forward ? now : old),
  l: (forward, lock, old, now) => replace(state.locks, lock, forward ? now : old,
    ([pid, resource, held, want, block, parent]) => ({lock, pid, resource, held, want, block, parent})),
  q: (forward, serial, queue, at, gone, come) =>
    splice(state.resources.get(serial).queues[queue], forward, at, gone, come),
  w: (forward, lock, gone, come) => changeWaits(lock, forward ? gone : come, forward ? come : gone),
  m: (forward, old, now) => { state.hasManyWaits = forward ? now : old; },
};

function replace(map, key, fields, made) {
  if (fields === null) map.delete(key);
  else map.set(key, made(fields));
}

function setResource(serial, fields) {
  const queues = state.resources.has(serial) ? state.resources.get(serial).queues : [[], [], []];
  replace(state.resources, serial, fields, ([parent, group, name, value, isValid, tail, isTailValid]) =>
    ({key: serial, kinds: ["r", "q"], parent, group, name, value, isValid, tail, isTailValid, queues}));
}

function splice(list, forward, at, gone, come) {
  if (forward) list.splice(at, gone.length, ...come);
  else list.splice(at, come.length, ...gone);
}

function changeWaits(lock, gone, come) {
  const waits = state.waits.get(lock) || new Set();
  gone.forEach((it) => waits.delete(it));
  come.forEach((it) => waits.add(it));
  if (waits.size) state.waits.set(lock, waits);
  else state.waits.delete(lock);
}

function forward() {
  for (const [kind, ...words] of changesOf(state.at + 1)) changers[kind](true, ...words);
  state.at += 1;
}

function back() {
  for (const [kind, ...words] of changesOf(state.at).slice().reverse()) changers[kind](false, ...words);
  state.at -= 1;
}

function goTo(line) {
  while (state.at < line) forward();
  while (state.at > line) back();
}

function lineAt(number) {
  return data.lines[number - 1] || {text: "", printed: "", changes: []};
}

function changesOf(number) {
  return lineAt(number).changes || [];
}
