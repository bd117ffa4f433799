'use strict';
// The data of the page: turns, what each did, and what of it is an event. A step is a turn's number from the boot, an
// index its place on this page.

const D = JSON.parse(document.getElementById('data').textContent);
const FIRST = D.first;
const COUNT = D.turns.harts.length;
const LAST = FIRST + COUNT - 1;
const HARTS = D.harts.length;

const hartAt = new Int8Array(COUNT);
const spotAt = new Int32Array(COUNT);
const effectAt = D.turns.effects.split(',');

// What a turn is drawn as, from the least to the most important.
const MARK = {none: 0, call: 1, write: 2, back: 3, cross: 4, rights: 5, exit: 6, fault: 7};
const markAt = new Uint8Array(COUNT);

// The turns of each hart, and those that are events, as indexes.
const turnsOf = D.harts.map(() => []);
const events = [];
const faults = [];
const exits = [];

const spot = index => {
  const [domain, pc, kind, text, line] = D.spots[spotAt[index]];
  return {domain, pc, kind, text, line};
};

// What a turn did, from the short form that the page holds.
function did(index) {
  const found = {registers: []};
  for (const word of effectAt[index] ? effectAt[index].split(' ') : []) {
    const rest = word.slice(1), parts = rest.split('/');
    switch (word[0]) {
      case 'F': found.fault = {cause: Number(parts[0]), value: parseInt(parts[1], 16)}; break;
      case 'E': found.exit = Number(rest); break;
      case 'A': found.asks = Number(rest); break;
      case 'C': found.call = Number(rest); break;
      case 'D': found.domain = Number(rest); break;
      case 'L': found.load = {at: parseInt(parts[0], 16), bytes: Number(parts[1])}; break;
      case 'S':
        found.store = {at: parseInt(parts[0], 16), bytes: Number(parts[1]), value: parseInt(parts[2], 16)};
        break;
      default: found.registers.push([parseInt(word[0], 32), parseInt(rest, 16)]);
    }
  }
  return found;
}

const changesRights = new Set(D.changes.map(change => change[0]));
const changesGates = new Set(D.gate_changes.map(change => change[0]));
const writesConsole = new Set(D.writes.map(write => write[0]));

function markOf(index, kind, effect) {
  const step = FIRST + index;
  if (effect.includes('F')) return MARK.fault;
  if (effect.includes('E')) return MARK.exit;
  if (changesRights.has(step) || changesGates.has(step)) return MARK.rights;
  if (kind === 'crossed') return MARK.cross;
  if (kind === 'returned') return MARK.back;
  if (writesConsole.has(step)) return MARK.write;
  return effect.includes('C') || effect.includes('A') ? MARK.call : MARK.none;
}

function readTurns() {
  let at = 0;
  for (const text of D.turns.at.split(' ')) spotAt[at++] = Number(text);
  for (let index = 0; index < COUNT; index++) {
    const hart = D.turns.harts[index] === '-' ? -1 : Number(D.turns.harts[index]);
    const mark = markOf(index, D.spots[spotAt[index]][2], effectAt[index]);
    hartAt[index] = hart;
    markAt[index] = mark;
    if (hart >= 0) turnsOf[hart].push(index);
    if (mark !== MARK.none) events.push(index);
    if (mark === MARK.fault) faults.push(index);
    if (mark === MARK.exit) exits.push(index);
  }
}
readTurns();

// The number of elements of a sorted list that are at most, or below, a value.
function countUpTo(list, value, key = element => element) {
  let low = 0, high = list.length;
  while (low < high) {
    const middle = (low + high) >> 1;
    if (key(list[middle]) <= value) low = middle + 1; else high = middle;
  }
  return low;
}
const countBelow = (list, value, key) => countUpTo(list, value - 0.5, key);
