// The machine's state at a turn: registers, rights, owners, gates, dead modules, and the calls that stand.

// Registers: those of all harts before each KEPT turns, and the changes behind them.
const KEPT = 512;
const kept = [];
{
  const x = D.harts.map(hart => Uint32Array.from(hart.x));
  for (let index = 0; index < COUNT; index++) {
    if (index % KEPT === 0) kept.push(x.map(registers => registers.slice()));
    if (effectAt[index] && hartAt[index] >= 0)
      for (const [register, value] of did(index).registers) x[hartAt[index]][register] = value;
  }
}

// Those of a hart before a turn.
function registersBefore(hart, index) {
  const from = Math.floor(index / KEPT) * KEPT;
  const x = kept[from / KEPT][hart].slice();
  for (let at = from; at < index; at++)
    if (hartAt[at] === hart && effectAt[at])
      for (const [register, value] of did(at).registers) x[register] = value;
  return x;
}

// Numbers other than 0 by address, as runs [from, to, number].
class Runs {
  constructor() { this.list = []; }

  put(low, high, value) {
    const made = [];
    let placed = value === 0;
    const place = () => { if (!placed) made.push([low, high, value]); placed = true; };
    for (const [from, to, had] of this.list) {
      if (to <= low) { made.push([from, to, had]); continue; }
      if (from < low) made.push([from, low, had]);
      if (from >= high) { place(); made.push([from, to, had]); continue; }
      if (to > high) { place(); made.push([high, to, had]); }
    }
    place();
    this.list = made.reduce((runs, run) => {
      const before = runs[runs.length - 1];
      if (before && before[1] === run[0] && before[2] === run[2]) before[1] = run[1]; else runs.push(run.slice());
      return runs;
    }, []);
  }

  at(address) {
    const run = this.list[countUpTo(this.list, address, each => each[0]) - 1];
    return run && address < run[1] ? run[2] : 0;
  }
}

// Rights and owners stand after so many of the changes, and move with the turn that is chosen.
const rights = D.modules.map(() => new Runs());
const owners = new Runs();
for (const [domain, low, high, right] of D.rights) rights[domain - 1].put(low, high, right);
for (const [low, high, owner] of D.owners) owners.put(low, high, owner);
let applied = 0;

function change(number) {
  const [step, call, domain, hart, low, high, [to, right], parts, owned] = D.changes[number];
  return {number, step, call, domain, hart, low, high, to, right, parts, owned};
}

function standAfter(step) {
  const wanted = countUpTo(D.changes, step, row => row[0]);
  for (; applied < wanted; applied++) {
    for (const [domain, low, high, , now] of change(applied).parts) rights[domain - 1].put(low, high, now);
    for (const [low, high, , now] of change(applied).owned) owners.put(low, high, now);
  }
  for (; applied > wanted; applied--) {
    for (const [domain, low, high, had] of change(applied - 1).parts) rights[domain - 1].put(low, high, had);
    for (const [low, high, had] of change(applied - 1).owned) owners.put(low, high, had);
  }
}

// The last change up to a step that changed something, or nothing.
function lastChange(step) {
  for (let number = countUpTo(D.changes, step, row => row[0]) - 1; number >= 0; number--)
    if (change(number).parts.length || change(number).owned.length) return change(number);
  return null;
}

// What was ever done about a word: each change of a right or of the owner, in order.
function historyOf(word) {
  const found = [];
  D.changes.forEach((row, number) => {
    for (const [domain, low, high, had, now] of row[7])
      if (low <= word && word < high) found.push({step: row[0], number, domain, had, now});
    for (const [low, high, had, now] of row[8])
      if (low <= word && word < high) found.push({step: row[0], number, domain: 0, had, now});
  });
  return found;
}

// The last call before a step that named the word, whether or not it changed something.
function lastTouch(word, step) {
  for (let number = countBelow(D.changes, step, row => row[0]) - 1; number >= 0; number--)
    if (D.changes[number][4] <= word && word < D.changes[number][5]) return change(number);
  return null;
}

// Gates at a word after a step, as [domain, target]; and those that are dead then.
function gatesAt(word, step) {
  const found = new Map(D.gates.filter(gate => gate[1] === word).map(gate => [gate[0], gate[2]]));
  for (const [at, domain, place, , now] of D.gate_changes) {
    if (at > step) break;
    if (place === word) { if (now) found.set(domain, now); else found.delete(domain); }
  }
  return [...found].sort((a, b) => a[0] - b[0]);
}
const isDead = (domain, step) => D.modules[domain - 1].dead ||
  D.deaths.some(([at, dead]) => dead === domain && at <= step);

// The calls that stand before a turn, the innermost first.
function callsBefore(hart, step) {
  const moves = D.moves[hart], found = [];
  const last = moves[countBelow(moves, step, move => move[0]) - 1];
  for (let number = last ? last[1] : -1; number >= 0; number = D.calls[number][0]) {
    const [, gate, from, domain, pc, to, entered, line] = D.calls[number];
    found.push({isGate: gate === 1, step: from, domain, pc, to, entered, line});
  }
  return found;
}
