// What is chosen, and the keys.

const shown = {step: FIRST, index: 0, hart: Math.max(hartAt[0], 0), word: null};

function address() {
  return `#turn=${shown.step}${shown.word === null ? '' : `&word=${hex(shown.word)}`}`;
}

// Browsers refuse too many changes of the address in a while, as by a key that is held.
let later = 0;
function keepAddress(isNew) {
  clearTimeout(later);
  const keep = () => {
    if (location.hash !== address()) window.history[isNew ? 'pushState' : 'replaceState'](null, '', address());
  };
  if (isNew) keep(); else later = setTimeout(keep, 200);
}

function show(isNew) {
  standAfter(shown.step);
  showTurn();
  drawMap();
  showWhy();
  showWord();
  markConsole();
  keepInView(shown.step);
  const said = plainTurn(shown.index);
  canvas.setAttribute('aria-valuenow', shown.step);
  canvas.setAttribute('aria-valuetext', said);
  document.getElementById('said').textContent = said;
  document.body.dataset.turn = shown.step;
  keepAddress(isNew);
}

function choose(step, isNew = true) {
  shown.step = Math.min(Math.max(step, FIRST), LAST);
  shown.index = shown.step - FIRST;
  if (hartAt[shown.index] >= 0) shown.hart = hartAt[shown.index];
  const {fault} = did(shown.index);
  if (fault && fault.cause in NEEDS && fault.value >= D.ram[0] && fault.value < D.ram[1])
    shown.word = fault.value - fault.value % 4;
  show(isNew);
}
function chooseWord(word) {
  shown.word = word;
  show(true);
}
function fromAddress() {
  const step = /turn=([0-9]+)/.exec(location.hash), word = /word=(0x[0-9a-f]+)/.exec(location.hash);
  shown.word = null;
  if (word) {
    const at = parseInt(word[1], 16);
    if (at >= D.ram[0] && at < D.ram[1]) shown.word = at - at % 4;
  }
  choose(step ? Number(step[1]) : FIRST, false);
}

// The next or the last one of sorted indexes behind or before the turn that is chosen.
function beside(list, direction) {
  return direction > 0 ? list[countUpTo(list, shown.index)] : list[countBelow(list, shown.index) - 1];
}
function go(index) { if (index !== undefined) choose(FIRST + index, false); }

// The turn of the next hart above or below, the one before this turn or the first.
function otherHart(direction) {
  for (let hart = shown.hart + direction; hart >= 0 && hart < HARTS; hart += direction)
    if (turnsOf[hart].length) {
      const at = countUpTo(turnsOf[hart], shown.index) - 1;
      return go(turnsOf[hart][Math.max(at, 0)]);
    }
}

const GO = {
  first: () => go(0), last: () => go(COUNT - 1),
  back: () => go(beside(turnsOf[shown.hart], -1)), on: () => go(beside(turnsOf[shown.hart], 1)),
  'any-back': () => go(Math.max(shown.index - 1, 0)), 'any-on': () => go(Math.min(shown.index + 1, COUNT - 1)),
  'event-back': () => go(beside(events, -1)), 'event-on': () => go(beside(events, 1)),
  'rights-back': () => go(beside(events.filter(index => markAt[index] === MARK.rights), -1)),
  'rights-on': () => go(beside(events.filter(index => markAt[index] === MARK.rights), 1)),
  'fault-on': () => go(beside(faults, 1) === undefined ? faults[0] : beside(faults, 1)),
  up: () => otherHart(-1), down: () => otherHart(1),
  in: () => zoom(0.5), out: () => zoom(2), fit: () => look(FIRST, LAST + 1),
  find: () => document.getElementById('asked').focus(), help: () => document.getElementById('help').showModal(),
};
const KEYS = {
  ArrowLeft: 'back', ArrowRight: 'on', ',': 'any-back', '.': 'any-on', ArrowUp: 'up', ArrowDown: 'down', Home: 'first',
  End: 'last', '+': 'in', '=': 'in', '-': 'out', 0: 'fit', '/': 'find', '?': 'help', f: 'fault-on', r: 'rights-on',
  R: 'rights-back',
};
const HELP = [
  ['&larr; &rarr;', 'the turn before, the next turn of this hart'], [', .', 'the same of any hart'],
  ['Shift &larr; &rarr;', 'the event before, the next event: a crossing, a return, a call, a fault, an exit'],
  ['&uarr; &darr;', 'the hart above, below'], ['Home End', 'the first, the last turn'], ['f', 'the next fault'],
  ['r R', 'the next, the last change of rights or gates'], ['+ - 0', 'fewer turns, more turns, all'],
  ['/', 'find a turn by its number, a word by its address (0x80001000), a function, a line (files.c:42), ' +
    'an instruction'],
  ['?', 'these keys'],
];

function listenToKeys() {
  document.addEventListener('keydown', event => {
    const inField = /^(INPUT|TEXTAREA|SELECT)$/.test(event.target.tagName);
    if (inField || event.ctrlKey || event.metaKey || event.altKey || document.getElementById('help').open) return;
    if (/^Arrow(Up|Down)$/.test(event.key) && event.target.closest('.lines, .wide, pre')) return;
    const name = event.shiftKey && event.key === 'ArrowLeft' ? 'event-back'
      : event.shiftKey && event.key === 'ArrowRight' ? 'event-on' : KEYS[event.key];
    if (!name) return;
    event.preventDefault();
    GO[name]();
  });
  document.addEventListener('click', event => {
    const link = event.target.closest('[data-turn], [data-word], [data-go]');
    if (!link || link === document.body || event.ctrlKey || event.metaKey) return;
    event.preventDefault();
    if (link.dataset.go) GO[link.dataset.go]();
    else if (link.dataset.turn) choose(Number(link.dataset.turn));
    else chooseWord(Number(link.dataset.word));
  });
}

function aboutTag() {
  const states = {halted: 'all harts are halted', steps: 'as many as asked', schedule: 'the schedule ended'};
  const link = (list, name) => list.length
    ? ` &middot; ${turnLink(FIRST + list[0], plural(list.length, name))}` : '';
  return `turns ${FIRST.toLocaleString('en')} to ${LAST.toLocaleString('en')}: ${states[D.state]}` +
    `${link(faults, 'fault')}${link(exits, 'exit')} &middot; ${plural(D.modules.length, 'module')} &middot; ` +
    plural(HARTS, 'hart');
}

function begin() {
  document.getElementById('about').innerHTML = aboutTag();
  document.getElementById('help').innerHTML = '<h2 id="help-title">Keys</h2><dl>' + HELP.map(([keys, what]) =>
    `<dt>${keys.split(' ').map(key => `<kbd>${key}</kbd>`).join(' ')}</dt><dd>${what}</dd>`).join('') + '</dl>' +
    '<form method="dialog"><button>Close</button></form>';
  document.getElementById('help-button').addEventListener('click', GO.help);
  canvas.setAttribute('aria-valuemin', FIRST);
  canvas.setAttribute('aria-valuemax', LAST);
  drawLegend();
  listenToLanes();
  listenToMap();
  listenToFind();
  listenToKeys();
  showConsole();
  const redraw = () => { layOut(); drawLanes(); drawMap(true); };
  new ResizeObserver(redraw).observe(document.getElementById('lanes-panel'));
  matchMedia('(prefers-color-scheme: dark)').addEventListener('change', redraw);
  matchMedia('print').addEventListener('change', redraw);
  window.addEventListener('popstate', fromAddress);
  layOut();
  fromAddress();
}
begin();
