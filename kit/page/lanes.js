// The lanes: of each hart a row for each module that it comes to, so that a crossing is a step, and marks on them.

const canvas = document.getElementById('lanes');
const paint = canvas.getContext('2d');
const scene = {from: FIRST, to: LAST + 1, gutter: 120, width: 0, lanes: [], height: 0, hover: null};
const LEAST_TURNS = 12;

// Each hart's pieces [from, to, module, status], a turn being one unit wide, from its step on.
function piecesOf(hart) {
  const start = D.harts[hart], pieces = [];
  let from = FIRST, domain = start.domain, status = start.status;
  const next = (step, toDomain, toStatus) => {
    if (step > from) pieces.push([from, step, domain, status]);
    [from, domain, status] = [Math.max(step, from), toDomain, toStatus];
  };
  for (const index of turnsOf[hart]) {
    if (!effectAt[index] || !/[ACDEF]/.test(effectAt[index])) continue;
    const effect = did(index), step = FIRST + index + 1;
    if (effect.exit !== undefined || (effect.fault && effect.domain === undefined)) next(step, domain, 'halted');
    else if (effect.domain !== undefined) next(step, effect.domain, 'running');
    else if (effect.asks !== undefined) next(step, domain, 'waiting');
    else if (effect.call !== undefined && status === 'waiting') next(step, domain, 'running');
  }
  next(LAST + 1, domain, status);
  return pieces;
}

const lanes = D.harts.map((hart, number) => {
  const pieces = piecesOf(number), visited = [...new Set(pieces.map(piece => piece[2]))].sort((a, b) => a - b);
  const marks = turnsOf[number].filter(index => markAt[index]);
  return {number, pieces, visited, marks, top: 0, rowHigh: 0};
});

// The colours of the style sheet, read once for each drawing.
const colours = new Map();
function styleOf(name) {
  if (!colours.has(name))
    colours.set(name, getComputedStyle(document.documentElement).getPropertyValue(name).trim());
  return colours.get(name);
}
const place = step => scene.gutter + (step - scene.from) * (scene.width - scene.gutter - 8) / (scene.to - scene.from);
const stepAt = x => scene.from + (x - scene.gutter) * (scene.to - scene.from) / (scene.width - scene.gutter - 8);
const rowTop = (lane, domain) => lane.top + 18 + lane.visited.indexOf(domain) * lane.rowHigh;

function layOut() {
  const wide = canvas.parentElement.clientWidth, names = Math.max(...D.modules.map(module => module.name.length));
  scene.width = wide;
  scene.gutter = Math.min(wide * 0.28, Math.max(64, 7.2 * (names + 3) + 14));
  let top = 6;
  for (const lane of lanes) {
    lane.top = top;
    lane.rowHigh = lane.visited.length > 12 ? 10 : lane.visited.length > 6 ? 14 : 20;
    top += 18 + lane.rowHigh * lane.visited.length + 10;
  }
  scene.height = top + 22;
  const scale = Math.max(window.devicePixelRatio || 1, matchMedia('print').matches ? 2 : 1);
  canvas.width = Math.round(wide * scale);
  canvas.height = Math.round(scene.height * scale);
  canvas.style.height = `${scene.height}px`;
  paint.setTransform(scale, 0, 0, scale, 0, 0);
}

function moduleColour(domain) { return styleOf(`--m${(domain - 1) % 8}`); }

// The shapes of marks; each differs from the others without its colour.
function shape(kind, x, y, size) {
  paint.beginPath();
  paint.lineWidth = 1.5;
  paint.strokeStyle = paint.fillStyle = styleOf(kind === MARK.fault ? '--fault' : '--ink');
  if (kind === MARK.fault) {
    paint.moveTo(x - size, y - size); paint.lineTo(x + size, y + size);
    paint.moveTo(x + size, y - size); paint.lineTo(x - size, y + size);
    paint.lineWidth = 6;
    paint.strokeStyle = styleOf('--paper');
    paint.stroke();
    paint.lineWidth = 3;
    paint.strokeStyle = styleOf('--fault');
    paint.stroke();
  } else if (kind === MARK.exit) {
    paint.fillRect(x - size + 1, y - size + 1, 2 * size - 2, 2 * size - 2);
  } else if (kind === MARK.rights) {
    paint.moveTo(x, y - size - 1); paint.lineTo(x + size + 1, y); paint.lineTo(x, y + size + 1);
    paint.lineTo(x - size - 1, y); paint.closePath();
    paint.fillStyle = styleOf('--paper');
    paint.fill();
    paint.stroke();
  } else if (kind === MARK.write) {
    paint.moveTo(x - size, y + size - 1); paint.lineTo(x + size, y + size - 1); paint.lineTo(x, y - size);
    paint.closePath();
    paint.fill();
  } else if (kind === MARK.call) {
    paint.arc(x, y, size - 2, 0, 7);
    paint.fill();
  }
}

// No mark lies there, so that a name can be read.
function isFree(lane, from, to) {
  const first = countBelow(lane.marks, from - FIRST + 0.5), last = countUpTo(lane.marks, to - FIRST);
  for (let at = first; at < last; at++)
    if (markAt[lane.marks[at]] !== MARK.cross && markAt[lane.marks[at]] !== MARK.back) return false;
  return true;
}

function drawPieces(lane) {
  const {rowHigh} = lane, first = countBelow(lane.pieces, scene.from, piece => piece[1]);
  let before = null;
  for (let at = first; at < lane.pieces.length && lane.pieces[at][0] < scene.to; at++) {
    const [from, to, domain, status] = lane.pieces[at];
    const left = Math.max(place(from), scene.gutter), right = Math.min(place(to), scene.width - 8);
    const top = rowTop(lane, domain), wide = Math.max(right - left, 1);
    paint.globalAlpha = status === 'halted' ? 0.25 : status === 'waiting' ? 0.5 : 1;
    paint.fillStyle = moduleColour(domain);
    paint.fillRect(left, top + 2, wide, rowHigh - 4);
    paint.globalAlpha = 1;
    if (before !== null && before !== domain && place(from) >= scene.gutter) {
      paint.strokeStyle = styleOf('--ink');
      paint.lineWidth = 1;
      paint.beginPath();
      paint.moveTo(left, rowTop(lane, before) + rowHigh / 2);
      paint.lineTo(left, top + rowHigh / 2);
      paint.stroke();
    }
    if (rowHigh >= 14 && wide > 60) {
      const text = status === 'running' ? moduleName(domain) : status === 'halted' ? 'halted' : 'waits';
      paint.font = '11px ui-monospace, monospace';
      const room = paint.measureText(text).width + 20;
      if (room < wide && isFree(lane, stepAt(left), stepAt(left + room))) {
        paint.fillStyle = styleOf(status === 'running' ? '--on-module' : '--ink');
        paint.fillText(text, left + 12, top + rowHigh / 2 + 4);
      }
    }
    before = domain;
  }
}

// Where turns are wide enough, each turn of the hart is seen beside those of the others.
function drawTurns(lane) {
  const each = place(FIRST + 1) - place(FIRST);
  if (each < 4) return;
  const turns = turnsOf[lane.number];
  paint.fillStyle = styleOf('--on-module');
  for (let at = countBelow(turns, scene.from - FIRST - 1); at < turns.length; at++) {
    const step = FIRST + turns[at];
    if (step >= scene.to) break;
    const {domain, kind} = spot(turns[at]);
    if (kind === 'idle' || place(step) < scene.gutter - 1) continue;
    paint.globalAlpha = 0.55;
    paint.fillRect(place(step) + each * 0.15, rowTop(lane, domain) + lane.rowHigh - 5, each * 0.7, 2);
    paint.globalAlpha = 1;
  }
}

// Of marks that would lie on one another the most important one is drawn.
function drawMarks(lane) {
  const each = place(FIRST + 1) - place(FIRST), last = new Map(), shown = [];
  for (let at = countBelow(lane.marks, scene.from - FIRST - 1); at < lane.marks.length; at++) {
    const index = lane.marks[at], kind = markAt[index];
    if (FIRST + index >= scene.to) break;
    if (kind === MARK.cross || kind === MARK.back) continue;
    const x = place(FIRST + index) + each / 2, y = rowTop(lane, spot(index).domain) + lane.rowHigh / 2;
    const near = last.get(y);
    if (x < scene.gutter) continue;
    if (near && x - near.x < 9) {
      if (near.kind < kind) Object.assign(near, {x, kind});
      continue;
    }
    const mark = {x, y, kind};
    last.set(y, mark);
    shown.push(mark);
  }
  shown.sort((a, b) => a.kind - b.kind);
  for (const {x, y, kind} of shown) shape(kind, x, y, 4.5);
}

function drawAxis() {
  const wide = (scene.width - scene.gutter) / 90, rough = (scene.to - scene.from) / wide;
  const power = 10 ** Math.floor(Math.log10(Math.max(rough, 1)));
  const gap = Math.max(1, [1, 2, 5, 10].map(factor => factor * power).find(each => each >= rough) || power);
  paint.font = '11px ui-monospace, monospace';
  paint.strokeStyle = styleOf('--line');
  paint.lineWidth = 1;
  for (let step = Math.ceil(scene.from / gap) * gap; step < scene.to; step += gap) {
    const x = Math.round(place(step)) + 0.5;
    paint.beginPath(); paint.moveTo(x, 4); paint.lineTo(x, scene.height - 20); paint.stroke();
    paint.fillStyle = styleOf('--soft');
    const text = step.toLocaleString('en');
    if (x + paint.measureText(text).width < scene.width) paint.fillText(text, x, scene.height - 6);
  }
}

function drawNames(lane) {
  paint.fillStyle = styleOf('--paper');
  paint.fillRect(0, lane.top, scene.gutter, 18 + lane.rowHigh * lane.visited.length + 8);
  paint.fillStyle = styleOf('--ink');
  paint.font = `${lane.number === shown.hart ? 'bold ' : ''}12px system-ui, sans-serif`;
  paint.fillText(`${lane.number === shown.hart ? '▸ ' : ''}hart ${lane.number}`, 4, lane.top + 13);
  paint.font = `${Math.min(11, lane.rowHigh)}px ui-monospace, monospace`;
  for (const domain of lane.visited) {
    const y = rowTop(lane, domain);
    paint.fillStyle = moduleColour(domain);
    paint.fillRect(4, y + 3, 4, lane.rowHigh - 6);
    paint.fillStyle = styleOf('--ink');
    paint.fillText(`${domain} ${moduleName(domain)}`, 12, y + lane.rowHigh / 2 + 4, scene.gutter - 16);
  }
}

function drawChosen() {
  const each = place(FIRST + 1) - place(FIRST), x = place(shown.step) + each / 2;
  if (x < scene.gutter || x > scene.width) return;
  paint.strokeStyle = styleOf('--chosen');
  paint.lineWidth = 2;
  paint.beginPath(); paint.moveTo(x, 2); paint.lineTo(x, scene.height - 20); paint.stroke();
  const lane = lanes[hartAt[shown.index]];
  if (!lane) return;
  paint.lineWidth = 2;
  const y = rowTop(lane, spot(shown.index).domain), wide = Math.max(each, 10);
  paint.strokeRect(x - wide / 2 - 1, y, wide + 2, lane.rowHigh);
}

function drawLanes() {
  colours.clear();
  paint.clearRect(0, 0, scene.width, scene.height);
  drawAxis();
  for (const lane of lanes) {
    drawPieces(lane);
    drawTurns(lane);
    drawMarks(lane);
    drawNames(lane);
  }
  drawChosen();
}

// What is seen of the turns.
function look(from, to) {
  const least = Math.min(LEAST_TURNS, COUNT), wide = Math.min(Math.max(to - from, least), COUNT);
  scene.from = Math.min(Math.max(from, FIRST), LAST + 1 - wide);
  scene.to = scene.from + wide;
  drawLanes();
}
function zoom(factor, around = shown.step + 0.5) {
  const inside = around >= scene.from && around <= scene.to ? around : (scene.from + scene.to) / 2;
  look(inside - (inside - scene.from) * factor, inside + (scene.to - inside) * factor);
}
function keepInView(step) {
  const wide = scene.to - scene.from;
  if (step < scene.from + wide * 0.02 || step >= scene.to - wide * 0.02) look(step - wide / 2, step + wide / 2);
  else drawLanes();
}

// The turn under the pointer: of the lane's hart, a mark before others.
function turnUnder(x, y) {
  const lane = lanes.find(each => y < rowTop(each, each.visited[0]) + each.rowHigh * each.visited.length + 10) ||
    lanes[lanes.length - 1];
  const step = stepAt(x), near = 6 * (scene.to - scene.from) / Math.max(scene.width - scene.gutter, 1);
  const close = lane.marks.slice(countBelow(lane.marks, step - near - FIRST - 0.5), countUpTo(lane.marks,
    step + near - FIRST - 0.5));
  if (close.length) return close.reduce((best, index) => markAt[index] > markAt[best] ? index : best);
  const turns = turnsOf[lane.number], at = countUpTo(turns, step - FIRST) - 1;
  return turns[Math.max(at, 0)];
}

// Drag moves, a wheel zooms, two fingers do both, and a click chooses.
function listenToLanes() {
  const held = new Map();
  let moved = false;
  canvas.addEventListener('wheel', event => {
    event.preventDefault();
    if (Math.abs(event.deltaX) > Math.abs(event.deltaY) || event.shiftKey) {
      const turns = (event.deltaX || event.deltaY) * (scene.to - scene.from) / scene.width;
      look(scene.from + turns, scene.to + turns);
    } else zoom(Math.exp(event.deltaY / 400), stepAt(event.offsetX));
  }, {passive: false});
  canvas.addEventListener('pointerdown', event => {
    canvas.setPointerCapture(event.pointerId);
    held.set(event.pointerId, event.offsetX);
    moved = held.size > 1;
  });
  canvas.addEventListener('pointermove', event => {
    if (!held.has(event.pointerId)) {
      const index = turnUnder(event.offsetX, event.offsetY);
      canvas.title = index === undefined ? '' : plainTurn(index);
      return;
    }
    const was = [...held.values()], before = held.get(event.pointerId);
    held.set(event.pointerId, event.offsetX);
    const now = [...held.values()];
    if (held.size === 1 && (moved || Math.abs(event.offsetX - before) > 3)) {
      const turns = (before - event.offsetX) * (scene.to - scene.from) / (scene.width - scene.gutter);
      moved = true;
      look(scene.from + turns, scene.to + turns);
    } else if (held.size === 1) {
      held.set(event.pointerId, before);
    } else {
      const wide = Math.max(Math.abs(now[0] - now[1]), 10), wider = Math.max(Math.abs(was[0] - was[1]), 10);
      zoom(wider / wide, stepAt((now[0] + now[1]) / 2));
    }
  });
  const release = event => {
    if (event.type === 'pointerup' && !moved && held.size === 1) {
      const index = turnUnder(event.offsetX, event.offsetY);
      if (index !== undefined) choose(FIRST + index);
      canvas.focus({preventScroll: true});
    }
    held.delete(event.pointerId);
    if (!held.size) moved = false;
  };
  canvas.addEventListener('pointerup', release);
  canvas.addEventListener('pointercancel', release);
}

const LEGEND = [['fault', MARK.fault], ['exit', MARK.exit], ['rights or gates changed', MARK.rights],
  ['console', MARK.write], ['other call', MARK.call]];
function drawLegend() {
  const drawn = {
    [MARK.fault]: '<path d="M2 2 10 10M10 2 2 10" class="fault"/>', [MARK.exit]: '<path d="M2 2H10V10H2Z"/>',
    [MARK.rights]: '<path d="M6 0 12 6 6 12 0 6Z" class="open"/>', [MARK.write]: '<path d="M1 10H11L6 2Z"/>',
    [MARK.call]: '<circle cx="6" cy="6" r="3"/>',
  };
  document.getElementById('legend').innerHTML = LEGEND.map(([text, kind]) => {
    const count = events.reduce((sum, index) => sum + (markAt[index] === kind), 0);
    const icon = `<svg viewBox="0 0 12 12" aria-hidden="true">${drawn[kind]}</svg>`;
    return count ? `<span>${icon} ${text} (${count})</span>` : '';
  }).join('') + '<span class="hint">A step up or down is a crossing or a return. Click a turn, drag to move, ' +
    'wheel to zoom.</span>';
}
