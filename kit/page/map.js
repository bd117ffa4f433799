// Rights by address at the turn that is chosen: a row for each module, and the owners below. A range's width goes with
// the logarithm of its words, and what nobody ever has on this page is narrow.

const ROW = 26;
const picture = document.getElementById('map-picture');
const spans = [];  // [from, to, left, right] of the addresses, in pixels

function findSpans() {
  const ends = new Set(), held = [];
  const add = (low, high, value) => { ends.add(low); ends.add(high); if (value) held.push([low, high]); };
  for (const [, low, high, right] of D.rights) add(low, high, right);
  for (const [low, high, owner] of D.owners) add(low, high, owner);
  for (const row of D.changes) {
    for (const [, low, high, had, now] of row[7]) add(low, high, had || now);
    for (const [low, high, had, now] of row[8]) add(low, high, had || now);
  }
  const places = [...ends].sort((a, b) => a - b);
  held.sort((a, b) => a[0] - b[0]);
  let reach = 0, at = 0;
  for (let i = 0; i + 1 < places.length; i++) {
    const [low, high] = [places[i], places[i + 1]];
    while (at < held.length && held[at][0] <= low) reach = Math.max(reach, held[at++][1]);
    spans.push([low, high, reach > low]);
  }
}

let mapWide = 0;
function placeSpans(wide) {
  const each = spans.map(([low, high, used]) => used ? 12 + 4 * Math.log2((high - low) / 4) : 12);
  const sum = each.reduce((a, b) => a + b, 0);
  const scale = Math.min(Math.max((wide - 20) / Math.max(sum, 1), spans.length > 150 ? 0.3 : 0.5), 6);
  let left = 6;
  spans.forEach((span, i) => { span[3] = left; left += each[i] * scale; span[4] = left; });
  mapWide = left + 14;
}

function xOf(address) {
  const at = countUpTo(spans, address, span => span[0]) - 1;
  if (at < 0) return spans.length ? spans[0][3] : 0;
  const [low, high, , left, right] = spans[at];
  return address >= high ? right : left + (right - left) * (address - low) / (high - low);
}
function addressAt(x) {
  const span = spans.find(each => x < each[4]) || spans[spans.length - 1];
  if (!span) return D.ram[0];
  const [low, high, , left, right] = span;
  const word = low + Math.floor(Math.max(0, Math.min(1, (x - left) / (right - left))) * (high - low) / 4) * 4;
  return Math.min(word, high - 4);
}

const box = (low, high, row, kind, more, title) => {
  const left = xOf(low), right = xOf(high);
  return `<rect x="${left.toFixed(1)}" y="${row * ROW + 2}" width="${Math.max(right - left, 2).toFixed(1)}" ` +
    `height="${ROW - 4}" class="${kind}" ${more}><title>${escaped(title)}</title></rect>`;
};
const letters = (low, high, row, text, kind = '') => xOf(high) - xOf(low) > 6.8 * text.length + 2
  ? `<text x="${((xOf(low) + xOf(high)) / 2).toFixed(1)}" y="${row * ROW + ROW / 2 + 4}" class="in ${kind}">` +
    `${escaped(text)}</text>`
  : '';

const ofRow = row => row < D.modules.length ? row + 1 : 0;
const moduleRow = domain => domain - 1;
const OWNER_ROW = D.modules.length;

function patterns() {
  return '<defs>' +
    '<pattern id="p-r" width="6" height="6" patternUnits="userSpaceOnUse"><path d="M0 6 6 0" class="hatch"/>' +
    '</pattern><pattern id="p-rw" width="6" height="6" patternUnits="userSpaceOnUse">' +
    '<path d="M0 6 6 0M0 0 6 6" class="hatch"/></pattern>' +
    '<pattern id="p-rx" width="5" height="5" patternUnits="userSpaceOnUse">' +
    '<circle cx="2.5" cy="2.5" r="1" class="dot"/></pattern></defs>';
}

function drawRanges() {
  let drawn = '';
  rights.forEach((runs, number) => {
    for (const [low, high, right] of runs.list) {
      const kind = RIGHTS[right], title = `${moduleName(number + 1)}: ${kind}, ${hex(low)} to ${hex(high)}`;
      drawn += box(low, high, number, kind, `data-domain="${number + 1}" data-low="${low}" data-high="${high}" ` +
        `data-right="${kind}"`, title) + box(low, high, number, `over p-${kind}`, '', title) +
        letters(low, high, number, kind);
    }
  });
  for (const [low, high, owner] of owners.list) {
    drawn += box(low, high, OWNER_ROW, `owned m${(owner - 1) % 8}`, `data-owner="${owner}" data-low="${low}" ` +
      `data-high="${high}"`, `${moduleName(owner)} owns ${hex(low)} to ${hex(high)}`);
    const name = `${owner} ${moduleName(owner)}`;
    drawn += letters(low, high, OWNER_ROW, name, 'own') || letters(low, high, OWNER_ROW, String(owner), 'own');
  }
  return drawn;
}

function drawGround() {
  let drawn = '';
  for (let row = 0; row <= D.modules.length; row++)
    drawn += `<rect x="6" y="${row * ROW + 2}" width="${(mapWide - 20).toFixed(1)}" height="${ROW - 4}" ` +
      `class="ground${isDead(ofRow(row) || 1, shown.step) && ofRow(row) ? ' dead' : ''}"/>`;
  return drawn;
}

function drawPlaces() {
  const bottom = (D.modules.length + 1) * ROW;
  let drawn = '', last = -100;
  for (const [low, high, used, left, right] of spans) {
    drawn += `<path d="M${left.toFixed(1)} 0V${bottom}" class="border"/>`;
    if (!used) drawn += `<text x="${((left + right) / 2).toFixed(1)}" y="${bottom + 10}" class="gap">…</text>`;
    for (const [at, x] of [[low, left], [high, right]])
      if (x - last >= 12) {
        drawn += `<text transform="translate(${(x - 3).toFixed(1)},${bottom + 6}) rotate(90)" class="address">` +
          `${hex(at)}</text>`;
        last = x;
      }
  }
  return drawn;
}

// What the last change changed flashes once, and keeps a border.
function drawChanged(last, flashes) {
  if (!last) return '';
  const kind = `changed${flashes ? ' flash' : ''}`, title = `changed at turn ${last.step}`;
  return last.parts.map(([domain, low, high]) => box(low, high, moduleRow(domain), kind, '', title)).join('') +
    last.owned.map(([low, high]) => box(low, high, OWNER_ROW, kind, '', title)).join('');
}

// What has just changed, or was just chosen, comes into view.
function scrollMap(address) {
  if (address === null) return;
  const part = document.getElementById('map-scroll'), x = xOf(address), left = part.scrollLeft;
  if (x < left + 20 || x > left + part.clientWidth - 60) part.scrollLeft = x - part.clientWidth / 2;
}

// Drawn anew where something of it is another than before, or the window.
let flashed = -1, scrolledTo = null, drawnAs = '';
function drawMap(isResized) {
  const as = [applied, shown.word, ...D.modules.map((module, number) => isDead(number + 1, shown.step))].join();
  if (as === drawnAs && !isResized) return;
  drawnAs = as;
  const last = lastChange(shown.step), flashes = last && last.number !== flashed;
  document.getElementById('map-names').innerHTML = D.modules.map((module, number) =>
    `<div title="${escaped(module.image || 'words of the manifest')}${module.kills ? ', on_fault = kill' : ''}">` +
    `${moduleTag(number + 1)}${isDead(number + 1, shown.step) ? ' <b class="refused">dead</b>' : ''}</div>`)
    .join('') + '<div class="owners">owners</div>';
  const wide = document.getElementById('map-scroll').clientWidth;
  placeSpans(wide);
  const high = (D.modules.length + 1) * ROW + 92;
  picture.setAttribute('viewBox', `0 0 ${mapWide} ${high}`);
  picture.style.width = `${mapWide}px`;
  picture.style.height = `${high}px`;
  let chosen = '';
  if (shown.word !== null) {
    const x = xOf(shown.word + 2);
    chosen = `<path d="M${x.toFixed(1)} 0V${(D.modules.length + 1) * ROW}" class="chosen"/>`;
  }
  scrollMap(shown.word !== scrolledTo ? shown.word : flashes ? last.low : null);
  [flashed, scrolledTo] = [last ? last.number : -1, shown.word];
  picture.innerHTML = patterns() + drawGround() + drawPlaces() + drawRanges() + drawChanged(last, flashes) + chosen;
  document.getElementById('changed').innerHTML = last
    ? `Last change, ${turnLink(last.step)}: ${changeTag(last)} &middot; ${siteTag(last.step)}`
    : D.changes.some(row => row[7].length || row[8].length)
      ? 'Nothing has changed yet: this is what there was at the first turn of the page.'
      : 'No turn of this page changes a right or an owner.';
  document.getElementById('lines').textContent = reportLines().join('\n');
}

function reportLines() {
  return [...rights.flatMap((runs, number) => [`domain ${number + 1} ${moduleName(number + 1)}` +
    (isDead(number + 1, shown.step) ? ' dead' : ''), ...runs.list.map(([low, high, right]) =>
      `map ${number + 1} ${hex(low)} ${hex(high)} ${RIGHTS[right]}`)]),
  ...owners.list.map(([low, high, owner]) => `owner ${hex(low)} ${hex(high)} ${owner}`)];
}

function listenToMap() {
  document.getElementById('keys').innerHTML = ['r', 'rw', 'rx'].map((right, number) =>
    `<span><svg viewBox="0 0 26 14" aria-hidden="true"><rect width="26" height="14" class="${right}"/>` +
    `<rect width="26" height="14" class="over p-${right}"/></svg> <b>${right}</b> ` +
    `${['read', 'read and write', 'execute and read'][number]}</span>`).join('');
  findSpans();
  picture.addEventListener('click', event => {
    const left = picture.getBoundingClientRect();
    chooseWord(addressAt((event.clientX - left.left) * mapWide / left.width));
  });
}
