// The console: lines of each module, each piece beside the turn that wrote it.

const bytes = Uint8Array.from(atob(D.console), c => c.charCodeAt(0));
const printable = new TextDecoder('utf-8', {fatal: true});

function textOf(part) {
  let text;
  try { text = printable.decode(part); } catch (error) { text = String.fromCharCode(...part); }
  return text.replace(/[\x00-\x08\x0b-\x1f\x7f-\x9f]/g, c => '\\x' + c.charCodeAt(0).toString(16).padStart(2, '0'));
}

// What a turn wrote.
function writtenBy(step) {
  let at = 0;
  for (const [made, count] of D.writes) {
    if (made === step) return textOf(bytes.subarray(at, at + count));
    at += count;
  }
  return '';
}

// Pieces of one line, each with its turn: a line ends at its end, or where another hart or module writes.
function consoleLines() {
  const lines = [];
  let at = 0, open = null;
  for (const [step, count] of D.writes) {
    const from = {hart: hartAt[step - FIRST], domain: spot(step - FIRST).domain};
    let text = textOf(bytes.subarray(at, at + count));
    at += count;
    for (const part of text.split(/(?<=\n)/)) {
      if (!part) continue;
      if (!open || open.hart !== from.hart || open.domain !== from.domain)
        lines.push(open = {...from, pieces: []});
      const piece = open.pieces[open.pieces.length - 1];
      if (piece && piece.last + 400 > step && part.length < 4) { piece.text += part; piece.last = step; }
      else open.pieces.push({step, last: step, text: part});
      if (part.endsWith('\n')) open = null;
    }
  }
  return lines;
}
const written = consoleLines();

function showConsole() {
  const panel = document.getElementById('output'), MOST = 2000;
  if (!written.length) {
    panel.innerHTML = '<h2 id="output-title">Console</h2>' +
      '<p class="empty">No turn of this page writes to the console.</p>';
    return;
  }
  const rows = written.slice(0, MOST).map(line => {
    const {step} = line.pieces[0], pieces = line.pieces.map(piece =>
      `<a href="#turn=${piece.step}" data-turn="${piece.step}" data-last="${piece.last}" title="turn ${piece.step}">` +
      `${escaped(piece.text.replace(/\n$/, '')) || '&para;'}</a>`);
    return `<div class="line">${moduleTag(line.domain)}<span class="text">${pieces.join('')}</span>` +
      `<a class="turn" href="#turn=${step}" data-turn="${step}">${step}</a></div>`;
  });
  panel.innerHTML = `<h2 id="output-title">Console</h2><div class="lines" tabindex="0" role="region" ` +
    `aria-label="Console">${rows.join('')}</div>` +
    (written.length > MOST ? `<p>and ${plural(written.length - MOST, 'line')} more</p>` : '');
}

// What was written before the turn is dark, what comes later is pale.
function markConsole() {
  let last = null;
  for (const piece of document.querySelectorAll('#output .text > a')) {
    const step = Number(piece.dataset.turn);
    piece.classList.toggle('later', step > shown.step);
    piece.classList.toggle('now', step <= shown.step && shown.step <= Number(piece.dataset.last));
    if (step <= shown.step) last = piece;
  }
  const lines = document.querySelector('#output .lines');
  if (lines) lines.scrollTop = last ? last.closest('.line').offsetTop - lines.offsetTop - lines.clientHeight / 2 : 0;
}
