// The turn that is chosen: where it was, what it did, and who called.

// In plain words, for titles and for who hears the page.
function plainTurn(index) {
  const {domain, pc, kind, text} = spot(index), effect = did(index);
  if (pc === null) return `turn ${FIRST + index}: ${text}: nothing happens`;
  const what = effect.fault ? `fault ${effect.fault.cause}, ${CAUSES[effect.fault.cause]}`
    : effect.exit !== undefined ? `exit with ${effect.exit}`
    : effect.call !== undefined ? `${CALLS[effect.call] || `call ${effect.call}`}`
    : effect.asks !== undefined ? `${CALLS[effect.asks]} announced` : kind === 'ran' ? withNames(text) : kind;
  const row = rowsOf(D.spots[spotAt[index]][4]).find(isOwn) || rowsOf(D.spots[spotAt[index]][4])[0];
  const where = row ? `, ${row[0]}${row[1] ? ` at ${shortFile(row[1])} line ${row[2]}` : ''}` : '';
  return `turn ${FIRST + index}, hart ${hartAt[index]} in ${moduleName(domain)}: ${what}${where}`;
}

const KINDS = {
  idle: 'The hart is halted: nothing happens.', waited: 'The hart waits until its call takes effect.',
};
function headTag(index, effect) {
  const {domain, pc, kind} = spot(index);
  if (pc === null) return `<p>${escaped(spot(index).text)} is there: nothing happens.</p>`;
  if (effect.fault) return `<p class="refused">fault ${effect.fault.cause}: ${CAUSES[effect.fault.cause]}</p>`;
  if (kind === 'crossed') return `<p>Crossed a gate: ${moduleTag(domain)} &rarr; ${moduleTag(effect.domain)}</p>`;
  if (kind === 'returned' && effect.domain !== undefined)
    return `<p>Returned through the gate: ${moduleTag(domain)} &rarr; ${moduleTag(effect.domain)}</p>`;
  if (kind === 'returned') return '<p>Sent back: the module behind the gate is dead.</p>';
  return KINDS[kind] ? `<p>${KINDS[kind]}</p>` : '';
}

function row(name, value) { return value ? `<dt>${name}</dt><dd>${value}</dd>` : ''; }

function accessTag(effect) {
  const access = effect.load || effect.store;
  if (!access) return '';
  const what = effect.load ? 'loaded' : `stored <code>${hex(access.value)}</code> in`;
  return `${what} ${plural(access.bytes, 'byte')} at ${wordLink(access.at)}` +
    `<span class="what">${whatLies(access.at)}</span>`;
}

function callOf(index, effect, before) {
  const number = effect.call !== undefined ? effect.call : effect.asks;
  if (number === undefined) return '';
  const asked = callTag(number, before.slice(10, 14));
  if (effect.asks !== undefined)
    return `${asked}<span class="what">announced: it takes effect once every other hart has had a turn</span>`;
  const answer = effect.registers.find(([register]) => register === 10);
  const text = number === 2 ? writtenBy(FIRST + index) : '';
  return `${asked}<span class="what">${answerTag(number, answer ? answer[1] : before[10])}</span>` +
    (text ? `<code class="source">${escaped(text.replace(/\n$/, ''))}</code>` : '');
}

function registersTag(effect, before) {
  return effect.registers.map(([register, value]) =>
    `<tr><th scope="row">${REGISTERS[register]}</th><td><code>${hex(before[register])}</code></td>` +
    `<td aria-hidden="true">&rarr;</td><td><code>${hex(value)}</code></td></tr>`).join('');
}

// Places with all that is inlined there, and the text of the own line.
function placeRows(line, pc) {
  const rows = rowsOf(line);
  if (!rows.length) return `<code>${hex(pc)}</code>`;
  const own = rows.find(isOwn) || rows[0], text = lineText(own);
  return rows.map(each => each === own ? `<b>${rowTag(each)}</b>` : rowTag(each)).join('<br>in ') +
    (text ? `<code class="source">${escaped(text)}</code>` : '');
}

function callsTag(hart, step) {
  const standing = callsBefore(hart, step), SHOWN = 24;
  if (!standing.length) return '<p class="empty">No call stands: this is where the hart began' +
    (FIRST > 1 ? ', or a call before the first turn of this page.</p>' : '.</p>');
  const rows = standing.slice(0, SHOWN).map(call => {
    const own = rowsOf(call.line).find(isOwn) || rowsOf(call.line)[0], text = own ? lineText(own) : '';
    const gate = call.isGate ? `<span class="through">through the gate ${call.to === null ? '' :
      `<code>${escaped(nameAt(call.to) || hex(call.to))}</code>`} of ${moduleTag(call.entered)}</span>` : '';
    return `<li class="${call.isGate ? 'gate' : ''}">${gate}${call.isGate ? `by ${moduleTag(call.domain)} ` : ''}` +
      `${placeTag(call.line, call.pc)} ${call.step ? turnLink(call.step) : ''}` +
      `${text ? `<code class="source">${escaped(text)}</code>` : ''}</li>`;
  });
  return `<ol class="calls">${rows.join('')}</ol>` +
    (standing.length > SHOWN ? `<p>and ${standing.length - SHOWN} further out</p>` : '');
}

function showTurn() {
  const index = shown.index, hart = hartAt[index], at = spot(index), effect = did(index);
  const before = hart < 0 ? [] : registersBefore(hart, index), all = [...before].map((value, number) =>
    `<span><b>${REGISTERS[number]}</b> <code>${hex(value).slice(2)}</code></span>`);
  document.getElementById('turn').innerHTML =
    `<h2 id="turn-title">Turn ${shown.step.toLocaleString('en')}${hart < 0 ? '' : `, hart ${hart}`}</h2>` +
    (hart < 0 ? '' : `<p class="where">${moduleTag(at.domain)}</p>`) + headTag(index, effect) +
    (hart < 0 ? '' : `<dl>${row('instruction', at.text === '-' ? '' : `<code>${escaped(withNames(at.text))}</code>`)}` +
      row('pc', `<code>${hex(at.pc)}</code>`) + row('place', placeRows(at.line, at.pc)) +
      row('access', accessTag(effect)) + row('call', callOf(index, effect, before)) +
      row('exit', effect.exit !== undefined ? `with code ${effect.exit | 0}` : '') +
      row('registers', effect.registers.length ? `<table>${registersTag(effect, before)}</table>` : '') + '</dl>' +
      `<h3>Called by</h3>${callsTag(hart, shown.step)}` +
      `<details><summary>All registers before it</summary><div class="registers">${all.join('')}</div></details>`);
}
