// Why a turn faulted: the access, the right there and since when, and the last call that touched the word.

const NEEDS = {1: 'rx, to fetch', 5: 'r, rw or rx, to load', 7: 'rw, to store'};
const SIZES = {b: 1, h: 2, w: 4};

function accessOf(index, fault) {
  const size = SIZES[(/^[ls]([bhw])/.exec(spot(index).text) || [])[1]];
  return fault.cause === 1 ? `a fetch of the instruction at ${wordLink(fault.value)}`
    : `a ${fault.cause === 5 ? 'load' : 'store'} of ${plural(size || 4, 'byte')} at ${wordLink(fault.value)}`;
}

function touchTag(word, step) {
  const last = lastTouch(word, step);
  if (!last) return `<p>No call before it${FIRST > 1 ? ' on this page' : ''} touched the word: the right is that of ` +
    `the ${FIRST > 1 ? 'first turn of the page' : 'boot'}. Its owner may grant one.</p>`;
  return `<p>The last call that touched the word, ${turnLink(last.step)}: ${changeTag(last)}<br>` +
    `${siteTag(last.step)}</p>` +
    (last.step < shown.step ? `<p class="buttons"><a class="button" href="#turn=${last.step}" ` +
      `data-turn="${last.step}">Go to that call</a></p>` : '');
}

function deniedTag(index, fault) {
  const step = FIRST + index, word = fault.value - fault.value % 4, {domain} = spot(index);
  if (word < D.ram[0] || word >= D.ram[1])
    return `<p>${accessOf(index, fault)}. No module has a right outside RAM, ${hex(D.ram[0])} to ${hex(D.ram[1])}.` +
      `${fault.value < 4096 || fault.value > 0xfffff000 ? ' An address near 0 is often a null pointer.' : ''}</p>` +
      afterTag(index, did(index));
  const history = historyOf(word), mine = standing(history, domain, step, rights[domain - 1].at(word));
  const owner = standing(history, 0, step, owners.at(word));
  const others = rights.map((runs, number) => [number + 1, runs.at(word)])
    .filter(([other, right]) => right && other !== domain)
    .map(([other, right]) => `${moduleTag(other)} ${rightTag(right)}`);
  const gates = fault.cause === 1 ? gatesAt(word, step).filter(([from, to]) => from !== to) : [];
  return '<div class="columns"><dl>' +
    row('access', `${accessOf(index, fault)}<span class="what">${whatLies(fault.value)}</span>`) +
    row('needs', NEEDS[fault.cause]) +
    row('had', `${moduleTag(domain)} ${rightTag(mine.value)} ${since(mine.since)}`) +
    row('owner', `${moduleTag(owner.value)} ${since(owner.since)}`) +
    row('others', others.join(', ') || 'no other module has a right there') +
    row('gates', gates.length ? gates.map(([from, to]) => `for ${moduleTag(from)} into ${moduleTag(to)}`).join(', ')
      : fault.cause === 1 ? 'none stands there for any module' : '') + '</dl>' +
    `<div>${touchTag(word, step)}${afterTag(index, did(index))}</div></div>`;
}

function otherFaultTag(index, fault) {
  const calls = callsBefore(hartAt[index], FIRST + index), gate = calls.find(call => call.isGate);
  switch (fault.cause) {
    case 2: return `<p>The word <code>${hex(fault.value)}</code> is no instruction of RV32IM.</p>`;
    case 3: return '<p>EBREAK: abort, a failed assertion, or a test of the module itself.</p>';
    case 0: case 17: case 18:
      return `<p>The target was ${wordLink(fault.value)}${fault.cause === 17 && gate
        ? `, and the caller's saved return address is <code>${hex(gate.pc + 4)}</code>` : ''}.</p>`;
    case 4: case 6: return `<p>The address ${wordLink(fault.value)} is no multiple of the access's size.</p>`;
    case 20: {
      const death = D.deaths.find(([, domain]) => domain === spot(index).domain);
      return `<p>${moduleTag(spot(index).domain)} is dead` +
        `${death ? ` since its fault at ${turnLink(death[0])}` : ''}.</p>`;
    }
    default: return `<p>The value is <code>${hex(fault.value)}</code>.</p>`;
  }
}

function afterTag(index, effect) {
  const back = effect.domain === undefined ? null : effect.registers.find(([register]) => register === 10);
  return back === null ? `<p>Hart ${hartAt[index]} was outside any call through a gate, and is halted.</p>`
    : `<p>The call through the gate ended: hart ${hartAt[index]} went on in ${moduleTag(effect.domain)}` +
      `${back ? ` with <code>${hex(back[1])}</code> in a0` : ''}.</p>`;
}

function faultsTag() {
  const SHOWN = 100;
  if (!faults.length) return '<p class="empty">No turn of this page faults: every access was allowed.</p>';
  return `<ol class="faults">${faults.slice(0, SHOWN).map(index => {
    const {domain} = spot(index), {fault} = did(index), step = FIRST + index;
    return `<li><a href="#turn=${step}" data-turn="${step}"${index === shown.index ? ' aria-current="true"' : ''}>` +
      `turn ${step}</a> ${moduleTag(domain)} ${CAUSES[fault.cause]}</li>`;
  }).join('')}</ol>${faults.length > SHOWN ? `<p>and ${plural(faults.length - SHOWN, 'fault')} more</p>` : ''}`;
}

function showWhy() {
  const effect = did(shown.index), {fault} = effect, denied = fault && fault.cause in NEEDS;
  const title = denied ? 'Why was it denied?' : fault ? 'Why did it fault?' : 'Faults';
  document.getElementById('why').classList.toggle('fault', Boolean(fault));
  document.getElementById('why').innerHTML = `<h2 id="why-title">${title}</h2>` + (fault
    ? `<p class="refused">Turn ${shown.step.toLocaleString('en')}, ${escaped(moduleName(spot(shown.index).domain))}: ` +
      `${CAUSES[fault.cause]}</p>` +
      (denied ? deniedTag(shown.index, fault) : otherFaultTag(shown.index, fault) + afterTag(shown.index, effect)) +
      (faults.length > 1 ? `<h3>All faults</h3>${faultsTag()}` : '')
    : faultsTag() + (exits.length ? `<h3>Exits</h3><ol class="faults">${exits.map(index =>
      `<li>${turnLink(FIRST + index)} ${moduleTag(spot(index).domain)} hart ${hartAt[index]} with code ` +
      `${did(index).exit | 0}</li>`).join('')}</ol>` : ''));
}
