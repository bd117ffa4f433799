// How things are said: numbers, names, places, calls, and links.

const REGISTERS = ('zero ra sp gp tp t0 t1 t2 s0 s1 a0 a1 a2 a3 a4 a5 a6 a7 s2 s3 s4 s5 s6 s7 s8 s9 s10 s11 ' +
  't3 t4 t5 t6').split(' ');
const RIGHTS = ['none', 'r', 'rw', 'rx'];
const CALLS = ['', 'exit', 'write', 'grant', 'revoke_all', 'transfer', 'alloc', 'free', 'gate', 'ungate',
  'return_gate', 'query', 'self', 'exchange'];
const CODES = ['', 'no range, or no word', 'not the owner', 'no such domain', 'no such permission', 'tables full',
  'no room', 'too many blocks', 'no block', 'too many gates', 'inside a call', 'too long', 'denied', 'no such call',
  'too many runs of owner', 'no gate'];
const CAUSES = {
  0: 'jump to an address that is no multiple of 4', 1: 'fetch denied', 2: 'illegal instruction', 3: 'EBREAK',
  4: 'load misaligned', 5: 'load denied', 6: 'store misaligned', 7: 'store denied',
  16: 'a gate crossed with 64 calls on the cross stack', 17: 'a return to another address than the saved one',
  18: 'a return gate used outside any call', 19: 'a gate crossed with ra no multiple of 4',
  20: 'the module is dead',
};

const ESCAPES = {'&': '&amp;', '<': '&lt;', '>': '&gt;', '"': '&quot;'};
const escaped = text => String(text).replace(/[&<>"]/g, c => ESCAPES[c]);
const hex = value => '0x' + (value >>> 0).toString(16).padStart(8, '0');
const plural = (count, word) => `${count.toLocaleString('en')} ${word}${count === 1 ? '' : 's'}`;
const moduleName = domain => D.modules[domain - 1] ? D.modules[domain - 1].name : `domain ${domain}`;

// A module with its number, in its colour.
const moduleTag = domain => domain === 0 ? '<span class="module nobody">nobody</span>'
  : `<span class="module m${(domain - 1) % 8}"><b>${domain}</b> ${escaped(moduleName(domain))}</span>`;
const rightTag = right => `<span class="right ${RIGHTS[right]}">${RIGHTS[right]}</span>`;

const turnLink = (step, text) => step < FIRST || step > LAST ? `turn ${step}`
  : `<a href="#turn=${step}" data-turn="${step}">${text || `turn ${step}`}</a>`;
const wordLink = address => address < D.ram[0] || address >= D.ram[1] ? `<code>${hex(address)}</code>`
  : `<a href="#word=${hex(address & ~3)}" data-word="${address - address % 4}"><code>${hex(address)}</code></a>`;
const since = step => step ? `since ${turnLink(step)}` : FIRST > 1 ? `since before turn ${FIRST}` : 'since the boot';

// The name at an address, as `text + 8`, or nothing; and the area that holds it.
function nameAt(address) {
  for (let at = countUpTo(D.names, address, row => row[1]) - 1, tries = 0; at >= 0 && tries < 8; at--, tries++) {
    const [, low, size, name] = D.names[at];
    if (size ? address < low + size : areaAt(low) && areaAt(low) === areaAt(address))
      return name + (address > low ? ` + ${address - low}` : '');
  }
  return '';
}
const areaAt = address => D.areas.find(([, low, high]) => low <= address && address < high);
function whatLies(address) {
  const area = areaAt(address);
  if (address < D.ram[0] || address >= D.ram[1]) return 'no address of RAM';
  const name = nameAt(address);
  return (name ? `<code>${escaped(name)}</code>, ` : '') + (area ? escaped(area[3]) : 'no area of a module');
}

// Functions and lines. A place is a number of D.lines: the functions there, from the innermost.
const isOwn = ([name, file]) => file && !/^(kit|\/)/.test(file) && !/(^|\/)mondrix\.h$/.test(file) &&
  !name.startsWith('mondrix_');
function rowsOf(line) { return line < 0 ? [] : D.lines[line].slice(1); }
function lineText([, file, line]) {
  const source = D.files[file];
  return source && source[1][line] !== undefined ? source[1][line].trim() : '';
}
const isNewer = file => D.files[file] && D.files[file][0];
function rowTag(row) {
  const [name, file, line] = row;
  return `<code>${escaped(name)}</code>` +
    (file ? ` <span class="at">${escaped(shortFile(file))}:${line}</span>` : '') +
    (isNewer(file) ? ' <span class="at">(the source is newer)</span>' : '');
}
const shortFile = file => file.startsWith('/') ? file.split('/').pop() : file;
// One line: the innermost function of the module's own sources, else the innermost.
function placeTag(line, pc) {
  const rows = rowsOf(line);
  return rows.length ? rowTag(rows.find(isOwn) || rows[0]) : `<code>${hex(pc)}</code>`;
}
// Where a turn was made in C: here, or in the nearest caller in the same module that has lines of its own.
function siteOf(step) {
  const at = spot(step - FIRST), ways = [at.line];
  for (const call of callsBefore(hartAt[step - FIRST], step)) {
    if (call.isGate) break;
    ways.push(call.line);
  }
  const rows = ways.flatMap(rowsOf);
  return rows.find(isOwn) || rows[0] || null;
}
function siteTag(step) {
  const row = step >= FIRST && siteOf(step);
  if (!row) return step >= FIRST ? `<code>${hex(spot(step - FIRST).pc)}</code>` : '';
  const text = lineText(row);
  return rowTag(row) + (text ? `<code class="source">${escaped(text)}</code>` : '');
}

const withNames = text => text.replace(/\bx([0-9]+)\b/g, (whole, number) => REGISTERS[number] || whole);

// What an answer says.
function answerTag(number, answer) {
  const code = answer > 0xffffff00 ? (answer | 0) : 0;
  if (code < 0 && -code < CODES.length) return `<b class="refused">refused: ${CODES[-code]} (${code})</b>`;
  if (number === 11) return `${rightTag(answer & 3)}`;
  if (number === 12) return `hart ${answer >> 8}, module ${moduleTag(answer & 255)}`;
  if (number === 6) return wordLink(answer);
  return number === 2 ? plural(answer, 'byte') : number === 1 ? '' : answer === 0 ? 'done' : String(answer | 0);
}
const rangeTag = (low, high) => `${wordLink(low)} to <code>${hex(high)}</code>`;
const bytesTag = (low, bytes) => `${wordLink(low)}, ${plural(bytes, 'byte')}`;

// A call of the supervisor by its number and the arguments in a0 to a3.
function callTag(number, [a0, a1, a2, a3]) {
  const name = `<b>${CALLS[number] || `call ${number}`}</b>`;
  switch (number) {
    case 1: return `${name} with code ${a0 | 0}`;
    case 2: return `${name} to the console: ${bytesTag(a0, a1)}`;
    case 3: return `${name} to ${moduleTag(a2)}: ${a3 < 4 ? rightTag(a3) : a3} on ${bytesTag(a0, a1)}`;
    case 4: return `${name}: the right of all others on ${bytesTag(a0, a1)}`;
    case 5: return `${name} to ${moduleTag(a2)}: ${bytesTag(a0, a1)}`;
    case 6: return `${name} of ${plural(a0, 'word')}`;
    case 7: return `${name} of the block at ${wordLink(a0)}`;
    case 8: return `${name} at ${wordLink(a0)} for ${moduleTag(a1)}`;
    case 9: return `${name} at ${wordLink(a0)} of ${moduleTag(a1)}`;
    case 10: return `${name} at ${wordLink(a0)}`;
    case 11: return `${name}: the right of ${moduleTag(a1)} at ${wordLink(a0)}`;
    case 13: return `${name} at ${wordLink(a0)} with <code>${hex(a1)}</code>`;
    default: return name;
  }
}

// A change of rights or owners in a line: who did what to which words.
function changeTag(made) {
  const by = `${moduleTag(made.domain)} `, words = rangeTag(made.low, made.high);
  switch (made.call) {
    case 3: return `${by}granted ${moduleTag(made.to)} ${rightTag(made.right)} on ${words}`;
    case 4: return `${by}took the rights of all others on ${words}`;
    case 5: return `${by}gave ${words} to ${moduleTag(made.to)}`;
    case 6: return `${by}took a block, ${words}`;
    default: return `${by}gave a block back, ${words}`;
  }
}
