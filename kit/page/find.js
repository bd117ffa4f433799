// Finds a turn, a word, a function or an instruction.

// The next turn at such a place, from the one that is chosen on and then from the first, or -1.
function find(wanted) {
  const good = D.spots.map(([, , , text, line]) => withNames(text).includes(wanted) || text.includes(wanted) ||
    rowsOf(line).some(([name, file, at]) => name.startsWith(wanted) || `${shortFile(file)}:${at}` === wanted));
  if (good.includes(true))
    for (let on = 1; on <= COUNT; on++) {
      const index = (shown.index + on) % COUNT;
      if (good[spotAt[index]]) return index;
    }
  return -1;
}

function ask(text) {
  const wanted = text.trim(), said = document.getElementById('found');
  said.textContent = '';
  if (!wanted) return;
  if (/^[0-9][0-9,']*$/.test(wanted)) {
    const step = Number(wanted.replace(/[,']/g, ''));
    if (step < FIRST || step > LAST) said.textContent = `This page has the turns ${FIRST} to ${LAST}.`;
    else choose(step);
    return;
  }
  if (/^0x[0-9a-f]{1,8}$/i.test(wanted)) {
    const address = parseInt(wanted, 16);
    if (address < D.ram[0] || address >= D.ram[1])
      said.textContent = `RAM has the addresses ${hex(D.ram[0])} to ${hex(D.ram[1] - 1)}.`;
    else chooseWord(address - address % 4);
    return;
  }
  const index = find(wanted), name = D.names.find(each => each[3] === wanted);
  if (index >= 0) choose(FIRST + index);
  if (name) chooseWord(name[1] - name[1] % 4);
  if (index < 0 && !name) said.textContent = `No turn, function or variable of this page is “${wanted}”.`;
}

function listenToFind() {
  const field = document.getElementById('asked');
  document.getElementById('find').addEventListener('submit', event => {
    event.preventDefault();
    ask(field.value);
  });
  field.addEventListener('keydown', event => {
    if (event.key === 'Escape') { field.value = ''; document.getElementById('found').textContent = ''; canvas.focus(); }
  });
}
