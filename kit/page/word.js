// A word that is chosen: who may do what with it, who owns it, since when, and each turn at which that changed.

// The value of a domain's right (or of the owner, domain 0) after a step, and the step since when it is so, or 0.
function standing(history, domain, step, now) {
  const before = history.filter(each => each.domain === domain && each.step <= step);
  const last = before[before.length - 1];
  return {value: now, since: last ? last.step : 0};
}

function storesTo(word) {
  const found = [];
  for (let index = shown.index; index >= 0 && found.length < 1; index--)
    if (effectAt[index].includes('S')) {
      const {store} = did(index);
      if (store && store.at - store.at % 4 === word) found.push(index);
    }
  return found;
}

function historyTag(history) {
  const MOST = 200, done = countUpTo(history, shown.step, each => each.step);
  const first = Math.max(Math.min(done - MOST / 2, history.length - MOST), 0), behind = history.length - first - MOST;
  const rows = history.slice(first, first + MOST).map(({step, number, domain, had, now}) => {
    const what = domain === 0 ? `owner ${moduleTag(had)} &rarr; ${moduleTag(now)}`
      : `${moduleTag(domain)} ${rightTag(had)} &rarr; ${rightTag(now)}`;
    const by = change(number);
    return `<tr class="${step <= shown.step ? '' : 'later'}"><td>${turnLink(step)}</td><td>${what}</td>` +
      `<td>${CALLS[by.call]} by ${moduleTag(by.domain)}</td><td>${siteTag(step)}</td></tr>`;
  });
  if (!rows.length) return '<p class="empty">No turn of this page changes a right on this word, or its owner.</p>';
  return (first ? `<p>${plural(first, 'change')} before these</p>` : '') +
    '<div class="wide" tabindex="0" role="region" aria-labelledby="word-title"><table class="history"><thead><tr>' +
    '<th>turn</th><th>changed</th><th>by</th><th>line</th></tr></thead>' +
    `<tbody>${rows.join('')}</tbody></table></div>` +
    (behind > 0 ? `<p>and ${plural(behind, 'change')} behind them</p>` : '');
}

function showWord() {
  const panel = document.getElementById('word'), word = shown.word;
  if (word === null) {
    panel.innerHTML = '<h2 id="word-title">A word</h2><p class="empty">Click the picture of rights, or any address, ' +
      'to see who may do what with a word, who owns it, and when that changed.</p>';
    return;
  }
  const history = historyOf(word), owner = standing(history, 0, shown.step, owners.at(word));
  const others = [], rows = rights.map((runs, number) => {
    const {value, since: step} = standing(history, number + 1, shown.step, runs.at(word));
    if (!value && !step) others.push(moduleTag(number + 1));
    return value || step ? `<tr><th scope="row">${moduleTag(number + 1)}</th><td>${rightTag(value)}</td>` +
      `<td>${since(step)}</td></tr>` : '';
  });
  const gates = gatesAt(word, shown.step).map(([domain, target]) => domain === target
    ? `a return gate of ${moduleTag(target)}` : `${moduleTag(domain)} enters ${moduleTag(target)} here`);
  const stored = storesTo(word);
  panel.innerHTML = `<h2 id="word-title">The word at <code>${hex(word)}</code></h2>` +
    `<p>${whatLies(word)} &middot; owner ${moduleTag(owner.value)} ${since(owner.since)}</p>` +
    '<p class="buttons">' +
    `<button data-word="${Math.max(word - 4, D.ram[0])}">&lsaquo; word</button>` +
    `<button data-word="${Math.min(word + 4, D.ram[1] - 4)}">word &rsaquo;</button></p>` +
    `<table class="may"><caption>at turn ${shown.step.toLocaleString('en')}</caption>${rows.join('')}</table>` +
    (others.length ? `<p>${rightTag(0)} ${since(0)}: ${others.join(' ')}</p>` : '') +
    (gates.length ? `<p>Gates: ${gates.join('; ')}</p>` : '') +
    (stored.length ? `<p>Last stored to at ${turnLink(FIRST + stored[0])}, by ` +
      `${moduleTag(spot(stored[0]).domain)}.</p>` : '') +
    `<h3>When that changed</h3>${historyTag(history)}`;
  const later = panel.querySelector('.history .later'), wide = panel.querySelector('.wide');
  if (wide) wide.scrollTop = later ? later.offsetTop - wide.clientHeight * 0.7 : wide.scrollHeight;
}
