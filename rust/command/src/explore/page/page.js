'use strict';
// All states are in the page: a state is a number, the last word fastest; what it comes to is looked up.
(() => {
  const data = JSON.parse(document.getElementById('data').textContent);
  const at = id => document.getElementById(id);

  // [number, length] pairs: a number for each state.
  const spread = runs => {
    const all = new Uint32Array(data.total);
    let from = 0;
    for (const [number, length] of runs) {
      all.fill(number, from, from + length);
      from += length;
    }
    return all;
  };
  const cells = spread(data.cells);
  const ways = spread(data.wayCells);
  const form = at('switches');
  const chosen = word => Number(form.querySelector(`input[name=w${word}]:checked`).value);
  const state = () => data.words.reduce((sum, word, index) => sum + chosen(index) * word.stride, 0);

  const show = () => {
    const now = state();
    const outcome = data.outcomes[cells[now]];
    at('winner').textContent = outcome.winner;
    at('group').textContent = outcome.group;
    at('says').textContent = outcome.says;
    at('late').textContent = outcome.late || '';
    at('state').textContent = now;
    at('pick').textContent = now;
    at('chip').querySelector('rect').setAttribute('fill', 'url(#look' + outcome.look + ')');
    at('chip').querySelector('text').textContent = outcome.group;
    at('way').replaceChildren(...data.ways[ways[now]].map(sentence => {
      const item = document.createElement('li');
      item.textContent = data.sentences[sentence];
      return item;
    }));
    for (const badge of document.querySelectorAll('[data-word]')) {
      const word = Number(badge.dataset.word);
      badge.textContent = data.words[word].labels[chosen(word)];
      badge.classList.toggle('held', chosen(word) > 0);
    }
    for (const row of document.querySelectorAll('[data-group]')) {
      row.classList.toggle('now', row.dataset.group === outcome.group);
    }
    history.replaceState(null, '', '#' + now);
  };

  const choose = number => {
    data.words.forEach((word, index) => {
      const value = Math.floor(number / word.stride) % word.labels.length;
      form.querySelector(`input[name=w${index}][value="${value}"]`).checked = true;
    });
    show();
  };

  const asked = () => {
    const number = Number(location.hash.slice(1));
    const known = location.hash.length > 1 && Number.isInteger(number) && number >= 0 && number < data.total;
    choose(known ? number : data.own);
  };

  form.addEventListener('change', show);
  at('free').addEventListener('click', () => choose(0));
  at('own').addEventListener('click', () => choose(data.own));
  window.addEventListener('hashchange', asked);
  form.hidden = false;
  asked();
})();
