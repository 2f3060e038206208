'use strict';
// The list of pages in a narrow window, and the search: over an index that comes as a script, so that no server is needed.
const query = document.getElementById('query');
const found = document.getElementById('found');
const list = document.getElementById('list');
const count = document.getElementById('count');
const menu = document.getElementById('menu');
const MOST = 20;
let index = null;

menu.addEventListener('click', () => {
  const open = document.getElementById('pages').classList.toggle('open');
  menu.setAttribute('aria-expanded', String(open));
});

function load() {
  if (index || document.getElementById('index')) return;
  const script = document.createElement('script');
  script.id = 'index';
  script.src = base + '/search/search_index.js';
  script.onload = () => {
    // a page as a whole stands in the index besides its parts
    index = searchIndex.docs.filter(part => part.location.includes('#')).map(part => ({...part, low: part.text.toLowerCase(), head: part.title.toLowerCase()}));
    search();
  };
  document.head.append(script);
}

// How well a part of a page fits all words: words of the heading count most, and whole phrases more than single words.
function weight(part, words, phrase) {
  let sum = 0;
  for (const word of words) {
    const times = part.low.split(word).length - 1;
    const heads = part.head.includes(word);
    if (!times && !heads) return 0;
    sum += (heads ? 20 : 0) + Math.min(times, 5);
  }
  return sum + (part.low.includes(phrase) ? 10 : 0) + (part.head.includes(phrase) ? 30 : 0);
}

// A piece of a text about the phrase, or else about the word that is rarest there, with each word marked.
function marked(text, words, phrase) {
  const made = document.createElement('span');
  const low = text.toLowerCase();
  const rarest = words.filter(word => low.includes(word)).sort((a, b) => low.split(a).length - low.split(b).length)[0];
  const first = low.includes(phrase) ? low.indexOf(phrase) : rarest ? low.indexOf(rarest) : 0;
  const from = first > 60 ? text.lastIndexOf(' ', first - 60) + 1 : 0;
  const piece = (from ? '… ' : '') + text.slice(from, from + 200) + (from + 200 < text.length ? ' …' : '');
  let rest = piece;
  while (rest) {
    const left = rest.toLowerCase();
    const next = words.map(word => [left.indexOf(word), word.length]).filter(([at]) => at >= 0).sort((a, b) => a[0] - b[0] || b[1] - a[1])[0];
    if (!next) break;
    made.append(rest.slice(0, next[0]));
    const mark = document.createElement('mark');
    mark.textContent = rest.slice(next[0], next[0] + next[1]);
    made.append(mark);
    rest = rest.slice(next[0] + next[1]);
  }
  made.append(rest);
  return made;
}

function entry(part, words, phrase) {
  const item = document.createElement('li');
  const link = document.createElement('a');
  const head = document.createElement('b');
  const page = document.createElement('small');
  link.href = base + '/' + part.location;
  head.textContent = part.title;
  page.textContent = '  ' + part.location.split('#')[0].replace(/\.html$/, '').replace(/^index$/, 'README');
  link.append(head, page, marked(part.text, words, phrase));
  link.addEventListener('click', () => { found.hidden = true; });
  item.append(link);
  return item;
}

function search() {
  const phrase = query.value.trim().toLowerCase();
  found.hidden = !phrase;
  if (!phrase || !index) return;
  const words = [...new Set(phrase.split(/\s+/))];
  const parts = index.map(part => [weight(part, words, phrase), part]).filter(([sum]) => sum).sort((a, b) => b[0] - a[0]);
  list.replaceChildren(...parts.slice(0, MOST).map(([, part]) => entry(part, words, phrase)));
  count.textContent = parts.length === 0 ? 'Nothing found' : parts.length > MOST ? `The best ${MOST} of ${parts.length} places` : `${parts.length} place${parts.length > 1 ? 's' : ''}`;
}

query.addEventListener('focus', load);
query.addEventListener('input', () => { load(); search(); });
document.addEventListener('keydown', event => {
  const links = [...list.querySelectorAll('a')];
  const at = links.indexOf(document.activeElement);
  if (event.key === '/' && document.activeElement !== query) {
    event.preventDefault();
    query.select();
    query.focus();
  } else if (event.key === 'Escape' && !found.hidden) {
    found.hidden = true;
    query.focus();
  } else if (!found.hidden && (event.key === 'ArrowDown' || event.key === 'ArrowUp') && (at >= 0 || document.activeElement === query)) {
    event.preventDefault();
    const next = event.key === 'ArrowDown' ? Math.min(at + 1, links.length - 1) : at - 1;
    if (next < 0) query.focus(); else links[next].focus();
  } else if (event.key === 'Enter' && document.activeElement === query && links.length) {
    links[0].click();
  }
});
document.addEventListener('click', event => {
  if (!event.target.closest('.search')) found.hidden = true;
});
