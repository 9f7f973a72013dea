// Search as you type, Enter to tick, the count of the chosen, Escape for the next voter; a voter's page checks, records and
// answers in its place. Without this all works by Tab and Space, and each step is a page of its own.
document.documentElement.classList.add('scripted');
let form, search, count, rows, warned, typed, fast;
const plain = text => text.normalize('NFD').replace(/\p{M}/gu, '').toLowerCase();
const tell = before => {
  const chosen = rows.filter(it => it.box.checked).map(it => it.box.value), {longest, limits} = count.dataset;
  count.textContent = `${before}Chosen so far: ${chosen.join(', ') || 'nothing'} (${chosen.length} in all${limits && `; ${limits}`}).`
    + (chosen.length > Number(longest) ? ' That is too many.' : '');
};
const matching = wanted => rows.filter(it => it.id.startsWith(wanted) || it.name.includes(wanted));
// The projects whose ids are typed one after the other, of which the last may not be whole; or null.
const several = wanted => {
  const found = wanted.split(/[\s,;]+/).map(id => rows.filter(it => it.id === id && !it.box.disabled));
  const isList = found.length > 1 && found.slice(0, -1).every(it => it.length === 1) && !matching(wanted).length;
  return isList ? found.map(it => it.length === 1 ? it[0] : null) : null;
};
const find = () => {
  const wanted = plain(search.value.trim()), list = several(wanted);
  const shown = list ? [...list, ...matching(wanted.split(/[\s,;]+/).pop())] : matching(wanted);
  const those = new Set(shown);
  for (const it of rows) it.row.hidden = !those.has(it);
  tell('');
};
const enter = event => {
  const wanted = plain(search.value.trim()), list = several(wanted), shown = rows.filter(it => !it.row.hidden && !it.box.disabled);
  if (event.key !== 'Enter' || !wanted) return;
  event.preventDefault();
  if (list?.includes(null)) return void (count.textContent = 'No project has the last of these ids. Nothing was ticked.');
  const exact = shown.filter(it => it.id === wanted), found = list || (exact.length === 1 ? exact : shown);
  if (!list && found.length !== 1) return void (count.textContent = `${found.length || 'No'} projects match. Type more, or something else.`);
  for (const it of found) it.box.checked = list ? true : !it.box.checked;
  search.value = '';
  find();
  if (list) return form.requestSubmit(form.querySelector('button[value="cast"], button[value="replace"]'));
  tell(`${found[0].box.checked ? 'Ticked' : 'Took off'} project ${found[0].box.value}. `);
};
const begin = () => {
  [form, search, count] = ['ballot', 'search', 'count'].map(it => document.getElementById(it));
  [warned, typed, fast] = [false, -Infinity, 0];
  rows = !form ? [] : [...form.querySelectorAll('.project')].map(row => ({
    row, box: row.querySelector('input'), id: plain(row.querySelector('.id').textContent),
    name: plain(row.querySelector('.name').textContent) }));
  if (!form) return;
  search.addEventListener('input', find);
  form.addEventListener('change', () => tell(''));
  search.addEventListener('keydown', enter);
  tell('');
};
begin();
const note = (kind, words) => {
  const it = document.createElement('p');
  it.className = kind;
  it.setAttribute('role', kind === 'bad' ? 'alert' : 'status');
  it.textContent = words;
  return it;
};
// The check and the answer take the place of what is shown. No answer is no page: then this one stays, and says so.
addEventListener('submit', async event => {
  const path = new URL(event.submitter?.hasAttribute('formaction') ? event.submitter.formAction : event.target.action).pathname;
  if (path !== '/look' && path !== '/record') return;
  event.preventDefault();
  const main = document.querySelector('main'), parts = document.querySelectorAll('header, main');
  if (main.inert) return;
  const body = new URLSearchParams(new FormData(event.target, event.submitter));
  for (const it of parts) it.inert = true;
  // What is inert is not read aloud: so the words that it waits stand behind it.
  const waits = note('waits', '');
  main.after(waits);
  const soon = setTimeout(() => waits.textContent = 'Waiting for the answer, a minute at most. Leave this page open; nothing has to be sent again.', 1000);
  try {
    const answer = new DOMParser().parseFromString(await (await fetch(path, {method: 'POST', body})).text(), 'text/html');
    document.title = answer.title;
    document.body.replaceChildren(...answer.body.childNodes);
    scrollTo(0, 0);
    begin();
  } catch {
    main.prepend(note('bad', 'The window did not answer. It is not known whether anything was recorded: look up this voter again.'));
  }
  clearTimeout(soon);
  waits.remove();
  for (const it of parts) it.inert = false;
  document.querySelector('[autofocus]')?.focus();
});
addEventListener('keydown', event => {
  if (event.key !== 'Escape' || !document.getElementById('next')) return;
  event.preventDefault();       // The browser's own Escape would stop the page that is about to load.
  if (warned || !form?.querySelector(':checked')) return location.assign('/');
  warned = true;
  count.textContent = 'Press Escape once more to leave this voter. Nothing was sent.';
});
// A scanner types faster than a hand, and ends with Enter: on the check page that records nothing, and elsewhere it ticks nothing.
// Nor does an Enter that is held down.
addEventListener('keydown', event => {
  if (!form && !document.querySelector('form[action="/record"]')) return;
  const since = event.timeStamp - typed, isScanned = since < 100 && (fast > 2 || !form);
  if ((isScanned || event.repeat) && (event.key === 'Enter' || (event.key === ' ' && !form))) {
    event.preventDefault();
    event.stopPropagation();
    if (form) count.textContent = 'That came as fast as from a scanner: nothing was ticked. Escape leads to the next voter; Enter ticks.';
  } else if (event.key.length === 1) [fast, typed] = [since < 40 ? fast + 1 : 0, event.timeStamp];
}, true);
