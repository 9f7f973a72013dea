// What there is to see in a page: an expression, whose value tools/look_at_page judges.
(() => {
  const text = element => element && element.textContent;
  const rows = section => [...document.querySelectorAll(`${section} tbody tr`)].map(row => [...row.cells].map(
    cell => {
      const copy = cell.cloneNode(true);
      for (const it of copy.querySelectorAll('details')) it.remove();
      return copy.textContent;
    }));
  const widths = selector => [...document.querySelectorAll(selector)].map(rect => Number(rect.getAttribute('width')));
  const channel = value => value <= 0.03928 ? value / 12.92 : ((value + 0.055) / 1.055) ** 2.4;
  const light = ([red, green, blue]) => 0.2126 * channel(red / 255) + 0.7152 * channel(green / 255) + 0.0722 * channel(blue / 255);
  const colour = value => value.match(/[\d.]+/g).map(Number);
  const paper = element => {
    for (; element; element = element.parentElement) {
      const found = colour(getComputedStyle(element).backgroundColor);
      if (found.length === 3 || found[3] > 0) return found;
    }
    return [255, 255, 255];
  };
  const contrast = element => {
    const [low, high] = [light(colour(getComputedStyle(element).color)), light(paper(element))].sort((a, b) => a - b);
    return (high + 0.05) / (low + 0.05);
  };
  // Each piece of text that is shown, with the box that it has to stay in.
  const shown = [];
  const walker = document.createTreeWalker(document.body, NodeFilter.SHOW_TEXT);
  while (walker.nextNode()) {
    const node = walker.currentNode, parent = node.parentElement;
    if (!node.data.trim() || parent.closest('svg') || parent.closest('thead') && getComputedStyle(parent.closest('thead')).position === 'absolute') continue;
    shown.push(node);
  }
  // Where the blocks of the budget are, in pixels from where it begins, and those whose label is neither whole in its block nor hidden.
  const budget = document.querySelector('div.budget'), blocks = [...budget.children];
  const inside = budget.getBoundingClientRect(), begins = getComputedStyle(budget).direction === 'rtl'
    ? it => inside.right - budget.clientLeft - it.right : it => it.left - inside.left - budget.clientLeft;
  const isCut = block => {
    const range = document.createRange(), bounds = block.getBoundingClientRect();
    range.selectNodeContents(block.querySelector('bdi'));
    return [...range.getClientRects()].some(it => it.top < bounds.bottom - 1 && (it.left < bounds.left - 1 || it.right > bounds.right + 1));
  };
  const isSeen = node => node.parentElement.closest('div.budget') === null || node.parentElement.getBoundingClientRect().top < inside.bottom - 1;
  const box = element => {
    while (getComputedStyle(element).display.startsWith('inline')) element = element.parentElement;
    return element.getBoundingClientRect();
  };
  const leaves = node => {
    const range = document.createRange(), bounds = box(node.parentElement);
    range.selectNodeContents(node);
    return [...range.getClientRects()].some(it => it.width > 0 && (it.left < bounds.left - 1 || it.right > bounds.right + 1
      || it.top < bounds.top - 3 || it.bottom > bounds.bottom + 3 || it.right > innerWidth + 1 || it.left < -1));
  };
  // What is in `details` is measured as a reader opens it.
  const closed = [...document.querySelectorAll('details:not([open])')];
  closed.forEach(it => { it.open = true; });
  const leaving = shown.filter(it => isSeen(it) && leaves(it)).map(it => it.data.slice(0, 60));
  closed.forEach(it => { it.open = false; });
  return {
    language: document.documentElement.lang,
    direction: document.documentElement.dir,
    title: document.title,
    heading: text(document.querySelector('h1')),
    headings: [...document.querySelectorAll('h1, h2, h3, h4, h5, h6')].map(it => Number(it.tagName[1])),
    lead: [...document.querySelectorAll('.lead')].map(text),
    winners: rows('.won:not(.money)'),
    categories: rows('.money'),
    others: rows('.lost'),
    voters: rows('.many'),
    got: (document.querySelector('.many p') || { textContent: '' }).textContent,
    blocks: blocks.map(it => [it.style.getPropertyValue('--from'), it.style.getPropertyValue('--wide'), it.title, text(it)]),
    placed: blocks.every(it => ['--from', '--wide'].every((name, at) => Math.abs(it.style.getPropertyValue(name) / 10000 * budget.clientWidth
      - [begins(it.getBoundingClientRect()), it.getBoundingClientRect().width][at]) < 1)),
    cut: blocks.filter(isCut).map(text),
    caption: text(document.querySelector('figcaption')),
    bars: { won: widths('.won:not(.money) .bar rect'), money: widths('.money .bar rect'), lost: widths('.lost .bar rect'), many: widths('.many .bar rect') },
    works: text(document.querySelector('#rule ~ p')),
    drawn: [document.querySelectorAll('.shares .share, .shares .raise, .shares .winners, .shares .budget').length, text(document.querySelector('#rule ~ figure figcaption'))],
    sentences: [...document.querySelectorAll('ol > li')].map(text),
    ties: [...document.querySelectorAll('ul.ties > li')].map(text),
    ended: [...document.querySelectorAll('ol > li:not(:has(.ties))')].slice(4, -1).map(it => text(it).replace(/\s+/g, ' ').trim()),
    digests: [...document.querySelectorAll('dd code')].map(text),
    command: text(document.querySelector('pre')),
    data: [...document.querySelectorAll('data')].map(it => [(it.closest('[data-project]') || it).dataset.project || '', it.className, it.value])
      .filter(([project, name]) => project || name),
    figures: [...document.querySelectorAll('data')].map(it => [it.value, it.textContent]),
    picture: budget.getAttribute('aria-label'),
    options: [...document.querySelectorAll('pre ~ p')].map(text),
    money: [...document.querySelectorAll('.lost details')].map(it => [...it.querySelectorAll('summary, li, a')].map(
      part => part.matches('a') ? part.getAttribute('href') : text(part))),
    places: [...document.querySelectorAll('[data-project]')].map(it => it.id),
    contents: [...document.querySelectorAll('nav a')].map(it => [it.getAttribute('href'), text(it)]),
    links: [...document.querySelectorAll('p a')].map(it => [it.getAttribute('href'), text(it)]),
    directions: [...document.querySelectorAll('bdi, h1, .id')].every(it => it.getAttribute('dir') === 'auto')
      && [...document.querySelectorAll('data, code')].map(it => getComputedStyle(it)).every(it => it.direction === 'ltr' && it.unicodeBidi === 'isolate'),
    tables: [...document.querySelectorAll('table')].every(it => it.caption && it.caption.textContent.trim()
      && [...it.querySelectorAll('thead th')].every(th => th.scope === 'col') && [...it.rows].slice(1).every(row => row.querySelector('th[scope=row]'))),
    scripts: document.querySelectorAll('script, iframe, object, embed, img, link:not([rel=icon])').length,
    handlers: [...document.querySelectorAll('*')].flatMap(it => [...it.attributes]).filter(it => it.name.startsWith('on') || /^\s*javascript:/i.test(it.value)).length,
    elements: [...new Set([...document.querySelectorAll('body *')].map(it => it.localName))].sort(),
    wide: document.documentElement.scrollWidth > innerWidth,
    narrow: [...document.querySelectorAll('thead th')].filter(it => getComputedStyle(it.closest('thead')).position !== 'absolute'
      && it.getBoundingClientRect().width < 48).map(text),
    leaving,
    faint: shown.filter(it => contrast(it.parentElement) < 4.5).map(it => `${it.data.trim().slice(0, 40)} ${contrast(it.parentElement).toFixed(2)}`),
  };
})()
