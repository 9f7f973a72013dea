// What there is to see in a page of the clerks' window: an expression, whose value tools/try_window judges.
(() => {
  const all = selector => [...document.querySelectorAll(selector)];
  const channel = value => value <= 0.03928 ? value / 12.92 : ((value + 0.055) / 1.055) ** 2.4;
  const light = ([red, green, blue]) => 0.2126 * channel(red / 255) + 0.7152 * channel(green / 255) + 0.0722 * channel(blue / 255);
  const colour = value => value.match(/[\d.]+/g).map(Number);
  const paper = element => {
    for (; element; element = element.parentElement) {
      const found = colour(getComputedStyle(element).backgroundColor);
      if (found.length === 3 || found[3] > 0) return found;
    }
    return [255, 255, 255];
  };
  const ratio = (one, two) => {
    const [low, high] = [light(one), light(two)].sort((a, b) => a - b);
    return (high + 0.05) / (low + 0.05);
  };
  const isShown = element => element.getClientRects().length > 0;
  const texts = [];
  const walker = document.createTreeWalker(document.body, NodeFilter.SHOW_TEXT);
  while (walker.nextNode()) if (walker.currentNode.data.trim() && isShown(walker.currentNode.parentElement)) texts.push(walker.currentNode);
  const box = element => {
    while (getComputedStyle(element).display.startsWith('inline')) element = element.parentElement;
    return element.getBoundingClientRect();
  };
  const leaves = node => {
    if (node.parentElement.closest('.wide')) return false;
    const range = document.createRange(), bounds = box(node.parentElement);
    range.selectNodeContents(node);
    return [...range.getClientRects()].some(it => it.width > 0 && (it.left < bounds.left - 1 || it.right > bounds.right + 1
      || it.right > innerWidth + 1 || it.left < -1));
  };
  const inputs = all('input:not([type=hidden]), select, textarea').filter(isShown);
  const acts = all('nav a, .buttons a, button, input:not([type=hidden]):not([type=checkbox])').filter(isShown);
  return {
    language: document.documentElement.lang,
    title: document.title.length > 0,
    headings: all('h1, h2, h3, h4, h5, h6').map(it => Number(it.tagName[1])),
    unlabelled: inputs.filter(it => ![...it.labels].some(label => label.textContent.trim())).map(it => it.outerHTML.slice(0, 80)),
    unnamed: all('a[href], button').filter(it => !it.textContent.trim()).map(it => it.outerHTML.slice(0, 80)),
    twice: all('[id]').map(it => it.id).filter((id, at, ids) => ids.indexOf(id) !== at),
    faint: texts.filter(it => ratio(colour(getComputedStyle(it.parentElement).color), paper(it.parentElement)) < 4.5)
      .map(it => `${it.data.trim().slice(0, 40)} ${ratio(colour(getComputedStyle(it.parentElement).color), paper(it.parentElement)).toFixed(2)}`),
    edges: inputs.filter(it => it.type !== 'checkbox' && ratio(colour(getComputedStyle(it).borderTopColor), paper(it.parentElement)) < 3)
      .map(it => it.outerHTML.slice(0, 80)),
    small: acts.filter(it => { const size = it.getBoundingClientRect(); return size.height < 24; }).map(it => it.outerHTML.slice(0, 80)),
    wide: document.documentElement.scrollWidth > innerWidth,
    leaving: texts.filter(leaves).map(it => it.data.trim().slice(0, 60)),
    elements: [...new Set(all('body *').map(it => it.localName))].sort(),
    handlers: all('*').flatMap(it => [...it.attributes]).filter(it => it.name.startsWith('on') || it.name === 'style').length,
    landmarks: all('main').length,
    focus: document.activeElement ? document.activeElement.id || document.activeElement.textContent.trim() : '',
  };
})()
