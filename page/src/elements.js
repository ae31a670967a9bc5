// Elements of the page, made and filled. Texts are set as texts: what a file holds is never read as HTML.

const SVG = 'http://www.w3.org/2000/svg';

function filled(element, attributes, children) {
  for (const [name, value] of Object.entries(attributes)) {
    if (name.startsWith('on')) element.addEventListener(name.slice(2), value);
    else if (value === true) element.setAttribute(name, '');
    else if (value !== false && value !== null && value !== undefined) element.setAttribute(name, value);
  }
  element.append(...children.flat().filter(child => child !== null && child !== undefined && child !== false));
  return element;
}

/** An element of HTML: its name, its attributes (`onclick` and the like are listeners), what stands in it. */
export const html = (name, attributes = {}, ...children) => filled(document.createElement(name), attributes, children);

/** An element of SVG. */
export const svg = (name, attributes = {}, ...children) => filled(document.createElementNS(SVG, name), attributes, children);

/** The element of the page with an id. */
export const by_id = id => document.getElementById(id);

/** Puts other things into an element. */
export const fill = (element, ...children) => element.replaceChildren(...children.flat().filter(child => child !== null && child !== undefined && child !== false));

/** A table: its caption, its titles, its rows of cells; a cell is a text or an element. */
export function table(caption, titles, rows, attributes = {}) {
  const cell = (value, i) => html(i === 0 ? 'th' : 'td', { 'data-title': titles[i], ...(i === 0 ? { scope: 'row' } : {}) }, value);
  return html('table', attributes,
    html('caption', {}, caption),
    html('thead', {}, html('tr', {}, titles.map(title => html('th', { scope: 'col' }, title)))),
    html('tbody', {}, rows.map(row => html('tr', row.attributes ?? {}, (row.cells ?? row).map(cell)))));
}

/** A part that may be wider than the page: it is scrolled by itself, with the keyboard too. */
export const scrolled = (label, ...children) => html('div', { class: 'scrolled', tabindex: '0', role: 'region', 'aria-label': label }, ...children);

const PAUSE = 250; // milliseconds after the last key before a text is read

/** A call that waits until no key was pressed for a while: `now` makes one that waits at once, `stop` gives it up. */
export function after_pause(call) {
  let waiting = null;
  const stop = () => {
    clearTimeout(waiting);
    waiting = null;
  };
  const now = () => {
    if (waiting === null) return;
    stop();
    call();
  };
  const begin = () => {
    stop();
    waiting = setTimeout(now, PAUSE);
  };
  return { begin, now, stop };
}

/** `3 rows`, `1 row`. */
export const counted = (number, one, many = `${one}s`) => `${number.toLocaleString('en')} ${number === 1 ? one : many}`;

/** `A, B and C`; of many the first ones. */
export function listed(words, most = 8) {
  if (words.length > most) return `${words.slice(0, most).join(', ')} and ${(words.length - most).toLocaleString('en')} more`;
  return words.length < 2 ? words.join('') : `${words.slice(0, -1).join(', ')} and ${words.at(-1)}`;
}
