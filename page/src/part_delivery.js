// The part of the page on the delivery: what the page takes it to be, what it asks, the verdict and the differences.

import { iso, read_date } from './dates.js';
import { after_pause, by_id, counted, fill, html, listed, scrolled, table } from './elements.js';
import { taken } from './files.js';
import { WHY, differences_of, pace } from './judge.js';
import { COLUMNS, ROWS_AT_MOST, TEXT_AT_MOST, guess, line_of, lines_of, order_of, row_of, text_of } from './rows.js';

const NAMES = { product: 'Product', maturity: 'Maturity', day: 'Last trading day', number: 'Listing number', back: 'Days moved back' };
const SEPARATORS = { ',': 'comma', ';': 'semicolon', '\t': 'tab', '|': 'bar', ' ': 'spaces', '  ': 'two spaces or more' };
const TITLES = ['Product', 'Maturity', 'Delivered', 'Right', 'Why'];
const FIELDS = ['product', 'maturity', 'delivered', 'right', 'why'];
const SHOWN_AT_MOST = 500, UNREAD_AT_MOST = 200; // rows of a table, as long as not all are asked for
const PASTED = 'Pasted rows';

// ---- What it is taken to be ----

function choice(id, label, options, value, choose) {
  return html('p', {}, html('label', { for: id }, label), html('select', { id, onchange: event => choose(event.target.value) },
    options.map(([name, words]) => html('option', { value: name, selected: String(name) === String(value) }, words))));
}

function column_words(plan, at) {
  const title = plan.titles?.[at], first = plan.sample.find(fields => fields[at])?.[at];
  return `${at + 1}: ${(title || first || 'empty').slice(0, 24)}`;
}

// The guess, each part of it to be changed.
function show_guess(state) {
  const { plan } = state.delivery, again = change => {
    Object.assign(state.delivery, { plan: { ...plan, ...change, own: false }, asked: null, changed: true });
    show_plan(state);
    state.changed('plan');
  };
  const columns = Array.from({ length: plan.width }, (_, at) => [at, column_words(plan, at)]);
  const titles = Array.from({ length: plan.width }, (_, at) => COLUMNS.filter(name => plan.columns[name] === at).map(name => NAMES[name]).join(', ') || 'not read');
  fill(by_id('guess'), html('fieldset', {},
    html('legend', {}, 'What this page takes the delivery to be'),
    html('p', { class: 'soft' }, plan.own ? 'Rows as the service writes them. ' : '', `Fields are parted by ${SEPARATORS[plan.separator]}; the first line is ${plan.heading ? 'a heading' : 'a row'}. Change what is not right:`),
    html('div', { class: 'fields' },
      choice('separator', 'Parted by', Object.entries(SEPARATORS), plan.separator, separator => {
        again(guess(state.delivery.text, state.file?.kinds ?? new Map(), separator));
      }),
      choice('heading', 'First line', [['yes', 'is a heading'], ['no', 'is a row']], plan.heading ? 'yes' : 'no', value => again({ heading: value === 'yes' })),
      COLUMNS.map(name => choice(`column-${name}`, NAMES[name], [[-1, 'no column'], ...columns], plan.columns[name], at => again({ columns: { ...plan.columns, [name]: Number(at) } })))),
    plan.sample.length > 0 && scrolled('The first rows', html('table', {}, html('caption', {}, 'The first rows'),
      html('thead', {}, html('tr', {}, titles.map(title => html('th', { scope: 'col' }, title)))),
      html('tbody', {}, plan.sample.map(fields => html('tr', {}, titles.map((_, at) => html('td', {}, fields[at] ?? '')))))))));
}

// What is not certain is asked: which of the two numbers of a date is the month.
function show_order(state) {
  const { delivery } = state, { shown, open } = order_of(delivery.text, delivery.plan);
  const one = shown.day && !shown.month ? 'day' : shown.month && !shown.day ? 'month' : null;
  delivery.order = one ?? delivery.asked;
  delivery.waits = open !== null && delivery.order === null;
  if (!open) return fill(by_id('order'));
  if (one) return fill(by_id('order'), html('p', { class: 'said' }, `Dates are read with the ${one} first: line ${shown[one].number} has ${shown[one].text}, which can be read in this way only.`));
  const meant = read_date(open.text).either, radio = (order, words) => html('p', {}, html('label', {}, html('input', {
    type: 'radio', name: 'order', value: order, checked: delivery.asked === order, onchange: () => {
      delivery.asked = order;
      show_order(state);
      state.changed('plan');
    } }), ' ', words));
  return fill(by_id('order'), html('fieldset', { class: 'said ask' }, html('legend', {}, `Line ${open.number} has ${open.text}. Which day is that?`),
    shown.day && html('p', {}, `Line ${shown.day.number} has the day first (${shown.day.text}), line ${shown.month.number} the month (${shown.month.text}).`),
    radio('day', `${iso(meant.day)}: the day stands first`), radio('month', `${iso(meant.month)}: the month stands first`)));
}

function show_plan(state) {
  show_guess(state);
  show_order(state);
}

// ---- The verdict ----

// All rows of the text, as far as they may be judged and one more, and the lines that are none.
async function read_rows({ text, plan, order }, kinds, told) {
  const rows = [], bad = [], next = pace(told);
  let skipped = !plan.heading, unread = 0;
  for (const { number, line } of lines_of(text)) {
    if (!skipped) {
      skipped = true;
      continue;
    }
    const row = row_of(line, plan, order, kinds);
    if (row.bad) {
      unread++;
      if (bad.length < UNREAD_AT_MOST) bad.push({ number, why: row.bad, line });
    } else if (rows.push(row.fields) > ROWS_AT_MOST) break;
    await next(0);
  }
  return { rows, bad, unread };
}

// The verdict in one sentence.
function sentence({ rows, unread }, { found, over }, file) {
  const products = new Set(rows.map(([id]) => id)).size, all = `${counted(rows.length, 'row')} of ${counted(products, 'product')}`;
  if (over) return ['no', `There are more than ${ROWS_AT_MOST.toLocaleString('en')} rows, so nothing is said of them.`];
  const lines = unread > 0 ? ` ${counted(unread, 'line')} could not be read.` : '';
  if (found.length === 0) return [unread > 0 ? 'no' : 'yes', unread > 0 ? `Of what could be read, nothing differs (${all}).${lines}` : `The delivery is right: ${all}, and nothing differs.`];
  const which = [...new Set(found.map(one => one.product))];
  return ['no', `The delivery is not right: ${counted(found.length, 'difference')}, in ${listed(which)} (${all}, ${counted(file.products.length, 'product')} in the master file).${lines}`];
}

// What a delivery has not, and is not judged without: rows, and a column for each of the three that a row needs.
function lacking({ name, plan }) {
  if (plan.own && plan.sample.length > 0) return null;
  if (plan.heading && plan.sample.length === 0) return `${name} has no rows: nothing stands under its first line.`;
  const without = COLUMNS.slice(0, 3).filter(column => plan.columns[column] < 0).map(column => NAMES[column].toLowerCase());
  return without.length === 0 ? null : `No column is taken for the ${listed(without)}. Choose it above; nothing is judged without it.`;
}

// What is missing before the delivery can be judged, or null.
function missing_of({ file, notices, delivery }) {
  if (!file) return 'Put in a master file first.';
  if (!notices) return 'The notices are missing, or have to be mended first.';
  return lacking(delivery) ?? (delivery.waits ? 'One question has to be answered first; it stands above.' : null);
}

// What of the rows is not compared: the calls read listing number and days moved back together, or neither.
const not_compared = rows => rows.some(row => row.length === 3) && html('p', { class: 'soft' },
  'Listing numbers and days moved back are not compared in rows that do not have both.');

/** Judges the delivery, as far as all that it needs is there. `current` says whether the answer is still wanted. */
export async function judge(state, told, current) {
  const { delivery } = state;
  if (!delivery) return;
  for (const part of ['verdict', 'differences', 'unread']) fill(by_id(part));
  const missing = missing_of(state);
  if (missing) return fill(by_id('verdict'), html('p', { class: 'said ask' }, missing));
  const read = await read_rows(delivery, state.file.kinds, told);
  if (!current()) return;
  if (read.rows.length === 0) {
    fill(by_id('verdict'), html('p', { class: 'said verdict no' }, `No line of ${delivery.name} could be read as a row, so nothing is judged. Why stands below.`));
    return show_unread(read);
  }
  const judged = await differences_of(state.file, state.notices, read.rows.map(line_of), told, current);
  if (!judged) return;
  const [how, words] = sentence(read, judged, state.file);
  fill(by_id('verdict'), html('p', { class: `said verdict ${how}` }, words), not_compared(read.rows));
  show_unread(read);
  Object.assign(state, { found: judged.found, all: false });
  state.order = { by: null, down: false };
  show_found(state);
}

function show_unread({ bad, unread }) {
  if (unread === 0) return fill(by_id('unread'));
  const rows = bad.map(({ number, why, line }) => [String(number), why, line.slice(0, 120)]);
  return fill(by_id('unread'), scrolled('Lines that could not be read', table(`${counted(unread, 'line')} could not be read${unread > bad.length ? `; the first ${bad.length}` : ''}`, ['Line', 'Why', 'What stands there'], rows)));
}

// ---- The differences ----

// Those that the filter leaves, in the order that was chosen.
function chosen({ found, order, filter }) {
  const left = found.filter(one => (!filter.why || one.why === filter.why) && one.product.startsWith(filter.product.toUpperCase()));
  if (!order.by) return left;
  const sorted = left.map((one, i) => [one, i]).sort(([a, i], [b, j]) => a[order.by] < b[order.by] ? -1 : a[order.by] > b[order.by] ? 1 : i - j).map(([one]) => one);
  return order.down ? sorted.reverse() : sorted;
}

const csv = found => ['product,maturity,why,delivered,right', ...found.map(one => [one.product, one.maturity, one.why, one.delivered, one.right].join(','))].map(line => `${line}\n`).join('');

function save(text) {
  const url = URL.createObjectURL(new Blob([text], { type: 'text/csv' }));
  html('a', { href: url, download: 'differences.csv' }).click();
  setTimeout(() => URL.revokeObjectURL(url), 1000);
}

async function copy(text, said) {
  try {
    await navigator.clipboard.writeText(text);
    said.textContent = 'Copied.';
  } catch {
    const area = html('textarea', {}, text);
    document.body.append(area);
    area.select();
    said.textContent = document.execCommand('copy') ? 'Copied.' : 'The browser does not let this page copy; save the table instead.';
    area.remove();
  }
}

function found_rows(state) {
  const left = chosen(state), cells = one => [one.product, one.maturity, one.delivered, one.right, WHY[one.why]];
  const sort_by = field => {
    state.order = { by: field, down: state.order.by === field && !state.order.down };
    show_rows(state);
  };
  const titles = TITLES.map((title, i) => {
    const sorted = state.order.by === FIELDS[i] ? (state.order.down ? 'descending' : 'ascending') : 'none';
    return html('th', { scope: 'col', 'aria-sort': sorted }, html('button', { type: 'button', 'data-sort': FIELDS[i], onclick: () => sort_by(FIELDS[i]) }, title, { ascending: ' ▲', descending: ' ▼', none: '' }[sorted]));
  });
  const shown = state.all ? left : left.slice(0, SHOWN_AT_MOST), show_all = () => {
    state.all = true;
    show_rows(state);
  };
  return [scrolled('Differences', html('table', { class: 'stacked' },
    html('caption', {}, `${counted(left.length, 'difference')}${left.length < state.found.length ? ` of ${state.found.length.toLocaleString('en')}` : ''}${shown.length < left.length ? `; the first ${SHOWN_AT_MOST} are shown, all are copied and saved` : ''}`),
    html('thead', {}, html('tr', {}, titles)),
    html('tbody', {}, shown.map(one => html('tr', { 'data-why': one.why }, cells(one).map((text, i) => html(i === 0 ? 'th' : 'td', { 'data-title': TITLES[i], ...(i === 0 ? { scope: 'row' } : {}) },
      i === 0 && state.file.kinds.has(text) ? html('button', { type: 'button', class: 'to-product', title: `Show ${text}`, onclick: () => state.show(text, one.maturity) }, text) : text))))))),
  shown.length < left.length && html('p', { class: 'no-print' }, html('button', { type: 'button', class: 'plain', id: 'all', onclick: show_all }, `Show all ${left.length.toLocaleString('en')}`))];
}

function show_rows(state) {
  const focused = document.activeElement?.dataset?.sort;
  fill(by_id('found-rows'), found_rows(state));
  if (focused) document.querySelector(`[data-sort="${focused}"]`)?.focus();
}

function show_found(state) {
  const whys = [...new Set(state.found.map(one => one.why))];
  state.filter = { why: '', product: '' };
  if (state.found.length === 0) return fill(by_id('differences'));
  const said = html('p', { role: 'status' });
  fill(by_id('differences'),
    html('div', { class: 'tools no-print' },
      choice('filter-why', 'Show', [['', 'all reasons'], ...whys.map(why => [why, WHY[why]])], '', why => {
        state.filter.why = why;
        show_rows(state);
      }),
      html('p', {}, html('label', { for: 'filter-product' }, 'Products that begin with'), html('input', { type: 'text', id: 'filter-product', size: '6', autocomplete: 'off', oninput: event => {
        state.filter.product = event.target.value.trim();
        show_rows(state);
      } })),
      html('button', { type: 'button', class: 'plain', id: 'copy', onclick: () => copy(csv(chosen(state)), said) }, 'Copy'),
      html('button', { type: 'button', class: 'plain', id: 'save', onclick: () => save(csv(chosen(state))) }, 'Save as CSV'),
      html('button', { type: 'button', class: 'plain', id: 'print', onclick: () => window.print() }, 'Print'), said),
    html('div', { id: 'found-rows' }));
  return show_rows(state);
}

// ---- What comes in ----

let typing = null; // what was pasted last, and is read after a pause

/** Takes the text of a delivery. One that is none leaves the one before. */
export function take_text(state, name, text, notes = []) {
  typing.stop();
  state.delivery = { name, text, plan: guess(text, state.file?.kinds ?? new Map()), asked: null, order: null, waits: false, changed: false };
  const beside = name !== PASTED && by_id('delivery-text').value.trim() !== '' ? ['The rows that are pasted are not judged now.'] : [];
  fill(by_id('delivery-said'), html('p', {}, html('strong', {}, name)), [...notes, ...beside].map(note => html('p', { class: 'said ask' }, note)));
  show_plan(state);
  state.changed('delivery');
}

/** The guess again, after another master file: its products tell which column has them. What was changed stays. */
export function guess_again(state) {
  if (!state.delivery || state.delivery.changed) return;
  state.delivery.plan = guess(state.delivery.text, state.file?.kinds ?? new Map());
  show_plan(state);
}

function take_bytes(state, { name, size, cut, bytes }) {
  const { text, binary } = text_of(bytes), long = `${name} has ${size.toLocaleString('en')} bytes; the first ${TEXT_AT_MOST.toLocaleString('en')} were read, the rest was left out.`;
  const bad = binary ? `${name} is not a text with rows.` : text.trim() === '' ? `${name} is empty.` : null;
  if (bad) fill(by_id('delivery-said'), html('div', { class: 'said no' }, cut && html('p', {}, long), html('p', {}, bad, state.delivery ? ` The delivery before it, ${state.delivery.name}, is still judged.` : '')));
  else take_text(state, name, text, cut ? [long] : []);
}

export function set_up(state) {
  const pasted = by_id('delivery-text');
  typing = after_pause(() => {
    if (pasted.value.trim() !== '') take_text(state, PASTED, pasted.value.slice(0, TEXT_AT_MOST));
  });
  taken('part-delivery', 'delivery-file', TEXT_AT_MOST, file => {
    typing.now();
    take_bytes(state, file);
  });
  pasted.addEventListener('input', typing.begin);
}
