// The part of the page on one product: its table, the pictures of its months, and questions about it.

import { WEEKLY, date, day } from '../../bindings/js/scullpouch.js';
import { MONTHS, day_words, iso, month_words, read_date, weekday } from './dates.js';
import { legend, month_picture, strip } from './draw.js';
import { by_id, fill, html, scrolled, table } from './elements.js';
import { asked, is_refused, key_text, table_of } from './judge.js';
import { KINDS } from './master.js';
import { price_of, refusal, ten_thousandths } from './words.js';

const in_words = one => day_words(date(one), weekday(one));
const ITALIAN = ['IT01', 'IT11'];

// The listed maturities of a table, as the pictures need them. The usual day is the last trading day and the days that it
// was moved back.
function marks_of(held) {
  const { kind, group } = held.product, weekly = kind === WEEKLY, italian = !weekly && ITALIAN.includes(group);
  return held.maturities.map(one => {
    const anchor = one.day + one.back, key = key_text(kind, one.key), when = weekly ? date(one.key) : key.split('-').map(Number);
    return {
      ...one, key, anchor, third: italian ? anchor + 1 : anchor, words: in_words(one.day),
      usual: weekly ? 'its Friday' : italian ? 'the Thursday before the third Friday' : 'the third Friday',
      name: weekly ? `Friday ${when[2]} ${month_words(when)}` : month_words(when),
      short: weekly ? `${when[2]} ${MONTHS[when[1] - 1].slice(0, 3)}` : `${MONTHS[when[1] - 1].slice(0, 3)} ${String(when[0]).slice(2)}`,
    };
  });
}

// The first days of the month of a day and of those before and after it, with their lengths, as far as the century goes.
function months_around(one) {
  const [year, month] = date(one), start = 12 * (year - 2000) + month - 1;
  const first = number => day(2000 + Math.floor(number / 12), number % 12 + 1, 1);
  return [start - 1, start, start + 1].filter(number => number >= 0 && number < 1199).map(number => [first(number), first(number + 1) - first(number)]);
}

function show_pictures(state) {
  const { held, marks, chosen } = state.product, told = words => fill(by_id('rule'), words);
  const place = { date_of: date, first_of_year: year => day(year, 1, 1), calendar: held.calendar, date: held.date };
  const mark = marks[chosen], choose = i => {
    state.product.chosen = i;
    show_pictures(state);
    by_id('strip').querySelectorAll('button')[i].focus();
  };
  fill(by_id('strip'), strip(marks, chosen, choose));
  fill(by_id('pictures'), months_around(mark?.day ?? held.date).map(([first, length]) => month_picture(first, length, place, marks, told)));
  told(mark ? `${mark.name}: ${mark.back === 0 ? `the usual day, ${mark.usual}, is a trading day: ${mark.words}.`
    : `the usual day, ${in_words(mark.anchor)} (${mark.usual}), is not a trading day. The latest trading day before it is ${mark.words}, ${mark.back === 1 ? 'one day' : `${mark.back} days`} back.`}` : '');
  const rows = marks.map((one, i) => ({
    attributes: { class: [one.back > 0 && 'moved', i === chosen && 'chosen'].filter(Boolean).join(' ') || null },
    cells: [one.key, `${iso(date(one.day))} ${one.words.slice(0, 3)}`, one.back === 0 ? 'no' : `${one.back} back, from ${iso(date(one.anchor))}`, String(one.number)],
  }));
  fill(by_id('listing'), scrolled('Listed maturities', table(`Listed maturities of ${held.product.id} on ${in_words(held.date)}`, ['Maturity', 'Last trading day', 'Moved', 'Number'], rows)));
}

/** Shows a product, and of its maturities one: the one that is named, or the first that was moved, or the first. */
export function show(state, id, maturity = null) {
  const entry = state.file && state.notices && state.file.kinds.has(id) ? table_of(state.file, state.notices, id) : null, said = by_id('product-said');
  by_id('product-shown').hidden = !entry?.table;
  state.product = null;
  if (!entry) return fill(said, 'Put in a master file and notices first.');
  by_id('product').value = id;
  if (!entry.table) return fill(said, refusal(`${id} has no table: its opening was refused`, entry.refusal));
  const held = entry.table, { kind, group, market, currency, size, tick } = held.product, marks = marks_of(held);
  const named = marks.findIndex(one => one.key === maturity), moved = marks.findIndex(one => one.back > 0);
  state.product = { held, marks, chosen: named >= 0 ? named : Math.max(0, moved) };
  fill(said, html('p', {}, html('strong', {}, id), `: ${KINDS[kind]}, group ${group}, market ${market}; ${ten_thousandths(size)} shares, tick ${ten_thousandths(tick)} ${currency}.`));
  show_pictures(state);
  for (const answer of ['due-said', 'tick-said', 'cash-said']) fill(by_id(answer));
  return null;
}

/** The products to choose from, after another master file. */
export function list_products(state) {
  const chooser = by_id('product'), before = chooser.value;
  fill(chooser, (state.file?.products ?? []).map(({ id, kind }) => html('option', { value: id }, `${id} (${KINDS[kind]})`)));
  chooser.disabled = !state.file;
  if (state.file?.kinds.has(before)) chooser.value = before;
  fill(by_id('ids'), (state.file?.products ?? []).map(({ id }) => html('option', { value: id })));
}

// ---- Questions ----

// What is answered, or a word where something that was typed is none, or the refusal.
function answer(at, what, call) {
  const said = asked(call);
  fill(by_id(at), is_refused(said) ? refusal(what, said.number) : said);
}

const typed = id => by_id(id).value.trim();

// What is said of a field that has nothing, or something else than is asked for.
const not_so = (id, question, words) => typed(id) === '' ? question : `“${typed(id)}” is not ${words}.`;

function due(held) {
  const said = read_date(typed('due-day'));
  if (said?.either) return `“${typed('due-day')}” may be ${iso(said.either.day)} or ${iso(said.either.month)}: write it as one of these.`;
  if (!said?.day) return not_so('due-day', 'Which date?', 'a date');
  return `Due on ${in_words(held.due(iso(said.day)))}.`;
}

function tick(held) {
  const price = price_of(typed('tick-price'));
  if (price === null) return not_so('tick-price', 'Which price?', 'a price, as 12.3400');
  held.tick(price);
  return 'It passes: the price is a multiple of the tick.';
}

function cash(held) {
  const [agreed, final] = ['cash-agreed', 'cash-final'].map(id => price_of(typed(id))), contracts = typed('cash-contracts');
  if (!/^\d+$/.test(contracts)) return not_so('cash-contracts', 'How many contracts?', 'a number of contracts');
  if (agreed === null) return not_so('cash-agreed', 'At which agreed price?', 'a price, as 12.3400');
  if (final === null) return not_so('cash-final', 'At which final price?', 'a price, as 12.3400');
  const { negative, amount, rest } = held.cash(Math.min(Number(contracts), 2 ** 32 - 1), agreed, final);
  const money = `${amount / 10000n}.${String(amount % 10000n).padStart(4, '0')}${String(rest).padStart(4, '0')}`;
  if (amount === 0n && rest === 0) return 'Nothing is paid.';
  return `The ${negative ? 'buyer pays the seller' : 'seller pays the buyer'} ${money} ${held.product.currency}.`;
}

export function set_up(state) {
  fill(by_id('legend'), legend());
  by_id('product').addEventListener('change', () => show(state, by_id('product').value));
  for (const [form, at, what, ask] of [['ask-due', 'due-said', 'No due day', due], ['ask-tick', 'tick-said', 'The price does not pass', tick], ['ask-cash', 'cash-said', 'No cash is worked out', cash]]) {
    by_id(form).addEventListener('submit', event => {
      event.preventDefault();
      if (state.product) answer(at, what, () => ask(state.product.held));
    });
  }
}
