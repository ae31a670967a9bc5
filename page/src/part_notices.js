// The part of the page on the notices: the text, lines that are clicked together, and what each did.

import { date } from '../../bindings/js/scullpouch.js';
import { iso, read_date } from './dates.js';
import { after_pause, by_id, counted, fill, html, listed, scrolled, table } from './elements.js';
import { taken } from './files.js';
import { notices_of } from './judge.js';
import { TEXT_AT_MOST, line_of, words_of } from './notices.js';
import { text_of } from './rows.js';
import { meaning, price_of, ten_thousandths } from './words.js';

// What a notice did, in words.
function effect({ kind, id, moved, refused, after, size }) {
  if (kind === 'M' && moved.length > 0) return `${id} now has a size of ${ten_thousandths(size)} shares; the price after it is ${(after / 10000).toFixed(4)}.`;
  if (kind === 'O') return `${counted(moved.length, 'product')} opened.`;
  if (moved.length === 0) return refused.length > 0 ? '' : 'Nothing moved.';
  return `${counted(moved.length, 'product')} moved: ${listed(moved)}.`;
}

// Who was refused, by number.
function refusals({ refused }) {
  const by_number = new Map();
  for (const { id, number } of refused) by_number.set(number, [...by_number.get(number) ?? [], id]);
  return [...by_number].map(([number, ids]) => html('p', { class: 'refused' }, `Refused for ${listed(ids)} (${number}): ${meaning(number)}`));
}

/** Shows what each notice did. */
export function show_done(done) {
  const rows = done.map(call => ({ cells: [String(call.line), words_of(call, date), html('div', {}, effect(call), refusals(call))] }));
  fill(by_id('notices-done'), scrolled('What each notice did', table('What each notice did', ['Line', 'Notice', 'What it did'], rows)));
}

let typing = null; // what was typed last, and is read after a pause

/** Reads the text of the notices. A bad line is told; the text stays. */
export function read(state) {
  typing.stop();
  const text = by_id('notices').value, said = by_id('notices-said');
  state.notices = null;
  if (text.trim() === '') {
    fill(said);
    fill(by_id('notices-done'));
  } else {
    const said_of = notices_of(text), { bad, calls } = said_of;
    if (bad) {
      const line = text.split('\n')[bad - 1];
      fill(said, html('div', { class: 'said no' }, html('p', {},
        line === undefined ? `After ${counted(bad - 1, 'line')} there is no notice yet, or the text is too long: it begins with a line O and a date, and has at most 65,536 bytes.`
          : `Line ${bad} is not a notice: “${line.slice(0, 80)}”. Nothing is judged until it is mended. The first notice is the opening, O and a date, and there is one only.`)));
      fill(by_id('notices-done'));
    } else {
      state.notices = said_of;
      fill(said, html('div', { class: 'said yes' }, html('p', {}, `${counted(calls.length, 'notice')}: ${words_of(calls[0], date)}; ${counted(calls.filter(call => call.kind === 'R').length, 'morning')}.`)));
    }
  }
  state.changed('notices');
}

/** Puts a text in the place of the notices. */
export function take_text(state, text) {
  by_id('notices').value = text;
  read(state);
}

// The line of what is clicked together; a word where something is missing.
function built() {
  const value = id => by_id(id).value.trim(), kind = value('kind');
  if (kind !== 'M') {
    const said = read_date(value('notice-date'));
    if (said?.either) return { bad: `“${value('notice-date')}” may be ${iso(said.either.day)} or ${iso(said.either.month)}: write it as one of these.` };
    return said?.day ? { line: line_of({ kind, date: iso(said.day) }) } : { bad: value('notice-date') === '' ? 'Which date?' : `“${value('notice-date')}” is not a date.` };
  }
  const id = value('notice-id').toUpperCase(), p = value('notice-p'), q = value('notice-q'), price = price_of(value('notice-price'));
  if (!/^[A-Z0-9]{1,4}$/.test(id)) return { bad: 'Which product?' };
  if (!/^\d+$/.test(p) || !/^\d+$/.test(q)) return { bad: 'How many new shares, for how many old ones?' };
  if (price === null) return { bad: 'At which settlement price? As 12.3400.' };
  return { line: line_of({ kind, id, p, q, price: (price / 10000).toFixed(4) }) };
}

function add(state) {
  const { line, bad } = built();
  fill(by_id('builder-said'), bad ?? '');
  if (bad) return;
  const text = by_id('notices').value.replace(/\n+$/, '');
  take_text(state, `${text === '' ? '' : `${text}\n`}${line}\n`);
}

// Why a file does not replace the notices: it is no text, or has a line that is no notice while there are notices already.
function unused({ name, cut }, { text, binary }) {
  if (binary) return `${name} is not a text${cut ? ', and longer than 65,536 bytes' : ''}. The notices stay as they were.`;
  const { bad } = notices_of(text), line = text.split('\n')[bad - 1];
  if (!bad || by_id('notices').value.trim() === '') return null;
  const why = line ? `line ${bad} is not a notice: “${line.slice(0, 80)}”` : text.trim() === '' ? 'it has no notice' : 'it has no opening, or is too long';
  return `${name} is not used: ${why}. The notices stay as they were. To mend it here, clear their text first.`;
}

export function set_up(state) {
  typing = after_pause(() => read(state));
  taken('part-notices', 'notices-file', TEXT_AT_MOST + 1, file => {
    typing.now();
    const said = by_id('notices-said'), as_text = text_of(file.bytes), why = unused(file, as_text);
    if (why) fill(said, html('div', { class: 'said no' }, html('p', {}, why)), said.querySelector('.yes'));
    else take_text(state, as_text.text);
  });
  by_id('notices').addEventListener('input', typing.begin);
  by_id('kind').addEventListener('change', () => {
    const measure = by_id('kind').value === 'M';
    for (const one of document.querySelectorAll('.for-measure')) one.hidden = !measure;
    for (const one of document.querySelectorAll('.for-day')) one.hidden = measure;
  });
  by_id('builder').addEventListener('submit', event => {
    event.preventDefault();
    add(state);
  });
}
