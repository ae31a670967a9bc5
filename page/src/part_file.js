// The part of the page on the master file.

import { FILE_AT_MOST } from '../../bindings/js/scullpouch.js';
import { by_id, counted, fill, html, listed } from './elements.js';
import { taken } from './files.js';
import { open_file } from './judge.js';
import { KINDS, where } from './master.js';
import { refusal } from './words.js';

const found = (file, name) => {
  const { first_year, years } = file.calendar;
  const kinds = KINDS.map((words, kind) => [words, file.products.filter(one => one.kind === kind).length]).filter(([, count]) => count > 0);
  return html('div', { class: 'said yes' },
    html('p', {}, html('strong', {}, `${name}: ${counted(file.products.length, 'product')}, ${counted(years, 'year')}, ${first_year} to ${first_year + years - 1}.`)),
    html('p', { class: 'soft' }, `${listed(kinds.map(([words, count]) => counted(count, words, words.replace(/future|option/, '$&s'))))}.`));
};

/** Judges a file. One that is refused leaves the one before in use. */
export function take_file(state, { name, bytes }) {
  const said = by_id('file-said'), file = open_file(bytes);
  if (file.refusal) {
    const at = where(bytes, file.refusal), before = state.file ? `The file before it, ${state.file.name}, is still in use.` : null;
    fill(said, refusal(`${name} is not a master file that can be used`, file.refusal, at && `Look at this: ${at}.`),
      before && found(state.file, state.file.name), before && html('p', {}, before));
    return;
  }
  state.file = { ...file, name };
  fill(said, found(file, name));
  state.changed('file');
}

export function set_up(state) {
  taken('part-file', 'file', FILE_AT_MOST + 1, file => take_file(state, file));
}
