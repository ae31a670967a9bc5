// The rows of a delivery, as it comes: which character parts the fields, which column says what, and each line as a row of
// the form that `deliver` writes (docs/DELIVERY.md). What is not certain is told, so that the page can ask.

import { iso, read_date } from './dates.js';

export const TEXT_AT_MOST = 16 * 1024 * 1024;
export const ROWS_AT_MOST = 65536;
const SAMPLE = 200;
const SEPARATORS = ['\t', ';', ',', '|', '  ', ' ']; // two spaces: two or more
const ID = /^[A-Z0-9]{1,4}$/;
const NUMBER = /^\d+$/;
const NUMBER_AT_MOST = 65535;
const OWN_LINE_AT_MOST = 255;
const OWN_DAY = /^\d{4}-\d\d-\d\d$/, OWN_MONTH = /^\d{4}-\d\d$/;

/** The columns that a row may have: the first three it needs. */
export const COLUMNS = ['product', 'maturity', 'day', 'number', 'back'];

// Words of a heading that tell what a column is.
const WORDS = {
  number: /number|listing|\bno\b|\bnr\b|^#$/i,
  back: /back|moved|shift/i,
  day: /last|trad|expir|ltd|settle/i,
  maturity: /matur|month|contract|friday|series/i,
  product: /prod|symbol|\bid\b|code|name|ticker/i,
};

/** The text of some bytes, by their byte order mark, else as UTF-8, else as Windows' Western letters; '' and a word where
 * they are no text. */
export function text_of(bytes) {
  const decoded = (name, from = 0, fatal = false) => new TextDecoder(name, { fatal, ignoreBOM: true }).decode(bytes.subarray(from));
  let text;
  if (bytes[0] === 0xff && bytes[1] === 0xfe) text = decoded('utf-16le', 2);
  else if (bytes[0] === 0xfe && bytes[1] === 0xff) text = decoded('utf-16be', 2);
  else if (bytes[0] === 0xef && bytes[1] === 0xbb && bytes[2] === 0xbf) text = decoded('utf-8', 3);
  else {
    try {
      text = decoded('utf-8', 0, true);
    } catch {
      text = decoded('windows-1252');
    }
  }
  // eslint-disable-next-line no-control-regex
  return /[\0-\x08\x0e-\x1a\x1c-\x1f]/.test(text) ? { text: '', binary: true } : { text, binary: false };
}

/** The lines of a text that are not empty, with their numbers from 1, whatever ends them. A first line `sep=;`, which tells
 * a spreadsheet how the fields are parted, is none. */
export function* lines_of(text) {
  const ends = /\r\n|\n|\r/g;
  for (let from = 0, number = 1; from < text.length; number++) {
    const end = ends.exec(text);
    const line = text.slice(from, end ? end.index : text.length);
    if (line.trim() !== '' && !(number === 1 && /^"?sep=.?"?$/i.test(line))) yield { number, line };
    from = end ? ends.lastIndex : text.length;
  }
}

/** The fields of a line, without the quotes and blanks around them. A separator inside quotes is no separator. */
export function fields_of(line, separator) {
  if (separator === '  ') return line.trim().split(/\s{2,}/).map(field => field.replace(/^"(.*)"$/, '$1').trim());
  const fields = [];
  let field = '', quoted = false;
  for (let i = 0; i < line.length; i++) {
    const letter = line[i];
    if (quoted) {
      if (letter !== '"') field += letter;
      else if (line[i + 1] === '"') field += line[++i];
      else quoted = false;
    } else if (letter === '"' && field.trim() === '') {
      field = '';
      quoted = true;
    } else if (letter === separator) {
      fields.push(field.trim());
      field = '';
    } else field += letter;
  }
  fields.push(field.trim());
  return separator === ' ' ? fields.filter(one => one !== '') : fields;
}

// The separator by which most lines have the same number of fields, three or more; of several the first.
function separator_of(lines) {
  let best = ',', most = 0;
  for (const separator of SEPARATORS) {
    const counts = new Map();
    for (const { line } of lines) {
      const count = fields_of(line, separator).length;
      if (count >= 3) counts.set(count, (counts.get(count) ?? 0) + 1);
    }
    const found = Math.max(0, ...counts.values());
    if (found > most) [best, most] = [separator, found];
  }
  return best;
}

// What stands in a column: the share of its fields that are ids of the file, ids by their form, days, months, numbers.
function column_of(rows, at, kinds) {
  const share = test => rows.filter(fields => at < fields.length && test(fields[at])).length / Math.max(1, rows.length);
  const dates = rows.map(fields => read_date(fields[at] ?? ''));
  const numbers = rows.map(fields => NUMBER.test(fields[at] ?? '') ? Number(fields[at]) : NaN);
  return {
    known: share(field => kinds.has(field)),
    id: share(field => ID.test(field) && /[A-Z]/.test(field)),
    day: dates.filter(date => date && !date.month).length / Math.max(1, rows.length),
    month: dates.filter(date => date?.month).length / Math.max(1, rows.length),
    first: dates.length > 0 && dates.every(date => date?.day?.[2] === 1),
    number: share(field => NUMBER.test(field)),
    most: Math.max(...numbers.filter(number => !Number.isNaN(number)), -1),
  };
}

// The column with the highest value of those that are left, which must be above a half.
function highest(columns, left, value) {
  let best = -1;
  for (const at of left) if (value(columns[at]) > (best < 0 ? 0.5 : value(columns[best]))) best = at;
  return best;
}

const told = (titles, at, name) => titles !== null && at >= 0 && at < titles.length && WORDS[name].test(titles[at]);

// Which column is which, by what stands in it, and by the words of the heading where two are alike.
function columns_of(rows, titles, kinds) {
  const width = Math.max(0, ...rows.map(fields => fields.length));
  const columns = Array.from({ length: width }, (_, at) => column_of(rows, at, kinds));
  const left = new Set(columns.keys()), found = { product: -1, maturity: -1, day: -1, number: -1, back: -1 };
  const take = (name, at) => {
    found[name] = at;
    left.delete(at);
  };
  take('product', highest(columns, left, column => column.known + column.id / 100));
  if (found.product < 0) take('product', highest(columns, left, column => column.id));
  const dated = [...left].filter(at => columns[at].day + columns[at].month > 0.5);
  const months = dated.filter(at => columns[at].month > 0 || columns[at].first), days = dated.filter(at => !months.includes(at));
  if (months.length > 0) {
    take('maturity', months[0]);
    if (days.length > 0) take('day', days.find(at => told(titles, at, 'day')) ?? days[0]);
  } else if (days.length > 1) {
    const [one, other] = days, swapped = told(titles, other, 'maturity') || (told(titles, one, 'day') && !told(titles, one, 'maturity') && !told(titles, other, 'day'));
    take('maturity', swapped ? other : one);
    take('day', swapped ? one : other);
  } else if (days.length === 1) take('day', days[0]);
  const numbers = [...left].filter(at => columns[at].number > 0.5);
  const back = numbers.find(at => told(titles, at, 'back')) ?? numbers.find(at => columns[at].most <= 6 && !told(titles, at, 'number'));
  const number = numbers.find(at => at !== back && told(titles, at, 'number')) ?? numbers.find(at => at !== back);
  if (back !== undefined && number !== undefined) Object.assign(found, { number, back });
  return found;
}

// Whether a line is the heading: no field of it is a date, and a later line has one.
function heading_of(first, others) {
  const dated = fields => fields.some(field => read_date(field) !== null);
  return first !== undefined && !dated(first) && (others.length === 0 || others.some(dated));
}

/** What the page takes a delivery to be: the separator, whether the first line is a heading, and which column is which,
 * -1 for none. With `parted` the separator is that one. `own`: the lines are of the form that `deliver` writes, three fields or five, which may be mixed. */
export function guess(text, kinds, parted = null) {
  const lines = [];
  for (const one of lines_of(text)) {
    lines.push(one);
    if (lines.length === SAMPLE) break;
  }
  const is_own = lines.map(({ line }) => own_row(line, kinds) !== null);
  const own = parted === null && is_own.filter(Boolean).length > lines.length / 3;
  const separator = parted ?? separator_of(lines);
  const fields = lines.map(({ line }) => fields_of(line, separator));
  const heading = own ? !is_own[0] && heading_of(lines[0].line.split(/[,;\t]/), []) : heading_of(fields[0], fields.slice(1));
  const rows = heading ? fields.slice(1) : fields;
  return {
    separator, heading, columns: columns_of(rows, heading ? fields[0] : null, kinds), titles: heading ? fields[0] : null, own,
    sample: rows.slice(0, 5), width: Math.max(0, ...rows.map(one => one.length)),
  };
}

// A line of the form that `deliver` writes, as its fields; null for another. Blanks at its end play no part.
function own_row(line, kinds) {
  const bare = line.replace(/[ \t\r]+$/, ''), fields = bare.split(/[,;\t]/).map(field => /^"[^"]*"$/.test(field) ? field.slice(1, -1) : field);
  if (!(fields.length === 3 || fields.length === 5) || new TextEncoder().encode(bare).length > OWN_LINE_AT_MOST) return null;
  const [id, maturity, day] = fields.length === 5 ? [fields[0], fields[2], fields[3]] : fields, numbers = fields.length === 5 ? [fields[1], fields[4]] : [];
  if (!ID.test(id) || !is_own(day, OWN_DAY) || !numbers.every(is_number)) return null;
  return is_own(maturity, is_weekly(kinds, id, maturity) ? OWN_DAY : OWN_MONTH) ? [id, maturity, day, ...numbers] : null;
}

// Whether a word is a date, or a month, as 2008-06-20 and 2008-06, of 2000 to 2099.
function is_own(word, form) {
  const date = form.test(word) ? read_date(word) : null;
  return date !== null && in_century(date.day ?? date.month);
}

const in_century = ([year]) => year >= 2000 && year <= 2099;

const is_number = field => NUMBER.test(field) && field.replace(/^0+/, '').length <= 5 && Number(field) <= NUMBER_AT_MOST;

// Whether a maturity is a Friday: by the product's kind, or by its own form where the file has no such product.
const is_weekly = (kinds, id, maturity) => kinds.has(id) ? kinds.get(id) === 5 : maturity.length === 10;

/** The lines in which the order of day and month is shown, and in which it is not: { shown: { day, month }, open }, each
 * with its number and its text, or null. */
export function order_of(text, plan) {
  const found = { shown: { day: null, month: null }, open: null };
  if (plan.own) return found;
  let skipped = !plan.heading;
  for (const { number, line } of lines_of(text)) {
    if (!skipped) {
      skipped = true;
      continue;
    }
    const fields = fields_of(line, plan.separator);
    for (const name of ['maturity', 'day']) {
      const field = fields[plan.columns[name]], date = field === undefined ? null : read_date(field);
      if (date?.order && !found.shown[date.order]) found.shown[date.order] = { number, text: field };
      if (date?.either && !found.open) found.open = { number, text: field };
    }
    if (found.shown.day && found.shown.month) break;
  }
  return found;
}

// The day of a date of which the order is known; null where it is not a day.
const day_in = (date, order) => date?.day ?? (date?.either && order ? date.either[order] : null) ?? null;

// A row by the columns of a plan, as its fields; or a word that says what is wrong with it.
function planned_row(line, plan, order, kinds) {
  const fields = fields_of(line, plan.separator), at = name => fields[plan.columns[name]] ?? '';
  const id = at('product');
  if (!ID.test(id)) return id === '' ? 'no product' : `${quoted(id)} is not a product id`;
  const last = day_in(read_date(at('day')), order);
  if (!last || !in_century(last)) return at('day') === '' ? 'no last trading day' : `${quoted(at('day'))} is not a day of 2000 to 2099`;
  const date = read_date(at('maturity')), day = day_in(date, order);
  if (!date || (!date.month && !day) || !in_century(date.month ?? day)) return at('maturity') === '' ? 'no maturity' : `${quoted(at('maturity'))} is not a maturity`;
  const weekly = kinds.has(id) ? kinds.get(id) === 5 : !date.month;
  if (weekly && !day) return `${quoted(at('maturity'))} is a month; the maturity of a weekly option is a Friday`;
  const row = [id, weekly ? iso(day) : iso(date.month ?? day.slice(0, 2)), iso(last)];
  if (plan.columns.number < 0 || plan.columns.back < 0 || (at('number') === '' && at('back') === '')) return row;
  const wrong = [at('number'), at('back')].find(field => !is_number(field));
  return wrong === undefined ? [...row, at('number'), at('back')] : `${quoted(wrong)} is not a number`;
}

const quoted = text => `“${text.length > 40 ? `${text.slice(0, 40)}…` : text}”`;

/** A row of a line by a plan: { fields } of the form that `deliver` reads, or { bad }, a word. */
export function row_of(line, plan, order, kinds) {
  const fields = plan.own ? own_row(line, kinds) ?? 'not a row of three fields or five' : planned_row(line, plan, order, kinds);
  return typeof fields === 'string' ? { bad: fields } : { fields };
}

/** The line of a row as `deliver` writes it, three fields or five. */
export const line_of = ([id, maturity, day, number, back]) => (number === undefined ? [id, maturity, day] : [id, number, maturity, day, back]).join(',');
