// A master file, notices and a delivery, by the proved calls: what the page asks of them, and in which steps.

import * as scullpouch from '../../bindings/js/scullpouch.js';

const SLICE = 12; // milliseconds of work before the page is drawn again
const LETTERS = ['R', 'C', 'E', 'M']; // of the kinds of notices, in the order of their numbers

/** Why a key differs, in a clerk's words. */
export const WHY = {
  missing: 'listed, and not delivered',
  extra: 'delivered, and not listed',
  twice: 'delivered more than once',
  day: 'the last trading day is another',
  number: 'the listing number is another',
  days_back: 'the days moved back are others',
  product: 'the master file has no such product',
};

/** A call's value, or its refusal. */
export function asked(call) {
  try {
    return call();
  } catch (error) {
    if (error instanceof scullpouch.Refused) return error;
    throw error;
  }
}

export const is_refused = said => said instanceof scullpouch.Refused;

/** Gives the page time to be drawn, at most so often; progress is told as a share. */
export function pace(told = () => {}) {
  let since = performance.now();
  return async share => {
    if (performance.now() - since < SLICE) return;
    told(share);
    await new Promise(resolve => setTimeout(resolve));
    since = performance.now();
  };
}

/** A master file: what it holds, or the number of its refusal. */
export function open_file(bytes) {
  const judged = asked(() => new scullpouch.Master(bytes));
  if (is_refused(judged)) return { refusal: judged.number };
  const { products, calendar } = judged;
  return { refusal: 0, judged, products, calendar, kinds: new Map(products.map(one => [one.id, one.kind])) };
}

/** What a text of notices says: the number of its first bad line, or its calls, the opening first. */
export function notices_of(text) {
  try {
    const read = new scullpouch.Notices(new TextEncoder().encode(text));
    const calls = read.calls.map(call => ({ ...call, kind: LETTERS[call.kind] }));
    return { bad: 0, read, calls: [{ line: read.opened, kind: 'O', day: read.date }, ...calls] };
  } catch (error) {
    if (error instanceof scullpouch.BadLine) return { bad: error.number };
    throw error;
  }
}

/** The table of a product after the notices, or the number of its opening's refusal. */
export function table_of(file, notices, id) {
  const said = asked(() => notices.read.table(file.judged, id));
  return is_refused(said) ? { table: null, refusal: said.number } : { ...said, refusal: 0 };
}

const days_of = table => table.maturities.map(one => `${one.key}:${one.day}`).join();

// One call on a table: whether its maturities moved; of a measure the price after it.
function step(table, call) {
  if (call.kind === 'M') return { price: table.measure(Math.min(call.p, 65535), Math.min(call.q, 65535), call.price) };
  if (call.kind === 'R') {
    const { entered, left } = table.roll(call.day);
    return { moved: entered + left > 0 };
  }
  const before = days_of(table);
  table[call.kind === 'C' ? 'close' : 'reopen'](call.day);
  return { moved: days_of(table) !== before };
}

// What each notice does to one product, call by call.
function steps_of(file, { calls: [opening, ...calls] }, id, done) {
  const table = asked(() => file.judged.open(id, opening.day));
  if (is_refused(table)) return done[0].refused.push({ id, number: table.number });
  done[0].moved.push(id);
  for (const [i, call] of calls.entries()) {
    if (call.kind === 'M' && call.id !== id) continue;
    const said = asked(() => step(table, call)), { moved, refused } = done[i + 1];
    if (is_refused(said)) refused.push({ id, number: said.number });
    else if (said.price !== undefined) Object.assign(done[i + 1], { moved: [id], after: said.price, size: table.product.size });
    else if (said.moved) moved.push(id);
  }
  return null;
}

/** What each notice did: which products moved, which were refused it, and of a measure the price after it and the size. Null
 * where it is not wanted any more. */
export async function done_of(file, notices, told, current) {
  const next = pace(told), done = notices.calls.map(call => ({ ...call, moved: [], refused: [], after: null, size: null }));
  for (const [place, { id }] of file.products.entries()) {
    steps_of(file, notices, id, done);
    await next((place + 1) / file.products.length);
    if (!current()) return null;
  }
  for (const call of done) if (call.kind === 'M' && !file.kinds.has(call.id)) call.refused.push({ id: call.id, number: 9 });
  return done;
}

const month_text = key => `${2000 + Math.floor(key / 12)}-${String(key % 12 + 1).padStart(2, '0')}`;

/** A maturity as it is written: its month, of a weekly option its Friday. */
export const key_text = (kind, key) => kind === scullpouch.WEEKLY ? scullpouch.date_text(key) : month_text(key);

// A line of the differences, as reconcile prints it.
function difference_of(line) {
  const [product, maturity, why, delivered, right] = line.split(',');
  return { product, maturity, why, delivered, right };
}

/** What differs between rows, lines as `deliver` writes them, and the tables after the notices: products in the file's order,
 * maturities rising, then ids that the file has not; and whether there are too many rows. Null where it is not wanted any
 * more. */
export async function differences_of(file, notices, lines, told, current) {
  const next = pace(told), steps = notices.read.differing(file.judged, new TextEncoder().encode(lines.map(line => `${line}\n`).join('')));
  for (let step = steps.next(); ; step = steps.next()) {
    if (step.done) return { found: step.value.text.split('\n').slice(1, -1).map(difference_of), over: step.value.over };
    await next(step.value);
    if (!current()) return null;
  }
}
