// A line of input for each call of the module scullpouch, a line of output for each answer (bindings/README.md).
//
//     node calls.js FOLDER     the folder that bindings/js/build made

import { readFileSync } from 'node:fs';
import { resolve } from 'node:path';
import { pathToFileURL } from 'node:url';

const scullpouch = await import(pathToFileURL(resolve(process.argv[2], 'scullpouch.js')));
await scullpouch.start();

const { LAYOUT, Table } = scullpouch;
const LOOPS = 50;
const TEXTS = ['file', 'open', 'open_in', 'set', 'write', 'notices', 'deliver', 'differences', 'read_decimal']; // the commands whose first word is a text
const TABLE = LAYOUT.table[1], ONE = LAYOUT.maturity;
const ZERO_TABLE = Table.from_bytes(new Uint8Array(LAYOUT.table[0]));
const hex = bytes => Buffer.from(bytes).toString('hex');

// The sum of (i + 1) * byte i, modulo 65,521.
const sum_of = bytes => bytes.reduce((sum, byte, i) => (sum + (i + 1) * byte) % 65521, 0);

// A call's refusal, and its value, or another where it is refused.
function asked(call, refused = null) {
  try {
    return [0, call()];
  } catch (error) {
    if (error instanceof scullpouch.Refused) return [error.number, refused];
    throw error;
  }
}

const calendar_words = calendar => [calendar.first_year, calendar.years, sum_of(calendar.closed), sum_of(calendar.exchange)];

// A text by its length and its sum.
const text_words = text => [text.length, sum_of(Buffer.from(text, 'latin1'))];

// The count, the places that are used, and the sum of the others.
function queue_words(queue) {
  const held = queue.to_bytes(), numbers = new Uint16Array(held.buffer, held.byteOffset, 201);
  const count = numbers[200];
  return [count, ...numbers.slice(0, Math.min(count, 200)), numbers.slice(count, 200).reduce((sum, number) => sum + number, 0)];
}

// What the lines before have left.
let bytes = new Uint8Array(0), master = null, held = ZERO_TABLE, kept = ZERO_TABLE, days = ZERO_TABLE.calendar;
let state = null, waiting = new scullpouch.Queue(), said = null;

function opened(call) {
  const [refusal, table] = asked(call, held);
  held = table;
  return refusal ? [refusal, 0, 0] : [0, held.moved.entered, held.moved.left];
}

function outcome(call) {
  const [refusal, moved] = asked(call, { entered: 0, left: 0 });
  return [refusal, moved.entered, moved.left];
}

// Where a field of a table stands, and how many bytes a number has there; of a place of an array.
function place_of(field, place) {
  if (field === 'closed' || field === 'exchange') return [TABLE.calendar + LAYOUT.calendar[1][field] + place, 1];
  if (field === 'first_year' || field === 'years') return [TABLE.calendar + LAYOUT.cover[1][field], 2];
  if (field === 'date' || field === 'given') return [TABLE[field], 2];
  if (field in LAYOUT.product[1]) {
    const size = { kind: 1, size: 4, tick: 2 }[field];
    return [TABLE.product + LAYOUT.product[1][field] + (size ? 0 : place), size ?? 1];
  }
  return [TABLE.maturities + ONE[0] * place + ONE[1][field === 'last' ? 'day' : field], 2];
}

// A command for each line; it gives the words of its answer, or nothing where it prints nothing.
const commands = {
  interface: () => [scullpouch.interface()],
  question: number => [scullpouch.QUESTIONS[number] ?? ''],
  day: (...date) => asked(() => scullpouch.day(...date), 0),
  date: day => asked(() => scullpouch.date(day), [0, 0, 0]).flat(),

  // ---- Texts ----

  // a day that is none is a refusal here, and 0000-00-00 in the other languages
  day_text: day => [asked(() => scullpouch.date_text(day), '0000-00-00')[1]],
  month_text: month => [scullpouch.month_text(month)],
  key_text: (kind, key) => [asked(() => new scullpouch.Product({ kind }).key_text(key), '0000-00-00')[1]],
  decimal: number => [scullpouch.decimal_text(number)],
  read_decimal: word => {
    try {
      return [1, scullpouch.decimal_of(word)];
    } catch (error) {
      if (error instanceof RangeError) return [0, 0];
      throw error;
    }
  },
  amount: (negative, amount, rest) => [scullpouch.amount_text({ negative: negative !== 0, amount: BigInt(amount), rest })],

  // ---- Files ----

  products: () => {
    const [refusal, one] = asked(() => new scullpouch.Master(bytes)), records = one ? one.products.map(product => product.record()) : [];
    return [refusal, records.length, sum_of(Buffer.concat(records))];
  },
  file: name => { bytes = readFileSync(name); },
  load: () => { const [refusal, counts] = asked(() => scullpouch.load(bytes), { years: 0, records: 0 }); return [refusal, counts.years, counts.records]; },
  judge_file: () => {
    const [refusal, one] = asked(() => new scullpouch.Master(bytes), master);
    master = one;
    return [refusal, ...calendar_words((master ?? ZERO_TABLE).calendar)];
  },
  announce: blocks => { const [refusal, one] = asked(() => new scullpouch.Intake(blocks), state); state = one; return [refusal]; },
  take: (from, length) => asked(() => state.take(bytes.subarray(from, from + length))).slice(0, 1),
  finish: () => { const [refusal, counts] = asked(() => state.finish(), { years: 0, records: 0 }); return [refusal, counts.years, counts.records]; },
  make: (...numbers) => { const [refusal, made] = asked(() => scullpouch.make(...numbers), days); days = made; return [refusal, ...calendar_words(days)]; },
  write: (name, room) => {
    const buffer = new Uint8Array(room).fill(0xa5), records = readFileSync(name);
    const [refusal, length] = asked(() => scullpouch.write_into(buffer, days, records), 0);
    if (refusal === 0 && Buffer.compare(scullpouch.write(days, records), buffer.subarray(0, length)) !== 0) throw new Error('write and write_into differ');
    return [refusal, length, sum_of(buffer)];
  },
  marked: () => [Number(days.marked_after_cover())],
  trades: day => [Number(days.trades(day))],
  calendar_close: day => [asked(() => days.close(day))[0], ...calendar_words(days)],
  calendar_reopen: day => [asked(() => days.reopen(day))[0], ...calendar_words(days)],

  // ---- Tables ----

  open: (id, date) => opened(() => scullpouch.open(bytes, id, date)),
  open_in: (id, date) => opened(() => master.open(id, date)),
  roll: date => outcome(() => held.roll(date)),
  close: day => outcome(() => held.close(day)),
  reopen: day => outcome(() => held.reopen(day)),
  measure: (...numbers) => asked(() => held.measure(...numbers), 0),
  table: () => {
    const data = held.to_bytes(), { product, maturities } = held;
    const codes = ['id', 'group', 'market', 'currency'].map(field => {
      const from = LAYOUT.product[1][field];
      return hex(data.slice(from, from + (field === 'currency' ? 3 : 4)));
    });
    const places = [...new Uint16Array(data.buffer, TABLE.maturities, 4 * scullpouch.PLACES)];
    const listed = maturities.flatMap(one => [one.key, one.day, one.back, one.number]);
    if (listed.some((number, i) => number !== places[i])) throw new Error('the maturities are not those of the places');
    return [codes.join(''), product.kind, product.size, product.tick, ...calendar_words(held.calendar), held.date, held.given, ...places, maturities.length];
  },
  last: key => { const [refusal, said] = asked(() => held.last_trading_day(key), { day: 0, back: 0 }); return [refusal, said.day, said.back]; },
  due: day => asked(() => held.due(day), 0),
  tick: price => asked(() => held.tick(price)).slice(0, 1),
  cash: (...numbers) => {
    const [refusal, cash] = asked(() => held.cash(...numbers), { negative: false, amount: 0n, rest: 0 });
    return [refusal, Number(cash.negative), cash.amount, cash.rest];
  },
  judge: (...numbers) => {
    const [refusal, verdict] = asked(() => held.judge(numbers), { same: false, key: 0 });
    return [refusal, Number(verdict.same), verdict.key ?? 0];
  },
  record: () => [hex(held.product.record())],

  // A byte of a map is xored with the value.
  set: (field, place, value) => {
    const data = held.to_bytes(), [from, size] = place_of(field, place);
    const number = field === 'closed' || field === 'exchange' ? data[from] ^ value : value;
    for (let i = 0; i < size; i++) data[from + i] = Math.floor(number / 256 ** i);
    held = Table.from_bytes(data, held.moved);
  },
  stored: () => { const data = held.to_bytes(); held = Table.from_bytes(data, held.moved); return [sum_of(data)]; },
  keep: () => { kept = held.copy(); },
  restore: () => { held = kept.copy(); },
  calendar: () => { days = held.calendar; },

  // ---- A delivery ----

  product: place => {
    const [refusal, one] = asked(() => scullpouch.product_at(bytes, place));
    if (refusal) return [refusal, '00'.repeat(15), 0, 0, 0];
    return [0, hex(Buffer.from(one.id.padEnd(4) + one.group.padEnd(4) + one.market.padEnd(4) + one.currency.padEnd(3), 'latin1')), one.kind, one.size, one.tick];
  },
  notices: name => {
    try {
      said = new scullpouch.Notices(readFileSync(name));
    } catch (error) {
      if (error instanceof scullpouch.BadLine) return [error.number, 0, 0, 0];
      throw error;
    }
    if (said.calls.length !== said.count) throw new Error('the calls are not as many as the notices');
    return [0, said.date, said.opened, said.count];
  },
  deliver: id => {
    const [refusal, one] = asked(() => said.table(master, id), { table: held, refused: [] });
    held = one.table;
    return [refusal, one.refused.length, ...one.refused.flatMap(({ line, number }) => [line, number])];
  },
  rows: () => { const [refusal, text] = asked(() => held.rows(), ''); return [refusal, ...text_words(text)]; },
  delivery: () => {
    if (master.products.length !== scullpouch.load(bytes).records) throw new Error('the products are not as many as the records');
    return [...text_words(said.rows(master)), ...text_words(said.refused(master))];
  },
  differences: name => {
    const found = said.differences(master, readFileSync(name));
    return [found.rows, found.differ, Number(found.over), ...text_words(found.text), ...found.bad];
  },

  // ---- The round ----

  queue: () => { waiting = new scullpouch.Queue(); },
  // A queue of any numbers: its count, then its places from the first on.
  numbers: (count, ...places) => {
    const numbers = new Uint16Array(201);
    numbers.set(places);
    numbers[200] = count;
    waiting = scullpouch.Queue.from_bytes(numbers);
  },
  round: () => queue_words(waiting),
  handle: b => { const [refusal, taken] = asked(() => waiting.handle(b), []); return [refusal, taken.length, ...taken, 0]; },
  join: table => asked(() => waiting.join(table)).slice(0, 1),
  leave: table => asked(() => waiting.leave(table)).slice(0, 1),

  // The microseconds of a roll to a date, the best of some loops of so many rolls.
  time: (count, date) => {
    let best = Infinity;
    for (let loop = 0; loop < LOOPS; loop++) {
      const start = performance.now();
      for (let i = 0; i < count; i++) held.roll(date);
      best = Math.min(best, performance.now() - start);
    }
    return [(1000 * best / count).toFixed(2)];
  },
};

const out = [];
for (const line of readFileSync(0, 'latin1').split('\n').filter(line => line !== '')) {
  const [name, ...words] = line.split(' '), texts = TEXTS.includes(name) ? 1 : 0;
  const said = commands[name](...words.slice(0, texts), ...words.slice(texts).map(Number));
  if (said) out.push(said.join(' ') + '\n');
}
process.stdout.write(out.join(''));
