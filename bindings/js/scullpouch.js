// Contract terms of stock futures and stock options: the proved calls, for JavaScript, in node and in browsers.
//
//     import * as scullpouch from './scullpouch.js';
//     await scullpouch.start();
//     const table = scullpouch.open(file, 'AXA', '2008-03-20');
//     table.roll('2008-03-21');
//
// A day is a number from 0, 1 January 2000; where one is asked for, a text as 2008-03-20 is taken too. A month is a
// number from 0, January 2000. The key of a maturity is its month, or the day of a weekly option's Friday. A price is a
// number of 1/10,000 of the currency; where one is asked for, a text as 12.34 is taken too. A call gives its value or
// throws Refused; a refused call leaves the table, queue, load or calendar as it was. A number that does not fit its C
// type, a map or a stored table of another length is a RangeError, a value of another type a TypeError. Files, records,
// blocks, maps and stored tables are the bytes of an ArrayBuffer or of any view of one.
//
// The calls are in scullpouch.wasm, which start reads; it imports nothing, and keeps nothing from call to call.

export const INTERFACE = 2;
export const FILE_AT_MOST = 65536;
export const BLOCK = 512;
export const RECORD = 32;
export const PLACES = 15;
export const MAP = 736;
export const YEAR_MAP = 46;
export const TABLES = 200;
export const WEEKLY = 5; // the kind whose keys are days
export const NOTICES = 6554; // the most notices of a text
export const CALLS = 5 * NOTICES;
export const NOTICE_IDS = 4 * NOTICES;
export const ROWS = 65536; // the most rows that are read
export const ROW_IDS = 4 * ROWS;
export const TABLE_TEXT = 1024; // room for the rows of any table
export const KEYS = 65536; // after the last key

export const QUESTIONS = Object.freeze({
  1: 'Is the length a multiple of 512, from 1,024 to 65,536?',
  2: 'Is every check right?',
  3: 'Is every header right?',
  4: 'Do 1 to 16 calendar blocks of consecutive rising years come first, then at least one product block and no other kind?',
  5: 'Is every calendar block clean?',
  6: 'Does every run of seven days in the cover hold a trading day?',
  7: 'Is every record as stated, and all that must be zero zero?',
  8: 'Do the ids strictly rise over the file?',
  9: 'Is the id there?',
  10: 'Is the table sound?',
  11: 'Is the day in the cover?',
  12: "Is it not before the table's date?",
  13: "Is it after the table's date?",
  14: 'Is it a trading day?',
  15: 'With it closed, does every seven-day run still hold a trading day?',
  16: 'Are all months of the fresh listing in the cover?',
  17: 'Is the due day in the cover?',
  18: 'Is the month listed?',
  19: 'Is the order or agreed price 1 to 999,999,999?',
  20: 'Is it a multiple of the tick?',
  21: 'Is it a future?',
  22: 'Is the final price 0 to 999,999,999 and are the contracts 1 to 100,000?',
  23: 'Is it a date, or day number, of 2000–2099?',
  24: "Is the date at least seven days after the cover's first day?",
  25: 'Is the buffer long enough for the file, and the file at most 65,536 bytes?',
  26: 'Is the day a closed Monday to Friday?',
  27: 'Does the front maturity stay the same month or Friday, whatever its day?',
  28: 'Are p and q in range?',
  29: 'Are the new size, 1 ten-thousandth to 65,535.9999 shares, and the new price, 1 to 999,999,999, in range?',
  30: 'Is b from 1 to 200 and the table number 0 to 199?',
  31: 'For joining, is it not yet queued, and for leaving, is it queued?',
});

/** The first question that was answered no: its number, and the question in words. */
export class Refused extends Error {
  constructor(number) {
    const question = QUESTIONS[number] ?? '';
    super(`refusal ${number}: ${question}`);
    this.name = 'Refused';
    this.number = number;
    this.question = question;
  }
}

/** The number, from 1, of the first line of a text of notices that is none. */
export class BadLine extends Error {
  constructor(number) {
    super(`notices.txt:${number}: BAD`);
    this.name = 'BadLine';
    this.number = number;
  }
}

// ---- The structs, as bindings/include/scullpouch.h has them ----

const NUMBERS = { u8: 1, bool: 1, u16: 2, u32: 4, u64: 8, usize: 8 };
const STRUCTS = {
  id: { bytes: 'u8[4]' },
  record_bytes: { bytes: 'u8[32]' },
  product: { id: 'u8[4]', group: 'u8[4]', market: 'u8[4]', kind: 'u8', currency: 'u8[3]', size: 'u32', tick: 'u16' },
  cover: { first_year: 'u16', years: 'u16' },
  calendar: { cover: 'cover', closed: 'u8[736]', exchange: 'u8[736]' },
  maturity: { key: 'u16', day: 'u16', back: 'u16', number: 'u16' },
  table: { product: 'product', calendar: 'calendar', date: 'u16', given: 'u16', maturities: 'maturity[15]' },
  outcome: { refusal: 'u8', entered: 'u16', left: 'u16', table: 'table' },
  measured: { refusal: 'u8', price: 'u32', table: 'table' },
  day_reply: { refusal: 'u8', day: 'u16' },
  date_reply: { refusal: 'u8', year: 'u16', month: 'u16', day: 'u16' },
  last_day_reply: { refusal: 'u8', day: 'u16', back: 'u16' },
  amount: { negative: 'bool', amount: 'u64', rest: 'u16' },
  cash_reply: { refusal: 'u8', cash: 'amount' },
  counts: { years: 'u16', records: 'u16' },
  loaded: { refusal: 'u8', counts: 'counts' },
  file_calendar: { refusal: 'u8', calendar: 'calendar' },
  written: { refusal: 'u8', length: 'usize' },
  intake: {
    announced: 'u16', taken: 'u16', lowest: 'u16', first_year: 'u16', years: 'u16', idle: 'u16', records: 'u16', last_id: 'u8[4]',
  },
  taken: { refusal: 'u8', state: 'intake' },
  finished: { refusal: 'u8', counts: 'counts', state: 'intake' },
  verdict: { refusal: 'u8', same: 'bool', key: 'u16' },
  round: { tables: 'u16[200]', count: 'u16' },
  handled: { refusal: 'u8', taken: 'round', queue: 'round' },
  changed: { refusal: 'u8', queue: 'round' },
  made: { refusal: 'u8', calendar: 'calendar' },
  product_reply: { refusal: 'u8', product: 'product' },
  notices: { fits: 'bool', date: 'u16', opened: 'u32', count: 'u32', bad: 'u32' },
  delivered: { fits: 'bool', refusal: 'u8', table: 'table' },
  text: { refusal: 'u8', fits: 'bool', length: 'usize' },
  line: { bytes: 'u8[64]', length: 'usize' },
  receipt: { next: 'usize', rows: 'u32', lines: 'u32', bad: 'u32', begun: 'bool', over: 'bool' },
  found: { refusal: 'u8', fits: 'bool', next: 'u32', lines: 'u32', length: 'usize' },
};

/** The layout, which every language must share: the size of each struct, and where each field stands. */
export const LAYOUT = {
  id: [4, { bytes: 0 }],
  record_bytes: [32, { bytes: 0 }],
  product: [24, { id: 0, group: 4, market: 8, kind: 12, currency: 13, size: 16, tick: 20 }],
  cover: [4, { first_year: 0, years: 2 }],
  calendar: [1476, { cover: 0, closed: 4, exchange: 740 }],
  maturity: [8, { key: 0, day: 2, back: 4, number: 6 }],
  table: [1624, { product: 0, calendar: 24, date: 1500, given: 1502, maturities: 1504 }],
  outcome: [1632, { refusal: 0, entered: 2, left: 4, table: 8 }],
  measured: [1632, { refusal: 0, price: 4, table: 8 }],
  day_reply: [4, { refusal: 0, day: 2 }],
  date_reply: [8, { refusal: 0, year: 2, month: 4, day: 6 }],
  last_day_reply: [6, { refusal: 0, day: 2, back: 4 }],
  amount: [24, { negative: 0, amount: 8, rest: 16 }],
  cash_reply: [32, { refusal: 0, cash: 8 }],
  counts: [4, { years: 0, records: 2 }],
  loaded: [6, { refusal: 0, counts: 2 }],
  file_calendar: [1478, { refusal: 0, calendar: 2 }],
  written: [16, { refusal: 0, length: 8 }],
  intake: [18, { announced: 0, taken: 2, lowest: 4, first_year: 6, years: 8, idle: 10, records: 12, last_id: 14 }],
  taken: [20, { refusal: 0, state: 2 }],
  finished: [24, { refusal: 0, counts: 2, state: 6 }],
  verdict: [4, { refusal: 0, same: 1, key: 2 }],
  round: [402, { tables: 0, count: 400 }],
  handled: [806, { refusal: 0, taken: 2, queue: 404 }],
  changed: [404, { refusal: 0, queue: 2 }],
  made: [1478, { refusal: 0, calendar: 2 }],
  product_reply: [28, { refusal: 0, product: 4 }],
  notices: [16, { fits: 0, date: 2, opened: 4, count: 8, bad: 12 }],
  delivered: [1628, { fits: 0, refusal: 1, table: 4 }],
  text: [16, { refusal: 0, fits: 1, length: 8 }],
  line: [72, { bytes: 0, length: 64 }],
  receipt: [24, { next: 0, rows: 8, lines: 12, bad: 16, begun: 20, over: 21 }],
  found: [24, { refusal: 0, fits: 1, next: 4, lines: 8, length: 16 }],
};

// What each call answers and takes. What is lent is a place and a count; a buffer is lent, and written.
const SIGNATURES = {
  interface: ['u32'],
  day: ['day_reply', 'u16', 'u16', 'u16'],
  date: ['date_reply', 'u16'],
  load: ['loaded', 'lent'],
  open: ['outcome', 'lent', 'id', 'u16'],
  judge_file: ['file_calendar', 'lent'],
  open_in: ['outcome', 'file_calendar', 'lent', 'id', 'u16'],
  roll: ['outcome', 'table', 'u16'],
  close: ['outcome', 'table', 'u16'],
  reopen: ['outcome', 'table', 'u16'],
  measure: ['measured', 'table', 'u16', 'u16', 'u32'],
  last_trading_day: ['last_day_reply', 'table', 'u16'],
  due: ['day_reply', 'table', 'u16'],
  tick: ['u8', 'table', 'u32'],
  cash: ['cash_reply', 'table', 'u32', 'u32', 'u32'],
  judge: ['verdict', 'table', 'lent'],
  write: ['written', 'calendar', 'lent', 'buffer'],
  record: ['record_bytes', 'product'],
  announce: ['taken', 'u16'],
  take: ['taken', 'intake', 'lent'],
  finish: ['finished', 'intake'],
  queue: ['round'],
  handle: ['handled', 'round', 'u16'],
  join: ['changed', 'round', 'u16'],
  leave: ['changed', 'round', 'u16'],
  make: ['made', 'u32', 'cover'],
  product_at: ['product_reply', 'lent', 'usize'],
  read_notices: ['notices', 'lent', 'buffer', 'buffer'],
  deliver: ['delivered', 'file_calendar', 'lent', 'notices', 'lent', 'lent', 'id', 'buffer'],
  rows: ['text', 'table', 'buffer'],
  rows_heading: ['line'],
  refused_call: ['line', 'id', 'notices', 'u8', 'lent', 'lent', 'u32'],
  unknown_measure: ['line', 'lent', 'lent', 'lent', 'u32'],
  receive: ['receipt', 'receipt', 'lent', 'lent', 'buffer', 'buffer', 'buffer', 'buffer', 'buffer', 'buffer'],
  differences: ['found', 'product', 'delivered', 'u32', 'lent', 'lent', 'lent', 'lent', 'lent', 'lent', 'buffer', 'u32', 'buffer'],
  differences_heading: ['line'],
  unknown_product: ['line', 'lent', 'lent', 'u32'],
};

// The size and the alignment of a type by C's rules.
function size_of(type) {
  const array = /^(\w+)\[(\d+)\]$/.exec(type);
  if (array) {
    const [size, alignment] = size_of(array[1]);
    return [size * Number(array[2]), alignment];
  }
  return type in NUMBERS ? [NUMBERS[type], NUMBERS[type]] : layout_of(type);
}

// The size, the alignment and the offsets of a struct.
function layout_of(name) {
  const offsets = {};
  let end = 0, widest = 1;
  for (const [field, type] of Object.entries(STRUCTS[name])) {
    const [size, alignment] = size_of(type);
    offsets[field] = Math.ceil(end / alignment) * alignment;
    end = offsets[field] + size;
    widest = Math.max(widest, alignment);
  }
  return [Math.ceil(end / widest) * widest, widest, offsets];
}

// Every field's place, length and whether it is a number.
const FIELDS = {};
for (const [name, [size, offsets]] of Object.entries(LAYOUT)) {
  const [found, , places] = layout_of(name);
  if (found !== size || JSON.stringify(places) !== JSON.stringify(offsets)) throw new Error(`scullpouch: the layout of ${name}`);
  FIELDS[name] = {};
  for (const [field, type] of Object.entries(STRUCTS[name])) FIELDS[name][field] = [offsets[field], size_of(type)[0], type in NUMBERS];
}
const SIZE = Object.fromEntries(Object.entries(LAYOUT).map(([name, [size]]) => [name, size]));

function number_at(bytes, at, size) {
  if (size > 4) return new DataView(bytes.buffer, bytes.byteOffset + at).getBigUint64(0, true);
  let number = 0;
  for (let i = at + size; i-- > at;) number = number * 256 + bytes[i];
  return number;
}

// A field of a struct that stands in bytes from a place on: a number, of eight bytes a BigInt, or a part of the bytes.
function get(bytes, struct, field, from = 0) {
  const [offset, size, is_number] = FIELDS[struct][field];
  return is_number ? number_at(bytes, from + offset, size) : bytes.subarray(from + offset, from + offset + size);
}

// A struct of these fields, numbers or bytes.
function made_of(struct, values) {
  const bytes = new Uint8Array(SIZE[struct]);
  for (const [field, value] of Object.entries(values)) {
    const [offset, size, is_number] = FIELDS[struct][field];
    if (is_number) for (let i = 0, rest = value; i < size; i++, rest = Math.floor(rest / 256)) bytes[offset + i] = rest % 256;
    else bytes.set(value, offset);
  }
  return bytes;
}

// How the arguments of a call are handed over, by the rule of C on the machine for which the code was made: a number takes
// one of six registers, what is lent two, a struct of up to 16 bytes one or two where so many are left. A longer struct, and
// one for which none are left, is handed over by its place. So is an answer of more than 16 bytes, in the first register.
function ways_of([answer, ...kinds]) {
  let left = SIZE[answer] > 16 ? 5 : 6;
  const take = count => { left = Math.max(0, left - count); };
  return kinds.map(kind => {
    if (kind in NUMBERS || kind === 'lent' || kind === 'buffer') {
      take(kind in NUMBERS ? 1 : 2);
      return kind in NUMBERS ? 'number' : kind;
    }
    const needed = Math.ceil(SIZE[kind] / 8), fits = SIZE[kind] <= 16 && needed <= left;
    if (fits) take(needed);
    return fits ? 'words' : 'place';
  });
}

const WAYS = Object.fromEntries(Object.entries(SIGNATURES).map(([name, signature]) => [name, ways_of(signature)]));
const WORDS = { number: () => 1, place: () => 1, lent: () => 2, buffer: () => 2, words: size => Math.ceil(size / 8) };

// ---- The module ----

const STEP = 16; // what is placed begins at a multiple of this
const PAGE = 65536;
const LENT_AT_MOST = 16 * 1024 * 1024;
let module = null, held = null, made_by = null; // the module, one running copy of it, the kit that made it

const placed_from = at => Math.ceil(at / STEP) * STEP;

// A running copy of the module, with a memory of its own: its calls, and the first free place.
function copy_of(one) {
  const { exports } = new WebAssembly.Instance(one, {}), calls = {};
  for (const [name, [answer, ...kinds]] of Object.entries(SIGNATURES)) {
    const call = exports[`scullpouch_${name}`];
    if (!call) throw new Error(`scullpouch: the module has no scullpouch_${name}`);
    const words = kinds.reduce((sum, kind, i) => sum + WORDS[WAYS[name][i]](SIZE[kind]), SIZE[answer] > 8 ? 1 : 0);
    if (call.length !== words) throw new Error(`scullpouch: scullpouch_${name} takes ${call.length} words, not ${words}`);
    calls[name] = call;
  }
  return { calls, memory: exports.memory, free: placed_from(exports.__heap_base.value) };
}

/** Reads the module of the calls: its bytes, or a compiled one; without an argument scullpouch.wasm beside this file. */
export async function start(source) {
  const one = source instanceof WebAssembly.Module ? source : await WebAssembly.compile(source === undefined ? await beside() : bytes_of(source));
  const copy = copy_of(one), [section] = WebAssembly.Module.customSections(one, 'kit');
  if (copy.calls.interface() !== INTERFACE) throw new Error(`scullpouch: the module has another interface than ${INTERFACE}`);
  if (!section) throw new Error('scullpouch: the module does not say which kit made it');
  [module, held, made_by] = [one, copy, new TextDecoder().decode(section)];
}

async function beside() {
  const url = new URL('scullpouch.wasm', import.meta.url);
  if (url.protocol === 'file:' && globalThis.process?.versions?.node) return (await import('node:fs/promises')).readFile(url);
  return new Uint8Array(await (await fetch(url)).arrayBuffer());
}

function started() {
  if (!held) throw new Error('scullpouch: call start() first, and wait for it');
  return held;
}

// The memory of a copy, long enough for so many bytes. It may stand elsewhere after it was made longer.
function memory_of({ memory }, bytes) {
  const more = Math.ceil((bytes - memory.buffer.byteLength) / PAGE);
  if (more > 0) memory.grow(more);
  return new Uint8Array(memory.buffer);
}

const as_bytes_of = array => new Uint8Array(array.buffer, array.byteOffset, array.byteLength);

// Puts bytes into the memory of a copy, from a place on: the first place after them.
function put(copy, bytes, at) {
  if (bytes.length > LENT_AT_MOST) throw new RangeError(`${bytes.length} bytes are more than ${LENT_AT_MOST}`);
  const top = placed_from(at + bytes.length);
  memory_of(copy, top + STEP).set(bytes, at);
  return top;
}

// A list that stays in the memory of a copy, to be lent to many calls.
class Kept {
  constructor(copy, list) {
    [this.at, this.length] = [copy.free, list.length];
    copy.free = put(copy, as_bytes_of(list), copy.free);
  }
}

// An integer of so many bytes to them, and the words of a struct, eight bytes each, the last of up to four a number.
const as_bytes = (word, size) => Uint8Array.from({ length: size }, (_, i) => Number(BigInt(word) >> BigInt(8 * i) & 255n));
const word_of = bytes => bytes.reduceRight((sum, byte) => sum << 8n | BigInt(byte), 0n);
const words_of = bytes => bytes.length <= 4 ? [Number(word_of(bytes))] : bytes.length <= 8 ? [word_of(bytes)] : [word_of(bytes.subarray(0, 8)), word_of(bytes.subarray(8))];

// A call of a copy. What is handed over is copied into its memory for each call, since a callee may change what it is handed
// by value; but for a list that is kept there. An answer of more than eight bytes comes at the place that is handed over
// first. Buffers are copied back.
function call_in(copy, name, ...values) {
  const answer = SIGNATURES[name][0], room = SIZE[answer] ?? 0, ways = WAYS[name], words = room > 8 ? [copy.free] : [], written = [];
  let top = copy.free + placed_from(room);
  for (const [i, value] of values.entries()) {
    if (ways[i] === 'number') words.push(SIGNATURES[name][i + 1] === 'usize' ? BigInt(value) : value);
    else if (ways[i] === 'words') words.push(...words_of(value));
    else if (value instanceof Kept) words.push(value.at, BigInt(value.length));
    else {
      words.push(top);
      if (ways[i] !== 'place') words.push(BigInt(value.length));
      if (ways[i] === 'buffer') written.push([as_bytes_of(value), top]);
      top = put(copy, as_bytes_of(value), top);
    }
  }
  memory_of(copy, top + STEP);
  const word = copy.calls[name](...words);
  for (const [bytes, at] of written) bytes.set(new Uint8Array(copy.memory.buffer, at, bytes.length));
  if (room === 0) return answer === 'u8' ? word & 255 : word >>> 0;
  return room > 8 ? new Uint8Array(copy.memory.buffer, copy.free, room).slice() : as_bytes(word, room);
}

const call = (name, ...values) => call_in(started(), name, ...values);

// ---- Arguments and answers ----

// WebAssembly would cut a number that does not fit, so each is held to its range.
function fit(number, bits = 16) {
  if (!Number.isInteger(number)) throw new TypeError(`${String(number)} is not an integer`);
  if (number < 0 || number >= 2 ** bits) throw new RangeError(`${number} does not fit ${bits} bits`);
  return number;
}

// The day of a number, or of a text as 2008-03-20.
function day_of(value) {
  if (typeof value !== 'string') return fit(value);
  const match = /^(\d{4})-(\d\d)-(\d\d)$/.exec(value);
  if (!match) throw new RangeError(`${JSON.stringify(value)} is not a date as 2008-03-20`);
  return day(...match.slice(1).map(Number));
}

// The ten-thousandths of a number of them, or of a text as 12.34.
const price_of = value => typeof value === 'string' ? decimal_of(value) : fit(value, 32);

const getter = (prototype, name) => Object.getOwnPropertyDescriptor(prototype, name).get;
const measures_of = prototype => ['buffer', 'byteOffset', 'byteLength'].map(name => getter(prototype, name));
const TYPED = Object.getPrototypeOf(Uint8Array.prototype);
const MEASURES = { typed: measures_of(TYPED), view: measures_of(DataView.prototype) };
const type_name = getter(TYPED, Symbol.toStringTag);
const buffer_length = getter(ArrayBuffer.prototype, 'byteLength');

// The bytes of a view or a buffer, as the engine measures it, whatever the object says of itself.
function bytes_of(data) {
  if (ArrayBuffer.isView(data)) return new Uint8Array(...MEASURES[type_name.call(data) ? 'typed' : 'view'].map(measure => measure.call(data)));
  try {
    buffer_length.call(data);
  } catch {
    throw new TypeError('bytes are a Uint8Array, another view of a buffer, or an ArrayBuffer');
  }
  return new Uint8Array(data);
}

// A file, of which one byte more than the longest file is enough to see that it is too long.
const file_of = data => bytes_of(data).subarray(0, FILE_AT_MOST + 1);

function sized(data, size, name) {
  const bytes = bytes_of(data);
  if (bytes.length !== size) throw new RangeError(`a ${name} has ${size} bytes`);
  return bytes;
}

// The bytes of a code, such as an id, filled up with spaces.
function code_of(text, length = 4) {
  if (typeof text !== 'string') throw new TypeError('a code is a text');
  if (text.length > length || /[^\0-\xff]/.test(text)) throw new RangeError(`${JSON.stringify(text)} is not a code of ${length} characters`);
  return Uint8Array.from(text.padEnd(length), letter => letter.charCodeAt(0));
}

// The id of a text. One that no record can have is not there, as any other: open refuses it (9).
function id_of(text) {
  if (typeof text !== 'string') throw new TypeError('an id is a text');
  return code_of(text.length > 4 ? '' : text.replace(/[^\0-\x7f]/g, '?'));
}

const text_of = code => String.fromCharCode(...code).replace(/ +$/, '');

function judged(reply, struct) {
  const refusal = get(reply, struct, 'refusal');
  if (refusal) throw new Refused(refusal);
  return reply;
}

// The answer of a call that may refuse.
const asked = (name, ...values) => judged(call(name, ...values), SIGNATURES[name][0]);

function counts_of(reply, struct) {
  const counts = get(reply, struct, 'counts');
  return { years: get(counts, 'counts', 'years'), records: get(counts, 'counts', 'records') };
}

const calendar_of = bytes => new Calendar({
  first_year: get(bytes, 'cover', 'first_year'), years: get(bytes, 'cover', 'years'),
  closed: get(bytes, 'calendar', 'closed'), exchange: get(bytes, 'calendar', 'exchange'),
});

// A name that JavaScript keeps for itself, so it is exported below.
const interface_number = () => call('interface');
export { interface_number as interface };

/** The toolchain that proved the calls and made the module, as the module says it. */
export const kit = () => (started(), made_by);

// ---- Days ----

/** The day of a date. */
export function day(year, month, day) {
  return get(asked('day', fit(year), fit(month), fit(day)), 'day_reply', 'day');
}

/** Year, month and day of the month of a day. */
export function date(day) {
  const reply = asked('date', day_of(day));
  return ['year', 'month', 'day'].map(field => get(reply, 'date_reply', field));
}

/** A day as 2008-03-20. */
export function date_text(day) {
  const [year, month, of_month] = date(day);
  return `${year}-${String(month).padStart(2, '0')}-${String(of_month).padStart(2, '0')}`;
}

/** A month as 2008-03. */
export function month_text(month) {
  const number = fit(month);
  return `${2000 + Math.floor(number / 12)}-${String(number % 12 + 1).padStart(2, '0')}`;
}

// ---- Decimals ----

// An integer with a point before so many of its digits.
function pointed(digits, after) {
  const padded = digits.padStart(after + 1, '0');
  return `${padded.slice(0, -after)}.${padded.slice(-after)}`;
}

/** A number of ten-thousandths, such as a price, a tick or a size, as 12.3400. */
export const decimal_text = number => pointed(String(fit(number, 32)), 4);

/** The ten-thousandths of digits, perhaps with a point and one to four digits after it. Another text, and one above
 * 429496.7295, is a RangeError. */
export function decimal_of(text) {
  if (typeof text !== 'string') throw new TypeError('a decimal is a text');
  const match = /^([0-9]+)(?:\.([0-9]{1,4}))?$/.exec(text);
  const number = match ? Number(match[1] + (match[2] ?? '').padEnd(4, '0')) : NaN;
  if (!(number < 2 ** 32)) throw new RangeError(`${JSON.stringify(text)} is not a decimal as 12.34, at most 429496.7295`);
  return number;
}

/** Cash in the currency as 48.00000000, -0.00000001, zero without a sign. */
export function amount_text({ negative, amount, rest }) {
  const parts = 10_000n * amount + BigInt(rest);
  return (negative && parts > 0n ? '-' : '') + pointed(String(parts), 8);
}

// ---- Files ----

const product_of = bytes => new Product({
  id: text_of(get(bytes, 'product', 'id')), group: text_of(get(bytes, 'product', 'group')), market: text_of(get(bytes, 'product', 'market')),
  kind: get(bytes, 'product', 'kind'), currency: text_of(get(bytes, 'product', 'currency')), size: get(bytes, 'product', 'size'), tick: get(bytes, 'product', 'tick'),
});

/** The product at a place of a master file: place p is record p % 15 of block p / 15, and one that holds no record gets 9.
 * Master.products has all of them. */
export const product_at = (file, place) => product_of(get(asked('product_at', file_of(file), fit(place, 64)), 'product_reply', 'product'));

/** Judges a master file: the counts of years and of records. */
export const load = file => counts_of(asked('load', file_of(file)), 'loaded');

/** A made-up calendar for load tests. */
export function make(seed, first_year, years) {
  const cover = made_of('cover', { first_year: fit(first_year), years: fit(years) });
  return calendar_of(get(asked('make', fit(seed, 32), cover), 'made', 'calendar'));
}

/** Writes the master file of a calendar and of records, 32 bytes each, into a buffer: the file's length. What stands
 * after the file stays; refused, everything does. Days that are marked after the cover's last year are not in the file
 * (Calendar.marked_after_cover). */
export function write_into(buffer, calendar, records) {
  const room = bytes_of(buffer).subarray(0, FILE_AT_MOST); // no file is longer
  return Number(get(asked('write', calendar_bytes(calendar), bytes_of(records), room), 'written', 'length'));
}

/** The master file of a calendar and of records, 32 bytes each. Days that are marked after the cover's last year are not
 * in it (Calendar.marked_after_cover). */
export function write(calendar, records) {
  const buffer = new Uint8Array(FILE_AT_MOST);
  return buffer.slice(0, write_into(buffer, calendar, records));
}

function calendar_bytes(calendar) {
  if (!(calendar instanceof Calendar)) throw new TypeError('a Calendar is expected');
  const cover = made_of('cover', { first_year: fit(calendar.first_year), years: fit(calendar.years) });
  return made_of('calendar', { cover, closed: sized(calendar.closed, MAP, 'map'), exchange: sized(calendar.exchange, MAP, 'map') });
}

/** A cover and two maps of 736 bytes: the closed days, and those of them on which payments and deliveries run. Year k of
 * the cover has the 46 bytes from 46 * k on; its first day is the highest bit of the first of them. */
export class Calendar {
  constructor({ first_year, years, closed, exchange }) {
    Object.assign(this, { first_year: fit(first_year), years: fit(years) });
    Object.assign(this, { closed: sized(closed, MAP, 'map').slice(), exchange: sized(exchange, MAP, 'map').slice() });
  }

  /** Whether a map has days marked after the cover's last year, which are in no file that write makes. */
  marked_after_cover() {
    const bytes = calendar_bytes(this), after = YEAR_MAP * this.years;
    return ['closed', 'exchange'].some(map => get(bytes, 'calendar', map).subarray(after).some(byte => byte !== 0));
  }

  // The place of a day's bit in both maps; null where the day is not in the cover.
  #place(day) {
    const reply = call('date', day), year = get(reply, 'date_reply', 'year'), after = year - fit(this.first_year);
    if (get(reply, 'date_reply', 'refusal') || after < 0 || after >= fit(this.years)) return null;
    return 8 * YEAR_MAP * after + day - get(call('day', year, 1, 1), 'day_reply', 'day');
  }

  // Whether the day of a place is closed; none is after the maps' end.
  #is_closed(place) {
    return ((bytes_of(this.closed)[Math.floor(place / 8)] ?? 0) & 128 >> place % 8) !== 0;
  }

  // What write would refuse of it, 3 to 6, or 0: it is handed one record that is right, and no room for the file, so that 25
  // says that all else is right.
  #refusal() {
    const record = new Product({ id: 'A', group: 'AA00', market: 'AAAA', kind: 0, currency: 'EUR', size: 10_000, tick: 1 }).record();
    const refusal = get(call('write', calendar_bytes(this), record, new Uint8Array(0)), 'written', 'refusal');
    return refusal === 25 ? 0 : refusal;
  }

  // What close and reopen ask first; the place of the day.
  #asked_place(day) {
    const refusal = this.#refusal(), place = this.#place(day);
    if (refusal || place === null) throw new Refused(refusal || 11);
    return place;
  }

  /** Whether a day is a trading day: a Monday to Friday in the cover that is not closed. */
  trades(day) {
    const number = day_of(day), place = this.#place(number);
    return place !== null && is_weekday(number) && !this.#is_closed(place);
  }

  /** Closes a trading day. It asks what write asks of a calendar (3 to 6), then 11, 14, 15. */
  close(day) {
    const number = day_of(day), place = this.#asked_place(number), closed = bytes_of(this.closed), at = Math.floor(place / 8);
    if (!this.trades(number)) throw new Refused(14);
    closed[at] ^= 128 >> place % 8;
    if (this.#refusal()) {
      closed[at] ^= 128 >> place % 8;
      throw new Refused(15);
    }
  }

  /** Opens a closed day again, in both maps. It asks what write asks of a calendar (3 to 6), then 11, 26. */
  reopen(day) {
    const number = day_of(day), place = this.#asked_place(number);
    if (!is_weekday(number) || !this.#is_closed(place)) throw new Refused(26);
    for (const map of [this.closed, this.exchange]) bytes_of(map)[Math.floor(place / 8)] &= ~(128 >> place % 8);
  }
}

// Monday to Friday. Day 0 is a Saturday.
const is_weekday = day => (day + 5) % 7 < 5;

/** A product. kind: 0 a future, 1, 2, 3 an option of 12, 24, 60 months, 4 a future of 2005, 5 a weekly option; size in
 * 1/10,000 of a share, tick in 1/10,000 of the currency. */
export class Product {
  constructor({ id, group, market, kind, currency, size, tick }) {
    Object.assign(this, { id, group, market, kind, currency, size, tick });
  }

  /** Its 32 bytes in a master file, whatever its fields are; write judges them. */
  record() {
    return call('record', made_of('product', {
      id: code_of(this.id), group: code_of(this.group), market: code_of(this.market), kind: fit(this.kind, 8),
      currency: code_of(this.currency, 3), size: fit(this.size, 32), tick: fit(this.tick),
    }));
  }

  /** The key of a maturity: its month as 2008-04, of a weekly option its Friday as 2008-04-25. */
  key_text(key) {
    return this.kind === WEEKLY ? date_text(key) : month_text(key);
  }
}

/** A load of a file of so many blocks, block by block: take each 512 bytes, then finish. */
export class Intake {
  #state;

  constructor(blocks) {
    this.#state = get(asked('announce', fit(blocks)), 'taken', 'state');
  }

  /** Takes the next block. */
  take(block) {
    const bytes = bytes_of(block).subarray(0, BLOCK + 1); // enough to see that it is too long
    this.#state = get(asked('take', this.#state, bytes), 'taken', 'state');
  }

  /** The counts of years and of records, as load gives them. */
  finish() {
    return counts_of(asked('finish', this.#state), 'finished');
  }
}

// ---- Tables ----

/** The table of a product of a master file on a date. An id that no record can have is not there (9). Master judges the
 * file once for many. */
export const open = (file, id, date) => new Table(asked('open', file_of(file), id_of(id), day_of(date)));

let judged_of; // of a Master, for the calls of a delivery

/** A master file that was judged once, for many opens. It keeps the bytes that were judged. */
export class Master {
  #file;
  #said;
  #products = null;

  constructor(file) {
    this.#file = file_of(file).slice();
    this.#said = asked('judge_file', this.#file);
  }

  // For the calls of a delivery: the bytes that were judged, what was said of them, the products as the calls have them.
  static {
    judged_of = master => {
      if (!(master instanceof Master)) throw new TypeError('a Master is expected');
      return { file: master.#file, said: master.#said, products: master.#held() };
    };
  }

  #held() {
    if (!this.#products) {
      // each question is asked of the whole file again, so the file is kept where the calls are made
      const copy = copy_of(module), file = new Kept(copy, this.#file), places = Array.from({ length: PLACES * Math.floor(this.#file.length / BLOCK) }, (_, place) => place);
      const replies = places.map(place => call_in(copy, 'product_at', file, place)).filter(reply => get(reply, 'product_reply', 'refusal') === 0);
      this.#products = replies.map(reply => get(reply, 'product_reply', 'product'));
    }
    return this.#products;
  }

  /** The file's products, in its order. */
  get products() {
    return this.#held().map(product_of);
  }

  /** The file's calendar. */
  get calendar() {
    return calendar_of(get(this.#said, 'file_calendar', 'calendar'));
  }

  /** The table of a product of the file on a date: what open answers. */
  open(id, date) {
    return new Table(asked('open_in', this.#said, this.#file, id_of(id), day_of(date)));
  }
}

/** A table of listed maturities. moved: how many entered and left in the last call that moved it. */
export class Table {
  #held;

  constructor(outcome) {
    this.#take(outcome);
  }

  #take(outcome) {
    this.#held = get(sized(outcome, SIZE.outcome, 'table with its counts'), 'outcome', 'table');
    this.moved = { entered: get(outcome, 'outcome', 'entered'), left: get(outcome, 'outcome', 'left') };
    return this.moved;
  }

  /** A table that was stored, and how many maturities entered and left before. Calls refuse one that is not sound (10). */
  static from_bytes(data, { entered, left } = { entered: 0, left: 0 }) {
    return new Table(made_of('outcome', { entered: fit(entered), left: fit(left), table: sized(data, SIZE.table, 'table') }));
  }

  /** The table as C holds it, to be stored; its unused bytes are zeros. */
  to_bytes() {
    const bytes = this.#held.slice();
    bytes.fill(0, FIELDS.product.tick[0] + 2, FIELDS.table.calendar[0]);
    return bytes;
  }

  /** A table of its own that is as this one is now. */
  copy() {
    return Table.from_bytes(this.#held, this.moved);
  }

  /** Whether another table is as this one is; the counts of the last call play no part. */
  equals(other) {
    return other instanceof Table && other.to_bytes().every((byte, i) => byte === this.#byte(i));
  }

  #byte(i) {
    return i >= FIELDS.product.tick[0] + 2 && i < FIELDS.table.calendar[0] ? 0 : this.#held[i];
  }

  /** Sets the date: how many maturities entered and left. */
  roll(date) {
    return this.#take(asked('roll', this.#held, day_of(date)));
  }

  /** Closes a day: how many maturities entered and left. */
  close(day) {
    return this.#take(asked('close', this.#held, day_of(day)));
  }

  /** Opens a closed day again: how many maturities entered and left. */
  reopen(day) {
    return this.#take(asked('reopen', this.#held, day_of(day)));
  }

  /** A capital measure on a future, p for q, with the settlement price before it: the price after it. */
  measure(p, q, price) {
    const reply = asked('measure', this.#held, fit(p), fit(q), price_of(price));
    this.#held = get(reply, 'measured', 'table');
    return get(reply, 'measured', 'price');
  }

  /** The last trading day of a listed maturity, and how many days it was moved back. */
  last_trading_day(key) {
    const reply = asked('last_trading_day', this.#held, fit(key));
    return { day: get(reply, 'last_day_reply', 'day'), back: get(reply, 'last_day_reply', 'back') };
  }

  /** The due day of a day of the cover. */
  due(day) {
    return get(asked('due', this.#held, day_of(day)), 'day_reply', 'day');
  }

  /** Throws Refused where a price does not pass. */
  tick(price) {
    const refusal = call('tick', this.#held, price_of(price));
    if (refusal) throw new Refused(refusal);
  }

  /** The cash of a future: whether the buyer pays the seller, the amount in 1/10,000 of the currency, a BigInt, and the
   * rest, 0 to 9,999, in 1/100,000,000; amount_text makes a text of it. */
  cash(contracts, agreed, final_price) {
    const cash = get(asked('cash', this.#held, fit(contracts, 32), price_of(agreed), price_of(final_price)), 'cash_reply', 'cash');
    return { negative: get(cash, 'amount', 'negative') !== 0, amount: get(cash, 'amount', 'amount'), rest: get(cash, 'amount', 'rest') };
  }

  /** Whether keys and last trading days, in turn, are the table's listing, and the smallest key that differs, null where
   * they are. */
  judge(numbers) {
    const list = Uint16Array.from(Array.from(numbers, number => fit(number)));
    const reply = asked('judge', this.#held, list);
    const same = get(reply, 'verdict', 'same') !== 0;
    return { same, key: same ? null : get(reply, 'verdict', 'key') };
  }

  /** Its rows, as deliver prints them. */
  rows() {
    const buffer = new Uint8Array(TABLE_TEXT);
    return said(buffer, get(asked('rows', this.#held, buffer), 'text', 'length'));
  }

  get product() {
    return product_of(get(this.#held, 'table', 'product'));
  }

  get calendar() {
    return calendar_of(get(this.#held, 'table', 'calendar'));
  }

  get date() {
    return get(this.#held, 'table', 'date');
  }

  /** How many listing numbers were given since the opening. */
  get given() {
    return get(this.#held, 'table', 'given');
  }

  /** The listed maturities by rising key. */
  get maturities() {
    const places = get(this.#held, 'table', 'maturities'), found = [];
    for (let from = 0; from < places.length; from += SIZE.maturity) {
      const [key, day, back, number] = ['key', 'day', 'back', 'number'].map(field => get(places, 'maturity', field, from));
      if (number === 0) break;
      found.push({ key, day, back, number });
    }
    return found;
  }
}

// ---- A delivery ----

const said = (bytes, length) => String.fromCharCode(...bytes.subarray(0, Number(length)));
const line_of = line => said(get(line, 'line', 'bytes'), get(line, 'line', 'length'));

// A call that answers a line, as a text.
const told = (name, ...values) => line_of(call(name, ...values));

// The rows of a text in six lists, and a seventh for the places of a product's; they stay in the memory of a copy of the
// module of their own, so that each call need not be handed all of them.
class Rows {
  bad = [];
  #copy = copy_of(module);
  #lists = [];
  #places;
  #file;
  #ids;

  // Takes line by line; what it yields is how far it is, from 0 to 1.
  *take(file, text) {
    const lists = [new Uint8Array(ROW_IDS), new Uint16Array(ROWS), new Uint16Array(ROWS), new Uint8Array(ROWS), new Uint16Array(ROWS), new Uint16Array(ROWS)];
    this.#lists = lists.map(list => new Kept(this.#copy, list));
    this.#places = new Kept(this.#copy, new Uint16Array(ROWS));
    this.#file = new Kept(this.#copy, file);
    const lent = new Kept(this.#copy, text);
    let state = new Uint8Array(SIZE.receipt);
    while (Number(get(state, 'receipt', 'next')) < text.length && !get(state, 'receipt', 'over')) {
      state = call_in(this.#copy, 'receive', state, this.#file, lent, ...this.#lists);
      if (get(state, 'receipt', 'bad')) this.bad.push(get(state, 'receipt', 'bad'));
      yield Number(get(state, 'receipt', 'next')) / text.length;
    }
    [this.count, this.over] = [get(state, 'receipt', 'rows'), get(state, 'receipt', 'over') !== 0];
    this.#ids = new Uint8Array(this.#copy.memory.buffer, this.#lists[0].at, 4 * this.count).slice();
  }

  // The lines of a product's differences.
  differences(product, delivered) {
    const buffer = new Uint8Array(TABLE_TEXT), lines = [];
    for (let key = 0; key < KEYS;) {
      const found = call_in(this.#copy, 'differences', product, delivered, this.count, ...this.#lists, this.#places, key, buffer);
      lines.push(said(buffer, get(found, 'found', 'length')));
      key = get(found, 'found', 'next');
    }
    return lines.join('');
  }

  // Those of the ids that are not in the file. A row of an id that is in it, and one of an id that an earlier row has, has none.
  unknown(products) {
    const seen = new Set(products.map(product => number_at(get(product, 'product', 'id'), 0, 4))), lines = [];
    for (let i = 0; i < this.count; i++) {
      const id = number_at(this.#ids, 4 * i, 4);
      if (!seen.has(id)) lines.push(line_of(call_in(this.#copy, 'unknown_product', this.#file, this.#lists[0], i)));
      seen.add(id);
    }
    return lines.join('');
  }
}

/** A text of notices, bytes, that was read once, for many tables. One with a bad line throws BadLine. */
export class Notices {
  #said;
  #calls = new Uint32Array(CALLS);
  #ids = new Uint8Array(NOTICE_IDS);

  constructor(text) {
    this.#said = call('read_notices', bytes_of(text), this.#calls, this.#ids);
    const bad = get(this.#said, 'notices', 'bad');
    if (bad) throw new BadLine(bad);
    this.#calls = this.#calls.slice(0, 5 * this.count);
    this.#ids = this.#ids.slice(0, 4 * this.count);
  }

  /** The day of the opening. */
  get date() {
    return get(this.#said, 'notices', 'date');
  }

  /** The number of the line of the opening. */
  get opened() {
    return get(this.#said, 'notices', 'opened');
  }

  /** How many notices there are after the opening. */
  get count() {
    return get(this.#said, 'notices', 'count');
  }

  /** The notices: of each the number of its line, its kind, 0 a roll, 1 a close, 2 a reopening, 3 a measure, and its day, or
   * of a measure the product, p, q and the price. */
  get calls() {
    return Array.from({ length: this.count }, (_, i) => {
      const [line, kind, first, q, price] = this.#calls.subarray(5 * i, 5 * i + 5);
      return kind === 3 ? { line, kind, id: text_of(this.#ids.subarray(4 * i, 4 * i + 4)), p: first, q, price } : { line, kind, day: first };
    });
  }

  // The table of the product with an id, and the number of each notice's refusal.
  #deliver({ said: of_file, file }, id) {
    const refusals = new Uint8Array(this.count);
    return [call('deliver', of_file, file, this.#said, this.#calls, this.#ids, id, refusals), refusals];
  }

  /** The table of a product of the file after the notices, and what was refused: the number of the line and of the refusal
   * of each such call. A product whose opening is refused has none. */
  table(master, id) {
    const [delivered, refusals] = this.#deliver(judged_of(master), id_of(id));
    const table = Table.from_bytes(get(judged(delivered, 'delivered'), 'delivered', 'table'));
    return { table, refused: [...refusals].flatMap((number, i) => number ? [{ line: this.#calls[5 * i], number }] : []) };
  }

  /** The rows of all products of the file, under their heading, as deliver prints them. */
  rows(master) {
    const judged_file = judged_of(master), buffer = new Uint8Array(TABLE_TEXT), lines = [told('rows_heading')];
    for (const product of judged_file.products) {
      const [delivered] = this.#deliver(judged_file, get(product, 'product', 'id'));
      lines.push(said(buffer, get(call('rows', get(delivered, 'delivered', 'table'), buffer), 'text', 'length')));
    }
    return lines.join('');
  }

  /** What was refused, a line for each call, as deliver tells it. */
  refused(master) {
    const judged_file = judged_of(master), lines = [];
    for (const product of judged_file.products) {
      const id = get(product, 'product', 'id'), [delivered, refusals] = this.#deliver(judged_file, id), refusal = get(delivered, 'delivered', 'refusal');
      for (let i = 0; i <= this.count; i++) lines.push(told('refused_call', id, this.#said, refusal, this.#calls, refusals, i));
    }
    for (let i = 0; i < this.count; i++) lines.push(told('unknown_measure', judged_file.file, this.#calls, this.#ids, i));
    return lines.join('');
  }

  /** What differs between the tables after the notices and rows that came from elsewhere, bytes in the form that reconcile
   * reads: the heading and the lines under it, as reconcile prints them, '' where there was a row too many; how many lines
   * stand under the heading, how many good rows there were, the numbers of the bad lines, and whether there was a good row
   * too many. */
  differences(master, text) {
    const steps = this.differing(master, text);
    let step = steps.next();
    while (!step.done) step = steps.next();
    return step.value;
  }

  /** The same a step at a time, for a program with other work: each step yields how far it is, from 0 to 1. */
  *differing(master, text) {
    const judged_file = judged_of(master), rows = new Rows(), { products } = judged_file, lines = [];
    for (const share of rows.take(judged_file.file, bytes_of(text))) yield share / 2;
    const { bad, count, over } = rows;
    if (over) return { text: '', differ: 0, rows: count, bad, over };
    for (const [i, product] of products.entries()) {
      const [delivered] = this.#deliver(judged_file, get(product, 'product', 'id'));
      lines.push(rows.differences(product, delivered));
      yield 0.5 + i / products.length / 2;
    }
    const found = lines.join('') + rows.unknown(products);
    return { text: told('differences_heading') + found, differ: found.split('\n').length - 1, rows: count, bad, over };
  }
}

// ---- The morning round ----

/** A queue of tables, by their numbers 0 to 199. */
export class Queue {
  #held = call('queue');

  /** A queue that was stored. Calls refuse one that is not sound (10). */
  static from_bytes(data) {
    const queue = new Queue();
    queue.#held = sized(data, SIZE.round, 'queue').slice();
    return queue;
  }

  /** The queue as C holds it, to be stored. */
  to_bytes() {
    return this.#held.slice();
  }

  /** The numbers of the first b tables, or of all if fewer, which then stand at the end. */
  handle(b) {
    const reply = asked('handle', this.#held, fit(b));
    this.#held = get(reply, 'handled', 'queue');
    return waiting(get(reply, 'handled', 'taken'));
  }

  /** A table joins at the end. */
  join(table) {
    this.#held = get(asked('join', this.#held, fit(table)), 'changed', 'queue');
  }

  /** A table leaves, wherever it stands. */
  leave(table) {
    this.#held = get(asked('leave', this.#held, fit(table)), 'changed', 'queue');
  }

  /** The numbers of the tables, the first first. */
  get tables() {
    return waiting(this.#held);
  }
}

function waiting(round) {
  const tables = get(round, 'round', 'tables');
  return Array.from({ length: Math.min(TABLES, get(round, 'round', 'count')) }, (_, i) => number_at(tables, 2 * i, 2));
}
