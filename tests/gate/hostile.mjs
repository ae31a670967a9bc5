// Hostile arguments for the module scullpouch for JavaScript: objects that measure themselves otherwise than their bytes
// are, texts, numbers and sizes that do not fit.
//
//     node tests/gate/hostile.mjs FOLDER NAME
//
// makes one attempt on the folder that bindings/js/build made: where all is answered as it should be, it prints nothing
// and its status is 0. What is expected stands here.

import { readFileSync } from 'node:fs';
import { resolve } from 'node:path';
import { pathToFileURL } from 'node:url';

const [folder, attempt] = process.argv.slice(2);
const s = await import(pathToFileURL(resolve(folder, 'scullpouch.js')));
const DATE = 3001; // 20 March 2008
const TABLE = 1624, MAP = 736;
const FILE = new Uint8Array(readFileSync(new URL('../../examples/master.bin', import.meta.url)));
const RECORD = FILE.slice(FILE.length - 512 + 16, FILE.length - 512 + 48);

// What a call gives: its value, the number of its refusal in an array, or the name of its error.
function came(call) {
  try {
    return call();
  } catch (error) {
    return error instanceof s.Refused ? ['refused', error.number] : error.name;
  }
}

const text_of = value => JSON.stringify(value, (_, one) => ArrayBuffer.isView(one) ? [...new Uint8Array(one.buffer, one.byteOffset, one.byteLength)] : typeof one === 'bigint' ? `${one}n` : one);

function expect(found, expected, what = '') {
  if (text_of(found) !== text_of(expected)) {
    console.log(`${String(what)}: ${text_of(found)} where ${text_of(expected)} is right`);
    process.exit(1);
  }
}

const stored = () => s.open(FILE, 'AXA', DATE).to_bytes();
const lying = (bytes, length) => {
  const one = new (class extends Uint8Array { get length() { return length; } get byteLength() { return length; } })(bytes.length);
  Uint8Array.prototype.set.call(one, bytes);
  return one;
};

const attempts = {
  // Nothing is answered before the module is read; a module that is none, or another, is not taken.
  async starts() {
    expect(came(() => s.day(2008, 3, 20)), 'Error');
    for (const source of [new Uint8Array(8), new Uint8Array(0), Uint8Array.of(0, 97, 115, 109, 1, 0, 0, 0)]) {
      expect(await s.start(source).then(() => 'started', error => error instanceof Error), true);
    }
    for (const source of [null, 7, 'scullpouch.wasm', {}]) expect(await s.start(source).then(() => 'started', error => error.name), 'TypeError', source);
    expect(came(() => s.day(2008, 3, 20)), 'Error');
    await s.start();
    expect(s.day(2008, 3, 20), DATE);
  },

  // An id that cannot be encoded, or that no record can have, is not there.
  ids() {
    for (const text of ['ŻYW', 'Ω', '\ud800', '\u{1d11e}', 'ÉTÉ', 'A\0', 'A?', '', ' AXA', 'AXAAX', 'ŻŻŻŻŻ', 'AXA\u0100']) {
      expect(came(() => s.open(FILE, text, DATE)), ['refused', 9], text);
      expect(came(() => new s.Master(FILE).open(text, DATE)), ['refused', 9], text);
      expect(came(() => s.open(new Uint8Array(0), text, DATE)), ['refused', 1], text);
    }
    for (const text of [null, undefined, 7, ['AXA'], new String('AXA'), { length: 3 }]) expect(came(() => s.open(FILE, text, DATE)), 'TypeError', text);
  },

  // Numbers that would be cut, and numbers that are none.
  numbers() {
    const table = s.open(FILE, 'AXA', DATE);
    for (const number of [65536, -1, DATE + 65536, 2 ** 32 + DATE, 1e300]) {
      expect(came(() => s.open(FILE, 'AXA', number)), 'RangeError', number);
      expect(came(() => table.judge([number])), 'RangeError', number);
      expect(came(() => new s.Queue().join(number)), 'RangeError', number);
    }
    for (const number of [2 ** 32, -1, 2 ** 53]) expect(came(() => table.tick(number)), 'RangeError', number);
    for (const number of [DATE + 0.5, NaN, Infinity, null, undefined, true, 3001n, [DATE], { valueOf: () => DATE }]) {
      expect(came(() => s.open(FILE, 'AXA', number)), 'TypeError', String(number));
    }
    expect(came(() => s.date(-0)), [2000, 1, 1]);
  },

  // Dates as texts.
  dates() {
    expect(s.open(FILE, 'AXA', '2008-03-20').to_bytes(), stored());
    for (const text of ['2008-02-30', '1999-12-31', '2100-01-01', '2008-00-10', '0000-01-01', '9999-12-31']) expect(came(() => s.open(FILE, 'AXA', text)), ['refused', 23], text);
    for (const text of ['2008-3-20', '20.03.2008', '3001', '', ' 2008-03-20', '2008-03-20\n', '２００８-03-20', '2008-03-20T00:00']) expect(came(() => s.open(FILE, 'AXA', text)), 'RangeError', text);
    expect(s.date_text('2008-03-20'), '2008-03-20');
  },

  // Maps, tables and queues of another length, and views of other items.
  items() {
    const { first_year, years, closed, exchange } = s.make(7, 2008, 1);
    const right = s.write(s.make(7, 2008, 1), RECORD);
    for (const data of [new Uint8Array(MAP - 1), new Uint8Array(MAP + 1), new Uint16Array(MAP), new ArrayBuffer(0)]) {
      expect(came(() => new s.Calendar({ first_year, years, closed: data, exchange })), 'RangeError', data.byteLength);
      const changed = s.make(7, 2008, 1);
      changed.exchange = data;
      expect(came(() => s.write(changed, RECORD)), 'RangeError', data.byteLength);
    }
    const wide = new Uint8Array(MAP + 16);
    wide.set(closed, 8);
    for (const data of [new Uint16Array(closed.buffer.slice(closed.byteOffset, closed.byteOffset + MAP)), new DataView(wide.buffer, 8, MAP), closed.slice().buffer, wide.subarray(8, MAP + 8)]) {
      expect(came(() => s.write(new s.Calendar({ first_year, years, closed: data, exchange }), RECORD)), right);
    }
    for (const data of [new Uint8Array(TABLE - 1), new Uint8Array(TABLE + 1), new Uint16Array(TABLE)]) expect(came(() => s.Table.from_bytes(data)), 'RangeError', data.byteLength);
    for (const data of ['A'.repeat(TABLE), null, [...stored()], { length: TABLE }]) expect(came(() => s.Table.from_bytes(data)), 'TypeError');
    expect(came(() => s.Queue.from_bytes(new Uint8Array(401))), 'RangeError');
    expect(came(() => s.write({ first_year, years, closed, exchange }, RECORD)), 'TypeError');
  },

  // Counts that do not fit 16 bits.
  counts() {
    for (const moved of [{ entered: 65536, left: 0 }, { entered: 0, left: -1 }]) expect(came(() => s.Table.from_bytes(stored(), moved)), 'RangeError', moved);
    expect(came(() => s.Table.from_bytes(stored(), {})), 'TypeError');
    expect(s.Table.from_bytes(stored(), { entered: 65535, left: 3 }).moved, { entered: 65535, left: 3 });
  },

  // Bytes that say they are more or fewer than they are.
  lengths() {
    const counts = s.load(FILE);
    for (const length of [65536, 512, 0, -1, NaN]) {
      expect(came(() => s.load(lying(FILE, length))), counts, length);
      expect(came(() => s.load(lying(FILE.slice(0, 511), length))), ['refused', 1], length);
      expect(s.open(lying(FILE, length), 'AXA', DATE).to_bytes(), stored(), length);
      expect(came(() => new s.Intake(2).take(lying(FILE.slice(0, 511), length))), ['refused', 1], length);
      expect(s.Table.from_bytes(lying(stored(), length)).to_bytes(), stored(), length);
      expect(came(() => s.Table.from_bytes(lying(new Uint8Array(TABLE - 1), TABLE))), 'RangeError', length);
    }
  },

  // Long files, blocks, lists and records.
  long() {
    expect(came(() => s.load(new Uint8Array(2 ** 29))), ['refused', 1]);
    expect(came(() => s.open(new Uint8Array(2 ** 29), 'AXA', DATE)), ['refused', 1]);
    expect(came(() => new s.Master(new Uint8Array(65537))), ['refused', 1]);
    expect(came(() => new s.Intake(2).take(new Uint8Array(2 ** 29))), ['refused', 1]);
    expect(came(() => s.write(s.make(7, 2008, 1), new Uint8Array(2 ** 29))), 'RangeError');
    expect(came(() => s.open(FILE, 'AXA', DATE).judge(new Uint16Array(2 ** 24))), 'RangeError');
    expect(came(() => s.open(FILE, 'AXA', DATE).judge(new Uint16Array(2 ** 22))).same, false);
    expect(s.load(FILE), { years: 8, records: 788 });
  },

  // A buffer that is too short is left as it was; one that is longer than every file keeps what stands after the file.
  room() {
    const calendar = s.make(7, 2008, 1), right = s.write(calendar, RECORD);
    for (const size of [0, 512, right.length - 1]) {
      const buffer = new Uint8Array(size).fill(0xa5);
      expect(came(() => s.write_into(buffer, calendar, RECORD)), ['refused', 25], size);
      expect(buffer.every(byte => byte === 0xa5), true, size);
    }
    const buffer = new Uint8Array(100000).fill(0xa5);
    expect(s.write_into(buffer, calendar, RECORD), right.length);
    expect(buffer.slice(0, right.length), right);
    expect(buffer.slice(right.length).every(byte => byte === 0xa5), true);
    expect(came(() => s.write_into([], calendar, RECORD)), 'TypeError');
  },

  // What was judged or answered stays as it was, whatever becomes of the caller's bytes and of later calls.
  changes() {
    const right = stored(), file = FILE.slice(), judged = new s.Master(file), table = judged.open('AXA', DATE), kept = table.copy();
    file.fill(0);
    expect(judged.open('AXA', DATE).to_bytes(), right);
    table.to_bytes().fill(7);
    table.calendar.closed.fill(7);
    table.roll(DATE + 1);
    expect([kept.to_bytes(), kept.equals(table), kept.equals(judged.open('AXA', DATE)), kept.equals(right)], [right, false, true, false]);
    expect(came(() => table.roll(DATE)), ['refused', 12]);
    expect(table.date, DATE + 1);
    const data = right.slice(), held = s.Table.from_bytes(data);
    data.fill(0);
    expect(held.to_bytes(), right);
  },

  // What is said of a list: a no that names key 0, January 2000, is a no.
  verdicts() {
    const table = s.open(FILE, 'AXA', DATE), fresh = table.maturities.flatMap(one => [one.key, one.day]);
    for (const [numbers, same, key] of [[fresh, true, null], [[0, 0, ...fresh], false, 0], [[0], false, 0], [fresh.slice(2), false, fresh[0]], [[...fresh, ...fresh.slice(-2)], false, fresh.at(-2)]]) {
      expect(table.judge(numbers), { same, key }, numbers);
    }
  },

  // Texts that are none, masters that are none, and two comparisons at the same time.
  deliveries() {
    const read = name => new Uint8Array(readFileSync(new URL(`../../examples/morning/${name}`, import.meta.url)));
    const master = new s.Master(read('master.bin')), text = read('notices.txt'), notices = new s.Notices(text);
    for (const one of ['O 2008-03-17', null, undefined, 7, [79], { length: 3 }]) {
      expect(came(() => new s.Notices(one)), 'TypeError', one);
      expect(came(() => notices.differences(master, one)), 'TypeError', one);
    }
    expect(came(() => new s.Notices(new Uint8Array(0))), 'BadLine');
    expect(came(() => new s.Notices(lying(text, 3))).count, notices.count);
    expect(came(() => new s.Notices(new Uint8Array(2 ** 29))), 'RangeError');
    expect(came(() => notices.differences(master, new Uint8Array(2 ** 29))), 'RangeError');
    for (const one of [null, {}, read('master.bin'), s]) for (const name of ['rows', 'refused', 'differences', 'table']) expect(came(() => notices[name](one, text)), 'TypeError', name);
    for (const id of ['', 'ŻYW', 'AXAAX']) expect(came(() => notices.table(master, id)), ['refused', 9], id);
    for (const place of [-1, 2 ** 64, 1e300]) expect(came(() => s.product_at(FILE, place)), 'RangeError', place);
    expect(came(() => s.product_at(FILE, 2 ** 63)), ['refused', 9]);
    text.fill(0);
    const right = new TextDecoder().decode(read('differences.csv')), two = [notices.differing(master, read('wrong.csv')), notices.differing(master, read('delivery.csv'))], found = [];
    for (let at = 0; found[0] === undefined || found[1] === undefined; at = 1 - at) {
      const step = found[at] === undefined ? two[at].next() : { done: false };
      if (step.done) found[at] = step.value.text;
    }
    expect(found, [right, right.split('\n')[0] + '\n']);
    expect(notices.rows(master), new TextDecoder().decode(read('delivery.csv')));
    expect(notices.refused(master), new TextDecoder().decode(read('refused.txt')));
  },

  // Codes of a product that have no bytes.
  codes() {
    const { product } = s.open(FILE, 'AXA', DATE);
    expect(product.record().length, 32);
    for (const id of ['AXAAX', 'Ω', 'Ż']) expect(came(() => new s.Product({ ...product, id }).record()), 'RangeError', id);
    expect(came(() => new s.Product({ ...product, id: 7 }).record()), 'TypeError');
    expect(came(() => new s.Product({ ...product, currency: 'EURO' }).record()), 'RangeError');
    for (const kind of [256, -1]) expect(came(() => new s.Product({ ...product, kind }).record()), 'RangeError', kind);
    expect(came(() => new s.Product({ ...product, size: 2 ** 32 }).record()), 'RangeError');
  },

  // Prices as texts; days of a calendar whose fields are others than they were made.
  decimals() {
    const future = new s.Master(FILE).products.find(one => one.kind === 0).id, table = s.open(FILE, future, DATE);
    expect(table.cash(3, '12.50', '12.34'), table.cash(3, 125000, 123400));
    expect(s.amount_text(table.cash(3, '12.50', '12.34')).startsWith('-'), true);
    for (const [text, number] of [['12.34', 123400], ['0.0001', 1], ['7', 70000], ['429496.7295', 2 ** 32 - 1]]) expect(s.decimal_of(text), number, text);
    for (const text of ['12.34567', '12.', '.5', '', '-1', '+1', '1e3', ' 1', '1 ', '１', '1,5', '429496.7296', '9'.repeat(400)]) {
      expect(came(() => s.decimal_of(text)), 'RangeError', text);
      expect(came(() => table.tick(text)), 'RangeError', text);
    }
    for (const one of [null, undefined, 12.34, 12n, ['1']]) expect(came(() => s.decimal_of(one)), 'TypeError', String(one));
    const calendar = s.make(7, 2008, 1), right = s.make(7, 2008, 1);
    right.close('2008-03-20');
    calendar.closed = new Uint16Array(calendar.closed.slice().buffer);
    calendar.close('2008-03-20');
    expect(new Uint8Array(calendar.closed.buffer), right.closed);
    calendar.years = '1';
    expect(came(() => calendar.trades(DATE)), 'TypeError');
  },
};

if (attempt === 'names') {
  console.log(Object.keys(attempts).join('\n'));
} else {
  if (attempt !== 'starts') await s.start();
  await attempts[attempt]();
}
