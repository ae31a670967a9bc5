// How the page reads what is dropped in: node tests/gate/page_reading.mjs [FOLDER] < ASKED
//
// ASKED is a list, in JSON. Of a delivery: the bytes of a text in base64, the kinds of the products by id, and where it is
// known which number of a date stands first, 'day' or 'month'; what is printed is what the page takes the text to be, its
// rows, and the numbers of the lines that are none. Of a master file: its bytes and the number of its refusal; what is
// printed is where it is wrong. FOLDER has the page's modules, page/src without it.

import { readFileSync } from 'node:fs';
import { resolve } from 'node:path';
import { pathToFileURL } from 'node:url';

const folder = process.argv[2] ?? new URL('../../page/src', import.meta.url).pathname;
const module_of = name => import(pathToFileURL(resolve(folder, name)));
const { guess, lines_of, order_of, row_of, text_of } = await module_of('rows.js');
const { where } = await module_of('master.js');

function read({ bytes, kinds, order: told }) {
  const known = new Map(Object.entries(kinds)), { text, binary } = text_of(Buffer.from(bytes, 'base64'));
  const plan = guess(text, known), { shown, open } = order_of(text, plan);
  const order = told ?? (shown.day && !shown.month ? 'day' : shown.month && !shown.day ? 'month' : null);
  const rows = [], bad = [], lines = [...lines_of(text)];
  for (const { number, line } of lines.slice(plan.heading ? 1 : 0)) {
    const row = row_of(line, plan, order, known);
    if (row.bad) bad.push(number);
    else rows.push(row.fields);
  }
  return { binary, plan, rows, bad, open, order, first: lines[0]?.number ?? 0 };
}

console.log(JSON.stringify(JSON.parse(readFileSync(0, 'utf8')).map(one => one.refusal ? where(Buffer.from(one.bytes, 'base64'), one.refusal) : read(one))));
