// The program `terms` in JavaScript over scullpouch.wasm: master.bin and commands in, answers out.
//
//     node session.js FOLDER     the folder that bindings/js/build made

import { readFileSync } from 'node:fs';
import { resolve } from 'node:path';
import { pathToFileURL } from 'node:url';

const scullpouch = await import(pathToFileURL(resolve(process.argv[2], 'scullpouch.js')));
await scullpouch.start();

const COMMAND = /^(?:(O) ([A-Z0-9]{1,4})|([RC])) (\d{4}-\d\d-\d\d)$/;

// All bytes of a file; none where it can't be read.
function read(path) {
  try {
    return readFileSync(path);
  } catch {
    return new Uint8Array(0);
  }
}

// The month of a maturity, or its Friday.
function key_text(kind, key) {
  return kind === scullpouch.WEEKLY ? scullpouch.date_text(key) : `${2000 + Math.floor(key / 12)}-${String(key % 12 + 1).padStart(2, '0')}`;
}

function report(letter, table) {
  const { kind } = table.product;
  return [`${letter} ${scullpouch.date_text(table.date)} ${table.moved.entered} ${table.moved.left} ${table.given}`,
    ...table.maturities.map(one => `${one.number} ${key_text(kind, one.key)} ${scullpouch.date_text(one.day)} ${one.back}`)];
}

// A call's value, or its refusal.
function asked(call) {
  try {
    return call();
  } catch (error) {
    if (error instanceof scullpouch.Refused) return error;
    throw error;
  }
}

const file = read('master.bin');
let table = null;

// The lines that answer a command.
function answer(line) {
  const match = COMMAND.exec(line);
  const day = match ? asked(() => scullpouch.day(...match[4].split('-').map(Number))) : null;
  if (typeof day !== 'number' || (match[3] && !table)) return ['BAD'];
  const letter = match[1] ?? match[3];
  const said = asked(() => letter === 'O' ? scullpouch.open(file, match[2], day) : letter === 'R' ? table.roll(day) : table.close(day));
  if (said instanceof scullpouch.Refused) return [`NO ${said.number}`];
  if (letter === 'O') table = said;
  return report(letter, table);
}

const lines = read(0).toString('latin1').split('\n');
if (lines.at(-1) === '') lines.pop();
process.stdout.write(lines.flatMap(answer).map(line => line + '\n').join(''));
