// The page: what was put in, what follows from it, and who is told when something changes.

import { kit, start } from '../../bindings/js/scullpouch.js';
import { by_id, fill } from './elements.js';
import { done_of } from './judge.js';
import { EXAMPLE, WASM } from './packed.js';
import * as part_delivery from './part_delivery.js';
import * as part_file from './part_file.js';
import * as part_notices from './part_notices.js';
import * as part_product from './part_product.js';

const unpacked = text => Uint8Array.from(atob(text), letter => letter.charCodeAt(0));

// What was put in: the master file, the notices, the delivery; and what follows: the differences, what each notice did.
// What is put in later makes work that is under way worthless, so each run has a number.
const state = { file: null, notices: null, delivery: null, done: null, product: null, found: [], filter: { why: '', product: '' }, order: { by: null, down: false } };
let run = 0;

function told(words) {
  by_id('working').hidden = false;
  by_id('working-words').textContent = words;
  return share => { by_id('progress').value = share; };
}

async function follow(what) {
  const mine = ++run, current = () => mine === run;
  if (what === 'file') {
    part_product.list_products(state);
    part_delivery.guess_again(state);
  }
  if (what === 'file' || what === 'notices') {
    state.done = null;
    part_product.show(state, by_id('product').value);
  }
  await part_delivery.judge(state, told('Judging the delivery'), current);
  if (current() && !state.done && state.file && state.notices) {
    state.done = await done_of(state.file, state.notices, told('Going through the notices'), current);
    if (current()) part_notices.show_done(state.done);
  }
  if (current()) by_id('working').hidden = true;
}

state.changed = what => follow(what);
state.show = (id, maturity) => {
  part_product.show(state, id, maturity);
  by_id('part-product').scrollIntoView();
  by_id('product').focus();
};

function example() {
  part_file.take_file(state, { name: 'the example’s master.bin', bytes: unpacked(EXAMPLE.master) });
  part_notices.take_text(state, new TextDecoder().decode(unpacked(EXAMPLE.notices)));
  part_delivery.take_text(state, 'the example’s wrong.csv', new TextDecoder().decode(unpacked(EXAMPLE.delivery)));
}

await start(unpacked(WASM));
fill(by_id('kit'), kit());
for (const part of [part_file, part_notices, part_delivery, part_product]) part.set_up(state);
by_id('example').addEventListener('click', example);
// A file that is dropped beside the parts is not opened in place of the page; where it belongs is said.
for (const name of ['dragover', 'drop']) document.addEventListener(name, event => event.preventDefault());
document.addEventListener('drop', ({ target }) => {
  const beside = target.closest?.('.drop') === null;
  by_id('beside').hidden = !beside;
  fill(by_id('beside'), beside && 'Drop a file on its part: 1 for the master file, 2 for the notices, 3 for the delivery.');
});
document.documentElement.dataset.ready = 'yes';
