// Files that are chosen or dropped in.

import { by_id, counted, fill, html } from './elements.js';

// The first bytes of a file, and whether there are more.
async function bytes_of(file, most) {
  return { name: file.name, size: file.size, cut: file.size > most, bytes: new Uint8Array(await file.slice(0, most).arrayBuffer()) };
}

/** The first bytes of a file that is chosen in an input or dropped on its part of the page are handed on, unless another
 * came while they were read. Of several at once none is taken, since each part takes one; that, and that a file cannot
 * be read, is said there. */
export function taken(part, input, most, take) {
  let last = 0;
  const section = by_id(part), chooser = by_id(input), dropped = html('p', { class: 'said ask dropped no-print', role: 'status', hidden: true });
  chooser.parentElement.after(dropped);
  const say = words => {
    dropped.hidden = words === '';
    fill(dropped, words);
  };
  const take_one = async files => {
    const mine = ++last;
    say(files.length > 1 ? `${counted(files.length, 'file')} were dropped here, and none was taken. Drop one at a time, each on its own part.` : '');
    if (files.length !== 1) return;
    try {
      const read = await bytes_of(files[0], most);
      if (mine === last) take(read);
    } catch (error) {
      if (!(error instanceof DOMException)) throw error;
      if (mine === last) say(`${files[0].name} cannot be read: it is a folder, or was moved or changed meanwhile. Nothing was taken; choose it again.`);
    }
  };
  chooser.addEventListener('change', () => take_one(chooser.files));
  section.addEventListener('dragover', event => {
    event.preventDefault();
    section.classList.add('over');
  });
  section.addEventListener('dragleave', () => section.classList.remove('over'));
  section.addEventListener('drop', event => {
    event.preventDefault();
    section.classList.remove('over');
    take_one(event.dataTransfer.files);
  });
}
