// Keeps the ticks of a page's boxes in the browser's own storage on this machine, and says how many there are. A box is known
// by the name of what it stands beside, which tools/reading makes of the sentence and the definitions: where these change, it
// is open again. Nothing is sent anywhere.
'use strict';
(() => {
  const boxes = [...document.querySelectorAll('input[data-tick]')];
  const line = document.querySelector('.ticks');
  const nameOf = (box) => 'scullpouch tick ' + box.dataset.tick;
  let keeps = true;

  // A browser may refuse its storage, to all pages or to those that are opened from a file.
  const tried = (act) => {
    try {
      return act(window.localStorage);
    } catch (refused) {
      keeps = false;
      return null;
    }
  };

  const told = () => {
    const done = boxes.filter((box) => box.checked).length;
    line.textContent = `${done} of ${boxes.length} boxes ticked; ` +
      (keeps ? 'the ticks are kept in this browser.' : 'this browser does not keep them: print the page.');
  };

  const show = () => {
    for (const box of boxes) box.checked = tried((storage) => storage.getItem(nameOf(box))) === 'yes';
    told();
  };

  const keep = (box) => {
    tried((storage) => box.checked ? storage.setItem(nameOf(box), 'yes') : storage.removeItem(nameOf(box)));
    told();
  };

  if (boxes.length === 0 || !line) return;
  for (const box of boxes) box.addEventListener('change', () => keep(box));
  // ticks that were made on another window of the same page
  window.addEventListener('storage', show);
  show();
})();
