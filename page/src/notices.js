// Notices in words, and lines that are clicked together (docs/DELIVERY.md has their form).

import { day_words, weekday } from './dates.js';

export const TEXT_AT_MOST = 65536;

const price_text = price => `${Math.floor(price / 10000)}.${String(price % 10000).padStart(4, '0')}`;

/** A call in words. `date_of` is the call that answers a day's date. */
export function words_of(call, date_of) {
  if (call.kind === 'M') return `Split or reduction of ${call.id}: ${call.p} for ${call.q}, at the settlement price ${price_text(call.price)}`;
  const day = day_words(date_of(call.day), weekday(call.day));
  return { O: `All products are opened on ${day}`, R: `Morning of ${day}`, C: `${day} is closed`, E: `${day} is open again` }[call.kind];
}

/** The line of a notice that was clicked together. */
export const line_of = ({ kind, date, id, p, q, price }) => kind === 'M' ? `M ${id} ${p} ${q} ${price}` : `${kind} ${date}`;
