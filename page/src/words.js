// Refusals in words, each with its number, and prices.

import { QUESTIONS } from '../../bindings/js/scullpouch.js';
import { MEANINGS } from './packed.js';
import { html } from './elements.js';

/** The question of a refusal, and what it means when it is answered no. */
export const meaning = number => `${QUESTIONS[number] ?? ''} No. ${MEANINGS[number] ?? ''}`.trim();

/** A refusal as it is told: what was refused, its number, its question, what it means. */
export const refusal = (what, number, more = null) => html('div', { class: 'said no' },
  html('p', {}, html('strong', {}, `${what} (refusal ${number}).`), ' ', meaning(number)), more && html('p', {}, more));

/** A price as it is typed, in 1/10,000; null where it is none. A larger one than any call takes is as large as the first
 * that none takes. */
export function price_of(text) {
  const match = /^(\d+)(?:[.,](\d{1,4}))?$/.exec(text.trim());
  return match ? Math.min(10 ** 9, 10000 * Number(match[1]) + Number((match[2] ?? '').padEnd(4, '0'))) : null;
}

/** Ten-thousandths, as shares or money: 150, 33.3333. */
export const ten_thousandths = number => number % 10000 === 0 ? String(number / 10000) : (number / 10000).toFixed(4);
