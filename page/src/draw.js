// Pictures of a product: the months around a day, with third Friday, closed days, exchange days, last trading days and the
// arrow of each step back; and the strip of listed months. What is drawn comes as numbers: days, maturities, a calendar.

import { MONTHS, WEEKDAYS, day_words, weekday } from './dates.js';
import { html, svg } from './elements.js';

const CELL = 36, TOP = 58, LEFT = 4;

/** Whether a day is marked in a map of a calendar: year k of its cover has 46 bytes, the first day the highest bit. */
export function is_marked(map, calendar, [year], day_of_year) {
  const at = 46 * (year - calendar.first_year) + (day_of_year >> 3);
  return year >= calendar.first_year && year < calendar.first_year + calendar.years && (map[at] >> (7 - day_of_year % 8) & 1) === 1;
}

// What a day of the month is, for the picture and for the words on it.
function day_of(day, { date_of, first_of_year, calendar, date }) {
  const when = date_of(day), of_year = day - first_of_year(when[0]);
  const closed = is_marked(calendar.closed, calendar, when, of_year);
  return {
    day, when, closed, exchange: closed && is_marked(calendar.exchange, calendar, when, of_year),
    weekend: weekday(day) > 4, today: day === date, words: day_words(when, weekday(day)),
  };
}

// The rule of a day, in words.
function rule_of(one, marks) {
  const said = [one.words];
  if (one.today) said.push('the date of the table');
  if (one.exchange) said.push('closed for trading; payments and deliveries run, so it counts for due days');
  else if (one.closed) said.push('closed');
  else if (one.weekend) said.push('weekend');
  for (const mark of marks) {
    if (mark.anchor === one.day) said.push(mark.back > 0 ? `usual last trading day of ${mark.name} (${mark.usual}), not a trading day or closed` : `usual last trading day of ${mark.name} (${mark.usual})`);
    if (mark.day === one.day) said.push(mark.back > 0 ? `last trading day of ${mark.name}: the latest trading day before the usual one, ${mark.back} ${mark.back === 1 ? 'day' : 'days'} back` : `last trading day of ${mark.name}: the usual day is a trading day`);
    else if (mark.third === one.day && mark.third !== mark.anchor) said.push(`third Friday; the usual day of ${mark.name} is the Thursday before it`);
  }
  return `${said.join('; ')}.`;
}

const center = (day, first) => {
  const place = day - first + weekday(first);
  return [LEFT + CELL * (place % 7) + CELL / 2, TOP + CELL * Math.floor(place / 7) + CELL / 2];
};

// From the usual day back to the last trading day, over the days between.
function arrow(mark, first) {
  const [x1, y1] = center(mark.anchor, first), [x2, y2] = center(mark.day, first);
  const lift = y1 === y2 ? CELL * 0.6 : CELL * 0.25, start = CELL * 0.36;
  const path = y1 === y2 ? `M ${x1} ${y1 - start} C ${x1} ${y1 - lift - 6}, ${x2} ${y2 - lift - 6}, ${x2 + 2} ${y2 - start - 3}`
    : `M ${x1} ${y1 - start} C ${x1} ${(y1 + y2) / 2}, ${x2} ${(y1 + y2) / 2 + lift}, ${x2} ${y2 + start + 4}`;
  return svg('path', { d: path, class: 'arrow', 'marker-end': 'url(#head)' });
}

function cell(one, first, marks, told) {
  const [x, y] = center(one.day, first), last = marks.find(mark => mark.day === one.day), anchor = marks.find(mark => mark.anchor === one.day || mark.third === one.day);
  const words = rule_of(one, marks);
  const classes = ['day', one.weekend && 'weekend', one.closed && 'closed', one.exchange && 'exchange', one.today && 'today', last && 'last'].filter(Boolean).join(' ');
  return svg('g', { class: classes, 'data-day': one.day, onpointerenter: () => told(words) },
    svg('title', {}, words),
    svg('rect', { x: x - CELL / 2 + 1, y: y - CELL / 2 + 1, width: CELL - 2, height: CELL - 2, rx: 4 }),
    one.closed && svg('path', { d: `M ${x - 11} ${y + 11} L ${x + 11} ${y - 11}`, class: 'stroke' }),
    last && svg('circle', { cx: x, cy: y, r: 13, class: 'disc' }),
    anchor && svg('circle', { cx: x, cy: y, r: 15.5, class: 'ring' }),
    one.exchange && svg('circle', { cx: x, cy: y + 13, r: 2.5, class: 'dot' }),
    svg('text', { x, y: y + 4.5, 'text-anchor': 'middle' }, String(one.when[2])));
}

/** A month as a picture. `marks` are the maturities that may stand in it: name, anchor (the usual day), usual (what that
 * is), day, back, third (the third Friday). `told` gets the rule of a day that the pointer is on. */
export function month_picture(first, length, place, marks, told) {
  const days = Array.from({ length }, (_, i) => day_of(first + i, place));
  const here = marks.filter(mark => mark.anchor >= first && mark.anchor < first + length);
  const [year, month] = days[0].when, rows = Math.ceil((weekday(first) + length) / 7);
  const width = 2 * LEFT + 7 * CELL, height = TOP + rows * CELL + 4;
  const label = `${MONTHS[month - 1]} ${year}. ${here.map(mark => `${mark.name}: ${rule_of(days[mark.day - first], [mark])}`).join(' ')}`
    + days.filter(one => one.closed).map(one => ` ${one.words}: ${one.exchange ? 'closed, exchange day' : 'closed'}.`).join('');
  return svg('svg', { viewBox: `0 0 ${width} ${height}`, class: 'month', role: 'img', 'aria-label': label },
    svg('text', { x: width / 2, y: 20, 'text-anchor': 'middle', class: 'name' }, `${MONTHS[month - 1]} ${year}`),
    WEEKDAYS.map((name, i) => svg('text', { x: LEFT + CELL * i + CELL / 2, y: 44, 'text-anchor': 'middle', class: 'weekday' }, name.slice(0, 2))),
    days.map(one => cell(one, first, here, told)),
    here.filter(mark => mark.back > 0).map(mark => arrow(mark, first)));
}

/** The listed months as a strip of buttons, the moved ones marked. */
export function strip(marks, chosen, choose) {
  return html('ol', { class: 'strip', 'aria-label': 'Listed maturities' }, marks.map((mark, i) => html('li', {},
    html('button', {
      type: 'button', class: mark.back > 0 ? 'moved' : null, 'aria-pressed': String(i === chosen), onclick: () => choose(i),
      title: `${mark.name}: last trading day ${mark.words}${mark.back > 0 ? `, moved back by ${mark.back}` : ''}`,
    }, mark.short, html('span', { class: 'number' }, String(mark.number))))));
}

/** What the signs of the pictures mean. */
export function legend() {
  const sign = (name, words, ...shapes) => html('li', {}, svg('svg', { viewBox: '-18 -18 36 36', class: `month sign ${name}`, 'aria-hidden': 'true' }, svg('g', { class: `day ${name}` }, ...shapes)), words);
  const box = () => svg('rect', { x: -16, y: -16, width: 32, height: 32, rx: 4 });
  return html('ul', { class: 'legend' },
    sign('last', 'last trading day', box(), svg('circle', { r: 13, class: 'disc' })),
    sign('third', 'usual day', box(), svg('circle', { r: 15, class: 'ring' })),
    sign('closed', 'closed', box(), svg('path', { d: 'M -11 11 L 11 -11', class: 'stroke' })),
    sign('closed exchange', 'closed, but payments run', box(), svg('path', { d: 'M -11 11 L 11 -11', class: 'stroke' }), svg('circle', { cy: 13, r: 2.5, class: 'dot' })),
    sign('today', 'date of the table', box()),
    html('li', {}, svg('svg', { viewBox: '-18 -18 36 36', class: 'month sign', 'aria-hidden': 'true' }, svg('path', { d: 'M 14 6 C 10 -12, -8 -12, -12 2', class: 'arrow', 'marker-end': 'url(#head)' })), 'the step back'));
}
