// Dates and months as vendors write them, and as the page says them. Only what a text can mean is told here: whether a
// date is one of 2000 to 2099 is the call's question 23.

export const MONTHS = ['January', 'February', 'March', 'April', 'May', 'June', 'July', 'August', 'September', 'October', 'November', 'December'];
export const WEEKDAYS = ['Monday', 'Tuesday', 'Wednesday', 'Thursday', 'Friday', 'Saturday', 'Sunday'];

const two = number => String(number).padStart(2, '0');
export const weekday = day => (day + 5) % 7;
export const iso = ([year, month, day]) => day === undefined ? `${year}-${two(month)}` : `${year}-${two(month)}-${two(day)}`;

// The number of a month by its English name or the first letters of it; 0 for another word.
function named(word) {
  const low = word.toLowerCase();
  return low.length < 3 ? 0 : MONTHS.findIndex(name => name.toLowerCase().startsWith(low) || (low === 'sept' && name === 'September')) + 1;
}

const year_of = digits => digits.length === 2 ? 2000 + Number(digits) : Number(digits);

// Whether a month has the day.
function is_day(year, month, day) {
  const leap = year % 4 === 0 && (year % 100 !== 0 || year % 400 === 0);
  const lengths = [31, leap ? 29 : 28, 31, 30, 31, 30, 31, 31, 30, 31, 30, 31];
  return month >= 1 && month <= 12 && day >= 1 && day <= lengths[month - 1];
}

const as_day = (year, month, day) => is_day(year, month, day) ? { day: [year, month, day] } : null;
const as_month = (year, month) => month >= 1 && month <= 12 ? { month: [year, month] } : null;

// 06/05/2008: the sixth of May, or the fifth of June. Where one of the two is no date, the other is meant, and `order` says
// which; where both are the same day, it does not matter.
function either(first, second, year) {
  const by_day = as_day(year, second, first), by_month = as_day(year, first, second);
  if (by_day && by_month) return first === second ? by_day : { either: { day: by_day.day, month: by_month.day } };
  return by_day ? { ...by_day, order: 'day' } : by_month && { ...by_month, order: 'month' };
}

// Each form, and what it says: a day, a month, or either of two days.
const FORMS = [
  [/^(\d{4})([-/.])(\d{1,2})\2(\d{1,2})$/, m => as_day(+m[1], +m[3], +m[4])],
  [/^(\d{4})(\d\d)(\d\d)$/, m => as_day(+m[1], +m[2], +m[3])],
  [/^(\d{1,2})\.\s?(\d{1,2})\.\s?(\d{4}|\d\d)$/, m => as_day(year_of(m[3]), +m[2], +m[1])],
  [/^(\d{1,2})([-/])(\d{1,2})\2(\d{4}|\d\d)$/, m => either(+m[1], +m[3], year_of(m[4]))],
  [/^(\d{1,2})[-/. ]*([a-z]{3,9})[-/., ]*(\d{4}|\d\d)$/i, m => as_day(year_of(m[3]), named(m[2]), +m[1])],
  [/^([a-z]{3,9})[. ]*(\d{1,2}), ?(\d{4})$/i, m => as_day(+m[3], named(m[1]), +m[2])],
  [/^(\d{4})[-/.](\d{1,2})$/, m => as_month(+m[1], +m[2])],
  [/^(\d{1,2})[-/.](\d{4})$/, m => as_month(+m[2], +m[1])],
  [/^(20\d\d)(\d\d)$/, m => as_month(+m[1], +m[2])],
  [/^([a-z]{3,9})[-/.' ]*(\d{4}|\d\d)$/i, m => as_month(year_of(m[2]), named(m[1]))],
];

/** What a text says: { day: [year, month, day] }, { month: [year, month] }, { either: { day, month } } where it is not
 * said which number is the month, or null. `order` is there where the text shows which of the two stands first. */
export function read_date(text) {
  const word = text.trim().replace(/[T ]00?:00(:00(\.0+)?)?Z?$/, '');
  for (const [form, meant] of FORMS) {
    const match = form.exec(word);
    if (match) return meant(match);
  }
  return null;
}

/** A day in words: Friday 18 April 2008. */
export const day_words = ([year, month, day], of_week) => `${WEEKDAYS[of_week]} ${day} ${MONTHS[month - 1]} ${year}`;

/** A month in words: April 2008. */
export const month_words = ([year, month]) => `${MONTHS[month - 1]} ${year}`;
