// Where a master file is wrong. Whether it is right is the call's to say; this finds the block or record that a refusal is
// about, for the clerk to look at.

const BLOCK = 512, RECORD = 32, FIRST = 16, RECORDS = 15, CHECK = 510, MODULUS = 65521;

/** The kinds of products, in words. */
export const KINDS = ['future', 'option of 12 months', 'option of 24 months', 'option of 60 months', 'future of 2005', 'weekly option'];

const word = (bytes, at) => bytes[at] << 8 | bytes[at + 1];
const text = (bytes, from, to) => String.fromCharCode(...bytes.subarray(from, to));
const all_zero = (bytes, from, to) => bytes.subarray(from, to).every(byte => byte === 0);
const is_leap = year => year % 4 === 0 && (year % 100 !== 0 || year % 400 === 0);

// The whole blocks of a file.
function blocks_of(file) {
  return Array.from({ length: Math.floor(file.length / BLOCK) }, (_, i) => file.subarray(BLOCK * i, BLOCK * (i + 1)));
}

// The records of a product block.
const records_of = block => Array.from({ length: Math.min(RECORDS, word(block, 2)) }, (_, k) => block.subarray(FIRST + RECORD * k, FIRST + RECORD * (k + 1)));

function check_of(block) {
  let sum = 0;
  for (let i = 0; i < CHECK; i++) sum = (sum + (i + 1) * block[i]) % MODULUS;
  return sum;
}

function wrong_header(block, index) {
  if (block[0] !== 1 && block[0] !== 2) return `its kind is ${block[0]}, neither 1 (calendar) nor 2 (products)`;
  if (block[1] !== 1) return `its version is ${block[1]}, not 1`;
  const number = word(block, 2);
  if (block[0] === 1 && (number < 2000 || number > 2099)) return `its year is ${number}, not one of 2000 to 2099`;
  if (block[0] === 2 && (number < 1 || number > RECORDS)) return `it says that it has ${number} records, not 1 to 15`;
  if (word(block, 4) !== index) return `it says that it is block ${word(block, 4)}`;
  return all_zero(block, 6, 16) ? null : 'bytes 6 to 15 are not zero';
}

const has_bit = (block, from, day) => (block[from + (day >> 3)] >> (7 - day % 8) & 1) === 1;

// The weekday of 1 January of a year, Monday 0.
const first_weekday = year => (new Date(Date.UTC(year, 0, 1)).getUTCDay() + 6) % 7;

function wrong_calendar(block) {
  const year = word(block, 2), days = is_leap(year) ? 366 : 365;
  for (let day = 0; day < 46 * 8; day++) {
    const closed = has_bit(block, 16, day);
    if (day >= days && (closed || has_bit(block, 62, day))) return `a day after the end of ${year} is marked`;
    if (closed && (first_weekday(year) + day) % 7 > 4) return `day ${day + 1} of ${year}, a weekend, is marked closed`;
    if (!closed && has_bit(block, 62, day)) return `day ${day + 1} of ${year} is an exchange day without trading, and not closed`;
  }
  return all_zero(block, 108, CHECK) ? null : 'bytes 108 to 509 are not zero';
}

// The first day of a run of seven days without trading, over all years.
function idle_run(blocks) {
  let run = 0;
  for (const [index, block] of blocks.entries()) {
    const year = word(block, 2), days = is_leap(year) ? 366 : 365;
    for (let day = 0; day < days; day++) {
      run = has_bit(block, 16, day) || (first_weekday(year) + day) % 7 > 4 ? run + 1 : 0;
      if (run === 7) return `block ${index}: the seven days up to day ${day + 1} of ${year} have no trading day`;
    }
  }
  return null;
}

// What is wrong with a record, in the order of its fields.
function wrong_record(record) {
  const kind = record[12], group = text(record, 4, 8), size = word(record, 13);
  if (!/^[A-Z0-9]{1,4} *$/.test(text(record, 0, 4))) return 'its id is not 1 to 4 of A–Z and 0–9, then spaces';
  if (!/^[A-Z]{2}\d\d$/.test(group)) return 'its group is not two letters and two digits';
  if (!/^[A-Z]{4}$/.test(text(record, 8, 12))) return 'its cash market is not four letters';
  if (kind > 5) return `its kind is ${kind}, not 0 to 5`;
  if (group[2] !== (kind === 0 || kind === 4 ? '0' : '1')) return `its group ${group} does not go with its kind, ${KINDS[kind]}`;
  if (size < 1) return 'its size is less than one share';
  if (![1, 5, 10, 100].includes(word(record, 15))) return `its tick is ${word(record, 15)}, not 1, 5, 10 or 100`;
  if (!['EUR', 'CHF', 'USD', 'GBP', 'GBX'].includes(text(record, 17, 20))) return 'its currency is none of EUR, CHF, USD, GBP, GBX';
  if (word(record, 20) > 9999) return 'the ten-thousandths of its size are more than 9,999';
  return all_zero(record, 22, RECORD) ? null : 'bytes 22 to 31 of it are not zero';
}

function wrong_products(block, index) {
  const records = records_of(block);
  for (const [k, record] of records.entries()) {
    const wrong = wrong_record(record);
    if (wrong) return `block ${index}, record ${k}: ${wrong}`;
  }
  return all_zero(block, FIRST + RECORD * records.length, CHECK) ? null : `block ${index}: what follows its last record is not zero`;
}

function wrong_order(blocks) {
  const years = blocks.findIndex(block => block[0] !== 1), calendars = years < 0 ? blocks.length : years;
  if (calendars === 0) return 'block 0 is no calendar block';
  for (let i = 1; i < calendars; i++) {
    if (word(blocks[i], 2) !== word(blocks[i - 1], 2) + 1) return `block ${i}: the year ${word(blocks[i], 2)} follows ${word(blocks[i - 1], 2)}`;
  }
  if (calendars > 16) return `there are ${calendars} calendar blocks, more than 16`;
  if (calendars === blocks.length) return 'there is no product block';
  const late = blocks.findIndex((block, i) => i > calendars && block[0] !== 2);
  return late < 0 ? null : `block ${late}: a calendar block after a product block`;
}

function unordered(blocks) {
  let before = '';
  for (const [index, block] of blocks.entries()) {
    if (block[0] !== 2) continue;
    for (const [k, record] of records_of(block).entries()) {
      const id = text(record, 0, 4);
      if (before !== '' && id <= before) return `block ${index}, record ${k}: ${id.trimEnd()} follows ${before.trimEnd()}`;
      before = id;
    }
  }
  return null;
}

// The first block of which something is wrong.
function first(blocks, wrong) {
  for (const [index, block] of blocks.entries()) {
    const said = wrong(block, index);
    if (said) return `block ${index}: ${said}`;
  }
  return null;
}

/** The block or record that a refusal of a file is about, in words; null where none is found. */
export function where(file, refusal) {
  const blocks = blocks_of(file);
  const calendars = blocks.filter(block => block[0] === 1);
  switch (refusal) {
    case 1: return file.length === 0 ? 'the file is empty' : `the file has ${file.length > 65536 ? 'more than 65,536' : file.length.toLocaleString('en')} bytes`;
    case 2: return first(blocks, block => check_of(block) === word(block, CHECK) ? null : 'its bytes are not those that were written');
    case 3: return first(blocks, wrong_header);
    case 4: return wrong_order(blocks);
    case 5: return first(blocks, block => block[0] === 1 ? wrong_calendar(block) : null);
    case 6: return idle_run(calendars);
    case 7: return blocks.map((block, index) => block[0] === 2 ? wrong_products(block, index) : null).find(Boolean) ?? null;
    case 8: return unordered(blocks);
    default: return null;
  }
}
