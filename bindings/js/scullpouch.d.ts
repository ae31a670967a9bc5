// Contract terms of stock futures and stock options: the proved calls, for TypeScript (scullpouch.js has what each says).

/** A day: a number from 0, 1 January 2000, or a text as 2008-03-20. */
export type Day = number | string;
/** A price: a number of 1/10,000 of the currency, or a text as 12.34. */
export type Price = number | string;
/** Bytes: an ArrayBuffer or any view of one. */
export type Bytes = ArrayBuffer | ArrayBufferView;
/** How many maturities entered and left. */
export interface Moved { entered: number; left: number }
export interface Counts { years: number; records: number }
/** A maturity: its month or Friday, its last trading day, by how many days that was moved back, its listing number. */
export interface Maturity { key: number; day: number; back: number; number: number }
/** In 1/10,000 of the currency, with a rest of 0 to 9,999 in 1/100,000,000; negative covers both. */
export interface Cash { negative: boolean; amount: bigint; rest: number }
/** Whether a list is the table's listing, and the smallest key that differs where it is not. */
export type Verdict = { same: true; key: null } | { same: false; key: number };

export const INTERFACE: 2;
export const FILE_AT_MOST: 65536;
export const BLOCK: 512;
export const RECORD: 32;
export const PLACES: 15;
export const MAP: 736;
export const YEAR_MAP: 46;
export const TABLES: 200;
export const WEEKLY: 5;
export const NOTICES: number;
export const CALLS: number;
export const NOTICE_IDS: number;
export const ROWS: number;
export const ROW_IDS: number;
export const TABLE_TEXT: number;
export const KEYS: number;
export const QUESTIONS: Readonly<Record<number, string>>;
export const LAYOUT: Record<string, [number, Record<string, number>]>;

export class Refused extends Error {
  constructor(number: number);
  readonly number: number;
  readonly question: string;
}

export class BadLine extends Error {
  constructor(number: number);
  readonly number: number;
}

export function start(source?: Bytes | WebAssembly.Module): Promise<void>;
declare function interface_number(): number;
export { interface_number as interface };
export function kit(): string;

export function day(year: number, month: number, day: number): number;
export function date(day: Day): [year: number, month: number, day: number];
export function date_text(day: Day): string;
export function month_text(month: number): string;
export function decimal_text(number: number): string;
export function decimal_of(text: string): number;
export function amount_text(cash: Cash): string;

export function product_at(file: Bytes, place: number): Product;
export function load(file: Bytes): Counts;
export function make(seed: number, first_year: number, years: number): Calendar;
export function write_into(buffer: Bytes, calendar: Calendar, records: Bytes): number;
export function write(calendar: Calendar, records: Bytes): Uint8Array;
export function open(file: Bytes, id: string, date: Day): Table;

export class Calendar {
  constructor(fields: { first_year: number; years: number; closed: Bytes; exchange: Bytes });
  first_year: number;
  years: number;
  closed: Uint8Array;
  exchange: Uint8Array;
  marked_after_cover(): boolean;
  trades(day: Day): boolean;
  close(day: Day): void;
  reopen(day: Day): void;
}

export class Product {
  constructor(fields: { id: string; group: string; market: string; kind: number; currency: string; size: number; tick: number });
  id: string;
  group: string;
  market: string;
  kind: number;
  currency: string;
  size: number;
  tick: number;
  record(): Uint8Array;
  key_text(key: number): string;
}

export class Intake {
  constructor(blocks: number);
  take(block: Bytes): void;
  finish(): Counts;
}

export class Master {
  constructor(file: Bytes);
  get products(): Product[];
  get calendar(): Calendar;
  open(id: string, date: Day): Table;
}

export class Table {
  private constructor(outcome: Bytes);
  moved: Moved;
  static from_bytes(data: Bytes, moved?: Moved): Table;
  to_bytes(): Uint8Array;
  copy(): Table;
  equals(other: unknown): boolean;
  roll(date: Day): Moved;
  close(day: Day): Moved;
  reopen(day: Day): Moved;
  measure(p: number, q: number, price: Price): number;
  last_trading_day(key: number): { day: number; back: number };
  due(day: Day): number;
  tick(price: Price): void;
  cash(contracts: number, agreed: Price, final_price: Price): Cash;
  judge(numbers: Iterable<number>): Verdict;
  rows(): string;
  get product(): Product;
  get calendar(): Calendar;
  get date(): number;
  get given(): number;
  get maturities(): Maturity[];
}

/** A notice: its line, and its day, or of a measure the product, p, q and the price. */
export type Notice = { line: number; kind: 0 | 1 | 2; day: number } | { line: number; kind: 3; id: string; p: number; q: number; price: number };
/** The lines of what differs, how many they are, how many good rows there were, the bad lines, whether there was a row too many. */
export interface Differences { text: string; differ: number; rows: number; bad: number[]; over: boolean }

export class Notices {
  constructor(text: Bytes);
  get date(): number;
  get opened(): number;
  get count(): number;
  get calls(): Notice[];
  table(master: Master, id: string): { table: Table; refused: { line: number; number: number }[] };
  rows(master: Master): string;
  refused(master: Master): string;
  differences(master: Master, text: Bytes): Differences;
  differing(master: Master, text: Bytes): Generator<number, Differences, void>;
}

export class Queue {
  constructor();
  static from_bytes(data: Bytes): Queue;
  to_bytes(): Uint8Array;
  handle(b: number): number[];
  join(table: number): void;
  leave(table: number): void;
  get tables(): number[];
}
