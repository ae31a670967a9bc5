/* Contract terms of stock futures and stock options: the proved calls, for C and C++.
 *
 * A day is a number from 0, 1 January 2000, to 36,524, 31 December 2099; a month is a number
 * from 0, January 2000. The key of a maturity is its month, or the day of a weekly option's
 * Friday. Every call but interface, record, queue and those that give notices, a receipt or a
 * line answers with a refusal: 0 for accepted, else the number of the first question that is
 * answered no, which scullpouch_question has in words. No call keeps, allocates or frees
 * anything, and none has a state of its own: any number of threads may call at the same time.
 *
 * Tables, calendars, queues and states of a load are plain values: copy them by assignment,
 * store them, read their fields. (A product has two unused bytes at its end, so tables are
 * compared field by field, not by memcmp.) Every call judges the table or queue that it is
 * given and refuses one that is not sound (10), so no value of it is forbidden. A state of a
 * load is one that an accepted announce, or take after it, gave back; of another any answer
 * may come.
 *
 * What the caller owes. A pointer with a length or count names so many elements of one
 * object, at most PTRDIFF_MAX bytes, aligned, written before, that nobody else writes until
 * the call returns; it is not null, not even with 0 elements (an empty file is "" with 0). A
 * buffer overlaps no other argument, and nobody else reads or writes it until the call
 * returns. A struct has been written before it is passed. Of a call whose caller keeps to
 * this the promises of crates/scullpouch hold; of another nothing holds.
 *
 * 64 KB of stack are enough for every call. Link with -lscullpouch. Linux on x86-64. */
#ifndef SCULLPOUCH_H
#define SCULLPOUCH_H

#include <stdbool.h>
#include <stddef.h>
#include <stdint.h>
#include <string.h>

#ifdef __cplusplus
extern "C" {
#endif

#define SCULLPOUCH_INTERFACE 2 /* what scullpouch_interface() answers */
#define SCULLPOUCH_FILE_AT_MOST 65536
#define SCULLPOUCH_BLOCK 512
#define SCULLPOUCH_RECORD 32
#define SCULLPOUCH_PLACES 15
#define SCULLPOUCH_MAP 736
#define SCULLPOUCH_YEAR_MAP 46
#define SCULLPOUCH_TABLES 200
#define SCULLPOUCH_WEEKLY 5      /* the kind whose keys are days */
#define SCULLPOUCH_PRODUCTS 1905 /* the most products of a file */

/* Room for texts, with the zero at their end. */
#define SCULLPOUCH_DAY_TEXT 11 /* of a day, or of any key */
#define SCULLPOUCH_MONTH_TEXT 8
#define SCULLPOUCH_DECIMAL_TEXT 12 /* of a number of ten-thousandths */
#define SCULLPOUCH_AMOUNT_TEXT 27

/* Of a delivery. The lists and buffers that a call fills have room for so many elements, or more. */
#define SCULLPOUCH_NOTICES 6554     /* the most notices of a text: the bytes of their refusals */
#define SCULLPOUCH_CALLS 32770      /* the numbers of their calls, 5 for each */
#define SCULLPOUCH_NOTICE_IDS 26216 /* the bytes of their ids, 4 for each */
#define SCULLPOUCH_ROWS 65536       /* the most rows that are read */
#define SCULLPOUCH_ROW_IDS 262144   /* the bytes of their ids, 4 for each */
#define SCULLPOUCH_TABLE_TEXT 1024  /* room for the rows of any table */
#define SCULLPOUCH_LINE 64          /* room for a line of a text */
#define SCULLPOUCH_KEYS 65536       /* after the last key */

/* ---- Values ---- */

/* 1 to 4 of A-Z and 0-9, then spaces. */
typedef struct {
    uint8_t bytes[4];
} scullpouch_id;

/* The bytes of a product in a master file. */
typedef struct {
    uint8_t bytes[SCULLPOUCH_RECORD];
} scullpouch_record_bytes;

/* kind: 0 a future, 1, 2, 3 an option of 12, 24, 60 months, 4 a future of 2005, 5 a weekly option.
 * size: in 1/10,000 of a share. tick: in 1/10,000 of the currency. */
typedef struct {
    uint8_t id[4];
    uint8_t group[4];
    uint8_t market[4];
    uint8_t kind;
    uint8_t currency[3];
    uint32_t size;
    uint16_t tick;
} scullpouch_product;

typedef struct {
    uint16_t first_year;
    uint16_t years;
} scullpouch_cover;

/* closed: a bit for each day that is closed; exchange: for each of them on which payments and
 * deliveries run. Year k of the cover has the 46 bytes from 46 * k on; its first day is the
 * highest bit of the first of them. */
typedef struct {
    scullpouch_cover cover;
    uint8_t closed[SCULLPOUCH_MAP];
    uint8_t exchange[SCULLPOUCH_MAP];
} scullpouch_calendar;

typedef struct {
    uint16_t key;
    uint16_t day;    /* the last trading day */
    uint16_t back;   /* how many days it was moved back */
    uint16_t number; /* the listing number, from 1 */
} scullpouch_maturity;

/* The maturities stand first, by rising key; places that are not used are all zeros. */
typedef struct {
    scullpouch_product product;
    scullpouch_calendar calendar;
    uint16_t date;
    uint16_t given; /* how many listing numbers were given since the opening */
    scullpouch_maturity maturities[SCULLPOUCH_PLACES];
} scullpouch_table;

/* What is carried from block to block of a load. */
typedef struct {
    uint16_t announced;
    uint16_t taken;
    uint16_t lowest;
    uint16_t first_year;
    uint16_t years;
    uint16_t idle;
    uint16_t records;
    uint8_t last_id[4];
} scullpouch_intake;

/* A queue of tables, by their numbers, the first first. */
typedef struct {
    uint16_t tables[SCULLPOUCH_TABLES];
    uint16_t count;
} scullpouch_round;

/* amount in 1/10,000 of the currency; rest, 0 to 9,999, in 1/100,000,000; negative is the sign of both. */
typedef struct {
    bool negative;
    uint64_t amount;
    uint16_t rest;
} scullpouch_amount;

typedef struct {
    uint16_t years;
    uint16_t records;
} scullpouch_counts;

/* What a text of notices says. fits: both lists had room; else nothing was read and all is 0. bad: the number of the
 * first bad line, from 1, or 0; with one the next three are 0. opened, date: the number of the line of the O, and its
 * day. count: the notices in the lists. Of each the list of calls has the number of its line, its kind (0 a roll, 1 a
 * close, 2 a reopening, 3 a measure), the day or p, q and the price; and the list of ids the four bytes of a measure's
 * product. */
typedef struct {
    bool fits;
    uint16_t date;
    uint32_t opened;
    uint32_t count;
    uint32_t bad;
} scullpouch_notices;

/* How far rows were read; all zeros before the first line. next: the place in the text from which the next line is
 * read; rows: the good rows in the lists; lines: the lines so far; bad: the number of the last line where it is bad,
 * else 0; begun: a line was there that is not empty; over: there was a good row too many, and reading has ended. */
typedef struct {
    size_t next;
    uint32_t rows;
    uint32_t lines;
    uint32_t bad;
    bool begun;
    bool over;
} scullpouch_receipt;

/* A line of a text with its line feed; no bytes where there is nothing to tell. */
typedef struct {
    uint8_t bytes[SCULLPOUCH_LINE];
    size_t length;
} scullpouch_line;

/* ---- Answers. With a refusal the table, state or queue is the one that was given, and every other value is 0 ---- */

/* Of a refused open the table is all zeros. */
typedef struct {
    uint8_t refusal;
    uint16_t entered;
    uint16_t left;
    scullpouch_table table;
} scullpouch_outcome;

/* price: the settlement price after the measure. */
typedef struct {
    uint8_t refusal;
    uint32_t price;
    scullpouch_table table;
} scullpouch_measured;

typedef struct {
    uint8_t refusal;
    uint16_t day;
} scullpouch_day_reply;

typedef struct {
    uint8_t refusal;
    uint16_t year;
    uint16_t month;
    uint16_t day;
} scullpouch_date_reply;

typedef struct {
    uint8_t refusal;
    uint16_t day;
    uint16_t back;
} scullpouch_last_day_reply;

typedef struct {
    uint8_t refusal;
    scullpouch_amount cash;
} scullpouch_cash_reply;

typedef struct {
    uint8_t refusal;
    scullpouch_counts counts;
} scullpouch_loaded;

/* calendar: the file's. To be kept beside the file, for scullpouch_open_in. */
typedef struct {
    uint8_t refusal;
    scullpouch_calendar calendar;
} scullpouch_file_calendar;

typedef struct {
    uint8_t refusal;
    size_t length;
} scullpouch_written;

/* Of a refused announcement the state is all zeros. */
typedef struct {
    uint8_t refusal;
    scullpouch_intake state;
} scullpouch_taken;

typedef struct {
    uint8_t refusal;
    scullpouch_counts counts;
    scullpouch_intake state;
} scullpouch_finished;

/* refusal 0 says that the list was judged; same: whether it is the table's listing; where it is not, key is the
 * smallest that differs, which may be 0. */
typedef struct {
    uint8_t refusal;
    bool same;
    uint16_t key;
} scullpouch_verdict;

typedef struct {
    uint8_t refusal;
    scullpouch_round taken;
    scullpouch_round queue;
} scullpouch_handled;

typedef struct {
    uint8_t refusal;
    scullpouch_round queue;
} scullpouch_changed;

typedef struct {
    uint8_t refusal;
    scullpouch_calendar calendar;
} scullpouch_made;

typedef struct {
    uint8_t refusal;
    scullpouch_product product;
} scullpouch_product_reply;

/* fits: the notices were read, none of them bad, and there was room for their refusals; else nothing was done, and the
 * table is all zeros, which every call refuses (10). refusal: open's; the table is then all zeros too. */
typedef struct {
    bool fits;
    uint8_t refusal;
    scullpouch_table table;
} scullpouch_delivered;

/* fits: the buffer had room; else, and with a refusal, nothing was written. */
typedef struct {
    uint8_t refusal;
    bool fits;
    size_t length;
} scullpouch_text;

/* fits: there was room for the places; else, and with a refusal, nothing was looked for. next: the key from which the
 * next call goes on; SCULLPOUCH_KEYS where there is no more, and with a refusal. lines, length: what was written. */
typedef struct {
    uint8_t refusal;
    bool fits;
    uint32_t next;
    uint32_t lines;
    size_t length;
} scullpouch_found;

/* ---- The proved calls, with the questions that each asks, in this order ---- */

uint32_t scullpouch_interface(void);

/* The day of a date, and the date of a day. 23 */
scullpouch_day_reply scullpouch_day(uint16_t year, uint16_t month, uint16_t day);
scullpouch_date_reply scullpouch_date(uint16_t day);

/* Judges a master file. 1-8 */
scullpouch_loaded scullpouch_load(const uint8_t *file, size_t length);

/* Opens a table of a master file's product. 1-9, 11, of a weekly option 24, 16 */
scullpouch_outcome scullpouch_open(const uint8_t *file, size_t length, scullpouch_id id, uint16_t date);

/* The same for many opens of one file, which is judged once: 1-8. Then open_in, handed what was said of the file and
 * the file, answers what open answers. What was said of another file is taken as it is, refusal and calendar, and the
 * id is looked for in the file that is handed in: judged.refusal, 9, 11, of a weekly option 24, 16 */
scullpouch_file_calendar scullpouch_judge_file(const uint8_t *file, size_t length);
scullpouch_outcome scullpouch_open_in(scullpouch_file_calendar judged, const uint8_t *file, size_t length,
                                      scullpouch_id id, uint16_t date);

/* Sets the date: 10, 11, 12, 16. Closes a day: 10, 11, 13-16. Opens a closed day again: 10, 11, 13, 26, 27 */
scullpouch_outcome scullpouch_roll(scullpouch_table table, uint16_t date);
scullpouch_outcome scullpouch_close(scullpouch_table table, uint16_t day);
scullpouch_outcome scullpouch_reopen(scullpouch_table table, uint16_t day);

/* A capital measure on a future, p for q, with the settlement price before it. 10, 19, 21, 28, 29 */
scullpouch_measured scullpouch_measure(scullpouch_table table, uint16_t p, uint16_t q, uint32_t price);

/* The last trading day of a listed maturity: 10, 18. The due day of a day of the cover: 10, 11, 17 */
scullpouch_last_day_reply scullpouch_last_trading_day(scullpouch_table table, uint16_t key);
scullpouch_day_reply scullpouch_due(scullpouch_table table, uint16_t day);

/* Prices are in 1/10,000 of the currency. Whether one passes: 10, 19, 20. The cash of a future, negative where the
 * buyer pays the seller: 10, 19-22 */
uint8_t scullpouch_tick(scullpouch_table table, uint32_t price);
scullpouch_cash_reply scullpouch_cash(scullpouch_table table, uint32_t contracts, uint32_t agreed,
                                      uint32_t final_price);

/* Whether a list of keys and last trading days, in turn, count numbers in all, is the table's listing; a last key
 * without a day differs. 10 */
scullpouch_verdict scullpouch_judge(scullpouch_table table, const uint16_t *list, size_t count);

/* Writes the master file of a calendar and of records, 32 bytes each, into a buffer; a last record of fewer bytes is
 * not as stated (7). Days that are marked after the cover's last year are not in the file, and no question asks for
 * them (scullpouch_marked_after_cover). 3-8, 25 */
scullpouch_written scullpouch_write(scullpouch_calendar calendar, const uint8_t *records, size_t length,
                                    uint8_t *buffer, size_t room);

/* The record of a product, whatever its fields are; write judges it. */
scullpouch_record_bytes scullpouch_record(scullpouch_product product);

/* Judges a master file block by block: the number of blocks, each block of 512 bytes, then the answer. 1, 1, 1-8 */
scullpouch_taken scullpouch_announce(uint16_t blocks);
scullpouch_taken scullpouch_take(scullpouch_intake state, const uint8_t *block, size_t length);
scullpouch_finished scullpouch_finish(scullpouch_intake state);

/* The morning round: an empty queue. The first b tables, or all if fewer, which then stand at the end: 10, 30. A table
 * joins at the end, or leaves: 10, 30, 31 */
scullpouch_round scullpouch_queue(void);
scullpouch_handled scullpouch_handle(scullpouch_round queue, uint16_t b);
scullpouch_changed scullpouch_join(scullpouch_round queue, uint16_t table);
scullpouch_changed scullpouch_leave(scullpouch_round queue, uint16_t table);

/* A made-up calendar for load tests. 4 */
scullpouch_made scullpouch_make(uint32_t seed, scullpouch_cover cover);

/* The product at a place of a master file: place p is record p % 15 of block p / 15, so a file has 15 * (length / 512)
 * places, rising in the file's order; those that hold no record get 9. 1-9. The calendar of a file:
 * scullpouch_judge_file */
scullpouch_product_reply scullpouch_product_at(const uint8_t *file, size_t length, size_t place);

/* ---- A delivery: the tables of a file's products after a text of notices (docs/DELIVERY.md) ---- */

/* Reads a text of notices, whatever its bytes are, into two lists. */
scullpouch_notices scullpouch_read_notices(const uint8_t *text, size_t length, uint32_t *calls, size_t calls_room,
                                           uint8_t *ids, size_t ids_room);

/* The table of the product with an id, opened on the notices' date, after all of them; judged is what
 * scullpouch_judge_file said of the file. refusals gets a byte for each notice: 0 where it was accepted or is no call
 * of this product, else its refusal; of a refused opening, after which no call is made, they say nothing.
 * judged.refusal, 9, 11, of a weekly option 24, 16 */
scullpouch_delivered scullpouch_deliver(scullpouch_file_calendar judged, const uint8_t *file, size_t length,
                                        scullpouch_notices notices, const uint32_t *calls, size_t calls_length,
                                        const uint8_t *ids, size_t ids_length, scullpouch_id id, uint8_t *refusals,
                                        size_t room);

/* The rows of a table, as `deliver` prints them, at the start of a buffer of SCULLPOUCH_TABLE_TEXT bytes: 10. Their
 * heading */
scullpouch_text scullpouch_rows(scullpouch_table table, uint8_t *buffer, size_t room);
scullpouch_line scullpouch_rows_heading(void);

/* Line i, 0 to notices.count, of a product's refused calls, `notices.txt:K: NO n ID`: 0 is that of the opening, alone,
 * i that of notice i - 1; no bytes of one that was accepted. refusal: delivered.refusal */
scullpouch_line scullpouch_refused_call(scullpouch_id id, scullpouch_notices notices, uint8_t refusal,
                                        const uint32_t *calls, size_t calls_length, const uint8_t *refusals,
                                        size_t refusals_length, uint32_t i);

/* The line of notice i where it is a measure of an id that is not in the file (9); else no bytes. */
scullpouch_line scullpouch_unknown_measure(const uint8_t *file, size_t length, const uint32_t *calls,
                                           size_t calls_length, const uint8_t *ids, size_t ids_length, uint32_t i);

/* Takes the next line of a text of rows, from state.next on; called until state.next is the text's length, or
 * state.over. A good row goes to six lists; where one of them has not its length, the first good row is one too many. */
scullpouch_receipt scullpouch_receive(scullpouch_receipt state, const uint8_t *file, size_t length, const uint8_t *text,
                                      size_t text_length, uint8_t *ids, size_t ids_room, uint16_t *keys,
                                      size_t keys_room, uint16_t *days, size_t days_room, uint8_t *fulls,
                                      size_t fulls_room, uint16_t *numbers, size_t numbers_room, uint16_t *backs,
                                      size_t backs_room);

/* The lines of one product's differences, of the keys from one on, at the start of a buffer, as long as it has room
 * for another of SCULLPOUCH_LINE bytes. product: that of a place; delivered: that of its id; rows: state.rows. places
 * has room for a number for each row, which the call writes. 10 where the product's kind is no kind or its table is
 * not sound. Their heading */
scullpouch_found scullpouch_differences(scullpouch_product product, scullpouch_delivered delivered, uint32_t rows,
                                        const uint8_t *ids, size_t ids_length, const uint16_t *keys, size_t keys_length,
                                        const uint16_t *days, size_t days_length, const uint8_t *fulls,
                                        size_t fulls_length, const uint16_t *numbers, size_t numbers_length,
                                        const uint16_t *backs, size_t backs_length, uint16_t *places,
                                        size_t places_room, uint32_t from, uint8_t *buffer, size_t room);
scullpouch_line scullpouch_differences_heading(void);

/* The line of row i where it is the first with its id and that is not in the file, `XXXX,,product,,`; else no bytes. */
scullpouch_line scullpouch_unknown_product(const uint8_t *file, size_t length, const uint8_t *ids, size_t ids_length,
                                           uint32_t i);

/* ---- Refusals in words ---- */

/* The question of a refusal, in UTF-8; "" where there is none. */
static inline const char *scullpouch_question(unsigned refusal) {
    switch (refusal) {
    case 1: return "Is the length a multiple of 512, from 1,024 to 65,536?";
    case 2: return "Is every check right?";
    case 3: return "Is every header right?";
    case 4: return "Do 1 to 16 calendar blocks of consecutive rising years come first, then at least one product block and no other kind?";
    case 5: return "Is every calendar block clean?";
    case 6: return "Does every run of seven days in the cover hold a trading day?";
    case 7: return "Is every record as stated, and all that must be zero zero?";
    case 8: return "Do the ids strictly rise over the file?";
    case 9: return "Is the id there?";
    case 10: return "Is the table sound?";
    case 11: return "Is the day in the cover?";
    case 12: return "Is it not before the table's date?";
    case 13: return "Is it after the table's date?";
    case 14: return "Is it a trading day?";
    case 15: return "With it closed, does every seven-day run still hold a trading day?";
    case 16: return "Are all months of the fresh listing in the cover?";
    case 17: return "Is the due day in the cover?";
    case 18: return "Is the month listed?";
    case 19: return "Is the order or agreed price 1 to 999,999,999?";
    case 20: return "Is it a multiple of the tick?";
    case 21: return "Is it a future?";
    case 22: return "Is the final price 0 to 999,999,999 and are the contracts 1 to 100,000?";
    case 23: return "Is it a date, or day number, of 2000–2099?";
    case 24: return "Is the date at least seven days after the cover's first day?";
    case 25: return "Is the buffer long enough for the file, and the file at most 65,536 bytes?";
    case 26: return "Is the day a closed Monday to Friday?";
    case 27: return "Does the front maturity stay the same month or Friday, whatever its day?";
    case 28: return "Are p and q in range?";
    case 29: return "Are the new size, 1 ten-thousandth to 65,535.9999 shares, and the new price, 1 to 999,999,999, in range?";
    case 30: return "Is b from 1 to 200 and the table number 0 to 199?";
    case 31: return "For joining, is it not yet queued, and for leaving, is it queued?";
    default: return "";
    }
}

/* ---- The same calls by pointers: short C over the proved calls ----
 * NAME_into writes the table, state, queue or calendar that NAME gives back, or what it says of a file, into the one
 * that is handed in, and the other values where their pointers are not null, all only where it answers 0. */

/* The id of a text. One of no or more than 4 characters gets an id that no file has, which open refuses (9). */
static inline scullpouch_id scullpouch_id_of(const char *text) {
    scullpouch_id id = {{' ', ' ', ' ', ' '}};
    size_t length = strlen(text);
    if (length <= 4) memcpy(id.bytes, text, length);
    return id;
}

/* How many maturities a table lists. */
static inline size_t scullpouch_listed(const scullpouch_table *table) {
    size_t n = 0;
    while (n < SCULLPOUCH_PLACES && table->maturities[n].number != 0) n++;
    return n;
}

/* Whether a map has days marked after the cover's last year, which are in no file that scullpouch_write makes. */
static inline bool scullpouch_marked_after_cover(const scullpouch_calendar *calendar) {
    for (size_t i = (size_t)SCULLPOUCH_YEAR_MAP * calendar->cover.years; i < SCULLPOUCH_MAP; i++)
        if (calendar->closed[i] != 0 || calendar->exchange[i] != 0) return true;
    return false;
}

static inline unsigned scullpouch_judge_file_into(scullpouch_file_calendar *judged, const uint8_t *file,
                                                  size_t length) {
    scullpouch_file_calendar j = scullpouch_judge_file(file, length);
    if (j.refusal == 0) *judged = j;
    return j.refusal;
}

/* No call: what the next five share. */
static inline unsigned scullpouch_keep_outcome(const scullpouch_outcome *o, scullpouch_table *table, uint16_t *entered,
                                               uint16_t *left) {
    if (o->refusal != 0) return o->refusal;
    *table = o->table;
    if (entered) *entered = o->entered;
    if (left) *left = o->left;
    return 0;
}

static inline unsigned scullpouch_open_into(scullpouch_table *table, const uint8_t *file, size_t length, const char *id,
                                            uint16_t date, uint16_t *entered, uint16_t *left) {
    scullpouch_outcome o = scullpouch_open(file, length, scullpouch_id_of(id), date);
    return scullpouch_keep_outcome(&o, table, entered, left);
}

static inline unsigned scullpouch_open_in_into(scullpouch_table *table, const scullpouch_file_calendar *judged,
                                               const uint8_t *file, size_t length, const char *id, uint16_t date,
                                               uint16_t *entered, uint16_t *left) {
    scullpouch_outcome o = scullpouch_open_in(*judged, file, length, scullpouch_id_of(id), date);
    return scullpouch_keep_outcome(&o, table, entered, left);
}

static inline unsigned scullpouch_roll_into(scullpouch_table *table, uint16_t date, uint16_t *entered, uint16_t *left) {
    scullpouch_outcome o = scullpouch_roll(*table, date);
    return scullpouch_keep_outcome(&o, table, entered, left);
}

static inline unsigned scullpouch_close_into(scullpouch_table *table, uint16_t day, uint16_t *entered, uint16_t *left) {
    scullpouch_outcome o = scullpouch_close(*table, day);
    return scullpouch_keep_outcome(&o, table, entered, left);
}

static inline unsigned scullpouch_reopen_into(scullpouch_table *table, uint16_t day, uint16_t *entered,
                                              uint16_t *left) {
    scullpouch_outcome o = scullpouch_reopen(*table, day);
    return scullpouch_keep_outcome(&o, table, entered, left);
}

static inline unsigned scullpouch_measure_into(scullpouch_table *table, uint16_t p, uint16_t q, uint32_t price,
                                               uint32_t *new_price) {
    scullpouch_measured m = scullpouch_measure(*table, p, q, price);
    if (m.refusal != 0) return m.refusal;
    *table = m.table;
    if (new_price) *new_price = m.price;
    return 0;
}

static inline unsigned scullpouch_announce_into(scullpouch_intake *state, uint16_t blocks) {
    scullpouch_taken t = scullpouch_announce(blocks);
    if (t.refusal == 0) *state = t.state;
    return t.refusal;
}

static inline unsigned scullpouch_take_into(scullpouch_intake *state, const uint8_t *block, size_t length) {
    scullpouch_taken t = scullpouch_take(*state, block, length);
    if (t.refusal == 0) *state = t.state;
    return t.refusal;
}

/* taken: the numbers of the tables that the call took. */
static inline unsigned scullpouch_handle_into(scullpouch_round *queue, uint16_t b, scullpouch_round *taken) {
    scullpouch_handled h = scullpouch_handle(*queue, b);
    if (h.refusal != 0) return h.refusal;
    *queue = h.queue;
    if (taken) *taken = h.taken;
    return 0;
}

static inline unsigned scullpouch_join_into(scullpouch_round *queue, uint16_t table) {
    scullpouch_changed c = scullpouch_join(*queue, table);
    if (c.refusal == 0) *queue = c.queue;
    return c.refusal;
}

static inline unsigned scullpouch_leave_into(scullpouch_round *queue, uint16_t table) {
    scullpouch_changed c = scullpouch_leave(*queue, table);
    if (c.refusal == 0) *queue = c.queue;
    return c.refusal;
}

static inline unsigned scullpouch_make_into(scullpouch_calendar *calendar, uint32_t seed, scullpouch_cover cover) {
    scullpouch_made m = scullpouch_make(seed, cover);
    if (m.refusal == 0) *calendar = m.calendar;
    return m.refusal;
}

/* ---- Texts: short C over the proved calls. Each answers the text that it was handed room for ---- */

/* No call: writes a number with at least so many digits and a zero after it, and answers where the zero stands. */
static inline char *scullpouch_put_number(char *at, uint64_t number, unsigned digits) {
    char back[20];
    unsigned n = 0;
    do {
        back[n++] = (char)('0' + number % 10);
        number /= 10;
    } while (number != 0 || n < digits);
    while (n != 0) *at++ = back[--n];
    *at = 0;
    return at;
}

/* A day as 2008-03-20, one after 2099 as 0000-00-00, in SCULLPOUCH_DAY_TEXT bytes. */
static inline char *scullpouch_day_text(char *text, uint16_t day) {
    scullpouch_date_reply date = scullpouch_date(day);
    char *at = scullpouch_put_number(text, date.year, 4);
    *at = '-';
    at = scullpouch_put_number(at + 1, date.month, 2);
    *at = '-';
    scullpouch_put_number(at + 1, date.day, 2);
    return text;
}

/* A month as 2008-03, in SCULLPOUCH_MONTH_TEXT bytes. */
static inline char *scullpouch_month_text(char *text, uint16_t month) {
    char *at = scullpouch_put_number(text, 2000u + month / 12u, 4);
    *at = '-';
    scullpouch_put_number(at + 1, month % 12u + 1u, 2);
    return text;
}

/* The key of a maturity of a kind: its month, or the Friday of a weekly option, in SCULLPOUCH_DAY_TEXT bytes. */
static inline char *scullpouch_key_text(char *text, uint8_t kind, uint16_t key) {
    return kind == SCULLPOUCH_WEEKLY ? scullpouch_day_text(text, key) : scullpouch_month_text(text, key);
}

/* A number of ten-thousandths, as a price, a tick or a size, as 12.3400, in SCULLPOUCH_DECIMAL_TEXT bytes. */
static inline char *scullpouch_decimal_text(char *text, uint32_t number) {
    char *at = scullpouch_put_number(text, number / 10000u, 1);
    *at = '.';
    scullpouch_put_number(at + 1, number % 10000u, 4);
    return text;
}

/* The ten-thousandths of digits, perhaps with a point and one to four digits after it; false, and nothing is written,
 * for another text and for one that is above 429496.7295. */
static inline bool scullpouch_decimal_of(const char *text, uint32_t *number) {
    uint64_t sum = 0;
    unsigned digits = 0, after = 0;
    bool point = false;
    for (; *text != 0; text++) {
        if (*text == '.' && !point && digits != 0) {
            point = true;
            continue;
        }
        if (*text < '0' || *text > '9' || after == 4 || sum > UINT32_MAX) return false;
        sum = 10 * sum + (uint64_t)(*text - '0');
        digits++;
        after += point;
    }
    if (digits == 0 || (point && after == 0)) return false;
    for (; after < 4; after++) sum *= 10;
    if (sum > UINT32_MAX) return false;
    *number = (uint32_t)sum;
    return true;
}

/* An amount in the currency as 48.00000000, -0.00000001, zero without a sign, in SCULLPOUCH_AMOUNT_TEXT bytes. */
static inline char *scullpouch_amount_text(char *text, scullpouch_amount amount) {
    uint64_t parts = amount.amount % 10000 + amount.rest / 10000;
    char *at = text;
    if (amount.negative && (amount.amount != 0 || amount.rest != 0)) *at++ = '-';
    at = scullpouch_put_number(at, amount.amount / 10000 + parts / 10000, 1);
    *at = '.';
    at = scullpouch_put_number(at + 1, parts % 10000, 4);
    scullpouch_put_number(at, amount.rest % 10000u, 4);
    return text;
}

/* ---- A calendar by its days: short C over the proved calls ---- */

/* No call: the place of a day's bit in both maps; SIZE_MAX where the day is not in the cover. */
static inline size_t scullpouch_calendar_place(const scullpouch_calendar *calendar, uint16_t day) {
    scullpouch_date_reply date = scullpouch_date(day);
    int year = date.year - calendar->cover.first_year;
    if (date.refusal != 0 || year < 0 || year >= calendar->cover.years) return SIZE_MAX;
    return 8u * SCULLPOUCH_YEAR_MAP * (size_t)year + (size_t)(day - scullpouch_day(date.year, 1, 1).day);
}

/* No call: whether the day of a place is closed; none is after the maps' end. */
static inline bool scullpouch_calendar_is_closed(const scullpouch_calendar *calendar, size_t place) {
    return place / 8 < SCULLPOUCH_MAP && (calendar->closed[place / 8] & (128u >> place % 8)) != 0;
}

/* No call: Monday to Friday. Day 0 is a Saturday. */
static inline bool scullpouch_is_weekday(uint16_t day) { return (day + 5) % 7 < 5; }

/* What scullpouch_write would refuse of a calendar, 3-6; 0 where it is right. Write is handed one record that is right
 * and no room for the file, so that 25 says that all else is right. */
static inline unsigned scullpouch_calendar_refusal(const scullpouch_calendar *calendar) {
    const scullpouch_product product = {
        {'A', ' ', ' ', ' '}, {'A', 'A', '0', '0'}, {'A', 'A', 'A', 'A'}, 0, {'E', 'U', 'R'}, 10000, 1};
    scullpouch_record_bytes record = scullpouch_record(product);
    uint8_t none = 0;
    unsigned refusal = scullpouch_write(*calendar, record.bytes, SCULLPOUCH_RECORD, &none, 0).refusal;
    return refusal == 25 ? 0 : refusal;
}

/* Whether a day is a trading day: a Monday to Friday in the cover that is not closed. */
static inline bool scullpouch_calendar_trades(const scullpouch_calendar *calendar, uint16_t day) {
    size_t place = scullpouch_calendar_place(calendar, day);
    return place != SIZE_MAX && scullpouch_is_weekday(day) && !scullpouch_calendar_is_closed(calendar, place);
}

/* Closes a trading day. 3-6 of the calendar, 11, 14, 15; refused, the calendar is as it was. */
static inline unsigned scullpouch_calendar_close(scullpouch_calendar *calendar, uint16_t day) {
    size_t place = scullpouch_calendar_place(calendar, day);
    unsigned refusal = scullpouch_calendar_refusal(calendar);
    if (refusal != 0) return refusal;
    if (place == SIZE_MAX) return 11;
    if (!scullpouch_calendar_trades(calendar, day)) return 14;
    calendar->closed[place / 8] = (uint8_t)(calendar->closed[place / 8] ^ (128u >> place % 8));
    if (scullpouch_calendar_refusal(calendar) == 0) return 0;
    calendar->closed[place / 8] = (uint8_t)(calendar->closed[place / 8] ^ (128u >> place % 8));
    return 15;
}

/* Opens a closed day again, in both maps. 3-6 of the calendar, 11, 26; refused, the calendar is as it was. */
static inline unsigned scullpouch_calendar_reopen(scullpouch_calendar *calendar, uint16_t day) {
    size_t place = scullpouch_calendar_place(calendar, day);
    unsigned refusal = scullpouch_calendar_refusal(calendar), others = 255u ^ (128u >> place % 8);
    if (refusal != 0) return refusal;
    if (place == SIZE_MAX) return 11;
    if (!scullpouch_is_weekday(day) || !scullpouch_calendar_is_closed(calendar, place)) return 26;
    calendar->closed[place / 8] = (uint8_t)(calendar->closed[place / 8] & others);
    calendar->exchange[place / 8] = (uint8_t)(calendar->exchange[place / 8] & others);
    return 0;
}

/* ---- A delivery by pointers ---- */

/* The notices of a text, 164 KB. */
typedef struct {
    scullpouch_notices said;
    uint32_t calls[SCULLPOUCH_CALLS];
    uint8_t ids[SCULLPOUCH_NOTICE_IDS];
    uint8_t refusals[SCULLPOUCH_NOTICES];
} scullpouch_notices_lists;

/* The rows of a text, 983 KB. state is all zeros before the first line. */
typedef struct {
    scullpouch_receipt state;
    uint8_t ids[SCULLPOUCH_ROW_IDS];
    uint16_t keys[SCULLPOUCH_ROWS];
    uint16_t days[SCULLPOUCH_ROWS];
    uint8_t fulls[SCULLPOUCH_ROWS];
    uint16_t numbers[SCULLPOUCH_ROWS];
    uint16_t backs[SCULLPOUCH_ROWS];
    uint16_t places[SCULLPOUCH_ROWS];
} scullpouch_rows_lists;

/* How many places a file of so many bytes has. */
static inline size_t scullpouch_places(size_t length) {
    return (size_t)SCULLPOUCH_PLACES * (length / SCULLPOUCH_BLOCK);
}

static inline unsigned scullpouch_product_at_into(scullpouch_product *product, const uint8_t *file, size_t length,
                                                  size_t place) {
    scullpouch_product_reply r = scullpouch_product_at(file, length, place);
    if (r.refusal == 0) *product = r.product;
    return r.refusal;
}

/* The products of a file in its order, 46 KB. */
typedef struct {
    size_t count;
    scullpouch_product products[SCULLPOUCH_PRODUCTS];
} scullpouch_products_list;

/* 1-8 */
static inline unsigned scullpouch_products_into(scullpouch_products_list *list, const uint8_t *file, size_t length) {
    unsigned refusal = scullpouch_load(file, length).refusal;
    size_t count = 0;
    if (refusal != 0) return refusal;
    for (size_t place = 0; place < scullpouch_places(length) && count < SCULLPOUCH_PRODUCTS; place++)
        if (scullpouch_product_at_into(&list->products[count], file, length, place) == 0) count++;
    list->count = count;
    return 0;
}

/* 0, or the number of the first bad line. */
static inline uint32_t scullpouch_read_notices_into(scullpouch_notices_lists *lists, const uint8_t *text,
                                                    size_t length) {
    lists->said =
        scullpouch_read_notices(text, length, lists->calls, SCULLPOUCH_CALLS, lists->ids, SCULLPOUCH_NOTICE_IDS);
    return lists->said.bad;
}

/* Writes all of the answer. 10 where the notices have a bad line. */
static inline unsigned scullpouch_deliver_into(scullpouch_delivered *delivered, const scullpouch_file_calendar *judged,
                                               const uint8_t *file, size_t length, scullpouch_notices_lists *lists,
                                               scullpouch_id id) {
    *delivered = scullpouch_deliver(*judged, file, length, lists->said, lists->calls, SCULLPOUCH_CALLS, lists->ids,
                                    SCULLPOUCH_NOTICE_IDS, id, lists->refusals, SCULLPOUCH_NOTICES);
    return delivered->fits ? delivered->refusal : 10u;
}

/* Takes the next line: its number where it is bad, else 0. */
static inline uint32_t scullpouch_receive_into(scullpouch_rows_lists *lists, const uint8_t *file, size_t length,
                                               const uint8_t *text, size_t text_length) {
    lists->state = scullpouch_receive(lists->state, file, length, text, text_length, lists->ids, SCULLPOUCH_ROW_IDS,
                                      lists->keys, SCULLPOUCH_ROWS, lists->days, SCULLPOUCH_ROWS, lists->fulls,
                                      SCULLPOUCH_ROWS, lists->numbers, SCULLPOUCH_ROWS, lists->backs, SCULLPOUCH_ROWS);
    return lists->state.bad;
}

static inline scullpouch_found scullpouch_differences_into(scullpouch_rows_lists *lists,
                                                           const scullpouch_product *product,
                                                           const scullpouch_delivered *delivered, uint32_t from,
                                                           uint8_t *buffer, size_t room) {
    return scullpouch_differences(*product, *delivered, lists->state.rows, lists->ids, SCULLPOUCH_ROW_IDS, lists->keys,
                                  SCULLPOUCH_ROWS, lists->days, SCULLPOUCH_ROWS, lists->fulls, SCULLPOUCH_ROWS,
                                  lists->numbers, SCULLPOUCH_ROWS, lists->backs, SCULLPOUCH_ROWS, lists->places,
                                  SCULLPOUCH_ROWS, from, buffer, room);
}

/* ---- The layout, which every language must share ---- */

#if defined(__cplusplus) && __cplusplus >= 201103L
#define SCULLPOUCH_IS(fact) static_assert(fact, "scullpouch.h: the layout of the structs")
#elif defined(__STDC_VERSION__) && __STDC_VERSION__ >= 201112L
#define SCULLPOUCH_IS(fact) _Static_assert(fact, "scullpouch.h: the layout of the structs")
#else
#define SCULLPOUCH_IS(fact) extern char scullpouch_is[(fact) ? 1 : -1]
#endif
#define SCULLPOUCH_SIZE(type, size) SCULLPOUCH_IS(sizeof(scullpouch_##type) == size)
#define SCULLPOUCH_AT(type, field, offset) SCULLPOUCH_IS(offsetof(scullpouch_##type, field) == offset)

SCULLPOUCH_SIZE(id, 4);
SCULLPOUCH_AT(id, bytes, 0);
SCULLPOUCH_SIZE(record_bytes, 32);
SCULLPOUCH_AT(record_bytes, bytes, 0);
SCULLPOUCH_SIZE(product, 24);
SCULLPOUCH_AT(product, id, 0);
SCULLPOUCH_AT(product, group, 4);
SCULLPOUCH_AT(product, market, 8);
SCULLPOUCH_AT(product, kind, 12);
SCULLPOUCH_AT(product, currency, 13);
SCULLPOUCH_AT(product, size, 16);
SCULLPOUCH_AT(product, tick, 20);
SCULLPOUCH_SIZE(cover, 4);
SCULLPOUCH_AT(cover, first_year, 0);
SCULLPOUCH_AT(cover, years, 2);
SCULLPOUCH_SIZE(calendar, 1476);
SCULLPOUCH_AT(calendar, cover, 0);
SCULLPOUCH_AT(calendar, closed, 4);
SCULLPOUCH_AT(calendar, exchange, 740);
SCULLPOUCH_SIZE(maturity, 8);
SCULLPOUCH_AT(maturity, key, 0);
SCULLPOUCH_AT(maturity, day, 2);
SCULLPOUCH_AT(maturity, back, 4);
SCULLPOUCH_AT(maturity, number, 6);
SCULLPOUCH_SIZE(table, 1624);
SCULLPOUCH_AT(table, product, 0);
SCULLPOUCH_AT(table, calendar, 24);
SCULLPOUCH_AT(table, date, 1500);
SCULLPOUCH_AT(table, given, 1502);
SCULLPOUCH_AT(table, maturities, 1504);
SCULLPOUCH_SIZE(outcome, 1632);
SCULLPOUCH_AT(outcome, refusal, 0);
SCULLPOUCH_AT(outcome, entered, 2);
SCULLPOUCH_AT(outcome, left, 4);
SCULLPOUCH_AT(outcome, table, 8);
SCULLPOUCH_SIZE(measured, 1632);
SCULLPOUCH_AT(measured, refusal, 0);
SCULLPOUCH_AT(measured, price, 4);
SCULLPOUCH_AT(measured, table, 8);
SCULLPOUCH_SIZE(day_reply, 4);
SCULLPOUCH_AT(day_reply, refusal, 0);
SCULLPOUCH_AT(day_reply, day, 2);
SCULLPOUCH_SIZE(date_reply, 8);
SCULLPOUCH_AT(date_reply, refusal, 0);
SCULLPOUCH_AT(date_reply, year, 2);
SCULLPOUCH_AT(date_reply, month, 4);
SCULLPOUCH_AT(date_reply, day, 6);
SCULLPOUCH_SIZE(last_day_reply, 6);
SCULLPOUCH_AT(last_day_reply, refusal, 0);
SCULLPOUCH_AT(last_day_reply, day, 2);
SCULLPOUCH_AT(last_day_reply, back, 4);
SCULLPOUCH_SIZE(amount, 24);
SCULLPOUCH_AT(amount, negative, 0);
SCULLPOUCH_AT(amount, amount, 8);
SCULLPOUCH_AT(amount, rest, 16);
SCULLPOUCH_SIZE(cash_reply, 32);
SCULLPOUCH_AT(cash_reply, refusal, 0);
SCULLPOUCH_AT(cash_reply, cash, 8);
SCULLPOUCH_SIZE(counts, 4);
SCULLPOUCH_AT(counts, years, 0);
SCULLPOUCH_AT(counts, records, 2);
SCULLPOUCH_SIZE(loaded, 6);
SCULLPOUCH_AT(loaded, refusal, 0);
SCULLPOUCH_AT(loaded, counts, 2);
SCULLPOUCH_SIZE(file_calendar, 1478);
SCULLPOUCH_AT(file_calendar, refusal, 0);
SCULLPOUCH_AT(file_calendar, calendar, 2);
SCULLPOUCH_SIZE(written, 16);
SCULLPOUCH_AT(written, refusal, 0);
SCULLPOUCH_AT(written, length, 8);
SCULLPOUCH_SIZE(intake, 18);
SCULLPOUCH_AT(intake, announced, 0);
SCULLPOUCH_AT(intake, taken, 2);
SCULLPOUCH_AT(intake, lowest, 4);
SCULLPOUCH_AT(intake, first_year, 6);
SCULLPOUCH_AT(intake, years, 8);
SCULLPOUCH_AT(intake, idle, 10);
SCULLPOUCH_AT(intake, records, 12);
SCULLPOUCH_AT(intake, last_id, 14);
SCULLPOUCH_SIZE(taken, 20);
SCULLPOUCH_AT(taken, refusal, 0);
SCULLPOUCH_AT(taken, state, 2);
SCULLPOUCH_SIZE(finished, 24);
SCULLPOUCH_AT(finished, refusal, 0);
SCULLPOUCH_AT(finished, counts, 2);
SCULLPOUCH_AT(finished, state, 6);
SCULLPOUCH_SIZE(verdict, 4);
SCULLPOUCH_AT(verdict, refusal, 0);
SCULLPOUCH_AT(verdict, same, 1);
SCULLPOUCH_AT(verdict, key, 2);
SCULLPOUCH_SIZE(round, 402);
SCULLPOUCH_AT(round, tables, 0);
SCULLPOUCH_AT(round, count, 400);
SCULLPOUCH_SIZE(handled, 806);
SCULLPOUCH_AT(handled, refusal, 0);
SCULLPOUCH_AT(handled, taken, 2);
SCULLPOUCH_AT(handled, queue, 404);
SCULLPOUCH_SIZE(changed, 404);
SCULLPOUCH_AT(changed, refusal, 0);
SCULLPOUCH_AT(changed, queue, 2);
SCULLPOUCH_SIZE(made, 1478);
SCULLPOUCH_AT(made, refusal, 0);
SCULLPOUCH_AT(made, calendar, 2);
SCULLPOUCH_SIZE(product_reply, 28);
SCULLPOUCH_AT(product_reply, refusal, 0);
SCULLPOUCH_AT(product_reply, product, 4);
SCULLPOUCH_SIZE(notices, 16);
SCULLPOUCH_AT(notices, fits, 0);
SCULLPOUCH_AT(notices, date, 2);
SCULLPOUCH_AT(notices, opened, 4);
SCULLPOUCH_AT(notices, count, 8);
SCULLPOUCH_AT(notices, bad, 12);
SCULLPOUCH_SIZE(delivered, 1628);
SCULLPOUCH_AT(delivered, fits, 0);
SCULLPOUCH_AT(delivered, refusal, 1);
SCULLPOUCH_AT(delivered, table, 4);
SCULLPOUCH_SIZE(text, 16);
SCULLPOUCH_AT(text, refusal, 0);
SCULLPOUCH_AT(text, fits, 1);
SCULLPOUCH_AT(text, length, 8);
SCULLPOUCH_SIZE(line, 72);
SCULLPOUCH_AT(line, bytes, 0);
SCULLPOUCH_AT(line, length, 64);
SCULLPOUCH_SIZE(receipt, 24);
SCULLPOUCH_AT(receipt, next, 0);
SCULLPOUCH_AT(receipt, rows, 8);
SCULLPOUCH_AT(receipt, lines, 12);
SCULLPOUCH_AT(receipt, bad, 16);
SCULLPOUCH_AT(receipt, begun, 20);
SCULLPOUCH_AT(receipt, over, 21);
SCULLPOUCH_SIZE(found, 24);
SCULLPOUCH_AT(found, refusal, 0);
SCULLPOUCH_AT(found, fits, 1);
SCULLPOUCH_AT(found, next, 4);
SCULLPOUCH_AT(found, lines, 8);
SCULLPOUCH_AT(found, length, 16);

#undef SCULLPOUCH_AT
#undef SCULLPOUCH_SIZE
#undef SCULLPOUCH_IS

#ifdef __cplusplus
}
#endif
#endif
