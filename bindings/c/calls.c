/* A line of input for each call of libscullpouch, a line of output for each answer (bindings/README.md).
 * A call that has a form by pointers is made in both forms, and the two are compared. */
#define _POSIX_C_SOURCE 200809L
#include <scullpouch.h>
#include <stdio.h>
#include <stdlib.h>
#include <sys/types.h>
#include <time.h>

#define NUMBERS_AT_MOST 4096
#define LOOPS 50
#define SUM_MODULUS 65521

static uint8_t *file;
static size_t file_length;
static scullpouch_file_calendar judged;
static uint8_t *judged_file;
static size_t judged_length;
static scullpouch_table table, kept;
static scullpouch_calendar calendar;
static scullpouch_intake state;
static scullpouch_round queue;
static scullpouch_notices_lists notices;
static scullpouch_rows_lists rows;

/* The words of the line after the command: a text, where it has one, and numbers. */
static char *word;
static unsigned long number[NUMBERS_AT_MOST];
static size_t count;

/* ---- What the two forms of a call must agree on ---- */

static void agree(bool same) {
    if (!same) puts("the two forms differ");
}

static bool same_product(const scullpouch_product *a, const scullpouch_product *b) {
    return memcmp(a->id, b->id, sizeof a->id) == 0 && memcmp(a->group, b->group, sizeof a->group) == 0 &&
           memcmp(a->market, b->market, sizeof a->market) == 0 && a->kind == b->kind &&
           memcmp(a->currency, b->currency, sizeof a->currency) == 0 && a->size == b->size && a->tick == b->tick;
}

/* Calendars, maturities, queues and states have no unused bytes. */
static bool same_table(const scullpouch_table *a, const scullpouch_table *b) {
    return same_product(&a->product, &b->product) && memcmp(&a->calendar, &b->calendar, sizeof a->calendar) == 0 &&
           a->date == b->date && a->given == b->given &&
           memcmp(a->maturities, b->maturities, sizeof a->maturities) == 0;
}

static bool same_calendar(const scullpouch_calendar *a, const scullpouch_calendar *b) {
    return memcmp(a, b, sizeof *a) == 0;
}

static bool same_queue(const scullpouch_round *a, const scullpouch_round *b) {
    return memcmp(a, b, sizeof *a) == 0;
}

/* ---- Bytes ---- */

static uint8_t *room_of(size_t length) {
    uint8_t *bytes = malloc(length);
    if (!bytes) exit(3);
    return bytes;
}

/* A copy that has exactly these bytes, so that a read past its end is seen. */
static uint8_t *lent(const void *bytes, size_t length) {
    uint8_t *copy = room_of(length);
    if (length != 0) memcpy(copy, bytes, length);
    return copy;
}

static uint8_t *read_whole(const char *name, size_t *length) {
    FILE *in = fopen(name, "rb");
    if (!in || fseek(in, 0, SEEK_END) != 0) exit(3);
    *length = (size_t)ftell(in);
    rewind(in);
    uint8_t *bytes = room_of(*length);
    if (fread(bytes, 1, *length, in) != *length) exit(3);
    fclose(in);
    return bytes;
}

/* The sum of (i + 1) * byte i, modulo 65,521. */
static unsigned long sum_of(const uint8_t *bytes, size_t length) {
    unsigned long sum = 0;
    for (size_t i = 0; i < length; i++) sum = (sum + (i + 1) * bytes[i]) % SUM_MODULUS;
    return sum;
}

static void print_hex(const uint8_t *bytes, size_t length) {
    for (size_t i = 0; i < length; i++) printf("%02x", bytes[i]);
}

/* ---- Printing ---- */

static void print_calendar(const scullpouch_calendar *c) {
    printf(" %d %d %lu %lu", c->cover.first_year, c->cover.years, sum_of(c->closed, SCULLPOUCH_MAP),
           sum_of(c->exchange, SCULLPOUCH_MAP));
}

static void print_table(void) {
    const scullpouch_product *p = &table.product;
    print_hex(p->id, 4);
    print_hex(p->group, 4);
    print_hex(p->market, 4);
    print_hex(p->currency, 3);
    printf(" %d %lu %d", p->kind, (unsigned long)p->size, p->tick);
    print_calendar(&table.calendar);
    printf(" %d %d", table.date, table.given);
    for (size_t i = 0; i < SCULLPOUCH_PLACES; i++) {
        scullpouch_maturity m = table.maturities[i];
        printf(" %d %d %d %d", m.key, m.day, m.back, m.number);
    }
    printf(" %zu\n", scullpouch_listed(&table));
}

/* The count, the places that are used, and the sum of the others. */
static void print_queue(const scullpouch_round *q) {
    unsigned long rest = 0;
    printf("%d", q->count);
    for (size_t i = 0; i < SCULLPOUCH_TABLES; i++) {
        if (i < q->count) printf(" %d", q->tables[i]);
        else rest += q->tables[i];
    }
    printf(" %lu\n", rest);
}

/* ---- Calls that give a table ---- */

/* o: by value; refusal, into, entered, left: by pointers; refused: the table of a refused call. */
static void outcome(scullpouch_outcome o, unsigned refusal, scullpouch_table into, uint16_t entered, uint16_t left,
                    const scullpouch_table *refused) {
    agree(o.refusal == refusal && o.entered == entered && o.left == left &&
          same_table(&into, refusal == 0 ? &o.table : &table) && (refusal == 0 || same_table(&o.table, refused)));
    table = into;
    printf("%d %d %d\n", o.refusal, o.entered, o.left);
}

static void call_open(void) {
    static const scullpouch_table zeros;
    scullpouch_table into = table;
    uint16_t date = (uint16_t)number[0], entered = 0, left = 0;
    uint8_t *bytes = lent(file, file_length);
    scullpouch_outcome o = scullpouch_open(bytes, file_length, scullpouch_id_of(word), date);
    unsigned refusal = scullpouch_open_into(&into, bytes, file_length, word, date, &entered, &left);
    free(bytes);
    outcome(o, refusal, into, entered, left, &zeros);
}

/* What was said of a file, its refusal changed to one that no file gets, is the answer. */
static void agree_on_refusal(uint16_t date) {
    static const scullpouch_table zeros;
    scullpouch_file_calendar other = judged;
    other.refusal = 99;
    scullpouch_outcome o = scullpouch_open_in(other, judged_file, judged_length, scullpouch_id_of(word), date);
    agree(o.refusal == 99 && o.entered == 0 && o.left == 0 && same_table(&o.table, &zeros));
}

/* Opens from the file that was judged, as open does. */
static void call_open_in(void) {
    static const scullpouch_table zeros;
    scullpouch_table into = table;
    uint16_t date = (uint16_t)number[0], entered = 0, left = 0;
    scullpouch_id id = scullpouch_id_of(word);
    scullpouch_outcome o = scullpouch_open_in(judged, judged_file, judged_length, id, date);
    scullpouch_outcome whole = scullpouch_open(judged_file, judged_length, id, date);
    agree(o.refusal == whole.refusal && o.entered == whole.entered && o.left == whole.left &&
          same_table(&o.table, &whole.table));
    agree_on_refusal(date);
    unsigned refusal =
        scullpouch_open_in_into(&into, &judged, judged_file, judged_length, word, date, &entered, &left);
    outcome(o, refusal, into, entered, left, &zeros);
}

static void call_roll(void) {
    scullpouch_table into = table;
    uint16_t date = (uint16_t)number[0], entered = 0, left = 0;
    unsigned refusal = scullpouch_roll_into(&into, date, &entered, &left);
    outcome(scullpouch_roll(table, date), refusal, into, entered, left, &table);
}

static void call_close(void) {
    scullpouch_table into = table;
    uint16_t day = (uint16_t)number[0], entered = 0, left = 0;
    unsigned refusal = scullpouch_close_into(&into, day, &entered, &left);
    outcome(scullpouch_close(table, day), refusal, into, entered, left, &table);
}

static void call_reopen(void) {
    scullpouch_table into = table;
    uint16_t day = (uint16_t)number[0], entered = 0, left = 0;
    unsigned refusal = scullpouch_reopen_into(&into, day, &entered, &left);
    outcome(scullpouch_reopen(table, day), refusal, into, entered, left, &table);
}

static void call_measure(void) {
    scullpouch_table into = table;
    uint16_t p = (uint16_t)number[0], q = (uint16_t)number[1];
    uint32_t price = (uint32_t)number[2], after = 0;
    scullpouch_measured m = scullpouch_measure(table, p, q, price);
    unsigned refusal = scullpouch_measure_into(&into, p, q, price, &after);
    agree(m.refusal == refusal && m.price == after && same_table(&m.table, &into));
    table = into;
    printf("%d %lu\n", m.refusal, (unsigned long)m.price);
}

/* ---- Calls that read a table ---- */

static void call_last(void) {
    scullpouch_last_day_reply r = scullpouch_last_trading_day(table, (uint16_t)number[0]);
    printf("%d %d %d\n", r.refusal, r.day, r.back);
}

static void call_due(void) {
    scullpouch_day_reply r = scullpouch_due(table, (uint16_t)number[0]);
    printf("%d %d\n", r.refusal, r.day);
}

static void call_tick(void) {
    printf("%d\n", scullpouch_tick(table, (uint32_t)number[0]));
}

static void call_cash(void) {
    scullpouch_cash_reply r = scullpouch_cash(table, (uint32_t)number[0], (uint32_t)number[1], (uint32_t)number[2]);
    printf("%d %d %llu %d\n", r.refusal, r.cash.negative, (unsigned long long)r.cash.amount, r.cash.rest);
}

static void call_judge(void) {
    static uint16_t list[NUMBERS_AT_MOST];
    for (size_t i = 0; i < count; i++) list[i] = (uint16_t)number[i];
    uint8_t *bytes = lent(list, count * sizeof *list);
    scullpouch_verdict v = scullpouch_judge(table, (const uint16_t *)(void *)bytes, count);
    free(bytes);
    printf("%d %d %d\n", v.refusal, v.same, v.key);
}

static void call_record(void) {
    scullpouch_record_bytes r = scullpouch_record(table.product);
    print_hex(r.bytes, SCULLPOUCH_RECORD);
    putchar('\n');
}

/* ---- Changes of the table that no call makes ---- */

static bool set_product(size_t place, unsigned long value) {
    scullpouch_product *p = &table.product;
    if (strcmp(word, "id") == 0) p->id[place] = (uint8_t)value;
    else if (strcmp(word, "group") == 0) p->group[place] = (uint8_t)value;
    else if (strcmp(word, "market") == 0) p->market[place] = (uint8_t)value;
    else if (strcmp(word, "currency") == 0) p->currency[place] = (uint8_t)value;
    else if (strcmp(word, "kind") == 0) p->kind = (uint8_t)value;
    else if (strcmp(word, "size") == 0) p->size = (uint32_t)value;
    else if (strcmp(word, "tick") == 0) p->tick = (uint16_t)value;
    else return false;
    return true;
}

/* A byte of a map is xored with the value. */
static bool set_calendar(size_t place, unsigned long value) {
    scullpouch_calendar *c = &table.calendar;
    if (strcmp(word, "first_year") == 0) c->cover.first_year = (uint16_t)value;
    else if (strcmp(word, "years") == 0) c->cover.years = (uint16_t)value;
    else if (strcmp(word, "closed") == 0) c->closed[place] ^= (uint8_t)value;
    else if (strcmp(word, "exchange") == 0) c->exchange[place] ^= (uint8_t)value;
    else return false;
    return true;
}

static void set(void) {
    size_t place = number[0];
    unsigned long value = number[1];
    if (set_product(place, value) || set_calendar(place, value)) return;
    scullpouch_maturity *m = &table.maturities[place];
    if (strcmp(word, "date") == 0) table.date = (uint16_t)value;
    else if (strcmp(word, "given") == 0) table.given = (uint16_t)value;
    else if (strcmp(word, "key") == 0) m->key = (uint16_t)value;
    else if (strcmp(word, "last") == 0) m->day = (uint16_t)value;
    else if (strcmp(word, "back") == 0) m->back = (uint16_t)value;
    else if (strcmp(word, "number") == 0) m->number = (uint16_t)value;
    else exit(3);
}

/* The bytes of the table, those that are not used zeros, and back. */
static void print_stored(void) {
    uint8_t bytes[sizeof table];
    memcpy(bytes, &table, sizeof table);
    memset(bytes + offsetof(scullpouch_product, tick) + 2, 0, 2);
    memcpy(&table, bytes, sizeof table);
    printf("%lu\n", sum_of(bytes, sizeof bytes));
}

static void keep(void) { kept = table; }
static void restore(void) { table = kept; }
static void take_calendar(void) { calendar = table.calendar; }

/* ---- Files ---- */

static void set_file(void) {
    free(file);
    file = read_whole(word, &file_length);
}

static void call_load(void) {
    uint8_t *bytes = lent(file, file_length);
    scullpouch_loaded r = scullpouch_load(bytes, file_length);
    free(bytes);
    printf("%d %d %d\n", r.refusal, r.counts.years, r.counts.records);
}

/* The file is kept with what was said of it, where it is accepted. */
static void call_judge_file(void) {
    static const scullpouch_calendar zeros;
    scullpouch_file_calendar into = judged;
    uint8_t *bytes = lent(file, file_length);
    scullpouch_file_calendar j = scullpouch_judge_file(bytes, file_length);
    unsigned refusal = scullpouch_judge_file_into(&into, bytes, file_length);
    agree(j.refusal == refusal && same_calendar(&into.calendar, refusal == 0 ? &j.calendar : &judged.calendar) &&
          (refusal == 0 || same_calendar(&j.calendar, &zeros)));
    free(refusal == 0 ? judged_file : bytes);
    if (refusal == 0) {
        judged_file = bytes;
        judged_length = file_length;
    }
    judged = into;
    printf("%d", j.refusal);
    print_calendar(&judged.calendar);
    putchar('\n');
}

/* refused: the state of a refused call. */
static void taken(scullpouch_taken t, unsigned refusal, scullpouch_intake into, const scullpouch_intake *refused) {
    agree(t.refusal == refusal && memcmp(&into, refusal == 0 ? &t.state : &state, sizeof into) == 0 &&
          (refusal == 0 || memcmp(&t.state, refused, sizeof into) == 0));
    state = into;
    printf("%d\n", t.refusal);
}

static void call_announce(void) {
    static const scullpouch_intake zeros;
    scullpouch_intake into = state;
    unsigned refusal = scullpouch_announce_into(&into, (uint16_t)number[0]);
    taken(scullpouch_announce((uint16_t)number[0]), refusal, into, &zeros);
}

/* The block is so many bytes of the file from a place on. */
static void call_take(void) {
    scullpouch_intake into = state;
    if (number[0] > file_length || number[1] > file_length - number[0]) exit(3);
    uint8_t *block = lent(file + number[0], number[1]);
    scullpouch_taken t = scullpouch_take(state, block, number[1]);
    unsigned refusal = scullpouch_take_into(&into, block, number[1]);
    free(block);
    taken(t, refusal, into, &state);
}

static void call_finish(void) {
    scullpouch_finished f = scullpouch_finish(state);
    agree(memcmp(&f.state, &state, sizeof state) == 0);
    printf("%d %d %d\n", f.refusal, f.counts.years, f.counts.records);
}

static void call_make(void) {
    scullpouch_calendar into = calendar;
    scullpouch_cover cover = {(uint16_t)number[1], (uint16_t)number[2]};
    scullpouch_made m = scullpouch_make((uint32_t)number[0], cover);
    unsigned refusal = scullpouch_make_into(&into, (uint32_t)number[0], cover);
    agree(m.refusal == refusal && memcmp(&into, refusal == 0 ? &m.calendar : &calendar, sizeof into) == 0);
    calendar = into;
    printf("%d", m.refusal);
    print_calendar(&calendar);
    putchar('\n');
}

/* Records from a file, into a buffer of so many bytes, each of them 165 before. */
static void call_write(void) {
    size_t length, room = number[0];
    uint8_t *records = read_whole(word, &length), *buffer = room_of(room);
    memset(buffer, 165, room);
    scullpouch_written w = scullpouch_write(calendar, records, length, buffer, room);
    printf("%d %zu %lu\n", w.refusal, w.length, sum_of(buffer, room));
    free(records);
    free(buffer);
}

static void print_marked(void) { printf("%d\n", scullpouch_marked_after_cover(&calendar)); }

/* ---- A calendar by its days ---- */

static void print_trades(void) { printf("%d\n", scullpouch_calendar_trades(&calendar, (uint16_t)number[0])); }

static void print_changed(unsigned refusal) {
    printf("%u", refusal);
    print_calendar(&calendar);
    putchar('\n');
}

static void close_day(void) { print_changed(scullpouch_calendar_close(&calendar, (uint16_t)number[0])); }
static void reopen_day(void) { print_changed(scullpouch_calendar_reopen(&calendar, (uint16_t)number[0])); }

/* ---- Texts. The room is as long as the text may be, so that a byte too many is seen ---- */

static void print_text(size_t room, const char *text) {
    if (strlen(text) >= room) exit(3);
    puts(text);
}

static void print_day(void) {
    char text[SCULLPOUCH_DAY_TEXT];
    print_text(sizeof text, scullpouch_day_text(text, (uint16_t)number[0]));
}

static void print_month(void) {
    char text[SCULLPOUCH_MONTH_TEXT];
    print_text(sizeof text, scullpouch_month_text(text, (uint16_t)number[0]));
}

static void print_key(void) {
    char text[SCULLPOUCH_DAY_TEXT];
    print_text(sizeof text, scullpouch_key_text(text, (uint8_t)number[0], (uint16_t)number[1]));
}

static void print_decimal(void) {
    char text[SCULLPOUCH_DECIMAL_TEXT];
    print_text(sizeof text, scullpouch_decimal_text(text, (uint32_t)number[0]));
}

static void read_decimal(void) {
    uint32_t found = 0;
    bool read = scullpouch_decimal_of(word, &found);
    printf("%d %lu\n", read, (unsigned long)found);
}

static void print_amount(void) {
    char text[SCULLPOUCH_AMOUNT_TEXT];
    scullpouch_amount amount = {number[0] != 0, number[1], (uint16_t)number[2]};
    print_text(sizeof text, scullpouch_amount_text(text, amount));
}

/* ---- A delivery ---- */

static void print_product(const scullpouch_product *p) {
    print_hex(p->id, 4);
    print_hex(p->group, 4);
    print_hex(p->market, 4);
    print_hex(p->currency, 3);
    printf(" %d %lu %d", p->kind, (unsigned long)p->size, p->tick);
}

static void call_product(void) {
    scullpouch_product into = {{0}, {0}, {0}, 0, {0}, 0, 0};
    uint8_t *bytes = lent(file, file_length);
    scullpouch_product_reply r = scullpouch_product_at(bytes, file_length, number[0]);
    unsigned refusal = scullpouch_product_at_into(&into, bytes, file_length, number[0]);
    free(bytes);
    agree(r.refusal == refusal && same_product(&r.product, &into));
    printf("%d ", r.refusal);
    print_product(&r.product);
    putchar('\n');
}

/* The products of the file: how many, and the sum of their records. */
static void call_products(void) {
    static scullpouch_products_list list;
    static uint8_t records[SCULLPOUCH_PRODUCTS * SCULLPOUCH_RECORD];
    uint8_t *bytes = lent(file, file_length);
    list.count = 0;
    unsigned refusal = scullpouch_products_into(&list, bytes, file_length);
    free(bytes);
    for (size_t i = 0; i < list.count; i++)
        memcpy(records + SCULLPOUCH_RECORD * i, scullpouch_record(list.products[i]).bytes, SCULLPOUCH_RECORD);
    printf("%u %zu %lu\n", refusal, list.count, sum_of(records, SCULLPOUCH_RECORD * list.count));
}

/* The notices are kept where no line is bad. Lists that are one element too short get nothing. */
static void call_notices(void) {
    static scullpouch_notices_lists into;
    size_t length;
    uint8_t *text = read_whole(word, &length);
    uint32_t *calls = (uint32_t *)(void *)room_of(SCULLPOUCH_CALLS * sizeof *calls);
    uint8_t *ids = room_of(SCULLPOUCH_NOTICE_IDS);
    memset(calls, 165, SCULLPOUCH_CALLS * sizeof *calls);
    memset(ids, 165, SCULLPOUCH_NOTICE_IDS);
    scullpouch_notices few =
        scullpouch_read_notices(text, length, calls, SCULLPOUCH_CALLS - 1, ids, SCULLPOUCH_NOTICE_IDS);
    agree(!few.fits && few.bad == 0 && few.date == 0 && few.opened == 0 && few.count == 0 && ids[0] == 165);
    scullpouch_notices n = scullpouch_read_notices(text, length, calls, SCULLPOUCH_CALLS, ids, SCULLPOUCH_NOTICE_IDS);
    uint32_t bad = scullpouch_read_notices_into(&into, text, length);
    agree(n.fits && n.bad == bad && n.date == into.said.date && n.opened == into.said.opened &&
          n.count == into.said.count && memcmp(calls, into.calls, 5 * n.count * sizeof *calls) == 0);
    if (bad == 0) notices = into;
    free(text);
    free(calls);
    free(ids);
    printf("%lu %d %lu %lu\n", (unsigned long)bad, n.date, (unsigned long)n.opened, (unsigned long)n.count);
}

/* A buffer of one byte for each notice is enough, and one byte fewer too few. */
static void call_deliver(void) {
    static const scullpouch_table zeros;
    size_t room = notices.said.count, refused = 0;
    uint8_t *refusals = room_of(room);
    scullpouch_id id = scullpouch_id_of(word);
    scullpouch_delivered into;
    unsigned refusal = scullpouch_deliver_into(&into, &judged, judged_file, judged_length, &notices, id);
    scullpouch_delivered d =
        scullpouch_deliver(judged, judged_file, judged_length, notices.said, notices.calls, SCULLPOUCH_CALLS,
                           notices.ids, SCULLPOUCH_NOTICE_IDS, id, refusals, room);
    agree(d.fits && d.refusal == refusal && same_table(&d.table, &into.table) &&
          memcmp(refusals, notices.refusals, room) == 0 && (refusal == 0 || same_table(&d.table, &zeros)));
    if (room != 0) {
        scullpouch_delivered few =
            scullpouch_deliver(judged, judged_file, judged_length, notices.said, notices.calls, SCULLPOUCH_CALLS,
                               notices.ids, SCULLPOUCH_NOTICE_IDS, id, refusals, room - 1);
        agree(!few.fits && few.refusal == 0 && same_table(&few.table, &zeros));
    }
    if (refusal == 0) table = d.table;
    for (size_t i = 0; i < room && refusal == 0; i++) refused += refusals[i] != 0;
    printf("%u %zu", refusal, refused);
    for (size_t i = 0; i < room && refusal == 0; i++)
        if (refusals[i] != 0) printf(" %lu %d", (unsigned long)notices.calls[5 * i], refusals[i]);
    putchar('\n');
    free(refusals);
}

static void call_rows(void) {
    uint8_t *buffer = room_of(SCULLPOUCH_TABLE_TEXT);
    memset(buffer, 165, SCULLPOUCH_TABLE_TEXT);
    scullpouch_text few = scullpouch_rows(table, buffer, SCULLPOUCH_TABLE_TEXT - 1);
    agree(!few.fits && few.length == 0 && buffer[0] == 165);
    scullpouch_text t = scullpouch_rows(table, buffer, SCULLPOUCH_TABLE_TEXT);
    agree(t.refusal == few.refusal && t.fits == (t.refusal == 0) && buffer[t.length] == 165);
    printf("%d %zu %lu\n", t.refusal, t.length, sum_of(buffer, t.length));
    free(buffer);
}

/* A text that is printed by its length and its sum. */
struct summed {
    size_t length;
    unsigned long sum;
};

static void add(struct summed *text, const uint8_t *bytes, size_t length) {
    for (size_t i = 0; i < length; i++)
        text->sum = (text->sum + (++text->length) % SUM_MODULUS * bytes[i]) % SUM_MODULUS;
}

static void add_line(struct summed *text, scullpouch_line line) { add(text, line.bytes, line.length); }

/* The rows and the refused calls of one product. */
static void deliver_place(size_t place, struct summed *text, struct summed *told) {
    static uint8_t buffer[SCULLPOUCH_TABLE_TEXT];
    scullpouch_product_reply p = scullpouch_product_at(judged_file, judged_length, place);
    if (p.refusal != 0) return;
    scullpouch_id id;
    memcpy(id.bytes, p.product.id, 4);
    scullpouch_delivered d;
    unsigned refusal = scullpouch_deliver_into(&d, &judged, judged_file, judged_length, &notices, id);
    add(text, buffer, scullpouch_rows(d.table, buffer, sizeof buffer).length);
    for (uint32_t i = 0; i <= notices.said.count; i++)
        add_line(told, scullpouch_refused_call(id, notices.said, (uint8_t)refusal, notices.calls, SCULLPOUCH_CALLS,
                                               notices.refusals, SCULLPOUCH_NOTICES, i));
}

/* Both texts of the judged file's products after the notices. */
static void call_delivery(void) {
    struct summed text = {0, 0}, told = {0, 0};
    add_line(&text, scullpouch_rows_heading());
    for (size_t place = 0; place < scullpouch_places(judged_length); place++) deliver_place(place, &text, &told);
    for (uint32_t i = 0; i < notices.said.count; i++)
        add_line(&told, scullpouch_unknown_measure(judged_file, judged_length, notices.calls, SCULLPOUCH_CALLS,
                                                   notices.ids, SCULLPOUCH_NOTICE_IDS, i));
    printf("%zu %lu %zu %lu\n", text.length, text.sum, told.length, told.sum);
}

/* The lines of one product, in a buffer that has room for few of them: how many. */
static size_t differ_place(size_t place, struct summed *text) {
    static uint8_t buffer[2 * SCULLPOUCH_LINE];
    scullpouch_product_reply p = scullpouch_product_at(judged_file, judged_length, place);
    if (p.refusal != 0) return 0;
    scullpouch_id id;
    memcpy(id.bytes, p.product.id, 4);
    scullpouch_delivered d;
    size_t lines = 0;
    scullpouch_deliver_into(&d, &judged, judged_file, judged_length, &notices, id);
    for (uint32_t key = 0; key < SCULLPOUCH_KEYS;) {
        scullpouch_found f = scullpouch_differences_into(&rows, &p.product, &d, key, buffer, sizeof buffer);
        add(text, buffer, f.length);
        key = f.next;
        lines += f.lines;
    }
    return lines;
}

/* Rows from a file, judged by the tables after the notices: good rows, lines, whether there was a row too many, the
 * text, and the bad lines. */
static void call_differences(void) {
    static uint32_t bad[NUMBERS_AT_MOST];
    static const scullpouch_receipt start;
    struct summed text = {0, 0};
    size_t length, bads = 0, lines = 0;
    uint8_t *bytes = read_whole(word, &length);
    rows.state = start;
    while (rows.state.next < length && !rows.state.over)
        if (scullpouch_receive_into(&rows, judged_file, judged_length, bytes, length) != 0 && bads < NUMBERS_AT_MOST)
            bad[bads++] = rows.state.bad;
    free(bytes);
    if (!rows.state.over) {
        add_line(&text, scullpouch_differences_heading());
        for (size_t place = 0; place < scullpouch_places(judged_length); place++) lines += differ_place(place, &text);
        for (uint32_t i = 0; i < rows.state.rows; i++) {
            scullpouch_line l = scullpouch_unknown_product(judged_file, judged_length, rows.ids, SCULLPOUCH_ROW_IDS, i);
            add_line(&text, l);
            lines += l.length != 0;
        }
    }
    printf("%lu %zu %d %zu %lu", (unsigned long)rows.state.rows, lines, rows.state.over, text.length, text.sum);
    for (size_t i = 0; i < bads; i++) printf(" %lu", (unsigned long)bad[i]);
    putchar('\n');
}

/* ---- The round ---- */

/* A queue of any numbers: its count, then its places from the first on. */
static void set_queue(void) {
    memset(&queue, 0, sizeof queue);
    queue.count = (uint16_t)number[0];
    for (size_t i = 1; i < count && i <= SCULLPOUCH_TABLES; i++) queue.tables[i - 1] = (uint16_t)number[i];
}

static void call_queue(void) { queue = scullpouch_queue(); }
static void print_round(void) { print_queue(&queue); }

static void call_handle(void) {
    scullpouch_round into = queue, taken_into = scullpouch_queue();
    scullpouch_handled h = scullpouch_handle(queue, (uint16_t)number[0]);
    unsigned refusal = scullpouch_handle_into(&into, (uint16_t)number[0], &taken_into);
    agree(h.refusal == refusal && same_queue(&h.queue, &into) && same_queue(&h.taken, &taken_into));
    queue = into;
    printf("%d ", h.refusal);
    print_queue(&h.taken);
}

static void changed(scullpouch_changed c, unsigned refusal, scullpouch_round into) {
    agree(c.refusal == refusal && same_queue(&c.queue, &into));
    queue = into;
    printf("%d\n", c.refusal);
}

static void call_join(void) {
    scullpouch_round into = queue;
    unsigned refusal = scullpouch_join_into(&into, (uint16_t)number[0]);
    changed(scullpouch_join(queue, (uint16_t)number[0]), refusal, into);
}

static void call_leave(void) {
    scullpouch_round into = queue;
    unsigned refusal = scullpouch_leave_into(&into, (uint16_t)number[0]);
    changed(scullpouch_leave(queue, (uint16_t)number[0]), refusal, into);
}

/* ---- Days, words, time ---- */

static void call_interface(void) {
    printf("%lu\n", (unsigned long)scullpouch_interface());
}

static void print_question(void) { puts(scullpouch_question((unsigned)number[0])); }

static void call_day(void) {
    scullpouch_day_reply r = scullpouch_day((uint16_t)number[0], (uint16_t)number[1], (uint16_t)number[2]);
    printf("%d %d\n", r.refusal, r.day);
}

static void call_date(void) {
    scullpouch_date_reply r = scullpouch_date((uint16_t)number[0]);
    printf("%d %d %d %d\n", r.refusal, r.year, r.month, r.day);
}

static double now(void) {
    struct timespec t;
    clock_gettime(CLOCK_MONOTONIC, &t);
    return (double)t.tv_sec * 1e6 + (double)t.tv_nsec / 1e3;
}

/* The microseconds of a roll to a date, the best of some loops of so many rolls. */
static void time_rolls(void) {
    double best = 1e9;
    for (int loop = 0; loop < LOOPS; loop++) {
        double start = now();
        for (unsigned long k = 0; k < number[0]; k++)
            if (scullpouch_roll_into(&table, (uint16_t)number[1], NULL, NULL) != 0) exit(3);
        double took = (now() - start) / (double)number[0];
        if (took < best) best = took;
    }
    printf("%.2f\n", best);
}

/* ---- Lines ---- */

/* text: whether the first word after the command is a text. */
static const struct {
    const char *name;
    bool text;
    void (*make)(void);
} commands[] = {
    {"interface", false, call_interface}, {"question", false, print_question}, {"day", false, call_day},
    {"date", false, call_date}, {"file", true, set_file}, {"load", false, call_load}, {"open", true, call_open},
    {"judge_file", false, call_judge_file}, {"open_in", true, call_open_in},
    {"roll", false, call_roll}, {"close", false, call_close}, {"reopen", false, call_reopen},
    {"measure", false, call_measure}, {"table", false, print_table}, {"last", false, call_last},
    {"due", false, call_due}, {"tick", false, call_tick}, {"cash", false, call_cash}, {"judge", false, call_judge},
    {"record", false, call_record}, {"set", true, set}, {"keep", false, keep}, {"restore", false, restore},
    {"calendar", false, take_calendar}, {"make", false, call_make}, {"write", true, call_write},
    {"marked", false, print_marked},
    {"announce", false, call_announce}, {"take", false, call_take}, {"finish", false, call_finish},
    {"numbers", false, set_queue}, {"queue", false, call_queue}, {"round", false, print_round},
    {"handle", false, call_handle}, {"join", false, call_join}, {"leave", false, call_leave},
    {"product", false, call_product}, {"notices", true, call_notices}, {"deliver", true, call_deliver},
    {"rows", false, call_rows}, {"delivery", false, call_delivery}, {"differences", true, call_differences},
    {"products", false, call_products}, {"stored", false, print_stored}, {"trades", false, print_trades},
    {"calendar_close", false, close_day}, {"calendar_reopen", false, reopen_day}, {"day_text", false, print_day},
    {"month_text", false, print_month}, {"key_text", false, print_key}, {"decimal", false, print_decimal},
    {"read_decimal", true, read_decimal}, {"amount", false, print_amount}, {"time", false, time_rolls},
};

static void answer(char *line) {
    char *name = strtok(line, " \n"), *next;
    for (size_t i = 0; name && i < sizeof commands / sizeof *commands; i++) {
        if (strcmp(name, commands[i].name) != 0) continue;
        word = commands[i].text ? strtok(NULL, " \n") : name;
        if (!word) exit(3);
        for (count = 0; count < NUMBERS_AT_MOST && (next = strtok(NULL, " \n")); count++)
            number[count] = strtoul(next, NULL, 10);
        commands[i].make();
        return;
    }
    exit(3);
}

int main(void) {
    char *line = NULL;
    size_t room = 0;
    file = room_of(0);
    queue = scullpouch_queue();
    while (getline(&line, &room, stdin) > 0) answer(line);
    free(line);
    free(file);
    free(judged_file);
    return fflush(stdout) != 0;
}
