/* The functions of SQL. Each stands beside the one that answers with the number of the refusal, 0 for accepted. */
#include "glue.h"

#include "utils/builtins.h"
#include "utils/date.h"
#include "utils/memutils.h"

PG_MODULE_MAGIC;

#define PARTS 10000 /* of the currency, in an amount */

#define FUNCTION(name) PG_FUNCTION_INFO_V1(scullpouch_pg_##name)
FUNCTION(interface);
FUNCTION(load);
FUNCTION(load_refusal);
FUNCTION(products);
FUNCTION(listing);
FUNCTION(listing_refusal);
FUNCTION(delivery);
FUNCTION(delivery_refusal);
FUNCTION(rejects);
FUNCTION(bad_notice);
FUNCTION(due);
FUNCTION(due_refusal);
FUNCTION(tick);
FUNCTION(tick_refusal);
FUNCTION(cash);
FUNCTION(cash_refusal);
FUNCTION(last_trading_day);
FUNCTION(last_trading_day_refusal);

/* A module over an archive of another interface is not loaded. */
void _PG_init(void);

void _PG_init(void)
{
    if (scullpouch_interface() != SCULLPOUCH_INTERFACE)
        elog(ERROR, "scullpouch: the archive has interface %u, the header %u", scullpouch_interface(),
             SCULLPOUCH_INTERFACE);
}

Datum scullpouch_pg_interface(PG_FUNCTION_ARGS)
{
    (void) fcinfo;
    PG_RETURN_INT32((int32) scullpouch_interface());
}

/* ---- The file ---- */

static scullpouch_loaded load(FunctionCallInfo fcinfo)
{
    glue_bytes file = glue_bytes_argument(fcinfo, 0);

    return scullpouch_load(file.bytes, file.length);
}

/* years, records */
Datum scullpouch_pg_load(PG_FUNCTION_ARGS)
{
    scullpouch_loaded loaded = load(fcinfo);
    Datum values[] = {Int32GetDatum(loaded.counts.years), Int32GetDatum(loaded.counts.records)};
    bool nulls[] = {false, false};
    TupleDesc columns;

    glue_refuse(loaded.refusal);
    if (get_call_result_type(fcinfo, NULL, &columns) != TYPEFUNC_COMPOSITE || columns->natts != lengthof(values))
        elog(ERROR, "scullpouch: the function is declared with other columns");
    PG_RETURN_DATUM(HeapTupleGetDatum(heap_form_tuple(BlessTupleDesc(columns), values, nulls)));
}

Datum scullpouch_pg_load_refusal(PG_FUNCTION_ARGS)
{
    PG_RETURN_INT32(load(fcinfo).refusal);
}

Datum scullpouch_pg_products(PG_FUNCTION_ARGS)
{
    glue_bytes file = glue_bytes_argument(fcinfo, 0);
    ReturnSetInfo *rows;

    glue_refuse(scullpouch_load(file.bytes, file.length).refusal);
    rows = glue_begin_rows(fcinfo);
    for (size_t place = 0; place < scullpouch_places(file.length); place++) {
        scullpouch_product product;

        CHECK_FOR_INTERRUPTS();
        if (scullpouch_product_at_into(&product, file.bytes, file.length, place) == 0) glue_put_product(rows, &product);
    }
    return (Datum) 0;
}

/* ---- A listing made afresh ---- */

static unsigned open_table(FunctionCallInfo fcinfo, scullpouch_table *table)
{
    glue_bytes file = glue_bytes_argument(fcinfo, 0);
    scullpouch_outcome opened =
        scullpouch_open(file.bytes, file.length, glue_id_argument(fcinfo, 1), glue_day_argument(fcinfo, 2));

    *table = opened.table;
    return opened.refusal;
}

Datum scullpouch_pg_listing(PG_FUNCTION_ARGS)
{
    scullpouch_table table;

    glue_refuse(open_table(fcinfo, &table));
    glue_put_table(glue_begin_rows(fcinfo), &table);
    return (Datum) 0;
}

Datum scullpouch_pg_listing_refusal(PG_FUNCTION_ARGS)
{
    scullpouch_table table;

    PG_RETURN_INT32((int32) open_table(fcinfo, &table));
}

/* ---- A delivery ---- */

static void begin_morning(FunctionCallInfo fcinfo, glue_morning *morning)
{
    unsigned refusal = glue_begin_morning(fcinfo, morning);

    glue_refuse_notices(refusal, morning->bad);
}

/* A product of the file after the notices: the refusal of its opening. */
static unsigned deliver_listed(glue_morning *morning, scullpouch_id id, scullpouch_delivered *delivered)
{
    unsigned refusal;

    CHECK_FOR_INTERRUPTS();
    refusal = glue_deliver(morning, id, delivered);
    if (refusal == 9) elog(ERROR, "scullpouch: an id that is not in the file");
    return refusal;
}

/* Puts the rows of every product, in the file's order. What is allocated for one product goes after it. */
static void put_products(ReturnSetInfo *rows, glue_morning *morning,
                         void (*put)(ReturnSetInfo *rows, glue_morning *morning, scullpouch_id id))
{
    scullpouch_id *ids;
    size_t count = glue_ids(morning, &ids);
    MemoryContext one = AllocSetContextCreate(CurrentMemoryContext, "scullpouch product", ALLOCSET_SMALL_SIZES);

    for (size_t i = 0; i < count; i++) {
        MemoryContext all = MemoryContextSwitchTo(one);

        put(rows, morning, ids[i]);
        MemoryContextSwitchTo(all);
        MemoryContextReset(one);
    }
    MemoryContextDelete(one);
}

static void put_delivered(ReturnSetInfo *rows, glue_morning *morning, scullpouch_id id)
{
    scullpouch_delivered delivered;

    if (deliver_listed(morning, id, &delivered) == 0) glue_put_table(rows, &delivered.table);
}

Datum scullpouch_pg_delivery(PG_FUNCTION_ARGS)
{
    glue_morning morning;

    begin_morning(fcinfo, &morning);
    put_products(glue_begin_rows(fcinfo), &morning, put_delivered);
    return (Datum) 0;
}

Datum scullpouch_pg_delivery_refusal(PG_FUNCTION_ARGS)
{
    glue_morning morning;

    PG_RETURN_INT32((int32) glue_begin_morning(fcinfo, &morning));
}

/* The refused calls of one product: its opening alone, or each notice. */
static void put_refused_calls(ReturnSetInfo *rows, glue_morning *morning, scullpouch_id id)
{
    scullpouch_notices_lists *lists = morning->lists;
    scullpouch_delivered delivered;
    unsigned refusal = deliver_listed(morning, id, &delivered);

    for (uint32_t i = 0; i <= lists->said.count; i++) {
        scullpouch_line line =
            scullpouch_refused_call(id, lists->said, (uint8_t) refusal, lists->calls, SCULLPOUCH_CALLS,
                                    lists->refusals, SCULLPOUCH_NOTICES, i);
        glue_put_reject(rows, &line);
    }
}

/* The measures of ids that are not in the file. */
static void put_unknown_measures(ReturnSetInfo *rows, glue_morning *morning)
{
    scullpouch_notices_lists *lists = morning->lists;

    for (uint32_t i = 0; i < lists->said.count; i++) {
        scullpouch_line line =
            scullpouch_unknown_measure(morning->file.bytes, morning->file.length, lists->calls, SCULLPOUCH_CALLS,
                                       lists->ids, SCULLPOUCH_NOTICE_IDS, i);
        CHECK_FOR_INTERRUPTS();
        glue_put_reject(rows, &line);
    }
}

Datum scullpouch_pg_rejects(PG_FUNCTION_ARGS)
{
    glue_morning morning;
    ReturnSetInfo *rows;

    begin_morning(fcinfo, &morning);
    rows = glue_begin_rows(fcinfo);
    put_products(rows, &morning, put_refused_calls);
    put_unknown_measures(rows, &morning);
    return (Datum) 0;
}

/* The number of the first bad line of a text of notices, 0 where none is. */
Datum scullpouch_pg_bad_notice(PG_FUNCTION_ARGS)
{
    glue_bytes text = glue_bytes_argument(fcinfo, 0);
    scullpouch_notices_lists *lists = palloc0(sizeof *lists);

    PG_RETURN_INT32((int32) scullpouch_read_notices_into(lists, text.bytes, text.length));
}

/* ---- Questions to the table of one product after the notices ---- */

static unsigned table_of(FunctionCallInfo fcinfo, glue_morning *morning, scullpouch_table *table)
{
    scullpouch_delivered delivered;
    unsigned refusal = glue_begin_morning(fcinfo, morning);

    if (refusal == 0) refusal = glue_deliver(morning, glue_id_argument(fcinfo, 2), &delivered);
    if (refusal == 0) *table = delivered.table;
    return refusal;
}

static unsigned due(FunctionCallInfo fcinfo, glue_morning *morning, scullpouch_day_reply *reply)
{
    scullpouch_table table;
    unsigned refusal = table_of(fcinfo, morning, &table);

    if (refusal != 0) return refusal;
    *reply = scullpouch_due(table, glue_day_argument(fcinfo, 3));
    return reply->refusal;
}

Datum scullpouch_pg_due(PG_FUNCTION_ARGS)
{
    glue_morning morning;
    scullpouch_day_reply reply;
    unsigned refusal = due(fcinfo, &morning, &reply);

    glue_refuse_notices(refusal, morning.bad);
    PG_RETURN_DATEADT(reply.day);
}

Datum scullpouch_pg_due_refusal(PG_FUNCTION_ARGS)
{
    glue_morning morning;
    scullpouch_day_reply reply;

    PG_RETURN_INT32((int32) due(fcinfo, &morning, &reply));
}

static unsigned tick(FunctionCallInfo fcinfo, glue_morning *morning)
{
    scullpouch_table table;
    unsigned refusal = table_of(fcinfo, morning, &table);

    return refusal != 0 ? refusal : scullpouch_tick(table, glue_price_argument(fcinfo, 3));
}

Datum scullpouch_pg_tick(PG_FUNCTION_ARGS)
{
    glue_morning morning;
    unsigned refusal = tick(fcinfo, &morning);

    glue_refuse_notices(refusal, morning.bad);
    PG_RETURN_BOOL(true);
}

Datum scullpouch_pg_tick_refusal(PG_FUNCTION_ARGS)
{
    glue_morning morning;

    PG_RETURN_INT32((int32) tick(fcinfo, &morning));
}

static unsigned cash(FunctionCallInfo fcinfo, glue_morning *morning, scullpouch_amount *amount)
{
    scullpouch_cash_reply reply;
    scullpouch_table table;
    unsigned refusal = table_of(fcinfo, morning, &table);

    if (refusal != 0) return refusal;
    reply = scullpouch_cash(table, glue_count_argument(fcinfo, 3), glue_price_argument(fcinfo, 4),
                            glue_price_argument(fcinfo, 5));
    *amount = reply.cash;
    return reply.refusal;
}

/* Eight digits after the point, as `query` prints them. */
Datum scullpouch_pg_cash(PG_FUNCTION_ARGS)
{
    glue_morning morning;
    scullpouch_amount amount;
    unsigned refusal = cash(fcinfo, &morning, &amount);

    glue_refuse_notices(refusal, morning.bad);
    PG_RETURN_DATUM(glue_numeric(psprintf("%s" UINT64_FORMAT ".%04u%04u", amount.negative ? "-" : "",
                                          (uint64) (amount.amount / PARTS), (unsigned) (amount.amount % PARTS),
                                          (unsigned) amount.rest)));
}

Datum scullpouch_pg_cash_refusal(PG_FUNCTION_ARGS)
{
    glue_morning morning;
    scullpouch_amount amount;

    PG_RETURN_INT32((int32) cash(fcinfo, &morning, &amount));
}

/* The key of a maturity that is named as in the table's rows; else one that no table lists (18). */
static uint16_t key_argument(FunctionCallInfo fcinfo, int n, const scullpouch_table *table)
{
    glue_maturity names[SCULLPOUCH_PLACES];
    size_t count = glue_name_maturities(table, names);
    glue_bytes name = glue_bytes_argument(fcinfo, n);

    for (size_t i = 0; i < count; i++)
        if (strlen(names[i].text) == name.length && memcmp(names[i].text, name.bytes, name.length) == 0)
            return table->maturities[i].key;
    return UINT16_MAX;
}

static unsigned last_trading_day(FunctionCallInfo fcinfo, glue_morning *morning, scullpouch_last_day_reply *reply)
{
    scullpouch_table table;
    unsigned refusal = table_of(fcinfo, morning, &table);

    if (refusal != 0) return refusal;
    *reply = scullpouch_last_trading_day(table, key_argument(fcinfo, 3, &table));
    return reply->refusal;
}

Datum scullpouch_pg_last_trading_day(PG_FUNCTION_ARGS)
{
    glue_morning morning;
    scullpouch_last_day_reply reply;
    unsigned refusal = last_trading_day(fcinfo, &morning, &reply);

    glue_refuse_notices(refusal, morning.bad);
    PG_RETURN_DATEADT(reply.day);
}

Datum scullpouch_pg_last_trading_day_refusal(PG_FUNCTION_ARGS)
{
    glue_morning morning;
    scullpouch_last_day_reply reply;

    PG_RETURN_INT32((int32) last_trading_day(fcinfo, &morning, &reply));
}
