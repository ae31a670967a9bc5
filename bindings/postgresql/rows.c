/* The answers of the calls as rows. */
#include "glue.h"

#include "utils/builtins.h"
#include "utils/date.h"
#include "utils/numeric.h"

#define PARTS 10000
#define COLUMNS_AT_MOST 8

/* Rows are put into a store that PostgreSQL writes to disk where it is large. */
ReturnSetInfo *glue_begin_rows(FunctionCallInfo fcinfo)
{
    ReturnSetInfo *rows = (ReturnSetInfo *) fcinfo->resultinfo;
    MemoryContext before;
    TupleDesc columns;

    if (rows == NULL || !IsA(rows, ReturnSetInfo) || !(rows->allowedModes & SFRM_Materialize))
        ereport(ERROR, (errcode(ERRCODE_FEATURE_NOT_SUPPORTED), errmsg("scullpouch: a set of rows is not taken here")));
    before = MemoryContextSwitchTo(rows->econtext->ecxt_per_query_memory);
    if (get_call_result_type(fcinfo, NULL, &columns) != TYPEFUNC_COMPOSITE || columns->natts > COLUMNS_AT_MOST)
        elog(ERROR, "scullpouch: the function is declared with other columns");
    rows->returnMode = SFRM_Materialize;
    rows->setDesc = BlessTupleDesc(columns);
    rows->setResult = tuplestore_begin_heap(rows->allowedModes & SFRM_Materialize_Random, false, work_mem);
    MemoryContextSwitchTo(before);
    return rows;
}

void glue_put_row(ReturnSetInfo *rows, Datum *values)
{
    bool nulls[COLUMNS_AT_MOST] = {false};

    tuplestore_putvalues(rows->setResult, rows->setDesc, values, nulls);
}

/* Bytes without the spaces at their end. */
Datum glue_text(const uint8_t *bytes, size_t length)
{
    while (length > 0 && bytes[length - 1] == ' ') length--;
    return PointerGetDatum(cstring_to_text_with_len((const char *) bytes, (int) length));
}

Datum glue_numeric(const char *digits)
{
    return DirectFunctionCall3(numeric_in, CStringGetDatum(digits), ObjectIdGetDatum(InvalidOid), Int32GetDatum(-1));
}

static Datum parts(uint32_t number)
{
    return glue_numeric(psprintf("%u.%04u", number / PARTS, number % PARTS));
}

/* The third field of each of the table's rows, in their order, which is that of its maturities: how many. */
size_t glue_name_maturities(const scullpouch_table *table, glue_maturity *names)
{
    char text[SCULLPOUCH_TABLE_TEXT + 1] = {0};
    scullpouch_text said = scullpouch_rows(*table, (uint8_t *) text, SCULLPOUCH_TABLE_TEXT);
    const char *line = text;
    size_t n = 0;

    glue_refuse(said.refusal);
    while (n < SCULLPOUCH_PLACES && line && sscanf(line, "%*[^,],%*[^,],%15[^,]", names[n].text) == 1) {
        line = strchr(line, '\n');
        if (line) line++;
        n++;
    }
    if (n != scullpouch_listed(table)) elog(ERROR, "scullpouch: a table whose rows are others than its maturities");
    return n;
}

/* product, number, maturity, last_trading_day, days_back */
void glue_put_table(ReturnSetInfo *rows, const scullpouch_table *table)
{
    glue_maturity names[SCULLPOUCH_PLACES];
    size_t count = glue_name_maturities(table, names);

    for (size_t i = 0; i < count; i++) {
        const scullpouch_maturity *m = &table->maturities[i];
        Datum values[] = {glue_text(table->product.id, sizeof table->product.id), Int32GetDatum(m->number),
                          CStringGetTextDatum(names[i].text), DateADTGetDatum(m->day), Int32GetDatum(m->back)};

        glue_put_row(rows, values);
    }
}

/* product, product_group, market, kind, size, tick, currency */
void glue_put_product(ReturnSetInfo *rows, const scullpouch_product *p)
{
    Datum values[] = {glue_text(p->id, sizeof p->id), glue_text(p->group, sizeof p->group),
                      glue_text(p->market, sizeof p->market), Int32GetDatum(p->kind), parts(p->size), parts(p->tick),
                      glue_text(p->currency, sizeof p->currency)};

    glue_put_row(rows, values);
}

/* line, refusal, product, of a line `notices.txt:K: NO n ID`; nothing of an empty one. */
void glue_put_reject(ReturnSetInfo *rows, const scullpouch_line *line)
{
    char text[SCULLPOUCH_LINE + 1] = {0}, id[SCULLPOUCH_LINE];
    unsigned place, refusal;
    Datum values[3];

    if (line->length == 0) return;
    memcpy(text, line->bytes, Min(line->length, SCULLPOUCH_LINE));
    if (sscanf(text, "notices.txt:%u: NO %u %4s", &place, &refusal, id) != 3)
        elog(ERROR, "scullpouch: a refused call whose line is of another form");
    values[0] = Int32GetDatum(place);
    values[1] = Int32GetDatum(refusal);
    values[2] = CStringGetTextDatum(id);
    glue_put_row(rows, values);
}
