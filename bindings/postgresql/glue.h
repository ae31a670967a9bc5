/* What the files of this module share. The module is not proved: it hands what SQL gives to the proved calls of
 * scullpouch.h, and their answers to SQL. A date of PostgreSQL and a day of the calls are the same number, the days
 * since 1 January 2000. */
#ifndef SCULLPOUCH_GLUE_H
#define SCULLPOUCH_GLUE_H

#include "postgres.h"

#include "access/htup_details.h"
#include "fmgr.h"
#include "funcapi.h"
#include "miscadmin.h"
#if PG_VERSION_NUM >= 160000
#include "varatt.h"
#endif

#include <scullpouch.h>

/* Names of this module alone. */
#pragma GCC visibility push(hidden)

/* ---- What SQL hands in (arguments.c). Nothing is cut: what no call takes becomes a number that it refuses ---- */

/* The bytes of a bytea or text, at most one more than a file or a text of notices may have: the answer is the same for
 * every longer one. */
typedef struct {
    const uint8_t *bytes;
    size_t length;
} glue_bytes;

extern glue_bytes glue_bytes_argument(FunctionCallInfo fcinfo, int n);
extern scullpouch_id glue_id_argument(FunctionCallInfo fcinfo, int n);
extern uint16_t glue_day_argument(FunctionCallInfo fcinfo, int n);
extern uint32_t glue_count_argument(FunctionCallInfo fcinfo, int n);
extern uint32_t glue_price_argument(FunctionCallInfo fcinfo, int n);

/* ---- Refusals (refusals.c) ---- */

/* An ERROR where there is a refusal; returns with 0. */
extern void glue_refuse(unsigned refusal);
/* The same, where line is that of a bad notice, or 0. */
extern void glue_refuse_notices(unsigned refusal, uint32_t line);

/* ---- Rows (rows.c) ---- */

/* The name of a maturity as `deliver` prints it. */
typedef struct {
    char text[16];
} glue_maturity;

extern ReturnSetInfo *glue_begin_rows(FunctionCallInfo fcinfo);
extern void glue_put_row(ReturnSetInfo *rows, Datum *values);
extern Datum glue_text(const uint8_t *bytes, size_t length);
extern Datum glue_numeric(const char *digits);
extern size_t glue_name_maturities(const scullpouch_table *table, glue_maturity *names);
extern void glue_put_table(ReturnSetInfo *rows, const scullpouch_table *table);
extern void glue_put_product(ReturnSetInfo *rows, const scullpouch_product *product);
extern void glue_put_reject(ReturnSetInfo *rows, const scullpouch_line *line);

/* ---- The master file and the notices of a call (mornings.c) ---- */

typedef struct {
    glue_bytes file;
    scullpouch_file_calendar judged;
    scullpouch_notices_lists *lists;
    uint32_t bad; /* the number of the first bad line of the notices, or 0 */
} glue_morning;

/* The arguments 0, a master file, and 1, a text of notices: the file's refusal, 10 where a notice's line is bad. */
extern unsigned glue_begin_morning(FunctionCallInfo fcinfo, glue_morning *morning);
/* A product after the notices: its refusal as `query` has it. */
extern unsigned glue_deliver(glue_morning *morning, scullpouch_id id, scullpouch_delivered *delivered);
/* The ids of all products, in the file's order: how many. */
extern size_t glue_ids(const glue_morning *morning, scullpouch_id **ids);

#pragma GCC visibility pop

#endif
