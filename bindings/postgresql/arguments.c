/* What SQL hands in, as the calls take it. */
#include "glue.h"

#include "utils/builtins.h"
#include "utils/date.h"
#include "utils/numeric.h"

#define ID_LENGTH 4
#define LAST_DAY 36524 /* 31 December 2099 */
#define PARTS 10000    /* of the currency, in a price */

/* Only the beginning of a long value is fetched: a gigabyte takes no memory here. */
glue_bytes glue_bytes_argument(FunctionCallInfo fcinfo, int n)
{
    struct varlena *value = PG_DETOAST_DATUM_SLICE(PG_GETARG_DATUM(n), 0, SCULLPOUCH_FILE_AT_MOST + 1);
    glue_bytes bytes = {(const uint8_t *) VARDATA_ANY(value), VARSIZE_ANY_EXHDR(value)};

    return bytes;
}

/* A text of no or more than four bytes gets the id of spaces, which no file has (9). */
scullpouch_id glue_id_argument(FunctionCallInfo fcinfo, int n)
{
    struct varlena *value = PG_DETOAST_DATUM_SLICE(PG_GETARG_DATUM(n), 0, ID_LENGTH + 1);
    size_t length = VARSIZE_ANY_EXHDR(value);
    scullpouch_id id = {{' ', ' ', ' ', ' '}};

    if (length <= ID_LENGTH) memcpy(id.bytes, VARDATA_ANY(value), length);
    return id;
}

/* Dates before 2000 and after 2099 and the infinite ones get a day that no file covers (11). */
uint16_t glue_day_argument(FunctionCallInfo fcinfo, int n)
{
    DateADT day = PG_GETARG_DATEADT(n);

    return day >= 0 && day <= LAST_DAY ? (uint16_t) day : UINT16_MAX;
}

/* A number that is negative or has more than 32 bits gets one that is out of the range of every question (22). */
uint32_t glue_count_argument(FunctionCallInfo fcinfo, int n)
{
    int64 number = PG_GETARG_INT64(n);

    return number >= 0 && number < (int64) UINT32_MAX ? (uint32_t) number : UINT32_MAX;
}

static bool numeric_in_order(Datum low, Datum high)
{
    return DatumGetInt32(DirectFunctionCall2(numeric_cmp, low, high)) <= 0;
}

static Datum numeric_of(int64 number)
{
    return DirectFunctionCall1(int8_numeric, Int64GetDatum(number));
}

/* A price in 1/10,000. One that is no whole number of them, negative, too large, NaN or infinite gets a number that is
 * out of the range of every question (19, 22). NaN is above every number here. */
uint32_t glue_price_argument(FunctionCallInfo fcinfo, int n)
{
    Datum price = PG_GETARG_DATUM(n), parts, whole;

    if (!numeric_in_order(numeric_of(0), price) || !numeric_in_order(price, numeric_of(UINT32_MAX / PARTS)))
        return UINT32_MAX;
    parts = DirectFunctionCall2(numeric_mul, price, numeric_of(PARTS));
    whole = DirectFunctionCall2(numeric_trunc, parts, Int32GetDatum(0));
    if (!numeric_in_order(parts, whole)) return UINT32_MAX;
    return (uint32_t) DatumGetInt64(DirectFunctionCall1(numeric_int8, whole));
}
