/* A refusal n is an ERROR with the SQLSTATE SP and n in three digits, the question as DETAIL, and what to do as HINT. A
 * bad line of the notices, which is no question's, is SP100. */
#include "glue.h"

#include "mb/pg_wchar.h"
#include "utils/builtins.h"

PG_FUNCTION_INFO_V1(scullpouch_pg_question);
PG_FUNCTION_INFO_V1(scullpouch_pg_hint);

/* What to do, by the number of the refusal. */
static const char *const hints[] = {
    [1] = "The master file is cut short, too long or empty. Load all of its bytes again.",
    [2] = "A byte of the master file is not the one that was written. Fetch the file again.",
    [3] = "A block of the master file has a wrong header. Fetch the file again, or make it with compose.",
    [4] = "The blocks of the master file are in a wrong order, or a year is missing. Make the file with compose.",
    [5] = "A calendar block marks a weekend, or a day that its year has not. Mend the file's text and run compose.",
    [6] = "The calendar closes a whole week. Mend the file's text and run compose.",
    [7] = "A product of the file has a wrong field. Mend the file's text and run compose.",
    [8] = "The products of the file are not in order, or one stands twice. Mend the file's text and run compose.",
    [9] = "The file has no product of that id. scullpouch_products lists those that it has.",
    [10] = "Mend the line of the notices that scullpouch_bad_notice names.",
    [11] = "The day lies in a year that the file has no calendar for. Take another day, or a file with that year.",
    [12] = "A roll goes back in time. Put the notices in the order of their days.",
    [13] = "The day is over, or is today. A day is closed or opened again before it comes.",
    [14] = "The day is a weekend or closed already. Make the notice a comment if every product refuses it.",
    [15] = "The closure would leave a whole week without trading. Ask the exchange.",
    [16] = "The product lists maturities in years that the file has no calendar for. Get a file with more years.",
    [17] = "The due day lies after the last year of the file. Get a file with more years.",
    [18] = "The product does not list that maturity. scullpouch_delivery lists those that it does.",
    [19] = "A price is 0.0001 to 99999.9999, with at most four digits after the point.",
    [20] = "The price lies between two ticks. scullpouch_products has the tick.",
    [21] = "The product is an option. Cash and measures are those of futures, kinds 0 and 4.",
    [22] = "The final price is 0 to 99999.9999, with at most four digits after the point, and the contracts 1 to "
           "100000.",
    [24] = "A weekly option is opened a week after the file's first day or later. Get a file that starts a year "
           "earlier.",
    [26] = "The day trades, or is a weekend. Only a closed Monday to Friday is opened again.",
    [27] = "With the day open a maturity that has left would come back. Ask the exchange.",
    [28] = "A measure is p for q, both 1 to 1000. Mend the notice.",
    [29] = "The measure would bring the size or the price out of range. Mend the notice.",
};

static const char *hint_of(unsigned refusal)
{
    const char *hint = refusal < lengthof(hints) ? hints[refusal] : NULL;

    return hint ? hint : "";
}

/* The question in the database's encoding. */
static const char *question_of(unsigned refusal)
{
    const char *question = scullpouch_question(refusal);

    return pg_any_to_server(question, (int) strlen(question), PG_UTF8);
}

static int sqlstate_of(unsigned number)
{
    return MAKE_SQLSTATE('S', 'P', '0' + number / 100, '0' + number / 10 % 10, '0' + number % 10);
}

void glue_refuse(unsigned refusal)
{
    if (refusal == 0) return;
    ereport(ERROR, (errcode(sqlstate_of(refusal)), errmsg("scullpouch: refusal %u", refusal),
                    errdetail_internal("%s", question_of(refusal)), errhint("%s", hint_of(refusal))));
}

void glue_refuse_notices(unsigned refusal, uint32_t line)
{
    if (line == 0) {
        glue_refuse(refusal);
        return;
    }
    ereport(ERROR, (errcode(sqlstate_of(100)), errmsg("scullpouch: line %u of the notices is bad", line),
                    errdetail("The line is none of the forms of a notice, or stands where it may not, "
                              "or no line is an opening."),
                    errhint("Mend the line: docs/DELIVERY.md has the forms.")));
}

/* A text, NULL where it is empty. */
static Datum words(FunctionCallInfo fcinfo, const char *text)
{
    if (*text == '\0') PG_RETURN_NULL();
    PG_RETURN_DATUM(CStringGetTextDatum(text));
}

/* scullpouch_question(refusal int), scullpouch_hint(refusal int): NULL for a number that is no refusal. */
Datum scullpouch_pg_question(PG_FUNCTION_ARGS)
{
    return words(fcinfo, question_of((unsigned) PG_GETARG_INT32(0)));
}

Datum scullpouch_pg_hint(PG_FUNCTION_ARGS)
{
    return words(fcinfo, hint_of((unsigned) PG_GETARG_INT32(0)));
}
