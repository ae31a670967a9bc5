/* The master file and the notices of a call, and its products. */
#include "glue.h"

#define HEADER 16
#define PRODUCTS 2 /* the kind of a product block */

unsigned glue_begin_morning(FunctionCallInfo fcinfo, glue_morning *morning)
{
    glue_bytes text;

    morning->bad = 0;
    morning->file = glue_bytes_argument(fcinfo, 0);
    morning->judged = scullpouch_judge_file(morning->file.bytes, morning->file.length);
    if (morning->judged.refusal != 0) return morning->judged.refusal;
    text = glue_bytes_argument(fcinfo, 1);
    morning->lists = palloc0(sizeof *morning->lists);
    morning->bad = scullpouch_read_notices_into(morning->lists, text.bytes, text.length);
    return morning->bad != 0 ? 10 : 0;
}

unsigned glue_deliver(glue_morning *morning, scullpouch_id id, scullpouch_delivered *delivered)
{
    return scullpouch_deliver_into(delivered, &morning->judged, morning->file.bytes, morning->file.length,
                                   morning->lists, id);
}

/* Puts the ids of a block's records after those of the blocks before it: how many there are then. */
static size_t add_ids(const uint8_t *block, scullpouch_id *ids, size_t count)
{
    size_t records = block[0] == PRODUCTS ? Min((size_t) (block[2] << 8 | block[3]), SCULLPOUCH_PLACES) : 0;

    for (size_t k = 0; k < records; k++)
        memcpy(ids[count + k].bytes, block + HEADER + SCULLPOUCH_RECORD * k, sizeof ids->bytes);
    return count + records;
}

static bool ids_rise(const scullpouch_id *ids, size_t count)
{
    for (size_t i = 1; i < count; i++)
        if (memcmp(ids[i - 1].bytes, ids[i].bytes, sizeof ids->bytes) >= 0) return false;
    return true;
}

/* Of the file the ids are read here, since the proved call for the product at a place judges the whole file each time.
 * That they are the file's is held to the proved calls: they rise, they are as many as load counts, and of each the
 * caller asks glue_deliver, which has another answer than 9 only for an id of the file. */
size_t glue_ids(const glue_morning *morning, scullpouch_id **ids)
{
    const uint8_t *file = morning->file.bytes;
    size_t length = morning->file.length, count = 0;

    *ids = palloc0(sizeof **ids * (scullpouch_places(length) + 1));
    for (size_t at = 0; at + SCULLPOUCH_BLOCK <= length; at += SCULLPOUCH_BLOCK)
        count = add_ids(file + at, *ids, count);
    if (!ids_rise(*ids, count) || count != scullpouch_load(file, length).counts.records)
        elog(ERROR, "scullpouch: the ids that were read are not those of the file");
    return count;
}
