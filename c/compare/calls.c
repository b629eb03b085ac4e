/* Compiled once for each archive, with its own header file; CALLS names the table. */
#include "calls.h"

#include "gvozdyana.h"

#include <string.h>

/* The first edition. Before 0.4.0 there was no other, and no function was told one. */
#if GVZ_VERSION_MAJOR == 0 && GVZ_VERSION_MINOR < 4
#define BY_FIRST
#else
#define BY_FIRST GVZ_EDITION_FIRST,
#endif

/* From 0.5.0 on the reader is told a tuner, and the repaired places stand in the record; before, they stood in byte 1 of the status. They are put
 * there again, so that the sums of any two versions are of the same. */
#if GVZ_VERSION_MAJOR == 0 && GVZ_VERSION_MINOR < 5
#define FROM_NONE
#define REPAIRED_OF(record) 0u
#else
#define FROM_NONE GVZ_TUNER_NONE,
#define REPAIRED_OF(record) (256u * (uint32_t)(record)[GVZ_RECORD_REPAIRED])
#endif

#define EACH(n, call) \
    uint32_t sum = 0; \
    for (int i = 0; i < (n); i++) { \
        sum += (call); \
    } \
    return sum

/* The status of a frame that is accepted, as all are here, with the repaired places in byte 1. */
static uint32_t read_one(const uint8_t *frame, uint64_t *record)
{
    uint32_t status = gvz_frame_read(BY_FIRST FROM_NONE frame, 26, record, GVZ_FRAME_VALUES);
    return status + REPAIRED_OF(record);
}

static uint32_t frame_read(struct inputs *in)
{
    uint64_t record[GVZ_FRAME_VALUES] = {0};
    EACH(RECORDS, read_one(in->frames[i], record));
}

static uint32_t frame_write(struct inputs *in)
{
    EACH(RECORDS, gvz_frame_write(BY_FIRST in->records[i], GVZ_FRAME_VALUES, in->frames[i], 26));
}

static uint32_t report(struct inputs *in)
{
    double place[3];
    EACH(RECORDS, gvz_report(BY_FIRST in->records[i], GVZ_FRAME_VALUES, place, 3));
}

static uint32_t warned(struct inputs *in)
{
    EACH(RECORDS, gvz_warned(in->records[i], GVZ_FRAME_VALUES, 15));
}

static uint32_t follow(struct inputs *in)
{
    EACH(RECORDS, gvz_follow(BY_FIRST 0, in->frames[i], 26));
}

static uint32_t repair(struct inputs *in)
{
    uint8_t word[26];
    EACH(RECORDS, gvz_repair(in->frames[i], 26, word, 26));
}

static uint32_t header_read(struct inputs *in)
{
    uint64_t record[HEADER_VALUES];
    EACH(HEADERS, gvz_header_read(in->header, 188, record, HEADER_VALUES));
}

static uint32_t header_write(struct inputs *in)
{
    EACH(HEADERS, gvz_header_write(in->header_record, HEADER_VALUES, in->header, 188));
}

static uint32_t lay_in(struct inputs *in)
{
    uint8_t header[188];
    memcpy(header, in->header, 188);
    EACH(HEADERS, gvz_lay_in(BY_FIRST header, 188, in->frames[i], 26));
}

static uint32_t take_out(struct inputs *in)
{
    uint8_t header[188];
    memcpy(header, in->header, 188);
    EACH(HEADERS, gvz_take_out(header, 188));
}

stretch *const CALLS[OPERATIONS] = {
    frame_read, frame_write, report, warned, follow, repair, header_read, header_write, lay_in, take_out,
};
