/* The functions of one archive, each over 500 records or frames, or 100 headers, at a stretch. */
#ifndef CALLS_H
#define CALLS_H

#include <stdint.h>

/* VALUES is as many as any version's record has; each takes its first GVZ_FRAME_VALUES. */
enum { RECORDS = 500, HEADERS = 100, VALUES = 21, HEADER_VALUES = 145 };

struct inputs {
    uint64_t records[RECORDS][VALUES];
    uint8_t frames[RECORDS][26];
    uint64_t header_record[HEADER_VALUES];
    uint8_t header[188];
};

/* A stretch of calls. The sum of the statuses, so that no call is left out; a frame's repaired places are summed too, wherever the version has them. */
typedef uint32_t stretch(struct inputs *);

enum operation { READ, WRITE, REPORT, WARNED, FOLLOW, REPAIR, HEADER_READ, HEADER_WRITE, LAY_IN, TAKE_OUT, OPERATIONS };

extern stretch *const old_calls[OPERATIONS];
extern stretch *const new_calls[OPERATIONS];

#endif
