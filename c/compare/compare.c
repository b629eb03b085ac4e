/* Times two archives of the library in one run: for each function, and for frames by each body and by a mix of them, the time of the new
 * archive over that of the old one. The two take turns, and the middle stretch of each counts. The argument is the number of stretches. */
#define _POSIX_C_SOURCE 199309L
#include "calls.h"

#include <stdio.h>
#include <stdlib.h>
#include <string.h>
#include <time.h>

enum { AREAS, PLACE, CANCELLATION, NO_INFORMATION, MIX, BODIES, MOST = 10000 };

static uint64_t state = 1;

/* A number below n, by a generator of pseudorandom numbers. */
static uint64_t below(uint64_t n)
{
    state = state * 6364136223846793005u + 1442695040888963407u;
    return (state >> 8) % n;
}

/* A legal record, by its fields in their order; it came from no tuner, and no place of it was repaired. */
static void make_record(int body, uint64_t *r)
{
    memset(r, 0, VALUES * sizeof *r);
    r[0] = below(2);
    r[1] = below(2);
    if (body == NO_INFORMATION) {
        r[2] = 7;
        r[17] = below(2048);
        return;
    }
    r[2] = below(4);
    r[3] = below(4);
    r[4] = below(1u << 31);
    if (body == AREAS) {
        r[6] = below(1ull << 56);
        return;
    }
    r[5] = 1;
    r[7] = below(2);
    r[8] = below(2);
    r[9] = below(512);
    if (body == CANCELLATION) {
        r[10] = 1;
        return;
    }
    r[11] = below(2);
    r[12] = below(901);
    r[13] = below(2);
    r[14] = below(1801);
    r[15] = below(1024);
    r[16] = below(1024);
}

/* Records and their frames, with so many places of B17 to B203 hit in each, and a header. */
static void make_inputs(int body, int hits, struct inputs *in)
{
    for (int i = 0; i < RECORDS; i++) {
        make_record(body == MIX ? i % MIX : body, in->records[i]);
    }
    uint32_t refused = old_calls[WRITE](in);
    memset(in->header_record, 0, sizeof in->header_record);
    in->header_record[0] = 0x47000000;
    in->header_record[4] = 1;
    refused += old_calls[HEADER_WRITE](in);
    if (refused != 0) {
        fprintf(stderr, "compare: an input is refused\n");
        exit(1);
    }
    for (int i = 0; i < RECORDS; i++) {
        unsigned first = 17 + (unsigned)below(187 - 13 * 4);
        for (int j = 0; j < hits; j++) {
            unsigned k = first + 13 * (unsigned)j;
            in->frames[i][k / 8] ^= (uint8_t)(0x80 >> k % 8);
        }
    }
}

static double nanoseconds(stretch *calls, struct inputs *in, uint32_t *sum)
{
    struct timespec start, end;
    clock_gettime(CLOCK_MONOTONIC, &start);
    *sum = calls(in);
    clock_gettime(CLOCK_MONOTONIC, &end);
    return (double)(end.tv_sec - start.tv_sec) * 1e9 + (double)(end.tv_nsec - start.tv_nsec);
}

static int by_size(const void *a, const void *b)
{
    double x = *(const double *)a, y = *(const double *)b;
    return (x > y) - (x < y);
}

/* The new archive's time over the old one's. The sums of the statuses must be the same; what is left in the buffers is not compared here. */
static double ratio(enum operation operation, struct inputs *in, int stretches)
{
    static double times[2][MOST];
    stretch *const calls[2] = {old_calls[operation], new_calls[operation]};
    for (int i = 0; i < stretches; i++) {
        uint32_t sums[2];
        for (int j = 0; j < 2; j++) {
            int which = (i + j) % 2;
            times[which][i] = nanoseconds(calls[which], in, &sums[which]);
        }
        if (sums[0] != sums[1]) {
            fprintf(stderr, "compare: the statuses differ\n");
            exit(1);
        }
    }
    for (int j = 0; j < 2; j++) {
        qsort(times[j], (size_t)stretches, sizeof(double), by_size);
    }
    return times[1][stretches / 2] / times[0][stretches / 2];
}

static void row(const char *name, enum operation operation, int hits, int stretches)
{
    static struct inputs in;
    printf("%-24s", name);
    for (int body = 0; body < BODIES; body++) {
        make_inputs(body, hits, &in);
        printf(" %14.2f", ratio(operation, &in, stretches));
    }
    printf("\n");
}

int main(int argc, char **argv)
{
    int stretches = argc > 1 ? atoi(argv[1]) : 1501;
    if (stretches < 1 || stretches > MOST) {
        fprintf(stderr, "compare: 1 to %d stretches\n", MOST);
        return 1;
    }
    printf("%-24s %14s %14s %14s %14s %14s\n", "new / old", "areas", "place", "cancellation", "no information", "mix");
    row("frame read, no hit", READ, 0, stretches);
    row("frame read, 4 hits", READ, 4, stretches);
    row("frame write", WRITE, 0, stretches);
    row("report", REPORT, 0, stretches);
    row("warned", WARNED, 0, stretches);
    row("follow", FOLLOW, 0, stretches);
    row("repair, no hit", REPAIR, 0, stretches);
    row("repair, 4 hits", REPAIR, 4, stretches);
    row("lay in", LAY_IN, 0, stretches);
    row("take out", TAKE_OUT, 0, stretches);
    row("header read", HEADER_READ, 0, stretches);
    row("header write", HEADER_WRITE, 0, stretches);
    return 0;
}
