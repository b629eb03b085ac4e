/* Reads one frame from standard input and says what it warns of: the areas by number, the place, or the region. The frame is judged by the first
 * edition, or with the argument area-safety by that one. */
#include <inttypes.h>
#include <stdio.h>
#include <string.h>

#include "gvozdyana.h"

static void print_areas(const uint64_t *record)
{
    printf("areas warned:");
    for (uint64_t area = 0; area < GVZ_AREAS; area++) {
        uint32_t status = gvz_warned(record, GVZ_FRAME_VALUES, area);
        if (GVZ_REFUSAL(status) == GVZ_REFUSAL_NONE && GVZ_WARNED(status)) {
            printf(" %u", (unsigned)area);
        }
    }
    printf("\n");
}

int main(int argc, char **argv)
{
    uint32_t edition = argc > 1 && strcmp(argv[1], "area-safety") == 0 ? GVZ_EDITION_AREA_SAFETY : GVZ_EDITION_FIRST;
    uint8_t frame[GVZ_FRAME_BYTES];
    uint64_t record[GVZ_FRAME_VALUES];
    double place[GVZ_PLACE_VALUES];
    size_t got = fread(frame, 1, sizeof frame, stdin);
    uint32_t status = gvz_frame_read(edition, GVZ_TUNER_NONE, frame, got, record, GVZ_FRAME_VALUES);
    if (GVZ_REFUSAL(status) != GVZ_REFUSAL_NONE) {
        printf("refused %u\n", (unsigned)GVZ_REFUSAL(status));
        return 1;
    }
    printf("identification %u, update %u, %u places repaired, %u synchronising bits differed\n",
        (unsigned)record[GVZ_RECORD_IDENTIFICATION], (unsigned)record[GVZ_RECORD_UPDATE], (unsigned)record[GVZ_RECORD_REPAIRED],
        (unsigned)GVZ_SYNC_BITS(status));
    status = gvz_report(edition, record, GVZ_FRAME_VALUES, place, GVZ_PLACE_VALUES);
    if (GVZ_REFUSAL(status) != GVZ_REFUSAL_NONE) {
        printf("refused %u\n", (unsigned)GVZ_REFUSAL(status));
        return 1;
    }
    switch (GVZ_REPORT_CASE(status)) {
    case GVZ_REPORT_PLACE:
        printf("place: latitude %.1f, longitude %.1f, %.0f km deep\n", place[GVZ_PLACE_LATITUDE], place[GVZ_PLACE_LONGITUDE],
            place[GVZ_PLACE_DEPTH]);
        break;
    case GVZ_REPORT_CANCELLATION:
        printf("cancellation of warning %u\n", (unsigned)record[GVZ_RECORD_NUMBER]);
        break;
    case GVZ_REPORT_AREAS_ONLY:
        print_areas(record);
        break;
    case GVZ_REPORT_AREA_SAFETY:
        printf("area safety information for region 0x%015" PRIx64 "\n", record[GVZ_RECORD_REGION]);
        break;
    case GVZ_REPORT_NOTHING:
        printf("no information from broadcaster %u\n", (unsigned)record[GVZ_RECORD_BROADCASTER]);
        break;
    }
    return 0;
}
