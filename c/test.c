/* Calls every function that include/gvozdyana.h declares, on what is accepted and on what is refused, and compares the answers and the
 * buffers. What the editions answer alike is asked by each of them, and by numbers that no edition has; every frame is read as each tuner's, and as
 * that of numbers that no tuner has. Exits with 0 only if all are as expected. */
#include "gvozdyana.h"

#include <stdio.h>
#include <string.h>

/* Frames as they stand on the air: document 01's example 11, with one hit, with B1 to B3 damaged and eight hits, with the generator's nine
 * places; a place, a cancellation, no information, area safety information, its test hit in eight places; and one refusal each. */
static const char ALL_AREAS[] = "1af7000000000000000000000000000000000000000000000000";
static const char ONE_HIT[] = "1af7000000000000000000000000000000000000000000000010";
static const char THREE_SYNC_BITS[] = "6af7000000000000000000000000004308c01100000000000000";
static const char NINE_HITS[] = "1af7000000000000000000000000004308c01110000000000000";
static const char PLACE[] = "9af70a0000000ba58ac9aea147094cf61e307cb8e3e2d6661040";
static const char CANCELLATION[] = "1af70000000001001fffffffffffe43d0ff2f235a3cbf9db1c70";
static const char NO_INFORMATION[] = "1af77fffffffffffffffffffffff698fbee80b006e0824cd3d10";
static const char AREA_SAFETY[] = "1af705123456789abcdef01234563dee663d35a7819a35d06b00";
static const char AREA_SAFETY_TEST[] = "1af706000047d0f1123446789abdb994d4f1064d5410673bf7c0";
static const char FILLER_SET[] = "1af7000000000000000000000000000000000000000000000001";
static const char NO_PATTERN[] = "0000000000000000000000000000000000000000000000000000";
static const char CLEAN_WRONG_CRC[] = "1af7000000000000000000000000004308c01110114014404110";
static const char IDENTIFICATION_4[] = "1af7640000000000000000000000dd6ba7e8239c630ae7c28140";
static const char UPDATE_2_OF_7[] = "1af777ffffffff00bfffffffffff3e583d134b51523b875a54e0";
static const char B111_IS_0[] = "1af7000000000100070a0000000071fee4dcd9339873b730f150";
static const char LATITUDE_901[] = "1af70a0000000ba58f0baea14709a335ac25ca42ddbf9efe2c30";

/* The editions, and numbers that are taken for the first; the last two are area safety in their low bits alone. */
static const uint32_t EDITIONS[] = {GVZ_EDITION_FIRST, GVZ_EDITION_AREA_SAFETY, 2, 0xFFFFFFFF, 257, 65537};
enum { NUMBERS = sizeof EDITIONS / sizeof *EDITIONS };

/* What the reader is told, and the tuner that the record then holds: numbers that no tuner has are taken for none, also those that are one in
 * their low bits. */
static const struct {
    uint32_t told;
    uint64_t held;
} TUNERS[] = {
    {GVZ_TUNER_NONE, 0}, {GVZ_TUNER_MAIN, 1}, {GVZ_TUNER_SPARE, 2}, {3, 0}, {255, 0}, {257, 0}, {65538, 0}, {UINT32_MAX, 0},
};
enum { TOLD = sizeof TUNERS / sizeof *TUNERS };

/* What a record may hold as tuner and as repaired places where no rule looks at them. */
static const uint64_t ANY[] = {0, 1, 2, 3, 8, 9, 77, 255, 256, UINT64_MAX};
enum { ANYTHING = sizeof ANY / sizeof *ANY };

/* The lengths beside GVZ_FRAME_VALUES; the first two are those of earlier records. */
static const size_t OTHER_LENGTHS[] = {18, 19, 20, 22};
enum { LENGTHS = sizeof OTHER_LENGTHS / sizeof *OTHER_LENGTHS };

static int failures = 0;

static void expect(const char *what, int holds)
{
    if (!holds) {
        printf("FAILED: %s\n", what);
        failures++;
    }
}

/* The status and the buffer are as expected. */
static void expect_left(const char *what, uint32_t status, uint32_t expected_status, const void *left, const void *expected, size_t size)
{
    if (status != expected_status) {
        printf("status %lu, not %lu\n", (unsigned long)status, (unsigned long)expected_status);
    }
    expect(what, status == expected_status && memcmp(left, expected, size) == 0);
}

/* The frame with these digits. */
static const uint8_t *frame_of(const char *digits)
{
    static uint8_t frame[GVZ_FRAME_BYTES];
    for (int i = 0; i < GVZ_FRAME_BYTES; i++) {
        unsigned byte = 0;
        sscanf(digits + 2 * i, "%2x", &byte);
        frame[i] = (uint8_t)byte;
    }
    return frame;
}

/* ---- The warning frame */

/* The powers of x in the code's generator. */
static const unsigned powers[18] = {82, 77, 76, 71, 67, 66, 56, 52, 48, 40, 36, 34, 24, 22, 18, 10, 4, 0};

/* Turns Bk over. */
static void turn_over(uint8_t *bytes, unsigned k)
{
    bytes[k / 8] ^= (uint8_t)(0x80 >> k % 8);
}

/* A frame of zeros with the generator's places from number `first` on to before number `end` set: x^p stands at B(203 - p). */
static void set_places_from(uint8_t *frame, unsigned first, unsigned end)
{
    memset(frame, 0, GVZ_FRAME_BYTES);
    for (unsigned i = first; i < end; i++) {
        turn_over(frame, 203 - powers[i]);
    }
}

/* The same with the first n of its 18 places. */
static void set_places(uint8_t *frame, unsigned n)
{
    set_places_from(frame, 0, n);
}

/* Of 40 bytes that hold 0xA5 the first 26 are left by either engine as `word`, if it is not NULL, and the rest as they were. */
static void expect_repair(const char *what, const uint8_t *frame, size_t frame_len, size_t word_len, uint32_t status, const uint8_t *word)
{
    uint8_t left[40], expected[40];
    char by_register[100];
    snprintf(by_register, sizeof by_register, "%s, by the register", what);
    memset(expected, 0xA5, sizeof expected);
    if (word != NULL) {
        memcpy(expected, word, GVZ_FRAME_BYTES);
    }
    memset(left, 0xA5, sizeof left);
    expect_left(what, gvz_repair(frame, frame_len, left, word_len), status, left, expected, sizeof left);
    memset(left, 0xA5, sizeof left);
    expect_left(by_register, gvz_repair_register(frame, frame_len, left, word_len), status, left, expected, sizeof left);
}

static void test_repair(void)
{
    uint8_t frame[60] = {0}, zeros[GVZ_FRAME_BYTES] = {0}, generator[GVZ_FRAME_BYTES];
    set_places(generator, 18);

    expect_repair("zeros are a code word", zeros, 26, 26, 0, zeros);
    expect_repair("the generator is a code word", generator, 26, 26, 0, generator);
    set_places(frame, 8);
    expect_repair("eight places are repaired to zeros", frame, 26, 26, 8 << 8, zeros);
    set_places(frame, 9);
    expect_repair("nine places are refused, and the word stays", frame, 26, 26, GVZ_REFUSAL_BEYOND_REPAIR, NULL);
    set_places(frame, 10);
    expect_repair("ten places are repaired to the generator", frame, 26, 26, 8 << 8, generator);
    frame[0] = 0xFF;
    frame[1] = 0xFF;
    frame[2] |= 0x80;
    frame[25] |= 0x0F;
    expect_repair("B0 to B16 and the filler are not looked at", frame, 26, 26, 8 << 8, generator);
    for (size_t n = 0; n <= 40; n++) {
        if (n != GVZ_FRAME_BYTES) {
            expect_repair("a frame of another length is refused", frame, n, 26, GVZ_REFUSAL_WRONG_LENGTH, NULL);
            expect_repair("a word of another length is refused", generator, 26, n, GVZ_REFUSAL_WRONG_LENGTH, NULL);
        }
    }
    expect("the parts of a status",
        GVZ_REFUSAL((2u << 16) + (3u << 8) + 4) == 4 && GVZ_REPAIRED((2u << 16) + (3u << 8) + 4) == 3
            && GVZ_SYNC_BITS((2u << 16) + (3u << 8) + 4) == 2);
}

/* Of 40 bytes that hold 0xA5 the first 26 are left by the repair with marks as `word`, if it is not NULL, and the rest as they were. */
static void expect_repair_marked_of(const char *what, const uint8_t *frame, size_t frame_len, const uint8_t *marks, size_t marks_len,
    size_t word_len, uint32_t status, const uint8_t *word)
{
    uint8_t left[40], expected[40];
    memset(left, 0xA5, sizeof left);
    memset(expected, 0xA5, sizeof expected);
    if (word != NULL) {
        memcpy(expected, word, GVZ_FRAME_BYTES);
    }
    expect_left(what, gvz_repair_marked(frame, frame_len, marks, marks_len, left, word_len), status, left, expected, sizeof left);
}

/* The same for 26 bytes each, and again with each bit under the marks turned over, and with all of them: they do not matter. */
static void expect_repair_marked(const char *what, const uint8_t *frame, const uint8_t *marks, uint32_t status, const uint8_t *word)
{
    uint8_t changed[GVZ_FRAME_BYTES], all[GVZ_FRAME_BYTES];
    memcpy(all, frame, sizeof all);
    expect_repair_marked_of(what, frame, 26, marks, 26, 26, status, word);
    for (unsigned k = 0; k < 208; k++) {
        if (marks[k / 8] & 0x80 >> k % 8) {
            memcpy(changed, frame, sizeof changed);
            turn_over(changed, k);
            turn_over(all, k);
            expect_repair_marked_of(what, changed, 26, marks, 26, 26, status, word);
        }
    }
    expect_repair_marked_of(what, all, 26, marks, 26, 26, status, word);
}

/* Marks among the generator's 18 places, of which number 0 is x^82: the zero word and the generator both lie near. */
static void test_repair_marked(void)
{
    uint8_t frame[GVZ_FRAME_BYTES], marks[GVZ_FRAME_BYTES], zeros[GVZ_FRAME_BYTES] = {0}, generator[GVZ_FRAME_BYTES];
    const uint32_t beyond = GVZ_REFUSAL_BEYOND_REPAIR;
    set_places(generator, 18);
    set_places_from(marks, 1, 18);
    expect_repair_marked("17 marks", zeros, marks, 0, zeros);
    set_places(frame, 1);
    expect_repair_marked("17 marks, and the 18th place received 1", frame, marks, 0, generator);
    set_places(marks, 18);
    expect_repair_marked("18 marks on zeros", zeros, marks, beyond, NULL);
    expect_repair_marked("18 marks on the generator", generator, marks, beyond, NULL);
    set_places_from(marks, 2, 18);
    expect_repair_marked("16 marks", zeros, marks, 0, zeros);
    expect_repair_marked("16 marks, and one other place received 1", frame, marks, beyond, NULL);
    set_places(frame, 2);
    expect_repair_marked("16 marks, and both others received 1", frame, marks, 0, generator);
    set_places_from(marks, 3, 18);
    expect_repair_marked("15 marks, and two of three others received 1", frame, marks, 1 << 8, generator);
    set_places(frame, 1);
    expect_repair_marked("15 marks, and one other place received 1", frame, marks, 1 << 8, zeros);
    set_places(frame, 8);
    set_places_from(marks, 8, 9);
    expect_repair_marked("one mark and eight hits", frame, marks, 8 << 8, zeros);
    set_places_from(marks, 8, 10);
    expect_repair_marked("two marks and eight hits", frame, marks, beyond, NULL);
    set_places(frame, 9);
    set_places_from(marks, 9, 10);
    expect_repair_marked("one mark and nine hits: the generator is nearer", frame, marks, 8 << 8, generator);
}

/* Marks that do not count, and no marks: the answers are those without marks. */
static void test_marks_outside(void)
{
    uint8_t frame[GVZ_FRAME_BYTES], generator[GVZ_FRAME_BYTES], none[GVZ_FRAME_BYTES] = {0};
    uint8_t outside[GVZ_FRAME_BYTES] = {[0] = 0xFF, [1] = 0xFF, [2] = 0x80, [25] = 0x0F};
    const uint8_t *const marks[] = {none, outside};
    set_places(generator, 18);
    for (int i = 0; i < 2; i++) {
        expect_repair_marked("marks outside B17 to B203, a code word", generator, marks[i], 0, generator);
        set_places(frame, 8);
        expect_repair_marked("marks outside B17 to B203, eight hits", frame, marks[i], 8 << 8, none);
        set_places(frame, 9);
        expect_repair_marked("marks outside B17 to B203, nine hits", frame, marks[i], GVZ_REFUSAL_BEYOND_REPAIR, NULL);
        set_places(frame, 10);
        expect_repair_marked("marks outside B17 to B203, ten hits", frame, marks[i], 8 << 8, generator);
    }
    for (unsigned k = 0; k < 208; k = k == 16 ? 204 : k + 1) {
        uint8_t more[GVZ_FRAME_BYTES];
        set_places_from(more, 1, 18);
        turn_over(more, k);
        expect_repair_marked("17 marks, and one outside B17 to B203", none, more, 0, none);
    }
}

/* Frames, marks and words of other lengths, also where there are too many marks. */
static void test_marked_lengths(void)
{
    static const uint8_t zeros[40] = {0};
    uint8_t ones[40];
    const uint8_t *const marks[] = {zeros, ones};
    memset(ones, 0xFF, sizeof ones);
    for (int i = 0; i < 2; i++) {
        for (size_t n = 0; n <= 40; n++) {
            if (n != GVZ_FRAME_BYTES) {
                const uint32_t wrong_length = GVZ_REFUSAL_WRONG_LENGTH;
                expect_repair_marked_of("a frame of another length", zeros, n, marks[i], 26, 26, wrong_length, NULL);
                expect_repair_marked_of("marks of another length", zeros, 26, marks[i], n, 26, wrong_length, NULL);
                expect_repair_marked_of("both of another length", zeros, n, marks[i], n, 26, wrong_length, NULL);
                expect_repair_marked_of("a word of another length", zeros, 26, marks[i], 26, n, wrong_length, NULL);
            }
        }
    }
}

/* The record of PLACE, a test: 35.6 south, 139.7 west, 40 km. */
static const uint64_t place_record[GVZ_FRAME_VALUES] = {1, 0, 2, 1, 5, 1, 0, 1, 0, 300, 0, 1, 356, 1, 1397, 40, 900, 0, 0, 0, 0};

/* The record of AREA_SAFETY. */
static const uint64_t safety_record[GVZ_FRAME_VALUES] = {
    [GVZ_RECORD_IDENTIFICATION] = GVZ_IDENTIFICATION_AREA_SAFETY,
    [GVZ_RECORD_TIME] = 0x91A2B3C,
    [GVZ_RECORD_REGION] = 0x9ABCDEF0123456,
};

/* The record with so many repaired places. */
static const uint64_t *repaired(const uint64_t *record, uint64_t places)
{
    static uint64_t changed[GVZ_FRAME_VALUES];
    memcpy(changed, record, sizeof changed);
    changed[GVZ_RECORD_REPAIRED] = places;
    return changed;
}

/* Of 24 values that hold 7 the first 21 are left as `record` with the tuner told, if it is not NULL, and the rest as they were. */
static void expect_frame_read_by(uint32_t edition, const char *what, const char *digits, size_t frame_len, size_t record_len,
    uint32_t status, const uint64_t *record)
{
    for (int t = 0; t < TOLD; t++) {
        uint64_t left[24], expected[24];
        for (int i = 0; i < 24; i++) {
            left[i] = 7;
            expected[i] = record != NULL && i < GVZ_FRAME_VALUES ? record[i] : 7;
        }
        if (record != NULL) {
            expected[GVZ_RECORD_TUNER] = TUNERS[t].held;
        }
        expect_left(what, gvz_frame_read(edition, TUNERS[t].told, frame_of(digits), frame_len, left, record_len), status, left, expected,
            sizeof left);
    }
}

/* The same by every edition. */
static void expect_frame_read(const char *what, const char *digits, size_t frame_len, size_t record_len, uint32_t status,
    const uint64_t *record)
{
    for (int i = 0; i < NUMBERS; i++) {
        expect_frame_read_by(EDITIONS[i], what, digits, frame_len, record_len, status, record);
    }
}

static void test_frame_read(void)
{
    const uint64_t zeros[GVZ_FRAME_VALUES] = {0};
    uint64_t cancellation[GVZ_FRAME_VALUES] = {0}, nothing[GVZ_FRAME_VALUES] = {0}, pattern_1[GVZ_FRAME_VALUES] = {0};
    cancellation[GVZ_RECORD_PAGE] = 1;
    cancellation[GVZ_RECORD_KIND] = 1;
    nothing[GVZ_RECORD_IDENTIFICATION] = 7;
    nothing[GVZ_RECORD_BROADCASTER] = 2047;
    pattern_1[GVZ_RECORD_PATTERN] = 1;

    expect_frame_read("all areas", ALL_AREAS, 26, 21, 0, zeros);
    expect_frame_read("one hit", ONE_HIT, 26, 21, 0, repaired(zeros, 1));
    expect_frame_read("three synchronising bits and eight hits", THREE_SYNC_BITS, 26, 21, 3 << 16, repaired(zeros, 8));
    expect_frame_read("13 bits from pattern 0", "650b000000000000000000000000000000000000000000000000", 26, 21, 3 << 16, pattern_1);
    expect_frame_read("one synchronising bit and nine hits: the number alone", "5af7000000000000000000000000004308c01110000000000000", 26, 21,
        GVZ_REFUSAL_BEYOND_REPAIR, NULL);
    expect_frame_read("four bits from pattern 0", "62f7000000000000000000000000000000000000000000000000", 26, 21, GVZ_REFUSAL_NO_PATTERN, NULL);
    expect_frame_read("four bits from pattern 1", "650f000000000000000000000000000000000000000000000000", 26, 21, GVZ_REFUSAL_NO_PATTERN, NULL);
    expect_frame_read("a cancellation", CANCELLATION, 26, 21, 0, cancellation);
    expect_frame_read("no information", NO_INFORMATION, 26, 21, 0, nothing);
    expect_frame_read("a place", PLACE, 26, 21, 0, place_record);
    expect_frame_read("25 bytes", ALL_AREAS, 25, 21, GVZ_REFUSAL_WRONG_LENGTH, NULL);
    expect_frame_read("filler", FILLER_SET, 26, 21, GVZ_REFUSAL_FILLER_SET, NULL);
    expect_frame_read("no pattern", NO_PATTERN, 26, 21, GVZ_REFUSAL_NO_PATTERN, NULL);
    expect_frame_read("nine hits", NINE_HITS, 26, 21, GVZ_REFUSAL_BEYOND_REPAIR, NULL);
    expect_frame_read("CRC", CLEAN_WRONG_CRC, 26, 21, GVZ_REFUSAL_FRAME_CRC, NULL);
    expect_frame_read("identification 4", IDENTIFICATION_4, 26, 21, GVZ_REFUSAL_IDENTIFICATION, NULL);
    expect_frame_read("update 2 of 7", UPDATE_2_OF_7, 26, 21, GVZ_REFUSAL_START_END_OR_UPDATE, NULL);
    expect_frame_read("B111", B111_IS_0, 26, 21, GVZ_REFUSAL_FIXED_BIT, NULL);
    expect_frame_read("latitude 901", LATITUDE_901, 26, 21, GVZ_REFUSAL_OVER_LIMIT, NULL);
    for (int i = 0; i < LENGTHS; i++) {
        expect_frame_read("a record of another length", ALL_AREAS, 26, OTHER_LENGTHS[i], GVZ_REFUSAL_WRONG_LENGTH, NULL);
    }
}

/* Up to eight places hit and up to three of B1 to B16 turned over: the places stand in the record alone, and the bits in the status alone. */
static void test_damage(void)
{
    static const uint8_t turned_over[] = {0, 0x10, 0x30, 0x70};
    for (unsigned hits = 0; hits <= 8; hits++) {
        for (unsigned differing = 0; differing <= 3; differing++) {
            for (int t = 0; t < TOLD; t++) {
                uint8_t frame[GVZ_FRAME_BYTES];
                uint64_t record[GVZ_FRAME_VALUES], expected[GVZ_FRAME_VALUES] = {0};
                set_places(frame, hits);
                frame[0] = 0x1A ^ turned_over[differing];
                frame[1] = 0xF7;
                expected[GVZ_RECORD_TUNER] = TUNERS[t].held;
                expected[GVZ_RECORD_REPAIRED] = hits;
                uint32_t status = gvz_frame_read(GVZ_EDITION_FIRST, TUNERS[t].told, frame, 26, record, 21);
                expect_left("damage", status, 65536 * differing, record, expected, sizeof record);
                expect("the parts of its status", GVZ_REFUSAL(status) == 0 && GVZ_REPAIRED(status) == 0 && GVZ_SYNC_BITS(status) == differing);
            }
        }
    }
}

/* Area safety information, which the first edition refuses: what its own edition answers. */
static void expect_safety_read(const char *what, const char *digits, uint32_t status, const uint64_t *record)
{
    for (int i = 0; i < NUMBERS; i++) {
        if (EDITIONS[i] == GVZ_EDITION_AREA_SAFETY) {
            expect_frame_read_by(EDITIONS[i], what, digits, 26, 21, status, record);
        } else {
            expect_frame_read_by(EDITIONS[i], what, digits, 26, 21, GVZ_REFUSAL_IDENTIFICATION, NULL);
        }
    }
}

static void test_safety_read(void)
{
    uint64_t test[GVZ_FRAME_VALUES] = {0}, ones[GVZ_FRAME_VALUES] = {0}, highest[GVZ_FRAME_VALUES] = {0};
    test[GVZ_RECORD_IDENTIFICATION] = GVZ_IDENTIFICATION_AREA_SAFETY_TEST;
    test[GVZ_RECORD_UPDATE] = 1;
    test[GVZ_RECORD_TIME] = 1000;
    test[GVZ_RECORD_REGION] = 0xF0123456789ABC;
    ones[GVZ_RECORD_IDENTIFICATION] = GVZ_IDENTIFICATION_AREA_SAFETY_TEST;
    ones[GVZ_RECORD_UPDATE] = 3;
    ones[GVZ_RECORD_TIME] = 0x7FFFFFFF;
    ones[GVZ_RECORD_REGION] = 0x1FFFFFFFFFFFFFF;
    highest[GVZ_RECORD_IDENTIFICATION] = GVZ_IDENTIFICATION_AREA_SAFETY;
    highest[GVZ_RECORD_UPDATE] = 2;
    highest[GVZ_RECORD_REGION] = UINT64_C(1) << 56;

    expect_safety_read("area safety", AREA_SAFETY, 0, safety_record);
    expect_safety_read("its test, eight hits", AREA_SAFETY_TEST, 0, repaired(test, 8));
    expect_safety_read("its test, all ones", "1af71efffffffffffffffffffffffbb60756ba98197b6583d440", 0, ones);
    expect_safety_read("B55 belongs to the region", "1af71500000001000000000000001d6a7918b34f91c2e858c1b0", 0, highest);
    expect_safety_read("start/end 11", "1af77d00000000000000000000004f79f17838e1e22a605242a0", GVZ_REFUSAL_START_END_OR_UPDATE, NULL);
    expect_frame_read("a wrong CRC", "1af70500000000000000000000004f11169683140539b2cc2900", 26, 21, GVZ_REFUSAL_FRAME_CRC, NULL);
}

/* ---- Frames with doubtful marks */

/* t hits and s marks on a frame, from B17 on: the hits first, and under the marks all bits turned over. */
static void damage(uint8_t *frame, uint8_t *marks, unsigned t, unsigned s)
{
    memset(marks, 0, GVZ_FRAME_BYTES);
    for (unsigned k = 17; k < 17 + t + s; k++) {
        turn_over(frame, k);
        if (k >= 17 + t) {
            turn_over(marks, k);
        }
    }
}

/* Read by an edition as every tuner's: of 24 values that hold 7 the first 21 are left as `record` with the tuner told, if it is not NULL. */
static void expect_read_marked_by(uint32_t edition, const char *what, const uint8_t *frame, size_t frame_len, const uint8_t *marks,
    size_t marks_len, size_t record_len, uint32_t status, const uint64_t *record)
{
    for (int t = 0; t < TOLD; t++) {
        uint64_t left[24], expected[24];
        for (int i = 0; i < 24; i++) {
            left[i] = 7;
            expected[i] = record != NULL && i < GVZ_FRAME_VALUES ? record[i] : 7;
        }
        if (record != NULL) {
            expected[GVZ_RECORD_TUNER] = TUNERS[t].held;
        }
        expect_left(what, gvz_frame_read_marked(edition, TUNERS[t].told, frame, frame_len, marks, marks_len, left, record_len), status, left,
            expected, sizeof left);
    }
}

/* Read by every edition and judged: the judgment tells the record's repaired places above the number. */
static void expect_marked(const char *what, const uint8_t *frame, size_t frame_len, const uint8_t *marks, size_t marks_len, uint32_t status,
    const uint64_t *record)
{
    uint32_t places = record != NULL ? (uint32_t)record[GVZ_RECORD_REPAIRED] : 0;
    for (int i = 0; i < NUMBERS; i++) {
        expect_read_marked_by(EDITIONS[i], what, frame, frame_len, marks, marks_len, 21, status, record);
    }
    expect(what, gvz_frame_judge_marked(frame, frame_len, marks, marks_len) == status + (places << 8));
}

/* Every t with as many marks as there may be, and with one more; with up to three of B1 to B16 turned over. */
static void test_marked_damage(void)
{
    static const uint8_t turned_over[] = {0, 0x10, 0x30, 0x70};
    const uint64_t zeros[GVZ_FRAME_VALUES] = {0};
    for (unsigned t = 0; t <= 9; t++) {
        for (unsigned differing = 0; differing <= 3; differing++) {
            uint8_t frame[GVZ_FRAME_BYTES], marks[GVZ_FRAME_BYTES];
            if (t <= 8) {
                memcpy(frame, frame_of(ALL_AREAS), sizeof frame);
                frame[0] ^= turned_over[differing];
                damage(frame, marks, t, 17 - 2 * t);
                expect_marked("2 t + s is 17", frame, 26, marks, 26, differing << 16, repaired(zeros, t));
            }
            memcpy(frame, frame_of(ALL_AREAS), sizeof frame);
            frame[0] ^= turned_over[differing];
            damage(frame, marks, t, 18 - 2 * t);
            expect_marked("2 t + s is 18", frame, 26, marks, 26, GVZ_REFUSAL_BEYOND_REPAIR, NULL);
        }
    }
    uint8_t frame[GVZ_FRAME_BYTES], marks[GVZ_FRAME_BYTES];
    memcpy(frame, frame_of(ALL_AREAS), sizeof frame);
    damage(frame, marks, 3, 11);
    frame[0] ^= 0x20;
    uint32_t status = gvz_frame_judge_marked(frame, 26, marks, 26);
    expect("the parts of its status", GVZ_REFUSAL(status) == 0 && GVZ_REPAIRED(status) == 3 && GVZ_SYNC_BITS(status) == 1);
}

/* Each refusal with 17 marks and with 18: 4 stands between 3 and 5. */
static void test_marked_refusals(void)
{
    static const struct {
        const char *what, *digits;
        uint32_t few, many;
    } frames[] = {
        {"filler, before the marks", FILLER_SET, 2, 2},
        {"no pattern, before the marks", NO_PATTERN, 3, 3},
        {"CRC, after the marks", CLEAN_WRONG_CRC, 5, 4},
        {"identification 4, after the marks", IDENTIFICATION_4, 6, 4},
        {"update 2 of 7, after the marks", UPDATE_2_OF_7, 7, 4},
        {"B111, after the marks", B111_IS_0, 8, 4},
        {"latitude 901, after the marks", LATITUDE_901, 9, 4},
    };
    for (size_t i = 0; i < sizeof frames / sizeof *frames; i++) {
        uint8_t frame[GVZ_FRAME_BYTES + 1] = {0}, marks[GVZ_FRAME_BYTES + 1] = {0};
        memcpy(frame, frame_of(frames[i].digits), GVZ_FRAME_BYTES);
        damage(frame, marks, 0, 17);
        expect_marked(frames[i].what, frame, 26, marks, 26, frames[i].few, NULL);
        memcpy(frame, frame_of(frames[i].digits), GVZ_FRAME_BYTES);
        damage(frame, marks, 0, 18);
        expect_marked(frames[i].what, frame, 26, marks, 26, frames[i].many, NULL);
        for (size_t n = 25; n <= 27; n += 2) {
            expect_marked("a frame of another length", frame, n, marks, 26, GVZ_REFUSAL_WRONG_LENGTH, NULL);
            expect_marked("marks of another length", frame, 26, marks, n, GVZ_REFUSAL_WRONG_LENGTH, NULL);
        }
        expect_marked("marks of no bytes", frame, 26, marks, 0, GVZ_REFUSAL_WRONG_LENGTH, NULL);
    }
}

/* Records of other lengths, marks that do not count, and area safety information, which the judgment refuses. */
static void test_marked_frames(void)
{
    uint8_t frame[GVZ_FRAME_BYTES], marks[GVZ_FRAME_BYTES];
    memcpy(frame, frame_of(PLACE), sizeof frame);
    damage(frame, marks, 2, 13);
    expect_marked("a place", frame, 26, marks, 26, 0, repaired(place_record, 2));
    for (int i = 0; i < LENGTHS; i++) {
        expect_read_marked_by(0, "a record of another length", frame, 26, marks, 26, OTHER_LENGTHS[i], GVZ_REFUSAL_WRONG_LENGTH, NULL);
    }
    marks[0] = marks[1] = 0xFF;
    marks[2] |= 0x80;
    marks[25] |= 0x0F;
    expect_marked("marks outside B17 to B203", frame, 26, marks, 26, 0, repaired(place_record, 2));
    memcpy(frame, frame_of(AREA_SAFETY), sizeof frame);
    damage(frame, marks, 2, 13);
    for (int i = 0; i < NUMBERS; i++) {
        int has = EDITIONS[i] == GVZ_EDITION_AREA_SAFETY;
        expect_read_marked_by(EDITIONS[i], "area safety", frame, 26, marks, 26, 21, has ? 0 : GVZ_REFUSAL_IDENTIFICATION,
            has ? repaired(safety_record, 2) : NULL);
    }
    expect("area safety, judged", gvz_frame_judge_marked(frame, 26, marks, 26) == GVZ_REFUSAL_IDENTIFICATION);
}

/* A record with one field changed, written into 28 bytes that hold 0xA5. */
static void expect_frame_write_by(uint32_t edition, const char *what, const uint64_t *before, int field, uint64_t value, size_t record_len,
    size_t frame_len, uint32_t status, const char *digits)
{
    uint64_t record[24] = {0};
    uint8_t left[28], expected[28];
    memcpy(record, before, GVZ_FRAME_VALUES * sizeof *before);
    record[field] = value;
    memset(left, 0xA5, sizeof left);
    memset(expected, 0xA5, sizeof expected);
    if (digits != NULL) {
        memcpy(expected, frame_of(digits), GVZ_FRAME_BYTES);
    }
    expect_left(what, gvz_frame_write(edition, record, record_len, left, frame_len), status, left, expected, sizeof left);
}

/* place_record by every edition. */
static void expect_frame_write(const char *what, int field, uint64_t value, size_t record_len, size_t frame_len, uint32_t status,
    const char *digits)
{
    for (int i = 0; i < NUMBERS; i++) {
        expect_frame_write_by(EDITIONS[i], what, place_record, field, value, record_len, frame_len, status, digits);
    }
}

static void test_frame_write(void)
{
    expect_frame_write("a place", GVZ_RECORD_TIME, 5, 21, 26, 0, PLACE);
    expect_frame_write("identification 8", GVZ_RECORD_IDENTIFICATION, 8, 21, 26, GVZ_REFUSAL_IDENTIFICATION, NULL);
    expect_frame_write("depth 1024", GVZ_RECORD_DEPTH, 1024, 21, 26, GVZ_REFUSAL_FIELD, NULL);
    expect_frame_write("a broadcaster", GVZ_RECORD_BROADCASTER, 1, 21, 26, GVZ_REFUSAL_FIELD, NULL);
    expect_frame_write("a region", GVZ_RECORD_REGION, 1, 21, 26, GVZ_REFUSAL_FIELD, NULL);
    expect_frame_write("identification 4", GVZ_RECORD_IDENTIFICATION, 4, 21, 26, GVZ_REFUSAL_IDENTIFICATION, NULL);
    expect_frame_write("longitude 1801", GVZ_RECORD_LONGITUDE, 1801, 21, 26, GVZ_REFUSAL_OVER_LIMIT, NULL);
    expect_frame_write("a buffer of 25, before the record", GVZ_RECORD_IDENTIFICATION, 8, 21, 25, GVZ_REFUSAL_WRONG_LENGTH, NULL);
    expect_frame_write("a buffer of 27", GVZ_RECORD_TIME, 5, 21, 27, GVZ_REFUSAL_WRONG_LENGTH, NULL);
    for (int i = 0; i < LENGTHS; i++) {
        expect_frame_write("a record of another length", GVZ_RECORD_TIME, 5, OTHER_LENGTHS[i], 26, GVZ_REFUSAL_WRONG_LENGTH, NULL);
    }
    for (int i = 0; i < ANYTHING; i++) {
        expect_frame_write("any tuner", GVZ_RECORD_TUNER, ANY[i], 21, 26, 0, PLACE);
        expect_frame_write("any number of repaired places", GVZ_RECORD_REPAIRED, ANY[i], 21, 26, 0, PLACE);
    }
}

/* safety_record with one field changed: its own edition answers this, and the first refuses the identification. */
static void expect_safety_write(const char *what, int field, uint64_t value, uint32_t status, const char *digits)
{
    for (int i = 0; i < NUMBERS; i++) {
        if (EDITIONS[i] == GVZ_EDITION_AREA_SAFETY) {
            expect_frame_write_by(EDITIONS[i], what, safety_record, field, value, 21, 26, status, digits);
        } else {
            expect_frame_write_by(EDITIONS[i], what, safety_record, field, value, 21, 26, GVZ_REFUSAL_IDENTIFICATION, NULL);
        }
    }
}

static void test_safety_write(void)
{
    const uint64_t past = UINT64_C(1) << 57;
    expect_safety_write("area safety", GVZ_RECORD_REGION, safety_record[GVZ_RECORD_REGION], 0, AREA_SAFETY);
    expect_safety_write("region 2^57", GVZ_RECORD_REGION, past, GVZ_REFUSAL_FIELD, NULL);
    expect_safety_write("the largest region", GVZ_RECORD_REGION, UINT64_MAX, GVZ_REFUSAL_FIELD, NULL);
    expect_safety_write("a page", GVZ_RECORD_PAGE, 1, GVZ_REFUSAL_FIELD, NULL);
    expect_safety_write("update 4", GVZ_RECORD_UPDATE, 4, GVZ_REFUSAL_FIELD, NULL);
    for (uint64_t update = 0; update < 4; update++) {
        uint64_t record[GVZ_FRAME_VALUES], again[GVZ_FRAME_VALUES];
        uint8_t frame[GVZ_FRAME_BYTES];
        memcpy(record, safety_record, sizeof record);
        record[GVZ_RECORD_UPDATE] = update;
        record[GVZ_RECORD_REGION] = past - 1;
        expect("the largest region is written", gvz_frame_write(GVZ_EDITION_AREA_SAFETY, record, 21, frame, 26) == 0);
        expect_left("and read", gvz_frame_read(GVZ_EDITION_AREA_SAFETY, GVZ_TUNER_NONE, frame, 26, again, 21), 0, again, record,
            sizeof record);
    }
}

/* Every function that takes a record answers with any numbers for its tuner and its repaired places as with 0 there: here on one record that is
 * legal in the edition, or refused with this number. */
static void expect_any_origin(uint32_t edition, const char *what, const uint64_t *before, uint32_t number)
{
    uint8_t frame[GVZ_FRAME_BYTES], expected_frame[GVZ_FRAME_BYTES];
    double place[GVZ_PLACE_VALUES], expected_place[GVZ_PLACE_VALUES];
    memset(expected_frame, 0xA5, sizeof expected_frame);
    memset(expected_place, 0, sizeof expected_place);
    expect(what, gvz_frame_write(edition, before, 21, expected_frame, 26) == number);
    uint32_t report = gvz_report(edition, before, 21, expected_place, 3);
    expect(what, GVZ_REFUSAL(report) == number);
    for (int i = 0; i < ANYTHING * ANYTHING; i++) {
        uint64_t record[GVZ_FRAME_VALUES];
        memcpy(record, before, sizeof record);
        record[GVZ_RECORD_TUNER] = ANY[i / ANYTHING];
        record[GVZ_RECORD_REPAIRED] = ANY[i % ANYTHING];
        memset(frame, 0xA5, sizeof frame);
        expect_left(what, gvz_frame_write(edition, record, 21, frame, 26), number, frame, expected_frame, sizeof frame);
        memset(place, 0, sizeof place);
        expect_left(what, gvz_report(edition, record, 21, place, 3), report, place, expected_place, sizeof place);
        for (uint64_t area = 0; area <= GVZ_AREAS; area++) {
            expect(what, gvz_warned(record, 21, area) == gvz_warned(before, 21, area));
        }
    }
}

/* Where a record came from: what the reader says of it, and that nothing else looks at it. */
static void test_origin(void)
{
    const uint64_t zeros[GVZ_FRAME_VALUES] = {0};
    uint64_t record[GVZ_FRAME_VALUES], again[GVZ_FRAME_VALUES];
    uint8_t frame[GVZ_FRAME_BYTES];

    memcpy(record, place_record, sizeof record);
    record[GVZ_RECORD_TUNER] = GVZ_TUNER_SPARE;
    record[GVZ_RECORD_REPAIRED] = 7;
    expect("a place of spare, seven repaired, is written", gvz_frame_write(GVZ_EDITION_FIRST, record, 21, frame, 26) == 0);
    record[GVZ_RECORD_TUNER] = GVZ_TUNER_MAIN;
    record[GVZ_RECORD_REPAIRED] = 0;
    expect_left("read as main's it has no repaired place, and all else is the same",
        gvz_frame_read(GVZ_EDITION_FIRST, GVZ_TUNER_MAIN, frame, 26, again, 21), 0, again, record, sizeof again);

    for (int i = 0; i < NUMBERS; i++) {
        int has = EDITIONS[i] == GVZ_EDITION_AREA_SAFETY;
        expect_any_origin(EDITIONS[i], "all areas of any origin", zeros, 0);
        expect_any_origin(EDITIONS[i], "a place of any origin", place_record, 0);
        expect_any_origin(EDITIONS[i], "area safety of any origin", safety_record, has ? 0 : GVZ_REFUSAL_IDENTIFICATION);
        memcpy(record, place_record, sizeof record);
        record[GVZ_RECORD_LATITUDE] = 901;
        expect_any_origin(EDITIONS[i], "latitude 901 of any origin", record, GVZ_REFUSAL_OVER_LIMIT);
        record[GVZ_RECORD_REGION] = 1;
        expect_any_origin(EDITIONS[i], "a region of any origin", record, GVZ_REFUSAL_FIELD);
    }
}

/* Which areas of a record are warned: those whose bit is 1 in `warned`, area 0 lowest. */
static void expect_warned(const char *what, const uint64_t *record, uint64_t warned)
{
    int all = 1;
    for (uint64_t area = 0; area < GVZ_AREAS; area++) {
        uint32_t status = gvz_warned(record, GVZ_FRAME_VALUES, area);
        all = all && GVZ_REFUSAL(status) == 0 && GVZ_WARNED(status) == (warned >> area & 1);
    }
    expect(what, all && gvz_warned(record, GVZ_FRAME_VALUES, GVZ_AREAS) == 0 && gvz_warned(record, GVZ_FRAME_VALUES, UINT64_MAX) == 0
        && gvz_warned(record, GVZ_FRAME_VALUES, UINT64_C(1) << 32) == 0);
}

static void test_warned(void)
{
    const uint64_t all_areas = (UINT64_C(1) << GVZ_AREAS) - 1;
    uint64_t record[GVZ_FRAME_VALUES + 1] = {0};

    expect_warned("a record of zeros warns all areas", record, all_areas);
    record[GVZ_RECORD_AREAS] = all_areas - (UINT64_C(1) << (55 - 15));
    expect_warned("Tokyo alone", record, UINT64_C(1) << 15);
    record[GVZ_RECORD_IDENTIFICATION] = GVZ_IDENTIFICATION_TEST_WITHOUT_AREA;
    expect_warned("a test", record, UINT64_C(1) << 15);
    record[GVZ_RECORD_AREAS] = 0;
    for (uint64_t identification = 4; identification < 8; identification++) {
        record[GVZ_RECORD_IDENTIFICATION] = identification;
        expect_warned("no information, area safety, or undefined", record, 0);
    }
    expect_warned("a place", place_record, 0);
    memset(record, 0, sizeof record);
    record[GVZ_RECORD_PAGE] = 1;
    record[GVZ_RECORD_KIND] = 1;
    expect_warned("a cancellation", record, 0);
    for (size_t n = 0; n <= GVZ_FRAME_VALUES + 1; n++) {
        if (n != GVZ_FRAME_VALUES) {
            expect("a record of another length", gvz_warned(record, n, 15) == GVZ_REFUSAL_WRONG_LENGTH);
        }
    }
}

/* ---- The place in degrees */

static double double_of(uint64_t bits)
{
    double x;
    memcpy(&x, &bits, sizeof x);
    return x;
}

/* Of 4 doubles that hold 0.5 the first 3 are left as `place`, if it is not NULL, and the rest as they were. */
static void expect_report_by(uint32_t edition, const char *what, const uint64_t *record, size_t record_len, size_t place_len,
    uint32_t status, const double *place)
{
    double left[4] = {0.5, 0.5, 0.5, 0.5}, expected[4] = {0.5, 0.5, 0.5, 0.5};
    if (place != NULL) {
        memcpy(expected, place, GVZ_PLACE_VALUES * sizeof(double));
    }
    expect_left(what, gvz_report(edition, record, record_len, left, place_len), status, left, expected, sizeof left);
}

/* The same by every edition. */
static void expect_report(const char *what, const uint64_t *record, size_t record_len, size_t place_len, uint32_t status,
    const double *place)
{
    for (int i = 0; i < NUMBERS; i++) {
        expect_report_by(EDITIONS[i], what, record, record_len, place_len, status, place);
    }
}

static void test_report(void)
{
    const double place[GVZ_PLACE_VALUES] = {-35.6, -139.7, 40.0}, minus_zero[GVZ_PLACE_VALUES] = {-0.0, -139.7, 40.0};
    uint64_t record[GVZ_FRAME_VALUES + 1] = {0};

    expect_report("areas only", record, 21, 3, GVZ_REPORT_AREAS_ONLY << 8, NULL);
    record[GVZ_RECORD_PAGE] = 1;
    record[GVZ_RECORD_KIND] = 1;
    expect_report("a cancellation", record, 21, 3, GVZ_REPORT_CANCELLATION << 8, NULL);
    memset(record, 0, sizeof record);
    record[GVZ_RECORD_IDENTIFICATION] = 7;
    expect_report("nothing", record, 21, 3, GVZ_REPORT_NOTHING << 8, NULL);
    record[GVZ_RECORD_UPDATE] = 1;
    expect_report("an update where none is free", record, 21, 3, GVZ_REFUSAL_FIELD, NULL);

    memcpy(record, place_record, sizeof place_record);
    expect_report("a place", record, 21, 3, GVZ_REPORT_PLACE << 8, place);
    for (int i = 0; i < LENGTHS; i++) {
        expect_report("a record of another length", record, OTHER_LENGTHS[i], 3, GVZ_REFUSAL_WRONG_LENGTH, NULL);
    }
    expect_report("a place of 2", record, 21, 2, GVZ_REFUSAL_WRONG_LENGTH, NULL);
    expect_report("a place of 4", record, 21, 4, GVZ_REFUSAL_WRONG_LENGTH, NULL);
    record[GVZ_RECORD_LATITUDE] = 0;
    expect_report("a southern 0", record, 21, 3, GVZ_REPORT_PLACE << 8, minus_zero);
    record[GVZ_RECORD_LATITUDE] = 901;
    expect_report("latitude 901", record, 21, 3, GVZ_REFUSAL_OVER_LIMIT, NULL);
    record[GVZ_RECORD_IDENTIFICATION] = 4;
    expect_report("identification 4", record, 21, 3, GVZ_REFUSAL_IDENTIFICATION, NULL);

    /* the proofs know one NaN, so that its bits are looked at here */
    double no_numbers[GVZ_PLACE_VALUES] = {double_of(0x7FF8000000000001), double_of(0xFFF0000000000002), double_of(0x7FF4000000000003)};
    double left[GVZ_PLACE_VALUES];
    memcpy(left, no_numbers, sizeof left);
    expect_left("a refusal leaves the bits of a NaN", gvz_report(GVZ_EDITION_FIRST, record, 21, left, 3), GVZ_REFUSAL_IDENTIFICATION, left,
        no_numbers, sizeof left);
}

static void test_safety_report(void)
{
    uint64_t record[GVZ_FRAME_VALUES];
    for (int i = 0; i < NUMBERS; i++) {
        int has = EDITIONS[i] == GVZ_EDITION_AREA_SAFETY;
        memcpy(record, safety_record, sizeof record);
        expect_report_by(EDITIONS[i], "area safety", record, 21, 3, has ? GVZ_REPORT_AREA_SAFETY << 8 : GVZ_REFUSAL_IDENTIFICATION, NULL);
        record[GVZ_RECORD_IDENTIFICATION] = GVZ_IDENTIFICATION_AREA_SAFETY_TEST;
        expect_report_by(EDITIONS[i], "its test", record, 21, 3, has ? GVZ_REPORT_AREA_SAFETY << 8 : GVZ_REFUSAL_IDENTIFICATION, NULL);
        record[GVZ_RECORD_PAGE] = 1;
        expect_report_by(EDITIONS[i], "with a page", record, 21, 3, has ? GVZ_REFUSAL_FIELD : GVZ_REFUSAL_IDENTIFICATION, NULL);
    }
}

static void expect_desk(const char *what, double latitude, double longitude, double depth, size_t fields_len, uint32_t status,
    const uint64_t *fields)
{
    uint64_t left[6] = {7, 7, 7, 7, 7, 7}, expected[6] = {7, 7, 7, 7, 7, 7};
    if (fields != NULL) {
        memcpy(expected, fields, GVZ_DESK_VALUES * sizeof(uint64_t));
    }
    expect_left(what, gvz_desk(latitude, longitude, depth, left, fields_len), status, left, expected, sizeof left);
}

static void test_desk(void)
{
    const uint64_t place[GVZ_DESK_VALUES] = {1, 356, 0, 1397, 40}, zeros[GVZ_DESK_VALUES] = {1, 0, 0, 0, 0};

    expect_desk("a place", -35.6, 139.7, 40.0, 5, 0, place);
    expect_desk("minus zero", -0.0, 0.0, 0.0, 5, 0, zeros);
    expect_desk("a depth of minus zero", 0.0, 0.0, -0.0, 5, GVZ_REFUSAL_NO_IMAGE, NULL);
    expect_desk("latitude 90.1", 90.1, 0.0, 0.0, 5, GVZ_REFUSAL_NO_IMAGE, NULL);
    expect_desk("longitude 180.1", 0.0, 180.1, 0.0, 5, GVZ_REFUSAL_NO_IMAGE, NULL);
    expect_desk("a double beside 0.9", double_of(0x3FECCCCCCCCCCCCC), 0.0, 0.0, 5, GVZ_REFUSAL_NO_IMAGE, NULL);
    expect_desk("no number", 0.0, double_of(0x7FF8000000000001), 0.0, 5, GVZ_REFUSAL_NO_IMAGE, NULL);
    expect_desk("no number, signalling", double_of(0xFFF0000000000001), 0.0, 0.0, 5, GVZ_REFUSAL_NO_IMAGE, NULL);
    expect_desk("infinity", 0.0, 0.0, double_of(0x7FF0000000000000), 5, GVZ_REFUSAL_NO_IMAGE, NULL);
    expect_desk("fields of 4", -35.6, 139.7, 40.0, 4, GVZ_REFUSAL_WRONG_LENGTH, NULL);
    expect_desk("fields of 6, before the place", 90.1, 139.7, 40.0, 6, GVZ_REFUSAL_WRONG_LENGTH, NULL);
}

/* ---- Following the update number, and two tuners */

static void expect_follow_by(uint32_t edition, const char *what, uint32_t state, const char *digits, size_t frame_len, uint32_t number,
    uint32_t event, uint32_t next)
{
    uint32_t status = gvz_follow(edition, state, frame_of(digits), frame_len);
    expect(what, status == number + (event << 8) + (next << 16) && GVZ_REFUSAL(status) == number && GVZ_EVENT(status) == event
        && GVZ_STATE(status) == next);
}

/* The same by every edition. */
static void expect_follow(const char *what, uint32_t state, const char *digits, size_t frame_len, uint32_t number, uint32_t event,
    uint32_t next)
{
    for (int i = 0; i < NUMBERS; i++) {
        expect_follow_by(EDITIONS[i], what, state, digits, frame_len, number, event, next);
    }
}

/* Area safety information: its own edition makes this of it, and the first refuses it and keeps the state. */
static void expect_safety_follow(const char *what, uint32_t state, const char *digits, uint32_t event, uint32_t next)
{
    for (int i = 0; i < NUMBERS; i++) {
        if (EDITIONS[i] == GVZ_EDITION_AREA_SAFETY) {
            expect_follow_by(EDITIONS[i], what, state, digits, 26, 0, event, next);
        } else {
            expect_follow_by(EDITIONS[i], what, state, digits, 26, GVZ_REFUSAL_IDENTIFICATION, GVZ_EVENT_REFUSED, state);
        }
    }
}

static void test_follow(void)
{
    /* ALL_AREAS is real with update 0, PLACE a test with update 1. */
    expect_follow("begins", GVZ_STATE_QUIET, ALL_AREAS, 26, 0, GVZ_EVENT_BEGINS, GVZ_STATE_REAL(0u));
    expect_follow("same", GVZ_STATE_REAL(0u), ONE_HIT, 26, 0, GVZ_EVENT_SAME, GVZ_STATE_REAL(0u));
    expect_follow("same, with a damaged pattern", GVZ_STATE_REAL(0u), THREE_SYNC_BITS, 26, 0, GVZ_EVENT_SAME, GVZ_STATE_REAL(0u));
    expect_follow("changed", GVZ_STATE_REAL(3u), CANCELLATION, 26, 0, GVZ_EVENT_CHANGED, GVZ_STATE_REAL(0u));
    expect_follow("skipped", GVZ_STATE_TEST(2u), PLACE, 26, 0, GVZ_EVENT_SKIPPED, GVZ_STATE_TEST(1u));
    expect_follow("of the other kind", GVZ_STATE_REAL(1u), PLACE, 26, 0, GVZ_EVENT_BEGINS, GVZ_STATE_TEST(1u));
    expect_follow("ended", GVZ_STATE_TEST(3u), NO_INFORMATION, 26, 0, GVZ_EVENT_ENDED, GVZ_STATE_QUIET);
    expect_follow("quiet", GVZ_STATE_QUIET, NO_INFORMATION, 26, 0, GVZ_EVENT_QUIET, GVZ_STATE_QUIET);
    expect_follow("refused", GVZ_STATE_TEST(3u), NINE_HITS, 26, GVZ_REFUSAL_BEYOND_REPAIR, GVZ_EVENT_REFUSED, GVZ_STATE_TEST(3u));
    expect_follow("5 bytes", GVZ_STATE_REAL(2u), ALL_AREAS, 5, GVZ_REFUSAL_WRONG_LENGTH, GVZ_EVENT_REFUSED, GVZ_STATE_REAL(2u));
    expect_follow("a state of no number", 3u, ALL_AREAS, 26, 0, GVZ_EVENT_BEGINS, GVZ_STATE_REAL(0u));
    expect_follow("the number after the last state", 20u, NINE_HITS, 26, GVZ_REFUSAL_BEYOND_REPAIR, GVZ_EVENT_REFUSED, GVZ_STATE_QUIET);
    expect_follow("a large state", 0xFFFFFFFFu, NINE_HITS, 26, GVZ_REFUSAL_BEYOND_REPAIR, GVZ_EVENT_REFUSED, GVZ_STATE_QUIET);
}

static void test_safety_follow(void)
{
    /* AREA_SAFETY has update 0, AREA_SAFETY_TEST update 1. */
    expect_safety_follow("begins", GVZ_STATE_QUIET, AREA_SAFETY, GVZ_EVENT_BEGINS, GVZ_STATE_SAFETY(0u));
    expect_safety_follow("a test begins", GVZ_STATE_QUIET, AREA_SAFETY_TEST, GVZ_EVENT_BEGINS, GVZ_STATE_SAFETY_TEST(1u));
    expect_safety_follow("same", GVZ_STATE_SAFETY(0u), AREA_SAFETY, GVZ_EVENT_SAME, GVZ_STATE_SAFETY(0u));
    expect_safety_follow("changed", GVZ_STATE_SAFETY(3u), AREA_SAFETY, GVZ_EVENT_CHANGED, GVZ_STATE_SAFETY(0u));
    expect_safety_follow("skipped", GVZ_STATE_SAFETY_TEST(3u), AREA_SAFETY_TEST, GVZ_EVENT_SKIPPED, GVZ_STATE_SAFETY_TEST(1u));
    expect_safety_follow("after its test", GVZ_STATE_SAFETY_TEST(0u), AREA_SAFETY, GVZ_EVENT_BEGINS, GVZ_STATE_SAFETY(0u));
    expect_safety_follow("the test after it", GVZ_STATE_SAFETY(1u), AREA_SAFETY_TEST, GVZ_EVENT_BEGINS, GVZ_STATE_SAFETY_TEST(1u));
    expect_safety_follow("after a warning", GVZ_STATE_REAL(0u), AREA_SAFETY, GVZ_EVENT_BEGINS, GVZ_STATE_SAFETY(0u));
    expect_safety_follow("after a test", GVZ_STATE_TEST(1u), AREA_SAFETY_TEST, GVZ_EVENT_BEGINS, GVZ_STATE_SAFETY_TEST(1u));
    expect_follow("a warning after it", GVZ_STATE_SAFETY(0u), ALL_AREAS, 26, 0, GVZ_EVENT_BEGINS, GVZ_STATE_REAL(0u));
    expect_follow("a test after its test", GVZ_STATE_SAFETY_TEST(1u), PLACE, 26, 0, GVZ_EVENT_BEGINS, GVZ_STATE_TEST(1u));
    for (uint32_t update = 0; update < 4; update++) {
        expect_follow("ended", GVZ_STATE_SAFETY(update), NO_INFORMATION, 26, 0, GVZ_EVENT_ENDED, GVZ_STATE_QUIET);
        expect_follow("the test ended", GVZ_STATE_SAFETY_TEST(update), NO_INFORMATION, 26, 0, GVZ_EVENT_ENDED, GVZ_STATE_QUIET);
        expect_follow("refused", GVZ_STATE_SAFETY_TEST(update), NINE_HITS, 26, GVZ_REFUSAL_BEYOND_REPAIR, GVZ_EVENT_REFUSED,
            GVZ_STATE_SAFETY_TEST(update));
    }
}

static void expect_capture_by(uint32_t edition, const char *what, const uint8_t *main_capture, size_t main_len,
    const uint8_t *spare_capture, size_t spare_len, uint64_t n, uint32_t main_number, uint32_t spare_number, uint32_t source)
{
    uint32_t numbers = gvz_capture_numbers(edition, main_capture, main_len, spare_capture, spare_len, n);
    expect(what, GVZ_MAIN_REFUSAL(numbers) == main_number && GVZ_SPARE_REFUSAL(numbers) == spare_number
        && gvz_capture_source(edition, main_capture, main_len, spare_capture, spare_len, n) == source);
}

/* The same by every edition. */
static void expect_capture(const char *what, const uint8_t *main_capture, size_t main_len, const uint8_t *spare_capture, size_t spare_len,
    uint64_t n, uint32_t main_number, uint32_t spare_number, uint32_t source)
{
    for (int i = 0; i < NUMBERS; i++) {
        expect_capture_by(EDITIONS[i], what, main_capture, main_len, spare_capture, spare_len, n, main_number, spare_number, source);
    }
}

static void test_captures(void)
{
    /* main: three synchronising bits and eight hits, nine hits, no pattern; spare: a wrong CRC, a place, a wrong CRC */
    uint8_t main_capture[3 * GVZ_FRAME_BYTES] = {0}, spare_capture[3 * GVZ_FRAME_BYTES];
    memcpy(main_capture, frame_of(THREE_SYNC_BITS), GVZ_FRAME_BYTES);
    memcpy(main_capture + 26, frame_of(NINE_HITS), GVZ_FRAME_BYTES);
    memcpy(spare_capture, frame_of(CLEAN_WRONG_CRC), GVZ_FRAME_BYTES);
    memcpy(spare_capture + 26, frame_of(PLACE), GVZ_FRAME_BYTES);
    memcpy(spare_capture + 52, frame_of(CLEAN_WRONG_CRC), GVZ_FRAME_BYTES);

    expect_capture("main", main_capture, 78, spare_capture, 78, 0, 0, GVZ_REFUSAL_FRAME_CRC, GVZ_TUNER_MAIN);
    expect_capture("spare", main_capture, 78, spare_capture, 78, 1, GVZ_REFUSAL_BEYOND_REPAIR, 0, GVZ_TUNER_SPARE);
    expect_capture("neither", main_capture, 78, spare_capture, 78, 2, GVZ_REFUSAL_NO_PATTERN, GVZ_REFUSAL_FRAME_CRC, GVZ_TUNER_NONE);
    expect_capture("a main capture of 51 bytes", main_capture, 51, spare_capture, 52, 1, GVZ_REFUSAL_WRONG_LENGTH, 0, GVZ_TUNER_SPARE);
    expect_capture("empty captures", main_capture, 0, spare_capture, 0, 0, GVZ_REFUSAL_WRONG_LENGTH, GVZ_REFUSAL_WRONG_LENGTH, GVZ_TUNER_NONE);
    expect_capture("26 n past 64 bits", main_capture, 78, spare_capture, 78, UINT64_C(1) << 63, GVZ_REFUSAL_WRONG_LENGTH, GVZ_REFUSAL_WRONG_LENGTH,
        GVZ_TUNER_NONE);
    expect_capture("the largest n", main_capture, 78, spare_capture, 78, UINT64_MAX, GVZ_REFUSAL_WRONG_LENGTH, GVZ_REFUSAL_WRONG_LENGTH, GVZ_TUNER_NONE);

    /* what the source answers is told to the reader */
    uint64_t record[GVZ_FRAME_VALUES], expected[GVZ_FRAME_VALUES] = {0};
    uint32_t tuner = gvz_capture_source(GVZ_EDITION_FIRST, main_capture, 78, spare_capture, 78, 0);
    expected[GVZ_RECORD_TUNER] = GVZ_TUNER_MAIN;
    expected[GVZ_RECORD_REPAIRED] = 8;
    expect_left("main's frame, eight repaired", gvz_frame_read(GVZ_EDITION_FIRST, tuner, main_capture, 26, record, 21), 3 << 16, record, expected,
        sizeof record);
    tuner = gvz_capture_source(GVZ_EDITION_FIRST, main_capture, 78, spare_capture, 78, 1);
    memcpy(expected, place_record, sizeof expected);
    expected[GVZ_RECORD_TUNER] = GVZ_TUNER_SPARE;
    expect_left("spare's frame", gvz_frame_read(GVZ_EDITION_FIRST, tuner, spare_capture + 26, 26, record, 21), 0, record, expected, sizeof record);
}

static void test_safety_captures(void)
{
    uint8_t safety[GVZ_FRAME_BYTES], place[GVZ_FRAME_BYTES];
    memcpy(safety, frame_of(AREA_SAFETY), sizeof safety);
    memcpy(place, frame_of(PLACE), sizeof place);
    for (int i = 0; i < NUMBERS; i++) {
        int has = EDITIONS[i] == GVZ_EDITION_AREA_SAFETY;
        uint32_t number = has ? 0 : GVZ_REFUSAL_IDENTIFICATION;
        expect_capture_by(EDITIONS[i], "main's", safety, 26, place, 26, 0, number, 0, has ? GVZ_TUNER_MAIN : GVZ_TUNER_SPARE);
        expect_capture_by(EDITIONS[i], "spare's", place, 26, safety, 26, 0, 0, number, GVZ_TUNER_MAIN);
        expect_capture_by(EDITIONS[i], "spare's alone", place, 25, safety, 26, 0, GVZ_REFUSAL_WRONG_LENGTH, number,
            has ? GVZ_TUNER_SPARE : GVZ_TUNER_NONE);
    }
}

/* ---- The day's ledger */

/* A frame for each refusal, at its number. That of 1 is handed over a byte short. */
static const char *const REFUSED[] = {
    [GVZ_REFUSAL_WRONG_LENGTH] = ALL_AREAS,
    [GVZ_REFUSAL_FILLER_SET] = FILLER_SET,
    [GVZ_REFUSAL_NO_PATTERN] = NO_PATTERN,
    [GVZ_REFUSAL_BEYOND_REPAIR] = NINE_HITS,
    [GVZ_REFUSAL_FRAME_CRC] = CLEAN_WRONG_CRC,
    [GVZ_REFUSAL_IDENTIFICATION] = IDENTIFICATION_4,
    [GVZ_REFUSAL_START_END_OR_UPDATE] = UPDATE_2_OF_7,
    [GVZ_REFUSAL_FIXED_BIT] = B111_IS_0,
    [GVZ_REFUSAL_OVER_LIMIT] = LATITUDE_901,
};

/* Document 02's sample, the two pieces of document 01's listing, and its report. */
static const uint64_t TWO_PIECES[GVZ_LEDGER_VALUES] = {[GVZ_LEDGER_SEEN] = 2, [GVZ_LEDGER_REFUSED(1)] = 1, [GVZ_LEDGER_ACCEPTED] = 1};
static const char TWO_PIECES_TEXT[] =
    "seen 2\n"
    "refused 1 1\nrefused 2 0\nrefused 3 0\nrefused 4 0\nrefused 5 0\nrefused 6 0\nrefused 7 0\nrefused 8 0\nrefused 9 0\n"
    "accepted 1\nrepaired 0\n";

/* Ledgers of which one frame more can be counted: a fresh one, one with frames of all sorts, and those that it fills. */
static const uint64_t OPEN[][GVZ_LEDGER_VALUES] = {
    {0},
    {55, 1, 2, 3, 4, 5, 6, 7, 8, 9, 10, 80},
    {3999999, [GVZ_LEDGER_REFUSED(4)] = 3999999},
    {3999999, [GVZ_LEDGER_ACCEPTED] = 3999999, 31999992},
};
enum { OPEN_LEDGERS = sizeof OPEN / sizeof *OPEN };

/* Ledgers that no list of at most 4,000,000 frames gives; sums and products among them that are right only when cut to 64 or to 32 bits. */
static const struct {
    const char *what;
    uint64_t ledger[GVZ_LEDGER_VALUES];
} IMPOSSIBLE[] = {
    {"one more seen than there are", {3, 1, [GVZ_LEDGER_ACCEPTED] = 1}},
    {"one fewer seen", {1, 1, [GVZ_LEDGER_ACCEPTED] = 1}},
    {"none seen", {0, [GVZ_LEDGER_REFUSED(9)] = 1}},
    {"nine places of one frame", {1, [GVZ_LEDGER_ACCEPTED] = 1, 9}},
    {"a place of a refused frame", {1, 1, [GVZ_LEDGER_REPAIRED] = 1}},
    {"4,000,001 refused", {4000001, [GVZ_LEDGER_REFUSED(3)] = 4000001}},
    {"4,000,001 accepted", {4000001, [GVZ_LEDGER_ACCEPTED] = 4000001}},
    {"4,000,000 seen, and one fewer is there", {4000000, 3999999}},
    {"4,000,000 seen, and one more is there", {4000000, 4000000, 1}},
    {"4,000,000 seen, a place too many", {4000000, [GVZ_LEDGER_ACCEPTED] = 4000000, 32000001}},
    {"a sum of 2^64 and 2", {2, UINT64_MAX, 3}},
    {"a sum of 2^64", {0, [GVZ_LEDGER_REFUSED(9)] = UINT64_C(1) << 63, UINT64_C(1) << 63}},
    {"8 times 2^61 places", {0, [GVZ_LEDGER_ACCEPTED] = UINT64_C(1) << 61, UINT64_MAX}},
    {"2^32 and 2 seen", {(UINT64_C(1) << 32) + 2, 1, [GVZ_LEDGER_ACCEPTED] = 1}},
    {"2^32 places", {2, 1, [GVZ_LEDGER_ACCEPTED] = 1, UINT64_C(1) << 32}},
    {"ones", {1, 1, 1, 1, 1, 1, 1, 1, 1, 1, 1, 1}},
    {"the largest numbers", {UINT64_MAX, UINT64_MAX, UINT64_MAX, UINT64_MAX, UINT64_MAX, UINT64_MAX, UINT64_MAX, UINT64_MAX, UINT64_MAX,
        UINT64_MAX, UINT64_MAX, UINT64_MAX}},
};
enum { IMPOSSIBLE_LEDGERS = sizeof IMPOSSIBLE / sizeof *IMPOSSIBLE };

/* The 14 values that a test lends: a ledger, and two that hold 7. */
enum { LENT = GVZ_LEDGER_VALUES + 2 };

static void lend(const uint64_t *ledger, uint64_t *lent)
{
    memcpy(lent, ledger, GVZ_LEDGER_VALUES * sizeof *ledger);
    lent[GVZ_LEDGER_VALUES] = lent[GVZ_LEDGER_VALUES + 1] = 7;
}

/* The ledger with one frame more: refused with this number, or where it is 0 accepted with so many repaired places. */
static const uint64_t *one_more(const uint64_t *before, uint32_t number, uint64_t places)
{
    static uint64_t after[GVZ_LEDGER_VALUES];
    memcpy(after, before, sizeof after);
    after[GVZ_LEDGER_SEEN]++;
    if (number != GVZ_REFUSAL_NONE) {
        after[GVZ_LEDGER_REFUSED(number)]++;
        return after;
    }
    after[GVZ_LEDGER_ACCEPTED]++;
    after[GVZ_LEDGER_REPAIRED] += places;
    return after;
}

/* One frame counted: the ledger is left as `after`. */
static void expect_count_by(uint32_t edition, const char *what, const uint64_t *before, size_t ledger_len, const uint8_t *frame,
    size_t frame_len, uint32_t status, const uint64_t *after)
{
    uint64_t left[LENT], expected[LENT];
    lend(before, left);
    lend(after, expected);
    expect_left(what, gvz_ledger_count(edition, left, ledger_len, frame, frame_len), status, left, expected, sizeof left);
}

/* The same by every edition. */
static void expect_count(const char *what, const uint64_t *before, size_t ledger_len, const uint8_t *frame, size_t frame_len,
    uint32_t status, const uint64_t *after)
{
    for (int i = 0; i < NUMBERS; i++) {
        expect_count_by(EDITIONS[i], what, before, ledger_len, frame, frame_len, status, after);
    }
}

/* Each refusal and each number of repaired places. */
static void test_ledger_count(const uint64_t *before)
{
    uint8_t frame[GVZ_FRAME_BYTES];
    for (uint32_t number = 1; number <= 9; number++) {
        expect_count("a refused frame", before, 12, frame_of(REFUSED[number]), number == 1 ? 25 : 26, 0, one_more(before, number, 0));
    }
    for (unsigned hits = 0; hits <= 8; hits++) {
        set_places(frame, hits);
        frame[0] = 0x1A;
        frame[1] = 0xF7;
        expect_count("an accepted frame", before, 12, frame, 26, 0, one_more(before, 0, hits));
    }
    expect_count("three synchronising bits are no repaired places", before, 12, frame_of(THREE_SYNC_BITS), 26, 0, one_more(before, 0, 8));
    expect_count("no information", before, 12, frame_of(NO_INFORMATION), 26, 0, one_more(before, 0, 0));
    for (int i = 0; i < NUMBERS; i++) {
        uint32_t number = EDITIONS[i] == GVZ_EDITION_AREA_SAFETY ? 0 : GVZ_REFUSAL_IDENTIFICATION;
        expect_count_by(EDITIONS[i], "area safety", before, 12, frame_of(AREA_SAFETY), 26, 0, one_more(before, number, 0));
        expect_count_by(EDITIONS[i], "its test, eight hits", before, 12, frame_of(AREA_SAFETY_TEST), 26, 0, one_more(before, number, 8));
    }
    for (size_t n = 0; n <= 40; n++) {
        if (n != GVZ_FRAME_BYTES) {
            static const uint8_t zeros[40] = {0};
            expect_count("a frame of another length", before, 12, zeros, n, 0, one_more(before, GVZ_REFUSAL_WRONG_LENGTH, 0));
        }
    }
}

/* Document 02's sample, and a list that is counted to its end: the next frame is 19, whatever it is, and an emptied ledger starts anew. */
static void test_ledger_list(void)
{
    static const uint64_t refused_1[GVZ_LEDGER_VALUES] = {4000000, 4000000};
    uint64_t ledger[GVZ_LEDGER_VALUES] = {0};
    uint32_t status = gvz_ledger_count(GVZ_EDITION_FIRST, ledger, 12, frame_of(ALL_AREAS), 26);
    expect("a clean frame", status == 0);
    status = gvz_ledger_count(GVZ_EDITION_FIRST, ledger, 12, frame_of(ALL_AREAS), 5);
    expect_left("and then five bytes", status, 0, ledger, TWO_PIECES, sizeof ledger);

    memset(ledger, 0, sizeof ledger);
    const uint8_t *frame = frame_of(ALL_AREAS);
    int all = 1;
    for (int i = 0; i < GVZ_LEDGER_MOST_FRAMES; i++) {
        all = gvz_ledger_count(GVZ_EDITION_FIRST, ledger, 12, frame, 5) == 0 && all;
    }
    expect("4,000,000 frames", all && memcmp(ledger, refused_1, sizeof ledger) == 0);
    status = gvz_ledger_count(GVZ_EDITION_FIRST, ledger, 12, frame, 5);
    expect_left("the next one", status, GVZ_REFUSAL_LEDGER_FULL, ledger, refused_1, sizeof ledger);
    memset(ledger, 0, sizeof ledger);
    status = gvz_ledger_count(GVZ_EDITION_FIRST, ledger, 12, frame_of(THREE_SYNC_BITS), 26);
    expect_left("an emptied ledger", status, 0, ledger, one_more(OPEN[0], 0, 8), sizeof ledger);
}

/* 3,999,999 frames and one more, and then 19. */
static void test_ledger_full(const uint64_t *before)
{
    uint64_t full[GVZ_LEDGER_VALUES];
    memcpy(full, before, sizeof full);
    uint32_t status = gvz_ledger_count(GVZ_EDITION_FIRST, full, 12, frame_of(ONE_HIT), 26);
    expect_left("the last frame", status, 0, full, one_more(before, 0, 1), sizeof full);
    expect_count("no frame after it", full, 12, NULL, 0, GVZ_REFUSAL_LEDGER_FULL, full);
    expect_count("an accepted frame after it", full, 12, frame_of(ALL_AREAS), 26, GVZ_REFUSAL_LEDGER_FULL, full);
    expect_count("area safety after it", full, 12, frame_of(AREA_SAFETY), 26, GVZ_REFUSAL_LEDGER_FULL, full);
    for (uint32_t number = 1; number <= 9; number++) {
        expect_count("a refused frame after it", full, 12, frame_of(REFUSED[number]), number == 1 ? 25 : 26, GVZ_REFUSAL_LEDGER_FULL, full);
    }
}

/* Of 220 bytes that hold 0xA5 the first ones are left as `text`, if it is not NULL, and the rest as they were. */
static void expect_print(const char *what, const uint64_t *ledger, size_t ledger_len, size_t text_len, uint32_t status, const char *text)
{
    uint64_t lent[LENT];
    uint8_t left[220], expected[220];
    lend(ledger, lent);
    memset(left, 0xA5, sizeof left);
    memset(expected, 0xA5, sizeof expected);
    if (text != NULL) {
        memcpy(expected, text, strlen(text));
    }
    expect_left(what, gvz_ledger_print(lent, ledger_len, left, text_len), status, left, expected, sizeof left);
}

/* Of 14 values that hold 7 the first 12 are left as `ledger`, if it is not NULL, and the rest as they were. */
static void expect_parse(const char *what, const char *text, size_t text_len, size_t ledger_len, uint32_t status, const uint64_t *ledger)
{
    static const uint64_t sevens[GVZ_LEDGER_VALUES] = {7, 7, 7, 7, 7, 7, 7, 7, 7, 7, 7, 7};
    uint64_t left[LENT], expected[LENT];
    lend(sevens, left);
    lend(ledger != NULL ? ledger : sevens, expected);
    expect_left(what, gvz_ledger_parse((const uint8_t *)text, text_len, left, ledger_len), status, left, expected, sizeof left);
}

/* A report has its length, is printed into a buffer of that length alone, and is read again; cut off anywhere it is none. */
static void expect_report_of(const char *what, const uint64_t *ledger, size_t length, const char *text)
{
    uint32_t status = gvz_ledger_length(ledger, 12);
    expect(what, strlen(text) == length && status == length << 8 && GVZ_REFUSAL(status) == 0 && GVZ_LEDGER_LENGTH(status) == length);
    expect_print(what, ledger, 12, length, 0, text);
    expect_parse(what, text, length, 12, 0, ledger);
    for (size_t n = 0; n <= 220; n++) {
        if (n != length) {
            expect_print("a buffer of another size", ledger, 12, n, GVZ_REFUSAL_BUFFER_SIZE, NULL);
        }
    }
    for (size_t n = 0; n < length; n++) {
        expect_parse("cut off", text, n, 12, GVZ_REFUSAL_IMPOSSIBLE_LEDGER, NULL);
        expect_parse("cut off in front", text + length - n, n, 12, GVZ_REFUSAL_IMPOSSIBLE_LEDGER, NULL);
    }
    expect_parse("the zero byte behind it", text, length + 1, 12, GVZ_REFUSAL_IMPOSSIBLE_LEDGER, NULL);
}

static void test_ledger_reports(void)
{
    static const uint64_t longest[GVZ_LEDGER_VALUES] = {
        3950000, 1000000, 1000000, 100000, 100000, 100000, 100000, 100000, 100000, 100000, 1250000, 10000000};
    static const uint64_t full[GVZ_LEDGER_VALUES] = {4000000, [GVZ_LEDGER_ACCEPTED] = 4000000, 32000000};
    expect_report_of("the fresh ledger", OPEN[0], 137,
        "seen 0\n"
        "refused 1 0\nrefused 2 0\nrefused 3 0\nrefused 4 0\nrefused 5 0\nrefused 6 0\nrefused 7 0\nrefused 8 0\nrefused 9 0\n"
        "accepted 0\nrepaired 0\n");
    expect_report_of("document 02's sample", TWO_PIECES, 137, TWO_PIECES_TEXT);
    expect_report_of("frames of all sorts", OPEN[1], 140,
        "seen 55\n"
        "refused 1 1\nrefused 2 2\nrefused 3 3\nrefused 4 4\nrefused 5 5\nrefused 6 6\nrefused 7 7\nrefused 8 8\nrefused 9 9\n"
        "accepted 10\nrepaired 80\n");
    expect_report_of("4,000,000 frames of eight places", full, 156,
        "seen 4000000\n"
        "refused 1 0\nrefused 2 0\nrefused 3 0\nrefused 4 0\nrefused 5 0\nrefused 6 0\nrefused 7 0\nrefused 8 0\nrefused 9 0\n"
        "accepted 4000000\nrepaired 32000000\n");
    expect_report_of("the longest report", longest, GVZ_LEDGER_REPORT_MOST,
        "seen 3950000\n"
        "refused 1 1000000\nrefused 2 1000000\nrefused 3 100000\nrefused 4 100000\nrefused 5 100000\nrefused 6 100000\n"
        "refused 7 100000\nrefused 8 100000\nrefused 9 100000\n"
        "accepted 1250000\nrepaired 10000000\n");
}

/* 18, before 19 and before 27, and everything stays. */
static void test_ledger_impossible(void)
{
    static const size_t sizes[] = {0, 136, 137, 138, 202, 203, 204};
    const uint32_t impossible = GVZ_REFUSAL_IMPOSSIBLE_LEDGER;
    for (int i = 0; i < IMPOSSIBLE_LEDGERS; i++) {
        const char *what = IMPOSSIBLE[i].what;
        const uint64_t *ledger = IMPOSSIBLE[i].ledger;
        expect_count(what, ledger, 12, frame_of(ALL_AREAS), 26, impossible, ledger);
        expect_count(what, ledger, 12, frame_of(NO_PATTERN), 26, impossible, ledger);
        expect_count(what, ledger, 12, NULL, 0, impossible, ledger);
        expect(what, gvz_ledger_length(ledger, 12) == impossible);
        for (size_t j = 0; j < sizeof sizes / sizeof *sizes; j++) {
            expect_print(what, ledger, 12, sizes[j], impossible, NULL);
        }
    }
}

/* The sample's report with one piece of it replaced, where it stands first. */
static void expect_no_report(const char *what, const char *piece, const char *instead)
{
    char text[400];
    const char *at = strstr(TWO_PIECES_TEXT, piece);
    int length = snprintf(text, sizeof text, "%.*s%s%s", (int)(at - TWO_PIECES_TEXT), TWO_PIECES_TEXT, instead, at + strlen(piece));
    expect_parse(what, text, (size_t)length, 12, GVZ_REFUSAL_IMPOSSIBLE_LEDGER, NULL);
}

static void test_ledger_texts(void)
{
    expect_no_report("a 0 before a digit", "seen 2", "seen 02");
    expect_no_report("a 0 before a 0", "refused 9 0", "refused 9 00");
    expect_no_report("a 0 before a refusal's number", "refused 3 0", "refused 03 0");
    expect_no_report("no last newline", "repaired 0\n", "repaired 0");
    expect_no_report("a newline more", "repaired 0\n", "repaired 0\n\n");
    expect_no_report("a digit behind", "repaired 0\n", "repaired 0\n0");
    expect_no_report("a space behind", "repaired 0\n", "repaired 0\n ");
    expect_no_report("an empty line in front", "seen", "\nseen");
    expect_no_report("a space in front", "seen", " seen");
    expect_no_report("an empty line", "accepted", "\naccepted");
    expect_no_report("a carriage return", "seen 2", "seen 2\r");
    expect_no_report("a space before the newline", "accepted 1", "accepted 1 ");
    expect_no_report("two spaces", "accepted 1", "accepted  1");
    expect_no_report("two spaces in a name", "refused 5", "refused  5");
    expect_no_report("a tab", "repaired 0", "repaired\t0");
    expect_no_report("no space", "repaired 0", "repaired0");
    expect_no_report("no number", "repaired 0", "repaired ");
    expect_no_report("a sign", "accepted 1", "accepted +1");
    expect_no_report("less than none", "repaired 0", "repaired -0");
    expect_no_report("a fraction", "repaired 0", "repaired 0.0");
    expect_no_report("a hexadecimal number", "repaired 0", "repaired 0x0");
    expect_no_report("a capital letter", "accepted", "Accepted");
    expect_no_report("another name", "refused 9", "refused 10");
    expect_no_report("a line left out", "refused 9 0\n", "");
    expect_no_report("a line twice", "refused 9 0\n", "refused 9 0\nrefused 9 0\n");
    expect_no_report("two lines exchanged", "refused 2 0\nrefused 3 0\n", "refused 3 0\nrefused 2 0\n");
    expect_no_report("seen is not the sum", "seen 2", "seen 1");
    expect_no_report("a refused frame less", "refused 1 1", "refused 1 0");
    expect_no_report("nine places of one frame", "repaired 0", "repaired 9");
    expect_no_report("2^32 more", "seen 2", "seen 4294967298");
    expect_no_report("2^64 more", "seen 2", "seen 18446744073709551618");
    expect_no_report("2^64 places", "repaired 0", "repaired 18446744073709551616");
    expect_no_report("40 digits", "refused 5 0", "refused 5 1000000000000000000000000000000000000000");
    expect_no_report("4,000,001 frames", "seen 2\nrefused 1 1", "seen 4000001\nrefused 1 4000000");
}

/* Each byte of the sample's report changed to every other. The digit of the repaired places may be another up to 8, and nothing else may. */
static void test_ledger_bytes(void)
{
    const size_t length = strlen(TWO_PIECES_TEXT), digit = length - 2;
    for (size_t at = 0; at < length; at++) {
        for (int byte = 0; byte < 256; byte++) {
            char text[sizeof TWO_PIECES_TEXT];
            uint64_t ledger[GVZ_LEDGER_VALUES];
            memcpy(text, TWO_PIECES_TEXT, sizeof text);
            memcpy(ledger, TWO_PIECES, sizeof ledger);
            text[at] = (char)byte;
            if (text[at] == TWO_PIECES_TEXT[at] || (at == digit && byte >= '0' && byte <= '8')) {
                ledger[GVZ_LEDGER_REPAIRED] = (uint64_t)(text[digit] - '0');
                expect_parse("another number of repaired places", text, length, 12, 0, ledger);
            } else {
                expect_parse("a byte changed", text, length, 12, GVZ_REFUSAL_IMPOSSIBLE_LEDGER, NULL);
            }
        }
    }
}

/* A ledger of another length is 1 before all else. */
static void test_ledger_lengths(const uint64_t *ledger)
{
    const uint32_t wrong_length = GVZ_REFUSAL_WRONG_LENGTH;
    for (size_t n = 0; n <= LENT; n++) {
        if (n != GVZ_LEDGER_VALUES) {
            uint64_t lent[LENT];
            lend(ledger, lent);
            expect_count("a ledger of another length", ledger, n, frame_of(ALL_AREAS), 26, wrong_length, ledger);
            expect_count("a ledger of another length, no frame", ledger, n, NULL, 0, wrong_length, ledger);
            expect("a ledger of another length to measure", gvz_ledger_length(lent, n) == wrong_length);
            expect_print("a ledger of another length to print", ledger, n, 137, wrong_length, NULL);
            expect_print("a ledger of another length, no buffer", ledger, n, 0, wrong_length, NULL);
            expect_parse("a ledger of another length to read into", TWO_PIECES_TEXT, 137, n, wrong_length, NULL);
            expect_parse("a ledger of another length, no report", TWO_PIECES_TEXT, 136, n, wrong_length, NULL);
        }
    }
}

static void test_ledgers(void)
{
    for (int i = 0; i < OPEN_LEDGERS; i++) {
        test_ledger_count(OPEN[i]);
        test_ledger_lengths(OPEN[i]);
        if (OPEN[i][GVZ_LEDGER_SEEN] == GVZ_LEDGER_MOST_FRAMES - 1) {
            test_ledger_full(OPEN[i]);
        }
    }
    for (int i = 0; i < IMPOSSIBLE_LEDGERS; i++) {
        test_ledger_lengths(IMPOSSIBLE[i].ledger);
    }
    test_ledger_list();
    test_ledger_impossible();
    test_ledger_reports();
    test_ledger_texts();
    test_ledger_bytes();
}

/* ---- The cable header */

/* All streams valid, with the identifiers (i, 1) for stream i, empty slots and no frame. */
static void model_record(uint64_t *record)
{
    memset(record, 0, GVZ_CABLE_VALUES * sizeof(uint64_t));
    record[GVZ_HEADER_PACKET] = 0x47000000;
    record[GVZ_HEADER_FORM] = 1;
    for (int i = 0; i < 15; i++) {
        record[GVZ_HEADER_VALID + i] = 1;
        record[GVZ_HEADER_IDENTIFIERS + 2 * i] = (uint64_t)i + 1;
        record[GVZ_HEADER_IDENTIFIERS + 2 * i + 1] = 1;
    }
    for (int i = 0; i < 26; i++) {
        record[GVZ_HEADER_AC + i] = i < 25 ? 0xFF : 0xF;
    }
}

/* The same as bytes, with this CRC. */
static void model_header(uint8_t *header, uint32_t crc)
{
    memset(header, 0, GVZ_CABLE_BYTES);
    header[0] = 0x47;
    header[6] = 0x01;
    header[7] = 0xFF;
    header[8] = 0xFF;
    for (int i = 0; i < 15; i++) {
        header[9 + 4 * i + 1] = (uint8_t)(i + 1);
        header[9 + 4 * i + 3] = 1;
    }
    memset(header + 99, 0xFF, 85);
    for (int i = 0; i < 4; i++) {
        header[184 + i] = (uint8_t)(crc >> (24 - 8 * i));
    }
}

static void expect_header_read(const char *what, const uint8_t *header, size_t header_len, size_t record_len, uint32_t status,
    const uint64_t *record)
{
    uint64_t left[GVZ_CABLE_VALUES + 1], expected[GVZ_CABLE_VALUES + 1];
    for (int i = 0; i <= GVZ_CABLE_VALUES; i++) {
        left[i] = 7;
        expected[i] = record != NULL && i < GVZ_CABLE_VALUES ? record[i] : 7;
    }
    expect_left(what, gvz_header_read(header, header_len, left, record_len), status, left, expected, sizeof left);
}

static void test_header_read(void)
{
    uint8_t header[GVZ_CABLE_BYTES + 1] = {0};
    uint64_t record[GVZ_CABLE_VALUES];
    model_record(record);
    model_header(header, 0xE760A571);

    expect_header_read("the model header", header, 188, 145, 0, record);
    expect_header_read("a header of 187", header, 187, 145, GVZ_REFUSAL_WRONG_LENGTH, NULL);
    expect_header_read("a header of 189", header, 189, 145, GVZ_REFUSAL_WRONG_LENGTH, NULL);
    expect_header_read("a record of 144", header, 188, 144, GVZ_REFUSAL_WRONG_LENGTH, NULL);
    expect_header_read("a record of 146", header, 188, 146, GVZ_REFUSAL_WRONG_LENGTH, NULL);
    header[3] = 0x12;
    record[GVZ_HEADER_PACKET] = 0x47000012;
    expect_header_read("the CRC begins after byte 3", header, 188, 145, 0, record);
    header[187] ^= 1;
    expect_header_read("CRC", header, 188, 145, GVZ_REFUSAL_HEADER_CRC, NULL);
    header[0] = 0x46;
    expect_header_read("byte 0, before the CRC", header, 188, 145, GVZ_REFUSAL_PACKET_SYNC, NULL);
    model_header(header, 0xA94B8658);
    header[6] = 0x02;
    expect_header_read("form 2", header, 188, 145, GVZ_REFUSAL_MULTIPLEX_FORM, NULL);
    expect_header_read("a record of 144, before the header", header, 188, 144, GVZ_REFUSAL_WRONG_LENGTH, NULL);
    /* a reception state of 11, and the CRC that belongs to it */
    model_header(header, 0x242CB9D2);
    header[69] = 0xC0;
    expect_header_read("reception state 11", header, 188, 145, GVZ_REFUSAL_HEADER_BITS, NULL);
}

/* The model record with one field changed, written into 190 bytes that hold 0xA5. */
static void expect_header_write(const char *what, int field, uint64_t value, size_t record_len, size_t header_len, uint32_t status,
    const uint8_t *header)
{
    uint64_t record[GVZ_CABLE_VALUES + 1] = {0};
    uint8_t left[190], expected[190];
    model_record(record);
    record[field] = value;
    memset(left, 0xA5, sizeof left);
    memset(expected, 0xA5, sizeof expected);
    if (header != NULL) {
        memcpy(expected, header, GVZ_CABLE_BYTES);
    }
    expect_left(what, gvz_header_write(record, record_len, left, header_len), status, left, expected, sizeof left);
}

static void test_header_write(void)
{
    uint8_t header[GVZ_CABLE_BYTES];
    model_header(header, 0xE760A571);

    expect_header_write("the model header", GVZ_HEADER_FORM, 1, 145, 188, 0, header);
    expect_header_write("slot value 16", GVZ_HEADER_SLOTS + 51, 16, 145, 188, GVZ_REFUSAL_FIELD, NULL);
    expect_header_write("form 16", GVZ_HEADER_FORM, 16, 145, 188, GVZ_REFUSAL_FIELD, NULL);
    expect_header_write("byte 0", GVZ_HEADER_PACKET, 0x46000000, 145, 188, GVZ_REFUSAL_PACKET_SYNC, NULL);
    expect_header_write("form 15", GVZ_HEADER_FORM, 15, 145, 188, GVZ_REFUSAL_MULTIPLEX_FORM, NULL);
    expect_header_write("reception state 3", GVZ_HEADER_STATES + 14, 3, 145, 188, GVZ_REFUSAL_HEADER_BITS, NULL);
    expect_header_write("a buffer of 187", GVZ_HEADER_FORM, 1, 145, 187, GVZ_REFUSAL_WRONG_LENGTH, NULL);
    expect_header_write("a buffer of 189, before the record", GVZ_HEADER_FORM, 9, 145, 189, GVZ_REFUSAL_WRONG_LENGTH, NULL);
    expect_header_write("a record of 144", GVZ_HEADER_FORM, 1, 144, 188, GVZ_REFUSAL_WRONG_LENGTH, NULL);
    expect_header_write("a record of 146", GVZ_HEADER_FORM, 1, 146, 188, GVZ_REFUSAL_WRONG_LENGTH, NULL);
}

static void expect_lay_in_by(uint32_t edition, const char *what, const uint8_t *before, size_t header_len, const char *digits,
    size_t frame_len, uint32_t status, const uint8_t *after)
{
    uint8_t header[GVZ_CABLE_BYTES];
    memcpy(header, before, sizeof header);
    expect_left(what, gvz_lay_in(edition, header, header_len, frame_of(digits), frame_len), status, header, after, sizeof header);
}

/* The same by every edition. */
static void expect_lay_in(const char *what, const uint8_t *before, size_t header_len, const char *digits, size_t frame_len,
    uint32_t status, const uint8_t *after)
{
    for (int i = 0; i < NUMBERS; i++) {
        expect_lay_in_by(EDITIONS[i], what, before, header_len, digits, frame_len, status, after);
    }
}

static void expect_take_out(const char *what, const uint8_t *before, size_t header_len, uint32_t status, const uint8_t *after)
{
    uint8_t header[GVZ_CABLE_BYTES];
    memcpy(header, before, sizeof header);
    expect_left(what, gvz_take_out(header, header_len), status, header, after, sizeof header);
}

static void test_laying(void)
{
    uint8_t empty[GVZ_CABLE_BYTES], laid[GVZ_CABLE_BYTES], broken[GVZ_CABLE_BYTES];
    model_header(empty, 0xE760A571);
    model_header(laid, 0xB0AC5A53);
    memcpy(laid + 99, frame_of(ALL_AREAS), 25);
    laid[124] = 0x0F;
    model_header(broken, 0xE760A570);

    expect_lay_in("all areas", empty, 188, ALL_AREAS, 26, 0, laid);
    expect_lay_in("one hit is repaired", empty, 188, ONE_HIT, 26, 0, laid);
    expect_lay_in("the pattern is laid in clean", empty, 188, THREE_SYNC_BITS, 26, 0, laid);
    expect_lay_in("laid in twice", laid, 188, ALL_AREAS, 26, 0, laid);
    expect_lay_in("nine hits", empty, 188, NINE_HITS, 26, GVZ_REFUSAL_BEYOND_REPAIR, empty);
    expect_lay_in("a frame of 25", empty, 188, ALL_AREAS, 25, GVZ_REFUSAL_WRONG_LENGTH, empty);
    expect_lay_in("a header of 187", empty, 187, ALL_AREAS, 26, GVZ_REFUSAL_WRONG_LENGTH, empty);
    expect_lay_in("the header before the frame", broken, 188, ALL_AREAS, 0, GVZ_REFUSAL_HEADER_CRC, broken);

    expect_take_out("taken out", laid, 188, 0, empty);
    expect_take_out("taken out of an empty one", empty, 188, 0, empty);
    expect_take_out("a wrong CRC", broken, 188, GVZ_REFUSAL_HEADER_CRC, broken);
    expect_take_out("a header of 187", laid, 187, GVZ_REFUSAL_WRONG_LENGTH, laid);
}

static void test_safety_laying(void)
{
    uint8_t empty[GVZ_CABLE_BYTES], laid[GVZ_CABLE_BYTES];
    model_header(empty, 0xE760A571);
    model_header(laid, 0);
    memcpy(laid + 99, frame_of(AREA_SAFETY), 25);
    laid[124] = 0x0F;
    uint32_t crc = gvz_crc32(laid + 4, 180);
    for (int i = 0; i < 4; i++) {
        laid[184 + i] = (uint8_t)(crc >> (24 - 8 * i));
    }
    for (int i = 0; i < NUMBERS; i++) {
        int has = EDITIONS[i] == GVZ_EDITION_AREA_SAFETY;
        expect_lay_in_by(EDITIONS[i], "area safety", empty, 188, AREA_SAFETY, 26, has ? 0 : GVZ_REFUSAL_IDENTIFICATION, has ? laid : empty);
    }
}

/* Laid in by every edition. */
static void expect_lay_in_marked(const char *what, const uint8_t *before, size_t header_len, const uint8_t *frame, size_t frame_len,
    const uint8_t *marks, size_t marks_len, uint32_t status, const uint8_t *after)
{
    for (int i = 0; i < NUMBERS; i++) {
        uint8_t header[GVZ_CABLE_BYTES];
        memcpy(header, before, sizeof header);
        expect_left(what, gvz_lay_in_marked(EDITIONS[i], header, header_len, frame, frame_len, marks, marks_len), status, header, after,
            sizeof header);
    }
}

static void test_marked_laying(void)
{
    uint8_t empty[GVZ_CABLE_BYTES], laid[GVZ_CABLE_BYTES], broken[GVZ_CABLE_BYTES], frame[GVZ_FRAME_BYTES + 1] = {0},
        marks[GVZ_FRAME_BYTES + 1] = {0};
    const uint32_t wrong_length = GVZ_REFUSAL_WRONG_LENGTH;
    model_header(empty, 0xE760A571);
    model_header(laid, 0xB0AC5A53);
    memcpy(laid + 99, frame_of(ALL_AREAS), 25);
    laid[124] = 0x0F;
    model_header(broken, 0xE760A570);

    memcpy(frame, frame_of(ALL_AREAS), GVZ_FRAME_BYTES);
    expect_lay_in_marked("no marks", empty, 188, frame, 26, marks, 26, 0, laid);
    damage(frame, marks, 5, 7);
    frame[0] ^= 0x70;
    expect_lay_in_marked("2 t + s is 17, three of B1 to B16", empty, 188, frame, 26, marks, 26, 0, laid);
    expect_lay_in_marked("a header of 187", empty, 187, frame, 26, marks, 26, wrong_length, empty);
    expect_lay_in_marked("a frame of 25", empty, 188, frame, 25, marks, 26, wrong_length, empty);
    expect_lay_in_marked("marks of 25", empty, 188, frame, 26, marks, 25, wrong_length, empty);
    expect_lay_in_marked("marks of 27", empty, 188, frame, 26, marks, 27, wrong_length, empty);
    expect_lay_in_marked("marks of none", empty, 188, frame, 26, marks, 0, wrong_length, empty);
    expect_lay_in_marked("the header before the marks", broken, 188, frame, 26, marks, 0, GVZ_REFUSAL_HEADER_CRC, broken);
    memcpy(frame, frame_of(ALL_AREAS), GVZ_FRAME_BYTES);
    damage(frame, marks, 0, 18);
    expect_lay_in_marked("18 marks", empty, 188, frame, 26, marks, 26, GVZ_REFUSAL_BEYOND_REPAIR, empty);
    expect_lay_in_marked("the header before 18 marks", broken, 188, frame, 26, marks, 26, GVZ_REFUSAL_HEADER_CRC, broken);
    frame[25] |= 1;
    expect_lay_in_marked("filler before 18 marks", empty, 188, frame, 26, marks, 26, GVZ_REFUSAL_FILLER_SET, empty);
}

/* Laid in with 17 marks by its own edition alone. */
static void test_marked_safety_laying(void)
{
    uint8_t frame[GVZ_FRAME_BYTES], marks[GVZ_FRAME_BYTES];
    memcpy(frame, frame_of(AREA_SAFETY), sizeof frame);
    damage(frame, marks, 0, 17);
    for (int i = 0; i < NUMBERS; i++) {
        int has = EDITIONS[i] == GVZ_EDITION_AREA_SAFETY;
        uint8_t header[GVZ_CABLE_BYTES], expected[GVZ_CABLE_BYTES];
        model_header(header, 0xE760A571);
        model_header(expected, 0xE760A571);
        uint32_t clean = gvz_lay_in(EDITIONS[i], expected, 188, frame_of(AREA_SAFETY), 26);
        expect("area safety without marks", clean == (has ? 0 : GVZ_REFUSAL_IDENTIFICATION));
        expect_left("area safety", gvz_lay_in_marked(EDITIONS[i], header, 188, frame, 26, marks, 26), clean, header, expected, sizeof header);
    }
}

static void test_crc32(void)
{
    static const uint8_t digits[] = "123456789";
    uint8_t header[GVZ_CABLE_BYTES];
    model_header(header, 0xE760A571);

    expect("the published check value", gvz_crc32(digits, 9) == 0x0376E6E7);
    expect("the CRC of nothing", gvz_crc32(digits, 0) == 0xFFFFFFFF);
    expect("the CRC of the model header", gvz_crc32(header + 4, 180) == 0xE760A571);
    expect("with its own CRC it comes out zero", gvz_crc32(header + 4, 184) == 0);
}

/* ---- NULL beside the length 0, as an empty vector hands it over */

static void test_null(uint32_t edition)
{
    uint8_t word[GVZ_FRAME_BYTES] = {0}, header[GVZ_CABLE_BYTES];
    const uint8_t *frame = frame_of(ALL_AREAS);
    uint64_t record[GVZ_FRAME_VALUES] = {0}, values[GVZ_CABLE_VALUES];
    double place[GVZ_PLACE_VALUES] = {0};
    const uint32_t wrong_length = GVZ_REFUSAL_WRONG_LENGTH;
    model_header(header, 0xE760A571);
    model_record(values);

    expect("no frame to repair", gvz_repair(NULL, 0, word, 26) == wrong_length && gvz_repair_register(NULL, 0, word, 26) == wrong_length);
    expect("no word", gvz_repair(frame, 26, NULL, 0) == wrong_length && gvz_repair_register(frame, 26, NULL, 0) == wrong_length);
    for (int t = 0; t < TOLD; t++) {
        uint32_t tuner = TUNERS[t].told;
        expect("no frame to read", gvz_frame_read(edition, tuner, NULL, 0, record, 21) == wrong_length
                && gvz_frame_read(edition, tuner, frame, 26, NULL, 0) == wrong_length);
        expect("nothing at all", gvz_frame_read(edition, tuner, NULL, 0, NULL, 0) == wrong_length);
    }
    expect("no record to write", gvz_frame_write(edition, NULL, 0, word, 26) == wrong_length
            && gvz_frame_write(edition, record, 21, NULL, 0) == wrong_length);
    expect("no record to ask", gvz_warned(NULL, 0, 15) == wrong_length);
    expect("no record to report", gvz_report(edition, NULL, 0, place, 3) == wrong_length
            && gvz_report(edition, record, 21, NULL, 0) == wrong_length);
    expect("no fields", gvz_desk(35.6, 139.7, 40.0, NULL, 0) == wrong_length);
    expect("no frame to follow", gvz_follow(edition, GVZ_STATE_REAL(2u), NULL, 0) == 1 + (GVZ_EVENT_REFUSED << 8) + (GVZ_STATE_REAL(2u) << 16));
    expect("no main capture", gvz_capture_source(edition, NULL, 0, frame, 26, 0) == GVZ_TUNER_SPARE);
    expect("no spare capture", gvz_capture_source(edition, frame, 26, NULL, 0, 0) == GVZ_TUNER_MAIN);
    expect("no capture", gvz_capture_source(edition, NULL, 0, NULL, 0, 0) == GVZ_TUNER_NONE
            && gvz_capture_numbers(edition, NULL, 0, NULL, 0, 0) == 257);
    expect("no header to read", gvz_header_read(NULL, 0, values, 145) == wrong_length && gvz_header_read(header, 188, NULL, 0) == wrong_length);
    expect("no header to write", gvz_header_write(NULL, 0, header, 188) == wrong_length && gvz_header_write(values, 145, NULL, 0) == wrong_length);
    expect("no header to lay into", gvz_lay_in(edition, NULL, 0, frame, 26) == wrong_length
            && gvz_lay_in(edition, header, 188, NULL, 0) == wrong_length);
    expect("no header to take out of", gvz_take_out(NULL, 0) == wrong_length);
    expect("no bytes", gvz_crc32(NULL, 0) == 0xFFFFFFFF);
}

static void test_null_marked(uint32_t edition)
{
    uint8_t word[GVZ_FRAME_BYTES] = {0}, header[GVZ_CABLE_BYTES];
    const uint8_t marks[GVZ_FRAME_BYTES] = {0}, *frame = frame_of(ALL_AREAS);
    uint64_t record[GVZ_FRAME_VALUES] = {0};
    const uint32_t wrong_length = GVZ_REFUSAL_WRONG_LENGTH;
    model_header(header, 0xE760A571);

    expect("no marks, no frame, no word", gvz_repair_marked(frame, 26, NULL, 0, word, 26) == wrong_length
            && gvz_repair_marked(NULL, 0, marks, 26, word, 26) == wrong_length && gvz_repair_marked(frame, 26, marks, 26, NULL, 0) == wrong_length
            && gvz_repair_marked(NULL, 0, NULL, 0, NULL, 0) == wrong_length);
    for (int t = 0; t < TOLD; t++) {
        uint32_t tuner = TUNERS[t].told;
        expect("no marks, no frame, no record", gvz_frame_read_marked(edition, tuner, frame, 26, NULL, 0, record, 21) == wrong_length
                && gvz_frame_read_marked(edition, tuner, NULL, 0, marks, 26, record, 21) == wrong_length
                && gvz_frame_read_marked(edition, tuner, frame, 26, marks, 26, NULL, 0) == wrong_length
                && gvz_frame_read_marked(edition, tuner, NULL, 0, NULL, 0, NULL, 0) == wrong_length);
    }
    expect("no marks, no frame to judge", gvz_frame_judge_marked(frame, 26, NULL, 0) == wrong_length
            && gvz_frame_judge_marked(NULL, 0, marks, 26) == wrong_length && gvz_frame_judge_marked(NULL, 0, NULL, 0) == wrong_length);
    expect("no marks, no frame, no header", gvz_lay_in_marked(edition, header, 188, frame, 26, NULL, 0) == wrong_length
            && gvz_lay_in_marked(edition, header, 188, NULL, 0, marks, 26) == wrong_length
            && gvz_lay_in_marked(edition, NULL, 0, frame, 26, marks, 26) == wrong_length
            && gvz_lay_in_marked(edition, NULL, 0, NULL, 0, NULL, 0) == wrong_length);
}

static void test_null_ledger(uint32_t edition)
{
    uint8_t text[sizeof TWO_PIECES_TEXT] = {0};
    const uint8_t *frame = frame_of(ALL_AREAS), *report = (const uint8_t *)TWO_PIECES_TEXT;
    uint64_t ledger[GVZ_LEDGER_VALUES];
    const uint32_t wrong_length = GVZ_REFUSAL_WRONG_LENGTH, impossible = GVZ_REFUSAL_IMPOSSIBLE_LEDGER;

    memcpy(ledger, TWO_PIECES, sizeof ledger);
    expect_left("no frame is counted as refused", gvz_ledger_count(edition, ledger, 12, NULL, 0), 0, ledger, one_more(TWO_PIECES, 1, 0),
        sizeof ledger);
    expect("no ledger", gvz_ledger_count(edition, NULL, 0, frame, 26) == wrong_length && gvz_ledger_count(edition, NULL, 0, NULL, 0) == wrong_length
            && gvz_ledger_length(NULL, 0) == wrong_length);
    expect("no ledger to print", gvz_ledger_print(NULL, 0, text, 137) == wrong_length && gvz_ledger_print(NULL, 0, NULL, 0) == wrong_length);
    expect("no buffer", gvz_ledger_print(TWO_PIECES, 12, NULL, 0) == GVZ_REFUSAL_BUFFER_SIZE
            && gvz_ledger_print(IMPOSSIBLE[0].ledger, 12, NULL, 0) == impossible);
    memcpy(ledger, IMPOSSIBLE[0].ledger, sizeof ledger);
    expect_left("no text", gvz_ledger_parse(NULL, 0, ledger, 12), impossible, ledger, IMPOSSIBLE[0].ledger, sizeof ledger);
    expect("no ledger to read into", gvz_ledger_parse(report, 137, NULL, 0) == wrong_length && gvz_ledger_parse(NULL, 0, NULL, 0) == wrong_length);
}

int main(void)
{
    test_repair();
    test_repair_marked();
    test_marks_outside();
    test_marked_lengths();
    test_frame_read();
    test_damage();
    test_safety_read();
    test_marked_damage();
    test_marked_refusals();
    test_marked_frames();
    test_frame_write();
    test_safety_write();
    test_origin();
    test_warned();
    test_report();
    test_safety_report();
    test_desk();
    test_follow();
    test_safety_follow();
    test_captures();
    test_safety_captures();
    test_ledgers();
    test_header_read();
    test_header_write();
    test_laying();
    test_safety_laying();
    test_marked_laying();
    test_marked_safety_laying();
    test_crc32();
    for (int i = 0; i < NUMBERS; i++) {
        test_null(EDITIONS[i]);
        test_null_marked(EDITIONS[i]);
        test_null_ledger(EDITIONS[i]);
    }
    if (failures == 0) {
        printf("c: all answers are as expected\n");
    }
    return failures != 0;
}
