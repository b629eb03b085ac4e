/* Gvozdyana: the exported functions of the archive libgvozdyana.a.
 *
 * Each function takes any numbers and any bytes, answers and stops. A slice is a pointer and a length, the number of
 * its elements. The caller must see to it that the pointer is good for as many elements as the length says and aligned
 * as their type asks (beside the length 0 it may be NULL), and that what a function writes overlaps nothing else that it
 * is handed. No function keeps anything between calls: several threads may call them at once, on buffers
 * that none of the others writes.
 *
 * Most functions return a status: the refusal's number in the low 8 bits, GVZ_REFUSAL(status), 0 where nothing was
 * refused, and above them what else the function tells. gvz_capture_source, gvz_capture_numbers and gvz_crc32
 * refuse nothing and return something else; what is said beside each function holds.
 *
 * A refusal tells its number alone, but for gvz_follow, and leaves every buffer as it was: look at GVZ_REFUSAL first,
 * since what stands above it means something only where that is 0. Refusal 1 is also given for a record, word,
 * place, field or ledger buffer of another length than the one named here, before anything else is looked at. Frames
 * and headers of another length get their 1 where document 01 tests it, and so do marks, together with their frame. The
 * buffer of a ledger's report has no length of its own, and another one than the report's is 27.
 *
 * Where a frame or a record is judged, the first parameter names the edition, an enum gvz_edition.
 */
#ifndef GVOZDYANA_H
#define GVOZDYANA_H

#include <stddef.h>
#include <stdint.h>

#ifdef __cplusplus
extern "C" {
#endif

#define GVZ_VERSION_MAJOR 0
#define GVZ_VERSION_MINOR 7
#define GVZ_VERSION_PATCH 0
#define GVZ_VERSION "0.7.0"

/* ---- Refusals */

/* Document 01's refusals, 1 to 15, and document 02's, 18, 19 and 27, by their numbers. No other number is given. */
enum gvz_refusal {
    GVZ_REFUSAL_NONE = 0,
    /* a frame or its marks are not 26 bytes, a header is not 188, a frame number is past the capture, or a buffer has
     * another length than the one named beside the function */
    GVZ_REFUSAL_WRONG_LENGTH = 1,
    /* a filler bit is 1 */
    GVZ_REFUSAL_FILLER_SET = 2,
    /* four bits or more of B1 to B16 differ from both patterns */
    GVZ_REFUSAL_NO_PATTERN = 3,
    /* no code word lies within eight places; with doubtful marks, none is as near as they ask */
    GVZ_REFUSAL_BEYOND_REPAIR = 4,
    /* the CRC differs, in the repaired word */
    GVZ_REFUSAL_FRAME_CRC = 5,
    /* the edition named does not have the identification: 4, in the first edition 5 and 6 too, and in a record those
     * above 7 */
    GVZ_REFUSAL_IDENTIFICATION = 6,
    /* start/end or update is not as the identification asks by the edition named */
    GVZ_REFUSAL_START_END_OR_UPDATE = 7,
    /* a bit fixed at 1 is 0 */
    GVZ_REFUSAL_FIXED_BIT = 8,
    /* page 1, kind 0: latitude is over 900 tenths, or longitude over 1800 */
    GVZ_REFUSAL_OVER_LIMIT = 9,
    /* a record to be written has a field wider than its place, or not 0 where none is left free */
    GVZ_REFUSAL_FIELD = 10,
    /* a double is no field value's image */
    GVZ_REFUSAL_NO_IMAGE = 11,
    /* header byte 0 is not 0x47 */
    GVZ_REFUSAL_PACKET_SYNC = 12,
    /* the header's CRC does not come out zero */
    GVZ_REFUSAL_HEADER_CRC = 13,
    /* the multiplex form is not 0x1 */
    GVZ_REFUSAL_MULTIPLEX_FORM = 14,
    /* a header bit fixed at 1 is 0, or a reception state is 11 */
    GVZ_REFUSAL_HEADER_BITS = 15,
    /* no list of at most 4,000,000 frames gives the ledger, or the bytes are not the report of a ledger that one gives */
    GVZ_REFUSAL_IMPOSSIBLE_LEDGER = 18,
    /* the ledger has 4,000,000 frames */
    GVZ_REFUSAL_LEDGER_FULL = 19,
    /* a buffer for a ledger's report has another size than the report */
    GVZ_REFUSAL_BUFFER_SIZE = 27
};

/* The refusal of a status, an enum gvz_refusal: 0 where nothing was refused. */
#define GVZ_REFUSAL(status) ((status) & 255u)

/* ---- The warning frame */

/* The bytes of a frame, and the values of its record. */
#define GVZ_FRAME_BYTES 26
#define GVZ_FRAME_VALUES 21

/* Areas are numbered from 0 to GVZ_AREAS - 1, in the order of the notice's schedule 2; 15 is Tokyo. */
#define GVZ_AREAS 56

/* The repaired places, 0 to 8, of a status of gvz_repair, gvz_repair_register, gvz_repair_marked and
 * gvz_frame_judge_marked. Those of gvz_frame_read and gvz_frame_read_marked stand in the record, at
 * GVZ_RECORD_REPAIRED: of their status this is 0. */
#define GVZ_REPAIRED(status) ((status) >> 8 & 255u)

/* How many bits of B1 to B16 differed from the pattern, 0 to 3, of a status of gvz_frame_read, gvz_frame_read_marked
 * and gvz_frame_judge_marked; they are not among the repaired places. */
#define GVZ_SYNC_BITS(status) ((status) >> 16 & 255u)

/* Whether the area is warned, 1 or 0, of a status of gvz_warned whose GVZ_REFUSAL is 0. At a refusal it is 0 too, which
 * says nothing of the area. */
#define GVZ_WARNED(status) ((status) >> 8)

/* The editions: which services the box relays, and so which identifications a frame may have. Any other number is taken
 * for the first. Frames and records of the identifications that both have are answered alike by both. */
enum gvz_edition {
    /* warnings and no information */
    GVZ_EDITION_FIRST = 0,
    /* and area safety information */
    GVZ_EDITION_AREA_SAFETY = 1
};

/* The tuners: which one gvz_capture_source takes a frame from, which one gvz_frame_read is told, and which one a record
 * holds. */
enum gvz_tuner {
    /* neither tuner, or none was told; a record made at the desk has it */
    GVZ_TUNER_NONE = 0,
    GVZ_TUNER_MAIN = 1,
    GVZ_TUNER_SPARE = 2
};

/* What a frame announces, record[GVZ_RECORD_IDENTIFICATION]. 4 is undefined, and refused; so are 5 and 6 in the first
 * edition. */
enum gvz_identification {
    GVZ_IDENTIFICATION_WARNING_WITH_AREA = 0,
    GVZ_IDENTIFICATION_WARNING_WITHOUT_AREA = 1,
    GVZ_IDENTIFICATION_TEST_WITH_AREA = 2,
    GVZ_IDENTIFICATION_TEST_WITHOUT_AREA = 3,
    GVZ_IDENTIFICATION_AREA_SAFETY = 5,
    GVZ_IDENTIFICATION_AREA_SAFETY_TEST = 6,
    GVZ_IDENTIFICATION_NO_INFORMATION = 7
};

/* Where the fields stand in a record of GVZ_FRAME_VALUES, and how many bits each has. A field that identification,
 * page and kind do not leave free is 0: a record of zeros is a warning for ALL areas. The last two stand in no frame:
 * they say where the record came from. No rule looks at them, so any numbers may stand there. */
enum gvz_record_index {
    /* 1 bit: B0, the differential reference, carried as it stands */
    GVZ_RECORD_REFERENCE = 0,
    /* 1 bit: 0 for the pattern 0011010111101110 in B1 to B16, 1 for its complement; received bits may differ from it in
     * up to three places, written ones are its own */
    GVZ_RECORD_PATTERN = 1,
    /* 3 bits: an enum gvz_identification */
    GVZ_RECORD_IDENTIFICATION = 2,
    /* Update and time: identification 0 to 3, 5 and 6; 0 for 7, although its frame holds ones there. */
    /* 2 bits: goes 0, 1, 2, 3 and back to 0, so that the greater one is not the newer one (gvz_follow) */
    GVZ_RECORD_UPDATE = 3,
    /* 31 bits: the current time, a plain number that is carried as it stands */
    GVZ_RECORD_TIME = 4,
    /* 1 bit: 0 for areas, 1 for a place or a cancellation; identification 0 to 3 alone */
    GVZ_RECORD_PAGE = 5,
    /* 56 bits: area 0 highest, and 0 MEANS WARNED. It means something only on page 0 of identification 0 to 3;
     * elsewhere it is 0 and nobody is warned. Ask gvz_warned, which looks at all of that. */
    GVZ_RECORD_AREAS = 6,
    /* From here to GVZ_RECORD_OCCURRED: page 1 of identification 0 to 3 alone. */
    /* 1 bit: how many places are being sent, 0 for one and 1 for two */
    GVZ_RECORD_TOTAL = 7,
    /* 1 bit: tells the places that are being sent apart; the notice gives its values no order */
    GVZ_RECORD_ITEM = 8,
    /* 9 bits: the warning number */
    GVZ_RECORD_NUMBER = 9,
    /* 1 bit: 0 for a place, 1 for a cancellation, which leaves the six after it 0 */
    GVZ_RECORD_KIND = 10,
    /* 1 bit: 0 north, 1 south */
    GVZ_RECORD_SOUTH = 11,
    /* 10 bits: tenths of a degree, 0 to 900 */
    GVZ_RECORD_LATITUDE = 12,
    /* 1 bit: 0 east, 1 west */
    GVZ_RECORD_WEST = 13,
    /* 11 bits: tenths of a degree, 0 to 1800 */
    GVZ_RECORD_LONGITUDE = 14,
    /* 10 bits: kilometres */
    GVZ_RECORD_DEPTH = 15,
    /* 10 bits: the time of occurrence, a plain number that is carried as it stands */
    GVZ_RECORD_OCCURRED = 16,
    /* 11 bits: the broadcaster number, of identification 7 alone */
    GVZ_RECORD_BROADCASTER = 17,
    /* 57 bits, B55 highest: the target region of identification 5 and 6 alone, carried as it stands */
    GVZ_RECORD_REGION = 18,
    /* the tuner that the reader was told, an enum gvz_tuner; GVZ_TUNER_NONE in a record made at the desk */
    GVZ_RECORD_TUNER = 19,
    /* how many places of B17 to B203 the reader repaired, 0 to 8, the unmarked ones alone where it was given marks; 0
     * in a record made at the desk */
    GVZ_RECORD_REPAIRED = 20
};

/* The repair asked for alone: looks at B17 to B203 of the frame. Returns a status: refuses 1, then 4; tells the
 * repaired places. Repaired, word, of GVZ_FRAME_BYTES, holds the code word within eight places, B17 to B203 at their
 * places and 0 elsewhere. A code word hit in up to eight places comes back as it was sent; hit in nine it is refused
 * 4; from ten hits on it is refused 4, or the word is another one, and hits and repaired places make at least 18
 * together. */
uint32_t gvz_repair(const uint8_t *frame, size_t frame_len, uint8_t *word, size_t word_len);

/* Returns the same by a second engine, which divides by a shift register bit by bit: slow, for comparison. */
uint32_t gvz_repair_register(const uint8_t *frame, size_t frame_len, uint8_t *word, size_t word_len);

/* Doubtful marks: GVZ_FRAME_BYTES bytes that come beside a frame, in which Bk is 1 where the frame's Bk is doubtful.
 * Only the marks of B17 to B203 count, s of them set; the bits received under them do not matter. In the functions that
 * take marks, the code word that differs in t unmarked places with 2 t + s at most 17 stands in the place of the one
 * within eight places. There is never more than one; where there is none, as always from 18 marks on, the refusal is 4.
 * The repaired places are t, 0 to 8. With no mark set they answer as the functions without marks do. */

/* The repair with doubtful marks, asked for alone: looks at B17 to B203 of the frame and of its marks. Returns a status:
 * refuses 1, for the frame or for the marks, then 4; tells the repaired places. Repaired, word, of GVZ_FRAME_BYTES,
 * holds the code word, B17 to B203 at their places and 0 elsewhere. */
uint32_t gvz_repair_marked(const uint8_t *frame, size_t frame_len, const uint8_t *marks, size_t marks_len, uint8_t *word,
    size_t word_len);

/* Reads a frame into a record of GVZ_FRAME_VALUES, by the edition named. The tuner, an enum gvz_tuner, is told and goes
 * into the record; it changes nothing else. Hand over what gvz_capture_source answered, or GVZ_TUNER_NONE where the
 * frame came from no tuner; any other number is taken for none. Returns a status: refuses 1 to 9; tells the bits of B1
 * to B16 that differed, GVZ_SYNC_BITS, which the record does not hold: written again, the frame has the clean pattern.
 * The repaired places stand in the record. */
uint32_t gvz_frame_read(uint32_t edition, uint32_t tuner, const uint8_t *frame, size_t frame_len, uint64_t *record,
    size_t record_len);

/* The same of a frame with its doubtful marks. Returns a status: refuses 1, for the frame or for the marks, then 2 to
 * 9; tells GVZ_SYNC_BITS, as gvz_frame_read does. Marks on B1 to B16 change nothing. */
uint32_t gvz_frame_read_marked(uint32_t edition, uint32_t tuner, const uint8_t *frame, size_t frame_len,
    const uint8_t *marks, size_t marks_len, uint64_t *record, size_t record_len);

/* Judges a frame with its doubtful marks by the first edition, and makes no record. Returns a status: refuses as
 * gvz_frame_read_marked does; tells the repaired places, GVZ_REPAIRED, and GVZ_SYNC_BITS. */
uint32_t gvz_frame_judge_marked(const uint8_t *frame, size_t frame_len, const uint8_t *marks, size_t marks_len);

/* Writes a record of GVZ_FRAME_VALUES into a frame of GVZ_FRAME_BYTES, by the edition named; the tuner and the repaired
 * places are not looked at. So the record, read again, has the tuner then told and no repaired place, and is the same
 * in all else. Returns a status: refuses 1, then 6, 10, 9; tells nothing. */
uint32_t gvz_frame_write(uint32_t edition, const uint64_t *record, size_t record_len, uint8_t *frame, size_t frame_len);

/* Whether a record of GVZ_FRAME_VALUES warns an area: identification 0 to 3, page 0, and the area's bit is 0. Returns
 * a status: refuses 1 for a record of another length, and nothing else; tells GVZ_WARNED, which is 0 for an area
 * above 55. */
uint32_t gvz_warned(const uint64_t *record, size_t record_len, uint64_t area);

/* ---- The place in degrees */

#define GVZ_PLACE_VALUES 3
#define GVZ_DESK_VALUES 5

/* The case of a status of gvz_report whose GVZ_REFUSAL is 0, an enum gvz_report_case. At a refusal it is 0 too, which
 * does not mean GVZ_REPORT_NOTHING. */
#define GVZ_REPORT_CASE(status) ((status) >> 8)

enum gvz_report_case {
    GVZ_REPORT_NOTHING = 0,
    GVZ_REPORT_PLACE = 1,
    GVZ_REPORT_CANCELLATION = 2,
    GVZ_REPORT_AREAS_ONLY = 3,
    GVZ_REPORT_AREA_SAFETY = 4
};

/* Where the doubles of a place stand. */
enum gvz_place_index {
    GVZ_PLACE_LATITUDE = 0,  /* degrees, negative for south; minus zero is a southern 0 */
    GVZ_PLACE_LONGITUDE = 1, /* degrees, negative for west */
    GVZ_PLACE_DEPTH = 2      /* kilometres */
};

/* Where the desk's field values stand: units and widths are those of the record's fields of the same names. */
enum gvz_desk_index {
    GVZ_DESK_SOUTH = 0,
    GVZ_DESK_LATITUDE = 1,
    GVZ_DESK_WEST = 2,
    GVZ_DESK_LONGITUDE = 3,
    GVZ_DESK_DEPTH = 4
};

/* What a record of GVZ_FRAME_VALUES reports, by the edition named. Returns a status: refuses 6, 10 or 9, as the writer
 * does; tells the case. GVZ_PLACE_VALUES doubles are written for a place alone. */
uint32_t gvz_report(uint32_t edition, const uint64_t *record, size_t record_len, double *place, size_t place_len);

/* The desk's place as GVZ_DESK_VALUES field values. Returns a status: refuses 11 unless each double has the very bits
 * of an allowed field value's image (latitude 0 to 900 tenths, longitude 0 to 1800, both signs; depth 0 to 1023);
 * tells nothing. */
uint32_t gvz_desk(double latitude, double longitude, double depth, uint64_t *fields, size_t fields_len);

/* ---- Following the update number */

/* The states' numbers, for an update number u from 0 to 3; any other number is taken for quiet. */
#define GVZ_STATE_QUIET 0u
#define GVZ_STATE_REAL(u) (4u + (u))
#define GVZ_STATE_TEST(u) (8u + (u))
#define GVZ_STATE_SAFETY(u) (12u + (u))
#define GVZ_STATE_SAFETY_TEST(u) (16u + (u))

/* The event, an enum gvz_event, and the new state's number of a status of gvz_follow, at a refusal too. Hand
 * GVZ_STATE(status), and not the status, to the next call. */
#define GVZ_EVENT(status) ((status) >> 8 & 255u)
#define GVZ_STATE(status) ((status) >> 16)

enum gvz_event {
    GVZ_EVENT_QUIET = 0,
    GVZ_EVENT_ENDED = 1,
    GVZ_EVENT_BEGINS = 2,
    GVZ_EVENT_SAME = 3,
    GVZ_EVENT_CHANGED = 4,
    GVZ_EVENT_SKIPPED = 5,
    GVZ_EVENT_REFUSED = 6
};

/* One step of the follower, from the state with this number, by the edition named. Returns a status: refuses 1 to 9;
 * tells the event and the new state's number, at a refusal too: then the event is GVZ_EVENT_REFUSED and the state is
 * the old one, which is GVZ_STATE_QUIET where the number handed in is that of no state. Begin with GVZ_STATE_QUIET,
 * and with it again after a reset. */
uint32_t gvz_follow(uint32_t edition, uint32_t state, const uint8_t *frame, size_t frame_len);

/* ---- Two tuners */

/* Which capture frame n, counted from 0, is taken from: main if it is accepted there by the edition named, otherwise
 * spare if it is accepted there. Returns an enum gvz_tuner, GVZ_TUNER_NONE where neither has it, and no status. The
 * frame's bytes are the 26 from byte 26 n on of that capture, as received, damage included. Captures have any length,
 * and a frame number past a capture is not accepted there. */
uint32_t gvz_capture_source(uint32_t edition, const uint8_t *main_capture, size_t main_len,
    const uint8_t *spare_capture, size_t spare_len, uint64_t n);

/* What frame n is refused for by the edition named in both captures, 0 for accepted; a frame number past a capture
 * is 1 there. Returns the two numbers, GVZ_MAIN_REFUSAL and GVZ_SPARE_REFUSAL, and no status. */
uint32_t gvz_capture_numbers(uint32_t edition, const uint8_t *main_capture, size_t main_len,
    const uint8_t *spare_capture, size_t spare_len, uint64_t n);

#define GVZ_MAIN_REFUSAL(numbers) ((numbers) & 255u)
#define GVZ_SPARE_REFUSAL(numbers) ((numbers) >> 8)

/* ---- The day's ledger */

/* The values of a ledger, the most frames that it counts, and the bytes of the longest report. */
#define GVZ_LEDGER_VALUES 12
#define GVZ_LEDGER_MOST_FRAMES 4000000
#define GVZ_LEDGER_REPORT_MOST 203

/* Where the numbers of a list of frames stand in a ledger of GVZ_LEDGER_VALUES; how many were refused with a number from
 * 1 to 9 stands at GVZ_LEDGER_REFUSED(number). Zeros are a fresh ledger, and a ledger is emptied by setting it to zeros.
 * The caller keeps it between calls. */
enum gvz_ledger_index {
    /* all frames: those refused and those accepted together */
    GVZ_LEDGER_SEEN = 0,
    GVZ_LEDGER_ACCEPTED = 10,
    /* the repaired places of all accepted frames together */
    GVZ_LEDGER_REPAIRED = 11
};

#define GVZ_LEDGER_REFUSED(number) (number)

/* A ledger is possible where some list of at most GVZ_LEDGER_MOST_FRAMES frames gives it: the frames seen are the sum of
 * those refused and those accepted, and at most so many, and the repaired places are at most eight times those accepted.
 *
 * Its report is a line for each number, in their order: a name, a space, the number in decimal digits without a 0 before
 * others, and the byte 0x0A, after the last line too. The names are `seen`, `refused 1` to `refused 9`, `accepted` and
 * `repaired`. It has 137 to GVZ_LEDGER_REPORT_MOST bytes. */

/* The bytes of the report of a status of gvz_ledger_length whose GVZ_REFUSAL is 0. */
#define GVZ_LEDGER_LENGTH(status) ((status) >> 8)

/* Counts one more frame, of any bytes, in a ledger of GVZ_LEDGER_VALUES, in place: as one refused with the number that
 * gvz_frame_read refuses it with by the edition named, or as one accepted, with its repaired places. Of a fresh ledger
 * and a list of at most GVZ_LEDGER_MOST_FRAMES frames, counted one by one, each number is what the list itself says.
 * What a frame is refused for is counted, and not returned. Returns a status: refuses 1 for a ledger of another length,
 * then 18 for one that is not possible, then 19 for one that has GVZ_LEDGER_MOST_FRAMES frames already; tells nothing. */
uint32_t gvz_ledger_count(uint32_t edition, uint64_t *ledger, size_t ledger_len, const uint8_t *frame, size_t frame_len);

/* How long the report of a ledger of GVZ_LEDGER_VALUES is. Returns a status: refuses 1, then 18 for a ledger that is not
 * possible; tells GVZ_LEDGER_LENGTH. */
uint32_t gvz_ledger_length(const uint64_t *ledger, size_t ledger_len);

/* Prints the report of a ledger of GVZ_LEDGER_VALUES into a text of just its length, without a zero byte behind it.
 * Returns a status: refuses 1 for a ledger of another length, then 18 for one that is not possible, then 27 for a text of
 * another length; tells nothing. */
uint32_t gvz_ledger_print(const uint64_t *ledger, size_t ledger_len, uint8_t *text, size_t text_len);

/* Reads a report into a ledger of GVZ_LEDGER_VALUES, in which any numbers may have stood. Returns a status: refuses 1 for
 * a ledger of another length, then 18 exactly where the text is not, byte for byte, the report of some possible ledger;
 * tells nothing. */
uint32_t gvz_ledger_parse(const uint8_t *text, size_t text_len, uint64_t *ledger, size_t ledger_len);

/* ---- The cable header */

/* The bytes of a header, and the values of its record. */
#define GVZ_CABLE_BYTES 188
#define GVZ_CABLE_VALUES 145

/* Where the fields stand in a header's record of GVZ_CABLE_VALUES, and how many bits each has. Fixed bits and CRC are
 * not in it. */
enum gvz_header_index {
    GVZ_HEADER_PACKET = 0,       /* 32 bits: the packet header, byte 0 highest, which is 0x47 */
    GVZ_HEADER_FRAME_SYNC = 1,   /* 16 bits: the multiplex frame's sync */
    GVZ_HEADER_CHANGE = 2,       /* 3 bits: the change number */
    GVZ_HEADER_METHOD = 3,       /* 1 bit: the slot arrangement, carried as it stands */
    GVZ_HEADER_FORM = 4,         /* 4 bits: the multiplex form, 0x1 */
    GVZ_HEADER_VALID = 5,        /* 15 values of 1 bit: streams 1 to 15, 1 for valid */
    GVZ_HEADER_IDENTIFIERS = 20, /* 30 values of 16 bits: stream id and original network id of streams 1 to 15, in turn */
    GVZ_HEADER_STATES = 50,      /* 15 values of 2 bits: reception states of streams 1 to 15, 0 (best), 1 or 2 */
    GVZ_HEADER_CARRIED = 65,     /* 1 bit: carried as it stands */
    GVZ_HEADER_EMERGENCY = 66,   /* 1 bit: emergency start */
    GVZ_HEADER_SLOTS = 67,       /* 52 values of 4 bits: the stream of slots 2 to 53, 0 for an empty one */
    GVZ_HEADER_AC = 119          /* 25 values of 8 bits, 1 of 4: the AC frame's 204 bits; all ones when none is sent */
};

/* The 26 bytes of the AC frame in a header's record are its 25 values as they stand, and the last one times 16, so that
 * the four filler bits are 0. */

/* Reads a header of GVZ_CABLE_BYTES into a record of GVZ_CABLE_VALUES. Returns a status: refuses 1, 12, 13, 14, 15;
 * tells nothing. */
uint32_t gvz_header_read(const uint8_t *header, size_t header_len, uint64_t *record, size_t record_len);

/* Writes a record of GVZ_CABLE_VALUES into a header of GVZ_CABLE_BYTES. Returns a status: refuses 1, then 10, 12, 14,
 * 15; tells nothing. */
uint32_t gvz_header_write(const uint64_t *record, size_t record_len, uint8_t *header, size_t header_len);

/* Lays a frame, repaired and with the clean pattern, into a header, in place. Returns a status: refuses the header as
 * gvz_header_read does, then the frame as gvz_frame_read does by the edition named; tells nothing. */
uint32_t gvz_lay_in(uint32_t edition, uint8_t *header, size_t header_len, const uint8_t *frame, size_t frame_len);

/* The same of a frame with its doubtful marks. Returns a status: refuses the header as gvz_header_read does, then the
 * frame as gvz_frame_read_marked does by the edition named; tells nothing. */
uint32_t gvz_lay_in_marked(uint32_t edition, uint8_t *header, size_t header_len, const uint8_t *frame, size_t frame_len,
    const uint8_t *marks, size_t marks_len);

/* Writes 204 ones instead of a header's frame, in place. Returns a status: refuses as gvz_header_read does; tells
 * nothing. */
uint32_t gvz_take_out(uint8_t *header, size_t header_len);

/* The CRC-32 of any bytes, as the header's is taken of bytes 4 to 183 (ITU-T H.222.0: polynomial 0x04C11DB7, register
 * all ones at the start, nothing reflected or inverted). Bytes that end in their own CRC, highest byte first, have
 * the CRC 0. Returns the CRC and no status; refuses nothing. */
uint32_t gvz_crc32(const uint8_t *bytes, size_t bytes_len);

#ifdef __cplusplus
}
#endif

#endif
