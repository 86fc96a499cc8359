/*
 * Calls the archives through include/thawtrundle.h on cases from standard input, and compares what it answers and every lent byte.
 *
 *   driver NAME      NAME: join replace type join_codes replace_codes marks record stretch single ligature read plan switch
 *
 * It prints what the proved program replay_NAME prints. A written byte outside the lent memory, and a changed one in a column
 * that is only read, count as differing. Status 0: nothing differs. 1: something differs, or is unreadable. 2: bad usage.
 * How a case is read is in cases.h, its columns are in oracle/README.md.
 */
#include "thawtrundle.h"

#include "cases.h"

int strcmp(const char *a, const char *b);

#define COUNT(list) (sizeof(list) / sizeof((list)[0]))
#define PROGRAM(name, body_room) {#name, body_room, name##_in, COUNT(name##_in), name##_out, COUNT(name##_out), call_##name}

/* A column in a call: its pointer and its length. */
#define LENT(room) (room).at, (room).count

/* Forms of columns: a yes-or-no, so many numbers, a list. */
#define FLAG {1, 1, 1, true}
#define FLAGS(count) {1, count, count, true}
#define NUMBERS(width, count) {width, count, count, false}
#define LIST(width, most) {width, 0, most, false}

/* What a replay program has room for: a little more than the limits. */
enum { LINE = 4200, CONTEXT = 80, STRETCHED = 16400, ROWS = 1040, MAP = 4096, SINGLES = 33000, FLAT = 40000, LIGATURES = 16500, AREA = 132000 };

/* ---- Lines. The columns that go in, up to the masks before the call, are the same for both. */

#define LINE_COLUMNS \
    FLAG, NUMBERS(4, 7), LIST(1, CONTEXT), LIST(1, CONTEXT), LIST(1, CONTEXT), LIST(1, CONTEXT), LIST(4, LINE), LIST(1, LINE), \
        LIST(1, LINE), LIST(4, LINE), LIST(1, LINE), LIST(4, LINE)

enum { MONGOLIAN, FEATURES, PRE_TYPES, PRE_CATEGORIES, POST_TYPES, POST_CATEGORIES, CODES, TYPES, CATEGORIES, BASE, ACTIONS, MASKS, PLACE, CODE, TYPE, CATEGORY };

static const struct form join_in[] = {LINE_COLUMNS};
static const unsigned join_out[] = {1, 1, 4};

static bool call_join(const struct room *in, struct room *out) {
    out[0] = one_byte(tt_join_line(
        LENT(in[CODES]), LENT(in[TYPES]), LENT(in[CATEGORIES]), LENT(in[PRE_TYPES]), LENT(in[PRE_CATEGORIES]), LENT(in[POST_TYPES]),
        LENT(in[POST_CATEGORIES]), LENT(in[BASE]), in[FEATURES].at, yes_or_no(in[MONGOLIAN], 0), LENT(in[ACTIONS]), LENT(in[MASKS])));
    out[1] = in[ACTIONS];
    out[2] = in[MASKS];
    return true;
}

static const struct form replace_in[] = {LINE_COLUMNS, NUMBERS(4, 1), NUMBERS(4, 1), NUMBERS(1, 1), NUMBERS(1, 1)};
static const unsigned replace_out[] = {1, 4, 1, 1, 1, 4};

static bool call_replace(const struct room *in, struct room *out) {
    out[0] = one_byte(tt_replace_letter(
        LENT(in[CODES]), LENT(in[TYPES]), LENT(in[CATEGORIES]), LENT(in[PRE_TYPES]), LENT(in[PRE_CATEGORIES]), LENT(in[POST_TYPES]),
        LENT(in[POST_CATEGORIES]), LENT(in[BASE]), in[FEATURES].at, yes_or_no(in[MONGOLIAN], 0), LENT(in[ACTIONS]), LENT(in[MASKS]),
        (size_t)element(in[PLACE], 0), (uint32_t)element(in[CODE], 0), (uint8_t)element(in[TYPE], 0), (uint8_t)element(in[CATEGORY], 0)));
    out[1] = in[CODES];
    out[2] = in[TYPES];
    out[3] = in[CATEGORIES];
    out[4] = in[ACTIONS];
    out[5] = in[MASKS];
    return true;
}

/* ---- Types from Unicode. A call for each code of the column. */

static const struct form type_in[] = {LIST(4, LINE)};
static const unsigned type_out[] = {1};

static bool call_type(const struct room *in, struct room *out) {
    struct room types = answer(1, in[0].count);
    for (size_t i = 0; i < in[0].count; i++) put_byte(types, i, tt_joining_type((uint32_t)element(in[0], i)));
    out[0] = types;
    return true;
}

/* ---- Lines by codes. The columns that go in, up to the masks before the call, are the same for both. */

#define CODED_COLUMNS \
    FLAG, NUMBERS(4, 7), LIST(4, CONTEXT), LIST(1, CONTEXT), LIST(4, CONTEXT), LIST(1, CONTEXT), LIST(4, LINE), LIST(1, LINE), \
        LIST(4, LINE), LIST(1, LINE), LIST(4, LINE)

/* Up to the codes they stand where those of a line with types do. */
enum { PRE_CODES = PRE_TYPES, POST_CODES = POST_TYPES };
enum { CODED_CATEGORIES = CODES + 1, CODED_BASE, CODED_ACTIONS, CODED_MASKS, CODED_PLACE, CODED_CODE, CODED_CATEGORY };

static const struct form join_codes_in[] = {CODED_COLUMNS};
static const unsigned join_codes_out[] = {1, 1, 4};

static bool call_join_codes(const struct room *in, struct room *out) {
    out[0] = one_byte(tt_join_codes(
        LENT(in[CODES]), LENT(in[CODED_CATEGORIES]), LENT(in[PRE_CODES]), LENT(in[PRE_CATEGORIES]), LENT(in[POST_CODES]),
        LENT(in[POST_CATEGORIES]), LENT(in[CODED_BASE]), in[FEATURES].at, yes_or_no(in[MONGOLIAN], 0), LENT(in[CODED_ACTIONS]),
        LENT(in[CODED_MASKS])));
    out[1] = in[CODED_ACTIONS];
    out[2] = in[CODED_MASKS];
    return true;
}

static const struct form replace_codes_in[] = {CODED_COLUMNS, NUMBERS(4, 1), NUMBERS(4, 1), NUMBERS(1, 1)};
static const unsigned replace_codes_out[] = {1, 4, 1, 1, 4};

static bool call_replace_codes(const struct room *in, struct room *out) {
    out[0] = one_byte(tt_replace_code(
        LENT(in[CODES]), LENT(in[CODED_CATEGORIES]), LENT(in[PRE_CODES]), LENT(in[PRE_CATEGORIES]), LENT(in[POST_CODES]),
        LENT(in[POST_CATEGORIES]), LENT(in[CODED_BASE]), in[FEATURES].at, yes_or_no(in[MONGOLIAN], 0), LENT(in[CODED_ACTIONS]),
        LENT(in[CODED_MASKS]), (size_t)element(in[CODED_PLACE], 0), (uint32_t)element(in[CODED_CODE], 0),
        (uint8_t)element(in[CODED_CATEGORY], 0)));
    out[1] = in[CODES];
    out[2] = in[CODED_CATEGORIES];
    out[3] = in[CODED_ACTIONS];
    out[4] = in[CODED_MASKS];
    return true;
}

/* ---- Marks: codes, classes; start, end; the two lent classes. */

static const struct form marks_in[] = {LIST(4, LINE), LIST(1, LINE), NUMBERS(4, 1), NUMBERS(4, 1), NUMBERS(1, 2)};
static const unsigned marks_out[] = {1, 4, 4, 1};

static bool call_marks(const struct room *in, struct room *out) {
    struct room count = answer(sizeof(size_t), 1), ranges = answer(sizeof(size_t), 4);
    out[0] = one_byte(tt_reorder_modifier_combining_marks(
        LENT(in[0]), LENT(in[1]), (size_t)element(in[2], 0), (size_t)element(in[3], 0), (uint8_t)element(in[4], 0),
        (uint8_t)element(in[4], 1), count.at, ranges.at));
    size_t told = element(count, 0) <= 2 ? 2 * (size_t)element(count, 0) : 0;
    out[1] = as_numbers(ranges, told);
    out[2] = in[0];
    out[3] = in[1];
    return element(count, 0) <= 2 && zeros_from(ranges, told);
}

/* ---- Stretching. */

static const struct form record_in[] = {NUMBERS(4, 1), LIST(1, LINE), LIST(1, LINE), LIST(1, LINE)};
static const unsigned record_out[] = {1, 1, 1};

static bool call_record(const struct room *in, struct room *out) {
    struct room recorded = answer(sizeof(bool), 1);
    out[0] = one_byte(tt_record_stch((uint32_t)element(in[0], 0), LENT(in[1]), LENT(in[2]), LENT(in[3]), recorded.at));
    out[1] = recorded;
    out[2] = in[3];
    return true;
}

#define SEVEN_COLUMNS(most) LIST(4, most), LIST(4, most), LIST(1, most), LIST(1, most), LIST(1, most), LIST(4, most), LIST(4, most)

/* Where the seven columns of the line begin, and those of the output. */
enum { FROM = 2, TO = 9 };

static const struct form stretch_in[] = {FLAG, FLAG, SEVEN_COLUMNS(LINE), SEVEN_COLUMNS(STRETCHED)};
static const unsigned stretch_out[] = {1, 4, 4, 4, 1, 1, 1, 4, 4};

static bool call_stretch(const struct room *in, struct room *out) {
    struct room length = answer(sizeof(size_t), 1);
    const struct room *from = in + FROM, *to = in + TO;
    out[0] = one_byte(tt_stretch(
        yes_or_no(in[0], 0), yes_or_no(in[1], 0), LENT(from[0]), LENT(from[1]), LENT(from[2]), LENT(from[3]), LENT(from[4]),
        LENT(from[5]), LENT(from[6]), LENT(to[0]), LENT(to[1]), LENT(to[2]), LENT(to[3]), LENT(to[4]), LENT(to[5]), LENT(to[6]),
        length.at));
    out[1] = as_numbers(length, 1);
    for (size_t i = 0; i < 7; i++) out[2 + i] = to[i];
    return true;
}

/* ---- Lookups. */

static const struct form single_in[] = {NUMBERS(2, 1), LIST(2, SINGLES), LIST(2, SINGLES), LIST(1, AREA)};
static const unsigned single_out[] = {1, 4, 1};

static bool call_single(const struct room *in, struct room *out) {
    struct room length = answer(sizeof(size_t), 1);
    out[0] = one_byte(tt_serialize_single_lookup(LENT(in[1]), LENT(in[2]), (uint16_t)element(in[0], 0), LENT(in[3]), length.at));
    out[1] = as_numbers(length, 1);
    out[2] = in[3];
    return true;
}

static const struct form ligature_in[] = {NUMBERS(1, 1), NUMBERS(2, 1), LIST(2, FLAT), LIST(2, LIGATURES), LIST(1, AREA)};
static const unsigned ligature_out[] = {1, 4, 1};

static bool call_ligature(const struct room *in, struct room *out) {
    struct room length = answer(sizeof(size_t), 1);
    out[0] = one_byte(tt_serialize_ligature_lookup(
        (uint8_t)element(in[0], 0), LENT(in[2]), LENT(in[3]), (uint16_t)element(in[1], 0), LENT(in[4]), length.at));
    out[1] = as_numbers(length, 1);
    out[2] = in[4];
    return true;
}

static const struct form read_in[] = {LIST(1, AREA), LIST(2, FLAT), LIST(2, SINGLES)};
static const unsigned read_out[] = {1, 1, 1, 2, 4, 2, 2};

static bool call_read(const struct room *in, struct room *out) {
    struct room kind = answer(1, 1), components = answer(1, 1), flags = answer(2, 1), count = answer(sizeof(size_t), 1);
    out[0] = one_byte(tt_read_lookup(LENT(in[0]), LENT(in[1]), LENT(in[2]), kind.at, components.at, flags.at, count.at));
    out[1] = kind;
    out[2] = components;
    out[3] = flags;
    out[4] = as_numbers(count, 1);
    out[5] = in[1];
    out[6] = in[2];
    return true;
}

/* ---- The fallback plan: masks; the font's codes and glyphs; shaping rows, forms; three lists of components and ligatures; area. */

static const struct form plan_in[] = {
    NUMBERS(4, 5), LIST(4, MAP), LIST(4, MAP), LIST(2, ROWS), LIST(2, 4 * ROWS), LIST(2, 3 * ROWS), LIST(2, ROWS), LIST(2, 2 * ROWS),
    LIST(2, ROWS), LIST(2, 2 * ROWS), LIST(2, ROWS), LIST(1, AREA)};
static const unsigned plan_out[] = {1, 1, 4, 4, 1};

static bool call_plan(const struct room *in, struct room *out) {
    struct room count = answer(sizeof(size_t), 1), masks = answer(4, 7), lengths = answer(4, 7);
    out[0] = one_byte(tt_fallback_plan(
        in[0].at, LENT(in[1]), LENT(in[2]), LENT(in[3]), LENT(in[4]), LENT(in[5]), LENT(in[6]), LENT(in[7]), LENT(in[8]), LENT(in[9]),
        LENT(in[10]), LENT(in[11]), count.at, masks.at, lengths.at));
    out[1] = as_bytes(count, 1);
    out[2] = masks;
    out[3] = lengths;
    out[4] = in[11];
    return true;
}

static const struct form switch_in[] = {FLAG, FLAGS(4)};
static const unsigned switch_out[] = {1};

static bool call_switch(const struct room *in, struct room *out) {
    out[0] = one_byte(tt_do_fallback(
        yes_or_no(in[0], 0), yes_or_no(in[1], 0), yes_or_no(in[1], 1), yes_or_no(in[1], 2), yes_or_no(in[1], 3)));
    return true;
}

/* ---- The programs, with the bytes of the longest body that each reads. */

static const struct program programs[] = {
    PROGRAM(join, 98304), PROGRAM(replace, 114688), PROGRAM(type, 24576), PROGRAM(join_codes, 98304), PROGRAM(replace_codes, 114688),
    PROGRAM(marks, 49152), PROGRAM(record, 20480), PROGRAM(stretch, 704512), PROGRAM(single, 397312), PROGRAM(ligature, 380928),
    PROGRAM(read, 425984), PROGRAM(plan, 335872), PROGRAM(switch, 64)};

int main(int count, char **words) {
    for (size_t i = 0; count == 2 && i < COUNT(programs); i++)
        if (strcmp(words[1], programs[i].name) == 0) return replay_all(&programs[i]) ? 0 : 1;
    complain("usage: driver NAME, one of join replace type join_codes replace_codes marks record stretch single ligature read plan switch\n");
    return 2;
}
