/*
 * Thawtrundle: joining of Arabic, Syriac and Mongolian lines, altering of held lines, joining types from Unicode, and the fallback's
 * lookups.
 *
 * tt_joining_type, tt_join_codes and tt_replace_code are in libthawtrundle_codes.a, all others in libthawtrundle.a, for x86-64 Linux
 * (`rt lib` in crates/thawtrundle_codes and in crates/thawtrundle proves and makes them). "Document 01" is the project's scope; the
 * statement of each call is in crates/thawtrundle_codes/src/lib.rt or crates/thawtrundle/src/lib.rt. tools/interface holds this file
 * to these.
 *
 * What every call has in common
 *
 * - A column is lent as a pointer to its first element and the number of its elements, NAME and NAME_length. Where the length is
 *   0, the pointer may be NULL: nothing is read or written through it. No other pointer may be NULL.
 * - A pointer is aligned for its element type; nothing more is asked for.
 * - What is lent as const is only read. What a call may write must overlap nothing else that is lent to it. Columns that are
 *   only read may overlap one another.
 * - A yes-or-no is a byte: 0 is no, anything else is yes.
 * - A call gives the number of its refusal, TT_ACCEPTED for none. Where several refusals apply, it is the smallest. A refusal
 *   is no fault of the program: every call is defined for any bytes in the columns and for any numbers.
 * - Whatever else a call answers, it writes to numbers lent for that; what they held before does not matter. With a refusal
 *   they are zeros, and every other lent byte is as it was.
 * - Nothing outside the lent columns and numbers is written. Output columns that are longer than the answer keep what stands
 *   behind it.
 * - No call allocates, keeps a pointer or has a state of its own. Calls of several threads at a time are fine, as long as none
 *   of them is lent what another may write.
 * - tt_fallback_plan uses about 82,000 bytes of the stack, tt_join_codes and tt_replace_code about 4,900, every other call less
 *   than 1,000. Nothing tests that they are there: a thread that makes plans, or joins by codes, needs a stack of this size beside
 *   its own needs. (docs/TRUST.md has the figures, and of which archives they are.)
 * - Of the C library the archives need memcpy and memset.
 */
#ifndef THAWTRUNDLE_H
#define THAWTRUNDLE_H

#include <stdbool.h>
#include <stddef.h>
#include <stdint.h>

#ifdef __cplusplus
extern "C" {
#endif

/* Numbers of refusal. Each call says below which of them it gives, and exactly when. */
enum {
    TT_ACCEPTED = 0,
    TT_UNEVEN = 1,       /* columns that belong together differ in length */
    TT_TOO_LONG = 2,     /* a line, a context or a rule list is longer than its limit */
    TT_OUT_OF_RANGE = 3, /* a number that is no type, category, action or component number; font codes that do not rise strictly */
    TT_PLACE = 4,        /* a place or a range that is not in the line */
    TT_OFFSET = 5,       /* a lookup offset or count above 65,535 */
    TT_STRETCHED = 6,    /* a stretched line of over 16,384 records */
    TT_NO_LOOKUP = 7,    /* bytes that are no written lookup */
    TT_NO_ROOM = 8       /* the lent output is shorter than the answer */
};

/* The version of Unicode whose joining types tt_joining_type, tt_join_codes and tt_replace_code go by (ArabicShaping.txt). */
#define TT_UNICODE_VERSION "18.0.0"

/* Joining types. X becomes T for the categories Mn, Me and Cf, and U otherwise. Joining causers are D. */
enum {
    TT_TYPE_U = 0,
    TT_TYPE_L = 1,
    TT_TYPE_R = 2,
    TT_TYPE_D = 3,
    TT_TYPE_ALAPH = 4,
    TT_TYPE_DALATH_RISH = 5,
    TT_TYPE_T = 6,
    TT_TYPE_X = 7
};

/* General categories, in the alphabetical order of Unicode's two-letter codes. */
enum {
    TT_CATEGORY_CC = 0,
    TT_CATEGORY_CF = 1,
    TT_CATEGORY_CN = 2,
    TT_CATEGORY_CO = 3,
    TT_CATEGORY_CS = 4,
    TT_CATEGORY_LL = 5,
    TT_CATEGORY_LM = 6,
    TT_CATEGORY_LO = 7,
    TT_CATEGORY_LT = 8,
    TT_CATEGORY_LU = 9,
    TT_CATEGORY_MC = 10,
    TT_CATEGORY_ME = 11,
    TT_CATEGORY_MN = 12,
    TT_CATEGORY_ND = 13,
    TT_CATEGORY_NL = 14,
    TT_CATEGORY_NO = 15,
    TT_CATEGORY_PC = 16,
    TT_CATEGORY_PD = 17,
    TT_CATEGORY_PE = 18,
    TT_CATEGORY_PF = 19,
    TT_CATEGORY_PI = 20,
    TT_CATEGORY_PO = 21,
    TT_CATEGORY_PS = 22,
    TT_CATEGORY_SC = 23,
    TT_CATEGORY_SK = 24,
    TT_CATEGORY_SM = 25,
    TT_CATEGORY_SO = 26,
    TT_CATEGORY_ZL = 27,
    TT_CATEGORY_ZP = 28,
    TT_CATEGORY_ZS = 29
};

/* Actions. Joining gives 0 to 7, recording 8 and 9. */
enum {
    TT_ACTION_ISOL = 0,
    TT_ACTION_FINA = 1,
    TT_ACTION_FIN2 = 2,
    TT_ACTION_FIN3 = 3,
    TT_ACTION_MEDI = 4,
    TT_ACTION_MED2 = 5,
    TT_ACTION_INIT = 6,
    TT_ACTION_NONE = 7,
    TT_ACTION_FIXED = 8,
    TT_ACTION_REPEATING = 9
};

/* Kinds of lookups as tt_read_lookup says them: OpenType's numbers. */
enum {
    TT_KIND_SINGLE = 1,
    TT_KIND_LIGATURE = 4
};

/* Limits. */
enum {
    TT_LINE_LIMIT = 4096,       /* records of a line */
    TT_CONTEXT_LIMIT = 64,      /* letters of a context */
    TT_STRETCHED_LIMIT = 16384, /* records of a stretched line: output columns of this length are never too short */
    TT_RULE_LIMIT = 1024,       /* rows of a rule list of the plan */
    TT_SINGLE_LIMIT = 32764,    /* rules of a single lookup */
    TT_LONGEST_SINGLE = 131074, /* bytes of the longest single lookup */
    TT_LONGEST_PLAN = 61566     /* bytes of the longest plan: an area of this length is never too short */
};

/*
 * Joins a line: gives each record its action and its mask.
 *
 * Lent: the columns of the line, a code point, a joining type, a general category and a base mask each; the letters before it
 * and behind it by type and category, the nearest first; the masks of the features isol, fina, fin2, fin3, medi, med2, init, in
 * this order; whether the line is Mongolian, where variation selectors take the action of the record before them.
 * Written: `actions`, and `masks`, each the base mask OR the feature mask of its action, which is 0 for none. Both are output
 * only: what they held before is not looked at. Never written: all the rest.
 *
 * TT_UNEVEN        `codes`, `types`, `categories`, `base`, `actions` and `masks` are not of one length, or the two columns of a
 *                  context are not
 * TT_TOO_LONG      the line has over 4,096 records, or a context over 64
 * TT_OUT_OF_RANGE  a type above 7 or a category above 29, in the line or in a context
 */
uint8_t tt_join_line(
    const uint32_t *codes, size_t codes_length,
    const uint8_t *types, size_t types_length,
    const uint8_t *categories, size_t categories_length,
    const uint8_t *pre_types, size_t pre_types_length,
    const uint8_t *pre_categories, size_t pre_categories_length,
    const uint8_t *post_types, size_t post_types_length,
    const uint8_t *post_categories, size_t post_categories_length,
    const uint32_t *base, size_t base_length,
    const uint32_t features[7],
    uint8_t mongolian,
    uint8_t *actions, size_t actions_length,
    uint32_t *masks, size_t masks_length);

/*
 * Replaces a letter of a held line.
 *
 * Lent: a line as tt_join_line left it, with the same contexts, feature masks and script, and the place, code, type and category
 * of the new letter. Where contexts, feature masks or script have changed, the line has to be joined again.
 * Written: `codes`, `types` and `categories` at the place; `actions` and `masks` at the place, at the nearest letters before
 * and behind it that are not transparent, and, in a Mongolian line, at the selectors directly behind each of these three. They
 * get what joining the new line afresh gives. All else stays, even where the line was not as joining leaves it.
 *
 * TT_UNEVEN        as for tt_join_line
 * TT_TOO_LONG      as for tt_join_line
 * TT_OUT_OF_RANGE  as for tt_join_line; also an action above 9 in `actions`, `joining_type` above 7 or `category` above 29
 * TT_PLACE         `place` is at or past the length of the line
 */
uint8_t tt_replace_letter(
    uint32_t *codes, size_t codes_length,
    uint8_t *types, size_t types_length,
    uint8_t *categories, size_t categories_length,
    const uint8_t *pre_types, size_t pre_types_length,
    const uint8_t *pre_categories, size_t pre_categories_length,
    const uint8_t *post_types, size_t post_types_length,
    const uint8_t *post_categories, size_t post_categories_length,
    const uint32_t *base, size_t base_length,
    const uint32_t features[7],
    uint8_t mongolian,
    uint8_t *actions, size_t actions_length,
    uint32_t *masks, size_t masks_length,
    size_t place,
    uint32_t code,
    uint8_t joining_type,
    uint8_t category);

/*
 * Gives the joining type of a code point as Unicode lists it (TT_UNICODE_VERSION), TT_TYPE_U to TT_TYPE_X.
 *
 * Every 32-bit number is a code. One that Unicode does not list is TT_TYPE_X, also above 10FFFF: joining resolves it by its category.
 * A listed code has its type whatever its category. Alaph and Dalath-Rish are types of their own, and joining causers are
 * TT_TYPE_D. Nothing is lent, and nothing is refused: what is returned is a type and no number of refusal.
 */
uint8_t tt_joining_type(uint32_t code);

/*
 * Joins a line by codes and categories: what tt_join_line does where each type is the one that tt_joining_type gives for the code.
 *
 * Lent: the columns of the line, a code point, a general category and a base mask each; the letters before it and behind it by
 * code and category, the nearest first; feature masks and script as for tt_join_line. No type is lent.
 * Written: `actions` and `masks`, as tt_join_line writes them. Never written: all the rest. No type is given back either.
 * Every 32-bit number is a code. One that Unicode does not list is X, and resolved by its category.
 *
 * TT_UNEVEN        `codes`, `categories`, `base`, `actions` and `masks` are not of one length, or the two columns of a context are
 *                  not
 * TT_TOO_LONG      the line has over 4,096 records, or a context over 64
 * TT_OUT_OF_RANGE  a category above 29, in the line or in a context, also beside a listed code
 */
uint8_t tt_join_codes(
    const uint32_t *codes, size_t codes_length,
    const uint8_t *categories, size_t categories_length,
    const uint32_t *pre_codes, size_t pre_codes_length,
    const uint8_t *pre_categories, size_t pre_categories_length,
    const uint32_t *post_codes, size_t post_codes_length,
    const uint8_t *post_categories, size_t post_categories_length,
    const uint32_t *base, size_t base_length,
    const uint32_t features[7],
    uint8_t mongolian,
    uint8_t *actions, size_t actions_length,
    uint32_t *masks, size_t masks_length);

/*
 * Replaces a letter of a line that is held by codes and categories: what tt_replace_letter does where each type, the new letter's
 * too, is the one that tt_joining_type gives for the code.
 *
 * Lent: a line as tt_join_codes left it, with the same contexts, feature masks and script, and the place, code and category of the
 * new letter. Where contexts, feature masks or script have changed, the line has to be joined again. No type is lent.
 * Written: `codes` and `categories` at the place; `actions` and `masks` where tt_replace_letter writes them. They get what joining
 * the new line afresh gives. All else stays, even where the line was not as joining leaves it. No type is given back.
 *
 * TT_UNEVEN        as for tt_join_codes
 * TT_TOO_LONG      as for tt_join_codes
 * TT_OUT_OF_RANGE  as for tt_join_codes; also an action above 9 in `actions`, or `category` above 29
 * TT_PLACE         `place` is at or past the length of the line
 */
uint8_t tt_replace_code(
    uint32_t *codes, size_t codes_length,
    uint8_t *categories, size_t categories_length,
    const uint32_t *pre_codes, size_t pre_codes_length,
    const uint8_t *pre_categories, size_t pre_categories_length,
    const uint32_t *post_codes, size_t post_codes_length,
    const uint8_t *post_categories, size_t post_categories_length,
    const uint32_t *base, size_t base_length,
    const uint32_t features[7],
    uint8_t mongolian,
    uint8_t *actions, size_t actions_length,
    uint32_t *masks, size_t masks_length,
    size_t place,
    uint32_t code,
    uint8_t category);

/*
 * Reorders the modifier combining marks of a part of a line (UTR 53's step for them).
 *
 * Lent: code points and combining classes; the part, from `start` to the place before `end`; the classes that moved marks get:
 * `low` for those of class 220, `high` for those of class 230.
 * Written: `codes` and `classes` from `start` to before `end`, in the same order; `count`, how many ranges have to be merged
 * into one cluster each, 0 to 2; `ranges`, start and end of the first and of the second, zeros past them.
 *
 * TT_UNEVEN    `codes` and `classes` differ in length
 * TT_TOO_LONG  they have over 4,096 records
 * TT_PLACE     `start` is above `end`, or `end` above the length
 */
uint8_t tt_reorder_modifier_combining_marks(
    uint32_t *codes, size_t codes_length,
    uint8_t *classes, size_t classes_length,
    size_t start,
    size_t end,
    uint8_t low,
    uint8_t high,
    size_t *count,
    size_t ranges[4]);

/*
 * Records which records of a line the feature stch has multiplied.
 *
 * Lent: the mask of stch, 0 where there is none; for each record whether it was multiplied (a yes-or-no) and its component
 * number.
 * Written: `actions` of multiplied records, repeating for an odd component number and fixed for an even one; `recorded`, whether
 * there was any. With mask 0 no action is written, and none is recorded. Other actions stay, whatever they are.
 *
 * TT_UNEVEN    `multiplied`, `components` and `actions` are not of one length
 * TT_TOO_LONG  they have over 4,096 records
 */
uint8_t tt_record_stch(
    uint32_t mask,
    const uint8_t *multiplied, size_t multiplied_length,
    const uint8_t *components, size_t components_length,
    uint8_t *actions, size_t actions_length,
    bool *recorded);

/*
 * Lays a line with its recorded runs stretched over the words before them into the output columns.
 *
 * Lent: what tt_record_stch said of the line (if no, the line is laid as it is); whether it runs right to left; its seven
 * columns, where `ignorables` is a yes-or-no and `actions` tell the runs, fixed and repeating.
 * Written: the seven output columns up to the answer's length, and `length`, how many records the stretched line has. A copy of
 * a record keeps its glyph, width, category, ignorable (the byte as it is) and action. The line itself is only read.
 * The output columns need not be of one length: each is tested by itself.
 *
 * TT_UNEVEN        the line's seven columns are not of one length
 * TT_TOO_LONG      the line has over 4,096 records
 * TT_OUT_OF_RANGE  a category above 29 or an action above 9
 * TT_STRETCHED     the stretched line has over 16,384 records
 * TT_NO_ROOM       an output column is shorter than the stretched line
 */
uint8_t tt_stretch(
    uint8_t recorded,
    uint8_t rtl,
    const uint32_t *glyphs, size_t glyphs_length,
    const int32_t *widths, size_t widths_length,
    const uint8_t *categories, size_t categories_length,
    const uint8_t *ignorables, size_t ignorables_length,
    const uint8_t *actions, size_t actions_length,
    const int32_t *advances, size_t advances_length,
    const int32_t *offsets, size_t offsets_length,
    uint32_t *to_glyphs, size_t to_glyphs_length,
    int32_t *to_widths, size_t to_widths_length,
    uint8_t *to_categories, size_t to_categories_length,
    uint8_t *to_ignorables, size_t to_ignorables_length,
    uint8_t *to_actions, size_t to_actions_length,
    int32_t *to_advances, size_t to_advances_length,
    int32_t *to_offsets, size_t to_offsets_length,
    size_t *length);

/*
 * Writes a single lookup, OpenType's bytes, at the start of the area.
 *
 * Lent: for each rule its glyph and what is put in its place; the lookup's flags.
 * Written: the first 18 + 4n bytes of `area` for n rules; `length`, how many these are.
 *
 * TT_UNEVEN   `glyphs` and `substitutes` differ in length
 * TT_OFFSET   there are over 32,764 rules
 * TT_NO_ROOM  `area` is shorter than the lookup
 */
uint8_t tt_serialize_single_lookup(
    const uint16_t *glyphs, size_t glyphs_length,
    const uint16_t *substitutes, size_t substitutes_length,
    uint16_t flags,
    uint8_t *area, size_t area_length,
    size_t *length);

/*
 * Writes a ligature lookup, OpenType's bytes, at the start of the area.
 *
 * Lent: the number of components of each rule; the components, those of one rule behind those of the other, and for each rule
 * its ligature; the lookup's flags. Neighbouring rules that share their first component are one set.
 * Written: the first 18 + 6s + L * (4 + 2n) bytes of `area` for L rules in s sets; `length`, how many these are.
 *
 * TT_UNEVEN        `components` are not `n` for each of `ligatures`
 * TT_OUT_OF_RANGE  `n` is neither 2 nor 3
 * TT_OFFSET        an offset or a count in the lookup is above 65,535
 * TT_NO_ROOM       `area` is shorter than the lookup
 */
uint8_t tt_serialize_ligature_lookup(
    uint8_t n,
    const uint16_t *components, size_t components_length,
    const uint16_t *ligatures, size_t ligatures_length,
    uint16_t flags,
    uint8_t *area, size_t area_length,
    size_t *length);

/*
 * Reads a lookup back that one of the two calls above has written.
 *
 * Lent: all bytes of the lookup and none behind them.
 * Written: `glyphs`, for a ligature lookup the components, those of one rule behind those of the other; `substitutes`, for a
 * ligature lookup the ligatures; `kind`, TT_KIND_SINGLE or TT_KIND_LIGATURE; `components`, how many a rule has, 0 for a single
 * lookup; `flags`; `count`, the number of rules. Behind the rules both columns stay as they were.
 * A ligature lookup without a rule reads with 2 components.
 *
 * TT_NO_LOOKUP  the bytes are not what a writer gives for some list whose first glyphs do not fall
 * TT_NO_ROOM    `glyphs` or `substitutes` is shorter than the rules need
 */
uint8_t tt_read_lookup(
    const uint8_t *bytes, size_t bytes_length,
    uint16_t *glyphs, size_t glyphs_length,
    uint16_t *substitutes, size_t substitutes_length,
    uint8_t *kind,
    uint8_t *components,
    uint16_t *flags,
    size_t *count);

/*
 * Makes the fallback plan of a font that has no Arabic lookups of its own.
 *
 * Lent: the masks of init, medi, fina, isol, rlig, in this order (a lookup with mask 0 is left out); the font's map, code points
 * that rise strictly and the glyph of each; the shaping rows, a code and four forms each, init, medi, fina, isol, where 0 means
 * none; the ligature lists of three components, of two, and of marks, of two, each with the components of one row behind those
 * of the other.
 * Written: `count`, how many lookups the plan has, 0 to 7; for each its mask and how many bytes it has, in `entry_masks` and
 * `entry_lengths`, zeros past the count; the lookups' bytes one behind the other from the start of `area`. The bytes of `area`
 * behind them stay as they were. The font's map may have any length.
 *
 * TT_UNEVEN        `codes` and `glyphs` differ in length; or `forms` are not 4 for each of `shaping`, `three_components` not 3
 *                  for each of `three_ligatures`, `two_components` not 2 for each of `two_ligatures`, `mark_components` not 2
 *                  for each of `mark_ligatures`
 * TT_TOO_LONG      a list has over 1,024 rows
 * TT_OUT_OF_RANGE  `codes` do not rise strictly
 * TT_NO_ROOM       `area` is shorter than the lookups together
 */
uint8_t tt_fallback_plan(
    const uint32_t masks[5],
    const uint32_t *codes, size_t codes_length,
    const uint32_t *glyphs, size_t glyphs_length,
    const uint16_t *shaping, size_t shaping_length,
    const uint16_t *forms, size_t forms_length,
    const uint16_t *three_components, size_t three_components_length,
    const uint16_t *three_ligatures, size_t three_ligatures_length,
    const uint16_t *two_components, size_t two_components_length,
    const uint16_t *two_ligatures, size_t two_ligatures_length,
    const uint16_t *mark_components, size_t mark_components_length,
    const uint16_t *mark_ligatures, size_t mark_ligatures_length,
    uint8_t *area, size_t area_length,
    size_t *count,
    uint32_t entry_masks[7],
    uint32_t entry_lengths[7]);

/*
 * Whether the fallback is used: for the Arabic script, if each of isol, fina, medi and init needs it. Nothing is lent, and
 * nothing is refused.
 */
bool tt_do_fallback(
    uint8_t arabic,
    uint8_t isol,
    uint8_t fina,
    uint8_t medi,
    uint8_t init);

#ifdef __cplusplus
}
#endif

#endif
