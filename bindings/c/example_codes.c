/*
 * A held line: joined once by its codes and categories, a letter altered, and a refusal that alters nothing. No type is lent: those that
 * are printed are looked up for that.
 *
 *   cc -Iinclude bindings/c/example_codes.c crates/thawtrundle_codes/out/libthawtrundle_codes.a -o example_codes && ./example_codes
 */
#include "thawtrundle.h"

#include <stdio.h>

enum { LENGTH = 3 };

/* The masks of isol, fina, fin2, fin3, medi, med2 and init, as a font's plan gives them. */
static const uint32_t features[7] = {1, 2, 4, 8, 16, 32, 64};

static const char *const types[] = {"U", "L", "R", "D", "Alaph", "Dalath-Rish", "T", "X"};
static const char *const names[] = {"isol", "fina", "fin2", "fin3", "medi", "med2", "init", "none", "fixed", "repeating"};

/* Beh, fatha, which is a mark, and alef. The columns of a line are its holder's own. */
static uint32_t codes[LENGTH] = {0x0628, 0x064E, 0x0627};
static uint8_t categories[LENGTH] = {TT_CATEGORY_LO, TT_CATEGORY_MN, TT_CATEGORY_LO};
static uint32_t base[LENGTH];
static uint8_t actions[LENGTH];
static uint32_t masks[LENGTH];

static void show(const char *what, unsigned number) {
    printf("%s: %u\n", what, number);
    for (int i = 0; i < LENGTH; i++) printf("  %d %04X %s %s\n", i, (unsigned)codes[i], types[tt_joining_type(codes[i])], names[actions[i]]);
}

/* The contexts are empty: no pointer is needed for them. */
static uint8_t join(void) {
    return tt_join_codes(
        codes, LENGTH, categories, LENGTH, NULL, 0, NULL, 0, NULL, 0, NULL, 0, base, LENGTH, features, 0, actions, LENGTH, masks, LENGTH);
}

static uint8_t replace(size_t place, uint32_t code, uint8_t category) {
    return tt_replace_code(
        codes, LENGTH, categories, LENGTH, NULL, 0, NULL, 0, NULL, 0, NULL, 0, base, LENGTH, features, 0, actions, LENGTH, masks, LENGTH,
        place, code, category);
}

int main(void) {
    printf("types of Unicode %s\n", TT_UNICODE_VERSION);
    show("joined", join());
    show("beh at 1", replace(1, 0x0628, TT_CATEGORY_LO));
    show("hamza at 1", replace(1, 0x0621, TT_CATEGORY_LO));
    show("alef at 3", replace(3, 0x0627, TT_CATEGORY_LO));
    return 0;
}
