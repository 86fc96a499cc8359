/*
 * A held line: joined once, a letter altered, and a refusal that alters nothing.
 *
 *   cc -Iinclude bindings/c/example.c crates/thawtrundle/out/libthawtrundle.a -o example && ./example
 */
#include "thawtrundle.h"

#include <stdio.h>

enum { LENGTH = 3 };

/* The masks of isol, fina, fin2, fin3, medi, med2 and init, as a font's plan gives them. */
static const uint32_t features[7] = {1, 2, 4, 8, 16, 32, 64};

static const char *const names[] = {"isol", "fina", "fin2", "fin3", "medi", "med2", "init", "none", "fixed", "repeating"};

/* Three times beh, U+0628. The columns of a line are its holder's own. */
static uint32_t codes[LENGTH] = {0x0628, 0x0628, 0x0628};
static uint8_t types[LENGTH] = {TT_TYPE_D, TT_TYPE_D, TT_TYPE_D};
static uint8_t categories[LENGTH] = {TT_CATEGORY_LO, TT_CATEGORY_LO, TT_CATEGORY_LO};
static uint32_t base[LENGTH];
static uint8_t actions[LENGTH];
static uint32_t masks[LENGTH];

static void show(const char *what, unsigned number) {
    printf("%s: %u\n", what, number);
    for (int i = 0; i < LENGTH; i++) printf("  %d %04X %s\n", i, (unsigned)codes[i], names[actions[i]]);
}

/* The contexts are empty: no pointer is needed for them. */
static uint8_t join(void) {
    return tt_join_line(
        codes, LENGTH, types, LENGTH, categories, LENGTH, NULL, 0, NULL, 0, NULL, 0, NULL, 0, base, LENGTH, features, 0, actions, LENGTH,
        masks, LENGTH);
}

static uint8_t replace(size_t place, uint32_t code, uint8_t joining_type, uint8_t category) {
    return tt_replace_letter(
        codes, LENGTH, types, LENGTH, categories, LENGTH, NULL, 0, NULL, 0, NULL, 0, NULL, 0, base, LENGTH, features, 0, actions, LENGTH,
        masks, LENGTH, place, code, joining_type, category);
}

int main(void) {
    show("joined", join());
    show("hamza at 1", replace(1, 0x0621, TT_TYPE_U, TT_CATEGORY_LO));
    show("alef at 3", replace(3, 0x0627, TT_TYPE_R, TT_CATEGORY_LO));
    return 0;
}
