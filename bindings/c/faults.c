/*
 * Wrong calls in the place of the right ones, to see that the driver tells them: tools/bindings links one at a time by the linker's
 * --wrap. FAULT says which.
 */
#include "thawtrundle.h"

uint8_t __real_tt_serialize_single_lookup(
    const uint16_t *glyphs, size_t glyphs_length, const uint16_t *substitutes, size_t substitutes_length, uint16_t flags, uint8_t *area,
    size_t area_length, size_t *length);
uint8_t __wrap_tt_serialize_single_lookup(
    const uint16_t *glyphs, size_t glyphs_length, const uint16_t *substitutes, size_t substitutes_length, uint16_t flags, uint8_t *area,
    size_t area_length, size_t *length);

static void alter(const void *at) { *(volatile uint8_t *)at ^= 1; }

uint8_t __wrap_tt_serialize_single_lookup(
    const uint16_t *glyphs, size_t glyphs_length, const uint16_t *substitutes, size_t substitutes_length, uint16_t flags, uint8_t *area,
    size_t area_length, size_t *length) {
    uint8_t number = __real_tt_serialize_single_lookup(
        glyphs, glyphs_length, substitutes, substitutes_length, flags, area, area_length, length);
    bool accepted = number == TT_ACCEPTED;
    switch (FAULT) {
    case 1: /* a byte directly behind an output column */
        if (area_length > 0) alter(area + area_length);
        break;
    case 2: /* one directly before it */
        if (area_length > 0) alter(area - 1);
        break;
    case 3: /* one in a column that is only read */
        if (glyphs_length > 0) alter(glyphs + glyphs_length - 1);
        break;
    case 4: /* one directly behind a column that is only read */
        if (substitutes_length > 0) alter(substitutes + substitutes_length);
        break;
    case 5: /* one behind the answer in the output column */
        if (accepted && *length < area_length) alter(area + *length);
        break;
    case 6: /* one directly behind a number of the answer */
        alter(length + 1);
        break;
    case 7: /* a number of the answer that is no zero, with a refusal */
        if (!accepted) *length = 1;
        break;
    case 8: /* an output column that is altered, with a refusal */
        if (!accepted && area_length > 0) alter(area);
        break;
    case 9: /* another number of refusal */
        if (!accepted) number = (uint8_t)(number - 1);
        break;
    default: /* none: with this the driver tells nothing */
        break;
    }
    return number;
}
