/* See small.h. */
#include "small.h"

#include <string.h>

#include "chance.h"
#include "ummervia.h"

static void draw_channels(uint16_t *fields)
{
    uint32_t count = between(1, SMALL_CHANNELS), most_e = one_in(3) ? SMALL_E : one_in(2) ? 60 : 12;
    uint32_t most_rm = one_in(2) ? 256 : 8;
    fields[UMV_FIELD_CHANNELS] = (uint16_t)count;
    for (uint32_t i = 0; i < count; i++) {
        fields[UMV_FIELD_TTI + i] = (uint16_t)between(0, 3);
        fields[UMV_FIELD_E + i] = (uint16_t)(one_in(4) ? 0 : between(1, most_e));
        fields[UMV_FIELD_RM + i] = (uint16_t)between(1, most_rm);
    }
    fields[UMV_FIELD_E + between(0, count - 1)] = (uint16_t)between(1, most_e); /* one at least has bits */
}

/* No more than SMALL_PLACES in sum over the sub-frames. */
static void draw_slots(uint16_t *fields)
{
    static const uint16_t most[][3] = {{15, 4, 5}, {3, 2, 50}, {1, 16, 18}, {2, 1, 150}, {1, 1, 300}}; /* T, P, U */
    const uint16_t *shape = most[between(0, 4)];
    bool fewer = fields[UMV_FIELD_LCR] == 1 && shape[0] > UMV_SUBFRAME_SLOTS_MOST;
    fields[UMV_FIELD_SLOTS] = (uint16_t)between(1, fewer ? UMV_SUBFRAME_SLOTS_MOST : shape[0]);
    for (uint32_t t = 0; t < fields[UMV_FIELD_SLOTS]; t++) {
        fields[UMV_FIELD_PHCHS + t] = (uint16_t)between(1, shape[1]);
        for (uint32_t p = 0; p < fields[UMV_FIELD_PHCHS + t]; p++)
            fields[UMV_FIELD_CAPACITIES + 16 * t + p] = (uint16_t)between(1, shape[2]);
    }
}

/* Uplink: one or two codes of any spreading factors. */
static void draw_codes(uint16_t *fields)
{
    fields[UMV_FIELD_UPLINK] = 1;
    for (uint32_t t = 0; t < fields[UMV_FIELD_SLOTS]; t++) {
        uint16_t *phchs = &fields[UMV_FIELD_PHCHS + t];
        *phchs = *phchs > 2 ? 2 : *phchs;
        for (uint32_t p = 0; p < *phchs; p++)
            fields[UMV_FIELD_LOGARITHMS + 16 * t + p] = (uint16_t)between(0, 4);
    }
}

void draw_small(uint16_t *fields)
{
    memset(fields, 0, UMV_FIELDS * sizeof *fields);
    fields[UMV_FIELD_VERSION] = 1;
    fields[UMV_FIELD_MODE] = (uint16_t)between(0, 1);
    fields[UMV_FIELD_LCR] = one_in(2);
    draw_channels(fields);
    draw_slots(fields);
    if (one_in(2))
        draw_codes(fields);
}
