/* See fields.h. */
#include "fields.h"

#include <string.h>

bool in_use(const uint16_t *fields, unsigned place)
{
    if (place < UMV_FIELD_TTI)
        return true;
    if (place < UMV_FIELD_PHCHS)
        return (place - UMV_FIELD_TTI) % UMV_CHANNELS_MOST < fields[UMV_FIELD_CHANNELS];
    if (place < UMV_FIELD_CAPACITIES)
        return place - UMV_FIELD_PHCHS < fields[UMV_FIELD_SLOTS];
    unsigned code = (place - UMV_FIELD_CAPACITIES) % 240, t = code / 16;
    bool there = t < fields[UMV_FIELD_SLOTS] && code % 16 < fields[UMV_FIELD_PHCHS + t];
    return there && (place < UMV_FIELD_LOGARITHMS || fields[UMV_FIELD_UPLINK] != 0);
}

void fill_slots(uint16_t *fields, uint16_t slots, uint16_t capacity)
{
    fields[UMV_FIELD_SLOTS] = slots;
    for (unsigned t = 0; t < slots; t++)
        fields[UMV_FIELD_PHCHS + t] = 16;
    for (unsigned u = 0; u < 16u * slots; u++)
        fields[UMV_FIELD_CAPACITIES + u] = capacity;
}

static void put(uint8_t *sheet, size_t *bits, unsigned value, unsigned width)
{
    while (width-- > 0) {
        sheet[*bits / 8] |= (uint8_t)((value >> width & 1u) << (7 - *bits % 8));
        ++*bits;
    }
}

size_t pack(const uint16_t *fields, uint8_t *sheet)
{
    size_t bits = 0;
    memset(sheet, 0, UMV_SHEET_FORM_MOST);
    put(sheet, &bits, fields[UMV_FIELD_VERSION], 4);
    put(sheet, &bits, fields[UMV_FIELD_MODE], 1);
    put(sheet, &bits, (fields[UMV_FIELD_CHANNELS] - 1u) % 8, 3);
    put(sheet, &bits, fields[UMV_FIELD_SLOTS], 4);
    put(sheet, &bits, fields[UMV_FIELD_UPLINK], 1);
    put(sheet, &bits, fields[UMV_FIELD_LCR], 1);
    put(sheet, &bits, (fields[UMV_FIELD_CHANNELS] - 1u) / 8, 1);
    put(sheet, &bits, 0, 1);
    for (unsigned i = 0; i < fields[UMV_FIELD_CHANNELS]; i++) {
        put(sheet, &bits, fields[UMV_FIELD_TTI + i], 2);
        put(sheet, &bits, fields[UMV_FIELD_E + i], 14);
        put(sheet, &bits, fields[UMV_FIELD_RM + i] - 1u, 8);
    }
    for (unsigned t = 0; t < fields[UMV_FIELD_SLOTS]; t++) {
        put(sheet, &bits, fields[UMV_FIELD_PHCHS + t] - 1u, 4);
        for (unsigned p = 0; p < fields[UMV_FIELD_PHCHS + t]; p++) {
            put(sheet, &bits, fields[UMV_FIELD_LOGARITHMS + 16 * t + p], fields[UMV_FIELD_UPLINK] != 0 ? 3 : 0);
            put(sheet, &bits, fields[UMV_FIELD_CAPACITIES + 16 * t + p], 12);
        }
    }
    return bits;
}
