/* Part of random: what a call is given, letter by letter of its parameters (call.h), is drawn. */
#include <string.h>

#include "chance.h"
#include "fields.h"
#include "lent.h"
#include "random.h"

static _Alignas(8) uint8_t rooms[MOST_SLICES][LENT_MOST + 8];

/* The TrCH, slot and PhCH that were drawn for the call. */
static uint32_t trch, slot, phch;

/* ---- Numbers ---- */

/* A length: the one needed, or one that is off. */
static size_t length_near(uint64_t needed)
{
    if (!one_in(25))
        return needed;
    if (needed == 0 || one_in(3))
        return needed + 1;
    return one_in(2) ? 0 : needed - 1;
}

/* Something counted from 1 to `most`, or a count that is not there. */
static uint32_t count_near(uint64_t most)
{
    if (most != 0 && !one_in(20))
        return between(1, (uint32_t)most);
    switch (between(1, 4)) {
    case 1:
        return 0;
    case 2:
        return UINT32_MAX;
    case 3:
        return 0x10000u + between(0, (uint32_t)most);
    default:
        return (uint32_t)most + 1;
    }
}

static uint32_t draw_frame_number(void)
{
    if (!one_in(20))
        return between(0, 255);
    switch (between(1, 3)) {
    case 1:
        return 256;
    case 2:
        return UINT32_MAX;
    default:
        return between(256, UINT32_MAX);
    }
}

/* E and N of the TrCH, 0 if it is not there. */
static void ask_channel(uint64_t *e, uint64_t *n)
{
    uint64_t f, v;
    reference.channel(drawn.sheet, drawn.sheet_len, trch, &f, e, n, &v);
}

/* A number of 32 bits. Where what it is counted in is not there, it is 1. */
static uint32_t draw_number(char parameter)
{
    uint64_t e, n;
    bool slot_there = slot >= 1 && slot <= drawn.slots;
    const uint16_t *phchs = &drawn.fields[UMV_FIELD_PHCHS - 1], *capacities = &drawn.fields[UMV_FIELD_CAPACITIES];
    switch (parameter) {
    case 'n':
        return draw_frame_number();
    case 'c':
        return trch = count_near(drawn.channels);
    case 'h':
        return count_near(drawn.subframes);
    case 't':
        return slot = count_near(drawn.slots);
    case 'p':
        return phch = slot_there ? count_near(phchs[slot]) : 1;
    case 'u':
        return slot_there && phch >= 1 && phch <= phchs[slot] ? count_near(capacities[16 * (slot - 1) + phch - 1]) : 1;
    default:
        ask_channel(&e, &n);
        return trch >= 1 && trch <= drawn.channels ? count_near(n) : 1;
    }
}

/* The length of 64 bits that umv_part takes. */
static uint64_t draw_length(void)
{
    if (one_in(40))
        return UINT64_MAX;
    return length_near(drawn.capacity) + ((uint64_t)one_in(40) << 32);
}

static uint64_t needed_length(char length)
{
    uint64_t e, n;
    switch (length) {
    case 'F':
        return UMV_FIELDS;
    case 'W':
        return drawn.packed_len;
    case 'E':
        return drawn.contents;
    case 'D':
        return drawn.capacity;
    case 'T':
        return drawn.joined;
    default:
        ask_channel(&e, &n);
        return e;
    }
}

/* ---- Values ---- */

/* One byte a bit. */
static void draw_bits(uint8_t *bits, size_t count)
{
    for (size_t i = 0; i < count; i++)
        bits[i] &= 1;
}

/* A float of any bits. */
static float float_of(uint32_t bits)
{
    float value;
    memcpy(&value, &bits, sizeof value);
    return value;
}

static float with_sign(float value)
{
    return one_in(2) ? value : -value;
}

/* Around the bound that joined values are clipped to. */
static float draw_near(void)
{
    static const float near[] = {1024.0f, 0x1.000002p10f, 0x1.fffffep9f, 1024.5f, 1023.9f, 1025.0f, 65536.0f, 0.0f};
    return with_sign(near[between(0, sizeof near / sizeof *near - 1)]);
}

/* Sums of these pass the bound and come back. */
static float draw_swing(void)
{
    return with_sign((float)between(400, 1600));
}

static float draw_soft(void)
{
    switch (between(1, 8)) {
    case 1:
        return float_of((uint32_t)one_in(2) << 31); /* +0.0 or -0.0 */
    case 2:
        return with_sign(65536.0f);
    case 3:
        return float_of(((uint32_t)one_in(2) << 31) + between(0, 0x47800000u)); /* any within the bounds */
    case 4:
        return draw_near();
    default:
        return (float)((int32_t)between(0, 510) - 255);
    }
}

/* Half of the frames have values of all kinds, the others of one that comes to the bound and over it. */
static void draw_frame(float *values, size_t count)
{
    static float (*const draws[])(void) = {draw_soft, draw_soft, draw_near, draw_swing};
    float (*const draw)(void) = draws[between(0, 3)];
    for (size_t i = 0; i < count; i++)
        values[i] = draw();
}

/* Now and then one or more values are bad. */
static void damage(char parameter, void *values, size_t count)
{
    static const uint32_t bad_soft[] = {0x47800001u, 0xc7800001u, 0x7f800000u, 0xff800000u, 0x7fc00000u, 0xffc12345u};
    if (!one_in(15) || count == 0)
        return;
    for (uint32_t bad = between(1, 3); bad > 0; bad--) {
        uint32_t at = between(0, (uint32_t)count - 1);
        if (parameter == 's')
            ((float *)values)[at] = float_of(bad_soft[between(0, 5)]);
        else
            ((uint8_t *)values)[at] = (uint8_t)(one_in(2) ? 2 : between(2, 255));
    }
}

/* A place in the fields: one of the head, the logarithm of a code of the first slot, or any. */
static uint32_t draw_place(void)
{
    switch (between(1, 4)) {
    case 1:
        return between(0, UMV_FIELD_LCR);
    case 2:
        return between(UMV_FIELD_LOGARITHMS, UMV_FIELD_LOGARITHMS + 1);
    default:
        return between(0, UMV_FIELDS - 1);
    }
}

/* The fields, with chance's values where the counts leave none, and now and then one near the bounds of a range. */
static void draw_fields(uint16_t *fields, size_t count)
{
    static const uint16_t bounds[] = {0, 1, 2, 3, 4, 5, 8, 9, 15, 16, 17, 256, 257, 4095, 4096, 16383, 16384, 65535};
    for (uint32_t place = 0; place < count && place < UMV_FIELDS; place++)
        if (in_use(drawn.fields, place))
            fields[place] = drawn.fields[place];
    uint32_t place = draw_place();
    if (one_in(4) && place < count)
        fields[place] = bounds[between(0, sizeof bounds / sizeof *bounds - 1)];
}

/* A slice of chance's bytes, and of what it should hold if the call looks at it. */
static size_t draw_slice(char parameter, char length, void *room)
{
    size_t count = length == '*' ? drawn.sheet_len : length_near(needed_length(length));
    for (size_t i = 0; i < count * unit_of(parameter); i += 8) {
        uint64_t bytes = chance();
        memcpy((uint8_t *)room + i, &bytes, 8);
    }
    if (length == '*') {
        memcpy(room, drawn.sheet, count);
    } else if (parameter == 'f') {
        draw_fields(room, count);
    } else if (parameter == 'b') {
        draw_bits(room, count);
        damage(parameter, room, count);
    } else if (parameter == 's' && length == 'D') { /* joined values are not looked at */
        draw_frame(room, count);
        damage(parameter, room, count);
    }
    return count;
}

void draw_given(size_t call, struct given *given)
{
    size_t slices = 0, numbers = 0;
    for (const char *parameter = calls[call].parameters; *parameter != '\0'; parameter++)
        if (unit_of(*parameter) != 0) {
            given->slices[slices].start = rooms[slices];
            given->slices[slices].count = draw_slice(*parameter, calls[call].lengths[slices], rooms[slices]);
            slices++;
        } else if (*parameter == 'l') {
            given->length = draw_length();
        } else {
            given->whole[numbers++] = draw_number(*parameter);
        }
}
