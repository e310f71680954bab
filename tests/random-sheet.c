/* Part of random: a sheet is drawn. */
#include <stdlib.h>
#include <string.h>

#include "chance.h"
#include "fields.h"
#include "random.h"

struct drawn drawn;

static uint16_t *const fields = drawn.fields;

static void random_channels(uint32_t most_e)
{
    uint32_t channels = between(1, one_in(2) ? 8 : UMV_CHANNELS_MOST), most_rm = one_in(2) ? 256 : between(1, 8);
    fields[UMV_FIELD_CHANNELS] = (uint16_t)channels;
    for (uint32_t i = 0; i < channels; i++) {
        fields[UMV_FIELD_TTI + i] = (uint16_t)between(0, 3);
        fields[UMV_FIELD_E + i] = (uint16_t)(one_in(5) ? 0 : between(0, most_e));
        fields[UMV_FIELD_RM + i] = (uint16_t)between(1, most_rm);
    }
}

/* Of 1.28 Mcps mostly no more slots than a sub-frame has; of great frames more draw 14, since these may have other lines too. */
static void random_slots(uint32_t most_slots, uint32_t most_capacity)
{
    if (fields[UMV_FIELD_LCR] == 1 && most_slots > UMV_SUBFRAME_SLOTS_MOST && !one_in(most_capacity > 60 ? 2 : 4))
        most_slots = UMV_SUBFRAME_SLOTS_MOST;
    fields[UMV_FIELD_SLOTS] = (uint16_t)between(1, most_slots);
    for (uint32_t t = 0; t < fields[UMV_FIELD_SLOTS]; t++) {
        uint32_t phchs = between(1, 16), equal = one_in(3) ? between(1, most_capacity) : 0;
        fields[UMV_FIELD_PHCHS + t] = (uint16_t)phchs;
        for (uint32_t p = 0; p < phchs; p++) {
            uint32_t capacity = equal != 0 ? equal : between(1, one_in(4) ? 3 : most_capacity);
            fields[UMV_FIELD_CAPACITIES + 16 * t + p] = (uint16_t)capacity;
        }
    }
}

/* Just 60,000 bits in sum, or one more in each sub-frame; of 1.28 Mcps at times too many slots. */
static void fullest_slots(bool too_many)
{
    if (fields[UMV_FIELD_LCR] == 1 && one_in(2))
        fill_slots(fields, 5, 375);
    else
        fill_slots(fields, 15, 250);
    if (too_many)
        fields[UMV_FIELD_CAPACITIES + between(0, 16u * fields[UMV_FIELD_SLOTS] - 1)]++;
}

/* 8 channels of 7,500 bits, or 16 of 3,750: just 60,000 equalised, since F divides both, or more. */
static void fullest_channels(bool too_many)
{
    uint32_t channels = one_in(3) ? 8 : 16;
    fields[UMV_FIELD_CHANNELS] = (uint16_t)channels;
    for (uint32_t i = 0; i < channels; i++) {
        fields[UMV_FIELD_TTI + i] = (uint16_t)between(0, channels == 8 ? 2 : 1);
        fields[UMV_FIELD_E + i] = (uint16_t)(60000 / channels);
        fields[UMV_FIELD_RM + i] = (uint16_t)between(1, 256);
    }
    if (too_many)
        fields[UMV_FIELD_E + between(0, channels - 1)]++;
}

/* Channels of few bits, of which each is sent thousands of times in the greatest frame. */
static void few_bits(void)
{
    fields[UMV_FIELD_CHANNELS] = (uint16_t)between(1, 2);
    for (uint32_t i = 0; i < 2; i++) {
        fields[UMV_FIELD_TTI + i] = (uint16_t)between(0, 3);
        fields[UMV_FIELD_E + i] = (uint16_t)between(1, 8);
        fields[UMV_FIELD_RM + i] = 1;
    }
}

/* Makes the sheet an uplink one, of one or two codes a slot, or with `too_many` of as many as there are; a `fullest` one has just
   60,000 bits in sum. */
static void random_uplink(bool fullest, bool too_many, uint32_t most_log)
{
    uint32_t codes = 2u * fields[UMV_FIELD_SLOTS] * (fields[UMV_FIELD_LCR] + 1u); /* of a fullest frame */
    fields[UMV_FIELD_UPLINK] = 1;
    for (uint32_t t = 0; t < fields[UMV_FIELD_SLOTS]; t++) {
        uint16_t *phchs = &fields[UMV_FIELD_PHCHS + t];
        if (*phchs > 2 && !too_many)
            *phchs = fullest || !one_in(4) ? 2 : 1;
        for (uint32_t p = 0; p < *phchs; p++) {
            fields[UMV_FIELD_LOGARITHMS + 16 * t + p] = (uint16_t)between(0, most_log);
            if (fullest && !too_many)
                fields[UMV_FIELD_CAPACITIES + 16 * t + p] = (uint16_t)(60000 / codes);
        }
    }
}

/* Fields in their ranges. Most frames are small, so that there is time for many; some are as great as there are. */
static void random_fields(void)
{
    memset(fields, 0, sizeof drawn.fields);
    fields[UMV_FIELD_VERSION] = 1;
    fields[UMV_FIELD_MODE] = (uint16_t)between(0, 1);
    fields[UMV_FIELD_LCR] = one_in(3);
    uint32_t kind = between(1, 400);
    if (kind <= 1) {
        few_bits();
        fullest_slots(false);
    } else if (kind <= 10) {
        fullest_channels(one_in(3));
        fullest_slots(one_in(fields[UMV_FIELD_LCR] == 1 ? 2 : 3));
    } else if (kind <= 18) {
        random_channels(16383);
        random_slots(15, 4095);
    } else if (kind <= 21) {
        random_channels(one_in(2) ? 1 : 7000);
        random_slots(3, 2000);
    } else if (kind <= 160) {
        random_channels(600);
        random_slots(15, 40);
    } else {
        random_channels(one_in(2) ? 100 : 12);
        random_slots(one_in(2) ? 15 : 2, one_in(2) ? 12 : 60);
    }
    /* One channel that fits exactly: d = 0. */
    uint32_t first = fields[UMV_FIELD_CAPACITIES] * (fields[UMV_FIELD_LCR] + 1u);
    if (one_in(40)) {
        fields[UMV_FIELD_CHANNELS] = fields[UMV_FIELD_SLOTS] = fields[UMV_FIELD_PHCHS] = 1;
        fields[UMV_FIELD_E] = (uint16_t)(first << fields[UMV_FIELD_TTI] & 0x3fff);
    }
    /* Of great frames more are refused with 13, since these may have other lines too. */
    uint32_t rare = kind <= 18 ? 3 : 8;
    if (one_in(3))
        random_uplink(kind <= 10 && fields[UMV_FIELD_SLOTS] >= 5, one_in(rare), one_in(rare) ? 7 : 4);
}

/* Fields that name their refusal and still stand in a sheet. */
static void damage_fields(void)
{
    /* More of those that draw 14 have another line too, since they are few. */
    bool many_slots = fields[UMV_FIELD_LCR] == 1 && fields[UMV_FIELD_SLOTS] > UMV_SUBFRAME_SLOTS_MOST;
    if (one_in(60))
        fields[UMV_FIELD_VERSION] = (uint16_t)between(0, 15);
    if (one_in(60))
        fields[UMV_FIELD_SLOTS] = 0;
    if (one_in(many_slots ? 8 : 25))
        fields[UMV_FIELD_CAPACITIES + between(0, one_in(2) ? 1 : 15)] = 0;
    if (one_in(many_slots ? 8 : 40))
        memset(&fields[UMV_FIELD_E], 0, UMV_CHANNELS_MOST * sizeof *fields);
}

/* What only bytes can have wrong. */
static void damage_sheet(size_t bits)
{
    uint8_t *sheet = drawn.sheet;
    size_t length = drawn.packed_len;
    if (one_in(40))
        sheet[1] |= (uint8_t)between(1, 7); /* the spare bit, the top bit of I - 1, the 1.28 Mcps bit */
    if (one_in(20) && bits % 8 != 0)
        sheet[length - 1] |= (uint8_t)(1u << between(0, 7 - (uint32_t)(bits % 8))); /* padding */
    if (one_in(40)) {
        uint32_t bit = between(0, (uint32_t)bits - 1);
        sheet[bit / 8] ^= (uint8_t)(0x80u >> bit % 8);
    }
    if (one_in(60))
        length = between(0, (uint32_t)length);
    if (one_in(60))
        length += between(1, 3);
    if (one_in(60))
        length = between(0, 2);
    drawn.sheet_len = length;
}

/* |q| of step 5; R is V mod N, since d is V - N. */
static uint64_t spacing_of(uint64_t n, uint64_t v)
{
    uint64_t r = v % n;
    return r != 0 && 2 * r <= n ? (n + r - 1) / r : n / (n - r);
}

/* The bit of a kind, where it holds. */
static uint64_t bit_of(bool holds, enum kind kind)
{
    return (uint64_t)holds << kind;
}

static uint64_t kinds_of_channel(uint32_t trch)
{
    uint64_t f, e, n, v;
    reference.channel(drawn.sheet, drawn.sheet_len, trch, &f, &e, &n, &v);
    uint64_t kinds = bit_of(trch > 8, UPPER) | bit_of(e == 0, EMPTY) | bit_of(v < n, PUNCTURED) |
                     bit_of(v == n && n != 0, EXACT) | bit_of(v > n, REPEATED) |
                     bit_of(n != 0 && v >= 1000 * n, MANY_TIMES);
    if (v == n || f == 1)
        return kinds;
    uint64_t q = spacing_of(n, v);
    return kinds | bit_of(true, q % 2 == 1 ? ODD_STEP : q % f != 0 ? FEWER_ZEROS : ALL_ZEROS);
}

/* Of two codes. The one with the smaller spreading factor has runs; the other needs as many turns as it has places. Rounds of
   one turn each, code 1 first, go on until both are full. */
static uint64_t kinds_of_codes(const uint16_t *capacities, const uint16_t *logs)
{
    if (logs[0] == logs[1])
        return bit_of(true, EQUAL_CODES);
    unsigned runner = logs[0] < logs[1] ? 0 : 1, doublings = (unsigned)abs(logs[0] - logs[1]);
    uint32_t run = 1u << doublings, turns = (capacities[runner] + run - 1) / run, others = capacities[1 - runner];
    uint32_t runs = (runner == 0 ? FIRST_RUNS : SECOND_RUNS) + doublings - 1;
    bool cut = capacities[runner] % run != 0 && others >= turns + runner; /* the other code has a place left then */
    return bit_of(capacities[runner] >= run, runs) | bit_of(cut, runner == 0 ? FIRST_CUT : SECOND_CUT) |
           bit_of(others > turns + runner, LONG_FULL) | bit_of(turns > others + 1 - runner, SHORT_FULL);
}

static uint64_t kinds_of_uplink(const uint16_t *read)
{
    uint64_t kinds = bit_of(drawn.capacity == 60000, FULL_UPLINK);
    for (uint32_t t = 0; t < drawn.slots; t++)
        if (read[UMV_FIELD_PHCHS + t] == 1)
            kinds |= bit_of(true, ONE_CODE);
        else
            kinds |= kinds_of_codes(&read[UMV_FIELD_CAPACITIES + 16 * t], &read[UMV_FIELD_LOGARITHMS + 16 * t]);
    return kinds;
}

/* Of 1.28 Mcps; `uplink` are the kinds that it has as an uplink sheet. */
static uint64_t kinds_of_lcr(bool by_slot, uint64_t uplink)
{
    return bit_of(drawn.slots > 1, by_slot ? LCR_SLOT : LCR_FRAME) |
           bit_of(drawn.slots == UMV_SUBFRAME_SLOTS_MOST, LCR_SEVEN) | bit_of(drawn.channels == 16, LCR_SIXTEEN) |
           bit_of(drawn.capacity == 60000, LCR_FULL) | bit_of(uplink >> ONE_CODE & 1, LCR_SINGLE) |
           bit_of((uplink >> FIRST_RUNS & 0xff) != 0, LCR_RUNS) | bit_of((uplink >> FIRST_CUT & 3) != 0, LCR_CUT);
}

/* Of slots that are interleaved each by itself, which have ways of their own through the library. */
static uint64_t kinds_of_slots(const uint16_t *read)
{
    uint64_t kinds = 0;
    for (uint32_t t = 0; t < drawn.slots; t++) {
        const uint16_t *capacities = &read[UMV_FIELD_CAPACITIES + 16 * t];
        bool alike = capacities[0] > 20 && capacities[0] == capacities[1] && capacities[1] == capacities[2];
        kinds |= bit_of(read[UMV_FIELD_PHCHS + t] == 1, LONE) | bit_of(read[UMV_FIELD_PHCHS + t] == 3 && alike, THREEFOLD);
    }
    return kinds;
}

/* What the reference says of the sheet. */
static void measure(void)
{
    uint32_t number = reference.sizes(drawn.sheet, drawn.sheet_len, &drawn.channels, &drawn.slots, &drawn.contents,
                                      &drawn.capacity, &drawn.joined);
    drawn.kinds = drawn.subframes = 0;
    memset(drawn.channel_kinds, 0, sizeof drawn.channel_kinds);
    if (number != UMV_OK)
        return;
    uint16_t read[UMV_FIELDS];
    uint64_t at;
    reference.sheet_read(drawn.sheet, drawn.sheet_len, read, UMV_FIELDS, &at);
    drawn.subframes = read[UMV_FIELD_LCR] + 1u;
    bool by_slot = read[UMV_FIELD_MODE] == 1;
    uint64_t uplink = read[UMV_FIELD_UPLINK] == 1 ? kinds_of_uplink(read) : 0;
    drawn.kinds = bit_of(true, by_slot ? BY_SLOT : OVER_FRAME) | bit_of(drawn.sheet_len == UMV_SHEET_MOST, LONGEST) |
                  bit_of(drawn.channels == 8, EIGHT) | bit_of(drawn.channels == 9, NINE) |
                  bit_of(drawn.channels == 16, SIXTEEN) | bit_of(drawn.capacity == 60000, FULL_FRAME) |
                  bit_of(drawn.joined == 60000, FULL_JOINED) | uplink |
                  (by_slot && read[UMV_FIELD_LCR] == 0 ? kinds_of_slots(read) : 0) |
                  (read[UMV_FIELD_LCR] == 1 ? kinds_of_lcr(by_slot, uplink) : 0);
    for (uint32_t i = 0; i < drawn.channels; i++)
        drawn.channel_kinds[i] = kinds_of_channel(i + 1);
}

void draw_sheet(void)
{
    uint8_t packed[UMV_SHEET_FORM_MOST];
    random_fields();
    damage_fields();
    size_t bits = pack(fields, packed);
    memset(drawn.sheet, 0, sizeof drawn.sheet);
    memcpy(drawn.sheet, packed, sizeof packed);
    drawn.packed_len = (bits + 7) / 8;
    damage_sheet(bits);
    drawn.damaged = drawn.sheet_len != drawn.packed_len || memcmp(drawn.sheet, packed, sizeof packed) != 0;
    measure();
}
