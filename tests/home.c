/*
 * home [SEED [SHEETS]]: there and back over whole TTIs, through the library alone. On random sheets it builds eight frames
 * that follow one another, sends each bit as +1 for 0 and -1 for 1, takes every frame back into one buffer and finishes
 * every channel. Each value must be plus or minus the number of places that umv_name gives to its bit, or 1,024 where there are
 * more, and +0.0 where there is none. What was heard of some bits and each link record must say the same. The same seed makes the
 * same sheets.
 */
#include <stdio.h>
#include <stdlib.h>
#include <string.h>

#include "chance.h"
#include "check.h"
#include "small.h"
#include "ummervia.h"

enum {
    SHEETS = 500, /* made unless asked otherwise */
    FRAMES = 8,   /* of the longest TTI */
    CHANNELS = SMALL_CHANNELS,
    MOST_E = SMALL_E,
    MOST_T = SMALL_E,   /* 8 divides it: fillers never pass it */
    BOUND = 1024,       /* values are clipped to it */
    MANY_PLACES = 2100, /* of a sub-frame, in which a bit or two may have more copies than that */
    MOST_PLACES = 2 * MANY_PLACES,
    ASKED = 4 /* bits asked for in each segment */
};

static unsigned long values, punctured, once, joined_values, clipped[2], heard, links; /* clipped above and below */

/* ---- The sheet at work ---- */

static uint16_t fields[UMV_FIELDS];
static uint8_t sheet[UMV_SHEET_MOST];
static size_t sheet_len;

static struct {
    uint64_t channels, slots, contents, capacity, joined;
} sizes;

static struct channel {
    uint64_t f, e, n, v;
    size_t in_contents, in_joined; /* where it begins */
} channels[CHANNELS];

static unsigned long met_tti[4], met_channels[CHANNELS], met_empty;

/* Of 3.84 and of 1.28 Mcps: modes, uplink slots of one code, and of two with these logarithms. */
static struct {
    unsigned long mode[2], single, codes[5][5];
} met[2];

static void count_codes(void)
{
    for (uint32_t t = 0; fields[UMV_FIELD_UPLINK] == 1 && t < sizes.slots; t++) {
        const uint16_t *logs = &fields[UMV_FIELD_LOGARITHMS + 16 * t];
        if (fields[UMV_FIELD_PHCHS + t] == 1)
            met[fields[UMV_FIELD_LCR]].single++;
        else
            met[fields[UMV_FIELD_LCR]].codes[logs[0]][logs[1]]++;
    }
}

/* Whether the library's numbers are such that the buffers here hold what it will write. */
static bool read_channels(void)
{
    size_t in_contents = 0, in_joined = 0;
    for (uint32_t i = 0; i < sizes.channels; i++) {
        struct channel *c = &channels[i];
        if (!CHECK(umv_channel(sheet, sheet_len, i + 1, &c->f, &c->e, &c->n, &c->v) == UMV_OK) ||
            !CHECK(c->f == 1u << fields[UMV_FIELD_TTI + i] && c->e == fields[UMV_FIELD_E + i] && c->f * c->n <= MOST_T))
            return false;
        c->in_contents = in_contents;
        c->in_joined = in_joined;
        in_contents += c->e;
        in_joined += c->f * c->n;
        met_tti[fields[UMV_FIELD_TTI + i]]++;
        met_empty += c->e == 0;
    }
    count_codes();
    met[fields[UMV_FIELD_LCR]].mode[fields[UMV_FIELD_MODE]]++;
    met_channels[sizes.channels - 1]++;
    return CHECK(in_contents == sizes.contents && in_joined == sizes.joined);
}

/* One channel of a bit or two, which many places hold. */
static void draw_few_bits(void)
{
    fields[UMV_FIELD_CHANNELS] = fields[UMV_FIELD_SLOTS] = fields[UMV_FIELD_PHCHS] = 1;
    fields[UMV_FIELD_E] = (uint16_t)between(1, 2);
    fields[UMV_FIELD_CAPACITIES] = (uint16_t)between(BOUND - 2, MANY_PLACES);
}

/* Whether the library takes it. */
static bool random_sheet(void)
{
    uint64_t length;
    draw_small(fields);
    if (one_in(20))
        draw_few_bits();
    if (!CHECK(umv_sheet_length(fields, UMV_FIELDS, &length) == UMV_OK && length <= UMV_SHEET_MOST))
        return false;
    sheet_len = length;
    return CHECK(umv_sheet_write(fields, UMV_FIELDS, sheet, sheet_len, &length) == UMV_OK) &&
           CHECK(umv_sizes(sheet, sheet_len, &sizes.channels, &sizes.slots, &sizes.contents, &sizes.capacity,
                           &sizes.joined) == UMV_OK) &&
           CHECK(sizes.channels == fields[UMV_FIELD_CHANNELS] && sizes.slots == fields[UMV_FIELD_SLOTS] &&
                 sizes.capacity <= MOST_PLACES);
}

/* ---- There ---- */

static uint8_t contents[CHANNELS * MOST_E], frame[MOST_PLACES];
static float soft[MOST_PLACES], joined[CHANNELS * MOST_T];
static uint32_t named[FRAMES][CHANNELS][MOST_T]; /* places of a frame that name a bit */

static void count_subframe(uint32_t frame_number, uint32_t h)
{
    uint64_t trch, bit, copy;
    for (uint32_t t = 1; t <= sizes.slots; t++)
        for (uint32_t p = 1; p <= fields[UMV_FIELD_PHCHS + t - 1]; p++)
            for (uint32_t u = 1; u <= fields[UMV_FIELD_CAPACITIES + 16 * (t - 1) + p - 1]; u++)
                if (CHECK(umv_name(sheet, sheet_len, frame_number, h, t, p, u, &trch, &bit, &copy) == UMV_OK) &&
                    CHECK(trch >= 1 && trch <= sizes.channels) &&
                    CHECK(bit >= 1 && bit <= channels[trch - 1].f * channels[trch - 1].n))
                    named[frame_number % FRAMES][trch - 1][bit - 1]++;
}

static void count_names(uint32_t frame_number)
{
    for (uint32_t h = 1; h <= fields[UMV_FIELD_LCR] + 1u; h++)
        count_subframe(frame_number, h);
}

static void send(uint32_t frame_number)
{
    uint64_t at;
    CHECK(umv_build(sheet, sheet_len, frame_number, contents, sizes.contents, frame, sizes.capacity, &at) == UMV_OK);
    CHECK(at == sizes.capacity);
    for (size_t i = 0; i < sizes.capacity; i++)
        soft[i] = frame[i] == 0 ? 1.0f : -1.0f;
}

/* ---- And back ---- */

static bool same(float a, float b)
{
    return memcmp(&a, &b, sizeof a) == 0;
}

/* The magnitude of a bit that `copies` places held. */
static float loudness(uint32_t copies)
{
    return copies < BOUND ? (float)copies : (float)BOUND;
}

/* Whether a bit, from 0 and before first interleaving, was sent as -1; a filler is 0. */
static bool is_one(const struct channel *c, uint64_t bit)
{
    return bit < c->e && contents[c->in_contents + bit] == 1;
}

/* What comes home of a bit that `copies` places held. */
static float home_of(const struct channel *c, uint64_t bit, uint32_t copies)
{
    return is_one(c, bit) && copies != 0 ? -loudness(copies) : loudness(copies);
}

/* The column, before first interleaving, of the segment of frame n. */
static uint32_t column_of(const struct channel *c, uint32_t n)
{
    static const uint8_t orders[4][8] = {{0}, {0, 1}, {0, 2, 1, 3}, {0, 4, 2, 6, 1, 5, 3, 7}};
    return orders[fields[UMV_FIELD_TTI + (c - channels)]][n % c->f];
}

static void ask_bits(uint32_t frame_number, uint32_t i)
{
    const struct channel *c = &channels[i];
    for (int k = 0; k < ASKED && c->n != 0; k++) {
        uint32_t bit = between(1, (uint32_t)c->n);
        uint64_t at = 1, copies, before = (bit - 1) * c->f + column_of(c, frame_number);
        uint32_t places = named[frame_number % FRAMES][i][before];
        float value;
        CHECK(umv_heard(sheet, sheet_len, frame_number, soft, sizes.capacity, i + 1, bit, &at, &value, &copies) == UMV_OK);
        CHECK(at == 0 && copies == places);
        CHECK(same(value, home_of(c, before, places)));
        CHECK(same(value, joined[c->in_joined + frame_number % c->f * c->n + bit - 1]));
        heard++;
    }
}

static void ask_link(uint32_t frame_number, uint32_t i)
{
    const struct channel *c = &channels[i];
    uint32_t few = 0, many = 0;
    uint64_t none = 0, at = 1, missing;
    float least, greatest;
    for (uint64_t bit = column_of(c, frame_number); bit < c->f * c->n; bit += c->f) {
        uint32_t places = named[frame_number % FRAMES][i][bit];
        none += places == 0;
        few = places != 0 && (few == 0 || places < few) ? places : few;
        many = places > many ? places : many;
    }
    CHECK(umv_link(sheet, sheet_len, frame_number, soft, sizes.capacity, i + 1, &at, &least, &greatest, &missing) == UMV_OK);
    CHECK(at == 0 && missing == none);
    CHECK(same(least, loudness(few)) && same(greatest, loudness(many)));
    links++;
}

static void take_back(uint32_t frame_number)
{
    uint64_t at, segments = 0;
    for (uint32_t i = 0; i < sizes.channels; i++)
        segments += channels[i].n;
    CHECK(umv_take_back(sheet, sheet_len, frame_number, soft, sizes.capacity, joined, sizes.joined, &at) == UMV_OK);
    CHECK(at == segments);
    for (uint32_t i = 0; i < sizes.channels; i++) {
        ask_bits(frame_number, i);
        ask_link(frame_number, i);
    }
}

/* How many places held a bit in each of the frames that its segment went in; no other frame held it. */
static uint32_t copies_of(uint32_t i, uint64_t bit)
{
    const struct channel *c = &channels[i];
    uint32_t n = 0;
    while (column_of(c, n) != bit % c->f)
        n++;
    for (uint32_t k = 0; k < FRAMES; k++)
        CHECK(named[k][i][bit] == (k % c->f == n ? named[n][i][bit] : 0));
    return named[n][i][bit];
}

static void finish(uint32_t i)
{
    const struct channel *c = &channels[i];
    float coded[MOST_E];
    uint64_t at;
    for (size_t bit = 0; bit < MOST_E; bit++)
        coded[bit] = 0.25f;
    CHECK(umv_finish(sheet, sheet_len, i + 1, joined, sizes.joined, coded, c->e, &at) == UMV_OK);
    CHECK(at == c->e);
    for (uint64_t bit = 0; bit < c->e; bit++) {
        uint32_t copies = copies_of(i, bit);
        CHECK(same(coded[bit], home_of(c, bit, copies)));
        values++;
        punctured += copies == 0;
        once += copies == 1;
        joined_values += copies > 1;
        clipped[is_one(c, bit)] += copies > BOUND;
    }
}

static void there_and_back(void)
{
    uint32_t first = FRAMES * between(0, 255 / FRAMES);
    memset(named, 0, sizeof named);
    for (size_t i = 0; i < sizes.contents; i++)
        contents[i] = (uint8_t)between(0, 1);
    for (size_t i = 0; i < sizes.joined; i++)
        joined[i] = (float)between(0, 999) + 0.5f; /* no number of copies */
    for (uint32_t frame_number = first; frame_number < first + FRAMES; frame_number++) {
        count_names(frame_number);
        send(frame_number);
        take_back(frame_number);
    }
    for (uint32_t i = 0; i < sizes.channels; i++)
        finish(i);
}

/* How many kinds of sheet or of bit were never met. */
static unsigned not_met(void)
{
    unsigned missing = (met_empty == 0) + (punctured == 0) + (once == 0) + (joined_values == 0) + (clipped[0] == 0) +
                       (clipped[1] == 0);
    for (int i = 0; i < 4; i++)
        missing += met_tti[i] == 0;
    for (int i = 0; i < CHANNELS; i++)
        missing += met_channels[i] == 0;
    for (int lcr = 0; lcr < 2; lcr++) {
        missing += (met[lcr].mode[0] == 0) + (met[lcr].mode[1] == 0) + (met[lcr].single == 0);
        for (int i = 0; i < 25; i++)
            missing += met[lcr].codes[i / 5][i % 5] == 0;
    }
    return missing;
}

int main(int argc, char **argv)
{
    const unsigned long sheets = argc > 2 ? strtoul(argv[2], NULL, 0) : SHEETS;
    const uint64_t seed = argc > 1 ? strtoull(argv[1], NULL, 0) : 0x2522200480706050;
    printf("home: seed %#llx, %lu sheets\n", (unsigned long long)seed, sheets);
    begin(seed, 0);
    for (unsigned long k = 1; k <= sheets; k++) {
        check_sheet(k);
        if (random_sheet() && read_channels())
            there_and_back();
    }
    printf("home: %lu values checked: %lu punctured, %lu sent once, %lu joined, of which %lu and %lu clipped; %lu bits asked for, "
           "%lu link records\n",
           values, punctured, once, joined_values, clipped[0], clipped[1], heard, links);
    printf("home: %u kinds not met\n", not_met());
    return report("home") != 0 || not_met() != 0;
}
