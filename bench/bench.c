/*
 * bench IMPLEMENTATION CALL FRAME MODE MATCHING TIMES [INDEX]: makes one call TIMES times, for bench/run to count.
 *
 * IMPLEMENTATION is library or reference; CALL is build, take, heard, link, name or channel; FRAME (244, 2440, 54000, 60000; 240x8 and
 * 54000x15, with the number of a slot's codes behind the x; 2440c8 and 2440c16, with the number of channels behind the c; in uplink
 * 8296u1:16, 8296u16:1, 2196u1:2, 2928u1:1, with the runs of the two codes behind the u; of 1.28 Mcps, with an h for its two halves,
 * 176h, 19712hx16, 8448hu1, 5984hu1:16, 1056hu1:1), MODE (0, 1) and MATCHING (puncturing, repetition; of 60000 repetition, both)
 * choose the sheet. A name is asked for the place with this INDEX in the frame, from 0.
 *
 * bench time FRAME MODE MATCHING BATCHES: prints the nanoseconds of one call, best of so many batches, the plain C's and the
 * library's in turn: building by either, taking back by either, and building by a table of the frame's places.
 */
#define _POSIX_C_SOURCE 200809L
#include <stdio.h>
#include <stdlib.h>
#include <string.h>
#include <time.h>

#include "../tests/implementation.h"

enum { MOST = 60000, FRAME_NUMBER = 7 }; /* a frame number that is not 0 in any TTI of more than one frame */

/* Bytes in front of both implementations' code: by where that lies its time moves by up to a third. */
#ifdef SHIFT
#define TEXT(number) #number
#define SKIP(number) ".text\n.skip " TEXT(number)
__asm__(SKIP(SHIFT));
#endif

struct channel_row {
    uint16_t tti, e, rm;
};

/* A capacity in bits and the logarithm of a spreading factor. */
struct code {
    uint16_t capacity, log;
};

/* The channels end at the first RM of 0. */
struct row {
    const char *frame;
    const char *matching;
    struct channel_row channels[UMV_CHANNELS_MOST + 1];
    uint16_t phchs[16];   /* of each slot; they end at the first 0 */
    uint16_t capacity;    /* of every PhCH in downlink */
    struct code codes[2]; /* of every slot in uplink */
    uint16_t lcr;         /* 1 for 1.28 Mcps: all slots twice */
};

/* Channels of each TTI, of n bits a frame. */
#define EACH_TTI(n) {0, (n), 200}, {1, 2 * (n), 190}, {2, 4 * (n), 210}, {3, 8 * (n), 195}

/* One code of spreading factor 16; eight with few bits in one slot; ten in three slots; a carrier with one code of spreading factor
   1 in each of its 15 slots; one with 15 codes in each; the greatest frame, of 8 in each, which cannot have every channel punctured,
   since the channels have at most 60,000 bits. Uplink slots of two codes: spreading factors 16 and 1, 1 and 16, 16 and 8, 8 and 8.
   Of 1.28 Mcps: one code of spreading factor 16; a carrier with 16 of them in each of its 7 slots; uplink slots of one code of
   spreading factor 1, of two of 16 and 1, and of two of 16. */
static const struct row rows[] = {
    {"244", "puncturing", {{1, 600, 200}}, {1}, 244, {{0}}, 0},
    {"244", "repetition", {{1, 400, 200}}, {1}, 244, {{0}}, 0},
    {"240x8", "puncturing", {EACH_TTI(75)}, {8}, 30, {{0}}, 0},
    {"240x8", "repetition", {EACH_TTI(50)}, {8}, 30, {{0}}, 0},
    {"2440", "puncturing", {{0, 1200, 180}, {1, 2400, 200}, {2, 2400, 190}}, {4, 3, 3}, 244, {{0}}, 0},
    {"2440", "repetition", {{0, 800, 180}, {1, 1600, 200}, {2, 1600, 190}}, {4, 3, 3}, 244, {{0}}, 0},
    {"2440c8", "puncturing", {EACH_TTI(376), EACH_TTI(376)}, {4, 3, 3}, 244, {{0}}, 0},
    {"2440c8", "repetition", {EACH_TTI(250), EACH_TTI(250)}, {4, 3, 3}, 244, {{0}}, 0},
    {"2440c16", "puncturing", {EACH_TTI(188), EACH_TTI(188), EACH_TTI(188), EACH_TTI(188)}, {4, 3, 3}, 244, {{0}}, 0},
    {"2440c16", "repetition", {EACH_TTI(125), EACH_TTI(125), EACH_TTI(125), EACH_TTI(125)}, {4, 3, 3}, 244, {{0}}, 0},
    {"8296u1:16", "puncturing", {{0, 5400, 200}, {1, 8000, 190}}, {2, 2}, 0, {{244, 4}, {3904, 0}}, 0},
    {"8296u1:16", "repetition", {{0, 4000, 200}, {1, 6600, 190}}, {2, 2}, 0, {{244, 4}, {3904, 0}}, 0},
    {"8296u16:1", "puncturing", {{0, 5400, 200}, {1, 8000, 190}}, {2, 2}, 0, {{3904, 0}, {244, 4}}, 0},
    {"8296u16:1", "repetition", {{0, 4000, 200}, {1, 6600, 190}}, {2, 2}, 0, {{3904, 0}, {244, 4}}, 0},
    {"2196u1:2", "puncturing", {{0, 1400, 200}, {1, 2200, 190}}, {2, 2, 2}, 0, {{244, 4}, {488, 3}}, 0},
    {"2196u1:2", "repetition", {{0, 1000, 200}, {1, 1600, 190}}, {2, 2, 2}, 0, {{244, 4}, {488, 3}}, 0},
    {"2928u1:1", "puncturing", {{0, 1800, 200}, {1, 3000, 190}}, {2, 2, 2}, 0, {{488, 3}, {488, 3}}, 0},
    {"2928u1:1", "repetition", {{0, 1400, 200}, {1, 2200, 190}}, {2, 2, 2}, 0, {{488, 3}, {488, 3}}, 0},
    {"54000", "puncturing", {{0, 14500, 200}, {0, 14500, 204}, {0, 14500, 196}, {0, 14500, 200}, {1, 1600, 200}}, {1, 1, 1, 1, 1, 1, 1, 1, 1, 1, 1, 1, 1, 1, 1}, 3600, {{0}}, 0},
    {"54000", "repetition", {{0, 13000, 200}, {0, 13000, 190}, {0, 13000, 210}, {1, 8000, 200}, {2, 8000, 200}}, {1, 1, 1, 1, 1, 1, 1, 1, 1, 1, 1, 1, 1, 1, 1}, 3600, {{0}}, 0},
    {"54000x15", "puncturing", {{0, 14500, 200}, {0, 14500, 204}, {0, 14500, 196}, {0, 14500, 200}, {1, 1600, 200}}, {15, 15, 15, 15, 15, 15, 15, 15, 15, 15, 15, 15, 15, 15, 15}, 240, {{0}}, 0},
    {"54000x15", "repetition", {{0, 13000, 200}, {0, 13000, 190}, {0, 13000, 210}, {1, 8000, 200}, {2, 8000, 200}}, {15, 15, 15, 15, 15, 15, 15, 15, 15, 15, 15, 15, 15, 15, 15}, 240, {{0}}, 0},
    {"60000", "repetition", {{0, 15000, 200}, {0, 15000, 190}, {0, 15000, 210}, {1, 14000, 195}}, {8, 8, 8, 8, 8, 8, 8, 8, 8, 8, 8, 8, 8, 8, 8}, 500, {{0}}, 0},
    {"60000", "both", {{0, 16000, 160}, {0, 16000, 220}, {0, 15000, 150}, {1, 13000, 230}}, {8, 8, 8, 8, 8, 8, 8, 8, 8, 8, 8, 8, 8, 8, 8}, 500, {{0}}, 0},
    {"176h", "puncturing", {{1, 440, 200}}, {1}, 88, {{0}}, 1},
    {"176h", "repetition", {{1, 280, 200}}, {1}, 88, {{0}}, 1},
    {"19712hx16", "puncturing", {{0, 9000, 200}, {1, 16000, 190}, {2, 16000, 210}, {3, 16000, 195}}, {16, 16, 16, 16, 16, 16, 16}, 88, {{0}}, 1},
    {"19712hx16", "repetition", {{0, 7000, 200}, {1, 12000, 190}, {2, 12000, 210}, {3, 12000, 195}}, {16, 16, 16, 16, 16, 16, 16}, 88, {{0}}, 1},
    {"8448hu1", "puncturing", {{0, 5400, 200}, {1, 8000, 190}}, {1, 1, 1}, 0, {{1408, 0}}, 1},
    {"8448hu1", "repetition", {{0, 4000, 200}, {1, 6600, 190}}, {1, 1, 1}, 0, {{1408, 0}}, 1},
    {"5984hu1:16", "puncturing", {{0, 3900, 200}, {1, 5800, 190}}, {2, 2}, 0, {{88, 4}, {1408, 0}}, 1},
    {"5984hu1:16", "repetition", {{0, 2900, 200}, {1, 4800, 190}}, {2, 2}, 0, {{88, 4}, {1408, 0}}, 1},
    {"1056hu1:1", "puncturing", {{0, 680, 200}, {1, 1060, 190}}, {2, 2, 2}, 0, {{88, 4}, {88, 4}}, 1},
    {"1056hu1:1", "repetition", {{0, 500, 200}, {1, 800, 190}}, {2, 2, 2}, 0, {{88, 4}, {88, 4}}, 1},
};

static uint8_t sheet[UMV_SHEET_MOST], contents[MOST], frame[MOST], expected[MOST];
static float soft[MOST], taken[MOST], right[MOST];
static uint32_t table[MOST];
static size_t sheet_len, contents_len, frame_len, joined_len;

static void fail(const char *what)
{
    fprintf(stderr, "bench: %s\n", what);
    exit(2);
}

static const struct row *row_of(const char *name, const char *matching)
{
    for (size_t i = 0; i < sizeof rows / sizeof *rows; i++)
        if (strcmp(rows[i].frame, name) == 0 && strcmp(rows[i].matching, matching) == 0)
            return &rows[i];
    fail("no such row");
    return NULL;
}

static uint16_t capacity_of(const struct row *row, unsigned phch)
{
    return row->capacity != 0 ? row->capacity : row->codes[phch].capacity;
}

static void make_sheet(const struct row *row, uint16_t mode)
{
    uint16_t fields[UMV_FIELDS] = {[UMV_FIELD_VERSION] = 1, [UMV_FIELD_MODE] = mode};
    fields[UMV_FIELD_UPLINK] = row->capacity == 0;
    fields[UMV_FIELD_LCR] = row->lcr;
    uint64_t length;
    for (unsigned i = 0; row->channels[i].rm != 0; i++) {
        fields[UMV_FIELD_CHANNELS]++;
        fields[UMV_FIELD_TTI + i] = row->channels[i].tti;
        fields[UMV_FIELD_E + i] = row->channels[i].e;
        fields[UMV_FIELD_RM + i] = row->channels[i].rm;
    }
    for (unsigned t = 0; row->phchs[t] != 0; t++) {
        fields[UMV_FIELD_SLOTS]++;
        fields[UMV_FIELD_PHCHS + t] = row->phchs[t];
        for (unsigned p = 0; p < row->phchs[t]; p++)
            fields[UMV_FIELD_CAPACITIES + 16 * t + p] = capacity_of(row, p);
        for (unsigned p = 0; row->capacity == 0 && p < 2; p++)
            fields[UMV_FIELD_LOGARITHMS + 16 * t + p] = row->codes[p].log;
    }
    if (ref_sheet_length(fields, UMV_FIELDS, &length) != 0 ||
        ref_sheet_write(fields, UMV_FIELDS, sheet, length, &length) != 0)
        fail("the sheet is refused");
    sheet_len = length;
}

/* The sheet has as many bits as the row says, and every channel is matched as it says: in "both" half of them are punctured. */
static void check_sheet(const struct row *row)
{
    uint64_t channels, slots, sum, capacity, joined, f, e, n, v, punctured = 0;
    ref_sizes(sheet, sheet_len, &channels, &slots, &sum, &capacity, &joined);
    if (capacity != strtoul(row->frame, NULL, 10))
        fail("the frame has another size");
    for (uint32_t trch = 1; trch <= channels; trch++) {
        ref_channel(sheet, sheet_len, trch, &f, &e, &n, &v);
        if (v == n)
            fail("a channel is not matched");
        punctured += v < n;
    }
    if (punctured != (strcmp(row->matching, "puncturing") == 0 ? channels : strcmp(row->matching, "both") == 0 ? channels / 2 : 0))
        fail("a channel is matched otherwise");
    contents_len = sum;
    frame_len = capacity;
    joined_len = joined;
}

static void make_contents(void)
{
    uint32_t state = 1;
    for (size_t i = 0; i < contents_len; i++) {
        state ^= state << 13;
        state ^= state >> 17;
        state ^= state << 5;
        contents[i] = state >> 16 & 1;
    }
}

static void build(const struct implementation *measured, unsigned long times)
{
    uint64_t at;
    ref_build(sheet, sheet_len, FRAME_NUMBER, contents, contents_len, expected, frame_len, &at);
    for (; times > 0; times--)
        if (measured->build(sheet, sheet_len, FRAME_NUMBER, contents, contents_len, frame, frame_len, &at) != 0)
            fail("the build is refused");
    if (memcmp(frame, expected, frame_len) != 0)
        fail("the frame differs from the reference's");
}

/* Soft values of either sign, none of them whole. */
static void make_soft(void)
{
    for (size_t i = 0; i < frame_len; i++)
        soft[i] = (float)(i % 97) * 0.37f - 17.5f;
}

/* Taken back into a buffer that held other values. */
static void take(const struct implementation *measured, unsigned long times)
{
    uint64_t at;
    make_soft();
    for (size_t i = 0; i < joined_len; i++)
        taken[i] = right[i] = (float)i;
    ref_take_back(sheet, sheet_len, FRAME_NUMBER, soft, frame_len, right, joined_len, &at);
    for (; times > 0; times--)
        if (measured->take_back(sheet, sheet_len, FRAME_NUMBER, soft, frame_len, taken, joined_len, &at) != 0)
            fail("the taking back is refused");
    if (memcmp(taken, right, joined_len * sizeof *taken) != 0)
        fail("what came home differs from the reference's");
}

/* Of the first channel, in one-channel frames all of the frame. */
static void link_record(const struct implementation *measured, unsigned long times)
{
    uint64_t at, punctured;
    float least, greatest;
    make_soft();
    for (; times > 0; times--)
        if (measured->link(sheet, sheet_len, FRAME_NUMBER, soft, frame_len, 1, &at, &least, &greatest, &punctured) != 0)
            fail("the link record is refused");
}

static void heard(const struct implementation *measured, unsigned long times)
{
    uint64_t at, copies;
    float value;
    make_soft();
    for (; times > 0; times--)
        if (measured->heard(sheet, sheet_len, FRAME_NUMBER, soft, frame_len, 1, 3, &at, &value, &copies) != 0)
            fail("the bit is refused");
}

static void name(const struct implementation *measured, const struct row *row, uint32_t index, unsigned long times)
{
    uint64_t trch, bit, copy, right_trch, right_bit, right_copy;
    uint32_t half = 0, slot = 0, phch = 0;
    while (index >= capacity_of(row, phch)) {
        index -= capacity_of(row, phch);
        phch = (phch + 1) % row->phchs[slot];
        slot += phch == 0;
        half += row->phchs[slot] == 0;
        slot = row->phchs[slot] == 0 ? 0 : slot;
    }
    ref_name(sheet, sheet_len, FRAME_NUMBER, half + 1, slot + 1, phch + 1, index + 1, &right_trch, &right_bit, &right_copy);
    for (; times > 0; times--)
        if (measured->name_of(sheet, sheet_len, FRAME_NUMBER, half + 1, slot + 1, phch + 1, index + 1, &trch, &bit, &copy) != 0)
            fail("the name is refused");
    if (trch != right_trch || bit != right_bit || copy != right_copy)
        fail("the name differs from the reference's");
}

static void channel(const struct implementation *measured, unsigned long times)
{
    uint64_t f, e, n, v;
    for (; times > 0; times--)
        if (measured->channel(sheet, sheet_len, 1, &f, &e, &n, &v) != 0)
            fail("the channel is refused");
}

/* table[i]: which of the contents' bits, from 1, stands at place i, 0 for one that was added; found by building the bits of these
   numbers, one after the other. */
static void make_table(void)
{
    static uint8_t digits[MOST];
    uint64_t at;
    memset(table, 0, sizeof table);
    for (unsigned b = 0; MOST >> b > 0; b++) {
        for (size_t i = 0; i < contents_len; i++)
            digits[i] = (i + 1) >> b & 1;
        ref_build(sheet, sheet_len, FRAME_NUMBER, digits, contents_len, expected, frame_len, &at);
        for (size_t i = 0; i < frame_len; i++)
            table[i] |= (uint32_t)expected[i] << b;
    }
}

/* What no way of building that goes bit by bit can be faster than: one load and one store a place, out of bits that have a 0 in front
   of them. */
static void look_up(unsigned long times)
{
    static uint8_t led[MOST + 1];
    memcpy(led + 1, contents, contents_len);
    for (; times > 0; times--) {
        for (size_t i = 0; i < frame_len; i++)
            frame[i] = led[table[i]];
        __asm__ volatile("" ::: "memory");
    }
}

/* Not those of this program alone, which the system counts too low now and then, so that the best would be wrong. */
static double seconds(void)
{
    struct timespec now;
    clock_gettime(CLOCK_MONOTONIC, &now);
    return (double)now.tv_sec + (double)now.tv_nsec * 1e-9;
}

/* The calls that are timed, each so many times: the buffers are made before. */
static void timed(unsigned which, unsigned long times)
{
    const struct implementation *measured = which % 2 == 0 ? &reference : &library;
    uint64_t at;
    uint32_t refused = 0;
    if (which == 4)
        look_up(times);
    else if (which < 2)
        for (; times > 0; times--)
            refused |= measured->build(sheet, sheet_len, FRAME_NUMBER, contents, contents_len, frame, frame_len, &at);
    else
        for (; times > 0; times--)
            refused |= measured->take_back(sheet, sheet_len, FRAME_NUMBER, soft, frame_len, taken, joined_len, &at);
    if (refused != 0)
        fail("a timed call is refused");
}

static void print_times(unsigned long batches)
{
    enum { CALLS = 5, BITS = 50000 }; /* a batch is so short that other programs seldom interrupt it, the slower call's too */
    const unsigned long times = BITS / (frame_len + 500) + 1;
    double best[CALLS];
    make_soft();
    make_table();
    for (unsigned long batch = 0; batch < batches; batch++)
        for (unsigned which = 0; which < CALLS; which++) {
            timed(which, 1); /* brings back to the caches what the other calls took out */
            const double begun = seconds();
            timed(which, times);
            const double one = (seconds() - begun) / (double)times * 1e9;
            best[which] = batch == 0 || one < best[which] ? one : best[which];
        }
    for (unsigned which = 0; which < CALLS; which++)
        printf("%.0f%c", best[which], which + 1 < CALLS ? ' ' : '\n');
}

int main(int argc, char **argv)
{
    if (argc == 6 && strcmp(argv[1], "time") == 0) {
        const struct row *row = row_of(argv[2], argv[4]);
        make_sheet(row, (uint16_t)strtoul(argv[3], NULL, 10));
        check_sheet(row);
        make_contents();
        print_times(strtoul(argv[5], NULL, 10));
        return 0;
    }
    if (argc < 7)
        fail("arguments are missing");
    const struct implementation *measured = strcmp(argv[1], library.name) == 0 ? &library : &reference;
    const struct row *row = row_of(argv[3], argv[5]);
    unsigned long times = strtoul(argv[6], NULL, 10);
    make_sheet(row, (uint16_t)strtoul(argv[4], NULL, 10));
    check_sheet(row);
    make_contents();
    if (strcmp(argv[2], "build") == 0)
        build(measured, times);
    else if (strcmp(argv[2], "take") == 0)
        take(measured, times);
    else if (strcmp(argv[2], "heard") == 0)
        heard(measured, times);
    else if (strcmp(argv[2], "link") == 0)
        link_record(measured, times);
    else if (strcmp(argv[2], "name") == 0 && argc == 8)
        name(measured, row, (uint32_t)strtoul(argv[7], NULL, 10), times);
    else if (strcmp(argv[2], "channel") == 0)
        channel(measured, times);
    else
        fail("no such call");
    return 0;
}
