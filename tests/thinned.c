/*
 * thinned [SEED [SHEETS]]: counts how evenly bits are punctured and repeated, on random sheets, through umv_name and
 * umv_heard alone: a segment's N is how far umv_heard knows its bits, its V how many places umv_name gives to its channel,
 * and the copies of each bit are counted by both. In each stretch of L neighbouring bits the punctured ones, or the copies
 * beyond copy 0, must be L x |d| / N rounded down or up, where d is V - N; and what decoders rely on must hold. The run
 * fails also if something that is to be met never was. The same seed makes the same sheets.
 */
#include <stdio.h>
#include <stdlib.h>
#include <string.h>

#include "chance.h"
#include "check.h"
#include "fields.h"
#include "small.h"

enum {
    SHEETS = 1000, /* made unless asked otherwise */
    CHANNELS = SMALL_CHANNELS,
    LONG_N = 2048, /* bits of a long segment, of which every stretch is counted still */
    LONG_PLACES = 3000,
    MOST_N = 16383, /* bits of the longest */
    MOST_PLACES = 60000
};

/* What must be met; a rounding counts where down and up differ. FRAMES_1 and so on stand in the order of the TTIs. */
enum met {
    EMPTY, PUNCTURED, UNALTERED, REPEATED, ALL_PUNCTURED, FEW_PUNCTURED, MANY_PUNCTURED, SEVERAL_TIMES, ONE_BIT, LONG,
    LONGEST_REPEATED, LONGEST_PUNCTURED, FRAMES_1, FRAMES_2, FRAMES_4, FRAMES_8, LATER_FRAME, RUNS, HALVES, NO_BIT, ALL_BITS,
    DROPPED_DOWN, DROPPED_UP, EXTRA_DOWN, EXTRA_UP, GAP_DOWN, GAP_UP, COPIES_APART, KINDS
};

static const char *const kinds[KINDS] = {
    [EMPTY] = "an empty channel",
    [PUNCTURED] = "d < 0",
    [UNALTERED] = "d = 0",
    [REPEATED] = "d > 0",
    [ALL_PUNCTURED] = "V = 0, and N is not",
    [FEW_PUNCTURED] = "two punctured bits, 2|d| <= N",
    [MANY_PUNCTURED] = "2|d| > N",
    [SEVERAL_TIMES] = "d >= N",
    [ONE_BIT] = "N = 1",
    [LONG] = "a long segment",
    [LONGEST_REPEATED] = "N = 16,383 in 60,000 places",
    [LONGEST_PUNCTURED] = "N = 16,383, d < 0",
    [FRAMES_1] = "F = 1",
    [FRAMES_2] = "F = 2",
    [FRAMES_4] = "F = 4",
    [FRAMES_8] = "F = 8",
    [LATER_FRAME] = "a later frame of a TTI",
    [RUNS] = "an uplink slot of two codes with unequal factors",
    [HALVES] = "two sub-frames",
    [NO_BIT] = "L = 0",
    [ALL_BITS] = "L = N",
    [DROPPED_DOWN] = "punctured bits rounded down",
    [DROPPED_UP] = "punctured bits rounded up",
    [EXTRA_DOWN] = "extra copies rounded down",
    [EXTRA_UP] = "extra copies rounded up",
    [GAP_DOWN] = "a gap rounded down",
    [GAP_UP] = "a gap rounded up",
    [COPIES_APART] = "bits of different copies, d > 0",
};

static unsigned long met[KINDS], segments, stretches;

/* ---- The frame at work ---- */

static uint16_t fields[UMV_FIELDS];
static uint8_t sheet[UMV_SHEET_FORM_MOST];
static size_t sheet_len;
static uint32_t frame_number, places;
static float soft[MOST_PLACES]; /* what was received does not matter here */

/* Of each channel, from 0: its places in the frame, and those of each bit of its segment, from 1. */
static struct {
    uint32_t places, bits[MOST_N + 1];
} named[CHANNELS];

/* One channel in one PhCH. */
static void make_single(uint32_t tti, uint32_t e, uint32_t capacity)
{
    fields[UMV_FIELD_CHANNELS] = fields[UMV_FIELD_SLOTS] = fields[UMV_FIELD_PHCHS] = 1;
    fields[UMV_FIELD_TTI] = (uint16_t)tti;
    fields[UMV_FIELD_E] = (uint16_t)e;
    fields[UMV_FIELD_CAPACITIES] = (uint16_t)capacity;
}

/* The first two have the longest segment, repeated in the greatest frame, then punctured; the others are small, or have one
   long segment. */
static void draw(unsigned long which)
{
    draw_small(fields);
    if (which <= 2) {
        make_single(0, MOST_N, between(1, 4095));
        fields[UMV_FIELD_UPLINK] = fields[UMV_FIELD_LCR] = 0;
        if (which == 1)
            fill_slots(fields, 15, 250);
    } else if (one_in(20)) {
        uint32_t tti = between(0, 2);
        make_single(tti, between(SMALL_E, LONG_N) << tti, between(1, LONG_PLACES));
    }
    sheet_len = (pack(fields, sheet) + 7) / 8;
    frame_number = between(0, 255);
}

/* Whether there is such a place; if so, it is counted for the bit that it names. */
static bool count_place(uint32_t subframe, uint32_t slot, uint32_t phch, uint32_t place)
{
    uint64_t trch, bit, copy;
    uint32_t number = umv_name(sheet, sheet_len, frame_number, subframe, slot, phch, place, &trch, &bit, &copy);
    if (number == UMV_ABSENT)
        return false;
    if (!CHECK(number == UMV_OK && trch >= 1 && trch <= CHANNELS && bit >= 1) || !CHECK(places < MOST_PLACES))
        return false;
    uint64_t row = (bit - 1) >> fields[UMV_FIELD_TTI + trch - 1]; /* the bit's number in its segment, from 0 */
    if (!CHECK(row < MOST_N))
        return false;
    named[trch - 1].bits[row + 1]++;
    named[trch - 1].places++;
    places++;
    return true;
}

static void count_names(void)
{
    memset(named, 0, sizeof named);
    places = 0;
    for (uint32_t subframe = 1; count_place(subframe, 1, 1, 1); subframe++)
        for (uint32_t slot = 1; slot == 1 || count_place(subframe, slot, 1, 1); slot++)
            for (uint32_t phch = 1; phch == 1 || count_place(subframe, slot, phch, 1); phch++)
                for (uint32_t place = 2; count_place(subframe, slot, phch, place);)
                    place++;
}

/* ---- One channel's segment of it ---- */

static uint32_t n, v, copies[MOST_N + 1]; /* the copies of bit 1 to N */

/* Whether the two calls agree on the segment, which is then at work. */
static bool count_heard(uint32_t trch)
{
    uint64_t at, heard;
    uint32_t number;
    float value;
    for (n = 0;; n++) {
        number = umv_heard(sheet, sheet_len, frame_number, soft, places, trch, n + 1, &at, &value, &heard);
        if (number != UMV_OK || !CHECK(n < MOST_N && heard == named[trch - 1].bits[n + 1]))
            break;
        copies[n + 1] = (uint32_t)heard;
    }
    v = named[trch - 1].places;
    return CHECK(number == UMV_ABSENT) && CHECK(n != 0 || v == 0);
}

/* Whether x is y / z, rounded down or up; counted where these differ. */
static bool is_rounded(uint64_t x, uint64_t y, uint64_t z, enum met down, enum met up)
{
    uint64_t low = y / z, high = (y + z - 1) / z;
    met[down] += low != high && x == low;
    met[up] += low != high && x == high;
    return x == low || x == high;
}

/* Every stretch, counted bit by bit; of the longest segments those from some first bits on. */
static void check_stretches(void)
{
    uint32_t lost = v < n ? n - v : 0, won = v > n ? v - n : 0; /* |d|, by its sign */
    for (uint32_t a = 1; a <= n + 1; a += n <= LONG_N ? 1 : between(1, n / 16)) {
        uint64_t dropped = 0, extra = 0;
        for (uint32_t length = 0; a + length <= n + 1; length++) {
            if (length != 0) {
                dropped += copies[a + length - 1] == 0;
                extra += copies[a + length - 1] > 1 ? copies[a + length - 1] - 1 : 0;
            }
            CHECK(lost != 0 ? is_rounded(dropped, (uint64_t)length * lost, n, DROPPED_DOWN, DROPPED_UP) : dropped == 0);
            CHECK(won != 0 ? is_rounded(extra, (uint64_t)length * won, n, EXTRA_DOWN, EXTRA_UP) : extra == 0);
            CHECK(length != n || (dropped == lost && extra == won));
            met[NO_BIT] += length == 0;
            met[ALL_BITS] += length == n;
            stretches++;
        }
    }
}

/* What follows for decoders. */
static void check_relied(void)
{
    uint32_t last = 0, least = copies[1], greatest = copies[1]; /* last: the last punctured bit before m */
    for (uint32_t m = 1; m <= n; m++) {
        least = copies[m] < least ? copies[m] : least;
        greatest = copies[m] > greatest ? copies[m] : greatest;
        CHECK(copies[m] == v / n || copies[m] == (v + n - 1) / n);
        if (copies[m] != 0) {
            CHECK(v >= n || (uint64_t)(m - last) * (n - v) < n);
            continue;
        }
        CHECK(last == 0 || 2 * (n - v) > n || m > last + 1);
        CHECK(last == 0 || is_rounded(m - last, n, n - v, GAP_DOWN, GAP_UP));
        last = m;
    }
    CHECK(greatest - least <= 1);
    CHECK(v != n || (least == 1 && greatest == 1));
    met[COPIES_APART] += v > n && greatest != least;
}

static void count_segment(uint32_t i)
{
    met[EMPTY] += i < fields[UMV_FIELD_CHANNELS] && n == 0;
    if (n == 0)
        return;
    segments++;
    met[PUNCTURED] += v < n;
    met[UNALTERED] += v == n;
    met[REPEATED] += v > n;
    met[ALL_PUNCTURED] += v == 0;
    met[FEW_PUNCTURED] += v + 2 <= n && 2 * (n - v) <= n; /* two, which are no neighbours */
    met[MANY_PUNCTURED] += v < n && 2 * (n - v) > n;
    met[SEVERAL_TIMES] += v >= 2 * n;
    met[LONG] += n > SMALL_E && n <= LONG_N;
    met[LONGEST_REPEATED] += n == MOST_N && places == MOST_PLACES;
    met[LONGEST_PUNCTURED] += n == MOST_N && v < n;
    met[ONE_BIT] += n == 1;
    met[FRAMES_1 + fields[UMV_FIELD_TTI + i]]++;
    met[LATER_FRAME] += frame_number % (1u << fields[UMV_FIELD_TTI + i]) != 0;
    met[RUNS] += fields[UMV_FIELD_UPLINK] == 1 && fields[UMV_FIELD_PHCHS] == 2 &&
                 fields[UMV_FIELD_LOGARITHMS] != fields[UMV_FIELD_LOGARITHMS + 1];
    met[HALVES] += fields[UMV_FIELD_LCR];
    check_stretches();
    check_relied();
}

/* How many kinds were never met; each is printed. */
static unsigned not_met(void)
{
    unsigned missing = 0;
    for (int kind = 0; kind < KINDS; kind++)
        if (met[kind] == 0) {
            printf("thinned: never met: %s\n", kinds[kind]);
            missing++;
        }
    return missing;
}

int main(int argc, char **argv)
{
    const unsigned long sheets = argc > 2 ? strtoul(argv[2], NULL, 0) : SHEETS;
    const uint64_t seed = argc > 1 ? strtoull(argv[1], NULL, 0) : 0x2522200420103040;
    printf("thinned: seed %#llx, %lu sheets\n", (unsigned long long)seed, sheets);
    for (unsigned long k = 1; k <= sheets; k++) {
        check_sheet(k);
        begin(seed, k);
        draw(k);
        count_names();
        for (uint32_t i = 0; i < CHANNELS; i++)
            if (count_heard(i + 1))
                count_segment(i);
    }
    unsigned missing = not_met();
    printf("thinned: %lu stretches of %lu segments counted, %u kinds not met\n", stretches, segments, missing);
    return report("thinned") != 0 || missing != 0;
}
