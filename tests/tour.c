/*
 * tour: prints what the program crates/tour has to print, by the reference alone; it is linked without the library.
 * `make ctest` compares it with crates/tour/stdout, to which `rt ci` holds the program. The words, the sheets, the
 * contents, the frame numbers and the silences are the tour's; every number that follows from them is calculated here.
 */
#include <inttypes.h>
#include <stdio.h>
#include <stdlib.h>
#include <string.h>

#include "reference.h"

enum { SUBFRAMES = 2, SLOTS = 15, CODES = 16, MOST = 100 }; /* MOST: values of a frame here, and of the channels made even */

struct stop {
    const char *title, *sent, *contents;
    uint8_t sheet[20];
    size_t sheet_len;
    uint32_t first, number; /* the frames that are sent; `number` is the one shown */
    struct {
        uint32_t subframe, slot, phch, from, to;
    } silent; /* the places of that one, from 1, at which nothing is heard */
};

static const struct stop stops[] = {
    {
        .title = "the document's example:",
        .sheet = {0x10, 0x10, 0x00, 0x06, 0x00, 0x00, 0x04},
        .sheet_len = 7,
        .contents = "101100",
        .first = 0,
        .number = 0,
        .sent = "sent; place 2 is silent; what came home:",
        .silent = {1, 1, 1, 2, 2},
    },
    {
        .title = "three channels over two slots:",
        .sheet = {0x1a, 0x20, 0x80, 0x11, 0x03, 0x40, 0x13, 0x05, 0x00, 0x1e,
                  0x02, 0x10, 0x07, 0x00, 0x52, 0x00, 0xe0, 0x0a, 0x00, 0x80},
        .sheet_len = 20,
        .contents = "10110011100011110"
                    "0110100110010110100"
                    "111000110010101101001110100010",
        .first = 4,
        .number = 7,
        .sent = "frames 4 to 7 sent; in frame 7 slot 1 PhCH 2 is silent; what came home:",
        .silent = {1, 1, 2, 1, 5},
    },
    {
        .title = "two uplink codes, of spreading factors 8 and 2, which take 1 and 4 bits at their turns:",
        .sheet = {0x10, 0x18, 0x00, 0x0c, 0x00, 0x16, 0x00, 0xe4, 0x01, 0x40},
        .sheet_len = 10,
        .contents = "110100111001",
        .first = 0,
        .number = 0,
        .sent = "sent; the first four bits of PhCH 2, places 5 to 2, are silent; what came home:",
        .silent = {1, 1, 2, 2, 5},
    },
    {
        .title = "two sub-frames of 1.28 Mcps, each slot interleaved over both:",
        .sheet = {0x19, 0x24, 0x00, 0x0a, 0x00, 0x40, 0x0c, 0x00, 0x10, 0x03, 0x00, 0x20, 0x00, 0x40},
        .sheet_len = 14,
        .contents = "1011001110"
                    "011010011001",
        .first = 0,
        .number = 1,
        .sent = "frames 0 and 1 sent; in frame 1 sub-frame 2 slot 1 PhCH 2 is silent; what came home:",
        .silent = {2, 1, 2, 1, 2},
    },
};

static uint64_t channels, slots, contents_len, capacity, joined_len; /* of the stop's sheet */

static void must(uint32_t number, const char *call)
{
    if (number == 0)
        return;
    fprintf(stderr, "tour: the reference's %s answers %" PRIu32 "\n", call, number);
    exit(1);
}

static void measure(const struct stop *s)
{
    must(ref_sizes(s->sheet, s->sheet_len, &channels, &slots, &contents_len, &capacity, &joined_len), "sizes");
    if (capacity > MOST || joined_len > MOST || contents_len != strlen(s->contents)) {
        fputs("tour: the sheet has other sizes\n", stderr);
        exit(1);
    }
}

static void print_sheet(const struct stop *s)
{
    printf("\n%s", s->title);
    for (size_t k = 0; k < s->sheet_len; k++)
        printf(" %02x", s->sheet[k]);
    puts("");
}

/* As the sheet lister prints it. */
static void print_listing(const struct stop *s)
{
    uint64_t f, e, n, v;
    printf("channels %" PRIu64 " slots %" PRIu64 " capacity %" PRIu64 "\n", channels, slots, capacity);
    for (uint32_t trch = 1; trch <= channels; trch++) {
        must(ref_channel(s->sheet, s->sheet_len, trch, &f, &e, &n, &v), "channel");
        printf("%" PRIu32 " F %" PRIu64 " E %" PRIu64 " N %" PRIu64 " V %" PRIu64 "\n", trch, f, e, n, v);
    }
}

static uint64_t bits_of(const struct stop *s, uint32_t trch)
{
    uint64_t f, e, n, v;
    must(ref_channel(s->sheet, s->sheet_len, trch, &f, &e, &n, &v), "channel");
    return e;
}

static void print_contents(const struct stop *s)
{
    const char *next = s->contents;
    printf("contents:");
    for (uint32_t trch = 1; trch <= channels; trch++) {
        uint64_t e = bits_of(s, trch);
        printf(" %.*s", (int)e, next);
        next += e;
    }
    puts("");
}

/* The places that a PhCH has, by whether they have names; none where the sheet has no such PhCH. */
static uint32_t places_of(const struct stop *s, uint32_t subframe, uint32_t slot, uint32_t phch)
{
    uint64_t trch, bit, copy;
    uint32_t place = 1;
    while (ref_name(s->sheet, s->sheet_len, s->number, subframe, slot, phch, place, &trch, &bit, &copy) == 0)
        place++;
    return place - 1;
}

static void build(const struct stop *s, uint32_t number, uint8_t *frame)
{
    uint8_t contents[MOST];
    uint64_t at;
    for (uint64_t k = 0; k < contents_len; k++)
        contents[k] = s->contents[k] == '1';
    must(ref_build(s->sheet, s->sheet_len, number, contents, contents_len, frame, capacity, &at), "build");
}

static void print_bits(const uint8_t *frame, uint32_t places)
{
    putchar(' ');
    for (uint32_t k = 0; k < places; k++)
        putchar('0' + frame[k]);
}

static void print_names(const struct stop *s, uint32_t subframe, uint32_t slot, uint32_t phch, uint32_t places)
{
    uint64_t trch, bit, copy;
    for (uint32_t place = 1; place <= places; place++) {
        must(ref_name(s->sheet, s->sheet_len, s->number, subframe, slot, phch, place, &trch, &bit, &copy), "name");
        printf(" %" PRIu64 ".%" PRIu64, trch, bit);
        if (copy > 0)
            printf("'%" PRIu64, copy);
        if (bit > bits_of(s, (uint32_t)trch))
            putchar('*');
    }
}

/* A line for each PhCH, with its sub-frame where there are two: the bits of a frame, or without one the names. */
static void print_places(const struct stop *s, const uint8_t *frame)
{
    for (uint32_t k = 0; k < SUBFRAMES * SLOTS * CODES; k++) {
        uint32_t subframe = k / CODES / SLOTS + 1, slot = k / CODES % SLOTS + 1, phch = k % CODES + 1;
        uint32_t places = places_of(s, subframe, slot, phch);
        if (places == 0)
            continue;
        if (places_of(s, 2, 1, 1) != 0)
            printf("sub-frame %" PRIu32 " ", subframe);
        printf("slot %" PRIu32 " PhCH %" PRIu32 ":", slot, phch);
        if (frame == NULL) {
            print_names(s, subframe, slot, phch, places);
        } else {
            print_bits(frame, places);
            frame += places;
        }
        puts("");
    }
}

/* Where the silent PhCH begins in the frame. */
static uint32_t silent_start(const struct stop *s)
{
    uint32_t start = 0, before = ((s->silent.subframe - 1) * SLOTS + s->silent.slot - 1) * CODES + s->silent.phch - 1;
    for (uint32_t k = 0; k < before; k++)
        start += places_of(s, k / CODES / SLOTS + 1, k / CODES % SLOTS + 1, k % CODES + 1);
    return start;
}

/* A frame is built, sent as +1 for 0 and -1 for 1, heard and taken back. */
static void send(const struct stop *s, uint32_t number, float *joined)
{
    uint8_t frame[MOST];
    float heard[MOST];
    uint64_t at;
    build(s, number, frame);
    for (uint64_t k = 0; k < capacity; k++)
        heard[k] = frame[k] == 0 ? 1.0f : -1.0f;
    for (uint32_t place = s->silent.from; number == s->number && place <= s->silent.to; place++)
        heard[silent_start(s) + place - 1] = 0.0f;
    must(ref_take_back(s->sheet, s->sheet_len, number, heard, capacity, joined, joined_len, &at), "take_back");
}

static void print_value(float value)
{
    if (value == 0.0f)
        printf(" 0");
    else
        printf(" %+g", (double)value);
}

static void print_home(const struct stop *s, const float *joined)
{
    float coded[MOST];
    uint64_t at;
    for (uint32_t trch = 1; trch <= channels; trch++) {
        uint64_t e = bits_of(s, trch);
        must(ref_finish(s->sheet, s->sheet_len, trch, joined, joined_len, coded, e, &at), "finish");
        printf("%" PRIu32 ":", trch);
        for (uint64_t k = 0; k < e; k++)
            print_value(coded[k]);
        puts("");
    }
}

static void show(const struct stop *s)
{
    uint8_t frame[MOST];
    float joined[MOST] = {0};
    measure(s);
    print_sheet(s);
    print_listing(s);
    print_contents(s);
    printf("frame number %" PRIu32 ", the frame:\n", s->number);
    build(s, s->number, frame);
    print_places(s, frame);
    puts("the name of each place:");
    print_places(s, NULL);
    puts(s->sent);
    for (uint32_t number = s->first; number <= s->number; number++)
        send(s, number, joined);
    print_home(s, joined);
}

int main(void)
{
    puts("Places 1, 2, .. stand from left to right. c.b is bit b of channel c, copy 0; c.b'k its copy k; * marks a "
         "filler.");
    puts("A 0 is sent as +1, a 1 as -1. Of a bit its copies come home added; 0 says that none was heard: punctured or "
         "silent.");
    for (size_t k = 0; k < sizeof stops / sizeof *stops; k++)
        show(&stops[k]);
    return 0;
}
