/*
 * stack: prints, for each public call, how many bytes of stack it needs: first on the greatest frame, of 60,000 places in 15 slots
 * of 16 PhCHs or of two uplink codes, or in 5 of each of two sub-frames (1.28 Mcps), the most of all these; then on a frame of 244
 * places, one code with one channel, punctured or repeated, the more of both; then on five frames of 1.28 Mcps. There and in the
 * greatest, channels are of all TTIs, some punctured and some repeated. Each is the most of both modes, accepted and, where a
 * call looks at values, with the last of them bad. A call runs on a stack of its own, filled with one byte; the deepest byte that
 * it changed is looked for. What a function that does nothing needs there is taken off.
 *
 * stack small: fails if a call needs more than SMALL_MOST in the frame of 244: whether the function with the rooms of large frames is
 * drawn into its caller, so that small ones touch its stack, the compiler decides and does not say.
 */
#define _DEFAULT_SOURCE /* MAP_ANONYMOUS */
#include <stdbool.h>
#include <stdio.h>
#include <stdlib.h>
#include <string.h>
#include <sys/mman.h>
#include <ucontext.h>

#include "ummervia.h"

enum {
    MOST = 60000,       /* bits of the greatest frame, and of all channels equalised */
    CHANNELS = UMV_CHANNELS_MOST,
    MOST_N = 2040,      /* bits of a segment in other frames: a TTI of eight frames has at most 16,383 */
    SMALL_MOST = 40000, /* bytes of stack in a frame of 244 */
    FRAME_NUMBER = 7,   /* not 0 in any TTI of more than one frame */
    ROOM = 4 << 20      /* bytes of the stack; as many below it may not be touched */
};

/* Every slot has so many codes, the first of `first` places and the others of `others`. */
struct shape {
    uint16_t lcr, uplink, slots, codes, first, others;
    uint16_t e; /* of the only channel; 0 for several */
};

static const struct shape greatest[] = {
    {0, 0, 15, 16, 250, 250, 0}, {0, 1, 15, 2, 2000, 2000, 0}, {1, 0, 5, 16, 375, 375, 0}, {1, 1, 5, 2, 3000, 3000, 0}};

/* The frame 244 of bench/run, punctured and repeated. */
static const struct shape small[] = {{0, 0, 1, 1, 244, 0, 600}, {0, 0, 1, 1, 244, 0, 400}};

/* One code of 88 bits; 7 slots of 16 of them; uplink slots of one code, and twice of two. bench/stack has their names. */
static const struct shape lcr_frames[] = {
    {1, 0, 1, 1, 88, 0, 0}, {1, 0, 7, 16, 88, 88, 0}, {1, 1, 3, 1, 1408, 0, 0}, {1, 1, 2, 2, 88, 1408, 0}, {1, 1, 3, 2, 88, 88, 0}};

static const struct shape *shape;
static uint16_t fields[UMV_FIELDS];
static uint8_t sheet[UMV_SHEET_MOST], contents[MOST], multiplexed[MOST], frame[MOST];
static size_t sheet_len, contents_len, frame_len, joined_len;
static uint32_t channels; /* of the sheet, and of the last of them E and N */
static uint64_t last_e, last_n;
static float soft[MOST], gathered[MOST], joined[MOST], coded[MOST];

static void fail(const char *what)
{
    fprintf(stderr, "stack: %s\n", what);
    exit(2);
}

static void make_channel(void)
{
    fields[UMV_FIELD_CHANNELS] = 1;
    fields[UMV_FIELD_TTI] = 1;
    fields[UMV_FIELD_E] = shape->e;
    fields[UMV_FIELD_RM] = 200;
}

/* The greatest frame has 12 x 3,752 and 4 x 3,744 encoded bits, 60,000 equalised; another four channels of as many bits a frame. No
   fillers, since 8 divides all of these. */
static void make_channels(uint32_t places)
{
    static const uint16_t rm[] = {40, 256, 40, 256, 100, 200, 100, 1};
    uint32_t n = places / 4 / 8 * 8;
    fields[UMV_FIELD_CHANNELS] = places == MOST ? CHANNELS : 4;
    for (unsigned i = 0; i < fields[UMV_FIELD_CHANNELS]; i++) {
        fields[UMV_FIELD_TTI + i] = (uint16_t)(i % 4);
        fields[UMV_FIELD_E + i] = places == MOST ? (i < 12 ? 3752 : 3744) : (uint16_t)((n < MOST_N ? n : MOST_N) << i);
        fields[UMV_FIELD_RM + i] = rm[i % 8];
    }
}

/* In uplink runs of 1 and 16. */
static void make_fields(uint16_t mode)
{
    memset(fields, 0, sizeof fields);
    fields[UMV_FIELD_VERSION] = 1;
    fields[UMV_FIELD_MODE] = mode;
    fields[UMV_FIELD_SLOTS] = shape->slots;
    fields[UMV_FIELD_UPLINK] = shape->uplink;
    fields[UMV_FIELD_LCR] = shape->lcr;
    for (unsigned t = 0; t < shape->slots; t++) {
        fields[UMV_FIELD_PHCHS + t] = shape->codes;
        fields[UMV_FIELD_LOGARITHMS + 16 * t] = 4;
        for (unsigned p = 0; p < shape->codes; p++)
            fields[UMV_FIELD_CAPACITIES + 16 * t + p] = p == 0 ? shape->first : shape->others;
    }
    if (shape->e != 0)
        make_channel();
    else
        make_channels((shape->lcr + 1u) * shape->slots * (shape->first + (shape->codes - 1u) * shape->others));
}

static void make_sheet(uint16_t mode)
{
    uint64_t at, counted, listed, sum, capacity, equalised, f, v;
    unsigned punctured = 0, repeated = 0;
    make_fields(mode);
    if (umv_sheet_length(fields, UMV_FIELDS, &at) != UMV_OK)
        fail("the fields are refused");
    sheet_len = at;
    if (umv_sheet_write(fields, UMV_FIELDS, sheet, sheet_len, &at) != UMV_OK ||
        umv_sizes(sheet, sheet_len, &counted, &listed, &sum, &capacity, &equalised) != UMV_OK)
        fail("the sheet is refused");
    channels = (uint32_t)counted;
    contents_len = sum;
    frame_len = capacity;
    joined_len = equalised;
    for (uint32_t trch = 1; trch <= channels; trch++) {
        umv_channel(sheet, sheet_len, trch, &f, &last_e, &last_n, &v);
        punctured += v < last_n;
        repeated += v > last_n;
    }
    if (shape->e != 0 ? punctured + repeated == 0 : punctured == 0 || repeated == 0)
        fail("no channel is punctured, or none repeated");
}

static void make_values(bool bad)
{
    for (size_t i = 0; i < MOST; i++) {
        contents[i] = multiplexed[i] = i * 7 % 11 % 2;
        soft[i] = (float)(i % 97) * 0.37f - 17.5f;
    }
    if (bad) {
        contents[contents_len - 1] = multiplexed[frame_len - 1] = 2;
        soft[frame_len - 1] = 65537.0f;
    }
}

/* ---- The calls ---- */

static uint32_t answer; /* of the last call */
static uint64_t a, b, c, d, e;
static float low, high;

#define SHEET sheet, sheet_len

static void nothing(void) { answer = UMV_OK; }
static void sheet_read(void) { answer = umv_sheet_read(SHEET, fields, UMV_FIELDS, &a); }
static void sheet_length(void) { answer = umv_sheet_length(fields, UMV_FIELDS, &a); }
static void sheet_write(void) { answer = umv_sheet_write(fields, UMV_FIELDS, SHEET, &a); }
static void sizes(void) { answer = umv_sizes(SHEET, &a, &b, &c, &d, &e); }
static void channel(void) { answer = umv_channel(SHEET, channels, &a, &b, &c, &d); }
static void build(void) { answer = umv_build(SHEET, FRAME_NUMBER, contents, contents_len, frame, frame_len, &a); }
static void multiplex(void) { answer = umv_multiplex(SHEET, FRAME_NUMBER, contents, contents_len, frame, frame_len, &a); }
static void spread(void) { answer = umv_spread(SHEET, multiplexed, frame_len, frame, frame_len, &a); }
static void part(void) { answer = umv_part(SHEET, channels, frame_len, &a, &b); }
static void gather(void) { answer = umv_gather(SHEET, soft, frame_len, gathered, frame_len, &a); }
static void take_back(void) { answer = umv_take_back(SHEET, FRAME_NUMBER, soft, frame_len, joined, joined_len, &a); }
static void finish(void) { answer = umv_finish(SHEET, channels, joined, joined_len, coded, last_e, &a); }
static void heard(void) { answer = umv_heard(SHEET, FRAME_NUMBER, soft, frame_len, channels, (uint32_t)last_n, &a, &low, &b); }
static void link(void) { answer = umv_link(SHEET, FRAME_NUMBER, soft, frame_len, channels, &a, &low, &high, &b); }

/* Of the frame's last place. */
static void name(void)
{
    uint32_t places = shape->codes == 1 ? shape->first : shape->others;
    answer = umv_name(SHEET, FRAME_NUMBER, shape->lcr + 1u, shape->slots, shape->codes, places, &a, &b, &c);
}

static const struct row {
    const char *name;
    void (*call)(void);
    bool looks; /* at values, and so refuses a bad one */
} rows[] = {
    {"umv_sheet_read", sheet_read, false},
    {"umv_sheet_length", sheet_length, false},
    {"umv_sheet_write", sheet_write, false},
    {"umv_sizes", sizes, false},
    {"umv_channel", channel, false},
    {"umv_build", build, true},
    {"umv_multiplex", multiplex, true},
    {"umv_spread", spread, true},
    {"umv_name", name, false},
    {"umv_part", part, false},
    {"umv_gather", gather, true},
    {"umv_take_back", take_back, true},
    {"umv_finish", finish, false},
    {"umv_heard", heard, true},
    {"umv_link", link, true},
};

#define ROWS (sizeof rows / sizeof *rows)

/* ---- Their stack ---- */

static unsigned char *room; /* its lowest byte */
static void (*running)(void);

static void make_room(void)
{
    unsigned char *both = mmap(NULL, 2 * ROOM, PROT_READ | PROT_WRITE, MAP_PRIVATE | MAP_ANONYMOUS, -1, 0);
    if (both == MAP_FAILED || mprotect(both, ROOM, PROT_NONE) != 0)
        fail("no room for a stack");
    room = both + ROOM;
}

static void run(void)
{
    running();
}

/* The bytes from the stack's top down to the deepest that the call changed. */
static size_t depth(void (*call)(void), int filling)
{
    ucontext_t here, there;
    size_t kept = 0;
    memset(room, filling, ROOM);
    if (getcontext(&there) != 0)
        fail("no context");
    there.uc_stack.ss_sp = room;
    there.uc_stack.ss_size = ROOM;
    there.uc_link = &here;
    running = call;
    makecontext(&there, run, 0);
    if (swapcontext(&here, &there) != 0)
        fail("the call could not be run");
    while (kept < ROOM && room[kept] == filling)
        kept++;
    return ROOM - kept;
}

/* With two fillings, so that a byte which happens to be written as it was is seen once at least. */
static size_t needed(void (*call)(void), uint32_t number)
{
    size_t most = 0, least = depth(nothing, 0xa5);
    static const int fillings[] = {0xa5, 0x3c};
    for (int i = 0; i < 2; i++) {
        size_t bytes = depth(call, fillings[i]);
        if (answer != number)
            fail("a call gives another number");
        most = bytes > most ? bytes : most;
    }
    return most - least;
}

/* The most that a call needs on frames of this shape. */
static size_t most_on(const struct row *row, const struct shape *of)
{
    size_t most = 0;
    shape = of;
    for (int kind = 0; kind < 4; kind++) {
        bool bad = kind >= 2;
        make_sheet((uint16_t)(kind % 2));
        make_values(bad);
        size_t bytes = needed(row->call, bad && row->looks ? UMV_CONTENT : UMV_OK);
        most = bytes > most ? bytes : most;
    }
    return most;
}

/* The most of several shapes. */
static size_t most_of(const struct row *row, const struct shape *shapes, size_t count)
{
    size_t most = 0;
    for (size_t i = 0; i < count; i++) {
        size_t bytes = most_on(row, &shapes[i]);
        most = bytes > most ? bytes : most;
    }
    return most;
}

#define MOST_OF(row, shapes) most_of((row), (shapes), sizeof (shapes) / sizeof *(shapes))

static void print_row(const struct row *row)
{
    printf("%s %zu %zu", row->name, MOST_OF(row, greatest), MOST_OF(row, small));
    for (size_t k = 0; k < sizeof lcr_frames / sizeof *lcr_frames; k++)
        printf(" %zu", most_on(row, &lcr_frames[k]));
    puts("");
}

/* Whether every call stays within SMALL_MOST. */
static bool check_small(void)
{
    size_t over = 0, most = 0;
    for (size_t i = 0; i < ROWS; i++) {
        size_t bytes = MOST_OF(&rows[i], small);
        most = bytes > most ? bytes : most;
        if (bytes <= SMALL_MOST)
            continue;
        printf("stack: %s needs %zu bytes in a frame of %d places, more than %d\n", rows[i].name, bytes, small->first, SMALL_MOST);
        over++;
    }
    printf("stack: %zu calls in a frame of %d places: up to %zu bytes, %zu over %d\n", ROWS, small->first, most, over, SMALL_MOST);
    return over == 0;
}

int main(int argc, char **argv)
{
    make_room();
    if (argc > 1 && strcmp(argv[1], "small") == 0)
        return check_small() ? 0 : 1;
    for (size_t i = 0; i < ROWS; i++)
        print_row(&rows[i]);
    return 0;
}
