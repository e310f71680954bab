/*
 * roundtrip [SHEETFILE]: sends as many frames as the longest TTI of the sheet has, and brings them home; without a file, 40 ms of
 * three uplink transport channels. Each frame is built, its bits become soft values, +1 for 0 and -1 for 1, and the values are
 * taken back; a channel whose TTI is over is finished and compared with what was sent. The exit status is 0 only if every bit that
 * was not punctured came home with the right sign.
 *
 *     cc roundtrip.c $(pkg-config --cflags --libs ummervia) -o roundtrip && ./roundtrip && ./roundtrip lcr.sheet
 */
#include <inttypes.h>
#include <stdbool.h>
#include <stdio.h>
#include <stdlib.h>

#include "ummervia.h"

struct channel {
    uint64_t f, e, n, v;                   /* what umv_channel says of it */
    uint64_t start;                        /* its first byte in the contents */
    uint64_t sent, heard, copies, silent, wrong;
};

struct station {
    uint8_t sheet[UMV_SHEET_FORM_MOST + 1]; /* a byte more than has the form of a sheet, so that a longer file is refused */
    size_t sheet_len;
    uint64_t channels, contents_len, capacity, joined_len; /* what umv_sizes says */
    uint64_t frames;                                       /* of the longest TTI */
    uint8_t *contents, *frame;                   /* a byte a bit */
    float *received, *joined, *coded;            /* soft values */
    struct channel channel[UMV_CHANNELS_MOST];
};

static void must(uint32_t number, const char *call)
{
    if (number == UMV_OK)
        return;
    fprintf(stderr, "roundtrip: %s answers %" PRIu32 "\n", call, number);
    exit(2);
}

static void *room_for(uint64_t count, size_t size)
{
    void *room = calloc(count, size);
    if (room == NULL) {
        perror("roundtrip");
        exit(2);
    }
    return room;
}

/* A sheet is made from its fields: here three channels, and two uplink slots with 240 bits in all. Of the two codes in the first,
   with spreading factors 8 and 4, the second takes two bits at its turn, as it carries twice as many. */
static void write_sheet(struct station *s)
{
    static const struct {
        uint16_t tti, e, rm;
    } channel[3] = {{0, 120, 100}, {1, 160, 150}, {2, 160, 200}}; /* TTIs of 10, 20 and 40 ms */
    uint16_t fields[UMV_FIELDS] = {0};
    uint64_t length, at;

    fields[UMV_FIELD_VERSION] = 1;
    fields[UMV_FIELD_MODE] = 0;
    fields[UMV_FIELD_CHANNELS] = 3;
    fields[UMV_FIELD_SLOTS] = 2;
    fields[UMV_FIELD_UPLINK] = 1;
    fields[UMV_FIELD_LCR] = 0; /* 3.84 Mcps */
    for (int i = 0; i < 3; i++) {
        fields[UMV_FIELD_TTI + i] = channel[i].tti;
        fields[UMV_FIELD_E + i] = channel[i].e;
        fields[UMV_FIELD_RM + i] = channel[i].rm;
    }
    fields[UMV_FIELD_PHCHS + 0] = 2;
    fields[UMV_FIELD_CAPACITIES + 16 * 0 + 0] = 48;
    fields[UMV_FIELD_LOGARITHMS + 16 * 0 + 0] = 3; /* of 8 */
    fields[UMV_FIELD_CAPACITIES + 16 * 0 + 1] = 96;
    fields[UMV_FIELD_LOGARITHMS + 16 * 0 + 1] = 2; /* of 4 */
    fields[UMV_FIELD_PHCHS + 1] = 1;
    fields[UMV_FIELD_CAPACITIES + 16 * 1 + 0] = 96;
    fields[UMV_FIELD_LOGARITHMS + 16 * 1 + 0] = 2;

    must(umv_sheet_length(fields, UMV_FIELDS, &length), "umv_sheet_length");
    must(umv_sheet_write(fields, UMV_FIELDS, s->sheet, length, &at), "umv_sheet_write");
    s->sheet_len = length;
}

/* Or it comes from a file. */
static void read_sheet(struct station *s, const char *name)
{
    FILE *file = fopen(name, "rb");
    if (file == NULL) {
        perror(name);
        exit(2);
    }
    s->sheet_len = fread(s->sheet, 1, sizeof s->sheet, file);
    fclose(file);
}

/* The library allocates nothing: umv_sizes says what it will be lent. The capacity is that of all sub-frames. */
static void measure(struct station *s)
{
    uint64_t slots, start = 0;
    must(umv_sizes(s->sheet, s->sheet_len, &s->channels, &slots, &s->contents_len, &s->capacity, &s->joined_len), "umv_sizes");
    s->contents = room_for(s->contents_len, sizeof *s->contents);
    s->frame = room_for(s->capacity, sizeof *s->frame);
    s->received = room_for(s->capacity, sizeof *s->received);
    s->joined = room_for(s->joined_len, sizeof *s->joined);
    s->coded = room_for(s->contents_len, sizeof *s->coded); /* enough for any one channel */
    for (uint32_t trch = 1; trch <= s->channels; trch++) {
        struct channel *c = &s->channel[trch - 1];
        must(umv_channel(s->sheet, s->sheet_len, trch, &c->f, &c->e, &c->n, &c->v), "umv_channel");
        c->start = start;
        start += c->e;
        s->frames = c->f > s->frames ? c->f : s->frames;
    }
}

/* A channel gets new bits where its TTI begins, and keeps them until it ends. */
static void send_frame(struct station *s, uint32_t number)
{
    uint64_t at;
    for (struct channel *c = s->channel; c < s->channel + s->channels; c++) {
        if (number % c->f != 0)
            continue;
        for (uint64_t i = 0; i < c->e; i++)
            s->contents[c->start + i] = (uint8_t)(rand() / 16 % 2);
        c->sent += c->e;
    }
    must(umv_build(s->sheet, s->sheet_len, number, s->contents, s->contents_len, s->frame, s->capacity, &at), "umv_build");
}

/* A heard bit comes home as +1 or -1 times the number of its copies, of which no more than 1,024 count, a punctured one as 0. */
static void compare(struct channel *c, const uint8_t *bits, const float *coded)
{
    for (uint64_t i = 0; i < c->e; i++) {
        float value = bits[i] == 0 ? coded[i] : -coded[i];
        if (value > 0) {
            c->heard++;
            c->copies += (uint64_t)value;
        } else if (value == 0) {
            c->silent++;
        } else {
            c->wrong++;
        }
    }
}

static void receive_frame(struct station *s, uint32_t number)
{
    uint64_t at;
    for (uint64_t i = 0; i < s->capacity; i++)
        s->received[i] = s->frame[i] == 0 ? 1.0f : -1.0f;
    must(umv_take_back(s->sheet, s->sheet_len, number, s->received, s->capacity, s->joined, s->joined_len, &at),
         "umv_take_back");
    for (uint32_t trch = 1; trch <= s->channels; trch++) {
        struct channel *c = &s->channel[trch - 1];
        if (number % c->f != c->f - 1)
            continue; /* its TTI goes on */
        must(umv_finish(s->sheet, s->sheet_len, trch, s->joined, s->joined_len, s->coded, c->e, &at), "umv_finish");
        compare(c, s->contents + c->start, s->coded);
    }
}

/* What rate matching drops are bits of the channel, or fillers, which are there where F does not divide E. */
static bool report(uint32_t trch, const struct channel *c, uint64_t frames)
{
    uint64_t punctured = c->v < c->n ? frames * (c->n - c->v) : 0, fillers = frames * c->n - c->sent;
    printf("channel %" PRIu32 ", %" PRIu64 " bits a frame sent as %" PRIu64 ": ", trch, c->n, c->v);
    printf("%" PRIu64 " sent, %" PRIu64 " heard in %" PRIu64 " copies, ", c->sent, c->heard, c->copies);
    printf("%" PRIu64 " silent, %" PRIu64 " punctured, %" PRIu64 " wrong\n", c->silent, punctured, c->wrong);
    return c->wrong == 0 && c->silent <= punctured && punctured <= c->silent + fillers && c->heard == c->sent - c->silent;
}

int main(int argc, char **argv)
{
    static struct station s;
    bool good = true;
    if (argc > 1)
        read_sheet(&s, argv[1]);
    else
        write_sheet(&s);
    measure(&s);
    printf("%" PRIu64 " frames of %" PRIu64 " bits, sheet of %zu bytes\n", s.frames, s.capacity, s.sheet_len);
    for (uint32_t number = 0; number < s.frames; number++) {
        send_frame(&s, number);
        receive_frame(&s, number);
    }
    for (uint32_t trch = 1; trch <= s.channels; trch++)
        good = report(trch, &s.channel[trch - 1], s.frames) && good;
    puts(good ? "all heard bits are right, and only punctured ones silent" : "NOT all bits came home");
    free(s.contents);
    free(s.frame);
    free(s.received);
    free(s.joined);
    free(s.coded);
    return good ? 0 : 1;
}
