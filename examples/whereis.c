/*
 * whereis SHEETFILE FRAME [SUBFRAME] SLOT PHCH PLACE: prints which bit stands at a place of the frame, or why there is no answer.
 * FRAME is the frame number, from 0; sub-frame, slot, physical channel and place are counted from 1. Without a sub-frame it is
 * the first, which is the only one of a frame of 3.84 Mcps.
 * Exit status 0: named; 1: refused; 2: a wrong command, or a file that cannot be read.
 *
 *     cc whereis.c $(pkg-config --cflags --libs ummervia) -o whereis && ./whereis example.sheet 0 1 1 2
 *     ./whereis lcr.sheet 0 2 1 1 2
 */
#include <ctype.h>
#include <inttypes.h>
#include <stdbool.h>
#include <stdio.h>
#include <stdlib.h>

#include "ummervia.h"

/* The numbers that umv_name and umv_channel can answer. */
static const char *in_words(uint32_t number)
{
    switch (number) {
    case UMV_SHORT: return "the sheet is shorter than 2 bytes";
    case UMV_VERSION: return "the sheet's version is not 1";
    case UMV_NO_SLOT: return "the sheet has no slot";
    case UMV_FORM: return "the sheet's length is not what its fields need, or a spare or padding bit is set";
    case UMV_NO_CAPACITY: return "a capacity is 0";
    case UMV_UPLINK_CODES: return "an uplink slot has more than two codes, or a logarithm over 4";
    case UMV_SUBFRAME_SLOTS: return "a sheet of 1.28 Mcps has more than 7 slots";
    case UMV_MUCH_CONTENT: return "the channels' equalised sizes sum up to more than 60,000 bits";
    case UMV_MUCH_CAPACITY: return "the capacities of all sub-frames sum up to more than 60,000 bits";
    case UMV_NO_CONTENT: return "every channel is empty";
    case UMV_FRAME_NUMBER: return "the frame number is over 255";
    case UMV_ABSENT: return "there is no such sub-frame, slot, physical channel or place";
    default: return "a number that is not expected here";
    }
}

static int refused(uint32_t number)
{
    printf("refused, %" PRIu32 ": %s\n", number, in_words(number));
    return 1;
}

/* A whole number of 32 bits in decimal digits, and nothing else. */
static bool read_number(const char *text, uint32_t *number)
{
    uint64_t value = 0;
    if (*text == '\0')
        return false;
    for (; isdigit((unsigned char)*text) && value <= UINT32_MAX; text++)
        value = 10 * value + (uint64_t)(*text - '0');
    *number = (uint32_t)value;
    return *text == '\0' && value <= UINT32_MAX;
}

static bool read_sheet(const char *name, uint8_t *sheet, size_t room, size_t *sheet_len)
{
    FILE *file = fopen(name, "rb");
    if (file == NULL)
        return false;
    *sheet_len = fread(sheet, 1, room, file);
    bool good = ferror(file) == 0;
    fclose(file);
    return good;
}

int main(int argc, char **argv)
{
    uint8_t sheet[UMV_SHEET_FORM_MOST + 1]; /* a byte more than has the form of a sheet, so that a longer file is refused */
    size_t sheet_len;
    uint32_t frame, subframe = 1, slot, phch, place;
    if ((argc != 6 && argc != 7) || !read_number(argv[2], &frame) || (argc == 7 && !read_number(argv[3], &subframe)) ||
        !read_number(argv[argc - 3], &slot) || !read_number(argv[argc - 2], &phch) || !read_number(argv[argc - 1], &place)) {
        fputs("use: whereis SHEETFILE FRAME [SUBFRAME] SLOT PHCH PLACE\n", stderr);
        return 2;
    }
    if (!read_sheet(argv[1], sheet, sizeof sheet, &sheet_len)) {
        perror(argv[1]);
        return 2;
    }

    uint64_t trch, bit, copy, f, e, n, v;
    uint32_t number = umv_name(sheet, sheet_len, frame, subframe, slot, phch, place, &trch, &bit, &copy);
    if (number != UMV_OK)
        return refused(number);
    number = umv_channel(sheet, sheet_len, (uint32_t)trch, &f, &e, &n, &v);
    if (number != UMV_OK)
        return refused(number);
    printf("bit %" PRIu64 " of channel %" PRIu64 ", copy %" PRIu64 "%s\n", bit, trch, copy, bit > e ? ", a filler" : "");
    return 0;
}
