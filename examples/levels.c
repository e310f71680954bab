/*
 * levels LEVEL [FILE]: sends one frame of zeros, each place as the soft value LEVEL, takes it back and prints each channel's link
 * record, and how many of its bits came home at the bound to which joined values are clipped; without FILE, of a sheet that
 * sends 6 bits at 8 places, two of them twice. A receiver that scales its soft values asks it how far it may go: beyond the
 * bound the copies of a bit add nothing.
 *
 *     cc levels.c $(pkg-config --cflags --libs ummervia) -o levels && ./levels 600
 */
#include <inttypes.h>
#include <stdio.h>
#include <stdlib.h>

#include "ummervia.h"

enum { MOST = 60000 }; /* places of a frame, and values that come home */

static float frame[MOST], home[MOST];

/* The N values of a channel's first segment, which frame 0 has, stand at the start of its own part of the buffer. */
static uint64_t at_bound(const float *segment, uint64_t n)
{
    uint64_t count = 0;
    for (uint64_t m = 0; m < n; m++)
        count += segment[m] == UMV_JOINED_MOST || segment[m] == -UMV_JOINED_MOST;
    return count;
}

static uint32_t print_levels(const uint8_t *sheet, size_t sheet_len, uint64_t channels, uint64_t capacity, uint64_t joined)
{
    uint64_t at, f, e, n, v, punctured, start = 0;
    float least, greatest;
    uint32_t number = umv_take_back(sheet, sheet_len, 0, frame, capacity, home, joined, &at);
    if (number != UMV_OK)
        return number;
    for (uint32_t trch = 1; trch <= channels; trch++) {
        umv_channel(sheet, sheet_len, trch, &f, &e, &n, &v);
        umv_link(sheet, sheet_len, 0, frame, capacity, trch, &at, &least, &greatest, &punctured);
        printf("channel %" PRIu32 ": %" PRIu64 " bits, %" PRIu64 " punctured, magnitudes %g to %g, %" PRIu64 " at the bound\n",
               trch, n, punctured, least, greatest, at_bound(home + start, n));
        start += f * n;
    }
    return UMV_OK;
}

int main(int argc, char **argv)
{
    /* One channel of 6 bits in one frame, one slot with one physical channel of 8 bits. */
    uint8_t sheet[UMV_SHEET_FORM_MOST + 1] = {0x10, 0x10, 0x00, 0x06, 0x00, 0x00, 0x08};
    size_t sheet_len = 7;
    char *end = NULL;
    float level = argc > 1 ? strtof(argv[1], &end) : 0;

    if (argc < 2 || argc > 3 || end == argv[1] || *end != '\0') {
        fprintf(stderr, "use: levels LEVEL [FILE]\n");
        return 2;
    }
    if (argc > 2) {
        FILE *file = fopen(argv[2], "rb");
        if (file == NULL) {
            perror(argv[2]);
            return 2;
        }
        sheet_len = fread(sheet, 1, sizeof sheet, file); /* a byte more than has the form of a sheet, so that more is seen */
        fclose(file);
    }

    uint64_t channels, slots, contents, capacity, joined;
    uint32_t number = umv_sizes(sheet, sheet_len, &channels, &slots, &contents, &capacity, &joined);
    if (number == UMV_OK) {
        for (uint64_t place = 0; place < capacity; place++)
            frame[place] = level;
        number = print_levels(sheet, sheet_len, channels, capacity, joined);
    }
    if (number == UMV_CONTENT)
        printf("refused, 12: a soft value is from -65,536 to 65,536\n");
    else if (number != UMV_OK)
        printf("the sheet is refused: %" PRIu32 "\n", number);
    return number != UMV_OK;
}
