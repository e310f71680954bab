/*
 * sizes [FILE]: prints what the format sheet in FILE asks of a frame, and how far punctured bits lie apart, or how often bits
 * are sent; without FILE, of the example of document 01.
 *
 *     cc sizes.c $(pkg-config --cflags --libs ummervia) -o sizes && ./sizes example.sheet
 */
#include <inttypes.h>
#include <stdio.h>

#include "ummervia.h"

/* x / y, rounded down or up: how far punctured bits lie apart, and how often bits are sent. */
static void print_rounded(const char *before, uint64_t x, uint64_t y, const char *after)
{
    printf("%s %" PRIu64, before, x / y);
    if (x % y != 0)
        printf(" or %" PRIu64, x / y + 1);
    printf(" %s\n", after);
}

static void print_channel(const uint8_t *sheet, size_t sheet_len, uint32_t trch)
{
    uint64_t f, e, n, v;
    if (umv_channel(sheet, sheet_len, trch, &f, &e, &n, &v) != UMV_OK)
        return;
    printf("channel %" PRIu32 ": %" PRIu64 " encoded bits in %" PRIu64 " frame(s), ", trch, e, f);
    printf("%" PRIu64 " of them in each frame, sent as %" PRIu64 "\n", n, v);
    if (v + 1 < n) /* two at least are punctured */
        print_rounded("    punctured bits lie", n, n - v, "apart");
    if (v > n)
        print_rounded("    each bit is sent", v, n, "times");
}

int main(int argc, char **argv)
{
    /* One channel of 6 bits in one frame, one slot with one physical channel of 4 bits. */
    uint8_t sheet[UMV_SHEET_FORM_MOST + 1] = {0x10, 0x10, 0x00, 0x06, 0x00, 0x00, 0x04};
    size_t sheet_len = 7;

    if (argc > 1) {
        FILE *file = fopen(argv[1], "rb");
        if (file == NULL) {
            perror(argv[1]);
            return 2;
        }
        sheet_len = fread(sheet, 1, sizeof sheet, file); /* a byte more than has the form of a sheet, so that more is seen */
        fclose(file);
    }

    uint64_t channels, slots, contents, capacity, joined;
    uint32_t number = umv_sizes(sheet, sheet_len, &channels, &slots, &contents, &capacity, &joined);
    if (number != UMV_OK) {
        printf("the sheet is refused: %" PRIu32 "\n", number);
        return 1;
    }
    printf("a frame of %" PRIu64 " bits in %" PRIu64 " slot(s)\n", capacity, slots);
    printf("contents: %" PRIu64 " bytes, one a bit; received: %" PRIu64 " floats\n", contents, joined);
    for (uint32_t trch = 1; trch <= channels; trch++)
        print_channel(sheet, sheet_len, trch);
    return 0;
}
