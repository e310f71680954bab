/*
 * values: what documents 01 and 02 print of frames, asked of the calls: the example, frame 255 and 256, one bit sent 60,000 times,
 * and what comes home of a bit that was sent about as often as a joined value may count.
 */
#include <math.h>
#include <string.h>

#include "check.h"
#include "fields.h"

enum { MOST = 60000 };

static const uint8_t example[] = {0x10, 0x10, 0x00, 0x06, 0x00, 0x00, 0x04};

/* "With contents 1,0,1,1,0,0 that sheet's frame is 0,0,1,0: bits 2, 6, 3, 5." */
static void test_example(void)
{
    static const uint8_t contents[] = {1, 0, 1, 1, 0, 0}, expected[] = {0, 0, 1, 0};
    static const uint64_t bits[] = {2, 6, 3, 5};
    uint8_t frame[4] = {9, 9, 9, 9};
    uint64_t at, trch, bit, copy;
    CHECK(umv_build(example, sizeof example, 0, contents, 6, frame, 4, &at) == UMV_OK && at == 4);
    CHECK(memcmp(frame, expected, 4) == 0);
    for (uint32_t place = 1; place <= 4; place++) {
        CHECK(umv_name(example, sizeof example, 0, 1, 1, 1, place, &trch, &bit, &copy) == UMV_OK);
        CHECK(trch == 1 && bit == bits[place - 1] && copy == 0);
    }
}

/* "Frame number 255 accepted, 256 gives 9." */
static void test_frame_numbers(void)
{
    static const uint8_t contents[6] = {0};
    uint8_t frame[4] = {9, 9, 9, 9};
    uint64_t at, trch, bit, copy;
    CHECK(umv_build(example, sizeof example, 256, contents, 6, frame, 4, &at) == UMV_FRAME_NUMBER && at == 0);
    CHECK(frame[0] == 9 && frame[3] == 9);
    CHECK(umv_build(example, sizeof example, 255, contents, 6, frame, 4, &at) == UMV_OK && at == 4);
    CHECK(umv_name(example, sizeof example, 255, 1, 1, 1, 1, &trch, &bit, &copy) == UMV_OK);
    CHECK(umv_name(example, sizeof example, 256, 1, 1, 1, 1, &trch, &bit, &copy) == UMV_FRAME_NUMBER);
    CHECK(trch == 0 && bit == 0 && copy == 0);
}

/* 60,000 places in slots of 16 PhCHs: 15 of 250 places each, or 5 of 375 in each of two sub-frames. */
static const struct shape {
    uint16_t lcr, slots, places;
} shapes[] = {{0, 15, 250}, {1, 5, 375}};

static uint8_t sheet[UMV_SHEET_MOST];
static size_t sheet_len;
static float soft[MOST];

/* A sheet of these slots with one channel of one bit. */
static void make_sheet(uint16_t *fields)
{
    uint64_t length = 0, at;
    fields[UMV_FIELD_VERSION] = fields[UMV_FIELD_CHANNELS] = fields[UMV_FIELD_E] = fields[UMV_FIELD_RM] = 1;
    CHECK(umv_sheet_length(fields, UMV_FIELDS, &length) == UMV_OK);
    CHECK(umv_sheet_write(fields, UMV_FIELDS, sheet, length, &at) == UMV_OK);
    sheet_len = length;
}

/* That bit comes home as this value from the first `places` soft values. */
static void check_home(size_t places, float expected)
{
    uint64_t at, copies, punctured;
    float value, joined, least, greatest;
    CHECK(umv_heard(sheet, sheet_len, 255, soft, places, 1, 1, &at, &value, &copies) == UMV_OK);
    CHECK(value == expected && copies == places);
    CHECK(umv_take_back(sheet, sheet_len, 255, soft, places, &joined, 1, &at) == UMV_OK && at == 1 && joined == expected);
    CHECK(umv_link(sheet, sheet_len, 255, soft, places, 1, &at, &least, &greatest, &punctured) == UMV_OK);
    CHECK(least == fabsf(expected) && greatest == fabsf(expected) && punctured == 0);
}

/* The same from this value at each of so many places. */
static void check_even(size_t places, float at_each, float expected)
{
    for (size_t i = 0; i < places; i++)
        soft[i] = at_each;
    check_home(places, expected);
}

/* "N=1, d=59,999: the one bit is sent 60,000 times." Sums of whole values, and of 64ths, are exact; after the last addition they are
   clipped. */
static void test_repeated(const struct shape *shape)
{
    static uint8_t frame[MOST], named[MOST];
    const uint8_t contents[] = {1};
    const uint32_t U = shape->places, T = shape->slots;
    uint16_t fields[UMV_FIELDS] = {[UMV_FIELD_LCR] = shape->lcr};
    size_t ones = 0;
    uint64_t at, trch, bit, copy;
    fill_slots(fields, shape->slots, shape->places);
    make_sheet(fields);
    memset(named, 0, sizeof named);
    CHECK(umv_build(sheet, sheet_len, 255, contents, 1, frame, MOST, &at) == UMV_OK && at == MOST);
    for (size_t i = 0; i < MOST; i++)
        ones += frame[i];
    CHECK(ones == MOST);
    for (uint32_t i = 0; i < MOST; i++) {
        CHECK(umv_name(sheet, sheet_len, 255, i / (T * 16 * U) + 1, i / (16 * U) % T + 1, i / U % 16 + 1, i % U + 1, &trch, &bit,
                       &copy) == UMV_OK);
        CHECK(trch == 1 && bit == 1 && copy < MOST && named[copy]++ == 0);
        soft[i] = copy < MOST / 2 ? 255.0f : copy < MOST - 1 ? -255.0f : -254.0f;
    }
    check_home(MOST, 1.0f); /* on the way it is 7,650,000 */
    check_even(MOST, 1.0f / 64, 937.5f);
    check_even(MOST, 255.0f, 1024.0f);
    check_even(MOST, 1.0f, 1024.0f);
    check_even(MOST, -1.0f, -1024.0f);
}

/* "The way home gives plus or minus the lesser of copies and 1,024." */
static void test_copies(uint16_t places)
{
    uint16_t fields[UMV_FIELDS] = {[UMV_FIELD_SLOTS] = 1, [UMV_FIELD_PHCHS] = 1, [UMV_FIELD_CAPACITIES] = places};
    float lesser = places < 1024 ? places : 1024.0f;
    make_sheet(fields);
    check_even(places, 1.0f, lesser);
    check_even(places, -1.0f, -lesser);
}

int main(void)
{
    test_example();
    test_frame_numbers();
    test_repeated(&shapes[0]);
    test_repeated(&shapes[1]);
    for (uint16_t places = 1022; places <= 1026; places++)
        test_copies(places);
    test_copies(1);
    test_copies(4095);
    return report("values");
}
