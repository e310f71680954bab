/* calls: what the vectors do not reach: bounds, refusals in their order (refusals.c), and the values of document 01. */
#include <stdio.h>
#include <string.h>

#include "sheets.h"

static void test_example(void)
{
    struct sheet sheet = sheet_of("10 10 00 06 00 00 04");
    uint16_t fields[UMV_FIELDS] = {0};
    fields[UMV_FIELD_VERSION] = 1;
    fields[UMV_FIELD_CHANNELS] = 1;
    fields[UMV_FIELD_SLOTS] = 1;
    fields[UMV_FIELD_E] = 6;
    fields[UMV_FIELD_RM] = 1;
    fields[UMV_FIELD_PHCHS] = 1;
    fields[UMV_FIELD_CAPACITIES] = 4;
    expect_sheet_read(&sheet, fields);
    expect_fields_written(fields, &sheet);
    CHECK(is_sizes(sizes_of(sheet.bytes, sheet.length), 1, 1, 6, 4, 6));
    CHECK(is_channel(channel_of(sheet.bytes, sheet.length, 1), 1, 6, 6, 4));
}

/* The values of document 01 for steps 1 and 4. */
static void test_values(void)
{
    struct sheet five = sheet_of("10 10 8005 00 0004");         /* E = 5, F = 4: N = 2 and three fillers */
    struct sheet four = sheet_of("10 10 8004 00 0004");         /* E = 4, F = 4: N = 1 */
    struct sheet none = sheet_of("11 10 c001 00 4000 00 0009"); /* E = 1, F = 8: N = 1; E = 0, F = 2: N = 0 */
    struct sheet shares = sheet_of("11 10 0006 00 0004 01 000a"); /* N = 6, 4; RM = 1, 2; D = 10 */
    CHECK(is_channel(channel_of(five.bytes, five.length, 1), 4, 5, 2, 4));
    CHECK(is_sizes(sizes_of(five.bytes, five.length), 1, 1, 5, 4, 8));
    CHECK(is_channel(channel_of(four.bytes, four.length, 1), 4, 4, 1, 4));
    CHECK(is_channel(channel_of(none.bytes, none.length, 1), 8, 1, 1, 9));
    CHECK(is_channel(channel_of(none.bytes, none.length, 2), 2, 0, 0, 0));
    CHECK(is_sizes(sizes_of(none.bytes, none.length), 2, 1, 1, 9, 8));
    CHECK(is_channel(channel_of(shares.bytes, shares.length, 1), 1, 6, 6, 4));
    CHECK(is_channel(channel_of(shares.bytes, shares.length, 2), 1, 4, 4, 6));
}

/* The example, and the shares, at 1.28 Mcps: D is twice what it was. */
static void test_lcr_values(void)
{
    struct sheet sheet = sheet_of("10 14 00 06 00 00 04"), shares = sheet_of("11 14 0006 00 0004 01 000a");
    CHECK(is_sizes(sizes_of(sheet.bytes, sheet.length), 1, 1, 6, 8, 6));
    CHECK(is_channel(channel_of(sheet.bytes, sheet.length, 1), 1, 6, 6, 8));
    CHECK(is_sizes(sizes_of(shares.bytes, shares.length), 2, 1, 10, 20, 10));
    CHECK(is_channel(channel_of(shares.bytes, shares.length, 1), 1, 6, 6, 8));
    CHECK(is_channel(channel_of(shares.bytes, shares.length, 2), 1, 4, 4, 12));
}

/* RM = 256 and E = 16,383, the most that a sheet can say; 60,000 bits in 15 slots. */
static void test_greatest(void)
{
    struct sheet most = sheet_of("10f0 ffffff"
                                 "0fa0 0fa0 0fa0 0fa0 0fa0 0fa0 0fa0 0fa0 0fa0 0fa0 0fa0 0fa0 0fa0 0fa0 0fa0");
    uint16_t fields[UMV_FIELDS];
    CHECK(is_sizes(sizes_of(most.bytes, most.length), 1, 15, 16383, 60000, 16384));
    CHECK(is_channel(channel_of(most.bytes, most.length, 1), 8, 16383, 2048, 60000));
    CHECK(is_answer(read_sheet(most.bytes, most.length, fields, UMV_FIELDS), UMV_OK, UMV_FIELDS));
    CHECK(fields[UMV_FIELD_E] == 16383 && fields[UMV_FIELD_RM] == 256 && fields[UMV_FIELD_TTI] == 3);
    expect_fields_written(fields, &most);
    fields[UMV_FIELD_CAPACITIES + 16 * 14] = 4001;
    expect_fields_refused(fields, UMV_MUCH_CAPACITY);
    most.bytes[most.length - 1] = 0xa1;
    expect_sheet_refused(most.bytes, most.length, UMV_MUCH_CAPACITY);
}

/* 60,000 bits of equalised size are accepted; one more, or fillers that pass it, draw 6. */
static void test_content_bound(void)
{
    struct sheet exact = sheet_of("13 10 3fff00 3fff00 3fff00 2a6300 0001");   /* 3 x 16,383 + 10,851 = 60,000 */
    struct sheet over = sheet_of("13 10 3fff00 3fff00 3fff00 2a6400 0001");    /* one bit more */
    struct sheet fillers = sheet_of("13 10 3fff00 3fff00 3fff00 ea6100 0001"); /* 10,849 of F = 8: 10,856 */
    CHECK(is_sizes(sizes_of(exact.bytes, exact.length), 4, 1, 60000, 1, 60000));
    expect_sheet_refused(over.bytes, over.length, UMV_MUCH_CONTENT);
    expect_sheet_refused(fillers.bytes, fillers.length, UMV_MUCH_CONTENT);
}

/* The longest sheet that is accepted has 418 bytes; every other length of it is refused. */
static void test_longest(void)
{
    uint16_t fields[UMV_FIELDS];
    make_longest(fields, 250);
    struct sheet sheet = sheet_with(fields);
    CHECK(sheet.length == UMV_SHEET_MOST);
    expect_fields_written(fields, &sheet);
    expect_sheet_read(&sheet, fields);
    CHECK(is_sizes(sizes_of(sheet.bytes, sheet.length), 16, 15, 60000, 60000, 60000));
    for (uint32_t trch = 1; trch <= 16; trch++)
        CHECK(is_channel(channel_of(sheet.bytes, sheet.length, trch), 1, 3750, 3750, 3750));
    for (size_t length = 0; length < sizeof sheet.bytes; length++)
        if (length != UMV_SHEET_MOST)
            expect_sheet_refused(sheet.bytes, length, length < 2 ? UMV_SHORT : UMV_FORM);
    make_longest(fields, 251);
    expect_fields_refused(fields, UMV_MUCH_CAPACITY);
}

/* The longest of 1.28 Mcps has 222 bytes. One bit more in each sub-frame draws 7, and is accepted at 3.84 Mcps. */
static void test_longest_lcr(void)
{
    uint16_t fields[UMV_FIELDS];
    make_longest_lcr(fields);
    struct sheet sheet = sheet_with(fields);
    CHECK(sheet.length == 222);
    expect_fields_written(fields, &sheet);
    expect_sheet_read(&sheet, fields);
    CHECK(is_sizes(sizes_of(sheet.bytes, sheet.length), 16, 7, 60000, 60000, 60000));
    for (size_t length = 2; length < sizeof sheet.bytes; length++)
        if (length != 222)
            expect_sheet_refused(sheet.bytes, length, UMV_FORM);
    fields[UMV_FIELD_CAPACITIES + 16 * 6 + 15]++;
    expect_fields_refused(fields, UMV_MUCH_CAPACITY);
    sheet = sheet_with(fields);
    expect_sheet_refused(sheet.bytes, sheet.length, UMV_MUCH_CAPACITY);
    fields[UMV_FIELD_LCR] = 0;
    sheet = sheet_with(fields);
    CHECK(is_sizes(sizes_of(sheet.bytes, sheet.length), 16, 7, 60000, 30001, 60000));
}

/* The longest that has a sheet's form: an uplink one of 16 codes a slot, 508 bytes. It is refused with 13, with its last capacity 0
   with 5; every other length of it with 4. */
static void test_longest_form(void)
{
    uint16_t fields[UMV_FIELDS];
    make_longest(fields, 250);
    fields[UMV_FIELD_UPLINK] = 1;
    for (unsigned code = 0; code < 240; code++)
        fields[UMV_FIELD_LOGARITHMS + code] = (uint16_t)(code % 8);
    struct sheet sheet = sheet_with(fields);
    CHECK(sheet.length == UMV_SHEET_FORM_MOST);
    for (size_t length = 2; length < sizeof sheet.bytes; length++)
        expect_sheet_refused(sheet.bytes, length, length == UMV_SHEET_FORM_MOST ? UMV_UPLINK_CODES : UMV_FORM);
    fields[UMV_FIELD_CAPACITIES + 239] = 0;
    sheet = sheet_with(fields);
    expect_sheet_refused(sheet.bytes, sheet.length, UMV_NO_CAPACITY);
}

/* Every place that holds no field set to `value`. */
static void fill_unused(uint16_t *fields, uint16_t value)
{
    for (unsigned place = 0; place < UMV_FIELDS; place++)
        if (!in_use(fields, place))
            fields[place] = value;
}

/* What stands past the counts changes no sheet, and comes back as zeros. */
static void test_round_trip(void (*make)(uint16_t *))
{
    uint16_t fields[UMV_FIELDS], noisy[UMV_FIELDS];
    make(fields);
    struct sheet sheet = sheet_with(fields);
    memcpy(noisy, fields, sizeof noisy);
    fill_unused(noisy, 65535);
    expect_fields_written(noisy, &sheet);
    expect_sheet_read(&sheet, fields);
    expect_fields_written(fields, &sheet);
}

/* ---- Many sheets, drawn by a fixed rule, against sums made here ---- */

static uint32_t state = 1;

static unsigned draw(unsigned least, unsigned most)
{
    state = state * 1664525u + 1013904223u;
    return least + (state >> 8) % (most - least + 1);
}

static void draw_fields(uint16_t *fields)
{
    memset(fields, 0, UMV_FIELDS * sizeof *fields);
    fields[UMV_FIELD_VERSION] = 1;
    fields[UMV_FIELD_MODE] = (uint16_t)draw(0, 1);
    fields[UMV_FIELD_CHANNELS] = (uint16_t)draw(1, 16);
    fields[UMV_FIELD_LCR] = (uint16_t)draw(0, 1);
    fields[UMV_FIELD_SLOTS] = (uint16_t)draw(1, fields[UMV_FIELD_LCR] == 1 ? UMV_SUBFRAME_SLOTS_MOST : 15);
    fields[UMV_FIELD_UPLINK] = (uint16_t)draw(0, 1);
    for (unsigned i = 0; i < fields[UMV_FIELD_CHANNELS]; i++) {
        fields[UMV_FIELD_TTI + i] = (uint16_t)draw(0, 3);
        fields[UMV_FIELD_E + i] = (uint16_t)(i > 0 && draw(0, 3) == 0 ? 0 : draw(1, 3500));
        fields[UMV_FIELD_RM + i] = (uint16_t)draw(1, 256);
    }
    for (unsigned t = 0; t < fields[UMV_FIELD_SLOTS]; t++) {
        fields[UMV_FIELD_PHCHS + t] = (uint16_t)draw(1, fields[UMV_FIELD_UPLINK] == 1 ? 2 : 16);
        for (unsigned p = 0; p < fields[UMV_FIELD_PHCHS + t]; p++) {
            fields[UMV_FIELD_CAPACITIES + 16 * t + p] = (uint16_t)draw(1, 250);
            fields[UMV_FIELD_LOGARITHMS + 16 * t + p] = (uint16_t)(fields[UMV_FIELD_UPLINK] == 1 ? draw(0, 4) : 0);
        }
    }
}

static uint64_t segment(const uint16_t *fields, unsigned i)
{
    uint64_t f = 1u << fields[UMV_FIELD_TTI + i], e = fields[UMV_FIELD_E + i];
    return e == 0 ? 0 : (e - 1) / f + 1;
}

/* The sum of RM x N over the first `channels` channels. */
static uint64_t weight(const uint16_t *fields, unsigned channels)
{
    uint64_t sum = 0;
    for (unsigned i = 0; i < channels; i++)
        sum += fields[UMV_FIELD_RM + i] * segment(fields, i);
    return sum;
}

static void expect_numbers(const uint16_t *fields, const struct sheet *sheet)
{
    unsigned channels = fields[UMV_FIELD_CHANNELS];
    uint64_t contents = 0, capacity = 0, joined = 0;
    for (unsigned i = 0; i < channels; i++) {
        contents += fields[UMV_FIELD_E + i];
        joined += segment(fields, i) << fields[UMV_FIELD_TTI + i];
    }
    for (unsigned place = UMV_FIELD_CAPACITIES; place < UMV_FIELD_LOGARITHMS; place++)
        capacity += (fields[UMV_FIELD_LCR] + 1u) * fields[place];
    CHECK(is_sizes(sizes_of(sheet->bytes, sheet->length), channels, fields[UMV_FIELD_SLOTS], contents, capacity,
                   joined));
    for (unsigned i = 0; i < channels; i++) {
        uint64_t all = weight(fields, channels);
        uint64_t v = capacity * weight(fields, i + 1) / all - capacity * weight(fields, i) / all;
        CHECK(is_channel(channel_of(sheet->bytes, sheet->length, i + 1), 1u << fields[UMV_FIELD_TTI + i],
                         fields[UMV_FIELD_E + i], segment(fields, i), v));
    }
    CHECK(channel_refused(channel_of(sheet->bytes, sheet->length, channels + 1), UMV_ABSENT));
}

static void test_many(void)
{
    static char name[40];
    for (unsigned round = 0; round < 200; round++) {
        uint16_t fields[UMV_FIELDS];
        draw_fields(fields);
        struct sheet sheet = sheet_with(fields);
        snprintf(name, sizeof name, "drawn sheet %u", round);
        subject = name;
        expect_fields_written(fields, &sheet);
        expect_sheet_read(&sheet, fields);
        expect_numbers(fields, &sheet);
    }
    subject = "";
}

int main(void)
{
    test_example();
    test_values();
    test_lcr_values();
    test_greatest();
    test_content_bound();
    test_longest();
    test_longest_lcr();
    test_longest_form();
    test_round_trip(make_fields);
    test_round_trip(make_uplink);
    test_round_trip(make_lcr);
    test_many();
    test_refusals();
    return report("calls");
}
