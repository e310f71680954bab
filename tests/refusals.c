/* Part of calls: refusals of sheets and fields, in the order of the table. */
#include <stdio.h>
#include <string.h>

#include "sheets.h"

/* Sheets with one fault, and with more, of which the first in the order of the table is given. */
static const struct {
    uint32_t number;
    const char *hex, *what;
} sheet_faults[] = {
    {1, "", "no byte"},
    {1, "10", "one byte"},
    {1, "20", "one byte; version 2"},
    {2, "20 10 00 06 00 00 04", "version 2"},
    {2, "f0 10 00 06 00 00 04", "version 15"},
    {2, "00 00", "version 0; no slot"},
    {2, "20 10", "version 2; length"},
    {2, "20 11 00 06 00 00 04", "version 2; spare bit"},
    {3, "10 00 00 06 00", "no slot"},
    {3, "10 00", "no slot; length"},
    {3, "17 0f 00 06 00", "no slot; spare bit"},
    {4, "10 10", "nothing behind the head"},
    {4, "10 10 00 06 00 00", "a byte less"},
    {4, "10 10 00 06 00 00 04 00", "a byte more"},
    {4, "10 11 00 06 00 00 04", "spare bit"},
    {4, "10 15 00 06 00 00 04", "spare bit of a 1.28 Mcps sheet"},
    {4, "10 85 00 06 00 0004 0004 0004 0004 0004 0004 0004 0004", "spare bit; eight slots of 1.28 Mcps"},
    {4, "10 84 00 06 00 0004 0004 0004 0004 0004 0004 0004", "two bytes less; eight slots of 1.28 Mcps"},
    {4, "10 18 00 06 00 00 04", "uplink bit, without a logarithm"},
    {4, "10 10 00 06 00 08 00 80", "logarithm, without the uplink bit"},
    {4, "10 19 00 06 00 08 00 80", "spare bit of an uplink sheet"},
    {4, "10 12 00 06 00 00 04", "top bit of I - 1, with one channel"},
    {4, "10 10 000600 000600 000600 000600 000600 000600 000600 000600 000600 0004", "nine channels, without that bit"},
    {4, "10 13 000600 000600 000600 000600 000600 000600 000600 000600 000600 0004", "nine channels; spare bit"},
    {4, "10 17 000600 000600 000600 000600 000600 000600 000600 000600 000600 0004", "nine channels of 1.28 Mcps; spare bit"},
    {4, "10 18 00 06 00 0a 00 81", "padding bit; logarithm 5"},
    {4, "10 18 00 06 00 24 00 88 01 10 02 00 00", "a byte more; three codes"},
    {4, "10 18 00 06 00 24 00 88 01 10 02", "a byte less; three codes"},
    {4, "10 10 00 06 00 10 04 00 41", "last padding bit"},
    {4, "10 10 00 06 00 10 04 00 48", "first padding bit"},
    {4, "10 10 00 06 00 00 00 00", "a byte more; capacity 0"},
    {4, "10 10 00 06 00 10 00 00", "a byte less; capacity 0"},
    {4, "10 11 00 06 00 00 00", "spare bit; capacity 0"},
    {4, "10 10 00 06 00 10 04 00 01", "padding bit; capacity 0"},
    {4, "13 11 3fff00 3fff00 3fff00 3fff00 0004", "spare bit; contents"},
    {4, "10 10 00 00 00 00 04 00", "a byte more; no content"},
    {5, "10 10 00 06 00 00 00", "capacity 0"},
    {5, "10 10 00 06 00 10 04 00 00", "second capacity 0"},
    {5, "13 10 3fff00 3fff00 3fff00 3fff00 0000", "capacity 0; contents"},
    {5, "10f0 000600 0fff 0fff 0fff 0fff 0fff 0fff 0fff 0fff 0fff 0fff 0fff 0fff 0fff 0fff 1fff 0000",
     "last capacity 0; capacities"},
    {5, "10 10 00 00 00 00 00", "capacity 0; no content"},
    {5, "10 84 00 06 00 0004 0004 0004 0004 0004 0004 0004 0000", "last capacity 0; eight slots of 1.28 Mcps"},
    {5, "10 18 00 06 00 0a 00 00", "capacity 0; logarithm 5"},
    {5, "10 18 00 06 00 24 00 88 00 10 02 00", "second capacity 0; three codes"},
    {13, "10 18 00 06 00 0a 00 80", "logarithm 5"},
    {13, "10 18 00 06 00 0e 00 80", "logarithm 7"},
    {13, "10 18 00 06 00 18 00 94 01 00", "logarithm 5 of the second code"},
    {13, "10 18 00 06 00 24 00 88 01 10 02 00", "three codes"},
    {13, "13 18 3fff00 3fff00 3fff00 3fff00 0a 00 80", "logarithm 5; contents"},
    {13, "10 18 00 00 00 0a 00 80", "logarithm 5; no content"},
    {13, "10 8c 00 06 00 08008100102002040040800810010200205004", "last logarithm 5; eight slots of 1.28 Mcps"},
    {14, "10 84 00 06 00 0004 0004 0004 0004 0004 0004 0004 0004", "eight slots of 1.28 Mcps"},
    {14, "10 8c 00 06 00 08008100102002040040800810010200204004", "eight slots of 1.28 Mcps in uplink"},
    {14, "13f4 3fff00 3fff00 3fff00 3fff00"
         "0fff 0fff 0fff 0fff 0fff 0fff 0fff 0fff 0fff 0fff 0fff 0fff 0fff 0fff 0fff",
     "fifteen slots of 1.28 Mcps; contents; capacities"},
    {14, "10 84 00 00 00 0004 0004 0004 0004 0004 0004 0004 0004", "eight slots of 1.28 Mcps; no content"},
    {6, "13 10 3fff00 3fff00 3fff00 3fff00 0004", "contents"},
    {6, "13 18 3fff00 3fff00 3fff00 3fff00 08 00 80", "contents in uplink"},
    {6, "13f0 3fff00 3fff00 3fff00 3fff00"
        "0fff 0fff 0fff 0fff 0fff 0fff 0fff 0fff 0fff 0fff 0fff 0fff 0fff 0fff 0fff",
     "contents; capacities"},
    {7, "10f0 000600 0fff 0fff 0fff 0fff 0fff 0fff 0fff 0fff 0fff 0fff 0fff 0fff 0fff 0fff 0fff", "capacities"},
    {7, "10f0 000000 0fff 0fff 0fff 0fff 0fff 0fff 0fff 0fff 0fff 0fff 0fff 0fff 0fff 0fff 0fff",
     "capacities; no content"},
    {7, "1074 000600 0fff 0fff 0fff 0fff 0fff 0fff 1fff 5380", "30,001 bits in each sub-frame of 1.28 Mcps"},
    {7, "1074 000000 0fff 0fff 0fff 0fff 0fff 0fff 1fff fff0", "capacities of 1.28 Mcps; no content"},
    {8, "10 10 00 00 00 00 04", "no content"},
    {8, "10 74 00 00 00 0004 0004 0004 0004 0004 0004 0004", "no content in seven slots of 1.28 Mcps"},
    {8, "10 18 00 00 00 08 00 80", "no content in uplink"},
    {8, "11 10 c000 ff 0000 00 0004", "no content in two channels"},
};

static void test_sheet_faults(void)
{
    for (size_t i = 0; i < sizeof sheet_faults / sizeof *sheet_faults; i++) {
        struct sheet sheet = sheet_of(sheet_faults[i].hex);
        subject = sheet_faults[i].what;
        expect_sheet_refused(sheet.bytes, sheet.length, sheet_faults[i].number);
    }
    subject = "";
}

enum { U = UMV_FIELD_CAPACITIES, E = UMV_FIELD_E, P = UMV_FIELD_PHCHS, L = UMV_FIELD_LOGARITHMS };

/* Fields with up to three of them changed: one fault, and more, of which the first in the order of the table is given. */
struct field_fault {
    uint32_t number;
    const char *what;
    unsigned changes;
    struct {
        uint16_t place, value;
    } set[3];
};

/* Of make_fields. */
static const struct field_fault field_faults[] = {
    {2, "version 0", 1, {{UMV_FIELD_VERSION, 0}}},
    {2, "version 2; no slot", 2, {{UMV_FIELD_VERSION, 2}, {UMV_FIELD_SLOTS, 0}}},
    {2, "version 17; mode 2", 2, {{UMV_FIELD_VERSION, 17}, {UMV_FIELD_MODE, 2}}},
    {3, "no slot", 1, {{UMV_FIELD_SLOTS, 0}}},
    {3, "no slot; mode 2", 2, {{UMV_FIELD_SLOTS, 0}, {UMV_FIELD_MODE, 2}}},
    {3, "no slot; no channel", 2, {{UMV_FIELD_SLOTS, 0}, {UMV_FIELD_CHANNELS, 0}}},
    {3, "no slot; uplink 2", 2, {{UMV_FIELD_SLOTS, 0}, {UMV_FIELD_UPLINK, 2}}},
    {3, "no slot; 1.28 Mcps 2", 2, {{UMV_FIELD_SLOTS, 0}, {UMV_FIELD_LCR, 2}}},
    {4, "mode 2", 1, {{UMV_FIELD_MODE, 2}}},
    {4, "uplink 2", 1, {{UMV_FIELD_UPLINK, 2}}},
    {4, "uplink 2; capacity 0", 2, {{UMV_FIELD_UPLINK, 2}, {U, 0}}},
    {4, "1.28 Mcps 2", 1, {{UMV_FIELD_LCR, 2}}},
    {4, "1.28 Mcps 256, whose last byte is 0", 1, {{UMV_FIELD_LCR, 256}}},
    {4, "1.28 Mcps 2; capacity 0", 2, {{UMV_FIELD_LCR, 2}, {U, 0}}},
    {4, "no channel", 1, {{UMV_FIELD_CHANNELS, 0}}},
    {4, "9 channels, the ninth of RM 0", 1, {{UMV_FIELD_CHANNELS, 9}}},
    {4, "17 channels", 1, {{UMV_FIELD_CHANNELS, 17}}},
    {4, "16 slots", 1, {{UMV_FIELD_SLOTS, 16}}},
    {4, "TTI 4", 1, {{UMV_FIELD_TTI + 2, 4}}},
    {4, "E 16,384", 1, {{E + 2, 16384}}},
    {4, "RM 0", 1, {{UMV_FIELD_RM + 2, 0}}},
    {4, "RM 257", 1, {{UMV_FIELD_RM + 2, 257}}},
    {4, "no PhCH", 1, {{UMV_FIELD_PHCHS + 3, 0}}},
    {4, "17 PhCHs", 1, {{UMV_FIELD_PHCHS + 3, 17}}},
    {4, "U 4,096", 1, {{U + 16 * 2 + 15, 4096}}},
    {4, "capacity 0; TTI 4", 2, {{U, 0}, {UMV_FIELD_TTI, 4}}},
    {4, "capacity 0; a later U 4,096", 2, {{U, 0}, {U + 16 * 3 + 1, 4096}}},
    {4, "no content; RM 0", 3, {{E, 0}, {E + 1, 0}, {UMV_FIELD_RM, 0}}},
    {5, "capacity 0", 1, {{U + 16 * 2 + 15, 0}}},
    {5, "capacity 0 first", 3, {{U, 0}, {E, 16383}, {E + 1, 16383}}},
    {13, "three codes in uplink", 1, {{UMV_FIELD_UPLINK, 1}}},
};

/* Of make_uplink. */
static const struct field_fault uplink_faults[] = {
    {4, "uplink 2; three codes; logarithm 5", 3, {{UMV_FIELD_UPLINK, 2}, {P + 1, 3}, {L, 5}}},
    {4, "17 codes; logarithm 5", 2, {{P + 1, 17}, {L, 5}}},
    {4, "no code; logarithm 5", 2, {{P + 1, 0}, {L, 5}}},
    {4, "logarithm 5; a later U 4,096", 2, {{L, 5}, {U + 16 * 3, 4096}}},
    {4, "logarithm 65,535; RM 0", 2, {{L, 65535}, {UMV_FIELD_RM, 0}}},
    {5, "capacity 0; an earlier logarithm 65,535", 2, {{U + 16 * 3, 0}, {L, 65535}}},
    {5, "capacity 0; three codes", 3, {{U, 0}, {P + 1, 3}, {U + 16 + 2, 1}}},
    {13, "three codes", 2, {{P + 1, 3}, {U + 16 + 2, 1}}},
    {13, "logarithm 5 of the last code", 1, {{L + 16 * 3, 5}}},
    {13, "logarithm 8, whose last 3 bits are 0", 1, {{L + 16 + 1, 8}}},
    {13, "logarithm 256, whose last byte is 0", 1, {{L + 16 + 1, 256}}},
    {13, "logarithm 65,535", 1, {{L + 16 * 2 + 1, 65535}}},
    {13, "logarithm 5; no content", 3, {{L, 5}, {UMV_FIELD_CHANNELS, 1}, {E, 0}}},
};

/* Of make_longest with capacities of 1, at 1.28 Mcps: 15 slots. */
static const struct field_fault slot_faults[] = {
    {4, "1.28 Mcps 2; fifteen slots", 1, {{UMV_FIELD_LCR, 2}}},
    {4, "sixteen slots of 1.28 Mcps", 1, {{UMV_FIELD_SLOTS, 16}}},
    {4, "fifteen slots of 1.28 Mcps; U 4,096", 1, {{U + 239, 4096}}},
    {5, "fifteen slots of 1.28 Mcps; capacity 0", 1, {{U + 239, 0}}},
    {13, "fifteen slots of 1.28 Mcps; 16 codes in uplink", 1, {{UMV_FIELD_UPLINK, 1}}},
    {14, "fifteen slots of 1.28 Mcps", 0, {{0, 0}}},
    {14, "eight slots of 1.28 Mcps", 1, {{UMV_FIELD_SLOTS, 8}}},
    {14, "eight slots of 1.28 Mcps; contents", 2, {{UMV_FIELD_SLOTS, 8}, {E, 16383}}},
    {14, "eight slots of 1.28 Mcps; no content", 3, {{UMV_FIELD_SLOTS, 8}, {UMV_FIELD_CHANNELS, 1}, {E, 0}}},
};

static void make_many_slots(uint16_t *fields)
{
    make_longest(fields, 1);
    fields[UMV_FIELD_LCR] = 1;
}

static void test_field_faults(const struct field_fault *faults, size_t count, void (*make)(uint16_t *))
{
    for (size_t i = 0; i < count; i++) {
        uint16_t fields[UMV_FIELDS];
        make(fields);
        for (unsigned k = 0; k < faults[i].changes; k++)
            fields[faults[i].set[k].place] = faults[i].set[k].value;
        subject = faults[i].what;
        expect_fields_refused(fields, faults[i].number);
    }
    subject = "";
}

/* A count that is one too great draws 4 even where the places behind it would do as the fields it asks for. */
static void test_counts(void)
{
    uint16_t fields[UMV_FIELDS];
    make_longest(fields, 1);
    fields[UMV_FIELD_E] = 1; /* the seventeenth TTI */
    fields[UMV_FIELD_CHANNELS] = 17;
    expect_fields_refused(fields, UMV_FORM);
    make_longest(fields, 1); /* the sixteenth P is the first capacity */
    fields[UMV_FIELD_SLOTS] = 16;
    expect_fields_refused(fields, UMV_FORM);
}

/* Two codes in each of 15 uplink slots with 2,000 bits each, and as many channels as make_longest has: just 60,000 bits. */
static void make_full_uplink(uint16_t *fields)
{
    make_longest(fields, 2000);
    fields[UMV_FIELD_UPLINK] = 1;
    for (unsigned t = 0; t < 15; t++)
        fields[UMV_FIELD_PHCHS + t] = 2;
}

/* In uplink 13 goes before the sums, which are asked as in downlink. */
static void test_uplink_sums(void)
{
    uint16_t fields[UMV_FIELDS];
    make_longest(fields, 251);
    fields[UMV_FIELD_UPLINK] = 1;
    fields[UMV_FIELD_E] = 3751;
    expect_fields_refused(fields, UMV_UPLINK_CODES); /* and contents and capacities over 60,000 */
    make_full_uplink(fields);
    struct sheet sheet = sheet_with(fields);
    expect_fields_written(fields, &sheet);
    fields[UMV_FIELD_CAPACITIES + 16 * 14 + 1] = 2001;
    expect_fields_refused(fields, UMV_MUCH_CAPACITY);
    fields[UMV_FIELD_E] = 3751;
    expect_fields_refused(fields, UMV_MUCH_CONTENT); /* and capacities over 60,000 */
    fields[UMV_FIELD_LOGARITHMS + 16 * 14 + 1] = 5;
    expect_fields_refused(fields, UMV_UPLINK_CODES); /* and both */
    make_full_uplink(fields);
    memset(fields + UMV_FIELD_E, 0, UMV_CHANNELS_MOST * sizeof *fields);
    expect_fields_refused(fields, UMV_NO_CONTENT);
}

/* At 1.28 Mcps 14 goes before the sums, and 7 is asked of both sub-frames. */
static void test_lcr_sums(void)
{
    uint16_t fields[UMV_FIELDS];
    make_longest(fields, 251);
    fields[UMV_FIELD_LCR] = 1;
    fields[UMV_FIELD_E] = 3751;
    expect_fields_refused(fields, UMV_SUBFRAME_SLOTS); /* and contents and capacities over 60,000 */
    make_longest_lcr(fields);
    fields[UMV_FIELD_CAPACITIES]++;
    expect_fields_refused(fields, UMV_MUCH_CAPACITY);
    fields[UMV_FIELD_E] = 3751;
    expect_fields_refused(fields, UMV_MUCH_CONTENT); /* and capacities over 60,000 */
    memset(fields + UMV_FIELD_E, 0, UMV_CHANNELS_MOST * sizeof *fields);
    expect_fields_refused(fields, UMV_MUCH_CAPACITY); /* and no content */
    fields[UMV_FIELD_CAPACITIES]--;
    expect_fields_refused(fields, UMV_NO_CONTENT);
}

/* The sums, 5 to 8, from fields; two at once, of which the first in the order of the table is given. */
static void test_field_sums(void)
{
    uint16_t fields[UMV_FIELDS];
    make_longest(fields, 251);
    fields[UMV_FIELD_CAPACITIES + 239] = 0;
    expect_fields_refused(fields, UMV_NO_CAPACITY); /* and capacities over 60,000 */
    make_longest(fields, 251);
    fields[UMV_FIELD_E] = 3751;
    expect_fields_refused(fields, UMV_MUCH_CONTENT); /* and capacities over 60,000 */
    memset(fields + UMV_FIELD_E, 0, UMV_CHANNELS_MOST * sizeof *fields);
    expect_fields_refused(fields, UMV_MUCH_CAPACITY); /* and no content */
    make_longest(fields, 250);
    fields[UMV_FIELD_E] = 3751;
    expect_fields_refused(fields, UMV_MUCH_CONTENT);
    memset(fields + UMV_FIELD_E, 0, UMV_CHANNELS_MOST * sizeof *fields);
    expect_fields_refused(fields, UMV_NO_CONTENT);
    fields[UMV_FIELD_E + 15] = 1;
    struct sheet sheet = sheet_with(fields);
    expect_fields_written(fields, &sheet);
}

/* The number for fields that are accepted, with `value`, 65,535 or 0, at a place. */
static uint32_t number_at(const uint16_t *fields, unsigned place, uint16_t value)
{
    bool of_logs = place >= UMV_FIELD_LOGARITHMS;
    if (!in_use(fields, place))
        return UMV_OK;
    if (place == UMV_FIELD_VERSION)
        return UMV_VERSION;
    if (value != 0)
        return of_logs ? UMV_UPLINK_CODES : UMV_FORM;
    if (place == UMV_FIELD_SLOTS)
        return UMV_NO_SLOT;
    if (place >= UMV_FIELD_CAPACITIES)
        return of_logs ? UMV_OK : UMV_NO_CAPACITY;
    bool may_be_zero = place == UMV_FIELD_MODE || (place >= UMV_FIELD_UPLINK && place < UMV_FIELD_RM); /* 1.28 Mcps, TTI, E too */
    return may_be_zero ? UMV_OK : UMV_FORM;
}

/* 65,535 and 0 in each of the places, one by one. */
static void test_each_place(void (*make)(uint16_t *), uint16_t value)
{
    static char name[40];
    for (unsigned place = 0; place < UMV_FIELDS; place++) {
        uint16_t fields[UMV_FIELDS];
        make(fields);
        uint32_t number = number_at(fields, place, value);
        fields[place] = value;
        snprintf(name, sizeof name, "%u at place %u", value, place);
        subject = name;
        struct sheet sheet = {{0}, 0};
        if (number == UMV_OK) {
            sheet = sheet_with(fields);
            expect_fields_written(fields, &sheet);
        } else {
            expect_fields_refused(fields, number);
        }
    }
    subject = "";
}

/* Fields that are not 524 draw 11 and are not looked at, whatever else is wrong: the 283 of release 1 too. */
static void test_field_count(void)
{
    static const size_t counts[] = {0, 1, 283, 523, 525};
    uint16_t good[UMV_FIELDS + 1], bad[UMV_FIELDS + 1] = {0};
    uint8_t sheet[7] = {1, 2, 3, 4, 5, 6, 7}, before[7];
    memcpy(before, sheet, sizeof sheet);
    make_fields(good);
    good[UMV_FIELDS] = 0;
    for (size_t i = 0; i < sizeof counts / sizeof *counts; i++) {
        CHECK(is_answer(length_of(good, counts[i]), UMV_LENGTH, 0));
        CHECK(is_answer(length_of(bad, counts[i]), UMV_LENGTH, 0));
        CHECK(is_answer(write_sheet(good, counts[i], sheet, sizeof sheet), UMV_LENGTH, 0));
        CHECK(is_answer(write_sheet(bad, counts[i], sheet, sizeof sheet), UMV_LENGTH, 0));
    }
    CHECK(memcmp(sheet, before, sizeof sheet) == 0);
}

static void test_absent_channel(void)
{
    static const uint32_t absent[] = {0, 3, 8, 9, 256, 257, 65537, 0x80000001u, 0xffffffffu};
    struct sheet sheet = sheet_of("11 10 0006 00 0004 01 000a");
    for (size_t i = 0; i < sizeof absent / sizeof *absent; i++)
        CHECK(channel_refused(channel_of(sheet.bytes, sheet.length, absent[i]), UMV_ABSENT));
}

/* The pointer of an empty slice is not followed. */
static void test_null(void)
{
    struct sheet sheet = sheet_of("10 10 00 06 00 00 04");
    uint16_t fields[UMV_FIELDS];
    make_fields(fields);
    CHECK(is_answer(read_sheet(NULL, 0, NULL, 0), UMV_SHORT, 0));
    CHECK(is_answer(read_sheet(sheet.bytes, sheet.length, NULL, 0), UMV_LENGTH, 0));
    CHECK(is_answer(length_of(NULL, 0), UMV_LENGTH, 0));
    CHECK(is_answer(write_sheet(NULL, 0, NULL, 0), UMV_LENGTH, 0));
    CHECK(is_answer(write_sheet(fields, UMV_FIELDS, NULL, 0), UMV_LENGTH, 0));
    CHECK(sizes_refused(sizes_of(NULL, 0), UMV_SHORT));
    CHECK(channel_refused(channel_of(NULL, 0, 1), UMV_SHORT));
}

void test_refusals(void)
{
    test_sheet_faults();
    test_field_faults(field_faults, sizeof field_faults / sizeof *field_faults, make_fields);
    test_field_faults(uplink_faults, sizeof uplink_faults / sizeof *uplink_faults, make_uplink);
    test_field_faults(slot_faults, sizeof slot_faults / sizeof *slot_faults, make_many_slots);
    test_counts();
    test_field_sums();
    test_uplink_sums();
    test_lcr_sums();
    test_each_place(make_fields, 65535);
    test_each_place(make_fields, 0);
    test_each_place(make_uplink, 65535);
    test_each_place(make_uplink, 0);
    test_each_place(make_lcr, 65535);
    test_each_place(make_lcr, 0);
    test_field_count();
    test_absent_channel();
    test_null();
}
