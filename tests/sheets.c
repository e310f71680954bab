/* See sheets.h. */
#include "sheets.h"

#include <stdio.h>
#include <string.h>

/* ---- Calls with their answers by value; each answer holds UNWRITTEN before the call ---- */

static const uint64_t UNWRITTEN = 0xa5a5a5a5a5a5a5a5u;

struct answer read_sheet(const uint8_t *sheet, size_t sheet_len, uint16_t *fields, size_t fields_len)
{
    struct answer a = {0, UNWRITTEN};
    a.number = umv_sheet_read(sheet, sheet_len, fields, fields_len, &a.at);
    return a;
}

struct answer length_of(const uint16_t *fields, size_t fields_len)
{
    struct answer a = {0, UNWRITTEN};
    a.number = umv_sheet_length(fields, fields_len, &a.at);
    return a;
}

struct answer write_sheet(const uint16_t *fields, size_t fields_len, uint8_t *sheet, size_t sheet_len)
{
    struct answer a = {0, UNWRITTEN};
    a.number = umv_sheet_write(fields, fields_len, sheet, sheet_len, &a.at);
    return a;
}

struct sizes sizes_of(const uint8_t *sheet, size_t sheet_len)
{
    struct sizes a = {0, UNWRITTEN, UNWRITTEN, UNWRITTEN, UNWRITTEN, UNWRITTEN};
    a.number = umv_sizes(sheet, sheet_len, &a.channels, &a.slots, &a.contents, &a.capacity, &a.joined);
    return a;
}

struct channel channel_of(const uint8_t *sheet, size_t sheet_len, uint32_t trch)
{
    struct channel a = {0, UNWRITTEN, UNWRITTEN, UNWRITTEN, UNWRITTEN};
    a.number = umv_channel(sheet, sheet_len, trch, &a.f, &a.e, &a.n, &a.v);
    return a;
}

bool is_answer(struct answer a, uint32_t number, uint64_t at)
{
    return a.number == number && a.at == at;
}

bool is_sizes(struct sizes a, uint64_t channels, uint64_t slots, uint64_t contents, uint64_t capacity, uint64_t joined)
{
    return a.number == UMV_OK && a.channels == channels && a.slots == slots && a.contents == contents &&
           a.capacity == capacity && a.joined == joined;
}

bool is_channel(struct channel a, uint64_t f, uint64_t e, uint64_t n, uint64_t v)
{
    return a.number == UMV_OK && a.f == f && a.e == e && a.n == n && a.v == v;
}

bool sizes_refused(struct sizes a, uint32_t number)
{
    return a.number == number && a.channels == 0 && a.slots == 0 && a.contents == 0 && a.capacity == 0 &&
           a.joined == 0;
}

bool channel_refused(struct channel a, uint32_t number)
{
    return a.number == number && a.f == 0 && a.e == 0 && a.n == 0 && a.v == 0;
}

/* ---- Sheets and fields made here, apart from the library ---- */

struct sheet sheet_of(const char *hex)
{
    struct sheet sheet = {{0}, 0};
    unsigned byte;
    for (int used; sscanf(hex, " %2x%n", &byte, &used) == 1; hex += used)
        sheet.bytes[sheet.length++] = (uint8_t)byte;
    return sheet;
}

struct sheet sheet_with(const uint16_t *fields)
{
    struct sheet sheet = {{0}, 0};
    sheet.length = (pack(fields, sheet.bytes) + 7) / 8;
    return sheet;
}

static void make_slots(uint16_t *fields, const uint16_t *phchs)
{
    memset(fields, 0, UMV_FIELDS * sizeof *fields);
    fields[UMV_FIELD_VERSION] = 1;
    fields[UMV_FIELD_MODE] = 1;
    fields[UMV_FIELD_CHANNELS] = 3;
    fields[UMV_FIELD_SLOTS] = 4;
    for (unsigned i = 0; i < 3; i++) {
        fields[UMV_FIELD_TTI + i] = (uint16_t)(i + 1);
        fields[UMV_FIELD_E + i] = (uint16_t)(100 + i);
        fields[UMV_FIELD_RM + i] = (uint16_t)(256 - i);
    }
    for (unsigned t = 0; t < 4; t++) {
        fields[UMV_FIELD_PHCHS + t] = phchs[t];
        for (unsigned p = 0; p < phchs[t]; p++)
            fields[UMV_FIELD_CAPACITIES + 16 * t + p] = (uint16_t)(17 * t + p + 1);
    }
}

void make_fields(uint16_t *fields)
{
    static const uint16_t phchs[4] = {1, 3, 16, 2};
    make_slots(fields, phchs);
}

void make_uplink(uint16_t *fields)
{
    static const uint16_t phchs[4] = {1, 2, 2, 1}, logs[4][2] = {{4}, {3, 2}, {1, 4}, {0}};
    make_slots(fields, phchs);
    fields[UMV_FIELD_UPLINK] = 1;
    for (unsigned t = 0; t < 4; t++)
        memcpy(&fields[UMV_FIELD_LOGARITHMS + 16 * t], logs[t], sizeof logs[t]);
}

void make_lcr(uint16_t *fields)
{
    make_fields(fields);
    fields[UMV_FIELD_LCR] = 1;
}

void make_longest(uint16_t *fields, uint16_t capacity)
{
    memset(fields, 0, UMV_FIELDS * sizeof *fields);
    fields[UMV_FIELD_VERSION] = 1;
    fields[UMV_FIELD_CHANNELS] = UMV_CHANNELS_MOST;
    for (unsigned i = 0; i < UMV_CHANNELS_MOST; i++) {
        fields[UMV_FIELD_E + i] = 3750;
        fields[UMV_FIELD_RM + i] = 256;
    }
    fill_slots(fields, 15, capacity);
}

void make_longest_lcr(uint16_t *fields)
{
    make_longest(fields, 0);
    fields[UMV_FIELD_LCR] = 1;
    memset(&fields[UMV_FIELD_PHCHS], 0, 15 * sizeof *fields);
    fill_slots(fields, UMV_SUBFRAME_SLOTS_MOST, 267);
    for (unsigned code = 0; code < 30000 - 7 * 16 * 267; code++)
        fields[UMV_FIELD_CAPACITIES + code]++;
}

/* ---- What is expected of fields and of sheets ---- */

void expect_fields_refused(const uint16_t *fields, uint32_t number)
{
    uint8_t sheet[UMV_SHEET_MOST + 1], before[sizeof sheet];
    uint16_t copy[UMV_FIELDS];
    memcpy(copy, fields, sizeof copy);
    memset(sheet, 0x5a, sizeof sheet);
    memset(before, 0x5a, sizeof before);
    CHECK(is_answer(length_of(fields, UMV_FIELDS), number, 0));
    for (size_t room = 0; room <= sizeof sheet; room++)
        CHECK(is_answer(write_sheet(fields, UMV_FIELDS, sheet, room), number, 0));
    CHECK(memcmp(sheet, before, sizeof sheet) == 0);
    CHECK(memcmp(fields, copy, sizeof copy) == 0);
}

void expect_fields_written(const uint16_t *fields, const struct sheet *expected)
{
    uint8_t sheet[sizeof expected->bytes], before[sizeof sheet];
    memset(sheet, 0x5a, sizeof sheet);
    memset(before, 0x5a, sizeof before);
    CHECK(is_answer(length_of(fields, UMV_FIELDS), UMV_OK, expected->length));
    for (size_t room = 0; room <= UMV_SHEET_MOST + 1; room++)
        if (room != expected->length)
            CHECK(is_answer(write_sheet(fields, UMV_FIELDS, sheet, room), UMV_LENGTH, 0));
    CHECK(memcmp(sheet, before, sizeof sheet) == 0);
    CHECK(is_answer(write_sheet(fields, UMV_FIELDS, sheet, expected->length), UMV_OK, expected->length));
    CHECK(memcmp(sheet, expected->bytes, expected->length) == 0);
    CHECK(memcmp(sheet + expected->length, before, sizeof sheet - expected->length) == 0);
}

void expect_sheet_read(const struct sheet *sheet, const uint16_t *expected)
{
    uint16_t fields[UMV_FIELDS + 1], before[UMV_FIELDS + 1];
    memset(fields, 0x5a, sizeof fields);
    memset(before, 0x5a, sizeof before);
    for (size_t room = 0; room <= UMV_FIELDS + 1; room++)
        if (room != UMV_FIELDS)
            CHECK(is_answer(read_sheet(sheet->bytes, sheet->length, fields, room), UMV_LENGTH, 0));
    CHECK(memcmp(fields, before, sizeof fields) == 0);
    CHECK(is_answer(read_sheet(sheet->bytes, sheet->length, fields, UMV_FIELDS), UMV_OK, UMV_FIELDS));
    CHECK(memcmp(fields, expected, UMV_FIELDS * sizeof *fields) == 0);
    CHECK(fields[UMV_FIELDS] == before[UMV_FIELDS]);
}

void expect_sheet_refused(const uint8_t *bytes, size_t length, uint32_t number)
{
    uint16_t fields[UMV_FIELDS], before[UMV_FIELDS];
    memset(fields, 0x5a, sizeof fields);
    memset(before, 0x5a, sizeof before);
    CHECK(is_answer(read_sheet(bytes, length, fields, UMV_FIELDS), number, 0));
    CHECK(is_answer(read_sheet(bytes, length, fields, UMV_FIELDS - 1), number, 0));
    CHECK(memcmp(fields, before, sizeof fields) == 0);
    CHECK(sizes_refused(sizes_of(bytes, length), number));
    CHECK(channel_refused(channel_of(bytes, length, 1), number));
    CHECK(channel_refused(channel_of(bytes, length, 0), number));
}
