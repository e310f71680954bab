/* What calls.c and refusals.c ask of the calls that take a sheet or its fields and lend no frame. */
#ifndef SHEETS_H
#define SHEETS_H

#include "check.h"
#include "fields.h"

/* Calls with their answers by value; before the call an answer holds what no call answers. */
struct answer {
    uint32_t number;
    uint64_t at;
};

struct sizes {
    uint32_t number;
    uint64_t channels, slots, contents, capacity, joined;
};

struct channel {
    uint32_t number;
    uint64_t f, e, n, v;
};

struct answer read_sheet(const uint8_t *sheet, size_t sheet_len, uint16_t *fields, size_t fields_len);
struct answer length_of(const uint16_t *fields, size_t fields_len);
struct answer write_sheet(const uint16_t *fields, size_t fields_len, uint8_t *sheet, size_t sheet_len);
struct sizes sizes_of(const uint8_t *sheet, size_t sheet_len);
struct channel channel_of(const uint8_t *sheet, size_t sheet_len, uint32_t trch);

/* Whether they are accepted with these values, or refused with zeros. */
bool is_answer(struct answer a, uint32_t number, uint64_t at);
bool is_sizes(struct sizes a, uint64_t channels, uint64_t slots, uint64_t contents, uint64_t capacity, uint64_t joined);
bool is_channel(struct channel a, uint64_t f, uint64_t e, uint64_t n, uint64_t v);
bool sizes_refused(struct sizes a, uint32_t number);
bool channel_refused(struct channel a, uint32_t number);

/* Sheets and fields made apart from the library. */
struct sheet {
    uint8_t bytes[1024];
    size_t length;
};

/* From hex digits, blanks between them. */
struct sheet sheet_of(const char *hex);

/* From fields in their ranges. */
struct sheet sheet_with(const uint16_t *fields);

/* 3 channels, 4 slots of 1, 3, 16 and 2 PhCHs, zeros past the counts. */
void make_fields(uint16_t *fields);

/* The same channels in uplink: 4 slots of 1, 2, 2 and 1 codes, with each logarithm once at least. */
void make_uplink(uint16_t *fields);

/* make_fields at 1.28 Mcps. */
void make_lcr(uint16_t *fields);

/* The longest that is accepted: 16 channels, 15 slots, 16 PhCHs each, and with `capacity` 250 just 60,000 bits. */
void make_longest(uint16_t *fields, uint16_t capacity);

/* The longest of 1.28 Mcps: the same channels, 7 slots, 16 PhCHs each, and just 30,000 bits in each sub-frame. */
void make_longest_lcr(uint16_t *fields);

/* These fields draw `number` from both calls that take fields, whatever room is lent, and nothing is written. */
void expect_fields_refused(const uint16_t *fields, uint32_t number);

/* These fields are accepted and have exactly this sheet; any other room for it draws 11. */
void expect_fields_written(const uint16_t *fields, const struct sheet *expected);

/* This sheet is accepted and has exactly these fields; any other room for them draws 11. */
void expect_sheet_read(const struct sheet *sheet, const uint16_t *expected);

/* These bytes draw `number` from every call that takes a sheet, even where 10 or 11 would apply too. */
void expect_sheet_refused(const uint8_t *bytes, size_t length, uint32_t number);

/* The tests of refusals.c. */
void test_refusals(void);

#endif
