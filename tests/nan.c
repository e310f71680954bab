/*
 * nan: a NaN's sign, quiet bit and payload come through wherever a call moves values or leaves them as they were. The contracts
 * are over floats with one NaN and cannot say this: it is tested, not proved. No NaN is loaded as a float here, since that may
 * quiet it.
 */
#include <stdio.h>
#include <string.h>

#include "check.h"
#include "ummervia.h"

enum {
    CHANNELS = 5, /* F = 1, 2, 4, 8, and one without bits */
    FRAMES = 8,   /* of the longest TTI */
    KINDS = 4,    /* of a NaN: its sign and its quiet bit */
    MOST = 100    /* values lent, and one too many */
};

/* ---- The sheet at work ---- */

static uint8_t sheet[UMV_SHEET_MOST];
static size_t sheet_len;
static uint64_t capacity, joined;

static struct channel {
    uint64_t f, e, n, v;
    size_t in_joined; /* where it begins */
} channels[CHANNELS];

/* Two slots, of two PhCHs and of one; in uplink the first two have runs of 2 and 1. */
static void make_sheet(uint16_t mode, uint16_t uplink, uint16_t lcr, const uint16_t *capacities)
{
    static const uint16_t tti[CHANNELS] = {0, 1, 2, 3, 1}, encoded[CHANNELS] = {5, 13, 31, 43, 0};
    uint16_t fields[UMV_FIELDS] = {[UMV_FIELD_VERSION] = 1, [UMV_FIELD_CHANNELS] = CHANNELS, [UMV_FIELD_SLOTS] = 2};
    uint64_t length = 0, count, slots, contents;
    size_t in_joined = 0;
    fields[UMV_FIELD_MODE] = mode;
    fields[UMV_FIELD_UPLINK] = uplink;
    fields[UMV_FIELD_LCR] = lcr;
    fields[UMV_FIELD_LOGARITHMS + 1] = uplink;
    for (unsigned i = 0; i < CHANNELS; i++) {
        fields[UMV_FIELD_TTI + i] = tti[i];
        fields[UMV_FIELD_E + i] = encoded[i];
        fields[UMV_FIELD_RM + i] = 1;
    }
    fields[UMV_FIELD_PHCHS] = 2;
    fields[UMV_FIELD_PHCHS + 1] = 1;
    fields[UMV_FIELD_CAPACITIES] = capacities[0];
    fields[UMV_FIELD_CAPACITIES + 1] = capacities[1];
    fields[UMV_FIELD_CAPACITIES + 16] = capacities[2];
    CHECK(umv_sheet_length(fields, UMV_FIELDS, &length) == UMV_OK);
    sheet_len = length;
    CHECK(umv_sheet_write(fields, UMV_FIELDS, sheet, sheet_len, &length) == UMV_OK);
    CHECK(umv_sizes(sheet, sheet_len, &count, &slots, &contents, &capacity, &joined) == UMV_OK);
    for (uint32_t i = 0; i < CHANNELS; i++) {
        struct channel *c = &channels[i];
        CHECK(umv_channel(sheet, sheet_len, i + 1, &c->f, &c->e, &c->n, &c->v) == UMV_OK);
        c->in_joined = in_joined;
        in_joined += c->f * c->n;
    }
    CHECK(capacity < MOST && joined < MOST && in_joined == joined);
}

/* ---- NaNs as bits ---- */

static uint32_t nans[MOST]; /* all different; each four that follow one another are of every kind */
static float frame[MOST], lent[MOST];

static void make_nans(void)
{
    for (uint32_t i = 0; i < MOST; i++)
        nans[i] = i % 2 << 31 | 0x7f800000 | i / 2 % 2 << 22 | ((i + 1) * 0x9e37 & 0x3fffff);
}

static bool is_nan(const float *value, uint32_t nan)
{
    return memcmp(value, &nan, sizeof nan) == 0;
}

/* Many of them are clipped, beside NaNs that stay. */
static void fill_frame(void)
{
    for (size_t i = 0; i < MOST; i++)
        frame[i] = 99 * ((float)i - 8.5f);
}

static void fill_lent(void)
{
    memcpy(lent, nans, sizeof lent);
}

static bool lent_kept(void)
{
    return memcmp(lent, nans, sizeof lent) == 0;
}

/* ---- Accepted calls ---- */

/* Numbers that go through the same call show where each value goes. */
static void test_finish(void)
{
    for (uint32_t i = 0; i < CHANNELS; i++) {
        const struct channel *c = &channels[i];
        float coded[MOST];
        uint32_t from[MOST];
        uint64_t at;
        for (size_t k = 0; k < joined; k++)
            lent[k] = (float)k;
        CHECK(umv_finish(sheet, sheet_len, i + 1, lent, joined, coded, c->e, &at) == UMV_OK && at == c->e);
        for (size_t k = 0; k < c->e; k++)
            from[k] = (uint32_t)coded[k];
        fill_lent();
        CHECK(umv_finish(sheet, sheet_len, i + 1, lent, joined, coded, c->e, &at) == UMV_OK && at == c->e);
        for (size_t k = 0; k < c->e; k++)
            CHECK(from[k] < joined && is_nan(&coded[k], nans[from[k]]));
        CHECK(lent_kept());
    }
}

/* Whether index k of the joined values lies in a segment of this frame. */
static bool in_segment(uint32_t frame_number, size_t k)
{
    for (const struct channel *c = channels; c < channels + CHANNELS; c++) {
        size_t start = c->in_joined + frame_number % c->f * c->n;
        if (k >= start && k < start + c->n)
            return true;
    }
    return false;
}

static void test_take_back(uint32_t frame_number)
{
    uint64_t at;
    fill_frame();
    fill_lent();
    CHECK(umv_take_back(sheet, sheet_len, frame_number, frame, capacity, lent, joined, &at) == UMV_OK);
    for (size_t k = 0; k < MOST; k++)
        CHECK(is_nan(&lent[k], nans[k]) == !in_segment(frame_number, k));
}

/* ---- Refused calls ---- */

static void refuse_gather(size_t frame_len, size_t lent_len, uint32_t number, uint64_t index)
{
    uint64_t at = MOST;
    fill_lent();
    CHECK(umv_gather(sheet, sheet_len, frame, frame_len, lent, lent_len, &at) == number && at == index);
    CHECK(lent_kept());
}

static void refuse_take_back(uint32_t frame_number, size_t frame_len, size_t lent_len, uint32_t number, uint64_t index)
{
    uint64_t at = MOST;
    fill_lent();
    CHECK(umv_take_back(sheet, sheet_len, frame_number, frame, frame_len, lent, lent_len, &at) == number && at == index);
    CHECK(lent_kept());
}

static void refuse_finish(uint32_t trch, size_t joined_len, size_t lent_len, uint32_t number)
{
    uint64_t at = MOST;
    fill_lent();
    CHECK(umv_finish(sheet, sheet_len, trch, frame, joined_len, lent, lent_len, &at) == number && at == 0);
    CHECK(lent_kept());
}

static void test_form(void)
{
    sheet[1] ^= 1; /* the spare bit */
    refuse_gather(capacity, capacity, UMV_FORM, 0);
    refuse_take_back(0, capacity, joined, UMV_FORM, 0);
    refuse_finish(1, joined, channels[0].e, UMV_FORM);
    sheet[1] ^= 1;
}

static void test_absent(void)
{
    refuse_take_back(256, capacity, joined, UMV_FRAME_NUMBER, 0);
    refuse_finish(0, joined, channels[0].e, UMV_ABSENT);
    refuse_finish(CHANNELS + 1, joined, channels[0].e, UMV_ABSENT);
}

static void test_lengths(void)
{
    for (int off = -1; off <= 1; off += 2) {
        refuse_gather(capacity + off, capacity, UMV_LENGTH, 0);
        refuse_gather(capacity, capacity + off, UMV_LENGTH, 0);
        refuse_take_back(0, capacity + off, joined, UMV_LENGTH, 0);
        refuse_take_back(0, capacity, joined + off, UMV_LENGTH, 0);
        refuse_finish(1, joined + off, channels[0].e, UMV_LENGTH);
        refuse_finish(1, joined, channels[0].e + off, UMV_LENGTH);
    }
}

/* One NaN in the frame, at this index. */
static void test_content(uint32_t frame_number, uint64_t index)
{
    refuse_gather(capacity, capacity, UMV_CONTENT, index);
    refuse_take_back(frame_number, capacity, joined, UMV_CONTENT, index);
    for (uint32_t i = 0; i < CHANNELS; i++) {
        uint64_t at = MOST, count = 1;
        float value = 1, least = 1, greatest = 1;
        CHECK(umv_link(sheet, sheet_len, frame_number, frame, capacity, i + 1, &at, &least, &greatest, &count) == UMV_CONTENT);
        CHECK(at == index && least == 0 && greatest == 0 && count == 0);
        if (channels[i].n == 0)
            continue;
        at = MOST, count = 1;
        CHECK(umv_heard(sheet, sheet_len, frame_number, frame, capacity, i + 1, 1, &at, &value, &count) == UMV_CONTENT);
        CHECK(at == index && value == 0 && count == 0);
    }
}

static void test_contents(void)
{
    for (size_t index = 0; index < capacity; index++)
        for (size_t kind = 0; kind < KINDS; kind++) {
            fill_frame();
            memcpy(&frame[index], &nans[kind], sizeof nans[kind]);
            test_content((uint32_t)index % FRAMES, index);
        }
}

static void test_sheet(void)
{
    test_finish();
    for (uint32_t frame_number = 0; frame_number < FRAMES; frame_number++)
        test_take_back(frame_number);
    test_take_back(255);
    test_form();
    test_absent();
    test_lengths();
    test_contents();
}

int main(void)
{
    /* Of each rate, at 3.84 Mcps and of each sub-frame of 1.28 Mcps. */
    static const uint16_t capacities[3][2][3] = {{{3, 4, 10}, {2, 1, 5}}, {{5, 9, 12}, {4, 5, 4}}, {{20, 19, 21}, {10, 9, 11}}};
    static const char *const rates[3] = {"punctured", "as it is", "repeated"};
    static char name[60];
    make_nans();
    for (int rate = 0; rate < 3; rate++)
        for (uint16_t way = 0; way < 8; way++) {
            uint16_t mode = way % 2, uplink = way / 2 % 2, lcr = way / 4;
            snprintf(name, sizeof name, "%s, mode %d, uplink %d, 1.28 Mcps %d", rates[rate], mode, uplink, lcr);
            subject = name;
            make_sheet(mode, uplink, lcr, capacities[rate][lcr]);
            test_sheet();
        }
    return report("nan");
}
