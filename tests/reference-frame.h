/* Part of reference.c: from bits to burst, and the name of a place. */

static int32_t floor_div(int32_t a, int32_t b)
{
    return a / b - (a % b != 0 && (a < 0) != (b < 0));
}

static int32_t gcd(int32_t a, int32_t b)
{
    while (b != 0) {
        int32_t rest = a % b;
        a = b;
        b = rest;
    }
    return a;
}

/* Step 5, for d not 0: e before the first bit of frame n. */
static int32_t start_of(const struct channel *c, uint32_t n)
{
    const int32_t F = (int32_t)c->F, N = (int32_t)c->N;
    const int32_t R = c->d - N * floor_div(c->d, N);
    const int32_t q = -floor_div(-N, R != 0 && 2 * R <= N ? R : R - N); /* a ceiling */
    const int32_t g = q % 2 == 0 ? gcd(abs(q), F) : 0;                  /* q' = q + g/F = (qF + g)/F */
    uint64_t S[8];
    for (int32_t x = 0; x < F; x++) {
        int32_t y = abs(floor_div(x * (q * F + g), F));
        S[y % F] = (uint64_t)(y / F);
    }
    return (int32_t)((2 * S[first_order[c->TTI][n]] * (uint64_t)abs(c->d) + 1) % (2 * c->N));
}

/* Where among the interleaved values of a frame sub-frame h has those of a slot, behind slots of `first` bits. */
static size_t part_start(const struct form *form, const struct slot *slot, size_t first, uint32_t h)
{
    return form->mode == 0 ? h * form->W + first : form->K * first + h * slot->bits;
}

#define VALUE uint8_t
#define STEP(name) name##_bytes
#include "reference-steps.h"

#define VALUE uint32_t
#define STEP(name) name##_labels
#include "reference-steps.h"

/* Steps 1 to 3: of the channel's E bits and its fillers, in rows of F, the column that frame n reads. */
static void take_segment(const struct channel *c, uint32_t n, const uint8_t *contents, uint8_t *segment)
{
    const uint32_t E = c->E, F = c->F, N = c->N;
    uint32_t bit = first_order[c->TTI][n];
    for (uint32_t m = 0; m < N; m++, bit += F)
        segment[m] = bit < E ? contents[bit] : 0;
}

/* Steps 1 to 7. */
static void multiplex(const struct form *form, uint32_t frame_number, const uint8_t *contents, uint8_t *multiplexed)
{
    uint8_t segment[MOST];
    for (uint32_t i = 0; i < form->I; i++) {
        const struct channel *c = &form->channels[i];
        uint32_t n = frame_number % c->F;
        take_segment(c, n, contents, segment);
        multiplexed = match_bytes(c, n, segment, multiplexed);
        contents += c->E;
    }
}

/* The index of the first byte that is no bit, or `count`. */
static size_t first_no_bit(const uint8_t *bytes, size_t count)
{
    size_t i = 0;
    while (i < count && bytes[i] <= 1)
        i++;
    return i;
}

/* What ref_build and ref_multiplex refuse in common; both write D values. */
static uint32_t check_contents(const uint8_t *sheet, size_t sheet_len, uint32_t frame_number, const uint8_t *contents,
                               size_t contents_len, size_t written_len, struct form *form, uint64_t *at)
{
    *at = 0;
    uint32_t number = open_sheet(sheet, sheet_len, form);
    if (number != 0)
        return number;
    if (frame_number > 255)
        return 9;
    if (contents_len != form->contents || written_len != form->D)
        return 11;
    size_t bad = first_no_bit(contents, contents_len);
    *at = bad < contents_len ? bad : form->D;
    return bad < contents_len ? 12 : 0;
}

uint32_t ref_multiplex(const uint8_t *sheet, size_t sheet_len, uint32_t frame_number, const uint8_t *contents,
                       size_t contents_len, uint8_t *multiplexed, size_t multiplexed_len, uint64_t *at)
{
    struct form form;
    uint32_t number =
        check_contents(sheet, sheet_len, frame_number, contents, contents_len, multiplexed_len, &form, at);
    if (number == 0)
        multiplex(&form, frame_number, contents, multiplexed);
    return number;
}

uint32_t ref_build(const uint8_t *sheet, size_t sheet_len, uint32_t frame_number, const uint8_t *contents,
                   size_t contents_len, uint8_t *frame, size_t frame_len, uint64_t *at)
{
    struct form form;
    uint8_t multiplexed[MOST];
    uint32_t number = check_contents(sheet, sheet_len, frame_number, contents, contents_len, frame_len, &form, at);
    if (number != 0)
        return number;
    multiplex(&form, frame_number, contents, multiplexed);
    spread_bytes(&form, multiplexed, frame);
    return 0;
}

uint32_t ref_spread(const uint8_t *sheet, size_t sheet_len, const uint8_t *multiplexed, size_t multiplexed_len,
                    uint8_t *frame, size_t frame_len, uint64_t *at)
{
    struct form form;
    *at = 0;
    uint32_t number = open_sheet(sheet, sheet_len, &form);
    if (number != 0)
        return number;
    if (multiplexed_len != form.D || frame_len != form.D)
        return 11;
    size_t bad = first_no_bit(multiplexed, multiplexed_len);
    *at = bad;
    if (bad < multiplexed_len)
        return 12;
    spread_bytes(&form, multiplexed, frame);
    return 0;
}

/* ---- The name of a place: the frame is built of labels, and the place looked up ---- */

/*
 * A label holds a channel and a bit (before step 2, from 1) of it: (channel << 16) + bit. A bit's copies have the same
 * label and lie side by side in the multiplexed frame, so that the copy is the count of equal ones directly before.
 */
static void multiplex_labels(const struct form *form, uint32_t frame_number, uint32_t *labels, uint32_t *copies)
{
    uint32_t segment[MOST], *end = labels;
    for (uint32_t i = 0; i < form->I; i++) {
        const struct channel *c = &form->channels[i];
        uint32_t n = frame_number % c->F;
        for (uint32_t m = 0; m < c->N; m++)
            segment[m] = ((i + 1) << 16) + m * c->F + first_order[c->TTI][n] + 1;
        end = match_labels(c, n, segment, end);
    }
    for (uint32_t k = 0; k < form->D; k++)
        copies[k] = k > 0 && labels[k] == labels[k - 1] ? copies[k - 1] + 1 : 0;
}

/* The index in the frame of a place, which is counted from 1 as all before it are; MOST if it does not exist. */
static uint32_t index_of(const struct form *form, uint32_t subframe, uint32_t slot, uint32_t phch, uint32_t place)
{
    uint32_t index = (subframe - 1) * form->W + place - 1;
    if (subframe < 1 || subframe > form->K)
        return MOST;
    if (slot < 1 || slot > form->T || phch < 1 || phch > form->slots[slot - 1].P)
        return MOST;
    if (place < 1 || place > form->slots[slot - 1].U[phch - 1])
        return MOST;
    for (uint32_t t = 0; t < slot - 1; t++)
        index += form->slots[t].bits;
    for (uint32_t p = 0; p < phch - 1; p++)
        index += form->slots[slot - 1].U[p];
    return index;
}

uint32_t ref_name(const uint8_t *sheet, size_t sheet_len, uint32_t frame_number, uint32_t subframe, uint32_t slot,
                  uint32_t phch, uint32_t place, uint64_t *trch, uint64_t *bit, uint64_t *copy)
{
    struct form form;
    uint32_t multiplexed[MOST], copies[MOST], frame[MOST];
    *trch = *bit = *copy = 0;
    uint32_t number = open_frame(sheet, sheet_len, frame_number, &form);
    if (number != 0)
        return number;
    uint32_t index = index_of(&form, subframe, slot, phch, place);
    if (index == MOST)
        return 10;
    multiplex_labels(&form, frame_number, multiplexed, copies);
    spread_labels(&form, multiplexed, frame);
    *trch = frame[index] >> 16;
    *bit = frame[index] & 0xffff;
    spread_labels(&form, copies, frame);
    *copy = frame[index];
    return 0;
}
