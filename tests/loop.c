/*
 * loop: step 9 by the loop of document 004, subclause 4.2.12.2.1, line by line as it is printed there, beside the library and
 * the reference. Every uplink slot of one or two codes with up to MOST places each, of all spreading factors, and some downlink
 * slots are gathered by both, and the smaller ones named by the library; each place must hold the bit that the loop puts there.
 * Each slot is the only one of a frame of one sub-frame, and of one of two (1.28 Mcps), in each of which the loop starts anew.
 */
#include "check.h"
#include "fields.h"
#include "implementation.h"

enum {
    MOST = 37,  /* two whole runs of 16 bits and a cut one */
    NAMED = 18, /* places of a code, of which all are named */
    CODES = 16,
    ALL = UMV_SUBFRAMES_MOST * 2 * MOST /* places of a frame */
};

/* All counted from 1, as in the document: capacity and consecutive bits of each code; the code and the place of bit k. */
struct slot {
    uint32_t P, U[CODES + 1], bs[CODES + 1];
    struct {
        uint32_t p, pos;
    } w[2 * MOST + 1];
};

static void map(struct slot *slot)
{
    const uint32_t Pt = slot->P, *Ut = slot->U, *bs = slot->bs;
    uint32_t fb[CODES + 1], all = 0, p, pos;
    for (p = 1; p <= Pt; p++) {
        fb[p] = 0;
        all += Ut[p];
    }
    p = 1;
    for (uint32_t k = 1; k <= all; k++) {
        while (fb[p] == Ut[p])
            p = (p % Pt) + 1;
        if (p % 2 == 0)
            pos = Ut[p] - fb[p];
        else
            pos = fb[p] + 1;
        slot->w[k].p = p;
        slot->w[k].pos = pos;
        fb[p] = fb[p] + 1;
        if (fb[p] % bs[p] == 0)
            p = (p % Pt) + 1;
    }
}

/* ---- The sheet of one slot, with one channel whose bits are each sent once, in their order ---- */

static uint8_t sheet[UMV_SHEET_FORM_MOST];
static size_t sheet_len;
static uint32_t places, all; /* of the slot, and of the frame */

static void make_sheet(const struct slot *slot, uint16_t uplink, uint16_t lcr, const uint16_t *logs)
{
    uint16_t fields[UMV_FIELDS] = {[UMV_FIELD_VERSION] = 1, [UMV_FIELD_CHANNELS] = 1, [UMV_FIELD_SLOTS] = 1, [UMV_FIELD_RM] = 1};
    fields[UMV_FIELD_UPLINK] = uplink;
    fields[UMV_FIELD_LCR] = lcr;
    fields[UMV_FIELD_PHCHS] = (uint16_t)slot->P;
    places = 0;
    for (uint32_t p = 1; p <= slot->P; p++) {
        fields[UMV_FIELD_CAPACITIES + p - 1] = (uint16_t)slot->U[p];
        fields[UMV_FIELD_LOGARITHMS + p - 1] = logs[p - 1];
        places += slot->U[p];
    }
    fields[UMV_FIELD_MODE] = places % 2; /* both give one and the same frame of a single slot */
    all = (lcr + 1u) * places;
    fields[UMV_FIELD_E] = (uint16_t)all;
    sheet_len = (pack(fields, sheet) + 7) / 8;
}

/* Gathers places that hold their own indices: what comes for each bit, from 0, is the index of its place. */
static void gather(const struct implementation *tested, float *indices)
{
    float frame[ALL];
    uint64_t at;
    for (uint32_t i = 0; i < all; i++)
        frame[i] = (float)i;
    CHECK(tested->gather(sheet, sheet_len, frame, all, indices, all, &at) == UMV_OK && at == all);
}

/* In which turn of a frame with so many places each bit comes, from 0: it is the place that it has in a single code. */
static float turns[ALL + 1][ALL];

static void learn_turns(void)
{
    static const uint16_t none[1] = {0};
    for (uint32_t count = 1; count <= ALL; count++) {
        struct slot single = {.P = 1, .U = {0, count}};
        make_sheet(&single, 0, 0, none);
        gather(&reference, turns[count]);
    }
}

/* The index in the slot of the place that bit k goes to. */
static uint32_t index_of(const struct slot *slot, uint32_t k)
{
    uint32_t index = slot->w[k].pos - 1;
    for (uint32_t p = 1; p < slot->w[k].p; p++)
        index += slot->U[p];
    return index;
}

static void compare_frame(const struct slot *slot, uint16_t uplink, uint16_t lcr, const uint16_t *logs)
{
    float ours[ALL], theirs[ALL];
    uint64_t trch, bit, copy;
    make_sheet(slot, uplink, lcr, logs);
    gather(&library, ours);
    gather(&reference, theirs);
    for (uint32_t b = 0; b < all; b++) {
        uint32_t turn = (uint32_t)turns[all][b], h = turn / places, k = turn % places + 1;
        CHECK(ours[b] == (float)(h * places + index_of(slot, k)));
        CHECK(theirs[b] == (float)(h * places + index_of(slot, k)));
        if (slot->U[1] > NAMED || slot->U[slot->P] > NAMED)
            continue;
        CHECK(umv_name(sheet, sheet_len, 0, h + 1, 1, slot->w[k].p, slot->w[k].pos, &trch, &bit, &copy) == UMV_OK);
        CHECK(trch == 1 && bit == b + 1 && copy == 0);
    }
}

static void compare(struct slot *slot, uint16_t uplink, const uint16_t *logs)
{
    map(slot);
    compare_frame(slot, uplink, 0, logs);
    compare_frame(slot, uplink, 1, logs);
}

/* "The following rule is applied": two codes of these spreading factors. */
static void set_runs(struct slot *slot, uint32_t SF1, uint32_t SF2)
{
    if (SF1 >= SF2) {
        slot->bs[1] = 1;
        slot->bs[2] = SF1 / SF2;
    } else {
        slot->bs[1] = SF2 / SF1;
        slot->bs[2] = 1;
    }
}

static void compare_uplink(void)
{
    for (uint16_t pair = 0; pair < 25; pair++) {
        const uint16_t logs[2] = {pair / 5, pair % 5};
        struct slot one = {.P = 1, .bs = {0, 1}}, two = {.P = 2};
        set_runs(&two, 1u << logs[0], 1u << logs[1]);
        for (two.U[1] = 1; two.U[1] <= MOST; two.U[1]++) {
            one.U[1] = two.U[1];
            compare(&one, 1, logs);
            for (two.U[2] = 1; two.U[2] <= MOST; two.U[2]++)
                compare(&two, 1, logs);
        }
    }
}

/* In downlink bs is 1 for all physical channels. */
static void compare_downlink(void)
{
    static const uint16_t none[CODES] = {0};
    struct slot slot = {.P = 0};
    for (uint32_t p = 1; p <= CODES; p++)
        slot.bs[p] = 1;
    for (slot.P = 1; slot.P <= CODES; slot.P++)
        for (uint32_t kind = 0; kind < 2 * MOST; kind++) {
            for (uint32_t p = 1; p <= CODES; p++)
                slot.U[p] = (kind * p + kind / 5) % 4 + 1;
            compare(&slot, 0, none);
        }
}

int main(void)
{
    learn_turns();
    compare_uplink();
    compare_downlink();
    return report("loop");
}
