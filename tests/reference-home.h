/* Part of reference.c: coming home with soft values. */

/* The index of the first value that is no soft value, or `count`. A NaN meets no comparison. */
static size_t first_not_soft(const float *values, size_t count)
{
    size_t i = 0;
    while (i < count && values[i] >= -65536.0f && values[i] <= 65536.0f)
        i++;
    return i;
}

/* Step 9 undone where each PhCH had one value at its turn: the slot's values in the order in which their turns came. */
static void unmap_single(const struct slot *slot, const float *frame, float *values)
{
    const float *next[16];
    uint32_t left[16];
    for (uint32_t p = 0; p < slot->P; p++) {
        next[p] = p % 2 == 0 ? frame : frame + slot->U[p] - 1;
        left[p] = slot->U[p];
        frame += slot->U[p];
    }
    for (const float *end = values + slot->bits; values < end;)
        for (uint32_t p = 0; p < slot->P; p++)
            if (left[p] > 0) {
                *values++ = *next[p];
                next[p] += p % 2 == 0 ? 1 : -1;
                left[p]--;
            }
}

/* Step 9 of two codes in runs undone. */
static void unmap_runs(const struct slot *slot, const float *frame, float *values)
{
    const float *const middle = frame + slot->U[0], *up = frame, *down = frame + slot->bits;
    while (up < middle || down > middle) {
        for (uint32_t k = 0; k < slot->bs[0] && up < middle; k++)
            *values++ = *up++;
        for (uint32_t k = 0; k < slot->bs[1] && down > middle; k++)
            *values++ = *--down;
    }
}

static void unmap(const struct slot *slot, const float *frame, float *values)
{
    if (slot->bs[0] == slot->bs[1])
        unmap_single(slot, frame, values);
    else
        unmap_runs(slot, frame, values);
}

/* Step 8 undone. */
static void deinterleave(const float *values, size_t count, float *out)
{
    for (size_t j = 0; j < 30; j++)
        for (size_t k = second_order[j]; k < count; k += 30)
            out[k] = *values++;
}

/* Steps 9 and 8 undone. */
static void gather(const struct form *form, const float *frame, float *multiplexed)
{
    float interleaved[MOST];
    size_t first = 0; /* B_t: bits of the slots before, in one sub-frame */
    for (uint32_t t = 0; t < form->T; t++) {
        const struct slot *slot = &form->slots[t];
        for (uint32_t h = 0; h < form->K; h++)
            unmap(slot, frame + h * form->W + first, interleaved + part_start(form, slot, first, h));
        if (form->mode == 1)
            deinterleave(interleaved + form->K * first, form->K * slot->bits, multiplexed + form->K * first);
        first += slot->bits;
    }
    if (form->mode == 0)
        deinterleave(interleaved, form->D, multiplexed);
}

static const float bound = 1024.0f; /* of a joined value: what a decoder takes */

/* A value within the bound is kept bit for bit. */
static float clip(float value)
{
    return value > bound ? bound : value < -bound ? -bound : value;
}

/*
 * Step 6 undone: of the V values of the channel's part, `values` gets the joined value of each of the N bits of its
 * segment, `copies` how many there are of it. A sum starts from copy 0, so that of a value heard alone no bit changes
 * by adding, and is clipped after the last copy, so that on the way it may pass the bound and come back.
 */
static void join(const struct channel *c, uint32_t n, const float *part, float *values, uint32_t *copies)
{
    const int32_t fall = 2 * abs(c->d), growth = 2 * (int32_t)c->N;
    int32_t e = c->d == 0 ? 1 : start_of(c, n); /* with d = 0 it stays above 0 */
    for (uint32_t m = 0; m < c->N; m++) {
        e -= fall;
        if (c->d < 0 && e <= 0) {
            values[m] = 0.0f;
            copies[m] = 0;
            e += growth;
            continue;
        }
        float sum = *part++;
        copies[m] = 1;
        for (; e <= 0; e += growth) {
            sum += *part++;
            copies[m]++;
        }
        values[m] = clip(sum);
    }
}

/* The last lines of the table for a received frame: 11 if it or another lent slice has a wrong length, 12. */
static uint32_t check_soft(const struct form *form, const float *frame, size_t frame_len, int lengths_hold,
                           uint64_t *at)
{
    if (frame_len != form->D || !lengths_hold)
        return 11;
    size_t bad = first_not_soft(frame, frame_len);
    if (bad == frame_len)
        return 0;
    *at = bad;
    return 12;
}

uint32_t ref_gather(const uint8_t *sheet, size_t sheet_len, const float *frame, size_t frame_len, float *multiplexed,
                    size_t multiplexed_len, uint64_t *at)
{
    struct form form;
    *at = 0;
    uint32_t number = open_sheet(sheet, sheet_len, &form);
    if (number == 0)
        number = check_soft(&form, frame, frame_len, multiplexed_len == form.D, at);
    if (number != 0)
        return number;
    gather(&form, frame, multiplexed);
    *at = form.D;
    return 0;
}

uint32_t ref_take_back(const uint8_t *sheet, size_t sheet_len, uint32_t frame_number, const float *frame,
                       size_t frame_len, float *joined, size_t joined_len, uint64_t *at)
{
    struct form form;
    float multiplexed[MOST];
    uint32_t copies[MOST];
    *at = 0;
    uint32_t number = open_sheet(sheet, sheet_len, &form);
    if (number == 0)
        number = frame_number > 255 ? 9 : check_soft(&form, frame, frame_len, joined_len == form.joined, at);
    if (number != 0)
        return number;
    gather(&form, frame, multiplexed);
    for (uint32_t i = 0; i < form.I; i++) {
        const struct channel *c = &form.channels[i];
        uint32_t n = frame_number % c->F;
        join(c, n, multiplexed + c->Z - c->V, joined + n * c->N, copies);
        joined += c->F * c->N;
        *at += c->N;
    }
    return 0;
}

uint32_t ref_finish(const uint8_t *sheet, size_t sheet_len, uint32_t trch, const float *joined, size_t joined_len,
                    float *coded, size_t coded_len, uint64_t *at)
{
    struct form form;
    *at = 0;
    const struct channel *c;
    uint32_t number = open_channel(sheet, sheet_len, trch, &form, &c);
    if (number != 0)
        return number;
    if (joined_len != form.joined || coded_len != c->E)
        return 11;
    for (uint32_t i = 0; i < trch - 1; i++)
        joined += form.channels[i].F * form.channels[i].N;
    for (uint32_t n = 0; n < c->F; n++)
        for (uint32_t m = 0; m < c->N; m++) {
            uint32_t bit = m * c->F + first_order[c->TTI][n];
            if (bit < c->E) /* the others are fillers */
                coded[bit] = joined[n * c->N + m];
        }
    *at = c->E;
    return 0;
}

/* 11 or 12, or of the channel's segment in this frame the N joined values and how many copies each has. */
static uint32_t listen(const struct form *form, const struct channel *c, uint32_t frame_number, const float *frame,
                       size_t frame_len, uint64_t *at, float *values, uint32_t *copies)
{
    float multiplexed[MOST];
    uint32_t number = check_soft(form, frame, frame_len, 1, at);
    if (number != 0)
        return number;
    gather(form, frame, multiplexed);
    join(c, frame_number % c->F, multiplexed + c->Z - c->V, values, copies);
    return 0;
}

uint32_t ref_heard(const uint8_t *sheet, size_t sheet_len, uint32_t frame_number, const float *frame, size_t frame_len,
                   uint32_t trch, uint32_t bit, uint64_t *at, float *value, uint64_t *copies)
{
    struct form form;
    float values[MOST];
    uint32_t counts[MOST];
    *at = *copies = 0;
    *value = 0.0f;
    uint32_t number = open_frame(sheet, sheet_len, frame_number, &form);
    if (number != 0)
        return number;
    const struct channel *c = channel_of(&form, trch);
    if (c == NULL || bit < 1 || bit > c->N)
        return 10;
    number = listen(&form, c, frame_number, frame, frame_len, at, values, counts);
    if (number != 0)
        return number;
    *value = values[bit - 1];
    *copies = counts[bit - 1];
    return 0;
}

/* The link record of one channel's N joined values. */
static void record(uint32_t N, const float *values, const uint32_t *copies, float *least, float *greatest,
                   uint64_t *punctured)
{
    int heard = 0;
    for (uint32_t m = 0; m < N; m++) {
        float magnitude = fabsf(values[m]);
        if (copies[m] == 0) {
            ++*punctured;
            continue;
        }
        if (!heard || magnitude < *least)
            *least = magnitude;
        if (!heard || magnitude > *greatest)
            *greatest = magnitude;
        heard = 1;
    }
}

uint32_t ref_link(const uint8_t *sheet, size_t sheet_len, uint32_t frame_number, const float *frame, size_t frame_len,
                  uint32_t trch, uint64_t *at, float *least, float *greatest, uint64_t *punctured)
{
    struct form form;
    float values[MOST];
    uint32_t copies[MOST];
    *at = *punctured = 0;
    *least = *greatest = 0.0f;
    uint32_t number = open_frame(sheet, sheet_len, frame_number, &form);
    if (number != 0)
        return number;
    const struct channel *c = channel_of(&form, trch);
    if (c == NULL)
        return 10;
    number = listen(&form, c, frame_number, frame, frame_len, at, values, copies);
    if (number == 0)
        record(c->N, values, copies, least, greatest, punctured);
    return number;
}
