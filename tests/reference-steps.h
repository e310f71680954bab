/*
 * Steps 6, 8 and 9 of document 01, which move values without looking at them. reference-frame.h includes this once for each
 * kind of value: VALUE is its type, STEP(x) the name of function x for it.
 */

/* Step 6, for d not 0: what is left of the segment's N values is written from `out` on. Answers the end of it. */
static VALUE *STEP(puncture)(const struct channel *c, int32_t e, const VALUE *segment, VALUE *out)
{
    const int32_t fall = -2 * c->d, growth = 2 * (int32_t)c->N;
    for (const VALUE *end = segment + c->N; segment < end; segment++) {
        e -= fall;
        if (e <= 0)
            e += growth;
        else
            *out++ = *segment;
    }
    return out;
}

static VALUE *STEP(repeat)(const struct channel *c, int32_t e, const VALUE *segment, VALUE *out)
{
    const int32_t fall = 2 * c->d, growth = 2 * (int32_t)c->N;
    for (const VALUE *end = segment + c->N; segment < end; segment++) {
        const VALUE value = *segment;
        *out++ = value;
        for (e -= fall; e <= 0; e += growth)
            *out++ = value;
    }
    return out;
}

/* Steps 5 and 6: the V values of the segment that channel c has in frame n of its TTI. */
static VALUE *STEP(match)(const struct channel *c, uint32_t n, const VALUE *segment, VALUE *out)
{
    if (c->d < 0)
        return STEP(puncture)(c, start_of(c, n), segment, out);
    if (c->d > 0)
        return STEP(repeat)(c, start_of(c, n), segment, out);
    memcpy(out, segment, c->N * sizeof *out);
    return out + c->N;
}

/* Step 8 on `count` values. */
static void STEP(interleave)(const VALUE *values, size_t count, VALUE *out)
{
    for (size_t j = 0; j < 30; j++)
        for (size_t k = second_order[j]; k < count; k += 30)
            *out++ = values[k];
}

/* Step 9 where each PhCH takes one value at its turn: to the PhCHs in turn, full ones passed over. */
static void STEP(map_single)(const struct slot *slot, const VALUE *values, VALUE *frame)
{
    const uint32_t P = slot->P;
    VALUE *next[16];   /* the place that each PhCH fills next */
    uint32_t left[16]; /* how many places of it are free */
    for (uint32_t p = 0; p < P; p++) {
        next[p] = p % 2 == 0 ? frame : frame + slot->U[p] - 1; /* PhCH p + 1: odd ones fill upwards */
        left[p] = slot->U[p];
        frame += slot->U[p];
    }
    for (const VALUE *end = values + slot->bits; values < end;)
        for (uint32_t p = 0; p < P; p++)
            if (left[p] > 0) {
                *next[p] = *values++;
                next[p] += p % 2 == 0 ? 1 : -1;
                left[p]--;
            }
}

/* Step 9 of two codes in runs. The first fills upwards from the slot's start, the second downwards from its end. */
static void STEP(map_runs)(const struct slot *slot, const VALUE *values, VALUE *frame)
{
    VALUE *const middle = frame + slot->U[0], *up = frame, *down = frame + slot->bits;
    while (up < middle || down > middle) {
        for (uint32_t k = 0; k < slot->bs[0] && up < middle; k++)
            *up++ = *values++;
        for (uint32_t k = 0; k < slot->bs[1] && down > middle; k++)
            *--down = *values++;
    }
}

static void STEP(map)(const struct slot *slot, const VALUE *values, VALUE *frame)
{
    if (slot->bs[0] == slot->bs[1])
        STEP(map_single)(slot, values, frame);
    else
        STEP(map_runs)(slot, values, frame);
}

/* Steps 8 and 9: the multiplexed values of a frame to their places, each slot in each sub-frame by itself. */
static void STEP(spread)(const struct form *form, const VALUE *multiplexed, VALUE *frame)
{
    VALUE interleaved[MOST];
    size_t first = 0; /* B_t: bits of the slots before, in one sub-frame */
    if (form->mode == 0)
        STEP(interleave)(multiplexed, form->D, interleaved);
    for (uint32_t t = 0; t < form->T; t++) {
        const struct slot *slot = &form->slots[t];
        if (form->mode == 1)
            STEP(interleave)(multiplexed + form->K * first, form->K * slot->bits, interleaved + form->K * first);
        for (uint32_t h = 0; h < form->K; h++)
            STEP(map)(slot, interleaved + part_start(form, slot, first, h), frame + h * form->W + first);
        first += slot->bits;
    }
}

#undef VALUE
#undef STEP
