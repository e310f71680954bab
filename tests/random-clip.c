/*
 * Part of random: what an accepted call met of clipping. The reference is asked only where values go, by gathering them, and how many
 * copies a bit has, by 1/64 at every place; they are added here.
 */
#include <math.h>
#include <string.h>

#include "random.h"

enum { MOST = 60000 };

static const float bound = 1024.0f;

/* The magnitudes of a link record. */
struct record {
    float least, greatest;
};

/* Whether the call answers such a record, neither a segment nor a bit. */
static bool records(const struct call *call)
{
    return joins(call) && !takes(call, 'S') && !takes(call, 'm');
}

bool can_meet(const struct call *call, enum clip clip)
{
    return clip == BEYOND ? takes(call, 'S') : joins(call) && (clip != MINUS_ZERO || !records(call));
}

static uint32_t bit_of(bool holds, enum clip clip)
{
    return (uint32_t)holds << clip;
}

static float clipped(float value)
{
    return fabsf(value) > bound ? copysignf(bound, value) : value;
}

static void note(struct record *record, float value)
{
    float magnitude = fabsf(value);
    record->least = magnitude < record->least ? magnitude : record->least;
    record->greatest = magnitude > record->greatest ? magnitude : record->greatest;
}

/* Of one bit, by its copies in their order. Its value is noted in `right`, and in `other` what it is if clipped at each addition. */
static uint32_t clips_of_bit(const float *copies, uint32_t count, struct record *right, struct record *other)
{
    float sum = copies[0], at_each = clipped(sum);
    for (uint32_t k = 1; k < count; k++) {
        sum += copies[k];
        at_each = clipped(at_each + copies[k]);
    }
    note(right, clipped(sum));
    note(other, at_each);
    bool within = fabsf(sum) <= bound;
    return bit_of(sum > bound, count == 1 ? ONCE_ABOVE : SUM_ABOVE) | bit_of(sum < -bound, count == 1 ? ONCE_BELOW : SUM_BELOW) |
           bit_of(within && at_each < sum, BACK_ABOVE) | bit_of(within && at_each > sum, BACK_BELOW) |
           bit_of(sum == bound, AT_ABOVE) | bit_of(sum == -bound, AT_BELOW) | bit_of(sum == 0 && signbit(sum), MINUS_ZERO);
}

/* Of a call that joins: all bits of the frame, those of a channel, or one of them. */
static uint32_t clips_of_frame(const struct call *call, const struct given *given)
{
    static float even[MOST], gathered[MOST], counts[MOST];
    const float *copies = gathered, *channel = counts;
    uint32_t frame_number = given->whole[0], clips = 0;
    uint32_t trch = takes(call, 'c') ? given->whole[1] : 0, bit = takes(call, 'm') ? given->whole[2] : 0;
    struct record right = {INFINITY, 0}, other = right;
    uint64_t f, e, n, v, at;
    for (size_t i = 0; i < drawn.capacity; i++)
        even[i] = 1.0f / 64; /* 60,000 of them are not clipped */
    reference.gather(drawn.sheet, drawn.sheet_len, given->slices[1].start, drawn.capacity, gathered, drawn.capacity, &at);
    reference.take_back(drawn.sheet, drawn.sheet_len, frame_number, even, drawn.capacity, counts, drawn.joined, &at);
    for (uint32_t i = 1; i <= drawn.channels; i++) {
        reference.channel(drawn.sheet, drawn.sheet_len, i, &f, &e, &n, &v);
        for (uint32_t m = 1; m <= n; m++) {
            uint32_t count = (uint32_t)(64 * channel[frame_number % f * n + m - 1]);
            if (count != 0 && (trch == 0 || trch == i) && (bit == 0 || bit == m))
                clips |= clips_of_bit(copies, count, &right, &other);
            copies += count;
        }
        channel += f * n;
    }
    if (records(call) && right.least == other.least && right.greatest == other.greatest)
        clips &= ~(bit_of(true, BACK_ABOVE) | bit_of(true, BACK_BELOW)); /* the answer does not show it */
    return clips;
}

/* Whether the slice that the call writes has a value beyond the bound after it. */
static bool leaves_beyond(const struct call *call, const struct given *given)
{
    static float written[MOST];
    struct given again = *given;
    struct answer answer;
    memcpy(written, given->slices[2].start, given->slices[2].count * sizeof *written);
    again.slices[2].start = written;
    call->run(&reference, &again, &answer);
    for (size_t i = 0; i < given->slices[2].count; i++)
        if (fabsf(written[i]) > bound)
            return true;
    return false;
}

uint32_t clips_of(const struct call *call, const struct given *given)
{
    return (joins(call) ? clips_of_frame(call, given) : 0) |
           bit_of(takes(call, 'S') && leaves_beyond(call, given), BEYOND);
}
