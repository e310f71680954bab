/*
 * Ummervia: one 10 ms radio frame of one CCTrCH (TDD of 3.84 Mcps, or of 1.28 Mcps in two sub-frames) and the format sheet
 * that describes it.
 *
 * What holds for every call:
 *
 * - It returns a number: UMV_OK (0), or why it was refused (enum umv_number). Where several reasons hold, the first in the
 *   order of the table is given, which is the order of enum umv_number and not that of the numbers: 13 and 14 stand between
 *   5 and 6. But umv_sheet_length and umv_sheet_write give UMV_LENGTH (11) before all else where fields_len is not UMV_FIELDS,
 *   since there are then no fields to ask anything else of.
 * - A slice is a pointer to its first value and a count of VALUES, not of bytes. Of an empty slice (count 0) the pointer
 *   is not followed and may have any value, null too.
 * - Every other pointer must be aligned for its type: 2 bytes for uint16_t, 4 for float, 8 for uint64_t. No call asks for
 *   more than that.
 * - The caller owns all memory, lends it for the time of the call, and nothing of it is kept after the call returns.
 *   No call allocates memory or keeps state, so calls may run at the same time from several threads, as long as what one
 *   of them writes is lent to no other.
 * - What is lent to one call must not overlap: no slice with another, no answer with a slice, no answer with another.
 * - A refused call leaves every lent slice as it was.
 * - A NaN stays a NaN in all that a call moves or leaves as it was (umv_finish moves values unseen; umv_take_back and every
 *   refused call leave some as they were). That its sign and payload stay too is tested and not proved.
 * - The pointers to single values at the end of a parameter list are answers: they must not be null and are always
 *   written, on a refusal with zeros; only UMV_CONTENT (12) gives in `at` the index of the first bad value, from 0.
 *
 * What a caller of release 4 finds otherwise in release 5, which clips joined values. No prototype, number or length changed:
 *
 * - A value that umv_take_back writes, that umv_heard answers, and a magnitude that umv_link answers, is at most
 *   UMV_JOINED_MOST, 1,024, in magnitude: one beyond it becomes that bound, with its sign, after all copies were added. A value
 *   heard once is clipped too. Values within the bound keep every bit. Whoever scales soft values so that sums of copies pass
 *   1,024 scales them down, or has them clipped.
 * - umv_gather and umv_finish move what they find, as before.
 *
 * A caller of release 3, which did not know the 1.28 Mcps option, finds besides; a sheet of 3.84 Mcps keeps its bytes, its frames
 * and its names:
 *
 * - umv_name is asked with the sub-frame, in front of the slot: 1 where there is only one. A call as it was does not compile.
 * - The fields of a sheet are 549 numbers, where they were 548; an array of 548 is refused with 11.
 * - UMV_FIELD_LCR has the sixth place, so that every place from UMV_FIELD_TTI on is one further. Who used the names compiles
 *   again, with 0 in that field for a sheet as it was.
 * - UMV_SUBFRAME_SLOTS (14) is new. It goes behind 13 and before 6, 7 and 8, and every call that takes a sheet or its fields
 *   can give it.
 * - The second of the four spare bits is the 1.28 Mcps bit: where it is set, a sheet that drew 4 may be accepted. An older
 *   release answers it with 4.
 * - A frame of 1.28 Mcps holds the sheet's slots twice: who sums up the capacities of a sheet from outside, or cuts its frame
 *   into slots, does so for each sub-frame, of which there is one more than the field at UMV_FIELD_LCR says. The capacity that
 *   umv_sizes answers is that of both.
 *
 * A caller of release 2, which had 524 fields and up to 8 transport channels, finds besides:
 *
 * - TTI, E and RM have 16 places each, so that every place from UMV_FIELD_E on is further. Who used the names compiles again.
 * - The third of the four spare bits is the top bit of I - 1: where it is set, a sheet that drew 4 may be accepted. An older
 *   release answers a sheet of more than 8 channels with 4.
 * - What is kept for each channel of a sheet from outside needs room for UMV_CHANNELS_MOST, which is new.
 * - A sheet has up to UMV_SHEET_MOST bytes, 418, where it had 394; a buffer for one that comes from a file holds
 *   UMV_SHEET_FORM_MOST + 1, 509, where it held 485; in a shorter one a long sheet that is refused with 5 or 13 is cut off, and
 *   then refused with 4.
 *
 * A caller of release 1, which had 283 fields, finds besides:
 *
 * - UMV_FIELD_UPLINK has the fifth place, and the logarithms stand at the end, from UMV_FIELD_LOGARITHMS on. Who used the names
 *   compiles again, with 0 in the uplink field for a sheet as it was.
 * - UMV_UPLINK_CODES (13) is new. It goes before 14, 6, 7 and 8, and every call that takes a sheet or its fields can give it.
 * - The first of the four spare bits is the uplink bit: where it is set, a sheet that drew 4 may be accepted.
 */
#ifndef UMMERVIA_H
#define UMMERVIA_H

#include <stddef.h>
#include <stdint.h>

#ifdef __cplusplus
extern "C" {
#endif

#define UMV_RELEASE "5.0.2" /* of this header and its archive */

/* The numbers a call answers, in the order in which they are asked. Each call below says which of them it can give. */
enum umv_number {
    UMV_OK = 0,              /* accepted */
    UMV_SHORT = 1,           /* the sheet is shorter than 2 bytes */
    UMV_VERSION = 2,         /* its version is not 1 */
    UMV_NO_SLOT = 3,         /* it has no slot (T = 0) */
    UMV_FORM = 4,            /* its length is not what its fields need, or a spare or padding bit is set; when a sheet is
                                written from fields: a field is outside its range, and neither 2, 3, 5, 13 nor 14 names it */
    UMV_NO_CAPACITY = 5,     /* a capacity is 0 */
    UMV_UPLINK_CODES = 13,   /* an uplink slot has more than two codes, or a logarithm over 4, however large */
    UMV_SUBFRAME_SLOTS = 14, /* a sheet of 1.28 Mcps has more than 7 slots */
    UMV_MUCH_CONTENT = 6,    /* the equalised sizes T_i of all channels sum up to more than 60,000 bits */
    UMV_MUCH_CAPACITY = 7,   /* the capacities of all slots, at 1.28 Mcps twice, sum up to more than 60,000 bits */
    UMV_NO_CONTENT = 8,      /* E is 0 for every channel */
    UMV_FRAME_NUMBER = 9,    /* the frame number is over 255 */
    UMV_ABSENT = 10,         /* the TrCH, sub-frame, slot, PhCH, place or bit asked for does not exist */
    UMV_LENGTH = 11,         /* a lent slice is not exactly of the length needed */
    UMV_CONTENT = 12         /* a content byte is neither 0 nor 1, or a soft value is not from -65,536 to 65,536, both
                                allowed (a NaN is not) */
};

/*
 * The fields of a sheet as UMV_FIELDS numbers of 16 bits. These are their places, counted from 0; `channel`, `slot` and
 * `phch` below are counted from 0 too. A place that the counts I, T and P leave unused, or the logarithm of a downlink sheet,
 * holds no field: reading leaves 0 there, writing does not look at it.
 */
enum umv_field {
    UMV_FIELD_VERSION = 0,     /* 1 */
    UMV_FIELD_MODE = 1,        /* second interleaving: 0 over the frame, 1 slot by slot */
    UMV_FIELD_CHANNELS = 2,    /* I, the number of transport channels, 1 to 16 */
    UMV_FIELD_SLOTS = 3,       /* T, the number of slots, 1 to 15; at 1.28 Mcps those of one sub-frame, 1 to 7 */
    UMV_FIELD_UPLINK = 4,      /* 0 downlink, 1 uplink */
    UMV_FIELD_LCR = 5,         /* 0 for 3.84 Mcps, in one sub-frame, 1 for 1.28 Mcps (low chip rate), in two */
    UMV_FIELD_TTI = 6,         /* + channel: 0, 1, 2, 3 for 10, 20, 40, 80 ms, which are F = 1, 2, 4, 8 frames */
    UMV_FIELD_E = 22,          /* + channel: E, encoded bits of one TTI, 0 to 16,383 */
    UMV_FIELD_RM = 38,         /* + channel: RM, the rate matching attribute, 1 to 256 */
    UMV_FIELD_PHCHS = 54,      /* + slot: P, physical channels (codes) of the slot, 1 to 16, in an uplink sheet 1 or 2 */
    UMV_FIELD_CAPACITIES = 69, /* + 16 * slot + phch: U, capacity of that PhCH in bits, 1 to 4,095 */
    UMV_FIELD_LOGARITHMS = 309 /* + 16 * slot + phch, in an uplink sheet: the base-two logarithm of that PhCH's spreading
                                  factor, 0 to 4 for factors 1 to 16 */
};

#define UMV_FIELDS 549            /* values in the fields of a sheet */
#define UMV_CHANNELS_MOST 16      /* transport channels of a sheet */
#define UMV_SUBFRAMES_MOST 2      /* sub-frames of a frame */
#define UMV_SUBFRAME_SLOTS_MOST 7 /* slots of a sub-frame of 1.28 Mcps */
#define UMV_SHEET_MOST 418        /* bytes of the longest sheet that is accepted */
#define UMV_SHEET_FORM_MOST 508   /* bytes of the longest that has a sheet's form, which is refused with 5 or 13; a buffer for
                                     a sheet from outside holds one more, so that a longer one is seen */

/*
 * In every call but umv_sheet_write `sheet` is read only: sheet_len bytes, whatever they are; what is no sheet is refused with
 * one of the sheet's own numbers: 1, 2, 3, 4, 5, 13, 14, 6, 7, 8, in this order. A bit is a byte of 0 or 1 wherever bits are lent
 * or written.
 *
 * The bits of a slot go to its PhCHs in turn, full ones passed over (step 9). In downlink each takes one bit at its turn, and so
 * does the single code of an uplink slot. Of two uplink codes the one with the smaller spreading factor takes as many bits at
 * its turn as the greater factor divided by the smaller gives, 1 to 16, and the other takes one; a code that fills up in mid-run
 * gives up its turn.
 *
 * A frame of 3.84 Mcps is one sub-frame; one of 1.28 Mcps has two, each with all slots of the sheet. Second interleaving goes
 * over both: in mode 0 over the frame, of which the first half is sub-frame 1, cut into its slots; in mode 1 over what a slot has
 * in both, of which the first half is that slot of sub-frame 1. Bits go to the PhCHs in each sub-frame by itself.
 */

/*
 * Reads a sheet into its fields.
 * fields  fields_len values, overwritten when the call is accepted; fields_len must be UMV_FIELDS
 * at      answer: the values written, UMV_FIELDS
 * Numbers: the sheet's own; then 11 if fields_len is not UMV_FIELDS.
 */
uint32_t umv_sheet_read(const uint8_t *sheet, size_t sheet_len, uint16_t *fields, size_t fields_len, uint64_t *at);

/*
 * The length of the sheet that umv_sheet_write makes of these fields.
 * fields  fields_len values, only read; fields_len must be UMV_FIELDS
 * at      answer: the length in bytes, at most UMV_SHEET_MOST
 * Numbers: 11 if fields_len is not UMV_FIELDS; then the sheet's own but 1, of the fields.
 */
uint32_t umv_sheet_length(const uint16_t *fields, size_t fields_len, uint64_t *at);

/*
 * Writes fields as a sheet. Reading that sheet gives the fields back, with zeros past the counts.
 * fields  fields_len values, only read; fields_len must be UMV_FIELDS
 * sheet   sheet_len bytes, overwritten when the call is accepted; sheet_len must be what umv_sheet_length answers
 * at      answer: the bytes written, sheet_len
 * Numbers: 11 if fields_len is not UMV_FIELDS; then the sheet's own but 1, of the fields; then 11 if sheet_len is not the
 * length needed.
 */
uint32_t umv_sheet_write(const uint16_t *fields, size_t fields_len, uint8_t *sheet, size_t sheet_len, uint64_t *at);

/*
 * The sizes by which a caller measures the memory it lends.
 * channels  answer: I, transport channels
 * slots     answer: T, at 1.28 Mcps of one sub-frame
 * contents  answer: the sum of E over all channels, encoded bits of all current TTIs
 * capacity  answer: D, the bits of one frame: the sum of all capacities, at 1.28 Mcps twice
 * joined    answer: the sum of the equalised sizes T_i = F * N over all channels, in bits
 * Numbers: the sheet's own.
 */
uint32_t umv_sizes(const uint8_t *sheet, size_t sheet_len, uint64_t *channels, uint64_t *slots, uint64_t *contents,
                   uint64_t *capacity, uint64_t *joined);

/*
 * The numbers of one transport channel. Puncturing and repetition are even: of any L neighbouring bits of a frame's segment
 * L * (N - V) / N are punctured where V is below N, and L * (V - N) / N further copies are sent where V is above it, rounded
 * down or up. So from one punctured bit to the next it is N / (N - V), and each bit is sent V / N times, rounded down or up.
 * trch  the channel, counted from 1, at most I
 * f     answer: F, frames of its TTI: 1, 2, 4 or 8
 * e     answer: E, encoded bits of one TTI
 * n     answer: N, bits of one of its F segments, before rate matching
 * v     answer: V, bits it has in one frame, after rate matching; the V of all channels sum up to the capacity D
 * Numbers: the sheet's own; then 10 if trch is 0 or over I.
 */
uint32_t umv_channel(const uint8_t *sheet, size_t sheet_len, uint32_t trch, uint64_t *f, uint64_t *e, uint64_t *n,
                     uint64_t *v);

/*
 * Builds the frame (steps 1 to 9): what is sent in one 10 ms radio frame.
 * frame_number  0 to 255: of a channel's F segments, the frame takes number frame_number mod F
 * contents      contents_len bytes of 0 or 1, only read: channels in order, E bytes each, all of their current TTIs;
 *               contents_len must be the sum of E (umv_sizes)
 * frame         frame_len bytes, overwritten when the call is accepted: sub-frame, then slot, then PhCH, then place; frame_len
 *               must be D
 * at            answer: the bytes written, D; with 12 the index in contents of the first byte that is neither 0 nor 1
 * Numbers: the sheet's own; then 9, 11, 12.
 */
uint32_t umv_build(const uint8_t *sheet, size_t sheet_len, uint32_t frame_number, const uint8_t *contents,
                   size_t contents_len, uint8_t *frame, size_t frame_len, uint64_t *at);

/*
 * Multiplexes (steps 1 to 7): the rate matched bits of channels 1 to I in order, as they stand before second
 * interleaving. umv_spread makes the frame of them, the same that umv_build makes of the contents.
 * multiplexed   multiplexed_len bytes, overwritten when the call is accepted; multiplexed_len must be D
 * The other parameters and the numbers are those of umv_build.
 */
uint32_t umv_multiplex(const uint8_t *sheet, size_t sheet_len, uint32_t frame_number, const uint8_t *contents,
                       size_t contents_len, uint8_t *multiplexed, size_t multiplexed_len, uint64_t *at);

/*
 * Spreads multiplexed bits over the frame (steps 8 and 9). It does not depend on the frame number.
 * multiplexed   multiplexed_len bytes of 0 or 1, only read; multiplexed_len must be D
 * frame         frame_len bytes, overwritten when the call is accepted: sub-frame, then slot, then PhCH, then place; frame_len
 *               must be D
 * at            answer: the bytes written, D; with 12 the index in multiplexed of the first byte that is neither 0 nor 1
 * Numbers: the sheet's own; then 11, 12.
 */
uint32_t umv_spread(const uint8_t *sheet, size_t sheet_len, const uint8_t *multiplexed, size_t multiplexed_len,
                    uint8_t *frame, size_t frame_len, uint64_t *at);

/*
 * Which bit stands at a place of the frame, by direct calculation: nothing is built. No two places of a frame have the same
 * answer, and the bits of its segments that no place has are the punctured ones.
 * frame_number  0 to 255: the number under which the frame is built
 * subframe      counted from 1, at most 2 at 1.28 Mcps; 1 at 3.84 Mcps, where there is only one
 * slot          counted from 1, at most T
 * phch          counted from 1, at most P of the slot
 * place         counted from 1, at most U of the PhCH
 * trch          answer: the transport channel, counted from 1
 * bit           answer: the bit's number in the channel's TTI before first interleaving, counted from 1; above E it is a filler
 * copy          answer: which copy of the bit, counted from 0
 * Numbers: the sheet's own; then 9; then 10 if there is no such sub-frame, slot, PhCH or place.
 */
uint32_t umv_name(const uint8_t *sheet, size_t sheet_len, uint32_t frame_number, uint32_t subframe, uint32_t slot,
                  uint32_t phch, uint32_t place, uint64_t *trch, uint64_t *bit, uint64_t *copy);

/*
 * Which part of a multiplexed frame belongs to one channel; its values are not looked at.
 * trch             the channel, counted from 1, at most I
 * multiplexed_len  the values of the multiplexed frame; it must be D
 * start            answer: the index of the channel's first value, from 0
 * length           answer: how many values it has, V; 0 for an empty channel
 * Numbers: the sheet's own; then 10 if trch is 0 or over I; then 11.
 */
uint32_t umv_part(const uint8_t *sheet, size_t sheet_len, uint32_t trch, uint64_t multiplexed_len, uint64_t *start,
                  uint64_t *length);

/*
 * The calls below bring a received frame home. A soft value is a float from -65,536 to 65,536, both allowed; a NaN is not. Which
 * sign stands for which bit is the caller's affair: values are moved, added, clipped, and compared by magnitude.
 */

/* A joined value is at most this in magnitude: umv_take_back, umv_heard and umv_link clip to it, from either side. */
#define UMV_JOINED_MOST 1024

/*
 * Gathers a received frame (steps 9 and 8 undone): its values as they stood before second interleaving, channel after
 * channel (umv_part says where each lies). Values are moved bit for bit, and not clipped.
 * frame         frame_len soft values, only read, in the frame's order; frame_len must be D
 * multiplexed   multiplexed_len floats, overwritten when the call is accepted; multiplexed_len must be D
 * at            answer: the values written, D; with 12 the index in frame of the first value out of range
 * Numbers: the sheet's own; then 11, 12.
 */
uint32_t umv_gather(const uint8_t *sheet, size_t sheet_len, const float *frame, size_t frame_len, float *multiplexed,
                    size_t multiplexed_len, uint64_t *at);

/*
 * Takes a received frame back (steps 9 to 6 undone) into a buffer that gathers a TTI: of each channel the N values of this
 * frame's segment are written, and nothing else of the buffer. Copies of a bit are added in the order in which they were sent,
 * each sum rounded once; after the last addition a value beyond plus or minus UMV_JOINED_MOST becomes that bound, that of a bit
 * sent once too. Within the bound the value of a bit sent once is kept bit for bit. A punctured bit gets +0.0.
 * frame_number  0 to 255: the number under which the frame was built
 * frame         frame_len soft values, only read, in the frame's order; frame_len must be D
 * joined        joined_len floats: channels in order, T_i values each in first-interleaved order, which is segment 0 of N
 *               values, then segment 1 and so on; joined_len must be the sum of all T_i (umv_sizes). A new TTI needs no
 *               clearing, since its F frames write all of the channel's values
 * at            answer: the values written, the sum of N; with 12 the index in frame of the first value out of range
 * Numbers: the sheet's own; then 9, 11, 12.
 */
uint32_t umv_take_back(const uint8_t *sheet, size_t sheet_len, uint32_t frame_number, const float *frame,
                       size_t frame_len, float *joined, size_t joined_len, uint64_t *at);

/*
 * Finishes one channel (steps 2 and 1 undone) once all of its F frames were taken back: its E values in the coder's order,
 * fillers dropped. Values are moved bit for bit, not looked at and not clipped.
 * trch          the channel, counted from 1, at most I
 * joined        joined_len floats, only read: the buffer of umv_take_back; joined_len must be the sum of all T_i
 * coded         coded_len floats, overwritten when the call is accepted; coded_len must be E of the channel
 * at            answer: the values written, E
 * Numbers: the sheet's own; then 10 if trch is 0 or over I; then 11.
 */
uint32_t umv_finish(const uint8_t *sheet, size_t sheet_len, uint32_t trch, const float *joined, size_t joined_len,
                    float *coded, size_t coded_len, uint64_t *at);

/*
 * What was heard of one bit of a channel's segment in a received frame.
 * trch          the channel, counted from 1, at most I
 * bit           the bit of this frame's segment, counted from 1, at most N. umv_name counts otherwise: with m = bit - 1 and
 *               n = frame_number mod F it is bit m * F + P(n) + 1 of the TTI, P being 0 for F = 1; 0,1 for F = 2;
 *               0,2,1,3 for F = 4; 0,4,2,6,1,5,3,7 for F = 8
 * at            answer: 0; with 12 the index in frame of the first value out of range
 * value         answer: the value, or the joined value of several copies, clipped as umv_take_back does; +0.0 where nothing
 *               was heard
 * copies        answer: how many copies were sent; 0 says that the bit was punctured
 * The other parameters are those of umv_take_back.
 * Numbers: the sheet's own; then 9; then 10 if there is no such channel or bit; then 11, 12.
 */
uint32_t umv_heard(const uint8_t *sheet, size_t sheet_len, uint32_t frame_number, const float *frame, size_t frame_len,
                   uint32_t trch, uint32_t bit, uint64_t *at, float *value, uint64_t *copies);

/*
 * A channel's link record for one received frame.
 * trch          the channel, counted from 1, at most I
 * at            answer: 0; with 12 the index in frame of the first value out of range
 * least         answer: the least magnitude among the channel's joined values, which are clipped as umv_take_back does; +0.0
 *               if no bit was heard
 * greatest      answer: the greatest magnitude; +0.0 if no bit was heard
 * punctured     answer: how many of the segment's N bits were punctured, fillers among them
 * The other parameters are those of umv_take_back.
 * Numbers: the sheet's own; then 9; then 10 if trch is 0 or over I; then 11, 12.
 */
uint32_t umv_link(const uint8_t *sheet, size_t sheet_len, uint32_t frame_number, const float *frame, size_t frame_len,
                  uint32_t trch, uint64_t *at, float *least, float *greatest, uint64_t *punctured);

#ifdef __cplusplus
}
#endif

#endif
