/*
 * The calls of the library once more, in plain C, written from documents 01, 02 and 004 alone and sharing nothing with the
 * library: what the tests compare it with and what the benchmark measures it by. ref_X takes and answers what umv_X does.
 */
#ifndef REFERENCE_H
#define REFERENCE_H

#include <stddef.h>
#include <stdint.h>

/* The format sheet. */
uint32_t ref_sheet_read(const uint8_t *sheet, size_t sheet_len, uint16_t *fields, size_t fields_len, uint64_t *at);
uint32_t ref_sheet_length(const uint16_t *fields, size_t fields_len, uint64_t *at);
uint32_t ref_sheet_write(const uint16_t *fields, size_t fields_len, uint8_t *sheet, size_t sheet_len, uint64_t *at);
uint32_t ref_sizes(const uint8_t *sheet, size_t sheet_len, uint64_t *channels, uint64_t *slots, uint64_t *contents,
                   uint64_t *capacity, uint64_t *joined);
uint32_t ref_channel(const uint8_t *sheet, size_t sheet_len, uint32_t trch, uint64_t *f, uint64_t *e, uint64_t *n,
                     uint64_t *v);

/* From bits to burst. */
uint32_t ref_build(const uint8_t *sheet, size_t sheet_len, uint32_t frame_number, const uint8_t *contents,
                   size_t contents_len, uint8_t *frame, size_t frame_len, uint64_t *at);
uint32_t ref_multiplex(const uint8_t *sheet, size_t sheet_len, uint32_t frame_number, const uint8_t *contents,
                       size_t contents_len, uint8_t *multiplexed, size_t multiplexed_len, uint64_t *at);
uint32_t ref_spread(const uint8_t *sheet, size_t sheet_len, const uint8_t *multiplexed, size_t multiplexed_len,
                    uint8_t *frame, size_t frame_len, uint64_t *at);
uint32_t ref_name(const uint8_t *sheet, size_t sheet_len, uint32_t frame_number, uint32_t subframe, uint32_t slot,
                  uint32_t phch, uint32_t place, uint64_t *trch, uint64_t *bit, uint64_t *copy);
uint32_t ref_part(const uint8_t *sheet, size_t sheet_len, uint32_t trch, uint64_t multiplexed_len, uint64_t *start,
                  uint64_t *length);

/* Coming home with soft values. */
uint32_t ref_gather(const uint8_t *sheet, size_t sheet_len, const float *frame, size_t frame_len, float *multiplexed,
                    size_t multiplexed_len, uint64_t *at);
uint32_t ref_take_back(const uint8_t *sheet, size_t sheet_len, uint32_t frame_number, const float *frame,
                       size_t frame_len, float *joined, size_t joined_len, uint64_t *at);
uint32_t ref_finish(const uint8_t *sheet, size_t sheet_len, uint32_t trch, const float *joined, size_t joined_len,
                    float *coded, size_t coded_len, uint64_t *at);
uint32_t ref_heard(const uint8_t *sheet, size_t sheet_len, uint32_t frame_number, const float *frame, size_t frame_len,
                   uint32_t trch, uint32_t bit, uint64_t *at, float *value, uint64_t *copies);
uint32_t ref_link(const uint8_t *sheet, size_t sheet_len, uint32_t frame_number, const float *frame, size_t frame_len,
                  uint32_t trch, uint64_t *at, float *least, float *greatest, uint64_t *punctured);

#endif
