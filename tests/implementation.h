/*
 * The public calls as a table of functions, once for the library and once for the reference, so that one test runs on
 * either. That a table fits `struct implementation` ties the header and the reference to the same signatures.
 */
#ifndef IMPLEMENTATION_H
#define IMPLEMENTATION_H

#include "reference.h"
#include "ummervia.h"

struct implementation {
    const char *name;
    uint32_t (*sheet_read)(const uint8_t *, size_t, uint16_t *, size_t, uint64_t *);
    uint32_t (*sheet_length)(const uint16_t *, size_t, uint64_t *);
    uint32_t (*sheet_write)(const uint16_t *, size_t, uint8_t *, size_t, uint64_t *);
    uint32_t (*sizes)(const uint8_t *, size_t, uint64_t *, uint64_t *, uint64_t *, uint64_t *, uint64_t *);
    uint32_t (*channel)(const uint8_t *, size_t, uint32_t, uint64_t *, uint64_t *, uint64_t *, uint64_t *);
    uint32_t (*build)(const uint8_t *, size_t, uint32_t, const uint8_t *, size_t, uint8_t *, size_t, uint64_t *);
    uint32_t (*multiplex)(const uint8_t *, size_t, uint32_t, const uint8_t *, size_t, uint8_t *, size_t, uint64_t *);
    uint32_t (*spread)(const uint8_t *, size_t, const uint8_t *, size_t, uint8_t *, size_t, uint64_t *);
    uint32_t (*gather)(const uint8_t *, size_t, const float *, size_t, float *, size_t, uint64_t *);
    uint32_t (*take_back)(const uint8_t *, size_t, uint32_t, const float *, size_t, float *, size_t, uint64_t *);
    uint32_t (*finish)(const uint8_t *, size_t, uint32_t, const float *, size_t, float *, size_t, uint64_t *);
    uint32_t (*heard)(const uint8_t *, size_t, uint32_t, const float *, size_t, uint32_t, uint32_t, uint64_t *, float *,
                      uint64_t *);
    uint32_t (*link)(const uint8_t *, size_t, uint32_t, const float *, size_t, uint32_t, uint64_t *, float *, float *,
                     uint64_t *);
    uint32_t (*name_of)(const uint8_t *, size_t, uint32_t, uint32_t, uint32_t, uint32_t, uint32_t, uint64_t *, uint64_t *,
                        uint64_t *);
    uint32_t (*part)(const uint8_t *, size_t, uint32_t, uint64_t, uint64_t *, uint64_t *);
};

static const struct implementation library = {
    .name = "library",
    .sheet_read = umv_sheet_read,
    .sheet_length = umv_sheet_length,
    .sheet_write = umv_sheet_write,
    .sizes = umv_sizes,
    .channel = umv_channel,
    .build = umv_build,
    .multiplex = umv_multiplex,
    .spread = umv_spread,
    .gather = umv_gather,
    .take_back = umv_take_back,
    .finish = umv_finish,
    .heard = umv_heard,
    .link = umv_link,
    .name_of = umv_name,
    .part = umv_part,
};

static const struct implementation reference = {
    .name = "reference",
    .sheet_read = ref_sheet_read,
    .sheet_length = ref_sheet_length,
    .sheet_write = ref_sheet_write,
    .sizes = ref_sizes,
    .channel = ref_channel,
    .build = ref_build,
    .multiplex = ref_multiplex,
    .spread = ref_spread,
    .gather = ref_gather,
    .take_back = ref_take_back,
    .finish = ref_finish,
    .heard = ref_heard,
    .link = ref_link,
    .name_of = ref_name,
    .part = ref_part,
};

#endif
