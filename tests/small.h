/* Small random sheets, for the tests that look at every place of a frame. */
#ifndef SMALL_H
#define SMALL_H

#include <stdint.h>

enum {
    SMALL_CHANNELS = 16, /* at most */
    SMALL_E = 240,       /* encoded bits of a channel, at most */
    SMALL_PLACES = 600   /* of a frame, at most: 300 in each sub-frame */
};

/* Draws the UMV_FIELDS fields of a sheet that is accepted, by chance.h. */
void draw_small(uint16_t *fields);

#endif
