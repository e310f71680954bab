/*
 * The reference: document 01 in plain C. Steps are carried out one after the other, through arrays, as the document has
 * them. Single letters are the document's: I, T, E, F, N, P, U, D, Z, V, d, e, q, S, and bs is document 004's; channels,
 * sub-frames h, slots, PhCHs and frames n are counted from 0 inside.
 */
#include "reference.h"

#include <math.h>
#include <stdlib.h>
#include <string.h>

enum {
    MOST = 60000, /* values of a frame, and of all equalised channels */
    FIELDS = 549, /* version, mode, I, T, uplink, 1.28 Mcps; 16 TTI, 16 E, 16 RM; 15 P; 15 times 16 U, as many logarithms */
    FIELD_TTI = 6,
    FIELD_E = 22,
    FIELD_RM = 38,
    FIELD_P = 54,
    FIELD_U = 69,
    FIELD_LOG = 309
};

struct channel {
    uint32_t TTI, E, RM;
    uint32_t F, N; /* step 1 */
    uint32_t Z, V; /* step 4; Z is the end of its part of the multiplexed frame */
    int32_t d;
};

struct slot {
    uint32_t P, U[16];
    uint32_t log[16]; /* of the spreading factors, to the base two; in downlink 0 */
    uint32_t bits;    /* sum of its U */
    uint32_t bs[2];   /* step 9: consecutive bits of PhCH 1 and 2; all others have 1 */
};

/* A sheet's fields, and what follows from them. */
struct form {
    uint32_t version, mode, I, T, uplink, lcr; /* lcr: the 1.28 Mcps option */
    struct channel channels[16];
    struct slot slots[15]; /* of each sub-frame */
    uint32_t contents;     /* sum of E */
    uint32_t joined;       /* sum of T_i */
    uint32_t K, W, D;      /* sub-frames; bits of one, and of all */
};

/* Step 2: the order of columns for F = 1, 2, 4, 8. */
static const uint8_t first_order[4][8] = {{0}, {0, 1}, {0, 2, 1, 3}, {0, 4, 2, 6, 1, 5, 3, 7}};

/* Step 8. */
static const uint8_t second_order[30] = {0, 20, 10, 5, 15, 25, 3,  13, 23, 8,  18, 28, 1,  11, 21,
                                         6, 16, 26, 4, 14, 24, 19, 9,  29, 12, 2,  7,  22, 27, 17};

/* One unit of four files, so that the compiler sees a call whole. */
#include "reference-sheet.h"

#include "reference-frame.h"

#include "reference-home.h"
