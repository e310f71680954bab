/* What the parts of random share: the sheet that was drawn, what a call is given on it, and what was met. */
#ifndef RANDOM_H
#define RANDOM_H

#include "call.h"

/* Kinds of sheet; from UPPER on, kinds of channel; from FULL_UPLINK on, kinds of uplink sheet, and of its slots; from LCR_FRAME
   on, kinds of 1.28 Mcps sheet. */
enum kind {
    OVER_FRAME,  /* mode 0 */
    BY_SLOT,     /* mode 1 */
    LONGEST,     /* 418 bytes: 16 channels, 15 slots of 16 PhCHs */
    EIGHT,       /* 8 channels, as many as three bits count */
    NINE,        /* 9 channels, one more */
    SIXTEEN,     /* 16 channels */
    FULL_FRAME,  /* D is 60,000 */
    FULL_JOINED, /* the sum of T_i is 60,000 */
    LONE,        /* 3.84 Mcps and mode 1, a slot of one PhCH, which is interleaved by itself */
    THREEFOLD,   /* the same, of three PhCHs of one capacity, over 20 */
    UPPER,       /* a channel behind the eighth */
    EMPTY,       /* E is 0 */
    PUNCTURED,   /* V below N */
    EXACT,       /* V is N, and not 0 */
    REPEATED,    /* V above N */
    MANY_TIMES,  /* a bit is sent 1,000 times or more */
    ODD_STEP,    /* step 5's |q| is odd, in a TTI of more than one frame, as in the next two */
    FEWER_ZEROS, /* |q| is even, with fewer trailing zeros than F */
    ALL_ZEROS,   /* |q| is a multiple of F */
    FULL_UPLINK, /* D is 60,000 */
    ONE_CODE,    /* one code */
    EQUAL_CODES, /* two codes of equal spreading factors */
    FIRST_RUNS,  /* code 1 takes 2 bits at its turn, and has a whole turn; then 4, 8, 16 bits */
    SECOND_RUNS = FIRST_RUNS + 4, /* the same of code 2 */
    FIRST_CUT = SECOND_RUNS + 4,  /* code 1 has runs and fills up in mid-run, which gives its turn to the other code */
    SECOND_CUT,  /* the same of code 2 */
    LONG_FULL,   /* the code that has runs is full and passed over */
    SHORT_FULL,  /* the other code of such a slot is */
    LCR_FRAME,   /* mode 0, several slots */
    LCR_SLOT,    /* mode 1, several slots */
    LCR_SEVEN,   /* 7 slots */
    LCR_SIXTEEN, /* 16 channels */
    LCR_FULL,    /* D is 60,000 */
    LCR_SINGLE,  /* uplink, one code */
    LCR_RUNS,    /* uplink, two codes, of which one has runs */
    LCR_CUT,     /* a code that has runs fills up in mid-run */
    KINDS
};

/* The sheet at work. */
struct drawn {
    uint16_t fields[UMV_FIELDS]; /* before the sheet's bytes were damaged */
    uint8_t sheet[2 * UMV_SHEET_FORM_MOST];
    size_t sheet_len;
    size_t packed_len; /* before they were damaged */
    bool damaged;
    /* Of an accepted sheet, otherwise 0: */
    uint64_t channels, slots, contents, capacity, joined;
    uint32_t subframes;
    uint64_t kinds; /* a bit each */
    uint64_t channel_kinds[UMV_CHANNELS_MOST];
};

_Static_assert(KINDS <= 64, "a kind is a bit of 64");

extern struct drawn drawn;

/* What an accepted call met of clipping; values of bits, before it, and one that is not clipped. */
enum clip {
    ONCE_ABOVE, /* heard once, over 1,024 */
    ONCE_BELOW, /* under -1,024 */
    SUM_ABOVE,  /* the sum of several copies */
    SUM_BELOW,
    BACK_ABOVE, /* a sum that passed 1,024 and came back: clipped at each addition, the answer would be another */
    BACK_BELOW,
    AT_ABOVE, /* just 1,024 */
    AT_BELOW,
    MINUS_ZERO,
    BEYOND, /* moved, or left as it was, beyond the bound */
    CLIPS
};

/* Draws a sheet, good or damaged. */
void draw_sheet(void);

/* Draws what the call with this index is given on that sheet, good or damaged. The slices stay until the next one is drawn. */
void draw_given(size_t call, struct given *given);

/* What the accepted call met of clipping, a bit each. */
uint32_t clips_of(const struct call *call, const struct given *given);

/* Whether such a call can meet it. */
bool can_meet(const struct call *call, enum clip clip);

/* Counts a call that was as the reference has it. */
void count_call(size_t call, const struct given *given, const struct answer *answer);

/* Counts the place where a slice was lent. */
void count_place(size_t call, size_t slice, const void *start);

/* Prints what was met. Answers how much of it never was. */
unsigned report_met(void);

#endif
