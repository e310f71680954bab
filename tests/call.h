/*
 * The public calls in one form: what a call is given, what it answers, and a table of them all, so that a test says once
 * what it does with each of them.
 *
 * To add a call: give it a member in implementation.h, and in call.c a run_NAME and a line in `calls`.
 */
#ifndef CALL_H
#define CALL_H

#include <stdbool.h>

#include "implementation.h"

enum {
    CALLS = 15,
    MOST_SLICES = 3,     /* lent to one call */
    MOST_WHOLE = 5,      /* numbers of 32 bits given to one call */
    MOST_ANSWERS = 5,    /* written through pointers by one call */
    NUMBERS = 15,        /* 0 to 14 */
    UNWRITTEN_BYTE = 0x5a /* each byte of an answer before the call: the call must write it */
};

/* All in the order of parameters. */
struct given {
    struct {
        void *start;
        size_t count; /* values */
    } slices[MOST_SLICES];
    uint32_t whole[MOST_WHOLE];
    uint64_t length; /* the one number of 64 bits */
};

/* In the order of parameters, each a whole number or a float, aligned for its type and to nothing more. No call may write what
   lies beside them. */
struct answer {
    _Alignas(16) uint64_t number; /* so that what follows is at 8 bytes behind a multiple of 16 */
    struct {
        uint64_t whole, behind_whole;
        float before_soft, soft, behind_soft, more;
    } at[MOST_ANSWERS];
};

struct call {
    const char *name;
    const char *word;       /* its name in a vector file */
    const char *parameters; /* a letter each. Slices: b bytes, f fields, s soft values, as capitals where the call writes
                               them. Numbers of 32 bits: n a frame number, c a TrCH, h a sub-frame, t a slot, p a PhCH,
                               u a place, m a bit of a segment. l: the length of 64 bits */
    const char *lengths;    /* what each slice must have, a letter each: * any, F UMV_FIELDS, W the bytes of the fields'
                               sheet, E the sum of E, D, T the sum of T_i, C the E of the TrCH */
    const char *answers;    /* a letter each: w a whole number, s a float */
    const char *answer_names[MOST_ANSWERS];
    uint32_t numbers; /* those it can answer, a bit each: the line 'Numbers:' of the header */
    uint32_t (*run)(const struct implementation *, const struct given *, struct answer *);
};

extern const struct call calls[CALLS];

/* Bytes of a value of the slice that a letter of `parameters` stands for; 0 if it stands for a number. */
size_t unit_of(char parameter);

/* Whether the call writes the slice that a letter stands for. */
bool is_written(char parameter);

/* The letter of the slice with this index, or 0 if the call has not so many. */
char slice_of(const struct call *call, size_t slice);

/* Whether the call has a parameter of this letter. */
bool takes(const struct call *call, char parameter);

/* Whether the call joins the values of a received frame: which copies are of one bit hangs on the frame number. */
bool joins(const struct call *call);

/* Every byte UNWRITTEN_BYTE. */
struct answer unwritten(void);

#endif
