/*
 * Memory lent to a call so that a touch of anything else faults: before and behind each slice's room lie pages that cannot
 * be touched, and a slice that the call must not write is lent through pages that can only be read.
 */
#ifndef LENT_H
#define LENT_H

#include <stdbool.h>
#include <stddef.h>

enum { LENT_MOST = 4 * 60002 }; /* bytes of the longest slice: 60,000 floats and two too many */

/* Where in its room a slice lies. */
enum way {
    AT_END,   /* directly before what cannot be touched; if it is empty, there */
    AT_START, /* directly behind what cannot be touched; if it is empty, the pointer is null */
    BETWEEN,  /* at any address that its type allows; if it is empty, the pointer is any value */
    WAYS
};

/* Maps the rooms. From now on a fault prints where it was, calls `tell` and ends the program. */
void lent_open(void (*tell)(void));

/* Lends `count` values of `unit` bytes as the slice with this index. Answers the pointer for the call. */
void *lend(size_t slice, enum way way, const void *values, size_t count, size_t unit, bool only_read);

/* Whether the bytes beside the slice, as it was lent last, are as they were. */
bool sides_kept(size_t slice);

#endif
