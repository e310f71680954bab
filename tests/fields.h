/* The UMV_FIELDS numbers of a sheet, for the tests that make sheets of them apart from the library. */
#ifndef FIELDS_H
#define FIELDS_H

#include <stdbool.h>

#include "ummervia.h"

/* Whether a place lies within the counts I, T and P, and is no logarithm of a downlink sheet; the others hold no field. */
bool in_use(const uint16_t *fields, unsigned place);

/* So many slots of 16 PhCHs with this capacity each: 15 with 250 have just 60,000 bits, and 5 with 375 in two sub-frames. */
void fill_slots(uint16_t *fields, uint16_t slots, uint16_t capacity);

/* Writes fields that fit their widths to UMV_SHEET_FORM_MOST bytes, by the table of document 01 and the bits of C-11, C-14 and
   C-16. Answers the sheet's bits, without padding. */
size_t pack(const uint16_t *fields, uint8_t *sheet);

#endif
