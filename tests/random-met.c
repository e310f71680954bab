/* Part of random: counts what was met, call by call, and says what never was. */
#include <stdio.h>

#include "fields.h"
#include "random.h"

enum { OFFSETS = 8 }; /* addresses modulo 8 */

/* Why 13 was given; where it was given though a later line holds, and 5 though its line holds; from TOO_LONG on, of fields
   alone. Then the same of 14. */
enum uplink {
    BY_CODES,   /* more than two codes, and no logarithm over 4 */
    BY_LOG,     /* a logarithm over 4, and no more than two codes */
    BEFORE_6,   /* 13, where 6 holds too */
    BEFORE_7,
    BEFORE_8,
    BEHIND_5,   /* 5, where 13 holds too */
    TOO_LONG,   /* 13 by a logarithm that has no 3 bits */
    NOT_LOOKED, /* downlink fields accepted, with logarithms over 4 */
    UPLINKS
};

enum lcr {
    SLOTS_BEFORE_6, /* 14, where 6 holds too */
    SLOTS_BEFORE_7,
    SLOTS_BEFORE_8,
    SLOTS_BEHIND_5, /* 5, where 14 holds too */
    SLOTS_BEHIND_13,
    BY_BOTH,     /* 7, though one sub-frame alone has no more than 60,000 bits */
    OPTION_OVER, /* of fields alone: 4 for a 1.28 Mcps field over 1 */
    SECOND,      /* of a name alone: accepted in sub-frame 2 */
    NONE,        /* 10 for sub-frame 0, as in the next two though slot, PhCH and place are there */
    NO_SECOND,   /* 10 for sub-frame 2 of 3.84 Mcps */
    NO_THIRD,    /* 10 for sub-frame 3 of 1.28 Mcps */
    LCRS
};

static struct {
    unsigned long numbers[NUMBERS];
    unsigned long kinds[KINDS];                 /* accepted on such a sheet, with such a channel */
    unsigned long empty[MOST_SLICES];           /* empty slices whose length was looked at */
    unsigned long places[MOST_SLICES][OFFSETS]; /* where slices were lent */
    unsigned long greatest[MOST_WHOLE + 1];     /* 2^32 - 1 that drew 9 or 10; last, 2^64 - 1 that drew 11 */
    unsigned long uplink[UPLINKS];              /* what has to do with number 13 */
    unsigned long lcr[LCRS];                    /* what has to do with number 14, and with sub-frames */
    unsigned long clips[CLIPS];                 /* what has to do with clipping */
} met[CALLS];

/* ---- Counting ---- */

/* Whether accepted fields are those of the sheet, of which the kinds are known. */
static bool of_sheet(const uint16_t *fields)
{
    for (unsigned place = 0; place < UMV_FIELDS; place++)
        if (in_use(drawn.fields, place) && fields[place] != drawn.fields[place])
            return false;
    return !drawn.damaged;
}

/* The TrCH that the call asks for, or that it answers for a place, or 0. */
static uint64_t trch_of(const struct call *call, const struct given *given, const struct answer *answer)
{
    size_t number = 0;
    for (const char *parameter = call->parameters; *parameter != '\0'; parameter++) {
        if (*parameter == 'c')
            return given->whole[number];
        number += unit_of(*parameter) == 0;
    }
    return takes(call, 'u') ? answer->at[0].whole : 0;
}

static uint64_t kinds_of(const struct call *call, const struct given *given, const struct answer *answer)
{
    if (takes(call, 'f') && !of_sheet(given->slices[0].start))
        return 0;
    uint64_t trch = trch_of(call, given, answer);
    uint64_t kinds = drawn.kinds;
    for (uint32_t i = 0; i < drawn.channels; i++)
        if (trch == 0 || trch == i + 1)
            kinds |= drawn.channel_kinds[i];
    return kinds;
}

/* Whether a slot has more than two codes, and the greatest logarithm of a code. */
static bool many_codes(const uint16_t *fields, uint32_t *greatest_log)
{
    bool many = false;
    *greatest_log = 0;
    for (uint32_t t = 0; t < fields[UMV_FIELD_SLOTS]; t++) {
        many = many || fields[UMV_FIELD_PHCHS + t] > 2;
        for (uint32_t p = 0; p < fields[UMV_FIELD_PHCHS + t]; p++) {
            uint32_t log = fields[UMV_FIELD_LOGARITHMS + 16 * t + p];
            *greatest_log = log > *greatest_log ? log : *greatest_log;
        }
    }
    return many;
}

/* Which of the lines 6, 7 and 8 hold of fields in their ranges, for a frame of so many sub-frames. */
static uint32_t sums_of(const uint16_t *fields, uint64_t subframes)
{
    uint64_t joined = 0, capacity = 0;
    for (uint32_t i = 0; i < fields[UMV_FIELD_CHANNELS]; i++) {
        uint32_t f = 1u << fields[UMV_FIELD_TTI + i];
        joined += (fields[UMV_FIELD_E + i] + f - 1) / f * f;
    }
    for (uint32_t t = 0; t < fields[UMV_FIELD_SLOTS]; t++)
        for (uint32_t p = 0; p < fields[UMV_FIELD_PHCHS + t]; p++)
            capacity += subframes * fields[UMV_FIELD_CAPACITIES + 16 * t + p];
    return (uint32_t)(joined > 60000) << 6 | (uint32_t)(capacity > 60000) << 7 | (uint32_t)(joined == 0) << 8;
}

/* What a call met that has these fields, of which no line before 5 holds. */
static void count_uplink(size_t call, const uint16_t *fields, uint64_t number)
{
    uint32_t log, sums = sums_of(fields, fields[UMV_FIELD_LCR] + 1u);
    bool uplink = fields[UMV_FIELD_UPLINK] == 1, many = many_codes(fields, &log);
    unsigned long *counts = met[call].uplink;
    counts[BEHIND_5] += number == UMV_NO_CAPACITY && uplink && (many || log > 4);
    counts[NOT_LOOKED] += number == UMV_OK && !uplink && log > 4;
    if (number != UMV_UPLINK_CODES)
        return;
    counts[BY_CODES] += log <= 4;
    counts[BY_LOG] += !many;
    counts[TOO_LONG] += !many && log > 7;
    for (unsigned line = 6; line <= 8; line++)
        counts[BEFORE_6 + line - 6] += sums >> line & 1;
}

static void count_lcr(size_t call, const uint16_t *fields, uint64_t number)
{
    bool lcr = fields[UMV_FIELD_LCR] == 1, many = lcr && fields[UMV_FIELD_SLOTS] > UMV_SUBFRAME_SLOTS_MOST;
    uint32_t sums = sums_of(fields, fields[UMV_FIELD_LCR] + 1u);
    unsigned long *counts = met[call].lcr;
    counts[SLOTS_BEHIND_5] += number == UMV_NO_CAPACITY && many;
    counts[SLOTS_BEHIND_13] += number == UMV_UPLINK_CODES && many;
    counts[BY_BOTH] += number == UMV_MUCH_CAPACITY && lcr && (sums_of(fields, 1) >> 7 & 1) == 0;
    for (unsigned line = 6; line <= 8; line++)
        counts[SLOTS_BEFORE_6 + line - 6] += number == UMV_SUBFRAME_SLOTS && (sums >> line & 1);
}

/* The fields that the call was given, or those of its sheet, if it was not damaged. */
static void count_fields(size_t call, const struct given *given, uint64_t number)
{
    bool given_fields = takes(&calls[call], 'f');
    const uint16_t *fields = given_fields ? given->slices[0].start : drawn.fields;
    bool asked = number == UMV_OK || (number >= UMV_NO_CAPACITY && number <= UMV_NO_CONTENT) ||
                 number == UMV_UPLINK_CODES || number == UMV_SUBFRAME_SLOTS;
    met[call].lcr[OPTION_OVER] += given_fields && number == UMV_FORM && fields[UMV_FIELD_LCR] > 1;
    if (!asked || (drawn.damaged && !given_fields))
        return;
    count_uplink(call, fields, number);
    count_lcr(call, fields, number);
}

/* The sub-frame that a name was asked in. */
static void count_subframe(size_t call, const struct given *given, uint64_t number)
{
    if (!takes(&calls[call], 'h'))
        return;
    unsigned long *counts = met[call].lcr;
    uint32_t subframe = given->whole[1]; /* behind the frame number */
    counts[SECOND] += number == UMV_OK && subframe == 2;
    /* Whether it is the sub-frame alone that is not there. */
    struct given first = *given;
    struct answer answer;
    first.whole[1] = 1;
    if (number != UMV_ABSENT || calls[call].run(&reference, &first, &answer) != UMV_OK)
        return;
    counts[NONE] += subframe == 0;
    counts[NO_SECOND] += subframe == 2;
    counts[NO_THIRD] += subframe == 3;
}

static void count_empty(size_t call, const struct given *given, uint64_t number)
{
    for (size_t i = 0; slice_of(&calls[call], i) != '\0'; i++) {
        bool looked_at = number == UMV_OK || number == UMV_LENGTH || (number == UMV_SHORT && i == 0);
        met[call].empty[i] += looked_at && given->slices[i].count == 0;
    }
}

static void count_greatest(size_t call, const struct given *given, uint64_t number)
{
    size_t numbers = 0;
    for (const char *parameter = calls[call].parameters; *parameter != '\0'; parameter++) {
        if (*parameter == 'l')
            met[call].greatest[MOST_WHOLE] += number == UMV_LENGTH && given->length == UINT64_MAX;
        else if (unit_of(*parameter) == 0) {
            uint64_t drawn_by = *parameter == 'n' ? UMV_FRAME_NUMBER : UMV_ABSENT;
            met[call].greatest[numbers] += number == drawn_by && given->whole[numbers] == UINT32_MAX;
            numbers++;
        }
    }
}

void count_call(size_t call, const struct given *given, const struct answer *answer)
{
    met[call].numbers[answer->number]++;
    count_empty(call, given, answer->number);
    count_greatest(call, given, answer->number);
    count_fields(call, given, answer->number);
    count_subframe(call, given, answer->number);
    if (answer->number != UMV_OK)
        return;
    uint64_t kinds = kinds_of(&calls[call], given, answer);
    for (int kind = 0; kind < KINDS; kind++)
        met[call].kinds[kind] += kinds >> kind & 1;
    uint32_t clips = clips_of(&calls[call], given);
    for (int clip = 0; clip < CLIPS; clip++)
        met[call].clips[clip] += clips >> clip & 1;
}

void count_place(size_t call, size_t slice, const void *start)
{
    met[call].places[slice][(uintptr_t)start % OFFSETS]++;
}

/* ---- Reporting: tables with a row for each call; a cell answers whether its count is 0 and should not be ---- */

static unsigned print_count(bool possible, unsigned long count)
{
    if (possible)
        printf(" %6lu", count);
    else
        printf("      -");
    return possible && count == 0;
}

static unsigned print_number(size_t call, size_t number)
{
    return print_count(calls[call].numbers >> number & 1, met[call].numbers[number]);
}

/* An empty channel has no place and no bit, so that calls that ask for one are never accepted on it. */
static unsigned print_kind(size_t call, size_t kind)
{
    bool possible = kind != EMPTY || !(takes(&calls[call], 'u') || takes(&calls[call], 'm'));
    return print_count(possible, met[call].kinds[kind]);
}

static unsigned print_run(size_t call, size_t column)
{
    return print_kind(call, FULL_UPLINK + column);
}

static unsigned print_lcr_kind(size_t call, size_t column)
{
    return print_kind(call, LCR_FRAME + column);
}

static unsigned print_lcr(size_t call, size_t column)
{
    bool possible = column < OPTION_OVER || takes(&calls[call], column == OPTION_OVER ? 'f' : 'h');
    return print_count(possible, met[call].lcr[column]);
}

static unsigned print_uplink(size_t call, size_t column)
{
    return print_count(column < TOO_LONG || takes(&calls[call], 'f'), met[call].uplink[column]);
}

static unsigned print_clip(size_t call, size_t column)
{
    return print_count(can_meet(&calls[call], (enum clip)column), met[call].clips[column]);
}

/* How often a slice was empty, and how often it lay at the rarest of the offsets that its type allows. */
static unsigned print_slice(size_t call, size_t column)
{
    size_t slice = column / 2, unit = unit_of(slice_of(&calls[call], slice));
    if (unit == 0 || column % 2 == 0)
        return print_count(unit != 0, met[call].empty[slice]);
    unsigned long least = met[call].places[slice][0];
    for (size_t offset = unit; offset < OFFSETS; offset += unit)
        least = met[call].places[slice][offset] < least ? met[call].places[slice][offset] : least;
    return print_count(true, least);
}

/* How often the number of this letter was the greatest there is, and drew its refusal. */
static unsigned print_greatest(size_t call, char letter)
{
    size_t numbers = 0;
    for (const char *parameter = calls[call].parameters; *parameter != '\0'; parameter++) {
        if (*parameter == letter)
            return print_count(true, met[call].greatest[letter == 'l' ? MOST_WHOLE : numbers]);
        numbers += unit_of(*parameter) == 0;
    }
    return print_count(false, 0);
}

static unsigned print_parameter(size_t call, size_t column)
{
    size_t of_slices = 2 * MOST_SLICES;
    return column < of_slices ? print_slice(call, column) : print_greatest(call, "nchtpuml"[column - of_slices]);
}

static unsigned print_table(const char *title, const char *const *heads, size_t columns,
                            unsigned (*print)(size_t call, size_t column))
{
    unsigned missing = 0;
    printf("\n%s\n%17s", title, "");
    for (size_t column = 0; column < columns; column++)
        printf(" %6s", heads[column]);
    puts("");
    for (size_t call = 0; call < CALLS; call++) {
        unsigned here = 0;
        printf("%-17s", calls[call].name);
        for (size_t column = 0; column < columns; column++)
            here += print(call, column);
        puts(here != 0 ? "  NOT ALL MET" : "");
        missing += here;
    }
    return missing;
}

/* Of accepted calls: what kinds of sheet and channel they met. */
static unsigned report_kinds(void)
{
    static const char *const kinds[] = {"mode 0", "mode 1", "418", "I = 8", "I = 9", "I = 16", "D", "T", "P = 1", "P = 3",
                                        "TrCH 9", "E = 0",  "V < N",  "V = N", "V > N", "1,000", "q odd", "q even", "F | q"};
    static const char *const runs[] = {"D",   "1 code", "1, 1", "2, 1",  "4, 1",  "8, 1", "16, 1", "1, 2",
                                       "1, 4", "1, 8",   "1, 16", "cut 1", "cut 2", "long",  "short"};
    static const char *const lcr[] = {"mode 0", "mode 1", "T = 7", "I = 16", "D", "1 code", "runs", "cut"};
    unsigned missing = print_table(
        "Accepted: sheets of both modes, of 418 bytes, of 8, 9 and 16 channels, D and sums of T_i of 60,000,\n"
        "with a slot interleaved by itself of one PhCH, or of three of one capacity over 20;\n"
        "channels that are behind the eighth, empty, punctured, unaltered, repeated, of which a bit is sent\n"
        "1,000 times or more, and, in TTIs of several frames, with a q that is odd, even and no multiple of F,\n"
        "and a multiple of F",
        kinds, sizeof kinds / sizeof *kinds, print_kind);
    missing += print_table("Accepted: uplink sheets of 60,000 places; with a slot of one code, of two that take so many bits at\n"
                           "their turns (the one with a run has a whole turn), of two of which this one fills up in mid-run,\n"
                           "of two of which the one with the longer run, or with the shorter, is full and passed over",
                           runs, sizeof runs / sizeof *runs, print_run);
    missing += print_table("Accepted: 1.28 Mcps sheets of several slots in both modes, of 7 slots, 16 channels, 60,000 places;\n"
                           "uplink ones with a slot of one code, of two of which one has runs, of one that fills up in mid-run",
                           lcr, sizeof lcr / sizeof *lcr, print_lcr_kind);
    return missing;
}

unsigned report_met(void)
{
    static const char *const numbers[] = {"0", "1", "2", "3", "4", "5", "6", "7", "8", "9", "10", "11", "12", "13", "14"};
    static const char *const parameters[] = {"1st",  "offset", "2nd",  "offset", "3rd",   "offset", "frame",
                                             "TrCH", "sub-f.", "slot", "PhCH",   "place", "bit",    "length"};
    static const char *const uplinks[] = {"codes", "log", "13, 6", "13, 7", "13, 8", "5, 13", "log>7", "unseen"};
    static const char *const lcrs[] = {"14, 6", "14, 7", "14, 8", "5, 14", "13, 14", "both", "over 1",
                                       "second", "0th",  "no 2nd", "no 3rd"};
    static const char *const clips[] = {"once >", "once <", "sum >", "sum <",  "back >",
                                        "back <", "1,024",  "-1,024", "-0.0", "beyond"};
    unsigned missing = print_table("Numbers answered", numbers, NUMBERS, print_number);
    missing += report_kinds();
    missing += print_table("Refused with 13 for many codes alone, for a logarithm alone, where 6, 7 or 8 holds too; with 5\n"
                           "where 13 holds too; of fields, 13 for a logarithm over 7; downlink fields with logarithms over 4",
                           uplinks, UPLINKS, print_uplink);
    missing += print_table("Refused with 14 where 6, 7 or 8 holds too, with 5 and 13 where 14 does; with 7 for both sub-frames\n"
                           "together; of fields, 4 for the 1.28 Mcps field; of names, sub-frame 2, and 10 for sub-frame 0, 2 and 3",
                           lcrs, LCRS, print_lcr);
    missing += print_table("Accepted: values heard once, over 1,024 and under -1,024; sums; sums that came back, which clipped at each\n"
                           "addition would give another answer; values just there; -0.0; values beyond, moved or left as they were",
                           clips, CLIPS, print_clip);
    missing += print_table("Slices that were empty, each lent with a valid, a null and another pointer; slices at the rarest\n"
                           "offset that their type allows; numbers of 2^32 - 1 and lengths of 2^64 - 1 that drew a refusal",
                           parameters, sizeof parameters / sizeof *parameters, print_parameter);
    return missing;
}
