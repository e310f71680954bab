/*
 * random [SEED [CALLS]]: makes CALLS random calls: draws sheets, good and damaged, and on each of them every call of the
 * library with arguments, good and damaged; compares number, answers and all lent memory with the reference, bit for bit.
 * The library makes each call three times, with its slices lent in three ways (lent.h). The first difference or fault ends
 * the run. It fails also if something that is counted (random-met.c) was never met. The same seed makes the same calls
 * everywhere.
 */
#include <stdio.h>
#include <stdlib.h>
#include <string.h>

#include "chance.h"
#include "lent.h"
#include "random.h"

enum {
    USUAL = 60000,  /* calls, unless asked otherwise */
    A_SIGN = 100000 /* calls after which a sign of life is given */
};

static uint64_t seed = 0x2522200410203040;

/* The call at work, kept for what is told of it. */
static struct {
    unsigned long number; /* from 1 */
    size_t call;
    enum way way;
    struct given given;
    struct answer theirs;
    uint8_t their_slices[MOST_SLICES][LENT_MOST];
} now;

static size_t bytes_of(size_t slice)
{
    return unit_of(slice_of(&calls[now.call], slice)) * now.given.slices[slice].count;
}

static bool may_be_written(size_t slice)
{
    return is_written(slice_of(&calls[now.call], slice)) && now.theirs.number == UMV_OK;
}

/* ---- Telling ---- */

/* All that is needed to make the call again. */
static void tell(void)
{
    static const char *const ways[] = {"at the end of a page", "at the start of a page", "anywhere"};
    const struct call *call = &calls[now.call];
    printf("seed %#llx, call %lu, %s, slices %s; the reference answers %llu\n    given", (unsigned long long)seed, now.number,
           call->name, ways[now.way], (unsigned long long)now.theirs.number);
    size_t slices = 0, numbers = 0;
    for (const char *parameter = call->parameters; *parameter != '\0'; parameter++)
        if (unit_of(*parameter) != 0)
            printf(" %c[%zu]", *parameter, now.given.slices[slices++].count);
        else if (*parameter == 'l')
            printf(" l=%llu", (unsigned long long)now.given.length);
        else
            printf(" %c=%lu", *parameter, (unsigned long)now.given.whole[numbers++]);
    printf("\n    sheet ");
    for (size_t i = 0; i < drawn.sheet_len; i++)
        printf("%02x", (unsigned)drawn.sheet[i]);
    printf("\n    again: make soak SEED=%#llx CALLS=%lu\n", (unsigned long long)seed, now.number);
}

/* Each prints what differs, if anything does. */
static bool numbers_differ(const struct answer *ours)
{
    uint64_t number = ours->number;
    if (number != now.theirs.number)
        printf("the number is %llu\n", (unsigned long long)number);
    else if (number >= NUMBERS || (calls[now.call].numbers >> number & 1) == 0)
        printf("the number %llu is none of this call's\n", (unsigned long long)number);
    else
        return false;
    return true;
}

static bool answers_differ(const struct answer *ours)
{
    for (size_t i = 0; i < MOST_ANSWERS; i++)
        if (memcmp(&ours->at[i], &now.theirs.at[i], sizeof ours->at[i]) != 0) {
            printf("answer %zu, or what lies beside it, differs: %#llx and %a, not %#llx and %a\n", i + 1,
                   (unsigned long long)ours->at[i].whole, (double)ours->at[i].soft,
                   (unsigned long long)now.theirs.at[i].whole, (double)now.theirs.at[i].soft);
            return true;
        }
    return false;
}

static bool slice_differs(size_t slice, const uint8_t *ours)
{
    if (bytes_of(slice) != 0 && memcmp(ours, now.their_slices[slice], bytes_of(slice)) != 0) {
        size_t i = 0;
        while (ours[i] == now.their_slices[slice][i])
            i++;
        printf("slice %zu differs first in its byte %zu, counted from 0\n", slice + 1, i);
        return true;
    }
    if (!sides_kept(slice)) {
        printf("memory beside slice %zu was written\n", slice + 1);
        return true;
    }
    return false;
}

/* ---- Comparing ---- */

/* The reference's call, on copies. It must leave what must not be written, or the comparison says nothing. */
static void run_reference(void)
{
    const struct call *call = &calls[now.call];
    struct given given = now.given;
    now.theirs = unwritten();
    for (size_t i = 0; slice_of(call, i) != '\0'; i++) {
        given.slices[i].start = now.their_slices[i];
        memcpy(now.their_slices[i], now.given.slices[i].start, bytes_of(i));
    }
    now.theirs.number = call->run(&reference, &given, &now.theirs);
    for (size_t i = 0; slice_of(call, i) != '\0'; i++)
        if (!may_be_written(i) && memcmp(now.their_slices[i], now.given.slices[i].start, bytes_of(i)) != 0) {
            printf("the reference wrote slice %zu and must not\n", i + 1);
            tell();
            exit(2);
        }
}

/* Whether the library's call, with its slices lent this way, differs from the reference's. */
static bool library_differs(enum way way)
{
    const struct call *call = &calls[now.call];
    struct given given = now.given;
    struct answer ours = unwritten();
    now.way = way;
    for (size_t i = 0; slice_of(call, i) != '\0'; i++) {
        given.slices[i].start = lend(i, way, now.given.slices[i].start, given.slices[i].count,
                                     unit_of(slice_of(call, i)), !may_be_written(i));
        if (given.slices[i].count != 0)
            count_place(now.call, i, given.slices[i].start);
    }
    ours.number = call->run(&library, &given, &ours);
    bool differs = numbers_differ(&ours) || answers_differ(&ours);
    for (size_t i = 0; !differs && slice_of(call, i) != '\0'; i++)
        differs = slice_differs(i, given.slices[i].start);
    return differs;
}

/* Whether one of the library's three calls differs. */
static bool compare(size_t call)
{
    now.number++;
    now.call = call;
    draw_given(call, &now.given);
    run_reference();
    for (enum way way = 0; way < WAYS; way++)
        if (library_differs(way)) {
            tell();
            return true;
        }
    count_call(call, &now.given, &now.theirs);
    if (now.number % A_SIGN == 0) {
        printf("random: %lu calls compared\n", now.number);
        fflush(stdout);
    }
    return false;
}

/* On each sheet every call once, a name four times. Each begins chance anew, so that it does not hang on the other calls. */
static bool compare_all(unsigned long most)
{
    for (uint64_t sheet = 1; now.number < most; sheet++) {
        begin(seed, sheet << 16);
        draw_sheet();
        for (size_t call = 0; call < CALLS; call++) {
            unsigned times = takes(&calls[call], 'u') ? 4 : 1;
            begin(seed, sheet << 16 | (call + 1));
            for (unsigned k = 0; k < times && now.number < most; k++)
                if (compare(call))
                    return false;
        }
    }
    return true;
}

int main(int argc, char **argv)
{
    const unsigned long most = argc > 2 ? strtoul(argv[2], NULL, 0) : USUAL;
    seed = argc > 1 ? strtoull(argv[1], NULL, 0) : seed;
    printf("random: seed %#llx, %lu calls\n", (unsigned long long)seed, most);
    fflush(stdout);
    lent_open(tell);
    if (!compare_all(most))
        return 1;
    unsigned missing = report_met();
    printf("\nrandom: %lu calls compared, 0 differ, %u things not met\n", now.number, missing);
    return missing != 0;
}
