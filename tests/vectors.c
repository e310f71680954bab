/*
 * vectors IMPLEMENTATION FILE [unclipped]: runs each line `CALL ARGUMENTS => ANSWER` of FILE on the library or the reference
 * (see implementation.h) and compares everything it answers. The reference has to know every call of the file. An `unclipped`
 * file is of a release that did not clip: where it has a joined value beyond 1,024, that bound is expected.
 *
 * A byte slice is hex; 16-bit values are four digits each; a float is eight digits, its bit pattern; an empty slice is
 * `-`; numbers are decimal. A slice that the call writes stands among the arguments as it is before, and in the answer
 * as it is after the call. Empty lines and lines that begin with `#` say nothing.
 */
#define _POSIX_C_SOURCE 200809L
#include <math.h>
#include <stdarg.h>
#include <stdbool.h>
#include <stdio.h>
#include <stdlib.h>
#include <string.h>

#include "call.h"

enum {
    GUARD = 64,        /* bytes before and behind each lent slice: a multiple of every alignment */
    GUARD_BYTE = 0xa5, /* what they hold */
    MOST_SHOWN = 20,   /* differences printed */
    MOST_NAMES = 32    /* different calls that are not known */
};

/* A slice lent to a call, between its guards, with its bytes as they are to be after the call. */
struct slice {
    unsigned char *room; /* guard, bytes, guard */
    unsigned char *expected;
    size_t bytes;
    size_t count; /* values */
    size_t unit;  /* bytes of a value */
};

/* The line at work. */
struct line {
    unsigned long number;
    const char *call;
    char *rest; /* what of it is not yet read */
    bool clips; /* what is expected has yet to be clipped */
    bool wrong;
    struct slice slices[MOST_SLICES];
    size_t slice_count;
};

static const struct implementation *tested;

static bool unclipped;

static unsigned long shown;

static void wrong(struct line *line, const char *format, ...)
{
    line->wrong = true;
    if (shown++ >= MOST_SHOWN)
        return;
    va_list arguments;
    va_start(arguments, format);
    printf("line %lu, %s: ", line->number, line->call);
    vprintf(format, arguments);
    putchar('\n');
    va_end(arguments);
}

static void *need(void *memory)
{
    if (memory == NULL) {
        fputs("vectors: no memory\n", stderr);
        exit(2);
    }
    return memory;
}

/* ---- The words of a line ---- */

static const char *next_word(struct line *line)
{
    char *word = line->rest + strspn(line->rest, " \r\n");
    size_t length = strcspn(word, " \r\n");
    line->rest = word + length;
    if (*line->rest != '\0')
        *line->rest++ = '\0';
    return word;
}

static uint64_t next_number(struct line *line)
{
    const char *word = next_word(line);
    if (*word == '\0' || strspn(word, "0123456789") != strlen(word))
        wrong(line, "a number is missing, there is '%.40s'", word);
    return strtoull(word, NULL, 10);
}

static void store_value(unsigned char *to, size_t unit, const char *digits)
{
    char text[9] = "";
    memcpy(text, digits, 2 * unit);
    uint32_t wide = (uint32_t)strtoul(text, NULL, 16);
    uint16_t half = (uint16_t)wide;
    uint8_t byte = (uint8_t)wide;
    memcpy(to, unit == 4 ? (void *)&wide : unit == 2 ? (void *)&half : (void *)&byte, unit);
}

/* Reads the next word as values of `unit` bytes, 1, 2 or 4, to new memory. */
static unsigned char *next_values(struct line *line, size_t unit, size_t *count)
{
    const char *word = next_word(line);
    size_t digits = strcmp(word, "-") == 0 ? 0 : strlen(word);
    if (digits % (2 * unit) != 0 || strspn(word, "0123456789abcdef") < digits || *word == '\0') {
        wrong(line, "values in hex are missing, there is '%.40s'", word);
        digits = 0;
    }
    *count = digits / (2 * unit);
    unsigned char *values = need(malloc(digits / 2 + 1));
    for (size_t i = 0; i < *count; i++)
        store_value(values + i * unit, unit, word + 2 * unit * i);
    return values;
}

/* All of a buffer: in no unclipped file does a lent one hold a value beyond the bound, so that none of those that stay is changed. */
static void clip(unsigned char *values, size_t count)
{
    for (; count > 0; count--, values += sizeof(float)) {
        float value;
        memcpy(&value, values, sizeof value);
        if (fabsf(value) > 1024.0f) { /* no NaN is */
            value = copysignf(1024.0f, value);
            memcpy(values, &value, sizeof value);
        }
    }
}

/* Reads the next word of the answer. */
static unsigned char *next_expected(struct line *line, size_t unit, size_t *count)
{
    unsigned char *values = next_values(line, unit, count);
    if (line->clips)
        clip(values, *count);
    return values;
}

static void next_arrow(struct line *line)
{
    const char *word = next_word(line);
    if (strcmp(word, "=>") != 0)
        wrong(line, "'=>' is missing, there is '%.40s'", word);
}

/* ---- Lending and comparing ---- */

/* The next argument as a slice of values of `unit` bytes, expected to stay as it is unless expect_written follows. */
static struct slice *lend(struct line *line, size_t unit)
{
    struct slice *slice = &line->slices[line->slice_count++];
    slice->unit = unit;
    slice->expected = next_values(line, unit, &slice->count);
    slice->bytes = slice->count * unit;
    slice->room = need(malloc(slice->bytes + 2 * GUARD));
    memset(slice->room, GUARD_BYTE, slice->bytes + 2 * GUARD);
    memcpy(slice->room + GUARD, slice->expected, slice->bytes);
    return slice;
}

static void *start(const struct slice *slice)
{
    return slice->room + GUARD;
}

static void expect(struct line *line, const char *what, uint64_t got)
{
    uint64_t expected = next_number(line);
    if (got != expected)
        wrong(line, "%s is %llu, expected %llu", what, (unsigned long long)got, (unsigned long long)expected);
}

/* The next word of the answer is a float by its bit pattern, so that zeros and NaNs are told apart. */
static void expect_float(struct line *line, const char *what, float got)
{
    size_t count;
    unsigned char *expected = next_expected(line, sizeof got, &count);
    if (count != 1 || memcmp(expected, &got, sizeof got) != 0)
        wrong(line, "%s is %a, not what is expected", what, (double)got);
    free(expected);
}

/* The next word of the answer is the slice as it is to be now. */
static void expect_written(struct line *line, struct slice *slice)
{
    size_t count;
    unsigned char *after = next_expected(line, slice->unit, &count);
    if (count == slice->count) {
        free(slice->expected);
        slice->expected = after;
    } else {
        wrong(line, "the answer's slice has %zu values, the lent one %zu", count, slice->count);
        free(after);
    }
}

static void compare_slice(struct line *line, size_t which)
{
    const struct slice *slice = &line->slices[which];
    const unsigned char *bytes = start(slice);
    for (size_t i = 0; i < slice->bytes; i++)
        if (bytes[i] != slice->expected[i]) {
            wrong(line, "slice %zu differs first in its value %zu, counted from 0", which + 1, i / slice->unit);
            break;
        }
    for (size_t i = 0; i < GUARD; i++)
        if (slice->room[i] != GUARD_BYTE || bytes[slice->bytes + i] != GUARD_BYTE) {
            wrong(line, "memory outside slice %zu was written", which + 1);
            break;
        }
}

/* ---- The calls ---- */

/* The slices and numbers before the arrow. Answers the slice that the call writes, or null. */
static struct slice *read_given(struct line *line, const struct call *call, struct given *given)
{
    struct slice *written = NULL;
    size_t slices = 0, whole = 0;
    for (const char *parameter = call->parameters; *parameter != '\0'; parameter++) {
        if (unit_of(*parameter) != 0) {
            struct slice *slice = lend(line, unit_of(*parameter));
            given->slices[slices].start = start(slice);
            given->slices[slices++].count = slice->count;
            written = is_written(*parameter) ? slice : written;
        } else if (*parameter == 'l') {
            given->length = next_number(line);
        } else {
            given->whole[whole++] = (uint32_t)next_number(line);
        }
    }
    return written;
}

static void run_call(struct line *line, const struct call *call)
{
    struct given given = {.length = 0};
    struct answer answer = unwritten();
    struct slice *written = read_given(line, call, &given);
    line->clips = unclipped && joins(call);
    next_arrow(line);
    expect(line, "number", call->run(tested, &given, &answer));
    for (size_t i = 0; call->answers[i] != '\0'; i++)
        if (call->answers[i] == 's')
            expect_float(line, call->answer_names[i], answer.at[i].soft);
        else
            expect(line, call->answer_names[i], answer.at[i].whole);
    if (written != NULL)
        expect_written(line, written);
}

/* The call of that name, or null. */
static const struct call *call_named(const char *name)
{
    for (size_t i = 0; i < CALLS; i++)
        if (strcmp(name, calls[i].word) == 0)
            return &calls[i];
    return NULL;
}

/* ---- The file ---- */

static unsigned long lines_run, lines_wrong, lines_other;

static struct {
    char name[24];
    unsigned long lines;
} others[MOST_NAMES];

static void count_other(const char *name)
{
    lines_other++;
    for (size_t i = 0; i < MOST_NAMES; i++) {
        if (others[i].lines == 0)
            snprintf(others[i].name, sizeof others[i].name, "%s", name);
        if (strcmp(others[i].name, name) == 0) {
            others[i].lines++;
            return;
        }
    }
}

/* What every call has in common: nothing is left of the line, and all that was lent is as expected. */
static void finish_line(struct line *line)
{
    const char *word = next_word(line);
    if (*word != '\0')
        wrong(line, "too much at the end: '%.40s'", word);
    for (size_t i = 0; i < line->slice_count; i++) {
        compare_slice(line, i);
        free(line->slices[i].room);
        free(line->slices[i].expected);
    }
    lines_run++;
    lines_wrong += line->wrong;
}

static void run_line(char *text, unsigned long number)
{
    struct line line = {.number = number, .rest = text};
    line.call = next_word(&line);
    if (*line.call == '\0' || *line.call == '#')
        return;
    const struct call *call = call_named(line.call);
    if (call == NULL) {
        count_other(line.call);
        return;
    }
    run_call(&line, call);
    finish_line(&line);
}

static void print_others(void)
{
    if (lines_other == 0)
        return;
    printf("vectors: not run:");
    for (size_t i = 0; i < MOST_NAMES && others[i].lines != 0; i++)
        printf(" %s (%lu)", others[i].name, others[i].lines);
    putchar('\n');
}

static const struct implementation *implementation_named(const char *name)
{
    return strcmp(name, library.name) == 0 ? &library : strcmp(name, reference.name) == 0 ? &reference : NULL;
}

int main(int argc, char **argv)
{
    unclipped = argc == 4 && strcmp(argv[3], "unclipped") == 0;
    tested = argc == 3 || unclipped ? implementation_named(argv[1]) : NULL;
    FILE *file = tested != NULL ? fopen(argv[2], "r") : NULL;
    if (file == NULL) {
        fputs("vectors: library or reference, a vector file that can be opened, and at most 'unclipped' behind it\n", stderr);
        return 2;
    }
    char *text = NULL;
    size_t room = 0;
    for (unsigned long number = 1; getline(&text, &room, file) != -1; number++)
        run_line(text, number);
    bool broken = ferror(file) != 0;
    free(text);
    fclose(file);
    if (shown > MOST_SHOWN)
        printf("and %lu differences more\n", shown - MOST_SHOWN);
    print_others();
    printf("vectors: %s: %lu lines run, %lu wrong, %lu of other calls not run\n", tested->name, lines_run, lines_wrong,
           lines_other);
    if (broken)
        fputs("vectors: the file could not be read to its end\n", stderr);
    bool missing = tested == &reference && lines_other != 0;
    return broken || missing || lines_wrong != 0 || lines_run == 0;
}
