/*
 * picture SHEET NUMBER SVG: reads the picture of the sheet's frame of that number as an XML reader would, and holds the
 * look of each place, drawn exactly once, and the legend against the reference. A refused one has to say its number.
 * picture DIRECTORY: writes the sheets that picture.sh tries there.
 */
#include <inttypes.h>
#include <stdarg.h>
#include <stdbool.h>
#include <stdio.h>
#include <stdlib.h>
#include <string.h>

#include "reference.h"
#include "ummervia.h"

enum { MOST = 60000, DEEPEST = 8, MOST_LINES = 100, LINE = 1000 }; /* LINE: px of a full line of cells */
enum { HALVES = UMV_SUBFRAMES_MOST };                              /* counted from 0, as slots and PhCHs are in arrays */

/* What is drawn at a place: the channels, copy marks, filler boxes and their holes, each counted. */
struct look {
    unsigned channels, channel, copies, fillers, holes;
};

/* A physical channel, where it begins in the frame, how often it is drawn and how wide its cells are. */
struct phch {
    unsigned capacity, first, groups, width;
};

/* How far a picture is read: the elements that are open, the PhCH whose cells come, where the last one's ended, and the
   labels that were read since. */
struct reader {
    char open[DEEPEST][16];
    unsigned depth;
    struct phch *group;
    long bottom;
    unsigned subframe, slot, phch, starts;
    struct {
        unsigned place;
        long y;
    } start[MOST_LINES];
};

static uint8_t sheet[UMV_SHEET_FORM_MOST + 1];
static size_t sheet_len;
static uint16_t fields[UMV_FIELDS];
static uint64_t channels, capacity;
static uint32_t frame_number;
static struct look looks[MOST], wanted[MOST];
static struct phch phchs[HALVES][15][16];
static char text[1 << 23];

static void fail(const char *format, ...)
{
    va_list arguments;
    va_start(arguments, format);
    fputs("picture: ", stderr);
    vfprintf(stderr, format, arguments);
    fputc('\n', stderr);
    va_end(arguments);
    exit(1);
}

static size_t read_file(const char *path, void *room, size_t most)
{
    FILE *file = fopen(path, "rb");
    if (file == NULL)
        fail("%s cannot be opened", path);
    size_t length = fread(room, 1, most, file);
    fclose(file);
    return length;
}

/* ---- What the reference says ---- */

/* The number of the bit at each index of the multiplexed frame, 0 for a filler: digit by digit, as contents that are
   sent. */
static void number_bits(uint32_t *bits)
{
    static uint8_t contents[MOST], multiplexed[MOST];
    for (unsigned digit = 0; digit < 14; digit++) {
        size_t length = 0;
        uint64_t at;
        for (unsigned i = 0; i < channels; i++)
            for (unsigned bit = 1; bit <= fields[UMV_FIELD_E + i]; bit++)
                contents[length++] = bit >> digit & 1;
        if (ref_multiplex(sheet, sheet_len, frame_number, contents, length, multiplexed, capacity, &at) != 0)
            fail("the reference does not multiplex");
        for (uint64_t k = 0; k < capacity; k++)
            bits[k] |= (uint32_t)multiplexed[k] << digit;
    }
}

/* Copies of a bit stand side by side in a channel's part, and a segment has at most one filler. */
static void expect(void)
{
    static uint32_t bits[MOST];
    static float frame[MOST], places[MOST]; /* the index of each place of the frame, carried to the multiplexed frame */
    uint64_t at, start, length;
    number_bits(bits);
    for (uint64_t k = 0; k < capacity; k++)
        frame[k] = (float)k;
    if (ref_gather(sheet, sheet_len, frame, capacity, places, capacity, &at) != 0)
        fail("the reference does not gather");
    for (uint32_t i = 1; i <= channels; i++) {
        ref_part(sheet, sheet_len, i, capacity, &start, &length);
        for (uint64_t k = start; k < start + length; k++) {
            bool again = k > start && bits[k] == bits[k - 1], filler = bits[k] == 0;
            wanted[(size_t)places[k]] = (struct look){1, i, again, filler, filler};
        }
    }
}

/* ---- What is drawn ---- */

/* Lays out what the sheet has, from its fields. */
static void place_phchs(void)
{
    unsigned first = 0;
    for (unsigned h = 0; h <= fields[UMV_FIELD_LCR]; h++)
        for (unsigned t = 0; t < fields[UMV_FIELD_SLOTS]; t++)
            for (unsigned p = 0; p < fields[UMV_FIELD_PHCHS + t]; p++) {
                phchs[h][t][p].capacity = fields[UMV_FIELD_CAPACITIES + 16 * t + p];
                phchs[h][t][p].first = first;
                first += phchs[h][t][p].capacity;
            }
}

/* An attribute of a tag, or NULL; ends with the quote. */
static const char *attribute(const char *tag, const char *name)
{
    char wanted_text[32];
    snprintf(wanted_text, sizeof wanted_text, " %s=\"", name);
    const char *found = strstr(tag, wanted_text);
    return found == NULL ? NULL : found + strlen(wanted_text);
}

/* The label of a slot: in uplink it says the spreading factor of each code. */
static void check_head(unsigned t, const char *label)
{
    if (t < 1 || t > 15)
        fail("slot %u is drawn that should not be", t);
    const uint16_t *logs = &fields[UMV_FIELD_LOGARITHMS + 16 * (t - 1)];
    char head[64];
    if (fields[UMV_FIELD_UPLINK] == 0)
        snprintf(head, sizeof head, "slot %u<", t);
    else if (fields[UMV_FIELD_PHCHS + t - 1] == 1)
        snprintf(head, sizeof head, "slot %u, SF %u<", t, 1u << logs[0]);
    else
        snprintf(head, sizeof head, "slot %u, SF %u and %u<", t, 1u << logs[0], 1u << logs[1]);
    if (strncmp(label, head, strlen(head)) != 0)
        fail("slot %u has another label than %s", t, head);
}

/* The label of a sub-frame, below what was drawn of the one before; only a frame of two has such labels. */
static void check_subframe(struct reader *reader, const char *label, long y)
{
    char head[32];
    snprintf(head, sizeof head, "sub-frame %u<", ++reader->subframe);
    if (fields[UMV_FIELD_LCR] == 0 || strncmp(label, head, strlen(head)) != 0 || y < reader->bottom)
        fail("another label than %s, or too high", head);
    reader->slot = 0;
}

/* A label: of a sub-frame, of a slot, of a PhCH, or of the place that a line begins with. */
static void take_label(struct reader *reader, const char *tag, const char *label)
{
    const char *class = attribute(tag, "class"), *y = attribute(tag, "y");
    if (class == NULL || y == NULL)
        return;
    if (strncmp(label, "sub-frame", 9) == 0) {
        check_subframe(reader, label, strtol(y, NULL, 10));
    } else if (*class == 's') {
        sscanf(label, "slot %u", &reader->slot);
        check_head(reader->slot, label);
    }
    if (*class == 'p')
        sscanf(label, "PhCH %u<", &reader->phch);
    if (*class == 'n' && reader->starts < MOST_LINES) {
        reader->start[reader->starts].place = (unsigned)strtoul(label, NULL, 10);
        reader->start[reader->starts++].y = strtol(y, NULL, 10);
    }
}

/* The labels before the group of a PhCH, the middle of whose first line is at y. */
static void check_labels(struct reader *reader, unsigned t, unsigned p, unsigned lines, long y, long height)
{
    const struct phch *phch = reader->group;
    if (reader->slot != t || reader->phch != p || reader->starts != lines)
        fail("slot %u PhCH %u has the labels of slot %u PhCH %u, and %u lines", t, p, reader->slot, reader->phch,
             reader->starts);
    for (unsigned i = 0; i < lines; i++, y += height)
        if (reader->start[i].place != LINE / phch->width * i + 1 || labs(reader->start[i].y - y) > height / 2)
            fail("slot %u PhCH %u line %u: wrong label", t, p, i + 1);
    reader->phch = reader->starts = 0;
}

/* Whether a group's id is that of slot t and PhCH p in the sub-frame at work, which it says where there are two. */
static bool is_id(const struct reader *reader, const char *id, unsigned *t, unsigned *p)
{
    unsigned h = 0;
    bool formed = fields[UMV_FIELD_LCR] == 0 ? sscanf(id, "s%up%u\"", t, p) == 2 : sscanf(id, "h%us%up%u\"", &h, t, p) == 3;
    return formed && h == reader->subframe && *t - 1 < 15 && *p - 1 < 16;
}

/* The group of a PhCH's cells: units of cells, below all that was drawn before it. */
static void open_group(struct reader *reader, const char *tag)
{
    unsigned t, p, left, width;
    long middle, height;
    const char *transform = attribute(tag, "transform");
    if (!is_id(reader, attribute(tag, "id"), &t, &p) || transform == NULL ||
        sscanf(transform, "translate(%u %ld)scale(%u %ld)\"", &left, &middle, &width, &height) != 4)
        fail("what is <%s>?", tag);
    struct phch *phch = &phchs[reader->subframe == 2][t - 1][p - 1];
    if (phch->capacity == 0 || phch->groups++ > 0)
        fail("slot %u PhCH %u is drawn that should not be", t, p);
    if (middle - height / 2 < reader->bottom)
        fail("slot %u PhCH %u lies over the one before", t, p);
    unsigned lines = (phch->capacity * width + LINE - 1) / LINE;
    phch->width = width;
    reader->group = phch;
    check_labels(reader, t, p, lines, middle, height);
    reader->bottom = middle - height / 2 + lines * height;
}

static void mark(struct look *look, const char *class)
{
    if (class[0] == 'c') {
        look->channels++;
        look->channel = (unsigned)strtoul(class + 1, NULL, 10);
    } else if (strncmp(class, "k\"", 2) == 0) {
        look->copies++;
    } else if (strncmp(class, "f\"", 2) == 0) {
        look->fillers++;
    } else if (strncmp(class, "h\"", 2) == 0) {
        look->holes++;
    } else {
        fail("a path of what class: %.10s", class);
    }
}

/* The runs of a path, `M COLUMN LINE h CELLS` each. */
static void draw_runs(const struct phch *phch, const char *tag)
{
    const char *class = attribute(tag, "class"), *run = attribute(tag, "d");
    unsigned column, line, cells, cells_of_line = LINE / phch->width;
    int length;
    if (class == NULL || run == NULL)
        fail("what is <%s>?", tag);
    for (; *run != '"'; run += length) {
        if (sscanf(run, "M%u %uh%u%n", &column, &line, &cells, &length) != 3)
            fail("a path that is no run: %.20s", run);
        if (cells == 0 || column + cells > cells_of_line || cells_of_line * line + column + cells > phch->capacity)
            fail("a run leaves its line or its PhCH: %.20s", run);
        for (unsigned i = 0; i < cells; i++)
            mark(&looks[phch->first + cells_of_line * line + column + i], class);
    }
}

/* Whether a tag is NAME ATTRIBUTE="VALUE" .., with one space before each attribute. */
static bool is_formed(const char *tag)
{
    const char *rest = tag + strcspn(tag, " ");
    while (*rest == ' ') {
        size_t name = strcspn(++rest, "=\" ");
        if (name == 0 || rest[name] != '=' || rest[name + 1] != '"')
            return false;
        rest += name + 2;
        rest += strcspn(rest, "\"");
        if (*rest++ != '"')
            return false;
    }
    return *rest == '\0';
}

/* One tag, without its brackets, and the text behind it. */
static void take_tag(struct reader *reader, char *tag, const char *behind)
{
    if (tag[0] == '/') {
        if (reader->depth == 0 || strcmp(reader->open[--reader->depth], tag + 1) != 0)
            fail("<%s> closes nothing", tag);
        reader->group = NULL;
        return;
    }
    char *end = tag + strlen(tag) - 1;
    bool empty = *end == '/';
    if (empty)
        *end = '\0';
    if (!is_formed(tag))
        fail("<%s> is not well-formed", tag);
    if (empty) {
        if (reader->group != NULL)
            draw_runs(reader->group, tag);
        return;
    }
    if (reader->depth == DEEPEST || sscanf(tag, "%15s", reader->open[reader->depth++]) != 1)
        fail("<%s> lies too deep", tag);
    if (strncmp(tag, "text ", 5) == 0)
        take_label(reader, tag, behind);
    if (strncmp(tag, "g id=", 5) == 0)
        open_group(reader, tag);
}

/* Goes over the tags of the picture, which it cuts into strings. */
static void read_picture(void)
{
    static struct reader reader;
    long height;
    if (sscanf(text, "<svg xmlns=\"http://www.w3.org/2000/svg\" width=\"1120\" height=\"%ld\"", &height) != 1)
        fail("this is no SVG");
    for (char *at = text; *at != '\0';) {
        size_t between = strcspn(at, "<>&");
        if (at[between] == '\0' && reader.depth == 0)
            break;
        char *end = strchr(at + between, '>');
        if (at[between] != '<' || end == NULL)
            fail("text that is not well-formed: %.20s", at);
        *end = '\0';
        take_tag(&reader, at + between + 1, end + 1);
        at = end + 1;
    }
    if (reader.depth != 0 || reader.bottom > height)
        fail("the SVG does not end, or the frame leaves it");
}

/* ---- The comparison ---- */

static void compare_place(unsigned h, unsigned t, unsigned p, unsigned place)
{
    const struct look *is = &looks[phchs[h][t][p].first + place], *should = &wanted[phchs[h][t][p].first + place];
    if (memcmp(is, should, sizeof *is) != 0)
        fail("sub-frame %u slot %u PhCH %u place %u: channel %u (drawn %u times), copy %u, filler %u, hole %u; not %u, %u, %u",
             h + 1, t + 1, p + 1, place + 1, is->channel, is->channels, is->copies, is->fillers, is->holes, should->channel,
             should->copies, should->fillers);
}

/* The same by the reference's name, which builds a whole frame for each place: a large frame has only some asked. */
static void compare_name(unsigned h, unsigned t, unsigned p, unsigned place)
{
    const struct look *is = &looks[phchs[h][t][p].first + place];
    uint64_t trch, bit, copy;
    if (ref_name(sheet, sheet_len, frame_number, h + 1, t + 1, p + 1, place + 1, &trch, &bit, &copy) != 0)
        fail("the reference knows no sub-frame %u slot %u PhCH %u place %u", h + 1, t + 1, p + 1, place + 1);
    if (is->channel != trch || is->copies != (copy > 0) || is->fillers != (bit > fields[UMV_FIELD_E + trch - 1]))
        fail("sub-frame %u slot %u PhCH %u place %u is not named so", h + 1, t + 1, p + 1, place + 1);
}

static void compare_places(void)
{
    unsigned index = 0, step = capacity < 3000 ? 1 : 401;
    for (unsigned phch = 0; phch < HALVES * 15 * 16; phch++) {
        unsigned h = phch / 240, t = phch / 16 % 15, p = phch % 16;
        for (unsigned place = 0; place < phchs[h][t][p].capacity; place++, index++) {
            compare_place(h, t, p, place);
            if (index % step == 0)
                compare_name(h, t, p, place);
        }
    }
}

/* A channel's line in the legend, behind a cell of its colour. */
static void compare_legend(uint32_t trch)
{
    uint64_t f, e, n, v;
    char cell[64], line[128], change[64] = "neither punctured nor repeated";
    ref_channel(sheet, sheet_len, trch, &f, &e, &n, &v);
    if (v < n)
        snprintf(change, sizeof change, "punctured, %" PRIu64 " bits left out of each frame", n - v);
    if (v > n)
        snprintf(change, sizeof change, "repeated, %" PRIu64 " further copies in each frame", v - n);
    if (e == 0)
        strcpy(change, "empty");
    snprintf(cell, sizeof cell, "<path class=\"c%" PRIu32 "\" d=\"M0 0h1\"/></g>\n<text class=\"l\"", trch);
    snprintf(line, sizeof line,
             ">TrCH %" PRIu32 ": TTI %" PRIu64 " ms, E %" PRIu64 ", N %" PRIu64 ", V %" PRIu64 ": %s</text>", trch,
             10 * f, e, n, v, change);
    const char *found = strstr(text, cell);
    if (found == NULL || strchr(found + strlen(cell), '>') != strstr(text, line))
        fail("the legend has no cell with %s", line);
}

/* Each channel has a colour of its own. */
static void compare_colours(void)
{
    char colours[UMV_CHANNELS_MOST][8] = {""};
    for (unsigned i = 0; i < UMV_CHANNELS_MOST; i++) {
        char rule[16];
        snprintf(rule, sizeof rule, ".c%u{stroke:", i + 1);
        const char *found = strstr(text, rule);
        if (found == NULL || sscanf(found + strlen(rule), "%7[#0-9a-f]}", colours[i]) != 1)
            fail("channel %u has no colour", i + 1);
        for (unsigned j = 0; j < i; j++)
            if (strcmp(colours[i], colours[j]) == 0)
                fail("channels %u and %u have one colour", j + 1, i + 1);
    }
}

static void compare_title(void)
{
    const unsigned mode = fields[UMV_FIELD_MODE];
    char title[160];
    snprintf(title, sizeof title,
             ">UTRA TDD %sradio frame%s, frame number %" PRIu32 ", mode %u (second interleaving %s), D = %" PRIu64
             " places</text>",
             fields[UMV_FIELD_UPLINK] == 1 ? "uplink " : "", fields[UMV_FIELD_LCR] == 1 ? " of 1.28 Mcps" : "", frame_number,
             mode, mode == 0 ? "over the frame" : "per slot", capacity);
    if (strstr(text, title) == NULL)
        fail("no title %s", title);
}

/* ---- The sheets ---- */

/* Channels end at the first RM of 0; each slot has as many PhCHs as its list has capacities before the first 0. In uplink two of
   them have these logarithms. */
#define EIGHT {{0, 5000, 200}, {0, 4000, 190}, {1, 9001, 200}, {2, 11001, 210}, {3, 12001, 100}, {0, 3000, 256}, \
               {1, 2001, 256}, {0, 7000, 256}}
#define SIXTEEN {{0, 500, 200}, {0, 400, 190}, {1, 901, 200}, {2, 1101, 210}, {3, 1201, 100}, {0, 300, 256}, {1, 0, 256}, {0, 700, 256}, \
                 {0, 501, 201}, {0, 401, 191}, {1, 903, 201}, {2, 1103, 211}, {3, 1203, 101}, {0, 301, 255}, {1, 203, 255}, {0, 701, 255}}
#define CODES {250, 250, 250, 250, 250, 250, 250, 250, 250, 250, 250, 250, 250, 250, 250, 250}
static const struct {
    const char *name;
    uint16_t mode, slots;
    uint16_t channels[UMV_CHANNELS_MOST][3]; /* TTI, E, RM */
    uint16_t capacities[16];
    uint16_t uplink, logs[2], lcr;
} sheets[] = {
    {"244", 0, 1, {{1, 599, 200}}, {244}, 0, {0}, 0},
    {"244-repeated", 1, 1, {{3, 395, 200}}, {244}, 0, {0}, 0},
    {"2440", 0, 5, {{0, 800, 180}, {1, 1601, 200}, {0, 0, 7}, {2, 2403, 100}}, {244, 244}, 0, {0}, 0},
    {"2440-slots", 1, 2, {{0, 400, 180}, {1, 1601, 200}, {2, 2403, 100}, {3, 1, 256}}, {244, 1, 500, 231, 244}, 0, {0}, 0},
    {"60000", 0, 15, EIGHT, {4000}, 0, {0}, 0},
    {"60000-codes", 1, 15, EIGHT, CODES, 0, {0}, 0},
    {"sixteen", 1, 4, SIXTEEN, {244, 244, 244, 122}, 0, {0}, 0},
    {"uplink-sixteen", 0, 4, SIXTEEN, {976, 122}, 1, {0, 3}, 0},
    {"uplink-single", 0, 3, {{0, 800, 180}, {1, 1601, 200}}, {244}, 1, {4}, 0},
    {"uplink-first", 1, 3, {{0, 800, 180}, {1, 1601, 200}}, {490, 244}, 1, {2, 4}, 0}, /* runs of 4 and 1, the last one cut short */
    {"uplink-second", 0, 3, {{0, 800, 180}, {1, 1601, 200}}, {244, 2000}, 1, {4, 0}, 0},
    {"lcr", 0, 7, {{0, 800, 180}, {1, 1601, 200}, {0, 0, 7}, {2, 2403, 100}}, {88, 88, 44}, 0, {0}, 1},
    {"lcr-small", 1, 2, {{1, 243, 240}, {0, 96, 150}}, {61, 60}, 0, {0}, 1},
    {"lcr-60000", 1, 5, EIGHT, {375, 375, 375, 375, 375, 375, 375, 375, 375, 375, 375, 375, 375, 375, 375, 375}, 0, {0}, 1},
    {"lcr-sixteen", 0, 4, SIXTEEN, {244, 244, 61}, 0, {0}, 1},
    {"lcr-uplink", 1, 3, {{0, 800, 180}, {1, 1601, 200}}, {245, 122}, 1, {2, 4}, 1},
    {"lcr-uplink-single", 0, 7, {{0, 80, 180}, {1, 161, 200}}, {22}, 1, {3}, 1},
};

static void make_sheet(unsigned k)
{
    uint64_t length;
    memset(fields, 0, sizeof fields);
    fields[UMV_FIELD_VERSION] = 1;
    fields[UMV_FIELD_MODE] = sheets[k].mode;
    fields[UMV_FIELD_SLOTS] = sheets[k].slots;
    fields[UMV_FIELD_UPLINK] = sheets[k].uplink;
    fields[UMV_FIELD_LCR] = sheets[k].lcr;
    for (unsigned i = 0; i < UMV_CHANNELS_MOST && sheets[k].channels[i][2] != 0; i++) {
        fields[UMV_FIELD_CHANNELS]++;
        fields[UMV_FIELD_TTI + i] = sheets[k].channels[i][0];
        fields[UMV_FIELD_E + i] = sheets[k].channels[i][1];
        fields[UMV_FIELD_RM + i] = sheets[k].channels[i][2];
    }
    for (unsigned t = 0; t < sheets[k].slots; t++)
        for (unsigned p = 0; p < 16 && sheets[k].capacities[p] != 0; p++) {
            fields[UMV_FIELD_PHCHS + t]++;
            fields[UMV_FIELD_CAPACITIES + 16 * t + p] = sheets[k].capacities[p];
            if (p < 2)
                fields[UMV_FIELD_LOGARITHMS + 16 * t + p] = sheets[k].logs[p];
        }
    if (ref_sheet_length(fields, UMV_FIELDS, &length) != 0 ||
        ref_sheet_write(fields, UMV_FIELDS, sheet, length, &length) != 0)
        fail("the sheet %s is refused", sheets[k].name);
    sheet_len = length;
}

static void write_sheets(const char *directory)
{
    for (unsigned k = 0; k < sizeof sheets / sizeof *sheets; k++) {
        char path[4096];
        make_sheet(k);
        snprintf(path, sizeof path, "%s/%s.sheet", directory, sheets[k].name);
        FILE *file = fopen(path, "wb");
        if (file == NULL || fwrite(sheet, 1, sheet_len, file) != sheet_len || fclose(file) != 0)
            fail("%s cannot be written", path);
    }
}

int main(int argc, char **argv)
{
    uint64_t at, slots, contents, joined, trch, bit, copy;
    char refused[32];
    if (argc == 2) {
        write_sheets(argv[1]);
        return 0;
    }
    if (argc != 4)
        fail("SHEET NUMBER SVG, or DIRECTORY");
    sheet_len = read_file(argv[1], sheet, sizeof sheet);
    frame_number = (uint32_t)strtoul(argv[2], NULL, 10);
    if (read_file(argv[3], text, sizeof text - 1) == sizeof text - 1)
        fail("%s is too long", argv[3]);
    uint32_t number = ref_name(sheet, sheet_len, frame_number, 1, 1, 1, 1, &trch, &bit, &copy);
    snprintf(refused, sizeof refused, ">refused: number %" PRIu32 " (", number);
    if ((strstr(text, refused) != NULL) != (number != 0))
        fail("the reference answers %" PRIu32, number);
    if (number == 0) {
        ref_sheet_read(sheet, sheet_len, fields, UMV_FIELDS, &at);
        ref_sizes(sheet, sheet_len, &channels, &slots, &contents, &capacity, &joined);
        compare_title();
        compare_colours();
        for (uint32_t i = 1; i <= channels; i++)
            compare_legend(i);
        place_phchs();
        expect();
    }
    read_picture();
    compare_places();
    return 0;
}
