/* The table of the public calls: see call.h. */
#include "call.h"

#include <string.h>

/* A slice as C passes it; a number; where an answer goes. */
#define SLICE(k) given->slices[k].start, given->slices[k].count
#define WHOLE(k) given->whole[k]
#define ANSWER(k) &answer->at[k].whole
#define SOFT(k) &answer->at[k].soft

#define RUN(name) \
    static uint32_t run_##name(const struct implementation *by, const struct given *given, struct answer *answer)

RUN(sheet_read)
{
    return by->sheet_read(SLICE(0), SLICE(1), ANSWER(0));
}

RUN(sheet_length)
{
    return by->sheet_length(SLICE(0), ANSWER(0));
}

RUN(sheet_write)
{
    return by->sheet_write(SLICE(0), SLICE(1), ANSWER(0));
}

RUN(sizes)
{
    return by->sizes(SLICE(0), ANSWER(0), ANSWER(1), ANSWER(2), ANSWER(3), ANSWER(4));
}

RUN(channel)
{
    return by->channel(SLICE(0), WHOLE(0), ANSWER(0), ANSWER(1), ANSWER(2), ANSWER(3));
}

RUN(build)
{
    return by->build(SLICE(0), WHOLE(0), SLICE(1), SLICE(2), ANSWER(0));
}

RUN(multiplex)
{
    return by->multiplex(SLICE(0), WHOLE(0), SLICE(1), SLICE(2), ANSWER(0));
}

RUN(spread)
{
    return by->spread(SLICE(0), SLICE(1), SLICE(2), ANSWER(0));
}

RUN(name_of)
{
    return by->name_of(SLICE(0), WHOLE(0), WHOLE(1), WHOLE(2), WHOLE(3), WHOLE(4), ANSWER(0), ANSWER(1), ANSWER(2));
}

RUN(part)
{
    return by->part(SLICE(0), WHOLE(0), given->length, ANSWER(0), ANSWER(1));
}

RUN(gather)
{
    return by->gather(SLICE(0), SLICE(1), SLICE(2), ANSWER(0));
}

RUN(take_back)
{
    return by->take_back(SLICE(0), WHOLE(0), SLICE(1), SLICE(2), ANSWER(0));
}

RUN(finish)
{
    return by->finish(SLICE(0), WHOLE(0), SLICE(1), SLICE(2), ANSWER(0));
}

RUN(heard)
{
    return by->heard(SLICE(0), WHOLE(0), SLICE(1), WHOLE(1), WHOLE(2), ANSWER(0), SOFT(1), ANSWER(2));
}

RUN(link)
{
    return by->link(SLICE(0), WHOLE(0), SLICE(1), WHOLE(1), ANSWER(0), SOFT(1), SOFT(2), ANSWER(3));
}

/* The numbers 0 to 8, 13 and 14, of a sheet; the same but 1, of fields; with 9, of a sheet and a frame number; 10; 11; 11, 12. */
#define OF_SHEET (0x1ffu | 1u << UMV_UPLINK_CODES | 1u << UMV_SUBFRAME_SLOTS)
#define OF_FIELDS (OF_SHEET & ~(1u << UMV_SHORT))
#define OF_FRAME (OF_SHEET | 1u << UMV_FRAME_NUMBER)
#define ABSENT (1u << UMV_ABSENT)
#define LENGTH (1u << UMV_LENGTH)
#define CONTENT (LENGTH | 1u << UMV_CONTENT)

const struct call calls[CALLS] = {
    {"umv_sheet_read", "read", "bF", "*F", "w", {"at"}, OF_SHEET | LENGTH, run_sheet_read},
    {"umv_sheet_length", "length", "f", "F", "w", {"at"}, OF_FIELDS | LENGTH, run_sheet_length},
    {"umv_sheet_write", "write", "fB", "FW", "w", {"at"}, OF_FIELDS | LENGTH, run_sheet_write},
    {"umv_sizes", "sizes", "b", "*", "wwwww", {"channels", "slots", "contents", "capacity", "joined"}, OF_SHEET,
     run_sizes},
    {"umv_channel", "channel", "bc", "*", "wwww", {"F", "E", "N", "V"}, OF_SHEET | ABSENT, run_channel},
    {"umv_build", "build", "bnbB", "*ED", "w", {"at"}, OF_FRAME | CONTENT, run_build},
    {"umv_multiplex", "multiplex", "bnbB", "*ED", "w", {"at"}, OF_FRAME | CONTENT, run_multiplex},
    {"umv_spread", "spread", "bbB", "*DD", "w", {"at"}, OF_SHEET | CONTENT, run_spread},
    {"umv_name", "name", "bnhtpu", "*", "www", {"TrCH", "bit", "copy"}, OF_FRAME | ABSENT, run_name_of},
    {"umv_part", "part", "bcl", "*", "ww", {"start", "length"}, OF_SHEET | ABSENT | LENGTH, run_part},
    {"umv_gather", "gather", "bsS", "*DD", "w", {"at"}, OF_SHEET | CONTENT, run_gather},
    {"umv_take_back", "take", "bnsS", "*DT", "w", {"at"}, OF_FRAME | CONTENT, run_take_back},
    {"umv_finish", "finish", "bcsS", "*TC", "w", {"at"}, OF_SHEET | ABSENT | LENGTH, run_finish},
    {"umv_heard", "heard", "bnscm", "*D", "wsw", {"at", "value", "copies"}, OF_FRAME | ABSENT | CONTENT, run_heard},
    {"umv_link", "link", "bnsc", "*D", "wssw", {"at", "least", "greatest", "punctured"}, OF_FRAME | ABSENT | CONTENT,
     run_link},
};

size_t unit_of(char parameter)
{
    switch (parameter) {
    case 'b':
    case 'B':
        return sizeof(uint8_t);
    case 'f':
    case 'F':
        return sizeof(uint16_t);
    case 's':
    case 'S':
        return sizeof(float);
    default:
        return 0;
    }
}

bool is_written(char parameter)
{
    return parameter == 'B' || parameter == 'F' || parameter == 'S';
}

char slice_of(const struct call *call, size_t slice)
{
    for (const char *parameter = call->parameters; *parameter != '\0'; parameter++)
        if (unit_of(*parameter) != 0 && slice-- == 0)
            return *parameter;
    return '\0';
}

bool takes(const struct call *call, char parameter)
{
    return strchr(call->parameters, parameter) != NULL;
}

bool joins(const struct call *call)
{
    return takes(call, 'n') && takes(call, 's');
}

struct answer unwritten(void)
{
    struct answer answer;
    memset(&answer, UNWRITTEN_BYTE, sizeof answer);
    return answer;
}
