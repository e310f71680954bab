/* Part of reference.c: the format sheet, read, written and measured. */

/* Bit-packed fields, most significant bit first. Past the end zeros are read, and counted. */
struct reader {
    const uint8_t *bytes;
    size_t length;
    size_t bit; /* bits read */
};

static uint32_t take(struct reader *reader, unsigned width)
{
    size_t byte = reader->bit / 8;
    uint32_t window = 0; /* 3 bytes hold any field: 7 bits before it and 14 of its own */
    for (size_t i = byte; i < byte + 3; i++)
        window = window << 8 | (i < reader->length ? reader->bytes[i] : 0u);
    uint32_t value = window >> (24 - reader->bit % 8 - width) & ((1u << width) - 1);
    reader->bit += width;
    return value;
}

static void take_channels(struct reader *reader, struct form *form)
{
    for (uint32_t i = 0; i < form->I; i++) {
        form->channels[i].TTI = take(reader, 2);
        form->channels[i].E = take(reader, 14);
        form->channels[i].RM = take(reader, 8) + 1;
    }
}

static void take_slots(struct reader *reader, struct form *form)
{
    for (uint32_t t = 0; t < form->T; t++) {
        form->slots[t].P = take(reader, 4) + 1;
        for (uint32_t p = 0; p < form->slots[t].P; p++) {
            form->slots[t].log[p] = take(reader, form->uplink ? 3 : 0);
            form->slots[t].U[p] = take(reader, 12);
        }
    }
}

/* The fields of a sheet, or 1 to 4. */
static uint32_t read_fields(const uint8_t *sheet, size_t sheet_len, struct form *form)
{
    struct reader reader = {sheet, sheet_len, 0};
    if (sheet_len < 2)
        return 1;
    form->version = take(&reader, 4);
    form->mode = take(&reader, 1);
    uint32_t low = take(&reader, 3); /* of I-1, whose top bit follows after T */
    form->T = take(&reader, 4);
    if (form->version != 1)
        return 2;
    if (form->T == 0)
        return 3;
    form->uplink = take(&reader, 1);
    form->lcr = take(&reader, 1);
    form->I = (take(&reader, 1) << 3 | low) + 1;
    uint32_t spare = take(&reader, 1);
    take_channels(&reader, form);
    take_slots(&reader, form);
    uint32_t padding = take(&reader, (8 - reader.bit % 8) % 8);
    return reader.bit != 8 * sheet_len || spare != 0 || padding != 0 ? 4 : 0;
}

/* Step 1 for each channel, and the sums over all. */
static void equalise(struct form *form)
{
    form->contents = form->joined = 0;
    for (uint32_t i = 0; i < form->I; i++) {
        struct channel *c = &form->channels[i];
        c->F = 1u << c->TTI;
        c->N = c->E == 0 ? 0 : (c->E - 1) / c->F + 1;
        form->contents += c->E;
        form->joined += c->F * c->N;
    }
}

/* The sum of each slot, of a sub-frame and of all. Answers whether a capacity is 0. */
static int sum_capacities(struct form *form)
{
    int empty = 0;
    form->W = 0;
    for (uint32_t t = 0; t < form->T; t++) {
        struct slot *slot = &form->slots[t];
        slot->bits = 0;
        for (uint32_t p = 0; p < slot->P; p++) {
            slot->bits += slot->U[p];
            empty |= slot->U[p] == 0;
        }
        form->W += slot->bits;
    }
    form->K = form->lcr ? 2 : 1;
    form->D = form->K * form->W;
    return empty;
}

/* Whether an uplink slot has more than two codes, or a logarithm over 4. */
static int codes_outside(const struct form *form)
{
    for (uint32_t t = 0; form->uplink && t < form->T; t++) {
        const struct slot *slot = &form->slots[t];
        if (slot->P > 2)
            return 1;
        for (uint32_t p = 0; p < slot->P; p++)
            if (slot->log[p] > 4)
                return 1;
    }
    return 0;
}

/* Document 004's rule for the consecutive bits of each code. Downlink slots have all logarithms 0. */
static void set_runs(struct form *form)
{
    for (uint32_t t = 0; t < form->T; t++) {
        struct slot *slot = &form->slots[t];
        slot->bs[0] = slot->bs[1] = 1;
        if (slot->P != 2)
            continue;
        const uint32_t SF1 = 1u << slot->log[0], SF2 = 1u << slot->log[1];
        if (SF1 >= SF2)
            slot->bs[1] = SF1 / SF2;
        else
            slot->bs[0] = SF2 / SF1;
    }
}

/* Step 4. The weights sum up to at most 256 x 60,000, and D is at most 60,000. */
static void share(struct form *form)
{
    uint64_t total = 0, weight = 0;
    uint32_t before = 0; /* Z of the channel before */
    for (uint32_t i = 0; i < form->I; i++)
        total += form->channels[i].RM * form->channels[i].N;
    for (uint32_t i = 0; i < form->I; i++) {
        struct channel *c = &form->channels[i];
        weight += c->RM * c->N;
        c->Z = (uint32_t)(form->D * weight / total);
        c->V = c->Z - before;
        c->d = (int32_t)c->V - (int32_t)c->N;
        before = c->Z;
    }
}

/* What follows from fields in their ranges, or 5, 13, 14 and 6 to 8. */
static uint32_t measure(struct form *form)
{
    equalise(form);
    if (sum_capacities(form))
        return 5;
    if (codes_outside(form))
        return 13;
    if (form->lcr && form->T > 7)
        return 14;
    if (form->joined > MOST)
        return 6;
    if (form->D > MOST)
        return 7;
    if (form->contents == 0)
        return 8;
    share(form);
    set_runs(form);
    return 0;
}

/* A sheet opened, or 1 to 5, 13, 14 and 6 to 8. */
static uint32_t open_sheet(const uint8_t *sheet, size_t sheet_len, struct form *form)
{
    uint32_t number = read_fields(sheet, sheet_len, form);
    return number != 0 ? number : measure(form);
}

/* The same, then 9. */
static uint32_t open_frame(const uint8_t *sheet, size_t sheet_len, uint32_t frame_number, struct form *form)
{
    uint32_t number = open_sheet(sheet, sheet_len, form);
    return number != 0 ? number : frame_number > 255 ? 9 : 0;
}

/* The channel with this number, from 1, or null. */
static const struct channel *channel_of(const struct form *form, uint32_t trch)
{
    return trch >= 1 && trch <= form->I ? &form->channels[trch - 1] : NULL;
}

uint32_t ref_sheet_read(const uint8_t *sheet, size_t sheet_len, uint16_t *fields, size_t fields_len, uint64_t *at)
{
    struct form form;
    *at = 0;
    uint32_t number = open_sheet(sheet, sheet_len, &form);
    if (number != 0)
        return number;
    if (fields_len != FIELDS)
        return 11;
    memset(fields, 0, FIELDS * sizeof *fields);
    fields[0] = (uint16_t)form.version;
    fields[1] = (uint16_t)form.mode;
    fields[2] = (uint16_t)form.I;
    fields[3] = (uint16_t)form.T;
    fields[4] = (uint16_t)form.uplink;
    fields[5] = (uint16_t)form.lcr;
    for (uint32_t i = 0; i < form.I; i++) {
        fields[FIELD_TTI + i] = (uint16_t)form.channels[i].TTI;
        fields[FIELD_E + i] = (uint16_t)form.channels[i].E;
        fields[FIELD_RM + i] = (uint16_t)form.channels[i].RM;
    }
    for (uint32_t t = 0; t < form.T; t++) {
        fields[FIELD_P + t] = (uint16_t)form.slots[t].P;
        for (uint32_t p = 0; p < form.slots[t].P; p++) {
            fields[FIELD_U + 16 * t + p] = (uint16_t)form.slots[t].U[p];
            fields[FIELD_LOG + 16 * t + p] = (uint16_t)form.slots[t].log[p];
        }
    }
    *at = FIELDS;
    return 0;
}

/* Whether a channel or slot has a field outside its range, which neither 5 nor 13 names. */
static int channel_outside(const struct channel *c)
{
    return c->TTI > 3 || c->E > 16383 || c->RM < 1 || c->RM > 256;
}

static int slot_outside(const struct slot *slot)
{
    if (slot->P < 1 || slot->P > 16)
        return 1;
    for (uint32_t p = 0; p < slot->P; p++)
        if (slot->U[p] > 4095)
            return 1;
    return 0;
}

/* Fields taken over, or 2 to 4. Counts I, T and P are looked at before what they count. */
static uint32_t check_fields(const uint16_t *fields, struct form *form)
{
    form->version = fields[0];
    form->mode = fields[1];
    form->I = fields[2];
    form->T = fields[3];
    form->uplink = fields[4];
    form->lcr = fields[5];
    if (form->version != 1)
        return 2;
    if (form->T == 0)
        return 3;
    if (form->mode > 1 || form->uplink > 1 || form->lcr > 1 || form->I < 1 || form->I > 16 || form->T > 15)
        return 4;
    for (uint32_t i = 0; i < form->I; i++) {
        struct channel *c = &form->channels[i];
        c->TTI = fields[FIELD_TTI + i];
        c->E = fields[FIELD_E + i];
        c->RM = fields[FIELD_RM + i];
        if (channel_outside(c))
            return 4;
    }
    for (uint32_t t = 0; t < form->T; t++) {
        struct slot *slot = &form->slots[t];
        slot->P = fields[FIELD_P + t];
        for (uint32_t p = 0; p < 16; p++) {
            slot->U[p] = fields[FIELD_U + 16 * t + p];
            slot->log[p] = form->uplink ? fields[FIELD_LOG + 16 * t + p] : 0;
        }
        if (slot_outside(slot))
            return 4;
    }
    return 0;
}

/* The length of the sheet with these fields, or 11, 2 to 5, 13, 14 and 6 to 8. */
static uint32_t check_and_count(const uint16_t *fields, size_t fields_len, struct form *form, size_t *length)
{
    if (fields_len != FIELDS)
        return 11;
    uint32_t number = check_fields(fields, form);
    if (number == 0)
        number = measure(form);
    if (number != 0)
        return number;
    size_t bits = 16 + 24 * form->I;
    for (uint32_t t = 0; t < form->T; t++)
        bits += 4 + (form->uplink ? 3 + 12 : 12) * form->slots[t].P;
    *length = (bits + 7) / 8;
    return 0;
}

uint32_t ref_sheet_length(const uint16_t *fields, size_t fields_len, uint64_t *at)
{
    struct form form;
    size_t length = 0;
    uint32_t number = check_and_count(fields, fields_len, &form, &length);
    *at = length;
    return number;
}

/* Appends a field to the bits before it; the byte it begins in may hold some of them, the bytes behind are 0. */
static void put(uint8_t *sheet, size_t *bit, unsigned width, uint32_t value)
{
    for (; width > 0; width--, ++*bit)
        sheet[*bit / 8] |= (uint8_t)((value >> (width - 1) & 1) << (7 - *bit % 8));
}

uint32_t ref_sheet_write(const uint16_t *fields, size_t fields_len, uint8_t *sheet, size_t sheet_len, uint64_t *at)
{
    struct form form;
    size_t length = 0, bit = 0;
    *at = 0;
    uint32_t number = check_and_count(fields, fields_len, &form, &length);
    if (number != 0)
        return number;
    if (sheet_len != length)
        return 11;
    memset(sheet, 0, length);
    put(sheet, &bit, 4, form.version);
    put(sheet, &bit, 1, form.mode);
    put(sheet, &bit, 3, form.I - 1); /* the low three bits */
    put(sheet, &bit, 4, form.T);
    put(sheet, &bit, 1, form.uplink);
    put(sheet, &bit, 1, form.lcr);
    put(sheet, &bit, 1, (form.I - 1) >> 3);
    put(sheet, &bit, 1, 0);
    for (uint32_t i = 0; i < form.I; i++) {
        put(sheet, &bit, 2, form.channels[i].TTI);
        put(sheet, &bit, 14, form.channels[i].E);
        put(sheet, &bit, 8, form.channels[i].RM - 1);
    }
    for (uint32_t t = 0; t < form.T; t++) {
        put(sheet, &bit, 4, form.slots[t].P - 1);
        for (uint32_t p = 0; p < form.slots[t].P; p++) {
            put(sheet, &bit, form.uplink ? 3 : 0, form.slots[t].log[p]);
            put(sheet, &bit, 12, form.slots[t].U[p]);
        }
    }
    *at = length;
    return 0;
}

uint32_t ref_sizes(const uint8_t *sheet, size_t sheet_len, uint64_t *channels, uint64_t *slots, uint64_t *contents,
                   uint64_t *capacity, uint64_t *joined)
{
    struct form form;
    *channels = *slots = *contents = *capacity = *joined = 0;
    uint32_t number = open_sheet(sheet, sheet_len, &form);
    if (number != 0)
        return number;
    *channels = form.I;
    *slots = form.T;
    *contents = form.contents;
    *capacity = form.D;
    *joined = form.joined;
    return 0;
}

/* The sheet opened, and its channel; 10 where there is no such one. */
static uint32_t open_channel(const uint8_t *sheet, size_t sheet_len, uint32_t trch, struct form *form,
                             const struct channel **c)
{
    uint32_t number = open_sheet(sheet, sheet_len, form);
    if (number != 0)
        return number;
    *c = channel_of(form, trch);
    return *c == NULL ? 10 : 0;
}

uint32_t ref_channel(const uint8_t *sheet, size_t sheet_len, uint32_t trch, uint64_t *f, uint64_t *e, uint64_t *n,
                     uint64_t *v)
{
    struct form form;
    *f = *e = *n = *v = 0;
    const struct channel *c;
    uint32_t number = open_channel(sheet, sheet_len, trch, &form, &c);
    if (number != 0)
        return number;
    *f = c->F;
    *e = c->E;
    *n = c->N;
    *v = c->V;
    return 0;
}

uint32_t ref_part(const uint8_t *sheet, size_t sheet_len, uint32_t trch, uint64_t multiplexed_len, uint64_t *start,
                  uint64_t *length)
{
    struct form form;
    *start = *length = 0;
    const struct channel *c;
    uint32_t number = open_channel(sheet, sheet_len, trch, &form, &c);
    if (number != 0)
        return number;
    if (multiplexed_len != form.D)
        return 11;
    *start = c->Z - c->V;
    *length = c->V;
    return 0;
}
