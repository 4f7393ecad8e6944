/* The calls of record.h. */
#include "record.h"

#include <stdio.h>
#include <stdlib.h>
#include <string.h>

#include "memory.h"

enum { SLOTS = 16, GAP = 16 /* bytes that stayed, between two that changed, which are worth no line of their own */ };

static const char DIGITS[] = "0123456789abcdef";

/* Bytes that a console put out. */
struct text {
    uint8_t *bytes;
    size_t len, room;
};

/* What is known of a slot. */
struct seen {
    struct memory now;              /* its memory in place */
    uint8_t *left[MEMORY_REGIONS];  /* and each region as its last call left it */
    bool refused;  /* whether that was a write that is to be made again */
    struct text event; /* what is asked for: the line of an event that isn't done */
    char reply[32];    /* and what it is answered once it is */
    uint64_t begun;    /* the tags of its operations that a record has */
    struct kalyubos_pending waits;
    struct text output; /* what the host hasn't taken yet */
    struct text untold; /* what no record has yet */
};

/* The operations that began with a call, by their tags, until its record has them. */
struct asked {
    const struct kalyubos *board;
    uint64_t tags;
};

static FILE *trace, *records;
static size_t lines, called; /* the lines of the trace so far, and the number of the last call's */
static struct seen seen[SLOTS];
static bool hosted; /* the host serves a disk: each record says what was asked */
static struct asked asked;

/* Whether a call is one to write down: those that name a slot that isn't there are none. */
static bool writes(uint8_t slot)
{
    return trace != NULL && slot < SLOTS && seen[slot].now.count > 0;
}

/* Whether its event is paused: then a call for it is busy, and none to write down. */
static bool is_paused(uint8_t slot)
{
    return seen[slot].event.len > 0 && !seen[slot].refused;
}

/* ---- text */

static void append(struct text *text, const uint8_t *bytes, size_t len)
{
    if (text->room - text->len < len) {
        text->room = 2 * text->room + len;
        text->bytes = realloc(text->bytes, text->room);
        if (text->bytes == NULL)
            abort();
    }
    memcpy(text->bytes + text->len, bytes, len);
    text->len += len;
}

static void put_bytes(FILE *file, const uint8_t *bytes, size_t len)
{
    if (len == 0)
        fputc('-', file);
    for (size_t i = 0; i < len; i++) {
        fputc(DIGITS[bytes[i] >> 4], file);
        fputc(DIGITS[bytes[i] & 15], file);
    }
}

static void end_line(void)
{
    fputc('\n', trace);
    lines++;
}

static void end_call(void)
{
    end_line();
    called = lines;
}

static void put_operation(const struct kalyubos *board, uint8_t slot, uint8_t tag)
{
    static const char *const KINDS[] = {
        [KALYUBOS_IN] = "in", [KALYUBOS_OUT] = "out", [KALYUBOS_FLUSH] = "flush", [KALYUBOS_ZEROES] = "zeroes",
    };
    struct kalyubos_operation operation;
    struct kalyubos_run runs[KALYUBOS_RUNS];
    kalyubos_operation(board, slot, KALYUBOS_BLOCK, tag, &operation, runs, KALYUBOS_RUNS);
    fprintf(records, "%x=%s%s:%llx:%llx:%s", tag, KINDS[operation.kind], operation.stable ? "-stable" : "",
            (unsigned long long)operation.start, (unsigned long long)operation.len, operation.runs == 0 ? "-" : "");
    for (uint32_t i = 0; i < operation.runs; i++)
        fprintf(records, "%s%llx+%llx", i > 0 ? "," : "", (unsigned long long)runs[i].at, (unsigned long long)runs[i].len);
}

/* What was asked, in the order of the tags. */
static void put_asked(uint8_t slot)
{
    const char *before = " ";
    if (asked.tags == 0)
        fputs(" -", records);
    for (uint8_t tag = 0; tag < KALYUBOS_TAGS; tag++) {
        if ((asked.tags >> tag & 1) == 0)
            continue;
        fputs(before, records);
        put_operation(asked.board, slot, tag);
        before = ";";
    }
    asked.tags = 0;
}

/* The end of a record: the output that no record has yet, the interrupt words as they stand, and what was asked. */
static void end_record(uint8_t slot)
{
    struct seen *of = &seen[slot];
    fputc(' ', records);
    put_bytes(records, of->untold.bytes, of->untold.len);
    fprintf(records, " %x %x", (unsigned)of->waits.block, (unsigned)of->waits.console);
    if (hosted)
        put_asked(slot);
    fputc('\n', records);
    of->untold.len = 0;
}

static void put_record(uint8_t slot, const char *reply)
{
    fprintf(records, "%x %s", slot, reply);
    end_record(slot);
}

/* Bytes of a region as a line that writes them, and as one that finds them. */
static void put_write(uint8_t slot, const struct region *region, size_t start, size_t end)
{
    fprintf(trace, "mw %x %llx ", slot, (unsigned long long)(region->base + start));
    put_bytes(trace, region->bytes + start, end - start);
    end_line();
    put_record(slot, "done");
}

static void put_read(uint8_t slot, const struct region *region, size_t start, size_t end)
{
    fprintf(trace, "mr %x %llx %zx", slot, (unsigned long long)(region->base + start), end - start);
    end_line();
    fprintf(records, "%x b:", slot);
    put_bytes(records, region->bytes + start, end - start);
    end_record(slot);
}

/* The line of an event is kept until it is done. */
static void ask(uint8_t slot, const char *line, size_t len)
{
    seen[slot].event.len = 0;
    append(&seen[slot].event, (const uint8_t *)line, len);
}

/* ---- what changed */

/* Where the next difference lies from `at` on, or the end. */
static size_t difference(const struct region *region, const uint8_t *left, size_t at)
{
    enum { STEP = 4096 };
    while (at + STEP <= region->len && memcmp(left + at, region->bytes + at, STEP) == 0)
        at += STEP;
    while (at < region->len && left[at] == region->bytes[at])
        at++;
    return at;
}

/* The end of a run of differences: as many bytes as GAP after it are the same. */
static size_t end_of(const struct region *region, const uint8_t *left, size_t start)
{
    size_t end = start;
    for (size_t at = start; at < region->len && at - end < GAP; at++)
        if (left[at] != region->bytes[at])
            end = at + 1;
    return end;
}

/* Writes down each part of a region that isn't as it was known, and knows it then. */
typedef void put_part(uint8_t slot, const struct region *region, size_t start, size_t end);
static void put_region(uint8_t slot, const struct region *region, uint8_t *left, put_part *put)
{
    for (size_t at = difference(region, left, 0); at < region->len; at = difference(region, left, at)) {
        size_t end = end_of(region, left, at);
        put(slot, region, at, end);
        memcpy(left + at, region->bytes + at, end - at);
        at = end;
    }
}

/* The same of all regions of a guest. */
static void put_changes(uint8_t slot, put_part *put)
{
    for (size_t i = 0; i < seen[slot].now.count; i++)
        put_region(slot, &seen[slot].now.regions[i], seen[slot].left[i], put);
}

static void keep_output(struct kalyubos *board, uint8_t slot)
{
    uint8_t bytes[4096];
    size_t taken = 0;
    while (kalyubos_take_output(board, slot, bytes, sizeof bytes, &taken) == KALYUBOS_DONE && taken > 0) {
        append(&seen[slot].output, bytes, taken);
        append(&seen[slot].untold, bytes, taken);
    }
}

/* Keeps what a call left behind; to the host all output waits that it hasn't taken. */
static void keep(struct kalyubos *board, uint8_t slot, struct kalyubos_pending *pending)
{
    struct seen *of = &seen[slot];
    of->waits = *pending;
    if (pending->output > 0)
        keep_output(board, slot);
    pending->output = of->output.len;
}

/* ---- the files */

bool record_to(const char *file)
{
    char name[4096];
    snprintf(name, sizeof name, "%s.records", file);
    trace = fopen(file, "w");
    records = fopen(name, "w");
    return trace != NULL && records != NULL;
}

size_t record_line(void)
{
    return trace != NULL ? called : 0;
}

bool record_end(void)
{
    bool good = trace == NULL || (fclose(trace) == 0 && fclose(records) == 0);
    for (size_t i = 0; i < SLOTS; i++) {
        for (size_t j = 0; j < seen[i].now.count; j++)
            free(seen[i].left[j]);
        free(seen[i].event.bytes);
        free(seen[i].output.bytes);
        free(seen[i].untold.bytes);
    }
    memset(seen, 0, sizeof seen);
    hosted = false;
    trace = records = NULL;
    return good;
}

/* ---- the calls */

/* Versions 1 and 2 have one region of 256 MiB at most, and no disk of the host's. */
static bool is_plain(const struct kalyubos_slot *slot)
{
    return slot->regions[0].len <= 0x10000000 && slot->regions[1].len == 0 && !slot->hosted;
}

static void see_memory(struct kalyubos *board, uint8_t index, const struct kalyubos_slot *slot)
{
    struct seen *of = &seen[index];
    *of = (struct seen){ 0 };
    for (size_t i = 0; i < KALYUBOS_REGIONS && slot->regions[i].len != 0; i++) {
        struct region *region = &of->now.regions[of->now.count++];
        region->base = slot->regions[i].base;
        kalyubos_memory(board, index, region->base, &region->bytes, &region->len);
        of->left[i] = calloc(region->len, 1);
        if (of->left[i] == NULL)
            abort();
    }
}

/* A slot's line, whose regions are one field of an extended trace, and who has its disk another. */
static void put_slot(const struct memory *memory, const struct kalyubos_slot *slot, bool extended)
{
    fputs("slot ", trace);
    for (size_t i = 0; i < memory->count; i++)
        fprintf(trace, "%s%llx%c%llx", i > 0 ? "," : "", (unsigned long long)memory->regions[i].base,
                extended ? '+' : ' ', (unsigned long long)memory->regions[i].len);
    if (extended && slot->hosted)
        fprintf(trace, " host:%x", (unsigned)(slot->depth == 0 ? 1 : slot->depth));
    else if (extended)
        fputs(" image", trace);
    fprintf(trace, " %llx %llx %s %x %x ", (unsigned long long)slot->start, (unsigned long long)slot->count,
            slot->read_only ? "ro" : "rw", slot->cols, slot->rows);
    put_bytes(trace, slot->identity, sizeof slot->identity);
    fputc('\n', trace);
}

uint32_t record_create(struct kalyubos *board, struct kalyubos_config *config)
{
    uint32_t answer = kalyubos_create(board, config);
    if (trace == NULL || answer != KALYUBOS_DONE)
        return answer;
    bool extended = false;
    for (size_t i = 0; i < config->slots_len; i++) {
        extended = extended || !is_plain(&config->slots[i]);
        hosted = hosted || config->slots[i].hosted;
    }
    fprintf(trace, "%s\ncache %x\n", extended ? "kalyubos 1" : "vreplay 2", (unsigned)config->cache);
    for (size_t i = 0; i < config->slots_len; i++) {
        see_memory(board, i, &config->slots[i]);
        put_slot(&seen[i].now, &config->slots[i], extended);
    }
    lines = called = 2 + config->slots_len;
    return answer;
}

static const char WINDOWS[] = "bc";

uint32_t record_read(struct kalyubos *board, uint8_t slot, uint8_t window, uint16_t offset, uint8_t width,
                     uint32_t *value)
{
    char reply[16];
    uint32_t answer = kalyubos_read(board, slot, window, offset, width, value);
    if (!writes(slot) || answer != KALYUBOS_DONE)
        return answer;
    fprintf(trace, "r %x %c %03x %x", slot, WINDOWS[window], offset, width);
    end_call();
    snprintf(reply, sizeof reply, "v:%08x", (unsigned)*value);
    put_record(slot, reply);
    return answer;
}

/* What an event is answered, or NULL where it isn't at its end: it is made again where there is room, or is paused. */
static const char *reply_of(const struct seen *of, uint32_t answer)
{
    switch (answer) {
    case KALYUBOS_DONE:
    case KALYUBOS_IO:
        return of->reply;
    case KALYUBOS_BUSY: /* of a disk that is at work: a later event makes the write again */
        return "busy";
    case KALYUBOS_IDLE:
        return "idle";
    default:
        return NULL;
    }
}

/* What stands behind a call that a service may come of. An event is written down at its end, with what it changed then. */
static uint32_t settle(struct kalyubos *board, uint8_t slot, uint32_t answer, struct kalyubos_pending *pending)
{
    struct seen *of = &seen[slot];
    const char *reply = reply_of(of, answer);
    keep(board, slot, pending);
    of->refused = answer == KALYUBOS_NO_ROOM;
    if (reply == NULL || of->event.len == 0)
        return answer;
    fwrite(of->event.bytes, 1, of->event.len, trace);
    of->event.len = 0;
    end_call();
    if (answer == KALYUBOS_IO) {
        uint64_t tags = 0;
        kalyubos_in_flight(board, slot, KALYUBOS_BLOCK, &tags);
        asked = (struct asked){ board, tags & ~of->begun };
        of->begun = tags;
    }
    put_record(slot, reply);
    put_changes(slot, put_read);
    return answer;
}

uint32_t record_write(struct kalyubos *board, uint8_t slot, uint8_t window, uint16_t offset, uint8_t width,
                      uint32_t value, struct kalyubos_pending *pending)
{
    if (!writes(slot) || is_paused(slot))
        return kalyubos_write(board, slot, window, offset, width, value, pending);
    if (!seen[slot].refused)
        put_changes(slot, put_write);
    char line[64];
    uint32_t within = width < 4 ? value & (((uint32_t)1 << 8 * width) - 1) : value;
    int len = snprintf(line, sizeof line, "w %x %c %03x %x %0*x", slot, WINDOWS[window], offset, width, 2 * width,
                       (unsigned)within);
    ask(slot, line, len);
    strcpy(seen[slot].reply, "done");
    return settle(board, slot, kalyubos_write(board, slot, window, offset, width, value, pending), pending);
}

/* Goes on with the event that is paused, and writes it down where it is done. */
uint32_t record_go_on(struct kalyubos *board, uint8_t slot, struct kalyubos_pending *pending)
{
    uint32_t answer = kalyubos_go_on(board, slot, pending);
    return writes(slot) ? settle(board, slot, answer, pending) : answer;
}

uint32_t record_completed(struct kalyubos *board, uint8_t slot, uint8_t tag, bool failed,
                          struct kalyubos_pending *pending)
{
    if (!writes(slot) || !hosted)
        return kalyubos_completed(board, slot, KALYUBOS_BLOCK, tag, failed, pending);
    put_changes(slot, put_write);
    char line[32];
    ask(slot, line, snprintf(line, sizeof line, "io %x %x %s", slot, tag, failed ? "failed" : "done"));
    strcpy(seen[slot].reply, "done");
    uint32_t answer = kalyubos_completed(board, slot, KALYUBOS_BLOCK, tag, failed, pending);
    if (answer == KALYUBOS_DONE || answer == KALYUBOS_IO) /* the tag may be used again */
        seen[slot].begun &= ~((uint64_t)1 << tag);
    return settle(board, slot, answer, pending);
}

/* Says of a disk what a word of the trace says. */
static uint32_t say(struct kalyubos *board, uint8_t slot, struct kalyubos_pending *pending, const char *word,
                    uint32_t (*call)(struct kalyubos *, uint8_t, uint8_t, struct kalyubos_pending *))
{
    if (!writes(slot) || !hosted || is_paused(slot))
        return call(board, slot, KALYUBOS_BLOCK, pending);
    put_changes(slot, put_write);
    char line[16];
    ask(slot, line, snprintf(line, sizeof line, "%s %x", word, slot));
    strcpy(seen[slot].reply, "done");
    uint32_t answer = call(board, slot, KALYUBOS_BLOCK, pending);
    if (answer == KALYUBOS_DONE && call == kalyubos_drop)
        seen[slot].begun = 0;
    return settle(board, slot, answer, pending);
}

uint32_t record_drop(struct kalyubos *board, uint8_t slot, struct kalyubos_pending *pending)
{
    return say(board, slot, pending, "drop", kalyubos_drop);
}

uint32_t record_hold(struct kalyubos *board, uint8_t slot, struct kalyubos_pending *pending)
{
    return say(board, slot, pending, "hold", kalyubos_hold);
}

uint32_t record_release(struct kalyubos *board, uint8_t slot, struct kalyubos_pending *pending)
{
    return say(board, slot, pending, "release", kalyubos_release);
}

uint32_t record_input(struct kalyubos *board, uint8_t slot, const uint8_t *bytes, size_t bytes_len, size_t *took,
                      struct kalyubos_pending *pending)
{
    if (!writes(slot) || is_paused(slot))
        return kalyubos_input(board, slot, bytes, bytes_len, took, pending);
    put_changes(slot, put_write);
    uint32_t answer = kalyubos_input(board, slot, bytes, bytes_len, took, pending);
    char line[16];
    ask(slot, line, snprintf(line, sizeof line, "in %x %s", slot, bytes_len == 0 ? "-" : ""));
    for (size_t i = 0; i < bytes_len; i++)
        append(&seen[slot].event, (const uint8_t[]){ DIGITS[bytes[i] >> 4], DIGITS[bytes[i] & 15] }, 2);
    snprintf(seen[slot].reply, sizeof seen[slot].reply, "took:%zx", *took);
    return settle(board, slot, answer, pending);
}

uint32_t record_resize(struct kalyubos *board, uint8_t slot, uint16_t cols, uint16_t rows,
                       struct kalyubos_pending *pending)
{
    uint32_t answer = kalyubos_resize(board, slot, cols, rows, pending);
    if (!writes(slot) || is_paused(slot))
        return answer;
    keep(board, slot, pending);
    fprintf(trace, "sz %x %x %x", slot, cols, rows);
    end_call();
    put_record(slot, "done");
    return answer;
}

/* The output that was taken to write it down, and else the library's. */
uint32_t record_take_output(struct kalyubos *board, uint8_t slot, uint8_t *into, size_t into_len, size_t *taken)
{
    if (!writes(slot))
        return kalyubos_take_output(board, slot, into, into_len, taken);
    struct text *output = &seen[slot].output;
    *taken = output->len < into_len ? output->len : into_len;
    if (*taken > 0) {
        memcpy(into, output->bytes, *taken);
        output->len -= *taken;
        memmove(output->bytes, output->bytes + *taken, output->len);
    }
    return KALYUBOS_DONE;
}
