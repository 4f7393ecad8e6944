/*
 * A target for libFuzzer: bytes are read as a trace's text and replayed on `device`, yours, and on `kalyubos`, the C
 * library of this repository. The first event whose records differ ends the program, and both records are told; so does
 * an image that differs at the end.
 *
 *     clang -std=c11 -g -O1 -fsanitize=fuzzer,address -I ../../board_ffi -DOURS -o fuzz fuzz.c trace.c kalyubos.c \
 *         my_device.c ../../../packaging/out/libkalyubos.a
 *     mkdir -p found && ./fuzz -only_ascii=1 -max_len=8000 found ../data/scenarios/[a-z]*[a-z] \
 *         -seed_inputs=../../../examples/linux-boot.trace
 *
 * The seeds are the scenarios, which ../matrix/make --files writes, and what Linux did when it booted.
 *
 * Without `address`, which looks for faults of your device's memory, it is a hundred times as fast.
 */
#include <ctype.h>
#include <stdio.h>
#include <stdlib.h>
#include <string.h>

#include "trace.h"

extern const struct device kalyubos;

/* A chain of 256 buffers of a memory that is no larger always finds room in an outlet of the library. */
enum { IMAGE = 8 * 512, MOST_MEMORY = 1 << 16 };

/* What libFuzzer takes for new beside new code, since the library isn't built to tell it of its own. */
__attribute__((section("__libfuzzer_extra_counters"))) static uint8_t seen[1 << 14];

/* One run: the device is made anew over sectors of 0x10, 0x11 and so on. */
static bool begin(const struct device *one, const struct trace *trace, uint8_t *image)
{
    for (size_t i = 0; i < IMAGE; i++)
        image[i] = (uint8_t)(0x10 + i / 512);
    struct setup setup = {trace->guests, trace->guests_len, image, IMAGE, trace->cache, NULL, 0, trace->hosted};
    return !one->make(&setup);
}

/* Whether the two records are the same; else the program ends. */
static void compare(const struct text *ours, const struct text *theirs)
{
    if (ours->len == theirs->len && !memcmp(ours->at, theirs->at, ours->len))
        return;
    fprintf(stderr, "the board   %.*sthe device  %.*s", (int)ours->len, ours->at, (int)theirs->len, theirs->at);
    abort();
}

/* Counts an answer: the register, its value where it was read, and both InterruptStatus words. */
static void count(const struct event *event, const struct text *record)
{
    size_t from = event->kind == READ || record->len < 4 ? 0 : record->len - 4;
    uint32_t hash = 2166136261u ^ (uint32_t)event->kind ^ event->window << 4 ^ event->offset << 8;
    for (size_t i = from; i < record->len; i++)
        hash = (hash ^ (uint8_t)record->at[i]) * 16777619u;
    seen[hash % sizeof seen] = 1;
}

static void replay_both(struct trace *trace)
{
    static struct text ours, theirs;
    struct event event;
    while (read_event(trace, &event)) {
        ours.len = theirs.len = 0;
        if (!can_be_asked(&device, trace, &event)) {
            free(event.bytes);
            continue;
        }
        replay_event(&kalyubos, trace, &event, &ours);
        replay_event(&device, trace, &event, &theirs);
        compare(&ours, &theirs);
        count(&event, &ours);
        free(event.bytes);
    }
}

size_t LLVMFuzzerMutate(uint8_t *bytes, size_t len, size_t most);

/* Where the line that holds a byte begins, and where the next one does. */
static size_t line_begin(const uint8_t *bytes, size_t at)
{
    while (at > 0 && bytes[at - 1] != '\n')
        at--;
    return at;
}

static size_t line_end(const uint8_t *bytes, size_t at, size_t len)
{
    while (at < len && bytes[at] != '\n')
        at++;
    return at < len ? at + 1 : len;
}

/* Puts a line before another one: what the host says of a disk that it serves. */
static size_t put_line(uint8_t *bytes, size_t len, size_t most, size_t at, uint32_t dice)
{
    static const char *const words[] = {"drop", "hold", "release", "release"};
    char line[16];
    size_t added = (size_t)snprintf(line, sizeof line, "%s %u\n", words[dice & 3], (unsigned)(dice >> 2 & 1));
    if (len + added > most)
        return len;
    memmove(bytes + at + added, bytes + at, len - at);
    memcpy(bytes + at, line, added);
    return len + added;
}

/* Mostly a digit becomes another one, or a line is left out, comes twice or is put in, so that it stays a trace. */
size_t LLVMFuzzerCustomMutator(uint8_t *bytes, size_t len, size_t most, unsigned seed)
{
    uint32_t dice = seed * 2654435761u;
    unsigned way = dice >> 28;
    if (!len || way < 4)
        return LLVMFuzzerMutate(bytes, len, most);
    size_t at = (dice >> 4) % len;
    if (way < 12) {
        while (at < len && !isxdigit(bytes[at]))
            at++;
        if (at < len)
            bytes[at] = (uint8_t)"0123456789abcdef"[dice & 15];
        return len;
    }
    size_t begin = line_begin(bytes, at), end = line_end(bytes, at, len);
    if (way == 12) {
        memmove(bytes + begin, bytes + end, len - end);
        return len - (end - begin);
    }
    if (way == 13)
        return put_line(bytes, len, most, begin, dice);
    if (len + (end - begin) > most)
        return len;
    memmove(bytes + end, bytes + begin, len - begin);
    return len + (end - begin);
}

int LLVMFuzzerTestOneInput(const uint8_t *bytes, size_t len)
{
    static uint8_t images[2][IMAGE];
    struct trace trace;
    if (!read_setup((const char *)bytes, len, &trace) || why_no_disks(&device, &trace) ||
        why_no_disks(&kalyubos, &trace))
        return -1;
    for (size_t i = 0; i < trace.guests_len; i++)
        if (memory_size(&trace.guests[i]) > MOST_MEMORY)
            return -1;
    if (!begin(&kalyubos, &trace, images[0]))
        return -1;
    if (!begin(&device, &trace, images[1])) {
        fputs("the device refuses guests that the board takes\n", stderr);
        abort();
    }
    replay_both(&trace);
    kalyubos.end();
    device.end();
    if (memcmp(images[0], images[1], IMAGE)) {
        fputs("the images differ\n", stderr);
        abort();
    }
    return 0;
}
