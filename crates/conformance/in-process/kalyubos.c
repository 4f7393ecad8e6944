/*
 * The C library of this repository as the suite's device: crates/board_ffi/kalyubos.h. With OURS defined it is called
 * `kalyubos` and not `device`, so that another device can stand beside it. With HOSTED defined, and linked to disks.c,
 * no disk is on the image: this host serves those that the trace doesn't serve.
 */
#include "kalyubos.h"

#include <stdio.h>
#include <stdlib.h>
#include <string.h>

#include "slot.h"
#ifdef HOSTED
#include "disks.h"
#else
#define HOSTED 0
#endif

/* How many bytes of output a guest may have waiting: a chain that puts out more never goes out. */
enum { MOST_WAITING = 1 << 24 };

enum { MOST_SLOTS = 64 };

static struct kalyubos board;
static uint8_t *image;
static size_t image_len;

/* The tags of what is in flight of each guest, and of what began with the last write, completion or release. */
static uint64_t begun[MOST_SLOTS][FURTHER_WINDOW + MOST_DEVICES], fresh;

/* Ends the program where a call doesn't answer what it must. */
static void must(uint32_t answer)
{
    if (answer != KALYUBOS_DONE) {
        fprintf(stderr, "the library answers %u\n", (unsigned)answer);
        exit(3);
    }
}

static const char *name_of(uint32_t answer)
{
    switch (answer) {
    case KALYUBOS_DONE: return NULL;
    case KALYUBOS_NO_SLOTS: return "NoSlots";
    case KALYUBOS_TOO_MANY_SLOTS: return "TooManySlots";
    case KALYUBOS_BAD_MEMORY_SIZE: return "BadSize";
    case KALYUBOS_BAD_MEMORY_BASE: return "BadBase";
    case KALYUBOS_NO_REGIONS: return "NoRegions";
    case KALYUBOS_REGIONS_NOT_APART: return "NotApart";
    case KALYUBOS_EXTENT_OUTSIDE: return "ExtentOutside";
    case KALYUBOS_EXTENTS_OVERLAP: return "ExtentsOverlap";
    case KALYUBOS_BAD_CACHE: return "BadCapacity";
    case KALYUBOS_BAD_DEPTH: return "BadDepth";
    default: return "memory";
    }
}

#if !HOSTED
static void open_disks(struct kalyubos *its_board, const struct setup *setup)
{
    (void)its_board, (void)setup;
}

static uint32_t serve_disk(unsigned guest, unsigned window, uint32_t answer, const struct kalyubos_pending *pending)
{
    (void)guest, (void)window, (void)pending;
    return answer;
}
#endif

static const char *make(const struct setup *setup)
{
    struct kalyubos_slot slots[MOST_SLOTS] = {0};
    struct kalyubos_config config = kalyubos_config_of(slots, setup->guests_len);
    if (setup->guests_len > MOST_SLOTS)
        return "TooManySlots";
    for (size_t i = 0; i < setup->guests_len; i++) {
        slots[i] = slot_of(&setup->guests[i], MOST_WAITING);
        slots[i].hosted = slots[i].hosted || HOSTED;
        for (size_t j = 0; HOSTED && j < KALYUBOS_DEVICES; j++)
            if (slots[i].devices[j].kind == KALYUBOS_IMAGE_DISK)
                slots[i].devices[j].kind = KALYUBOS_DISK;
    }
    memset(begun, 0, sizeof begun);
    image = setup->image;
    image_len = HOSTED ? 0 : setup->image_len; /* disks.c has the image itself */
    config.image = image;
    config.image_len = image_len;
    config.cache = setup->cache;
    uint32_t answer = kalyubos_create(&board, &config);
    open_disks(&board, setup);
    return name_of(answer);
}

static void end(void)
{
    if (image_len > 0)
        must(kalyubos_read_image(&board, 0, image, image_len));
    must(kalyubos_destroy(&board));
}

/* Hands on what a guest's console put out; whether there was any. */
static bool take_output(unsigned guest)
{
    uint8_t part[4096];
    size_t taken, all = 0;
    do {
        must(kalyubos_take_output(&board, (uint8_t)guest, part, sizeof part, &taken));
        put_out(guest, part, taken);
        all += taken;
    } while (taken == sizeof part);
    return all > 0;
}

static uint32_t read(unsigned guest, unsigned window, unsigned offset, unsigned width)
{
    uint32_t value = 0;
    must(kalyubos_read(&board, (uint8_t)guest, (uint8_t)window, (uint16_t)offset, (uint8_t)width, &value));
    return value;
}

/* A write is made again as long as its output had no room and some was taken. */
static void write(unsigned guest, unsigned window, unsigned offset, unsigned width, uint32_t value)
{
    struct kalyubos_pending pending;
    uint32_t answer;
    do {
        answer = kalyubos_write(&board, (uint8_t)guest, (uint8_t)window, (uint16_t)offset, (uint8_t)width, value,
                                &pending);
        answer = serve_disk(guest, window, answer, &pending);
    } while (take_output(guest) && answer == KALYUBOS_NO_ROOM);
    must(answer);
}

static bool memory(unsigned guest, uint64_t address, uint8_t *bytes, size_t len, bool put)
{
    static uint8_t none[1];
    bytes = bytes ? bytes : none;
    return (put ? kalyubos_write_memory(&board, (uint8_t)guest, address, bytes, len)
                : kalyubos_read_memory(&board, (uint8_t)guest, address, bytes, len)) == KALYUBOS_DONE;
}

static size_t input(unsigned guest, const uint8_t *bytes, size_t len)
{
    static const uint8_t none[1];
    size_t took = 0;
    struct kalyubos_pending pending;
    must(kalyubos_input(&board, (uint8_t)guest, bytes ? bytes : none, len, &took, &pending));
    take_output(guest);
    return took;
}

static void resize(unsigned guest, uint16_t cols, uint16_t rows)
{
    struct kalyubos_pending pending;
    must(kalyubos_resize(&board, (uint8_t)guest, cols, rows, &pending));
}

static const char *restore(unsigned guest, const uint8_t *bytes, size_t len)
{
    static const uint8_t none[1];
    struct kalyubos_pending pending;
    switch (kalyubos_restore(&board, (uint8_t)guest, bytes ? bytes : none, len, &pending)) {
    case KALYUBOS_DONE: return "done";
    case KALYUBOS_BUSY: return "busy";
    default: return "badstate";
    }
}

/* --- a trace that serves the disks */

/* What a write, a completion or a release began. */
static void note_begun(unsigned guest, unsigned window, uint32_t answer)
{
    uint64_t tags = 0;
    must(kalyubos_in_flight(&board, (uint8_t)guest, (uint8_t)window, &tags));
    fresh = tags & ~begun[guest][window];
    begun[guest][window] = tags;
    if ((answer == KALYUBOS_IO) != (fresh != 0)) {
        fprintf(stderr, "the library answers %u, and %llx began\n", (unsigned)answer, (unsigned long long)fresh);
        exit(3);
    }
    must(answer == KALYUBOS_IO ? KALYUBOS_DONE : answer);
}

static bool write_hosted(unsigned guest, unsigned window, unsigned offset, unsigned width, uint32_t value)
{
    struct kalyubos_pending pending;
    uint32_t answer = kalyubos_write(&board, (uint8_t)guest, (uint8_t)window, (uint16_t)offset, (uint8_t)width, value, &pending);
    take_output(guest);
    fresh = 0;
    if (answer == KALYUBOS_BUSY)
        return false;
    note_begun(guest, window == CONSOLE_WINDOW ? BLOCK_WINDOW : window, answer);
    return true;
}

static bool complete(unsigned guest, unsigned window, unsigned tag, bool failed)
{
    struct kalyubos_pending pending;
    uint32_t answer = kalyubos_completed(&board, (uint8_t)guest, (uint8_t)window, (uint8_t)tag, failed, &pending);
    fresh = 0;
    if (answer == KALYUBOS_IDLE)
        return false;
    begun[guest][window] &= ~((uint64_t)1 << tag); /* it may be used again */
    note_begun(guest, window, answer);
    return true;
}

/* What else the host says of a disk. */
static bool say(unsigned guest, unsigned window, uint32_t (*call)(struct kalyubos *, uint8_t, uint8_t, struct kalyubos_pending *))
{
    struct kalyubos_pending pending;
    uint32_t answer = call(&board, (uint8_t)guest, (uint8_t)window, &pending);
    fresh = 0;
    if (answer == KALYUBOS_IDLE)
        return false;
    note_begun(guest, window, answer);
    return true;
}

static bool drop(unsigned guest, unsigned window)
{
    bool done = say(guest, window, kalyubos_drop);
    if (begun[guest][window] != 0) {
        fputs("something is in flight behind a drop\n", stderr);
        exit(3);
    }
    return done;
}

static bool hold(unsigned guest, unsigned window)
{
    return say(guest, window, kalyubos_hold);
}

static bool release(unsigned guest, unsigned window)
{
    return say(guest, window, kalyubos_release);
}

static uint64_t began(unsigned guest)
{
    (void)guest;
    return fresh;
}

static void asked(unsigned guest, unsigned window, unsigned tag, struct operation *operation)
{
    struct kalyubos_operation found;
    struct kalyubos_run runs[KALYUBOS_RUNS];
    must(kalyubos_operation(&board, (uint8_t)guest, (uint8_t)window, (uint8_t)tag, &found, runs, KALYUBOS_RUNS));
    *operation = (struct operation){.stable = found.stable, .start = found.start, .len = found.len, .runs_len = found.runs};
    operation->kind = found.kind == KALYUBOS_IN ? IN : found.kind == KALYUBOS_OUT ? OUT : found.kind == KALYUBOS_FLUSH ? FLUSH : ZEROES;
    for (size_t i = 0; i < found.runs; i++)
        operation->runs[i] = (struct run){runs[i].at, runs[i].len};
}

/* --- further devices */

static uint8_t window_of(unsigned number)
{
    return (uint8_t)(KALYUBOS_DEVICE + number);
}

/* Whether a device took what was done to it. */
static bool took(uint32_t answer)
{
    if (answer == KALYUBOS_BAD_WINDOW)
        return false;
    must(answer);
    return true;
}

static bool read_device(unsigned guest, unsigned number, unsigned offset, unsigned width, uint32_t *value)
{
    return took(kalyubos_read(&board, (uint8_t)guest, window_of(number), (uint16_t)offset, (uint8_t)width, value));
}

static bool write_device(unsigned guest, unsigned number, unsigned offset, unsigned width, uint32_t value)
{
    struct kalyubos_pending pending;
    uint32_t answer = kalyubos_write(&board, (uint8_t)guest, window_of(number), (uint16_t)offset, (uint8_t)width, value, &pending);
    return took(serve_disk(guest, FURTHER_WINDOW + number, answer, &pending));
}

static bool supply(unsigned guest, unsigned number, const uint8_t *bytes, size_t len, size_t *taken)
{
    static const uint8_t none[1];
    return took(kalyubos_supply(&board, (uint8_t)guest, window_of(number), bytes ? bytes : none, len, taken));
}

static bool receive(unsigned guest, unsigned number, const uint8_t *frame, size_t len, bool *taken)
{
    static const uint8_t none[1];
    return took(kalyubos_receive(&board, (uint8_t)guest, window_of(number), frame ? frame : none, len, taken));
}

static bool take(unsigned guest, unsigned number, uint8_t *frame, size_t room, size_t *len)
{
    return took(kalyubos_take_frame(&board, (uint8_t)guest, window_of(number), frame, room, len));
}

static bool set_link(unsigned guest, unsigned number, bool up)
{
    return took(kalyubos_set_link(&board, (uint8_t)guest, window_of(number), up));
}

static bool resize_device(unsigned guest, unsigned number, uint16_t cols, uint16_t rows)
{
    return took(kalyubos_resize_device(&board, (uint8_t)guest, window_of(number), cols, rows));
}

static const struct further further = {read_device, write_device, supply, receive, take, set_link, resize_device, true};

static const struct hosting hosting = {true, true, write_hosted, complete, began, asked, drop, hold, release};

#ifdef OURS
extern const struct device kalyubos;
#define NAME kalyubos
#else
#define NAME device
#endif
const struct device NAME = {read, write, memory, input, resize, make, end, restore, &hosting, &further};
