/*
 * A guest with five disks: its own, which is of an image in the library, two further ones that its host serves from bytes
 * of its own, one for reading alone, and two further ones over spare sectors of the image. Operations of the host's are in flight
 * at once, and the host ends them in any order. One is put on hold, and its operations are given up, while the others go on. Those
 * of the image ask for nothing: a request is done with its notification.
 *
 * The guest is C as well: a driver's loads and stores are a CPU's exits.
 */
#include <inttypes.h>
#include <stdio.h>
#include <stdlib.h>
#include <string.h>

#include "kalyubos.h"

enum { SECTOR = 512, SECTORS = 8, LEN = SECTORS * SECTOR, DEPTH = 2, MEMORY_LEN = 0x20000 };
enum { SPARE = 5, LOG_START = 2, LOG_SECTORS = 3, CACHE_START = 0, CACHE_SECTORS = 2, IMAGE_LEN = (SECTORS + SPARE) * SECTOR };
enum { TOOLS = KALYUBOS_DEVICE, DATA, LOG, CACHE, WINDOWS }; /* the further disks' windows; 1 is the console's */
static const uint64_t MEMORY = 0x80000000;

static struct kalyubos board;
static uint8_t *memory;

static void need(bool holds, const char *what)
{
    if (!holds) {
        fprintf(stderr, "disks: %s\n", what);
        exit(1);
    }
}

static void answers(uint32_t answer, uint32_t wanted, const char *what)
{
    if (answer != wanted)
        fprintf(stderr, "disks: %s\n", kalyubos_answer(answer));
    need(answer == wanted, what);
}

/* ---- the host */

/* The bytes of the disk of each window, and the tags of the operations that the host has begun. */
static struct disk {
    uint8_t bytes[LEN];
    uint64_t begun;
} disks[WINDOWS];

/* What a disk is asked for from now on: behind each call for it that is answered KALYUBOS_IO. */
static void begin(uint8_t window)
{
    uint64_t tags = 0;
    answers(kalyubos_in_flight(&board, 0, window, &tags), KALYUBOS_DONE, "in_flight");
    for (uint8_t tag = 0; tag < KALYUBOS_TAGS; tag++)
        if ((tags & ~disks[window].begun) >> tag & 1)
            printf("  disk %d: tag %d is in flight\n", window, tag);
    disks[window].begun = tags;
}

/* Moves the bytes of an operation: its runs are of the guest's memory. */
static void move(uint8_t *bytes, const struct kalyubos_operation *operation, const struct kalyubos_run *runs)
{
    for (uint32_t i = 0; i < operation->runs; i++) {
        uint8_t *run = memory + (runs[i].at - MEMORY);
        memcpy(operation->kind == KALYUBOS_IN ? run : bytes, operation->kind == KALYUBOS_IN ? bytes : run, runs[i].len);
        bytes += runs[i].len;
    }
}

/* Does what a disk is asked for with a tag, and says that it is done: its request ends, and the next one may begin. */
static void complete(uint8_t window, uint8_t tag)
{
    struct kalyubos_operation operation;
    struct kalyubos_run runs[KALYUBOS_RUNS];
    struct kalyubos_pending pending;
    answers(kalyubos_operation(&board, 0, window, tag, &operation, runs, KALYUBOS_RUNS), KALYUBOS_DONE, "operation");
    if (operation.kind == KALYUBOS_IN || operation.kind == KALYUBOS_OUT)
        move(disks[window].bytes + operation.start, &operation, runs);
    printf("  disk %d: tag %d is done\n", window, tag);
    uint32_t answer = kalyubos_completed(&board, 0, window, tag, false, &pending);
    disks[window].begun &= ~((uint64_t)1 << tag); /* the call may have used the tag again; nothing pauses here, so it took this */
    if (answer == KALYUBOS_IO)
        begin(window);
    else
        answers(answer, KALYUBOS_DONE, "completed");
}

/* The interrupt line of each window, as the board has it now. */
static bool line_of(uint8_t window)
{
    struct kalyubos_device_pending pending;
    uint8_t block, console;
    if (window == KALYUBOS_BLOCK) {
        answers(kalyubos_interrupts(&board, 0, &block, &console), KALYUBOS_DONE, "interrupts");
        return block != 0;
    }
    answers(kalyubos_device_pending(&board, 0, window, &pending), KALYUBOS_DONE, "device_pending");
    need(pending.tags == disks[window].begun, "the tags of device_pending");
    return pending.interrupt != 0;
}

/* What a driver's load and store come to. */
static uint32_t load(uint8_t window, uint16_t offset)
{
    uint32_t value;
    answers(kalyubos_read(&board, 0, window, offset, 4, &value), KALYUBOS_DONE, "a load");
    return value;
}

static uint32_t store(uint8_t window, uint16_t offset, uint32_t value)
{
    struct kalyubos_pending pending;
    uint32_t answer = kalyubos_write(&board, 0, window, offset, 4, value, &pending);
    if (answer == KALYUBOS_IO)
        begin(window);
    return answer;
}

/* ---- the driver: a queue of sixteen and three requests for each window, in a part of the memory of its own */

enum { PART = 0x4000, TABLE = 0x0, AVAILABLE = 0x400, USED = 0x800, HEADERS = 0x1000, ENDS = 0x1800, BUFFERS = 0x2000, QUEUE = 16 };
enum { NEXT = 1, WRITE = 2, IN = 0, OUT = 1, GET_ID = 8, OK = 0, IOERR = 1, UNTOLD = 0xff };
enum { FEATURES = 0x010, NOTIFY = 0x050, STATUS = 0x070, CAPACITY = 0x100, RO = 1 << 5, NEEDS_RESET = 0x40 };

static uint16_t offered[WINDOWS], seen[WINDOWS];

static uint8_t *at(uint8_t window, uint32_t offset)
{
    return memory + PART * window + offset;
}

static void bring_up(uint8_t window)
{
    const uint32_t part = (uint32_t)MEMORY + PART * window;
    const uint32_t steps[][2] = { { STATUS, 0 }, { STATUS, 1 }, { STATUS, 3 }, { 0x24, 1 }, { 0x20, 1 }, { STATUS, 11 },
                                  { 0x30, 0 }, { 0x38, QUEUE }, { 0x80, part + TABLE }, { 0x90, part + AVAILABLE },
                                  { 0xa0, part + USED }, { 0x44, 1 }, { STATUS, 15 } };
    memset(at(window, 0), 0, PART);
    offered[window] = seen[window] = 0;
    for (size_t i = 0; i < sizeof steps / sizeof *steps; i++)
        answers(store(window, (uint16_t)steps[i][0], steps[i][1]), KALYUBOS_DONE, "a step of the driver");
    printf("disk %d is up: device %" PRIu32 ", %" PRIu32 " sectors%s\n", window, load(window, 0x008), load(window, CAPACITY),
           load(window, FEATURES) & RO ? ", read-only" : "");
}

static uint8_t *buffer(uint8_t window, uint8_t request)
{
    return at(window, BUFFERS + SECTOR * request);
}

/* Offers a request of a sector, and leaves it on offer until a notification. */
static void offer(uint8_t window, uint8_t request, uint32_t type, uint64_t sector)
{
    const uint64_t part = MEMORY + PART * window;
    const uint16_t first = 3 * request;
    const struct { uint64_t addr; uint32_t len; uint16_t flags, next; } chain[3] = {
        { part + HEADERS + 16 * request, 16, NEXT, first + 1 },
        { part + BUFFERS + SECTOR * request, type == GET_ID ? 20 : SECTOR, NEXT | (type == OUT ? 0 : WRITE), first + 2 },
        { part + ENDS + request, 1, WRITE, 0 },
    };
    const struct { uint32_t type, reserved; uint64_t sector; } header = { type, 0, sector };
    memcpy(at(window, TABLE + sizeof *chain * first), chain, sizeof chain);
    memcpy(at(window, HEADERS + 16 * request), &header, sizeof header);
    *at(window, ENDS + request) = UNTOLD;
    memcpy(at(window, AVAILABLE + 4 + 2 * (offered[window] % QUEUE)), &first, sizeof first);
    offered[window]++;
    memcpy(at(window, AVAILABLE + 2), &offered[window], sizeof offered[window]);
}

static void notify(uint8_t window, uint32_t answer)
{
    answers(store(window, NOTIFY, 0), answer, "a notification");
}

/* So many requests have come back since the last time; the driver acknowledges the interrupt. */
static void come_back(uint8_t window, uint16_t count)
{
    uint16_t idx;
    memcpy(&idx, at(window, USED + 2), sizeof idx);
    need((uint16_t)(idx - seen[window]) == count, "how many requests came back");
    need(line_of(window) == (count > 0), "the line");
    seen[window] = idx;
    answers(store(window, 0x064, load(window, 0x060)), KALYUBOS_DONE, "an acknowledgement");
    need(!line_of(window), "the line behind it");
}

static void ends(uint8_t window, uint8_t request, uint8_t status)
{
    need(*at(window, ENDS + request) == status, "a request's status");
}

static bool is_hosted(uint8_t window)
{
    return window == TOOLS || window == DATA;
}

/* ---- what they do */

/* A read of each disk's own bytes, and what each is called. */
static void read_each(void)
{
    static const uint8_t windows[] = { KALYUBOS_BLOCK, TOOLS, DATA, LOG, CACHE };
    for (size_t i = 0; i < sizeof windows; i++) {
        uint8_t window = windows[i];
        offer(window, 0, GET_ID, 0);
        offer(window, 1, IN, 1);
        notify(window, is_hosted(window) ? KALYUBOS_IO : KALYUBOS_DONE);
        if (is_hosted(window))
            complete(window, 0);
        come_back(window, 2);
        ends(window, 0, OK);
        ends(window, 1, OK);
        printf("disk %d is \"%.20s\", and its sector 1 says \"%.12s\"\n", window, buffer(window, 0), buffer(window, 1));
    }
}

static void write_both(void)
{
    strcpy((char *)buffer(TOOLS, 0), "not to be had");
    offer(TOOLS, 0, OUT, 2);
    notify(TOOLS, KALYUBOS_DONE);
    come_back(TOOLS, 1);
    ends(TOOLS, 0, IOERR);
    printf("disk %d takes no write\n", TOOLS);
    strcpy((char *)buffer(DATA, 0), "new");
    offer(DATA, 0, OUT, 2);
    notify(DATA, KALYUBOS_IO);
    complete(DATA, 0);
    come_back(DATA, 1);
    ends(DATA, 0, OK);
    printf("disk %d has \"%s\" now\n", DATA, disks[DATA].bytes + 2 * SECTOR);
}

/* A disk over the image reads what was written to it, has no sector behind its own, and shares none with another disk. */
static void write_and_read(uint8_t window, const char *text, uint64_t sector, uint64_t behind, size_t in_image)
{
    const uint8_t *image;
    size_t len;
    strcpy((char *)buffer(window, 0), text);
    offer(window, 0, OUT, sector);
    offer(window, 1, IN, sector);
    offer(window, 2, IN, behind);
    notify(window, KALYUBOS_DONE);
    come_back(window, 3);
    ends(window, 0, OK);
    ends(window, 1, OK);
    ends(window, 2, IOERR);
    answers(kalyubos_image(&board, &image, &len), KALYUBOS_DONE, "image");
    need(len == IMAGE_LEN && memcmp(image + in_image * SECTOR, buffer(window, 0), SECTOR) == 0, "the bytes of the image");
    printf("disk %d reads \"%s\", which sector %zu of the image has\n", window, buffer(window, 1), in_image);
}

static void write_over_image(void)
{
    write_and_read(LOG, "a line", LOG_SECTORS - 1, LOG_SECTORS, SECTORS + LOG_START + LOG_SECTORS - 1);
    write_and_read(CACHE, "a page", 0, CACHE_SECTORS, SECTORS + CACHE_START);
    offer(CACHE, 0, IN, 1);
    notify(CACHE, KALYUBOS_DONE);
    come_back(CACHE, 1);
    printf("disk %d has \"%.12s\" behind it\n", CACHE, buffer(CACHE, 0));
}

/* Three requests of a disk that has two tags, beside one of another disk. */
static void work_at_once(void)
{
    for (uint8_t request = 0; request < 3; request++)
        offer(DATA, request, IN, request);
    notify(DATA, KALYUBOS_IO);
    offer(TOOLS, 0, IN, 0);
    notify(TOOLS, KALYUBOS_IO);
    answers(store(DATA, STATUS, 0), KALYUBOS_BUSY, "a reset of a disk at work");
    complete(DATA, 1);
    complete(TOOLS, 0);
    complete(DATA, 0);
    complete(DATA, 1);
    come_back(TOOLS, 1);
    come_back(DATA, 3);
    for (uint8_t request = 0; request < 3; request++)
        need(memcmp(buffer(DATA, request), disks[DATA].bytes + SECTOR * request, SECTOR) == 0, "the bytes of a read");
    need(memcmp(buffer(TOOLS, 0), disks[TOOLS].bytes, SECTOR) == 0, "the bytes of the other disk");
}

/* On hold nothing begins, as where a host wants to save the guest; other disks go on. */
static void hold(void)
{
    struct kalyubos_pending pending;
    answers(kalyubos_hold(&board, 0, DATA, &pending), KALYUBOS_DONE, "hold");
    answers(kalyubos_hold(&board, 0, DATA, &pending), KALYUBOS_IDLE, "a second hold");
    offer(DATA, 0, IN, 3);
    notify(DATA, KALYUBOS_DONE);
    printf("disk %d is on hold\n", DATA);
    offer(TOOLS, 0, IN, 3);
    notify(TOOLS, KALYUBOS_IO);
    complete(TOOLS, 0);
    come_back(TOOLS, 1);
    answers(kalyubos_release(&board, 0, DATA, &pending), KALYUBOS_IO, "release");
    begin(DATA);
    complete(DATA, 0);
    come_back(DATA, 1);
}

/* The host can't go on: it gives up what is in flight. The driver resets the disk, and asks again. */
static void drop(void)
{
    struct kalyubos_pending pending;
    offer(TOOLS, 0, IN, 4);
    notify(TOOLS, KALYUBOS_IO);
    offer(DATA, 0, IN, 4);
    offer(DATA, 1, IN, 5);
    notify(DATA, KALYUBOS_IO);
    answers(kalyubos_drop(&board, 0, DATA, &pending), KALYUBOS_DONE, "drop");
    disks[DATA].begun = 0;
    answers(kalyubos_completed(&board, 0, DATA, 0, false, &pending), KALYUBOS_IDLE, "a completion behind a drop");
    need((load(DATA, STATUS) & NEEDS_RESET) != 0 && line_of(DATA), "the disk asks for a reset");
    printf("disk %d is given up, and asks for a reset\n", DATA);
    complete(TOOLS, 0);
    come_back(TOOLS, 1);
    bring_up(DATA);
    offer(DATA, 0, IN, 4);
    notify(DATA, KALYUBOS_IO);
    complete(DATA, 0);
    come_back(DATA, 1);
    ends(DATA, 0, OK);
}

int main(void)
{
    static uint8_t image[IMAGE_LEN];
    struct kalyubos_slot slot = {
        .size = sizeof slot, .regions = { { MEMORY, MEMORY_LEN } }, .count = SECTORS, .spare = SPARE, .identity = "SYSTEM",
        .devices = { { .kind = KALYUBOS_DISK, .sectors = SECTORS, .read_only = true, .identity = "TOOLS" },
                     { .kind = KALYUBOS_DISK, .sectors = SECTORS, .depth = DEPTH, .identity = "DATA" },
                     { .kind = KALYUBOS_IMAGE_DISK, .start = LOG_START, .sectors = LOG_SECTORS, .identity = "LOG" },
                     { .kind = KALYUBOS_IMAGE_DISK, .start = CACHE_START, .sectors = CACHE_SECTORS, .identity = "CACHE" } },
    };
    struct kalyubos_config config = kalyubos_config_of(&slot, 1);
    size_t len;
    need(kalyubos_version() == KALYUBOS_VERSION, "the library is of another version than the header");
    strcpy((char *)image + SECTOR, "the system");
    strcpy((char *)image + (SECTORS + LOG_START + 1) * SECTOR, "the log");
    strcpy((char *)image + (SECTORS + CACHE_START + 1) * SECTOR, "the cache");
    strcpy((char *)disks[TOOLS].bytes + SECTOR, "the tools");
    strcpy((char *)disks[DATA].bytes + SECTOR, "the data");
    config.image = image;
    config.image_len = sizeof image;
    answers(kalyubos_create(&board, &config), KALYUBOS_DONE, "create");
    answers(kalyubos_memory(&board, 0, MEMORY, &memory, &len), KALYUBOS_DONE, "memory");
    bring_up(KALYUBOS_BLOCK);
    bring_up(TOOLS);
    bring_up(DATA);
    bring_up(LOG);
    bring_up(CACHE);
    read_each();
    write_both();
    write_over_image();
    work_at_once();
    hold();
    drop();
    answers(kalyubos_destroy(&board), KALYUBOS_DONE, "destroy");
    return 0;
}
