/*
 * A guest with a busy console and two disks at once, over a board with a budget of one chain. While its console puts out a text,
 * a service is paused, and operations of both disks end: the host keeps what they came to, and completes them once the service has
 * ended. Its own disk is bytes of this host, by the lines of docs/EMBEDDING.md; the further one is a file, by file_disk.c.
 *
 * The guest is C as well: a driver's loads and stores are a CPU's exits.
 */
#define _GNU_SOURCE
#include <inttypes.h>
#include <poll.h>
#include <stdio.h>
#include <stdlib.h>
#include <string.h>
#include <unistd.h>

#include "file_disk.h"

enum { SECTOR = 512, SECTORS = 8, DISK_LEN = SECTORS * SECTOR, DEPTH = 4, MEMORY_LEN = 0x10000, OUTLET = 256 };
enum { FILE_DISK = KALYUBOS_DEVICE };
static const uint64_t MEMORY = 0x80000000;

struct guest {
    struct kalyubos board;
    struct kalyubos_pending lines; /* as its last call left them */
    bool paused;                   /* a service goes on by kalyubos_go_on */
    uint64_t begun, ended, failed; /* tags of its own disk: begun and not completed, and of them what has ended, and how */
    struct file_disk disk;
    uint8_t *memory;
};

static uint8_t own[DISK_LEN];

static void need(bool holds, const char *what)
{
    if (!holds) {
        fprintf(stderr, "busy: %s\n", what);
        exit(1);
    }
}

/* ---- its own disk */

/* Moves the bytes of a read of one run, in place. That it has ended is told later. */
static void begin(struct guest *guest, uint8_t tag)
{
    struct kalyubos_operation it;
    struct kalyubos_run run;
    need(kalyubos_operation(&guest->board, 0, KALYUBOS_BLOCK, tag, &it, &run, 1) == KALYUBOS_DONE, "operation");
    memcpy(guest->memory + (run.at - MEMORY), own + it.start, run.len);
    printf("  tag %u begins\n", tag);
}

/* after each call that is answered IO */
static void begin_operations(struct guest *guest)
{
    uint64_t tags = 0;
    kalyubos_in_flight(&guest->board, 0, KALYUBOS_BLOCK, &tags);
    for (uint8_t tag = 0; tag < KALYUBOS_TAGS; tag++)
        if ((tags & ~guest->begun) >> tag & 1) {
            guest->begun |= (uint64_t)1 << tag;
            begin(guest, tag);
        }
}

/* completes what has ended: also behind the last kalyubos_go_on of a service */
static void complete_ended(struct guest *guest)
{
    while (guest->ended != 0) {
        uint8_t tag = (uint8_t)__builtin_ctzll(guest->ended);
        uint64_t others = ~((uint64_t)1 << tag);
        uint32_t answer = kalyubos_completed(&guest->board, 0, KALYUBOS_BLOCK, tag, guest->failed >> tag & 1, &guest->lines);
        printf("  tag %u: %s\n", tag, kalyubos_answer(answer));
        if (answer == KALYUBOS_BUSY)
            return; /* a service of the slot is paused */
        guest->begun &= others;
        guest->ended &= others;
        guest->failed &= others;
        if (answer == KALYUBOS_IO)
            begin_operations(guest);
    }
}

/* where the operation of a tag has ended */
static void end_operation(struct guest *guest, uint8_t tag, bool failed)
{
    guest->ended |= (uint64_t)1 << tag;
    guest->failed |= (uint64_t)failed << tag;
    complete_ended(guest);
}

/* ---- the further disk: its steps' ends wait in `ready` while a service is paused */

static void go_on_with_file(struct guest *guest)
{
    uint8_t tag;
    bool failed;
    while (file_disk_go_on(&guest->disk, &tag, &failed)) {
        need(!guest->paused, "an operation is told of in a pause");
        printf("  tag %u of the file ends\n", tag);
        uint32_t answer = kalyubos_completed(&guest->board, 0, FILE_DISK, tag, failed, &guest->lines);
        if (answer == KALYUBOS_IO)
            (void)file_disk_begin(&guest->disk); /* the loop tells what the kernel doesn't take */
        need(answer == KALYUBOS_DONE || answer == KALYUBOS_IO, "a completion");
    }
}

static void wait_for_file(const struct guest *guest)
{
    struct pollfd wake = { .fd = guest->disk.ready, .events = POLLIN };
    need(poll(&wake, 1, -1) == 1, "poll");
}

static void open_file(struct guest *guest)
{
    char path[] = "/tmp/kalyubos-busy-XXXXXX";
    int file = mkstemp(path);
    uint8_t content[DISK_LEN];
    memset(content, 'f', sizeof content);
    need(file >= 0 && write(file, content, sizeof content) == DISK_LEN && close(file) == 0, "a file");
    const char *wrong = file_disk_open(&guest->disk, &guest->board, 0, FILE_DISK, DEPTH, path, DISK_LEN, false, &file_thread);
    need(wrong == NULL, wrong);
    unlink(path);
}

/* ---- exits, and services that pause */

/* What the file's steps came to is looked at once a service that was paused has ended, so that each run of this host is the same. */
static void settle(struct guest *guest, uint32_t answer)
{
    bool was_paused = guest->paused;
    guest->paused = answer == KALYUBOS_MORE;
    if (answer == KALYUBOS_IO)
        begin_operations(guest);
    need(guest->paused || answer == KALYUBOS_DONE || answer == KALYUBOS_IO, kalyubos_answer(answer));
    if (guest->paused)
        return;
    complete_ended(guest);
    if (was_paused)
        go_on_with_file(guest);
}

static void store(struct guest *guest, uint8_t window, uint16_t offset, uint32_t value)
{
    uint32_t answer = kalyubos_write(&guest->board, 0, window, offset, 4, value, &guest->lines);
    if (window == FILE_DISK && answer == KALYUBOS_IO) {
        need(file_disk_begin(&guest->disk), "a step");
        answer = KALYUBOS_DONE;
    }
    settle(guest, answer);
}

/* ---- the driver: a queue of each window, in a part of the memory of its own (VIRTIO 1.2, 2.7, 5.2.6 and 5.3.6) */

enum { PART = 0x4000, TABLE = 0x0, AVAILABLE = 0x400, USED = 0x800, HEADERS = 0x1000, DATA = 0x2000, QUEUE = 16 };
enum { NEXT = 1, WRITE = 2, IN = 0, UNTOLD = 0xff, NOTIFY = 0x050, STATUS = 0x070, TRANSMIT = 1 };

static uint16_t offered[FILE_DISK + 1];

static uint8_t *at(struct guest *guest, uint8_t window, uint32_t offset)
{
    return guest->memory + PART * window + offset;
}

static void bring_up(struct guest *guest, uint8_t window, uint32_t queue)
{
    const uint32_t part = (uint32_t)MEMORY + PART * window;
    const uint32_t steps[][2] = { { STATUS, 1 }, { STATUS, 3 }, { 0x24, 1 }, { 0x20, 1 }, { STATUS, 11 }, { 0x30, queue },
                                  { 0x38, QUEUE }, { 0x80, part + TABLE }, { 0x90, part + AVAILABLE }, { 0xa0, part + USED },
                                  { 0x44, 1 }, { STATUS, 15 } };
    for (size_t i = 0; i < sizeof steps / sizeof *steps; i++)
        store(guest, window, (uint16_t)steps[i][0], steps[i][1]);
}

static void describe(struct guest *guest, uint8_t window, uint16_t place, uint32_t offset, uint32_t len, uint16_t flags)
{
    struct { uint64_t addr; uint32_t len; uint16_t flags, next; } it = { MEMORY + PART * window + offset, len, flags,
                                                                         (uint16_t)(place + 1) };
    memcpy(at(guest, window, TABLE + 16 * place), &it, sizeof it);
}

static void put_on_offer(struct guest *guest, uint8_t window, uint16_t head)
{
    memcpy(at(guest, window, AVAILABLE + 4 + 2 * (offered[window] % QUEUE)), &head, sizeof head);
    offered[window]++;
    memcpy(at(guest, window, AVAILABLE + 2), &offered[window], sizeof offered[window]);
}

/* Asks a disk for so many sectors, from this one on, each by a request of its own. */
static void read_sectors(struct guest *guest, uint8_t window, uint64_t sector, uint16_t count)
{
    for (uint16_t i = 0; i < count; i++) {
        const struct { uint32_t type, reserved; uint64_t sector; } header = { IN, 0, sector + i };
        memcpy(at(guest, window, HEADERS + 32 * i), &header, sizeof header);
        *at(guest, window, HEADERS + 32 * i + 16) = UNTOLD;
        describe(guest, window, 3 * i, HEADERS + 32 * i, 16, NEXT);
        describe(guest, window, 3 * i + 1, DATA + SECTOR * i, SECTOR, NEXT | WRITE);
        describe(guest, window, 3 * i + 2, HEADERS + 32 * i + 16, 1, WRITE);
        put_on_offer(guest, window, 3 * i);
    }
    store(guest, window, NOTIFY, 0);
}

/* Puts out so many lines, each by a chain of its own. */
static void put_out(struct guest *guest, uint16_t lines)
{
    for (uint16_t i = 0; i < lines; i++) {
        char *line = (char *)at(guest, KALYUBOS_CONSOLE, DATA + 32 * i);
        int len = snprintf(line, 32, "line %u\n", i);
        describe(guest, KALYUBOS_CONSOLE, i, DATA + 32 * i, (uint32_t)len, 0);
        put_on_offer(guest, KALYUBOS_CONSOLE, i);
    }
    store(guest, KALYUBOS_CONSOLE, NOTIFY, TRANSMIT);
}

/* What a driver finds: each of its requests is used, with its status and its bytes. */
static void find(struct guest *guest, const char *name, uint8_t window, uint16_t count, uint8_t byte)
{
    uint16_t used;
    memcpy(&used, at(guest, window, USED + 2), sizeof used);
    printf("%s: %u of %u requests are used\n", name, used, offered[window]);
    need(used == offered[window], "a request is never completed");
    for (uint16_t i = 0; i < count; i++) {
        need(*at(guest, window, HEADERS + 32 * i + 16) == 0, "a request's status");
        for (uint32_t j = 0; j < SECTOR; j++)
            need(*at(guest, window, DATA + SECTOR * i + j) == byte, "a byte that was read");
    }
}

/* ---- the machine */

static void power_on(struct guest *guest)
{
    struct kalyubos_slot slot = {
        .size = sizeof slot, .regions = { { MEMORY, MEMORY_LEN } }, .count = SECTORS, .cols = 80, .rows = 25, .outlet = OUTLET,
        .hosted = true, .depth = DEPTH, .devices = { { .kind = KALYUBOS_DISK, .sectors = SECTORS, .depth = DEPTH } },
    };
    struct kalyubos_config config = kalyubos_config_of(&slot, 1);
    size_t len;
    config.chains = 1;
    need(kalyubos_create(&guest->board, &config) == KALYUBOS_DONE, "create");
    need(kalyubos_memory(&guest->board, 0, MEMORY, &guest->memory, &len) == KALYUBOS_DONE, "memory");
    memset(own, 'o', sizeof own);
    open_file(guest);
    bring_up(guest, KALYUBOS_BLOCK, 0);
    bring_up(guest, KALYUBOS_CONSOLE, TRANSMIT);
    bring_up(guest, FILE_DISK, 0);
}

/* The console is served by pieces. Behind the first ones operations end, in this order. */
static void serve_console(struct guest *guest)
{
    static const uint8_t order[] = { 2, 0, 1 };
    for (unsigned piece = 0; guest->paused; piece++) {
        printf("the service is paused, with %" PRIu64 " bytes of output\n", guest->lines.output);
        if (piece < sizeof order)
            end_operation(guest, order[piece], false);
        wait_for_file(guest);
        go_on_with_file(guest);
        settle(guest, kalyubos_go_on(&guest->board, 0, &guest->lines));
    }
    printf("the service has ended, with %" PRIu64 " bytes of output\n", guest->lines.output);
}

static void power_off(struct guest *guest)
{
    file_disk_close(&guest->disk);
    need(kalyubos_destroy(&guest->board) == KALYUBOS_DONE, "destroy");
}

int main(void)
{
    static struct guest guest;
    power_on(&guest);
    puts("three reads of its own disk");
    read_sectors(&guest, KALYUBOS_BLOCK, 0, 3);
    puts("a read of the file, and five lines");
    read_sectors(&guest, FILE_DISK, 3, 1);
    put_out(&guest, 5);
    serve_console(&guest);
    find(&guest, "its own disk", KALYUBOS_BLOCK, 3, 'o');
    find(&guest, "the file", FILE_DISK, 1, 'f');
    puts("a fourth read");
    read_sectors(&guest, KALYUBOS_BLOCK, 5, 1);
    end_operation(&guest, 0, false);
    find(&guest, "its own disk", KALYUBOS_BLOCK, 1, 'o');
    power_off(&guest);
    return 0;
}
