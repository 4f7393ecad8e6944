/*
 * Real disks for two guests, over two files. Each guest has a handle of its own and a thread of its own, which is its CPU,
 * makes its calls and looks at its disk. So guests share nothing, and need no lock. file_disk.c is to be copied: it brings
 * what a disk is asked for to the kernel, up to DEPTH operations at once, and never waits; file_ring.c has io_uring for it.
 *
 * The guests are C as well: a driver's loads and stores are a CPU's exits. Guest 0 asks for two megabytes by four requests and
 * then does other things, until guest 1 has used its disk and ended. Of guest 1's last requests the host gives up, and its
 * driver resets the disk. `disk threads` does without io_uring.
 */
#define _GNU_SOURCE
#include <poll.h>
#include <pthread.h>
#include <stdio.h>
#include <stdlib.h>
#include <string.h>
#include <unistd.h>

#include "file_disk.h"

enum { GUESTS = 2, MEMORY_LEN = 0x400000, DISK_LEN = 0x400000, SECTOR_LEN = 512, OUTLET = 64, DEPTH = 4 };
static const uint64_t MEMORY = 0x80000000;

struct guest {
    unsigned number;
    struct kalyubos board;
    struct file_disk disk;
    struct kalyubos_pending lines; /* as its last call left them */
    uint8_t *memory;
    uint16_t offered;
    char path[32];
};

static pthread_barrier_t both;

static void need(bool holds, const char *what)
{
    if (!holds) {
        fprintf(stderr, "disk: %s\n", what);
        exit(1);
    }
}

/* ---- the host: a guest's exits, and its disk */

static uint32_t load(struct guest *guest, uint8_t window, uint16_t offset)
{
    uint32_t value;
    need(kalyubos_read(&guest->board, 0, window, offset, 4, &value) == KALYUBOS_DONE, "a load");
    return value;
}

/* The kernel has ended steps of the disk: requests are completed, and what then begins goes to the kernel. */
static void go_on(struct guest *guest)
{
    uint8_t tag;
    bool failed;
    while (file_disk_go_on(&guest->disk, &tag, &failed)) {
        uint32_t answer = kalyubos_completed(&guest->board, 0, KALYUBOS_BLOCK, tag, failed, &guest->lines);
        if (answer == KALYUBOS_IO)
            (void)file_disk_begin(&guest->disk); /* the loop tells what the kernel doesn't take */
        need(answer == KALYUBOS_DONE || answer == KALYUBOS_IO, "a completion");
    }
}

static void open_disk(struct guest *guest, const struct file_way *way)
{
    const char *wrong = file_disk_open(&guest->disk, &guest->board, 0, KALYUBOS_BLOCK, DEPTH, guest->path, DISK_LEN, false, way);
    need(wrong == NULL, wrong);
}

/* Gives up all that the disk is asked for, behind the end of its transfers. It is opened anew for what comes behind a reset. */
static void give_up(struct guest *guest)
{
    const struct file_way *way = guest->disk.way;
    file_disk_close(&guest->disk);
    need(kalyubos_drop(&guest->board, 0, KALYUBOS_BLOCK, &guest->lines) == KALYUBOS_DONE, "a drop");
    open_disk(guest, way);
}

/* Waits for the disk. A CPU that runs on is kicked instead, since none runs during a call: KVM_RUN ends by a signal. */
static void wait_for_disk(struct guest *guest)
{
    struct pollfd wake = { .fd = guest->disk.ready, .events = POLLIN };
    need(poll(&wake, 1, -1) == 1, "poll");
    go_on(guest);
}

/*
 * A store. What its disk is asked for begins, and the CPU runs on. A store that resets the device, or its queue, waits
 * for all that is in flight.
 */
static void store(struct guest *guest, uint8_t window, uint16_t offset, uint32_t value)
{
    uint32_t answer;
    while ((answer = kalyubos_write(&guest->board, 0, window, offset, 4, value, &guest->lines)) == KALYUBOS_BUSY)
        wait_for_disk(guest);
    if (answer == KALYUBOS_IO && !file_disk_begin(&guest->disk))
        go_on(guest);
    need(answer == KALYUBOS_DONE || answer == KALYUBOS_IO, "a store");
}

/* A CPU that halts until the line of its block window is high. */
static void halt(struct guest *guest)
{
    while (guest->lines.block == 0)
        wait_for_disk(guest);
}

/* ---- a guest's driver: where its queue and buffers lie (VIRTIO 1.2, 2.7 and 5.2.6) */

enum { HEADER = 0, STATUS = 0x10, TABLE = 0x100, AVAIL = 0x200, USED = 0x300, ZEROED = 0x400, DATA = 0x100000 };
enum { IN = 0, OUT = 1, FLUSH = 4, WRITE_ZEROES = 13, NEXT = 1, WRITE = 2, PLACES = 16 };
enum { REQUESTS = 4, HEADER_LEN = 0x20, CHAIN_LEN = 3 }; /* each request has a header, a status and a chain of its own */
enum { DEVICE_ID = 0x8, NOTIFY = 0x50, ACK = 0x64, DEVICE_STATUS = 0x70, EMERG_WR = 0x108 };

static void bring_up(struct guest *guest, uint32_t features)
{
    const uint32_t at = (uint32_t)MEMORY;
    const uint32_t steps[][2] = { { 0x70, 1 }, { 0x70, 3 }, { 0x24, 0 }, { 0x20, features }, { 0x24, 1 }, { 0x20, 1 },
                                  { 0x70, 11 }, { 0x38, PLACES }, { 0x80, at + TABLE }, { 0x90, at + AVAIL },
                                  { 0xa0, at + USED }, { 0x44, 1 }, { 0x70, 15 } };
    for (size_t i = 0; i < sizeof steps / sizeof *steps; i++)
        store(guest, KALYUBOS_BLOCK, (uint16_t)steps[i][0], steps[i][1]);
}

/* Offers a request whose data, if it has any, lies at an offset of the memory, and notifies. */
static void ask(struct guest *guest, uint32_t type, uint64_t sector, uint32_t data, uint32_t len)
{
    uint16_t number = guest->offered % REQUESTS, head = number * CHAIN_LEN, place = guest->offered % PLACES;
    uint32_t at = number * HEADER_LEN;
    struct { uint32_t type, reserved; uint64_t sector; } header = { type, 0, sector };
    struct { uint64_t addr; uint32_t len; uint16_t flags, next; } chain[CHAIN_LEN] = {
        { MEMORY + HEADER + at, sizeof header, NEXT, (uint16_t)(head + (len == 0 ? 2 : 1)) },
        { MEMORY + data, len, NEXT | (type == IN ? WRITE : 0), (uint16_t)(head + 2) },
        { MEMORY + STATUS + at, 1, WRITE, 0 },
    };
    guest->offered++;
    memcpy(guest->memory + HEADER + at, &header, sizeof header);
    memcpy(guest->memory + TABLE + head * sizeof *chain, chain, sizeof chain);
    memcpy(guest->memory + AVAIL + 4 + 2 * place, &head, sizeof head);
    memcpy(guest->memory + AVAIL + 2, &guest->offered, sizeof guest->offered);
    guest->memory[STATUS + at] = 0xff;
    store(guest, KALYUBOS_BLOCK, NOTIFY, 0);
}

/* Asks for parts of a row of sectors by as many requests as fit. */
static void ask_in_parts(struct guest *guest, uint32_t type, uint64_t sector, uint32_t data, uint32_t len)
{
    for (uint32_t part = 0; part < REQUESTS; part++)
        ask(guest, type, sector + part * (len / REQUESTS / SECTOR_LEN), data + part * (len / REQUESTS), len / REQUESTS);
}

/* Waits for the interrupts of all requests, acknowledges them, and looks at each status. */
static void await(struct guest *guest)
{
    uint16_t used;
    do {
        halt(guest);
        store(guest, KALYUBOS_BLOCK, ACK, guest->lines.block);
        memcpy(&used, guest->memory + USED + 2, sizeof used);
    } while (used != guest->offered);
    for (unsigned number = 0; number < REQUESTS; number++)
        need(guest->memory[STATUS + number * HEADER_LEN] == 0, "a request's status");
}

static void transfer(struct guest *guest, uint32_t type, uint64_t sector, uint32_t data, uint32_t len)
{
    ask(guest, type, sector, data, len);
    await(guest);
}

/* Guest 0: its requests are in flight while it uses its console, and while guest 1 uses its disk. It knows no flush. */
static void runs_on(struct guest *guest)
{
    const uint8_t *data = guest->memory + DATA;
    const uint32_t len = 0x200000;
    bring_up(guest, 0);
    ask_in_parts(guest, IN, 0, DATA, len);
    for (const char *word = "busy"; *word != 0; word++)
        store(guest, KALYUBOS_CONSOLE, EMERG_WR, (uint8_t)*word);
    printf("guest 0 runs on: device %u, line %u, status %02x\n", (unsigned)load(guest, KALYUBOS_BLOCK, DEVICE_ID),
           (unsigned)guest->lines.block, guest->memory[STATUS]);
    pthread_barrier_wait(&both); /* guest 1 begins, */
    pthread_barrier_wait(&both); /* and has ended */
    await(guest);
    printf("guest 0 reads %02x, %s\n", data[0], memcmp(data, data + 1, len - 1) == 0 ? "in every byte" : "and others");
    memset(guest->memory + DATA, 'A', SECTOR_LEN);
    ask(guest, OUT, 1, DATA, SECTOR_LEN);
    store(guest, KALYUBOS_BLOCK, DEVICE_STATUS, 0); /* a reset, behind the write's end */
    printf("guest 0 has reset its disk\n");
}

/* The driver finds that its device asks for a reset, and forgets what it offered. */
static void reset(struct guest *guest, uint32_t features)
{
    printf("guest %u resets its disk: line %u, status %02x\n", guest->number, (unsigned)guest->lines.block,
           (unsigned)load(guest, KALYUBOS_BLOCK, DEVICE_STATUS));
    store(guest, KALYUBOS_BLOCK, DEVICE_STATUS, 0);
    memset(guest->memory, 0, ZEROED);
    guest->offered = 0;
    bring_up(guest, features);
}

/*
 * Guest 1: writes by four requests at once; zeroes, flushes and reads, each to its end. Of four reads the host gives up, and
 * behind a reset one is done.
 */
static void works(struct guest *guest)
{
    const struct { uint64_t sector; uint32_t count, flags; } zeroed = { 3, 2, 0 };
    const uint32_t features = 1 << 9 | 1 << 14; /* FLUSH, WRITE_ZEROES */
    pthread_barrier_wait(&both);
    bring_up(guest, features);
    memset(guest->memory + DATA, 'B', 8 * SECTOR_LEN);
    ask_in_parts(guest, OUT, 0, DATA, 8 * SECTOR_LEN);
    await(guest);
    memcpy(guest->memory + ZEROED, &zeroed, sizeof zeroed);
    transfer(guest, WRITE_ZEROES, 0, ZEROED, sizeof zeroed);
    transfer(guest, FLUSH, 0, 0, 0);
    transfer(guest, IN, 2, DATA, 4 * SECTOR_LEN);
    for (unsigned i = 0; i < 4; i++)
        printf("guest 1 finds %02x in sector %u\n", guest->memory[DATA + i * SECTOR_LEN], 2 + i);
    ask_in_parts(guest, IN, 0, DATA, 0x200000);
    give_up(guest);
    reset(guest, features);
    transfer(guest, IN, 6, DATA, SECTOR_LEN);
    printf("guest 1 finds %02x in sector 6\n", guest->memory[DATA]);
    pthread_barrier_wait(&both);
}

static void *cpu(void *user)
{
    struct guest *guest = user;
    (guest->number == 0 ? runs_on : works)(guest);
    return NULL;
}

/* ---- the machine */

static void power_on(struct guest *guest, unsigned number, bool threads)
{
    static uint8_t content[DISK_LEN];
    struct kalyubos_slot slot = {
        .size = sizeof slot, .regions = { { MEMORY, MEMORY_LEN } }, .count = DISK_LEN / SECTOR_LEN, .outlet = OUTLET,
        .hosted = true, .depth = DEPTH,
    };
    struct kalyubos_config config = kalyubos_config_of(&slot, 1);
    size_t len;
    guest->number = number;
    strcpy(guest->path, "/tmp/kalyubos-disk-XXXXXX");
    memset(content, (int)('a' + number), sizeof content);
    int file = mkstemp(guest->path);
    need(file >= 0 && write(file, content, sizeof content) == DISK_LEN && close(file) == 0, "a file");
    need(kalyubos_create(&guest->board, &config) == KALYUBOS_DONE, "create");
    need(kalyubos_memory(&guest->board, 0, MEMORY, &guest->memory, &len) == KALYUBOS_DONE, "memory");
    open_disk(guest, threads ? &file_thread : &file_ring);
}

static void power_off(struct guest *guest)
{
    uint8_t said[OUTLET], byte;
    size_t taken;
    FILE *file = fopen(guest->path, "rb");
    need(kalyubos_take_output(&guest->board, 0, said, sizeof said, &taken) == KALYUBOS_DONE, "take_output");
    file_disk_close(&guest->disk);
    need(kalyubos_destroy(&guest->board) == KALYUBOS_DONE, "destroy");
    printf("guest %u said \"%.*s\"; its file:", guest->number, (int)taken, (const char *)said);
    for (long sector = 0; sector < 6; sector++) {
        need(file != NULL && fseek(file, sector * SECTOR_LEN, SEEK_SET) == 0 && fread(&byte, 1, 1, file) == 1, "the file");
        printf(" %02x", byte);
    }
    putchar('\n');
    fclose(file);
    remove(guest->path);
}

int main(int words_len, char **words)
{
    static struct guest guests[GUESTS];
    pthread_t cpus[GUESTS];
    bool threads = words_len == 2 && strcmp(words[1], "threads") == 0;
    need(pthread_barrier_init(&both, NULL, GUESTS) == 0, "a barrier");
    for (unsigned i = 0; i < GUESTS; i++)
        power_on(&guests[i], i, threads);
    fprintf(stderr, "the disks go to the kernel by %s\n", guests[0].disk.way->name);
    for (unsigned i = 0; i < GUESTS; i++)
        need(pthread_create(&cpus[i], NULL, cpu, &guests[i]) == 0, "a CPU");
    for (unsigned i = 0; i < GUESTS; i++)
        need(pthread_join(cpus[i], NULL) == 0, "a CPU's end");
    for (unsigned i = 0; i < GUESTS; i++)
        power_off(&guests[i]);
    return 0;
}
