/*
 * How fast two guests read their disks from two files in order, through examples/embed/support/file_disk.c, each on a board and a
 * thread of its own: megabytes a second of both together. DEPTH reads of a guest are in flight at most. bench/disks builds it,
 * and runs dd beside it.
 *
 *     disks ring|threads BLOCK DEPTH FILE FILE
 */
#define _GNU_SOURCE
#include <poll.h>
#include <pthread.h>
#include <stdio.h>
#include <stdlib.h>
#include <string.h>
#include <sys/stat.h>
#include <time.h>
#include <unistd.h>

#include "file_disk.h"

enum { GUESTS = 2, RING = 64, SECTOR = 512, TABLE = 0x1000, AVAIL = 0x2000, USED = 0x3000, HEADERS = 0x4000, DATA = 0x10000 };
static const uint64_t MEMORY = 0x80000000;

struct guest {
    struct kalyubos board;
    struct file_disk disk;
    const char *path;
    uint8_t *memory;
    uint64_t blocks, asked;
    uint32_t block, depth, places; /* how many reads are on offer at once */
};

static const struct file_way *way;
static pthread_barrier_t all_ready;

static void need(bool holds, const char *what)
{
    if (!holds) {
        fprintf(stderr, "disks: %s\n", what);
        exit(1);
    }
}

/* ---- a guest's driver: a ring of reads, each place with a header and a buffer of its own */

static void store(struct guest *guest, uint16_t offset, uint32_t value)
{
    struct kalyubos_pending pending;
    uint32_t answer = kalyubos_write(&guest->board, 0, KALYUBOS_BLOCK, offset, 4, value, &pending);
    if (answer == KALYUBOS_IO)
        need(file_disk_begin(&guest->disk), "a step");
    else
        need(answer == KALYUBOS_DONE, "a store");
}

static void describe(struct guest *guest, unsigned place, uint64_t at, uint32_t len, uint16_t flags, unsigned next)
{
    struct { uint64_t addr; uint32_t len; uint16_t flags, next; } it = { MEMORY + at, len, flags, (uint16_t)next };
    memcpy(guest->memory + TABLE + 16 * place, &it, sizeof it);
}

static void bring_up(struct guest *guest)
{
    const uint32_t at = (uint32_t)MEMORY;
    const uint32_t steps[][2] = { { 0x70, 1 }, { 0x70, 3 }, { 0x24, 0 }, { 0x20, 1 << 9 }, { 0x24, 1 }, { 0x20, 1 }, { 0x70, 11 },
                                  { 0x38, 4 * RING }, { 0x80, at + TABLE }, { 0x90, at + AVAIL }, { 0xa0, at + USED },
                                  { 0x44, 1 }, { 0x70, 15 } };
    for (size_t i = 0; i < sizeof steps / sizeof *steps; i++)
        store(guest, (uint16_t)steps[i][0], steps[i][1]);
    for (unsigned i = 0; i < guest->places; i++) {
        describe(guest, 4 * i, HEADERS + 32 * i, 16, 1, 4 * i + 1);
        describe(guest, 4 * i + 1, DATA + (uint64_t)i * guest->block, guest->block, 3, 4 * i + 2);
        describe(guest, 4 * i + 2, HEADERS + 32 * i + 16, 1, 2, 0);
    }
}

/* Offers the next read at a place; the notification comes behind several. */
static void offer(struct guest *guest, unsigned place)
{
    uint64_t sector = guest->asked * guest->block / SECTOR;
    uint16_t head = (uint16_t)(4 * place), idx = (uint16_t)++guest->asked;
    memset(guest->memory + HEADERS + 32 * place, 0, 8);
    memcpy(guest->memory + HEADERS + 32 * place + 8, &sector, 8);
    guest->memory[HEADERS + 32 * place + 16] = 0xff;
    memcpy(guest->memory + AVAIL + 4 + 2 * ((idx - 1u) % (4 * RING)), &head, 2);
    memcpy(guest->memory + AVAIL + 2, &idx, 2);
}

static uint16_t used(const struct guest *guest)
{
    uint16_t idx;
    memcpy(&idx, guest->memory + USED + 2, 2);
    return idx;
}

/* Takes back the read of a used entry, and offers the next one at its place; whether there was one. */
static bool take_back(struct guest *guest, uint64_t number)
{
    uint32_t head;
    memcpy(&head, guest->memory + USED + 4 + 8 * (number % (4 * RING)), sizeof head);
    need(guest->memory[HEADERS + 32 * (head / 4) + 16] == 0, "a read's status");
    if (guest->asked == guest->blocks)
        return false;
    offer(guest, head / 4);
    return true;
}

static void *read_as_guest(void *user)
{
    struct guest *guest = user;
    uint64_t done = 0;
    bring_up(guest);
    pthread_barrier_wait(&all_ready);
    while (guest->asked < guest->places && guest->asked < guest->blocks)
        offer(guest, (unsigned)guest->asked);
    store(guest, 0x50, 0);
    while (done < guest->blocks) {
        struct kalyubos_pending pending;
        struct pollfd wake = { .fd = guest->disk.ready, .events = POLLIN };
        need(poll(&wake, 1, -1) == 1, "poll");
        uint8_t tag;
        bool failed, more = false;
        while (file_disk_go_on(&guest->disk, &tag, &failed))
            if (kalyubos_completed(&guest->board, 0, KALYUBOS_BLOCK, tag, failed, &pending) == KALYUBOS_IO)
                need(file_disk_begin(&guest->disk), "a step");
        if ((uint16_t)done == used(guest))
            continue;
        store(guest, 0x64, 1);
        for (; (uint16_t)done != used(guest); done++)
            more = take_back(guest, done) || more;
        if (more)
            store(guest, 0x50, 0);
    }
    return NULL;
}

static void power_on(struct guest *guest, const char *path, uint32_t block, uint32_t depth)
{
    struct stat file;
    need(stat(path, &file) == 0, path);
    *guest = (struct guest){ .path = path, .block = block, .depth = depth, .blocks = (uint64_t)file.st_size / block };
    guest->places = depth < 8 ? 8 : depth;
    need(depth >= 1 && depth <= RING, "DEPTH is 1 to 64");
    struct kalyubos_slot slot = {
        .size = sizeof slot, .regions = { { MEMORY, (DATA + (uint64_t)guest->places * block + 0xfff) & ~(uint64_t)0xfff } },
        .count = (uint64_t)file.st_size / SECTOR, .read_only = true, .hosted = true, .depth = depth,
    };
    struct kalyubos_config config = kalyubos_config_of(&slot, 1);
    size_t len;
    need(kalyubos_create(&guest->board, &config) == KALYUBOS_DONE, "create");
    need(kalyubos_memory(&guest->board, 0, MEMORY, &guest->memory, &len) == KALYUBOS_DONE, "memory");
    const char *wrong = file_disk_open(&guest->disk, &guest->board, 0, KALYUBOS_BLOCK, depth, path, slot.count * SECTOR, true, way);
    need(wrong == NULL, wrong);
    need(guest->disk.way == way, "no io_uring");
}

static double now(void)
{
    struct timespec t;
    clock_gettime(CLOCK_MONOTONIC, &t);
    return (double)t.tv_sec + (double)t.tv_nsec / 1e9;
}

int main(int words_len, char **words)
{
    static struct guest guests[GUESTS];
    pthread_t cpus[GUESTS];
    need(words_len == 4 + GUESTS, "ring|threads BLOCK DEPTH FILE FILE");
    way = strcmp(words[1], "threads") == 0 ? &file_thread : &file_ring;
    need(pthread_barrier_init(&all_ready, NULL, GUESTS + 1) == 0, "a barrier");
    for (int i = 0; i < GUESTS; i++) {
        power_on(&guests[i], words[4 + i], (uint32_t)atoi(words[2]), (uint32_t)atoi(words[3]));
        need(pthread_create(&cpus[i], NULL, read_as_guest, &guests[i]) == 0, "a CPU");
    }
    pthread_barrier_wait(&all_ready);
    double start = now(), bytes = 0;
    for (int i = 0; i < GUESTS; i++) {
        need(pthread_join(cpus[i], NULL) == 0, "a CPU's end");
        bytes += (double)guests[i].blocks * guests[i].block;
    }
    printf("%.0f\n", bytes / 1e6 / (now() - start));
    for (int i = 0; i < GUESTS; i++)
        file_disk_close(&guests[i].disk);
    return 0;
}
