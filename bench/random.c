/*
 * Random reads of 4 KiB, DEPTH in flight, from a file that bypasses the page cache: by a plain io_uring loop, by one that copies
 * what it has read, and by a guest's driver whose disk is served through examples/embed/support/file_ring.c, and which runs behind each
 * eight completions. Each is one thread, in turn, ROUNDS rounds; printed are the best rate of each, the least processor time of a
 * read, and the guest's ratios to the first loop and to the second.
 * bench/library builds it.
 *
 *     random FILE DEPTH READS ROUNDS
 */
#define _GNU_SOURCE
#include <errno.h>
#include <fcntl.h>
#include <linux/io_uring.h>
#include <poll.h>
#include <stdio.h>
#include <stdlib.h>
#include <string.h>
#include <sys/mman.h>
#include <sys/resource.h>
#include <sys/stat.h>
#include <sys/syscall.h>
#include <time.h>
#include <unistd.h>

#include "file_disk.h"

enum { BLOCK = 4096, SECTOR = 512, QUEUE = 256, TABLE = 0x1000, AVAIL = 0x2000, USED = 0x3000, HEADERS = 0x4000, DATA = 0x10000 };
enum { TURN = 8 };
static const uint64_t MEMORY = 0x80000000;

static const char *path;
static uint64_t blocks, reads, seed;
static unsigned depth;

static void need(bool holds, const char *what)
{
    if (!holds) {
        fprintf(stderr, "random: %s\n", what);
        exit(1);
    }
}

/* The block that is read next; both ways read the same ones. */
static uint64_t next_block(void)
{
    seed = seed * 6364136223846793005u + 1442695040888963407u;
    return (seed >> 33) % blocks;
}

/* ---- a plain loop: what has ended is submitted anew, with one call of the kernel for all that has */

static struct {
    int ring, file;
    unsigned *sent, *sent_places, *order_of_place, *taken, *ended, *ended_places;
    struct io_uring_sqe *orders;
    struct io_uring_cqe *results;
    uint8_t *buffers, *copies;
} plain;

static void *map_ring(size_t len, off_t at)
{
    void *found = mmap(NULL, len, PROT_READ | PROT_WRITE, MAP_SHARED, plain.ring, at);
    need(found != MAP_FAILED, "mmap");
    return found;
}

static void open_plain(void)
{
    struct io_uring_params told = { 0 };
    plain.file = open(path, O_RDONLY | O_DIRECT);
    need(plain.file >= 0, "the file can't be read past the page cache");
    plain.ring = (int)syscall(SYS_io_uring_setup, depth, &told);
    need(plain.ring >= 0, "no io_uring");
    uint8_t *sent = map_ring(told.sq_off.array + told.sq_entries * sizeof(unsigned), IORING_OFF_SQ_RING);
    uint8_t *ended = map_ring(told.cq_off.cqes + told.cq_entries * sizeof(struct io_uring_cqe), IORING_OFF_CQ_RING);
    plain.orders = map_ring(told.sq_entries * sizeof(struct io_uring_sqe), IORING_OFF_SQES);
    plain.sent = (unsigned *)(sent + told.sq_off.tail);
    plain.sent_places = (unsigned *)(sent + told.sq_off.ring_mask);
    plain.order_of_place = (unsigned *)(sent + told.sq_off.array);
    plain.taken = (unsigned *)(ended + told.cq_off.head);
    plain.ended = (unsigned *)(ended + told.cq_off.tail);
    plain.ended_places = (unsigned *)(ended + told.cq_off.ring_mask);
    plain.results = (struct io_uring_cqe *)(ended + told.cq_off.cqes);
    plain.buffers = aligned_alloc(BLOCK, (size_t)depth * BLOCK);
    plain.copies = aligned_alloc(BLOCK, (size_t)depth * BLOCK);
    need(plain.buffers != NULL && plain.copies != NULL, "memory");
}

static void order_plain(unsigned tag)
{
    unsigned sent = *plain.sent;
    plain.orders[tag] = (struct io_uring_sqe){
        .opcode = IORING_OP_READ, .fd = plain.file, .off = next_block() * BLOCK, .addr = (uintptr_t)(plain.buffers + tag * BLOCK),
        .len = BLOCK, .user_data = tag,
    };
    plain.order_of_place[sent & *plain.sent_places] = tag;
    __atomic_store_n(plain.sent, sent + 1, __ATOMIC_RELEASE);
}

static void read_in_loop(bool copies)
{
    uint64_t asked = 0, done = 0;
    unsigned fresh = 0;
    for (; fresh < depth && asked < reads; asked++)
        order_plain(fresh++);
    while (done < reads) {
        need(syscall(SYS_io_uring_enter, plain.ring, fresh, 1, IORING_ENTER_GETEVENTS, NULL, 0) == (long)fresh, "io_uring_enter");
        unsigned taken = *plain.taken;
        for (fresh = 0; taken != __atomic_load_n(plain.ended, __ATOMIC_ACQUIRE); taken++, done++) {
            const struct io_uring_cqe *result = &plain.results[taken & *plain.ended_places];
            need(result->res == BLOCK, "a read");
            if (copies)
                memcpy(plain.copies + result->user_data * BLOCK, plain.buffers + result->user_data * BLOCK, BLOCK);
            if (asked < reads) {
                order_plain((unsigned)result->user_data);
                asked++, fresh++;
            }
        }
        __atomic_store_n(plain.taken, taken, __ATOMIC_RELEASE);
    }
}

static void read_plain(void)
{
    read_in_loop(false);
}

static void read_and_copy(void)
{
    read_in_loop(true);
}

/* ---- a guest's driver, whose every place has a header and a buffer of its own */

static struct kalyubos board;
static struct file_disk disk;
static uint8_t *memory;
static uint16_t offered;

static void store(uint16_t offset, uint32_t value)
{
    struct kalyubos_pending pending;
    uint32_t answer = kalyubos_write(&board, 0, KALYUBOS_BLOCK, offset, 4, value, &pending);
    if (answer == KALYUBOS_IO)
        need(file_disk_begin(&disk), "a step");
    else
        need(answer == KALYUBOS_DONE, "a store");
}

static void describe(unsigned place, uint64_t at, uint32_t len, uint16_t flags, unsigned next)
{
    struct { uint64_t addr; uint32_t len; uint16_t flags, next; } it = { MEMORY + at, len, flags, (uint16_t)next };
    memcpy(memory + TABLE + 16 * place, &it, sizeof it);
}

static void open_guest(void)
{
    const uint32_t at = (uint32_t)MEMORY;
    const uint32_t steps[][2] = { { 0x70, 1 }, { 0x70, 3 }, { 0x24, 0 }, { 0x20, 1 << 9 }, { 0x24, 1 }, { 0x20, 1 }, { 0x70, 11 },
                                  { 0x38, QUEUE }, { 0x80, at + TABLE }, { 0x90, at + AVAIL }, { 0xa0, at + USED },
                                  { 0x44, 1 }, { 0x70, 15 } };
    struct kalyubos_slot slot = { .size = sizeof slot, .regions = { { MEMORY, DATA + (uint64_t)depth * BLOCK } },
                                  .count = blocks * (BLOCK / SECTOR), .read_only = true, .hosted = true, .depth = depth };
    struct kalyubos_config config = kalyubos_config_of(&slot, 1);
    size_t len;
    need(kalyubos_create(&board, &config) == KALYUBOS_DONE, "create");
    need(kalyubos_memory(&board, 0, MEMORY, &memory, &len) == KALYUBOS_DONE, "memory");
    const char *wrong = file_disk_open(&disk, &board, 0, KALYUBOS_BLOCK, depth, path, blocks * BLOCK, true, &file_ring);
    need(wrong == NULL, wrong);
    need(disk.way == &file_ring, "no io_uring");
    need(fcntl(disk.file, F_SETFL, O_DIRECT) == 0, "the file can't be read past the page cache");
    for (size_t i = 0; i < sizeof steps / sizeof *steps; i++)
        store((uint16_t)steps[i][0], steps[i][1]);
    for (unsigned i = 0; i < depth; i++) {
        describe(3 * i, HEADERS + 32 * i, 16, 1, 3 * i + 1);
        describe(3 * i + 1, DATA + i * BLOCK, BLOCK, 3, 3 * i + 2);
        describe(3 * i + 2, HEADERS + 32 * i + 16, 1, 2, 0);
    }
}

static void offer(unsigned place)
{
    uint64_t sector = next_block() * (BLOCK / SECTOR);
    uint16_t head = (uint16_t)(3 * place), idx = ++offered;
    memcpy(memory + HEADERS + 32 * place + 8, &sector, 8);
    memory[HEADERS + 32 * place + 16] = 0xff;
    memcpy(memory + AVAIL + 4 + 2 * ((idx - 1u) % QUEUE), &head, 2);
    memcpy(memory + AVAIL + 2, &idx, 2);
}

static uint16_t used(void)
{
    uint16_t idx;
    memcpy(&idx, memory + USED + 2, 2);
    return idx;
}

/* What the host does once the disk is ready: it completes what has ended, at most TURN reads. Whether there may be more. */
static bool serve_disk(void)
{
    struct kalyubos_pending pending;
    uint8_t tag;
    bool failed;
    for (int i = 0; i < TURN; i++) {
        if (!file_disk_go_on(&disk, &tag, &failed))
            return false;
        uint32_t answer = kalyubos_completed(&board, 0, KALYUBOS_BLOCK, tag, failed, &pending);
        need(answer == KALYUBOS_DONE || answer == KALYUBOS_IO, "a completion");
        if (answer == KALYUBOS_IO)
            need(file_disk_begin(&disk), "a step");
    }
    return true;
}

static uint64_t asked, done;

/* The driver takes back what was read, and offers as many reads anew. */
static void drive(void)
{
    static uint16_t taken;
    uint64_t before = asked;
    if (taken == used())
        return;
    store(0x64, 1);
    for (; taken != used(); taken++, done++) {
        uint32_t head;
        memcpy(&head, memory + USED + 4 + 8 * (taken % QUEUE), sizeof head);
        need(memory[HEADERS + 32 * (head / 3) + 16] == 0, "a read's status");
        if (asked < reads) {
            offer(head / 3);
            asked++;
        }
    }
    if (asked > before)
        store(0x50, 0);
}

static void read_as_guest(void)
{
    bool more = false;
    done = 0;
    for (asked = 0; asked < depth && asked < reads; asked++)
        offer((unsigned)asked);
    store(0x50, 0);
    while (done < reads) {
        struct pollfd wake = { .fd = disk.ready, .events = POLLIN };
        need(more || poll(&wake, 1, -1) == 1, "poll");
        more = serve_disk();
        drive();
    }
}

/* ---- the times */

static double now(clockid_t clock)
{
    struct timespec t;
    clock_gettime(clock, &t);
    return (double)t.tv_sec * 1e6 + (double)t.tv_nsec / 1e3;
}

struct best {
    double wall, cpu; /* microseconds of a read */
};

static void time_one(void (*work)(void), int round, struct best *best)
{
    seed = (uint64_t)round + 1;
    double wall = now(CLOCK_MONOTONIC), cpu = now(CLOCK_PROCESS_CPUTIME_ID);
    work();
    cpu = (now(CLOCK_PROCESS_CPUTIME_ID) - cpu) / (double)reads;
    wall = (now(CLOCK_MONOTONIC) - wall) / (double)reads;
    if (round == 0 || wall < best->wall)
        best->wall = wall;
    if (round == 0 || cpu < best->cpu)
        best->cpu = cpu;
}

int main(int words_len, char **words)
{
    struct stat file;
    struct best loop = { 0 }, copying = { 0 }, guest = { 0 };
    need(words_len == 5, "FILE DEPTH READS ROUNDS");
    path = words[1];
    depth = (unsigned)atoi(words[2]);
    reads = (uint64_t)atoll(words[3]);
    need(depth >= 1 && depth <= KALYUBOS_TAGS, "DEPTH is 1 to 64");
    need(stat(path, &file) == 0, path);
    blocks = (uint64_t)file.st_size / BLOCK;
    open_plain();
    open_guest();
    for (int round = 0; round < atoi(words[4]); round++) {
        time_one(read_plain, round, &loop);
        time_one(read_and_copy, round, &copying);
        time_one(read_as_guest, round, &guest);
    }
    printf("depth %2u: a loop %8.0f reads a second, %5.2f us of a processor each; one that copies %8.0f, %5.2f; a guest %8.0f, %5.2f\n",
           depth, 1e6 / loop.wall, loop.cpu, 1e6 / copying.wall, copying.cpu, 1e6 / guest.wall, guest.cpu);
    printf("          a guest's to the loop's: %.2f and %.2f; to the one's that copies: %.2f and %.2f\n", loop.wall / guest.wall,
           guest.cpu / loop.cpu, copying.wall / guest.wall, guest.cpu / copying.cpu);
    file_disk_close(&disk);
    need(kalyubos_destroy(&board) == KALYUBOS_DONE, "destroy");
    return 0;
}
