/*
 * Memory that the host lends: a guest of 64 GiB over a mapping that the host has already. The board is made at once and
 * touches none of it, the devices reach both ends of it, and the bytes stay when the board is gone.
 */
#define _GNU_SOURCE
#include <stdio.h>
#include <stdlib.h>
#include <string.h>
#include <sys/mman.h>
#include <time.h>
#include <unistd.h>

#include "kalyubos.h"

enum { PAGE = 4096, SECTORS = 2, SECTOR_LEN = 512, SKIPPED = 77 };
static const uint64_t MEMORY = 0x80000000, MEMORY_LEN = (uint64_t)64 << 30;

/* Where the driver's areas lie: all but the data in the first page. */
enum { HEADER = 0, STATUS = 16, TABLE = 0x100, AVAIL = 0x200, USED = 0x300 };
enum { IN = 0, OUT = 1, NEXT = 1, WRITE = 2, CHAINS = 4 };

static struct kalyubos board;
static uint8_t *memory, *resident;
static uint16_t offered;

static void need(bool holds, const char *what)
{
    if (!holds) {
        fprintf(stderr, "lent: %s\n", what);
        exit(1);
    }
}

/* How many pages of the memory are there. */
static size_t pages(void)
{
    size_t count = 0;
    need(mincore(memory, MEMORY_LEN, resident) == 0, "mincore");
    for (size_t i = 0; i < MEMORY_LEN / PAGE; i++)
        count += resident[i] & 1;
    return count;
}

static double milliseconds(void)
{
    struct timespec now;
    need(clock_gettime(CLOCK_MONOTONIC, &now) == 0, "clock_gettime");
    return 1e3 * (double)now.tv_sec + 1e-6 * (double)now.tv_nsec;
}

static struct kalyubos_slot slot(bool hosted)
{
    return (struct kalyubos_slot){
        .size = sizeof(struct kalyubos_slot), .regions = { { MEMORY, MEMORY_LEN } }, .count = SECTORS, .hosted = hosted,
    };
}

/* ---- its memory is lent, and taken back */

static uint32_t create(const struct kalyubos_slot *slots, size_t count, struct kalyubos_loan *loans, size_t loans_len)
{
    static const uint8_t image[SECTORS * SECTOR_LEN];
    struct kalyubos_config config = kalyubos_config_of(slots, count);
    config.loans = loans;
    config.loans_len = loans_len;
    config.image = image;
    config.image_len = slots[0].hosted ? 0 : sizeof image;
    return kalyubos_create(&board, &config);
}

static void refuse(void)
{
    struct kalyubos_slot two[] = { slot(true), slot(true) };
    struct kalyubos_loan less[] = { { memory, MEMORY_LEN - PAGE } }, more[] = { { memory, MEMORY_LEN }, { memory, 0 } };
    struct kalyubos_loan one[] = { { memory, MEMORY_LEN } }, kept[] = { { memory, MEMORY_LEN } };
    need(create(two, 1, less, 1) == KALYUBOS_BAD_LOAN, "another length");
    need(create(two, 1, more, 2) == KALYUBOS_BAD_LOAN, "one too many");
    need(create(two, 2, one, 1) == KALYUBOS_BAD_LOAN, "one too few");
    two[0].size--;
    need(create(two, 1, kept, 1) == KALYUBOS_BAD_SIZE, "another size");
    need(kept[0].bytes == memory && kept[0].len == MEMORY_LEN, "a loan that wasn't taken");
    need(kalyubos_destroy(&board) == KALYUBOS_NO_BOARD, "a board of loans that were refused");
    puts("refused: another length, one too many, one too few");
}

static void make(bool hosted)
{
    struct kalyubos_slot one = slot(hosted);
    struct kalyubos_loan loan = { memory, MEMORY_LEN };
    size_t before = pages(), len = 0;
    uint8_t *at = NULL;
    double start = milliseconds();
    uint32_t answer = create(&one, 1, &loan, 1);
    double took = milliseconds() - start;
    need(answer == KALYUBOS_DONE, kalyubos_answer(answer));
    need(loan.bytes == NULL && loan.len == 0, "a loan that was taken");
    need(kalyubos_memory(&board, 0, MEMORY, &at, &len) == KALYUBOS_DONE && at == memory && len == MEMORY_LEN, "where it lies");
    fprintf(stderr, "%s board of 64 GiB: %.3f ms\n", hosted ? "hosted" : "image", took);
    printf("%s board of 64 GiB: below 10 ms: %d, pages touched: %zu\n", hosted ? "hosted" : "image", took < 10, pages() - before);
}

static void end(void)
{
    size_t before = pages();
    need(kalyubos_destroy(&board) == KALYUBOS_DONE, "destroy");
    printf("destroyed: pages touched or given back: %d\n", pages() != before);
}

/* ---- a guest uses it */

static void set(uint16_t offset, uint32_t value)
{
    struct kalyubos_pending pending;
    need(kalyubos_write(&board, 0, KALYUBOS_BLOCK, offset, 4, value, &pending) == KALYUBOS_DONE, "write");
}

static void bring_up(void)
{
    const uint32_t at = (uint32_t)MEMORY;
    const uint32_t steps[][2] = { { 0x70, 0 }, { 0x70, 1 }, { 0x70, 3 }, { 0x24, 1 }, { 0x20, 1 }, { 0x70, 11 },
                                  { 0x38, CHAINS }, { 0x80, at + TABLE }, { 0x90, at + AVAIL }, { 0xa0, at + USED },
                                  { 0x44, 1 }, { 0x70, 15 } };
    for (size_t i = 0; i < sizeof steps / sizeof *steps; i++)
        set((uint16_t)steps[i][0], steps[i][1]);
}

/* A request of one sector to or from the last bytes. This host is little-endian, as the rings are. */
static uint8_t request(uint32_t type)
{
    struct { uint32_t type, reserved; uint64_t sector; } header = { type, 0, 1 };
    struct { uint64_t addr; uint32_t len; uint16_t flags, next; } table[3] = {
        { MEMORY + HEADER, sizeof header, NEXT, 1 },
        { MEMORY + MEMORY_LEN - SECTOR_LEN, SECTOR_LEN, NEXT | (type == IN ? WRITE : 0), 2 },
        { MEMORY + STATUS, 1, WRITE, 0 },
    };
    offered++;
    memcpy(memory + HEADER, &header, sizeof header);
    memcpy(memory + TABLE, table, sizeof table);
    memcpy(memory + AVAIL + 2, &offered, sizeof offered);
    memory[STATUS] = 0xff;
    set(0x50, 0);
    return memory[STATUS];
}

static void serve(void)
{
    uint8_t *last = memory + MEMORY_LEN - SECTOR_LEN;
    bring_up();
    memset(last, 0x6b, SECTOR_LEN);
    need(request(OUT) == 0, "OUT");
    memset(last, 0, SECTOR_LEN);
    need(request(IN) == 0, "IN");
    printf("a sector written and read at the last bytes: %02x .. %02x, pages there: %zu\n", last[0], last[SECTOR_LEN - 1],
           pages());
}

int main(void)
{
    int file = memfd_create("guest", MFD_CLOEXEC);
    need(kalyubos_version() == KALYUBOS_VERSION, "the library is of another version than the header");
    need(file >= 0 && ftruncate(file, (off_t)MEMORY_LEN) == 0, "memfd_create");
    memory = mmap(NULL, MEMORY_LEN, PROT_READ | PROT_WRITE, MAP_SHARED | MAP_NORESERVE, file, 0);
    resident = malloc(MEMORY_LEN / PAGE);
    if (memory == MAP_FAILED || resident == NULL) {
        fputs("no 64 GiB of addresses\n", stderr);
        return SKIPPED;
    }
    refuse();
    make(true);
    end();
    make(false);
    serve();
    end();
    printf("the bytes are the host's again: %02x\n", memory[MEMORY_LEN - 1]);
    return munmap(memory, MEMORY_LEN);
}
