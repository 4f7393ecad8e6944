/*
 * Times the calls of the static library: the processor time of one, the best of many rounds. bench/library builds it.
 */
#include <stdio.h>
#include <stdlib.h>
#include <string.h>
#include <time.h>

#include "kalyubos.h"

enum {
    MOST = 64, ROUNDS = 40, READS = 1000000, REQUESTS = 20000, COPIES = 20000, LEN = 4096, OUTLET = 0x8000, SECTORS = 65536,
};
static const uint64_t MEMORY = 0x80000000, TABLE = 0x80001000, AVAIL = 0x80002000, HEADER = 0x80004000,
                      ZEROES = 0x80005000, DATA = 0x80010000;

static struct kalyubos board;
static uint8_t guest; /* whose calls are timed: the board's last */
static uint8_t image[SECTORS * 512], buffer[LEN], other[LEN], *memory;
static uint16_t idx;

static void must(uint32_t answer)
{
    if (answer != KALYUBOS_DONE) {
        fprintf(stderr, "refused with %u\n", (unsigned)answer);
        exit(1);
    }
}

static void set_of(uint8_t window, uint16_t offset, uint32_t value)
{
    struct kalyubos_pending pending;
    must(kalyubos_write(&board, guest, window, offset, 4, value, &pending));
}

static void set(uint16_t offset, uint32_t value)
{
    set_of(KALYUBOS_BLOCK, offset, value);
}

static void descriptor(int place, uint64_t addr, uint32_t len, uint16_t flags, uint16_t next)
{
    struct { uint64_t addr; uint32_t len; uint16_t flags, next; } it = { addr, len, flags, next };
    must(kalyubos_write_memory(&board, guest, TABLE + 16 * (uint64_t)place, (const uint8_t *)&it, sizeof it));
}

/* A driver with a queue of four, whose every chain is one IN of the first 4 KiB. */
static void bring_up(void)
{
    const uint32_t steps[][2] = { { 0x70, 0 }, { 0x70, 1 }, { 0x70, 3 }, { 0x24, 1 }, { 0x20, 1 }, { 0x70, 11 },
                                  { 0x38, 4 }, { 0x80, 0x80001000 }, { 0x90, 0x80002000 }, { 0xa0, 0x80003000 },
                                  { 0x44, 1 }, { 0x70, 15 } };
    for (size_t i = 0; i < sizeof steps / sizeof *steps; i++)
        set((uint16_t)steps[i][0], steps[i][1]);
    descriptor(0, HEADER, 16, 1, 1);
    descriptor(1, DATA, LEN, 3, 2);
    descriptor(2, HEADER + 16, 1, 2, 0);
}

/* A console's driver with a transmit queue of four, whose every chain is 4 KiB. */
static void bring_up_console(void)
{
    const uint32_t steps[][2] = { { 0x70, 0 }, { 0x70, 1 }, { 0x70, 3 }, { 0x24, 1 }, { 0x20, 1 }, { 0x70, 11 },
                                  { 0x30, 1 }, { 0x38, 4 }, { 0x80, 0x80005000 }, { 0x90, 0x80006000 },
                                  { 0xa0, 0x80007000 }, { 0x44, 1 }, { 0x70, 15 } };
    for (size_t i = 0; i < sizeof steps / sizeof *steps; i++)
        set_of(KALYUBOS_CONSOLE, (uint16_t)steps[i][0], steps[i][1]);
    struct { uint64_t addr; uint32_t len; uint16_t flags, next; } it = { DATA, LEN, 0, 0 };
    must(kalyubos_write_memory(&board, guest, 0x80005000, (const uint8_t *)&it, sizeof it));
}

/* Puts the chain on offer, notifies, and takes what the console put out. */
static void transmit(void)
{
    static uint16_t sent;
    size_t taken;
    sent++;
    must(kalyubos_write_memory(&board, guest, 0x80006002, (const uint8_t *)&sent, 2));
    set_of(KALYUBOS_CONSOLE, 0x50, 1);
    must(kalyubos_take_output(&board, guest, buffer, LEN, &taken));
    if (taken != LEN)
        must(KALYUBOS_BAD_SLOT);
}

static void read_register(void)
{
    uint32_t value;
    must(kalyubos_read(&board, guest, KALYUBOS_BLOCK, 0x004, 4, &value));
}

/* Offers the chain, notifies, reads the request's status and the window's word, and acknowledges. */
static void request(void)
{
    uint8_t status;
    uint32_t word;
    idx++;
    must(kalyubos_write_memory(&board, guest, AVAIL + 2, (const uint8_t *)&idx, 2));
    set(0x50, 0);
    must(kalyubos_read_memory(&board, guest, HEADER + 16, &status, 1));
    must(kalyubos_read(&board, guest, KALYUBOS_BLOCK, 0x60, 4, &word));
    set(0x64, word);
    if (status != 0 || word != 1)
        must(KALYUBOS_BAD_SLOT);
}

/* Offers the chain and notifies, as a CPU whose memory is mapped does: one call, which tells the window's word. */
static void notify_in_place(void)
{
    struct kalyubos_pending pending;
    idx++;
    memcpy(memory + (AVAIL - MEMORY) + 2, &idx, 2);
    must(kalyubos_write(&board, guest, KALYUBOS_BLOCK, 0x50, 4, 0, &pending));
    if (memory[HEADER - MEMORY + 16] != 0 || pending.block != 1)
        must(KALYUBOS_BAD_SLOT);
}

/* The same where the host serves the disk: the notify asks, and the host says that it is done without moving a byte. */
static void ask_and_complete(void)
{
    static struct kalyubos_run runs[KALYUBOS_RUNS];
    struct kalyubos_operation operation;
    struct kalyubos_pending pending;
    idx++;
    memcpy(memory + (AVAIL - MEMORY) + 2, &idx, 2);
    if (kalyubos_write(&board, guest, KALYUBOS_BLOCK, 0x50, 4, 0, &pending) != KALYUBOS_IO)
        must(KALYUBOS_BAD_SLOT);
    must(kalyubos_operation(&board, guest, KALYUBOS_BLOCK, 0, &operation, runs, KALYUBOS_RUNS));
    must(kalyubos_completed(&board, guest, KALYUBOS_BLOCK, 0, false, &pending));
    if (operation.len != LEN || memory[HEADER - MEMORY + 16] != 0 || pending.block != 1)
        must(KALYUBOS_BAD_SLOT);
}

static void copy_out(void)
{
    must(kalyubos_read_memory(&board, guest, DATA, buffer, LEN));
}

/* The like of it without a board. The compiler can't see what the copy is for. */
static void *(*volatile copy)(void *, const void *, size_t) = memcpy;

static void copy_alone(void)
{
    copy(buffer, other, LEN);
}

/* From now on every chain zeroes all sectors: header and segment in one buffer, and the status. */
static void turn_to_zeroes(void)
{
    const uint8_t header_and_segment[32] = { [0] = 13, [26] = SECTORS >> 16 };
    const uint16_t heads[4] = { 3, 3, 3, 3 };
    descriptor(3, ZEROES, sizeof header_and_segment, 1, 2);
    must(kalyubos_write_memory(&board, guest, ZEROES, header_and_segment, sizeof header_and_segment));
    must(kalyubos_write_memory(&board, guest, AVAIL + 4, (const uint8_t *)heads, sizeof heads));
}

/* The like of it without a board. */
static void *(*volatile fill)(void *, int, size_t) = memset;

static void fill_alone(void)
{
    fill(image, 0, sizeof image);
}

static double now(void)
{
    struct timespec t;
    clock_gettime(CLOCK_PROCESS_CPUTIME_ID, &t);
    return (double)t.tv_sec * 1e9 + (double)t.tv_nsec;
}

static void time_of(const char *what, void (*work)(void), int count)
{
    double best = 1e18;
    for (int round = 0; round < ROUNDS; round++) {
        double start = now();
        for (int i = 0; i < count; i++)
            work();
        double one = (now() - start) / count;
        best = one < best ? one : best;
    }
    printf("%-52s %8.1f ns\n", what, best);
}

/* So many guests, of which the last has all sectors; their disks are the host's, or parts of the image. */
static void open_board(uint8_t guests, bool is_hosted)
{
    struct kalyubos_slot slots[MOST];
    size_t memory_len;
    for (uint8_t i = 0; i < guests; i++)
        slots[i] = (struct kalyubos_slot){
            .size = sizeof *slots, .regions = { { MEMORY, 0x100000 } }, .count = i + 1 == guests ? SECTORS : 0,
            .cols = 80, .rows = 25, .outlet = OUTLET, .hosted = is_hosted,
        };
    struct kalyubos_config config = kalyubos_config_of(slots, guests);
    config.image = image;
    config.image_len = is_hosted ? 0 : sizeof image;
    must(kalyubos_create(&board, &config));
    guest = guests - 1;
    idx = 0;
    must(kalyubos_memory(&board, guest, MEMORY, &memory, &memory_len));
}

int main(void)
{
    open_board(1, false);
    bring_up();
    bring_up_console();
    time_of("a register read", read_register, READS);
    time_of("an IN of 4 KiB, with notify, status, acknowledge", request, REQUESTS);
    time_of("a notify with one IN of 4 KiB, memory in place", notify_in_place, REQUESTS);
    time_of("a transmit of 4 KiB, and its taking", transmit, REQUESTS);
    time_of("a memory read of 4 KiB", copy_out, COPIES);
    time_of("a copy of 4 KiB", copy_alone, COPIES);
    turn_to_zeroes();
    time_of("a WRITE_ZEROES of 65536 sectors", request, 1);
    time_of("a memset of as many bytes", fill_alone, 1);
    must(kalyubos_destroy(&board));
    open_board(MOST, false);
    bring_up();
    time_of("a register read, of the last of 64 guests", read_register, READS);
    time_of("a notify with one IN of 4 KiB, memory in place, of it", notify_in_place, REQUESTS);
    must(kalyubos_destroy(&board));
    open_board(1, true);
    bring_up();
    time_of("hosted: a notify that asks, what for, its completion", ask_and_complete, REQUESTS);
    must(kalyubos_destroy(&board));
    return 0;
}
