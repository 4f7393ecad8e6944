/*
 * What is large and isn't refused: a guest of eight regions, of which one has more than 1 GiB, and whose console puts 1 MiB and a
 * byte out in one chain. With a disk of either kind, over memory of the library's and over memory that the host lends.
 */
#define _DEFAULT_SOURCE
#include <stdio.h>
#include <string.h>
#include <sys/mman.h>

#include "shut_heap.h"

enum { PAGE = 0x1000, TEXT_LEN = 0x100001, NOTIFY = 0x050, TRANSMIT = 1 };
#define LARGE 0x40001000ull /* 1 GiB and a page */
#define BASE 0x80000000ull
#define TEXT (BASE + LARGE - TEXT_LEN)

static struct kalyubos_slot slot = {
    .size = sizeof slot,
    .regions = { { 1 << 16, PAGE }, { 2 << 16, PAGE }, { 3 << 16, PAGE }, { 4 << 16, PAGE }, { 5 << 16, PAGE }, { 6 << 16, PAGE },
                 { 7 << 16, PAGE }, { BASE, LARGE } },
    .count = 1, .cols = 80, .rows = 25, .outlet = 1 << 24,
};
static uint8_t image[512], text[TEXT_LEN + 1];
static struct kalyubos board;

static void store(uint64_t addr, const void *from, size_t len)
{
    need(kalyubos_write_memory(&board, 0, addr, from, len) == KALYUBOS_DONE, "a store to memory", addr);
}

static void set(uint16_t offset, uint32_t value)
{
    struct kalyubos_pending pending;
    need(kalyubos_write(&board, 0, KALYUBOS_CONSOLE, offset, 4, value, &pending) == KALYUBOS_DONE, "a store to a register", offset);
}

/* The last byte of each region is its place in the list, and none is behind it. */
static void check_regions(void)
{
    uint8_t found;
    for (uint8_t i = 0; i < KALYUBOS_REGIONS; i++) {
        uint64_t end = slot.regions[i].base + slot.regions[i].len;
        store(end - 1, &i, 1);
        need(kalyubos_write_memory(&board, 0, end, &i, 1) == KALYUBOS_BAD_RANGE, "a byte behind a region", i);
    }
    for (uint8_t i = 0; i < KALYUBOS_REGIONS; i++) {
        uint64_t end = slot.regions[i].base + slot.regions[i].len;
        need(kalyubos_read_memory(&board, 0, end - 1, &found, 1) == KALYUBOS_DONE && found == i, "a region's last byte", found);
    }
}

/* The driver makes its transmit queue of four ready and sends all up to the memory's end (3.1.1, 4.2.3.2). */
static void check_text(void)
{
    static const uint32_t steps[][2] = { { 0x70, 3 }, { 0x24, 1 }, { 0x20, 1 }, { 0x70, 11 }, { 0x30, TRANSMIT }, { 0x38, 4 },
                                         { 0x80, BASE + 0x1000 }, { 0x90, BASE + 0x2000 }, { 0xa0, BASE + 0x3000 },
                                         { 0x44, 1 }, { 0x70, 15 } };
    static const struct { uint64_t addr; uint32_t len, flags; } chain = { TEXT, TEXT_LEN, 0 };
    static const uint8_t ring[] = { 0, 0, 1, 0, 0, 0 };
    size_t taken = 0;
    for (size_t i = 0; i < sizeof steps / sizeof *steps; i++)
        set((uint16_t)steps[i][0], steps[i][1]);
    store(BASE + 0x1000, &chain, sizeof chain);
    store(BASE + 0x2000, ring, sizeof ring);
    store(TEXT, "A", 1);
    store(TEXT + TEXT_LEN - 1, "B", 1);
    set(NOTIFY, TRANSMIT);
    need(kalyubos_take_output(&board, 0, text, sizeof text, &taken) == KALYUBOS_DONE && taken == TEXT_LEN, "output", taken);
    need(text[0] == 'A' && text[1] == 0 && text[TEXT_LEN - 2] == 0 && text[TEXT_LEN - 1] == 'B', "the text", taken);
}

static void check_board(struct kalyubos_config config, uint64_t number)
{
    need(create(&board, &config) == KALYUBOS_DONE, "create", number);
    check_regions();
    check_text();
    end(&board);
}

/* A loan of each region's length. */
static void lend(struct kalyubos_loan *loans)
{
    for (size_t i = 0; i < KALYUBOS_REGIONS; i++) {
        size_t len = slot.regions[i].len;
        uint8_t *bytes = mmap(NULL, len, PROT_READ | PROT_WRITE, MAP_PRIVATE | MAP_ANONYMOUS | MAP_NORESERVE, -1, 0);
        need(bytes != MAP_FAILED, "a mapping", len);
        loans[i] = (struct kalyubos_loan){ bytes, len };
    }
}

int main(void)
{
    struct kalyubos_loan loans[KALYUBOS_REGIONS];
    for (int hosted = 0; hosted < 2; hosted++)
        for (int lent = 0; lent < 2; lent++) {
            slot.hosted = hosted;
            struct kalyubos_config config = over_image(&slot, 1, image, hosted ? 0 : sizeof image);
            if (lent) {
                lend(loans);
                config.loans = loans;
                config.loans_len = KALYUBOS_REGIONS;
            }
            check_board(config, 2 * hosted + lent);
        }
    puts("large: eight regions, 1 GiB and a page in one, and a text of 1 MiB and a byte, with disks of both kinds, "
         "also in lent memory");
    return 0;
}
