/*
 * An outlet's room: what is refused where it is full, and what goes on once some is taken.
 */
#include <stdio.h>
#include <string.h>

#include "shut_heap.h"

static const uint64_t MEMORY = 0x80000000;
static uint8_t image[512];

static uint32_t set(struct kalyubos *board, uint16_t offset, uint32_t value)
{
    struct kalyubos_pending pending;
    return kalyubos_write(board, 0, KALYUBOS_CONSOLE, offset, 4, value, &pending);
}

static void store(struct kalyubos *board, uint64_t addr, const void *from, size_t len)
{
    need(kalyubos_write_memory(board, 0, addr, from, len) == KALYUBOS_DONE, "a store to memory", addr);
}

static size_t take(struct kalyubos *board, void *into, size_t room)
{
    size_t taken = 0;
    need(kalyubos_take_output(board, 0, into, room, &taken) == KALYUBOS_DONE, "take_output", room);
    return taken;
}

/* A board of one guest, whose driver has made its transmit queue of four ready (3.1.1, 4.2.3.2). */
static void power_on(struct kalyubos *board, uint32_t outlet)
{
    static const uint32_t steps[][2] = { { 0x70, 1 }, { 0x70, 3 }, { 0x24, 1 }, { 0x20, 1 }, { 0x70, 11 }, { 0x30, 1 },
                                         { 0x38, 4 }, { 0x80, 0x80001000 }, { 0x90, 0x80002000 },
                                         { 0xa0, 0x80003000 }, { 0x44, 1 }, { 0x70, 15 } };
    struct kalyubos_slot slot = { .size = sizeof slot, .regions = { { MEMORY, 0x10000 } }, .count = 1, .cols = 80,
                                  .rows = 25, .outlet = outlet };
    make(board, over_image(&slot, 1, image, sizeof image));
    for (size_t i = 0; i < sizeof steps / sizeof *steps; i++)
        need(set(board, (uint16_t)steps[i][0], steps[i][1]) == KALYUBOS_DONE, "a driver's step", i);
}

/* A buffer of the guest's text, which is a chain of its own. */
static void describe(struct kalyubos *board, uint64_t place, uint64_t addr, uint32_t len)
{
    struct { uint64_t addr; uint32_t len; uint16_t flags, next; } it = { addr, len, 0, 0 };
    store(board, 0x80001000 + 16 * place, &it, sizeof it);
}

/* ---- each order of three notifies and three takings over chains of three, two and three bytes, where four may wait */

static const char *const ORDERS[][2] = {
    /* N notifies, T takes; d: done, r: no room, and a number is how many bytes came */
    { "NNNTTT", "rrr300" }, { "NNTNTT", "rr3r20" }, { "NNTTNT", "rr30r2" }, { "NNTTTN", "rr300r" },
    { "NTNNTT", "r3rr20" }, { "NTNTNT", "r3r2d3" }, { "NTNTTN", "r3r20d" }, { "NTTNNT", "r30rr2" },
    { "NTTNTN", "r30r2d" }, { "NTTTNN", "r300rr" }, { "TNNNTT", "0rrr30" }, { "TNNTNT", "0rr3r2" },
    { "TNNTTN", "0rr30r" }, { "TNTNNT", "0r3rr2" }, { "TNTNTN", "0r3r2d" }, { "TNTTNN", "0r30rr" },
    { "TTNNNT", "00rrr3" }, { "TTNNTN", "00rr3r" }, { "TTNTNN", "00r3rr" }, { "TTTNNN", "000rrr" },
};
enum { HOW_MANY = sizeof ORDERS / sizeof *ORDERS };

static char notify(struct kalyubos *board)
{
    uint32_t answer = set(board, 0x50, 1);
    return answer == KALYUBOS_DONE ? 'd' : answer == KALYUBOS_NO_ROOM ? 'r' : '?';
}

/* Does these steps and answers them; what is taken stands behind what was taken before. */
static void follow(struct kalyubos *board, const char *steps, char *answers, char *text)
{
    for (; *steps != 0; steps++, answers++)
        *answers = *steps == 'N' ? notify(board) : (char)('0' + take(board, text + strlen(text), 8));
}

static uint64_t how_often(const char *text, char letter)
{
    uint64_t count = 0;
    for (; *text != 0; text++)
        count += *text == letter;
    return count;
}

/* Three chains of eight bytes went out, and each notification counts, and each that found no room. */
static void check_counters(struct kalyubos *board, uint64_t notifies, uint64_t refusals, uint64_t number)
{
    const struct kalyubos_counters wanted = { .notifies = notifies, .chains = 3, .bytes_out = 8, .refusals = refusals };
    struct kalyubos_counters it;
    need(kalyubos_counters(board, 0, &it) == KALYUBOS_DONE, "counters", number);
    need(memcmp(&it, &wanted, sizeof it) == 0, "an order's counters", number);
    need(kalyubos_counters(board, 1, &it) == KALYUBOS_BAD_SLOT, "counters of no slot", number);
    need(memcmp(&it, &wanted, sizeof it) == 0, "counters that were told of no slot", number);
}

static void check_order(const char *steps, const char *wanted, uint64_t number)
{
    static const uint8_t ring[] = { 3, 0, 0, 0, 1, 0, 2, 0 };
    struct kalyubos board = { NULL };
    char answers[7] = "", rest[7] = "", text[32] = "";
    power_on(&board, 4);
    describe(&board, 0, 0x80004000, 3);
    describe(&board, 1, 0x80004003, 2);
    describe(&board, 2, 0x80004005, 3);
    store(&board, 0x80004000, "abcdefgh", 8);
    store(&board, 0x80002002, ring, sizeof ring);
    follow(&board, steps, answers, text);
    need(strcmp(answers, wanted) == 0, "an order's answers", number);
    follow(&board, "TNTNT", rest, text);
    need(strcmp(text, "abcdefgh") == 0, "an order's bytes", number);
    check_counters(&board, how_often(steps, 'N') + how_often(rest, 'd') + how_often(rest, 'r'),
                   how_often(answers, 'r') + how_often(rest, 'r'), number);
    end(&board);
}

/* ---- an outlet's room to the byte */

/* Offers a chain of so many bytes instead of the one on offer, and notifies. */
static uint32_t put_out(struct kalyubos *board, uint32_t len)
{
    static const uint8_t one[] = { 1, 0, 0, 0 };
    describe(board, 0, 0x80004000, len);
    store(board, 0x80002002, one, sizeof one);
    return set(board, 0x50, 1);
}

/* A chain of a byte more stays on offer, one of as many goes out, and then there is room for nothing until it is taken. */
static void check_room(uint32_t outlet)
{
    static uint8_t text[0x2000];
    struct kalyubos board = { NULL };
    power_on(&board, outlet);
    need(put_out(&board, outlet + 1) == KALYUBOS_NO_ROOM, "a chain of a byte more", outlet);
    need(take(&board, text, sizeof text) == 0, "nothing of it is put out", outlet);
    need(put_out(&board, outlet) == KALYUBOS_DONE, "a chain of as many", outlet);
    need(set(&board, 0x108, 'A') == KALYUBOS_NO_ROOM, "a byte more", outlet);
    need(take(&board, text, sizeof text) == outlet, "as many come", outlet);
    need(set(&board, 0x108, 'A') == (outlet == 0 ? KALYUBOS_NO_ROOM : KALYUBOS_DONE), "a byte after them", outlet);
    end(&board);
}

int main(void)
{
    for (uint64_t i = 0; i < HOW_MANY; i++)
        check_order(ORDERS[i][0], ORDERS[i][1], i);
    check_room(0);
    check_room(1);
    check_room(4095);
    printf("outlets: %d orders of notifying and taking, and rooms of 0, 1 and 4095 bytes\n", HOW_MANY);
    return 0;
}
