/*
 * Each guest is alone, whatever the others do.
 *
 *     apart SEEDS
 *
 * First a guest fills its outlet, and another's console still puts out its byte. Then, for each seed, sixteen guests
 * make random calls, one of them ten times as many and with chains as long as may be: each is answered what it is
 * answered on a board of its own, over its part of the image. The heap is open to create and destroy alone, and empty
 * at the end.
 */
#include <inttypes.h>
#include <stdio.h>
#include <stdlib.h>
#include <string.h>

#include "shut_heap.h"

enum { GUESTS = 16, MEMORY_LEN = 0x8000, COUNT = 4, TURNS = 60, HOSTILE = 0, HOSTILE_TURNS = 600 };
static const uint64_t MEMORY = 0x80000000;
static const uint32_t OUTLETS[] = { 0, 1, 4095, 1 << 16 };

/* ---- a guest: what it does next is chosen by its own numbers, and all that it is told goes into one number */

struct guest {
    struct kalyubos *board;
    uint8_t slot;
    bool is_hostile;
    uint64_t state, told;
    uint16_t offered[2];
    unsigned turns;
};

static uint64_t chance(struct guest *guest, uint64_t below)
{
    guest->state ^= guest->state << 13;
    guest->state ^= guest->state >> 7;
    guest->state ^= guest->state << 17;
    return (guest->state >> 11) % below;
}

static void tell(struct guest *guest, const void *bytes, size_t len)
{
    for (size_t i = 0; i < len; i++)
        guest->told = (guest->told ^ ((const uint8_t *)bytes)[i]) * 0x100000001b3;
}

static void tell_number(struct guest *guest, uint64_t number)
{
    tell(guest, &number, sizeof number);
}

static uint64_t area(uint8_t window)
{
    return MEMORY + (window ? MEMORY_LEN / 2 : 0);
}

static void take(struct guest *guest, size_t room)
{
    static uint8_t out[1 << 16];
    size_t taken = 0;
    tell_number(guest, kalyubos_take_output(guest->board, guest->slot, out, room, &taken));
    tell(guest, out, taken);
    tell_number(guest, taken);
}

static void tell_pending(struct guest *guest, const struct kalyubos_pending *pending)
{
    tell_number(guest, (uint64_t)pending->block << 32 | pending->console);
    tell_number(guest, pending->output);
}

/* A store to a register; where there was no room, output is taken at times, and the same store is made again. */
static void set(struct guest *guest, uint8_t window, uint16_t offset, uint8_t width, uint32_t value)
{
    struct kalyubos_pending pending = {0};
    uint32_t answer;
    do {
        answer = kalyubos_write(guest->board, guest->slot, window, offset, width, value, &pending);
        tell_number(guest, answer);
        tell_pending(guest, &pending);
        if (answer == KALYUBOS_NO_ROOM)
            take(guest, chance(guest, 1 << 12));
    } while (answer == KALYUBOS_NO_ROOM && chance(guest, 4) != 0);
}

static void store(struct guest *guest, uint64_t addr, const void *from, size_t len)
{
    tell_number(guest, kalyubos_write_memory(guest->board, guest->slot, addr, from, len));
}

static void load(struct guest *guest, uint64_t addr, size_t len)
{
    uint8_t bytes[MEMORY_LEN];
    uint32_t answer = kalyubos_read_memory(guest->board, guest->slot, addr, bytes, len);
    tell_number(guest, answer);
    tell(guest, bytes, answer == KALYUBOS_DONE ? len : 0);
}

static void bring_up(struct guest *guest, uint8_t window)
{
    static const uint16_t offsets[] = { 0x70, 0x70, 0x70, 0x24, 0x20, 0x70, 0x30, 0x38, 0x80, 0x90, 0xa0, 0x44, 0x70 };
    uint32_t at = (uint32_t)area(window), queue = window ? (uint32_t)chance(guest, 4) != 0 : 0;
    uint32_t features = chance(guest, 4) == 0 ? 5 : 1; /* VERSION_1, and at times RING_PACKED */
    uint32_t values[] = { 0, 1, 3, 1, features, 11, queue, 8, at, at + 0x400, at + 0x800, 1, 15 };
    guest->offered[window] = 0;
    for (size_t i = 0; i < sizeof values / sizeof *values; i++)
        set(guest, window, offsets[i], 4, values[i]);
}

static void put(uint8_t *bytes, uint64_t value, int len)
{
    for (int i = 0; i < len; i++)
        bytes[i] = (uint8_t)(value >> 8 * i);
}

/* A table of eight descriptors, mostly a request or something to say, and eight chains on offer at most. */
static void offer(struct guest *guest, uint8_t window)
{
    uint8_t table[8 * 16], header[16], ring[4 + 16];
    uint64_t longest = guest->is_hostile ? MEMORY_LEN / 2 : 600;
    for (int i = 0; i < 8; i++) {
        uint64_t len = window ? chance(guest, longest) : i % 3 == 0 ? 16 : i % 3 == 1 ? 512 : 1;
        bool is_written = window ? chance(guest, 8) == 0 : i % 3 == 2 || (i % 3 == 1 && chance(guest, 2));
        put(table + 16 * i, area(window) + 0x1000 + 0x100 * chance(guest, 16), 8);
        put(table + 16 * i + 8, chance(guest, 30) ? len : chance(guest, 1 << 20), 4);
        uint64_t flags = (is_written ? 2u : 0u) + (i % 3 != 2);
        put(table + 16 * i + 12, chance(guest, 20) ? flags : chance(guest, 8), 2);
        put(table + 16 * i + 14, chance(guest, 20) ? (uint64_t)i + 1 : chance(guest, 9), 2);
    }
    put(header, chance(guest, 8) ? chance(guest, 2) : chance(guest, 32), 4);
    put(header + 4, 0, 4);
    put(header + 8, chance(guest, COUNT + 1), 8);
    guest->offered[window] += guest->is_hostile ? 8 : 1 + chance(guest, 3);
    put(ring, 0, 2);
    put(ring + 2, guest->offered[window], 2);
    for (int i = 0; i < 8; i++)
        put(ring + 4 + 2 * i, chance(guest, 10) ? 3 * chance(guest, 3) : chance(guest, 9), 2);
    store(guest, area(window), table, sizeof table);
    store(guest, area(window) + 0x1000 + 0x100 * chance(guest, 16), header, sizeof header);
    store(guest, area(window) + 0x400, ring, sizeof ring);
    set(guest, window, 0x50, 4, window ? chance(guest, 4) != 0 : 0);
}

static void type(struct guest *guest)
{
    uint8_t bytes[100];
    size_t took = 0, len = chance(guest, sizeof bytes);
    struct kalyubos_pending pending = {0};
    memset(bytes, 'a' + (int)chance(guest, 26), sizeof bytes);
    tell_number(guest, kalyubos_input(guest->board, guest->slot, bytes, len, &took, &pending));
    tell_number(guest, took);
    tell_pending(guest, &pending);
}

static void resize(struct guest *guest)
{
    struct kalyubos_pending pending = {0};
    uint16_t cols = (uint16_t)chance(guest, 200);
    tell_number(guest, kalyubos_resize(guest->board, guest->slot, cols, 25, &pending));
    tell_pending(guest, &pending);
}

static void look(struct guest *guest)
{
    uint8_t block = 0, console = 0;
    bool disturbed = false;
    struct kalyubos_counters counters = {0};
    tell_number(guest, kalyubos_interrupts(guest->board, guest->slot, &block, &console));
    tell_number(guest, kalyubos_disturbed(guest->board, guest->slot, &disturbed));
    tell_number(guest, (uint64_t)block << 16 | (uint64_t)console << 8 | disturbed);
    tell_number(guest, kalyubos_counters(guest->board, guest->slot, &counters));
    tell(guest, &counters, sizeof counters);
}

static void turn(struct guest *guest)
{
    uint8_t window = (uint8_t)chance(guest, 2), width = (uint8_t)(1u << chance(guest, 3));
    uint16_t offset = (uint16_t)(4 * chance(guest, 0x48));
    uint32_t value = 0;
    switch (chance(guest, 12)) {
    case 0:
        tell_number(guest, kalyubos_read(guest->board, guest->slot, window, offset, width, &value));
        tell_number(guest, value);
        break;
    case 1:
        if (chance(guest, 4) != 0)
            set(guest, KALYUBOS_CONSOLE, 0x108, 4, 'x'); /* an emergency write */
        else
            set(guest, window, offset, width, (uint32_t)chance(guest, 16));
        break;
    case 2: case 3: bring_up(guest, window); break;
    case 4: load(guest, MEMORY + chance(guest, MEMORY_LEN), chance(guest, 2048)); break;
    case 5: type(guest); break;
    case 6: resize(guest); break;
    case 7: take(guest, chance(guest, 5000)); break;
    case 8: look(guest); break;
    default: offer(guest, window);
    }
    guest->turns--;
}

/* What is left of the guest's: its memory, its part of the image, and what waits of its output. */
static void tell_rest(struct guest *guest, size_t image_start)
{
    uint8_t sectors[COUNT * 512];
    load(guest, MEMORY, MEMORY_LEN);
    need(kalyubos_read_image(guest->board, image_start, sectors, sizeof sectors) == KALYUBOS_DONE, "read_image", 0);
    tell(guest, sectors, sizeof sectors);
    take(guest, 1 << 16);
    look(guest);
}

/* ---- sixteen guests on one board, and each on a board of its own */

static uint8_t image[GUESTS * COUNT * 512];
static struct kalyubos_slot slots[GUESTS];

static struct guest powered_on(struct kalyubos *board, uint8_t slot, int number, uint64_t seed)
{
    bool is_hostile = number == HOSTILE;
    return (struct guest){ board, slot, is_hostile, 0x9e3779b97f4a7c15 * (seed * GUESTS + (uint64_t)number + 1), 0,
                           { 0, 0 }, is_hostile ? HOSTILE_TURNS : TURNS };
}

static uint64_t alone(int number, uint64_t seed)
{
    struct kalyubos board = { NULL };
    struct kalyubos_slot slot = slots[number];
    slot.start = 0;
    make(&board, over_image(&slot, 1, image + 512 * slots[number].start, COUNT * 512));
    struct guest guest = powered_on(&board, 0, number, seed);
    while (guest.turns != 0)
        turn(&guest);
    tell_rest(&guest, 0);
    end(&board);
    return guest.told;
}

static void check_seed(uint64_t seed)
{
    struct kalyubos board = { NULL };
    struct guest guests[GUESTS], host = { .state = 0x2545f4914f6cdd1d * (seed + 1) };
    for (int i = 0; i < GUESTS; i++)
        slots[i] = (struct kalyubos_slot){
            .size = sizeof *slots, .regions = { { MEMORY, MEMORY_LEN } }, .start = COUNT * (uint64_t)i, .count = COUNT,
            .cols = 80, .rows = 25, .outlet = OUTLETS[(seed + (uint64_t)i) % 4], .read_only = i % 5 == 4,
            .identity = { 'g', (uint8_t)i },
        };
    make(&board, over_image(slots, GUESTS, image, sizeof image));
    for (int i = 0; i < GUESTS; i++)
        guests[i] = powered_on(&board, (uint8_t)i, i, seed);
    for (unsigned left = HOSTILE_TURNS + (GUESTS - 1) * TURNS; left != 0; left--) {
        size_t next = chance(&host, 2) ? HOSTILE : (size_t)chance(&host, GUESTS);
        while (guests[next].turns == 0)
            next = (next + 1) % GUESTS;
        turn(&guests[next]);
    }
    for (int i = 0; i < GUESTS; i++)
        tell_rest(&guests[i], 512 * slots[i].start);
    end(&board);
    for (int i = 0; i < GUESTS; i++)
        need(guests[i].told == alone(i, seed), "a guest was told something else than alone", seed);
}

/* ---- a guest that fills its outlet, and one that has a byte to say */

enum { CHAIN = 0x10000, CHAINS = 256, OUTLET = CHAIN * CHAINS };

static void set_console(struct kalyubos *board, uint8_t slot, uint16_t offset, uint32_t value, uint32_t wanted)
{
    struct kalyubos_pending pending;
    uint32_t answer = kalyubos_write(board, slot, KALYUBOS_CONSOLE, offset, 4, value, &pending);
    need(answer == wanted, "a store to the console", answer);
}

static size_t take_some(struct kalyubos *board, uint8_t slot, uint8_t *into, size_t room)
{
    size_t taken = 0;
    need(kalyubos_take_output(board, slot, into, room, &taken) == KALYUBOS_DONE, "take_output", slot);
    return taken;
}

/* Brings up the transmit queue, of 256 chains of 64 KiB each, all of the same bytes, and puts all of them on offer. */
static void offer_all(struct kalyubos *board)
{
    static const uint32_t steps[][2] = { { 0x70, 1 }, { 0x70, 3 }, { 0x24, 1 }, { 0x20, 1 }, { 0x70, 11 }, { 0x30, 1 },
                                         { 0x38, CHAINS }, { 0x80, 0x80010000 }, { 0x90, 0x80012000 },
                                         { 0xa0, 0x80013000 }, { 0x44, 1 }, { 0x70, 15 } };
    static uint8_t table[16 * CHAINS], ring[4 + 2 * CHAINS];
    for (int i = 0; i < CHAINS; i++) {
        put(table + 16 * i, MEMORY, 8);
        put(table + 16 * i + 8, CHAIN, 4);
        put(ring + 4 + 2 * i, (uint64_t)i, 2);
    }
    put(ring + 2, CHAINS, 2);
    for (size_t i = 0; i < sizeof steps / sizeof *steps; i++)
        set_console(board, 0, (uint16_t)steps[i][0], steps[i][1], KALYUBOS_DONE);
    need(kalyubos_write_memory(board, 0, MEMORY + 0x10000, table, sizeof table) == KALYUBOS_DONE, "table", 0);
    need(kalyubos_write_memory(board, 0, MEMORY + 0x12000, ring, sizeof ring) == KALYUBOS_DONE, "ring", 0);
}

static void check_full_outlet(void)
{
    static uint8_t out[OUTLET];
    static const uint8_t again[2] = { (2 * CHAINS) & 255, (2 * CHAINS) >> 8 };
    struct kalyubos board = { NULL };
    struct kalyubos_slot two[2] = {
        { .size = sizeof *two, .regions = { { MEMORY, 0x20000 } }, .start = 0, .count = 1, .outlet = OUTLET },
        { .size = sizeof *two, .regions = { { MEMORY, 0x1000 } }, .start = 1, .count = 1, .outlet = 1 },
    };
    make(&board, over_image(two, 2, image, 1024));
    offer_all(&board);
    set_console(&board, 0, 0x50, 1, KALYUBOS_DONE);
    need(kalyubos_write_memory(&board, 0, MEMORY + 0x12002, again, 2) == KALYUBOS_DONE, "idx", 0);
    for (int i = 0; i < 3; i++)
        set_console(&board, 0, 0x50, 1, KALYUBOS_NO_ROOM);

    set_console(&board, 1, 0x108, 'h', KALYUBOS_DONE);
    set_console(&board, 1, 0x108, 'i', KALYUBOS_NO_ROOM);
    need(take_some(&board, 1, out, 9) == 1 && out[0] == 'h', "the other guest's byte", out[0]);
    set_console(&board, 1, 0x108, 'i', KALYUBOS_DONE);
    need(take_some(&board, 1, out, 9) == 1 && out[0] == 'i', "its next byte", out[0]);

    /* room for one chain, and the same store again: that chain is put out, and no other */
    need(take_some(&board, 0, out, CHAIN) == CHAIN, "a chain's bytes", CHAIN);
    set_console(&board, 0, 0x50, 1, KALYUBOS_NO_ROOM);
    need(take_some(&board, 0, out, OUTLET) == OUTLET, "the outlet is full again", OUTLET);
    set_console(&board, 0, 0x50, 1, KALYUBOS_DONE);
    need(take_some(&board, 0, out, OUTLET) == OUTLET - CHAIN, "the other chains", OUTLET);
    end(&board);
}

int main(int argc, char **argv)
{
    uint64_t seeds = argc > 1 ? strtoull(argv[1], NULL, 10) : 1000;
    for (size_t i = 0; i < sizeof image; i++)
        image[i] = (uint8_t)(i / 512);
    check_full_outlet();
    for (uint64_t seed = 0; seed < seeds; seed++)
        check_seed(seed);
    printf("apart: %" PRIu64 " seeds, %d guests each: each was told what it is told alone\n", seeds, GUESTS);
    return 0;
}
