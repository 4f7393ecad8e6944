/*
 * How many slots a board may have, the size that each must say, which one is wrong, and that each disk tells its own identity.
 * kalyubos_judge answers all this before kalyubos_create, and the same.
 */
#include <stdio.h>
#include <stdlib.h>
#include <string.h>

#include "shut_heap.h"

enum { MOST = 64, MEMORY_LEN = 0x7000, SIZE = 584, HOLD = 0xff };

_Static_assert(sizeof(struct kalyubos_slot) == SIZE, "a slot of this version has 584 bytes");

static const uint64_t MEMORY = 0x80000000;
static uint8_t image[512];

/* Slot k has 20 bytes of 40 + k. */
static struct kalyubos_slot slot_of(int number)
{
    struct kalyubos_slot slot = { .size = SIZE, .regions = { { MEMORY, MEMORY_LEN } }, .cols = 80, .rows = 25, .outlet = 1 };
    memset(slot.identity, 0x40 + number, sizeof slot.identity);
    return slot;
}

/* ---- what judge and create answer */

/* Judges slots over the image, and tries to make a board of them; `place` is `count` and 8 where it is about none. */
static uint32_t tried(struct kalyubos *board, const struct kalyubos_slot *slots, size_t count, struct place *place)
{
    struct kalyubos_config config = over_image(slots, count, image, sizeof image);
    *place = (struct place){ count, KALYUBOS_REGIONS };
    uint32_t judged = judge(AMPLE, &config, place), answer = create(board, &config);
    need(answer == judged, "what create answers behind judge", judged);
    return answer;
}

/* A board of so many slots. One of them says this size, and where `cut` is set the array ends right behind it. */
static uint32_t answer_of(size_t count, size_t which, size_t size, bool cut)
{
    size_t bytes = cut ? which * SIZE + sizeof size : count * SIZE;
    uint8_t *slots = malloc(bytes != 0 ? bytes : 1);
    struct kalyubos board = { NULL };
    need(slots != NULL, "no memory", bytes);
    for (size_t i = 0; i < count && !(cut && i > which); i++) {
        struct kalyubos_slot slot = slot_of((int)i);
        if (i == which)
            slot.size = size;
        memcpy(slots + i * SIZE, &slot, cut && i == which ? sizeof size : SIZE);
    }
    struct place place;
    uint32_t answer = tried(&board, (const struct kalyubos_slot *)slots, count, &place);
    need(place.slot == (answer == KALYUBOS_BAD_SIZE ? which : count), "the slot of another size", place.slot);
    need((board.at != NULL) == (answer == KALYUBOS_DONE), "the handle after create", answer);
    if (board.at != NULL)
        end(&board);
    free(slots);
    return answer;
}

static void check_counts(void)
{
    static const struct { size_t count; uint32_t answer; } rows[] = {
        { 0, KALYUBOS_NO_SLOTS }, { 1, KALYUBOS_DONE }, { 16, KALYUBOS_DONE }, { 17, KALYUBOS_DONE },
        { MOST, KALYUBOS_DONE }, { MOST + 1, KALYUBOS_TOO_MANY_SLOTS }, { 257, KALYUBOS_TOO_MANY_SLOTS },
    };
    for (size_t i = 0; i < sizeof rows / sizeof *rows; i++)
        need(answer_of(rows[i].count, SIZE_MAX, SIZE, false) == rows[i].answer, "so many slots", rows[i].count);
}

/* Nothing behind a bad size is read: where the array ends there, a memory checker would say so. */
static void check_sizes(void)
{
    static const size_t sizes[] = { 0, SIZE - 1, SIZE + 1, SIZE - 8, SIZE + 8, 2 * SIZE, SIZE_MAX };
    static const struct { size_t count, which; } rows[] = {
        { 1, 0 }, { 2, 0 }, { 2, 1 }, { MOST, 0 }, { MOST, MOST - 1 }, { MOST + 1, MOST },
    };
    for (size_t i = 0; i < sizeof rows / sizeof *rows; i++)
        for (size_t j = 0; j < sizeof sizes / sizeof *sizes; j++)
            for (int cut = 0; cut < 2; cut++)
                need(answer_of(rows[i].count, rows[i].which, sizes[j], cut) == KALYUBOS_BAD_SIZE, "a size", sizes[j]);
}

/* A size comes before all else that is wrong, but behind a handle that is full. */
static void check_order(void)
{
    struct kalyubos board = { NULL };
    struct kalyubos_slot good = slot_of(0);
    struct kalyubos_slot bad = { .size = SIZE - 1, .regions = { { 1, 1 } }, .start = 1, .count = 1, .outlet = UINT32_MAX };
    struct kalyubos_config config = over_image(&bad, 1, image, 511);
    config.cache = 0;
    need(create(&board, &config) == KALYUBOS_BAD_SIZE, "a size before all else", 0);
    make(&board, over_image(&good, 1, image, sizeof image));
    need(create(&board, &config) == KALYUBOS_HAS_BOARD, "a full handle before a size", 0);
    end(&board);
}

/* What is wrong with a slot is told with its place, wherever it stands, and nothing else is a slot's. */
static void check_places(void)
{
    static const struct { struct kalyubos_slot bad; uint32_t answer; } rows[] = {
        { { .size = SIZE - 1 }, KALYUBOS_BAD_SIZE },
        { { .size = SIZE, .regions = { { .len = MEMORY_LEN } }, .outlet = (1 << 24) + 1 }, KALYUBOS_BAD_OUTLET },
        { { .size = SIZE, .regions = { { .len = MEMORY_LEN + 1 } } }, KALYUBOS_BAD_MEMORY_SIZE },
        { { .size = SIZE, .regions = { { 1, MEMORY_LEN } } }, KALYUBOS_BAD_MEMORY_BASE },
        { { .size = SIZE }, KALYUBOS_NO_REGIONS },
        { { .size = SIZE, .regions = { { .len = MEMORY_LEN }, { MEMORY_LEN, MEMORY_LEN } } }, KALYUBOS_REGIONS_NOT_APART },
        { { .size = SIZE, .regions = { { .len = MEMORY_LEN } }, .count = 2 }, KALYUBOS_EXTENT_OUTSIDE },
        { { .size = SIZE, .regions = { { .len = MEMORY_LEN } }, .count = 1 }, KALYUBOS_EXTENTS_OVERLAP },
    };
    struct kalyubos board = { NULL };
    struct kalyubos_slot slots[MOST];
    struct place told;
    for (size_t i = 0; i < sizeof rows / sizeof *rows; i++)
        for (size_t count = 2; count <= MOST; count += 31)
            for (size_t place = 1; place < count; place++) {
                for (size_t j = 0; j < count; j++)
                    slots[j] = j == place ? rows[i].bad : slot_of((int)j);
                slots[0].count = 1; /* the image's one sector */
                need(tried(&board, slots, count, &told) == rows[i].answer, "a slot that is wrong", i);
                need(told.slot == place, "its place", place);
            }
    slots[0] = rows[2].bad;
    need(tried(&board, slots, MOST, &told) == KALYUBOS_BAD_MEMORY_SIZE && told.slot == 0, "the first place", told.slot);
    need(tried(&board, slots, 1, &told) == KALYUBOS_BAD_MEMORY_SIZE && told.slot == 0, "the only place", told.slot);
}

/* ---- regions */

/* What is wrong with a region is told with its place; one that can't be had behind those before it is the one. */
static void check_regions(void)
{
    enum { PAGE = 0x1000 };
    static const struct { struct kalyubos_region regions[KALYUBOS_REGIONS]; uint32_t answer; size_t place; } rows[] = {
        { { { 0, PAGE }, { 2 * PAGE, PAGE } }, KALYUBOS_DONE, KALYUBOS_REGIONS },
        { { { 0, PAGE }, { 0, 0 }, { 1, 1 } }, KALYUBOS_DONE, KALYUBOS_REGIONS }, /* one behind the first of 0 is none */
        { { { PAGE, PAGE }, { 3 * PAGE, PAGE }, { 5 * PAGE, PAGE }, { 7 * PAGE, PAGE }, { 9 * PAGE, PAGE }, { 11 * PAGE, PAGE },
            { 13 * PAGE, PAGE }, { -(uint64_t)PAGE, PAGE } }, KALYUBOS_DONE, KALYUBOS_REGIONS },
        { { { 1, 0 } }, KALYUBOS_NO_REGIONS, KALYUBOS_REGIONS },
        { { { 0, PAGE - 1 } }, KALYUBOS_BAD_MEMORY_SIZE, 0 },
        { { { 0, PAGE }, { 2 * PAGE, 1 } }, KALYUBOS_BAD_MEMORY_SIZE, 1 },
        { { { 0, PAGE }, { 2 * PAGE, 1ull << 46 } }, KALYUBOS_BAD_MEMORY_SIZE, 1 }, /* with the one before it */
        { { { 0, PAGE }, { 2 * PAGE + 1, PAGE } }, KALYUBOS_BAD_MEMORY_BASE, 1 },
        { { { 0, PAGE }, { -(uint64_t)PAGE, 2 * PAGE } }, KALYUBOS_BAD_MEMORY_BASE, 1 },
        { { { 0, PAGE }, { -(uint64_t)PAGE, PAGE } }, KALYUBOS_BAD_MEMORY_BASE, 1 }, /* all 2^64 addresses */
        { { { 0, PAGE }, { PAGE, PAGE } }, KALYUBOS_REGIONS_NOT_APART, 1 },
        { { { 4 * PAGE, PAGE }, { 8 * PAGE, PAGE }, { 0, PAGE } }, KALYUBOS_REGIONS_NOT_APART, 2 },
        { { { 0, PAGE }, { 0, PAGE } }, KALYUBOS_REGIONS_NOT_APART, 1 },
    };
    struct kalyubos board = { NULL };
    for (size_t i = 0; i < sizeof rows / sizeof *rows; i++) {
        struct kalyubos_slot slot = { .size = SIZE };
        memcpy(slot.regions, rows[i].regions, sizeof slot.regions);
        struct place told;
        uint32_t answer = tried(&board, &slot, 1, &told);
        need(answer == rows[i].answer, "a region that is wrong", i);
        need(told.region == rows[i].place, "the region's place", i);
        if (answer == KALYUBOS_DONE)
            end(&board);
    }
}

/* ---- identities */

static void set(struct kalyubos *board, uint8_t slot, uint16_t offset, uint32_t value)
{
    struct kalyubos_pending pending;
    need(kalyubos_write(board, slot, KALYUBOS_BLOCK, offset, 4, value, &pending) == KALYUBOS_DONE, "a store", offset);
}

/* The slot's driver makes its queue of four ready, and asks for 20 bytes of identity (3.1.1, 4.2.3.2, 5.2.6). */
static void ask(struct kalyubos *board, uint8_t slot)
{
    static const uint32_t steps[][2] = { { 0x70, 1 }, { 0x70, 3 }, { 0x24, 1 }, { 0x20, 1 }, { 0x70, 11 }, { 0x38, 4 },
                                         { 0x80, 0x80001000 }, { 0x90, 0x80002000 }, { 0xa0, 0x80003000 },
                                         { 0x44, 1 }, { 0x70, 15 } };
    static const struct { uint64_t addr; uint32_t len; uint16_t flags, next; } chain[] = {
        { 0x80004000, 16, 1, 1 }, { 0x80005000, 20, 3, 2 }, { 0x80006000, 1, 2, 0 },
    };
    static const uint8_t header[16] = { 8 }, ring[] = { 0, 0, 1, 0, 0, 0 }, held[21] = { [20] = HOLD };
    for (size_t i = 0; i < sizeof steps / sizeof *steps; i++)
        set(board, slot, (uint16_t)steps[i][0], steps[i][1]);
    need(kalyubos_write_memory(board, slot, 0x80001000, (const uint8_t *)chain, sizeof chain) == KALYUBOS_DONE &&
             kalyubos_write_memory(board, slot, 0x80002000, ring, sizeof ring) == KALYUBOS_DONE &&
             kalyubos_write_memory(board, slot, 0x80004000, header, sizeof header) == KALYUBOS_DONE &&
             kalyubos_write_memory(board, slot, 0x80005000, held, sizeof held) == KALYUBOS_DONE,
         "a store to memory", slot);
    set(board, slot, 0x50, 0);
}

static void check_told(struct kalyubos *board, uint8_t slot)
{
    uint8_t found[21], wanted[21];
    memset(wanted, 0x40 + slot, 20);
    wanted[20] = HOLD;
    need(kalyubos_read_memory(board, slot, 0x80005000, found, sizeof found) == KALYUBOS_DONE, "a load", slot);
    need(memcmp(found, wanted, sizeof found) == 0, "another identity", slot);
}

static void check_identities(void)
{
    struct kalyubos board = { NULL };
    struct kalyubos_slot slots[MOST];
    uint32_t value;
    for (int i = 0; i < MOST; i++)
        slots[i] = slot_of(i);
    make(&board, over_image(slots, MOST, image, sizeof image));
    memset(slots, 0, sizeof slots); /* nothing of the caller's is kept */
    for (uint8_t slot = 0; slot < MOST; slot++)
        ask(&board, slot);
    for (uint8_t slot = 0; slot < MOST; slot++)
        check_told(&board, slot);
    need(kalyubos_read(&board, MOST - 1, KALYUBOS_BLOCK, 8, 4, &value) == KALYUBOS_DONE, "the last slot", value);
    need(kalyubos_read(&board, MOST, KALYUBOS_BLOCK, 8, 4, &value) == KALYUBOS_BAD_SLOT, "no slot", value);
    end(&board);
}

int main(void)
{
    check_counts();
    check_sizes();
    check_order();
    check_places();
    check_regions();
    check_identities();
    puts("slots: 64 and no more, each of its size, each disk with its own identity; a wrong one and a wrong region are told by their place");
    return 0;
}
