/*
 * What kalyubos_judge tells of a config: of slots, also of two that are wrong, of extents beside disks that the host
 * serves, of further devices, and of all else that a config has. kalyubos_create answers the same. Where the heap refuses all, judge
 * answers NO_MEMORY or the same.
 */
#include <stdio.h>
#include <string.h>

#include "shut_heap.h"

enum { CONFIG = 72, SIZE = 584, PAGE = 0x1000, TOO_LARGE = (1 << 24) + 1, SECTORS = 4, IMAGE = SECTORS * 512 };
enum { UNTOLD = 99 };

_Static_assert(sizeof(struct kalyubos_config) == CONFIG, "a config of this version has 72 bytes");

static const uint8_t image[IMAGE];

/* Whether the answer comes before any memory is asked for. */
static bool is_judged_first(uint32_t answer)
{
    return answer == KALYUBOS_BAD_SIZE || answer == KALYUBOS_RUNS_ON || answer == KALYUBOS_BAD_LOAN || answer == KALYUBOS_BAD_IMAGE ||
           answer == KALYUBOS_BAD_OUTLET || answer == KALYUBOS_BAD_DEVICE || answer == KALYUBOS_BAD_EXTENT;
}

/* What an answer isn't about is left, and no loan is taken. */
static void is_judged(enum heap heap, const struct kalyubos_config *config, uint32_t answer, struct place wanted,
                      size_t i)
{
    struct place found = { UNTOLD, UNTOLD };
    struct kalyubos_loan lent[2] = { { NULL, 0 } };
    memcpy(lent, config->loans, config->loans_len * sizeof *lent);
    need(judge(heap, config, &found) == answer, "a judgement", i);
    need(found.slot == wanted.slot, "the slot that is told", i);
    need(found.region == wanted.region, "the region that is told", i);
    need(memcmp(lent, config->loans, config->loans_len * sizeof *lent) == 0, "a loan that is taken", i);
}

static void check(struct kalyubos_config config, uint32_t answer, struct place place, size_t i)
{
    struct kalyubos board = { NULL };
    is_judged(AMPLE, &config, answer, place, i);
    if (is_judged_first(answer))
        is_judged(FULL, &config, answer, place, i);
    else
        is_judged(FULL, &config, KALYUBOS_NO_MEMORY, (struct place){ UNTOLD, UNTOLD }, i);
    need(create(&board, &config) == answer, "what create answers", i);
    if (answer == KALYUBOS_DONE)
        end(&board);
}

/* ---- two slots: sizes come first, then guests that run on, then outlets, then slot by slot all else */

static const struct {
    struct kalyubos_slot slots[2];
    uint32_t answer;
    struct place place;
} PAIRS[] = {
    { { { .size = SIZE, .regions = { { 0, PAGE } } }, { .size = SIZE, .regions = { { 0, PAGE } } } },
      KALYUBOS_DONE, { UNTOLD, UNTOLD } },
    { { { .size = SIZE, .regions = { { 0, PAGE } }, .outlet = TOO_LARGE }, { .size = SIZE + 8 } },
      KALYUBOS_BAD_SIZE, { 1, UNTOLD } },
    { { { .size = SIZE + 8, .regions = { { 1, PAGE } }, .outlet = TOO_LARGE }, { .size = SIZE - 8, .outlet = TOO_LARGE } },
      KALYUBOS_BAD_SIZE, { 0, UNTOLD } },
    { { { .size = SIZE, .regions = { { 0, 1 } }, .count = SECTORS + 1 }, { .size = 0 } },
      KALYUBOS_BAD_SIZE, { 1, UNTOLD } },
    { { { .size = SIZE, .regions = { { 1, 1 } }, .outlet = TOO_LARGE, .runs = true }, { .size = SIZE + 8, .runs = true } },
      KALYUBOS_BAD_SIZE, { 1, UNTOLD } },
    { { { .size = SIZE, .regions = { { 1, 1 } }, .outlet = TOO_LARGE }, { .size = SIZE, .runs = true } },
      KALYUBOS_RUNS_ON, { 1, UNTOLD } },
    { { { .size = SIZE, .runs = true }, { .size = SIZE, .runs = true } }, KALYUBOS_RUNS_ON, { 0, UNTOLD } },
    { { { .size = SIZE, .regions = { { 0, PAGE }, { 1, 1 } } }, { .size = SIZE, .outlet = TOO_LARGE } },
      KALYUBOS_BAD_OUTLET, { 1, UNTOLD } },
    { { { .size = SIZE, .outlet = TOO_LARGE }, { .size = SIZE, .outlet = TOO_LARGE } },
      KALYUBOS_BAD_OUTLET, { 0, UNTOLD } },
    { { { .size = SIZE, .regions = { { 0, PAGE } }, .outlet = TOO_LARGE - 1 },
        { .size = SIZE, .regions = { { 0, PAGE }, { 2 * PAGE, 1 } }, .count = 1ull << 55 } },
      KALYUBOS_BAD_MEMORY_SIZE, { 1, 1 } },
    { { { .size = SIZE, .regions = { { 1, PAGE } } }, { .size = SIZE } },
      KALYUBOS_BAD_MEMORY_BASE, { 0, 0 } },
    { { { .size = SIZE, .regions = { { 0, PAGE }, { 2 * PAGE, PAGE }, { 3 * PAGE, PAGE } } }, { .size = SIZE } },
      KALYUBOS_REGIONS_NOT_APART, { 0, 2 } },
    { { { .size = SIZE, .regions = { { 0, PAGE } } }, { .size = SIZE, .count = 1ull << 55 } },
      KALYUBOS_NO_REGIONS, { 1, UNTOLD } },
    { { { .size = SIZE, .regions = { { 0, PAGE } } }, { .size = SIZE, .regions = { { 0, PAGE } }, .count = 1ull << 55 } },
      KALYUBOS_EXTENT_OUTSIDE, { 1, UNTOLD } },
};
enum { PAIRS_LEN = sizeof PAIRS / sizeof *PAIRS };

/* The same whoever has their disks: bit 0 and bit 1 of `hosts` say that the host serves the first and the second. */
static void check_pairs(void)
{
    for (size_t i = 0; i < PAIRS_LEN; i++)
        for (int hosts = 0; hosts < 4; hosts++) {
            struct kalyubos_slot slots[2];
            memcpy(slots, PAIRS[i].slots, sizeof slots);
            slots[0].hosted = hosts & 1;
            slots[1].hosted = hosts >> 1;
            check(over_image(slots, 2, image, hosts == 3 ? 0 : IMAGE), PAIRS[i].answer, PAIRS[i].place, i);
        }
}

/* ---- two disks: extents are inside the image and share no sector; of one that the host serves `start` isn't read, and of one of
 * the image `depth` isn't */

struct disk {
    bool hosted;
    uint64_t start, count;
    uint32_t depth;
};

static const struct {
    struct disk disks[2];
    uint32_t answer;
    size_t slot;
} DISKS[] = {
    { { { false, 0, 2, 0 }, { false, 2, 2, 0 } }, KALYUBOS_DONE, UNTOLD },
    { { { false, 0, 2, 0 }, { false, 1, 2, 0 } }, KALYUBOS_EXTENTS_OVERLAP, 1 },
    { { { false, 0, 2, 0 }, { true, 1, 2, 0 } }, KALYUBOS_DONE, UNTOLD },
    { { { true, 0, SECTORS, 0 }, { false, 0, SECTORS, 0 } }, KALYUBOS_DONE, UNTOLD },
    { { { true, UINT64_MAX, SECTORS, 0 }, { false, 0, SECTORS, 0 } }, KALYUBOS_DONE, UNTOLD },
    { { { true, 0, (1ull << 55) - 1, 0 }, { false, 0, SECTORS, 0 } }, KALYUBOS_DONE, UNTOLD },
    { { { true, 0, 1ull << 55, 0 }, { false, 1, SECTORS, 0 } }, KALYUBOS_EXTENT_OUTSIDE, 0 },
    { { { true, 1, SECTORS, 0 }, { false, 1, SECTORS, 0 } }, KALYUBOS_EXTENT_OUTSIDE, 1 },
    { { { false, 0, SECTORS + 1, 0 }, { true, 0, 1, 0 } }, KALYUBOS_EXTENT_OUTSIDE, 0 },
    { { { true, 0, SECTORS, 1 }, { true, 0, SECTORS, 64 } }, KALYUBOS_DONE, UNTOLD },
    { { { true, 0, SECTORS, 65 }, { true, 0, SECTORS, 64 } }, KALYUBOS_BAD_DEPTH, 0 },
    { { { true, 0, SECTORS, 2 }, { true, 0, 1ull << 55, 65 } }, KALYUBOS_BAD_DEPTH, 1 },
    { { { true, 0, SECTORS, 2 }, { true, 0, SECTORS, 256 } }, KALYUBOS_BAD_DEPTH, 1 },
    { { { true, 0, SECTORS, 0x10001 }, { true, 0, SECTORS, 1 } }, KALYUBOS_BAD_DEPTH, 0 },
    { { { true, 0, SECTORS, UINT32_MAX }, { false, 0, SECTORS + 1, 0 } }, KALYUBOS_BAD_DEPTH, 0 },
    { { { false, 0, SECTORS + 1, 65 }, { true, 0, SECTORS, 65 } }, KALYUBOS_EXTENT_OUTSIDE, 0 },
    { { { false, 0, SECTORS, 65 }, { true, 0, SECTORS, 0 } }, KALYUBOS_DONE, UNTOLD },
};
enum { DISKS_LEN = sizeof DISKS / sizeof *DISKS };

static void check_disks(void)
{
    for (size_t i = 0; i < DISKS_LEN; i++) {
        struct kalyubos_slot slots[2];
        for (int j = 0; j < 2; j++)
            slots[j] = (struct kalyubos_slot){
                .size = SIZE, .regions = { { 0, PAGE } }, .start = DISKS[i].disks[j].start,
                .count = DISKS[i].disks[j].count, .hosted = DISKS[i].disks[j].hosted,
                .depth = DISKS[i].disks[j].depth,
            };
        check(over_image(slots, 2, image, IMAGE), DISKS[i].answer, (struct place){ DISKS[i].slot, UNTOLD }, i);
    }
}

/* An outlet and the memory are judged before the depth. */
static void check_before_depth(void)
{
    struct kalyubos_slot slot = {
        .size = SIZE, .regions = { { 0, 1 } }, .outlet = TOO_LARGE, .hosted = true, .depth = 65,
    };
    check(over_image(&slot, 1, image, 0), KALYUBOS_BAD_OUTLET, (struct place){ 0, UNTOLD }, 0);
    slot.outlet = 0;
    check(over_image(&slot, 1, image, 0), KALYUBOS_BAD_MEMORY_SIZE, (struct place){ 0, 0 }, 0);
}

/* ---- further devices: a kind that is known and an MTU of 68 or more, up to the first of no kind */

#define CARD_OF(mtu_of_it) { .kind = KALYUBOS_NETWORK, .mtu = mtu_of_it, .mac = { 2, 0, 0, 0, 0, 1 } }
#define DISK_OF(its_sectors, its_depth) { .kind = KALYUBOS_DISK, .sectors = its_sectors, .depth = its_depth }
#define ONLY_ENTROPY { .kind = KALYUBOS_ENTROPY }

static const struct {
    struct kalyubos_device devices[2][KALYUBOS_DEVICES];
    uint32_t answer;
    size_t slot;
} DEVICES[] = {
    { { { CARD_OF(68) }, { ONLY_ENTROPY } }, KALYUBOS_DONE, UNTOLD },
    { { { CARD_OF(67) }, { ONLY_ENTROPY } }, KALYUBOS_BAD_DEVICE, 0 },
    { { { CARD_OF(UINT16_MAX) }, { CARD_OF(0) } }, KALYUBOS_BAD_DEVICE, 1 },
    { { { ONLY_ENTROPY, CARD_OF(67) }, { CARD_OF(67) } }, KALYUBOS_BAD_DEVICE, 0 },
    { { { DISK_OF(0, 0), DISK_OF((1ull << 55) - 1, 64) }, { DISK_OF(1, 1), ONLY_ENTROPY } }, KALYUBOS_DONE, UNTOLD },
    { { { DISK_OF(1ull << 55, 1) }, { ONLY_ENTROPY } }, KALYUBOS_BAD_DEVICE, 0 },
    { { { ONLY_ENTROPY }, { DISK_OF(1, 1), DISK_OF(UINT64_MAX, 1) } }, KALYUBOS_BAD_DEVICE, 1 },
    { { { ONLY_ENTROPY }, { DISK_OF(1, 65) } }, KALYUBOS_BAD_DEVICE, 1 },
    { { { DISK_OF(1, 256) }, { CARD_OF(67) } }, KALYUBOS_BAD_DEVICE, 0 },
    { { { DISK_OF(1, 0x10001) }, { ONLY_ENTROPY } }, KALYUBOS_BAD_DEVICE, 0 },
    { { { DISK_OF(1, UINT32_MAX) }, { ONLY_ENTROPY } }, KALYUBOS_BAD_DEVICE, 0 },
    /* what is of another kind of device isn't read */
    { { { { .kind = KALYUBOS_ENTROPY, .sectors = UINT64_MAX, .depth = 65 } },
        { { .kind = KALYUBOS_NETWORK, .mtu = 68, .sectors = UINT64_MAX, .depth = 65 } } }, KALYUBOS_DONE, UNTOLD },
    { { { { .kind = KALYUBOS_CONSOLE_DEVICE, .mtu = 67, .sectors = UINT64_MAX, .depth = 65 } },
        { { .kind = KALYUBOS_CONSOLE_DEVICE, .cols = UINT16_MAX, .rows = UINT16_MAX } } }, KALYUBOS_DONE, UNTOLD },
    { { { ONLY_ENTROPY }, { ONLY_ENTROPY, { .kind = 6, .mtu = 1500 } } }, KALYUBOS_BAD_DEVICE, 1 },
    { { { { .kind = 5, .mtu = 1500 } }, { { .kind = 5 } } }, KALYUBOS_BAD_DEVICE, 0 },
    { { { { .kind = 0x101, .mtu = 1500 } }, { ONLY_ENTROPY } }, KALYUBOS_BAD_DEVICE, 0 },
    { { { { .kind = UINT32_MAX } }, { ONLY_ENTROPY } }, KALYUBOS_BAD_DEVICE, 0 },
    { { { { .kind = 0, .mtu = 1 }, { .kind = 9 } }, { ONLY_ENTROPY, { .kind = 0 }, CARD_OF(1) } }, KALYUBOS_DONE, UNTOLD },
    { { { CARD_OF(68), CARD_OF(69), CARD_OF(1500), CARD_OF(9000), CARD_OF(65535), ONLY_ENTROPY },
        { ONLY_ENTROPY, ONLY_ENTROPY, ONLY_ENTROPY, ONLY_ENTROPY, ONLY_ENTROPY, ONLY_ENTROPY } }, KALYUBOS_DONE, UNTOLD },
    { { { CARD_OF(68), CARD_OF(69), CARD_OF(1500), CARD_OF(9000), CARD_OF(65535), ONLY_ENTROPY },
        { ONLY_ENTROPY, ONLY_ENTROPY, ONLY_ENTROPY, ONLY_ENTROPY, ONLY_ENTROPY, CARD_OF(67) } }, KALYUBOS_BAD_DEVICE, 1 },
};
enum { DEVICES_LEN = sizeof DEVICES / sizeof *DEVICES };

static void check_devices(void)
{
    for (size_t i = 0; i < DEVICES_LEN; i++) {
        struct kalyubos_slot slots[2];
        for (int j = 0; j < 2; j++) {
            slots[j] = (struct kalyubos_slot){ .size = SIZE, .regions = { { 0, PAGE } } };
            memcpy(slots[j].devices, DEVICES[i].devices[j], sizeof slots[j].devices);
        }
        check(over_image(slots, 2, image, IMAGE), DEVICES[i].answer, (struct place){ DEVICES[i].slot, UNTOLD }, i);
    }
}

/* ---- further disks over the image: of the second slot, which has so many spare sectors */

#define OVER(its_start, its_sectors) { .kind = KALYUBOS_IMAGE_DISK, .start = its_start, .sectors = its_sectors }

static const struct {
    uint64_t spare;
    bool hosted;
    struct kalyubos_device devices[KALYUBOS_DEVICES];
    uint32_t answer;
} EXTENTS[] = {
    { SECTORS, false, { OVER(0, SECTORS) }, KALYUBOS_DONE },
    { SECTORS, false, { OVER(0, 2), OVER(2, 2) }, KALYUBOS_DONE },
    { SECTORS, false, { OVER(3, 1), ONLY_ENTROPY, OVER(1, 1), DISK_OF(SECTORS, 1), OVER(0, 1), OVER(2, 1) }, KALYUBOS_DONE },
    { SECTORS, false, { OVER(0, 0) }, KALYUBOS_BAD_EXTENT },
    { SECTORS, false, { OVER(SECTORS, 0) }, KALYUBOS_BAD_EXTENT },
    { SECTORS, false, { OVER(0, SECTORS + 1) }, KALYUBOS_BAD_EXTENT },
    { SECTORS, false, { OVER(SECTORS, 1) }, KALYUBOS_BAD_EXTENT },
    { SECTORS, false, { OVER(UINT64_MAX, 1) }, KALYUBOS_BAD_EXTENT },
    { SECTORS, false, { OVER(1, UINT64_MAX) }, KALYUBOS_BAD_EXTENT },
    { SECTORS, false, { OVER(UINT64_MAX, UINT64_MAX) }, KALYUBOS_BAD_EXTENT },
    { SECTORS, false, { OVER(0, 2), OVER(1, 1) }, KALYUBOS_BAD_EXTENT },
    { SECTORS, false, { OVER(1, 1), OVER(0, 3) }, KALYUBOS_BAD_EXTENT },
    { SECTORS, false, { OVER(1, 2), ONLY_ENTROPY, OVER(0, 1), OVER(2, 1) }, KALYUBOS_BAD_EXTENT },
    { SECTORS, false, { OVER(0, 1), OVER(0, 1) }, KALYUBOS_BAD_EXTENT },
    { 0, false, { OVER(0, 1) }, KALYUBOS_BAD_EXTENT },
    { SECTORS, true, { OVER(0, 1) }, KALYUBOS_BAD_EXTENT },
    /* of a slot whose disk the host serves the spare sectors aren't read, and of a disk over the image the depth isn't */
    { UINT64_MAX, true, { ONLY_ENTROPY }, KALYUBOS_DONE },
    { SECTORS, false, { { .kind = KALYUBOS_IMAGE_DISK, .sectors = 1, .depth = 65 } }, KALYUBOS_DONE },
    { SECTORS, false, { { .kind = KALYUBOS_ENTROPY, .start = UINT64_MAX }, OVER(0, 1), { .kind = 0 }, OVER(0, 0) }, KALYUBOS_DONE },
    /* what is spare is judged behind the disks */
    { SECTORS + 1, false, { OVER(0, SECTORS + 1) }, KALYUBOS_EXTENT_OUTSIDE },
    { UINT64_MAX, false, { OVER(UINT64_MAX - 1, 1) }, KALYUBOS_EXTENT_OUTSIDE },
    { SECTORS + 1, false, { OVER(0, 0) }, KALYUBOS_BAD_EXTENT },
};
enum { EXTENTS_LEN = sizeof EXTENTS / sizeof *EXTENTS };

static void check_extents(void)
{
    for (size_t i = 0; i < EXTENTS_LEN; i++) {
        struct kalyubos_slot slots[2] = {
            { .size = SIZE, .regions = { { 0, PAGE } } },
            { .size = SIZE, .regions = { { 0, PAGE } }, .spare = EXTENTS[i].spare, .hosted = EXTENTS[i].hosted },
        };
        memcpy(slots[1].devices, EXTENTS[i].devices, sizeof slots[1].devices);
        size_t slot = EXTENTS[i].answer == KALYUBOS_DONE ? UNTOLD : 1;
        check(over_image(slots, 2, image, IMAGE), EXTENTS[i].answer, (struct place){ slot, UNTOLD }, i);
    }
}

/* Two slots share no spare sector, and a spare one is no disk's. */
static void check_spare(void)
{
    static const struct { uint64_t start[2], count[2], spare[2]; uint32_t answer; } ROWS[] = {
        { { 0, 2 }, { 1, 1 }, { 1, 1 }, KALYUBOS_DONE },
        { { 2, 0 }, { 2, 0 }, { 0, 2 }, KALYUBOS_DONE },
        { { 0, 2 }, { 1, 1 }, { 2, 1 }, KALYUBOS_EXTENTS_OVERLAP },
        { { 0, 0 }, { 0, 0 }, { 2, 1 }, KALYUBOS_EXTENTS_OVERLAP },
        { { 3, 0 }, { 1, 1 }, { 0, 3 }, KALYUBOS_EXTENTS_OVERLAP },
        { { 0, 2 }, { 1, 1 }, { 1, 2 }, KALYUBOS_EXTENT_OUTSIDE },
    };
    for (size_t i = 0; i < sizeof ROWS / sizeof *ROWS; i++) {
        struct kalyubos_slot slots[2];
        for (int j = 0; j < 2; j++)
            slots[j] = (struct kalyubos_slot){
                .size = SIZE, .regions = { { 0, PAGE } }, .start = ROWS[i].start[j], .count = ROWS[i].count[j], .spare = ROWS[i].spare[j],
            };
        size_t slot = ROWS[i].answer == KALYUBOS_DONE ? UNTOLD : 1;
        check(over_image(slots, 2, image, IMAGE), ROWS[i].answer, (struct place){ slot, UNTOLD }, i);
    }
}

/* Outlets are judged before further devices, those over the image behind the others, and the memory behind all. */
static void check_beside_devices(void)
{
    struct kalyubos_slot slots[2] = {
        { .size = SIZE, .regions = { { 0, 1 } }, .devices = { CARD_OF(67) } },
        { .size = SIZE, .regions = { { 0, PAGE } }, .outlet = TOO_LARGE },
    };
    check(over_image(slots, 2, image, 0), KALYUBOS_BAD_OUTLET, (struct place){ 1, UNTOLD }, 0);
    slots[1].outlet = 0;
    check(over_image(slots, 2, image, 0), KALYUBOS_BAD_DEVICE, (struct place){ 0, UNTOLD }, 1);
    slots[0].devices[0] = (struct kalyubos_device)OVER(0, 1);
    slots[1].devices[0] = (struct kalyubos_device)CARD_OF(67);
    check(over_image(slots, 2, image, 0), KALYUBOS_BAD_DEVICE, (struct place){ 1, UNTOLD }, 2);
    slots[1].devices[0].mtu = 68;
    check(over_image(slots, 2, image, 0), KALYUBOS_BAD_EXTENT, (struct place){ 0, UNTOLD }, 3);
    slots[0].devices[0].kind = KALYUBOS_ENTROPY;
    check(over_image(slots, 2, image, 0), KALYUBOS_BAD_MEMORY_SIZE, (struct place){ 0, 0 }, 4);
}

/* ---- the config's own fields, of one slot: its size comes before the slot's, loans before the image */

enum { ALL_GOOD = 0, OTHER_SIZE = 1, LARGE_OUTLET = 2, SMALL_REGION = 4, LARGE_DISK = 8 };

static const struct {
    size_t size, loans[2], loans_len, image_len;
    uint32_t cache;
    int slot;
    uint32_t answer;
    struct place place;
} CONFIGS[] = {
    { CONFIG, { 0 }, 0, IMAGE, 1, ALL_GOOD, KALYUBOS_DONE, { UNTOLD, UNTOLD } },
    { CONFIG - 8, { 0 }, 0, IMAGE, 1, ALL_GOOD, KALYUBOS_BAD_SIZE, { UNTOLD, UNTOLD } },
    { CONFIG + 8, { 0 }, 0, IMAGE, 1, ALL_GOOD, KALYUBOS_BAD_SIZE, { UNTOLD, UNTOLD } },
    { 0, { 0 }, 0, IMAGE, 1, OTHER_SIZE, KALYUBOS_BAD_SIZE, { UNTOLD, UNTOLD } },
    { SIZE_MAX, { 0 }, 1, 1, 0, LARGE_OUTLET, KALYUBOS_BAD_SIZE, { UNTOLD, UNTOLD } },
    { CONFIG, { 0 }, 1, 1, 0, OTHER_SIZE, KALYUBOS_BAD_SIZE, { 0, UNTOLD } },
    { CONFIG, { PAGE }, 1, IMAGE, 1, ALL_GOOD, KALYUBOS_DONE, { UNTOLD, UNTOLD } },
    { CONFIG, { PAGE - 1 }, 1, IMAGE, 1, ALL_GOOD, KALYUBOS_BAD_LOAN, { UNTOLD, UNTOLD } },
    { CONFIG, { 2 * PAGE }, 1, IMAGE, 1, ALL_GOOD, KALYUBOS_BAD_LOAN, { UNTOLD, UNTOLD } },
    { CONFIG, { PAGE, 0 }, 2, IMAGE, 1, ALL_GOOD, KALYUBOS_BAD_LOAN, { UNTOLD, UNTOLD } },
    { CONFIG, { PAGE }, 1, 1, 0, SMALL_REGION, KALYUBOS_BAD_LOAN, { UNTOLD, UNTOLD } },
    { CONFIG, { 1 }, 1, IMAGE, 0, SMALL_REGION, KALYUBOS_BAD_MEMORY_SIZE, { 0, 0 } },
    { CONFIG, { PAGE }, 1, 511, 0, LARGE_OUTLET, KALYUBOS_BAD_IMAGE, { UNTOLD, UNTOLD } },
    { CONFIG, { 0 }, 0, IMAGE - 1, 0, LARGE_OUTLET, KALYUBOS_BAD_IMAGE, { UNTOLD, UNTOLD } },
    { CONFIG, { 0 }, 0, IMAGE, 0, LARGE_OUTLET, KALYUBOS_BAD_OUTLET, { 0, UNTOLD } },
    { CONFIG, { 0 }, 0, IMAGE, 0, LARGE_DISK, KALYUBOS_EXTENT_OUTSIDE, { 0, UNTOLD } },
    { CONFIG, { PAGE }, 1, IMAGE, 0, ALL_GOOD, KALYUBOS_BAD_CACHE, { UNTOLD, UNTOLD } },
    { CONFIG, { 0 }, 0, 0, 0, ALL_GOOD, KALYUBOS_BAD_CACHE, { UNTOLD, UNTOLD } },
    { CONFIG, { 0 }, 0, IMAGE, 65536, ALL_GOOD, KALYUBOS_DONE, { UNTOLD, UNTOLD } },
    { CONFIG, { 0 }, 0, IMAGE, 65537, ALL_GOOD, KALYUBOS_BAD_CACHE, { UNTOLD, UNTOLD } },
};
enum { CONFIGS_LEN = sizeof CONFIGS / sizeof *CONFIGS };

static void check_configs(void)
{
    static uint8_t lent[2 * PAGE];
    for (size_t i = 0; i < CONFIGS_LEN; i++) {
        int is = CONFIGS[i].slot;
        struct kalyubos_slot slot = {
            .size = is & OTHER_SIZE ? SIZE - 8 : SIZE, .regions = { { 0, is & SMALL_REGION ? 1 : PAGE } },
            .outlet = is & LARGE_OUTLET ? TOO_LARGE : 0, .count = is & LARGE_DISK ? SECTORS + 1 : 0,
        };
        struct kalyubos_loan loans[2] = { { lent, CONFIGS[i].loans[0] }, { lent, CONFIGS[i].loans[1] } };
        struct kalyubos_config config = over_image(&slot, 1, image, CONFIGS[i].image_len);
        config.size = CONFIGS[i].size;
        config.loans = loans;
        config.loans_len = CONFIGS[i].loans_len;
        config.cache = CONFIGS[i].cache;
        check(config, CONFIGS[i].answer, CONFIGS[i].place, i);
    }
}

int main(void)
{
    check_pairs();
    check_disks();
    check_before_depth();
    check_devices();
    check_extents();
    check_spare();
    check_beside_devices();
    check_configs();
    printf("judged: %d pairs of slots, with disks of either kind, %d pairs of disks, %d of further devices, %d lists of disks over the "
           "image, %d configs; create alike\n", PAIRS_LEN, DISKS_LEN, DEVICES_LEN, EXTENTS_LEN, CONFIGS_LEN);
    return 0;
}
