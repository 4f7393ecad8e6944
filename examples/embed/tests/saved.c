/*
 * Snapshots of a slot, byte by byte as crates/snapshot/README.md has them, and each refusal, on boards of both kinds.
 */
#include <stdio.h>
#include <string.h>

#include "shut_heap.h"

enum { MEMORY_LEN = 0x10000, SECTORS = 4, LEN = 258, WITH_QUEUE = LEN + 8 + 2, HELD = 61, HOLD = 0xaa };
enum { NOTIFY = 0x050, STATUS = 0x070 };
static const uint64_t MEMORY = 0x80000000;

/* The description: magic, version, base, length, sectors, read-only, identity, columns and rows; and that the slot isn't held. */
#define DESCRIPTION \
    'K', 'A', 'L', 'Y', 'U', 'B', 'O', 'S', 1, 0, 0, 0, 0, 0, 0, 0x80, 0, 0, 0, 0, 0, 0, 1, 0, 0, 0, 0, 0, \
    SECTORS, 0, 0, 0, 0, 0, 0, 0, 0, 'd', 'i', 's', 'k', '-', 'a', 0, 0, 0, 0, 0, 0, 0, 0, 0, 0, 0, 0, 0, 0, 80, 0, 25, 0, 0

/* What each device offers: VERSION_1, RING_PACKED, NOTIFICATION_DATA, INDIRECT_DESC and EVENT_IDX (28, 29, 32, 34, 38), and
 * SEG_MAX, BLK_SIZE, FLUSH and WRITE_ZEROES (2, 6, 9, 14) of the disk, SIZE and EMERG_WRITE (0, 2) of the console. */
#define BLOCK_OFFERS 0x44, 0x42, 0, 0x30, 0x45, 0, 0, 0
#define CONSOLE_OFFERS 0x05, 0, 0, 0x30, 0x45, 0, 0, 0

/* A window after its offer, as it begins: status, accepted, selectors, two queues, interrupts, generation. */
#define ZEROS_8 0, 0, 0, 0, 0, 0, 0, 0
#define ZEROS_16 ZEROS_8, ZEROS_8
#define QUEUE ZEROS_16, ZEROS_8, 0, 0, 0, 0, 0
#define FRESH 0, ZEROS_8, ZEROS_16, QUEUE, QUEUE, 0, 0, 0, 0, 0

static const uint8_t fresh[LEN] = { DESCRIPTION, BLOCK_OFFERS, FRESH, CONSOLE_OFFERS, FRESH, 0, 0, 0, 0 };

/* A disk that wants a reset, with a queue of 8 at place 3 and both interrupts, and `ls` is pending; nobody saved it. */
static const uint8_t made_up[WITH_QUEUE] = {
    DESCRIPTION, BLOCK_OFFERS,
    0x4f, 0, 0, 0, 0, 1, 0, 0, 0, 2, 0, 0, 0, 1, 0, 0, 0, 1, 0, 0, 0, 5, 0, 0, 0,
    8, 0, 0, 0, 0, 0x10, 0, 0x80, 0, 0, 0, 0, 0, 0x20, 0, 0x80, 0, 0, 0, 0, 0, 0x30, 0, 0x80, 0, 0, 0, 0, 1, 3, 0, 0, 0, 0, 0, 0, 0,
    QUEUE, 3, 0, 0, 0, 0,
    CONSOLE_OFFERS, 0, ZEROS_8, ZEROS_16, QUEUE, QUEUE, 1, 7, 0, 0, 0, 2, 0, 0, 0, 'l', 's',
};

static struct kalyubos board;
static struct kalyubos_slot slot = { .size = sizeof slot, .regions = { { MEMORY, MEMORY_LEN } }, .count = SECTORS,
                                     .cols = 80, .rows = 25, .outlet = 16, .identity = "disk-a" };

/* The slot is saved as these bytes, into buffers of three lengths; a shorter one is left as it was. */
static void is_saved_as(const uint8_t *bytes, size_t count)
{
    uint8_t into[LEN + 16], held[LEN + 16];
    size_t len = 0, written;
    memset(held, HOLD, sizeof held);
    need(kalyubos_saved_len(&board, 0, &len) == KALYUBOS_DONE && len == count, "saved_len", len);
    for (size_t room = count - 1; room <= count + 1; room++) {
        memset(into, HOLD, sizeof into);
        written = HOLD;
        uint32_t answer = kalyubos_save(&board, 0, into, room, &written);
        need(answer == (room < count ? KALYUBOS_SHORT_BUFFER : KALYUBOS_DONE), "save", answer);
        need(written == (room < count ? HOLD : count), "how many bytes were written", written);
        need(memcmp(into, room < count ? held : bytes, count) == 0, "bytes", room);
        need(into[count] == HOLD, "a byte behind the snapshot", room);
    }
}

/* The slot doesn't take these bytes, and stays as it was. */
static void is_refused(const uint8_t *bytes, size_t count, uint32_t number)
{
    struct kalyubos_pending pending = { HOLD, HOLD, HOLD };
    uint32_t answer = kalyubos_restore(&board, 0, bytes, count, &pending);
    need(answer == number, "restore", answer);
    need(pending.block == 3 && pending.console == 1 && pending.output == 0, "what waits", answer);
    is_saved_as(made_up, sizeof made_up);
}

static void check_refusals(void)
{
    static const struct { size_t place; uint8_t byte; uint32_t answer; } rows[] = {
        { 0, 'L', KALYUBOS_BAD_SNAPSHOT },   { 8, 2, KALYUBOS_BAD_SNAPSHOT },    /* magic, version */
        { 36, 2, KALYUBOS_BAD_SNAPSHOT },    { 153, 4, KALYUBOS_BAD_SNAPSHOT },  /* a flag, interrupts */
        { 8, 3, KALYUBOS_BAD_SNAPSHOT },     { 8, 4, KALYUBOS_BAD_SNAPSHOT },    /* without further devices, no version */
        { HELD, 2, KALYUBOS_BAD_SNAPSHOT },                                    /* another flag */
        { 12, 1, KALYUBOS_OTHER_SLOT },      { 22, 2, KALYUBOS_OTHER_SLOT },     /* base, length */
        { 28, 5, KALYUBOS_OTHER_SLOT },      { 36, 1, KALYUBOS_OTHER_SLOT },     /* sectors, read-only */
        { 37, 'D', KALYUBOS_OTHER_SLOT },    { 62, 0x45, KALYUBOS_OTHER_SLOT },  /* identity, an offered feature */
        { 70, 0x10, KALYUBOS_BAD_STATE },    { 70, 8, KALYUBOS_BAD_STATE },      /* a status bit without a name, 8 alone */
        { 154, 1, KALYUBOS_BAD_STATE },      { 157, 0x80, KALYUBOS_BAD_STATE },  /* ConfigGeneration of the disk */
        { 166, 0x20, KALYUBOS_BAD_STATE },                                     /* a status bit of the console */
    };
    uint8_t bytes[LEN + 1];
    for (size_t i = 0; i < sizeof rows / sizeof *rows; i++) {
        memcpy(bytes, fresh, LEN);
        bytes[rows[i].place] = rows[i].byte;
        is_refused(bytes, LEN, rows[i].answer);
    }
    memcpy(bytes, fresh, LEN);
    bytes[12] = 1;
    bytes[70] = 0x10;
    is_refused(bytes, LEN, KALYUBOS_OTHER_SLOT); /* the description is judged before the state */
    memcpy(bytes, fresh, LEN);
    bytes[LEN] = 0;
    is_refused(bytes, LEN + 1, KALYUBOS_BAD_SNAPSHOT);
    for (size_t count = 0; count < LEN; count++)
        is_refused(fresh, count, KALYUBOS_BAD_SNAPSHOT);
}

/* No board, and no such slot. */
static void check_missing(uint8_t number, uint32_t answer)
{
    struct kalyubos_pending pending = { HOLD, HOLD, HOLD };
    uint8_t into[LEN];
    size_t len = HOLD;
    memset(into, HOLD, LEN);
    need(kalyubos_saved_len(&board, number, &len) == answer, "saved_len of none", number);
    need(kalyubos_save(&board, number, into, LEN, &len) == answer, "save of none", number);
    need(kalyubos_restore(&board, number, fresh, LEN, &pending) == answer, "restore of none", number);
    need(kalyubos_drop(&board, number, KALYUBOS_BLOCK, &pending) == answer, "drop of none", number);
    need(kalyubos_hold(&board, number, KALYUBOS_BLOCK, &pending) == answer, "hold of none", number);
    need(kalyubos_release(&board, number, KALYUBOS_BLOCK, &pending) == answer, "release of none", number);
    need(len == HOLD && into[0] == HOLD && memcmp(into, into + 1, LEN - 1) == 0, "what is told", number);
    need(pending.block == HOLD && pending.console == HOLD && pending.output == HOLD, "what waits", number);
}

static void put(uint64_t at, uint64_t low, uint64_t high)
{
    uint64_t bytes[2] = { low, high };
    need(kalyubos_write_memory(&board, 0, MEMORY + at, (const uint8_t *)bytes, 16) == KALYUBOS_DONE, "write_memory", at);
}

/* Two reads of a sector are on offer: of the first the service pauses, or its disk waits for the host. */
static void check_busy(uint32_t first)
{
    static const uint32_t writes[][2] = {
        { STATUS, 0 }, { STATUS, 3 }, { 0x024, 1 }, { 0x020, 1 }, { STATUS, 11 }, { 0x030, 0 }, { 0x038, 4 },
        { 0x080, 0x80001000 }, { 0x090, 0x80002000 }, { 0x0a0, 0x80003000 }, { 0x044, 1 }, { STATUS, 15 },
    };
    struct kalyubos_pending pending;
    uint8_t into[LEN + 16];
    size_t len;
    for (size_t i = 0; i < sizeof writes / sizeof *writes; i++) {
        uint16_t offset = (uint16_t)writes[i][0];
        need(kalyubos_write(&board, 0, KALYUBOS_BLOCK, offset, 4, writes[i][1], &pending) == KALYUBOS_DONE, "write", offset);
    }
    put(0x1000, MEMORY + 0x4000, 16 | 1ull << 32 | 1ull << 48);
    put(0x1010, MEMORY + 0x5000, 512 | 3ull << 32 | 2ull << 48);
    put(0x1020, MEMORY + 0x6000, 1 | 2ull << 32);
    put(0x2000, 2ull << 16, 0);
    put(0x4000, 0, 0);
    need(kalyubos_write(&board, 0, KALYUBOS_BLOCK, NOTIFY, 4, 0, &pending) == first, "notify", first);
    need(kalyubos_saved_len(&board, 0, &len) == KALYUBOS_BUSY, "saved_len", first);
    need(kalyubos_save(&board, 0, into, sizeof into, &len) == KALYUBOS_BUSY, "save", first);
    need(kalyubos_restore(&board, 0, fresh, LEN, &pending) == KALYUBOS_BUSY, "restore", first);
    uint32_t answer = first;
    while (answer == first)
        answer = first == KALYUBOS_MORE ? kalyubos_go_on(&board, 0, &pending)
                                        : kalyubos_completed(&board, 0, KALYUBOS_BLOCK, 0, false, &pending);
    need(answer == KALYUBOS_DONE && kalyubos_saved_len(&board, 0, &len) == KALYUBOS_DONE, "the end of the service", answer);
}

/* A snapshot of a held slot is for slots whose disk the host serves; such a one is then held, and saved as held, until its release. */
static void check_held(bool hosted)
{
    struct kalyubos_pending pending;
    uint8_t bytes[WITH_QUEUE];
    memcpy(bytes, made_up, sizeof bytes);
    bytes[HELD] = 1;
    if (!hosted) {
        is_refused(bytes, sizeof bytes, KALYUBOS_OTHER_SLOT);
        return;
    }
    need(kalyubos_restore(&board, 0, bytes, sizeof bytes, &pending) == KALYUBOS_DONE, "restore of a held slot", 0);
    is_saved_as(bytes, sizeof bytes);
    need(kalyubos_hold(&board, 0, KALYUBOS_BLOCK, &pending) == KALYUBOS_IDLE, "hold", 0);
    need(kalyubos_release(&board, 0, KALYUBOS_BLOCK, &pending) == KALYUBOS_DONE, "release", 0);
    is_saved_as(made_up, sizeof made_up);
    need(kalyubos_hold(&board, 0, KALYUBOS_BLOCK, &pending) == KALYUBOS_DONE, "hold", 0);
    is_saved_as(bytes, sizeof bytes);
    need(kalyubos_restore(&board, 0, made_up, sizeof made_up, &pending) == KALYUBOS_DONE, "restore", 0);
    need(kalyubos_release(&board, 0, KALYUBOS_BLOCK, &pending) == KALYUBOS_IDLE, "release", 0);
}

static void check_board(uint32_t busy)
{
    struct kalyubos_pending pending;
    is_saved_as(fresh, sizeof fresh);
    need(kalyubos_restore(&board, 0, made_up, sizeof made_up, &pending) == KALYUBOS_DONE, "restore", busy);
    need(pending.block == 3 && pending.console == 1 && pending.output == 0, "what waits", pending.block);
    is_saved_as(made_up, sizeof made_up);
    check_held(busy == KALYUBOS_IO);
    check_refusals();
    check_missing(1, KALYUBOS_BAD_SLOT);
    check_busy(busy);
    end(&board);
}

int main(void)
{
    static const uint8_t image[SECTORS * 512];
    check_missing(0, KALYUBOS_NO_BOARD);
    struct kalyubos_config config = over_image(&slot, 1, image, sizeof image);
    config.chains = 1;
    make(&board, config);
    check_board(KALYUBOS_MORE);
    slot.hosted = true;
    make(&board, kalyubos_config_of(&slot, 1));
    check_board(KALYUBOS_IO);
    printf("saved: snapshots as they are written down, and each refusal, on both kinds of board\n");
    return 0;
}
