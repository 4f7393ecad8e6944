/*
 * What the devices of two guests did, on a board of either kind. Each number is worked out from what their drivers ask for; those
 * of the first board's guest differ from one another and from the other guest's, and a restore keeps them.
 */
#include <stdio.h>
#include <string.h>

#include "shut_heap.h"

enum { MEMORY_LEN = 0x10000, OUTLET = 16, TABLE = 0x100, AVAILABLE = 0x200, USED = 0x300, QUEUE = 8, NEXT = 1, WRITE = 2 };
enum { NOTIFY = 0x050, STATUS = 0x070, RECEIVE = 0, TRANSMIT = 1, IN = 0, GET_ID = 8, SNAPSHOT = 0x200 };
static const uint64_t MEMORY = 0x80000000;
#define AT(offset) (0x80000000 + (offset))

/* How a descriptor lies in the table (2.7.5). */
struct descriptor {
    uint64_t addr;
    uint32_t len;
    uint16_t flags, next;
};

static const struct descriptor TEXTS[] = { { AT(0x400), 5, 0, 0 }, { AT(0x405), 3, 0, 0 }, { AT(0x408), 3, 0, 0 } };
static const struct descriptor LONG[] = { { AT(0x400), OUTLET + 1, 0, 0 } };
static const struct descriptor ROOM[] = { { AT(0x400), 7, WRITE, 0 } };
static const struct descriptor IDENTITY[] = { { AT(0x400), 16, NEXT, 1 }, { AT(0x800), 20, NEXT | WRITE, 2 }, { AT(0xc00), 1, WRITE, 0 } };
static const struct descriptor SECTOR[] = { { AT(0x400), 16, NEXT, 1 }, { AT(0x800), 512, NEXT | WRITE, 2 }, { AT(0xc00), 1, WRITE, 0 } };

static uint8_t image[1024];
static struct kalyubos_slot slots[] = {
    { .size = sizeof *slots, .regions = { { 0x80000000, MEMORY_LEN } }, .start = 0, .count = 1, .outlet = OUTLET },
    { .size = sizeof *slots, .regions = { { 0x80000000, MEMORY_LEN } }, .start = 1, .count = 1, .outlet = OUTLET },
};
static struct kalyubos board;
static struct kalyubos_pending pending;

static uint32_t set(uint8_t slot, uint8_t window, uint16_t offset, uint32_t value)
{
    return kalyubos_write(&board, slot, window, offset, 4, value, &pending);
}

static void store(uint8_t slot, uint64_t offset, const void *from, size_t len)
{
    need(kalyubos_write_memory(&board, slot, MEMORY + offset, from, len) == KALYUBOS_DONE, "a store to memory", offset);
}

/* Resets a window, and makes its queue of eight ready (3.1.1, 4.2.3.2). */
static void bring_up(uint8_t slot, uint8_t window, uint32_t queue)
{
    const uint32_t steps[][2] = { { STATUS, 0 }, { STATUS, 3 }, { 0x24, 1 }, { 0x20, 1 }, { STATUS, 11 }, { 0x30, queue },
                                  { 0x38, QUEUE }, { 0x80, AT(TABLE) }, { 0x90, AT(AVAILABLE) }, { 0xa0, AT(USED) },
                                  { 0x44, 1 }, { STATUS, 15 } };
    static const uint8_t zeros[0x400];
    store(slot, 0, zeros, sizeof zeros);
    for (size_t i = 0; i < sizeof steps / sizeof *steps; i++)
        need(set(slot, window, (uint16_t)steps[i][0], steps[i][1]) == KALYUBOS_DONE, "a driver's step", i);
}

/* Puts descriptors into the table, and the chains at these heads on offer; `idx` of all chains that ever were. */
static void offer(uint8_t slot, const struct descriptor *table, size_t len, const uint16_t (*heads)[QUEUE], uint16_t idx)
{
    const uint16_t front[] = { 0, idx };
    store(slot, TABLE, table, len);
    store(slot, AVAILABLE + 4, heads, sizeof *heads);
    store(slot, AVAILABLE, front, sizeof front);
}

static void is_counted(uint8_t slot, struct kalyubos_counters wanted, const char *what)
{
    struct kalyubos_counters found;
    need(kalyubos_counters(&board, slot, &found) == KALYUBOS_DONE, "counters", slot);
    need(memcmp(&found, &wanted, sizeof found) == 0, what, slot);
}

/* There is no third guest, and nothing is told of it. */
static void has_two(void)
{
    struct kalyubos_counters found, held;
    memset(&held, 0xaa, sizeof held);
    found = held;
    need(kalyubos_counters(&board, 2, &found) == KALYUBOS_BAD_SLOT, "counters of no slot", 2);
    need(memcmp(&found, &held, sizeof found) == 0, "what is told of no slot", 2);
}

static size_t saved(uint8_t slot, uint8_t *into)
{
    size_t len = 0;
    need(kalyubos_save(&board, slot, into, SNAPSHOT, &len) == KALYUBOS_DONE, "save", slot);
    return len;
}

/* ---- over an image, where a call serves one chain */

static const uint16_t IN_TURN[QUEUE] = { 0, 1, 2 }, ALL_FIRST[QUEUE] = { 0 };
static const struct kalyubos_counters NOTHING = { 0 };

/* Three lines of 11 bytes by one notification: a call for each, of which two pause. Then a line that never fits. */
static void talk(void)
{
    uint8_t text[OUTLET];
    size_t taken;
    bring_up(0, KALYUBOS_CONSOLE, TRANSMIT);
    offer(0, TEXTS, sizeof TEXTS, &IN_TURN, 3);
    need(set(0, KALYUBOS_CONSOLE, NOTIFY, TRANSMIT) == KALYUBOS_MORE, "the first line", 0);
    is_counted(0, (struct kalyubos_counters){ .notifies = 1, .chains = 1, .bytes_out = 5, .pauses = 1 }, "a line");
    need(kalyubos_go_on(&board, 0, &pending) == KALYUBOS_MORE, "the second line", 0);
    need(kalyubos_go_on(&board, 0, &pending) == KALYUBOS_DONE, "the third line", 0);
    is_counted(0, (struct kalyubos_counters){ .notifies = 1, .chains = 3, .bytes_out = 11, .pauses = 2 }, "three lines");
    need(kalyubos_take_output(&board, 0, text, sizeof text, &taken) == KALYUBOS_DONE && taken == 11, "output", taken);
    offer(0, LONG, sizeof LONG, &ALL_FIRST, 4);
    need(set(0, KALYUBOS_CONSOLE, NOTIFY, TRANSMIT) == KALYUBOS_NO_ROOM, "a long line", 0);
}

/* Seven bytes are typed into one buffer, and nobody notifies. */
static void listen(void)
{
    size_t took = 0;
    bring_up(0, KALYUBOS_CONSOLE, RECEIVE);
    offer(0, ROOM, sizeof ROOM, &ALL_FIRST, 1);
    need(kalyubos_input(&board, 0, (const uint8_t *)"counted", 7, &took, &pending) == KALYUBOS_DONE && took == 7, "input", took);
}

/* Three times there are more chains on offer than places (2.7.13), and a service ends as it begins. */
static void fail(void)
{
    for (int i = 0; i < 3; i++) {
        bring_up(0, KALYUBOS_BLOCK, 0);
        offer(0, IDENTITY, sizeof IDENTITY, &ALL_FIRST, QUEUE + 1);
        need(set(0, KALYUBOS_BLOCK, NOTIFY, 0) == KALYUBOS_DONE, "a fault", 0);
    }
}

/* Six requests by one notification, each of 16 bytes out, 20 and a status in: a call for each, of which five pause. */
static void ask(void)
{
    static const uint8_t header[16] = { GET_ID };
    bring_up(1, KALYUBOS_BLOCK, 0);
    store(1, 0x400, header, sizeof header);
    offer(1, IDENTITY, sizeof IDENTITY, &ALL_FIRST, 6);
    need(set(1, KALYUBOS_BLOCK, NOTIFY, 0) == KALYUBOS_MORE, "the first request", 1);
    for (int i = 0; i < 5; i++)
        need(kalyubos_go_on(&board, 1, &pending) == (i < 4 ? KALYUBOS_MORE : KALYUBOS_DONE), "a request", 1);
}

static void check_image(void)
{
    const struct kalyubos_counters both[] = {
        { .notifies = 5, .chains = 4, .bytes_in = 7, .bytes_out = 11, .faults = 3, .refusals = 1, .pauses = 2 },
        { .notifies = 1, .chains = 6, .bytes_in = 6 * 21, .bytes_out = 6 * 16, .pauses = 5 },
    };
    uint8_t before[SNAPSHOT];
    struct kalyubos_config config = over_image(slots, 2, image, sizeof image);
    config.chains = 1;
    make(&board, config);
    size_t len = saved(0, before);
    is_counted(0, NOTHING, "nothing was asked for");
    talk();
    listen();
    is_counted(0, (struct kalyubos_counters){ 2, 4, 7, 11, 0, 1, 2 }, "a console's counters");
    fail();
    is_counted(0, both[0], "the first guest's counters");
    is_counted(1, NOTHING, "the second guest did nothing");
    ask();
    has_two();
    for (uint8_t slot = 0; slot < 2; slot++)
        is_counted(slot, both[slot], "a guest's counters");
    for (uint8_t slot = 0; slot < 2; slot++)
        need(kalyubos_restore(&board, slot, before, len, &pending) == KALYUBOS_DONE, "restore", slot);
    for (uint8_t slot = 0; slot < 2; slot++)
        is_counted(slot, both[slot], "the counters after a restore");
    end(&board);
}

/* ---- over disks that the host serves */

/* So many reads of a sector by one notification, each of 16 bytes out, 512 and a status in, or none of these if it fails. */
static void read_sectors(uint8_t slot, uint8_t window, uint16_t count, bool failed)
{
    static const uint8_t header[16] = { IN };
    bring_up(slot, window, 0);
    store(slot, 0x400, header, sizeof header);
    offer(slot, SECTOR, sizeof SECTOR, &ALL_FIRST, count);
    need(set(slot, window, NOTIFY, 0) == KALYUBOS_IO, "a read", slot);
    for (uint16_t i = 1; i <= count; i++)
        need(kalyubos_completed(&board, slot, window, 0, failed, &pending) == (i < count ? KALYUBOS_IO : KALYUBOS_DONE),
             "a completion", i);
}

static void check_hosted(void)
{
    const struct kalyubos_counters both[] = {
        { .notifies = 1, .chains = 3, .bytes_out = 3 * 16, .refusals = 3 },
        { .notifies = 1, .chains = 2, .bytes_in = 2 * 513, .bytes_out = 2 * 16 },
    };
    uint8_t before[SNAPSHOT];
    slots[0].hosted = slots[1].hosted = true;
    make(&board, kalyubos_config_of(slots, 2));
    size_t len = saved(0, before);
    read_sectors(0, KALYUBOS_BLOCK, 3, true);
    is_counted(1, NOTHING, "the second guest did nothing");
    read_sectors(1, KALYUBOS_BLOCK, 2, false);
    has_two();
    for (uint8_t slot = 0; slot < 2; slot++)
        is_counted(slot, both[slot], "a hosted guest's counters");
    for (uint8_t slot = 0; slot < 2; slot++)
        need(kalyubos_restore(&board, slot, before, len, &pending) == KALYUBOS_DONE, "restore", slot);
    for (uint8_t slot = 0; slot < 2; slot++)
        is_counted(slot, both[slot], "a hosted guest's counters after a restore");
    end(&board);
}

/* Three reads of a further disk fail, as those of the guest's own did, and then two of another are done, which is the last device that
 * a slot may have. */
static void check_further(void)
{
    enum { LAST = KALYUBOS_DEVICES - 1 };
    const struct kalyubos_device disk = { .kind = KALYUBOS_DISK, .sectors = 1, .depth = 1 };
    for (unsigned device = 0; device <= LAST; device++)
        slots[0].devices[device] = disk;
    make(&board, kalyubos_config_of(slots, 1));
    read_sectors(0, KALYUBOS_DEVICE, 3, true);
    is_counted(0, (struct kalyubos_counters){ .notifies = 1, .chains = 3, .bytes_out = 3 * 16, .refusals = 3 },
               "a further disk's failures");
    read_sectors(0, KALYUBOS_DEVICE + LAST, 2, false);
    is_counted(0, (struct kalyubos_counters){ .notifies = 2, .chains = 5, .bytes_in = 2 * 513, .bytes_out = 5 * 16, .refusals = 3 },
               "another further disk's reads");
    end(&board);
}

int main(void)
{
    check_image();
    check_hosted();
    check_further();
    puts("counted: what two guests' devices did, on boards of both kinds, before and after a restore");
    return 0;
}
