/*
 * A host in C, and a guest that is C as well: a little driver that finds its devices, reads a sector over a
 * virtqueue and says hello on the console. A hypervisor has a virtual CPU in the driver's place.
 */
#include <stdio.h>
#include <stdlib.h>
#include <string.h>

#include "kalyubos.h"

static struct kalyubos board;

/* ---- the host: what a guest's loads and stores come to */

static void must(uint32_t answer, const char *what)
{
    if (answer != KALYUBOS_DONE) {
        fprintf(stderr, "%s: %s\n", what, kalyubos_answer(answer));
        exit(1);
    }
}

static uint32_t get(uint8_t window, uint16_t offset)
{
    uint32_t value;
    must(kalyubos_read(&board, 0, window, offset, 4, &value), "read");
    return value;
}

/* The terminal: it takes what the console put out, and tells whether there was any. */
static bool show(void)
{
    uint8_t out[64];
    size_t taken, all = 0;
    do {
        must(kalyubos_take_output(&board, 0, out, sizeof out, &taken), "take_output");
        all += fwrite(out, 1, taken, stdout);
    } while (taken != 0);
    return all != 0;
}

/*
 * A store. Where its service pauses, it goes on at once: a host with more guests would first let them have their turn.
 * Where the console has no room for what comes of it, room is made, and the same store is made again.
 */
static void set(uint8_t window, uint16_t offset, uint32_t value)
{
    struct kalyubos_pending pending;
    uint32_t answer;
    do {
        answer = kalyubos_write(&board, 0, window, offset, 4, value, &pending);
        while (answer == KALYUBOS_MORE)
            answer = kalyubos_go_on(&board, 0, &pending);
    } while (answer == KALYUBOS_NO_ROOM && show());
    must(answer, "write");
}

static void store(uint64_t addr, const void *from, size_t len)
{
    must(kalyubos_write_memory(&board, 0, addr, from, len), "write_memory");
}

static void load(uint64_t addr, void *into, size_t len)
{
    must(kalyubos_read_memory(&board, 0, addr, into, len), "read_memory");
}

/* ---- the guest: where its queues and buffers lie */

static const uint64_t MEMORY = 0x80000000;

enum { OUTLET = 0x8000 /* a chain of Linux's console has 32 KiB at most */ };
enum { CHAINS = 1 /* that a call serves */ };
enum { MEMORY_LEN = 0x10000, TABLE = 0x1000, AVAIL = 0x2000, USED = 0x3000, DATA = 0x4000 };
enum { NEXT = 1, WRITE = 2 };

/* The registers that a driver uses (4.2.2). */
enum {
    MAGIC = 0x000, DEVICE_ID = 0x008, DRIVER_FEATURES = 0x020, DRIVER_FEATURES_SEL = 0x024, QUEUE_SEL = 0x030,
    QUEUE_SIZE = 0x038, QUEUE_READY = 0x044, NOTIFY = 0x050, INTERRUPT_STATUS = 0x060, INTERRUPT_ACK = 0x064,
    STATUS = 0x070, QUEUE_DESC = 0x080, QUEUE_DRIVER = 0x090, QUEUE_DEVICE = 0x0a0
};

/* Where a window's queue lies: each window has 32 KiB of the memory. */
static uint64_t area(uint8_t window)
{
    return MEMORY + (uint64_t)0x8000 * window;
}

static void bring_up(uint8_t window, uint32_t queue)
{
    set(window, STATUS, 0);
    set(window, STATUS, 1);
    set(window, STATUS, 3);
    set(window, DRIVER_FEATURES_SEL, 1);
    set(window, DRIVER_FEATURES, 1); /* VERSION_1 */
    set(window, STATUS, 11);
    set(window, QUEUE_SEL, queue);
    set(window, QUEUE_SIZE, 4);
    set(window, QUEUE_DESC, (uint32_t)area(window) + TABLE);
    set(window, QUEUE_DRIVER, (uint32_t)area(window) + AVAIL);
    set(window, QUEUE_DEVICE, (uint32_t)area(window) + USED);
    set(window, QUEUE_READY, 1);
    set(window, STATUS, 15);
}

/* A descriptor: 16 bytes, little-endian, as this host is. */
struct descriptor {
    uint64_t addr;
    uint32_t len;
    uint16_t flags, next;
};

static void offer(uint8_t window, const struct descriptor *chain, uint16_t count, uint32_t queue)
{
    uint16_t ring[3] = { 0, 1, 0 }; /* flags, idx, the chain's head */
    store(area(window) + TABLE, chain, count * sizeof *chain);
    store(area(window) + AVAIL, ring, sizeof ring);
    set(window, NOTIFY, queue);
}

static void read_sector(uint64_t sector, char *into)
{
    uint64_t data = area(KALYUBOS_BLOCK) + DATA;
    struct { uint32_t type, reserved; uint64_t sector; } header = { 0, 0, sector };
    struct descriptor chain[3] = {
        { data, 16, NEXT, 1 },
        { data + 0x200, 512, NEXT | WRITE, 2 },
        { data + 0x100, 1, WRITE, 0 },
    };
    uint8_t status;
    store(data, &header, sizeof header);
    offer(KALYUBOS_BLOCK, chain, 3, 0);
    load(data + 0x100, &status, 1);
    printf("sector %u: status %u\n", (unsigned)sector, status);
    load(data + 0x200, into, 512);
}

static void say(const char *text)
{
    struct descriptor chain = { area(KALYUBOS_CONSOLE) + DATA, (uint32_t)strlen(text), 0, 0 };
    store(chain.addr, text, chain.len);
    offer(KALYUBOS_CONSOLE, &chain, 1, 1);
}

static void guest(void)
{
    for (uint8_t window = KALYUBOS_BLOCK; window <= KALYUBOS_CONSOLE; window++)
        printf("window %u: magic %08x, device %u\n", window, (unsigned)get(window, MAGIC),
               (unsigned)get(window, DEVICE_ID));
    char text[512];
    bring_up(KALYUBOS_BLOCK, 0);
    read_sector(1, text);
    bring_up(KALYUBOS_CONSOLE, 1);
    say(text);
}

/* ---- the host again */

int main(void)
{
    static uint8_t image[2 * 512];
    strcpy((char *)image + 512, "hello from sector 1\n");
    struct kalyubos_slot slot = {
        .size = sizeof slot, .regions = { { MEMORY, MEMORY_LEN } }, .start = 0, .count = 2, .cols = 80, .rows = 25,
        .outlet = OUTLET, .identity = "a disk of two",
    };
    struct kalyubos_config config = kalyubos_config_of(&slot, 1);
    config.image = image;
    config.image_len = sizeof image;
    config.chains = CHAINS;
    must(kalyubos_create(&board, &config), "create");

    guest();

    uint8_t block, console;
    bool disturbed;
    printf("console: ");
    show();
    must(kalyubos_interrupts(&board, 0, &block, &console), "interrupts");
    must(kalyubos_disturbed(&board, 0, &disturbed), "disturbed");
    printf("interrupts: %u and %u, disturbed: %d\n", block, console, disturbed);
    must(kalyubos_destroy(&board), "destroy");
    return 0;
}
