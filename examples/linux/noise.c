/* The guest of noise.h. */
#include "noise.h"

#include <string.h>

#include "board.h"

enum { QUEUES = 2, AREA = 0x10000, RINGS = 0x3000 /* of an area; the rest is buffers */, REGISTERS = 0x140 };

/* How long a buffer is at most, where there is a network card: so that frames at random mostly are no longer than its MTU. */
enum { LONGEST = 0x10000, LONGEST_OF_CARD = 0x800 };

/* The registers that a driver writes (VIRTIO 1.2, 4.2.2). */
enum {
    DRIVER_FEATURES = 0x020, DRIVER_FEATURES_SEL = 0x024, QUEUE_SEL = 0x030, QUEUE_SIZE = 0x038, QUEUE_READY = 0x044,
    NOTIFY = 0x050, STATUS = 0x070, QUEUE_DESC = 0x080, QUEUE_DRIVER = 0x090, QUEUE_DEVICE = 0x0a0
};

/* xorshift64* */
static uint32_t at_random(struct noise *noise)
{
    noise->state ^= noise->state >> 12;
    noise->state ^= noise->state << 25;
    noise->state ^= noise->state >> 27;
    return noise->state * 0x2545f4914f6cdd1d >> 32;
}

/* Completes an operation of each disk that has ended; whether there was any. */
static bool complete_some(uint8_t slot)
{
    bool any = false;
    for (uint8_t disk = 0; disk < BOARD_DISKS; disk++)
        any = (board_in_flight(slot, disk) != 0 && board_complete(slot, disk, &(uint8_t){ BOARD_ANY }) != KALYUBOS_MORE) || any;
    return any;
}

static void set(struct noise *noise, unsigned window, uint16_t offset, uint32_t value)
{
    uint8_t bytes[4096];
    uint32_t answer;
    noise->writes++;
    do {
        answer = board_write(noise->slot, window, offset, 4, value);
        while (answer == KALYUBOS_MORE)
            answer = board_go_on(noise->slot);
        if (answer == KALYUBOS_BUSY && !complete_some(noise->slot))
            board_wait();
    } while (answer == KALYUBOS_BUSY ||
             (answer == KALYUBOS_NO_ROOM && board_output(noise->slot, bytes, sizeof bytes) > 0));
    while (board_output(noise->slot, bytes, sizeof bytes) > 0)
        continue;
    if (window >= KALYUBOS_DEVICE)
        devices_serve(&noise->devices, noise->slot, noise->writes);
}

/* Brings a window's queues up, split ones or, where `packing` is RING_PACKED (34) of the high word, packed ones. */
static void bring_up(struct noise *noise, unsigned window, uint32_t packing)
{
    set(noise, window, STATUS, 0);
    set(noise, window, STATUS, 3);
    set(noise, window, DRIVER_FEATURES_SEL, 1);
    set(noise, window, DRIVER_FEATURES, 1 | packing); /* VERSION_1 */
    set(noise, window, STATUS, 11);
    for (uint32_t queue = 0; queue < QUEUES; queue++) {
        uint32_t area = MEMORY_BASE + (window * QUEUES + queue) * AREA;
        set(noise, window, QUEUE_SEL, queue);
        set(noise, window, QUEUE_SIZE, 8);
        set(noise, window, QUEUE_DESC, area);
        set(noise, window, QUEUE_DRIVER, area + 0x1000);
        set(noise, window, QUEUE_DEVICE, area + 0x2000);
        set(noise, window, QUEUE_READY, 1);
    }
    set(noise, window, STATUS, 15);
}

static uint8_t *area_of(const struct noise *noise, uint32_t number)
{
    return board_memory(noise->slot)->regions[0].bytes + number * AREA;
}

/* A descriptor at random, whose buffer mostly lies in the memory, somewhere in a ring. */
static void write_noise(struct noise *noise)
{
    uint32_t areas = noise->windows * QUEUES, longest = noise->windows > BOARD_CARD ? LONGEST_OF_CARD : LONGEST;
    uint8_t *area = area_of(noise, at_random(noise) % areas);
    uint32_t fields[4] = { MEMORY_BASE + at_random(noise) % (areas * AREA), 0, at_random(noise) % longest, at_random(noise) };
    memcpy(area + at_random(noise) % 8 * 16, fields, sizeof fields);
    memcpy(area + 0x1000 + at_random(noise) % 24, &fields[3], 2);
    memcpy(area + at_random(noise) % RINGS, &fields[2], 4);
}

static bool is_disk(unsigned window)
{
    return window == KALYUBOS_BLOCK || window >= BOARD_DEVICES;
}

/* A request that gets through where the disk isn't read-only: it writes one byte all over some sectors (5.2.6). */
static void write_sectors(struct noise *noise, unsigned window)
{
    enum { HEADER = RINGS, DATA = HEADER + 0x10, SECTOR = 512, MOST = 8, PLACES = 64, NEXT = 1, WRITE = 2, OUT = 1 };
    uint8_t *area = area_of(noise, window * QUEUES);
    uint64_t place = MEMORY_BASE + window * QUEUES * AREA;
    uint32_t len = (1 + at_random(noise) % MOST) * SECTOR;
    struct { uint64_t addr; uint32_t len; uint16_t flags, next; } chain[] = {
        { place + HEADER, 16, NEXT, 1 }, { place + DATA, len, NEXT, 2 }, { place + DATA + len, 1, WRITE, 0 }
    };
    bring_up(noise, window, 0);
    memcpy(area, chain, sizeof chain);
    memcpy(area + 0x1000, (uint16_t[]){ 0, 1, 0 }, 3 * sizeof(uint16_t));
    memcpy(area + HEADER, (uint32_t[]){ OUT, 0, at_random(noise) % PLACES, 0 }, 4 * sizeof(uint32_t));
    memset(area + DATA, 1 + at_random(noise) % 255, len);
    set(noise, window, NOTIFY, 0);
}

/* Where there is a card its buffers are of ones: what it sends of them goes to all other guests. */
void noise_open(struct noise *noise, uint8_t slot, unsigned windows)
{
    *noise = (struct noise){ .slot = slot, .state = slot + 1, .windows = windows };
    for (uint32_t number = 0; windows > BOARD_CARD && number < windows * QUEUES; number++)
        memset(area_of(noise, number) + RINGS, 0xff, AREA - RINGS);
}

void noise_run(struct noise *noise, unsigned count)
{
    complete_some(noise->slot);
    for (unsigned i = 0; i < count; i++) {
        unsigned window = at_random(noise) % noise->windows, what = at_random(noise) % 16;
        if (what == 0)
            bring_up(noise, window, at_random(noise) & 4);
        else if (what == 1)
            set(noise, window, at_random(noise) % REGISTERS / 4 * 4, at_random(noise));
        else if (what == 2 && is_disk(window))
            write_sectors(noise, window);
        else if (what < 12)
            write_noise(noise);
        else
            set(noise, window, NOTIFY, at_random(noise) % QUEUES);
    }
}
