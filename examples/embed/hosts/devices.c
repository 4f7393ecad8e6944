/*
 * Two guests with further devices: an entropy device, and network cards behind a switch of the host's. Guest 0's driver
 * gets the random bytes that its host has, and sends a frame to guest 1.
 *
 * The guests are C as well: a driver's loads and stores are a CPU's exits.
 */
#include <inttypes.h>
#include <stdio.h>
#include <stdlib.h>
#include <string.h>

#include "kalyubos.h"

enum { GUESTS = 2, MEMORY_LEN = 0x10000, MTU = 1500, ETHERNET = 14, FRAME_LEN = MTU + ETHERNET, RANDOM_LEN = 16 };
enum { ENTROPY = KALYUBOS_DEVICE, CARD = KALYUBOS_DEVICE + 1 }; /* each guest's windows, as its slot lists its devices */
static const uint64_t MEMORY = 0x80000000;
static const uint8_t MACS[GUESTS][6] = { { 2, 0, 0, 0, 0, 0x10 }, { 2, 0, 0, 0, 0, 0x11 } };

static struct kalyubos board;
static uint8_t *memory[GUESTS];

static void need(bool holds, const char *what)
{
    if (!holds) {
        fprintf(stderr, "devices: %s\n", what);
        exit(1);
    }
}

static void done(uint32_t answer, const char *what)
{
    if (answer != KALYUBOS_DONE)
        fprintf(stderr, "devices: %s\n", kalyubos_answer(answer));
    need(answer == KALYUBOS_DONE, what);
}

/* ---- the host */

static struct kalyubos_device_pending pending_of(uint8_t guest, uint8_t window)
{
    struct kalyubos_device_pending pending;
    done(kalyubos_device_pending(&board, guest, window, &pending), "device_pending");
    return pending;
}

/* The switch: hands each frame that a guest's card sent to the card of the address that it begins with. A driver may send longer
 * ones than the MTU allows, up to 65536 bytes. */
static void forward(uint8_t from)
{
    static uint8_t frame[65536];
    size_t len;
    for (;;) {
        done(kalyubos_take_frame(&board, from, CARD, frame, sizeof frame, &len), "take_frame");
        if (len == 0)
            return;
        for (uint8_t to = 0; to < GUESTS; to++) {
            bool taken = false; /* where a card has no room the frame is lost, as on a wire */
            if (to != from && len >= ETHERNET && memcmp(frame, MACS[to], sizeof MACS[to]) == 0)
                done(kalyubos_receive(&board, to, CARD, frame, len, &taken), "receive");
        }
    }
}

/* What the host has at hand for a driver that waits: a real one asks the kernel, by getrandom. */
static void supply(uint8_t guest, const uint8_t *random, size_t len)
{
    size_t taken;
    if (!pending_of(guest, ENTROPY).starved)
        return;
    done(kalyubos_supply(&board, guest, ENTROPY, random, len, &taken), "supply");
    need(taken == len, "the pool has room");
}

/* What a guest's loads and stores come to. Behind each store the frames that were sent go their way. */
static uint32_t load(uint8_t guest, uint8_t window, uint16_t offset)
{
    uint32_t value;
    done(kalyubos_read(&board, guest, window, offset, 4, &value), "a load");
    return value;
}

static void store(uint8_t guest, uint8_t window, uint16_t offset, uint32_t value)
{
    struct kalyubos_pending pending;
    done(kalyubos_write(&board, guest, window, offset, 4, value, &pending), "a store");
    need(pending.block == 0 && pending.console == 0, "the other lines are low");
    if (window == CARD)
        forward(guest);
}

/* ---- the guests: where a queue and its buffer lie, in a part of the memory of its own */

enum { PART = 0x4000, TABLE = 0x0, AVAILABLE = 0x1000, USED = 0x2000, DATA = 0x3000, WRITE = 2 };
enum { QUEUE_SEL = 0x030, NOTIFY = 0x050, INTERRUPT_STATUS = 0x060, INTERRUPT_ACK = 0x064, STATUS = 0x070 };
enum { HEADER = 12 /* before a frame in a chain (5.1.6) */, LINK = 0x104 /* of a card: in the upper half (5.1.4) */ };

/* A queue of a guest's: the part of the memory that it has. The entropy device's is 0, the card's are 1 and 2. */
struct queue {
    uint8_t guest, window;
    uint32_t number;
};

static uint32_t part_of(struct queue queue)
{
    return PART * (queue.window == ENTROPY ? 0 : queue.number + 1);
}

static uint8_t *at(struct queue queue, uint32_t offset)
{
    return memory[queue.guest] + part_of(queue) + offset;
}

/* Brings up a device with so many queues of four (3.1.1, 4.2.3.2). */
static void bring_up(uint8_t guest, uint8_t window, uint32_t queues)
{
    const uint32_t steps[][2] = { { STATUS, 0 }, { STATUS, 1 }, { STATUS, 3 }, { 0x24, 1 }, { 0x20, 1 }, { STATUS, 11 } };
    for (size_t i = 0; i < sizeof steps / sizeof *steps; i++)
        store(guest, window, (uint16_t)steps[i][0], steps[i][1]);
    for (uint32_t number = 0; number < queues; number++) {
        uint32_t base = (uint32_t)MEMORY + part_of((struct queue){ guest, window, number });
        const uint32_t areas[][2] = { { QUEUE_SEL, number }, { 0x38, 4 }, { 0x80, base + TABLE }, { 0x90, base + AVAILABLE },
                                      { 0xa0, base + USED }, { 0x44, 1 } };
        for (size_t i = 0; i < sizeof areas / sizeof *areas; i++)
            store(guest, window, (uint16_t)areas[i][0], areas[i][1]);
    }
    store(guest, window, STATUS, 15);
    printf("guest %d, window %d: device %" PRIu32 " is up\n", guest, window, load(guest, window, 0x008));
}

/* Offers the queue's buffer of so many bytes, for the device to read or to write. */
static void offer(struct queue queue, uint32_t len, uint16_t flags)
{
    const struct { uint64_t addr; uint32_t len; uint16_t flags, next; } buffer = { MEMORY + part_of(queue) + DATA, len, flags, 0 };
    const uint16_t ring[3] = { 0, 1, 0 }; /* flags, idx, the chain's head */
    memcpy(at(queue, TABLE), &buffer, sizeof buffer);
    memcpy(at(queue, AVAILABLE), ring, sizeof ring);
    store(queue.guest, queue.window, NOTIFY, queue.number);
}

/* The length of the queue's one used entry; the driver has seen it, and acknowledges the interrupt. */
static uint32_t used_len(struct queue queue)
{
    uint16_t idx;
    uint32_t entry[2];
    memcpy(&idx, at(queue, USED + 2), sizeof idx);
    memcpy(entry, at(queue, USED + 4), sizeof entry);
    need(idx == 1 && entry[0] == 0, "one chain is used");
    need(pending_of(queue.guest, queue.window).interrupt == 1 && load(queue.guest, queue.window, INTERRUPT_STATUS) == 1,
         "the line is high");
    store(queue.guest, queue.window, INTERRUPT_ACK, 1);
    need(pending_of(queue.guest, queue.window).interrupt == 0, "the line is low again");
    return entry[1];
}

/* ---- what they do */

static void get_random(void)
{
    static const uint8_t random[RANDOM_LEN] = { 0x3f, 0x91, 0x07, 0xc4, 0x5a, 0xe2, 0x18, 0x6d,
                                                0xb0, 0x2c, 0xf7, 0x84, 0x49, 0xdb, 0x66, 0x1e };
    struct queue queue = { 0, ENTROPY, 0 };
    bring_up(0, ENTROPY, 1);
    need(!pending_of(0, ENTROPY).starved, "nothing is on offer");
    offer(queue, RANDOM_LEN, WRITE);
    need(pending_of(0, ENTROPY).starved && pending_of(0, ENTROPY).interrupt == 0, "the driver waits");
    supply(0, random, sizeof random);
    printf("guest 0 gets %" PRIu32 " bytes", used_len(queue));
    need(memcmp(at(queue, DATA), random, sizeof random) == 0, "the bytes of its host");
    printf(" of its host\n");
}

static void send_frame(void)
{
    uint8_t frame[64] = { 0 };
    const uint8_t header[HEADER] = { [10] = 1 }; /* num_buffers is 1 (5.1.6.4) */
    struct queue transmit = { 0, CARD, 1 }, receive = { 1, CARD, 0 };
    memcpy(frame, MACS[1], sizeof MACS[1]);
    memcpy(frame + 6, MACS[0], sizeof MACS[0]);
    memset(frame + 12, 0x88, 2); /* a type */
    for (uint8_t i = ETHERNET; i < sizeof frame; i++)
        frame[i] = i;
    bring_up(0, CARD, 2);
    bring_up(1, CARD, 2);
    offer(receive, HEADER + FRAME_LEN, WRITE);
    need(pending_of(1, CARD).starved, "guest 1 waits for a frame");

    memset(at(transmit, DATA), 0, HEADER);
    memcpy(at(transmit, DATA) + HEADER, frame, sizeof frame);
    offer(transmit, HEADER + sizeof frame, 0);
    need(used_len(transmit) == 0 && pending_of(0, CARD).frame == 0, "the frame is sent and taken");
    printf("guest 0 sends %zu bytes, and guest 1", sizeof frame);
    printf(" gets %" PRIu32 " with a header\n", used_len(receive));
    need(memcmp(at(receive, DATA), header, HEADER) == 0, "the header");
    need(memcmp(at(receive, DATA) + HEADER, frame, sizeof frame) == 0, "the frame's bytes");
}

static void unplug(void)
{
    done(kalyubos_set_link(&board, 1, CARD, false), "set_link");
    need(pending_of(1, CARD).interrupt == 2, "a change of the configuration interrupts (4.2.2)");
    printf("guest 1's link is %s\n", load(1, CARD, LINK) >> 16 & 1 ? "up" : "down");
}

int main(void)
{
    struct kalyubos_slot slots[GUESTS];
    struct kalyubos_config config = kalyubos_config_of(slots, GUESTS);
    size_t len;
    need(kalyubos_version() == KALYUBOS_VERSION, "the library is of another version than the header");
    for (int i = 0; i < GUESTS; i++) {
        slots[i] = (struct kalyubos_slot){
            .size = sizeof *slots, .regions = { { MEMORY, MEMORY_LEN } }, .hosted = true,
            .devices = { { .kind = KALYUBOS_ENTROPY }, { .kind = KALYUBOS_NETWORK, .mtu = MTU } },
        };
        memcpy(slots[i].devices[1].mac, MACS[i], sizeof MACS[i]);
    }
    done(kalyubos_create(&board, &config), "create");
    for (uint8_t i = 0; i < GUESTS; i++)
        done(kalyubos_memory(&board, i, MEMORY, &memory[i], &len), "memory");
    get_random();
    send_frame();
    unplug();
    done(kalyubos_destroy(&board), "destroy");
    return 0;
}
