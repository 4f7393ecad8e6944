/*
 * A console over its registers, to copy: it puts texts out, from split rings of a driver that breaks no rule. Put your device in its place.
 *
 *     cc -std=c11 -O2 -o console run.c trace.c console.c
 *     ../run-on --adapter --standard --only output --without guests --without indirect_desc --without ring_packed ./console
 */
#include <stdlib.h>
#include <string.h>

#include "device.h"

enum { DEVICE_FEATURES = 0x10, DEVICE_SEL = 0x14, QUEUE_SEL = 0x30, QUEUE_MAX = 0x34, QUEUE_NUM = 0x38, READY = 0x44, NOTIFY = 0x50,
       INTERRUPTS = 0x60, ACKNOWLEDGE = 0x64, STATUS = 0x70, DESC = 0x80, DRIVER = 0x90, DEVICE = 0xa0, EMERGENCY = 0x108 };

static struct guest guest;
static uint8_t *ram;
/* What the driver wrote to each register, and to those of each queue. */
static uint32_t all[0x100 / 4], queues[2][0x100 / 4];
static uint16_t place;

/* Bytes of the transmit queue's area. */
static uint8_t *area(unsigned which, uint64_t offset)
{
    uint32_t *words = &queues[1][which / 4];
    return ram + (((uint64_t)words[1] << 32 | words[0]) - guest.regions[0].base + offset);
}

static void serve(void)
{
    uint32_t number = queues[1][QUEUE_NUM / 4], used[2] = {0, 0};
    for (uint16_t idx; memcpy(&idx, area(DRIVER, 2), 2), idx != place;) {
        struct { uint64_t at; uint32_t len; uint16_t flags, next; } one = {.flags = 1};
        memcpy(used, area(DRIVER, 4 + place % number * 2), 2);
        for (one.next = (uint16_t)used[0]; one.flags & 1;) {
            memcpy(&one, area(DESC, 16 * one.next), 16);
            if (!(one.flags & 2))
                put_out(0, ram + (one.at - guest.regions[0].base), one.len);
        }
        memcpy(area(DEVICE, 4 + place++ % number * 8), used, 8);
        memcpy(area(DEVICE, 2), &place, 2);
        all[INTERRUPTS / 4] |= !(*area(DRIVER, 0) & 1);
    }
}

static uint32_t read(unsigned of, unsigned window, unsigned offset, unsigned width)
{
    if (of || width != 4 || offset >= 0x100 || window != CONSOLE_WINDOW)
        return 0;
    all[0] = 0x74726976, all[1] = 2, all[2] = 3;
    all[DEVICE_FEATURES / 4] = all[DEVICE_SEL / 4] == 1;
    all[QUEUE_MAX / 4] = all[QUEUE_SEL / 4] < 2 ? 256 : 0;
    all[READY / 4] = all[QUEUE_SEL / 4] < 2 ? queues[all[QUEUE_SEL / 4]][READY / 4] : 0;
    return all[offset / 4];
}

static void write(unsigned of, unsigned window, unsigned offset, unsigned width, uint32_t value)
{
    if (window == CONSOLE_WINDOW && offset == EMERGENCY)
        put_out(of, &(uint8_t){(uint8_t)value}, 1);
    if (of || window != CONSOLE_WINDOW || width != 4 || offset >= 0x100)
        return;
    if (offset == STATUS && !value)
        memset(all, 0, sizeof all), memset(queues, 0, sizeof queues), place = 0;
    else if (offset == ACKNOWLEDGE)
        all[INTERRUPTS / 4] &= ~value;
    else if (offset == NOTIFY && value == 1 && (all[STATUS / 4] & 0xcc) == 12 && queues[1][READY / 4])
        serve();
    else if (all[QUEUE_SEL / 4] < 2 && (offset == QUEUE_NUM || offset == READY || offset >= DESC))
        queues[all[QUEUE_SEL / 4]][offset / 4] = value;
    else
        all[offset / 4] = value;
}

static bool memory(unsigned of, uint64_t address, uint8_t *bytes, size_t len, bool put)
{
    if (of || !is_in_memory(&guest, address, len))
        return false;
    uint8_t *there = ram + (address - guest.regions[0].base);
    memcpy(put ? there : bytes, put ? bytes : there, len);
    return true;
}

static const char *make(const struct setup *setup)
{
    guest = setup->guests[0];
    ram = calloc(1, guest.regions[0].len);
    return ram ? NULL : "BadSize";
}

static size_t input(unsigned of, const uint8_t *bytes, size_t len) { return (void)of, (void)bytes, len; }
static void resize(unsigned of, uint16_t cols, uint16_t rows) { (void)of, (void)cols, (void)rows; }
static void end(void) { free(ram); }

const struct device device = { .read = read, .write = write, .memory = memory, .input = input, .resize = resize, .make = make, .end = end };
