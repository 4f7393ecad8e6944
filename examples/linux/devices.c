/* The host's part of devices.h. */
#include "devices.h"

#include "chance.h"
#include "switch.h"
#include "words.h"

/*
 * Bytes are supplied by whole buffers of Linux's driver, one or more of them. A device may give fewer, and where it does the driver
 * of 6.1.192 may wait for ever: its copy_data takes what was read off what is left twice.
 */
enum { BUFFER = 64, BUFFERS = 4 };

/*
 * Bytes by chance, as many buffers as chance has it, from a seed of the guest's own, so that its runs stay the same. A host in
 * earnest asks the kernel, by getrandom.
 */
static void supply(struct devices *devices, uint8_t slot)
{
    uint8_t bytes[BUFFERS * BUFFER];
    size_t taken = 1;
    while (taken > 0 && board_starved(slot)) {
        size_t len = (1 + by_chance(&devices->seed) % BUFFERS) * BUFFER;
        for (size_t i = 0; i < len; i++)
            bytes[i] = by_chance(&devices->seed);
        taken = board_supply(slot, bytes, len);
        if (devices->random != NULL && fwrite(bytes, 1, taken, devices->random) != taken)
            fail("the file of random bytes");
    }
}

static void take_frames(uint8_t slot)
{
    static uint8_t frame[BOARD_ANY_FRAME];
    size_t len;
    while ((len = board_take_frame(slot, frame)) > 0)
        switch_send(slot, frame, len);
}

/* ---- the frames that the guest gets */

/* Writes down a frame that was handed in. */
static void keep(struct devices *devices, uint64_t count, const uint8_t *frame, size_t len)
{
    struct devices_frame head = { count, len, 0 };
    if (devices->handed != NULL &&
        (fwrite(&head, sizeof head, 1, devices->handed) != 1 || fwrite(frame, 1, len, devices->handed) != len))
        fail("the file of frames");
}

/* Hands in those of the switch until one isn't taken. */
static void hand_in(struct devices *devices, uint8_t slot, uint64_t count)
{
    const uint8_t *frame;
    size_t len;
    while ((frame = switch_waiting(slot, &len)) != NULL && board_receive(slot, frame, len)) {
        keep(devices, count, frame, len);
        switch_forget(slot);
    }
}

/* The next frame of the file, where there is one. */
static bool read_next(struct devices *devices)
{
    struct devices_frame *next = &devices->next;
    if (!devices->is_waiting && fread(next, sizeof *next, 1, devices->frames) == 1) {
        if (next->len > sizeof devices->bytes || fread(devices->bytes, 1, next->len, devices->frames) != next->len)
            fail("the file of frames");
        devices->is_waiting = true;
    }
    return devices->is_waiting;
}

/* Hands in those of the file whose time has come. */
static void hand_in_again(struct devices *devices, uint8_t slot, uint64_t count)
{
    while (read_next(devices) && devices->next.count <= count && board_receive(slot, devices->bytes, devices->next.len)) {
        keep(devices, count, devices->bytes, devices->next.len);
        devices->is_waiting = false;
    }
}

void devices_serve(struct devices *devices, uint8_t slot, uint64_t count)
{
    supply(devices, slot);
    take_frames(slot);
    if (devices->frames != NULL)
        hand_in_again(devices, slot, count);
    else
        hand_in(devices, slot, count);
}
