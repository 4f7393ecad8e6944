/*
 * What the library answers to kvm.c, for a machine where it isn't built. It is no board: it knows the registers that
 * kvm-guest.S uses, serves a queue's first chain once, and looks at no flag. Where the host serves the disks, a disk's chain is
 * an operation until it is completed. Its outlets are those of the library: a byte
 * that finds no room is refused with KALYUBOS_NO_ROOM, and nothing changes.
 */
#include <stdlib.h>
#include <string.h>

#include "kalyubos.h"

enum { MAGIC = 0x000, DEVICE_ID = 0x008, NOTIFY = 0x050, INTERRUPT_ACK = 0x064, STATUS = 0x070, DESC = 0x080, DEVICE = 0x0a0 };
enum { EMERGENCY = 0x108, GUESTS = 2, PAGE = 0x1000, SECTOR = 512 };

struct window {
    uint32_t status, interrupt, descriptors, used;
};

static struct slot {
    uint8_t *memory; /* from address 0 to the end of the last region */
    uint8_t disk[SECTOR], output[PAGE];
    struct kalyubos_region regions[2];
    size_t outlet, waiting;
    struct window windows[2];
    bool hosted, in_flight;
} guests[GUESTS];

static uint32_t tell(const struct slot *guest, struct kalyubos_pending *pending, uint32_t answer)
{
    *pending = (struct kalyubos_pending){ guest->windows[KALYUBOS_BLOCK].interrupt,
                                          guest->windows[KALYUBOS_CONSOLE].interrupt, guest->waiting };
    return answer;
}

static uint32_t number(const struct slot *guest, uint32_t at)
{
    uint32_t found;
    memcpy(&found, guest->memory + at, sizeof found);
    return found;
}

/* All of the bytes wait behind those that waited, or none. */
static bool put_out(struct slot *guest, const uint8_t *bytes, size_t len)
{
    if (len > guest->outlet - guest->waiting)
        return false;
    memcpy(guest->output + guest->waiting, bytes, len);
    guest->waiting += len;
    return true;
}

/* Descriptor 2 of the disk's chain gets the status OK. */
static uint32_t end_request(struct slot *guest, struct window *disk)
{
    guest->memory[number(guest, disk->descriptors + 32)] = 0;
    guest->memory[disk->used + 2] = 1;
    disk->interrupt = 1;
    return KALYUBOS_DONE;
}

/* Descriptor 1 of the disk's chain gets its sector, by the host where it serves the disk. */
static uint32_t serve_disk(struct slot *guest, struct window *disk)
{
    guest->in_flight = guest->hosted;
    if (guest->hosted)
        return KALYUBOS_IO;
    memcpy(guest->memory + number(guest, disk->descriptors + 16), guest->disk, SECTOR);
    return end_request(guest, disk);
}

/* Both buffers of the console's chain are put out. */
static uint32_t serve_console(struct slot *guest, struct window *console)
{
    uint8_t text[PAGE];
    size_t len = 0;
    for (uint32_t at = console->descriptors; at < console->descriptors + 32; at += 16) {
        memcpy(text + len, guest->memory + number(guest, at), number(guest, at + 8));
        len += number(guest, at + 8);
    }
    if (!put_out(guest, text, len))
        return KALYUBOS_NO_ROOM;
    guest->memory[console->used + 2] = 1;
    console->interrupt = 1;
    return KALYUBOS_DONE;
}

/* Its guests' memory is its own: what is lent it leaves. */
uint32_t kalyubos_create(struct kalyubos *board, struct kalyubos_config *config)
{
    for (size_t i = 0; i < config->slots_len; i++) {
        const struct kalyubos_slot *slot = &config->slots[i];
        size_t len = slot->regions[1].base + slot->regions[1].len;
        guests[i] = (struct slot){ .memory = aligned_alloc(PAGE, len), .outlet = slot->outlet, .hosted = slot->hosted };
        memcpy(guests[i].regions, slot->regions, sizeof guests[i].regions);
        if (guests[i].memory == NULL)
            return KALYUBOS_NO_MEMORY;
        memset(guests[i].memory, 0, len);
        if (!slot->hosted)
            memcpy(guests[i].disk, config->image + slot->start * SECTOR, SECTOR);
    }
    board->at = guests;
    return KALYUBOS_DONE;
}

const char *kalyubos_answer(uint32_t number)
{
    return number == KALYUBOS_DONE ? "done" : "refused";
}

uint32_t kalyubos_destroy(struct kalyubos *board)
{
    for (size_t i = 0; i < GUESTS; i++)
        free(guests[i].memory);
    board->at = NULL;
    return KALYUBOS_DONE;
}

/* It is asked by the base of a region. */
uint32_t kalyubos_memory(struct kalyubos *board, uint8_t slot, uint64_t addr, uint8_t **bytes, size_t *len)
{
    (void)board;
    *bytes = guests[slot].memory + addr;
    *len = guests[slot].regions[addr == guests[slot].regions[1].base].len;
    return KALYUBOS_DONE;
}

uint32_t kalyubos_read_memory(const struct kalyubos *board, uint8_t slot, uint64_t addr, uint8_t *into, size_t into_len)
{
    (void)board;
    memcpy(into, guests[slot].memory + addr, into_len);
    return KALYUBOS_DONE;
}

uint32_t kalyubos_write_memory(struct kalyubos *board, uint8_t slot, uint64_t addr, const uint8_t *from, size_t from_len)
{
    (void)board;
    memcpy(guests[slot].memory + addr, from, from_len);
    return KALYUBOS_DONE;
}

uint32_t kalyubos_read(const struct kalyubos *board, uint8_t slot, uint8_t window, uint16_t offset, uint8_t width,
                       uint32_t *value)
{
    const struct window *found = &guests[slot].windows[window];
    (void)board, (void)width;
    *value = offset == MAGIC       ? 0x74726976
             : offset == DEVICE_ID ? 2u + window
             : offset == STATUS    ? found->status
                                   : found->interrupt;
    return KALYUBOS_DONE;
}

uint32_t kalyubos_write(struct kalyubos *board, uint8_t slot, uint8_t window, uint16_t offset, uint8_t width,
                        uint32_t value, struct kalyubos_pending *pending)
{
    struct slot *guest = &guests[slot];
    struct window *found = &guest->windows[window];
    uint32_t answer = KALYUBOS_DONE;
    (void)board, (void)width;
    if (offset == STATUS)
        found->status = value;
    else if (offset == DESC)
        found->descriptors = value;
    else if (offset == DEVICE)
        found->used = value;
    else if (offset == INTERRUPT_ACK)
        found->interrupt &= ~value;
    else if (offset == NOTIFY)
        answer = window == KALYUBOS_BLOCK ? serve_disk(guest, found) : serve_console(guest, found);
    else if (offset == EMERGENCY && !put_out(guest, &(uint8_t){ value }, 1))
        answer = KALYUBOS_NO_ROOM;
    return tell(guest, pending, answer);
}

/* One operation at a time is in flight, with tag 0. */
uint32_t kalyubos_in_flight(const struct kalyubos *board, uint8_t slot, uint8_t window, uint64_t *tags)
{
    (void)board, (void)window;
    *tags = guests[slot].in_flight;
    return KALYUBOS_DONE;
}

uint32_t kalyubos_operation(const struct kalyubos *board, uint8_t slot, uint8_t window, uint8_t tag,
                            struct kalyubos_operation *operation, struct kalyubos_run *runs, size_t runs_len)
{
    const struct slot *guest = &guests[slot];
    (void)board, (void)window, (void)runs_len;
    if (!guest->in_flight || tag != 0)
        return KALYUBOS_IDLE;
    runs[0] = (struct kalyubos_run){ number(guest, guest->windows[KALYUBOS_BLOCK].descriptors + 16), SECTOR };
    *operation = (struct kalyubos_operation){ KALYUBOS_IN, 1, 0, SECTOR, false };
    return KALYUBOS_DONE;
}

uint32_t kalyubos_completed(struct kalyubos *board, uint8_t slot, uint8_t window, uint8_t tag, bool failed,
                            struct kalyubos_pending *pending)
{
    struct slot *guest = &guests[slot];
    (void)board, (void)window, (void)failed;
    if (!guest->in_flight || tag != 0)
        return tell(guest, pending, KALYUBOS_IDLE);
    guest->in_flight = false;
    return tell(guest, pending, end_request(guest, &guest->windows[KALYUBOS_BLOCK]));
}

/* Nothing of it pauses. */
uint32_t kalyubos_go_on(struct kalyubos *board, uint8_t slot, struct kalyubos_pending *pending)
{
    (void)board;
    return tell(&guests[slot], pending, KALYUBOS_DONE);
}

uint32_t kalyubos_disturbed(const struct kalyubos *board, uint8_t slot, bool *disturbed)
{
    (void)board, (void)slot;
    *disturbed = false;
    return KALYUBOS_DONE;
}

uint32_t kalyubos_take_output(struct kalyubos *board, uint8_t slot, uint8_t *into, size_t into_len, size_t *taken)
{
    struct slot *guest = &guests[slot];
    (void)board;
    *taken = guest->waiting < into_len ? guest->waiting : into_len;
    memcpy(into, guest->output, *taken);
    memmove(guest->output, guest->output + *taken, guest->waiting - *taken);
    guest->waiting -= *taken;
    return KALYUBOS_DONE;
}

/* It has no network cards. */
uint32_t kalyubos_receive(struct kalyubos *board, uint8_t slot, uint8_t window, const uint8_t *frame, size_t frame_len,
                          bool *taken)
{
    (void)board, (void)slot, (void)window, (void)frame, (void)frame_len, (void)taken;
    return KALYUBOS_BAD_WINDOW;
}

uint32_t kalyubos_take_frame(struct kalyubos *board, uint8_t slot, uint8_t window, uint8_t *into, size_t into_len, size_t *len)
{
    (void)board, (void)slot, (void)window, (void)into, (void)into_len, (void)len;
    return KALYUBOS_BAD_WINDOW;
}

uint32_t kalyubos_device_pending(const struct kalyubos *board, uint8_t slot, uint8_t window,
                                 struct kalyubos_device_pending *pending)
{
    (void)board, (void)slot, (void)window, (void)pending;
    return KALYUBOS_BAD_WINDOW;
}
