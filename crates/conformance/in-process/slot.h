/* slot.h: a guest of a trace as a slot of kalyubos.h. */
#ifndef SLOT_H
#define SLOT_H

#include <string.h>

#include "device.h"
#include "kalyubos.h"

/* A further device; a depth of 0, which no disk of a trace has, is 1 in C. */
static inline struct kalyubos_device device_of(const struct further_device *further)
{
    struct kalyubos_device its = {
        .kind = further->is_disk ? KALYUBOS_DISK : further->is_image_disk ? KALYUBOS_IMAGE_DISK :
                further->is_card ? KALYUBOS_NETWORK : further->is_console ? KALYUBOS_CONSOLE_DEVICE : KALYUBOS_ENTROPY,
        .start = further->place, .cols = further->cols, .rows = further->rows, .mtu = further->mtu, .sectors = further->sectors,
        .read_only = further->read_only, .depth = further->depth,
    };
    memcpy(its.mac, further->mac, sizeof its.mac);
    memcpy(its.identity, further->identity, sizeof its.identity);
    return its;
}

/* A guest with so much room for its console's output. */
static inline struct kalyubos_slot slot_of(const struct guest *guest, uint32_t outlet)
{
    struct kalyubos_slot slot = {
        .size = sizeof slot, .start = guest->start, .count = guest->count, .spare = guest->spare, .cols = guest->cols,
        .rows = guest->rows, .outlet = outlet, .read_only = guest->read_only, .hosted = guest->hosted,
        .depth = guest->hosted && guest->depth == 0 ? UINT32_MAX : guest->depth, /* of C's slots 0 is 1 */
    };
    for (size_t i = 0; i < guest->regions_len; i++)
        slot.regions[i] = (struct kalyubos_region){guest->regions[i].base, guest->regions[i].len};
    memcpy(slot.identity, guest->identity, sizeof slot.identity);
    for (size_t i = 0; i < guest->devices_len; i++)
        slot.devices[i] = device_of(&guest->devices[i]);
    return slot;
}

#endif
