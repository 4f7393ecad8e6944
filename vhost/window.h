/*
 * window: a guest of the library that runs on, with the queue of a front end as its disk's queue. What a virtio-mmio driver would do
 * is done here, since vhost-user has the virtqueue without a window.
 */
#ifndef WINDOW_H
#define WINDOW_H

#include <stdbool.h>
#include <stdint.h>

#include "disk.h"
#include "mapping.h"

/* InterruptStatus (4.2.2): a used buffer; and the device needs a reset, which this device tells with a changed configuration. */
enum { USED_BUFFER = 1, NEEDS_RESET = 2 };

/* Of the features: version 1 of the standard, and packed rings (6). */
#define FEATURE_VERSION_1 ((uint64_t)1 << 32)
#define FEATURE_RING_PACKED ((uint64_t)1 << 34)

enum { CONFIG_LEN = 64 };

struct window {
    struct kalyubos_guest guest;
    struct kalyubos_pending pending;
};

/* A queue as its driver laid it out, by guest-physical addresses. */
struct layout {
    uint32_t num;
    bool is_packed;
    uint64_t desc, driver, device;
};

/* Makes a guest over a mapping: NULL where it is done, else why not. */
const char *window_make(struct window *window, const struct disk *disk, const struct mapping *mapping);
/* Gives the guest another mapping, while nothing is in flight. The one before is then free: NULL where it is done, else why not. */
const char *window_change_memory(struct window *window, const struct mapping *mapping);
/* Has the library set the mapping's bits of pages that it writes to, or none: NULL where it is done, else why not. */
const char *window_keep_pages(struct window *window, const struct mapping *mapping);
void window_end(struct window *window);
/* What the device offers, its configuration, and how many entries a queue has at most. */
const char *window_shows(const struct disk *disk, uint64_t *features, uint8_t config[CONFIG_LEN], uint32_t *most);
/* Takes the window to DRIVER_OK with these features and this queue: NULL where it is done, else why not. */
const char *window_drive(struct window *window, uint64_t features, const struct layout *layout);
/* Notifies the queue. The answer is the library's, as each below. */
uint32_t window_notify(struct window *window);
/* Acknowledges what `pending` tells: the line is level-triggered, and an eventfd is told once. */
uint32_t window_take_interrupt(struct window *window);

#endif
