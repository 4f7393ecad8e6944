/* A guest that means ill: it brings its queues up, and writes noise into its rings and registers and over its disks. */
#ifndef NOISE_H
#define NOISE_H

#include <stdint.h>

#include "devices.h"

struct noise {
    uint8_t slot;
    uint64_t state; /* of the numbers at random */
    uint64_t writes;
    unsigned windows;
    struct devices devices;
};

/* Puts noise into a slot of so many windows. */
void noise_open(struct noise *noise, uint8_t slot, unsigned windows);

/* Does so many things at random. */
void noise_run(struct noise *noise, unsigned count);

#endif
