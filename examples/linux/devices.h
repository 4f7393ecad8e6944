/*
 * What the host does for a guest's further devices: it supplies random bytes where the driver waits for some, takes the frames that
 * it sent, and hands in those that wait in the switch.
 */
#ifndef DEVICES_H
#define DEVICES_H

#include <stdint.h>
#include <stdio.h>

#include "board.h"

/* A frame of a file: what stands before its bytes. */
struct devices_frame {
    uint64_t count; /* of the guest's instructions before it was handed in */
    uint32_t len, unused;
};

struct devices {
    uint64_t seed;   /* of the random bytes */
    FILE *random;    /* the bytes that were supplied, or NULL; and */
    FILE *handed;    /* the frames that were handed in, or NULL */
    FILE *frames;    /* such a file, whose frames are handed in in place of those of the switch; or NULL */
    bool is_waiting; /* the next one of these */
    struct devices_frame next;
    uint8_t bytes[BOARD_FRAME];
};

/* Does all that there is to do: after each write to a window of theirs, and before each turn of the guest, which has run so far. */
void devices_serve(struct devices *devices, uint8_t slot, uint64_t count);

#endif
