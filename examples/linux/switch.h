/* A switch: the network card of each guest is plugged into the port of its slot. */
#ifndef SWITCH_H
#define SWITCH_H

#include <stddef.h>
#include <stdint.h>

#include "board.h"

void switch_plug(uint8_t port, const uint8_t address[BOARD_ADDRESS]);

/*
 * Takes a frame that the card of a port sent: it goes to the port of the address that it begins with, or to all others where that
 * is a group's. It is lost where no card has that address, where it is longer than the MTU lets it be, and where as many of this
 * sender's wait there as may: so no sender takes another's room.
 */
void switch_send(uint8_t from, const uint8_t *frame, size_t len);

/* The oldest frame that waits for the card of a port, or NULL; switch_forget makes way for the next. */
const uint8_t *switch_waiting(uint8_t port, size_t *len);
void switch_forget(uint8_t port);

/* How many frames the card of a port sent, and how many times one of them was put at another port, or was lost there. */
struct switch_counts {
    uint64_t sent, passed, lost;
};
struct switch_counts switch_counts(uint8_t port);

#endif
