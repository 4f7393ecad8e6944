/* disks.h: the disks of a hosted board as parts of the suite's image, whose operations are served at once. */
#ifndef DISKS_H
#define DISKS_H

#include "device.h"
#include "kalyubos.h"

/* Serves the disks of a board that was made of this setup, but those that the trace serves. */
void open_disks(struct kalyubos *board, const struct setup *setup);

/* Goes on behind a call of a window that was answered so, until nothing is in flight of the guest's disk there: its own one, or one
 * over spare sectors. The answer is then DONE for IO. */
uint32_t serve_disk(unsigned guest, unsigned window, uint32_t answer, struct kalyubos_pending *pending);

#endif
