/* The disks on a file in place (../embed/support/in_place.h). What goes wrong ends the process with a sentence about the file. */
#ifndef DISK_H
#define DISK_H

#include "kalyubos.h"

/* Opens the file of all disks, one after the other, which must have `len` bytes; the bytes, for the board's image. */
const uint8_t *disk_open(const char *path, size_t len);

/* Serves it from now on, before the board's first call. Without a file this and what follows do nothing. */
void disk_serve(struct kalyubos *board);

/* Waits until what was written is on the disk below the file. */
void disk_sync(void);

/* Lets go of the file, once the board is destroyed. */
void disk_close(void);

#endif
