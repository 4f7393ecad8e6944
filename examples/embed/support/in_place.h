/*
 * A board's image on a file, in place: what guests write to their disks stands in the file at once, so it is there
 * after the host was killed, too. It comes with a heap, so link it where heap.c would be. A process serves one file at
 * a time, in this order:
 *
 *     in_place_open, kalyubos_create over in_place_image, in_place_serve, the calls on the board, kalyubos_destroy,
 *     in_place_close
 *
 * What goes wrong is answered as a sentence about the file, and NULL says that all is well.
 */
#ifndef IN_PLACE_H
#define IN_PLACE_H

#include "kalyubos.h"

/* Opens a file of exactly `len` bytes, and locks it: no other program that asks for the lock has it meanwhile. */
const char *in_place_open(const char *path, size_t len);

/* The file's bytes, for kalyubos_create. They are the host's until in_place_serve. */
const uint8_t *in_place_image(void);

/*
 * Maps the file over the board's image, before the board's first call. kalyubos.h doesn't say where the image lies, so
 * the heap's block of its length is asked first; where it isn't the image, nothing is mapped. A host ends after a fault.
 */
const char *in_place_serve(struct kalyubos *board);

/*
 * Waits until what was written is on the disk below the file. A guest's flush must not end before: call it after each
 * write that notifies a block window, and don't let the guest go on after a fault.
 */
const char *in_place_sync(void);

/* Lets go of the file. */
void in_place_close(void);

#endif
