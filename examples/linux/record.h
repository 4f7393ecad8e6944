/*
 * The library's calls, which also write what guests did as a trace for vreplay (docs/formats.md), and beside it, in
 * FILE.records, what they were answered. A host calls record_read where it would call kalyubos_read, and so on. What
 * changed in a guest's memory between two of its calls, by the CPU or by the host, becomes `mw` lines, and what a device
 * changed in it during a call `mr` lines with the bytes that stand there then. A write that finds no room is made again
 * before any other call for its guest.
 *
 * Where the host serves a disk, a completion is a line, and so are a drop, a hold and a release; each record of the board says
 * which operations began, and what the host read into memory stands as `mw` lines before.
 *
 * One board for the process. Where record_to wasn't called nothing is written, and each call is the library's.
 */
#ifndef RECORD_H
#define RECORD_H

#include "kalyubos.h"

/* Writes to FILE from now on; false where it can't be written. Call it before record_create. */
bool record_to(const char *file);

/* The number of the trace's line that has the last call; 0 where none is written. */
size_t record_line(void);

/* Ends the files; false where not all was written. */
bool record_end(void);

uint32_t record_create(struct kalyubos *board, struct kalyubos_config *config);
uint32_t record_read(struct kalyubos *board, uint8_t slot, uint8_t window, uint16_t offset, uint8_t width,
                     uint32_t *value);
uint32_t record_write(struct kalyubos *board, uint8_t slot, uint8_t window, uint16_t offset, uint8_t width,
                      uint32_t value, struct kalyubos_pending *pending);
uint32_t record_go_on(struct kalyubos *board, uint8_t slot, struct kalyubos_pending *pending);
uint32_t record_completed(struct kalyubos *board, uint8_t slot, uint8_t tag, bool failed,
                          struct kalyubos_pending *pending);
uint32_t record_drop(struct kalyubos *board, uint8_t slot, struct kalyubos_pending *pending);
uint32_t record_hold(struct kalyubos *board, uint8_t slot, struct kalyubos_pending *pending);
uint32_t record_release(struct kalyubos *board, uint8_t slot, struct kalyubos_pending *pending);
uint32_t record_input(struct kalyubos *board, uint8_t slot, const uint8_t *bytes, size_t bytes_len, size_t *took,
                      struct kalyubos_pending *pending);
uint32_t record_resize(struct kalyubos *board, uint8_t slot, uint16_t cols, uint16_t rows,
                       struct kalyubos_pending *pending);
uint32_t record_take_output(struct kalyubos *board, uint8_t slot, uint8_t *into, size_t into_len, size_t *taken);

#endif
