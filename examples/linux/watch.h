/*
 * Watches guests' calls for what a driver must not do, and for what a device answers to it: a chain that can't be
 * served, a request that ends with an error. Each mistake is told as a line: the trace's line, what it does in words,
 * what is wrong, and the section of VIRTIO 1.2 that says so. Nothing that a guest sees changes.
 */
#ifndef WATCH_H
#define WATCH_H

#include <stdio.h>

#include "kalyubos.h"
#include "window.h"

/*
 * A guest's access to a register; what was typed to its console, or a completion of its disk, which have no register. A
 * completion is of a tag, and its value says whether it failed.
 */
struct watch_call {
    enum { WATCH_READ, WATCH_WRITE, WATCH_INPUT, WATCH_COMPLETION } kind;
    uint8_t slot, window;
    uint16_t offset;
    uint8_t width;
    uint32_t value;
    uint8_t tag;
};

/* Tells the guest's mistakes to a file from now on. */
void watch_guest(uint8_t slot, const struct memory *memory, FILE *told);

/* How many mistakes there were, the untold ones among them: no more than WATCH_TOLD are. */
enum { WATCH_TOLD = 100 };
size_t watch_count(uint8_t slot);

/* What is known of its windows, in their order, to keep beside a guest that is saved. */
struct window *watch_windows(uint8_t slot);

/* What stands before each call of a guest that is watched, and after it; `line` is the trace's line of the call, or 0. */
void watch_before(const struct watch_call *call);
void watch_after(struct kalyubos *board, const struct watch_call *call, size_t line);

#endif
