/* A window as its driver set it up, by the driver's writes. */
#ifndef WINDOW_H
#define WINDOW_H

#include "queue.h"

enum { WINDOW_QUEUES = 2 };

struct window {
    uint32_t status; /* as the device has it */
    uint32_t features_sel, queue_sel;
    uint64_t features;
    struct queue queues[WINDOW_QUEUES];
    struct chain chains[WINDOW_QUEUES][QUEUE_PLACES + 1]; /* of each queue those that are pending */
    const char *faults[WINDOW_QUEUES]; /* what was wrong with the chain behind them before the call, or NULL */
};

/* Keeps what was written to a register; `ready` is what QueueReady reads after it. */
void window_keep(struct window *window, uint16_t offset, uint32_t value, bool ready);

#endif
