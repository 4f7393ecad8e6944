/* ring: a queue's io_uring, which one thread makes and uses. */
#ifndef RING_H
#define RING_H

#include <liburing.h>
#include <stdbool.h>
#include <stdint.h>

struct ring {
    struct io_uring ring;
    uint64_t enters;
};

/* 0, or the error. */
int ring_open(struct ring *ring);
void ring_close(struct ring *ring);
/* A cleared entry whose result comes with `user_data`. It is sent by the next ring_wait. */
struct io_uring_sqe *ring_next(struct ring *ring, uint64_t user_data);
/* Sends what is unsent, and waits for a result: for so many milliseconds, or for ever where they are negative. */
void ring_wait(struct ring *ring, int milliseconds);
/* The next result, or false. */
bool ring_take(struct ring *ring, struct io_uring_cqe *result);
bool ring_has(struct ring *ring);

#endif
