/* ring: the ring's flags, room and waiting. */
#include "ring.h"

#include <errno.h>

enum { ENTRIES = 256 };

int ring_open(struct ring *ring)
{
    ring->enters = 0;
    int error = io_uring_queue_init(ENTRIES, &ring->ring, IORING_SETUP_SINGLE_ISSUER | IORING_SETUP_DEFER_TASKRUN);
    if (error == -EINVAL) /* a kernel before 6.1 */
        error = io_uring_queue_init(ENTRIES, &ring->ring, 0);
    return -error;
}

void ring_close(struct ring *ring)
{
    io_uring_queue_exit(&ring->ring);
}

struct io_uring_sqe *ring_next(struct ring *ring, uint64_t user_data)
{
    struct io_uring_sqe *entry;
    while ((entry = io_uring_get_sqe(&ring->ring)) == NULL)
        (void)io_uring_submit(&ring->ring);
    io_uring_prep_nop(entry);
    entry->user_data = user_data;
    return entry;
}

void ring_wait(struct ring *ring, int milliseconds)
{
    struct io_uring_cqe *first;
    struct __kernel_timespec time = { milliseconds / 1000, milliseconds % 1000 * 1000000LL };
    ring->enters++;
    if (milliseconds == 0 || ring_has(ring))
        (void)io_uring_submit_and_get_events(&ring->ring);
    else if (milliseconds < 0)
        (void)io_uring_submit_and_wait(&ring->ring, 1);
    else
        (void)io_uring_submit_and_wait_timeout(&ring->ring, &first, 1, &time, NULL);
}

bool ring_take(struct ring *ring, struct io_uring_cqe *result)
{
    struct io_uring_cqe *first;
    if (io_uring_peek_cqe(&ring->ring, &first) != 0)
        return false;
    *result = *first;
    io_uring_cqe_seen(&ring->ring, first);
    return true;
}

bool ring_has(struct ring *ring)
{
    return io_uring_cq_ready(&ring->ring) != 0;
}
