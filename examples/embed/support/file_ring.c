/* The way to the kernel of file_disk.h by io_uring: a ring for each disk, with a place for each tag, and no thread. */
#define _GNU_SOURCE
#include <errno.h>
#include <fcntl.h>
#include <linux/io_uring.h>
#include <stdlib.h>
#include <string.h>
#include <sys/mman.h>
#include <sys/param.h>
#include <sys/syscall.h>
#include <sys/uio.h>
#include <unistd.h>

#include "file_disk.h"

struct ring {
    int file;
    uint8_t *queues;
    size_t queues_len;
    unsigned *sent, *taken, *ended, *sent_places, *order_of_place, *ended_places;
    struct io_uring_sqe *orders; /* one for each tag, or more */
    size_t orders_len;
    struct io_uring_cqe *results;
    unsigned busy;    /* how many steps the kernel works on */
    unsigned unsent;  /* how many stand in the ring that it hasn't been told of */
    bool gathers;     /* it is told of some at once, and of the rest once there is no further result */
    uint64_t refused; /* the tags whose steps it refused then */
    bool knows_file, knows_buffers; /* so it needn't look for them at each step */
    struct {
        bool writes_zeros; /* the file system has no call that zeroes */
        int tries;         /* how often this step was submitted */
    } tags[KALYUBOS_TAGS];
};

/* How often a step is handed over, or submitted again, while the kernel lacks memory for it. */
enum { TRIES = 1000 };

/* How much of each buffer the kernel is told of beforehand, which then stays in memory. */
enum { KNOWN = 1 << 16 };

/* So many steps go to the kernel at once, so that the disk works on them while others are completed. */
enum { AT_ONCE = 8 };

/* Reads into a tag's buffer, or writes out of it. */
static struct io_uring_sqe move(const struct file_disk *disk, uint8_t tag, bool writes)
{
    const struct ring *ring = disk->kept;
    const struct file_flight *flight = &disk->flights[tag];
    struct io_uring_sqe order = {
        .opcode = writes ? IORING_OP_WRITE : IORING_OP_READ, .off = flight->step.at, .addr = (uintptr_t)flight->buffer,
        .len = (uint32_t)flight->step.len,
    };
    if (ring->knows_buffers && flight->step.len <= KNOWN) {
        order.opcode = writes ? IORING_OP_WRITE_FIXED : IORING_OP_READ_FIXED;
        order.buf_index = tag;
    }
    return order;
}

/* The call of the kernel for a tag's step, but for its file. */
static struct io_uring_sqe order_of(const struct file_disk *disk, uint8_t tag)
{
    const struct ring *ring = disk->kept;
    struct file_flight *flight = &disk->flights[tag];
    const struct file_step *step = &flight->step;
    switch (step->kind) {
    case KALYUBOS_IN:
        return move(disk, tag, false);
    case KALYUBOS_FLUSH:
        return (struct io_uring_sqe){ .opcode = IORING_OP_FSYNC, .fsync_flags = IORING_FSYNC_DATASYNC };
    case KALYUBOS_ZEROES:
        if (!ring->tags[tag].writes_zeros)
            return (struct io_uring_sqe){ .opcode = IORING_OP_FALLOCATE, .off = step->at, .addr = step->len,
                                          .len = FALLOC_FL_ZERO_RANGE };
        memset(flight->buffer, 0, step->len);
    }
    return move(disk, tag, true);
}

/* There is a place for each tag. */
static bool submit(struct file_disk *disk, uint8_t tag)
{
    struct ring *ring = disk->kept;
    unsigned sent = *ring->sent;
    struct io_uring_sqe *order = &ring->orders[tag];
    *order = order_of(disk, tag);
    order->user_data = tag;
    order->fd = ring->knows_file ? 0 : disk->file;
    order->flags = ring->knows_file ? IOSQE_FIXED_FILE : 0;
    ring->order_of_place[sent & *ring->sent_places] = tag;
    __atomic_store_n(ring->sent, sent + 1, __ATOMIC_RELEASE);
    ring->unsent++;
    return true;
}

/* Takes the first step back that the kernel hasn't been told of, and answers its tag's bit. */
static uint64_t take_back(struct ring *ring)
{
    unsigned sent = *ring->sent, place = sent - ring->unsent--;
    unsigned tag = ring->order_of_place[place & *ring->sent_places];
    for (; place + 1 != sent; place++)
        ring->order_of_place[place & *ring->sent_places] = ring->order_of_place[(place + 1) & *ring->sent_places];
    __atomic_store_n(ring->sent, sent - 1, __ATOMIC_RELEASE);
    return (uint64_t)1 << tag;
}

/* With one call of the kernel for all steps, unless it takes fewer. */
static uint64_t send_all(struct ring *ring)
{
    uint64_t refused = 0;
    for (int tries = 0; ring->unsent > 0;) {
        long sent = syscall(SYS_io_uring_enter, ring->file, ring->unsent, 0, 0, NULL, 0);
        if (sent > 0) {
            ring->unsent -= (unsigned)sent;
            ring->busy += (unsigned)sent;
        } else if (sent == 0 || (errno != EINTR && errno != EAGAIN) || ++tries == TRIES) {
            refused |= take_back(ring);
        }
    }
    return refused;
}

static uint64_t hand_over(struct file_disk *disk)
{
    struct ring *ring = disk->kept;
    return ring->gathers && ring->unsent < AT_ONCE ? 0 : send_all(ring);
}

/* Whether a tag's step is to be submitted again: it was interrupted, or zeroes have to be written. */
static bool is_again(struct file_disk *disk, uint8_t tag, int32_t result)
{
    struct ring *ring = disk->kept;
    if (result == -EINTR || result == -EAGAIN)
        return ++ring->tags[tag].tries < TRIES;
    if (disk->flights[tag].step.kind != KALYUBOS_ZEROES || ring->tags[tag].writes_zeros || result >= 0)
        return false;
    return ring->tags[tag].writes_zeros = true;
}

/* The next result that the kernel has. */
static bool take(struct ring *ring, uint8_t *tag, int32_t *result)
{
    unsigned taken = *ring->taken;
    if (taken == __atomic_load_n(ring->ended, __ATOMIC_ACQUIRE))
        return false;
    *tag = (uint8_t)ring->results[taken & *ring->ended_places].user_data;
    *result = ring->results[taken & *ring->ended_places].res;
    __atomic_store_n(ring->taken, taken + 1, __ATOMIC_RELEASE);
    ring->busy--;
    return true;
}

/* The next result that isn't to be tried again. */
static bool has_ended(struct file_disk *disk, uint8_t *tag, int32_t *result)
{
    struct ring *ring = disk->kept;
    while (take(ring, tag, result)) {
        if (!is_again(disk, *tag, *result)) {
            ring->tags[*tag].tries = 0;
            return true;
        }
        submit(disk, *tag);
    }
    return false;
}

/* Behind the last result the kernel is told of all steps that were submitted meanwhile. One that it refuses has failed. */
static bool has_result(struct file_disk *disk, uint8_t *tag, int32_t *result)
{
    struct ring *ring = disk->kept;
    ring->gathers = has_ended(disk, tag, result);
    if (!ring->gathers) {
        ring->refused |= send_all(ring);
        if (ring->refused == 0)
            return false;
        *tag = (uint8_t)__builtin_ctzll(ring->refused);
        *result = -EIO;
        ring->refused &= ring->refused - 1;
    }
    const struct file_step *step = &disk->flights[*tag].step;
    if (*result == 0 && step->kind == KALYUBOS_ZEROES && !ring->tags[*tag].writes_zeros)
        *result = (int32_t)step->len;
    return true;
}

static void free_ring(struct ring *ring)
{
    if (ring->queues != MAP_FAILED)
        munmap(ring->queues, ring->queues_len);
    if (ring->orders != MAP_FAILED)
        munmap(ring->orders, ring->orders_len);
    if (ring->file >= 0)
        close(ring->file);
    free(ring);
}

static void *map(const struct ring *ring, size_t len, off_t at)
{
    return mmap(NULL, len, PROT_READ | PROT_WRITE, MAP_SHARED, ring->file, at);
}

/* Where the kernel says that the ring's parts lie. */
static void find_parts(struct ring *ring, const struct io_uring_params *told)
{
    uint8_t *at = ring->queues;
    ring->sent = (unsigned *)(at + told->sq_off.tail);
    ring->sent_places = (unsigned *)(at + told->sq_off.ring_mask);
    ring->order_of_place = (unsigned *)(at + told->sq_off.array);
    ring->taken = (unsigned *)(at + told->cq_off.head);
    ring->ended = (unsigned *)(at + told->cq_off.tail);
    ring->ended_places = (unsigned *)(at + told->cq_off.ring_mask);
    ring->results = (struct io_uring_cqe *)(at + told->cq_off.cqes);
}

/* Tells the kernel of the file and of the buffers. Without it all goes as well. */
static void tell(const struct file_disk *disk, struct ring *ring)
{
    struct iovec known[KALYUBOS_TAGS];
    for (uint8_t tag = 0; tag < disk->depth; tag++)
        known[tag] = (struct iovec){ disk->flights[tag].buffer, KNOWN };
    ring->knows_file = syscall(SYS_io_uring_register, ring->file, IORING_REGISTER_FILES, &disk->file, 1) == 0;
    ring->knows_buffers = syscall(SYS_io_uring_register, ring->file, IORING_REGISTER_BUFFERS, known, disk->depth) == 0;
}

static bool open_ring(struct file_disk *disk)
{
    struct io_uring_params told = { 0 };
    struct ring *ring = malloc(sizeof *ring);
    if (ring == NULL)
        return false;
    *ring = (struct ring){ .queues = MAP_FAILED, .orders = MAP_FAILED };
    ring->file = (int)syscall(SYS_io_uring_setup, disk->depth, &told);
    ring->queues_len = MAX(told.sq_off.array + told.sq_entries * sizeof(unsigned),
                           told.cq_off.cqes + told.cq_entries * sizeof(struct io_uring_cqe));
    ring->orders_len = told.sq_entries * sizeof(struct io_uring_sqe);
    if (ring->file >= 0 && told.features & IORING_FEAT_RW_CUR_POS) {
        ring->queues = map(ring, ring->queues_len, IORING_OFF_SQ_RING);
        ring->orders = map(ring, ring->orders_len, IORING_OFF_SQES);
    }
    if (ring->queues == MAP_FAILED || ring->orders == MAP_FAILED) {
        free_ring(ring);
        return false;
    }
    find_parts(ring, &told);
    tell(disk, ring);
    disk->kept = ring;
    disk->ready = ring->file;
    return true;
}

static bool open_ring_or_threads(struct file_disk *disk)
{
    if (open_ring(disk))
        return true;
    disk->way = &file_thread;
    return file_thread.open(disk);
}

/* The kernel may write into a buffer until its step has ended. */
static void close_ring(struct file_disk *disk)
{
    struct ring *ring = disk->kept;
    uint8_t tag;
    int32_t result;
    while (ring->busy > 0)
        if (!take(ring, &tag, &result))
            syscall(SYS_io_uring_enter, ring->file, 0, 1, IORING_ENTER_GETEVENTS, NULL, 0);
    free_ring(ring);
}

const struct file_way file_ring = { "io_uring", open_ring_or_threads, submit, hand_over, has_result, close_ring };
