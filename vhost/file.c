/* file: a file or a block device as a disk, by io_uring. Short transfers go on, what O_DIRECT refuses goes by the page cache. */
#include <errno.h>
#include <fcntl.h>
#include <linux/falloc.h>
#include <linux/fs.h>
#include <stdlib.h>
#include <string.h>
#include <sys/file.h>
#include <sys/ioctl.h>
#include <sys/stat.h>
#include <time.h>
#include <unistd.h>

#include "say.h"
#include "store.h"

enum { SECTOR = 512, CANCELS = STORE_RESULTS };

/* ---- opening */

/*
 * Nobody else has a disk that is written to; who only reads may share it. The kernel holds the files of a killed program until its
 * operations have ended, so a lock is tried again for some seconds.
 */
static bool lock(const struct disk *disk, int way)
{
    const struct timespec pause = { .tv_nsec = 20000000 };
    for (unsigned tries = 0; tries < 150; tries++) {
        if (flock(disk->buffered, way | LOCK_NB) == 0)
            return true;
        (void)nanosleep(&pause, NULL);
    }
    say(disk->path, "another program has it");
    return false;
}

static bool measure(struct disk *disk)
{
    struct stat stat;
    uint64_t len = 0;
    if (fstat(disk->buffered, &stat) != 0) {
        say(disk->path, "%s", strerror(errno));
        return false;
    }
    if (S_ISREG(stat.st_mode))
        len = (uint64_t)stat.st_size;
    else if (!S_ISBLK(stat.st_mode) || ioctl(disk->buffered, BLKGETSIZE64, &len) != 0) {
        say(disk->path, "it is neither a file nor a block device");
        return false;
    }
    if (len == 0 || len % SECTOR != 0) {
        say(disk->path, "its length, %llu bytes, isn't one or more sectors of 512 bytes", (unsigned long long)len);
        return false;
    }
    disk->sectors = len / SECTOR;
    return true;
}

static bool file_look(struct disk *disk)
{
    int way = (disk->read_only ? O_RDONLY : O_RDWR) | O_CLOEXEC;
    disk->file = disk->buffered = open(disk->path, way);
    if (disk->buffered >= 0 && disk->direct)
        disk->file = open(disk->path, way | O_DIRECT);
    if (disk->buffered < 0 || disk->file < 0) {
        say(disk->path, "%s", errno == EINVAL && disk->direct ? "it can't be opened with --direct" : strerror(errno));
        return false;
    }
    return measure(disk) && lock(disk, disk->read_only || disk->is_shared ? LOCK_SH : LOCK_EX);
}

static struct store *file_open(void)
{
    return calloc(1, sizeof(struct store));
}

/* ---- one step of an operation */

static void send_transfer(struct io_uring_sqe *entry, const struct flight *flight)
{
    bool is_in = flight->operation.kind == KALYUBOS_IN;
    unsigned len = flight->operation.runs - flight->next;
    const struct iovec *parts = &flight->parts[flight->next];
    if (len == 1 && is_in)
        io_uring_prep_read(entry, flight->file, parts->iov_base, (unsigned)parts->iov_len, flight->at);
    else if (len == 1)
        io_uring_prep_write(entry, flight->file, parts->iov_base, (unsigned)parts->iov_len, flight->at);
    else if (is_in)
        io_uring_prep_readv(entry, flight->file, parts, len, flight->at);
    else
        io_uring_prep_writev(entry, flight->file, parts, len, flight->at);
    if (!is_in && flight->operation.stable)
        entry->rw_flags = RWF_DSYNC;
}

/* Zeros that stay allocated: the driver doesn't say that they may be given up (5.2.6). */
static void send_zeros(struct io_uring_sqe *entry, const struct store *store, const struct flight *flight)
{
    static const uint8_t zeros[1 << 16];
    unsigned len = flight->left < sizeof zeros ? (unsigned)flight->left : (unsigned)sizeof zeros;
    if (flight->writes_zeros)
        io_uring_prep_write(entry, store->disk->buffered, zeros, len, flight->at);
    else
        io_uring_prep_fallocate(entry, store->disk->buffered, FALLOC_FL_ZERO_RANGE | FALLOC_FL_KEEP_SIZE, (off_t)flight->at,
                                (off_t)flight->left);
}

static void send_step(struct store *store, struct flight *flight)
{
    struct io_uring_sqe *entry = ring_next(store->ring, flight->tag);
    if (flight->syncs)
        io_uring_prep_fsync(entry, store->disk->file, IORING_FSYNC_DATASYNC);
    else if (flight->operation.kind == KALYUBOS_ZEROES)
        send_zeros(entry, store, flight);
    else
        send_transfer(entry, flight);
}

/* Takes `len` bytes off the front of what is left. */
static void advance(struct flight *flight, uint64_t len)
{
    flight->at += len;
    flight->left -= len;
    while (len > 0 && flight->operation.kind != KALYUBOS_ZEROES) {
        struct iovec *part = &flight->parts[flight->next];
        if (len < part->iov_len) {
            part->iov_base = (uint8_t *)part->iov_base + len;
            part->iov_len -= len;
            return;
        }
        len -= part->iov_len;
        flight->next++;
    }
}

/* Sends what comes next of an operation, or says that it is done. */
static void go_on(struct store *store, struct flight *flight)
{
    const struct kalyubos_operation *operation = &flight->operation;
    if (operation->kind == KALYUBOS_ZEROES && flight->left == 0 && flight->next < operation->runs) {
        flight->at = flight->runs[flight->next].at;
        flight->left = flight->runs[flight->next].len;
        flight->next++;
    }
    if (flight->left == 0) {
        bool is_done = flight->syncs || (operation->kind != KALYUBOS_FLUSH && !(operation->kind == KALYUBOS_ZEROES && operation->stable));
        if (is_done)
            return store->ended(store->user, flight, 0);
        flight->syncs = true;
    }
    send_step(store, flight);
}

static void file_begin(struct store *store, struct flight *flight)
{
    flight->file = store->disk->file;
    go_on(store, flight);
}

/* Whether a step that failed can be made another way. */
static bool has_other_way(const struct store *store, struct flight *flight, int error)
{
    if (flight->syncs)
        return false;
    if (flight->operation.kind == KALYUBOS_ZEROES && !flight->writes_zeros && (error == EOPNOTSUPP || error == EINVAL || error == ENODEV))
        return flight->writes_zeros = true;
    if (flight->operation.kind != KALYUBOS_ZEROES && error == EINVAL && flight->file != store->disk->buffered) {
        flight->file = store->disk->buffered;
        return true;
    }
    return false;
}

static void file_result(struct store *store, struct flight *flight, const struct io_uring_cqe *result)
{
    int error = result->res < 0 ? -result->res : 0;
    if (flight == NULL)
        return; /* of a cancel */
    if (!store->is_cancelled && (error == EINTR || error == EAGAIN || (error != 0 && has_other_way(store, flight, error))))
        return send_step(store, flight);
    bool moves = !flight->syncs && (flight->operation.kind != KALYUBOS_ZEROES || flight->writes_zeros);
    if (error == 0 && moves && result->res == 0)
        error = EIO; /* the file ends before the disk does */
    if (error != 0)
        return store->ended(store->user, flight, error);
    if (!flight->syncs)
        advance(flight, moves ? (uint64_t)result->res : flight->left);
    go_on(store, flight);
}

static int file_turn(struct store *store)
{
    (void)store;
    return -1;
}

static void file_cancel(struct store *store)
{
    store->is_cancelled = true;
    for (uint64_t tag = 0; tag < KALYUBOS_TAGS; tag++)
        io_uring_prep_cancel64(ring_next(store->ring, CANCELS), tag, 0);
}

static void file_close(struct store *store)
{
    free(store);
}

const struct store_kind file_kind = { file_look, file_open, file_begin, file_result, file_turn, file_cancel, file_close };
