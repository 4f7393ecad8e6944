/*
 * nbd: a server of NBD as a disk, by libnbd's asynchronous calls. Each queue has a connection for itself. A lost connection fails what is
 * in flight; it is made again, and what comes meanwhile waits for it.
 */
#include <errno.h>
#include <libnbd.h>
#include <poll.h>
#include <stdlib.h>
#include <string.h>
#include <sys/socket.h>
#include <time.h>

#include "say.h"
#include "store.h"

enum { SECTOR = 512 };
enum { COMMANDS = 64 };             /* in flight at most */
enum { LONGEST = 1 << 24 };         /* bytes of one command at most; each server takes 32 MiB (its protocol says so) */
enum { RETRY = 1000, WAIT = 10000 }; /* milliseconds: between two connections, and for which an operation waits for one */

struct nbd {
    struct store store;
    struct nbd_handle *handle;         /* NULL where there is no connection */
    bool is_ready, can_flush, can_fua, can_zero;
    bool watches_read, watches_write;  /* a poll of the ring waits */
    uint64_t generation;               /* of the connection: a poll of an earlier one says nothing */
    uint64_t lost_at, tried_at;        /* milliseconds */
    unsigned sent;                     /* commands in flight */
    uint64_t active;                   /* tags that have been begun and haven't ended */
    struct flight *flights[KALYUBOS_TAGS];
};

static uint64_t milliseconds(void)
{
    struct timespec time;
    clock_gettime(CLOCK_MONOTONIC, &time);
    return (uint64_t)time.tv_sec * 1000 + (uint64_t)time.tv_nsec / 1000000;
}

/* ---- before the first queue */

/* Why a server isn't fit for this disk, or NULL. */
static const char *judge(const struct disk *disk, struct nbd_handle *handle)
{
    int64_t len = nbd_get_size(handle);
    if (len <= 0 || len % SECTOR != 0)
        return "its length isn't one or more sectors of 512 bytes";
    if (nbd_get_block_size(handle, LIBNBD_SIZE_MINIMUM) > SECTOR)
        return "its server takes larger blocks than of 512 bytes";
    if (!disk->read_only && nbd_is_read_only(handle) != 0)
        return "its server refuses writes: give --read-only";
    if (disk->connections > 1 && nbd_can_multi_conn(handle) != 1)
        return "its server doesn't promise that several connections see the same disk: give one socket and --queues 1";
    return NULL;
}

static bool nbd_look(struct disk *disk)
{
    struct nbd_handle *handle = nbd_create();
    bool is_connected = handle != NULL && nbd_connect_uri(handle, disk->path) == 0;
    const char *why = is_connected ? judge(disk, handle) : nbd_get_error();
    if (!is_connected && why == NULL)
        why = "there is no connection";
    if (why != NULL)
        say(disk->path, "%s", why);
    else
        disk->sectors = (uint64_t)nbd_get_size(handle) / SECTOR;
    if (why == NULL && nbd_can_flush(handle) != 1)
        say(disk->path, "its server doesn't flush: what a guest flushed may be lost with it");
    nbd_close(handle);
    return why == NULL;
}

static struct store *nbd_open(void)
{
    struct nbd *nbd = calloc(1, sizeof *nbd);
    return nbd != NULL ? &nbd->store : NULL;
}

/* ---- the connection */

/* Closes it. A poll of the ring holds the socket open, so it is shut down first. */
static void disconnect(struct nbd *nbd)
{
    if (nbd->handle == NULL)
        return;
    int file = nbd_aio_get_fd(nbd->handle);
    if (file >= 0)
        (void)shutdown(file, SHUT_RDWR);
    nbd_close(nbd->handle);
    nbd->handle = NULL;
    nbd->is_ready = nbd->watches_read = nbd->watches_write = false;
    nbd->generation++;
    nbd->sent = 0;
}

static void finish(struct nbd *nbd, struct flight *flight, int error)
{
    nbd->active &= ~((uint64_t)1 << flight->tag);
    nbd->store.ended(nbd->store.user, flight, error);
}

/* Ends each operation of which something was sent, or all. */
static void fail(struct nbd *nbd, bool all, int error)
{
    for (uint64_t left = nbd->active; left != 0; left &= left - 1) {
        struct flight *flight = nbd->flights[__builtin_ctzll(left)];
        if (all || flight->is_begun)
            finish(nbd, flight, error);
    }
}

static void lose(struct nbd *nbd)
{
    if (nbd->is_ready)
        say(nbd->store.disk->path, "the connection is lost, and is made again");
    disconnect(nbd);
    fail(nbd, false, EIO);
}

static void try_connecting(struct nbd *nbd)
{
    nbd->tried_at = milliseconds();
    nbd->handle = nbd_create();
    if (nbd->handle == NULL || nbd_aio_connect_uri(nbd->handle, nbd->store.disk->path) != 0)
        lose(nbd);
}

/* Takes a connection into use once it is made. */
static void look_whether_ready(struct nbd *nbd)
{
    const struct disk *disk = nbd->store.disk;
    if (nbd->is_ready || nbd_aio_is_ready(nbd->handle) != 1)
        return;
    const char *why = judge(disk, nbd->handle);
    if (why == NULL && (uint64_t)nbd_get_size(nbd->handle) / SECTOR != disk->sectors)
        why = "its length has changed";
    if (why != NULL) {
        say(disk->path, "%s", why);
        return lose(nbd);
    }
    nbd->can_flush = nbd_can_flush(nbd->handle) == 1;
    nbd->can_fua = nbd_can_fua(nbd->handle) == 1;
    nbd->can_zero = nbd_can_zero(nbd->handle) == 1;
    nbd->is_ready = true;
    nbd->lost_at = 0;
}

/* Has the ring wait for what the connection waits for. */
static void watch(struct nbd *nbd)
{
    unsigned direction = nbd_aio_get_direction(nbd->handle);
    int file = nbd_aio_get_fd(nbd->handle);
    if ((direction & LIBNBD_AIO_DIRECTION_READ) != 0 && !nbd->watches_read) {
        io_uring_prep_poll_add(ring_next(nbd->store.ring, STORE_RESULTS + 2 * nbd->generation), file, POLLIN);
        nbd->watches_read = true;
    }
    if ((direction & LIBNBD_AIO_DIRECTION_WRITE) != 0 && !nbd->watches_write) {
        io_uring_prep_poll_add(ring_next(nbd->store.ring, STORE_RESULTS + 2 * nbd->generation + 1), file, POLLOUT);
        nbd->watches_write = true;
    }
}

/* ---- commands */

/* A command has ended. Its operation ends in the next turn, since this may be called within the call that sends a command. */
static int command_ended(void *user, int *error)
{
    struct flight *flight = user;
    flight->sent--;
    flight->failed |= *error != 0;
    return 1;
}

static int64_t send_zeros(struct nbd *nbd, struct flight *flight, size_t len, nbd_completion_callback callback, uint32_t flags)
{
    static const uint8_t zeros[1 << 16];
    if (nbd->can_zero)
        return nbd_aio_zero(nbd->handle, len, flight->at, callback, flags | LIBNBD_CMD_FLAG_NO_HOLE);
    return nbd_aio_pwrite(nbd->handle, zeros, len < sizeof zeros ? len : sizeof zeros, flight->at, callback, flags);
}

/* Takes the next part or run, where the one before it is sent. False where there is none. */
static bool take_next(struct flight *flight)
{
    const struct kalyubos_operation *operation = &flight->operation;
    bool is_zeros = operation->kind == KALYUBOS_ZEROES;
    if (flight->left != 0)
        return true;
    if (operation->kind == KALYUBOS_FLUSH || flight->next == operation->runs)
        return false;
    if (is_zeros)
        flight->at = flight->runs[flight->next].at;
    flight->left = flight->runs[flight->next].len;
    flight->next++;
    return true;
}

/* Sends one command of an operation that has one left. */
static void send_command(struct nbd *nbd, struct flight *flight)
{
    const struct kalyubos_operation *operation = &flight->operation;
    nbd_completion_callback callback = { .callback = command_ended, .user_data = flight };
    uint32_t flags = operation->stable && nbd->can_fua ? LIBNBD_CMD_FLAG_FUA : 0;
    size_t len = flight->left < LONGEST ? (size_t)flight->left : LONGEST;
    int64_t sent;
    flight->is_begun = true;
    flight->sent++;
    if (flight->syncs) {
        sent = nbd_aio_flush(nbd->handle, callback, 0);
    } else if (operation->kind == KALYUBOS_ZEROES) {
        len = nbd->can_zero || len < 1 << 16 ? len : 1 << 16;
        sent = send_zeros(nbd, flight, len, callback, flags);
    } else {
        const struct iovec *part = &flight->parts[flight->next - 1];
        uint8_t *bytes = (uint8_t *)part->iov_base + (part->iov_len - flight->left);
        sent = operation->kind == KALYUBOS_IN ? nbd_aio_pread(nbd->handle, bytes, len, flight->at, callback, 0)
                                              : nbd_aio_pwrite(nbd->handle, bytes, len, flight->at, callback, flags);
    }
    flight->at += len;
    flight->left -= flight->syncs ? 0 : len;
    if (sent < 0) {
        flight->sent--;
        flight->failed = true;
    }
}

/* Sends what there is room for, of one operation. Once all of it is done it ends. */
static void go_on(struct nbd *nbd, struct flight *flight)
{
    const struct kalyubos_operation *operation = &flight->operation;
    unsigned before = flight->sent;
    while (!flight->failed && !flight->syncs && nbd->sent + flight->sent - before < COMMANDS && take_next(flight))
        send_command(nbd, flight);
    bool is_all = flight->failed || (flight->left == 0 && (operation->kind == KALYUBOS_FLUSH || flight->next == operation->runs));
    bool wants_sync = nbd->can_flush && (operation->kind == KALYUBOS_FLUSH || (operation->stable && !nbd->can_fua));
    if (is_all && flight->sent == 0 && (flight->failed || flight->syncs || !wants_sync))
        finish(nbd, flight, flight->failed ? EIO : 0);
    else if (is_all && flight->sent == 0) {
        flight->syncs = true;
        send_command(nbd, flight);
    }
}

/* ---- what the queue's thread calls */

static void nbd_begin(struct store *store, struct flight *flight)
{
    struct nbd *nbd = (struct nbd *)store;
    nbd->active |= (uint64_t)1 << flight->tag;
    nbd->flights[flight->tag] = flight;
    flight->left = 0;
}

static void nbd_result(struct store *store, struct flight *flight, const struct io_uring_cqe *result)
{
    struct nbd *nbd = (struct nbd *)store;
    uint64_t number = result->user_data - STORE_RESULTS;
    if (flight != NULL || nbd->handle == NULL || number / 2 != nbd->generation)
        return;
    unsigned direction = nbd_aio_get_direction(nbd->handle);
    if (number % 2 == 0) {
        nbd->watches_read = false;
        if ((direction & LIBNBD_AIO_DIRECTION_READ) != 0)
            (void)nbd_aio_notify_read(nbd->handle);
    } else {
        nbd->watches_write = false;
        if ((direction & LIBNBD_AIO_DIRECTION_WRITE) != 0)
            (void)nbd_aio_notify_write(nbd->handle);
    }
}

/* Sends and ends what it can, until a whole pass sends nothing more: what ends makes room for other commands. */
static void serve(struct nbd *nbd)
{
    nbd->sent = 0;
    for (uint64_t left = nbd->active; left != 0; left &= left - 1)
        nbd->sent += nbd->flights[__builtin_ctzll(left)]->sent;
    for (uint64_t left = nbd->active; left != 0; left &= left - 1) {
        struct flight *flight = nbd->flights[__builtin_ctzll(left)];
        unsigned before = flight->sent;
        go_on(nbd, flight);
        nbd->sent = nbd->sent + flight->sent - before;
    }
}

/* Without a connection: makes one again, and fails what has waited for it too long. */
static int wait_for_connection(struct nbd *nbd)
{
    uint64_t now = milliseconds();
    if (nbd->lost_at == 0)
        nbd->lost_at = now;
    if (now - nbd->lost_at >= WAIT)
        fail(nbd, true, EIO);
    if (nbd->handle == NULL && (nbd->tried_at == 0 || now - nbd->tried_at >= RETRY))
        try_connecting(nbd);
    if (nbd->handle != NULL)
        watch(nbd);
    return RETRY / 4;
}

static int nbd_turn(struct store *store)
{
    struct nbd *nbd = (struct nbd *)store;
    if (nbd->store.is_cancelled)
        return -1;
    if (nbd->handle != NULL && (nbd_aio_is_dead(nbd->handle) == 1 || nbd_aio_is_closed(nbd->handle) == 1))
        lose(nbd);
    if (nbd->handle != NULL)
        look_whether_ready(nbd);
    if (!nbd->is_ready)
        return wait_for_connection(nbd);
    serve(nbd);
    watch(nbd);
    return nbd_aio_is_dead(nbd->handle) == 1 ? 0 : -1;
}

static void nbd_cancel(struct store *store)
{
    struct nbd *nbd = (struct nbd *)store;
    nbd->store.is_cancelled = true;
    disconnect(nbd);
    fail(nbd, true, ECANCELED);
}

static void nbd_shut(struct store *store)
{
    disconnect((struct nbd *)store);
    free(store);
}

const struct store_kind nbd_kind = { nbd_look, nbd_open, nbd_begin, nbd_result, nbd_turn, nbd_cancel, nbd_shut };
