/*
 * store: where a disk's bytes lie, behind one queue: a file or block device (file.c), or a server of NBD (nbd.c). A queue's thread
 * opens one for itself, hands it operations, and is told of each that it has ended.
 */
#ifndef STORE_H
#define STORE_H

#include <sys/uio.h>

#include "disk.h"
#include "kalyubos.h"
#include "ring.h"

/* An operation of the library, and how far the store has come with it. */
struct flight {
    struct kalyubos_operation operation;
    struct kalyubos_run runs[KALYUBOS_RUNS];
    struct iovec parts[KALYUBOS_RUNS]; /* of an IN or OUT: the guest's memory */
    unsigned tag;
    unsigned next;        /* the part, or the run of zeros, that is next */
    uint64_t at, left;    /* the bytes of the disk that are next, and how many are left of the operation or the run */
    int file;             /* of a file: the descriptor that takes it */
    bool syncs;           /* all is written, and is brought to the medium */
    bool writes_zeros;    /* zeros are written, where the store can't make them */
    unsigned sent;        /* of NBD: how many commands wait for a reply */
    bool is_begun, failed; /* of NBD: one was sent, and one failed */
};

struct store {
    const struct store_kind *kind;
    const struct disk *disk;
    struct ring *ring;
    void (*ended)(void *user, struct flight *flight, int error); /* error is 0, or why it failed, as errno has it */
    void *user;
    bool is_cancelled; /* nothing is tried again */
};

/* Results of the ring with user_data from here on, and those below KALYUBOS_TAGS, are the store's. */
enum { STORE_RESULTS = 4096 };

struct store_kind {
    /* Looks at the disk before the first queue is made: its size, and what it can. It says why it fails. */
    bool (*look)(struct disk *disk);
    /* Makes a store of a queue; NULL where there is no memory. */
    struct store *(*open)(void);
    void (*begin)(struct store *store, struct flight *flight);
    /* Takes a result of the ring. `flight` is that of the tag, or NULL from STORE_RESULTS on. */
    void (*result)(struct store *store, struct flight *flight, const struct io_uring_cqe *result);
    /* What is due in each turn. It answers for how many milliseconds at most the queue may sleep, or -1. */
    int (*turn)(struct store *store);
    /* Ends what is in flight, as far as the store can; each is told as ended. */
    void (*cancel)(struct store *store);
    void (*close)(struct store *store);
};

extern const struct store_kind file_kind, nbd_kind;

#endif
