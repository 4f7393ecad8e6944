/*
 * file_disk: guests' disks on files, for boards whose disks the host serves. To copy, with file_disk.c; file_ring.c beside
 * it has io_uring in the place of threads.
 *
 * Each disk has as many threads as its depth, and a thread calls the kernel for one operation at a time. Disks share
 * nothing, and no call here waits for a file.
 *
 * What orders the calls on a guest's handle orders those of its disk too, and during them no CPU of the guest runs. Each
 * operation's bytes go through a buffer of the disk's own, and between it and the guest's memory within these calls alone.
 * So while the kernel works, the guest's CPUs run and their exits are served.
 */
#ifndef FILE_DISK_H
#define FILE_DISK_H

#include "kalyubos.h"

/* How many bytes a call of the kernel moves at most, and at what multiples of an address they lie. */
enum { FILE_BUFFER = 1 << 20, FILE_ALIGN = 4096 };

/* A step of an operation, one call of the kernel: `len` bytes at `at` of the disk, to or from its buffer, or to zeroes. */
struct file_step {
    uint32_t kind; /* KALYUBOS_IN, _OUT, _FLUSH or _ZEROES */
    uint64_t at, len;
};

/* The operation of a tag. */
struct file_flight {
    struct kalyubos_operation asked;
    struct kalyubos_run runs[KALYUBOS_RUNS];
    uint64_t len, done; /* how many bytes all runs have, and how many of them are done */
    bool unsynced;      /* a sync is wanted at the end */
    struct file_step step;
    _Alignas(FILE_ALIGN) uint8_t buffer[FILE_BUFFER]; /* so that the file may bypass the page cache */
};

struct file_disk {
    int ready; /* can be read, as poll tells, once a step has ended */
    int file;
    struct kalyubos *board;
    uint8_t slot, window, depth;
    uint64_t begun;              /* bit n: the operation of tag n is begun, and hasn't ended */
    uint64_t refused;            /* those of them that the kernel hasn't taken */
    struct file_flight *flights; /* one for each tag */

    const struct file_way *way;
    void *kept; /* by the way */
};

/* A way to the kernel. */
struct file_way {
    const char *name;
    bool (*open)(struct file_disk *disk);                /* sets `ready` */
    bool (*submit)(struct file_disk *disk, uint8_t tag); /* false where the kernel hasn't taken the tag's step */
    uint64_t (*hand_over)(struct file_disk *disk);       /* what was submitted, at once: the tags that aren't taken; or NULL */
    bool (*has_result)(struct file_disk *disk, uint8_t *tag, int32_t *result); /* of a step, once: bytes done, or below 0 */
    void (*close)(struct file_disk *disk); /* behind the end of all steps that the kernel works on */
};
extern const struct file_way file_thread; /* of file_disk.c */
extern const struct file_way file_ring;   /* of file_ring.c: io_uring, or threads where that isn't to be had. A thread that
                                           * begins steps lives until their end. */

/* Serves a disk of a slot, its own (KALYUBOS_BLOCK) or a further device's, from a file of at least `len` bytes, which is opened
 * for reading alone for a disk that is read-only. `depth` is the disk's, of which 0 is 1. Answers NULL, or what is wrong; then
 * nothing is left open. */
const char *file_disk_open(struct file_disk *disk, struct kalyubos *board, uint8_t slot, uint8_t window, uint32_t depth,
                           const char *path, uint64_t len, bool read_only, const struct file_way *way);

/* Closes what was opened. It waits for the steps that the kernel works on; their operations are never completed. A host that
 * gives up its disk's operations calls kalyubos_drop behind it, and opens the disk anew. */
void file_disk_close(struct file_disk *disk);

/* Begins all operations that aren't begun: after each call that is answered KALYUBOS_IO. False where the kernel doesn't take
 * one: then file_disk_go_on tells at once that it has failed, and `ready` doesn't. Between two calls of file_disk_go_on steps
 * may be gathered until that is false. */
bool file_disk_begin(struct file_disk *disk);

/* Goes on where `ready` can be read: true once an operation has ended, to be completed at once with its tag and as `failed` says.
 * Call it until it is false: others may have ended too. While a service of the slot is paused, no byte of its memory may be moved
 * and no operation completed: then it is false, and what ended waits. Call it again behind the last kalyubos_go_on. */
bool file_disk_go_on(struct file_disk *disk, uint8_t *tag, bool *failed);

#endif
