/* disk: what all queues of all front ends share: the disk, and how it is to be served. */
#ifndef DISK_H
#define DISK_H

#include <stdatomic.h>
#include <stdbool.h>
#include <stdint.h>

struct store_kind;

struct disk {
    const struct store_kind *kind; /* where its bytes lie */
    const char *path;              /* a file, a block device, or a URI of NBD */
    int file, buffered;            /* of a file: one descriptor for transfers, one for what O_DIRECT refuses */
    uint64_t sectors;
    uint8_t identity[20];
    uint32_t depth, queues;
    unsigned connections; /* how many queues of all sockets may serve it at once */
    unsigned spin;  /* for how many microseconds a queue looks again before it sleeps */
    unsigned drain; /* for how many seconds a stop waits for transfers */
    bool is_shared; /* several front ends, or programs, may write it */
    bool read_only, direct, packed, unordered, verbose;
    atomic_uint lost; /* how many transfers were given up and haven't ended */
};

#endif
