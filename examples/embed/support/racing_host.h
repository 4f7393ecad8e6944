/*
 * racing_host: the host of a guest that runs on while it is served (racing_guest.h): its handle, its lock, its disk, what is typed to
 * its console, the frames of its network card, and random bytes. A thread of the disk's own moves bytes between the disk and the guest's memory during calls for the guest,
 * by itself and by the kernel, and completes the operations. kvm-racing.c and racing_threads.c have such hosts.
 *
 * Each operation is judged as it begins: it lies inside the guest's memory and its disk. Of a sane guest it is the next one of its
 * sector, so a request that is lost or served twice is found. What the guest puts out is what was typed, and what it sends are the
 * frames that it was sent, in their order. What is wrong ends the process with a line.
 */
#ifndef RACING_HOST_H
#define RACING_HOST_H

#include <pthread.h>
#include <time.h>

#include "kalyubos.h"
#include "racing_guest.h"

enum { DEPTH = 6, MEMORY_LEN = HIGH + REGION_LEN, DISK_LEN = SECTORS * SECTOR, PAGE = 4096 };

/* An operation that has begun. */
struct flight {
    struct kalyubos_operation operation;
    struct kalyubos_run runs[KALYUBOS_RUNS];
};

struct racing_host {
    const char *name;
    struct control *control; /* what the guest's CPUs are told */
    pthread_mutex_t lock;    /* held for the calls of one exit, and for what follows */
    struct kalyubos_guest guest;
    struct kalyubos_pending lines;
    uint32_t interrupts[WINDOWS];                /* InterruptStatus of each window, as the last call left it */
    void (*set_lines)(struct racing_host *host); /* tells the lines to the guest's CPUs */
    void *user;
    uint8_t *memory; /* where the byte of the guest's address 0 would lie: nothing but the two regions can be touched */
    uint8_t *lent;   /* and where it would for the library: there too, or where `watch` says, for this file of so many bytes */
    uint8_t *(*watch)(int file, size_t len);

    pthread_cond_t changed; /* operations began, one is completed, or it ends */
    pthread_t disk_thread;
    uint64_t begun;
    struct flight flights[KALYUBOS_TAGS];
    int file;      /* the disk, */
    uint8_t *disk; /* and where it is mapped */
    uint32_t steps[SECTORS]; /* how many operations of a sane guest's sector are done */
    uint64_t state;          /* of chance */
    bool ends;

    uint64_t operations, bytes; /* how many operations are done, and how many bytes they have moved */
    uint64_t output, mores;     /* how many bytes were put out, and how often a service paused */
    uint64_t supplied, sent;    /* how many random bytes it was supplied with, and how many frames it sent */
    uint8_t frame[65536];       /* where one is taken */
    uint32_t kinds, faults;     /* bit n: an operation of kind n was done; a hostile guest's window asked for a reset for fault n */
    uint32_t shown, turns;      /* how many typed bytes came back, and how many turns the watch had */
    uint32_t seen[3];           /* how many requests, bytes and frames had come back at the last turn in which some had, */
    time_t since[3];            /* and when that was, or nothing was to come */
};

/* Makes the guest, where the name, the control, what sets the lines, the user and the watch are set. */
void racing_host_open(struct racing_host *host);

/* An access of one of the guest's CPUs to a window, which takes the lock. */
uint32_t racing_host_load(struct racing_host *host, uint8_t window, uint16_t offset, uint8_t width);
void racing_host_store(struct racing_host *host, uint8_t window, uint16_t offset, uint8_t width, uint32_t value);

/* Behind the end of the guest's CPUs: ends the disk's thread and the guest, and judges and tells what was done. */
void racing_host_close(struct racing_host *host);

/* Types to the guests until the CPUs of all have ended, which they are told to after so many seconds; 0: they end once they have
 * done all. Ends the process with a line where a check of a guest fails, or where one stands still. */
void racing_hosts_watch(struct racing_host *hosts, unsigned len, unsigned seconds);

#endif
