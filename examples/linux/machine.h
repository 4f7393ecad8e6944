/* A guest's machine: a CPU, an interrupt controller, the board's windows, and what mode M answers. */
#ifndef MACHINE_H
#define MACHINE_H

#include <stdint.h>

#include "board.h"
#include "cpu.h"
#include "devices.h"
#include "plic.h"
#include "terminal.h"

/* How often the CPU came to a window, and how often its interrupt line rose. */
struct machine_counts {
    uint64_t reads, writes, rises;
};

/* A store of the CPU to a window. */
struct machine_store {
    unsigned window;
    uint16_t offset;
    unsigned width;
    uint32_t value;
};

/* What is in flight of a disk that the host serves. */
struct machine_flights {
    uint64_t tags;
    uint64_t dues[64]; /* the cycle at which the operation of each tag is done, or all ones */
};

struct machine {
    uint8_t slot;
    bool off;
    bool paused;          /* the service of its last store, or of what was typed, goes on in its next turn; or it waits */
    bool busy;            /* for a disk, and its last store is to be made again then */
    bool unserved;        /* what goes on is of a store to a further device's window, which its host then serves */
    bool late;            /* output is taken where there is no room for more, and while the guest waits */
    uint64_t timer;       /* the cycle of the timer's interrupt, or all ones */
    uint64_t latency;     /* how many cycles a disk takes that the host serves; all ones: it is done when its file is */
    uint64_t chance;      /* by which it takes longer where several operations are in flight */
    struct machine_flights flights[BOARD_DISKS];
    uint64_t due;         /* the cycle at which the first of what is in flight is done, or all ones */
    uint64_t hidden;      /* feature bits of the devices that the driver isn't shown; those of one kind of device are a disk's */
    unsigned windows;     /* how many it has: a disk and a console, and where there are further devices also those, disks last */
    uint32_t selected[BOARD_WINDOWS]; /* the word of the features that each was asked for */
    struct machine_counts counts[BOARD_WINDOWS];
    struct machine_store store; /* the last one to a window */
    uint64_t rest;        /* cycles of a run that a pause cut short */
    uint64_t refused;     /* writes that were made again, since there was no room for the output */
    uint64_t pauses;
    FILE *early;          /* what the kernel says before it has a console, where it is told to */
    FILE *mistakes;       /* what its drivers do wrong */
    struct cpu cpu;
    struct plic plic;
    struct terminal terminal;
    struct devices devices;
};

/* A kernel or a device tree, in memory. */
struct machine_file {
    const uint8_t *bytes;
    size_t len;
};

/* Puts a machine round a slot. */
void machine_open(struct machine *machine, uint8_t slot, unsigned windows);

/* Loads the kernel and the tree into the slot's memory. */
void machine_start(struct machine *machine, struct machine_file kernel, struct machine_file tree);

/* Goes on as another machine did, whose memory and devices the slot has, with the lines of this script. */
void machine_resume(struct machine *machine, const struct machine *other, const char *script);

/* Goes on with the service that is paused, where one is, and else completes what its disks have done. */
void machine_go_on(struct machine *machine);

/* Does what the host has to do for its further devices; nothing while it is paused. */
void machine_serve(struct machine *machine);

/* Runs for some cycles, until it is off, waits for an interrupt, or is paused. */
void machine_run(struct machine *machine, uint64_t cycles);

/* Lets the time of a machine that waits pass until its timer, or until a disk is done; without one nothing passes. */
void machine_pass(struct machine *machine);

/* Whether it goes on only once a disk is done, or its service. */
bool machine_stands(const struct machine *machine);

/* Stops it where nothing of it is paused or under way, and takes what it put out; false where something is. */
bool machine_stop(struct machine *machine);

/* Types to the console what its terminal has, and takes what it put out; nothing while it is paused. */
void machine_talk(struct machine *machine);

#endif
