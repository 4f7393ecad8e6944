/* sessions.h: what the parts of sessions.c share. */
#ifndef SESSIONS_H
#define SESSIONS_H

#include "kalyubos.h"
#include "trace.h"

/* ---- seat.c: a guest on a board of the C library, all that it is told, and what its host leaves to chance */

/* What a guest is told: all of it one after another, and where each event's part begins. */
struct told {
    uint8_t *bytes;
    size_t len, room;
    size_t *starts;
    size_t count;
};

void tell(struct told *told, const void *bytes, size_t len);
void tell_number(struct told *told, uint64_t number);
void tell_pending(struct told *told, const struct kalyubos_pending *pending);

/* What was counted of a guest. */
struct counts {
    uint64_t pauses, refused, taken, operations, failures, drops, holds, waits, saves;
    uint64_t supplied, handed, sent, short_buffers, pages, notified; /* of further devices, the last of disks over spare sectors */
};

/* A guest on a board. */
struct seat {
    struct kalyubos *board;
    uint8_t slot;
    const struct guest *guest;
    bool is_paused;
    uint64_t state;
    struct told told;
    struct disk *disk; /* served by the host; NULL where the board has an image */
    struct counts counts;
};

/* Goes on with a service that was answered so until it ends, and answers what that is answered. Before each piece another guest is
 * served. `pending` is what then waits. */
uint32_t serve_on(struct seat *seat, uint32_t answer, struct kalyubos_pending *pending);

/* A number below `below`: the same ones from the same state. */
uint64_t chance(struct seat *seat, uint64_t below);

/* ---- flights.c: a guest's disk that the host serves when it likes, with some failures */

/* An operation as it was told when it began. */
struct flight {
    struct kalyubos_operation asked;
    struct kalyubos_run runs[KALYUBOS_RUNS];
};

/* The disk's own bytes, whether the slot is held, and what is in flight, by its tags. */
struct disk {
    uint8_t *bytes;
    bool is_hostile, held;
    uint32_t depth;
    uint64_t begun;
    struct flight *flights;
};

/* Gives a seat a disk with these bytes, and of its slot's depth; a hostile guest scribbles over its memory while requests are in
 * flight. */
void open_disk(struct seat *seat, const uint8_t *bytes, uint32_t depth, bool is_hostile);
void close_disk(struct seat *seat);

/* Takes in what a write was answered. */
void take_answer(struct seat *seat, uint32_t answer);

/* Completes an operation in flight: done, or with bad luck failed. Now and then one that isn't, which is IDLE. */
void complete(struct seat *seat);

/* Gives up what is in flight. */
void drop(struct seat *seat);

/* What the host does between two events: nothing, a part of a transfer, or all of it with its completion; it gives up what is
 * in flight, or holds the slot or releases it. */
void serve_by_chance(struct seat *seat);

/* Releases the slot; completes what is in flight, and what begins then, up to a hundred times; tells the disk's bytes. */
void tell_disk(struct seat *seat);

/* ---- further.c: a guest's further devices, and what its host does with them */

/* The kind of the library's device that a further device of the trace is: a card, or an entropy device, which stands also for kinds that
 * these boards don't have, and where the host serves the guest's own disk for one over spare sectors. */
uint32_t kind_of(const struct further_device *it, bool hosted);

/* Does an event of a further device, and tells what was answered. */
void act_on_device(struct seat *seat, const struct event *event);

/* What the host does with one of the devices between two events: it supplies bytes, hands a frame over, takes one, often into a
 * buffer that is too short, or changes the link; of a disk over spare sectors it says what it may say of no such disk. A guest without
 * further devices throws no dice. */
void serve_devices_by_chance(struct seat *seat);

/* Tells what waits for each of the devices. */
void tell_devices(struct seat *seat);

/* While a service of the slot is paused, the devices' calls are busy, but for what tells what waits. */
void check_devices_busy(struct seat *seat);

/* ---- saves.c: guests that are saved and brought back in the middle of their work */

/*
 * By chance of its own, saves the seat's devices, has a stranger use them, and restores them. Nobody is told anything of it: the
 * guest goes on as if nothing had been. While a service is paused or an operation in flight, both calls must be busy.
 */
void save_by_chance(struct seat *seat);

/* A slot that is paused, or has something in flight, is neither saved nor restored. */
void check_no_save(struct seat *seat);

#endif
