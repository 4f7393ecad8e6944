/*
 * server: serves one queue, by a thread of its own, from server_start to server_stop. What it touches is its own: a mapping, a guest of
 * the library, an io_uring.
 */
#ifndef SERVER_H
#define SERVER_H

#include "disk.h"
#include "mapping.h"

/* What the front end said of a queue. */
struct queue {
    uint32_t index, num, base; /* `base` is where it goes on */
    uint64_t desc, avail, used; /* addresses of the front end */
    int kick;                   /* -1 where there is none */
    int call, error;            /* always open: an event of nobody where there is none, so that a thread may use them as they change */
    bool has_addresses, is_enabled;
    struct server *server; /* NULL where none runs */
};

/* What a front end says of all of its queues. */
struct origin {
    const char *name;
    struct disk *disk;
    const struct memory *memory;
    struct page_log *log; /* NULL where nothing is logged */
    uint64_t features;
    int connection; /* it is shut down where the front end has to end */
};

/* Starts a server of a queue: NULL where it is done, else why not. */
const char *server_start(struct queue *queue, const struct origin *origin);
/*
 * Lets nothing more begin, waits for `seconds` for what is in flight, and puts into queue->base where the queue stands. Transfers
 * that haven't ended by then are cancelled. What can't be is given up: the thread waits for it alone, and until it has ended no server
 * starts.
 */
void server_stop(struct queue *queue, unsigned seconds);
/*
 * Does so too before memory or the log of pages changes: the server then waits for server_go_on or server_stop. It is stopped where
 * transfers had to be cancelled.
 */
void server_hold(struct queue *queue, unsigned seconds);
/* Has a server that was held go on over the memory that there is now. It is stopped where it can't, as where its rings lie elsewhere. */
void server_go_on(struct queue *queue, const struct origin *origin);
/* Whether its device asks for a reset. */
bool server_is_faulty(const struct server *server);

#endif
