/* front_end: a socket, the front end that is connected to it, and what that said. Each has a thread; they share only the disk. */
#ifndef FRONT_END_H
#define FRONT_END_H

#include <pthread.h>

#include "memory.h"
#include "server.h"
#include "window.h"
#include "wire.h"

enum { QUEUES = 16 };

struct front_end {
    const char *name; /* the socket's, for people */
    struct disk *disk;
    int listener;     /* -1 where the socket came connected */
    int ending;       /* an eventfd that can be read once the program ends */
    int socket;
    pthread_t thread;

    /* What the device shows. */
    uint64_t offered;
    uint8_t config[CONFIG_LEN];
    uint32_t most; /* entries of a queue */

    /* What the front end said. */
    uint64_t features, protocol;
    uint8_t status;
    bool has_features, is_refused; /* the last message was well formed, and what it asks for isn't done */
    unsigned drain;                /* for how many seconds a stop waits */
    struct memory memory;
    struct page_log *log; /* NULL where it brought none */
    bool is_logged;       /* pages that are written to are marked there */
    struct queue queues[QUEUES];
};

/* Makes a front end of a socket: NULL where it is done, else why not. */
const char *front_end_make(struct front_end *front_end, const char *name, struct disk *disk, int listener, int socket, int ending);
/* Serves who connects, one after another, until the program ends; a connected socket until its end. */
void front_end_serve(struct front_end *front_end);

#endif
