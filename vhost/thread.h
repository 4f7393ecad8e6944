/*
 * thread: what a server's own thread has and does, and how the front end's thread and it agree. What isn't an atomic or a semaphore is the
 * thread's alone while it runs, and the front end's while it is held or before it begins.
 */
#ifndef THREAD_H
#define THREAD_H

#include <pthread.h>
#include <semaphore.h>
#include <stdatomic.h>

#include "server.h"
#include "store.h"
#include "window.h"

/* What the front end's thread wants of a queue's: at a halt nothing begins any more. */
enum wish { RUN, HOLD, STOP };

/* What is said of a halt: by the queue's thread that it is reached, or by the front end's that it isn't waited for any longer. */
enum word { NO_WORD, REACHED, GIVEN_UP };

/* For how many milliseconds a cancelled transfer may take to end. */
enum { CANCEL_TIME = 1000 };

struct server {
    struct origin origin;
    struct layout layout;
    uint32_t index, base;
    int kick, call, error, halt;
    struct mapping mapping;
    struct window window;
    struct ring ring;
    struct store *store;
    uint64_t begun, ended, failed;   /* sets of tags */
    uint8_t order[KALYUBOS_TAGS];    /* tags as they began, from `first` on */
    unsigned first, order_len;
    bool is_due, is_lost, is_cancelled, is_let_go;
    bool is_held;                    /* the thread waits for `wake`, and nothing is in flight */
    atomic_bool is_faulty;
    atomic_int owners;               /* the thread, and who started it: the last one frees */
    atomic_int wish, word;           /* of these enums */
    atomic_uint limit;               /* for how many milliseconds a halt waits */
    uint64_t halted_at;
    uint64_t carry_at;               /* when pages that were written to are carried into the log again */
    bool is_behind;                  /* some may wait for that */
    sem_t is_reached, wake;          /* the halt; and the thread may leave it */
    pthread_t thread;
    uint64_t kicks, calls, operations, failures;
    struct flight flights[KALYUBOS_TAGS];
};

/* The thread, from its first kick to its last halt; `user` is the server. */
void *thread_run(void *user);
/* Whether nobody waits for this thread any longer: it begins nothing, and tells nobody. */
bool thread_is_left(const struct server *server);
/* One of a server's two owners goes; the last one frees it. */
void thread_end(struct server *server);
/* A time that only grows. */
uint64_t thread_microseconds(void);

#endif
