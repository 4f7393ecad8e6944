/* server: starts a queue's thread, holds it while memory changes, and stops it. All of this is done by the front end's thread. */
#include "server.h"

#include <errno.h>
#include <inttypes.h>
#include <signal.h>
#include <stdlib.h>
#include <sys/eventfd.h>
#include <time.h>

#include "place.h"
#include "say.h"
#include "thread.h"

/* For how many milliseconds a thread may take, behind the time of a cancel, to say that it has halted. */
enum { WORD_TIME = 3000 };

static const char *lay_out(struct layout *layout, const struct queue *queue, const struct origin *origin)
{
    const struct memory *memory = origin->memory;
    bool is_packed = (origin->features & FEATURE_RING_PACKED) != 0;
    uint64_t num = queue->num, table = 16 * num; /* bytes of each part (2.7, 2.8) */
    uint64_t driver = is_packed ? 4 : 6 + 2 * num, device = is_packed ? 4 : 6 + 8 * num;
    layout->num = queue->num;
    layout->is_packed = is_packed;
    if (!memory_find(memory, queue->desc, table, &layout->desc) || !memory_find(memory, queue->avail, driver, &layout->driver) ||
        !memory_find(memory, queue->used, device, &layout->device))
        return "a ring lies in no region of memory";
    if (layout->desc % 16 != 0 || layout->driver % (is_packed ? 4 : 2) != 0 || layout->device % 4 != 0)
        return "a ring isn't aligned";
    return NULL;
}

/* A guest of the library at the queue's place, over the guest's memory. */
static const char *prepare(struct server *server, const struct queue *queue)
{
    const struct origin *origin = &server->origin;
    const char *why = lay_out(&server->layout, queue, origin);
    if (why != NULL)
        return why;
    if ((why = mapping_open(&server->mapping, origin->memory, origin->log)) != NULL)
        return why;
    if ((why = window_make(&server->window, origin->disk, &server->mapping)) == NULL) {
        why = window_drive(&server->window, origin->features, &server->layout);
        why = why != NULL ? why : place_set(&server->window, &server->layout, queue->base);
        why = why != NULL ? why : mapping_guest(&server->mapping);
        why = why != NULL ? why : window_keep_pages(&server->window, &server->mapping);
        if (why != NULL)
            window_end(&server->window);
    }
    if (why != NULL)
        mapping_close(&server->mapping);
    return why;
}

static const char *judge(const struct queue *queue, const struct origin *origin)
{
    bool is_packed = (origin->features & FEATURE_RING_PACKED) != 0;
    if ((origin->features & FEATURE_VERSION_1) == 0)
        return "its driver is a legacy one: it doesn't take VIRTIO_F_VERSION_1";
    if (!is_packed && (queue->num & (queue->num - 1)) != 0)
        return "a split queue's size isn't a power of two";
    if (is_packed ? (queue->base & 0x7fff) >= queue->num : queue->base > 0xffff)
        return "a queue's base isn't one of its places";
    if (atomic_load(&origin->disk->lost) != 0)
        return "transfers that were given up haven't ended";
    return NULL;
}

const char *server_start(struct queue *queue, const struct origin *origin)
{
    const char *why = judge(queue, origin);
    struct server *server = why == NULL ? calloc(1, sizeof *server) : NULL;
    if (server == NULL)
        return why != NULL ? why : "there is no memory";
    server->origin = *origin;
    server->index = queue->index;
    server->base = queue->base;
    server->kick = queue->kick;
    server->call = queue->call;
    server->error = queue->error;
    atomic_init(&server->owners, 2);
    (void)sem_init(&server->is_reached, 0, 0);
    (void)sem_init(&server->wake, 0, 0);
    server->halt = eventfd(0, EFD_CLOEXEC);
    why = server->halt < 0 ? "there is no eventfd" : prepare(server, queue);
    if (why == NULL && pthread_create(&server->thread, NULL, thread_run, server) != 0) {
        window_end(&server->window);
        mapping_close(&server->mapping);
        why = "there is no thread";
    }
    if (why != NULL) {
        atomic_store(&server->owners, 1);
        thread_end(server);
        return why;
    }
    queue->server = server;
    if (origin->disk->verbose)
        say(origin->name, "queue %u of %u entries starts at %#x", queue->index, queue->num, queue->base);
    return NULL;
}

/*
 * Leaves a thread to itself that hangs in a system call, as one of a file system that answers nobody. False where it has reached the
 * halt at last. It finds a copy of the guest's memory, and ends behind its call.
 */
static bool give_up(struct server *server, struct queue *queue)
{
    int none = NO_WORD;
    atomic_uint *lost = &server->origin.disk->lost;
    atomic_fetch_add(lost, 1);
    if (!atomic_compare_exchange_strong(&server->word, &none, GIVEN_UP)) {
        atomic_fetch_sub(lost, 1);
        return false;
    }
    mapping_watch(&server->mapping);
    queue->base = server->layout.is_packed ? queue->base : place_of_used(&server->mapping, &server->layout);
    (void)mapping_part(&server->mapping);
    mapping_carry(&server->mapping); /* the thread hangs in a system call, and so in none of the library */
    mapping_watch(NULL);
    say(server->origin.name, "queue %u: its disk hangs, and is given up: no queue starts until it answers", queue->index);
    (void)sem_post(&server->wake);
    return true;
}

/*
 * Waits until the thread has reached its halt, or is given up. Signals bring it out of a write to an eventfd that the front end has
 * filled.
 */
static void wait_for_halt(struct server *server, struct queue *queue)
{
    enum { STEP = 100000000 };
    uint64_t until = thread_microseconds() + 1000 * ((uint64_t)atomic_load(&server->limit) + CANCEL_TIME + WORD_TIME);
    for (;;) {
        struct timespec time;
        clock_gettime(CLOCK_REALTIME, &time);
        time.tv_nsec += STEP;
        time.tv_sec += time.tv_nsec / 1000000000;
        time.tv_nsec %= 1000000000;
        if (sem_timedwait(&server->is_reached, &time) == 0)
            return;
        if (errno == ETIMEDOUT)
            (void)pthread_kill(server->thread, SIGUSR1);
        if (thread_microseconds() > until && give_up(server, queue))
            return;
    }
}

/* Lets nothing more begin, and waits for the halt that is wanted. */
static void halt(struct queue *queue, enum wish wish, unsigned seconds)
{
    struct server *server = queue->server;
    bool was_held = server->is_held;
    server->is_held = false;
    atomic_store(&server->limit, seconds * 1000);
    atomic_store(&server->wish, wish);
    if (was_held)
        (void)sem_post(&server->wake);
    else
        (void)eventfd_write(server->halt, 1);
    wait_for_halt(server, queue);
}

/* Takes over where the queue of a thread stands that has ended, or is left with what is lost. */
static void finish(struct queue *queue)
{
    struct server *server = queue->server;
    bool has_ended = !thread_is_left(server);
    queue->server = NULL;
    if (has_ended)
        queue->base = server->base;
    if (has_ended && server->origin.disk->verbose)
        say(server->origin.name, "queue %u stops at %#x: %" PRIu64 " kicks, %" PRIu64 " operations, %" PRIu64 " of them failed, %" PRIu64
            " calls, %" PRIu64 " enters", queue->index, queue->base, server->kicks, server->operations, server->failures, server->calls,
            server->ring.enters);
    if (has_ended && !server->is_lost)
        (void)pthread_join(server->thread, NULL);
    else
        (void)pthread_detach(server->thread);
    thread_end(server);
}

void server_stop(struct queue *queue, unsigned seconds)
{
    if (queue->server == NULL)
        return;
    halt(queue, STOP, seconds);
    finish(queue);
}

void server_hold(struct queue *queue, unsigned seconds)
{
    if (queue->server == NULL || queue->server->is_held)
        return;
    halt(queue, HOLD, seconds);
    if (thread_is_left(queue->server) || !queue->server->is_held)
        finish(queue);
}

/* Other memory for a server that is held. NULL where it goes on over it, else why it can't go on. */
static const char *change_memory(struct server *server, const struct queue *queue, const struct origin *origin)
{
    struct layout layout;
    struct mapping mapping;
    const char *why = lay_out(&layout, queue, origin);
    if (why != NULL || layout.desc != server->layout.desc || layout.driver != server->layout.driver ||
        layout.device != server->layout.device)
        return "its rings lie elsewhere";
    if ((why = mapping_open(&mapping, origin->memory, origin->log)) != NULL)
        return why;
    why = mapping_guest(&mapping);
    why = why != NULL ? why : window_change_memory(&server->window, &mapping);
    if (why != NULL) {
        mapping_close(&mapping);
        return why;
    }
    mapping_close(&server->mapping);
    server->mapping = mapping;
    return window_keep_pages(&server->window, &server->mapping);
}

void server_go_on(struct queue *queue, const struct origin *origin)
{
    struct server *server = queue->server;
    if (server == NULL || !server->is_held)
        return;
    const char *why = change_memory(server, queue, origin);
    if (origin->disk->verbose)
        say(origin->name, "queue %u %s over other memory%s%s", queue->index, why == NULL ? "goes on" : "can't go on",
            why == NULL ? "" : ": ", why == NULL ? "" : why);
    if (why != NULL)
        return server_stop(queue, 0);
    server->origin = *origin;
    server->is_held = false;
    atomic_store(&server->wish, RUN);
    (void)sem_post(&server->wake);
}

bool server_is_faulty(const struct server *server)
{
    return atomic_load(&server->is_faulty);
}
