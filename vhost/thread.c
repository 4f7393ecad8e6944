/* thread: waits for kicks and results, has the library serve the queue, and tells the front end. */
#include "thread.h"

#include <errno.h>
#include <poll.h>
#include <stdlib.h>
#include <string.h>
#include <sys/eventfd.h>
#include <sys/socket.h>
#include <time.h>
#include <unistd.h>

#include "place.h"
#include "say.h"

/* What a result of the ring is of, beside the store's. */
enum { OF_KICK = 1000, OF_HALT };

bool thread_is_left(const struct server *server)
{
    return atomic_load(&server->word) == GIVEN_UP;
}

uint64_t thread_microseconds(void)
{
    struct timespec time;
    clock_gettime(CLOCK_MONOTONIC, &time);
    return (uint64_t)time.tv_sec * 1000000 + (uint64_t)time.tv_nsec / 1000;
}

/* ---- operations */

static void store_ended(void *user, struct flight *flight, int error)
{
    struct server *server = user;
    uint64_t tag = (uint64_t)1 << flight->tag;
    server->ended |= tag;
    if (error == 0)
        return;
    server->failed |= tag;
    if (server->failures++ == 0)
        say(server->origin.name, "queue %u: an operation of %s failed: %s", server->index, server->origin.disk->path, strerror(error));
}

static void begin_one(struct server *server, unsigned tag)
{
    struct flight *flight = &server->flights[tag];
    const struct kalyubos_operation *operation = &flight->operation;
    (void)kalyubos_guest_operation(&server->window.guest, (uint8_t)tag, &flight->operation, flight->runs, KALYUBOS_RUNS);
    server->begun |= (uint64_t)1 << tag;
    server->order[(server->first + server->order_len++) % KALYUBOS_TAGS] = (uint8_t)tag;
    flight->tag = tag;
    flight->at = operation->start;
    flight->left = operation->len;
    flight->next = flight->sent = 0;
    flight->syncs = flight->writes_zeros = flight->is_begun = flight->failed = false;
    bool has_parts = operation->kind == KALYUBOS_IN || operation->kind == KALYUBOS_OUT;
    for (uint32_t i = 0; has_parts && i < operation->runs; i++)
        flight->parts[i] = (struct iovec){ server->mapping.base + flight->runs[i].at, flight->runs[i].len };
    server->store->kind->begin(server->store, flight);
}

/*
 * What follows each call of the library that serves the queue: begins what is in flight and wasn't begun. Within one call each
 * operation takes the lowest tag that is free, so they begin in the order of their tags.
 */
static void settle(struct server *server, uint32_t answer)
{
    uint64_t tags = 0;
    server->is_due = answer == KALYUBOS_MORE;
    if (thread_is_left(server))
        return;
    (void)kalyubos_guest_in_flight(&server->window.guest, &tags);
    for (uint64_t left = tags & ~server->begun; left != 0; left &= left - 1)
        begin_one(server, (unsigned)__builtin_ctzll(left));
}

static void complete_one(struct server *server, unsigned tag)
{
    const struct flight *flight = &server->flights[tag];
    uint64_t bit = (uint64_t)1 << tag;
    bool failed = (server->failed & bit) != 0;
    for (uint32_t i = 0; flight->operation.kind == KALYUBOS_IN && i < flight->operation.runs; i++)
        mapping_mark(&server->mapping, flight->runs[i].at, flight->runs[i].len);
    server->begun &= ~bit;
    server->ended &= ~bit;
    server->failed &= ~bit;
    server->operations++;
    settle(server, kalyubos_guest_completed(&server->window.guest, (uint8_t)tag, failed, &server->window.pending));
}

/* Takes out of the order the operation that is to be completed next: the oldest, or where that is allowed the first that has ended. */
static bool take_ended(struct server *server, unsigned *tag)
{
    unsigned most = server->origin.disk->unordered ? server->order_len : server->order_len != 0;
    for (unsigned place = 0; place < most; place++) {
        *tag = server->order[(server->first + place) % KALYUBOS_TAGS];
        if ((server->ended >> *tag & 1) == 0)
            continue;
        for (; place > 0; place--)
            server->order[(server->first + place) % KALYUBOS_TAGS] = server->order[(server->first + place - 1) % KALYUBOS_TAGS];
        server->first = (server->first + 1) % KALYUBOS_TAGS;
        server->order_len--;
        return true;
    }
    return false;
}

/*
 * Completes what has ended. In order each waits for those that began before it: then the used idx says all, and a front end that goes
 * on from there behind a crash loses none of them. Whether any was completed, with which others may have begun.
 */
static bool complete_ended(struct server *server)
{
    bool is_any = false;
    for (unsigned tag; take_ended(server, &tag); is_any = true)
        complete_one(server, tag);
    return is_any;
}

/* ---- what the front end is told */

static const char CUT[] = "it cut its memory or its log of pages";

/* Ends the connection: the front end's thread then stops all of its queues. */
static void let_go(struct server *server, const char *why)
{
    if (server->is_let_go || thread_is_left(server))
        return;
    server->is_let_go = true;
    say(server->origin.name, "the front end is let go: queue %u: %s", server->index, why);
    (void)shutdown(server->origin.connection, SHUT_RDWR);
}

static void tell_fault(struct server *server)
{
    struct kalyubos_fault fault = { 0 };
    if (atomic_exchange(&server->is_faulty, true))
        return;
    (void)kalyubos_guest_last_fault(&server->window.guest, KALYUBOS_BLOCK, &fault);
    say(server->origin.name, "queue %u stops until its driver resets it: %s", server->index, kalyubos_fault_text(fault.kind));
    (void)eventfd_write(server->error, 1);
}

/*
 * Has the log's marks of what the library wrote. To look for them takes longer the more memory there is, so it is done for a sixteenth
 * of the time at most. The log has all of them at each halt, and so before the front end looks at it for the last time.
 */
static void carry_pages(struct server *server)
{
    enum { SHARE = 16 };
    if (server->mapping.log == NULL || thread_is_left(server))
        return;
    uint64_t began = thread_microseconds();
    server->is_behind = began < server->carry_at;
    if (server->is_behind)
        return;
    mapping_carry(&server->mapping);
    uint64_t ended = thread_microseconds();
    server->carry_at = ended + SHARE * (ended - began + 1);
}

static void tell(struct server *server)
{
    uint32_t word = window_take_interrupt(&server->window);
    carry_pages(server);
    if (server->mapping.is_cut)
        let_go(server, CUT);
    else if ((word & NEEDS_RESET) != 0)
        tell_fault(server);
    if ((word & USED_BUFFER) != 0) {
        (void)eventfd_write(server->call, 1); /* where the front end filled it, a signal of server_stop ends the wait */
        server->calls++;
    }
}

/* ---- the thread */

/* The eventfd is never read: a result comes with each write to it, and one more of what was written before. */
static void watch(struct server *server, int file, uint64_t what)
{
    io_uring_prep_poll_multishot(ring_next(&server->ring, what), file, POLLIN);
}

static void take_halt(struct server *server, const struct io_uring_cqe *result)
{
    if ((result->flags & IORING_CQE_F_MORE) == 0)
        watch(server, server->halt, OF_HALT);
    if (server->halted_at != 0 || atomic_load(&server->wish) == RUN)
        return;
    server->halted_at = thread_microseconds();
    uint32_t answer = kalyubos_guest_hold(&server->window.guest, &server->window.pending);
    server->is_due = answer == KALYUBOS_MORE;
}

static void take_kick(struct server *server, const struct io_uring_cqe *result)
{
    server->kicks++;
    if (result->res >= 0 && (result->flags & IORING_CQE_F_MORE) == 0)
        watch(server, server->kick, OF_KICK);
    else if (result->res < 0)
        let_go(server, "its kicks can't be waited for");
}

static void take_results(struct server *server)
{
    struct io_uring_cqe result;
    bool is_kicked = false;
    while (ring_take(&server->ring, &result)) {
        if (result.user_data == OF_KICK) {
            take_kick(server, &result);
            is_kicked = true;
        } else if (result.user_data == OF_HALT) {
            take_halt(server, &result);
        } else {
            struct flight *flight = result.user_data < KALYUBOS_TAGS ? &server->flights[result.user_data] : NULL;
            server->store->kind->result(server->store, flight, &result);
        }
    }
    if (is_kicked)
        settle(server, window_notify(&server->window));
    else if (server->is_due)
        settle(server, kalyubos_guest_go_on(&server->window.guest, &server->window.pending));
}

/* Looks again for a while before it sleeps. */
static void spin(struct server *server)
{
    uint64_t until = thread_microseconds() + server->origin.disk->spin;
    do
        ring_wait(&server->ring, 0);
    while (!ring_has(&server->ring) && thread_microseconds() < until);
}

/* How many microseconds are left until then. */
static uint64_t time_until(uint64_t time)
{
    uint64_t now = thread_microseconds();
    return time > now ? time - now : 0;
}

static int sooner(int most, int other)
{
    return most < 0 || most > other ? other : most;
}

/*
 * Waits for the next result, for so many milliseconds at most: at a halt no longer than until its limit is looked at again, and where
 * pages wait for the log, until they come into it.
 */
static void wait_for_results(struct server *server, int most)
{
    enum { LOOK = 50 };
    if (server->is_due)
        most = 0;
    if (server->halted_at != 0)
        most = sooner(most, LOOK);
    if (server->is_behind)
        most = sooner(most, (int)(time_until(server->carry_at) / 1000) + 1);
    if (server->origin.disk->spin != 0 && most != 0)
        spin(server);
    ring_wait(&server->ring, most);
}

/* Whether a halt is reached: nothing is in flight, or what is can't be ended. */
static bool has_halted(struct server *server)
{
    if (server->halted_at == 0)
        return false;
    if (server->begun == 0)
        return true;
    uint64_t waited = (thread_microseconds() - server->halted_at) / 1000, limit = atomic_load(&server->limit);
    if (waited >= limit && !server->is_cancelled) {
        server->is_cancelled = true;
        say(server->origin.name, "queue %u: %d transfers don't end: they are cancelled", server->index,
            __builtin_popcountll(server->begun));
        server->store->kind->cancel(server->store);
    }
    server->is_lost = waited >= limit + CANCEL_TIME;
    return server->is_lost;
}

/* Has the word that a halt is reached. False where nobody waits for it any longer; else it is told by `is_reached`. */
static bool take_word(struct server *server)
{
    int none = NO_WORD;
    return atomic_compare_exchange_strong(&server->word, &none, REACHED);
}

static void wait_for_wake(struct server *server)
{
    while (sem_wait(&server->wake) != 0)
        continue; /* a signal came */
}

/* At a halt: waits held, where that is wanted, and goes on once the front end's thread says so. False where it is to end. */
static bool goes_on(struct server *server)
{
    if (server->is_cancelled || atomic_load(&server->wish) != HOLD)
        return false;
    if (server->is_due) /* on hold a queue has nothing more to serve */
        settle(server, kalyubos_guest_go_on(&server->window.guest, &server->window.pending));
    if (!take_word(server))
        return false;
    mapping_carry(&server->mapping);
    server->is_held = true;
    (void)sem_post(&server->is_reached);
    wait_for_wake(server);
    atomic_store(&server->word, NO_WORD);
    if (atomic_load(&server->wish) == STOP)
        return false;
    server->halted_at = 0; /* the next hold may be wanted already: its event comes by the ring */
    settle(server, kalyubos_guest_release(&server->window.guest, &server->window.pending));
    return true;
}

/*
 * Waits for transfers that can't be ended. Late bytes come into a copy of the guest's memory, but for those that the kernel moves itself
 * (O_DIRECT).
 */
static void wait_for_lost(struct server *server, bool is_waited_for)
{
    struct io_uring_cqe result;
    struct disk *disk = server->origin.disk;
    unsigned lost = (unsigned)__builtin_popcountll(server->begun & ~server->ended);
    atomic_fetch_add(&disk->lost, lost);
    if (is_waited_for) {
        (void)mapping_part(&server->mapping);
        say(server->origin.name, "queue %u: %u transfers are given up: no queue starts until they have ended", server->index, lost);
        (void)sem_post(&server->is_reached);
    }
    while ((server->begun & ~server->ended) != 0) {
        ring_wait(&server->ring, -1);
        while (ring_take(&server->ring, &result))
            if (result.user_data < KALYUBOS_TAGS)
                server->ended |= (uint64_t)1 << result.user_data;
    }
    atomic_fetch_sub(&disk->lost, lost);
}

void thread_end(struct server *server)
{
    if (atomic_fetch_sub(&server->owners, 1) != 1)
        return;
    close(server->halt);
    (void)sem_destroy(&server->is_reached);
    (void)sem_destroy(&server->wake);
    free(server);
}

static bool open_store(struct server *server)
{
    struct disk *disk = server->origin.disk;
    int error = ring_open(&server->ring);
    server->store = error == 0 ? disk->kind->open() : NULL;
    if (server->store == NULL) {
        if (error == 0)
            ring_close(&server->ring);
        let_go(server, error != 0 ? strerror(error) : "there is no memory");
        return false;
    }
    server->store->kind = disk->kind;
    server->store->disk = disk;
    server->store->ring = &server->ring;
    server->store->ended = store_ended;
    server->store->user = server;
    return true;
}

static void serve(struct server *server)
{
    watch(server, server->kick, OF_KICK);
    watch(server, server->halt, OF_HALT);
    settle(server, window_notify(&server->window)); /* what was on offer before it started */
    for (;;) {
        int most = server->store->kind->turn(server->store);
        while (complete_ended(server))
            most = server->store->kind->turn(server->store);
        tell(server);
        if (has_halted(server)) {
            if (!goes_on(server))
                return;
            continue;
        }
        wait_for_results(server, most);
        if (thread_is_left(server)) {
            server->is_lost = true;
            server->store->kind->cancel(server->store);
            return;
        }
        take_results(server);
    }
}

/* Says that the halt is reached behind which the thread ends, and where the queue stands then. */
static void tell_end(struct server *server)
{
    bool is_waited_for = take_word(server);
    if (is_waited_for)
        mapping_carry(&server->mapping);
    if (is_waited_for && server->is_lost && !server->layout.is_packed)
        server->base = place_of_used(&server->mapping, &server->layout);
    else if (is_waited_for && !server->is_lost)
        server->base = place_tell(&server->window, &server->mapping, &server->layout, server->base);
    if (server->mapping.is_cut)
        let_go(server, CUT);
    if (server->is_lost)
        wait_for_lost(server, is_waited_for);
    else if (is_waited_for)
        (void)sem_post(&server->is_reached);
    if (!is_waited_for) {
        wait_for_wake(server);
        atomic_fetch_sub(&server->origin.disk->lost, 1);
    }
}

void *thread_run(void *user)
{
    struct server *server = user;
    mapping_watch(&server->mapping);
    bool is_open = open_store(server);
    if (is_open)
        serve(server);
    tell_end(server);
    if (is_open) {
        server->store->kind->close(server->store);
        ring_close(&server->ring);
    }
    window_end(&server->window);
    mapping_watch(NULL);
    mapping_close(&server->mapping);
    thread_end(server);
    return NULL;
}
