/*
 * Guests that run on while they are served, on threads: each guest has one for each of its CPUs and one for its disk, over one
 * memory, and shares nothing with the others. racing_guest.h says what they do, racing_host.h what is checked.
 *
 *     racing_threads REQUESTS SECONDS [SEED [ACCESSES]]
 *
 * runs four guests of so many requests: with split and packed queues, with EVENT_IDX and without. Then it runs such guests beside
 * four hostile ones, for so many seconds. ACCESSES is a file that gets what racing_accesses.h says of the library's instructions.
 */
#define _GNU_SOURCE
#include <stdio.h>
#include <stdlib.h>
#include <unistd.h>

#include "racing_accesses.h"
#include "racing_host.h"

enum { KINDS_OF_QUEUES = 4, MOST = 2 * KINDS_OF_QUEUES, BYTES = 20000, SENT = 500, DRAWN_BYTES = 5000 };
enum { LOOKS = 1000, RESTS = 64, REST = 50 }; /* a CPU that waits sleeps so many microseconds in each so many turns */

/* A CPU of a guest. */
struct cpu {
    struct machine machine; /* the first field */
    struct racing_host *host;
    unsigned number, rests;
    pthread_t thread;
};

static struct racing_host hosts[MOST];
static struct control controls[MOST];
static struct cpu cpus[MOST][2];
static _Atomic uint32_t lines[MOST][WINDOWS];
static uint8_t *(*watch)(int file, size_t len);

static void must(bool holds, const char *what)
{
    if (!holds) {
        fprintf(stderr, "racing_threads: %s\n", what);
        exit(1);
    }
}

static void set_lines(struct racing_host *host)
{
    for (unsigned window = 0; window < WINDOWS; window++)
        lines[host - hosts][window] = host->interrupts[window];
}

static uint32_t load(struct machine *machine, uint32_t window, uint32_t offset)
{
    return racing_host_load(((struct cpu *)machine)->host, (uint8_t)window, (uint16_t)offset, 4);
}

static void store(struct machine *machine, uint32_t window, uint32_t offset, uint32_t value)
{
    racing_host_store(((struct cpu *)machine)->host, (uint8_t)window, (uint16_t)offset, 4, value);
}

/* CPU 0 is interrupted where a line is high. */
static void rest(struct machine *machine)
{
    struct cpu *cpu = (struct cpu *)machine;
    for (uint32_t window = 0; window < WINDOWS && cpu->number == 0; window++)
        if (lines[cpu->host - hosts][window] != 0)
            on_interrupt(machine, window);
    if (++cpu->rests % RESTS == 0)
        usleep(REST);
}

static void *run(void *user)
{
    struct cpu *cpu = user;
    run_cpu(&cpu->machine, cpu->number);
    return NULL;
}

/* Runs so many guests. By the low bits of its number a guest has EVENT_IDX and packed rings; the later four are hostile. */
static void run_all(unsigned len, uint32_t requests, unsigned seconds, uint32_t seed)
{
    static const char *const names[MOST] = { "split", "split-event", "packed", "packed-event",
                                             "hostile split", "hostile split-event", "hostile packed", "hostile packed-event" };
    for (unsigned i = 0; i < len; i++) {
        controls[i] = (struct control){
            .packed = i >> 1 & 1, .event_idx = i & 1, .is_hostile = i >= KINDS_OF_QUEUES, .seed = seed + i, .requests = requests,
            .bytes = requests != 0 ? BYTES : 0, .sent_frames = requests != 0 ? SENT : 0, .drawn_bytes = requests != 0 ? DRAWN_BYTES : 0,
        };
        hosts[i] = (struct racing_host){ .name = names[i], .control = &controls[i], .set_lines = set_lines, .watch = watch };
        for (unsigned window = 0; window < WINDOWS; window++)
            lines[i][window] = 0;
        racing_host_open(&hosts[i]);
    }
    for (unsigned i = 0; i < 2 * len; i++) {
        struct cpu *cpu = &cpus[i / 2][i % 2];
        struct racing_host *host = &hosts[i / 2];
        *cpu = (struct cpu){ { host->control, (uintptr_t)host->memory, load, store, rest, LOOKS }, host, i % 2, 0, 0 };
        must(pthread_create(&cpu->thread, NULL, run, cpu) == 0, "no thread");
    }
    racing_hosts_watch(hosts, len, seconds);
    for (unsigned i = 0; i < 2 * len; i++)
        must(pthread_join(cpus[i / 2][i % 2].thread, NULL) == 0, "no end of a thread");
    for (unsigned i = 0; i < len; i++)
        racing_host_close(&hosts[i]);
}

int main(int words_len, char **words)
{
    must(words_len >= 3, "racing_threads REQUESTS SECONDS [SEED [ACCESSES]]");
    uint32_t requests = (uint32_t)strtoul(words[1], NULL, 10) / STEPS * STEPS;
    uint32_t seed = words_len > 3 ? (uint32_t)strtoul(words[3], NULL, 10) : 1;
    unsigned seconds = (unsigned)strtoul(words[2], NULL, 10);
    watch = words_len > 4 ? racing_accesses_watch : NULL;
    run_all(KINDS_OF_QUEUES, requests, 0, seed);
    printf("racing_threads: of four guests each of %u requests was served once, %d bytes typed and put out, and %d frames sent back\n",
           requests, BYTES, SENT);
    if (seconds != 0) {
        run_all(MOST, 0, seconds, seed);
        printf("racing_threads: beside four hostile guests they saw nothing, and no host was asked for anything outside\n");
    }
    if (words_len > 4)
        printf("racing_threads: %u instructions touched guest memory, each a load or a locked step of 8 bytes\n",
               racing_accesses_write(words[4]));
    return 0;
}
