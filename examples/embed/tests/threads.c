/*
 * Four threads that call one board, under a lock, and each a board of its own, under none. The main thread makes
 * the boards and ends them; every 50 turns a thread ends its own board and makes it anew.
 */
#include <pthread.h>
#include <stdio.h>
#include <stdlib.h>

#include "kalyubos.h"

enum { THREADS = 4, TURNS = 500, MAGIC = 0x74726976, CONSOLE_EMERGENCY = 0x108 };

static const struct kalyubos_slot SLOT = {
    .size = sizeof(struct kalyubos_slot), .regions = { { 0x80000000, 0x10000 } }, .start = 0, .count = 2, .cols = 80,
    .rows = 25, .outlet = 1, .identity = "disk",
};

static struct kalyubos shared, own[THREADS];
static pthread_mutex_t lock = PTHREAD_MUTEX_INITIALIZER;

static void must(bool holds, const char *what)
{
    if (!holds) {
        fprintf(stderr, "threads: %s\n", what);
        exit(1);
    }
}

static void make(struct kalyubos *board)
{
    static const uint8_t image[1024];
    struct kalyubos_config config = kalyubos_config_of(&SLOT, 1);
    config.image = image;
    config.image_len = sizeof image;
    must(kalyubos_create(board, &config) == KALYUBOS_DONE, "create");
}

/* Calls that change a board or read it, one after another. `mark` is what the bytes that are written are told by. */
static void turn(struct kalyubos *board, uint8_t mark)
{
    uint32_t magic;
    uint8_t seen, out[2], block, console;
    size_t count;
    bool disturbed;
    struct kalyubos_pending pending;

    must(kalyubos_read(board, 0, mark % 2, 0, 4, &magic) == KALYUBOS_DONE && magic == MAGIC, "read");
    must(kalyubos_write_memory(board, 0, SLOT.regions[0].base, &mark, 1) == KALYUBOS_DONE, "write_memory");
    must(kalyubos_read_memory(board, 0, SLOT.regions[0].base, &seen, 1) == KALYUBOS_DONE && seen == mark, "read_memory");
    must(kalyubos_write(board, 0, KALYUBOS_CONSOLE, CONSOLE_EMERGENCY, 4, mark, &pending) == KALYUBOS_DONE, "write");
    must(kalyubos_take_output(board, 0, out, 2, &count) == KALYUBOS_DONE && count == 1 && out[0] == mark, "output");
    must(kalyubos_input(board, 0, &mark, 1, &count, &pending) == KALYUBOS_DONE, "input");
    must(kalyubos_resize(board, 0, mark, 25, &pending) == KALYUBOS_DONE, "resize");
    must(kalyubos_interrupts(board, 0, &block, &console) == KALYUBOS_DONE, "interrupts");
    must(kalyubos_disturbed(board, 0, &disturbed) == KALYUBOS_DONE && !disturbed, "disturbed");
}

static void *cpu(void *mine)
{
    size_t me = (size_t)((struct kalyubos *)mine - own);
    for (size_t at = 1; at <= TURNS; at++) {
        pthread_mutex_lock(&lock);
        turn(&shared, (uint8_t)(THREADS * at + me));
        pthread_mutex_unlock(&lock);
        turn(mine, (uint8_t)at);
        if (at % 50 == 0) {
            must(kalyubos_destroy(mine) == KALYUBOS_DONE, "destroy");
            make(mine);
        }
    }
    return NULL;
}

int main(void)
{
    pthread_t threads[THREADS];
    make(&shared);
    for (size_t at = 0; at < THREADS; at++) {
        make(&own[at]);
        must(pthread_create(&threads[at], NULL, cpu, &own[at]) == 0, "no thread");
    }
    for (size_t at = 0; at < THREADS; at++) {
        must(pthread_join(threads[at], NULL) == 0, "no end of a thread");
        must(kalyubos_destroy(&own[at]) == KALYUBOS_DONE, "destroy");
    }
    must(kalyubos_destroy(&shared) == KALYUBOS_DONE, "destroy");
    printf("%d threads, %d turns each: every call answered as alone\n", THREADS, TURNS);
    return 0;
}
