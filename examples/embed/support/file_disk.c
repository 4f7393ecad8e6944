/*
 * An operation is a row of steps, each one call of the kernel; the last is a sync where the guest relies on the medium. The
 * steps of one operation follow each other, and those of others stand beside them.
 */
#define _GNU_SOURCE
#include <errno.h>
#include <fcntl.h>
#include <pthread.h>
#include <signal.h>
#include <stdlib.h>
#include <string.h>
#include <sys/param.h>
#include <unistd.h>

#include "file_disk.h"

/* The run that goes on, and how many bytes of it are done. */
static const struct kalyubos_run *run_of(const struct file_flight *flight, uint64_t *at)
{
    const struct kalyubos_run *run = flight->runs;
    for (*at = flight->done; *at >= run->len; run++)
        *at -= run->len;
    return run;
}

/* Copies the next bytes of the runs into the buffer, or out of it. Each run lies inside the guest's memory. */
static void copy(const struct file_disk *disk, struct file_flight *flight, uint64_t len, bool into_buffer)
{
    uint64_t at, part;
    const struct kalyubos_run *run = run_of(flight, &at);
    for (uint64_t copied = 0; copied < len; copied += part, run++, at = 0) {
        uint8_t *buffer = flight->buffer + copied;
        part = MIN(run->len - at, len - copied);
        if (into_buffer)
            kalyubos_read_memory(disk->board, disk->slot, run->at + at, buffer, part);
        else
            kalyubos_write_memory(disk->board, disk->slot, run->at + at, buffer, part);
    }
}

/* Submits a tag's next step, by what is done, and answers whether the kernel takes it. */
static bool go_further(struct file_disk *disk, uint8_t tag)
{
    struct file_flight *flight = &disk->flights[tag];
    uint64_t at, left = flight->len - flight->done;
    struct file_step step = { flight->asked.kind, flight->asked.start + flight->done, MIN(left, FILE_BUFFER) };
    if (left == 0) {
        step.kind = KALYUBOS_FLUSH;
        flight->unsynced = false;
    } else if (step.kind == KALYUBOS_ZEROES) {
        const struct kalyubos_run *run = run_of(flight, &at);
        step.at = run->at + at;
        step.len = MIN(run->len - at, FILE_BUFFER);
    } else if (step.kind == KALYUBOS_OUT) {
        copy(disk, flight, step.len, true);
    }
    flight->step = step;
    return disk->way->submit(disk, tag);
}

/* ---- threads: the tags of steps go to them through a pipe, and what these came to comes back through another */

struct workers {
    struct file_disk *disk;
    int steps[2], results[2];
    size_t len;
    pthread_t threads[KALYUBOS_TAGS];
};

struct result {
    int32_t result;
    uint8_t tag;
};

static ssize_t call_kernel(int file, const struct file_step *step, uint8_t *buffer)
{
    switch (step->kind) {
    case KALYUBOS_IN:
        return pread(file, buffer, step->len, step->at);
    case KALYUBOS_FLUSH:
        return fdatasync(file);
    case KALYUBOS_ZEROES:
        if (fallocate(file, FALLOC_FL_ZERO_RANGE, step->at, step->len) == 0)
            return step->len;
        memset(buffer, 0, step->len); /* the file system has no such call */
    }
    return pwrite(file, buffer, step->len, step->at);
}

/* Signals are for the host's other threads, so that they interrupt no call of this one. It ends once no more steps come. */
static void *work(void *user)
{
    const struct workers *workers = user;
    uint8_t tag;
    ssize_t got;
    sigset_t all;
    sigfillset(&all);
    pthread_sigmask(SIG_BLOCK, &all, NULL);
    while ((got = read(workers->steps[0], &tag, 1)) != 0) {
        if (got != 1)
            continue;
        struct file_flight *flight = &workers->disk->flights[tag];
        struct result result = { (int32_t)call_kernel(workers->disk->file, &flight->step, flight->buffer), tag };
        while (write(workers->results[1], &result, sizeof result) != sizeof result)
            continue; /* a pipe always has room for a result of each tag */
    }
    return NULL;
}

/* A pipe that wasn't opened is -1, and no file. */
static void close_workers(struct file_disk *disk)
{
    struct workers *workers = disk->kept;
    close(workers->steps[1]);
    while (workers->len > 0)
        pthread_join(workers->threads[--workers->len], NULL);
    close(workers->steps[0]);
    close(workers->results[0]);
    close(workers->results[1]);
    free(workers);
}

static bool open_workers(struct file_disk *disk)
{
    struct workers *workers = disk->kept = malloc(sizeof *workers);
    if (workers == NULL)
        return false;
    *workers = (struct workers){ .disk = disk, .steps = { -1, -1 }, .results = { -1, -1 } };
    bool good = pipe2(workers->steps, O_CLOEXEC) == 0 && pipe2(workers->results, O_CLOEXEC | O_NONBLOCK) == 0;
    for (; good && workers->len < disk->depth; workers->len += good)
        good = (errno = pthread_create(&workers->threads[workers->len], NULL, work, workers)) == 0;
    disk->ready = workers->results[0];
    return good;
}

static bool submit(struct file_disk *disk, uint8_t tag)
{
    const struct workers *workers = disk->kept;
    return write(workers->steps[1], &tag, 1) == 1;
}

static bool has_result(struct file_disk *disk, uint8_t *tag, int32_t *result)
{
    const struct workers *workers = disk->kept;
    struct result got;
    if (read(workers->results[0], &got, sizeof got) != sizeof got)
        return false;
    *tag = got.tag;
    *result = got.result;
    return true;
}

const struct file_way file_thread = { "threads", open_workers, submit, NULL, has_result, close_workers };

/* ---- a disk */

/* What is wrong with the file, the buffers or the way to the kernel, or NULL. */
static const char *open_all(struct file_disk *disk, const char *path, uint64_t len, bool read_only)
{
    disk->file = open(path, (read_only ? O_RDONLY : O_RDWR) | O_CLOEXEC);
    if (disk->file < 0)
        return strerror(errno);
    off_t file_len = lseek(disk->file, 0, SEEK_END);
    if (file_len < 0)
        return strerror(errno);
    if ((uint64_t)file_len < len)
        return "is shorter than the disk";
    disk->flights = aligned_alloc(FILE_ALIGN, disk->depth * sizeof *disk->flights);
    return disk->flights != NULL && disk->way->open(disk) ? NULL : strerror(errno);
}

const char *file_disk_open(struct file_disk *disk, struct kalyubos *board, uint8_t slot, uint8_t window, uint32_t depth,
                           const char *path, uint64_t len, bool read_only, const struct file_way *way)
{
    *disk = (struct file_disk){
        .board = board, .slot = slot, .window = window, .depth = (uint8_t)MAX(depth, 1), .way = way, .file = -1, .ready = -1,
    };
    const char *wrong = open_all(disk, path, len, read_only);
    if (wrong != NULL)
        file_disk_close(disk);
    return wrong;
}

void file_disk_close(struct file_disk *disk)
{
    if (disk->kept != NULL)
        disk->way->close(disk);
    if (disk->file >= 0)
        close(disk->file);
    free(disk->flights);
    *disk = (struct file_disk){ .file = -1, .ready = -1 };
}

static void begin(struct file_disk *disk, uint8_t tag)
{
    struct file_flight *flight = &disk->flights[tag];
    kalyubos_operation(disk->board, disk->slot, disk->window, tag, &flight->asked, flight->runs, KALYUBOS_RUNS);
    flight->len = flight->done = 0;
    for (uint32_t i = 0; i < flight->asked.runs; i++)
        flight->len += flight->runs[i].len;
    flight->unsynced = flight->asked.stable || flight->len == 0; /* without bytes it is a flush, or moves none */
    disk->begun |= (uint64_t)1 << tag;
    if (!go_further(disk, tag))
        disk->refused |= (uint64_t)1 << tag;
}

bool file_disk_begin(struct file_disk *disk)
{
    uint64_t in_flight = 0;
    kalyubos_in_flight(disk->board, disk->slot, disk->window, &in_flight);
    for (uint8_t tag = 0; tag < disk->depth; tag++)
        if ((in_flight & ~disk->begun) >> tag & 1)
            begin(disk, tag);
    if (disk->way->hand_over != NULL)
        disk->refused |= disk->way->hand_over(disk);
    return disk->refused == 0;
}

/* What a step came to: whether its operation has ended with it. */
static bool has_ended(struct file_disk *disk, uint8_t tag, int32_t result, bool *failed)
{
    struct file_flight *flight = &disk->flights[tag];
    *failed = result < 0 || (result == 0 && flight->step.len > 0);
    if (*failed)
        return true;
    if (flight->step.kind == KALYUBOS_IN)
        copy(disk, flight, (uint64_t)result, false);
    flight->done += (uint64_t)result;
    if (flight->done == flight->len && !flight->unsynced)
        return true;
    *failed = !go_further(disk, tag);
    return *failed;
}

/* Whether a service of the slot is paused. */
static bool is_paused(const struct file_disk *disk)
{
    return kalyubos_read_memory(disk->board, disk->slot, 0, (uint8_t[1]){ 0 }, 0) == KALYUBOS_BUSY;
}

bool file_disk_go_on(struct file_disk *disk, uint8_t *tag, bool *failed)
{
    int32_t result = -1;
    if (is_paused(disk))
        return false;
    bool ended = disk->refused != 0;
    if (ended) {
        *tag = (uint8_t)__builtin_ctzll(disk->refused);
        *failed = true;
    }
    while (!ended && disk->way->has_result(disk, tag, &result))
        ended = has_ended(disk, *tag, result, failed);
    if (ended) { /* its tag may be used again by the completion */
        disk->begun &= ~((uint64_t)1 << *tag);
        disk->refused &= disk->begun;
    }
    return ended;
}
