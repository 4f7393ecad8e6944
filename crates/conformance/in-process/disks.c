/*
 * What an operation asks is done sector by sector, as the cache of the other boards does it, so that the calls of the image
 * have the numbers of data/rows/README.md: the n-th of them fails where `fails` has n. A failed operation has done
 * the sectors before that call. The flush behind an OUT or ZEROES is left out where the driver can flush itself.
 *
 * Each operation is asked for twice, and checked: its runs lie inside the guest's memory, and its sectors inside its disk.
 */
#include "disks.h"

#include <stdio.h>
#include <stdlib.h>
#include <string.h>

enum { SECTOR = 512 };

static struct kalyubos *board;
static struct setup setup;

/* The sectors that a cache of the trace's size would keep, the one that was used last at the end. */
static uint64_t *kept;
static size_t kept_len;
static uint64_t calls;

static void need(bool holds, const char *what)
{
    if (!holds) {
        fprintf(stderr, "hosted: %s\n", what);
        exit(3);
    }
}

static bool is_inside(uint64_t start, uint64_t len, uint64_t first, uint64_t size)
{
    return start >= first && len <= size && start - first <= size - len;
}

/* A disk: its guest and its window, and which sectors of the image it has. */
struct place {
    unsigned guest;
    uint8_t window;
    uint64_t first, count;
};

static struct place place_of(unsigned guest, unsigned window)
{
    const struct guest *its = &setup.guests[guest];
    if (window < FURTHER_WINDOW)
        return (struct place){guest, KALYUBOS_BLOCK, its->start, its->count};
    const struct further_device *disk = &its->devices[window - FURTHER_WINDOW];
    return (struct place){guest, (uint8_t)window, its->start + its->count + disk->place, disk->sectors};
}

void open_disks(struct kalyubos *its_board, const struct setup *its_setup)
{
    board = its_board;
    setup = *its_setup;
    calls = kept_len = 0;
    free(kept);
    kept = calloc((size_t)setup.cache + 1, sizeof *kept);
    need(kept != NULL, "no memory");
    for (size_t i = 0; i < setup.guests_len; i++) {
        const struct guest *guest = &setup.guests[i];
        need(guest->hosted || is_inside(guest->start, guest->count + guest->spare, 0, setup.image_len / SECTOR),
             "a disk outside the image");
    }
}

/* ---- the calls of the image, one of which may fail */

/* Whether the next call of the image is done. */
static bool call_image(void)
{
    uint64_t number = calls++;
    for (size_t i = 0; i < setup.fails_len; i++)
        if (setup.fails[i] == number)
            return false;
    return true;
}

/* Lets the cache forget a sector; whether it kept it. */
static bool forget(uint64_t sector)
{
    for (size_t i = 0; i < kept_len; i++) {
        if (kept[i] != sector)
            continue;
        memmove(&kept[i], &kept[i + 1], (--kept_len - i) * sizeof *kept);
        return true;
    }
    return false;
}

static void keep(uint64_t sector)
{
    if (setup.fails_len == 0)
        return; /* then nobody counts the calls */
    forget(sector);
    kept[kept_len++] = sector;
    if (kept_len > setup.cache)
        forget(kept[0]);
}

static bool read_sector(uint64_t sector, uint8_t *into)
{
    if (!forget(sector) && !call_image())
        return false;
    keep(sector);
    memcpy(into, setup.image + sector * SECTOR, SECTOR);
    return true;
}

/* A write that fails has written the first half of the sector. */
static bool write_sector(uint64_t sector, const uint8_t *from, bool keeps)
{
    forget(sector);
    bool done = call_image();
    memcpy(setup.image + sector * SECTOR, from, done ? SECTOR : SECTOR / 2);
    if (done && keeps)
        keep(sector);
    return done;
}

/* ---- an operation */

struct asked {
    struct kalyubos_operation operation;
    struct kalyubos_run runs[KALYUBOS_RUNS];
};

static void ask(const struct place *disk, struct asked *asked)
{
    need(kalyubos_operation(board, (uint8_t)disk->guest, disk->window, 0, &asked->operation, asked->runs, KALYUBOS_RUNS) == KALYUBOS_DONE,
         "nothing is in flight");
}

static bool is_same(const struct asked *a, const struct asked *b)
{
    const struct kalyubos_operation *one = &a->operation, *other = &b->operation;
    return one->kind == other->kind && one->runs == other->runs && one->start == other->start && one->len == other->len &&
           one->stable == other->stable && memcmp(a->runs, b->runs, one->runs * sizeof *a->runs) == 0;
}

/* What was judged when the operation began, and that it is told alike again. */
static void check(const struct place *disk, const struct asked *asked)
{
    static struct asked again;
    const struct guest *its = &setup.guests[disk->guest];
    const struct kalyubos_operation *operation = &asked->operation;
    bool is_of_disk = operation->kind == KALYUBOS_ZEROES;
    uint64_t len = 0, tags = 0;
    ask(disk, &again);
    need(is_same(&again, asked), "the operation is told otherwise when it is asked for again");
    need(operation->kind <= KALYUBOS_ZEROES && operation->runs <= KALYUBOS_RUNS, "no operation");
    for (uint32_t i = 0; i < operation->runs; i++) {
        const struct kalyubos_run *run = &asked->runs[i];
        need(run->len > 0, "an empty run");
        need(is_of_disk ? is_inside(run->at, run->len, 0, disk->count * SECTOR)
                        : is_in_memory(its, run->at, run->len), "a run lies outside");
        len += is_of_disk ? 0 : run->len;
    }
    need(kalyubos_in_flight(board, (uint8_t)disk->guest, disk->window, &tags) == KALYUBOS_DONE && tags == 1, "other tags");
    need(operation->len == len && is_inside(operation->start, len, 0, disk->count * SECTOR), "the bytes lie outside the disk");
}

/* Copies the bytes of a sector between a buffer and the runs, from their byte `from` on. */
static void move_sector(unsigned guest, const struct asked *asked, uint64_t from, uint8_t *bytes, bool put)
{
    uint8_t *at;
    size_t len, done = 0;
    for (const struct kalyubos_run *run = asked->runs; done < SECTOR; run++) {
        if (from >= run->len) {
            from -= run->len;
            continue;
        }
        size_t part = run->len - from < SECTOR - done ? (size_t)(run->len - from) : SECTOR - done;
        need(kalyubos_memory(board, (uint8_t)guest, run->at + from, &at, &len) == KALYUBOS_DONE, "no memory of the guest");
        memcpy(put ? at : bytes + done, put ? bytes + done : at, part);
        done += part;
        from = 0;
    }
}

static bool read_or_write(const struct place *disk, const struct asked *asked)
{
    const struct kalyubos_operation *operation = &asked->operation;
    uint64_t first = disk->first + operation->start / SECTOR;
    uint8_t bytes[SECTOR];
    for (uint64_t at = 0; at < operation->len; at += SECTOR) {
        bool put = operation->kind == KALYUBOS_IN;
        if (!put)
            move_sector(disk->guest, asked, at, bytes, false);
        if (!(put ? read_sector(first + at / SECTOR, bytes) : write_sector(first + at / SECTOR, bytes, true)))
            return false;
        if (put)
            move_sector(disk->guest, asked, at, bytes, true);
    }
    return true;
}

static bool write_zeroes(const struct place *disk, const struct asked *asked)
{
    static const uint8_t zeros[SECTOR];
    for (uint32_t i = 0; i < asked->operation.runs; i++) {
        uint64_t first = disk->first + asked->runs[i].at / SECTOR;
        for (uint64_t sector = 0; sector < asked->runs[i].len / SECTOR; sector++)
            if (!write_sector(first + sector, zeros, false))
                return false;
    }
    return true;
}

static bool perform(const struct place *disk, const struct asked *asked)
{
    const struct kalyubos_operation *operation = &asked->operation;
    bool done = operation->kind == KALYUBOS_ZEROES ? write_zeroes(disk, asked) : read_or_write(disk, asked);
    bool flushes = operation->kind == KALYUBOS_FLUSH || operation->stable;
    return done && (!flushes || call_image());
}

uint32_t serve_disk(unsigned guest, unsigned window, uint32_t answer, struct kalyubos_pending *pending)
{
    static struct asked asked;
    while (answer == KALYUBOS_IO) {
        struct place disk = place_of(guest, window);
        ask(&disk, &asked);
        check(&disk, &asked);
        bool done = perform(&disk, &asked);
        answer = kalyubos_completed(board, (uint8_t)guest, disk.window, 0, !done, pending);
    }
    return answer;
}
