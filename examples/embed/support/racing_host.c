#define _GNU_SOURCE
#include "racing_host.h"

#include <inttypes.h>
#include <stdio.h>
#include <stdlib.h>
#include <string.h>
#include <sys/mman.h>
#include <sys/syscall.h>
#include <unistd.h>

enum { CHAINS = 8 /* that a service serves at a time */, OUTLET = 1024, MTU = 1500 };
/* Of the watch: the microseconds between two turns, and the seconds in which a guest must go on. */
enum { TURN = 2000, PATIENCE = 30 };

static void need(const struct racing_host *host, bool holds, const char *what, uint64_t number)
{
    if (!holds) {
        fprintf(stderr, "%s: %s: %" PRIu64 "\n", host->name, what, number);
        exit(1);
    }
}

/* ---- the guest's memory: two regions with pages before, between and behind them that nobody may touch */

static void make_memory(struct racing_host *host)
{
    int file = memfd_create(host->name, MFD_CLOEXEC);
    need(host, file >= 0 && ftruncate(file, MEMORY_LEN + PAGE) == 0, "no memory", MEMORY_LEN);
    uint8_t *all = mmap(NULL, MEMORY_LEN + PAGE, PROT_NONE, MAP_SHARED, file, 0);
    need(host, all != MAP_FAILED, "no memory", MEMORY_LEN);
    need(host, mprotect(all + LOW, REGION_LEN, PROT_READ | PROT_WRITE) == 0, "no memory", LOW);
    need(host, mprotect(all + HIGH, REGION_LEN, PROT_READ | PROT_WRITE) == 0, "no memory", HIGH);
    host->memory = all;
    host->lent = host->watch != NULL ? host->watch(file, MEMORY_LEN) : all;
    close(file);
}

static struct kalyubos_words words_at(const struct racing_host *host, uint64_t addr)
{
    return (struct kalyubos_words){ (uint64_t *)(host->lent + addr), REGION_LEN / 8 };
}

static bool is_in_memory(const struct kalyubos_run *run)
{
    uint64_t at = run->at >= HIGH ? run->at - HIGH : run->at - LOW;
    return run->len > 0 && at < REGION_LEN && run->len <= REGION_LEN - at;
}

static bool is_on_disk(uint64_t at, uint64_t len)
{
    return at <= DISK_LEN && len <= DISK_LEN - at;
}

/* ---- operations */

/* Judges an operation that begins, whatever the guest is. */
static void judge(const struct racing_host *host, const struct flight *flight)
{
    const struct kalyubos_operation *it = &flight->operation;
    uint64_t len = 0;
    bool is_moved = it->kind == KALYUBOS_IN || it->kind == KALYUBOS_OUT;
    need(host, it->kind <= KALYUBOS_ZEROES && it->runs <= KALYUBOS_RUNS, "an operation of no kind", it->kind);
    for (uint32_t i = 0; i < it->runs; i++) {
        const struct kalyubos_run *run = &flight->runs[i];
        if (is_moved)
            need(host, is_in_memory(run), "a run outside the guest's memory", run->at);
        else
            need(host, run->len > 0 && is_on_disk(run->at, run->len), "a run outside the disk", run->at);
        len += run->len;
    }
    need(host, is_on_disk(it->start, it->len) && (!is_moved || len == it->len), "bytes outside the disk", it->start);
    need(host, it->kind != KALYUBOS_FLUSH || it->runs == 0, "a flush with runs", it->runs);
}

/* Begins what is in flight and wasn't begun. The lock is held here and in what follows, but for the moving of bytes. */
static void begin(struct racing_host *host)
{
    uint64_t tags = 0;
    need(host, kalyubos_guest_in_flight(&host->guest, &tags) == KALYUBOS_DONE, "in_flight", 0);
    need(host, (host->begun & ~tags) == 0 && tags >> DEPTH == 0, "a tag that was begun isn't in flight", host->begun);
    for (uint8_t tag = 0; tag < DEPTH; tag++) {
        struct flight *flight = &host->flights[tag];
        if (((tags & ~host->begun) >> tag & 1) == 0)
            continue;
        uint32_t answer = kalyubos_guest_operation(&host->guest, tag, &flight->operation, flight->runs, KALYUBOS_RUNS);
        need(host, answer == KALYUBOS_DONE, "operation", answer);
        judge(host, flight);
        host->begun |= (uint64_t)1 << tag;
        pthread_cond_broadcast(&host->changed);
    }
}

/* ---- the disk: a file of memory, and where it is mapped */

static void make_disk(struct racing_host *host)
{
    host->file = memfd_create("disk", MFD_CLOEXEC);
    need(host, host->file >= 0 && ftruncate(host->file, DISK_LEN) == 0, "no disk", DISK_LEN);
    host->disk = mmap(NULL, DISK_LEN, PROT_READ | PROT_WRITE, MAP_SHARED, host->file, 0);
    need(host, host->disk != MAP_FAILED, "no disk", DISK_LEN);
}

/* Moves a run's bytes from a place of the disk on, or to there, by this thread's own accesses. */
static void move_by_bytes(struct racing_host *host, const struct kalyubos_run *run, uint64_t at, bool is_in)
{
    for (uint64_t k = 0; k < run->len; k++)
        if (is_in)
            store_8((uintptr_t)host->memory, run->at + k, host->disk[at + k]);
        else
            host->disk[at + k] = load_8((uintptr_t)host->memory, run->at + k);
}

/* The same by the kernel. A checker of races doesn't see what is called so, as it sees no other process and no device. */
static void move_by_kernel(struct racing_host *host, const struct kalyubos_run *run, uint64_t at, bool is_in)
{
    long moved = syscall(is_in ? SYS_pread64 : SYS_pwrite64, host->file, host->memory + run->at, run->len, at);
    need(host, moved == (long)run->len, "the kernel moves other bytes", at);
}

/* Does an operation. No call waits for it: the lock isn't held. The disk is this thread's alone. */
static void move(struct racing_host *host, const struct flight *flight)
{
    const struct kalyubos_operation *it = &flight->operation;
    uint64_t at = it->start;
    for (uint32_t i = 0; i < it->runs; at += flight->runs[i++].len) {
        const struct kalyubos_run *run = &flight->runs[i];
        if (it->kind == KALYUBOS_ZEROES)
            memset(host->disk + run->at, 0, run->len);
        else
            (host->operations % 2 ? move_by_kernel : move_by_bytes)(host, run, at, it->kind == KALYUBOS_IN);
        host->bytes += run->len;
    }
    host->kinds |= 1u << it->kind;
}

/* Of a sane guest: the operation is the next step of its sector, and a write's bytes are those of its turn. */
static void judge_step(struct racing_host *host, const struct flight *flight)
{
    static const uint32_t kinds[STEPS] = { KALYUBOS_OUT, KALYUBOS_IN, KALYUBOS_ZEROES, KALYUBOS_IN };
    const struct kalyubos_operation *it = &flight->operation;
    uint64_t start = it->kind == KALYUBOS_ZEROES ? flight->runs[0].at : it->start, sector = start / SECTOR;
    uint64_t len = it->kind == KALYUBOS_ZEROES ? flight->runs[0].len : it->len;
    need(host, start % SECTOR == 0 && len == SECTOR, "an operation of another length, of sector", sector);
    uint32_t step = host->steps[sector]++;
    need(host, it->kind == kinds[step % STEPS], "a request that is lost or served twice, of sector", sector);
    for (unsigned i = 0; i < SECTOR / 8 && it->kind == KALYUBOS_OUT; i++) {
        uint64_t word, expected = pattern(sector, step / STEPS, i);
        memcpy(&word, host->disk + SECTOR * sector + 8 * i, 8);
        need(host, word == expected, "other bytes are written, to sector", sector);
    }
}

/* ---- what follows a call */

/* Takes all that the console put out: of a sane guest the bytes that were typed, in their order. */
static bool show(struct racing_host *host)
{
    uint8_t out[OUTLET];
    size_t taken;
    need(host, kalyubos_guest_take_output(&host->guest, out, sizeof out, &taken) == KALYUBOS_DONE, "take_output", 0);
    for (size_t i = 0; i < taken && !host->control->is_hostile; i++, host->shown++)
        need(host, host->shown < host->control->typed && out[i] == typed_byte(host->shown), "another byte is put out", host->shown);
    host->output += taken;
    return taken > 0;
}

/* Takes all frames that the guest sent: of a sane guest those that it was sent, in their order. Whether a queue of it is due. */
static bool take_frames(struct racing_host *host)
{
    bool is_due = false;
    size_t len = 1;
    while (len > 0) {
        uint32_t answer = kalyubos_guest_take_frame(&host->guest, CARD, host->frame, sizeof host->frame, &len), number = (uint32_t)host->sent;
        need(host, answer == KALYUBOS_DONE || answer == KALYUBOS_MORE, "take_frame", answer);
        is_due |= answer == KALYUBOS_MORE;
        if (len == 0)
            break;
        host->sent++;
        if (host->control->is_hostile)
            continue;
        need(host, number < host->control->frames && len == frame_len(number), "another frame is sent", number);
        for (uint32_t i = 0; i < len; i++)
            need(host, host->frame[i] == frame_byte(number, i), "another byte of a frame is sent", number);
    }
    return is_due;
}

/* Tells the lines of all windows. */
static void tell_lines(struct racing_host *host)
{
    host->interrupts[BLOCK] = host->lines.block;
    host->interrupts[CONSOLE] = host->lines.console;
    for (uint8_t window = ENTROPY; window < WINDOWS; window++) {
        struct kalyubos_device_pending waits;
        need(host, kalyubos_guest_device_pending(&host->guest, window, &waits) == KALYUBOS_DONE, "device_pending", window);
        need(host, waits.frame == 0, "a frame waits that was taken", waits.frame);
        host->interrupts[window] = waits.interrupt;
    }
    host->set_lines(host);
}

/* Whether a call was answered in a way that serves the guest. */
static bool is_served(uint32_t answer)
{
    return answer == KALYUBOS_DONE || answer == KALYUBOS_IO || answer == KALYUBOS_MORE || answer == KALYUBOS_NO_ROOM;
}

/*
 * What follows each call: takes output and frames, begins operations, and goes on with what is due. Between two parts of a service
 * others may call. True where the last call left output, so that one that was answered NO_ROOM can be made again.
 */
static bool settle(struct racing_host *host, uint32_t answer)
{
    bool goes_on = false;
    for (;;) {
        bool has_output = show(host), is_due = take_frames(host) || answer == KALYUBOS_MORE;
        begin(host);
        tell_lines(host);
        host->mores += is_due;
        goes_on |= is_due;
        if (!is_due && !(answer == KALYUBOS_NO_ROOM && goes_on && has_output))
            return has_output;
        pthread_mutex_unlock(&host->lock);
        pthread_mutex_lock(&host->lock);
        answer = kalyubos_guest_go_on(&host->guest, &host->lines);
        need(host, is_served(answer), "go_on", answer);
    }
}

uint32_t racing_host_load(struct racing_host *host, uint8_t window, uint16_t offset, uint8_t width)
{
    uint32_t value = 0;
    pthread_mutex_lock(&host->lock);
    need(host, kalyubos_guest_read(&host->guest, window, offset, width, &value) == KALYUBOS_DONE, "read", offset);
    pthread_mutex_unlock(&host->lock);
    return value;
}

void racing_host_store(struct racing_host *host, uint8_t window, uint16_t offset, uint8_t width, uint32_t value)
{
    uint32_t answer;
    bool has_output;
    pthread_mutex_lock(&host->lock);
    do {
        answer = kalyubos_guest_write(&host->guest, window, offset, width, value, &host->lines);
        need(host, is_served(answer) || (answer == KALYUBOS_BUSY && host->begun != 0), "write", answer);
        has_output = settle(host, answer);
        if (answer == KALYUBOS_BUSY) /* a reset waits for the disk */
            pthread_cond_wait(&host->changed, &host->lock);
    } while (answer == KALYUBOS_BUSY || (answer == KALYUBOS_NO_ROOM && has_output));
    pthread_mutex_unlock(&host->lock);
}

/* Types some of what is left to be typed. The lock is held. */
static void type(struct racing_host *host)
{
    uint8_t text[100];
    size_t took = 0, len = 0, most = 1 + chance(&host->state, sizeof text);
    struct control *control = host->control;
    while (len < most && (control->bytes == 0 || control->typed + len < control->bytes)) {
        text[len] = typed_byte(control->typed + (uint32_t)len);
        len++;
    }
    if (len == 0 || control->stop)
        return;
    uint32_t answer = kalyubos_guest_input(&host->guest, text, len, &took, &host->lines);
    need(host, is_served(answer), "input", answer);
    control->typed += (uint32_t)took;
    settle(host, answer);
}

/* Supplies random bytes, as many as are left. The lock is held. */
static void supply(struct racing_host *host)
{
    uint8_t bytes[100];
    size_t taken = 0, len = 1 + chance(&host->state, sizeof bytes);
    uint64_t most = host->control->drawn_bytes;
    if (most != 0 && len > most - host->supplied)
        len = most - host->supplied;
    if (len == 0)
        return;
    for (size_t i = 0; i < len; i++)
        bytes[i] = drawn_byte((uint32_t)(host->supplied + i));
    uint32_t answer = kalyubos_guest_supply(&host->guest, ENTROPY, bytes, len, &taken);
    need(host, (answer == KALYUBOS_DONE || answer == KALYUBOS_MORE) && taken <= len, "supply", answer);
    host->supplied += taken;
    settle(host, answer);
}

/* Hands the card the next frame, unless it was handed all or has no room. The lock is held. */
static void send(struct racing_host *host)
{
    uint8_t frame[FRAME];
    struct control *control = host->control;
    uint32_t number = control->frames;
    bool is_taken = false;
    if (control->sent_frames != 0 && number >= control->sent_frames)
        return;
    for (uint32_t i = 0; i < frame_len(number); i++)
        frame[i] = frame_byte(number, i);
    uint32_t answer = kalyubos_guest_receive(&host->guest, CARD, frame, frame_len(number), &is_taken);
    need(host, answer == KALYUBOS_DONE || answer == KALYUBOS_MORE, "receive", answer);
    control->frames += is_taken;
    settle(host, answer);
}

/* What comes from outside. The lock is held, but between two parts of a service. */
static void hand_in(struct racing_host *host)
{
    type(host);
    if (!host->control->stop)
        supply(host);
    if (!host->control->stop)
        send(host);
}

/* A hostile guest's disk is put on hold and released, its console resized, and its card's link set. The lock is held. */
static void disturb(struct racing_host *host)
{
    struct kalyubos_fault fault;
    uint32_t answer = kalyubos_guest_last_fault(&host->guest, host->turns % WINDOWS, &fault);
    need(host, answer == KALYUBOS_DONE && fault.kind < 32, "last_fault", answer);
    host->faults |= 1u << fault.kind;
    switch (host->turns++ % 8) {
    case 0: answer = kalyubos_guest_hold(&host->guest, &host->lines); break;
    case 1: answer = kalyubos_guest_release(&host->guest, &host->lines); break;
    case 2: answer = kalyubos_guest_set_link(&host->guest, CARD, chance(&host->state, 2)); break;
    default: answer = kalyubos_guest_resize(&host->guest, (uint16_t)host->turns, 25, &host->lines);
    }
    need(host, is_served(answer) || answer == KALYUBOS_IDLE, "a call of the host", answer);
    settle(host, answer);
}

/* ---- the disk's thread */

static uint8_t some_tag(struct racing_host *host)
{
    uint8_t tag = (uint8_t)chance(&host->state, DEPTH);
    while ((host->begun >> tag & 1) == 0)
        tag = (tag + 1) % DEPTH;
    return tag;
}

/* Gives up all that is in flight of a hostile guest: none of its bytes is being moved. */
static void drop(struct racing_host *host)
{
    host->begun = 0;
    uint32_t answer = kalyubos_guest_drop(&host->guest, &host->lines);
    need(host, is_served(answer), "drop", answer);
    settle(host, answer);
    pthread_cond_broadcast(&host->changed);
}

static void *serve(void *user)
{
    struct racing_host *host = user;
    pthread_mutex_lock(&host->lock);
    for (;;) {
        while (host->begun == 0 && !host->ends)
            pthread_cond_wait(&host->changed, &host->lock);
        if (host->begun == 0)
            break;
        uint8_t tag = some_tag(host);
        if (host->control->is_hostile && chance(&host->state, 64) == 0) {
            drop(host);
            continue;
        }
        pthread_mutex_unlock(&host->lock);
        move(host, &host->flights[tag]);
        if (!host->control->is_hostile)
            judge_step(host, &host->flights[tag]);
        pthread_mutex_lock(&host->lock);
        host->begun &= ~((uint64_t)1 << tag); /* the completion may use it again */
        host->operations++;
        bool failed = host->control->is_hostile && chance(&host->state, 16) == 0;
        uint32_t answer = kalyubos_guest_completed(&host->guest, tag, failed, &host->lines);
        need(host, is_served(answer), "completed", answer);
        settle(host, answer);
        pthread_cond_broadcast(&host->changed);
        hand_in(host);
    }
    pthread_mutex_unlock(&host->lock);
    return NULL;
}

/* ---- a guest's begin and end */

void racing_host_open(struct racing_host *host)
{
    struct kalyubos_slot slot = {
        .size = sizeof slot, .regions = { { LOW, REGION_LEN }, { HIGH, REGION_LEN } }, .count = SECTORS, .cols = 80, .rows = 25,
        .outlet = OUTLET, .hosted = true, .depth = DEPTH, .identity = "racing",
        .devices = { { .kind = KALYUBOS_ENTROPY }, { .kind = KALYUBOS_NETWORK, .mtu = MTU, .mac = { 2, 0, 0, 0, 0, 1 } } },
    };
    make_memory(host);
    make_disk(host);
    struct kalyubos_words words[] = { words_at(host, LOW), words_at(host, HIGH) };
    struct kalyubos_guest_config config = kalyubos_guest_config_of(&slot, words, 2);
    config.chains = CHAINS;
    host->state = 0x94d049bb133111ebu * (host->control->seed + 1);
    need(host, pthread_mutex_init(&host->lock, NULL) == 0 && pthread_cond_init(&host->changed, NULL) == 0, "no lock", 0);
    uint32_t answer = kalyubos_guest_create(&host->guest, &config);
    need(host, answer == KALYUBOS_DONE, "create", answer);
    need(host, pthread_create(&host->disk_thread, NULL, serve, host) == 0, "no thread", 0);
}

/* Of a sane guest that has ended: each of its requests was served once, and used once, and each byte came back. */
static void judge_all(const struct racing_host *host)
{
    const struct control *control = host->control;
    for (uint64_t i = 0; i < SECTORS; i++)
        need(host, host->steps[i] % STEPS == 0, "a request is lost, of sector", i);
    need(host, host->operations == control->done, "another number was served than used", control->done);
    need(host, control->requests == 0 || control->done == control->requests, "other requests were used", control->done);
    need(host, control->requests == 0 || control->typed == control->bytes, "other bytes were typed", control->typed);
    need(host, host->shown == control->typed, "typed bytes didn't come back", host->shown);
    need(host, host->sent == control->frames && control->returned == control->frames, "frames didn't come back", host->sent);
    need(host, control->stop || control->drawn == host->supplied, "random bytes are lost", control->drawn);
}

void racing_host_close(struct racing_host *host)
{
    const struct control *control = host->control;
    pthread_mutex_lock(&host->lock);
    host->ends = true;
    pthread_cond_broadcast(&host->changed);
    pthread_mutex_unlock(&host->lock);
    need(host, pthread_join(host->disk_thread, NULL) == 0, "no end of a thread", 0);
    need(host, kalyubos_guest_destroy(&host->guest) == KALYUBOS_DONE, "destroy", 0);
    need(host, munmap(host->memory, MEMORY_LEN + PAGE) == 0 && munmap(host->disk, DISK_LEN) == 0, "munmap", 0);
    close(host->file);
    if (!control->is_hostile)
        judge_all(host);
    fprintf(stderr, "%s: %" PRIu64 " operations of kinds %#x, %" PRIu64 " bytes moved, %u %s, %u interrupts, ", host->name,
            host->operations, host->kinds, host->bytes, control->notifies,
            control->is_hostile ? "stores to registers" : "notifications", control->interrupts);
    fprintf(stderr, "%" PRIu64 " bytes put out, %" PRIu64 " frames sent, %u random bytes drawn, %" PRIu64 " pauses", host->output,
            host->sent, control->drawn, host->mores);
    fprintf(stderr, control->is_hostile ? ", faults %#x\n" : "\n", host->faults);
}

/* ---- the watch */

/*
 * Ends the process where no request came back for so long, and the guest's CPUs didn't end, or no byte or frame did, though some
 * were to come.
 */
static void need_progress(struct racing_host *host, time_t now)
{
    const struct control *control = host->control;
    const uint32_t back[3] = { control->done, control->echoed, control->returned };
    const bool is_due[3] = { control->requests == 0 || control->done < control->requests, control->echoed < control->typed, control->returned < control->frames };
    const char *const what[3] = { "requests come back no more, behind so many", "bytes come back no more, behind so many",
                                  "frames come back no more, behind so many" };
    for (int i = 0; i < 3 && !control->is_hostile; i++) {
        if (back[i] != host->seen[i] || !is_due[i] || control->ended || host->since[i] == 0)
            host->since[i] = now;
        host->seen[i] = back[i];
        need(host, now - host->since[i] < PATIENCE, what[i], back[i]);
    }
}

/* A turn of the watch: whether the guest's CPUs have ended. */
static bool watch(struct racing_host *host, bool is_over)
{
    struct control *control = host->control;
    need(host, control->failed == 0, "a check of racing_guest.h failed in line", control->failed);
    need_progress(host, time(NULL));
    pthread_mutex_lock(&host->lock);
    if (is_over) /* behind this nothing more is typed */
        control->stop = 1;
    if (!control->ended) {
        hand_in(host);
    }
    if (control->is_hostile)
        disturb(host);
    pthread_mutex_unlock(&host->lock);
    return control->ended;
}

void racing_hosts_watch(struct racing_host *hosts, unsigned len, unsigned seconds)
{
    const time_t start = time(NULL);
    for (unsigned ended = 0; ended < len;) {
        bool is_over = seconds != 0 && time(NULL) - start >= seconds;
        usleep(TURN);
        ended = 0;
        for (unsigned i = 0; i < len; i++)
            ended += watch(&hosts[i], is_over);
    }
}
