/*
 * Which calls touch a guest's memory: kalyubos_write to QueueNotify, kalyubos_input, kalyubos_go_on, kalyubos_completed,
 * kalyubos_release, the two that copy, and four of a further device. The host lends the memory and forbids each access to it,
 * so that one ends the program. Then it makes every other call: at each step of a driver's bring-up, with a service paused,
 * with a disk at work. Children show that the eleven calls do touch it.
 */
#define _GNU_SOURCE
#include <signal.h>
#include <stdio.h>
#include <stdlib.h>
#include <string.h>
#include <sys/mman.h>
#include <sys/resource.h>
#include <sys/wait.h>
#include <unistd.h>

#include "kalyubos.h"

enum { LEN = 0x10000, SECTORS = 2, IMAGE = SECTORS * 512, OUTLET = 64, SNAPSHOT = 4096 };
static const uint64_t MEMORY = 0x80000000;

/* Where both windows have their queue, and what its one chain, of a request or of console bytes, consists of. */
enum { TABLE = 0x100, AVAILABLE = 0x200, USED = 0x300, HEADER = 0x400, DATA = 0x800, END = 0xc00, NEXT = 1, WRITE = 2 };
enum { NOTIFY = 0x050, QUEUE_SEL = 0x030, STATUS = 0x070, EMERGENCY = 0x108, CONFIG_END = 0x140 };

/* The windows of the guest's further devices, and how many windows it has. */
enum { ENTROPY = KALYUBOS_DEVICE, CARD, DISK, WINDOWS };

static struct kalyubos board;
static struct kalyubos_pending pending;
static uint8_t *memory;

static void need(bool holds, const char *what)
{
    if (!holds) {
        fprintf(stderr, "untouched: %s\n", what);
        exit(1);
    }
}

static void done(uint32_t answer, const char *what)
{
    if (answer != KALYUBOS_DONE)
        fprintf(stderr, "untouched: %s: %s\n", what, kalyubos_answer(answer));
    need(answer == KALYUBOS_DONE, "refused");
}

static void forbid(bool all)
{
    need(mprotect(memory, LEN, all ? PROT_NONE : PROT_READ | PROT_WRITE) == 0, "mprotect");
}

static uint32_t set(uint8_t window, uint16_t offset, uint8_t width, uint32_t value)
{
    return kalyubos_write(&board, 0, window, offset, width, value, &pending);
}

/* ---- boards, and what a driver does */

enum kind { OF_IMAGE, HOSTED };

/* A board of one guest, of whose chains a call serves one. */
static void make(enum kind kind)
{
    static const uint8_t image[IMAGE];
    struct kalyubos_slot slot = {
        .size = sizeof slot, .regions = { { MEMORY, LEN } }, .count = SECTORS, .cols = 80, .rows = 25, .outlet = OUTLET,
        .hosted = kind == HOSTED, .depth = 2,
        .devices = { { .kind = KALYUBOS_ENTROPY }, { .kind = KALYUBOS_NETWORK, .mtu = 1500 },
                     { .kind = KALYUBOS_DISK, .sectors = SECTORS, .depth = 2 } },
    };
    struct kalyubos_loan loan = { memory, LEN };
    struct kalyubos_config config = kalyubos_config_of(&slot, 1);
    config.loans = &loan;
    config.loans_len = 1;
    config.chains = 1;
    if (kind == OF_IMAGE) {
        config.image = image;
        config.image_len = sizeof image;
    }
    done(kalyubos_create(&board, &config), "create");
}

/* The features of a driver with split rings, and of one with packed rings, both with event indices. */
enum { RINGS = 2 };
static const uint32_t HIGH_FEATURES[RINGS] = { 1, 5 }, LOW_FEATURES = 0x30000000;

/* A driver's bring-up (3.1.1, 4.2.3.2): a step is an offset and a value. */
enum { STEPS = 18 };

static void bring_up(uint8_t window, uint32_t queue, int ring, int steps)
{
    const uint32_t at = (uint32_t)MEMORY;
    const uint32_t all[STEPS][2] = {
        { STATUS, 0 }, { STATUS, 1 }, { STATUS, 3 }, { 0x24, 0 }, { 0x20, LOW_FEATURES }, { 0x24, 1 },
        { 0x20, HIGH_FEATURES[ring] }, { STATUS, 11 }, { QUEUE_SEL, queue }, { 0x38, 4 }, { 0x80, at + TABLE },
        { 0x84, 0 }, { 0x90, at + AVAILABLE }, { 0x94, 0 }, { 0xa0, at + USED }, { 0xa4, 0 }, { 0x44, 1 }, { STATUS, 15 },
    };
    for (int i = 0; i < steps; i++)
        done(set(window, (uint16_t)all[i][0], 4, all[i][1]), "a driver's step");
}

struct descriptor {
    uint64_t addr;
    uint32_t len;
    uint16_t flags, next;
};

/* Puts so many chains on offer in a split ring: each a read of sector 0, or room for what is typed to the console. */
static void offer(uint8_t window, uint16_t count)
{
    const struct descriptor request[] = { { MEMORY + HEADER, 16, NEXT, 1 }, { MEMORY + DATA, 512, NEXT | WRITE, 2 },
                                          { MEMORY + END, 1, WRITE, 0 } };
    const struct descriptor room = { MEMORY + DATA, 512, WRITE, 0 };
    memset(memory, 0, LEN);
    if (window == KALYUBOS_BLOCK || window == DISK)
        memcpy(memory + TABLE, request, sizeof request);
    else
        memcpy(memory + TABLE, &room, sizeof room);
    memcpy(memory + AVAILABLE + 2, &count, sizeof count);
}

/* ---- the calls that touch no memory */

static void read_all(uint32_t answer)
{
    uint32_t value;
    for (uint8_t window = 0; window < WINDOWS; window++)
        for (uint32_t offset = 0; offset <= 0x1000; offset++)
            for (uint8_t width = 1; width <= 4; width *= 2)
                need(kalyubos_read(&board, 0, window, (uint16_t)offset, width, &value) == answer, "read");
}

/* What is asked at any time, also in a pause. */
static void ask_always(void)
{
    uint8_t block, console, out[OUTLET], *bytes;
    bool disturbed;
    size_t len;
    struct kalyubos_counters counters;
    struct kalyubos_fault fault;
    uint32_t lines;
    uint64_t tags;
    done(kalyubos_interrupts(&board, 0, &block, &console), "interrupts");
    done(kalyubos_lines(&board, 0, &lines), "lines");
    done(kalyubos_disturbed(&board, 0, &disturbed), "disturbed");
    done(kalyubos_counters(&board, 0, &counters), "counters");
    done(kalyubos_last_fault(&board, 0, KALYUBOS_BLOCK, &fault), "last_fault");
    done(kalyubos_in_flight(&board, 0, KALYUBOS_BLOCK, &tags), "in_flight");
    done(kalyubos_in_flight(&board, 0, DISK, &tags), "in_flight of the further disk");
    done(kalyubos_take_output(&board, 0, out, sizeof out, &len), "take_output");
    kalyubos_memory(&board, 0, MEMORY, &bytes, &len);
}

/* What the host says of a disk, where there is nothing to say, or in a pause. */
static void say_of_disk(uint8_t window, uint32_t answer)
{
    need(kalyubos_drop(&board, 0, window, &pending) == answer, "drop");
    need(kalyubos_hold(&board, 0, window, &pending) == answer, "hold");
    need(kalyubos_release(&board, 0, window, &pending) == answer, "release");
}

/* The operations that are in flight: both, or none. */
static void ask_operations(uint8_t window, uint32_t answer)
{
    struct kalyubos_operation operation;
    struct kalyubos_run runs[KALYUBOS_RUNS];
    for (uint8_t tag = 0; tag < 2; tag++)
        need(kalyubos_operation(&board, 0, window, tag, &operation, runs, KALYUBOS_RUNS) == answer, "operation");
}

static void ask_image(uint32_t answer)
{
    static uint8_t copy[IMAGE];
    const uint8_t *bytes;
    size_t len;
    need(kalyubos_image(&board, &bytes, &len) == answer, "image");
    need(kalyubos_image_len(&board, &len) == answer, "image_len");
    need(kalyubos_read_image(&board, 0, copy, IMAGE) == answer, "read_image");
}

/* Saves the guest, changes its devices, and restores them. */
static void save_and_restore(void)
{
    uint8_t snapshot[SNAPSHOT];
    size_t len, written;
    done(kalyubos_saved_len(&board, 0, &len), "saved_len");
    done(kalyubos_save(&board, 0, snapshot, sizeof snapshot, &written), "save");
    done(kalyubos_resize(&board, 0, 100, 30, &pending), "resize");
    for (uint8_t window = KALYUBOS_BLOCK; window <= KALYUBOS_CONSOLE; window++)
        done(set(window, STATUS, 4, 0), "a reset");
    done(kalyubos_restore(&board, 0, snapshot, written, &pending), "restore");
}

static const uint32_t VALUES[] = { 0, 1, 2, 3, 4, 8, 11, 15, 64, 128, 256, 0x80000100, 0xffffffff };
enum { VALUES_LEN = sizeof VALUES / sizeof *VALUES };

/* A write. If the outlet is full, it is emptied. */
static void try(uint8_t window, uint16_t offset, uint8_t width, uint32_t value)
{
    uint32_t answer = set(window, offset, width, value);
    if (answer == KALYUBOS_NO_ROOM)
        ask_always();
    need(answer == KALYUBOS_DONE || answer == KALYUBOS_NO_ROOM || answer == KALYUBOS_BUSY, "write");
}

/* Each register but QueueNotify is written, with each of the values, behind so many steps of a bring-up. */
static void write_behind(uint8_t window, uint32_t queue, int ring, int steps)
{
    for (uint16_t offset = 0; offset < CONFIG_END; offset += 4)
        for (int i = 0; i < VALUES_LEN && offset != NOTIFY; i++) {
            bring_up(window, queue, ring, steps);
            try(window, offset, 4, VALUES[i]);
        }
}

/* Each queue of each window. */
static const struct {
    uint8_t window;
    uint32_t queue;
} QUEUES[] = { { KALYUBOS_CONSOLE, 0 }, { KALYUBOS_CONSOLE, 1 }, { KALYUBOS_BLOCK, 0 }, { ENTROPY, 0 }, { CARD, 0 }, { CARD, 1 },
             { DISK, 0 } };
enum { QUEUES_LEN = sizeof QUEUES / sizeof *QUEUES };

static void write_all(void)
{
    for (int i = 0; i < QUEUES_LEN; i++)
        for (int ring = 0; ring < RINGS; ring++)
            for (int steps = 1; steps <= STEPS; steps++) {
                write_behind(QUEUES[i].window, QUEUES[i].queue, ring, steps);
                bring_up(QUEUES[i].window, QUEUES[i].queue, ring, steps);
                for (int up = 0; up < 2; up++)
                    done(kalyubos_set_link(&board, 0, CARD, up), "set_link");
                save_and_restore();
            }
}

/* Writes of all windows, of each offset and width, but to Status. */
static void write_on(void)
{
    for (uint8_t window = 0; window < WINDOWS; window++)
        for (uint16_t offset = 0; offset < CONFIG_END; offset++)
            for (uint8_t width = 1; width <= 4; width *= 2)
                if (offset != NOTIFY && offset != STATUS)
                    try(window, offset, width, 1);
}

static void say(const char *when)
{
    printf("%s: no other call touches memory\n", when);
}

/* ---- a board of each kind in each state */

/* Drivers bring up each queue, with split and with packed rings, while `ls` waits to be read. */
static void while_drivers_begin(enum kind kind)
{
    size_t took;
    offer(KALYUBOS_CONSOLE, 1);
    forbid(true);
    make(kind);
    done(kalyubos_input(&board, 0, (const uint8_t *)"ls", 2, &took, &pending), "input without a queue");
    write_all();
    write_on();
    read_all(KALYUBOS_DONE);
    ask_always();
    ask_operations(KALYUBOS_BLOCK, KALYUBOS_IDLE);
    ask_operations(DISK, KALYUBOS_IDLE);
    if (kind == OF_IMAGE)
        say_of_disk(KALYUBOS_BLOCK, KALYUBOS_IDLE);
    ask_image(kind == HOSTED ? KALYUBOS_NO_IMAGE : KALYUBOS_DONE);
    done(kalyubos_destroy(&board), "destroy");
    say(kind == HOSTED ? "hosted board, bring-up" : "image board, bring-up");
    forbid(false);
}

/* A further disk begins an operation with each call. */
static void begins_two(void)
{
    uint64_t tags;
    need(kalyubos_in_flight(&board, 0, DISK, &tags) == KALYUBOS_DONE && tags == 1, "the first operation");
    done(kalyubos_go_on(&board, 0, &pending), "the second request");
    need(kalyubos_in_flight(&board, 0, DISK, &tags) == KALYUBOS_DONE && tags == 3, "both operations");
}

/* Two requests are on offer. Leaves both in flight, or over an image a service paused, since a call serves one. */
static void notify_disk(enum kind kind, uint8_t window)
{
    make(kind);
    bring_up(window, 0, 0, STEPS);
    offer(window, 2);
    need(set(window, NOTIFY, 4, 0) == (kind == HOSTED && window == KALYUBOS_BLOCK ? KALYUBOS_IO : KALYUBOS_MORE), "a notify");
    if (window == DISK)
        begins_two();
}

static void while_a_disk_works(uint8_t window, const char *when)
{
    notify_disk(HOSTED, window);
    forbid(true);
    read_all(KALYUBOS_DONE);
    write_on();
    ask_always();
    ask_operations(window, KALYUBOS_DONE);
    need(set(window, STATUS, 4, 0) == KALYUBOS_BUSY, "a reset in flight");
    done(kalyubos_resize(&board, 0, 80, 25, &pending), "resize");
    done(kalyubos_hold(&board, 0, window, &pending), "hold");
    need(kalyubos_hold(&board, 0, window, &pending) == KALYUBOS_IDLE, "a hold of a held disk");
    done(kalyubos_drop(&board, 0, window, &pending), "drop");
    need(kalyubos_drop(&board, 0, window, &pending) == KALYUBOS_IDLE, "a drop of nothing");
    ask_operations(window, KALYUBOS_IDLE);
    save_and_restore();
    done(kalyubos_destroy(&board), "destroy");
    say(when);
    forbid(false);
}

static void in_a_pause(void)
{
    notify_disk(OF_IMAGE, KALYUBOS_BLOCK);
    forbid(true);
    read_all(KALYUBOS_BUSY);
    write_on();
    ask_always();
    say_of_disk(KALYUBOS_BLOCK, KALYUBOS_BUSY);
    say_of_disk(DISK, KALYUBOS_BUSY);
    done(kalyubos_destroy(&board), "destroy");
    say("image board, a paused service");
    forbid(false);
}

/* ---- the calls that do */

static void notify(void)
{
    (void)!set(KALYUBOS_BLOCK, NOTIFY, 4, 0);
}

static void type(void)
{
    size_t took;
    (void)!kalyubos_input(&board, 0, (const uint8_t *)"ls", 2, &took, &pending);
}

static void go_on(void)
{
    (void)!kalyubos_go_on(&board, 0, &pending);
}

static void complete(void)
{
    (void)!kalyubos_completed(&board, 0, KALYUBOS_BLOCK, 0, false, &pending);
}

static void release(void)
{
    (void)!kalyubos_release(&board, 0, KALYUBOS_BLOCK, &pending);
}

static void complete_further(void)
{
    (void)!kalyubos_completed(&board, 0, DISK, 0, false, &pending);
}

static void release_further(void)
{
    (void)!kalyubos_release(&board, 0, DISK, &pending);
}

static void copy_out(void)
{
    uint8_t byte;
    kalyubos_read_memory(&board, 0, MEMORY, &byte, 1);
}

static void copy_in(void)
{
    kalyubos_write_memory(&board, 0, MEMORY, (const uint8_t *)"", 1);
}

static void supply(void)
{
    size_t taken;
    (void)!kalyubos_supply(&board, 0, ENTROPY, (const uint8_t *)"random", 6, &taken);
}

static void receive(void)
{
    bool taken;
    (void)!kalyubos_receive(&board, 0, CARD, (const uint8_t *)"a frame", 7, &taken);
}

static void take_frame(void)
{
    uint8_t frame[512];
    size_t len;
    (void)!kalyubos_take_frame(&board, 0, CARD, frame, sizeof frame, &len);
}

static void ask_card(void)
{
    struct kalyubos_device_pending card;
    kalyubos_device_pending(&board, 0, CARD, &card);
}

/* Makes a call in a child, whose memory is forbidden: it must be ended by SIGSEGV. */
static void faults(const char *name, void (*call)(void))
{
    int status;
    pid_t child = fork();
    need(child >= 0, "fork");
    if (child == 0) {
        const struct rlimit no_core = { 0, 0 };
        setrlimit(RLIMIT_CORE, &no_core);
        forbid(true);
        call();
        _exit(0);
    }
    need(waitpid(child, &status, 0) == child, "waitpid");
    printf("%s: %s memory\n", name, WIFSIGNALED(status) && WTERMSIG(status) == SIGSEGV ? "touches" : "doesn't touch");
}

static void control(void)
{
    make(OF_IMAGE);
    bring_up(KALYUBOS_BLOCK, 0, 0, STEPS);
    bring_up(KALYUBOS_CONSOLE, 0, 0, STEPS);
    offer(KALYUBOS_BLOCK, 1);
    faults("a write to QueueNotify", notify);
    faults("input", type);
    faults("read_memory", copy_out);
    faults("write_memory", copy_in);
    done(kalyubos_destroy(&board), "destroy");
    notify_disk(OF_IMAGE, KALYUBOS_BLOCK);
    faults("go_on", go_on);
    done(kalyubos_destroy(&board), "destroy");
    notify_disk(HOSTED, KALYUBOS_BLOCK);
    faults("completed", complete);
    done(kalyubos_hold(&board, 0, KALYUBOS_BLOCK, &pending), "hold");
    done(kalyubos_completed(&board, 0, KALYUBOS_BLOCK, 0, false, &pending), "completed");
    faults("release", release);
    done(kalyubos_destroy(&board), "destroy");
    notify_disk(OF_IMAGE, DISK);
    faults("completed, of a further disk", complete_further);
    done(kalyubos_hold(&board, 0, DISK, &pending), "hold");
    done(kalyubos_completed(&board, 0, DISK, 0, false, &pending), "completed");
    faults("release, of a further disk", release_further);
    done(kalyubos_destroy(&board), "destroy");
}

/* A card's driver has room for a frame, or has sent one. */
static void control_devices(void)
{
    make(OF_IMAGE);
    bring_up(ENTROPY, 0, 0, STEPS);
    bring_up(CARD, 0, 0, STEPS);
    offer(CARD, 1);
    faults("supply", supply);
    faults("receive", receive);
    faults("device_pending", ask_card);
    bring_up(CARD, 1, 0, STEPS);
    offer(CARD, 1);
    const struct descriptor sent = { MEMORY + DATA, 512, 0, 0 };
    memcpy(memory + TABLE, &sent, sizeof sent);
    done(set(CARD, NOTIFY, 4, 1), "a frame is sent");
    faults("take_frame", take_frame);
    done(kalyubos_destroy(&board), "destroy");
}

int main(void)
{
    need(kalyubos_version() == KALYUBOS_VERSION, "the library is of another version than the header");
    memory = mmap(NULL, LEN, PROT_READ | PROT_WRITE, MAP_PRIVATE | MAP_ANONYMOUS, -1, 0);
    need(memory != MAP_FAILED, "mmap");
    setvbuf(stdout, NULL, _IOLBF, BUFSIZ);
    while_drivers_begin(OF_IMAGE);
    while_drivers_begin(HOSTED);
    while_a_disk_works(KALYUBOS_BLOCK, "hosted board, a disk at work");
    while_a_disk_works(DISK, "hosted board, a further disk at work");
    in_a_pause();
    control();
    control_devices();
    return munmap(memory, LEN);
}
