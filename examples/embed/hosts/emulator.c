/*
 * A host over a CPU emulator, the Unicorn engine: two RISC-V CPUs run the program of guest.S in turns, each as a guest
 * of its own. The engine maps the board's memory of a guest, with the program in it, so a CPU's loads and stores there
 * need no call; those at its windows become one each.
 *
 * `emulator hosted` has no image: each disk is a file of its own, which file_disk.c reads while both guests run on.
 */
#define _GNU_SOURCE
#include <poll.h>
#include <stdio.h>
#include <stdlib.h>
#include <string.h>
#include <unicorn/unicorn.h>
#include <unistd.h>

#include "file_disk.h"
#include "guest.h"

/* Where a guest finds what, in physical addresses. */
static const uint64_t WINDOWS = 0x0a000000, MEMORY = 0x80000000, PROGRAM = 0x80010000;

enum { PAGE = 0x1000, MEMORY_LEN = 0x20000, OUTLET = 64, GUESTS = 2, TURN = 20, TURNS = 1000, DISK_LEN = 2 * 512, DEPTH = 4 };
enum { CHAINS = 1 /* that a call serves */ };

struct guest {
    uint8_t slot;
    uc_engine *cpu;
    uint64_t at;    /* the address of its next instruction */
    uc_err ended;   /* what its CPU couldn't go on from, if anything */
    FILE *terminal; /* what its console put out */
    struct file_disk disk; /* where the host serves it, */
};

static const char *const DISKS[GUESTS] = { "the first half of the image\n", "the second half\n" };

static struct kalyubos board;

static void must(uint32_t answer, const char *what)
{
    if (answer != KALYUBOS_DONE) {
        fprintf(stderr, "%s: %s\n", what, kalyubos_answer(answer));
        exit(1);
    }
}

static void cpu_must(uc_err answer, const char *what)
{
    if (answer != UC_ERR_OK) {
        fprintf(stderr, "%s: %s\n", what, uc_strerror(answer));
        exit(1);
    }
}

/* ---- what a CPU's loads and stores at its windows come to: offsets are from the first window's beginning */

static uint64_t window_load(uc_engine *cpu, uint64_t offset, unsigned width, void *user)
{
    const struct guest *guest = user;
    uint32_t value;
    (void)cpu;
    must(kalyubos_read(&board, guest->slot, offset / PAGE, offset % PAGE, width, &value), "read");
    return value;
}

/* The guest's terminal takes what its console put out, and tells whether there was any. */
static bool show(const struct guest *guest)
{
    uint8_t out[OUTLET];
    size_t taken;
    must(kalyubos_take_output(&board, guest->slot, out, sizeof out, &taken), "take_output");
    fwrite(out, 1, taken, guest->terminal);
    return taken != 0;
}

/* ---- a disk that the host serves */

static void open_disk(struct guest *guest)
{
    char path[] = "/tmp/kalyubos-emulator-XXXXXX";
    int file = mkstemp(path);
    size_t len = strlen(DISKS[guest->slot]);
    const char *wrong = "can't be written";
    if (file >= 0 && ftruncate(file, DISK_LEN) == 0 && write(file, DISKS[guest->slot], len) == (ssize_t)len)
        wrong = file_disk_open(&guest->disk, &board, guest->slot, KALYUBOS_BLOCK, DEPTH, path, DISK_LEN, false, &file_thread);
    if (wrong != NULL) {
        fprintf(stderr, "%s: %s\n", path, wrong);
        exit(1);
    }
    close(file);
    unlink(path);
}

/* What the disk came to, which may begin further operations. */
static void go_on_with_disk(struct guest *guest)
{
    struct kalyubos_pending pending;
    uint8_t tag;
    bool failed;
    while (file_disk_go_on(&guest->disk, &tag, &failed)) {
        uint32_t answer = kalyubos_completed(&board, guest->slot, KALYUBOS_BLOCK, tag, failed, &pending);
        if (answer == KALYUBOS_IO)
            (void)file_disk_begin(&guest->disk); /* the loop tells what the kernel doesn't take */
        else
            must(answer, "completed");
    }
}

/* Between two turns, and where a store waits for it: at most a moment, in which the disk may have ended. */
static void look_at_disk(struct guest *guest)
{
    struct pollfd wake = { .fd = guest->disk.ready, .events = POLLIN };
    if (guest->disk.begun != 0 && poll(&wake, 1, 1) > 0)
        go_on_with_disk(guest);
}

/* ---- stores */

/*
 * A store. Where its service pauses, it goes on at once: a host with an order of turns would end the guest's here. Where the
 * console has no room for what comes of it, room is made, and the same store is made again; what is longer than the whole
 * outlet is never put out, which no other guest sees. A machine with interrupt lines sets them by the words in `pending`;
 * these guests wait at their rings.
 */
static void window_store(uc_engine *cpu, uint64_t offset, unsigned width, uint64_t value, void *user)
{
    struct guest *guest = user;
    struct kalyubos_pending pending;
    uint32_t answer;
    (void)cpu;
    do {
        answer = kalyubos_write(&board, guest->slot, offset / PAGE, offset % PAGE, width, value, &pending);
        while (answer == KALYUBOS_MORE)
            answer = kalyubos_go_on(&board, guest->slot, &pending);
        if (answer == KALYUBOS_BUSY)
            look_at_disk(guest);
    } while (answer == KALYUBOS_BUSY || (answer == KALYUBOS_NO_ROOM && show(guest)));
    if (answer == KALYUBOS_IO) {
        if (!file_disk_begin(&guest->disk))
            go_on_with_disk(guest);
    } else if (answer != KALYUBOS_NO_ROOM) {
        must(answer, "write");
    }
}

/* ---- the machine */

/* A guest's memory is the board's, where it lies; heap.c aligns it to pages, as the engine wants it. */
static void map_memory(const struct guest *guest)
{
    uint8_t *bytes;
    size_t len;
    must(kalyubos_memory(&board, guest->slot, MEMORY, &bytes, &len), "memory");
    memcpy(bytes + (PROGRAM - MEMORY), GUEST, sizeof GUEST);
    cpu_must(uc_mem_map_ptr(guest->cpu, MEMORY, len, UC_PROT_ALL, bytes), "the memory");
}

static void power_on(struct guest *guest, uint8_t slot)
{
    guest->slot = slot;
    guest->at = PROGRAM;
    guest->terminal = tmpfile();
    if (guest->terminal == NULL) {
        perror("a terminal");
        exit(1);
    }
    cpu_must(uc_open(UC_ARCH_RISCV, UC_MODE_RISCV64, &guest->cpu), "a CPU");
    cpu_must(uc_mmio_map(guest->cpu, WINDOWS, 2 * PAGE, window_load, guest, window_store, guest), "the windows");
    map_memory(guest);
}

/* Some instructions of the guest; false where its program is at its end, or its CPU can't go on. */
static bool turn(struct guest *guest)
{
    const uint64_t end = PROGRAM + sizeof GUEST;
    if (guest->at == end || guest->ended != UC_ERR_OK)
        return false;
    look_at_disk(guest);
    guest->ended = uc_emu_start(guest->cpu, guest->at, end, 0, TURN);
    cpu_must(uc_reg_read(guest->cpu, UC_RISCV_REG_PC, &guest->at), "the program counter");
    return true;
}

static void report(const struct guest *guest)
{
    uint64_t failed;
    uint8_t block, console;
    bool disturbed;
    cpu_must(uc_reg_read(guest->cpu, UC_RISCV_REG_A0, &failed), "a0");
    must(kalyubos_interrupts(&board, guest->slot, &block, &console), "interrupts");
    must(kalyubos_disturbed(&board, guest->slot, &disturbed), "disturbed");
    if (guest->ended != UC_ERR_OK)
        printf("guest %u: ended: %s\n", guest->slot, uc_strerror(guest->ended));
    else if (guest->at != PROGRAM + sizeof GUEST)
        printf("guest %u: still at %llx\n", guest->slot, (unsigned long long)guest->at);
    else if (failed != 0)
        printf("guest %u: step %u failed\n", guest->slot, (unsigned)failed);
    else
        printf("guest %u: done\n", guest->slot);
    printf("console: ");
    while (show(guest))
        continue;
    rewind(guest->terminal);
    for (int byte; (byte = getc(guest->terminal)) != EOF;)
        putchar(byte);
    printf("interrupts: %u and %u, disturbed: %d\n", block, console, disturbed);
}

/* A board of both guests, over an image of both disks or with a file for each. */
static void create(struct guest *guests, bool hosted)
{
    static uint8_t image[GUESTS * DISK_LEN];
    struct kalyubos_slot slots[GUESTS] = {
        { .size = sizeof *slots, .regions = { { MEMORY, MEMORY_LEN } }, .start = 0, .count = 2, .cols = 80, .rows = 25,
          .outlet = OUTLET, .hosted = hosted, .depth = DEPTH, .identity = "first half" },
        { .size = sizeof *slots, .regions = { { MEMORY, MEMORY_LEN } }, .start = 2, .count = 2, .cols = 80, .rows = 25,
          .outlet = OUTLET, .hosted = hosted, .depth = DEPTH, .identity = "second half" },
    };
    struct kalyubos_config config = kalyubos_config_of(slots, GUESTS);
    for (uint8_t slot = 0; slot < GUESTS; slot++) {
        guests[slot].slot = slot;
        strcpy((char *)image + slot * DISK_LEN, DISKS[slot]);
    }
    config.chains = CHAINS;
    if (!hosted) {
        config.image = image;
        config.image_len = sizeof image;
    }
    must(kalyubos_create(&board, &config), "create");
    for (unsigned i = 0; i < GUESTS && hosted; i++)
        open_disk(&guests[i]);
}

int main(int words_len, char **words)
{
    static struct guest guests[GUESTS];
    bool hosted = words_len == 2 && strcmp(words[1], "hosted") == 0;
    create(guests, hosted);
    for (uint8_t slot = 0; slot < GUESTS; slot++)
        power_on(&guests[slot], slot);

    /* The guests run in turns, until none goes on. */
    bool runs = true;
    for (unsigned turns = 0; runs && turns < TURNS; turns++) {
        runs = false;
        for (unsigned i = 0; i < GUESTS; i++)
            runs = turn(&guests[i]) || runs;
    }

    for (unsigned i = 0; i < GUESTS; i++) {
        report(&guests[i]);
        cpu_must(uc_close(guests[i].cpu), "uc_close");
        if (hosted)
            file_disk_close(&guests[i].disk);
    }
    must(kalyubos_destroy(&board), "destroy");
    return 0;
}
