/*
 * A disk on a file, in place: what the guest writes stands in the file while its board lives, also where the host is
 * killed. in_place.c maps the file over the board's image. The guest is the host's own code here, as in memory.c.
 */
#define _GNU_SOURCE
#include <signal.h>
#include <stdio.h>
#include <stdlib.h>
#include <string.h>
#include <sys/wait.h>
#include <unistd.h>

#include "in_place.h"

enum { MEMORY_LEN = 0x1000, SECTORS = 3, SECTOR_LEN = 512, IMAGE_LEN = SECTORS * SECTOR_LEN };
static const uint64_t MEMORY = 0x80000000;

/* Where the driver's areas lie, and what it asks for (VIRTIO 1.2, 5.2.6). */
enum { HEADER = 0, STATUS = 16, TABLE = 0x100, AVAIL = 0x200, USED = 0x300, DATA = 0x400 };
enum { IN = 0, OUT = 1, FLUSH = 4, NEXT = 1, WRITE = 2, CHAINS = 4, NOTIFY = 0x50 };

static struct kalyubos board;
static uint8_t *memory;
static uint16_t offered;
static char path[] = "/tmp/kalyubos-image-XXXXXX";

static void need(bool holds, const char *what)
{
    if (!holds) {
        fprintf(stderr, "image: %s\n", what);
        exit(1);
    }
}

/* ---- the host */

static void must(const char *wrong)
{
    if (wrong != NULL) {
        fprintf(stderr, "image: %s %s\n", path, wrong);
        exit(1);
    }
}

static void serve_file(void)
{
    struct kalyubos_slot slot = {
        .size = sizeof slot, .regions = { { MEMORY, MEMORY_LEN } }, .start = 0, .count = SECTORS, .outlet = 8,
    };
    size_t len;
    must(in_place_open(path, IMAGE_LEN));
    struct kalyubos_config config = kalyubos_config_of(&slot, 1);
    config.image = in_place_image();
    config.image_len = IMAGE_LEN;
    need(kalyubos_create(&board, &config) == KALYUBOS_DONE, "create");
    must(in_place_serve(&board));
    need(kalyubos_memory(&board, 0, MEMORY, &memory, &len) == KALYUBOS_DONE, "memory");
}

static void end_board(void)
{
    need(kalyubos_destroy(&board) == KALYUBOS_DONE, "destroy");
    in_place_close();
}

/* A store of the guest. What it wrote to its disk is below the file before it can see that a flush has ended. */
static void set(uint16_t offset, uint32_t value)
{
    struct kalyubos_pending pending;
    need(kalyubos_write(&board, 0, KALYUBOS_BLOCK, offset, 4, value, &pending) == KALYUBOS_DONE, "write");
    if (offset == NOTIFY)
        must(in_place_sync());
}

/* ---- the guest */

static void bring_up(void)
{
    const uint32_t at = (uint32_t)MEMORY;
    const uint32_t steps[][2] = { { 0x70, 1 }, { 0x70, 3 }, { 0x24, 0 }, { 0x20, 1 << 9 }, { 0x24, 1 }, { 0x20, 1 },
                                  { 0x70, 11 }, { 0x38, CHAINS }, { 0x80, at + TABLE }, { 0x90, at + AVAIL },
                                  { 0xa0, at + USED }, { 0x44, 1 }, { 0x70, 15 } };
    for (size_t i = 0; i < sizeof steps / sizeof *steps; i++)
        set((uint16_t)steps[i][0], steps[i][1]);
    offered = 0;
}

/* A request of one sector, or a flush, which has no data. */
static void request(uint32_t type, uint64_t sector)
{
    struct { uint32_t type, reserved; uint64_t sector; } header = { type, 0, sector };
    struct { uint64_t addr; uint32_t len; uint16_t flags, next; } table[3] = {
        { MEMORY + HEADER, sizeof header, NEXT, type == FLUSH ? 2 : 1 },
        { MEMORY + DATA, SECTOR_LEN, NEXT | (type == IN ? WRITE : 0), 2 },
        { MEMORY + STATUS, 1, WRITE, 0 },
    };
    offered++;
    memcpy(memory + HEADER, &header, sizeof header);
    memcpy(memory + TABLE, table, sizeof table);
    memcpy(memory + AVAIL + 2, &offered, sizeof offered);
    memory[STATUS] = 0xff;
    set(NOTIFY, 0);
    need(memory[STATUS] == 0, "a request's status");
}

static void write_sector(uint64_t sector, uint8_t byte)
{
    memset(memory + DATA, byte, SECTOR_LEN);
    request(OUT, sector);
    request(FLUSH, 0);
}

/* ---- what is tried */

/* Another program's look at the file: the first byte of each sector, and whether the others of it are the same. */
static void show_file(const char *when)
{
    uint8_t bytes[IMAGE_LEN];
    FILE *file = fopen(path, "rb");
    need(file != NULL && fread(bytes, 1, sizeof bytes, file) == sizeof bytes && fgetc(file) == EOF, "the file");
    fclose(file);
    printf("%s:", when);
    for (size_t i = 0; i < SECTORS; i++) {
        const uint8_t *sector = bytes + i * SECTOR_LEN;
        need(memcmp(sector, sector + 1, SECTOR_LEN - 1) == 0, "a sector's bytes");
        printf(" %02x", sector[0]);
    }
    putchar('\n');
    fflush(stdout);
}

static void remove_file(void)
{
    remove(path);
}

static void make_file(void)
{
    uint8_t bytes[IMAGE_LEN];
    int file = mkstemp(path);
    memset(bytes, 0x11, sizeof bytes);
    need(file >= 0 && write(file, bytes, sizeof bytes) == (ssize_t)sizeof bytes && close(file) == 0, "a new file");
    need(atexit(remove_file) == 0, "atexit");
}

/* A file that can't be served is refused, and left as it is. */
static void refuse(void)
{
    printf("another length: %s\n", in_place_open(path, IMAGE_LEN + SECTOR_LEN));
    printf("no file: %s\n", in_place_open("", IMAGE_LEN));
    show_file("the file");
}

/* Another host can't have the file meanwhile. */
static void try_beside(void)
{
    pid_t child = fork();
    need(child >= 0, "fork");
    if (child == 0) {
        printf("a second host: %s\n", in_place_open(path, IMAGE_LEN));
        fflush(stdout);
        _exit(0);
    }
    need(waitpid(child, NULL, 0) == child, "the second host");
}

/* A host that is killed in the midst of its run. */
static void be_killed(void)
{
    int status;
    pid_t child = fork();
    need(child >= 0, "fork");
    if (child == 0) {
        serve_file();
        bring_up();
        write_sector(1, 0x22);
        raise(SIGKILL);
    }
    need(waitpid(child, &status, 0) == child && WIFSIGNALED(status), "the host that was to be killed");
    show_file("its host was killed");
}

int main(void)
{
    make_file();
    refuse();
    be_killed();
    serve_file();
    bring_up();
    try_beside();
    request(IN, 1);
    printf("the guest reads %02x\n", memory[DATA]);
    write_sector(2, 0x33);
    show_file("while the board lives");
    end_board();
    show_file("without a board");
    return 0;
}
