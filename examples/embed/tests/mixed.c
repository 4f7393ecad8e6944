/*
 * A board of both kinds of disk: guest 0 has sectors of the image, and the host serves guest 1's disk. While a request
 * of guest 1 is in flight, guest 0's are served at once. Each is told what it is told on a board of its own, and its
 * memory and disk end alike, over memory of the library's and over memory that the host lends.
 *
 * The guests are C as well: a driver's loads and stores are a CPU's exits.
 */
#define _GNU_SOURCE
#include <inttypes.h>
#include <stdio.h>
#include <stdlib.h>
#include <string.h>

#include "kalyubos.h"

enum { GUESTS = 2, IN_IMAGE = 0, BY_HOST = 1, MEMORY_LEN = 0x10000, OUTLET = 64 };
enum { SECTOR_LEN = 512, START = 3, SECTORS = 2, DISK_LEN = SECTORS * SECTOR_LEN, IMAGE_LEN = 8 * SECTOR_LEN };
static const uint64_t MEMORY = 0x80000000;

/* Where a window's queue and buffers lie, in its half of the memory, and what a request asks for (5.2.6). */
enum { HALF = 0x8000, TABLE = 0x1000, AVAILABLE = 0x2000, USED = 0x3000, HEADER = 0x4000, DONE_BYTE = 0x4010 };
enum { DATA = 0x5000, NEXT = 1, WRITE = 2, IN = 0, OUT = 1, NOTIFY = 0x050, STATUS = 0x070, CONFIG = 0x100 };

/* A guest on a board: what it is told, and all that is left of it when the board is gone. */
struct guest {
    struct kalyubos *board;
    uint8_t slot;
    bool hosted;
    uint8_t *memory;
    uint16_t offered[2];
    FILE *telling;
    char *told;
    size_t told_len;
    uint8_t disk[DISK_LEN], left[MEMORY_LEN];
};

static void need(bool holds, const char *what)
{
    if (!holds) {
        fprintf(stderr, "mixed: %s\n", what);
        exit(1);
    }
}

/* ---- the host */

static uint32_t load(struct guest *guest, uint8_t window, uint16_t offset)
{
    uint32_t value;
    need(kalyubos_read(guest->board, guest->slot, window, offset, 4, &value) == KALYUBOS_DONE, "a load");
    return value;
}

/* A store, which is told with its answer and the interrupt words where `what` says for what. */
static uint32_t store(struct guest *guest, uint8_t window, uint16_t offset, uint32_t value, const char *what)
{
    struct kalyubos_pending pending;
    uint32_t answer = kalyubos_write(guest->board, guest->slot, window, offset, 4, value, &pending);
    if (what == NULL)
        need(answer == KALYUBOS_DONE, "a store");
    else
        fprintf(guest->telling, "%s: %s; interrupts %" PRIu32 " and %" PRIu32 ", status %02x\n", what,
                kalyubos_answer(answer), pending.block, pending.console, guest->memory[DONE_BYTE]);
    return answer;
}

/* Does what guest 1's disk is asked for, which is one run, and says so. */
static void finish(struct guest *guest)
{
    struct kalyubos_operation operation;
    struct kalyubos_run run;
    struct kalyubos_pending pending;
    uint64_t tags = 0;
    need(kalyubos_in_flight(guest->board, guest->slot, KALYUBOS_BLOCK, &tags) == KALYUBOS_DONE && tags == 1, "what is in flight");
    need(kalyubos_operation(guest->board, guest->slot, KALYUBOS_BLOCK, 0, &operation, &run, 1) == KALYUBOS_DONE, "an operation");
    need(operation.runs == 1 && operation.len == SECTOR_LEN && run.len == SECTOR_LEN, "a sector's operation");
    uint8_t *at = guest->memory + (run.at - MEMORY), *sector = guest->disk + operation.start;
    memcpy(operation.kind == KALYUBOS_IN ? at : sector, operation.kind == KALYUBOS_IN ? sector : at, SECTOR_LEN);
    need(kalyubos_completed(guest->board, guest->slot, KALYUBOS_BLOCK, 0, false, &pending) == KALYUBOS_DONE, "a completion");
    need(kalyubos_completed(guest->board, guest->slot, KALYUBOS_BLOCK, 0, false, &pending) == KALYUBOS_IDLE, "a second completion");
    fprintf(guest->telling, "completed: interrupts %" PRIu32 " and %" PRIu32 ", status %02x, data %c\n", pending.block,
            pending.console, guest->memory[DONE_BYTE], guest->memory[DATA]);
}

/* ---- the guests: each has two queues of four, and a buffer for each window */

/* Brings up a window's queue (3.1.1, 4.2.3.2). */
static void bring_up(struct guest *guest, uint8_t window, uint32_t queue)
{
    const uint32_t at = (uint32_t)MEMORY + HALF * window;
    const uint32_t steps[][2] = { { STATUS, 0 }, { STATUS, 1 }, { STATUS, 3 }, { 0x24, 1 }, { 0x20, 1 }, { STATUS, 11 },
                                  { 0x30, queue }, { 0x38, 4 }, { 0x80, at + TABLE }, { 0x90, at + AVAILABLE },
                                  { 0xa0, at + USED }, { 0x44, 1 }, { STATUS, 15 } };
    for (size_t i = 0; i < sizeof steps / sizeof *steps; i++)
        store(guest, window, (uint16_t)steps[i][0], steps[i][1], NULL);
    fprintf(guest->telling, "device %" PRIu32 " is up, of %" PRIu32 " sectors or columns\n", load(guest, window, 0x008),
            load(guest, window, CONFIG) & 0xffff);
}

static void boot(struct guest *guest)
{
    bring_up(guest, KALYUBOS_BLOCK, 0);
    bring_up(guest, KALYUBOS_CONSOLE, 1);
}

struct descriptor {
    uint64_t addr;
    uint32_t len;
    uint16_t flags, next;
};

static uint32_t offer(struct guest *guest, uint8_t window, const struct descriptor *chain, size_t len, uint32_t queue,
                      const char *what)
{
    uint8_t *area = guest->memory + HALF * window;
    guest->offered[window]++;
    memcpy(area + TABLE, chain, len);
    memcpy(area + AVAILABLE + 2, &guest->offered[window], 2);
    return store(guest, window, NOTIFY, queue, what);
}

/* A request of sector 1. Of the image's disk it is done when the notification is; of the host's an operation begins. */
static void ask(struct guest *guest, uint32_t type, const char *what)
{
    const struct descriptor chain[] = {
        { MEMORY + HEADER, 16, NEXT, 1 },
        { MEMORY + DATA, SECTOR_LEN, NEXT | (type == IN ? WRITE : 0), 2 },
        { MEMORY + DONE_BYTE, 1, WRITE, 0 },
    };
    const struct { uint32_t type, reserved; uint64_t sector; } header = { type, 0, 1 };
    memcpy(guest->memory + HEADER, &header, sizeof header);
    guest->memory[DONE_BYTE] = 0xff;
    uint32_t answer = offer(guest, KALYUBOS_BLOCK, chain, sizeof chain, 0, what);
    need(answer == (guest->hosted ? KALYUBOS_IO : KALYUBOS_DONE), "what a request is answered");
}

static void ask_to_write(struct guest *guest)
{
    memset(guest->memory + DATA, guest->hosted ? 'h' : 'i', SECTOR_LEN);
    ask(guest, OUT, "a write");
}

static void ask_to_read(struct guest *guest)
{
    memset(guest->memory + DATA, '-', SECTOR_LEN);
    ask(guest, IN, "a read");
    fprintf(guest->telling, "the data begin with %c\n", guest->memory[DATA]);
}

static void say(struct guest *guest)
{
    const char *text = guest->hosted ? "from beside the host's disk" : "from beside the image";
    const struct descriptor chain = { MEMORY + HALF + DATA, (uint32_t)strlen(text), 0, 0 };
    uint8_t out[OUTLET];
    size_t taken;
    memcpy(guest->memory + HALF + DATA, text, chain.len);
    offer(guest, KALYUBOS_CONSOLE, &chain, sizeof chain, 1, "a text");
    need(kalyubos_take_output(guest->board, guest->slot, out, sizeof out, &taken) == KALYUBOS_DONE, "take_output");
    fprintf(guest->telling, "it said \"%.*s\"\n", (int)taken, (const char *)out);
}

/* A reset of the disk waits where something of it is in flight, and there alone. */
static void reset(struct guest *guest)
{
    uint32_t answer = store(guest, KALYUBOS_BLOCK, STATUS, 0, "a reset");
    need(answer == (guest->hosted ? KALYUBOS_BUSY : KALYUBOS_DONE), "what a reset is answered");
}

/* What the guests do, in this order: guest 1's requests are in flight while guest 0 is served. */
static const struct {
    int guest;
    void (*does)(struct guest *guest);
} STEPS[] = {
    { BY_HOST, boot }, { IN_IMAGE, boot },
    { BY_HOST, ask_to_write }, { IN_IMAGE, ask_to_write }, { IN_IMAGE, ask_to_read }, { BY_HOST, say },
    { BY_HOST, finish },
    { BY_HOST, ask_to_read }, { IN_IMAGE, say }, { IN_IMAGE, reset }, { BY_HOST, reset }, { BY_HOST, finish },
};
enum { STEPS_LEN = sizeof STEPS / sizeof *STEPS };

/* ---- boards */

static uint8_t lent[GUESTS][MEMORY_LEN];

static struct kalyubos_slot slot_of(int number)
{
    return (struct kalyubos_slot){
        .size = sizeof(struct kalyubos_slot), .regions = { { MEMORY, MEMORY_LEN } }, .start = START, .count = SECTORS,
        .cols = 80, .rows = 25, .outlet = OUTLET, .hosted = number == BY_HOST,
    };
}

/* Makes a board of the guests from `first` to before `end`. */
static void make(struct kalyubos *board, struct guest *guests, int first, int end, bool is_lent)
{
    static uint8_t image[IMAGE_LEN];
    struct kalyubos_slot slots[GUESTS];
    struct kalyubos_loan loans[GUESTS];
    struct kalyubos_config config = kalyubos_config_of(slots, (size_t)(end - first));
    size_t len;
    memset(image, '.', sizeof image);
    memset(lent, 0, sizeof lent);
    for (int i = first; i < end; i++) {
        slots[i - first] = slot_of(i);
        loans[i - first] = (struct kalyubos_loan){ lent[i], MEMORY_LEN };
    }
    config.loans = loans;
    config.loans_len = is_lent ? config.slots_len : 0;
    config.image = image;
    config.image_len = first == IN_IMAGE ? sizeof image : 0;
    need(kalyubos_create(board, &config) == KALYUBOS_DONE, "create");
    for (int i = first; i < end; i++) {
        struct guest *guest = &guests[i];
        *guest = (struct guest){ .board = board, .slot = (uint8_t)(i - first), .hosted = i == BY_HOST };
        memset(guest->disk, '.', DISK_LEN);
        need(kalyubos_memory(board, guest->slot, MEMORY, &guest->memory, &len) == KALYUBOS_DONE, "memory");
        need((guest->memory == lent[i]) == is_lent, "where the memory lies");
        need((guest->telling = open_memstream(&guest->told, &guest->told_len)) != NULL, "memory for what is told");
    }
}

/* The calls of the image: guest 0's second sector is written, and no other byte. */
static void look_at_image(struct guest *guest)
{
    uint8_t copy[IMAGE_LEN], wanted[IMAGE_LEN];
    const uint8_t *bytes;
    size_t len;
    memset(wanted, '.', sizeof wanted);
    memset(wanted + (START + 1) * SECTOR_LEN, 'i', SECTOR_LEN);
    need(kalyubos_image(guest->board, &bytes, &len) == KALYUBOS_DONE && len == IMAGE_LEN, "image");
    need(memcmp(bytes, wanted, IMAGE_LEN) == 0, "the image's bytes");
    need(kalyubos_image_len(guest->board, &len) == KALYUBOS_DONE && len == IMAGE_LEN, "image_len");
    need(kalyubos_read_image(guest->board, 0, copy, IMAGE_LEN) == KALYUBOS_DONE, "read_image");
    need(memcmp(copy, wanted, IMAGE_LEN) == 0, "the image's copied bytes");
    memcpy(guest->disk, copy + START * SECTOR_LEN, DISK_LEN);
}

/* The guests from `first` to before `end` do their steps on one board. */
static void run(struct guest *guests, int first, int end, bool is_lent)
{
    struct kalyubos board = { NULL };
    size_t len;
    make(&board, guests, first, end, is_lent);
    for (size_t i = 0; i < STEPS_LEN; i++)
        if (STEPS[i].guest >= first && STEPS[i].guest < end)
            STEPS[i].does(&guests[STEPS[i].guest]);
    if (first == IN_IMAGE)
        look_at_image(&guests[IN_IMAGE]);
    else
        need(kalyubos_image_len(&board, &len) == KALYUBOS_NO_IMAGE, "an image of hosted disks alone");
    for (int i = first; i < end; i++) {
        memcpy(guests[i].left, guests[i].memory, MEMORY_LEN);
        fclose(guests[i].telling);
    }
    need(kalyubos_destroy(&board) == KALYUBOS_DONE, "destroy");
    for (int i = first; i < end && is_lent; i++)
        need(memcmp(lent[i], guests[i].left, MEMORY_LEN) == 0, "the bytes are the host's again");
}

static void compare(const struct guest *one, const struct guest *other)
{
    need(strcmp(one->told, other->told) == 0, "a guest is told something else than alone");
    need(memcmp(one->left, other->left, MEMORY_LEN) == 0, "a guest's memory ends otherwise than alone");
    need(memcmp(one->disk, other->disk, DISK_LEN) == 0, "a guest's disk ends otherwise than alone");
}

int main(void)
{
    static struct guest together[2][GUESTS], alone[2][GUESTS];
    need(kalyubos_version() == KALYUBOS_VERSION, "the library is of another version than the header");
    for (int is_lent = 0; is_lent < 2; is_lent++) {
        run(together[is_lent], 0, GUESTS, is_lent);
        for (int i = 0; i < GUESTS; i++)
            run(alone[is_lent], i, i + 1, is_lent);
    }
    for (int i = 0; i < GUESTS; i++) {
        printf("guest %d, whose disk %s:\n%s", i, i == BY_HOST ? "the host serves" : "is in the image",
               together[0][i].told);
        compare(&together[1][i], &together[0][i]);
        for (int is_lent = 0; is_lent < 2; is_lent++) {
            compare(&together[is_lent][i], &alone[is_lent][i]);
            free(together[is_lent][i].told);
            free(alone[is_lent][i].told);
        }
        printf("and so alone, and in lent memory\n");
    }
    return 0;
}
