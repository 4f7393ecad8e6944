/*
 * A host that moves a guest from one board to another while someone types a command to it, and with requests on offer: the
 * devices as a snapshot, the memory as a copy. The disk is the host's, and both boards reach it. The guest is C as well, a
 * little shell; a hypervisor has a virtual CPU in its place, and moves its registers too.
 */
#include <stdio.h>
#include <stdlib.h>
#include <string.h>

#include "kalyubos.h"

/* ---- the host */

enum { MEMORY = 0x10000000, WINDOW_LEN = 0x8000, MEMORY_LEN = 2 * WINDOW_LEN, SECTOR = 512, SECTORS = 4 };

static uint8_t disk[SECTORS * SECTOR];

/* A board of one guest, where the guest's memory lies, and what its lines are set by. */
struct machine {
    const char *name;
    struct kalyubos board;
    uint8_t *memory;
    struct kalyubos_pending pending;
};

/* A guest that is stopped: its devices and its memory. */
struct saved {
    uint8_t *devices;
    size_t devices_len;
    uint8_t memory[MEMORY_LEN];
};

static void answers(uint32_t answer, uint32_t wanted, const char *what)
{
    if (answer != wanted) {
        fprintf(stderr, "%s: %s\n", what, kalyubos_answer(answer));
        exit(1);
    }
}

static void must(uint32_t answer, const char *what)
{
    answers(answer, KALYUBOS_DONE, what);
}

static void start(struct machine *machine, const char *name)
{
    struct kalyubos_slot slot = { .size = sizeof slot, .regions = { { MEMORY, MEMORY_LEN } }, .count = SECTORS, .hosted = true,
                                  .depth = 1, .cols = 80, .rows = 25, .outlet = 256, .identity = "the guest's disk" };
    struct kalyubos_config config = kalyubos_config_of(&slot, 1);
    size_t len;
    *machine = (struct machine){ .name = name };
    must(kalyubos_create(&machine->board, &config), "create");
    must(kalyubos_memory(&machine->board, 0, MEMORY, &machine->memory, &len), "memory");
}

static void show(struct machine *machine)
{
    uint8_t out[256];
    size_t taken;
    must(kalyubos_take_output(&machine->board, 0, out, sizeof out, &taken), "take_output");
    printf("%s shows: %.*s\n", machine->name, (int)taken, (const char *)out);
}

static void type(struct machine *machine, const char *text)
{
    size_t took;
    must(kalyubos_input(&machine->board, 0, (const uint8_t *)text, strlen(text), &took, &machine->pending), "input");
    printf("%s is typed: %.*s\n", machine->name, (int)strcspn(text, "\n"), text);
}

/* Does what is in flight, a read into one run, and what begins with its completion; how many it did. */
static unsigned serve(struct machine *machine)
{
    struct kalyubos_operation asked;
    struct kalyubos_run run;
    uint32_t answer = KALYUBOS_IO;
    unsigned served = 0;
    for (; answer == KALYUBOS_IO; served++) {
        must(kalyubos_operation(&machine->board, 0, KALYUBOS_BLOCK, 0, &asked, &run, 1), "operation");
        memcpy(machine->memory + (run.at - MEMORY), disk + asked.start, run.len);
        answer = kalyubos_completed(&machine->board, 0, KALYUBOS_BLOCK, 0, false, &machine->pending);
    }
    must(answer, "completed");
    return served;
}

/*
 * The guest stands between two calls, its output is taken, and nothing pauses: the board has no budget. Nothing begins any
 * more, so what is in flight alone is waited for; the other requests stay on offer.
 */
static void save(struct machine *machine, struct saved *saved)
{
    size_t written;
    must(kalyubos_hold(&machine->board, 0, KALYUBOS_BLOCK, &machine->pending), "hold");
    printf("%s is held, and serves %u more\n", machine->name, serve(machine));
    must(kalyubos_saved_len(&machine->board, 0, &saved->devices_len), "saved_len");
    saved->devices = malloc(saved->devices_len);
    if (saved->devices == NULL)
        exit(1);
    must(kalyubos_save(&machine->board, 0, saved->devices, saved->devices_len, &written), "save");
    memcpy(saved->memory, machine->memory, MEMORY_LEN);
    must(kalyubos_destroy(&machine->board), "destroy");
    printf("%s is gone, and leaves %zu bytes of devices\n", machine->name, written);
}

/* The memory and the devices come to a new board, and the lines are set. The slot is held there until its release. */
static void restore(struct machine *machine, const char *name, struct saved *saved)
{
    start(machine, name);
    memcpy(machine->memory, saved->memory, MEMORY_LEN);
    must(kalyubos_restore(&machine->board, 0, saved->devices, saved->devices_len, &machine->pending), "restore");
    free(saved->devices);
    printf("%s has the guest: its disk's line is %s, its console's %s\n", name, machine->pending.block ? "high" : "low",
           machine->pending.console ? "high" : "low");
    answers(kalyubos_release(&machine->board, 0, KALYUBOS_BLOCK, &machine->pending), KALYUBOS_IO, "release");
    printf("%s is released, and serves %u more\n", name, serve(machine));
}

/* ---- the guest: what its CPU knows, and its drivers */

enum { NEXT = 1, WRITE = 2 };

/* The registers that a driver uses (4.2.2), and the console's emergency write (5.3.4). */
enum {
    DRIVER_FEATURES = 0x020, DRIVER_FEATURES_SEL = 0x024, QUEUE_SIZE = 0x038, QUEUE_READY = 0x044, NOTIFY = 0x050,
    STATUS = 0x070, QUEUE_DESC = 0x080, QUEUE_DRIVER = 0x090, QUEUE_DEVICE = 0x0a0, EMERG_WR = 0x108
};

/* Where a window's queue 0 and its buffers lie in the window's half of the memory. */
enum { TABLE = 0x1000, AVAILABLE = 0x2000, USED = 0x3000, HEADER = 0x4000, END = 0x4100, DATA = 0x4200, PLACES = 16 };

/* The notes are sectors 1 to 3, and each is read by a request of its own, a chain of three. */
enum { NOTES = 3, CHAIN = 3 };

struct guest {
    uint16_t offered, received; /* how many buffers the console was offered, and how many it gave back */
    char line[64];              /* what was typed of the command */
    size_t len;
};

struct descriptor {
    uint64_t addr;
    uint32_t len;
    uint16_t flags, next;
};

static void set(struct machine *machine, uint8_t window, uint16_t offset, uint32_t value)
{
    must(kalyubos_write(&machine->board, 0, window, offset, 4, value, &machine->pending), "write");
}

static void bring_up(struct machine *machine, uint8_t window)
{
    const uint32_t area = MEMORY + WINDOW_LEN * window, writes[][2] = {
        { STATUS, 3 }, { DRIVER_FEATURES_SEL, 1 }, { DRIVER_FEATURES, 1 /* VERSION_1 */ }, { STATUS, 11 },
        { QUEUE_SIZE, PLACES }, { QUEUE_DESC, area + TABLE }, { QUEUE_DRIVER, area + AVAILABLE },
        { QUEUE_DEVICE, area + USED }, { QUEUE_READY, 1 }, { STATUS, 15 },
    };
    for (size_t i = 0; i < sizeof writes / sizeof *writes; i++)
        set(machine, window, (uint16_t)writes[i][0], writes[i][1]);
}

/* Offers the console a buffer of four bytes for what is typed: descriptor 0, which the zeroed ring has at each place. */
static void offer_buffer(struct machine *machine, struct guest *guest)
{
    const struct descriptor buffer = { MEMORY + WINDOW_LEN + DATA, 4, WRITE, 0 };
    uint8_t *area = machine->memory + WINDOW_LEN;
    memcpy(area + TABLE, &buffer, sizeof buffer);
    guest->offered++;
    memcpy(area + AVAILABLE + 2, &guest->offered, 2);
    set(machine, KALYUBOS_CONSOLE, NOTIFY, 0);
}

static void print(struct machine *machine, const uint8_t *text)
{
    for (; *text != 0; text++)
        set(machine, KALYUBOS_CONSOLE, EMERG_WR, *text);
}

/* Offers a request for each sector of the notes, all by one notification. One is in flight then: the disk's depth is 1. */
static void read_ahead(struct machine *machine)
{
    const uint16_t offered = NOTES;
    for (uint16_t i = 0, head = 0; i < NOTES; i++, head += CHAIN) {
        const uint64_t header[2] = { 0 /* IN */, i + 1 };
        const struct descriptor chain[CHAIN] = {
            { MEMORY + HEADER + 16 * i, 16, NEXT, head + 1 }, { MEMORY + DATA + SECTOR * i, SECTOR, NEXT | WRITE, head + 2 },
            { MEMORY + END + i, 1, WRITE, 0 },
        };
        memcpy(machine->memory + HEADER + 16 * i, header, sizeof header);
        memcpy(machine->memory + TABLE + 16 * head, chain, sizeof chain);
        memcpy(machine->memory + AVAILABLE + 4 + 2 * i, &head, sizeof head);
    }
    memcpy(machine->memory + AVAILABLE + 2, &offered, sizeof offered);
    answers(kalyubos_write(&machine->board, 0, KALYUBOS_BLOCK, NOTIFY, 4, 0, &machine->pending), KALYUBOS_IO, "notify");
    printf("%s is asked for %d sectors\n", machine->name, NOTES);
}

/* The command prints the notes, which were read ahead: each request was served once, with the status 0. */
static void show_notes(struct machine *machine)
{
    if (machine->memory[USED + 2] != NOTES || memcmp(machine->memory + END, "\0\0", NOTES) != 0)
        print(machine, (const uint8_t *)"no notes");
    for (int i = 0; i < NOTES; i++)
        print(machine, machine->memory + DATA + SECTOR * i);
}

/* The guest runs while its console gives it something: a buffer's length stands in the used ring. */
static void run(struct machine *machine, struct guest *guest)
{
    const uint8_t *area = machine->memory + WINDOW_LEN, *used = area + USED;
    while (used[2] != guest->received) {
        uint8_t len = used[8 + 8 * (guest->received++ % PLACES)];
        memcpy(guest->line + guest->len, area + DATA, len);
        guest->len += len;
        if (strcmp(guest->line, "cat notes\n") == 0)
            show_notes(machine);
        offer_buffer(machine, guest);
    }
}

int main(void)
{
    static struct saved saved;
    struct machine first, second;
    struct guest guest = { .len = 0 };

    strcpy((char *)disk + SECTOR, "hello ");
    strcpy((char *)disk + 2 * SECTOR, "from ");
    strcpy((char *)disk + 3 * SECTOR, "the disk");
    start(&first, "the first board");
    bring_up(&first, KALYUBOS_BLOCK);
    bring_up(&first, KALYUBOS_CONSOLE);
    offer_buffer(&first, &guest);
    read_ahead(&first);

    /* The guest has a buffer of the command and hasn't looked; the rest waits in the device. */
    type(&first, "cat no");
    save(&first, &saved);
    restore(&second, "the second board", &saved);
    type(&second, "tes\n");
    run(&second, &guest);
    show(&second);
    must(kalyubos_destroy(&second.board), "destroy");
    return 0;
}
