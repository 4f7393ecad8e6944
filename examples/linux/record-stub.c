/*
 * What the library answers to record-test.c, for a machine where it isn't built. It is no device: over an image the disk's
 * first notify with DRIVER_OK ends in an error of the request, its second in a fault, and the console's first finds no room;
 * where the host serves the disks, guest 0's first notify asks for two operations, and each later one for one.
 */
#include <stdlib.h>
#include <string.h>

#include "kalyubos.h"

enum { BASE = 0x80000000u, LEN = 0x10000, PAGE = 0x1000, GUESTS = 2, DEVICE_ID = 0x008, QUEUE_READY = 0x044, NOTIFY = 0x050, STATUS = 0x070, EMERGENCY = 0x108 };

static struct guest {
    uint8_t *memory;
    uint32_t status, ready, block, console;
    uint8_t output[16];
    size_t waiting;
} guests[GUESTS];

static uint32_t notifies[2];
static bool hosted, held;
static uint64_t in_flight; /* the tags of what is */
static uint8_t given_back; /* how many operations were completed */

/* Operations by their tags: tag 0 is used twice. Then the used entry of each, and where its status byte lies. */
static const struct asked {
    struct kalyubos_operation operation;
    struct kalyubos_run runs[2];
    uint8_t id, len[2];
    uint16_t status;
} ASKED[][2] = {
    { { { KALYUBOS_IN, 1, 0x200, 0x200, false }, { { 0x80005000, 0x200 } }, 0, { 0x01, 0x02 }, 0x5200 },
      { { KALYUBOS_OUT, 1, 0, 0x200, true }, { { 0x80006010, 0x200 } }, 2, { 1, 0 }, 0x7000 } },
    { { { KALYUBOS_IN, 2, 0, 0x200, false }, { { 0x80005000, 0x100 }, { 0x80005800, 0x100 } }, 0, { 0, 0 }, 0x5900 } },
};

/* What the tag stands for: the first notify asks for two operations. */
static const struct asked *asked_with(uint8_t tag)
{
    return &ASKED[given_back / 2][tag];
}

static uint32_t tell(const struct guest *guest, struct kalyubos_pending *pending, uint32_t answer)
{
    *pending = (struct kalyubos_pending){ guest->block, guest->console, guest->waiting };
    return answer;
}

static void put_out(struct guest *guest, const char *text)
{
    guest->waiting = strlen(text);
    memcpy(guest->output, text, guest->waiting);
}

uint32_t kalyubos_create(struct kalyubos *board, struct kalyubos_config *config)
{
    hosted = config->slots[0].hosted;
    for (int i = 0; i < GUESTS; i++)
        if ((guests[i].memory = calloc(LEN + PAGE, 1)) == NULL)
            return KALYUBOS_NO_MEMORY;
    board->at = guests;
    return KALYUBOS_DONE;
}


uint32_t kalyubos_destroy(struct kalyubos *board)
{
    for (int i = 0; i < GUESTS; i++)
        free(guests[i].memory);
    board->at = NULL;
    return KALYUBOS_DONE;
}

uint32_t kalyubos_memory(struct kalyubos *board, uint8_t slot, uint64_t addr, uint8_t **bytes, size_t *len)
{
    (void)board;
    *bytes = guests[slot].memory + (addr == BASE ? 0 : LEN); /* a second region behind the first */
    *len = addr == BASE ? LEN : PAGE;
    return KALYUBOS_DONE;
}

uint32_t kalyubos_read(const struct kalyubos *board, uint8_t slot, uint8_t window, uint16_t offset, uint8_t width,
                       uint32_t *value)
{
    const struct guest *guest = &guests[slot];
    const uint32_t registers[] = { [0] = 0x74726976, [DEVICE_ID / 4] = 2, [QUEUE_READY / 4] = guest->ready,
                                   [STATUS / 4] = guest->status };
    (void)board, (void)window;
    *value = width == 4 && offset <= STATUS ? registers[offset / 4] : 0;
    return KALYUBOS_DONE;
}

/* The used ring at 3000 gets the chain of head 0, and its status byte at 6000 is 1; then the window needs a reset. */
static void serve_disk(struct guest *guest)
{
    if (++notifies[0] == 1) {
        guest->memory[0x3002] = 1;
        guest->memory[0x6000] = 1;
        guest->block |= 1;
    } else {
        guest->status |= 0x40;
        guest->block |= 2;
    }
}

/* The used ring at a000 gets the chain of head 0, then that of head 1. */
static uint32_t serve_console(struct guest *guest, struct kalyubos_pending *pending)
{
    guest->console |= 1;
    guest->memory[0xa002] = ++notifies[1];
    if (notifies[1] == 2)
        guest->memory[0xa00c] = 1;
    put_out(guest, notifies[1] == 1 ? "0123456789" : "abcdefghij");
    return tell(guest, pending, notifies[1] == 1 ? KALYUBOS_NO_ROOM : KALYUBOS_DONE);
}

/* The used ring at 3000 gets the chain of the operation that ended. */
static void give_back(struct guest *guest, const struct asked *ended, bool failed)
{
    uint8_t *entry = guest->memory + 0x3004 + 8 * given_back++;
    guest->memory[0x3002] = given_back;
    entry[0] = ended->id;
    memcpy(entry + 4, ended->len, sizeof ended->len);
    guest->memory[ended->status] = failed;
    guest->block |= 1;
}

static uint32_t ask(struct guest *guest, struct kalyubos_pending *pending)
{
    in_flight = given_back == 0 ? 3 : 1;
    return tell(guest, pending, KALYUBOS_IO);
}

uint32_t kalyubos_in_flight(const struct kalyubos *board, uint8_t slot, uint8_t window, uint64_t *tags)
{
    (void)board, (void)window;
    *tags = slot == 0 ? in_flight : 0;
    return KALYUBOS_DONE;
}

uint32_t kalyubos_operation(const struct kalyubos *board, uint8_t slot, uint8_t window, uint8_t tag,
                            struct kalyubos_operation *operation, struct kalyubos_run *runs, size_t runs_len)
{
    const struct asked *asked = asked_with(tag);
    (void)board, (void)slot, (void)window, (void)runs_len;
    *operation = asked->operation;
    memcpy(runs, asked->runs, sizeof asked->runs);
    return KALYUBOS_DONE;
}

uint32_t kalyubos_completed(struct kalyubos *board, uint8_t slot, uint8_t window, uint8_t tag, bool failed,
                            struct kalyubos_pending *pending)
{
    struct guest *guest = &guests[slot];
    (void)board, (void)window;
    if ((in_flight >> tag & 1) == 0)
        return tell(guest, pending, KALYUBOS_IDLE);
    in_flight &= ~((uint64_t)1 << tag);
    give_back(guest, asked_with(tag), failed);
    return tell(guest, pending, KALYUBOS_DONE);
}

uint32_t kalyubos_drop(struct kalyubos *board, uint8_t slot, uint8_t window, struct kalyubos_pending *pending)
{
    struct guest *guest = &guests[slot];
    (void)board, (void)window;
    if (in_flight == 0)
        return tell(guest, pending, KALYUBOS_IDLE);
    in_flight = 0;
    guest->status |= 0x40;
    guest->block |= 2;
    return tell(guest, pending, KALYUBOS_DONE);
}

uint32_t kalyubos_hold(struct kalyubos *board, uint8_t slot, uint8_t window, struct kalyubos_pending *pending)
{
    uint32_t answer = held ? KALYUBOS_IDLE : KALYUBOS_DONE;
    (void)board, (void)window;
    held = true;
    return tell(&guests[slot], pending, answer);
}

/* Nothing was on offer meanwhile. */
uint32_t kalyubos_release(struct kalyubos *board, uint8_t slot, uint8_t window, struct kalyubos_pending *pending)
{
    uint32_t answer = held ? KALYUBOS_DONE : KALYUBOS_IDLE;
    (void)board, (void)window;
    held = false;
    return tell(&guests[slot], pending, answer);
}

uint32_t kalyubos_write(struct kalyubos *board, uint8_t slot, uint8_t window, uint16_t offset, uint8_t width,
                        uint32_t value, struct kalyubos_pending *pending)
{
    struct guest *guest = &guests[slot];
    (void)board, (void)width;
    if (window == KALYUBOS_CONSOLE && offset == EMERGENCY) {
        put_out(guest, (char[]){ value, 0 });
    } else if (offset == STATUS && in_flight != 0) {
        return tell(guest, pending, KALYUBOS_BUSY);
    } else if (offset == STATUS) {
        guest->status = value == 0 ? 0 : guest->status | value;
        guest->block = value == 0 && window == KALYUBOS_BLOCK ? 0 : guest->block;
    } else if (offset == QUEUE_READY) {
        guest->ready = value;
    } else if (offset == NOTIFY && window == KALYUBOS_CONSOLE) {
        return serve_console(guest, pending);
    } else if (offset == NOTIFY && hosted) {
        return ask(guest, pending);
    } else if (offset == NOTIFY && (guest->status & 4) != 0) {
        serve_disk(guest);
    }
    return tell(guest, pending, KALYUBOS_DONE);
}

/* Nothing of it pauses. */
uint32_t kalyubos_go_on(struct kalyubos *board, uint8_t slot, struct kalyubos_pending *pending)
{
    (void)board;
    return tell(&guests[slot], pending, KALYUBOS_DONE);
}

uint32_t kalyubos_input(struct kalyubos *board, uint8_t slot, const uint8_t *bytes, size_t bytes_len, size_t *took,
                        struct kalyubos_pending *pending)
{
    (void)board, (void)bytes;
    *took = bytes_len;
    return tell(&guests[slot], pending, KALYUBOS_DONE);
}

uint32_t kalyubos_resize(struct kalyubos *board, uint8_t slot, uint16_t cols, uint16_t rows,
                         struct kalyubos_pending *pending)
{
    (void)board, (void)cols, (void)rows;
    return tell(&guests[slot], pending, KALYUBOS_DONE);
}

uint32_t kalyubos_take_output(struct kalyubos *board, uint8_t slot, uint8_t *into, size_t into_len, size_t *taken)
{
    struct guest *guest = &guests[slot];
    (void)board;
    *taken = guest->waiting < into_len ? guest->waiting : into_len;
    memcpy(into, guest->output, *taken);
    guest->waiting -= *taken;
    return KALYUBOS_DONE;
}
