/* The rules of watch.h. */
#include "watch.h"

#include <string.h>

#include "mistake.h"

enum { SLOTS = 64, WINDOWS = 2, CONFIGURATION = 0x100 };

/* The registers that have a rule here (VIRTIO 1.2, 4.2.2). */
enum { QUEUE_READY = 0x044, QUEUE_NOTIFY = 0x050, STATUS = 0x070 };

enum { DRIVER_OK = 4, FEATURES_OK = 8, NEEDS_RESET = 64 };
enum { REQUEST_IOERR = 1, REQUEST_UNSUPP = 2 };

struct guest {
    FILE *told;
    size_t count, line; /* the mistakes so far, and the trace's line of the call */
    struct memory memory;
    struct window windows[WINDOWS];
};

static struct guest guests[SLOTS];

static struct guest *watched(const struct watch_call *call)
{
    return call->slot < SLOTS && call->window < WINDOWS && guests[call->slot].told != NULL ? &guests[call->slot] : NULL;
}

void watch_guest(uint8_t slot, const struct memory *memory, FILE *told)
{
    if (slot < SLOTS) {
        memset(&guests[slot], 0, sizeof guests[slot]);
        guests[slot].memory = *memory;
        guests[slot].told = told;
    }
}

size_t watch_count(uint8_t slot)
{
    return slot < SLOTS ? guests[slot].count : 0;
}

struct window *watch_windows(uint8_t slot)
{
    return guests[slot].windows;
}

__attribute__((format(printf, 3, 4)))
static void tell(struct guest *guest, const struct watch_call *call, const char *what, ...)
{
    va_list values;
    if (guest->count++ >= WATCH_TOLD)
        return;
    va_start(values, what);
    tell_mistake(guest->told, guest->line, call, what, values);
    va_end(values);
}

void watch_before(const struct watch_call *call)
{
    struct guest *guest = watched(call);
    if (guest == NULL || call->kind == WATCH_READ || (call->kind == WATCH_WRITE && call->offset != QUEUE_NOTIFY))
        return;
    struct window *window = &guest->windows[call->window];
    for (size_t i = 0; i < WINDOW_QUEUES; i++)
        window->faults[i] = queue_take_in(&window->queues[i], &guest->memory, window->chains[i]);
}

/* ---- what the driver did, by what stood before it */

static void look_at_access(struct guest *guest, const struct watch_call *call)
{
    uint32_t status = guest->windows[call->window].status;
    if (call->offset < CONFIGURATION && (call->width != 4 || call->offset % 4 != 0))
        tell(guest, call, "a control register is accessed by 32 bits that are aligned (4.2.2.2)");
    if (call->kind == WATCH_WRITE && call->offset == QUEUE_NOTIFY && !(status & DRIVER_OK))
        tell(guest, call, "a device is notified only once DRIVER_OK stands (3.1.1)");
    if (call->kind == WATCH_WRITE && call->offset == STATUS && call->value != 0 &&
        (status & ~NEEDS_RESET & ~call->value) != 0)
        tell(guest, call, "a driver clears no bit of the status but by a reset (2.1.1)");
}

/* ---- what became of it */

static uint32_t register_of(struct kalyubos *board, const struct watch_call *call, uint16_t offset)
{
    uint32_t value = 0;
    kalyubos_read(board, call->slot, call->window, offset, 4, &value);
    return value;
}

static const char *request_name(uint64_t type)
{
    switch (type) {
    case 0: return "IN";
    case 1: return "OUT";
    case 4: return "FLUSH";
    case 8: return "GET_ID";
    case 13: return "WRITE_ZEROES";
    default: return "which isn't known";
    }
}

/* What a block request that was served ended with. */
static void look_at_request(struct guest *guest, const struct watch_call *call, const struct chain *chain)
{
    struct memory header = { 1, { { 0, chain->header_len, (uint8_t *)chain->header } } };
    uint64_t status = chain->is_writable ? queue_number(&guest->memory, chain->last, 1) : 0;
    unsigned long long type = queue_number(&header, 0, 4), sector = queue_number(&header, 8, 8);
    if (status == REQUEST_IOERR || status == REQUEST_UNSUPP)
        tell(guest, call, "the request ends with %s (5.2.6): type %llu, %s, of sector %llu",
             status == REQUEST_IOERR ? "IOERR" : "UNSUPP", type, request_name(type), sector);
}

/* Looks at the chains that were given back, in the order of the used entries. */
static void look_at_queue(struct guest *guest, const struct watch_call *call, struct queue *queue, struct chain *chains)
{
    struct chain *chain;
    while ((chain = queue_given_back(queue, &guest->memory, chains)) != NULL) {
        if (call->window == KALYUBOS_BLOCK)
            look_at_request(guest, call, chain);
        queue_give_back(queue, chains, chain);
    }
}

static void look_at_service(struct guest *guest, const struct watch_call *call, bool needs_reset)
{
    struct window *window = &guest->windows[call->window];
    const char *fault = NULL;
    for (size_t i = 0; i < WINDOW_QUEUES; i++) {
        look_at_queue(guest, call, &window->queues[i], window->chains[i]);
        fault = fault != NULL ? fault : window->faults[i];
    }
    if (needs_reset)
        tell(guest, call, "the device needs a reset (2.1.2): %s", fault != NULL ? fault : "a chain can't be served");
}

/* What became of a write that asks for the device's consent. */
static void look_at_consent(struct guest *guest, const struct watch_call *call, uint32_t status, bool ready)
{
    if (call->offset == STATUS && (call->value & ~status & FEATURES_OK) != 0)
        tell(guest, call, "the features are refused: one wasn't offered, or VERSION_1 isn't among them (2.2.1, 6.1)");
    if (call->offset == QUEUE_READY && call->value == 1 && !ready)
        tell(guest, call,
             "the virtqueue isn't ready: FEATURES_OK doesn't stand, or its size or an area isn't good (4.2.3.2)");
}

void watch_after(struct kalyubos *board, const struct watch_call *call, size_t line)
{
    struct guest *guest = watched(call);
    if (guest == NULL)
        return;
    struct window *window = &guest->windows[call->window];
    guest->line = line;
    if (call->kind == WATCH_READ || call->kind == WATCH_WRITE)
        look_at_access(guest, call);
    if (call->kind == WATCH_READ)
        return;
    uint32_t status = register_of(board, call, STATUS);
    bool ready = register_of(board, call, QUEUE_READY) == 1;
    if (call->kind != WATCH_WRITE || call->offset == QUEUE_NOTIFY) {
        look_at_service(guest, call, (status & ~window->status & NEEDS_RESET) != 0);
    } else if (call->width == 4) {
        look_at_consent(guest, call, status, ready);
        window_keep(window, call->offset, call->value, ready);
    }
    window->status = status;
}
