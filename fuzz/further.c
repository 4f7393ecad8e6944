/*
 * Each answer is judged by what the guest's description says: DONE where it has such a device, else BAD_WINDOW. A window's word
 * is its InterruptStatus, and a frame that comes out has the length that was told to wait. A device whose driver is starved takes
 * what it waits for. Now and then the pages that a service changes are compared with those that are marked. A service that pauses
 * is brought to its end, and others are served meanwhile.
 */
#include "sessions.h"

#include <string.h>

#include "shut_heap.h"

enum { QUEUE_NOTIFY = 0x50, INTERRUPT_STATUS = 0x60, ETHERNET = 14, LONGEST = 1 << 16, MOST_AT_ONCE = 5000, LAST_WINDOW = 255 };

/* ---- the pages that a service changes */

enum { PAGE = 4096 };
static _Thread_local struct {
    const struct seat *of; /* whose are kept; others that are served meanwhile have none */
    uint8_t bits[1 << 16], before[1 << 20];
} pages;

static uint8_t *region_of(const struct seat *seat, size_t number)
{
    uint8_t *bytes;
    size_t len;
    uint64_t base = seat->guest->regions[number].base;
    need(kalyubos_memory(seat->board, seat->slot, base, &bytes, &len) == KALYUBOS_DONE, "memory", base);
    return bytes;
}

/* Has the pages kept in these bits, or where they are too few it is refused: whether they are kept. */
static bool keep_pages(const struct seat *seat, struct kalyubos_loan bits)
{
    const struct guest *guest = seat->guest;
    uint64_t end = guest->regions[guest->regions_len - 1].base + guest->regions[guest->regions_len - 1].len;
    bool fits = bits.len == 0 || (end - guest->regions[0].base) / PAGE <= 8 * bits.len;
    need(kalyubos_keep_pages(seat->board, seat->slot, bits) == (fits ? KALYUBOS_DONE : KALYUBOS_BAD_LOAN), "keep_pages", seat->slot);
    return fits;
}

/* Has the pages marked, by chance, until end_pages. */
static void begin_pages(struct seat *seat)
{
    uint8_t *at = pages.before;
    bool is_wanted = chance(seat, 4) == 0 && memory_size(seat->guest) <= sizeof pages.before;
    if (!is_wanted || pages.of != NULL)
        return;
    memset(pages.bits, 0, sizeof pages.bits);
    if (!keep_pages(seat, (struct kalyubos_loan){ pages.bits, sizeof pages.bits }))
        return;
    pages.of = seat;
    for (size_t i = 0; i < seat->guest->regions_len; at += seat->guest->regions[i++].len)
        memcpy(at, region_of(seat, i), seat->guest->regions[i].len);
}

/* Each page that is otherwise now is marked. */
static void end_pages(struct seat *seat)
{
    const uint8_t *before = pages.before;
    if (pages.of != seat)
        return;
    pages.of = NULL;
    keep_pages(seat, (struct kalyubos_loan){ NULL, 0 });
    for (size_t i = 0; i < seat->guest->regions_len; i++) {
        const uint8_t *now = region_of(seat, i);
        uint64_t place = (seat->guest->regions[i].base - seat->guest->regions[0].base) / PAGE;
        for (size_t at = 0; at < seat->guest->regions[i].len; at += PAGE, before += PAGE, place++) {
            bool is_marked = (pages.bits[place / 8] >> place % 8 & 1) != 0;
            need(is_marked || memcmp(before, now + at, PAGE) == 0, "a page is written and isn't marked", place);
            seat->counts.pages += is_marked;
        }
    }
}

/* ---- calls */

static uint8_t window_of(unsigned number)
{
    return (uint8_t)(number < LAST_WINDOW - KALYUBOS_DEVICE ? KALYUBOS_DEVICE + number : LAST_WINDOW);
}

/* The device of a window, or NULL. */
static const struct further_device *device_of(const struct seat *seat, uint8_t window)
{
    unsigned number = window - KALYUBOS_DEVICE;
    return seat->guest != NULL && number < seat->guest->devices_len ? &seat->guest->devices[number] : NULL;
}

uint32_t kind_of(const struct further_device *it, bool hosted)
{
    return it->is_card ? KALYUBOS_NETWORK : it->is_image_disk && !hosted ? KALYUBOS_IMAGE_DISK : KALYUBOS_ENTROPY;
}

/* Whether the device of a window is there and of a kind. */
static bool is_of(const struct seat *seat, uint8_t window, uint32_t kind)
{
    const struct further_device *device = device_of(seat, window);
    return device != NULL && kind_of(device, seat->disk != NULL) == kind;
}

/* Tells an answer, which is DONE exactly where the device takes such a thing. */
static uint32_t judged(struct seat *seat, uint32_t answer, bool is_taken)
{
    uint32_t other = seat->guest == NULL ? KALYUBOS_BAD_SLOT : KALYUBOS_BAD_WINDOW;
    need(answer == (is_taken ? KALYUBOS_DONE : other), "an answer of a further device", answer);
    tell_number(&seat->told, answer);
    return answer;
}

/* Whether a device's driver waits for the host. */
static bool is_starved(const struct seat *seat, uint8_t window)
{
    struct kalyubos_device_pending waits = { 0 };
    return kalyubos_device_pending(seat->board, seat->slot, window, &waits) == KALYUBOS_DONE && waits.starved;
}

static void read_device(struct seat *seat, uint8_t window, const struct event *event)
{
    uint32_t value = 0;
    judged(seat, kalyubos_read(seat->board, seat->slot, window, (uint16_t)event->offset, (uint8_t)event->width, &value),
           device_of(seat, window) != NULL);
    tell_number(&seat->told, value);
}

static void write_device(struct seat *seat, uint8_t window, const struct event *event)
{
    struct kalyubos_pending pending = { 0 };
    seat->counts.notified += event->offset == QUEUE_NOTIFY && is_of(seat, window, KALYUBOS_IMAGE_DISK);
    uint32_t answer = kalyubos_write(seat->board, seat->slot, window, (uint16_t)event->offset, (uint8_t)event->width, event->value,
                                     &pending);
    judged(seat, serve_on(seat, answer, &pending), device_of(seat, window) != NULL);
    tell_pending(&seat->told, &pending);
}

static void supply(struct seat *seat, uint8_t window, const uint8_t *bytes, size_t len)
{
    bool starves = is_starved(seat, window), is_good = is_of(seat, window, KALYUBOS_ENTROPY);
    struct kalyubos_pending pending = { 0 };
    size_t taken = 0;
    uint32_t answer = kalyubos_supply(seat->board, seat->slot, window, bytes, len, &taken);
    judged(seat, serve_on(seat, answer, &pending), is_good);
    need(taken <= len, "more bytes are taken than there are", taken);
    need(taken != 0 || len == 0 || !is_good || !starves, "a starved device takes no byte", len);
    tell_number(&seat->told, taken);
    seat->counts.supplied += taken;
}

static void hand_over(struct seat *seat, uint8_t window, const uint8_t *frame, size_t len)
{
    const struct further_device *device = device_of(seat, window);
    bool is_good = device != NULL && device->is_card && len != 0 && len <= (size_t)device->mtu + ETHERNET;
    struct kalyubos_pending pending = { 0 };
    bool taken = false, starves = is_starved(seat, window);
    uint32_t answer = kalyubos_receive(seat->board, seat->slot, window, frame, len, &taken);
    judged(seat, serve_on(seat, answer, &pending), is_good);
    need(taken || !is_good || !starves || len > LONGEST, "a starved card takes no frame", len);
    tell_number(&seat->told, taken);
    seat->counts.handed += taken;
}

/* Takes a frame into a buffer of `room` bytes. */
static void take_frame(struct seat *seat, uint8_t window, size_t room)
{
    uint8_t frame[LONGEST]; /* of this call alone: others are served before it is told */
    const struct further_device *device = device_of(seat, window);
    struct kalyubos_device_pending waits = { 0 };
    struct kalyubos_pending pending = { 0 };
    size_t len = 0;
    kalyubos_device_pending(seat->board, seat->slot, window, &waits);
    uint32_t answer = kalyubos_take_frame(seat->board, seat->slot, window, frame, room, &len);
    need(len == waits.frame, "a frame of another length", len);
    if (len > room) {
        need(answer == KALYUBOS_SHORT_BUFFER, "a buffer isn't too short", answer);
        tell_number(&seat->told, answer);
        seat->counts.short_buffers++;
        return;
    }
    judged(seat, serve_on(seat, answer, &pending), device != NULL && device->is_card);
    tell_number(&seat->told, len);
    tell(&seat->told, frame, len);
    seat->counts.sent += len != 0;
}

static void set_link(struct seat *seat, uint8_t window, bool up)
{
    const struct further_device *device = device_of(seat, window);
    judged(seat, kalyubos_set_link(seat->board, seat->slot, window, up), device != NULL && device->is_card);
}

static void act_on(struct seat *seat, const struct event *event)
{
    static const uint8_t none[1];
    const uint8_t *bytes = event->bytes != NULL ? event->bytes : none;
    uint8_t window = window_of(event->number);
    switch (event->kind) {
    case DEVICE_READ: read_device(seat, window, event); break;
    case DEVICE_WRITE: write_device(seat, window, event); break;
    case SUPPLY: supply(seat, window, bytes, event->len); break;
    case RECEIVE: hand_over(seat, window, bytes, event->len); break;
    case TAKE: take_frame(seat, window, LONGEST); break;
    case SET_LINK: set_link(seat, window, event->up); break;
    default: /* a plug: the device is there already */
        tell_number(&seat->told, seat->guest == NULL ? KALYUBOS_BAD_SLOT : KALYUBOS_DONE);
        break;
    }
}

void act_on_device(struct seat *seat, const struct event *event)
{
    if (seat->guest == NULL) {
        act_on(seat, event);
        return;
    }
    begin_pages(seat);
    act_on(seat, event);
    end_pages(seat);
}

/* What a host says of disks that it serves: no disk over spare sectors takes it. */
static void say(struct seat *seat, uint8_t window)
{
    struct kalyubos_pending pending = { 0 };
    uint32_t answer = KALYUBOS_DONE;
    switch (chance(seat, 4)) {
    case 0: answer = kalyubos_completed(seat->board, seat->slot, window, (uint8_t)chance(seat, 65), chance(seat, 2) != 0, &pending); break;
    case 1: answer = kalyubos_drop(seat->board, seat->slot, window, &pending); break;
    case 2: answer = kalyubos_hold(seat->board, seat->slot, window, &pending); break;
    default: answer = kalyubos_release(seat->board, seat->slot, window, &pending); break;
    }
    judged(seat, answer, false);
}

static void serve_device(struct seat *seat)
{
    uint8_t bytes[MOST_AT_ONCE];
    size_t number = chance(seat, seat->guest->devices_len), len = chance(seat, chance(seat, 4) != 0 ? 100 : MOST_AT_ONCE);
    uint8_t window = window_of((unsigned)number);
    for (size_t i = 0; i < len; i++)
        bytes[i] = (uint8_t)chance(seat, 256);
    if (is_of(seat, window, KALYUBOS_IMAGE_DISK) && chance(seat, 2) == 0) {
        say(seat, window);
        return;
    }
    if (!is_of(seat, window, KALYUBOS_NETWORK)) {
        supply(seat, window, bytes, len);
        return;
    }
    switch (chance(seat, 4)) {
    case 0: take_frame(seat, window, chance(seat, 2) ? LONGEST : chance(seat, 100)); break;
    case 1: set_link(seat, window, chance(seat, 2) != 0); break;
    default: hand_over(seat, window, bytes, len); break;
    }
}

void serve_devices_by_chance(struct seat *seat)
{
    if (seat->guest == NULL || seat->guest->devices_len == 0 || chance(seat, 8) != 0)
        return;
    begin_pages(seat);
    serve_device(seat);
    end_pages(seat);
}

void tell_devices(struct seat *seat)
{
    for (unsigned number = 0; seat->guest != NULL && number < seat->guest->devices_len; number++) {
        struct kalyubos_device_pending waits = { 0 };
        uint8_t window = window_of(number);
        uint32_t word = 0;
        need(kalyubos_device_pending(seat->board, seat->slot, window, &waits) == KALYUBOS_DONE, "what waits", number);
        need(kalyubos_read(seat->board, seat->slot, window, INTERRUPT_STATUS, 4, &word) == KALYUBOS_DONE, "a read", number);
        need(word == waits.interrupt, "another InterruptStatus is told", word);
        tell(&seat->told, &waits, sizeof waits);
    }
}

void check_devices_busy(struct seat *seat)
{
    for (unsigned number = 0; number < seat->guest->devices_len; number++) {
        struct kalyubos_device_pending waits;
        struct kalyubos_pending pending;
        uint8_t byte = 0, window = window_of(number);
        uint32_t value;
        size_t len;
        bool taken;
        bool is_card = seat->guest->devices[number].is_card;
        uint32_t answer = is_card ? kalyubos_receive(seat->board, seat->slot, window, &byte, 1, &taken)
                                  : kalyubos_supply(seat->board, seat->slot, window, &byte, 1, &len);
        need(answer == KALYUBOS_BUSY, "a supply or a frame isn't busy", answer);
        need(kalyubos_read(seat->board, seat->slot, window, 0, 4, &value) == KALYUBOS_BUSY, "a read isn't busy", number);
        need(kalyubos_write(seat->board, seat->slot, window, 0, 4, 0, &pending) == KALYUBOS_BUSY, "a write isn't busy", number);
        need(!is_card || kalyubos_take_frame(seat->board, seat->slot, window, &byte, 1, &len) == KALYUBOS_BUSY,
             "a take isn't busy", number);
        need(!is_card || kalyubos_set_link(seat->board, seat->slot, window, true) == KALYUBOS_BUSY, "a link isn't busy", number);
        need(kalyubos_device_pending(seat->board, seat->slot, window, &waits) == KALYUBOS_DONE, "what waits", number);
    }
}
