/*
 * Replays a trace over the C library, and compares what each guest is told on a board of all guests, whose outlets are small,
 * with what it is told on a board of its own, without a budget. All are on a board once for each of BOARDS:
 *  - others' events are served between the pieces of a service;
 *  - where the host serves a disk, up to 64 operations are in flight; they are completed at random moments and in any
 *    order, some fail, some are dropped, and the slot is held for a while (flights.c). The boards of one such guest are
 *    called by a thread each, all at once and without a lock.
 *
 *     sessions TRACE IMAGE SEED    prints what was counted, or ends with 1 and the first event that was answered otherwise
 *     sessions                     prints the features that a board offers, as records: of both windows, the high word, of an
 *                                  entropy device, of a network card and of a disk over spare sectors
 *
 * On the board of all guests a guest is saved now and then, a stranger uses its devices, and it is restored (saves.c). All its
 * further devices are there from the beginning (further.c).
 *
 * What the host does beside the events follows from SEED and a guest's own answers: it takes output now and then, and
 * where there was no room it takes some and mostly makes the same write again. The heap is open to create and destroy
 * alone, and empty at the end.
 */
#include <inttypes.h>
#include <pthread.h>
#include <stdio.h>
#include <stdlib.h>
#include <string.h>

#include "sessions.h"
#include "shut_heap.h"

enum { SECTOR = 512, TAKEN_AT_ONCE = 1 << 16 };
static const uint32_t OUTLETS[] = { 1 << 16, 300, 4095, 1, 1000, 0 };

/* The depths of disks that the host serves. */
static const uint32_t DEPTHS[] = { 1, 8, 2, 64, 5 };

/* The boards of all guests: whether the host serves the disks of the even and of the odd ones, and a call's budget. */
static const struct {
    bool hosted[2];
    uint32_t chains;
    uint64_t bytes;
} BOARDS[] = {
    { { false, false }, 0, 0 }, { { false, false }, 1, 0 }, { { false, false }, 3, 0 }, { { false, false }, 0, 4096 },
    { { true, true }, 0, 0 },   { { true, true }, 1, 0 },   { { true, false }, 3, 0 },  { { false, true }, 0, 4096 },
};
enum { BOARDS_LEN = sizeof BOARDS / sizeof *BOARDS };

static bool is_hosted(size_t board, size_t guest)
{
    return BOARDS[board].hosted[guest % 2];
}

/* ---- the trace, read once */

struct file {
    uint8_t *at;
    size_t len;
};

static struct file content_of(const char *path)
{
    struct file file = { NULL, 0 };
    FILE *from = fopen(path, "rb");
    need(from != NULL && fseek(from, 0, SEEK_END) == 0, path, 0);
    file.len = (size_t)ftell(from);
    rewind(from);
    file.at = malloc(file.len + 1);
    need(file.at != NULL && fread(file.at, 1, file.len, from) == file.len, path, file.len);
    fclose(from);
    return file;
}

static struct trace trace;
static struct event *events;
static size_t events_len;

static void read_trace(struct file text)
{
    size_t room = 1;
    need(read_setup((const char *)text.at, text.len, &trace), "no trace", 0);
    for (const char *at = trace.events; at < trace.end; at++)
        room += *at == '\n';
    events = calloc(room, sizeof *events);
    need(events != NULL, "no memory", room);
    for (; trace.events < trace.end; events_len++)
        need(read_event(&trace, &events[events_len]), "no event", events_len);
}

/* ---- a guest on a board, and its host */

static void take(struct seat *seat, size_t room)
{
    static _Thread_local uint8_t out[TAKEN_AT_ONCE];
    size_t taken = 0;
    tell_number(&seat->told, kalyubos_take_output(seat->board, seat->slot, out, room, &taken));
    tell_number(&seat->told, taken);
    tell(&seat->told, out, taken);
    seat->counts.taken += taken;
}

static void serve_another(void);

/* A slot whose service is paused is busy. */
static void check_busy(struct seat *seat)
{
    uint32_t value;
    uint8_t byte;
    need(kalyubos_read(seat->board, seat->slot, 0, 0, 4, &value) == KALYUBOS_BUSY, "a read isn't busy", seat->slot);
    need(kalyubos_read_memory(seat->board, seat->slot, seat->guest->regions[0].base, &byte, 1) == KALYUBOS_BUSY,
         "a read of memory isn't busy", seat->slot);
    check_no_save(seat);
    check_devices_busy(seat);
}

uint32_t serve_on(struct seat *seat, uint32_t answer, struct kalyubos_pending *pending)
{
    while (answer == KALYUBOS_MORE) {
        seat->counts.pauses++;
        seat->is_paused = true;
        check_busy(seat);
        serve_another();
        answer = kalyubos_go_on(seat->board, seat->slot, pending);
        seat->is_paused = false;
    }
    return answer;
}

/* What follows from a write's answer beside an event; whether the same write comes again. */
static bool goes_again(struct seat *seat, uint32_t answer)
{
    if (seat->disk != NULL)
        take_answer(seat, answer);
    if (answer == KALYUBOS_BUSY) {
        need(seat->disk != NULL && seat->disk->begun != 0, "a write is busy", seat->slot);
        seat->counts.waits++;
        if (chance(seat, 8) == 0)
            drop(seat);
        else
            complete(seat);
        return true;
    }
    if (answer != KALYUBOS_NO_ROOM)
        return false;
    seat->counts.refused++;
    take(seat, chance(seat, chance(seat, 2) ? 100 : TAKEN_AT_ONCE));
    return chance(seat, 8) != 0;
}

static void write_register(struct seat *seat, const struct event *event)
{
    struct kalyubos_pending pending = { 0 };
    uint32_t answer;
    do {
        answer = kalyubos_write(seat->board, seat->slot, (uint8_t)event->window, (uint16_t)event->offset,
                                (uint8_t)event->width, event->value, &pending);
        answer = serve_on(seat, answer, &pending);
        tell_number(&seat->told, answer);
        tell_pending(&seat->told, &pending);
    } while (goes_again(seat, answer));
}

static void read_memory(struct seat *seat, uint64_t address, size_t len)
{
    static _Thread_local uint8_t bytes[1 << 20];
    size_t room = len < sizeof bytes ? len : sizeof bytes;
    uint32_t answer = kalyubos_read_memory(seat->board, seat->slot, address, bytes, room);
    tell_number(&seat->told, answer);
    tell(&seat->told, bytes, answer == KALYUBOS_DONE ? room : 0);
}

static void look(struct seat *seat)
{
    uint8_t words[2] = { 0, 0 };
    bool disturbed = false;
    tell_number(&seat->told, kalyubos_interrupts(seat->board, seat->slot, &words[0], &words[1]));
    tell_number(&seat->told, kalyubos_disturbed(seat->board, seat->slot, &disturbed));
    tell(&seat->told, words, sizeof words);
    tell_number(&seat->told, disturbed);
    tell_devices(seat);
}

static void act(struct seat *seat, const struct event *event)
{
    static const uint8_t none[1];
    const uint8_t *bytes = event->bytes != NULL ? event->bytes : none;
    struct told *told = &seat->told;
    struct kalyubos_pending pending = { 0 };
    uint32_t value = 0, answer;
    size_t took = 0;
    if (seat->disk != NULL)
        serve_by_chance(seat);
    serve_devices_by_chance(seat);
    switch (event->kind) {
    case READ:
        tell_number(told, kalyubos_read(seat->board, seat->slot, (uint8_t)event->window, (uint16_t)event->offset,
                                        (uint8_t)event->width, &value));
        tell_number(told, value);
        break;
    case WRITE: write_register(seat, event); break;
    case MEMORY_READ: read_memory(seat, event->address, event->len); break;
    case MEMORY_WRITE:
        tell_number(told, kalyubos_write_memory(seat->board, seat->slot, event->address, bytes, event->len));
        break;
    case INPUT:
        answer = kalyubos_input(seat->board, seat->slot, bytes, event->len, &took, &pending);
        tell_number(told, serve_on(seat, answer, &pending));
        tell_number(told, took);
        tell_pending(told, &pending);
        break;
    case RESIZE:
        tell_number(told, kalyubos_resize(seat->board, seat->slot, event->cols, event->rows, &pending));
        tell_pending(told, &pending);
        break;
    case RESTORE:
    case COMPLETE:
    case DROP:
    case HOLD:
    case RELEASE: break; /* these traces have none */
    default: act_on_device(seat, event); break;
    }
    look(seat);
    if (chance(seat, 8) == 0)
        take(seat, chance(seat, TAKEN_AT_ONCE));
}

/* Notes where the next event's part of what the seat is told begins. */
static void begin_part(struct seat *seat)
{
    seat->told.starts[seat->told.count++] = seat->told.len;
}

/* How many sectors of the image a guest has, with its spare ones. */
static uint64_t sectors_of(const struct guest *guest)
{
    return guest->count + guest->spare;
}

static void tell_sectors(struct seat *seat, uint64_t first)
{
    size_t len = (size_t)sectors_of(seat->guest) * SECTOR;
    uint8_t *sectors = malloc(len + 1);
    need(sectors != NULL, "memory for the guest's sectors", first);
    if (len > 0)
        need(kalyubos_read_image(seat->board, first * SECTOR, sectors, len) == KALYUBOS_DONE, "the guest's sectors", first);
    tell(&seat->told, sectors, len);
    free(sectors);
}

/* What is left of the guest's at the end: memory, sectors, and all that waits of its output. */
static void tell_rest(struct seat *seat, uint64_t first_sector)
{
    begin_part(seat);
    if (seat->disk != NULL)
        tell_disk(seat);
    else
        tell_sectors(seat, first_sector);
    for (size_t i = 0; i < seat->guest->regions_len; i++)
        read_memory(seat, seat->guest->regions[i].base, (size_t)seat->guest->regions[i].len);
    take(seat, TAKEN_AT_ONCE);
    look(seat);
}

/* ---- all guests on one board, and each on a board of its own */

static uint64_t seed;

static struct seat seat_of(struct kalyubos *board, uint8_t slot, size_t guest)
{
    struct seat seat = {
        .board = board, .slot = slot, .guest = &trace.guests[guest], .state = 0x9e3779b97f4a7c15 * (16 * seed + guest + 1),
    };
    seat.told.starts = calloc(events_len + 1, sizeof *seat.told.starts);
    need(seat.told.starts != NULL, "no memory", events_len);
    return seat;
}

static uint32_t depth_of(size_t guest)
{
    return DEPTHS[(seed + guest) % (sizeof DEPTHS / sizeof *DEPTHS)];
}

static struct kalyubos_device device_of(const struct further_device *it, bool hosted)
{
    struct kalyubos_device device = { .kind = kind_of(it, hosted), .mtu = it->mtu };
    memcpy(device.mac, it->mac, sizeof device.mac);
    if (device.kind == KALYUBOS_IMAGE_DISK) {
        device.start = it->place;
        device.sectors = it->sectors;
        device.read_only = it->read_only;
        memcpy(device.identity, it->identity, sizeof device.identity);
    }
    return device;
}

static struct kalyubos_slot slot_of(size_t guest, uint64_t start, bool hosted)
{
    const struct guest *it = &trace.guests[guest];
    struct kalyubos_slot slot = {
        .size = sizeof slot, .start = start, .count = it->count, .spare = it->spare, .cols = it->cols, .rows = it->rows,
        .hosted = hosted,
        .outlet = OUTLETS[(seed / MOST_GUESTS + guest) % (sizeof OUTLETS / sizeof *OUTLETS)], .read_only = it->read_only,
        .identity = { 'g', (uint8_t)guest }, .depth = depth_of(guest),
    };
    for (size_t i = 0; i < it->regions_len; i++)
        slot.regions[i] = (struct kalyubos_region){ it->regions[i].base, it->regions[i].len };
    for (size_t i = 0; i < it->devices_len; i++)
        slot.devices[i] = device_of(&it->devices[i], hosted);
    return slot;
}

/* The board of all guests: their seats, which events have begun, and how many of the first ones have. */
static struct kalyubos shared;
static struct seat *seats;
static bool *begun;
static size_t begun_len;

/* An event for a slot that the board hasn't. */
static void act_for_nobody(const struct event *event)
{
    struct seat nobody = { .board = &shared, .slot = (uint8_t)event->guest, .state = 1 };
    act(&nobody, event);
    need(*(const uint64_t *)nobody.told.bytes == KALYUBOS_BAD_SLOT, "an answer to nobody", event->guest);
    free(nobody.told.bytes);
}

/* Serves the first event that hasn't begun and whose guest isn't paused, where there is one. */
static void serve_another(void)
{
    while (begun_len < events_len && begun[begun_len])
        begun_len++;
    for (size_t i = begun_len; i < events_len; i++) {
        bool is_there = events[i].guest < trace.guests_len;
        if (begun[i] || (is_there && seats[events[i].guest].is_paused))
            continue;
        begun[i] = true;
        if (!is_there) {
            act_for_nobody(&events[i]);
            return;
        }
        save_by_chance(&seats[events[i].guest]);
        begin_part(&seats[events[i].guest]);
        act(&seats[events[i].guest], &events[i]);
        return;
    }
}

/* Serves all events on the board of all guests, and ends it. */
static void act_together(void)
{
    memset(begun, 0, events_len * sizeof *begun);
    for (begun_len = 0; begun_len < events_len;)
        serve_another();
    for (size_t i = 0; i < trace.guests_len; i++)
        tell_rest(&seats[i], trace.guests[i].start);
    end(&shared);
}

/* Serves the events of a guest alone. */
static void act_alone(struct seat *seat)
{
    size_t guest = (size_t)(seat->guest - trace.guests);
    for (size_t i = 0; i < events_len; i++) {
        if (events[i].guest != guest)
            continue;
        begin_part(seat);
        act(seat, &events[i]);
    }
    tell_rest(seat, 0);
}

static void give_disk(struct seat *seat, struct file image)
{
    size_t guest = (size_t)(seat->guest - trace.guests);
    open_disk(seat, image.at + seat->guest->start * SECTOR, depth_of(guest), (seed + guest) % 2 == 0);
}

static void run_together(size_t board, struct file image)
{
    struct kalyubos_slot slots[MOST_GUESTS];
    for (size_t i = 0; i < trace.guests_len; i++) {
        slots[i] = slot_of(i, trace.guests[i].start, is_hosted(board, i));
        seats[i] = seat_of(&shared, (uint8_t)i, i);
        if (slots[i].hosted)
            give_disk(&seats[i], image);
    }
    size_t image_len = is_hosted(board, 0) && is_hosted(board, 1) ? 0 : image.len;
    struct kalyubos_config config = over_image(slots, trace.guests_len, image.at, image_len);
    config.cache = trace.cache;
    config.chains = BOARDS[board].chains;
    config.bytes = BOARDS[board].bytes;
    make(&shared, config);
    act_together();
}

static void run_alone(struct seat *alone, struct file image)
{
    for (size_t i = 0; i < trace.guests_len; i++) {
        struct kalyubos board = { NULL };
        struct kalyubos_slot slot = slot_of(i, 0, false);
        alone[i] = seat_of(&board, 0, i);
        make(&board, over_image(&slot, 1, image.at + trace.guests[i].start * SECTOR, sectors_of(&trace.guests[i]) * SECTOR));
        act_alone(&alone[i]);
        end(&board);
    }
}

static void *act_on_a_thread(void *seat)
{
    act_alone(seat);
    return NULL;
}

/* Each guest on a board and on a thread of its own, all at once, with a disk that the host serves. */
static void run_hosted_alone(struct seat *alone, struct file image)
{
    static struct kalyubos boards[MOST_GUESTS];
    pthread_t threads[MOST_GUESTS];
    for (size_t i = 0; i < trace.guests_len; i++) {
        struct kalyubos_slot slot = slot_of(i, 0, true);
        make(&boards[i], kalyubos_config_of(&slot, 1));
        alone[i] = seat_of(&boards[i], 0, i);
        give_disk(&alone[i], image);
    }
    for (size_t i = 0; i < trace.guests_len; i++)
        need(pthread_create(&threads[i], NULL, act_on_a_thread, &alone[i]) == 0, "no thread", i);
    for (size_t i = 0; i < trace.guests_len; i++)
        need(pthread_join(threads[i], NULL) == 0, "no end of a thread", i);
    end_all(boards, trace.guests_len);
}

/* ---- what the guests were told */

/* Ends the program where the two were told something else, with the number of the guest's first such event. */
static void compare(size_t guest, const struct told *together, const struct told *alone)
{
    size_t least = together->len < alone->len ? together->len : alone->len, at = 0, event = 0;
    while (at < least && together->bytes[at] == alone->bytes[at])
        at++;
    if (at == together->len && at == alone->len)
        return;
    while (event + 1 < together->count && together->starts[event + 1] <= at)
        event++;
    fprintf(stderr, "guest %zu is told something else at its event %zu of %zu\n", guest, event, together->count);
    exit(1);
}

static struct counts total;

static void add_counts(const struct counts *counts)
{
    total.pauses += counts->pauses;
    total.refused += counts->refused;
    total.taken += counts->taken;
    total.operations += counts->operations;
    total.failures += counts->failures;
    total.drops += counts->drops;
    total.holds += counts->holds;
    total.waits += counts->waits;
    total.saves += counts->saves;
    total.supplied += counts->supplied;
    total.handed += counts->handed;
    total.sent += counts->sent;
    total.short_buffers += counts->short_buffers;
    total.pages += counts->pages;
    total.notified += counts->notified;
}

static void release(struct seat *seat)
{
    free(seat->told.bytes);
    free(seat->told.starts);
    if (seat->disk != NULL)
        close_disk(seat);
}

static void print_features(void)
{
    static const uint8_t windows[] = { KALYUBOS_BLOCK, KALYUBOS_CONSOLE, KALYUBOS_BLOCK, KALYUBOS_DEVICE, KALYUBOS_DEVICE + 1,
                                       KALYUBOS_DEVICE + 2 };
    static uint8_t image[2 * SECTOR];
    struct kalyubos board = { NULL };
    struct kalyubos_slot slot = { .size = sizeof slot, .regions = { { 0, 0x1000 } }, .count = 1, .spare = 1,
                                  .devices = { { .kind = KALYUBOS_ENTROPY }, { .kind = KALYUBOS_NETWORK, .mtu = 1500 },
                                               { .kind = KALYUBOS_IMAGE_DISK, .sectors = 1 } } };
    make(&board, over_image(&slot, 1, image, sizeof image));
    for (uint32_t i = 0; i < sizeof windows; i++) {
        struct kalyubos_pending pending;
        uint32_t word = 0;
        bool selected = kalyubos_write(&board, 0, windows[i], 0x014, 4, i == 2, &pending) == KALYUBOS_DONE;
        need(selected && kalyubos_read(&board, 0, windows[i], 0x010, 4, &word) == KALYUBOS_DONE, "features", 0);
        printf("0 v:%08" PRIx32 " - 0 0\n", word);
    }
    end(&board);
}

static void check_boards(struct file image)
{
    static struct seat together[BOARDS_LEN][MOST_GUESTS], alone[MOST_GUESTS], hosted_alone[MOST_GUESTS];
    for (size_t i = 0; i < BOARDS_LEN; i++) {
        seats = together[i];
        run_together(i, image);
    }
    run_alone(alone, image);
    run_hosted_alone(hosted_alone, image);
    for (size_t i = 0; i < trace.guests_len; i++) {
        for (size_t j = 0; j < BOARDS_LEN; j++) {
            compare(i, &together[j][i].told, is_hosted(j, i) ? &hosted_alone[i].told : &alone[i].told);
            add_counts(&together[j][i].counts);
            release(&together[j][i]);
        }
        release(&alone[i]);
        release(&hosted_alone[i]);
    }
}

int main(int argc, char **argv)
{
    if (argc != 4) {
        print_features();
        return 0;
    }
    struct file text = content_of(argv[1]), image = content_of(argv[2]);
    seed = strtoull(argv[3], NULL, 10);
    read_trace(text);
    begun = calloc(events_len + 1, sizeof *begun);
    need(begun != NULL, "no memory", events_len);
    check_boards(image);
    printf("%zu events, %" PRIu64 " pauses, %" PRIu64 " writes without room, %" PRIu64 " bytes taken, %" PRIu64
           " operations, %" PRIu64 " of them failed, %" PRIu64 " drops, %" PRIu64 " holds, %" PRIu64
           " writes that waited for a disk, %" PRIu64 " guests that were saved and restored, %" PRIu64
           " bytes of entropy, %" PRIu64 " frames handed over, %" PRIu64 " frames taken, %" PRIu64 " buffers too short for one, %" PRIu64 " marked pages, %" PRIu64
           " notifies of disks over spare sectors\n",
           BOARDS_LEN * events_len, total.pauses, total.refused, total.taken, total.operations, total.failures,
           total.drops, total.holds, total.waits, total.saves, total.supplied, total.handed, total.sent, total.short_buffers,
           total.pages, total.notified);
    free(begun);
    for (size_t i = 0; i < events_len; i++)
        free(events[i].bytes);
    free(events);
    free(text.at);
    free(image.at);
    return 0;
}
