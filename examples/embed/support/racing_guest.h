/*
 * A guest of two CPUs that run on while it is served. CPU 0 notifies the devices and is interrupted; meanwhile CPU 1 puts chains
 * on offer, and rewrites those that are served. Or both are hostile: CPU 1 writes random bytes over all that the devices read,
 * and CPU 0 stores to random registers. kvm-racing.c runs it over KVM, and racing_threads.c on threads.
 *
 * A sane guest writes a sector, reads it, zeroes it and reads it again, one request after the other, and compares what it reads.
 * It has eight sectors at once, then a while one alone: then nothing looks at the queue for a request whose notification is lost.
 * What is typed to its console it puts out again, and a frame that its network card receives it sends back. It draws random bytes.
 */
#ifndef RACING_GUEST_H
#define RACING_GUEST_H

#include "racing_queue.h"

/* The guest's memory, as far as devices reach it: two regions. The rings, tables, headers and segments lie in the first. */
enum { LOW = 0x200000, HIGH = 0x400000, REGION_LEN = 0x10000 };
enum { TABLES = LOW + 0x8000, HEADERS = LOW + 0x9000, SEGMENTS = LOW + 0xa000, DATA = HIGH, TEXTS = HIGH + 0x8000 };
enum { FRAMES = HIGH + 0xa000, DRAWN = HIGH + 0xc000 };
enum { SECTOR = 512, SECTORS = 4096, TEXT = 64, FRAME = 64, LEAST_FRAME = 14, FRAME_HEADER = 12 /* (5.1.6) */, DRAW = 16 };

enum { BLOCK, CONSOLE, ENTROPY, CARD, WINDOWS }; /* as the library numbers them */
enum { DISK_QUEUE, RECEIVE, TRANSMIT, DRAW_QUEUE, FRAMES_IN, FRAMES_OUT, QUEUES };

/* Whose queue each is. The last of a window's is its second one. */
static const uint32_t WINDOW_OF[QUEUES] = { BLOCK, CONSOLE, CONSOLE, ENTROPY, CARD, CARD };
static const uint32_t PLACE_OF[QUEUES] = { 0, 0, 1, 0, 0, 1 };

/* What a request asks for, and which step of a sector does it. */
enum { IN = 0, OUT = 1, ZEROES = 13, STEPS = 4 };
static const uint32_t KINDS[STEPS] = { OUT, IN, ZEROES, IN };

/* What stands at a word of a sector behind the first step of a turn. */
static inline uint64_t pattern(uint64_t sector, uint64_t turn, uint64_t word)
{
    uint64_t mixed = (sector * 0x9e3779b97f4a7c15) ^ (turn * 0xbf58476d1ce4e5b9) ^ (word * 0x94d049bb133111eb);
    return (mixed ^ mixed >> 29) * 0x9e3779b97f4a7c15;
}

/* The byte of a place in what is typed. */
static inline uint8_t typed_byte(uint32_t place)
{
    return (uint8_t)(place * 167 + place / 251);
}

/* The random byte of a place, and the byte of a place in a frame of this number. */
static inline uint8_t drawn_byte(uint32_t place)
{
    return (uint8_t)(place * 97 + place / 241);
}

static inline uint8_t frame_byte(uint32_t number, uint32_t place)
{
    return place < 4 ? (uint8_t)(number >> 8 * place) : (uint8_t)(number * 31 + place * 167);
}

static inline uint32_t frame_len(uint32_t number)
{
    return LEAST_FRAME + number * 7 % (FRAME - LEAST_FRAME + 1);
}

/* What host and CPUs tell one another, in memory that no device reaches. */
struct control {
    uint32_t packed, event_idx, is_hostile, seed;    /* by the host: what the guest is, */
    uint32_t requests, bytes;                        /* how many requests it makes and bytes are typed; 0: as many as come */
    uint32_t sent_frames, drawn_bytes;               /* how many frames it is sent and random bytes it draws; 0: as many as come */
    _Atomic uint32_t stop, typed;                    /* that it is to end, and how many bytes were typed so far */
    _Atomic uint32_t ready, ended, kicks[QUEUES];    /* CPU 0 has begun, CPU 1 has ended, and how often it wants to notify */
    _Atomic uint32_t interrupts, notifies;           /* how many there were; notifications of a hostile guest: all stores */
    _Atomic uint32_t done, echoed, failed;           /* requests and bytes that came back; the line of a check that failed */
    _Atomic uint32_t frames, returned, drawn;        /* frames that it was sent and that it sent back; random bytes it has drawn */
};

/* What stands round the CPUs. */
struct machine {
    struct control *control;
    uintptr_t memory;
    uint32_t (*load)(struct machine *machine, uint32_t window, uint32_t offset);
    void (*store)(struct machine *machine, uint32_t window, uint32_t offset, uint32_t value);
    void (*rest)(struct machine *machine); /* what a CPU does in a loop */
    uint32_t looks;                        /* how often CPU 1 looks for used chains at most, before it waits */
};

#define CHECK(machine, holds) ((holds) ? (void)0 : fail(machine, __LINE__))

static inline void fail(struct machine *machine, uint32_t line)
{
    uint32_t none = 0;
    atomic_compare_exchange_strong(&machine->control->failed, &none, line);
    machine->control->stop = 1;
}

static inline uint64_t chance(uint64_t *state, uint64_t below)
{
    *state ^= *state << 13;
    *state ^= *state >> 7;
    *state ^= *state << 17;
    return (*state >> 11) % below;
}

/* ---- a driver's bring-up (3.1.1, 4.2.3.2) */

/* Where the areas of a queue lie. The device's is aligned to 4: in a split ring an entry of it is a word, or lies across two. */
static inline uint64_t queue_at(uint64_t number)
{
    return LOW + 0x1000 * number;
}

static inline uint64_t driver_at(uint64_t number)
{
    return queue_at(number) + 0x400;
}

static inline uint64_t device_at(uint64_t number)
{
    return queue_at(number) + 0x800 + 4 * (number % 2);
}

static inline struct queue queue_of(const struct machine *machine, unsigned number)
{
    return (struct queue){
        .memory = machine->memory, .packed = machine->control->packed, .event_idx = machine->control->event_idx,
        .table = queue_at(number), .driver = driver_at(number), .device = device_at(number),
    };
}

/* A queue, which is this one of its window. */
static inline void set_up_queue(struct machine *machine, uint32_t window, uint32_t of_window, unsigned number)
{
    const uint32_t table = (uint32_t)queue_at(number), driver = (uint32_t)driver_at(number), device = (uint32_t)device_at(number);
    const uint32_t steps[][2] = { { 0x30, of_window }, { 0x38, RING }, { 0x80, table }, { 0x84, 0 }, { 0x90, driver },
                                  { 0x94, 0 }, { 0xa0, device }, { 0xa4, 0 }, { 0x44, 1 } };
    for (unsigned i = 0; i < sizeof steps / sizeof *steps; i++)
        machine->store(machine, window, steps[i][0], steps[i][1]);
}

static inline void bring_up(struct machine *machine, uint32_t window, bool packed, bool event_idx, bool has_tables)
{
    const uint32_t zeroes = window == BLOCK ? 1u << 14 : 0, tables = has_tables ? 1u << 28 : 0, events = event_idx ? 1u << 29 : 0;
    const uint32_t steps[][2] = { { 0x70, 0 }, { 0x70, 1 }, { 0x70, 3 }, { 0x24, 0 }, { 0x20, zeroes | tables | events },
                                  { 0x24, 1 }, { 0x20, packed ? 5 : 1 }, { 0x70, 11 } };
    for (unsigned i = 0; i < sizeof steps / sizeof *steps; i++)
        machine->store(machine, window, steps[i][0], steps[i][1]);
    for (unsigned i = 0; i < QUEUES; i++)
        if (WINDOW_OF[i] == window)
            set_up_queue(machine, window, PLACE_OF[i], i);
    machine->store(machine, window, 0x70, 15);
}

/* ---- CPU 1 of a sane guest */

/* A place for requests: its sector, in which turn of all sectors, and which step of that is open, or is next. */
struct place {
    uint64_t sector, turn;
    unsigned step;
    bool is_open;
    uint32_t mark; /* what CPU 1 last wrote beside the status, in its word, while the request was open */
};

struct driver {
    struct machine *machine;
    struct queue queues[QUEUES];
    struct place places[IDS];
    uint64_t sectors, state; /* how many sectors were begun, and the state of chance */
    uint32_t texts[IDS];     /* how many bytes stand in a buffer that is being put out */
    uint32_t frames[IDS];    /* and in one whose frame is being sent */
    uint32_t received;       /* how many frames came */
};

static inline uint64_t header_of(uint64_t id)
{
    return HEADERS + 32 * id;
}

static inline uint64_t status_of(uint64_t id)
{
    return header_of(id) + 16;
}

static inline uint64_t mark_of(uint64_t id)
{
    return status_of(id) + 4;
}

static inline uint64_t segment_of(uint64_t id)
{
    return SEGMENTS + 16 * id;
}

static inline uint64_t table_of(uint64_t id)
{
    return TABLES + 16 * PARTS * id;
}

static inline uint64_t data_of(uint64_t id)
{
    return DATA + SECTOR * id;
}

/* Has CPU 0 tell the devices what they want to be told: at once, or where that is by chance, behind what is offered next. */
static inline void tell(struct driver *driver, bool at_once)
{
    for (unsigned i = 0; i < QUEUES && (at_once || chance(&driver->state, 2)); i++)
        if (must_notify(&driver->queues[i]))
            driver->machine->control->kicks[i]++;
}

/* Writes a request's header, its segment or its data, and a status that no device answers. */
static inline void write_request(const struct driver *driver, unsigned id)
{
    const struct place *place = &driver->places[id];
    uintptr_t memory = driver->machine->memory;
    uint32_t kind = KINDS[place->step];
    store_64(memory, header_of(id), kind);
    store_64(memory, header_of(id) + 8, kind == ZEROES ? 0 : place->sector);
    store_8(memory, status_of(id), 0xff);
    store_32(memory, mark_of(id), place->mark);
    store_64(memory, segment_of(id), place->sector);
    store_64(memory, segment_of(id) + 8, 1);
    for (unsigned i = 0; i < SECTOR / 8 && kind == OUT; i++)
        store_64(memory, data_of(id) + 8 * i, pattern(place->sector, place->turn, i));
}

/* Puts what is next in a place on offer. Each second chain is in a table, and its data are in two buffers. */
static inline void ask(struct driver *driver, uint16_t id)
{
    uint32_t kind = KINDS[driver->places[id].step], cut = 8 * (1 + (uint32_t)chance(&driver->state, 63));
    uint64_t table = chance(&driver->state, 2) ? table_of(id) : 0;
    const struct part header = { header_of(id), 16, false }, status = { status_of(id), 1, true };
    const struct part first = { data_of(id), cut, kind == IN }, other = { data_of(id) + cut, SECTOR - cut, kind == IN };
    const struct part moved[] = { header, first, other, status }, zeroed[] = { header, { segment_of(id), 16, false }, status };
    write_request(driver, id);
    offer(&driver->queues[DISK_QUEUE], id, kind == ZEROES ? zeroed : moved, kind == ZEROES ? 3 : 4, table);
    driver->places[id].is_open = true;
}

/* Writes over a request that is served, but not over a packed ring, whose flags say what is on offer. */
static inline void rewrite(struct driver *driver, uint16_t id)
{
    uintptr_t memory = driver->machine->memory;
    for (unsigned i = 0; i < 2 * PARTS; i++) {
        store_64(memory, table_of(id) + 8 * i, ~(uint64_t)0);
        if (!driver->queues[DISK_QUEUE].packed)
            store_64(memory, queue_at(DISK_QUEUE) + 16 * PARTS * (uint64_t)id + 8 * i, ~(uint64_t)0);
    }
    for (unsigned i = 0; i < 16; i += 8) {
        store_64(memory, header_of(id) + i, ~(uint64_t)0);
        store_64(memory, segment_of(id) + i, ~(uint64_t)0);
    }
}

/* A request came back: its status, its used len, and what was read. */
static inline void check(struct driver *driver, uint16_t id, uint32_t len)
{
    struct place *place = &driver->places[id];
    uintptr_t memory = driver->machine->memory;
    bool is_read = KINDS[place->step] == IN;
    CHECK(driver->machine, place->is_open);
    CHECK(driver->machine, load_8(memory, status_of(id)) == 0);
    CHECK(driver->machine, load_32(memory, mark_of(id)) == place->mark);
    CHECK(driver->machine, len == 1 + (is_read ? SECTOR : 0));
    for (unsigned i = 0; i < SECTOR / 8 && is_read; i++) {
        uint64_t expected = place->step == 1 ? pattern(place->sector, place->turn, i) : 0;
        CHECK(driver->machine, load_64(memory, data_of(id) + 8 * i) == expected);
    }
    place->is_open = false;
    place->step++;
    driver->machine->control->done++;
}

/* Takes back the requests that are used, and checks them: whether there was one. */
static inline bool take_back(struct driver *driver)
{
    struct queue *queue = &driver->queues[DISK_QUEUE];
    uint16_t id;
    uint32_t len;
    bool is_any = false;
    for (; has_used(queue); is_any = true) {
        bool is_known = take(queue, &id, &len);
        CHECK(driver->machine, is_known && driver->places[id].is_open);
        if (driver->machine->control->failed)
            return false;
        check(driver, id, len);
        rewrite(driver, id);
    }
    return is_any;
}

/* Whether there is a further sector to begin. */
static inline bool has_more(const struct driver *driver)
{
    const struct control *control = driver->machine->control;
    return !control->stop && (control->requests == 0 || STEPS * driver->sectors < control->requests);
}

/* How many places there are: of so many sectors all, and of the next ones one. */
static inline unsigned places_of(const struct driver *driver)
{
    enum { SECTORS_IN_TURN = 64 };
    return driver->sectors / SECTORS_IN_TURN % 2 == 0 ? IDS : 1;
}

/* Asks for what is next in each place. */
static inline void ask_for_more(struct driver *driver)
{
    for (uint16_t id = 0; id < IDS; id++) {
        struct place *place = &driver->places[id];
        bool is_free = place->step == STEPS, goes_on = has_more(driver) && id < places_of(driver);
        if (place->is_open || (is_free && !goes_on))
            continue;
        if (place->step == STEPS) {
            *place = (struct place){ .sector = driver->sectors % SECTORS, .turn = driver->sectors / SECTORS };
            driver->sectors++;
        }
        ask(driver, id);
        tell(driver, false);
    }
}

static inline void await_text(struct driver *driver, uint16_t id)
{
    const struct part room = { TEXTS + TEXT * (uint64_t)id, TEXT, true };
    offer(&driver->queues[RECEIVE], id, &room, 1, 0);
}

/* Puts out what was typed, and gives the console the buffers back that were put out: whether there were some. */
static inline bool echo(struct driver *driver)
{
    struct machine *machine = driver->machine;
    uint16_t id;
    uint32_t len;
    bool is_any = false;
    for (; has_used(&driver->queues[RECEIVE]) && !machine->control->failed; is_any = true) {
        bool is_known = take(&driver->queues[RECEIVE], &id, &len) && len > 0 && len <= TEXT;
        CHECK(machine, is_known && driver->texts[id] == 0);
        if (machine->control->failed)
            return false;
        const struct part text = { TEXTS + TEXT * (uint64_t)id, len, false };
        driver->texts[id] = len;
        offer(&driver->queues[TRANSMIT], id, &text, 1, 0);
        tell(driver, false);
    }
    for (; has_used(&driver->queues[TRANSMIT]) && !machine->control->failed; is_any = true) {
        bool is_known = take(&driver->queues[TRANSMIT], &id, &len) && len == 0;
        CHECK(machine, is_known && driver->texts[id] != 0);
        if (machine->control->failed)
            return false;
        machine->control->echoed += driver->texts[id];
        driver->texts[id] = 0;
        await_text(driver, id);
    }
    return is_any;
}

static inline uint64_t frame_at(uint64_t id)
{
    return FRAMES + 2 * FRAME * id;
}

static inline void await_frame(struct driver *driver, uint16_t id)
{
    const struct part room = { frame_at(id), FRAME_HEADER + FRAME, true };
    offer(&driver->queues[FRAMES_IN], id, &room, 1, 0);
}

static inline void await_random(struct driver *driver, uint16_t id)
{
    const struct part room = { DRAWN + DRAW * (uint64_t)id, DRAW, true };
    offer(&driver->queues[DRAW_QUEUE], id, &room, 1, 0);
}

/* A frame that came: the next one, whole, behind a header of one buffer (5.1.6.4.1). */
static inline void check_frame(struct driver *driver, uint64_t at, uint32_t len)
{
    struct machine *machine = driver->machine;
    uint32_t number = driver->received++;
    CHECK(machine, load_64(machine->memory, at) == 0 && load_32(machine->memory, at + 8) == 1u << 16);
    CHECK(machine, len == FRAME_HEADER + frame_len(number));
    for (uint32_t i = 0; i < frame_len(number) && !machine->control->failed; i++)
        CHECK(machine, load_8(machine->memory, at + FRAME_HEADER + i) == frame_byte(number, i));
}

/* Sends back the frames that came, and gives the card the buffers back that were sent: whether there were some. */
static inline bool send_back(struct driver *driver)
{
    struct machine *machine = driver->machine;
    uint16_t id;
    uint32_t len;
    bool is_any = false;
    for (; has_used(&driver->queues[FRAMES_IN]) && !machine->control->failed; is_any = true) {
        bool is_known = take(&driver->queues[FRAMES_IN], &id, &len);
        CHECK(machine, is_known && driver->frames[id] == 0);
        if (!machine->control->failed)
            check_frame(driver, frame_at(id), len);
        if (machine->control->failed)
            return false;
        const struct part frame = { frame_at(id), len, false };
        store_32(machine->memory, frame_at(id) + 8, 0);
        driver->frames[id] = len;
        offer(&driver->queues[FRAMES_OUT], id, &frame, 1, 0);
        tell(driver, false);
    }
    for (; has_used(&driver->queues[FRAMES_OUT]) && !machine->control->failed; is_any = true) {
        bool is_known = take(&driver->queues[FRAMES_OUT], &id, &len) && len == 0;
        CHECK(machine, is_known && driver->frames[id] != 0);
        if (machine->control->failed)
            return false;
        driver->frames[id] = 0;
        machine->control->returned++;
        await_frame(driver, id);
    }
    return is_any;
}

/* Takes the random bytes that were drawn, and asks for more: whether there were some. */
static inline bool draw(struct driver *driver)
{
    struct machine *machine = driver->machine;
    uint16_t id;
    uint32_t len;
    bool is_any = false;
    for (; has_used(&driver->queues[DRAW_QUEUE]) && !machine->control->failed; is_any = true) {
        bool is_known = take(&driver->queues[DRAW_QUEUE], &id, &len);
        CHECK(machine, is_known && len > 0 && len <= DRAW);
        for (uint32_t i = 0; i < len && !machine->control->failed; i++)
            CHECK(machine, load_8(machine->memory, DRAWN + DRAW * (uint64_t)id + i) == drawn_byte(machine->control->drawn++));
        if (machine->control->failed)
            return false;
        await_random(driver, id);
    }
    return is_any;
}

/* Writes beside each status that the device is to write. Both stay. */
static inline void mark(struct driver *driver)
{
    for (unsigned id = 0; id < IDS; id++)
        if (driver->places[id].is_open)
            store_32(driver->machine->memory, mark_of(id), ++driver->places[id].mark);
}

static inline bool has_any_used(const struct driver *driver)
{
    for (unsigned i = 0; i < QUEUES; i++)
        if (has_used(&driver->queues[i]))
            return true;
    return false;
}

/* Looks again some times, and then waits for an interrupt. One that is lost, or a notification, leaves the guest standing here. */
static inline void wait_a_while(struct driver *driver)
{
    struct machine *machine = driver->machine;
    uint32_t seen = machine->control->interrupts;
    for (uint64_t looks = chance(&driver->state, machine->looks); looks > 0; looks--) {
        mark(driver);
        if (has_any_used(driver))
            return;
    }
    for (unsigned i = 0; i < QUEUES; i++)
        want(&driver->queues[i]);
    if (has_any_used(driver))
        return;
    while (machine->control->interrupts == seen && !machine->control->stop)
        machine->rest(machine);
}

static inline bool is_done(const struct driver *driver)
{
    const struct control *control = driver->machine->control;
    uint32_t bytes = control->stop ? control->typed : control->bytes;
    uint32_t frames = control->stop ? control->frames : control->sent_frames;
    bool has_all = control->echoed >= bytes && control->returned >= frames && (control->stop || control->drawn >= control->drawn_bytes);
    return control->failed || (control->done == STEPS * driver->sectors && !has_more(driver) && has_all);
}

static inline void run_driver(struct machine *machine)
{
    struct driver driver = { .machine = machine, .state = 0x9e3779b97f4a7c15u * (machine->control->seed + 1) };
    while (!machine->control->ready)
        machine->rest(machine);
    for (unsigned i = 0; i < QUEUES; i++)
        driver.queues[i] = queue_of(machine, i);
    for (uint16_t id = 0; id < IDS; id++) {
        driver.places[id].step = STEPS;
        await_text(&driver, id);
        await_frame(&driver, id);
        await_random(&driver, id);
    }
    while (!is_done(&driver)) {
        bool is_any = take_back(&driver);
        ask_for_more(&driver);
        is_any |= echo(&driver);
        is_any |= send_back(&driver);
        is_any |= draw(&driver);
        tell(&driver, true);
        if (!is_any)
            wait_a_while(&driver);
    }
    machine->control->ended = 1;
}

/* ---- CPU 0 of a sane guest */

static inline void run_notifier(struct machine *machine)
{
    struct control *control = machine->control;
    uint32_t told[QUEUES] = { 0 };
    for (uint32_t window = 0; window < WINDOWS; window++)
        bring_up(machine, window, control->packed, control->event_idx, true);
    control->ready = 1;
    while (!control->ended) {
        for (unsigned i = 0; i < QUEUES; i++) {
            uint32_t kicks = control->kicks[i];
            if (kicks == told[i])
                continue;
            told[i] = kicks;
            machine->store(machine, WINDOW_OF[i], 0x50, PLACE_OF[i]);
            control->notifies++;
        }
        machine->rest(machine);
    }
}

/* Where a window's line is high. It tells of used chains alone: no size and no link changes, and no reset is asked for. */
static inline void on_interrupt(struct machine *machine, uint32_t window)
{
    uint32_t why = machine->load(machine, window, 0x60);
    CHECK(machine, why <= 1);
    machine->store(machine, window, 0x64, why);
    machine->control->interrupts++;
}

/* ---- a hostile guest */

/* A descriptor of either kind, whose address, length and flags are at times good ones. */
static inline void scribble_descriptor(uintptr_t memory, uint64_t at, uint64_t *state)
{
    static const uint32_t lens[] = { 0, 1, 15, 16, 17, 32, 64, SECTOR, SECTOR - 1, 4096, REGION_LEN, 0xffffffff };
    uint64_t place = chance(state, 4) ? 16 * chance(state, 0x1000) : chance(state, 0x20000);
    uint64_t addr = (chance(state, 2) ? LOW : HIGH) + place, len = lens[chance(state, sizeof lens / sizeof *lens)];
    uint64_t flags = chance(state, 8), id = chance(state, chance(state, 8) ? RING : 65536);
    uint64_t both = (chance(state, 2) ? AVAIL : 0) | (chance(state, 2) ? USED : 0);
    store_64(memory, at, chance(state, 16) ? addr : chance(state, UINT64_MAX));
    if (chance(state, 2))
        store_64(memory, at + 8, len | flags << 32 | id << 48);
    else
        store_64(memory, at + 8, len | id << 32 | (flags | both) << 48);
}

/* A good request of an id, which isn't on offer yet in a split ring: its header, a segment, and its descriptors. */
static inline void make_good(uintptr_t memory, uint64_t queue, uint64_t id, uint64_t *state)
{
    uint32_t kind = KINDS[chance(state, STEPS)];
    uint64_t at = queue + 16 * PARTS * id, parts = PARTS * id;
    const struct part header = { header_of(id), 16, false }, status = { status_of(id), 1, true };
    const struct part data = { data_of(id), SECTOR, kind == IN }, segment = { segment_of(id), 16, false };
    store_64(memory, header.addr, kind);
    store_64(memory, header.addr + 8, kind == ZEROES ? 0 : chance(state, SECTORS));
    store_64(memory, segment.addr, chance(state, SECTORS - 16));
    store_64(memory, segment.addr + 8, 1 + chance(state, 16));
    describe(memory, at, header, NEXT, (uint16_t)(parts + 1));
    describe(memory, at + 16, kind == ZEROES ? segment : data, NEXT, (uint16_t)(parts + 2));
    describe(memory, at + 32, status, 0, 0);
}

/* Makes such requests, and offers all of them in a split ring, or by both kinds of flags in a packed one. */
static inline void offer_good(const struct machine *machine, unsigned number, uint64_t *state)
{
    uintptr_t memory = machine->memory;
    struct queue queue = queue_of(machine, number);
    bool packed = chance(state, 2);
    uint16_t idx = load_16(memory, queue.driver + 2);
    queue.packed = true;
    queue.offered = (uint16_t)(RING * chance(state, 2));
    for (uint16_t id = 0; id < IDS; id++) {
        make_good(memory, queue.table, id, state);
        store_16(memory, queue.driver + 4 + 2 * ((idx + id) % RING), PARTS * id);
        for (unsigned i = 0; i < PARTS - 1 && packed; i++) {
            uint64_t at = queue.table + 16 * (PARTS * (uint64_t)id + i), last = load_64(memory, at + 8);
            uint64_t flags = (last >> 32 & UINT16_MAX) | on_offer(queue.offered);
            store_64(memory, at + 8, (last & UINT32_MAX) | (uint64_t)id << 32 | flags << 48);
        }
    }
    store_16(memory, queue.driver + 2, (uint16_t)(idx + IDS));
}

static inline void scribble(const struct machine *machine, uint64_t *state)
{
    uintptr_t memory = machine->memory;
    unsigned number = (unsigned)chance(state, QUEUES);
    uint64_t queue = queue_at(number), driver = driver_at(number), id = chance(state, IDS);
    switch (chance(state, 10)) {
    case 0: /* anywhere */
        store_8(memory, (chance(state, 2) ? LOW : HIGH) + chance(state, REGION_LEN), (uint8_t)chance(state, 256));
        break;
    case 1: /* in a ring */
        store_8(memory, queue + 0x400 * chance(state, 3) + chance(state, 0x110), (uint8_t)chance(state, 256));
        break;
    case 2:
        scribble_descriptor(memory, queue + 16 * chance(state, RING), state);
        break;
    case 3:
        scribble_descriptor(memory, TABLES + 16 * chance(state, PARTS * IDS), state);
        break;
    case 4: /* further chains on offer */
        store_16(memory, driver + 4 + 2 * chance(state, RING), (uint16_t)chance(state, chance(state, 8) ? RING : 65536));
        store_16(memory, driver + 2, (uint16_t)(load_16(memory, device_at(number) + 2) + chance(state, RING)));
        break;
    case 5: /* a header */
        store_64(memory, header_of(id), chance(state, 2) ? KINDS[chance(state, STEPS)] : chance(state, 16));
        store_64(memory, header_of(id) + 8, chance(state, chance(state, 8) ? SECTORS : UINT64_MAX));
        break;
    case 6: /* a segment */
        store_64(memory, segment_of(id), chance(state, chance(state, 8) ? SECTORS : UINT64_MAX));
        store_64(memory, segment_of(id) + 8, chance(state, chance(state, 8) ? 16 : UINT64_MAX));
        break;
    case 7: /* what it wants to be told of */
        store_16(memory, driver + (chance(state, 2) ? 0 : 4 + 2 * RING), (uint16_t)chance(state, 65536));
        break;
    default:
        offer_good(machine, chance(state, 2) ? (unsigned)DISK_QUEUE : number, state);
    }
}

/* It writes without a pause, or now and then, so that some of what is on offer is served as it was meant. */
static inline void write_at_random(struct machine *machine)
{
    uint64_t state = 0x9e3779b97f4a7c15u * (machine->control->seed + 1), pause = 0;
    for (unsigned turn = 0; !machine->control->stop; turn++) {
        if (turn % 64 == 0)
            pause = chance(&state, 2) ? chance(&state, 50) : 0;
        for (uint64_t i = 0; i < pause; i++)
            machine->rest(machine);
        scribble(machine, &state);
    }
    machine->control->ended = 1;
}

/* Notifies, and stores to registers, and at times brings a window up anew, always where that asks for a reset. */
static inline void store_at_random(struct machine *machine)
{
    struct control *control = machine->control;
    uint64_t state = 0x2545f4914f6cdd1du * (control->seed + 1);
    for (uint32_t window = 0; window < WINDOWS; window++)
        bring_up(machine, window, control->packed, control->event_idx, true);
    while (!control->ended) {
        uint32_t window = (uint32_t)chance(&state, WINDOWS);
        uint64_t which = chance(&state, 64);
        uint32_t offset = (uint32_t)(4 * chance(&state, 0x48));
        uint32_t value = (uint32_t)chance(&state, chance(&state, 2) ? 16 : UINT32_MAX);
        if (which == 0)
            machine->store(machine, window, offset, value);
        else if (which == 1)
            (void)machine->load(machine, window, offset);
        else if (which == 2 || (which < 8 && (machine->load(machine, window, 0x70) & 0x40) != 0))
            bring_up(machine, window, chance(&state, 2), chance(&state, 2), chance(&state, 8));
        else
            machine->store(machine, window, 0x50, (uint32_t)chance(&state, 2));
        control->notifies++;
    }
}

static inline void run_cpu(struct machine *machine, unsigned number)
{
    if (machine->control->is_hostile)
        (number == 0 ? store_at_random : write_at_random)(machine);
    else
        (number == 0 ? run_notifier : run_driver)(machine);
}

#endif
