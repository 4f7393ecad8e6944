/*
 * A guest with further devices is saved, rolled back and moved: while each of its drivers waits for the host, and while bytes, a
 * frame and input wait for the drivers. Behind a restore the host sets the lines of all windows by one call, and goes on as ever.
 * A snapshot of version 2 has nothing of what waits: there the host hands it in, in any order, and notifies each queue.
 */
#include <inttypes.h>
#include <stdio.h>
#include <stdlib.h>
#include <string.h>

#include "kalyubos.h"

enum { NOTIFY = 0x050, WRITE = 2, ENTROPY = KALYUBOS_DEVICE, CARD, CONSOLE, WINDOWS };

/* Each queue has a part of the guest's memory, for its ring and one buffer. */
enum { AREA = 0x10000, TABLE = 0, AVAILABLE = 0x1000, USED = 0x2000, DATA = 0x4000, PLACES = 128, MEMORY_LEN = 2 * WINDOWS * AREA };

/* What a card and a console keep for the host, and what the driver offers beyond it. */
enum { HEADER = 12, FRAME = 64, FRAMES = 64, OUTPUT = 32768, OUTPUTS = 2, ROOM = 65536, POOL = 4096, BYTES = 16 };

/* How long a snapshot is of which frames and output wait for the host, and which part of it says what waits, in an entropy device, a
 * card and a console (crates/snapshot/README.md); where its version stands. */
enum { WAITING = 4 + (1 + 16 + 4 + 4 + FRAMES * (4 + FRAME)) + (4 + 4 + 4 + OUTPUTS * OUTPUT), SAVED = 4096 + WAITING, VERSION = 8 };

static const uint64_t MEMORY = 0x80000000;
static struct kalyubos board;
static uint8_t *memory;
static bool is_high[WINDOWS]; /* the guest's interrupt lines, by window */

/* A guest that is stopped: its devices and its memory. */
struct saved {
    uint8_t devices[SAVED], memory[MEMORY_LEN];
    size_t len;
};

static void need(bool holds, const char *what, uint64_t number)
{
    if (!holds) {
        fprintf(stderr, "restored: %s (%" PRIu64 ")\n", what, number);
        exit(1);
    }
}

static void answers_done(uint32_t answer, const char *what)
{
    need(answer == KALYUBOS_DONE, what, answer);
}

/* ---- the host */

/* Brings the service of a call to its end. */
static void finish(uint32_t answer, const char *what)
{
    struct kalyubos_pending pending;
    while (answer == KALYUBOS_MORE)
        answer = kalyubos_go_on(&board, 0, &pending);
    answers_done(answer, what);
}

static void make_board(uint32_t chains)
{
    const struct kalyubos_slot slot = {
        .size = sizeof slot, .regions = { { MEMORY, MEMORY_LEN } }, .hosted = true, .depth = 1, .cols = 80, .rows = 25, .outlet = 16,
        .identity = "disk-a",
        .devices = { { .kind = KALYUBOS_ENTROPY }, { .kind = KALYUBOS_NETWORK, .mtu = 1500 }, { .kind = KALYUBOS_CONSOLE_DEVICE } },
    };
    size_t len;
    struct kalyubos_config config = kalyubos_config_of(&slot, 1);
    config.chains = chains;
    answers_done(kalyubos_create(&board, &config), "create");
    answers_done(kalyubos_memory(&board, 0, MEMORY, &memory, &len), "memory");
}

static void save(struct saved *saved)
{
    size_t len, written = SAVED;
    answers_done(kalyubos_saved_len(&board, 0, &len), "saved_len");
    need(kalyubos_save(&board, 0, saved->devices, len - 1, &written) == KALYUBOS_SHORT_BUFFER && written == SAVED, "a short buffer", len);
    answers_done(kalyubos_save(&board, 0, saved->devices, SAVED, &saved->len), "save");
    need(saved->len == len, "a snapshot of another length", saved->len);
    memcpy(saved->memory, memory, MEMORY_LEN);
}

static void set_lines(void)
{
    uint32_t lines;
    answers_done(kalyubos_lines(&board, 0, &lines), "lines");
    for (uint8_t window = 0; window < WINDOWS; window++)
        is_high[window] = lines >> window & 1;
    need(lines >> WINDOWS == 0, "a line of no window", lines);
}

static void restore(const struct saved *saved)
{
    struct kalyubos_pending pending;
    memcpy(memory, saved->memory, MEMORY_LEN);
    answers_done(kalyubos_restore(&board, 0, saved->devices, saved->len, &pending), "restore");
    set_lines();
}

static void supply(uint8_t window, uint8_t byte, size_t len)
{
    static uint8_t bytes[POOL];
    size_t taken;
    memset(bytes, byte, sizeof bytes);
    finish(kalyubos_supply(&board, 0, window, bytes, len, &taken), "supply");
    need(taken == len, "what was supplied", taken);
}

static bool receive(uint8_t byte)
{
    static uint8_t frame[FRAME];
    bool taken;
    memset(frame, byte, sizeof frame);
    finish(kalyubos_receive(&board, 0, CARD, frame, FRAME, &taken), "receive");
    return taken;
}

/* To each device what its driver waits for. */
static void supply_all(uint8_t byte)
{
    supply(ENTROPY, byte, BYTES);
    supply(CONSOLE, byte, BYTES);
    need(receive(byte), "a frame finds room", byte);
}

/* Takes frames or output until none waits; how many bytes they have. */
static size_t take_all(uint8_t window)
{
    static uint8_t into[ROOM];
    size_t len, all = 0;
    do {
        finish(kalyubos_take_frame(&board, 0, window, into, sizeof into, &len), "take_frame");
        all += len;
    } while (len != 0);
    return all;
}

static void starve(bool starved, const char *what)
{
    for (uint8_t window = ENTROPY; window < WINDOWS; window++) {
        struct kalyubos_device_pending pending;
        answers_done(kalyubos_device_pending(&board, 0, window, &pending), "device_pending");
        need(pending.starved == starved, what, window);
    }
}

/* ---- the guest's drivers: each offers one buffer again and again */

static uint8_t *area(uint8_t window, uint32_t queue)
{
    return memory + AREA * (2 * window + queue);
}

static void set(uint8_t window, uint16_t offset, uint32_t value)
{
    struct kalyubos_pending pending;
    finish(kalyubos_write(&board, 0, window, offset, 4, value, &pending), "a driver's write");
}

static void bring_up(uint8_t window, uint32_t queues)
{
    static const uint32_t before[][2] = { { 0x070, 3 }, { 0x024, 1 }, { 0x020, 1 /* VERSION_1 */ }, { 0x070, 11 } };
    for (size_t i = 0; i < sizeof before / sizeof *before; i++)
        set(window, (uint16_t)before[i][0], before[i][1]);
    for (uint32_t queue = 0; queue < queues; queue++) {
        const uint32_t at = (uint32_t)MEMORY + AREA * (2 * window + queue);
        const uint32_t writes[][2] = { { 0x030, queue }, { 0x038, PLACES }, { 0x080, at + TABLE }, { 0x090, at + AVAILABLE },
                                       { 0x0a0, at + USED }, { 0x044, 1 } };
        for (size_t i = 0; i < sizeof writes / sizeof *writes; i++)
            set(window, (uint16_t)writes[i][0], writes[i][1]);
    }
    set(window, 0x070, 15);
}

/* Offers so many chains of one buffer, descriptor 0, which the zeroed ring has at each place, and notifies. */
static void offer(uint8_t window, uint32_t queue, uint32_t len, uint16_t flags, uint16_t chains)
{
    const struct {
        uint64_t addr;
        uint32_t len;
        uint16_t flags, next;
    } buffer = { MEMORY + AREA * (2 * window + queue) + DATA, len, flags, 0 };
    memcpy(area(window, queue) + TABLE, &buffer, sizeof buffer);
    memcpy(area(window, queue) + AVAILABLE + 2, &chains, sizeof chains);
    set(window, NOTIFY, queue);
}

/* How many chains are used: of those that the host fills one each, and of those of the card and the console that it takes. */
static void are_used(uint16_t filled, uint16_t frames, uint16_t outputs, const char *what)
{
    static const struct { uint8_t window; uint32_t queue; } rows[] = { { ENTROPY, 0 }, { CARD, 0 }, { CONSOLE, 0 }, { CARD, 1 }, { CONSOLE, 1 } };
    const uint16_t wanted[] = { filled, filled, filled, frames, outputs };
    for (size_t i = 0; i < sizeof rows / sizeof *rows; i++) {
        uint16_t idx;
        memcpy(&idx, area(rows[i].window, rows[i].queue) + USED + 2, sizeof idx);
        need(idx == wanted[i], what, i);
    }
}

/* A line is high from the first chain on that its device used: the card's and the console's have used some at the save, and the entropy
 * device has once it was supplied. No driver brought up the slot's own disk and console. */
static void are_high(bool is_supplied, const char *what)
{
    const bool wanted[WINDOWS] = { [ENTROPY] = is_supplied, [CARD] = true, [CONSOLE] = true };
    for (uint8_t window = 0; window < WINDOWS; window++)
        need(is_high[window] == wanted[window], what, window);
}

/* What the drivers got: bytes, a frame behind its header, and input. */
static void have_got(uint8_t byte, const char *what)
{
    uint8_t all[FRAME];
    memset(all, byte, sizeof all);
    need(memcmp(area(ENTROPY, 0) + DATA, all, BYTES) == 0, what, ENTROPY);
    need(memcmp(area(CARD, 0) + DATA + HEADER, all, FRAME) == 0, what, CARD);
    need(memcmp(area(CONSOLE, 0) + DATA, all, BYTES) == 0, what, CONSOLE);
}

static void bring_up_all(void)
{
    bring_up(ENTROPY, 1);
    bring_up(CARD, 2);
    bring_up(CONSOLE, 2);
}

/* A buffer for bytes, one for a frame and one for input. */
static void offer_room(void)
{
    offer(ENTROPY, 0, BYTES, WRITE, 1);
    offer(CARD, 0, HEADER + FRAME, WRITE, 1);
    offer(CONSOLE, 0, BYTES, WRITE, 1);
}

/* Each driver waits for its host: for bytes, a frame and input, and for room for a frame and an output more. */
static void offer_all(void)
{
    bring_up_all();
    offer_room();
    offer(CARD, 1, HEADER + FRAME, 0, FRAMES + 1);
    offer(CONSOLE, 1, OUTPUT, 0, OUTPUTS + 1);
    are_used(0, FRAMES, OUTPUTS, "chains that are used at once");
    starve(true, "a driver that waits");
}

/* ---- what the host does */

/* Behind a restore each driver waits as at the save, and is served by what the host does next, with nothing from before. */
static void goes_on(void)
{
    are_high(false, "a line behind a restore");
    are_used(0, FRAMES, OUTPUTS, "chains that were used at the save");
    starve(true, "a driver that waits again");
    supply_all('b');
    are_used(1, FRAMES, OUTPUTS, "chains that are used behind a restore");
    have_got('b', "what is supplied behind a restore");
    need(take_all(CARD) == (FRAMES + 1) * FRAME && take_all(CONSOLE) == (OUTPUTS + 1) * OUTPUT, "what was sent", 1);
    are_used(1, FRAMES + 1, OUTPUTS + 1, "chains that wait for room");
    set_lines();
    are_high(true, "a line of a guest that goes on");
}

/* All that each driver waits for comes behind the save, and more than it takes. Rolled back it waits again, and for all of it. */
static void drivers_wait(uint32_t chains)
{
    static struct saved saved;
    make_board(chains);
    offer_all();
    save(&saved);
    supply(ENTROPY, 'a', POOL);
    supply(CONSOLE, 'a', POOL);
    while (receive('a'))
        continue;
    need(take_all(CARD) == (FRAMES + 1) * FRAME && take_all(CONSOLE) == (OUTPUTS + 1) * OUTPUT, "what was sent", 0);
    are_used(1, FRAMES + 1, OUTPUTS + 1, "chains that are used");
    set_lines();
    are_high(true, "a line before a roll-back");
    restore(&saved);
    goes_on();
    answers_done(kalyubos_destroy(&board), "destroy");
    make_board(chains);
    restore(&saved);
    goes_on();
    answers_done(kalyubos_destroy(&board), "destroy");
}

/* The slot doesn't take up a snapshot that ends within what waits, and is saved as before. */
static void is_refused_cut(const struct saved *saved)
{
    static struct saved again;
    struct kalyubos_pending pending;
    uint32_t answer = kalyubos_restore(&board, 0, saved->devices, saved->len - 1, &pending);
    need(answer == KALYUBOS_BAD_WAITING, "a snapshot that is cut", answer);
    save(&again);
    need(again.len == saved->len && memcmp(again.devices, saved->devices, saved->len) == 0, "what a refused restore leaves", again.len);
}

/* Bytes, a frame, input and a link that is down wait for drivers without buffers. They have it again behind a restore, and the slot is
 * saved as it was. */
static void host_waits(uint32_t chains)
{
    static struct saved saved, again;
    make_board(chains);
    bring_up_all();
    supply_all('c');
    answers_done(kalyubos_set_link(&board, 0, CARD, false), "set_link");
    answers_done(kalyubos_resize_device(&board, 0, CONSOLE, 132, 43), "resize_device");
    save(&saved);
    is_refused_cut(&saved);
    offer_room();
    have_got('c', "what waits for a driver");
    supply_all('d');
    answers_done(kalyubos_set_link(&board, 0, CARD, true), "set_link");
    answers_done(kalyubos_resize_device(&board, 0, CONSOLE, 80, 25), "resize_device");
    restore(&saved);
    save(&again);
    need(again.len == saved.len && memcmp(again.devices, saved.devices, saved.len) == 0, "a slot is saved as it was restored", again.len);
    are_used(0, 0, 0, "chains that a restore uses");
    offer_room();
    have_got('c', "what waits for a driver again");
    answers_done(kalyubos_destroy(&board), "destroy");
}

/* ---- a snapshot of version 2 */

/*
 * Notifies each queue of the further devices in its driver's place, which serves a chain that was on offer at the save. Of a
 * queue that isn't there or isn't ready it does nothing. A disk that the host serves would answer KALYUBOS_IO.
 */
static void notify_devices(void)
{
    struct kalyubos_pending pending;
    for (uint8_t window = KALYUBOS_DEVICE; window < WINDOWS; window++)
        for (uint32_t queue = 0; queue < 2; queue++)
            finish(kalyubos_write(&board, 0, window, NOTIFY, 4, queue, &pending), "a notification by the host");
}

/* What waits is handed in on the board where the guest goes on, before the restore or behind it. */
static void move_version_2(uint32_t chains, bool before)
{
    static struct saved saved;
    make_board(chains);
    offer_all();
    save(&saved);
    answers_done(kalyubos_destroy(&board), "destroy");
    need(saved.devices[VERSION] == 3, "another version", saved.devices[VERSION]);
    saved.devices[VERSION] = 2;
    saved.len -= WAITING;
    make_board(chains);
    if (before)
        supply_all('e');
    restore(&saved);
    if (!before)
        supply_all('e');
    are_used(!before, FRAMES, OUTPUTS, "chains that are used before the host notifies");
    starve(false, "a driver that has what it waited for");
    notify_devices();
    set_lines();
    are_high(true, "a line on another board");
    are_used(1, FRAMES + 1, OUTPUTS + 1, "chains that are used on another board");
    have_got('e', "what is supplied on another board");
    need(take_all(CARD) == FRAME && take_all(CONSOLE) == OUTPUT, "what is sent there", 0);
    answers_done(kalyubos_destroy(&board), "destroy");
}

int main(void)
{
    for (uint32_t chains = 0; chains <= 1; chains++) {
        drivers_wait(chains);
        host_waits(chains);
        move_version_2(chains, true);
        move_version_2(chains, false);
    }
    printf("restored: what waited at a save waits behind a restore, and no chain that was on offer stays there\n");
    return 0;
}
