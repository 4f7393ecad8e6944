/*
 * The calls of further devices at their edges: what each takes and refuses, where a buffer is too short, and in a pause. What is
 * refused leaves its out parameters.
 */
#include <inttypes.h>
#include <stdio.h>
#include <stdlib.h>
#include <string.h>

#include "kalyubos.h"

enum { MEMORY_LEN = 0x10000, SECTORS = 2, SPARE = 2, IMAGE_LEN = (SECTORS + SPARE) * 512, MTU = 68, POOL = 4096, FRAMES = 64, ROOM = 65536, UNTOLD = 0x77 };
enum { QUEUE_READY = 0x044, NOTIFY = 0x050, ACK = 0x064, STATUS = 0x070, DEVICE_ID = 0x008, NEXT = 1, WRITE = 2 };
/* the windows of guest 0's devices, and of one that it doesn't have */
enum { ENTROPY = KALYUBOS_DEVICE, CARD, LARGE_CARD, DISK, CONSOLE, IMAGE_DISK, NO_WINDOW };
static const uint64_t MEMORY = 0x80000000;

static struct kalyubos board;
static uint8_t *memory;

static void need(bool holds, const char *what, uint64_t number)
{
    if (!holds) {
        fprintf(stderr, "further: %s (%" PRIu64 ")\n", what, number);
        exit(1);
    }
}

/* ---- what each call answers, and that what is refused tells nothing */

static uint32_t load(uint8_t slot, uint8_t window, uint32_t *value)
{
    *value = UNTOLD;
    uint32_t answer = kalyubos_read(&board, slot, window, DEVICE_ID, 4, value);
    need(answer == KALYUBOS_DONE || *value == UNTOLD, "a refused read tells a value", answer);
    return answer;
}

static uint32_t store(uint8_t slot, uint8_t window, uint16_t offset, uint32_t value)
{
    struct kalyubos_pending pending = { UNTOLD, UNTOLD, UNTOLD };
    uint32_t answer = kalyubos_write(&board, slot, window, offset, 4, value, &pending);
    need((pending.output == UNTOLD) == (answer == KALYUBOS_BAD_SLOT || answer == KALYUBOS_NO_BOARD), "what a write tells", answer);
    return answer;
}

static uint32_t supply(uint8_t slot, uint8_t window, size_t len, size_t *taken)
{
    static const uint8_t bytes[POOL];
    *taken = UNTOLD;
    uint32_t answer = kalyubos_supply(&board, slot, window, bytes, len, taken);
    need(answer == KALYUBOS_DONE || answer == KALYUBOS_MORE || *taken == UNTOLD, "a refused supply tells a count", answer);
    return answer;
}

static uint32_t receive(uint8_t slot, uint8_t window, size_t len, bool *taken)
{
    static const uint8_t frame[ROOM + 16];
    *taken = true;
    uint32_t answer = kalyubos_receive(&board, slot, window, frame, len, taken);
    need(answer == KALYUBOS_DONE || *taken, "a refused frame tells that it isn't taken", answer);
    return answer;
}

static uint32_t take(uint8_t slot, uint8_t window, uint8_t *into, size_t room, size_t *len)
{
    *len = UNTOLD;
    memset(into, UNTOLD, room);
    uint32_t answer = kalyubos_take_frame(&board, slot, window, into, room, len);
    bool is_taken = answer == KALYUBOS_DONE || answer == KALYUBOS_MORE;
    need(is_taken || answer == KALYUBOS_SHORT_BUFFER || *len == UNTOLD, "a refused take tells a length", answer);
    for (size_t i = is_taken ? *len : 0; i < room; i++)
        need(into[i] == UNTOLD, "a byte behind the frame", i);
    return answer;
}

static uint32_t wait(uint8_t slot, uint8_t window, struct kalyubos_device_pending *pending)
{
    struct kalyubos_device_pending before;
    memset(pending, UNTOLD, sizeof *pending);
    before = *pending;
    uint32_t answer = kalyubos_device_pending(&board, slot, window, pending);
    need(answer == KALYUBOS_DONE || memcmp(pending, &before, sizeof before) == 0, "what a refused question tells", answer);
    return answer;
}

static uint32_t lines_of(uint8_t slot, uint32_t *lines)
{
    *lines = UNTOLD;
    uint32_t answer = kalyubos_lines(&board, slot, lines);
    need(answer == KALYUBOS_DONE || *lines == UNTOLD, "a refused question tells lines", answer);
    return answer;
}

/* What all calls for a further device answer, where they answer the same; kalyubos_device_pending answers this. */
static void all_answer(uint8_t slot, uint8_t window, uint32_t answer, uint32_t pending_answer)
{
    uint8_t into[ROOM];
    size_t count;
    bool taken;
    struct kalyubos_device_pending pending;
    need(supply(slot, window, 1, &count) == answer, "supply", window);
    need(receive(slot, window, 1, &taken) == answer, "receive", window);
    need(take(slot, window, into, sizeof into, &count) == answer, "take_frame", window);
    need(kalyubos_set_link(&board, slot, window, false) == answer, "set_link", window);
    need(kalyubos_resize_device(&board, slot, window, 80, 25) == answer, "resize_device", window);
    need(wait(slot, window, &pending) == pending_answer, "device_pending", window);
}

/* ---- what the calls for a disk answer */

static uint32_t in_flight(uint8_t slot, uint8_t window, uint64_t *tags)
{
    *tags = UNTOLD;
    uint32_t answer = kalyubos_in_flight(&board, slot, window, tags);
    need(answer == KALYUBOS_DONE || *tags == UNTOLD, "a refused question tells tags", answer);
    return answer;
}

static uint32_t operation(uint8_t slot, uint8_t window, uint8_t tag, struct kalyubos_operation *asked)
{
    struct kalyubos_run runs[2], before[2];
    struct kalyubos_operation untold;
    memset(asked, UNTOLD, sizeof *asked);
    memset(runs, UNTOLD, sizeof runs);
    memcpy(&untold, asked, sizeof untold);
    memcpy(before, runs, sizeof before);
    uint32_t answer = kalyubos_operation(&board, slot, window, tag, asked, runs, 2);
    need(answer == KALYUBOS_DONE || (memcmp(asked, &untold, sizeof untold) == 0 && memcmp(runs, before, sizeof runs) == 0),
         "a refused question tells an operation", answer);
    return answer;
}

/* What the host says: a call's answer, and that what waits is told where there is such a slot. */
static uint32_t say(uint32_t (*call)(struct kalyubos *, uint8_t, uint8_t, struct kalyubos_pending *), uint8_t slot, uint8_t window)
{
    struct kalyubos_pending pending = { UNTOLD, UNTOLD, UNTOLD };
    uint32_t answer = call(&board, slot, window, &pending);
    need((pending.output == UNTOLD) == (answer == KALYUBOS_BAD_SLOT || answer == KALYUBOS_NO_BOARD), "what it tells", answer);
    return answer;
}

static uint32_t complete(uint8_t slot, uint8_t window, uint8_t tag)
{
    struct kalyubos_pending pending = { UNTOLD, UNTOLD, UNTOLD };
    uint32_t answer = kalyubos_completed(&board, slot, window, tag, false, &pending);
    need((pending.output == UNTOLD) == (answer == KALYUBOS_BAD_SLOT || answer == KALYUBOS_NO_BOARD), "what a completion tells", answer);
    return answer;
}

/* The answers of a disk of which nothing is in flight, or of no disk: which tags there are, what one of them is, and what the host
 * says. */
static void disk_answers(uint8_t slot, uint8_t window, uint32_t tags_answer, uint32_t tag_answer, uint32_t answer)
{
    struct kalyubos_operation asked;
    uint64_t tags;
    need(in_flight(slot, window, &tags) == tags_answer && tags == (tags_answer == KALYUBOS_DONE ? 0 : UNTOLD), "in_flight", window);
    for (unsigned tag = 0; tag < 256; tag++)
        need(operation(slot, window, (uint8_t)tag, &asked) == tag_answer && complete(slot, window, (uint8_t)tag) == tag_answer,
             "a free tag", tag);
    need(say(kalyubos_drop, slot, window) == answer, "drop", window);
    need(say(kalyubos_release, slot, window) == answer, "release", window);
    if (window != DISK || answer != KALYUBOS_IDLE)
        need(say(kalyubos_hold, slot, window) == answer, "hold", window);
}

/* ---- what there isn't */

static void check_no_board(void)
{
    uint32_t value;
    need(lines_of(0, &value) == KALYUBOS_NO_BOARD, "lines without a board", 0);
    for (unsigned window = 0; window < 256; window++) {
        uint32_t answer = window < KALYUBOS_DEVICE ? KALYUBOS_BAD_WINDOW : KALYUBOS_NO_BOARD;
        need(load(0, (uint8_t)window, &value) == KALYUBOS_NO_BOARD && store(0, (uint8_t)window, STATUS, 0) == KALYUBOS_NO_BOARD,
             "a register without a board", window);
        all_answer(0, (uint8_t)window, answer, answer);
        disk_answers(0, (uint8_t)window, KALYUBOS_NO_BOARD, KALYUBOS_NO_BOARD, KALYUBOS_NO_BOARD);
    }
}

static void check_windows(void)
{
    /* (5): a disk, a console, an entropy device, two network cards, a disk, a console, a disk */
    static const uint32_t ids[] = { 2, 3, 4, 1, 1, 2, 3, 2 };
    uint32_t value;
    for (unsigned window = 0; window < 256; window++) {
        uint32_t own = window < NO_WINDOW ? KALYUBOS_DONE : KALYUBOS_BAD_WINDOW;
        uint32_t other = window < KALYUBOS_DEVICE ? KALYUBOS_DONE : KALYUBOS_BAD_WINDOW;
        need(load(0, (uint8_t)window, &value) == own && (own != KALYUBOS_DONE || value == ids[window]), "guest 0's window", window);
        need(store(0, (uint8_t)window, STATUS, 0) == own, "a write of guest 0's window", window);
        need(load(1, (uint8_t)window, &value) == other && store(1, (uint8_t)window, STATUS, 0) == other, "guest 1's window", window);
        need(load(2, (uint8_t)window, &value) == KALYUBOS_BAD_SLOT && store(2, (uint8_t)window, STATUS, 0) == KALYUBOS_BAD_SLOT,
             "a window of no guest", window);
        all_answer(1, (uint8_t)window, KALYUBOS_BAD_WINDOW, KALYUBOS_BAD_WINDOW);
        all_answer(2, (uint8_t)window, window < KALYUBOS_DEVICE ? KALYUBOS_BAD_WINDOW : KALYUBOS_BAD_SLOT,
                   window < KALYUBOS_DEVICE ? KALYUBOS_BAD_WINDOW : KALYUBOS_BAD_SLOT);
        if (window < KALYUBOS_DEVICE || window >= NO_WINDOW)
            all_answer(0, (uint8_t)window, KALYUBOS_BAD_WINDOW, KALYUBOS_BAD_WINDOW);
    }
}

/* Which windows take the calls for a disk: guest 0's own, which is of the image, and the further one that the host serves; guest 1's
 * own alone. */
static void check_disk_windows(void)
{
    for (unsigned window = 0; window < 256; window++) {
        bool own = window == KALYUBOS_BLOCK, further = window == DISK;
        uint32_t tags = own || further ? KALYUBOS_DONE : KALYUBOS_BAD_WINDOW, idle = own || further ? KALYUBOS_IDLE : KALYUBOS_BAD_WINDOW;
        disk_answers(0, (uint8_t)window, tags, idle, idle);
        disk_answers(1, (uint8_t)window, own ? KALYUBOS_DONE : KALYUBOS_BAD_WINDOW, own ? KALYUBOS_IDLE : KALYUBOS_BAD_WINDOW,
                     own ? KALYUBOS_IDLE : KALYUBOS_BAD_WINDOW);
        disk_answers(2, (uint8_t)window, KALYUBOS_BAD_SLOT, KALYUBOS_BAD_SLOT, KALYUBOS_BAD_SLOT);
    }
    need(say(kalyubos_hold, 0, DISK) == KALYUBOS_DONE && say(kalyubos_hold, 0, DISK) == KALYUBOS_IDLE, "two holds", 0);
    need(say(kalyubos_release, 0, DISK) == KALYUBOS_DONE && say(kalyubos_release, 0, DISK) == KALYUBOS_IDLE, "two releases", 0);
}

/* A device of the other kind takes no such thing. */
static void check_kinds(void)
{
    uint8_t into[ROOM];
    size_t count = 0;
    bool taken = false;
    need(supply(0, CARD, 1, &count) == KALYUBOS_BAD_WINDOW, "supply of a card", count);
    need(receive(0, ENTROPY, 64, &taken) == KALYUBOS_BAD_WINDOW, "a frame for an entropy device", taken);
    need(take(0, ENTROPY, into, sizeof into, &count) == KALYUBOS_BAD_WINDOW, "a frame of an entropy device", count);
    need(kalyubos_set_link(&board, 0, ENTROPY, true) == KALYUBOS_BAD_WINDOW, "the link of an entropy device", 0);
    need(receive(0, CONSOLE, 64, &taken) == KALYUBOS_BAD_WINDOW, "a frame for a console", taken);
    need(kalyubos_set_link(&board, 0, CONSOLE, true) == KALYUBOS_BAD_WINDOW, "the link of a console", 0);
    for (uint8_t window = ENTROPY; window < DISK; window++)
        need(kalyubos_resize_device(&board, 0, window, 80, 25) == KALYUBOS_BAD_WINDOW, "the size of no console", window);
    all_answer(0, DISK, KALYUBOS_BAD_WINDOW, KALYUBOS_DONE);
    all_answer(0, IMAGE_DISK, KALYUBOS_BAD_WINDOW, KALYUBOS_DONE);
}

/* ---- what finds room */

static void check_pool(void)
{
    static const struct { size_t len, taken; } rows[] = { { 0, 0 }, { 4000, 4000 }, { 200, 96 }, { 1, 0 }, { POOL, 0 } };
    size_t taken;
    for (size_t i = 0; i < sizeof rows / sizeof *rows; i++)
        need(supply(0, ENTROPY, rows[i].len, &taken) == KALYUBOS_DONE && taken == rows[i].taken, "what a pool takes", i);
}

/* A frame has a byte and up to the MTU and 14; 64 wait, of 65536 bytes together. */
static void check_frames(void)
{
    bool taken;
    need(receive(0, CARD, 0, &taken) == KALYUBOS_BAD_WINDOW, "a frame of no bytes", 0);
    need(receive(0, CARD, MTU + 15, &taken) == KALYUBOS_BAD_WINDOW, "a frame above the MTU", 0);
    for (size_t i = 0; i <= FRAMES; i++)
        need(receive(0, CARD, i % 2 == 0 ? MTU + 14 : 1, &taken) == KALYUBOS_DONE && taken == (i < FRAMES), "a frame", i);
    need(receive(0, LARGE_CARD, ROOM - 1, &taken) == KALYUBOS_DONE && taken, "a large frame", 0);
    need(receive(0, LARGE_CARD, 2, &taken) == KALYUBOS_DONE && !taken, "a frame that doesn't fit", 0);
    need(receive(0, LARGE_CARD, 1, &taken) == KALYUBOS_DONE && taken, "one that does", 0);
    need(receive(0, LARGE_CARD, 1, &taken) == KALYUBOS_DONE && !taken, "one behind it", 0);
}

/* ---- a driver: its queue and buffers lie in the first pages of the memory */

enum { TABLE = 0x1000, AVAILABLE = 0x2000, USED = 0x3000, DATA = 0x4000, END = 0x5000, HEADER = 12 };

struct descriptor {
    uint64_t addr;
    uint32_t len;
    uint16_t flags, next;
};

/* Brings up a window's queue (3.1.1, 4.2.3.2), offers a chain for each of so many heads, and notifies. */
static uint32_t offer(uint8_t window, uint32_t queue, const struct descriptor *chain, size_t len, uint16_t heads)
{
    const uint32_t at = (uint32_t)MEMORY;
    const uint32_t steps[][2] = { { STATUS, 0 }, { STATUS, 1 }, { STATUS, 3 }, { 0x24, 1 }, { 0x20, 1 }, { STATUS, 11 }, { 0x30, queue },
                                  { 0x38, 4 }, { 0x80, at + TABLE }, { 0x90, at + AVAILABLE }, { 0xa0, at + USED }, { 0x44, 1 },
                                  { STATUS, 15 } };
    for (size_t i = 0; i < sizeof steps / sizeof *steps; i++)
        need(store(0, window, (uint16_t)steps[i][0], steps[i][1]) == KALYUBOS_DONE, "a step of the driver", i);
    memset(memory + AVAILABLE, 0, USED + 0x1000 - AVAILABLE);
    memcpy(memory + TABLE, chain, len);
    memcpy(memory + AVAILABLE + 2, &heads, sizeof heads);
    return store(0, window, NOTIFY, queue);
}

static uint16_t used(void)
{
    uint16_t idx;
    memcpy(&idx, memory + USED + 2, sizeof idx);
    return idx;
}

/* What a call answers whose service would serve a second chain: MORE with a budget of one, and DONE without. */
static uint32_t more;

/* Such a service had `first` chains used before, and goes on in so many calls until `last` are. Meanwhile each call for the slot is
 * busy, but those that only tell, and the driver is told of nothing. */
static void go_on(uint8_t window, uint16_t first, uint16_t last, uint16_t calls)
{
    struct kalyubos_pending pending;
    struct kalyubos_device_pending waits;
    uint32_t value;
    for (uint16_t call = 1; more == KALYUBOS_MORE && call <= calls; call++) {
        need(used() == (first + call < last ? first + call : last), "the chains of a piece", used());
        need(wait(0, window, &waits) == KALYUBOS_DONE && waits.interrupt == 0, "what waits in a pause", waits.interrupt);
        need(load(0, window, &value) == KALYUBOS_BUSY && store(0, window, NOTIFY, 0) == KALYUBOS_BUSY, "a register in a pause", window);
        need(load(0, KALYUBOS_BLOCK, &value) == KALYUBOS_BUSY, "the disk's register in a pause", 0);
        for (uint8_t other = ENTROPY; other < NO_WINDOW; other++)
            all_answer(0, other, KALYUBOS_BUSY, KALYUBOS_DONE);
        need(load(1, KALYUBOS_BLOCK, &value) == KALYUBOS_DONE, "another guest in a pause", 0);
        need(kalyubos_go_on(&board, 0, &pending) == (call < calls ? KALYUBOS_MORE : KALYUBOS_DONE), "go_on", call);
    }
    need(used() == last && wait(0, window, &waits) == KALYUBOS_DONE && waits.interrupt == 1, "what waits at the end", used());
}

/* So many chains are on offer in all, of which the driver doesn't notify; it has seen those before. */
static void offer_silently(uint8_t window, uint16_t heads)
{
    memcpy(memory + AVAILABLE + 2, &heads, sizeof heads);
    need(store(0, window, ACK, 1) == KALYUBOS_DONE, "an InterruptACK", window);
}

/* A full pool fills a chain of its length. Twelve bytes reach three chains of four, and all are taken at once. */
static void check_entropy(void)
{
    const struct descriptor all = { MEMORY + DATA, POOL, WRITE, 0 }, four = { MEMORY + DATA, 4, WRITE, 0 };
    struct kalyubos_device_pending waits;
    size_t taken;
    need(offer(ENTROPY, 0, &all, sizeof all, 1) == KALYUBOS_DONE && used() == 1, "a chain for all", used());
    need(offer(ENTROPY, 0, &four, sizeof four, 3) == KALYUBOS_DONE && used() == 0, "chains for which there is no byte", used());
    need(wait(0, ENTROPY, &waits) == KALYUBOS_DONE && waits.starved, "its driver waits", 0);
    need(supply(0, ENTROPY, 12, &taken) == more && taken == 12, "bytes for three chains", taken);
    go_on(ENTROPY, 0, 3, 2);
}

/* Frames that wait reach the driver's chains, and so does one that is handed in behind them. */
static void check_received(void)
{
    const struct descriptor chain = { MEMORY + DATA, HEADER + MTU + 14, WRITE, 0 };
    bool taken;
    need(offer(CARD, 0, &chain, sizeof chain, 4) == more, "chains for frames", used());
    go_on(CARD, 0, 4, 3);
    offer_silently(CARD, 6);
    need(receive(0, CARD, 1, &taken) == more && taken, "a frame behind others", taken);
    go_on(CARD, 4, 6, 1);
}

/* Two frames of one notification. */
static void check_sent(void)
{
    enum { LEN = 64 };
    const struct descriptor chain = { MEMORY + DATA, HEADER + LEN, 0, 0 };
    uint8_t into[ROOM];
    size_t len;
    need(offer(CARD, 1, &chain, sizeof chain, 2) == more, "two frames", used());
    go_on(CARD, 0, 2, 1);
    for (int i = 0; i < 2; i++)
        need(take(0, CARD, into, sizeof into, &len) == KALYUBOS_DONE && len == LEN, "a frame of two", len);
    need(take(0, CARD, into, sizeof into, &len) == KALYUBOS_DONE && len == 0, "a third one", len);
}

/* A frame stays until it finds room, and its length is told. */
static void check_short_buffer(void)
{
    enum { LEN = 64 };
    const struct descriptor chain = { MEMORY + DATA, HEADER + LEN, 0, 0 };
    uint8_t into[ROOM];
    size_t len = 0;
    struct kalyubos_device_pending pending;
    need(take(0, CARD, into, 0, &len) == KALYUBOS_DONE && len == 0, "a frame where none waits", len);
    for (uint8_t i = 0; i < LEN; i++)
        memory[DATA + HEADER + i] = i;
    need(offer(CARD, 1, &chain, sizeof chain, 1) == KALYUBOS_DONE && used() == 1, "a frame is sent", used());
    for (size_t room = 0; room < LEN; room++) {
        need(take(0, CARD, into, room, &len) == KALYUBOS_SHORT_BUFFER && len == LEN, "a short buffer", room);
        need(wait(0, CARD, &pending) == KALYUBOS_DONE && pending.frame == LEN, "the frame waits", pending.frame);
    }
    need(take(0, CARD, into, LEN, &len) == KALYUBOS_DONE && len == LEN, "a buffer that is long enough", len);
    need(memcmp(into, memory + DATA + HEADER, LEN) == 0, "the frame's bytes", 0);
    need(take(0, CARD, into, sizeof into, &len) == KALYUBOS_DONE && len == 0, "a frame behind the last", len);
    need(wait(0, CARD, &pending) == KALYUBOS_DONE && pending.frame == 0 && pending.interrupt == 1, "what waits", pending.frame);
}

/* Where 65536 bytes wait the driver's next frame does too, and the taking of the last one lets it pass. */
static void check_full_card(void)
{
    const struct descriptor chain = { MEMORY + DATA, HEADER + ROOM / 2, 0, 0 };
    uint8_t into[ROOM];
    size_t len;
    need(offer(LARGE_CARD, 1, &chain, sizeof chain, 3) == more, "two frames are sent", used());
    go_on(LARGE_CARD, 0, 2, 2);
    for (uint16_t left = 3; left > 0; left--) {
        need(take(0, LARGE_CARD, into, sizeof into, &len) == KALYUBOS_DONE && len == ROOM / 2, "a frame", left);
        need(used() == (left == 3 ? 2 : 3), "the third one is sent once two are taken", used());
    }
    need(take(0, LARGE_CARD, into, sizeof into, &len) == KALYUBOS_DONE && len == 0, "a fourth frame", len);
}

/* A console's size, and its input: 4096 bytes are pending at most. */
static void check_console(void)
{
    uint32_t value = 0;
    size_t count;
    need(kalyubos_read(&board, 0, CONSOLE, 0x100, 4, &value) == KALYUBOS_DONE && value == (25 << 16 | 80), "a size", value);
    need(kalyubos_resize_device(&board, 0, CONSOLE, 132, 43) == KALYUBOS_DONE, "another size", 0);
    need(kalyubos_read(&board, 0, CONSOLE, 0x100, 4, &value) == KALYUBOS_DONE && value == (43 << 16 | 132), "the size then", value);
    need(supply(0, CONSOLE, POOL - 1, &count) == KALYUBOS_DONE && count == POOL - 1, "input", count);
    need(supply(0, CONSOLE, 2, &count) == KALYUBOS_DONE && count == 1, "input for which there is no room", count);
}

/* Its input reaches the driver's chains, and so does what is typed behind it. */
static void check_typed(void)
{
    const struct descriptor chain = { MEMORY + DATA, 4, WRITE, 0 };
    size_t count;
    need(offer(CONSOLE, 0, &chain, sizeof chain, 3) == more, "chains for input", used());
    go_on(CONSOLE, 0, 3, 2);
    offer_silently(CONSOLE, 5);
    need(supply(0, CONSOLE, POOL, &count) == more && count == 12, "input behind other", count);
    go_on(CONSOLE, 3, 5, 1);
}

/* Its output leaves whole. A byte of an emergency write (5.3.4) that finds no room is lost, and chains wait. What a take makes room for
 * is served within the budget, and the bytes are the host's already. */
static void check_output(void)
{
    enum { EMERGENCY = 0x108 };
    const struct descriptor chain = { MEMORY + DATA, ROOM / 2, 0, 0 };
    static uint8_t into[ROOM + 1];
    size_t count = 0;
    struct kalyubos_device_pending pending;
    need(take(0, CONSOLE, into, 0, &count) == KALYUBOS_DONE && count == 0, "output where none waits", count);
    need(store(0, CONSOLE, EMERGENCY, 0x1241) == KALYUBOS_DONE, "an emergency write", 0);
    need(take(0, CONSOLE, into, 0, &count) == KALYUBOS_SHORT_BUFFER && count == 1, "a short buffer", count);
    need(take(0, CONSOLE, into, sizeof into, &count) == KALYUBOS_DONE && count == 1 && into[0] == 0x41, "its low byte", into[0]);
    for (uint32_t i = 0; i <= ROOM; i++)
        need(store(0, CONSOLE, EMERGENCY, i) == KALYUBOS_DONE, "an emergency write", i);
    need(wait(0, CONSOLE, &pending) == KALYUBOS_DONE && pending.frame == ROOM, "what waits", pending.frame);
    need(take(0, CONSOLE, into, sizeof into, &count) == KALYUBOS_DONE && count == ROOM && into[ROOM - 1] == 0xff, "all output", count);
    need(offer(CONSOLE, 1, &chain, sizeof chain, 4) == more, "two chains are sent", used());
    go_on(CONSOLE, 0, 2, 2);
    offer_silently(CONSOLE, 4);
    need(take(0, CONSOLE, into, sizeof into, &count) == more && count == ROOM, "two chains", count);
    go_on(CONSOLE, 2, 4, 1);
    need(take(0, CONSOLE, into, sizeof into, &count) == KALYUBOS_DONE && count == ROOM && used() == 4, "the other two", count);
    need(take(0, CONSOLE, into, sizeof into, &count) == KALYUBOS_DONE && count == 0, "output behind the last", count);
}

/* In each window in turn a driver offers more chains than its queue has places (2.7.13), which raises the line of that window alone
 * (2.1.2), and no other guest's. Each falls as its driver acknowledges that. */
static void check_lines(void)
{
    enum { PLACES = 4, CHANGED = 2 };
    const struct descriptor chain = { MEMORY + DATA, 4, WRITE, 0 };
    uint32_t lines, high = 0;
    need(lines_of(2, &lines) == KALYUBOS_BAD_SLOT, "lines of no guest", 0);
    for (uint8_t window = 0; window < NO_WINDOW; window++)
        need(store(0, window, STATUS, 0) == KALYUBOS_DONE, "a reset", window);
    need(lines_of(0, &lines) == KALYUBOS_DONE && lines == 0, "lines behind resets", lines);
    for (uint8_t window = NO_WINDOW; window-- > 0;) {
        need(offer(window, 0, &chain, sizeof chain, PLACES + 1) == KALYUBOS_DONE, "more chains than places", window);
        high |= (uint32_t)1 << window;
        need(lines_of(0, &lines) == KALYUBOS_DONE && lines == high, "lines that rise", lines);
        need(lines_of(1, &lines) == KALYUBOS_DONE && lines == 0, "another guest's lines", lines);
    }
    for (uint8_t window = NO_WINDOW; window-- > 0;) {
        need(store(0, window, ACK, CHANGED) == KALYUBOS_DONE, "an acknowledgement", window);
        high &= ~((uint32_t)1 << window);
        need(lines_of(0, &lines) == KALYUBOS_DONE && lines == high, "lines that fall", lines);
    }
}

/* ---- a disk at work */

static const struct descriptor request[] = { { 0x80000000 + DATA, 16, NEXT, 1 }, { 0x80000000 + DATA + 0x200, 512, NEXT | WRITE, 2 },
                                             { 0x80000000 + END, 1, WRITE, 0 } };

/* Of two chains on offer one is in flight, as the disk's depth is 1: what waits for it, and what doesn't. */
static void check_disk_at_work(void)
{
    static const uint16_t OFFSETS[] = { STATUS, QUEUE_READY };
    struct kalyubos_device_pending waits;
    struct kalyubos_operation asked;
    uint8_t saved[4096];
    size_t len = UNTOLD;
    uint64_t tags;
    memset(memory + DATA, 0, 16);
    need(offer(DISK, 0, request, sizeof request, 2) == KALYUBOS_IO, "a notification", 0);
    need(in_flight(0, DISK, &tags) == KALYUBOS_DONE && tags == 1, "what is in flight", tags);
    need(in_flight(0, KALYUBOS_BLOCK, &tags) == KALYUBOS_DONE && tags == 0, "what is in flight of the other disk", tags);
    need(wait(0, DISK, &waits) == KALYUBOS_DONE && waits.tags == 1 && waits.interrupt == 0 && !waits.starved, "what waits", waits.tags);
    need(operation(0, DISK, 0, &asked) == KALYUBOS_DONE && asked.kind == KALYUBOS_IN && asked.len == 512, "an operation", asked.kind);
    need(operation(0, DISK, 1, &asked) == KALYUBOS_IDLE && complete(0, DISK, 1) == KALYUBOS_IDLE, "a free tag", 1);
    for (size_t i = 0; i < 2; i++) {
        need(store(0, DISK, OFFSETS[i], 0) == KALYUBOS_BUSY, "a write that waits", i);
        need(store(0, KALYUBOS_BLOCK, OFFSETS[i], 0) == KALYUBOS_DONE, "one of the other disk", i);
    }
    need(store(0, DISK, NOTIFY, 0) == KALYUBOS_DONE, "a second notification", 0);
    need(kalyubos_saved_len(&board, 0, &len) == KALYUBOS_BUSY && len == UNTOLD, "a snapshot's length", len);
    need(kalyubos_save(&board, 0, saved, sizeof saved, &len) == KALYUBOS_BUSY && len == UNTOLD, "a snapshot", len);
    struct kalyubos_pending pending;
    need(kalyubos_restore(&board, 0, saved, 1, &pending) == KALYUBOS_BUSY, "a restore", 0);
    need(complete(0, DISK, 0) == KALYUBOS_IO && used() == 1, "a completion with which the next begins", used());
    need(say(kalyubos_hold, 0, DISK) == KALYUBOS_DONE && complete(0, DISK, 0) == KALYUBOS_DONE && used() == 2, "the last one", used());
    need(complete(0, DISK, 0) == KALYUBOS_IDLE, "a second completion", 0);
    need(wait(0, DISK, &waits) == KALYUBOS_DONE && waits.tags == 0 && waits.interrupt == 1, "what waits at the end", waits.tags);
    need(store(0, DISK, STATUS, 0) == KALYUBOS_DONE && say(kalyubos_release, 0, DISK) == KALYUBOS_DONE, "a reset and a release", 0);
}

/* Requests of no known type (5.2.6) ask the disk's host for nothing, and are answered within the budget. */
static void check_disk_alone(void)
{
    enum { UNKNOWN = 99, UNSUPP = 2 };
    memset(memory + DATA, 0, 16);
    memory[DATA] = UNKNOWN;
    need(offer(DISK, 0, request, sizeof request, 3) == more, "three requests of no known type", used());
    go_on(DISK, 0, 3, 2);
    need(memory[END] == UNSUPP, "their status", memory[END]);
}

/* A disk over the image is served within the budget, and asks its host for nothing. It reads what was written to it, which is the image's
 * last sector, and has no other. */
static void check_image_disk(void)
{
    enum { OUT = 1, OK = 0, IOERR = 1, WRITTEN = 0x5a };
    static const struct descriptor write[] = { { 0x80000000 + DATA, 16, NEXT, 1 }, { 0x80000000 + DATA + 0x200, 512, NEXT, 2 },
                                               { 0x80000000 + END, 1, WRITE, 0 } };
    const uint8_t *bytes;
    size_t len;
    memset(memory + DATA, 0, 16);
    memory[DATA] = OUT;
    memset(memory + DATA + 0x200, WRITTEN, 512);
    need(offer(IMAGE_DISK, 0, write, sizeof write, 2) == more, "two writes", used());
    go_on(IMAGE_DISK, 0, 2, 1);
    need(kalyubos_image(&board, &bytes, &len) == KALYUBOS_DONE && len == IMAGE_LEN, "the image", len);
    for (size_t i = 0; i < IMAGE_LEN; i++)
        need(bytes[i] == (i < IMAGE_LEN - 512 ? 0 : WRITTEN), "a byte of the image", i);
    memory[DATA] = 0;
    memset(memory + DATA + 0x200, 0, 512);
    need(offer(IMAGE_DISK, 0, request, sizeof request, 3) == more, "three reads", used());
    go_on(IMAGE_DISK, 0, 3, 2);
    need(memory[END] == OK && memory[DATA + 0x200] == WRITTEN && memory[DATA + 0x3ff] == WRITTEN, "what it reads", memory[END]);
    memory[DATA + 8] = 1; /* the sector behind its own */
    need(offer(IMAGE_DISK, 0, request, sizeof request, 1) == KALYUBOS_DONE && used() == 1, "a read behind its end", used());
    need(memory[END] == IOERR, "its status", memory[END]);
}

/* While the service of the slot's own disk is paused all calls but those that only tell wait. */
static void check_pause(void)
{
    struct kalyubos_pending pending;
    struct kalyubos_operation asked;
    uint64_t tags;
    uint32_t value;
    memset(memory + DATA, 0, 16);
    need(offer(DISK, 0, request, sizeof request, 1) == KALYUBOS_IO, "an operation that stays in flight", 0);
    need(offer(KALYUBOS_BLOCK, 0, request, sizeof request, 2) == KALYUBOS_MORE, "a service that pauses", 0);
    for (uint8_t window = ENTROPY; window < NO_WINDOW; window++) {
        need(load(0, window, &value) == KALYUBOS_BUSY && store(0, window, STATUS, 0) == KALYUBOS_BUSY, "a register in a pause", window);
        all_answer(0, window, KALYUBOS_BUSY, KALYUBOS_DONE);
        if (window != DISK)
            disk_answers(0, window, KALYUBOS_BAD_WINDOW, KALYUBOS_BAD_WINDOW, KALYUBOS_BUSY);
    }
    all_answer(0, NO_WINDOW, KALYUBOS_BUSY, KALYUBOS_BAD_WINDOW);
    disk_answers(0, NO_WINDOW, KALYUBOS_BAD_WINDOW, KALYUBOS_BAD_WINDOW, KALYUBOS_BUSY);
    disk_answers(0, KALYUBOS_CONSOLE, KALYUBOS_BAD_WINDOW, KALYUBOS_BAD_WINDOW, KALYUBOS_BAD_WINDOW);
    need(lines_of(0, &value) == KALYUBOS_DONE, "lines in a pause", value);
    need(in_flight(0, DISK, &tags) == KALYUBOS_DONE && tags == 1, "what is in flight in a pause", tags);
    need(operation(0, DISK, 0, &asked) == KALYUBOS_DONE && complete(0, DISK, 0) == KALYUBOS_BUSY, "a completion in a pause", 0);
    need(operation(0, DISK, 1, &asked) == KALYUBOS_IDLE && complete(0, DISK, 1) == KALYUBOS_IDLE, "a free tag in a pause", 0);
    need(say(kalyubos_drop, 0, DISK) == KALYUBOS_BUSY && say(kalyubos_hold, 0, DISK) == KALYUBOS_BUSY, "a drop in a pause", 0);
    need(load(1, KALYUBOS_BLOCK, &value) == KALYUBOS_DONE, "another guest in a pause", 0);
    need(kalyubos_go_on(&board, 0, &pending) == KALYUBOS_DONE, "go_on", 0);
    need(load(0, ENTROPY, &value) == KALYUBOS_DONE && value == 4, "a register behind it", value);
    need(say(kalyubos_drop, 0, DISK) == KALYUBOS_DONE && say(kalyubos_drop, 0, DISK) == KALYUBOS_IDLE, "two drops", 0);
}

/* A board whose calls serve so many chains; 0 is no limit. */
static void check_board(struct kalyubos_config *config, uint32_t chains)
{
    size_t len;
    config->chains = chains;
    more = chains == 0 ? KALYUBOS_DONE : KALYUBOS_MORE;
    need(kalyubos_create(&board, config) == KALYUBOS_DONE, "create", chains);
    need(kalyubos_memory(&board, 0, MEMORY, &memory, &len) == KALYUBOS_DONE, "memory", len);
    check_windows();
    check_disk_windows();
    check_kinds();
    check_pool();
    check_frames();
    check_entropy();
    check_received();
    check_sent();
    check_short_buffer();
    check_full_card();
    check_console();
    check_typed();
    check_output();
    check_lines();
    check_disk_at_work();
    check_disk_alone();
    check_image_disk();
    if (chains != 0)
        check_pause();
    need(kalyubos_destroy(&board) == KALYUBOS_DONE, "destroy", chains);
}

int main(void)
{
    static const uint8_t image[IMAGE_LEN];
    struct kalyubos_slot slots[2] = {
        { .size = sizeof *slots, .regions = { { MEMORY, MEMORY_LEN } }, .count = SECTORS, .spare = SPARE, .outlet = 64,
          .devices = { { .kind = KALYUBOS_ENTROPY }, { .kind = KALYUBOS_NETWORK, .mtu = MTU },
                       { .kind = KALYUBOS_NETWORK, .mtu = UINT16_MAX }, { .kind = KALYUBOS_DISK, .sectors = SECTORS },
                       { .kind = KALYUBOS_CONSOLE_DEVICE, .cols = 80, .rows = 25 },
                       { .kind = KALYUBOS_IMAGE_DISK, .start = SPARE - 1, .sectors = 1 } } },
        { .size = sizeof *slots, .regions = { { MEMORY, MEMORY_LEN } }, .outlet = 64 },
    };
    struct kalyubos_config config = kalyubos_config_of(slots, 2);
    check_no_board();
    config.image = image;
    config.image_len = sizeof image;
    check_board(&config, 1);
    check_board(&config, 0);
    puts("further: 256 windows of a guest with six further devices and one with none; what finds room; a disk at work; pauses");
    return 0;
}
