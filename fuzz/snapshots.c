/*
 * Hands snapshots to live slots that are cut, changed at random or put together from several: each is refused and changes
 * nothing, or is taken, and then the slot serves what lies in its memory by chance.
 *
 *     snapshots [COUNT [SEED]]    prints what was counted, or ends with 1 and the number of the snapshot
 *
 * Two boards of two guests of one description, one over an image and with a budget, one whose disks the host serves. Of each
 * snapshot it is known from the format alone whether the bytes spell one (`judge`), and whether it is of this description.
 * Nobody calls for a board's other guest: it stays byte for byte. The heap is open to create and destroy alone.
 */
#include <inttypes.h>
#include <stdio.h>
#include <stdlib.h>
#include <string.h>

#include "shut_heap.h"

enum { GUESTS = 2, MEMORY_LEN = 0x4000, SECTORS = 4, OUTLET = 64, MOST_INPUT = 4096, ROOM = 300 + MOST_INPUT, KEPT = 64 };

/* A second region behind a gap: buffers lie in it, in the gap, and across its borders. */
enum { GAP = 0x1000, SECOND_LEN = 0x2000, SPAN = MEMORY_LEN + GAP + SECOND_LEN };
static const uint64_t MEMORY = 0x80000000;

/* Where the fields of a snapshot stand (crates/snapshot/README.md): in the whole, in a window, and in a queue. */
enum { VERSION = 8, READ_ONLY = 36, DESCRIPTION = 61, HELD = DESCRIPTION, BLOCK_WINDOW };
enum { STATUS_AT = 8, ACCEPTED = 9, QUEUES = 33, AREAS = 4, READY = 28, PLACE = 29, AHEAD = 35, QUEUE_LEN = 29, SERVED_LEN = 8 };

/* The registers that a driver uses (4.2.2). */
enum {
    FEATURES = 0x020, FEATURES_SEL = 0x024, QUEUE_SEL = 0x030, QUEUE_SIZE = 0x038, QUEUE_READY = 0x044, NOTIFY = 0x050,
    STATUS = 0x070, DESC = 0x080, DRIVER = 0x090, DEVICE = 0x0a0
};
enum { NEXT = 1, WRITE = 2, PACKED = 34, WANTS_RESET = 64 };

struct snapshot {
    uint8_t bytes[ROOM];
    size_t len;
};

struct guest {
    struct kalyubos *board;
    uint8_t slot, *memory;
    bool is_hosted;
};

static uint64_t state, tried, counts[KALYUBOS_SHORT_BUFFER + 1], moved, failed;
static struct snapshot kept[KEPT];

static uint64_t chance(uint64_t below)
{
    state ^= state << 13;
    state ^= state >> 7;
    state ^= state << 17;
    return (state >> 11) % below;
}

static uint64_t get(const uint8_t *from, int len)
{
    uint64_t value = 0;
    while (len-- > 0)
        value = value << 8 | from[len];
    return value;
}

static void put(uint8_t *to, uint64_t value, int len)
{
    for (; len-- > 0; value >>= 8)
        *to++ = (uint8_t)value;
}

/* ---- what a snapshot's bytes say, by the format alone */

/* Where the four queues and both interrupt words of a snapshot stand, and which of its bytes are input. */
struct layout {
    size_t queues[4], interrupts[2], input;
};

/* Whether the bytes spell a snapshot. */
static bool spells(const struct snapshot *snapshot, struct layout *layout)
{
    const uint8_t *bytes = snapshot->bytes;
    size_t at = BLOCK_WINDOW;
    if (snapshot->len < BLOCK_WINDOW || memcmp(bytes, "KALYUBOS\1\0\0\0", 12) != 0 || bytes[READ_ONLY] > 1 || bytes[HELD] > 1)
        return false;
    for (int window = 0; window < 2; window++) {
        at += QUEUES;
        for (int queue = 0; queue < 2; queue++) {
            layout->queues[2 * window + queue] = at;
            if (at + QUEUE_LEN > snapshot->len || bytes[at + READY] > 1)
                return false;
            at += bytes[at + READY] == 1 ? QUEUE_LEN + SERVED_LEN : QUEUE_LEN;
        }
        layout->interrupts[window] = at;
        if (at + 5 > snapshot->len || bytes[at] > 3)
            return false;
        at += 5;
    }
    layout->input = at + 4;
    return layout->input <= snapshot->len && get(bytes + at, 4) <= MOST_INPUT &&
        layout->input + get(bytes + at, 4) == snapshot->len;
}

/* Where a window of a snapshot begins. */
static size_t window_of(const struct layout *layout, int window)
{
    return window == 0 ? BLOCK_WINDOW : layout->interrupts[0] + 5;
}

/* Whether both are of one description: memory, disk, and what the two devices offer. The console's size is none of it. */
static bool are_alike(const struct snapshot *one, const struct layout *layout, const struct snapshot *other)
{
    struct layout others;
    return spells(other, &others) && memcmp(one->bytes, other->bytes, DESCRIPTION - 4) == 0 &&
        memcmp(one->bytes + BLOCK_WINDOW, other->bytes + BLOCK_WINDOW, 8) == 0 &&
        memcmp(one->bytes + window_of(layout, 1), other->bytes + window_of(&others, 1), 8) == 0;
}

/* ---- a guest's calls */

static bool is_one_of(uint32_t answer, uint32_t one, uint32_t other, uint32_t third)
{
    return answer == KALYUBOS_DONE || answer == one || answer == other || answer == third;
}

static struct kalyubos_pending write_register(struct guest *guest, uint8_t window, uint16_t offset, uint32_t value)
{
    struct kalyubos_pending pending = { 0, 0, 0 };
    uint32_t answer = kalyubos_write(guest->board, guest->slot, window, offset, 4, value, &pending);
    need(is_one_of(answer, guest->is_hosted ? KALYUBOS_IO : KALYUBOS_MORE, KALYUBOS_NO_ROOM, KALYUBOS_BUSY), "write", answer);
    return pending;
}

static void take_output(struct guest *guest)
{
    uint8_t out[OUTLET];
    size_t taken;
    need(kalyubos_take_output(guest->board, guest->slot, out, OUTLET, &taken) == KALYUBOS_DONE, "take_output", 0);
}

/* Completes one of the operations in flight, by chance done or failed; false where there is none. */
static bool complete_one(struct guest *guest)
{
    struct kalyubos_pending pending;
    uint64_t tags = 0;
    need(kalyubos_in_flight(guest->board, guest->slot, KALYUBOS_BLOCK, &tags) == KALYUBOS_DONE, "in_flight", tried);
    if (tags == 0)
        return false;
    for (uint64_t others = chance((uint64_t)__builtin_popcountll(tags)); others > 0; others--)
        tags &= tags - 1;
    uint8_t tag = (uint8_t)__builtin_ctzll(tags);
    uint32_t answer = kalyubos_completed(guest->board, guest->slot, KALYUBOS_BLOCK, tag, chance(4) == 0, &pending);
    need(answer == KALYUBOS_DONE || answer == KALYUBOS_IO, "completed", answer);
    return true;
}

/* The host gives up what is in flight, or holds the slot or releases it. Over an image there is nothing to do. */
static void say_of_disk(struct guest *guest)
{
    static uint32_t (*const calls[])(struct kalyubos *, uint8_t, uint8_t, struct kalyubos_pending *) = {
        kalyubos_drop, kalyubos_hold, kalyubos_release,
    };
    struct kalyubos_pending pending;
    uint64_t which = chance(3), tags = 0;
    uint32_t answer = calls[which](guest->board, guest->slot, KALYUBOS_BLOCK, &pending);
    need(answer == KALYUBOS_IDLE || answer == (guest->is_hosted ? KALYUBOS_DONE : KALYUBOS_BUSY) ||
         (guest->is_hosted && which == 2 && answer == KALYUBOS_IO), "an answer to what the host says", answer);
    need(kalyubos_in_flight(guest->board, guest->slot, KALYUBOS_BLOCK, &tags) == KALYUBOS_DONE && (which != 0 || tags == 0),
         "a drop", tags);
}

/* Brings what is paused or in flight to its end. An IN leaves the guest's memory as it is, and some operations fail. */
static void settle(struct guest *guest)
{
    struct kalyubos_pending pending;
    bool goes_on = true;
    for (int turns = 0; goes_on; turns++) {
        need(turns < 1 << 20, "a service doesn't end", tried);
        goes_on = guest->is_hosted ? complete_one(guest)
                                   : kalyubos_go_on(guest->board, guest->slot, &pending) == KALYUBOS_MORE;
        take_output(guest);
    }
}

static void save(struct guest *guest, struct snapshot *snapshot)
{
    size_t len;
    need(kalyubos_saved_len(guest->board, guest->slot, &len) == KALYUBOS_DONE, "saved_len", tried);
    need(kalyubos_save(guest->board, guest->slot, snapshot->bytes, ROOM, &snapshot->len) == KALYUBOS_DONE, "save", tried);
    need(snapshot->len == len, "the length of a snapshot", tried);
}

static bool are_same(const struct snapshot *one, const struct snapshot *other)
{
    return one->len == other->len && memcmp(one->bytes, other->bytes, one->len) == 0;
}

/* ---- what lies in a guest's memory by chance */

/* Headers of requests everywhere: type and sector. */
static void scatter(struct guest *guest)
{
    static const uint8_t types[] = { 0, 1, 4, 8, 13, 2, 0xff, 0 };
    for (uint8_t *at = guest->memory; at < guest->memory + MEMORY_LEN; at += 16) {
        put(at, types[chance(8)], 8);
        put(at + 8, chance(SECTORS + 1), 8);
    }
}

/* A descriptor of a queue: any, or one of a chain that a driver would offer: a request of three, a buffer, or output. */
static void fill_descriptor(uint8_t *at, int queue, uint64_t place, uint64_t number, bool is_sane, bool is_packed)
{
    static const uint16_t lens[] = { 16, 1, 512, 16, 1024, 0, 4, 513 }, of_request[] = { 16, 512, 1 };
    uint64_t part = queue < 2 ? place % 3 : 3, next = place + 1;
    uint64_t flags = part < 2 ? NEXT : 0, len = part < 3 ? of_request[part] : 64;
    if (part == 2 || queue == 2 || (part == 1 && chance(2)))
        flags |= WRITE;
    if (!is_sane) {
        flags = chance(8);
        next = chance(number + 1);
        len = lens[chance(8)];
    }
    put(at, MEMORY + (is_sane ? 16 * chance(MEMORY_LEN / 16 - 32) : chance(SPAN + 16)), 8);
    put(at + 8, len, 4);
    put(at + 12, is_packed ? next | (flags | 1u << (chance(4) == 0 ? 15 : 7)) << 16 : flags | next << 16, 4);
}

/* Descriptors where a queue has them, and available ones, as far as they lie in the memory. */
static void fill_queue(struct guest *guest, int which, const uint8_t *queue, bool is_packed)
{
    uint64_t number = get(queue, 4), table = get(queue + AREAS, 8) - MEMORY, ring = get(queue + AREAS + 8, 8) - MEMORY;
    uint64_t place = queue[READY] == 1 ? get(queue + PLACE, 2) + get(queue + AHEAD, 2) : 0;
    bool is_sane = chance(2);
    for (uint64_t i = 0; i < number && i < 16 && table < MEMORY_LEN && table + 16 * i + 16 <= MEMORY_LEN; i++)
        fill_descriptor(guest->memory + table + 16 * i, which, i, number, is_sane, is_packed);
    if (is_packed || ring >= MEMORY_LEN || ring + 4 + 32 > MEMORY_LEN)
        return;
    put(guest->memory + ring, chance(2), 2);
    put(guest->memory + ring + 2, place + chance(number < 16 ? number + 2 : 16), 2);
    for (int i = 0; i < 16; i++)
        put(guest->memory + ring + 4 + 2 * i, is_sane ? 3 * chance(number / 3 + 1) : chance(number + 1), 2);
}

static void fill_queues(struct guest *guest, const struct snapshot *snapshot)
{
    struct layout layout;
    need(spells(snapshot, &layout), "a saved slot has no snapshot", tried);
    for (int queue = 0; queue < 4; queue++) {
        const uint8_t *window = snapshot->bytes + window_of(&layout, queue / 2);
        fill_queue(guest, queue, snapshot->bytes + layout.queues[queue], get(window + ACCEPTED, 8) >> PACKED & 1);
    }
}

/* Counts the queues that went on between both, and the devices that came to want a reset. */
static void count(const struct snapshot *before, const struct snapshot *after)
{
    struct layout old, new;
    need(spells(before, &old) && spells(after, &new), "a saved slot has no snapshot", tried);
    for (int i = 0; i < 4; i++) {
        const uint8_t *one = before->bytes + old.queues[i], *other = after->bytes + new.queues[i];
        moved += one[READY] == 1 && other[READY] == 1 && memcmp(one + PLACE, other + PLACE, 2) != 0;
    }
    for (int i = 0; i < 2; i++) {
        uint8_t one = before->bytes[window_of(&old, i) + STATUS_AT], other = after->bytes[window_of(&new, i) + STATUS_AT];
        failed += (one & WANTS_RESET) == 0 && (other & WANTS_RESET) != 0;
    }
}

/* The guest and its host make some calls over what lies in the memory. */
static void act(struct guest *guest, const struct snapshot *snapshot)
{
    struct kalyubos_pending pending;
    uint8_t text[16] = "typed by someone";
    size_t took;
    uint32_t value;
    scatter(guest);
    fill_queues(guest, snapshot);
    for (int turn = 0; turn < 4; turn++) {
        switch (chance(8)) {
        case 0:
            need(is_one_of(kalyubos_input(guest->board, guest->slot, text, chance(16) + 1, &took, &pending), KALYUBOS_MORE,
                           KALYUBOS_BUSY, 0), "input", tried);
            break;
        case 1:
            need(is_one_of(kalyubos_read(guest->board, guest->slot, (uint8_t)chance(2), (uint16_t)chance(0x120),
                           (uint8_t)(1 << chance(3)), &value), KALYUBOS_BUSY, 0, 0), "read", tried);
            break;
        case 2:
            write_register(guest, (uint8_t)chance(2), (uint16_t)(4 * chance(0x48)), (uint32_t)chance(1 << 20));
            break;
        case 3:
            say_of_disk(guest);
            break;
        default:
            write_register(guest, (uint8_t)chance(2), NOTIFY, (uint32_t)chance(2));
        }
        if (chance(2))
            settle(guest);
    }
    settle(guest);
}

/* A driver brings a window up over some of what it is offered, with queues somewhere. */
static void bring_up(struct guest *guest, uint8_t window)
{
    uint32_t high = 1 | (uint32_t)chance(2) << (PACKED - 32);
    const uint32_t writes[][2] = {
        { STATUS, 0 }, { STATUS, 3 }, { FEATURES_SEL, 1 }, { FEATURES, high }, { FEATURES_SEL, 0 },
        { FEATURES, (uint32_t)chance(4) << 28 | (window == 0 ? 0x200 : 0x1) }, { STATUS, 11 },
    };
    for (size_t i = 0; i < sizeof writes / sizeof *writes; i++)
        write_register(guest, window, (uint16_t)writes[i][0], writes[i][1]);
    for (uint32_t queue = 0; queue < 2; queue++) {
        const uint32_t page = (uint32_t)MEMORY + 0x1000 * (uint32_t)chance(4), areas[][2] = {
            { QUEUE_SEL, queue }, { QUEUE_SIZE, 1u << chance(5) }, { DESC, page }, { DRIVER, page + 0x400 },
            { DEVICE, page + 0x800 }, { QUEUE_READY, chance(8) != 0 },
        };
        for (size_t i = 0; i < sizeof areas / sizeof *areas; i++)
            write_register(guest, window, (uint16_t)areas[i][0], areas[i][1]);
    }
    write_register(guest, window, STATUS, chance(8) ? 15 : 11);
}

/* ---- what is handed to a slot */

/* A number by chance, or one at an edge. */
static uint64_t odd_number(void)
{
    static const uint64_t edges[] = { 0, 1, 2, 3, 4, 8, 0x7f, 0x80, 0xff, 0x8000, 0xffff, 0x10000, UINT32_MAX, UINT64_MAX };
    return chance(2) ? edges[chance(sizeof edges / sizeof *edges)] : MEMORY + chance(SPAN + 32) - 16;
}

/* The block window of one, and the console of the other. */
static void splice(struct snapshot *made, const struct snapshot *other)
{
    struct layout ours, theirs;
    need(spells(made, &ours) && spells(other, &theirs), "a kept slot has no snapshot", tried);
    size_t at = window_of(&ours, 1), from = window_of(&theirs, 1);
    made->len = at + other->len - from;
    memcpy(made->bytes + at, other->bytes + from, other->len - from);
}

static void change(struct snapshot *made, int kind)
{
    size_t at = chance(made->len), len = 1u << chance(4);
    switch (kind) {
    case 0:
        made->len = at;
        break;
    case 1:
        put(made->bytes + made->len, odd_number(), 8);
        made->len += 1 + chance(8);
        break;
    case 2:
        for (uint64_t i = chance(4) + 1; i > 0; i--)
            made->bytes[chance(made->len)] ^= 1 << chance(8);
        break;
    case 3:
        put(made->bytes + at, odd_number(), (int)(at + len <= made->len ? len : 1));
        break;
    case 4:
        for (at = chance(2) ? 12 : 0; at < made->len; at++)
            made->bytes[at] = (uint8_t)chance(256);
        break;
    default:
        splice(made, &kept[chance(KEPT)]);
    }
}

/* One change or some; or none, which must be taken. */
static bool make_one(struct snapshot *made)
{
    struct layout layout;
    *made = kept[chance(KEPT)];
    if (chance(16) == 0)
        return true;
    bool only_splices = true;
    for (uint64_t i = chance(3) + 1; i > 0 && made->len > 0; i--) {
        int kind = (int)chance(8);
        if (kind >= 5 && !spells(made, &layout))
            continue;
        change(made, kind);
        only_splices = only_splices && kind >= 5;
        if (made->len > ROOM - 16)
            break;
    }
    return only_splices;
}

/* ---- a try */

static void hand(struct guest *guest, const struct snapshot *made, bool must_be_taken)
{
    struct snapshot before, after;
    struct layout layout;
    struct kalyubos_pending pending = { 9, 9, 9 };
    uint8_t block, console, memory[MEMORY_LEN];
    save(guest, &before);
    memcpy(memory, guest->memory, MEMORY_LEN);
    uint32_t answer = kalyubos_restore(guest->board, guest->slot, made->bytes, made->len, &pending);
    need(memcmp(memory, guest->memory, MEMORY_LEN) == 0, "a restore changes memory", tried);
    need(kalyubos_interrupts(guest->board, guest->slot, &block, &console) == KALYUBOS_DONE, "interrupts", tried);
    need(pending.block == block && pending.console == console && pending.output == 0, "what waits", tried);
    save(guest, &after);
    need(answer <= KALYUBOS_SHORT_BUFFER, "an answer", answer);
    counts[answer]++;
    bool is_held = made->len >= BLOCK_WINDOW && made->bytes[HELD] == 1;
    need(!must_be_taken || (is_held && !guest->is_hosted) || answer == KALYUBOS_DONE, "a saved slot is refused", tried);
    if (!spells(made, &layout))
        need(answer == KALYUBOS_BAD_SNAPSHOT, "bytes that spell no snapshot", tried);
    else if (!are_alike(made, &layout, &before) || (is_held && !guest->is_hosted))
        need(answer == KALYUBOS_OTHER_SLOT, "a slot of another description, or a held one over an image", tried);
    else if (get(made->bytes + layout.interrupts[0] + 1, 4) != 0)
        need(answer == KALYUBOS_BAD_STATE, "a disk of another generation", tried);
    else
        need(answer == KALYUBOS_DONE || answer == KALYUBOS_BAD_STATE, "a slot of this description", tried);
    need(are_same(&after, answer == KALYUBOS_DONE ? made : &before), "what a restore leaves", tried);
    if (answer != KALYUBOS_DONE)
        return;
    need(block == made->bytes[layout.interrupts[0]] && console == made->bytes[layout.interrupts[1]], "the words", tried);
    act(guest, &after);
    save(guest, &before);
    count(&after, &before);
}

static void make_boards(struct kalyubos *boards, struct guest guests[][GUESTS])
{
    static const uint8_t image[GUESTS * SECTORS * 512] = { 1 };
    struct kalyubos_slot slots[GUESTS];
    for (size_t i = 0; i < GUESTS; i++)
        slots[i] = (struct kalyubos_slot){ .size = sizeof *slots, .start = SECTORS * i, .count = SECTORS, .cols = 80,
                                           .regions = { { MEMORY, MEMORY_LEN }, { MEMORY + MEMORY_LEN + GAP, SECOND_LEN } },
                                           .rows = 25, .outlet = OUTLET, .identity = "alike" };
    struct kalyubos_config config = over_image(slots, GUESTS, image, sizeof image);
    config.chains = 2;
    make(&boards[0], config);
    for (size_t i = 0; i < GUESTS; i++) {
        slots[i].hosted = true;
        slots[i].depth = 3;
    }
    make(&boards[1], kalyubos_config_of(slots, GUESTS));
    for (uint8_t i = 0; i < 2 * GUESTS; i++) {
        struct guest *guest = &guests[i / GUESTS][i % GUESTS];
        size_t len;
        *guest = (struct guest){ .board = &boards[i / GUESTS], .slot = i % GUESTS, .is_hosted = i / GUESTS == 1 };
        need(kalyubos_memory(guest->board, guest->slot, MEMORY, &guest->memory, &len) == KALYUBOS_DONE, "memory", i);
    }
}

/* A slot that was brought up and has acted, to be kept. */
static void keep(struct guest *guest, struct snapshot *into)
{
    bring_up(guest, KALYUBOS_BLOCK);
    bring_up(guest, KALYUBOS_CONSOLE);
    settle(guest);
    save(guest, into);
    if (chance(2)) {
        act(guest, into);
        save(guest, into);
    }
}

int main(int count, char **words)
{
    static struct guest guests[2][GUESTS];
    static struct kalyubos boards[2];
    static struct snapshot made, others[2], now;
    uint64_t most = count > 1 ? strtoull(words[1], NULL, 10) : 1000000, seed = count > 2 ? strtoull(words[2], NULL, 10) : 1;
    state = seed * 0x9e3779b97f4a7c15 + 1;
    make_boards(boards, guests);
    for (int kind = 0; kind < 2; kind++)
        keep(&guests[kind][1], &others[kind]);
    for (size_t i = 0; i < KEPT; i++)
        keep(&guests[i % 2][0], &kept[i]);
    for (tried = 0; tried < most; tried++) {
        struct guest *guest = &guests[chance(2)][0];
        if (chance(64) == 0)
            keep(guest, &kept[chance(KEPT)]);
        bool must_be_taken = make_one(&made);
        hand(guest, &made, must_be_taken);
    }
    for (int kind = 0; kind < 2; kind++) {
        save(&guests[kind][1], &now);
        need(are_same(&now, &others[kind]), "another guest", kind);
    }
    end_all(boards, 2);
    printf("snapshots: %" PRIu64 " from seed %" PRIu64 ": %" PRIu64 " taken, %" PRIu64 " that are none, %" PRIu64 " of another slot, %"
           PRIu64 " of no state; %" PRIu64 " queues went on, %" PRIu64 " devices failed\n", most, seed, counts[KALYUBOS_DONE],
           counts[KALYUBOS_BAD_SNAPSHOT], counts[KALYUBOS_OTHER_SLOT], counts[KALYUBOS_BAD_STATE], moved, failed);
    return 0;
}
