/*
 * Hands a slot with six further devices snapshots of version 3 whose last part, what waits in these devices, is made by chance, full,
 * or changed: each is refused and changes nothing, or is taken, and then the slot is saved so.
 *
 *     waiting [COUNT [SEED]]    prints what was counted, or ends with 1 and the number of the snapshot
 *
 * Of each it is known from the format alone (crates/snapshot/README.md) whether the bytes can be so (`can_wait`). A board's other guest
 * stays byte for byte. The heap is open to create and destroy alone.
 */
#include <inttypes.h>
#include <stdio.h>
#include <stdlib.h>
#include <string.h>

#include "shut_heap.h"

enum { GUESTS = 2, MEMORY_LEN = 0x1000, SECTORS = 4, SPARE = 2, PART = SECTORS + SPARE, ROOM = 1 << 20 };

/* What has room in a further device. */
enum { POOL = 4096, FRAMES = 64, ALL_FRAMES = 65536, INPUT = 4096, OUTPUT = 65536, DROPPED = 16, SIZE = 4 };

/* How long it is where nothing waits: a pool, two cards, a console and two disks. */
enum { EMPTY = 4 + 2 * (1 + DROPPED + 4 + 4) + (SIZE + 4 + 4) + 2 };

struct bytes {
    uint8_t at[ROOM];
    size_t len;
};

static uint64_t state, tried, taken, refused, full;
static struct kalyubos board;

/* A snapshot of a slot whose devices' drivers were never there, up to what waits, which is the rest. */
static struct bytes front;

static uint64_t chance(uint64_t below)
{
    state ^= state << 13;
    state ^= state >> 7;
    state ^= state << 17;
    return (state >> 11) % below;
}

/* ---- what waits, by the format alone */

struct reader {
    const uint8_t *at;
    size_t left;
    bool is_good;
};

static void skip(struct reader *reader, uint64_t len)
{
    reader->is_good = reader->is_good && len <= reader->left;
    if (reader->is_good) {
        reader->at += len;
        reader->left -= len;
    }
}

static uint64_t number(struct reader *reader, size_t len)
{
    const uint8_t *at = reader->at;
    uint64_t value = 0;
    skip(reader, len);
    while (reader->is_good && len-- > 0)
        value = value << 8 | at[len];
    return value;
}

/* A number of at most `most`, which it answers. */
static uint64_t at_most(struct reader *reader, size_t len, uint64_t most)
{
    uint64_t found = number(reader, len);
    reader->is_good = reader->is_good && found <= most;
    return reader->is_good ? found : 0;
}

static void read_frames(struct reader *reader)
{
    uint64_t all = 0;
    for (uint64_t count = at_most(reader, 4, FRAMES); count > 0; count--)
        all += number(reader, 4);
    reader->is_good = reader->is_good && all <= ALL_FRAMES;
    skip(reader, all);
}

static void read_card(struct reader *reader)
{
    at_most(reader, 1, 1);
    skip(reader, DROPPED);
    read_frames(reader);
    read_frames(reader);
}

/* An entropy device, a card, a console, a disk that the host serves, one over the image, and a card. `image_hold` is where the last
 * disk's hold stands, which is never saved. */
static bool can_wait(const uint8_t *bytes, size_t len, size_t *image_hold)
{
    struct reader reader = { bytes, len, true };
    skip(&reader, at_most(&reader, 4, POOL));
    read_card(&reader);
    skip(&reader, SIZE);
    skip(&reader, at_most(&reader, 4, INPUT));
    skip(&reader, at_most(&reader, 4, OUTPUT));
    at_most(&reader, 1, 1);
    *image_hold = len - reader.left;
    at_most(&reader, 1, 1);
    read_card(&reader);
    return reader.is_good && reader.left == 0;
}

/* ---- snapshots by chance */

static void put(struct bytes *to, uint64_t value, size_t len)
{
    for (; len-- > 0; value >>= 8)
        to->at[to->len++] = (uint8_t)value;
}

static void put_any(struct bytes *to, size_t len)
{
    for (size_t part; len > 0; len -= part) {
        part = len < 4 ? len : 4;
        put(to, chance(1ull << 32), part);
    }
}

/* A length of at most `most`: all of it, or mostly less. */
static size_t length(size_t most, bool is_full)
{
    return is_full || chance(8) == 0 ? most : chance(chance(2) ? 8 : most + 1);
}

static void put_counted(struct bytes *to, size_t most, bool is_full)
{
    size_t len = length(most, is_full);
    put(to, len, 4);
    put_any(to, len);
}

/* Frames that have room together; of a full device 64 of 1024 bytes. */
static void put_frames(struct bytes *to, bool is_full)
{
    size_t count = length(FRAMES, is_full), left = ALL_FRAMES;
    put(to, count, 4);
    for (size_t i = 0; i < count; i++) {
        size_t most = left - (count - i - 1), len = is_full ? ALL_FRAMES / FRAMES : 1 + chance(most > 60 && chance(4) != 0 ? 60 : most);
        left -= len;
        put(to, len, 4);
    }
    put_any(to, ALL_FRAMES - left);
}

static void put_card(struct bytes *to, bool is_full)
{
    put(to, chance(2), 1);
    put_any(to, DROPPED);
    put_frames(to, is_full);
    put_frames(to, is_full);
}

static void put_waiting(struct bytes *to, bool is_full)
{
    put_counted(to, POOL, is_full);
    put_card(to, is_full);
    put_any(to, SIZE);
    put_counted(to, INPUT, is_full);
    put_counted(to, OUTPUT, is_full);
    put(to, chance(2), 1);
    put(to, chance(2), 1);
    put_card(to, is_full);
}

/* A change of what waits, which the front stays clear of. */
static void change(struct bytes *made)
{
    static const uint64_t odd[] = { 0, 1, 2, 64, 65, 255, 256, 4096, 4097, 65535, 65536, 65537, 1 << 30, UINT32_MAX };
    size_t from = front.len, len = made->len - from, at = from + chance(len + 1);
    switch (chance(5)) {
    case 0:
        made->len = at;
        break;
    case 1:
        put_any(made, 1 + chance(8));
        break;
    case 2:
        if (at < made->len)
            made->at[at] ^= 1 << chance(8);
        break;
    case 3:
        made->at[from + chance(len < 40 ? len + 1 : 40)] ^= 1 << chance(8); /* near the front, where the first numbers stand */
        break;
    default:
        if (at + 4 <= made->len) {
            uint64_t value = odd[chance(sizeof odd / sizeof *odd)];
            for (size_t i = 0; i < 4; i++)
                made->at[at + i] = (uint8_t)(value >> 8 * i);
        }
    }
}

/* ---- a try */

static void save(uint8_t slot, struct bytes *into)
{
    size_t len;
    need(kalyubos_saved_len(&board, slot, &len) == KALYUBOS_DONE, "saved_len", tried);
    need(kalyubos_save(&board, slot, into->at, ROOM, &into->len) == KALYUBOS_DONE && into->len == len, "save", tried);
}

static bool are_same(const struct bytes *one, const struct bytes *other)
{
    return one->len == other->len && memcmp(one->at, other->at, one->len) == 0;
}

static void hand(struct bytes *made)
{
    static struct bytes before, after;
    struct kalyubos_pending pending;
    size_t image_hold;
    bool is_good = can_wait(made->at + front.len, made->len - front.len, &image_hold);
    save(0, &before);
    uint32_t answer = kalyubos_restore(&board, 0, made->at, made->len, &pending);
    need(answer == (is_good ? KALYUBOS_DONE : KALYUBOS_BAD_WAITING), "an answer", tried);
    save(0, &after);
    if (is_good)
        made->at[front.len + image_hold] = 0;
    need(are_same(&after, is_good ? made : &before), "what a restore leaves", tried);
    taken += is_good;
    refused += !is_good;
}

/* Of full devices everything comes out again. */
static void take_out(void)
{
    static uint8_t into[OUTPUT];
    static const uint8_t more[1];
    static const size_t lengths[] = { ALL_FRAMES / FRAMES, OUTPUT, ALL_FRAMES / FRAMES };
    static const uint8_t windows[] = { 1, 2, 5 };
    size_t len;
    bool has_room;
    for (size_t i = 0; i < 3; i++) {
        uint8_t window = KALYUBOS_DEVICE + windows[i];
        for (size_t left = lengths[i] == OUTPUT ? 1 : FRAMES; left > 0; left--)
            need(kalyubos_take_frame(&board, 0, window, into, sizeof into, &len) == KALYUBOS_DONE && len == lengths[i], "take_frame", len);
        need(kalyubos_take_frame(&board, 0, window, into, sizeof into, &len) == KALYUBOS_DONE && len == 0, "one more", len);
    }
    need(kalyubos_supply(&board, 0, KALYUBOS_DEVICE, more, 1, &len) == KALYUBOS_DONE && len == 0, "a full pool", len);
    need(kalyubos_supply(&board, 0, KALYUBOS_DEVICE + 2, more, 1, &len) == KALYUBOS_DONE && len == 0, "full input", len);
    need(kalyubos_receive(&board, 0, KALYUBOS_DEVICE + 1, more, 1, &has_room) == KALYUBOS_DONE && !has_room, "a full card", tried);
    full++;
}

static void make_board(void)
{
    static const uint8_t image[GUESTS * PART * 512] = { 1 };
    struct kalyubos_slot slots[GUESTS];
    for (size_t i = 0; i < GUESTS; i++)
        slots[i] = (struct kalyubos_slot){
            .size = sizeof *slots, .start = PART * i, .count = SECTORS, .spare = SPARE, .cols = 80, .rows = 25, .outlet = 16,
            .regions = { { 0x80000000, MEMORY_LEN } }, .identity = "alike",
            .devices = { { .kind = KALYUBOS_ENTROPY }, { .kind = KALYUBOS_NETWORK, .mtu = 1500 }, { .kind = KALYUBOS_CONSOLE_DEVICE },
                         { .kind = KALYUBOS_DISK, .sectors = 8, .depth = 2, .identity = "served" },
                         { .kind = KALYUBOS_IMAGE_DISK, .sectors = SPARE, .identity = "spare" }, { .kind = KALYUBOS_NETWORK, .mtu = 68 } } };
    make(&board, over_image(slots, GUESTS, image, sizeof image));
}

int main(int count, char **words)
{
    static struct bytes made, other, now;
    uint64_t most = count > 1 ? strtoull(words[1], NULL, 10) : 100000, seed = count > 2 ? strtoull(words[2], NULL, 10) : 1;
    size_t image_hold;
    state = seed * 0x9e3779b97f4a7c15 + 1;
    make_board();
    save(1, &other);
    save(0, &front);
    front.len -= EMPTY;
    need(can_wait(front.at + front.len, EMPTY, &image_hold), "a new slot's snapshot", front.len);
    for (tried = 0; tried < most; tried++) {
        bool is_full = chance(256) == 0;
        made.len = front.len;
        memcpy(made.at, front.at, front.len);
        put_waiting(&made, is_full);
        uint64_t changes = chance(4);
        for (uint64_t i = 0; i < changes; i++)
            change(&made);
        hand(&made);
        if (is_full && changes == 0)
            take_out();
    }
    save(1, &now);
    need(are_same(&now, &other), "another guest", 1);
    end(&board);
    printf("waiting: %" PRIu64 " from seed %" PRIu64 ": %" PRIu64 " taken, %" PRIu64 " refused, of %" PRIu64 " all came out that had room\n", most,
           seed, taken, refused, full);
    return 0;
}
