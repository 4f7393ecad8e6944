/* Tests queue.c and chain.c by themselves: rings as a driver leaves them, and what a device finds there. */
#include "queue.h"

#include <stdio.h>
#include <string.h>

enum { BASE = 0x80000000u, LEN = 0x10000, GAP = 0x1000, RING = 0x1000, AVAILABLE = 0x2000, USED = 0x3000, TABLE = 0x4000 };
enum { N = 1, W = 2, I = 4, OFFERED = 0x80, GIVEN_BACK = 0x8080 }; /* the flags; those of a packed ring's first lap */

/* Addresses count from the memory's first byte. `next` is the buffer id in a packed ring. */
struct entry {
    uint32_t addr, len;
    uint16_t flags, next;
};

struct row {
    const char *name;
    bool packed, indirect;
    uint16_t idx, head; /* of the available ring */
    struct entry ring[4], table[3];
    size_t chains;
    const char *fault; /* words of it, or NULL */
    uint32_t last, members, header_len;
};

static const struct row ROWS[] = {
    { "a split chain", false, false, 1, 0, { { 0x8000, 16, N, 1 }, { 0x9000, 512, N | W, 2 }, { 0xa000, 1, W, 0 } },
      { { 0 } }, 1, NULL, 0xa000, 1, 16 },
    { "its status in the last byte of a buffer", false, false, 1, 1, { { 0 }, { 0x8000, 8, N, 3 }, { 0 },
      { 0x9000, 513, W, 0 } }, { { 0 } }, 1, NULL, 0x9200, 1, 8 },
    { "nothing is on offer", false, false, 0, 0, { { 0x8000, 16, 0, 0 } }, { { 0 } }, 0, NULL, 0, 0, 0 },
    { "a chain in a circle", false, false, 1, 0, { { 0x8000, 1, N, 1 }, { 0x8000, 1, N, 0 } }, { { 0 } }, 1, "circle",
      0, 1, 4 },
    { "a next that isn't there", false, false, 1, 0, { { 0x8000, 1, N, 4 } }, { { 0 } }, 1, "that isn't there", 0, 1,
      1 },
    { "a head that isn't there", false, false, 1, 4, { { 0x8000, 1, 0, 0 } }, { { 0 } }, 1, "that isn't there", 0, 1,
      0 },
    { "five chains in four places", false, false, 5, 0, { { 0x8000, 1, 0, 0 } }, { { 0 } }, 1, "more chains", 0, 0, 0 },
    { "a buffer up to the end", false, false, 1, 0, { { 0xfff0, 16, W, 0 } }, { { 0 } }, 1, NULL, 0xffff, 1, 0 },
    { "a buffer in the second region", false, false, 1, 0, { { LEN + GAP, 16, W, 0 } }, { { 0 } }, 1, NULL, LEN + GAP + 15, 1, 0 },
    { "a buffer in the gap", false, false, 1, 0, { { LEN + GAP - 1, 1, W, 0 } }, { { 0 } }, 1, "isn't inside", 0, 1, 0 },
    { "a buffer across the gap", false, false, 1, 0, { { LEN - 1, GAP + 2, W, 0 } }, { { 0 } }, 1, "isn't inside", 0, 1, 0 },
    { "a buffer past the end", false, false, 1, 0, { { 0xfff0, 17, W, 0 } }, { { 0 } }, 1, "isn't inside", 0, 1, 0 },
    { "a table", false, true, 1, 0, { { TABLE, 48, I, 0 } },
      { { 0x8000, 16, N, 1 }, { 0x9000, 4, N | W, 2 }, { 0xa000, 1, W, 0 } }, 1, NULL, 0xa000, 1, 16 },
    { "a table that wasn't negotiated", false, false, 1, 0, { { TABLE, 48, I, 0 } }, { { 0x8000, 1, 0, 0 } }, 1,
      "wasn't negotiated", 0, 1, 0 },
    { "a table with NEXT", false, true, 1, 0, { { TABLE, 48, I | N, 1 }, { 0x8000, 1, 0, 0 } }, { { 0 } }, 1, "beside",
      0, 1, 0 },
    { "a table of half a descriptor", false, true, 1, 0, { { TABLE, 8, I, 0 } }, { { 0 } }, 1, "bad length", 0, 1, 0 },
    { "a table in a table", false, true, 1, 0, { { TABLE, 16, I, 0 } }, { { TABLE, 16, I, 0 } }, 1,
      "in an indirect table", 0, 1, 0 },
    { "a packed list", true, false, 0, 0,
      { { 0x8000, 16, OFFERED | N, 0 }, { 0x9000, 512, OFFERED | N | W, 0 }, { 0xa000, 1, OFFERED | W, 7 } }, { { 0 } },
      1, NULL, 0xa000, 3, 16 },
    { "two packed lists", true, false, 0, 0, { { 0x8000, 16, OFFERED, 0 }, { 0x9000, 2, OFFERED | W, 0 } }, { { 0 } },
      2, NULL, 0, 1, 16 },
    { "a packed list that was given back", true, false, 0, 0, { { 0x8000, 16, GIVEN_BACK, 0 } }, { { 0 } }, 0, NULL, 0,
      0, 0 },
    { "a packed list without an end", true, false, 0, 0, { { 0x8000, 1, OFFERED | N, 0 }, { 0x8000, 1, OFFERED | N, 0 },
      { 0x8000, 1, OFFERED | N, 0 }, { 0x8000, 1, OFFERED | N, 0 } }, { { 0 } }, 1, "circle", 0, 4, 4 },
    { "a packed table, whose flags but WRITE say nothing", true, true, 0, 0, { { TABLE, 48, OFFERED | I, 0 } },
      { { 0x8000, 16, 0, 0 }, { 0x9000, 4, N | I | W, 0 }, { 0xa000, 1, W, 0 } }, 1, NULL, 0xa000, 1, 16 },
    { "a packed table behind a descriptor", true, true, 0, 0,
      { { 0x8000, 16, OFFERED | N, 0 }, { TABLE, 16, OFFERED | I, 0 } }, { { 0 } }, 1, "beside", 0, 2, 16 },
};

static uint8_t bytes[LEN];
static const struct memory MEMORY = { 2, { { BASE, LEN, bytes }, { BASE + LEN + GAP, LEN, bytes } } };

static void put(uint32_t at, uint64_t value, unsigned count)
{
    for (unsigned i = 0; i < count; i++)
        bytes[at + i] = value >> 8 * i;
}

static void put_entry(uint32_t at, const struct entry *entry, bool packed)
{
    put(at, BASE + (uint64_t)entry->addr, 8);
    put(at + 8, entry->len, 4);
    put(at + 12, packed ? entry->next : entry->flags, 2);
    put(at + 14, packed ? entry->flags : entry->next, 2);
}

/* Whether the first chain on offer is as the row says. */
static bool is_right(const struct row *row)
{
    static struct chain chains[QUEUE_PLACES + 1];
    struct queue queue = { true, row->packed, row->indirect, 4, { BASE + RING, BASE + AVAILABLE, BASE + USED }, 0, 0, 0, 0 };
    memset(bytes, 0, sizeof bytes);
    for (size_t i = 0; i < 4; i++)
        put_entry(RING + 16 * i, &row->ring[i], row->packed);
    for (size_t i = 0; i < 3; i++)
        put_entry(TABLE + 16 * i, &row->table[i], row->packed);
    if (!row->packed)
        put(AVAILABLE + 2, row->idx | row->head << 16, 4);
    if (queue_offered(&queue, &MEMORY, chains) != row->chains)
        return false;
    if (row->chains == 0)
        return true;
    const struct chain *one = chains;
    bool faulty = one->fault != NULL;
    return (row->fault == NULL ? !faulty : faulty && strstr(one->fault, row->fault) != NULL) &&
           one->members == row->members && one->header_len == row->header_len &&
           (one->is_writable ? one->last == BASE + (uint64_t)row->last : row->last == 0);
}

/* A used entry of three places of the ring; packed, the descriptor at a place. */
static void put_used(bool packed, uint32_t place, uint16_t id)
{
    put(packed ? RING + 16 * place + 12 : USED + 4 + 8 * place, id, packed ? 2 : 4);
    put(packed ? RING + 16 * place + 14 : USED + 2, packed ? GIVEN_BACK : place + 1, 2);
}

/*
 * Two chains are on offer, of two descriptors and of one, whose ids are 2 and 3. The second is given back before the first, each
 * once the device says so, and the queue then stands behind both.
 */
static bool gives_back(bool packed)
{
    static struct chain chains[QUEUE_PLACES + 1];
    const struct entry entries[] = { { 0x8000, 1, N, 3 }, { 0x8000, 1, 0, 2 }, { 0x9000, 1, 0, 3 } };
    struct queue queue = { true, packed, false, 4, { BASE + RING, BASE + AVAILABLE, BASE + USED }, 0, 0, 0, 0 };
    memset(bytes, 0, sizeof bytes);
    for (size_t i = 0; i < 3; i++) {
        struct entry entry = entries[i];
        entry.flags |= packed ? OFFERED : 0;
        put_entry(RING + 16 * (packed || i == 1 ? i : i == 0 ? 2 : 3), &entry, packed);
    }
    if (!packed) { /* the first is descriptor 2 and goes on by 3, the second is descriptor 3 alone */
        put(AVAILABLE + 2, 2, 2);
        put(AVAILABLE + 4, 2 | 3 << 16, 4);
    }
    if (queue_take_in(&queue, &MEMORY, chains) != NULL || queue.pending != 2 || chains[0].id != 2 || chains[1].id != 3 ||
        queue_given_back(&queue, &MEMORY, chains) != NULL || queue_take_in(&queue, &MEMORY, chains) != NULL)
        return false;
    put_used(packed, 0, 3);
    struct chain *first = queue_given_back(&queue, &MEMORY, chains);
    if (queue.pending != 2 || first != &chains[1])
        return false;
    queue_give_back(&queue, chains, first);
    if (queue.pending != 1 || chains[0].id != 2 || queue_given_back(&queue, &MEMORY, chains) != NULL)
        return false;
    put_used(packed, 1, 2);
    struct chain *second = queue_given_back(&queue, &MEMORY, chains);
    if (second != &chains[0])
        return false;
    queue_give_back(&queue, chains, second);
    uint32_t end = packed ? 3 : 2;
    return queue.pending == 0 && queue.ahead == 0 && queue.place == end && queue.used == end;
}

int main(void)
{
    size_t count = sizeof ROWS / sizeof *ROWS, wrong = 0;
    for (size_t i = 0; i < count; i++)
        if (!is_right(&ROWS[i])) {
            printf("%s: not as it must be\n", ROWS[i].name);
            wrong++;
        }
    if (!gives_back(false) || !gives_back(true)) {
        puts("chains that are given back: not as they must be");
        wrong++;
    }
    if (wrong == 0)
        printf("a virtqueue is read as it must be in all %zu rows\n", count + 2);
    return wrong != 0;
}
