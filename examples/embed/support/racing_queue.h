/*
 * A driver's side of a queue, split or packed, with EVENT_IDX or without, in a guest whose CPUs run on while it is served: each
 * access to what it shares with the device is atomic, in the order that the standard wants (2.7.13, 2.8.21). racing_guest.h has
 * such queues; no library stands below.
 */
#ifndef RACING_QUEUE_H
#define RACING_QUEUE_H

#include <stdatomic.h>
#include <stdbool.h>
#include <stdint.h>

enum { RING = 32, PARTS = 4 /* of a chain at most */, IDS = RING / PARTS };
enum { NEXT = 1, WRITE = 2, INDIRECT = 4, AVAIL = 0x80, USED = 0x8000 };

/* A part of a chain. */
struct part {
    uint64_t addr;
    uint32_t len;
    bool is_written; /* by the device */
};

/* The counts are modulo 2^16: of chains in a split ring, of descriptors in a packed one. */
struct queue {
    uintptr_t memory; /* where the byte of the guest's address 0 would lie */
    uint64_t table, driver, device;
    bool packed, event_idx;
    uint16_t offered, used, told; /* `told`: what was offered when it was last asked whether the device is to be told */
    uint8_t lengths[IDS];         /* how many descriptors of a packed ring the chain of an id has */
};

/* ---- memory: one order of all accesses but those to single bytes, so that what is asked behind a store is read behind it */

static inline uint8_t load_8(uintptr_t memory, uint64_t addr)
{
    return atomic_load_explicit((_Atomic uint8_t *)(memory + addr), memory_order_relaxed);
}

static inline void store_8(uintptr_t memory, uint64_t addr, uint8_t value)
{
    atomic_store_explicit((_Atomic uint8_t *)(memory + addr), value, memory_order_relaxed);
}

static inline uint16_t load_16(uintptr_t memory, uint64_t addr)
{
    return atomic_load((_Atomic uint16_t *)(memory + addr));
}

static inline void store_16(uintptr_t memory, uint64_t addr, uint16_t value)
{
    atomic_store((_Atomic uint16_t *)(memory + addr), value);
}

static inline uint32_t load_32(uintptr_t memory, uint64_t addr)
{
    return atomic_load((_Atomic uint32_t *)(memory + addr));
}

static inline void store_32(uintptr_t memory, uint64_t addr, uint32_t value)
{
    atomic_store((_Atomic uint32_t *)(memory + addr), value);
}

static inline uint64_t load_64(uintptr_t memory, uint64_t addr)
{
    return atomic_load((_Atomic uint64_t *)(memory + addr));
}

static inline void store_64(uintptr_t memory, uint64_t addr, uint64_t value)
{
    atomic_store((_Atomic uint64_t *)(memory + addr), value);
}

/* ---- a chain on offer */

/* The flags of a packed descriptor in the round of its place, on offer or used. */
static inline uint16_t on_offer(uint16_t count)
{
    return count / RING % 2 == 0 ? AVAIL : USED;
}

static inline uint16_t is_used(uint16_t count)
{
    return count / RING % 2 == 0 ? AVAIL | USED : 0;
}

/* A descriptor of a split ring or of a table; and one of a packed ring, whose flags are stored with its last word. */
static inline void describe(uintptr_t memory, uint64_t at, struct part part, uint16_t flags, uint16_t next)
{
    store_64(memory, at, part.addr);
    store_64(memory, at + 8, part.len | (uint64_t)(flags | (part.is_written ? WRITE : 0)) << 32 | (uint64_t)next << 48);
}

static inline void describe_packed(const struct queue *queue, uint16_t count, struct part part, uint16_t flags, uint16_t id)
{
    uint64_t at = queue->table + 16 * (count % RING);
    flags |= on_offer(count) | (part.is_written ? WRITE : 0);
    store_64(queue->memory, at, part.addr);
    store_64(queue->memory, at + 8, part.len | (uint64_t)id << 32 | (uint64_t)flags << 48);
}

/* A table of a chain's parts. That of a packed queue has no NEXT: its descriptors follow each other (2.8.7). */
static inline void write_table(const struct queue *queue, uint64_t table, const struct part *parts, unsigned len)
{
    for (unsigned i = 0; i < len; i++)
        if (queue->packed)
            describe(queue->memory, table + 16 * i, (struct part){ parts[i].addr, parts[i].len, false }, 0,
                     parts[i].is_written ? WRITE : 0);
        else
            describe(queue->memory, table + 16 * i, parts[i], i + 1 < len ? NEXT : 0, (uint16_t)(i + 1));
}

/* Puts a chain of an id on offer, which is below IDS and not on offer: its parts, in a table where there is one for it. */
static inline void offer(struct queue *queue, uint16_t id, const struct part *parts, unsigned len, uint64_t table)
{
    const struct part whole = { table, 16 * len, false };
    if (table != 0) {
        write_table(queue, table, parts, len);
        parts = &whole;
        len = 1;
    }
    const uint16_t flags = table != 0 ? INDIRECT : 0, first = queue->offered;
    if (!queue->packed) {
        for (unsigned i = 0; i < len; i++)
            describe(queue->memory, queue->table + 16 * (PARTS * id + i), parts[i], flags | (i + 1 < len ? NEXT : 0),
                     (uint16_t)(PARTS * id + i + 1));
        store_16(queue->memory, queue->driver + 4 + 2 * (first % RING), PARTS * id);
        store_16(queue->memory, queue->driver + 2, ++queue->offered);
        return;
    }
    for (unsigned i = len; i-- > 0;) /* the first one last: with it the chain is on offer */
        describe_packed(queue, (uint16_t)(first + i), parts[i], flags | (i + 1 < len ? NEXT : 0), id);
    queue->lengths[id] = (uint8_t)len;
    queue->offered = (uint16_t)(first + len);
}

/* Whether the device is to be told of what was offered since the last time (2.7.13.4.1, 2.8.21.3.1). */
static inline bool must_notify(struct queue *queue)
{
    uint16_t offered = queue->offered, told = queue->told, event, below = UINT16_MAX;
    queue->told = offered;
    if (offered == told)
        return false;
    if (!queue->packed && !queue->event_idx)
        return (load_16(queue->memory, queue->device) & 1) == 0;
    if (!queue->packed) {
        event = load_16(queue->memory, queue->device + 4 + 8 * RING);
    } else {
        uint32_t wanted = load_32(queue->memory, queue->device);
        if (wanted >> 16 != 2)
            return wanted >> 16 == 0;
        below = 2 * RING - 1; /* a place and a round count modulo twice the size */
        event = (uint16_t)((wanted & 0x7fff) + (wanted & 0x8000 ? 0 : RING));
    }
    return ((offered - event - 1) & below) < ((offered - told) & below);
}

/* ---- what is used */

static inline bool has_used(const struct queue *queue)
{
    if (!queue->packed)
        return load_16(queue->memory, queue->device + 2) != queue->used;
    uint16_t flags = load_16(queue->memory, queue->table + 16 * (queue->used % RING) + 14);
    return (flags & (AVAIL | USED)) == is_used(queue->used);
}

/* Takes the next used chain, of a queue that has one. False where it is none of this queue's. */
static inline bool take(struct queue *queue, uint16_t *id, uint32_t *len)
{
    if (!queue->packed) {
        uint64_t entry = queue->device + 4 + 8 * (queue->used++ % RING);
        uint32_t head = load_32(queue->memory, entry);
        *id = (uint16_t)(head / PARTS);
        *len = load_32(queue->memory, entry + 4);
        return head % PARTS == 0 && head < RING;
    }
    uint64_t last = load_64(queue->memory, queue->table + 16 * (queue->used % RING) + 8);
    *id = (uint16_t)(last >> 32);
    *len = (uint32_t)last;
    if (*id >= IDS)
        return false;
    queue->used = (uint16_t)(queue->used + queue->lengths[*id]);
    return true;
}

/* Asks for an interrupt at the next used chain; look at the queue again behind it. Without EVENT_IDX each chain interrupts. */
static inline void want(const struct queue *queue)
{
    if (queue->event_idx && !queue->packed) {
        store_16(queue->memory, queue->driver + 4 + 2 * RING, queue->used);
    } else if (queue->event_idx) {
        uint16_t round = queue->used / RING % 2 == 0 ? 0x8000 : 0;
        store_16(queue->memory, queue->driver, queue->used % RING | round);
        store_16(queue->memory, queue->driver + 2, 2);
    }
}

#endif
