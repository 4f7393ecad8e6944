/* One chain of queue.h, as its device resolves it. */
#include "queue.h"

enum { NEXT = 1, WRITE = 2, INDIRECT = 4 };
enum { DESCRIPTOR = 16, MOST_BUFFERS = 256, MOST_TABLE = 4096 };

static const uint64_t MOST_BYTES = 0xffffffff;

/* The faults, with the section that forbids each. */
static const char BAD_INDEX[] = "a descriptor is named that isn't there (2.7.5)";
static const char CIRCLE[] = "the descriptors of a chain go in a circle (2.7.5.2)";
static const char OUTSIDE[] = "a buffer isn't inside the guest's memory (2.7.5)";
static const char TOO_MANY_BUFFERS[] = "a chain has more than 256 buffers (2.7.5.2)";
static const char TOO_LONG[] = "a chain has more than 2^32 - 1 bytes (2.7.5.2)";
static const char NOT_NEGOTIATED[] = "an indirect table, which wasn't negotiated (2.7.5.3.1)";
static const char JOINED[] = "an indirect table beside other descriptors (2.7.5.3.1, 2.8.19)";
static const char BAD_TABLE[] = "an indirect table of a bad length (2.7.5.3)";
static const char NESTED[] = "an indirect table in an indirect table (2.7.5.3.1)";

/* ---- memory */

static bool is_inside(const struct memory *memory, uint64_t addr, uint64_t count)
{
    return memory_at(memory, addr, count) != NULL;
}

uint64_t queue_number(const struct memory *memory, uint64_t addr, unsigned count)
{
    const uint8_t *bytes = memory_at(memory, addr, count);
    uint64_t value = 0;
    for (unsigned i = 0; bytes != NULL && i < count; i++)
        value |= (uint64_t)bytes[i] << 8 * i;
    return value;
}

/* The last two numbers are `flags` and `next` in a split ring; a packed one has `id` and `flags`, and `next` is then the id. */
struct descriptor {
    uint64_t addr;
    uint32_t len;
    uint16_t flags, next;
};

static struct descriptor descriptor_at(const struct memory *memory, uint64_t table, uint32_t index, bool packed)
{
    uint64_t at = table + (uint64_t)index * DESCRIPTOR;
    uint16_t first = queue_number(memory, at + 12, 2), second = queue_number(memory, at + 14, 2);
    return (struct descriptor){ queue_number(memory, at, 8), queue_number(memory, at + 8, 4),
                                packed ? second : first, packed ? first : second };
}

/* ---- one chain */

static void append(struct chain *chain, const struct memory *memory, const struct descriptor *buffer)
{
    if (!is_inside(memory, buffer->addr, buffer->len))
        chain->fault = OUTSIDE;
    else if (chain->buffers == MOST_BUFFERS)
        chain->fault = TOO_MANY_BUFFERS;
    else if (chain->bytes + buffer->len > MOST_BYTES)
        chain->fault = TOO_LONG;
    if (chain->fault != NULL)
        return;
    chain->buffers++;
    chain->bytes += buffer->len;
    if ((buffer->flags & WRITE) != 0 && buffer->len > 0) {
        chain->is_writable = true;
        chain->last = buffer->addr + buffer->len - 1;
    }
    for (uint32_t i = 0; !(buffer->flags & WRITE) && i < buffer->len && chain->header_len < QUEUE_HEADER; i++)
        chain->header[chain->header_len++] = queue_number(memory, buffer->addr + i, 1);
}

/* A path of a split ring or table from `index` on; ends before an indirect table, which `table` then is. */
static bool walk(struct chain *chain, const struct memory *memory, uint64_t from, uint32_t size, uint32_t index,
                 struct descriptor *table)
{
    for (uint32_t members = 1;; members++) {
        if (index >= size) {
            chain->fault = BAD_INDEX;
            return false;
        }
        *table = descriptor_at(memory, from, index, false);
        if (table->flags & INDIRECT)
            return true;
        append(chain, memory, table);
        if (chain->fault == NULL && (table->flags & NEXT) != 0 && members >= size)
            chain->fault = CIRCLE;
        if (chain->fault != NULL || !(table->flags & NEXT))
            return false;
        index = table->next;
    }
}

static void walk_table(struct chain *chain, const struct queue *queue, const struct memory *memory,
                       const struct descriptor *table, bool joined)
{
    struct descriptor inner;
    uint32_t entries = table->len / DESCRIPTOR;
    if (!queue->indirect)
        chain->fault = NOT_NEGOTIATED;
    else if (joined || (table->flags & NEXT) != 0)
        chain->fault = JOINED;
    else if (table->len == 0 || table->len % DESCRIPTOR != 0 || table->len > MOST_TABLE)
        chain->fault = BAD_TABLE;
    else if (!is_inside(memory, table->addr, table->len))
        chain->fault = OUTSIDE;
    else if (!queue->packed && walk(chain, memory, table->addr, entries, 0, &inner))
        chain->fault = NESTED;
    for (uint32_t i = 0; queue->packed && i < entries && chain->fault == NULL; i++) {
        inner = descriptor_at(memory, table->addr, i, true);
        append(chain, memory, &inner);
    }
}

static struct chain split_chain(const struct queue *queue, const struct memory *memory, uint32_t place)
{
    uint32_t head = queue_number(memory, queue->areas[AREA_DRIVER] + 4 + 2 * (place % queue->size), 2);
    struct chain chain = { .place = place, .id = head, .members = 1 };
    struct descriptor table;
    if (walk(&chain, memory, queue->areas[AREA_DESCRIPTORS], queue->size, head, &table))
        walk_table(&chain, queue, memory, &table, false);
    return chain;
}

static struct chain packed_chain(const struct queue *queue, const struct memory *memory, uint32_t place)
{
    struct chain chain = { .place = place };
    struct descriptor one;
    do {
        one = descriptor_at(memory, queue->areas[AREA_DESCRIPTORS], (place + chain.members) % queue->size, true);
        chain.members++;
        chain.id = one.next;
        if (one.flags & INDIRECT) {
            walk_table(&chain, queue, memory, &one, chain.members > 1);
            return chain;
        }
        append(&chain, memory, &one);
        if (chain.fault == NULL && (one.flags & NEXT) != 0 && chain.members >= queue->size)
            chain.fault = CIRCLE;
    } while (chain.fault == NULL && (one.flags & NEXT) != 0);
    return chain;
}

struct chain chain_at(const struct queue *queue, const struct memory *memory, uint32_t place)
{
    return queue->packed ? packed_chain(queue, memory, place) : split_chain(queue, memory, place);
}
