/* The virtqueue of queue.h: what is on offer, and what was given back. */
#include "queue.h"

#include <string.h>

enum { AVAIL = 0x80, USED = 0x8000, DESCRIPTOR = 16, ENTRY = 8, INDICES = 0x10000 };

static const char TOO_MANY_CHAINS[] = "more chains are on offer than the virtqueue has places (2.7.6)";

static uint16_t packed_flags(const struct queue *queue, const struct memory *memory, uint32_t place)
{
    return queue_number(memory, queue->areas[AREA_DESCRIPTORS] + place % queue->size * DESCRIPTOR + 14, 2);
}

static bool packed_is_offered(const struct queue *queue, const struct memory *memory, uint32_t place)
{
    uint16_t flags = packed_flags(queue, memory, place);
    bool wrap = place < queue->size;
    return ((flags & AVAIL) != 0) == wrap && ((flags & USED) != 0) != wrap;
}

static size_t split_offered(const struct queue *queue, const struct memory *memory, struct chain *chains)
{
    uint32_t idx = queue_number(memory, queue->areas[AREA_DRIVER] + 2, 2);
    uint32_t left = (idx - queue->place) % INDICES;
    size_t count = 0;
    if (left + queue->ahead > queue->size) {
        chains[0] = (struct chain){ .fault = TOO_MANY_CHAINS, .place = queue->place };
        return 1;
    }
    while (count < left && (count == 0 || chains[count - 1].fault == NULL)) {
        chains[count] = chain_at(queue, memory, (queue->place + count) % INDICES);
        count++;
    }
    return count;
}

/* The place behind another, so many places on. */
static uint32_t place_behind(const struct queue *queue, uint32_t place, uint32_t members)
{
    return (place + members) % (queue->packed ? 2 * queue->size : INDICES);
}

static size_t packed_offered(const struct queue *queue, const struct memory *memory, struct chain *chains)
{
    size_t count = 0;
    uint32_t place = queue->place, passed = queue->ahead;
    while (passed < queue->size && packed_is_offered(queue, memory, place)) {
        chains[count] = chain_at(queue, memory, place);
        passed += chains[count].members;
        place = place_behind(queue, place, chains[count].members);
        if (chains[count++].fault != NULL)
            break;
    }
    return count;
}

size_t queue_offered(const struct queue *queue, const struct memory *memory, struct chain *chains)
{
    if (!queue->ready || queue->size == 0 || queue->size > QUEUE_PLACES)
        return 0;
    return queue->packed ? packed_offered(queue, memory, chains) : split_offered(queue, memory, chains);
}

const char *queue_take_in(struct queue *queue, const struct memory *memory, struct chain *chains)
{
    size_t count = queue_offered(queue, memory, chains + queue->pending);
    for (size_t i = 0; i < count; i++) {
        const struct chain *chain = &chains[queue->pending];
        if (chain->fault != NULL)
            return chain->fault;
        queue->pending++;
        queue->ahead += chain->members;
        queue->place = place_behind(queue, queue->place, chain->members);
    }
    return NULL;
}

/* Whether the device gave a chain back at the next used entry, and by which id. */
static bool has_used(const struct queue *queue, const struct memory *memory, uint32_t *id)
{
    if (!queue->packed) {
        uint32_t idx = queue_number(memory, queue->areas[AREA_DEVICE] + 2, 2);
        *id = queue_number(memory, queue->areas[AREA_DEVICE] + 4 + queue->used % queue->size * ENTRY, 4);
        return (idx - queue->used - 1) % INDICES < queue->size;
    }
    uint16_t flags = packed_flags(queue, memory, queue->used);
    bool wrap = queue->used < queue->size;
    *id = queue_number(memory, queue->areas[AREA_DESCRIPTORS] + queue->used % queue->size * DESCRIPTOR + 12, 2);
    return ((flags & AVAIL) != 0) == wrap && ((flags & USED) != 0) == wrap;
}

struct chain *queue_given_back(const struct queue *queue, const struct memory *memory, struct chain *chains)
{
    uint32_t id;
    if (queue->pending == 0 || !has_used(queue, memory, &id))
        return NULL;
    for (struct chain *chain = chains; chain < chains + queue->pending; chain++)
        if (chain->id == id)
            return chain;
    return NULL;
}

void queue_give_back(struct queue *queue, struct chain *chains, struct chain *chain)
{
    queue->used = place_behind(queue, queue->used, chain->members);
    queue->ahead -= chain->members;
    queue->pending--;
    memmove(chain, chain + 1, (size_t)(chains + queue->pending - chain) * sizeof *chain);
}
