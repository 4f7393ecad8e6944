/*
 * A virtqueue as its device finds it (VIRTIO 1.2, 2.7 and 2.8): which chains are on offer, what they ask, and what no
 * driver may put there. It only reads, and it is none of the device's code.
 */
#ifndef QUEUE_H
#define QUEUE_H

#include <stdbool.h>
#include <stddef.h>
#include <stdint.h>

#include "memory.h"

/* The most places that a queue has, and the bytes that a block request begins with. */
enum { QUEUE_PLACES = 256, QUEUE_HEADER = 16 };

enum { AREA_DESCRIPTORS, AREA_DRIVER, AREA_DEVICE, AREAS };

struct queue {
    bool ready, packed, indirect;
    uint32_t size;
    uint64_t areas[AREAS];
    uint32_t place;    /* of the chain that is known next */
    uint32_t used;     /* of the used entry that is looked at next */
    uint32_t pending;  /* how many chains are known and not given back, */
    uint32_t ahead;    /* and how many places they take */
};

struct chain {
    const char *fault; /* what no driver may put there, or NULL */
    uint32_t place;    /* where it is on offer */
    uint32_t id;       /* what the device gives it back by: the head, or a packed list's buffer id */
    uint32_t members;  /* how many places it takes of a packed ring, and 1 of a split one */
    uint32_t buffers;
    uint64_t bytes;
    uint8_t header[QUEUE_HEADER]; /* the first bytes that the device reads */
    uint32_t header_len;
    bool is_writable;
    uint64_t last; /* the address of the last byte that the device may write, where there is one */
};

/* The chain whose first place this is. */
struct chain chain_at(const struct queue *queue, const struct memory *memory, uint32_t place);

/* The chains on offer that aren't known yet, in their order and up to the first with a fault; how many they are. There is room
 * for them behind those that are pending. */
size_t queue_offered(const struct queue *queue, const struct memory *memory, struct chain *chains);

/* Takes in the chains on offer behind those that are pending: `chains` has room for QUEUE_PLACES and one. What is wrong with the
 * first that can't be taken in, or NULL. */
const char *queue_take_in(struct queue *queue, const struct memory *memory, struct chain *chains);

/* The pending chain that the device gave back next, or NULL; queue_give_back then forgets it. */
struct chain *queue_given_back(const struct queue *queue, const struct memory *memory, struct chain *chains);
void queue_give_back(struct queue *queue, struct chain *chains, struct chain *chain);

/* Bytes of the memory as a number, or 0 where they lie outside. */
uint64_t queue_number(const struct memory *memory, uint64_t addr, unsigned count);

#endif
