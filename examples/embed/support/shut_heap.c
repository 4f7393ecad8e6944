#include "shut_heap.h"

#include <inttypes.h>
#include <stdio.h>
#include <stdlib.h>

static uint64_t live;
static bool is_open, is_full;

void need(bool holds, const char *what, uint64_t number)
{
    if (holds)
        return;
    fprintf(stderr, "%s (%" PRIu64 ")\n", what, number);
    exit(1);
}

struct kalyubos_block kalyubos_alloc(size_t size, size_t align)
{
    need(is_open, "a call asks the heap for memory", size);
    void *at = is_full ? NULL : malloc(size != 0 ? size : align);
    live += at != NULL;
    return (struct kalyubos_block){ at != NULL, at };
}

struct kalyubos_block kalyubos_realloc(void *at, size_t kept, size_t size, size_t align)
{
    need(is_open, "a call resizes a block", kept);
    void *moved = is_full ? NULL : realloc(at, size != 0 ? size : align);
    return (struct kalyubos_block){ moved != NULL, moved };
}

void kalyubos_dealloc(void *at)
{
    need(is_open, "a call gives a block back", live);
    live -= at != NULL;
    free(at);
}

struct kalyubos_config over_image(const struct kalyubos_slot *slots, size_t count, const uint8_t *image,
                                  size_t image_len)
{
    struct kalyubos_config config = kalyubos_config_of(slots, count);
    config.image = image;
    config.image_len = image_len;
    return config;
}

uint32_t create(struct kalyubos *board, struct kalyubos_config *config)
{
    is_open = true;
    uint32_t answer = kalyubos_create(board, config);
    is_open = false;
    return answer;
}

void make(struct kalyubos *board, struct kalyubos_config config)
{
    need(create(board, &config) == KALYUBOS_DONE, "create", config.slots_len);
}

uint32_t judge(enum heap heap, const struct kalyubos_config *config, struct place *place)
{
    uint64_t before = live;
    is_open = true;
    is_full = heap == FULL;
    uint32_t answer = kalyubos_judge(config, &place->slot, &place->region);
    is_open = is_full = false;
    need(live == before, "blocks are kept by a judgement", live);
    return answer;
}

void end(struct kalyubos *board)
{
    end_all(board, 1);
}

void end_all(struct kalyubos *boards, size_t count)
{
    is_open = true;
    for (size_t i = 0; i < count; i++)
        need(kalyubos_destroy(&boards[i]) == KALYUBOS_DONE, "destroy", i);
    is_open = false;
    need(live == 0, "blocks are left", live);
}
