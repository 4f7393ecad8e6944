/*
 * Two libraries of one toolchain in one program: this one, and a copy of it whose calls are named other_*, as
 * check-names makes it. This host has a heap of its own for the one, and the copy has its own over malloc.
 */
#include <stdio.h>
#include <stdlib.h>

#include "kalyubos.h"

uint32_t other_create(struct kalyubos *board, struct kalyubos_config *config);
uint32_t other_read(const struct kalyubos *board, uint8_t slot, uint8_t window, uint16_t offset, uint8_t width,
                    uint32_t *value);
uint32_t other_destroy(struct kalyubos *board);

static size_t asked, live;

struct kalyubos_block kalyubos_alloc(size_t size, size_t align)
{
    void *at = malloc(size != 0 ? size : align);
    asked++;
    live += at != NULL;
    return (struct kalyubos_block){ at != NULL, at };
}

struct kalyubos_block kalyubos_realloc(void *at, size_t kept, size_t size, size_t align)
{
    void *moved = realloc(at, size != 0 ? size : align);
    (void)kept;
    asked++;
    return (struct kalyubos_block){ moved != NULL, moved };
}

void kalyubos_dealloc(void *at)
{
    live--;
    free(at);
}

static void need(bool holds, const char *what)
{
    if (!holds) {
        fprintf(stderr, "two: %s\n", what);
        exit(1);
    }
}

int main(void)
{
    struct kalyubos_slot slot = { .size = sizeof slot, .regions = { { 0, 0x1000 } }, .hosted = true };
    struct kalyubos_config config = kalyubos_config_of(&slot, 1);
    struct kalyubos one = { NULL }, other = { NULL };
    uint32_t magic = 0, others = 0;
    need(kalyubos_create(&one, &config) == KALYUBOS_DONE && live != 0, "a board");
    size_t before = asked;
    need(other_create(&other, &config) == KALYUBOS_DONE, "the other library's board");
    need(kalyubos_read(&one, 0, KALYUBOS_BLOCK, 0, 4, &magic) == KALYUBOS_DONE, "a read");
    need(other_read(&other, 0, KALYUBOS_BLOCK, 0, 4, &others) == KALYUBOS_DONE && others == magic, "the other's read");
    need(other_destroy(&other) == KALYUBOS_DONE && asked == before, "a heap of its own");
    need(kalyubos_destroy(&one) == KALYUBOS_DONE && live == 0, "a block that is left");
    puts("two: this library and another of its toolchain in one program, each with its own heap");
    return 0;
}
