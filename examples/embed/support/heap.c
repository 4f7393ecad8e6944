/*
 * The board's heap over malloc. `malloc` aligns to 16, which is all that the board asks for. Blocks of whole pages, as
 * guests' memories are, begin at a page, so that they can be mapped where a guest runs.
 */
#include <stdlib.h>

#include "kalyubos.h"

enum { PAGE = 4096 };

struct kalyubos_block kalyubos_alloc(size_t size, size_t align)
{
    void *at = size != 0 && size % PAGE == 0 ? aligned_alloc(PAGE, size) : malloc(size != 0 ? size : align);
    return (struct kalyubos_block){ at != NULL, at };
}

struct kalyubos_block kalyubos_realloc(void *at, size_t kept, size_t size, size_t align)
{
    void *moved = realloc(at, size != 0 ? size : align);
    (void)kept;
    return (struct kalyubos_block){ moved != NULL, moved };
}

void kalyubos_dealloc(void *at)
{
    free(at);
}
