/* A heap over malloc. */
#include "calls.h"

#include <stdlib.h>

static uint64_t asked, returned, taken, first_refused;

void refuse_from(uint64_t n)
{
    asked = returned = 0;
    first_refused = n;
}

uint64_t requests(void)
{
    return asked;
}

uint64_t returns(void)
{
    return returned;
}

uint64_t blocks(void)
{
    return taken;
}

/* Whether the heap grants the next request. */
static bool grants(void)
{
    asked++;
    return first_refused == 0 || asked < first_refused;
}

struct kalyubos_block kalyubos_alloc(size_t size, size_t align)
{
    void *at = grants() ? malloc(size != 0 ? size : align) : NULL;
    taken += at != NULL;
    return (struct kalyubos_block){ at != NULL, at };
}

struct kalyubos_block kalyubos_realloc(void *at, size_t kept, size_t size, size_t align)
{
    (void)kept;
    void *moved = grants() ? realloc(at, size != 0 ? size : align) : NULL;
    return (struct kalyubos_block){ moved != NULL, moved };
}

void kalyubos_dealloc(void *at)
{
    returned++;
    taken -= at != NULL;
    free(at);
}
