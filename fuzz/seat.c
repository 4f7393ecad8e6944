#include "sessions.h"

#include <stdlib.h>
#include <string.h>

#include "shut_heap.h"

void tell(struct told *told, const void *bytes, size_t len)
{
    if (told->len + len > told->room) {
        told->room = 2 * (told->len + len);
        told->bytes = realloc(told->bytes, told->room);
        need(told->bytes != NULL, "no memory", told->room);
    }
    if (len != 0)
        memcpy(told->bytes + told->len, bytes, len);
    told->len += len;
}

void tell_number(struct told *told, uint64_t number)
{
    tell(told, &number, sizeof number);
}

void tell_pending(struct told *told, const struct kalyubos_pending *pending)
{
    tell_number(told, pending->block);
    tell_number(told, pending->console);
    tell_number(told, pending->output);
}

uint64_t chance(struct seat *seat, uint64_t below)
{
    seat->state ^= seat->state << 13;
    seat->state ^= seat->state >> 7;
    seat->state ^= seat->state << 17;
    return (seat->state >> 11) % below;
}
