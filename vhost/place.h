/* place: where a queue stands, as vhost-user has it and as the library has it. */
#ifndef PLACE_H
#define PLACE_H

#include "window.h"

/* Puts a queue that begins to a place, as SET_VRING_BASE has it: NULL where it is done, else why not. */
const char *place_set(struct window *window, const struct layout *layout, uint32_t base);
/*
 * Where a queue stands of which nothing is in flight. The library tells no place of a queue that asks for a reset: then it is that of
 * its driver's memory, or where a packed one began.
 */
uint32_t place_tell(const struct window *window, const struct mapping *mapping, const struct layout *layout, uint32_t begun);
/* Where a split queue stands by its driver's memory: the used idx. */
uint32_t place_of_used(const struct mapping *mapping, const struct layout *layout);

#endif
