/*
 * place: vhost-user has a packed queue's position with its wrap counter above it, the library counts places twice around: in the
 * second turn the wrap counter is 0 (2.8.1).
 */
#include "place.h"

/* A packed queue's position, and its wrap counter behind it. */
enum { POSITION = 0x7fff, WRAP = 0x8000 };

static uint16_t of_base(const struct layout *layout, uint32_t base)
{
    if (!layout->is_packed)
        return (uint16_t)base;
    return (uint16_t)((base & POSITION) + ((base & WRAP) != 0 ? 0 : layout->num));
}

/* A packed queue has a place for the next chain and one for the next used entry, which is the same where nothing is in flight. */
static uint32_t base_of(const struct layout *layout, uint16_t place)
{
    if (!layout->is_packed)
        return place;
    uint32_t at = place < layout->num ? place | WRAP : place - layout->num;
    return at | at << 16;
}

const char *place_set(struct window *window, const struct layout *layout, uint32_t base)
{
    uint32_t answer = kalyubos_guest_set_place(&window->guest, KALYUBOS_BLOCK, 0, of_base(layout, base));
    return answer == KALYUBOS_DONE ? NULL : kalyubos_answer(answer);
}

uint32_t place_of_used(const struct mapping *mapping, const struct layout *layout)
{
    return __atomic_load_n((const uint16_t *)(mapping->base + layout->device) + 1, __ATOMIC_SEQ_CST);
}

uint32_t place_tell(const struct window *window, const struct mapping *mapping, const struct layout *layout, uint32_t begun)
{
    uint16_t place = 0;
    if (kalyubos_guest_place(&window->guest, KALYUBOS_BLOCK, 0, &place) == KALYUBOS_DONE)
        return base_of(layout, place);
    return layout->is_packed ? begun : place_of_used(mapping, layout);
}
