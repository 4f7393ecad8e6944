/* The interrupt controller of plic.h. A source is pending while its line is high and nobody has claimed it. */
#include "plic.h"

enum { PENDING = 0x1000, ENABLED = 0x2000, THRESHOLD = 0x200000, CLAIM = 0x200004 };

static uint32_t pending(const struct plic *plic)
{
    return plic->high & ~plic->claimed;
}

/* The source to take first: the one of the highest priority, of equal ones the lowest number; 0 is none. */
static unsigned first(const struct plic *plic)
{
    unsigned found = 0;
    for (unsigned source = 1; source < PLIC_SOURCES; source++)
        if ((pending(plic) & plic->enabled) >> source & 1 && plic->priority[source] > plic->priority[found])
            found = source;
    return found;
}

bool plic_wants(const struct plic *plic)
{
    return plic->priority[first(plic)] > plic->threshold;
}

static uint32_t claim(struct plic *plic)
{
    unsigned source = first(plic);
    plic->claimed |= (uint32_t)1 << source & ~(uint32_t)1;
    return source;
}

uint32_t plic_load(struct plic *plic, uint64_t offset)
{
    switch (offset) {
    case PENDING: return pending(plic);
    case ENABLED: return plic->enabled;
    case THRESHOLD: return plic->threshold;
    case CLAIM: return claim(plic);
    default: return offset / 4 < PLIC_SOURCES ? plic->priority[offset / 4] : 0;
    }
}

void plic_store(struct plic *plic, uint64_t offset, uint32_t value)
{
    switch (offset) {
    case ENABLED: plic->enabled = value & ~(uint32_t)1; break;
    case THRESHOLD: plic->threshold = value; break;
    case CLAIM: plic->claimed &= value < PLIC_SOURCES ? ~((uint32_t)1 << value) : ~(uint32_t)0; break;
    default:
        if (offset / 4 > 0 && offset / 4 < PLIC_SOURCES)
            plic->priority[offset / 4] = value;
    }
}

void plic_line(struct plic *plic, unsigned source, bool high)
{
    uint32_t bit = (uint32_t)1 << source;
    plic->high = high ? plic->high | bit : plic->high & ~bit;
}
