/* The interrupt controller: six lines, one target (RISC-V Platform-Level Interrupt Controller, 1.0.0). */
#ifndef PLIC_H
#define PLIC_H

#include <stdbool.h>
#include <stdint.h>

/* Source 0 is none; the board's windows are 1 and on. */
enum { PLIC_SOURCES = 7 };

struct plic {
    uint32_t priority[PLIC_SOURCES];
    uint32_t enabled, high, claimed; /* a bit for each source */
    uint32_t threshold;
};

uint32_t plic_load(struct plic *plic, uint64_t offset);
void plic_store(struct plic *plic, uint64_t offset, uint32_t value);

/* Moves the line of a source. */
void plic_line(struct plic *plic, unsigned source, bool high);

/* Whether the target has an interrupt to take. */
bool plic_wants(const struct plic *plic);

#endif
