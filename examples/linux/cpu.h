/*
 * A RISC-V CPU: RV64IMA in modes S and U with Sv39, little-endian, on a little-endian host. Mode M is the machine
 * round it, which answers what mode S asks by ecall. Traps all go to mode S.
 */
#ifndef CPU_H
#define CPU_H

#include <stdbool.h>
#include <stdint.h>

#include "memory.h"

enum { CPU_TIMER_INTERRUPT = 5, CPU_EXTERNAL_INTERRUPT = 9 };

/* One tick of the time register is so many cycles. */
enum { CYCLES_PER_TICK = 10 };

enum cpu_access { CPU_FETCH, CPU_LOAD, CPU_STORE, CPU_ACCESSES };

/* Who accesses: mode U, mode S, or mode S while it may look at what is the user's. */
enum cpu_context { CPU_USER, CPU_SUPERVISOR, CPU_SUPERVISOR_SUM, CPU_CONTEXTS };

/* What lies outside of memory: false where nothing is there. `call` is an ecall of mode S. */
struct cpu_bus {
    void *machine;
    bool (*load)(void *machine, uint64_t addr, unsigned width, uint64_t *value);
    bool (*store)(void *machine, uint64_t addr, unsigned width, uint64_t value);
    void (*call)(void *machine);
};

enum { CPU_TLB = 256 };

/* A page that was translated: its virtual address, and where the host has it. */
struct cpu_translation {
    uint64_t page;
    uint8_t *host;
};

struct cpu {
    uint64_t x[32];
    uint64_t pc;
    uint64_t next;    /* the pc after this instruction */
    uint64_t cycles;  /* one for each instruction, and those that passed while it waited */
    uint64_t stop_at; /* cpu_run returns there */
    bool user;
    bool waits; /* for an interrupt, by WFI */
    enum cpu_context context;
    uint64_t sstatus, sie, sip, stvec, scounteren, sscratch, sepc, scause, stval, satp;
    uint64_t reservation; /* the address of the last LR, or all ones */
    struct memory memory;
    struct cpu_bus bus;
    struct cpu_translation tlb[CPU_CONTEXTS][CPU_ACCESSES][CPU_TLB];
};

/* A CPU in mode S, untranslated, at an address. */
void cpu_reset(struct cpu *cpu, uint64_t pc);

/* Goes on as another CPU did, in this one's memory and on its bus. */
void cpu_resume(struct cpu *cpu, const struct cpu *other);

/* Runs instructions until `cycles` is `stop_at`, or until it waits. */
void cpu_run(struct cpu *cpu);

/* Raises an interrupt line, or lowers it. */
void cpu_line(struct cpu *cpu, unsigned interrupt, bool high);

#endif
