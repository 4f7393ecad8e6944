/* The CPU of cpu.h, after the RISC-V manuals (unprivileged 20191213, privileged 20211203). */
#include "cpu.h"

#include <string.h>

enum cause {
    FETCH_MISALIGNED = 0, FETCH_FAULT = 1, ILLEGAL = 2, BREAKPOINT = 3, LOAD_MISALIGNED = 4, LOAD_FAULT = 5,
    STORE_MISALIGNED = 6, STORE_FAULT = 7, USER_CALL = 8, FETCH_PAGE = 12, LOAD_PAGE = 13, STORE_PAGE = 15
};

static const uint64_t INTERRUPT = (uint64_t)1 << 63, NONE = ~(uint64_t)0;

/* Bits of sstatus. */
static const uint64_t SIE = 1 << 1, SPIE = 1 << 5, SPP = 1 << 8, SUM = 1 << 18, MXR = 1 << 19;
static const uint64_t UXL_64 = (uint64_t)2 << 32;

/* Bits of a page table's entry. */
enum { VALID = 1, READ = 2, WRITE = 4, EXECUTE = 8, USER = 16, ACCESSED = 64, DIRTY = 128 };

static const uint64_t SATP_SV39 = (uint64_t)8 << 60, PPN = ((uint64_t)1 << 44) - 1;

/* The interrupts that mode S knows: software, timer, external. */
static const uint64_t INTERRUPTS = 1 << 1 | 1 << CPU_TIMER_INTERRUPT | 1 << CPU_EXTERNAL_INTERRUPT;

/* ---- modes and traps */

static void forget_translations(struct cpu *cpu)
{
    memset(cpu->tlb, 0xff, sizeof cpu->tlb);
}

static void set_mode(struct cpu *cpu, bool user)
{
    cpu->user = user;
    cpu->context = user ? CPU_USER : cpu->sstatus & SUM ? CPU_SUPERVISOR_SUM : CPU_SUPERVISOR;
}

static void trap(struct cpu *cpu, uint64_t cause, uint64_t value)
{
    uint64_t status = cpu->sstatus & ~(SIE | SPIE | SPP);
    if (cpu->sstatus & SIE)
        status |= SPIE;
    if (!cpu->user)
        status |= SPP;
    cpu->sstatus = status;
    cpu->scause = cause;
    cpu->stval = value;
    cpu->sepc = cpu->pc;
    cpu->next = cpu->stvec;
    cpu->reservation = NONE;
    set_mode(cpu, false);
}

static void return_from_trap(struct cpu *cpu)
{
    bool user = !(cpu->sstatus & SPP);
    uint64_t status = cpu->sstatus & ~(SIE | SPP);
    if (cpu->sstatus & SPIE)
        status |= SIE;
    cpu->sstatus = status | SPIE;
    cpu->next = cpu->sepc;
    set_mode(cpu, user);
}

/* Takes the first interrupt that is pending and enabled, where interrupts are on. */
static bool interrupted(struct cpu *cpu)
{
    uint64_t pending = cpu->sip & cpu->sie;
    if (pending == 0 || !(cpu->user || cpu->sstatus & SIE))
        return false;
    /* External, software, timer: the order of the privileged manual, 3.1.9. */
    unsigned first = pending >> CPU_EXTERNAL_INTERRUPT & 1 ? CPU_EXTERNAL_INTERRUPT
                     : pending >> 1 & 1                    ? 1
                                                           : CPU_TIMER_INTERRUPT;
    trap(cpu, INTERRUPT | first, 0);
    cpu->pc = cpu->next;
    return true;
}

void cpu_line(struct cpu *cpu, unsigned interrupt, bool high)
{
    uint64_t bit = (uint64_t)1 << interrupt;
    cpu->sip = high ? cpu->sip | bit : cpu->sip & ~bit;
}

/* ---- memory */

static bool page_fault(struct cpu *cpu, enum cpu_access access, uint64_t addr)
{
    static const enum cause causes[] = { FETCH_PAGE, LOAD_PAGE, STORE_PAGE };
    trap(cpu, causes[access], addr);
    return false;
}

static bool access_fault(struct cpu *cpu, enum cpu_access access, uint64_t addr)
{
    static const enum cause causes[] = { FETCH_FAULT, LOAD_FAULT, STORE_FAULT };
    trap(cpu, causes[access], addr);
    return false;
}

static bool may_access(const struct cpu *cpu, uint64_t entry, enum cpu_access access)
{
    if (!(entry & ACCESSED) || (access == CPU_STORE && !(entry & DIRTY)))
        return false;
    if (entry & USER ? !cpu->user && (access == CPU_FETCH || !(cpu->sstatus & SUM)) : cpu->user)
        return false;
    if (access == CPU_FETCH)
        return entry & EXECUTE;
    if (access == CPU_STORE)
        return entry & WRITE;
    return entry & READ || (entry & EXECUTE && cpu->sstatus & MXR);
}

/* The physical address of a virtual one (4.3.2, Sv39), or a trap. */
static bool translate(struct cpu *cpu, uint64_t addr, enum cpu_access access, uint64_t *physical)
{
    *physical = addr;
    if (cpu->satp == 0)
        return true;
    if ((uint64_t)((int64_t)(addr << 25) >> 25) != addr)
        return page_fault(cpu, access, addr);
    uint64_t table = (cpu->satp & PPN) << 12;
    for (unsigned shift = 30;; shift -= 9) {
        uint64_t entry;
        uint8_t *at = memory_at(&cpu->memory, table + (addr >> shift & 511) * 8, 8);
        if (at == NULL)
            return access_fault(cpu, access, addr);
        memcpy(&entry, at, 8);
        if (!(entry & VALID) || (entry & (READ | WRITE)) == WRITE)
            return page_fault(cpu, access, addr);
        table = (entry >> 10 & PPN) << 12;
        if (entry & (READ | EXECUTE)) {
            uint64_t within = ((uint64_t)1 << shift) - 1;
            *physical = (table & ~within) | (addr & within);
            return (may_access(cpu, entry, access) && (table & within) == 0) || page_fault(cpu, access, addr);
        }
        if (shift == 12)
            return page_fault(cpu, access, addr);
    }
}

/* Where the host has a virtual address; NULL where it isn't in memory, `physical` then says where it lies. */
static bool find(struct cpu *cpu, uint64_t addr, enum cpu_access access, uint8_t **host, uint64_t *physical)
{
    if (!translate(cpu, addr, access, physical))
        return false;
    *host = memory_at(&cpu->memory, *physical, 1);
    if (*host != NULL)
        cpu->tlb[cpu->context][access][addr >> 12 & (CPU_TLB - 1)] =
            (struct cpu_translation){ addr & ~(uint64_t)0xfff, *host - (addr & 0xfff) };
    return true;
}

/* Where the host has it, by what was translated before. */
static inline uint8_t *known(const struct cpu *cpu, uint64_t addr, enum cpu_access access, unsigned width)
{
    const struct cpu_translation *found = &cpu->tlb[cpu->context][access][addr >> 12 & (CPU_TLB - 1)];
    bool within = (addr & 0xfff) + width <= 0x1000;
    return found->page == (addr & ~(uint64_t)0xfff) && within ? found->host + (addr & 0xfff) : NULL;
}

static bool load(struct cpu *cpu, uint64_t addr, unsigned width, uint64_t *value);
static bool store(struct cpu *cpu, uint64_t addr, unsigned width, uint64_t value);

/* An access over a page's end is made byte by byte. */
static bool load_bytes(struct cpu *cpu, uint64_t addr, unsigned width, uint64_t *value)
{
    *value = 0;
    for (unsigned i = 0; i < width; i++) {
        uint64_t byte;
        if (!load(cpu, addr + i, 1, &byte))
            return false;
        *value |= byte << 8 * i;
    }
    return true;
}

static bool store_bytes(struct cpu *cpu, uint64_t addr, unsigned width, uint64_t value)
{
    for (unsigned i = 0; i < width; i++)
        if (!store(cpu, addr + i, 1, value >> 8 * i & 0xff))
            return false;
    return true;
}

static bool load_slowly(struct cpu *cpu, uint64_t addr, unsigned width, uint64_t *value)
{
    uint8_t *host;
    uint64_t physical;
    if ((addr & 0xfff) + width > 0x1000)
        return load_bytes(cpu, addr, width, value);
    if (!find(cpu, addr, CPU_LOAD, &host, &physical))
        return false;
    *value = 0;
    if (host == NULL)
        return cpu->bus.load(cpu->bus.machine, physical, width, value) || access_fault(cpu, CPU_LOAD, addr);
    memcpy(value, host, width);
    return true;
}

static bool store_slowly(struct cpu *cpu, uint64_t addr, unsigned width, uint64_t value)
{
    uint8_t *host;
    uint64_t physical;
    if ((addr & 0xfff) + width > 0x1000)
        return store_bytes(cpu, addr, width, value);
    if (!find(cpu, addr, CPU_STORE, &host, &physical))
        return false;
    if (host == NULL)
        return cpu->bus.store(cpu->bus.machine, physical, width, value) || access_fault(cpu, CPU_STORE, addr);
    memcpy(host, &value, width);
    return true;
}

/* The bytes at an address, extended by zeros; false after a trap. */
static inline bool load(struct cpu *cpu, uint64_t addr, unsigned width, uint64_t *value)
{
    const uint8_t *host = known(cpu, addr, CPU_LOAD, width);
    if (host == NULL)
        return load_slowly(cpu, addr, width, value);
    *value = 0;
    memcpy(value, host, width);
    return true;
}

static inline bool store(struct cpu *cpu, uint64_t addr, unsigned width, uint64_t value)
{
    uint8_t *host = known(cpu, addr, CPU_STORE, width);
    if (host == NULL)
        return store_slowly(cpu, addr, width, value);
    memcpy(host, &value, width);
    return true;
}

static inline bool fetch(struct cpu *cpu, uint32_t *word)
{
    uint64_t physical;
    uint8_t *host = known(cpu, cpu->pc, CPU_FETCH, 4);
    if (host == NULL && !find(cpu, cpu->pc, CPU_FETCH, &host, &physical))
        return false;
    if (host == NULL)
        return access_fault(cpu, CPU_FETCH, cpu->pc);
    memcpy(word, host, 4);
    return true;
}

/* ---- the fields of an instruction */

static unsigned rd_of(uint32_t word) { return word >> 7 & 31; }
static unsigned rs1_of(uint32_t word) { return word >> 15 & 31; }
static unsigned rs2_of(uint32_t word) { return word >> 20 & 31; }
static unsigned funct3_of(uint32_t word) { return word >> 12 & 7; }
static unsigned funct7_of(uint32_t word) { return word >> 25; }

static uint64_t extended(uint64_t value, unsigned bits)
{
    return (uint64_t)((int64_t)(value << (64 - bits)) >> (64 - bits));
}

static uint64_t immediate_i(uint32_t word) { return extended(word >> 20, 12); }
static uint64_t immediate_s(uint32_t word) { return extended((word >> 25) << 5 | rd_of(word), 12); }
static uint64_t immediate_u(uint32_t word) { return extended(word & 0xfffff000, 32); }

static uint64_t immediate_b(uint32_t word)
{
    return extended((word >> 31) << 12 | (word >> 7 & 1) << 11 | (word >> 25 & 63) << 5 | (word >> 8 & 15) << 1, 13);
}

static uint64_t immediate_j(uint32_t word)
{
    uint32_t high = (word >> 31) << 20 | (word >> 12 & 255) << 12;
    return extended(high | (word >> 20 & 1) << 11 | (word >> 21 & 1023) << 1, 21);
}

static void illegal(struct cpu *cpu, uint32_t word)
{
    trap(cpu, ILLEGAL, word);
}

/* ---- arithmetic */

static uint64_t arithmetic(unsigned funct3, bool other, uint64_t a, uint64_t b)
{
    switch (funct3) {
    case 0: return other ? a - b : a + b;
    case 1: return a << (b & 63);
    case 2: return (int64_t)a < (int64_t)b;
    case 3: return a < b;
    case 4: return a ^ b;
    case 5: return other ? (uint64_t)((int64_t)a >> (b & 63)) : a >> (b & 63);
    case 6: return a | b;
    default: return a & b;
    }
}

static uint64_t arithmetic_32(unsigned funct3, bool other, uint32_t a, uint32_t b)
{
    switch (funct3) {
    case 0: return extended(other ? a - b : a + b, 32);
    case 1: return extended(a << (b & 31), 32);
    default: return extended(other ? (uint32_t)((int32_t)a >> (b & 31)) : a >> (b & 31), 32);
    }
}

/* Division by zero and the one overflow have answers (unprivileged manual, 7.2). */
static uint64_t quotient(int64_t a, int64_t b)
{
    return b == 0 ? NONE : b == -1 ? -(uint64_t)a : (uint64_t)(a / b);
}

static uint64_t remainder_of(int64_t a, int64_t b)
{
    return b == 0 ? (uint64_t)a : b == -1 ? 0 : (uint64_t)(a % b);
}

static uint64_t multiplication(unsigned funct3, uint64_t a, uint64_t b)
{
    switch (funct3) {
    case 0: return a * b;
    case 1: return (__int128)(int64_t)a * (int64_t)b >> 64;
    case 2: return (__int128)(int64_t)a * (unsigned __int128)b >> 64;
    case 3: return (unsigned __int128)a * b >> 64;
    case 4: return quotient(a, b);
    case 5: return b == 0 ? NONE : a / b;
    case 6: return remainder_of(a, b);
    default: return b == 0 ? a : a % b;
    }
}

static uint64_t multiplication_32(unsigned funct3, uint32_t a, uint32_t b)
{
    switch (funct3) {
    case 0: return extended(a * b, 32);
    case 4: return extended(quotient((int32_t)a, (int32_t)b), 32);
    case 5: return extended(b == 0 ? NONE : a / b, 32);
    case 6: return extended(remainder_of((int32_t)a, (int32_t)b), 32);
    default: return extended(b == 0 ? a : a % b, 32);
    }
}

static void execute_registers(struct cpu *cpu, uint32_t word)
{
    uint64_t a = cpu->x[rs1_of(word)], b = cpu->x[rs2_of(word)];
    unsigned funct3 = funct3_of(word), funct7 = funct7_of(word);
    if (funct7 == 1)
        cpu->x[rd_of(word)] = multiplication(funct3, a, b);
    else if (funct7 == 0 || (funct7 == 0x20 && (funct3 == 0 || funct3 == 5)))
        cpu->x[rd_of(word)] = arithmetic(funct3, funct7 != 0, a, b);
    else
        illegal(cpu, word);
}

static void execute_registers_32(struct cpu *cpu, uint32_t word)
{
    uint32_t a = cpu->x[rs1_of(word)], b = cpu->x[rs2_of(word)];
    unsigned funct3 = funct3_of(word), funct7 = funct7_of(word);
    if (funct7 == 1 && (funct3 == 0 || funct3 >= 4))
        cpu->x[rd_of(word)] = multiplication_32(funct3, a, b);
    else if ((funct7 == 0 && (funct3 <= 1 || funct3 == 5)) || (funct7 == 0x20 && (funct3 == 0 || funct3 == 5)))
        cpu->x[rd_of(word)] = arithmetic_32(funct3, funct7 != 0, a, b);
    else
        illegal(cpu, word);
}

static void execute_immediate(struct cpu *cpu, uint32_t word)
{
    unsigned funct3 = funct3_of(word), funct6 = word >> 26;
    bool other = funct3 == 5 && funct6 == 0x10;
    if ((funct3 == 1 && funct6 != 0) || (funct3 == 5 && funct6 != 0 && !other))
        illegal(cpu, word);
    else
        cpu->x[rd_of(word)] = arithmetic(funct3, other, cpu->x[rs1_of(word)], immediate_i(word));
}

static void execute_immediate_32(struct cpu *cpu, uint32_t word)
{
    unsigned funct3 = funct3_of(word), funct7 = funct7_of(word);
    bool other = funct3 == 5 && funct7 == 0x20;
    if (funct3 == 0 || ((funct3 == 1 || funct3 == 5) && (funct7 == 0 || other)))
        cpu->x[rd_of(word)] = arithmetic_32(funct3, other, cpu->x[rs1_of(word)], immediate_i(word));
    else
        illegal(cpu, word);
}

/* ---- loads, stores, jumps */

static void execute_load(struct cpu *cpu, uint32_t word)
{
    uint64_t addr = cpu->x[rs1_of(word)] + immediate_i(word), value = 0;
    bool loaded;
    switch (funct3_of(word)) {
    case 0: loaded = load(cpu, addr, 1, &value); value = extended(value, 8); break;
    case 1: loaded = load(cpu, addr, 2, &value); value = extended(value, 16); break;
    case 2: loaded = load(cpu, addr, 4, &value); value = extended(value, 32); break;
    case 3: loaded = load(cpu, addr, 8, &value); break;
    case 4: loaded = load(cpu, addr, 1, &value); break;
    case 5: loaded = load(cpu, addr, 2, &value); break;
    case 6: loaded = load(cpu, addr, 4, &value); break;
    default: illegal(cpu, word); return;
    }
    if (loaded)
        cpu->x[rd_of(word)] = value;
}

static void execute_store(struct cpu *cpu, uint32_t word)
{
    uint64_t addr = cpu->x[rs1_of(word)] + immediate_s(word), value = cpu->x[rs2_of(word)];
    switch (funct3_of(word)) {
    case 0: store(cpu, addr, 1, value); break;
    case 1: store(cpu, addr, 2, value); break;
    case 2: store(cpu, addr, 4, value); break;
    case 3: store(cpu, addr, 8, value); break;
    default: illegal(cpu, word);
    }
}

/* False where the target isn't aligned. */
static bool jump(struct cpu *cpu, uint64_t target)
{
    if (target & 3) {
        trap(cpu, FETCH_MISALIGNED, target);
        return false;
    }
    cpu->next = target;
    return true;
}

static void execute_jump(struct cpu *cpu, uint32_t word, uint64_t target)
{
    uint64_t link = cpu->pc + 4;
    if (jump(cpu, target))
        cpu->x[rd_of(word)] = link;
}

static void execute_branch(struct cpu *cpu, uint32_t word)
{
    uint64_t a = cpu->x[rs1_of(word)], b = cpu->x[rs2_of(word)];
    bool taken;
    switch (funct3_of(word)) {
    case 0: taken = a == b; break;
    case 1: taken = a != b; break;
    case 4: taken = (int64_t)a < (int64_t)b; break;
    case 5: taken = (int64_t)a >= (int64_t)b; break;
    case 6: taken = a < b; break;
    case 7: taken = a >= b; break;
    default: illegal(cpu, word); return;
    }
    if (taken)
        jump(cpu, cpu->pc + immediate_b(word));
}

/* ---- atomics */

static bool atomic_result(unsigned funct5, uint64_t old, uint64_t value, uint64_t *result)
{
    bool is_less = old < value, is_signed_less = (int64_t)old < (int64_t)value;
    switch (funct5) {
    case 0x00: *result = old + value; return true;
    case 0x01: *result = value; return true;
    case 0x04: *result = old ^ value; return true;
    case 0x08: *result = old | value; return true;
    case 0x0c: *result = old & value; return true;
    case 0x10: *result = is_signed_less ? old : value; return true;
    case 0x14: *result = is_signed_less ? value : old; return true;
    case 0x18: *result = is_less ? old : value; return true;
    case 0x1c: *result = is_less ? value : old; return true;
    default: return false;
    }
}

/* A load that faults as the store would that comes after it. */
static bool load_to_modify(struct cpu *cpu, uint64_t addr, unsigned width, uint64_t *value)
{
    uint64_t physical;
    uint8_t *host = known(cpu, addr, CPU_STORE, width);
    if (host == NULL && !find(cpu, addr, CPU_STORE, &host, &physical))
        return false;
    if (host == NULL)
        return access_fault(cpu, CPU_STORE, addr);
    *value = 0;
    memcpy(value, host, width);
    return true;
}

static void execute_modify(struct cpu *cpu, uint32_t word, uint64_t addr, unsigned width)
{
    uint64_t old, result;
    uint64_t value = extended(cpu->x[rs2_of(word)], 8 * width);
    if (!load_to_modify(cpu, addr, width, &old))
        return;
    old = extended(old, 8 * width);
    if (!atomic_result(word >> 27, old, value, &result))
        illegal(cpu, word);
    else if (store(cpu, addr, width, result))
        cpu->x[rd_of(word)] = old;
}

static void execute_conditional(struct cpu *cpu, uint32_t word, uint64_t addr, unsigned width)
{
    bool holds = cpu->reservation == addr;
    cpu->reservation = NONE;
    if (!holds || store(cpu, addr, width, cpu->x[rs2_of(word)]))
        cpu->x[rd_of(word)] = !holds;
}

static void execute_atomic(struct cpu *cpu, uint32_t word)
{
    uint64_t addr = cpu->x[rs1_of(word)], value;
    unsigned funct3 = funct3_of(word), funct5 = word >> 27, width = funct3 == 2 ? 4 : 8;
    if (funct3 != 2 && funct3 != 3) {
        illegal(cpu, word);
    } else if (addr % width != 0) {
        trap(cpu, funct5 == 2 ? LOAD_MISALIGNED : STORE_MISALIGNED, addr);
    } else if (funct5 == 2) {
        if (load(cpu, addr, width, &value)) {
            cpu->reservation = addr;
            cpu->x[rd_of(word)] = extended(value, 8 * width);
        }
    } else if (funct5 == 3) {
        execute_conditional(cpu, word, addr, width);
    } else {
        execute_modify(cpu, word, addr, width);
    }
}

/* ---- control and status registers */

static bool may_count(const struct cpu *cpu, unsigned number)
{
    return !cpu->user || cpu->scounteren >> (number & 31) & 1;
}

static bool read_register(const struct cpu *cpu, unsigned number, uint64_t *value)
{
    switch (number) {
    case 0x100: *value = cpu->sstatus | UXL_64; return true;
    case 0x104: *value = cpu->sie; return true;
    case 0x105: *value = cpu->stvec; return true;
    case 0x106: *value = cpu->scounteren; return true;
    case 0x140: *value = cpu->sscratch; return true;
    case 0x141: *value = cpu->sepc; return true;
    case 0x142: *value = cpu->scause; return true;
    case 0x143: *value = cpu->stval; return true;
    case 0x144: *value = cpu->sip; return true;
    case 0x180: *value = cpu->satp; return true;
    case 0xc00: *value = cpu->cycles; return may_count(cpu, number);
    case 0xc01: *value = cpu->cycles / CYCLES_PER_TICK; return may_count(cpu, number);
    case 0xc02: *value = cpu->cycles; return may_count(cpu, number);
    default: return false;
    }
}

static void write_status(struct cpu *cpu, uint64_t value)
{
    bool moved = (cpu->sstatus ^ value) & MXR;
    cpu->sstatus = value & (SIE | SPIE | SPP | SUM | MXR);
    if (moved)
        forget_translations(cpu);
    set_mode(cpu, cpu->user);
}

/* Of the modes of translation there are none and Sv39; another leaves the register as it was. */
static void write_translation(struct cpu *cpu, uint64_t value)
{
    if (value >> 60 == 0)
        cpu->satp = 0;
    else if (value >> 60 == SATP_SV39 >> 60)
        cpu->satp = SATP_SV39 | (value & PPN);
    forget_translations(cpu);
}

static bool write_register(struct cpu *cpu, unsigned number, uint64_t value)
{
    switch (number) {
    case 0x100: write_status(cpu, value); return true;
    case 0x104: cpu->sie = value & INTERRUPTS; return true;
    case 0x105: cpu->stvec = value & ~(uint64_t)3; return true;
    case 0x106: cpu->scounteren = value & 7; return true;
    case 0x140: cpu->sscratch = value; return true;
    case 0x141: cpu->sepc = value & ~(uint64_t)3; return true;
    case 0x142: cpu->scause = value; return true;
    case 0x143: cpu->stval = value; return true;
    case 0x144: cpu->sip = (cpu->sip & ~(uint64_t)2) | (value & 2); return true;
    case 0x180: write_translation(cpu, value); return true;
    default: return false;
    }
}

static void execute_register(struct cpu *cpu, uint32_t word)
{
    unsigned number = word >> 20, funct3 = funct3_of(word), first = rs1_of(word);
    uint64_t old = 0, operand = funct3 & 4 ? first : cpu->x[first];
    bool writes = (funct3 & 3) == 1 || first != 0;
    bool allowed = !(cpu->user && (number >> 8 & 3) != 0) && read_register(cpu, number, &old);
    uint64_t value = (funct3 & 3) == 1 ? operand : (funct3 & 3) == 2 ? old | operand : old & ~operand;
    if (allowed && (!writes || write_register(cpu, number, value)))
        cpu->x[rd_of(word)] = old;
    else
        illegal(cpu, word);
}

static void execute_call(struct cpu *cpu)
{
    if (cpu->user)
        trap(cpu, USER_CALL, 0);
    else
        cpu->bus.call(cpu->bus.machine);
}

static void execute_privileged(struct cpu *cpu, uint32_t word)
{
    if (word == 0x00000073)
        execute_call(cpu);
    else if (word == 0x00100073)
        trap(cpu, BREAKPOINT, cpu->pc);
    else if (cpu->user)
        illegal(cpu, word);
    else if (word == 0x10200073)
        return_from_trap(cpu);
    else if (word == 0x10500073)
        cpu->waits = (cpu->sip & cpu->sie) == 0;
    else if (funct7_of(word) == 9 && rd_of(word) == 0)
        forget_translations(cpu);
    else
        illegal(cpu, word);
}

static void execute_system(struct cpu *cpu, uint32_t word)
{
    if (funct3_of(word) == 0)
        execute_privileged(cpu, word);
    else if (funct3_of(word) == 4)
        illegal(cpu, word);
    else
        execute_register(cpu, word);
}

/* ---- running */

static inline void execute(struct cpu *cpu, uint32_t word)
{
    switch (word & 0x7f) {
    case 0x03: execute_load(cpu, word); break;
    case 0x0f: break; /* FENCE, FENCE.I: nothing is held back */
    case 0x13: execute_immediate(cpu, word); break;
    case 0x17: cpu->x[rd_of(word)] = cpu->pc + immediate_u(word); break;
    case 0x1b: execute_immediate_32(cpu, word); break;
    case 0x23: execute_store(cpu, word); break;
    case 0x2f: execute_atomic(cpu, word); break;
    case 0x33: execute_registers(cpu, word); break;
    case 0x37: cpu->x[rd_of(word)] = immediate_u(word); break;
    case 0x3b: execute_registers_32(cpu, word); break;
    case 0x63: execute_branch(cpu, word); break;
    case 0x67:
        if (funct3_of(word) == 0)
            execute_jump(cpu, word, (cpu->x[rs1_of(word)] + immediate_i(word)) & ~(uint64_t)1);
        else
            illegal(cpu, word);
        break;
    case 0x6f: execute_jump(cpu, word, cpu->pc + immediate_j(word)); break;
    case 0x73: execute_system(cpu, word); break;
    default: illegal(cpu, word);
    }
}

void cpu_run(struct cpu *cpu)
{
    if (cpu->sip & cpu->sie)
        cpu->waits = false;
    while (cpu->cycles < cpu->stop_at && !cpu->waits) {
        uint32_t word;
        if (cpu->sip & cpu->sie && interrupted(cpu))
            continue;
        cpu->next = cpu->pc + 4;
        cpu->cycles++;
        if (fetch(cpu, &word))
            execute(cpu, word);
        cpu->x[0] = 0;
        cpu->pc = cpu->next;
    }
}

void cpu_reset(struct cpu *cpu, uint64_t pc)
{
    memset(cpu->x, 0, sizeof cpu->x);
    cpu->pc = pc;
    cpu->cycles = 0;
    cpu->waits = false;
    cpu->sstatus = cpu->sie = cpu->sip = cpu->stvec = cpu->scounteren = 0;
    cpu->sscratch = cpu->sepc = cpu->scause = cpu->stval = cpu->satp = 0;
    cpu->reservation = NONE;
    forget_translations(cpu);
    set_mode(cpu, false);
}

void cpu_resume(struct cpu *cpu, const struct cpu *other)
{
    struct memory memory = cpu->memory;
    struct cpu_bus bus = cpu->bus;
    *cpu = *other;
    cpu->memory = memory;
    cpu->bus = bus;
    forget_translations(cpu);
}
