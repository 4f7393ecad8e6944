/*
 * The CPU's self-test: instructions by themselves with what the manual says of them, and a page table. Each row is an
 * instruction over x1 and x2 with its result in x3.
 */
#include <inttypes.h>
#include <stdio.h>
#include <stdlib.h>
#include <string.h>

#include "cpu.h"

static const uint64_t BASE = 0x80000000;

enum { MEMORY = 0x10000, CODE = 0x1000, TRAPS = 0x2000, WORDS = 0x3000, TABLES = 0x8000 };

static uint8_t memory[MEMORY];
static struct cpu cpu;
static unsigned failures;

static bool no_load(void *machine, uint64_t addr, unsigned width, uint64_t *value)
{
    (void)machine, (void)addr, (void)width, (void)value;
    return false;
}

static bool no_store(void *machine, uint64_t addr, unsigned width, uint64_t value)
{
    (void)machine, (void)addr, (void)width, (void)value;
    return false;
}

static void no_call(void *machine)
{
    (void)machine;
}

static void expect(const char *what, uint64_t found, uint64_t expected)
{
    if (found != expected) {
        printf("%s: %" PRIx64 " where %" PRIx64 " was expected\n", what, found, expected);
        failures++;
    }
}

static void put(uint64_t offset, uint64_t value, unsigned width)
{
    memcpy(memory + offset, &value, width);
}

/* Runs one instruction. */
static void run(uint32_t word)
{
    put(cpu.pc - BASE, word, 4);
    cpu.stop_at = cpu.cycles + 1;
    cpu_run(&cpu);
}

static void reset(void)
{
    cpu.memory = (struct memory){ 1, { { BASE, MEMORY, memory } } };
    cpu.bus = (struct cpu_bus){ NULL, no_load, no_store, no_call };
    cpu_reset(&cpu, BASE + CODE);
    cpu.stvec = BASE + TRAPS;
}

/* ---- arithmetic: over x1 and x2, into x3 */

#define R(funct7, funct3, opcode) ((uint32_t)(funct7) << 25 | 2 << 20 | 1 << 15 | (funct3) << 12 | 3 << 7 | (opcode))
#define I(immediate, funct3, opcode) ((uint32_t)(immediate) << 20 | 1 << 15 | (funct3) << 12 | 3 << 7 | (opcode))

struct row {
    const char *name;
    uint32_t word;
    uint64_t a, b, expected;
};

#define MINUS(n) (~(uint64_t)(n) + 1)
#define LEAST ((uint64_t)1 << 63)

static const struct row ROWS[] = {
    { "add", R(0, 0, 0x33), 5, MINUS(7), MINUS(2) },
    { "sub", R(0x20, 0, 0x33), 5, 7, MINUS(2) },
    { "sll", R(0, 1, 0x33), 1, 127, LEAST },
    { "slt", R(0, 2, 0x33), MINUS(1), 0, 1 },
    { "sltu", R(0, 3, 0x33), MINUS(1), 0, 0 },
    { "xor", R(0, 4, 0x33), 0xff00, 0x0ff0, 0xf0f0 },
    { "srl", R(0, 5, 0x33), LEAST, 63, 1 },
    { "sra", R(0x20, 5, 0x33), LEAST, 63, MINUS(1) },
    { "or", R(0, 6, 0x33), 0xff00, 0x0ff0, 0xfff0 },
    { "and", R(0, 7, 0x33), 0xff00, 0x0ff0, 0x0f00 },
    { "addi", I(0xfff, 0, 0x13), 5, 0, 4 },
    { "slti", I(0xfff, 2, 0x13), MINUS(2), 0, 1 },
    { "sltiu", I(0xfff, 3, 0x13), 5, 0, 1 },
    { "xori", I(0xfff, 4, 0x13), 0, 0, MINUS(1) },
    { "slli", I(63, 1, 0x13), 1, 0, LEAST },
    { "srai", I(0x400 | 63, 5, 0x13), LEAST, 0, MINUS(1) },
    { "addw", R(0, 0, 0x3b), 0x7fffffff, 1, 0xffffffff80000000 },
    { "subw", R(0x20, 0, 0x3b), 0, 1, MINUS(1) },
    { "sllw", R(0, 1, 0x3b), 1, 63, 0xffffffff80000000 },
    { "srlw", R(0, 5, 0x3b), 0xffffffff80000000, 31, 1 },
    { "sraw", R(0x20, 5, 0x3b), 0x80000000, 31, MINUS(1) },
    { "addiw", I(1, 0, 0x1b), 0x7fffffff, 0, 0xffffffff80000000 },
    { "srliw", I(4, 5, 0x1b), 0xffffffff80000000, 0, 0x08000000 },
    { "sraiw", I(0x400 | 4, 5, 0x1b), 0x80000000, 0, 0xfffffffff8000000 },
    { "mul", R(1, 0, 0x33), MINUS(3), 7, MINUS(21) },
    { "mulh", R(1, 1, 0x33), MINUS(1), MINUS(1), 0 },
    { "mulhsu", R(1, 2, 0x33), MINUS(1), MINUS(1), MINUS(1) },
    { "mulhu", R(1, 3, 0x33), MINUS(1), MINUS(1), MINUS(2) },
    { "div", R(1, 4, 0x33), MINUS(7), 2, MINUS(3) },
    { "div by zero", R(1, 4, 0x33), 7, 0, MINUS(1) },
    { "div overflow", R(1, 4, 0x33), LEAST, MINUS(1), LEAST },
    { "divu by zero", R(1, 5, 0x33), 7, 0, MINUS(1) },
    { "rem", R(1, 6, 0x33), MINUS(7), 2, MINUS(1) },
    { "rem by zero", R(1, 6, 0x33), MINUS(7), 0, MINUS(7) },
    { "rem overflow", R(1, 6, 0x33), LEAST, MINUS(1), 0 },
    { "remu by zero", R(1, 7, 0x33), 7, 0, 7 },
    { "mulw", R(1, 0, 0x3b), 0x10001, 0x10001, 0x20001 },
    { "divw overflow", R(1, 4, 0x3b), 0x80000000, MINUS(1), 0xffffffff80000000 },
    { "divuw by zero", R(1, 5, 0x3b), 7, 0, MINUS(1) },
    { "remw", R(1, 6, 0x3b), MINUS(7), 2, MINUS(1) },
    { "remuw by zero", R(1, 7, 0x3b), 0x80000000, 0, 0xffffffff80000000 },
    { "lui", 0x800001b7, 0, 0, 0xffffffff80000000 },
    { "auipc", 0x00001197, 0, 0, 0x80000000 + CODE + 0x1000 },
    { "jal", 0x008001ef, 0, 0, 0x80000000 + CODE + 4 },
};

static void test_arithmetic(void)
{
    for (size_t i = 0; i < sizeof ROWS / sizeof *ROWS; i++) {
        reset();
        cpu.x[1] = ROWS[i].a;
        cpu.x[2] = ROWS[i].b;
        run(ROWS[i].word);
        expect(ROWS[i].name, cpu.x[3], ROWS[i].expected);
    }
}

/* ---- loads, stores and atomics: over the bytes at x1 */

#define A(funct5, width) R((funct5) << 2, width, 0x2f)
#define STORE(width) (2 << 20 | 1 << 15 | (uint32_t)(width) << 12 | 0x23)

struct access {
    const char *name;
    uint32_t word;
    uint64_t before, operand, after, result;
};

static const struct access ACCESSES[] = {
    { "lb", I(0, 0, 0x03), 0x80, 0, 0x80, MINUS(0x80) },
    { "lbu", I(0, 4, 0x03), 0x80, 0, 0x80, 0x80 },
    { "lh", I(1, 1, 0x03), 0x800000, 0, 0x800000, MINUS(0x8000) },
    { "lhu", I(1, 5, 0x03), 0x800000, 0, 0x800000, 0x8000 },
    { "lw", I(0, 2, 0x03), 0x80000000, 0, 0x80000000, 0xffffffff80000000 },
    { "lwu", I(0, 6, 0x03), 0x80000000, 0, 0x80000000, 0x80000000 },
    { "ld", I(0, 3, 0x03), LEAST, 0, LEAST, LEAST },
    { "sb", STORE(0), 0, 0x1ff, 0xff, 0 },
    { "sh", STORE(1), 0, 0x1ffff, 0xffff, 0 },
    { "sw", STORE(2), 0, MINUS(1), 0xffffffff, 0 },
    { "sd", STORE(3), 0, MINUS(1), MINUS(1), 0 },
    { "amoswap.w", A(1, 2), 0x80000000, 1, 1, 0xffffffff80000000 },
    { "amoadd.w", A(0, 2), 0xffffffff, 1, 0, MINUS(1) },
    { "amoadd.d", A(0, 3), 0xffffffff, 1, 0x100000000, 0xffffffff },
    { "amoxor.d", A(4, 3), 6, 3, 5, 6 },
    { "amoor.d", A(8, 3), 6, 3, 7, 6 },
    { "amoand.d", A(12, 3), 6, 3, 2, 6 },
    { "amomin.w", A(16, 2), 0xffffffff, 0, 0xffffffff, MINUS(1) },
    { "amomax.w", A(20, 2), 0xffffffff, 0, 0, MINUS(1) },
    { "amominu.w", A(24, 2), 0xffffffff, 0, 0, MINUS(1) },
    { "amomaxu.w", A(28, 2), 0xffffffff, 0, 0xffffffff, MINUS(1) },
    { "sc.w without lr.w", A(3, 2), 5, 6, 5, 1 },
};

static void test_accesses(void)
{
    for (size_t i = 0; i < sizeof ACCESSES / sizeof *ACCESSES; i++) {
        uint64_t after;
        reset();
        put(WORDS, ACCESSES[i].before, 8);
        cpu.x[1] = BASE + WORDS;
        cpu.x[2] = ACCESSES[i].operand;
        run(ACCESSES[i].word);
        memcpy(&after, memory + WORDS, 8);
        expect(ACCESSES[i].name, after, ACCESSES[i].after);
        expect(ACCESSES[i].name, cpu.x[3], ACCESSES[i].result);
    }
}

static void test_conditional(void)
{
    uint64_t after;
    reset();
    put(WORDS, 5, 8);
    cpu.x[1] = BASE + WORDS;
    cpu.x[2] = 6;
    run(A(2, 3) & ~(31u << 20));
    expect("lr.d", cpu.x[3], 5);
    run(A(3, 3));
    memcpy(&after, memory + WORDS, 8);
    expect("sc.d", cpu.x[3], 0);
    expect("sc.d", after, 6);
    run(A(3, 3));
    expect("a second sc.d", cpu.x[3], 1);
}

/* ---- traps */

struct fault {
    const char *name;
    uint32_t word;
    uint64_t a, cause, value;
};

static const struct fault FAULTS[] = {
    { "no instruction", 0, 0, 2, 0 },
    { "ebreak", 0x00100073, 0, 3, 0x80000000 + CODE },
    { "a load from nowhere", I(0, 3, 0x03), 0x1000, 5, 0x1000 },
    { "a store to nowhere", STORE(3), 0x1000, 7, 0x1000 },
    { "lr that isn't aligned", A(2, 3) & ~(31u << 20), 0x80003001, 4, 0x80003001 },
    { "an atomic that isn't aligned", A(0, 2), 0x80003002, 6, 0x80003002 },
    { "a jump that isn't aligned", I(2, 0, 0x67), 0x80001000, 0, 0x80001002 },
    { "a register that isn't there", I(0x300, 2, 0x73), 0, 2, I(0x300, 2, 0x73) },
};

static void test_traps(void)
{
    for (size_t i = 0; i < sizeof FAULTS / sizeof *FAULTS; i++) {
        reset();
        cpu.x[1] = FAULTS[i].a;
        run(FAULTS[i].word);
        expect(FAULTS[i].name, cpu.scause, FAULTS[i].cause);
        expect(FAULTS[i].name, cpu.stval, FAULTS[i].value);
        expect(FAULTS[i].name, cpu.sepc, BASE + CODE);
        expect(FAULTS[i].name, cpu.pc, BASE + TRAPS);
    }
}

static void test_modes(void)
{
    reset();
    cpu.sepc = BASE + CODE + 0x100;
    cpu.sstatus = 0x20; /* SPIE; SPP is mode U */
    run(0x10200073);
    expect("sret", cpu.pc, BASE + CODE + 0x100);
    expect("sret: mode U", cpu.user, true);
    run(0x00000073);
    expect("ecall of mode U", cpu.scause, 8);
    expect("ecall: SPP, SPIE and SIE", cpu.sstatus, 0x20);
    expect("ecall: mode S", cpu.user, false);
    cpu.sie = 1 << CPU_TIMER_INTERRUPT;
    cpu_line(&cpu, CPU_TIMER_INTERRUPT, true);
    cpu.sstatus |= 2;
    run(0x00000013);
    expect("a timer's interrupt", cpu.scause, 0x8000000000000005);
}

/* ---- Sv39: the address 0x40000000 in a page of mode U, which may be read and not written */

static void map(uint64_t flags)
{
    put(TABLES + 8, (BASE + TABLES + 0x1000) >> 2 | 1, 8);
    put(TABLES + 8 * 2, (BASE >> 2) | 0xcf, 8); /* the memory where it is, by a page of 1 GiB for mode S */
    put(TABLES + 0x1000, (BASE + TABLES + 0x2000) >> 2 | 1, 8);
    put(TABLES + 0x2000, (BASE + WORDS) >> 2 | flags, 8);
    cpu.x[1] = 0x40000008;
    cpu.satp = (uint64_t)8 << 60 | (BASE + TABLES) >> 12;
}

static void expect_access(const char *what, uint64_t flags, uint64_t status, uint32_t word, uint64_t cause)
{
    reset();
    put(WORDS + 8, 77, 8);
    map(flags);
    cpu.sstatus = status;
    cpu.context = status != 0 ? CPU_SUPERVISOR_SUM : CPU_SUPERVISOR;
    run(word);
    expect(what, cpu.scause, cause);
}

static void test_pages(void)
{
    const uint64_t sum = 1 << 18;
    expect_access("a read of a page of mode S", 0xc3, 0, I(0, 3, 0x03), 0);
    expect("a read through the table", cpu.x[3], 77);
    expect_access("a read of a page of mode U", 0xd3, 0, I(0, 3, 0x03), 13);
    expect_access("a read of it with SUM", 0xd3, sum, I(0, 3, 0x03), 0);
    expect_access("a write of a page to be read", 0xc3, 0, STORE(3), 15);
    expect_access("an atomic of a page to be read", 0xc3, 0, A(0, 3), 15);
    expect_access("a write of a page", 0xc7, 0, STORE(3), 0);
    expect_access("a write of a page that isn't dirty", 0x47, 0, STORE(3), 15);
    expect_access("a read of a page that wasn't accessed", 0x03, 0, I(0, 3, 0x03), 13);
    expect_access("a read of no page", 0xc2, 0, I(0, 3, 0x03), 13);
}

int main(void)
{
    test_arithmetic();
    test_accesses();
    test_conditional();
    test_traps();
    test_modes();
    test_pages();
    if (failures == 0)
        printf("the CPU does what the manual says in all %zu rows\n",
               sizeof ROWS / sizeof *ROWS + sizeof ACCESSES / sizeof *ACCESSES + sizeof FAULTS / sizeof *FAULTS);
    return failures != 0;
}
