/*
 * The program of the guests of kvm-racing.c: both CPUs begin at `begin`, in 64-bit mode, with what racing_machine.h says. It has
 * no library; ./racing-build builds it.
 */
#include "racing_guest.h"
#include "racing_machine.h"

static struct control *const control = (struct control *)CONTROL_AT;

/* ---- accesses that leave the guest */

static uint32_t load(struct machine *machine, uint32_t window, uint32_t offset)
{
    uint32_t value;
    (void)machine;
    __asm__ volatile("movl (%1), %0" : "=r"(value) : "r"((uintptr_t)WINDOWS_AT + WINDOW_LEN * window + offset) : "memory");
    return value;
}

static void store(struct machine *machine, uint32_t window, uint32_t offset, uint32_t value)
{
    (void)machine;
    __asm__ volatile("movl %0, (%1)" : : "r"(value), "r"((uintptr_t)WINDOWS_AT + WINDOW_LEN * window + offset) : "memory");
}

static void out(uint16_t port, uint8_t value)
{
    __asm__ volatile("outb %0, %1" : : "a"(value), "Nd"(port) : "memory");
}

/* A CPU that waits leaves its processor to the host's other threads now and then. */
static void rest(struct machine *machine)
{
    static _Atomic unsigned rests;
    (void)machine;
    if (++rests % RESTS == 0)
        out(REST_PORT, 0);
    __asm__ volatile("pause");
}

/* ---- interrupts: of the windows' lines alone, which are high until their driver has said that it knows */

struct frame;
struct gate {
    uint16_t low, segment, kind, middle;
    uint32_t high, none;
};

static struct machine machine = { .control = (struct control *)CONTROL_AT, .load = load, .store = store, .rest = rest, .looks = 16 };
static struct gate gates[FIRST_VECTOR + 16];

__attribute__((interrupt)) static void on_block(struct frame *frame)
{
    (void)frame;
    on_interrupt(&machine, BLOCK);
    out(0x20, 0x20);
}

__attribute__((interrupt)) static void on_console(struct frame *frame)
{
    (void)frame;
    on_interrupt(&machine, CONSOLE);
    out(0x20, 0x20);
}

__attribute__((interrupt)) static void on_entropy(struct frame *frame)
{
    (void)frame;
    on_interrupt(&machine, ENTROPY);
    out(0x20, 0x20);
}

__attribute__((interrupt)) static void on_card(struct frame *frame)
{
    (void)frame;
    on_interrupt(&machine, CARD);
    out(0x20, 0x20);
}

static void set_gate(unsigned line, void (*handler)(struct frame *frame))
{
    uintptr_t at = (uintptr_t)handler;
    gates[FIRST_VECTOR + line] = (struct gate){ (uint16_t)at, 8, 0x8e00, (uint16_t)(at >> 16), (uint32_t)(at >> 32), 0 };
}

/* Tells the interrupt controller of a PC where its vectors begin, and that these lines are there, which are high by level. */
static void let_interrupts_in(void)
{
    static void (*const handlers[WINDOWS])(struct frame *frame) = { on_block, on_console, on_entropy, on_card };
    uint8_t all = 0;
    for (unsigned window = 0; window < WINDOWS; window++)
        all |= (uint8_t)(1 << LINES[window]);
    const struct { uint16_t port; uint8_t value; } steps[] = {
        { 0x20, 0x11 }, { 0x21, FIRST_VECTOR }, { 0x21, 4 }, { 0x21, 1 }, { 0x4d0, all }, { 0x21, (uint8_t)~all },
    };
    struct { uint16_t len; uint64_t at; } __attribute__((packed)) table = { sizeof gates - 1, (uintptr_t)gates };
    for (unsigned window = 0; window < WINDOWS; window++)
        set_gate(LINES[window], handlers[window]);
    __asm__ volatile("lidt %0" : : "m"(table));
    for (unsigned i = 0; i < sizeof steps / sizeof *steps; i++)
        out(steps[i].port, steps[i].value);
    __asm__ volatile("sti");
}

/* A CPU begins, with its number. A sane guest's first one is interrupted. */
__attribute__((noreturn)) void begin(unsigned number)
{
    if (number == 0 && !control->is_hostile)
        let_interrupts_in();
    run_cpu(&machine, number);
    __asm__ volatile("cli");
    for (;;)
        out(END_PORT, 0);
}
