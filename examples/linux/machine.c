/* The machine of machine.h; machine.dts tells the guest of it. */
#include "machine.h"

#include <string.h>

#include "board.h"
#include "chance.h"

static const uint64_t PLIC = 0x0c000000, PLIC_LEN = 0x400000, WINDOWS = 0x10000000;

enum { WINDOW_LEN = 0x1000 };

/* Where the kernel and the tree lie in memory. */
enum { KERNEL = 0x200000, TREE = MEMORY_LEN - 0x10000 };

static const uint64_t NEVER = ~(uint64_t)0;

/* ---- interrupts */

static void move_lines(struct machine *machine)
{
    for (unsigned window = 0; window < machine->windows; window++) {
        bool was = machine->plic.high >> (window + 1) & 1, is = board_line(machine->slot, window);
        machine->counts[window].rises += is && !was;
        plic_line(&machine->plic, window + 1, is);
    }
    cpu_line(&machine->cpu, CPU_EXTERNAL_INTERRUPT, plic_wants(&machine->plic));
}

static void move_timer(struct machine *machine)
{
    cpu_line(&machine->cpu, CPU_TIMER_INTERRUPT, machine->cpu.cycles >= machine->timer);
}

/* A machine that is paused leaves its CPU where it is. */
static void note_pause(struct machine *machine)
{
    machine->paused = machine->busy || board_is_paused(machine->slot);
    if (!machine->paused)
        return;
    machine->pauses++;
    machine->cpu.stop_at = machine->cpu.cycles;
}

/* ---- the console's two ends */

static bool take_output(struct machine *machine)
{
    uint8_t bytes[4096];
    size_t all = 0, taken;
    while ((taken = board_output(machine->slot, bytes, sizeof bytes)) > 0) {
        terminal_show(&machine->terminal, bytes, taken);
        all += taken;
    }
    return all > 0;
}

/* What isn't taken is offered again at once, and then after each of the guest's writes. */
static void type(struct machine *machine)
{
    struct terminal *terminal = &machine->terminal;
    size_t took = 1;
    while (terminal->typed_len > 0 && took > 0 && !machine->paused) {
        took = board_type(machine->slot, terminal->typed, terminal->typed_len);
        terminal_took(terminal, took);
        note_pause(machine);
    }
}

void machine_talk(struct machine *machine)
{
    unsigned prompts = machine->terminal.prompts;
    if (machine->paused)
        return;
    take_output(machine);
    /* The driver knows no size before the first resize. */
    if (prompts == 0 && machine->terminal.prompts > 0)
        board_resize(machine->slot, machine->terminal.cols, machine->terminal.rows);
    type(machine);
    move_lines(machine);
}

/* ---- the windows */

enum { DEVICE_FEATURES = 0x010, DEVICE_FEATURES_SEL = 0x014, OWN_FEATURES = 24 };

/* The features that a window's driver isn't shown: those of the first bits are a disk's own (2.2). */
static uint64_t hidden_of(const struct machine *machine, unsigned window)
{
    bool is_disk = window == KALYUBOS_BLOCK || window >= BOARD_DEVICES;
    return is_disk ? machine->hidden : machine->hidden >> OWN_FEATURES << OWN_FEATURES;
}

/* A read of the offered features lacks those that are hidden. */
static uint64_t window_load(struct machine *machine, unsigned window, uint16_t offset, unsigned width)
{
    uint32_t value = board_read(machine->slot, window, offset, width);
    machine->counts[window].reads++;
    if (offset == DEVICE_FEATURES && machine->selected[window] < 2)
        value &= ~(hidden_of(machine, window) >> 32 * machine->selected[window]);
    return value;
}

static uint32_t store(const struct machine *machine)
{
    const struct machine_store *store = &machine->store;
    return board_write(machine->slot, store->window, store->offset, store->width, store->value);
}

/* ---- disks that the host serves */

/* An operation of a disk. */
struct flight {
    uint8_t disk, tag;
};

static bool flies(const struct machine *machine)
{
    return (machine->flights[BOARD_OWN].tags | machine->flights[BOARD_FIXED].tags | machine->flights[BOARD_DATA].tags) != 0;
}

/* The operation that is done first, and when; where files end when they do its tag is any. */
static struct flight first_due(const struct machine *machine, uint64_t *due)
{
    struct flight first = { BOARD_OWN, BOARD_ANY };
    *due = NEVER;
    for (uint8_t disk = 0; disk < BOARD_DISKS; disk++) {
        const struct machine_flights *flights = &machine->flights[disk];
        for (uint64_t rest = flights->tags; rest != 0; rest &= rest - 1) {
            uint8_t tag = (uint8_t)__builtin_ctzll(rest);
            if (flights->dues[tag] < *due) {
                first = (struct flight){ disk, tag };
                *due = flights->dues[tag];
            }
        }
    }
    return first;
}

/* When the first is done: then the CPU stops. */
static void note_due(struct machine *machine)
{
    first_due(machine, &machine->due);
    if (machine->due < machine->cpu.stop_at)
        machine->cpu.stop_at = machine->due;
}

/* When an operation that begins is done; beside others after up to so many times the instructions, so that they end in any order. */
static uint64_t due_of(struct machine *machine, bool beside)
{
    enum { SPREAD = 16 };
    if (machine->latency == NEVER)
        return NEVER;
    uint64_t more = beside && machine->latency > 0 ? by_chance(&machine->chance) % ((SPREAD - 1) * machine->latency) : 0;
    return machine->cpu.cycles + machine->latency + more;
}

/* Operations begin, and each is done after so many instructions, or once its file is. */
static void take_off(struct machine *machine)
{
    for (uint8_t disk = 0; disk < BOARD_DISKS; disk++) {
        struct machine_flights *flights = &machine->flights[disk];
        uint64_t all = board_in_flight(machine->slot, disk), fresh = all & ~flights->tags;
        flights->tags |= fresh;
        for (; fresh != 0; fresh &= fresh - 1)
            flights->dues[__builtin_ctzll(fresh)] = due_of(machine, (all & (all - 1)) != 0);
    }
    note_due(machine);
}

static void settle(struct machine *machine, uint32_t answer);

/* Completes an operation, or where its tag is any the first of a disk that has ended, and tells which. */
static uint32_t complete(struct machine *machine, struct flight *flight)
{
    uint32_t answer = KALYUBOS_MORE;
    if (flight->tag != BOARD_ANY)
        return board_complete(machine->slot, flight->disk, &flight->tag);
    for (uint8_t disk = 0; disk < BOARD_DISKS && answer == KALYUBOS_MORE; disk++)
        if (machine->flights[disk].tags != 0) {
            flight->disk = disk;
            answer = board_complete(machine->slot, disk, &flight->tag);
        }
    return answer;
}

/* An operation is done, or the guest waits: at its time it goes no further before its file is. */
static void land(struct machine *machine)
{
    uint64_t due;
    struct flight flight = first_due(machine, &due);
    uint32_t answer = complete(machine, &flight);
    machine->paused = answer == KALYUBOS_MORE && (machine->busy || machine->latency != NEVER);
    if (answer == KALYUBOS_MORE)
        return;
    bool again = machine->busy;
    machine->flights[flight.disk].tags &= ~((uint64_t)1 << flight.tag);
    machine->busy = false;
    note_due(machine);
    settle(machine, answer);
    if (again)
        settle(machine, store(machine));
}

static bool is_due(const struct machine *machine)
{
    return flies(machine) && (machine->busy || machine->latency == NEVER || machine->cpu.cycles >= machine->due);
}

/* ---- stores */

/* What stands behind a store, and behind each piece of its service. Where the output has no room it is made again. */
static void settle(struct machine *machine, uint32_t answer)
{
    while (answer == KALYUBOS_NO_ROOM && take_output(machine)) {
        machine->refused++;
        answer = store(machine);
    }
    machine->busy = answer == KALYUBOS_BUSY;
    if (answer == KALYUBOS_IO)
        take_off(machine);
    note_pause(machine);
    if (!machine->late)
        machine_talk(machine);
    if (machine->late || machine->paused)
        move_lines(machine);
}

/* What the host does behind a store to a further device's window, once nothing is paused. */
static void serve_behind(struct machine *machine)
{
    machine->unserved = board_is_paused(machine->slot);
    machine_serve(machine);
}

static void window_store(struct machine *machine, unsigned window, uint16_t offset, unsigned width, uint32_t value)
{
    machine->counts[window].writes++;
    if (offset == DEVICE_FEATURES_SEL)
        machine->selected[window] = value;
    machine->store = (struct machine_store){ window, offset, width, value };
    settle(machine, store(machine));
    if (window >= KALYUBOS_DEVICE)
        serve_behind(machine);
}

void machine_serve(struct machine *machine)
{
    if (machine->windows <= KALYUBOS_DEVICE || machine->paused)
        return;
    devices_serve(&machine->devices, machine->slot, machine->cpu.cycles);
    move_lines(machine);
}

void machine_go_on(struct machine *machine)
{
    if (board_is_paused(machine->slot)) {
        settle(machine, board_go_on(machine->slot));
        if (machine->unserved)
            serve_behind(machine);
    } else if (is_due(machine)) {
        land(machine);
    }
}

/* ---- the bus */

static bool is_window(const struct machine *machine, uint64_t addr)
{
    return addr - WINDOWS < machine->windows * WINDOW_LEN;
}

static bool bus_load(void *user, uint64_t addr, unsigned width, uint64_t *value)
{
    struct machine *machine = user;
    if (is_window(machine, addr) && width <= 4)
        *value = window_load(machine, (addr - WINDOWS) / WINDOW_LEN, addr % WINDOW_LEN, width);
    else if (addr - PLIC < PLIC_LEN && width == 4)
        *value = plic_load(&machine->plic, addr - PLIC);
    else
        return false;
    cpu_line(&machine->cpu, CPU_EXTERNAL_INTERRUPT, plic_wants(&machine->plic));
    return true;
}

static bool bus_store(void *user, uint64_t addr, unsigned width, uint64_t value)
{
    struct machine *machine = user;
    if (is_window(machine, addr) && width <= 4)
        window_store(machine, (addr - WINDOWS) / WINDOW_LEN, addr % WINDOW_LEN, width, value);
    else if (addr - PLIC < PLIC_LEN && width == 4)
        plic_store(&machine->plic, addr - PLIC, value);
    else
        return false;
    cpu_line(&machine->cpu, CPU_EXTERNAL_INTERRUPT, plic_wants(&machine->plic));
    return true;
}

/* ---- what mode M answers (RISC-V Supervisor Binary Interface, 1.0.0) */

enum { A0 = 10, A1 = 11, A6 = 16, A7 = 17 };
enum { SBI_SUCCESS = 0, SBI_NOT_SUPPORTED = -2 };

static const uint64_t SBI_PUTCHAR = 1, SBI_BASE = 0x10, SBI_TIME = 0x54494d45, SBI_RESET = 0x53525354;

static bool is_answered(uint64_t extension)
{
    return extension == SBI_PUTCHAR || extension == SBI_BASE || extension == SBI_TIME || extension == SBI_RESET;
}

/* The base extension's functions: 0 is the specification's version, 3 asks for an extension; the others are names. */
static uint64_t base_answer(uint64_t function, uint64_t argument)
{
    return function == 0 ? 1 << 24 : function == 3 ? is_answered(argument) : 0;
}

static void set_timer(struct machine *machine, uint64_t ticks)
{
    machine->timer = ticks < NEVER / CYCLES_PER_TICK ? ticks * CYCLES_PER_TICK : NEVER;
    move_timer(machine);
    machine->cpu.stop_at = machine->cpu.cycles;
}

static void turn_off(struct machine *machine)
{
    machine->off = true;
    machine->cpu.stop_at = machine->cpu.cycles;
}

static void call(void *user)
{
    struct machine *machine = user;
    uint64_t *x = machine->cpu.x, extension = x[A7], argument = x[A0];
    x[A0] = is_answered(extension) ? SBI_SUCCESS : SBI_NOT_SUPPORTED;
    if (extension == SBI_BASE)
        x[A1] = base_answer(x[A6], argument);
    else if (extension == SBI_TIME)
        set_timer(machine, argument);
    else if (extension == SBI_RESET)
        turn_off(machine);
    else if (extension == SBI_PUTCHAR)
        fputc(argument, machine->early);
}

/* ---- running */

static void place(struct machine *machine, uint64_t offset, struct machine_file file)
{
    memcpy(machine->cpu.memory.regions[0].bytes + offset, file.bytes, file.len);
}

void machine_open(struct machine *machine, uint8_t slot, unsigned windows)
{
    machine->slot = slot;
    machine->windows = windows;
    machine->timer = machine->due = NEVER;
    machine->cpu.memory = *board_memory(slot);
    machine->cpu.bus = (struct cpu_bus){ machine, bus_load, bus_store, call };
}

void machine_start(struct machine *machine, struct machine_file kernel, struct machine_file tree)
{
    place(machine, KERNEL, kernel);
    place(machine, TREE, tree);
    cpu_reset(&machine->cpu, MEMORY_BASE + KERNEL);
    machine->cpu.x[A1] = MEMORY_BASE + TREE;
}

void machine_resume(struct machine *machine, const struct machine *other, const char *script)
{
    static struct machine ours;
    ours = *machine;
    *machine = *other;
    machine->slot = ours.slot;
    machine->devices = ours.devices;
    machine->late = ours.late;
    machine->latency = ours.latency;
    machine->early = ours.early;
    machine->mistakes = ours.mistakes;
    machine->cpu = ours.cpu;
    machine->terminal = ours.terminal;
    cpu_resume(&machine->cpu, &other->cpu);
    terminal_resume(&machine->terminal, &other->terminal, script);
    move_lines(machine);
}

/* The first of the moments ahead: the timer's, the disks' and the end. */
static uint64_t next_moment(const struct machine *machine, uint64_t end)
{
    const uint64_t moments[] = { machine->timer, machine->due };
    for (size_t i = 0; i < 2; i++)
        if (machine->cpu.cycles < moments[i] && moments[i] < end)
            end = moments[i];
    return end;
}

void machine_run(struct machine *machine, uint64_t cycles)
{
    struct cpu *cpu = &machine->cpu;
    uint64_t end = cpu->cycles + cycles;
    do {
        while (is_due(machine) && machine->due != NEVER && !machine->paused)
            land(machine);
        move_timer(machine);
        cpu->stop_at = next_moment(machine, end);
        if (!machine->paused)
            cpu_run(cpu);
    } while (!machine->off && !machine->paused && !cpu->waits && cpu->cycles < end);
    machine->rest = machine->paused && !cpu->waits && cpu->cycles < end ? end - cpu->cycles : 0;
}

bool machine_stop(struct machine *machine)
{
    if (machine->paused || flies(machine))
        return false;
    take_output(machine);
    return true;
}

bool machine_stands(const struct machine *machine)
{
    return machine->paused || (machine->cpu.waits && flies(machine) && machine->due == NEVER);
}

void machine_pass(struct machine *machine)
{
    uint64_t then = next_moment(machine, NEVER);
    if (then != NEVER && !machine_stands(machine))
        machine->cpu.cycles = then;
    move_timer(machine);
}
