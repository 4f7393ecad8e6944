/*
 * A host over KVM of guests that run on while they are served: each has two CPUs, on threads of their own, and no call stops one.
 * CPU 0 has the exits, which become calls under the guest's own lock. Meanwhile CPU 1 puts chains on offer and rewrites served
 * ones, and a thread of the host moves the disk's bytes. racing_guest.h says what the guests do, racing_host.h what is checked.
 *
 *     kvm-racing PROGRAM REQUESTS SECONDS [SEED]
 *
 * runs four guests, one after the other, of so many requests each: with split and packed queues, with EVENT_IDX and without. Then it
 * runs such guests, each beside a hostile one, for SECONDS together. `./racing-build PROGRAM` builds PROGRAM of racing-program.c.
 * Where /dev/kvm can't be opened it says so, with status 77.
 */
#define _GNU_SOURCE
#include <elf.h>
#include <errno.h>
#include <fcntl.h>
#include <linux/kvm.h>
#include <stdio.h>
#include <stdlib.h>
#include <string.h>
#include <sys/ioctl.h>
#include <sys/mman.h>
#include <unistd.h>

#include "racing_host.h"
#include "racing_machine.h"

enum { MOST = 2, CPUS = 2, BYTES = 2000, SENT = 200, DRAWN_BYTES = 2000, REST = 50 /* microseconds */, NO_KVM = 77 };

struct guest {
    struct racing_host *host;
    int machine;
    uint8_t *own; /* memory that no device reaches */
    uint64_t entry;
    bool are_high[WINDOWS]; /* the lines */
    struct cpu {
        struct guest *guest;
        int file;
        struct kvm_run *run;
        pthread_t thread;
    } cpus[CPUS];
};

static struct racing_host hosts[MOST];
static struct guest guests[MOST];
static int kvm;
static const char *program;

static int must(int result, const char *what)
{
    if (result < 0) {
        perror(what);
        exit(1);
    }
    return result;
}

/* ---- the machine */

static void map(const struct guest *guest, unsigned number, uint64_t addr, uint64_t len, uint8_t *bytes)
{
    struct kvm_userspace_memory_region region = { number, 0, addr, len, (uintptr_t)bytes };
    must(ioctl(guest->machine, KVM_SET_USER_MEMORY_REGION, &region), "KVM_SET_USER_MEMORY_REGION");
}

/* Reads the program, whose parts lie where they are loaded. */
static void load_program(struct guest *guest)
{
    Elf64_Ehdr head;
    Elf64_Phdr part;
    FILE *file = fopen(program, "rb");
    must(file != NULL && fread(&head, sizeof head, 1, file) == 1 ? 0 : -1, program);
    for (unsigned i = 0; i < head.e_phnum; i++) {
        must(fseek(file, (long)(head.e_phoff + i * sizeof part), SEEK_SET), program);
        must(fread(&part, sizeof part, 1, file) == 1 ? 0 : -1, program);
        if (part.p_type != PT_LOAD || part.p_filesz == 0)
            continue;
        must(part.p_paddr >= PROGRAM_AT && part.p_paddr + part.p_memsz <= STACKS ? 0 : -1, "a program that lies elsewhere");
        must(fseek(file, (long)part.p_offset, SEEK_SET), program);
        must(fread(guest->own + part.p_paddr, part.p_filesz, 1, file) == 1 ? 0 : -1, program);
    }
    guest->entry = head.e_entry;
    fclose(file);
}

/* Page tables of the first GiB, in pages of 2 MiB that lie where they are, and the segments of 64-bit mode. */
static void make_tables(const struct guest *guest)
{
    uint64_t *top = (uint64_t *)(guest->own + TABLES_AT), *next = top + 512, *last = next + 512;
    const uint64_t segments[] = { 0, 0x00af9b000000ffff, 0x00cf93000000ffff };
    top[0] = (TABLES_AT + 0x1000) | 3;
    next[0] = (TABLES_AT + 0x2000) | 3;
    for (uint64_t i = 0; i < 512; i++)
        last[i] = i << 21 | 0x83;
    memcpy(guest->own + GDT_AT, segments, sizeof segments);
}

static void add_cpu(struct guest *guest, unsigned number)
{
    struct cpu *cpu = &guest->cpus[number];
    struct kvm_mp_state runs = { KVM_MP_STATE_RUNNABLE };
    struct kvm_regs registers = { .rip = guest->entry, .rdi = number, .rsp = STACKS + (number + 1) * STACK_LEN - 8, .rflags = 2 };
    const struct kvm_segment code = { .limit = UINT32_MAX, .selector = 8, .type = 11, .present = 1, .s = 1, .l = 1, .g = 1 };
    const struct kvm_segment data = { .limit = UINT32_MAX, .selector = 16, .type = 3, .present = 1, .s = 1, .db = 1, .g = 1 };
    struct kvm_sregs sregs;
    cpu->guest = guest;
    cpu->file = must(ioctl(guest->machine, KVM_CREATE_VCPU, number), "KVM_CREATE_VCPU");
    size_t len = (size_t)must(ioctl(kvm, KVM_GET_VCPU_MMAP_SIZE, 0), "KVM_GET_VCPU_MMAP_SIZE");
    cpu->run = mmap(NULL, len, PROT_READ | PROT_WRITE, MAP_SHARED, cpu->file, 0);
    must(cpu->run == MAP_FAILED ? -1 : 0, "the CPU's exits");
    must(ioctl(cpu->file, KVM_GET_SREGS, &sregs), "KVM_GET_SREGS");
    sregs.cs = code;
    sregs.ds = sregs.es = sregs.fs = sregs.gs = sregs.ss = data;
    sregs.gdt = (struct kvm_dtable){ .base = GDT_AT, .limit = 23 };
    sregs.cr0 = 0x80000011; /* paging, protection */
    sregs.cr3 = TABLES_AT;
    sregs.cr4 = 0x20; /* of 64 bits */
    sregs.efer = 0x500;
    must(ioctl(cpu->file, KVM_SET_SREGS, &sregs), "KVM_SET_SREGS");
    must(ioctl(cpu->file, KVM_SET_REGS, &registers), "KVM_SET_REGS");
    must(ioctl(cpu->file, KVM_SET_MP_STATE, &runs), "KVM_SET_MP_STATE");
}

/* The lines, as a call left them. The guest's lock is held. */
static void set_lines(struct racing_host *host)
{
    struct guest *guest = host->user;
    for (unsigned window = 0; window < WINDOWS && !host->control->is_hostile; window++) {
        const bool is_high = host->interrupts[window] != 0;
        struct kvm_irq_level line = { .irq = LINES[window], .level = is_high };
        if (is_high != guest->are_high[window])
            must(ioctl(guest->machine, KVM_IRQ_LINE, &line), "KVM_IRQ_LINE");
        guest->are_high[window] = is_high;
    }
}

/* A machine with an interrupt controller in the kernel, whose control is where its CPUs look for it. */
static void power_on(struct guest *guest, struct racing_host *host, const char *name, struct control control)
{
    *guest = (struct guest){ .host = host };
    guest->machine = must(ioctl(kvm, KVM_CREATE_VM, 0), "KVM_CREATE_VM");
    must(ioctl(guest->machine, KVM_CREATE_IRQCHIP, 0), "KVM_CREATE_IRQCHIP");
    guest->own = mmap(NULL, OWN_LEN, PROT_READ | PROT_WRITE, MAP_SHARED | MAP_ANONYMOUS, -1, 0);
    must(guest->own == MAP_FAILED ? -1 : 0, "a guest's own memory");
    load_program(guest);
    make_tables(guest);
    *host = (struct racing_host){ .name = name, .set_lines = set_lines, .user = guest };
    host->control = (struct control *)(guest->own + CONTROL_AT);
    *host->control = control;
    racing_host_open(host);
    map(guest, 0, 0, OWN_LEN, guest->own);
    map(guest, 1, LOW, REGION_LEN, host->memory + LOW);
    map(guest, 2, HIGH, REGION_LEN, host->memory + HIGH);
    for (unsigned i = 0; i < CPUS; i++)
        add_cpu(guest, i);
}

static void power_off(struct guest *guest)
{
    racing_host_close(guest->host);
    for (unsigned i = 0; i < CPUS; i++)
        close(guest->cpus[i].file);
    close(guest->machine);
    munmap(guest->own, OWN_LEN);
}

/* ---- exits */

static void access_window(struct cpu *cpu)
{
    uint64_t place = cpu->run->mmio.phys_addr - WINDOWS_AT;
    uint8_t window = (uint8_t)(place / WINDOW_LEN), width = (uint8_t)cpu->run->mmio.len;
    uint16_t offset = place % WINDOW_LEN;
    uint32_t value;
    must(place < WINDOWS * WINDOW_LEN && width == 4 ? 0 : -1, "an access elsewhere");
    memcpy(&value, cpu->run->mmio.data, sizeof value);
    if (cpu->run->mmio.is_write) {
        racing_host_store(cpu->guest->host, window, offset, width, value);
    } else {
        value = racing_host_load(cpu->guest->host, window, offset, width);
        memcpy(cpu->run->mmio.data, &value, sizeof value);
    }
}

static void *run(void *user)
{
    struct cpu *cpu = user;
    for (;;) {
        if (ioctl(cpu->file, KVM_RUN, 0) < 0) {
            must(errno == EINTR ? 0 : -1, "KVM_RUN");
            continue;
        }
        if (cpu->run->exit_reason == KVM_EXIT_MMIO) {
            access_window(cpu);
        } else if (cpu->run->exit_reason == KVM_EXIT_IO && cpu->run->io.port == REST_PORT) {
            usleep(REST);
        } else if (cpu->run->exit_reason == KVM_EXIT_IO && cpu->run->io.port == END_PORT) {
            return NULL;
        } else {
            fprintf(stderr, "%s: a CPU ended by exit %u\n", cpu->guest->host->name, cpu->run->exit_reason);
            exit(1);
        }
    }
}

static void run_all(unsigned len, unsigned seconds)
{
    for (unsigned i = 0; i < CPUS * len; i++) {
        struct cpu *cpu = &guests[i / CPUS].cpus[i % CPUS];
        must(-pthread_create(&cpu->thread, NULL, run, cpu), "a thread");
    }
    racing_hosts_watch(hosts, len, seconds);
    for (unsigned i = 0; i < CPUS * len; i++)
        must(-pthread_join(guests[i / CPUS].cpus[i % CPUS].thread, NULL), "a thread's end");
    for (unsigned i = 0; i < len; i++)
        power_off(&guests[i]);
}

/* Runs a guest of a kind of queues, of so many requests; or where that is 0, beside a hostile guest for so many seconds. */
static void run_kind(unsigned kind, uint32_t requests, unsigned seconds, uint32_t seed)
{
    static const char *const names[][MOST] = {
        { "split", "hostile beside split" }, { "split-event", "hostile beside split-event" },
        { "packed", "hostile beside packed" }, { "packed-event", "hostile beside packed-event" },
    };
    struct control control = { .packed = kind >> 1, .event_idx = kind & 1, .seed = seed, .requests = requests };
    control.bytes = requests != 0 ? BYTES : 0;
    control.sent_frames = requests != 0 ? SENT : 0;
    control.drawn_bytes = requests != 0 ? DRAWN_BYTES : 0;
    power_on(&guests[0], &hosts[0], names[kind][0], control);
    if (requests == 0) {
        control.is_hostile = 1;
        power_on(&guests[1], &hosts[1], names[kind][1], control);
    }
    run_all(requests != 0 ? 1 : 2, seconds);
    if (requests != 0)
        printf("%s: each of %u requests was served once, and %d bytes typed and put out\n", names[kind][0], requests, BYTES);
    else
        printf("%s: beside a hostile guest it saw nothing, and no host was asked for anything outside\n", names[kind][0]);
    fflush(stdout);
}

int main(int words_len, char **words)
{
    enum { KINDS_OF_QUEUES = 4 };
    if (words_len < 4) {
        fprintf(stderr, "kvm-racing PROGRAM REQUESTS SECONDS [SEED]\n");
        return 2;
    }
    program = words[1];
    uint32_t requests = (uint32_t)strtoul(words[2], NULL, 10) / STEPS * STEPS;
    uint32_t seed = words_len > 4 ? (uint32_t)strtoul(words[4], NULL, 10) : 1;
    unsigned seconds = (unsigned)strtoul(words[3], NULL, 10);
    kvm = open("/dev/kvm", O_RDWR | O_CLOEXEC);
    if (kvm < 0) {
        perror("/dev/kvm");
        return NO_KVM;
    }
    for (unsigned kind = 0; kind < KINDS_OF_QUEUES && requests != 0; kind++)
        run_kind(kind, requests, 0, seed);
    for (unsigned kind = 0; kind < KINDS_OF_QUEUES && seconds != 0; kind++)
        run_kind(kind, 0, (seconds + 3) / KINDS_OF_QUEUES, seed);
    close(kvm);
    return 0;
}
