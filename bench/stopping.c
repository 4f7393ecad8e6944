/*
 * What it costs to stop a guest's CPUs for a call, as examples/embed/support/cpus.c does over KVM. bench/library builds it.
 *
 * A guest has two, then four CPUs. One has left KVM_RUN with an exit, and its thread stops the others, which run a loop
 * in the guest, and lets them go. A round's time is that of cpus_stop; between rounds they run again for a while.
 */
#define _GNU_SOURCE
#include <errno.h>
#include <fcntl.h>
#include <pthread.h>
#include <stdint.h>
#include <stdio.h>
#include <stdlib.h>
#include <string.h>
#include <sys/ioctl.h>
#include <sys/mman.h>
#include <time.h>
#include <unistd.h>

#include "cpus.h"

enum { PAGE = 4096, ROUNDS = 2001, PAUSE = 200, NO_KVM = 77 };

/* `jmp .` of real mode, which the CPUs run. */
static const uint8_t LOOP[] = { 0xeb, 0xfe };

struct cpu_thread {
    struct cpus *cpus;
    unsigned number;
};

static int must(int result, const char *what)
{
    if (result < 0) {
        perror(what);
        exit(1);
    }
    return result;
}

/* Adds a CPU to a machine that begins in the loop at address 0. */
static void add_cpu(struct cpus *cpus, int kvm, int machine)
{
    struct kvm_sregs segments;
    struct kvm_regs registers = { .rip = 0, .rflags = 2 };
    int cpu = must(ioctl(machine, KVM_CREATE_VCPU, cpus->len), "KVM_CREATE_VCPU");
    size_t len = (size_t)must(ioctl(kvm, KVM_GET_VCPU_MMAP_SIZE, 0), "KVM_GET_VCPU_MMAP_SIZE");
    struct kvm_run *run = mmap(NULL, len, PROT_READ | PROT_WRITE, MAP_SHARED, cpu, 0);
    must(run == MAP_FAILED ? -1 : 0, "the CPU's exits");
    must(ioctl(cpu, KVM_GET_SREGS, &segments), "KVM_GET_SREGS");
    segments.cs.base = segments.cs.selector = 0;
    must(ioctl(cpu, KVM_SET_SREGS, &segments), "KVM_SET_SREGS");
    must(ioctl(cpu, KVM_SET_REGS, &registers), "KVM_SET_REGS");
    cpus_add(cpus, cpu, run);
}

static int new_machine(int kvm)
{
    int machine = must(ioctl(kvm, KVM_CREATE_VM, 0), "KVM_CREATE_VM");
    uint8_t *memory = mmap(NULL, PAGE, PROT_READ | PROT_WRITE, MAP_PRIVATE | MAP_ANONYMOUS, -1, 0);
    must(memory == MAP_FAILED ? -1 : 0, "memory");
    memcpy(memory, LOOP, sizeof LOOP);
    struct kvm_userspace_memory_region region = { .memory_size = PAGE, .userspace_addr = (uintptr_t)memory };
    must(ioctl(machine, KVM_SET_USER_MEMORY_REGION, &region), "KVM_SET_USER_MEMORY_REGION");
    return machine;
}

static void *run(void *user)
{
    const struct cpu_thread *thread = user;
    while (cpus_run(thread->cpus, thread->number) == 0 || errno == EINTR)
        continue;
    if (errno != ECANCELED)
        perror("KVM_RUN");
    return NULL;
}

static double microseconds(void)
{
    struct timespec now;
    clock_gettime(CLOCK_MONOTONIC, &now);
    return 1e6 * (double)now.tv_sec + 1e-3 * (double)now.tv_nsec;
}

static int compare(const void *left, const void *right)
{
    double a = *(const double *)left, b = *(const double *)right;
    return (a > b) - (a < b);
}

/* Waits until all CPUs are on their way into the guest, and lets them run there for a while. */
static void let_run(struct cpus *cpus)
{
    bool all = false;
    while (!all) {
        usleep(PAUSE);
        pthread_mutex_lock(&cpus->lock);
        all = true;
        for (unsigned i = 0; i < cpus->len; i++)
            all = all && cpus->all[i].runs;
        pthread_mutex_unlock(&cpus->lock);
    }
    usleep(PAUSE);
}

/* Stops the CPUs in rounds, and prints the times within which half of the rounds and a tenth of them stay. */
static void measure(struct cpus *cpus)
{
    static double times[ROUNDS];
    for (unsigned i = 0; i < ROUNDS; i++) {
        let_run(cpus);
        double start = microseconds();
        cpus_stop(cpus);
        times[i] = microseconds() - start;
        cpus_go(cpus);
    }
    qsort(times, ROUNDS, sizeof *times, compare);
    printf("%u CPUs: %.1f microseconds, a tenth of the rounds within %.1f\n", cpus->len + 1, times[ROUNDS / 2],
           times[ROUNDS / 10]);
}

/* A guest of so many CPUs, of which this thread has one that stands already. */
static void guest(unsigned count, int kvm)
{
    struct cpus cpus;
    struct cpu_thread threads[CPUS_MOST];
    pthread_t ids[CPUS_MOST];
    int machine = new_machine(kvm);
    cpus_begin(&cpus);
    for (unsigned i = 0; i + 1 < count; i++) {
        add_cpu(&cpus, kvm, machine);
        threads[i] = (struct cpu_thread){ &cpus, i };
    }
    for (unsigned i = 0; i + 1 < count; i++)
        must(-pthread_create(&ids[i], NULL, run, &threads[i]), "a thread");
    measure(&cpus);
    cpus_end(&cpus);
    for (unsigned i = 0; i + 1 < count; i++)
        must(-pthread_join(ids[i], NULL), "a thread's end");
}

int main(void)
{
    int kvm = open("/dev/kvm", O_RDWR | O_CLOEXEC);
    if (kvm < 0) {
        perror("/dev/kvm");
        return NO_KVM;
    }
    guest(2, kvm);
    guest(4, kvm);
    return 0;
}
