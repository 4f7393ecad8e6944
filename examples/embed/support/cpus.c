/* See cpus.h. */
#define _GNU_SOURCE
#include "cpus.h"

#include <errno.h>
#include <signal.h>
#include <sys/ioctl.h>

/* A signal ends KVM_RUN; there is nothing else to do. */
static void wake(int number)
{
    (void)number;
}

void cpus_begin(struct cpus *cpus)
{
    struct sigaction action = { .sa_handler = wake };
    sigaction(SIGUSR1, &action, NULL);
    *cpus = (struct cpus){ .len = 0 };
    pthread_mutex_init(&cpus->lock, NULL);
    pthread_cond_init(&cpus->changed, NULL);
}

unsigned cpus_add(struct cpus *cpus, int file, struct kvm_run *exit)
{
    cpus->all[cpus->len] = (struct cpu){ .file = file, .exit = exit };
    return cpus->len++;
}

static void change(struct cpus *cpus, bool *what, bool value)
{
    pthread_mutex_lock(&cpus->lock);
    *what = value;
    pthread_cond_broadcast(&cpus->changed);
    pthread_mutex_unlock(&cpus->lock);
}

int cpus_run(struct cpus *cpus, unsigned number)
{
    struct cpu *cpu = &cpus->all[number];
    pthread_mutex_lock(&cpus->lock);
    while (cpus->stand && !cpus->ended)
        pthread_cond_wait(&cpus->changed, &cpus->lock);
    bool ended = cpus->ended;
    cpu->thread = pthread_self();
    cpu->runs = !ended;
    cpu->exit->immediate_exit = 0;
    pthread_mutex_unlock(&cpus->lock);
    int result = ended ? -1 : ioctl(cpu->file, KVM_RUN, 0), why = ended ? ECANCELED : errno;
    change(cpus, &cpu->runs, false);
    errno = why;
    return result;
}

/*
 * A CPU that runs leaves KVM_RUN at the signal. Where the signal comes before KVM_RUN, `immediate_exit` ends that at once. The
 * lock is held.
 */
static void kick(struct cpus *cpus)
{
    for (struct cpu *cpu = cpus->all; cpu < cpus->all + cpus->len; cpu++)
        if (cpu->runs) {
            cpu->exit->immediate_exit = 1;
            pthread_kill(cpu->thread, SIGUSR1);
        }
}

static bool any_runs(const struct cpus *cpus)
{
    for (unsigned i = 0; i < cpus->len; i++)
        if (cpus->all[i].runs)
            return true;
    return false;
}

void cpus_stop(struct cpus *cpus)
{
    pthread_mutex_lock(&cpus->lock);
    while (cpus->stand)
        pthread_cond_wait(&cpus->changed, &cpus->lock);
    cpus->stand = true;
    kick(cpus);
    while (any_runs(cpus))
        pthread_cond_wait(&cpus->changed, &cpus->lock);
    pthread_mutex_unlock(&cpus->lock);
}

void cpus_go(struct cpus *cpus)
{
    change(cpus, &cpus->stand, false);
}

void cpus_end(struct cpus *cpus)
{
    cpus_stop(cpus);
    change(cpus, &cpus->ended, true);
    cpus_go(cpus);
}
