/*
 * The virtual CPUs of one guest over KVM, each on a thread of its own, which all stand while a call touches their guest's
 * memory: the header names these calls.
 *
 * A CPU's thread runs it by cpus_run. Before such a call a thread stops them by cpus_stop, and behind it, once no service of
 * the guest is paused, lets them go by cpus_go. Calls of several threads so come one after another.
 */
#ifndef CPUS_H
#define CPUS_H

#include <linux/kvm.h>
#include <pthread.h>
#include <stdbool.h>

enum { CPUS_MOST = 8 };

struct cpus {
    pthread_mutex_t lock; /* of the fields below */
    pthread_cond_t changed;
    struct cpu {
        int file;             /* KVM's of this CPU */
        struct kvm_run *exit; /* what it shares with the kernel */
        pthread_t thread;
        bool runs; /* it is in KVM_RUN, or on its way there */
    } all[CPUS_MOST];
    unsigned len;
    bool stand; /* a thread has stopped them */
    bool ended; /* none will run again */
};

/* Begins with no CPU. */
void cpus_begin(struct cpus *cpus);

/* Adds a CPU, and answers its number. */
unsigned cpus_add(struct cpus *cpus, int file, struct kvm_run *exit);

/*
 * Runs a CPU of the calling thread until its next exit, as ioctl of KVM_RUN does. Where it fails, `exit` tells nothing: with
 * EINTR another thread stopped it, and it is to be run again; with ECANCELED it is ended.
 */
int cpus_run(struct cpus *cpus, unsigned number);

/* Waits until no CPU of the guest is in KVM_RUN, and keeps all from it. */
void cpus_stop(struct cpus *cpus);

/* Lets them run again. */
void cpus_go(struct cpus *cpus);

/* Ends them: from now on none runs. */
void cpus_end(struct cpus *cpus);

#endif
