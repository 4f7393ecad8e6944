#define _GNU_SOURCE
#include "racing_accesses.h"

#include <inttypes.h>
#include <signal.h>
#include <stdatomic.h>
#include <stdbool.h>
#include <stdio.h>
#include <stdlib.h>
#include <string.h>
#include <sys/mman.h>
#include <ucontext.h>
#include <unistd.h>

enum { PLACES = 64, SITES = 256, PAGE = 4096, TRAP = 0x100 /* a flag: one instruction, and then SIGTRAP */ };

static struct { uint8_t *bytes; size_t len; } places[PLACES];
static _Atomic unsigned places_len;

/* An instruction that touched a place. */
static struct site {
    _Atomic uintptr_t at;
    _Atomic uint64_t times;
} sites[SITES];

/* The page that this thread may touch for one instruction, and the word that this one touches. */
static _Thread_local uint8_t *open_page;
static _Thread_local uintptr_t touched_word;

/* The word that a CPU writes behind each access. */
static struct { uintptr_t watched; _Atomic uint64_t *word; uint64_t step; } meddled;

static void end(const char *why, uintptr_t at, uintptr_t touched)
{
    char text[200];
    const uint8_t *code = (const uint8_t *)at;
    int len = snprintf(text, sizeof text, "racing_accesses: %s: at %#" PRIxPTR ", of %#" PRIxPTR ":", why, at, touched);
    for (int i = 0; i < 12; i++)
        len += snprintf(text + len, sizeof text - (size_t)len, " %02x", code[i]);
    text[len++] = '\n';
    _exit(write(STDERR_FILENO, text, (size_t)len) < 0 ? 2 : 1);
}

/* ---- what an instruction is */

/*
 * The instructions that compilers make of atomic loads and steps of 8 bytes (Intel's manual, volume 2): perhaps a lock prefix,
 * a REX prefix that makes the operand 64 bits wide, and an operation on memory and a register or a constant.
 */
static bool is_good(const uint8_t *code)
{
    static const uint8_t locked[] = { 0x01, 0x09, 0x21, 0x29, 0x31, 0x81, 0x83 }; /* add, or, and, sub, xor to memory */
    bool is_locked = *code == 0xf0;
    code += is_locked;
    if ((*code & 0xf8) != 0x48)
        return false;
    code++;
    if (!is_locked)
        return *code == 0x8b || *code == 0x87; /* mov from memory; xchg, which needs no prefix */
    if (*code == 0x0f)
        return code[1] == 0xb1 || code[1] == 0xc1; /* cmpxchg, xadd */
    return *code == 0x87 || memchr(locked, *code, sizeof locked) != NULL;
}

static void note(uintptr_t at)
{
    for (unsigned i = 0; i < SITES; i++) {
        uintptr_t none = 0;
        if (sites[i].at == at || atomic_compare_exchange_strong(&sites[i].at, &none, at) || none == at) {
            sites[i].times++;
            return;
        }
    }
    end("more instructions than there is room for", at, 0);
}

/* ---- the handlers */

static bool is_watched(uintptr_t touched)
{
    for (unsigned i = 0; i < places_len; i++)
        if (touched - (uintptr_t)places[i].bytes < places[i].len)
            return true;
    return false;
}

static void on_access(int number, siginfo_t *info, void *context)
{
    ucontext_t *now = context;
    uintptr_t at = (uintptr_t)now->uc_mcontext.gregs[REG_RIP], touched = (uintptr_t)info->si_addr;
    (void)number;
    if (!is_watched(touched) || open_page != NULL)
        end("an access to nobody's memory", at, touched);
    if (!is_good((const uint8_t *)at))
        end("neither a load of 8 bytes nor a locked step of 8 bytes", at, touched);
    if (touched % 8 != 0)
        end("an access across words", at, touched);
    note(at);
    touched_word = touched;
    open_page = (uint8_t *)(touched & ~(uintptr_t)(PAGE - 1));
    if (mprotect(open_page, PAGE, PROT_READ | PROT_WRITE) != 0)
        end("mprotect", at, touched);
    now->uc_mcontext.gregs[REG_EFL] |= TRAP;
}

static void on_step(int number, siginfo_t *info, void *context)
{
    ucontext_t *now = context;
    (void)number;
    (void)info;
    if (open_page == NULL || mprotect(open_page, PAGE, PROT_NONE) != 0)
        end("mprotect", (uintptr_t)now->uc_mcontext.gregs[REG_RIP], 0);
    if (touched_word == meddled.watched)
        atomic_fetch_add(meddled.word, meddled.step);
    open_page = NULL;
    now->uc_mcontext.gregs[REG_EFL] &= ~TRAP;
}

uint8_t *racing_accesses_watch(int file, size_t len)
{
    struct sigaction access = { .sa_flags = SA_SIGINFO, .sa_sigaction = on_access };
    struct sigaction step = { .sa_flags = SA_SIGINFO, .sa_sigaction = on_step };
    uint8_t *bytes = mmap(NULL, len, PROT_NONE, MAP_SHARED, file, 0);
    bool has_handlers = sigaction(SIGSEGV, &access, NULL) == 0 && sigaction(SIGTRAP, &step, NULL) == 0;
    if (bytes == MAP_FAILED || places_len == PLACES || !has_handlers) {
        perror("racing_accesses");
        exit(1);
    }
    places[places_len].bytes = bytes;
    places[places_len].len = len;
    places_len++;
    return bytes;
}

void racing_accesses_meddle(const uint8_t *watched, _Atomic uint64_t *word, uint64_t step)
{
    meddled.watched = (uintptr_t)watched;
    meddled.word = word;
    meddled.step = step;
}

unsigned racing_accesses_write(const char *path)
{
    unsigned len = 0;
    FILE *file = fopen(path, "w");
    for (; file != NULL && len < SITES && sites[len].at != 0; len++)
        fprintf(file, "%" PRIxPTR " %" PRIu64 "\n", sites[len].at, sites[len].times);
    if (file == NULL || fclose(file) != 0) {
        perror(path);
        exit(1);
    }
    return len;
}
