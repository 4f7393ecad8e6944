/*
 * How much stack the library's calls take. A host that is linked with this file, and with -Wl,--wrap= for each call that the header
 * CALLS names, makes these calls on a stack of its own, one at a time. It is painted, and what lies below the last paint that is
 * gone wasn't touched. At its end the host adds a line for each call to the file that STACKS names: the most bytes that it took, with
 * what the host's heap took in it, and its name.
 */
#include <stddef.h>
#include <stdint.h>
#include <stdio.h>
#include <stdlib.h>

struct call {
    const char *name;
    size_t most;
};

/* Each call's record, and what stands in its place: it hands on the call and its record. */
#define CALL(name)                                                                                                  \
    __attribute__((used)) static struct call call_of_##name = { #name, 0 };                                         \
    __asm__(".globl __wrap_" #name "\n__wrap_" #name ":\n    lea call_of_" #name "(%rip), %r10\n    lea __real_" #name \
            "(%rip), %r11\n    jmp make_on_painted_stack\n");
#include CALLS
#undef CALL

#define CALL(name) &call_of_##name,
static struct call *const calls[] = {
#include CALLS
};
#undef CALL

/* The stack, which grows down, and what it is painted with. */
enum { WORDS = 1 << 15 };
static const uint64_t PAINT = 0x5741534e4f544845;
static uint64_t stack[WORDS] __attribute__((aligned(16)));
__attribute__((used)) static uint64_t *const stack_end = stack + WORDS;

static void paint_from(size_t word)
{
    for (; word < WORDS; word++)
        stack[word] = PAINT;
}

__attribute__((constructor)) static void paint(void)
{
    paint_from(0);
}

/* Notes how much a call took, and paints that again. */
__attribute__((used)) static void note_stack(struct call *call)
{
    size_t word = 0;
    while (word < WORDS && stack[word] == PAINT)
        word++;
    if (call->most < sizeof stack - 8 * word)
        call->most = sizeof stack - 8 * word;
    paint_from(word);
}

__attribute__((destructor)) static void tell(void)
{
    FILE *file = fopen(getenv("STACKS"), "a");
    for (size_t at = 0; file && at < sizeof calls / sizeof *calls; at++)
        if (calls[at]->most != 0)
            fprintf(file, "%zu %s\n", calls[at]->most, calls[at]->name);
    if (!file || fclose(file) != 0)
        abort();
}

/* Calls what %r11 has with the arguments of whoever called this, up to four of which stand on its stack. %r10 has the call. */
__asm__("make_on_painted_stack:\n"
        "    push %rbp\n"
        "    mov %rsp, %rbp\n"
        "    push %r10\n"
        "    sub $8, %rsp\n"
        "    mov stack_end(%rip), %rsp\n"
        "    push 40(%rbp)\n"
        "    push 32(%rbp)\n"
        "    push 24(%rbp)\n"
        "    push 16(%rbp)\n"
        "    call *%r11\n"
        "    lea -16(%rbp), %rsp\n"
        "    mov %rax, (%rsp)\n"
        "    mov 8(%rsp), %rdi\n"
        "    call note_stack\n"
        "    mov (%rsp), %rax\n"
        "    leave\n"
        "    ret\n");
