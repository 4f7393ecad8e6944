/*
 * racing_accesses: by which instructions the library touches the memory of guests that run on. The library has that memory in a
 * place where each access is forbidden, beside the one where CPUs and host have it. So each access comes to a signal's handler,
 * which looks at the instruction, notes it, and has it made alone. An instruction that is neither a load nor a locked step of
 * 8 bytes ends the process with a line, and so does an address that is no multiple of 8. A CPU may write behind each access.
 */
#ifndef RACING_ACCESSES_H
#define RACING_ACCESSES_H

#include <stddef.h>
#include <stdint.h>

/* A second place for the first `len` bytes of a file of memory, for the library alone, which one thread at a time touches. */
uint8_t *racing_accesses_watch(int file, size_t len);

/* From now on a CPU adds `step` to a word of such a place behind each access to it: `word` is where that CPU has it. */
void racing_accesses_meddle(const uint8_t *watched, _Atomic uint64_t *word, uint64_t step);

/* Writes where each instruction lies that touched such a place, and how often it did. Answers how many there are. */
unsigned racing_accesses_write(const char *path);

#endif
