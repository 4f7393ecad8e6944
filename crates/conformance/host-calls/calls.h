/* calls.h: what rows.c, host.c, events.c and heap.c share. */
#ifndef CALLS_H
#define CALLS_H

#include <stdbool.h>
#include <stddef.h>
#include <stdint.h>

#include "kalyubos.h"

/* ---- rows.c: the words of a row's call, and its answer */

/* The words that are left of a call. One that is missing or no such number counts as an empty one or 0. */
struct words {
    const char *left; /* null where none is left */
    bool is_wrong;
};

/* The next word, up to a space or the end. */
struct word {
    const char *at;
    size_t len;
};
struct word next_word(struct words *words);
bool is_word(struct word word, const char *text);

/* The next word as a hexadecimal number of at most so much. */
uint64_t next_number(struct words *words, uint64_t most);

/* The next word as bytes, two digits each, `-` for none; how many they are. There are never more than MOST_BYTES. */
enum { MOST_BYTES = 1 << 16 };
size_t next_bytes(struct words *words, uint8_t *bytes);

/* Writes behind the answer: as printf does, bytes, and a code's name, which for DONE is `ok`. */
void put(const char *format, ...);
void put_bytes(const uint8_t *bytes, size_t len);
void put_code(uint32_t code);

/* What came of a row's call. */
enum made {
    ANSWERED,
    NO_CALL,       /* the words are of no call */
    NO_CONDITIONS, /* what the call is made of isn't there */
};

/* Makes the call that a line has, and writes its answer. */
enum made make_call(const char *line);

/* ---- host.c and events.c: the board that rows' calls are of */

/* The board; none where it is zeroed. */
extern struct kalyubos board;

/* Makes the call that a line of a trace's event is. */
enum made make_event(const char *line);

/* Asks for a further device of a slot, in the words of a trace's `plug`: which place of which slot gets it. */
bool read_device(const char *words, unsigned *slot, unsigned *place, struct kalyubos_device *further);

/* How many bytes were taken, and what was answered; a refusal tells none. */
void put_taken(uint32_t code, size_t taken);

/* Moves out what a further device's driver sent: shows its bytes, or only how many they are. */
void put_sent(uint8_t slot, uint8_t window, bool shows_bytes);

/* ---- heap.c: the library's heap, which counts, and refuses from a request on */

/* Refuses the nth request for memory from now on, and those behind it; 0 refuses none. */
void refuse_from(uint64_t n);

/* How many requests came since then, and how many blocks were given back. */
uint64_t requests(void);
uint64_t returns(void);

/* How many blocks are taken. */
uint64_t blocks(void);

#endif
