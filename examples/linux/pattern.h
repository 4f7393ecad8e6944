/* What a guest writes to its disk: bytes that differ from place to place and from seed to seed. */
#ifndef PATTERN_H
#define PATTERN_H

enum { BLOCK = 0x10000, PIECE = 1024 };

static inline void fill(char *bytes, unsigned int seed)
{
    for (int i = 0; i < BLOCK; i++) {
        seed = seed * 1103515245 + 12345;
        bytes[i] = seed >> 16;
    }
}

/* A piece of what a guest sends to another: the same for its number. */
static inline void fill_piece(char *bytes, unsigned int guest, unsigned int number)
{
    unsigned int seed = guest << 16 ^ number;
    for (int i = 0; i < PIECE; i++) {
        seed = seed * 1103515245 + 12345;
        bytes[i] = seed >> 16;
    }
}

#endif
