/*
 * pattern SEED [COUNT]: the bytes that a guest writes for a seed, by which linux-test compares its disk; with a count, as many
 * pieces of what it sends to another.
 */
#include "pattern.h"

#include <stdio.h>
#include <stdlib.h>

int main(int argc, char **argv)
{
    static char bytes[BLOCK];
    if (argc != 2 && argc != 3)
        return 2;
    unsigned int seed = strtoul(argv[1], NULL, 10), count = argc == 3 ? strtoul(argv[2], NULL, 10) : 0;
    for (unsigned int i = 0; i < count; i++) {
        fill_piece(bytes, seed, i);
        fwrite(bytes, 1, PIECE, stdout);
    }
    if (argc == 2) {
        fill(bytes, seed);
        fwrite(bytes, 1, BLOCK, stdout);
    }
    return fflush(stdout) == 0 ? 0 : 1;
}
