/* The words of the command; main.c says what they are. */
#ifndef WORDS_H
#define WORDS_H

#include <stdbool.h>
#include <stddef.h>
#include <stdint.h>

struct words {
    const char *kernel, *tree;
    const char *to;     /* the folder of the guests' files */
    const char *script; /* the lines that are typed, one at each prompt */
    const char *save; /* the file that guest 0 is saved to, or NULL, */
    uint64_t save_at; /* once it has run so many cycles */
    const char *record;
    const char *image; /* the file of all disks, which is served in place, or NULL */
    bool hosted;       /* each disk is the guest's file, which the host serves, */
    bool threads;      /* without io_uring */
    uint32_t depth;    /* how many operations of it may be in flight */
    uint64_t latency;  /* how many instructions such a disk takes, or all ones: as many as pass */
    uint64_t seed;     /* of the order in which operations end that are in flight together */
    uint32_t cache, outlet;
    uint32_t chains; /* the budget of a call, or 0 for no limit */
    uint64_t bytes;
    uint64_t hidden; /* feature bits that no driver is shown */
    uint64_t cycles; /* a guest that isn't off after so many is left */
    bool late, copies, interactive, quiet;
    bool large; /* each guest has two regions of memory */
    bool devices; /* each has an entropy device and a network card */
    const char *disks; /* the folder of the files of two further disks of each, or NULL */
    bool spare; /* these lie over spare sectors of the image */
    const char *frames; /* the file of the frames that guest 0's card is handed, or NULL: those of the switch */
    int shown; /* the one guest on the screen, or -1 for all */
    int kept;  /* the guest whose disk goes back to its file, or -1 */
    char **guests;
    size_t count;
};

/* Ends the process where the words aren't as they should be. */
struct words words_of(int argc, char **argv);

/* The file of a word saved:FILE, a guest that goes on from it; else NULL. */
const char *saved_file(const char *word);

/* Says what went wrong, and ends the process. */
_Noreturn void fail(const char *what);

#endif
