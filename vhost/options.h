/* options: the command line, as QEMU's conventions for back ends have it, and a disk's own words. */
#ifndef OPTIONS_H
#define OPTIONS_H

#include "disk.h"

enum { SOCKETS = 16 };

struct options {
    struct disk *disk;
    const char *paths[SOCKETS]; /* of sockets to make */
    unsigned paths_len;
    int file;                   /* a socket that is open, or -1 */
    const char *user;           /* whose rights the program keeps, or NULL */
    bool is_bare;               /* no filter of system calls */
};

/*
 * Reads the command line. -1 where the program goes on; else its exit status: of --help, --version and --print-capabilities, or behind
 * a sentence that says what is wrong.
 */
int options_read(struct options *options, int words_len, char **words);

#endif
