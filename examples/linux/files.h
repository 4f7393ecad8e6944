/* Files as a whole. What can't be read or written ends the process. */
#ifndef FILES_H
#define FILES_H

#include <stdio.h>

#include "machine.h"

FILE *open_file(const char *path, const char *mode);

/* A guest's file in a folder, as guest-0.console. */
FILE *create_file(const char *folder, size_t guest, const char *what);

struct machine_file read_file(const char *path);

/* Puts bytes in a file's place, which holds the old ones or the new ones whenever one looks. */
void replace_file(const char *path, const uint8_t *bytes, size_t len);

#endif
