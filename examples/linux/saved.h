/*
 * A guest in a file: what its machine keeps, its devices, its disk and its memory. Only this build of the machine reads it.
 * It is written and read from its front to its end, so it may be a pipe to another host.
 */
#ifndef SAVED_H
#define SAVED_H

#include "machine.h"

struct saved;

/* Saves a guest that was stopped (machine_stop), with its disk of this name and so many bytes. */
void saved_write(const char *path, const struct machine *machine, const char *disk_name, uint64_t disk_len);

struct saved *saved_read(const char *path);

/* The name of its disk's file, and the disk's bytes. Both are the caller's. */
char *saved_disk_name(struct saved *saved);
struct machine_file saved_disk(const struct saved *saved);

/* Brings it back into a machine that was opened, on a slot with its disk, and frees all else that was read. */
void saved_resume(struct saved *saved, struct machine *machine);

#endif
