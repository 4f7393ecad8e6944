/* What stands in the folder once a run is at its end: a guest's disk, and by what two of its runs are compared. */
#ifndef REPORT_H
#define REPORT_H

#include <stdbool.h>

#include "machine.h"

/* Ends the guest's files; tells on the screen what is out of the ordinary. Whether the guest went off. */
bool report_machine(const struct machine *machine, const char *folder);

/* Writes a guest's disk to the folder, and to `kept` where that isn't NULL. */
void report_disk(size_t guest, size_t len, const char *folder, const char *kept);

/* Says of the guest's further disks what was asked of them. */
void report_further(uint8_t slot);

#endif
