/* The file of disk.h. */
#include "disk.h"

#include <stdio.h>
#include <stdlib.h>

#include "../embed/support/in_place.h"

static const char *name; /* of the file, or NULL */

static void must(const char *wrong)
{
    if (wrong != NULL) {
        fprintf(stderr, "linux-machine: %s %s\n", name, wrong);
        exit(2);
    }
}

const uint8_t *disk_open(const char *path, size_t len)
{
    name = path;
    must(in_place_open(path, len));
    return in_place_image();
}

void disk_serve(struct kalyubos *board)
{
    if (name != NULL)
        must(in_place_serve(board));
}

void disk_sync(void)
{
    if (name != NULL)
        must(in_place_sync());
}

void disk_close(void)
{
    if (name != NULL)
        in_place_close();
}
