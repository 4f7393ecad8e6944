/* The file of in_place.h, and its heap: as heap.c, but that the image's block has pages of its own. */
#define _GNU_SOURCE
#include "in_place.h"

#include <errno.h>
#include <fcntl.h>
#include <stdio.h>
#include <stdlib.h>
#include <string.h>
#include <sys/file.h>
#include <sys/mman.h>
#include <sys/stat.h>
#include <unistd.h>

enum { PAGE = 4096 };

static int file = -1;
static size_t image_len; /* 0 where no file is open */
static uint8_t *image;   /* the file's bytes, until it is served */
static uint8_t *block;   /* of the heap, and of the image's length */
static char sentence[256];

/* ---- the heap */

static struct kalyubos_block block_at(void *at)
{
    return (struct kalyubos_block){ at != NULL, at };
}

static void *take_pages(size_t size)
{
    void *at = mmap(NULL, size, PROT_READ | PROT_WRITE, MAP_PRIVATE | MAP_ANONYMOUS, -1, 0);
    return at != MAP_FAILED ? at : NULL;
}

static void give_pages(void)
{
    munmap(block, image_len);
    block = NULL;
}

struct kalyubos_block kalyubos_alloc(size_t size, size_t align)
{
    if (block == NULL && size == image_len && size != 0 && align == 1)
        return block_at(block = take_pages(size));
    return block_at(size != 0 && size % PAGE == 0 ? aligned_alloc(PAGE, size) : malloc(size != 0 ? size : align));
}

/* A block of another length isn't the image's. */
struct kalyubos_block kalyubos_realloc(void *at, size_t kept, size_t size, size_t align)
{
    if (at == NULL || at != block)
        return block_at(realloc(at, size != 0 ? size : align));
    void *moved = malloc(size != 0 ? size : align);
    if (moved != NULL) {
        memcpy(moved, at, kept < size ? kept : size);
        give_pages();
    }
    return block_at(moved);
}

void kalyubos_dealloc(void *at)
{
    if (at != NULL && at == block)
        give_pages();
    else
        free(at);
}

/* ---- the file */

static const char *fault(const char *what)
{
    snprintf(sentence, sizeof sentence, "%s: %s", what, strerror(errno));
    return sentence;
}

/*
 * What is wrong with the file that was opened, or NULL. The room for its holes is taken here: where there is none later,
 * the system ends the host.
 */
static const char *fault_of_file(void)
{
    struct stat found;
    if (fstat(file, &found) != 0)
        return fault("can't be looked at");
    if ((uintmax_t)found.st_size != image_len) {
        snprintf(sentence, sizeof sentence, "has %ju bytes instead of the image's %zu", (uintmax_t)found.st_size,
                 image_len);
        return sentence;
    }
    if (flock(file, LOCK_EX | LOCK_NB) != 0 && errno == EWOULDBLOCK)
        return "is served by another program";
    void *at = mmap(NULL, image_len, PROT_READ, MAP_SHARED, file, 0);
    if (at == MAP_FAILED)
        return fault("can't be mapped");
    image = at;
    return (errno = posix_fallocate(file, 0, (off_t)image_len)) == 0 ? NULL : fault("has no room");
}

const char *in_place_open(const char *path, size_t len)
{
    file = open(path, O_RDWR | O_CLOEXEC);
    if (file < 0)
        return fault("can't be opened");
    image_len = len;
    const char *wrong = fault_of_file();
    if (wrong != NULL)
        in_place_close();
    return wrong;
}

const uint8_t *in_place_image(void)
{
    return image;
}

const char *in_place_serve(struct kalyubos *board)
{
    const uint8_t *bytes;
    size_t len;
    if (kalyubos_image(board, &bytes, &len) != KALYUBOS_DONE || bytes != block || len != image_len)
        return "can't be mapped: the library has its image elsewhere";
    if (mmap(block, image_len, PROT_READ | PROT_WRITE, MAP_SHARED | MAP_FIXED, file, 0) == MAP_FAILED)
        return fault("can't be mapped");
    munmap(image, image_len);
    image = NULL;
    return NULL;
}

const char *in_place_sync(void)
{
    return msync(block, image_len, MS_SYNC) == 0 ? NULL : fault("can't be written");
}

void in_place_close(void)
{
    if (image != NULL)
        munmap(image, image_len);
    close(file);
    image = NULL;
    image_len = 0;
    file = -1;
}
