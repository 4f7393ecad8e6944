/* Preloaded by trouble and by tests/program/calls: calls of the system or requests for memory go wrong, and what was written is lost
   where a sync failed, as a system may lose it.

   TROUBLE is CALL NUMBER HOW: the call of that name with that number, from 0 on, `fails` (EIO), finds the device
   `full` (ENOSPC), is `interrupted` (EINTR), comes `short` (half), or finds the file `cut` to half its length; with `on` behind
   it, so does each later one. A comma stands between several. The calls are pread, pwrite, fdatasync, lseek to the end, open,
   read, write, and memory, which is each malloc and realloc.
   Numbers of calls are written to the file TROUBLE_COUNTS where the program ends. */
#define _GNU_SOURCE
#include <dlfcn.h>
#include <errno.h>
#include <fcntl.h>
#include <stdarg.h>
#include <stdio.h>
#include <stdlib.h>
#include <string.h>
#include <sys/stat.h>
#include <sys/types.h>
#include <unistd.h>

#define SECTOR 512
#define MOST 65536

enum { PREAD, PWRITE, FDATASYNC, LSEEK, OPEN, READ, WRITE, MEMORY, CALLS };
static const char *const names[CALLS] = {"pread", "pwrite", "fdatasync", "lseek", "open", "read", "write", "memory"};
static long counts[CALLS];

/* What stood where something was written since the last sync. */
static struct { int fd; off_t at; ssize_t length; char bytes[SECTOR]; } unsynced[MOST];
static int unsynced_count;

typedef ssize_t reads(int, void *, size_t, off_t);
typedef ssize_t writes(int, const void *, size_t, off_t);
typedef int syncs(int);
typedef off_t seeks(int, off_t, int);
typedef int opens(const char *, int, ...);
typedef ssize_t plain_reads(int, void *, size_t);
typedef ssize_t plain_writes(int, const void *, size_t);
typedef void *makes(size_t);
typedef void *grows(void *, size_t);

static void *real(int call) { return dlsym(RTLD_NEXT, names[call]); }

/* What is to happen to this call: a word, or none. */
static const char *trouble(int call) {
    static char how[32];
    char name[32], on[32];
    long number;
    long now = counts[call]++;
    for (const char *asked = getenv("TROUBLE"); asked; asked = strchr(asked, ',')) {
        if (*asked == ',') asked++;
        int words = sscanf(asked, "%31[a-z] %ld %31[a-z] %31[a-z]", name, &number, how, on);
        if (words >= 3 && strcmp(name, names[call]) == 0 && (number == now || (words == 4 && number < now))) return how;
    }
    return NULL;
}

/* Whether the call is not to be made; it may be cut down, and so may the file. */
static int goes_wrong(int call, int fd, size_t *length) {
    const char *how = trouble(call);
    if (!how) return 0;
    if (strcmp(how, "short") == 0) *length /= 2;
    if (strcmp(how, "cut") == 0) {
        struct stat file;
        if (fstat(fd, &file) == 0 && ftruncate(fd, file.st_size / 2) != 0) abort();
    }
    errno = strcmp(how, "fails") == 0 ? EIO : strcmp(how, "full") == 0 ? ENOSPC
          : strcmp(how, "interrupted") == 0 ? EINTR : 0;
    return errno != 0;
}

ssize_t pread(int fd, void *into, size_t length, off_t at) {
    if (goes_wrong(PREAD, fd, &length)) return -1;
    return ((reads *)real(PREAD))(fd, into, length, at);
}

ssize_t pwrite(int fd, const void *from, size_t length, off_t at) {
    if (goes_wrong(PWRITE, fd, &length)) return -1;
    if (unsynced_count < MOST && length <= SECTOR) {
        unsynced[unsynced_count].fd = fd;
        unsynced[unsynced_count].at = at;
        unsynced[unsynced_count].length = ((reads *)real(PREAD))(fd, unsynced[unsynced_count].bytes, length, at);
        unsynced_count++;
    }
    return ((writes *)real(PWRITE))(fd, from, length, at);
}

int fdatasync(int fd) {
    size_t none = 0;
    if (goes_wrong(FDATASYNC, fd, &none)) {
        int error = errno;
        if (error == EINTR) return -1;
        while (unsynced_count > 0) {
            unsynced_count--;
            if (unsynced[unsynced_count].length > 0)
                ((writes *)real(PWRITE))(unsynced[unsynced_count].fd, unsynced[unsynced_count].bytes,
                                         unsynced[unsynced_count].length, unsynced[unsynced_count].at);
        }
        errno = error;
        return -1;
    }
    unsynced_count = 0;
    return ((syncs *)real(FDATASYNC))(fd);
}

off_t lseek(int fd, off_t offset, int whence) {
    size_t none = 0;
    if (whence == SEEK_END && goes_wrong(LSEEK, fd, &none)) return -1;
    return ((seeks *)real(LSEEK))(fd, offset, whence);
}

int open(const char *name, int flags, ...) {
    size_t none = 0;
    va_list rest;
    va_start(rest, flags);
    int mode = flags & O_CREAT ? va_arg(rest, int) : 0;
    va_end(rest);
    if (goes_wrong(OPEN, -1, &none)) return -1;
    return ((opens *)real(OPEN))(name, flags, mode);
}

ssize_t read(int fd, void *into, size_t length) {
    if (goes_wrong(READ, fd, &length)) return -1;
    return ((plain_reads *)real(READ))(fd, into, length);
}

ssize_t write(int fd, const void *from, size_t length) {
    if (goes_wrong(WRITE, fd, &length)) return -1;
    return ((plain_writes *)real(WRITE))(fd, from, length);
}

/* How the C library spells it in some places. */
ssize_t __write(int fd, const void *from, size_t length) { return write(fd, from, length); }

static makes *real_malloc;
static grows *real_realloc;

/* Memory is asked for before the program begins, too; that isn't counted. */
static int has_begun;

__attribute__((constructor)) static void begin(void) {
    real_malloc = (makes *)dlsym(RTLD_NEXT, "malloc");
    real_realloc = (grows *)dlsym(RTLD_NEXT, "realloc");
    has_begun = 1;
}

void *malloc(size_t length) {
    if (!real_malloc) begin();
    return has_begun && trouble(MEMORY) ? NULL : real_malloc(length);
}

void *realloc(void *old, size_t length) {
    if (!real_realloc) begin();
    return has_begun && trouble(MEMORY) ? NULL : real_realloc(old, length);
}

__attribute__((destructor)) static void tell(void) {
    has_begun = 0;
    const char *name = getenv("TROUBLE_COUNTS");
    FILE *file = name ? fopen(name, "w") : NULL;
    if (!file) return;
    for (int call = 0; call < CALLS; call++) fprintf(file, "%ld\n", counts[call]);
    fclose(file);
}
