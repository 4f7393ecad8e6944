/* Preloaded by stops: writes down what becomes of some files, call by call, and when the program's output went out.

   STOPS_LOG is the file for it. STOPS_FILES are the files that are watched, and STOPS_TOLD those that take output, with a colon
   between two names. STOPS_LIES is the number of a sync, from 0 on, that is answered at once, with nothing synced; with `on`
   behind it, so is each later one.

   An entry is a head and its bytes. A call has one before it is made and one when it has come back, so that calls of several
   threads may overlap. A call by which a watched file would change without an entry ends the program. */
#define _GNU_SOURCE
#include <dlfcn.h>
#include <errno.h>
#include <fcntl.h>
#include <pthread.h>
#include <stdarg.h>
#include <stdint.h>
#include <stdio.h>
#include <stdlib.h>
#include <string.h>
#include <sys/mman.h>
#include <sys/stat.h>
#include <sys/syscall.h>
#include <sys/uio.h>
#include <unistd.h>

enum { WRITE, ZEROS, SYNC, LIE, END, OUTPUT };

/* `call` is the number of a call, which its end repeats; `file` stands in the list of names; `count` is a length, and at
   an end the call's result. */
struct head { uint32_t kind, file; uint64_t call, at; int64_t count; };

static pthread_mutex_t turn = PTHREAD_MUTEX_INITIALIZER;
static int log_file = -1;
static uint64_t calls, syncs;

#define REAL(name) ((__typeof__(&name))dlsym(RTLD_NEXT, #name))

static void give_up(const char *why) {
    fprintf(stderr, "stops: %s\n", why);
    abort();
}

/* ---- the log */

static void put(const void *bytes, size_t length) {
    for (long done; length > 0; bytes = (const char *)bytes + done, length -= done)
        if ((done = syscall(SYS_write, log_file, bytes, length)) <= 0) give_up("the log can't be written");
}

/* Writes an entry down, with its bytes one after the other. */
static void note(struct head head, const struct iovec *parts, int count) {
    if (log_file < 0) log_file = open(getenv("STOPS_LOG"), O_WRONLY | O_CREAT | O_APPEND | O_CLOEXEC, 0600);
    put(&head, sizeof head);
    for (int part = 0; part < count; part++) put(parts[part].iov_base, parts[part].iov_len);
}

static uint64_t begin(int kind, int file, off_t at, int64_t length, const struct iovec *parts, int count) {
    pthread_mutex_lock(&turn);
    uint64_t call = calls++;
    note((struct head){kind, file, call, at, length}, parts, count);
    pthread_mutex_unlock(&turn);
    return call;
}

static int64_t end(uint64_t call, int64_t result) {
    int error = errno;
    pthread_mutex_lock(&turn);
    note((struct head){END, 0, call, 0, result}, NULL, 0);
    pthread_mutex_unlock(&turn);
    errno = error;
    return result;
}

/* Which of the names in a variable this file is, or -1. */
static int found(int fd, const char *variable) {
    const char *names = getenv(variable);
    struct stat one, other;
    char name[4096];
    int error = errno, number = 0;
    if (!names || !*names || fstat(fd, &one) != 0) names = "";
    for (; *names; names += strcspn(names, ":"), names += *names == ':', number++) {
        snprintf(name, sizeof name, "%.*s", (int)strcspn(names, ":"), names);
        if (stat(name, &other) == 0 && one.st_dev == other.st_dev && one.st_ino == other.st_ino) break;
    }
    number = *names ? number : -1;
    errno = error;
    return number;
}

static void must_be_another(int fd, const char *call) {
    if (found(fd, "STOPS_FILES") >= 0) give_up(call);
}

/* ---- writes of a watched file */

ssize_t pwritev(int fd, const struct iovec *parts, int count, off_t at) {
    int file = found(fd, "STOPS_FILES");
    if (file < 0) return REAL(pwritev)(fd, parts, count, at);
    int64_t length = 0;
    for (int part = 0; part < count; part++) length += parts[part].iov_len;
    uint64_t call = begin(WRITE, file, at, length, parts, count);
    return end(call, REAL(pwritev)(fd, parts, count, at));
}

ssize_t pwrite(int fd, const void *bytes, size_t length, off_t at) {
    struct iovec part = {(void *)bytes, length};
    int file = found(fd, "STOPS_FILES");
    if (file < 0) return REAL(pwrite)(fd, bytes, length, at);
    uint64_t call = begin(WRITE, file, at, length, &part, 1);
    return end(call, REAL(pwrite)(fd, bytes, length, at));
}

ssize_t pwrite64(int fd, const void *bytes, size_t length, off_t at) { return pwrite(fd, bytes, length, at); }
ssize_t pwritev64(int fd, const struct iovec *parts, int count, off_t at) { return pwritev(fd, parts, count, at); }

/* Zeros, with or without room; or room for holes, which changes no byte. */
int fallocate(int fd, int mode, off_t at, off_t length) {
    int file = found(fd, "STOPS_FILES");
    if (file < 0 || (mode & ~FALLOC_FL_KEEP_SIZE) == 0) return REAL(fallocate)(fd, mode, at, length);
    if (!(mode & (FALLOC_FL_ZERO_RANGE | FALLOC_FL_PUNCH_HOLE))) give_up("fallocate of another mode");
    uint64_t call = begin(ZEROS, file, at, length, NULL, 0);
    return end(call, REAL(fallocate)(fd, mode, at, length));
}

int fallocate64(int fd, int mode, off_t at, off_t length) { return fallocate(fd, mode, at, length); }

/* ---- syncs */

static int lies(uint64_t number) {
    unsigned long from;
    char on[4] = "";
    const char *asked = getenv("STOPS_LIES");
    int words = asked ? sscanf(asked, "%lu %3s", &from, on) : 0;
    return words >= 1 && (number == from || (words == 2 && number > from));
}

static int synced(int fd, const char *name) {
    int file = found(fd, "STOPS_FILES");
    int (*real)(int) = (int (*)(int))dlsym(RTLD_NEXT, name);
    if (file < 0) return real(fd);
    int lie = lies(__atomic_fetch_add(&syncs, 1, __ATOMIC_SEQ_CST));
    uint64_t call = begin(lie ? LIE : SYNC, file, 0, 0, NULL, 0);
    return end(call, lie ? 0 : real(fd));
}

int fdatasync(int fd) { return synced(fd, "fdatasync"); }
int fsync(int fd) { return synced(fd, "fsync"); }

/* ---- output */

static void tell(int fd, const void *bytes, size_t length) {
    struct iovec part = {(void *)bytes, length};
    int file = found(fd, "STOPS_TOLD");
    if (file >= 0) begin(OUTPUT, file, 0, length, &part, 1);
}

ssize_t write(int fd, const void *bytes, size_t length) {
    must_be_another(fd, "write");
    tell(fd, bytes, length);
    return REAL(write)(fd, bytes, length);
}

/* How the C library spells it in some places. */
ssize_t __write(int fd, const void *bytes, size_t length) { return write(fd, bytes, length); }

size_t fwrite(const void *bytes, size_t size, size_t count, FILE *stream) {
    tell(fileno(stream), bytes, size * count);
    return REAL(fwrite)(bytes, size, count, stream);
}

/* ---- what would go unseen */

int ftruncate(int fd, off_t length) {
    must_be_another(fd, "ftruncate");
    return REAL(ftruncate)(fd, length);
}

ssize_t pwritev2(int fd, const struct iovec *parts, int count, off_t at, int flags) {
    must_be_another(fd, "pwritev2");
    return REAL(pwritev2)(fd, parts, count, at, flags);
}

void *mmap(void *at, size_t length, int protection, int flags, int fd, off_t from) {
    if (fd >= 0 && (flags & MAP_SHARED) && (protection & PROT_WRITE)) must_be_another(fd, "mmap");
    return (void *)syscall(SYS_mmap, at, length, protection, flags, fd, from);
}
