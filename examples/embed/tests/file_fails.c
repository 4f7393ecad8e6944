/*
 * Tries file_disk.c and file_ring.c with each of their calls failing in turn, by threads and by io_uring: a disk that can't be
 * opened leaves nothing behind, each operation of one that is open ends, also beside others, and a close gives back all. It is linked with
 * --wrap for each call that is named in CALLS of .ci/checks/hosts.py, and has the library's four functions itself.
 */
#define _GNU_SOURCE
#include <dirent.h>
#include <errno.h>
#include <fcntl.h>
#include <malloc.h>
#include <poll.h>
#include <stdarg.h>
#include <stdatomic.h>
#include <stdio.h>
#include <stdlib.h>
#include <string.h>
#include <sys/mman.h>
#include <unistd.h>

#include "file_disk.h"

enum { MEMORY_LEN = 0x2000, DISK_LEN = 0x4000, SECONDS = 10, DEPTH = 4 };

static uint8_t memory[MEMORY_LEN];
static uint64_t in_flight;
static struct {
    struct kalyubos_operation operation;
    struct kalyubos_run runs[2];
} asked[DEPTH];

static void need(bool holds, const char *what)
{
    if (!holds) {
        fprintf(stderr, "file_fails: %s\n", what);
        exit(1);
    }
}

/* ---- the library: a slot of which the tags of `in_flight` are asked for */

uint32_t kalyubos_in_flight(const struct kalyubos *board, uint8_t slot, uint8_t window, uint64_t *tags)
{
    (void)board, (void)slot, (void)window;
    *tags = in_flight;
    return KALYUBOS_DONE;
}

uint32_t kalyubos_operation(const struct kalyubos *board, uint8_t slot, uint8_t window, uint8_t tag,
                            struct kalyubos_operation *to, struct kalyubos_run *into, size_t most)
{
    (void)board, (void)slot, (void)window, (void)most;
    *to = asked[tag].operation;
    memcpy(into, asked[tag].runs, to->runs * sizeof *into);
    return KALYUBOS_DONE;
}

uint32_t kalyubos_read_memory(const struct kalyubos *board, uint8_t slot, uint64_t at, uint8_t *into, size_t len)
{
    (void)board, (void)slot;
    memcpy(into, memory + at, len);
    return KALYUBOS_DONE;
}

uint32_t kalyubos_write_memory(struct kalyubos *board, uint8_t slot, uint64_t at, const uint8_t *from, size_t len)
{
    (void)board, (void)slot;
    memcpy(memory + at, from, len);
    return KALYUBOS_DONE;
}

/* ---- the calls: the one of this number fails, counted in all threads */

static atomic_ulong calls, failing;

static bool fails(int why)
{
    if (atomic_fetch_add(&calls, 1) + 1 != failing)
        return false;
    errno = why;
    return true;
}

#define WRAP(answer, name, why, wrong, parameters, arguments) \
    answer __real_##name parameters;                          \
    answer __wrap_##name parameters                           \
    {                                                         \
        return fails(why) ? wrong : __real_##name arguments;  \
    }
WRAP(off_t, lseek, EIO, -1, (int file, off_t at, int from), (file, at, from))
WRAP(void *, malloc, ENOMEM, NULL, (size_t len), (len))
WRAP(void *, aligned_alloc, ENOMEM, NULL, (size_t align, size_t len), (align, len))
WRAP(int, pipe2, EMFILE, -1, (int ends[2], int flags), (ends, flags))
WRAP(void *, mmap, ENOMEM, MAP_FAILED, (void *at, size_t len, int may, int flags, int file, off_t from), (at, len, may, flags, file, from))
WRAP(ssize_t, read, EIO, -1, (int file, void *into, size_t len), (file, into, len))
WRAP(ssize_t, write, EIO, -1, (int file, const void *from, size_t len), (file, from, len))
WRAP(ssize_t, pread, EIO, -1, (int file, void *into, size_t len, off_t at), (file, into, len, at))
WRAP(ssize_t, pwrite, EIO, -1, (int file, const void *from, size_t len, off_t at), (file, from, len, at))
WRAP(int, fdatasync, EIO, -1, (int file), (file))
WRAP(int, fallocate, EOPNOTSUPP, -1, (int file, int mode, off_t at, off_t len), (file, mode, at, len))

int __real_pthread_create(pthread_t *thread, const pthread_attr_t *how, void *(*run)(void *), void *user);
int __wrap_pthread_create(pthread_t *thread, const pthread_attr_t *how, void *(*run)(void *), void *user)
{
    return fails(EAGAIN) ? EAGAIN : __real_pthread_create(thread, how, run, user);
}

int __real_open(const char *path, int how, ...);
int __wrap_open(const char *path, int how, ...)
{
    return fails(EACCES) ? -1 : __real_open(path, how);
}

long __real_syscall(long number, ...);
long __wrap_syscall(long number, ...)
{
    long words[6];
    va_list rest;
    va_start(rest, number);
    for (int i = 0; i < 6; i++)
        words[i] = va_arg(rest, long);
    va_end(rest);
    return fails(EBADR) ? -1 : __real_syscall(number, words[0], words[1], words[2], words[3], words[4], words[5]);
}

/* ---- what is left */

static size_t entries(const char *path, bool (*counts)(const char *name))
{
    DIR *folder = opendir(path);
    const struct dirent *entry;
    size_t found = 0;
    need(folder != NULL, path);
    while ((entry = readdir(folder)) != NULL)
        found += counts(entry->d_name);
    closedir(folder);
    return found;
}

static bool is_any(const char *name)
{
    return *name != 0;
}

/* The kernel keeps a thread of io_uring's for some seconds. */
static bool is_ours(const char *thread)
{
    char path[300], name[32] = "";
    snprintf(path, sizeof path, "/proc/self/task/%s/comm", thread);
    FILE *file = fopen(path, "r");
    bool is_there = file != NULL && fgets(name, sizeof name, file) != NULL;
    if (file != NULL)
        fclose(file);
    return is_there && strncmp(name, "iou-", 4) != 0;
}

/* How many rings of io_uring are mapped. */
static size_t mapped_rings(void)
{
    char line[512];
    size_t found = 0;
    FILE *maps = fopen("/proc/self/maps", "r");
    need(maps != NULL, "the maps");
    while (fgets(line, sizeof line, maps) != NULL)
        found += strstr(line, "io_uring") != NULL;
    fclose(maps);
    return found;
}

struct left {
    size_t files, threads, rings, bytes;
};

static struct left look(void)
{
    struct left left = { entries("/proc/self/fd", is_any), entries("/proc/self/task", is_ours), mapped_rings(), 0 };
    left.bytes = mallinfo2().uordblks;
    return left;
}

/* A joined thread's entry stands a moment longer. */
static bool is_all_gone(const struct left *before)
{
    struct left now = look();
    for (int tries = 0; tries < 1000 && now.threads != before->threads; tries++, now = look())
        usleep(1000);
    return now.files == before->files && now.threads == before->threads && now.rings == before->rings && now.bytes == before->bytes;
}

/* ---- a disk and its operations */

/* What is asked for with a tag: `len` bytes from a place of the disk on, to or from as many of the memory, or to zeroes. */
static void ask(uint8_t tag, uint32_t kind, uint64_t start, uint64_t at, uint64_t len)
{
    bool halves = kind == KALYUBOS_OUT;
    uint64_t first = halves ? len / 2 : len;
    asked[tag].operation = (struct kalyubos_operation){ .kind = kind, .start = start, .stable = halves && start == 0 };
    asked[tag].operation.runs = kind == KALYUBOS_FLUSH ? 0 : halves ? 2 : 1;
    asked[tag].runs[0] = (struct kalyubos_run){ at, first };
    asked[tag].runs[1] = (struct kalyubos_run){ at + first, len - first };
}

/* Does the operations of these tags to their ends, all at once, and answers which failed. */
static uint64_t failed_of(struct file_disk *disk, uint64_t tags)
{
    uint64_t failed_tags = 0;
    uint8_t tag;
    bool failed;
    in_flight = tags;
    for (bool waits = file_disk_begin(disk); in_flight != 0; waits = true) {
        struct pollfd wake = { .fd = disk->ready, .events = POLLIN };
        need(!waits || poll(&wake, 1, SECONDS * 1000) == 1, "an operation doesn't end");
        while (file_disk_go_on(disk, &tag, &failed)) {
            need(in_flight >> tag & 1, "an operation ends that isn't in flight");
            in_flight &= ~((uint64_t)1 << tag);
            failed_tags |= (uint64_t)failed << tag;
        }
    }
    need(disk->begun == 0, "an operation is begun that has ended");
    return failed_tags;
}

static bool is_all(const uint8_t *bytes, size_t len, uint8_t byte)
{
    while (len > 0 && bytes[len - 1] == byte)
        len--;
    return len == 0;
}

/*
 * Writes 4 KiB by two operations at once, zeroes the second kilobyte beside a flush, reads all back by two, and reads behind the
 * file's end. Answers how many failed that needn't.
 */
static unsigned use(struct file_disk *disk)
{
    memset(memory, 'x', 0x1000);
    memset(memory + 0x1000, 0xff, 0x1000);
    ask(0, KALYUBOS_OUT, 0, 0, 0x800);
    ask(2, KALYUBOS_OUT, 0x800, 0x800, 0x800);
    uint64_t wrote = failed_of(disk, 1 | 4);
    ask(1, KALYUBOS_ZEROES, 0, 0x400, 0x400);
    ask(3, KALYUBOS_FLUSH, 0, 0, 0);
    uint64_t zeroed = failed_of(disk, 2 | 8);
    ask(0, KALYUBOS_IN, 0, 0x1000, 0x800);
    ask(1, KALYUBOS_IN, 0x800, 0x1800, 0x800);
    uint64_t read = failed_of(disk, 1 | 2);
    if (wrote == 0 && (zeroed & 2) == 0 && read == 0)
        need(is_all(memory + 0x1000, 0x400, 'x') && is_all(memory + 0x1400, 0x400, 0) && is_all(memory + 0x1800, 0x800, 'x'), "other bytes are read");
    ask(3, KALYUBOS_IN, DISK_LEN, 0x1000, 0x400);
    need(failed_of(disk, 8) == 8, "a read behind the file's end is done");
    return (unsigned)(__builtin_popcountll(wrote) + __builtin_popcountll(zeroed) + __builtin_popcountll(read));
}

/* Opens the disk, uses it and closes it while the call of this number fails; 0 for none. Answers how many calls there were. */
static unsigned long try(const char *path, const struct file_way *way, unsigned long number)
{
    struct left before = look();
    struct file_disk disk;
    calls = 0;
    failing = number;
    const char *wrong = file_disk_open(&disk, NULL, 0, KALYUBOS_BLOCK, DEPTH, path, DISK_LEN, false, way);
    if (wrong == NULL) {
        unsigned failed = use(&disk);
        need(failed <= 1, "one failing call fails two operations");
        need(number != 0 || failed == 0, "an operation fails, though no call does");
        file_disk_close(&disk);
    }
    need(number != 0 || wrong == NULL, "the disk can't be opened");
    failing = 0;
    need(is_all_gone(&before), wrong == NULL ? "a close leaves something" : "an open that failed leaves something");
    return calls;
}

/* What the C library keeps of its first thread and of freed room is there once a disk was used. */
static void warm_up(const char *path, const struct file_way *way)
{
    struct file_disk disk;
    struct left left = look();
    need(file_disk_open(&disk, NULL, 0, KALYUBOS_BLOCK, DEPTH, path, DISK_LEN, false, way) == NULL && use(&disk) == 0, "a first disk");
    file_disk_close(&disk);
    is_all_gone(&left);
}

/* A disk that is closed while the kernel works on steps leaves nothing either. */
static void try_close_in_flight(const char *path, const struct file_way *way)
{
    struct left before = look();
    struct file_disk disk;
    need(file_disk_open(&disk, NULL, 0, KALYUBOS_BLOCK, DEPTH, path, DISK_LEN, false, way) == NULL, "a disk to be closed in flight can't be opened");
    ask(0, KALYUBOS_OUT, 0, 0, 0x1000);
    ask(1, KALYUBOS_IN, 0x1000, 0x1000, 0x1000);
    in_flight = 3;
    need(file_disk_begin(&disk), "operations to be left in flight");
    file_disk_close(&disk);
    need(is_all_gone(&before), "a close in flight leaves something");
}

/* A file that may be read alone is a disk for a read-only slot: reads are done, and a write fails. */
static void try_read_only(const char *path, const struct file_way *way)
{
    struct file_disk disk;
    need(file_disk_open(&disk, NULL, 0, KALYUBOS_BLOCK, DEPTH, path, DISK_LEN, true, way) == NULL, "a file for reading alone can't be opened");
    need(use(&disk) == 3, "of a file for reading alone, others fail than two writes and a zeroing");
    file_disk_close(&disk);
}

int main(void)
{
    const struct file_way *ways[] = { &file_thread, &file_ring };
    char path[] = "/tmp/kalyubos-fails-XXXXXX";
    int file = mkstemp(path);
    need(file >= 0 && ftruncate(file, DISK_LEN) == 0, "a file");
    for (size_t way = 0; way < 2; way++) {
        warm_up(path, ways[way]);
        unsigned long all = try(path, ways[way], 0);
        for (unsigned long number = 1; number <= all; number++)
            try(path, ways[way], number);
        try_close_in_flight(path, ways[way]);
        try_read_only(path, ways[way]);
        printf("%s: each of %lu calls fails in turn\n", ways[way]->name, all);
    }
    remove(path);
    return 0;
}
