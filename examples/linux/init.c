/*
 * The guest's only program, without a C library (the kernel's nolibc). It writes and reads files and the raw disk
 * behind the file system, says what it found, then answers lines from the console until it is told to go off. Each
 * line that begins with "good" or "bad" is a check. With NETWORK it also has words for further devices and disks.
 */
#include <linux/fs.h>
#include <stdbool.h>

#include "pattern.h"
#ifdef NETWORK
#include "sum.h"
#include "talk.h"
#endif

enum {
    NAME = 64,
    FILES = 4,
    RAW = 0x200000,    /* the raw disk begins behind the file system, see build */
    RAW_BLOCKS = 8,
    SCATTERED = RAW + RAW_BLOCKS * BLOCK, /* behind these: blocks whose pages are written apart, */
    SCATTERED_BLOCKS = 16,
    CROWD = SCATTERED + SCATTERED_BLOCKS * BLOCK, /* and a block for each process of a crowd */
    CROWD_BLOCKS = 8,
    PAGE = 4096,
    DIRECT = 040000    /* O_DIRECT: not from the page cache */
};

#define WINDOW_SIZE 0x5413 /* TIOCGWINSZ */

static char expected[BLOCK] __attribute__((aligned(4096)));
static char found[BLOCK] __attribute__((aligned(4096)));

static void check(bool holds, const char *what)
{
    printf("%s: %s\n", holds ? "good" : "bad", what);
}

static bool is_expected(void)
{
    return memcmp(expected, found, BLOCK) == 0;
}

static bool flush(int file)
{
    return my_syscall1(__NR_fsync, file) == 0;
}

/* Reads a text of one line, without its end. */
static void read_text(const char *path, char *into, int room)
{
    int file = open(path, O_RDONLY, 0);
    int length = read(file, into, room - 1);
    close(file);
    into[length > 0 ? length : 0] = 0;
    if (strchr(into, '\n'))
        *strchr(into, '\n') = 0;
}

static void show_text(const char *what, const char *path)
{
    char text[NAME + 1];
    read_text(path, text, sizeof text);
    printf("%s: %s\n", what, text);
}

/* ---- the disk */

static bool write_block(const char *path, int flags, long at, unsigned int seed)
{
    int file = open(path, O_WRONLY | flags, 0600);
    fill(expected, seed);
    bool done = file >= 0 && lseek(file, at, SEEK_SET) == at && write(file, expected, BLOCK) == BLOCK && flush(file);
    close(file);
    return done;
}

static bool read_block(const char *path, long at)
{
    int file = open(path, O_RDONLY | DIRECT, 0);
    bool done = file >= 0 && lseek(file, at, SEEK_SET) == at && read(file, found, BLOCK) == BLOCK;
    close(file);
    return done;
}

static void try_files(unsigned int seed)
{
    char path[] = "/files/0";
    bool written = true, same = true;
    for (int i = 0; i < FILES; i++) {
        path[7] = '0' + i;
        written = write_block(path, O_CREAT, 0, seed + i) && written;
    }
    for (int i = 0; i < FILES; i++) {
        path[7] = '0' + i;
        fill(expected, seed + i);
        same = read_block(path, 0) && is_expected() && same;
    }
    check(written, "files are written");
    check(same, "the disk has the files' bytes");
}

/* Writes blocks of a raw disk, and reads them back. */
static void try_blocks(const char *path, long at, int count, unsigned int seed)
{
    bool written = true, same = true;
    for (int i = 0; i < count; i++)
        written = write_block(path, DIRECT, at + i * BLOCK, seed + i) && written;
    for (int i = 0; i < count; i++) {
        fill(expected, seed + i);
        same = read_block(path, at + i * BLOCK) && is_expected() && same;
    }
    check(written, "the raw disk is written");
    check(same, "the raw disk has its bytes");
}

/* Zeroes the raw disk's second block, and looks at it and its neighbours. */
static void try_zeroes(unsigned int seed)
{
    unsigned long long range[2] = { RAW + BLOCK, BLOCK };
    int disk = open("/dev/vda", O_RDWR, 0);
    check(ioctl(disk, BLKZEROOUT, range) == 0, "a range of the disk is zeroed");
    close(disk);
    bool zero = read_block("/dev/vda", RAW + BLOCK);
    for (int i = 0; i < BLOCK; i++)
        zero = zero && found[i] == 0;
    check(zero, "the range is zero");
    fill(expected, seed + FILES);
    bool before = read_block("/dev/vda", RAW) && is_expected();
    fill(expected, seed + FILES + 2);
    check(before && read_block("/dev/vda", RAW + 2 * BLOCK) && is_expected(), "its neighbours stand");
}

/* ---- many requests at once */

/* Writes every other page of the scattered blocks, from the first or the second on: none of them is next to another. */
static bool scatter(int disk, int first, unsigned int seed)
{
    bool done = true;
    for (int i = 0; i < SCATTERED_BLOCKS; i++) {
        fill(expected, seed + i);
        for (int at = first * PAGE; at < BLOCK; at += 2 * PAGE)
            done = lseek(disk, SCATTERED + i * BLOCK + at, SEEK_SET) >= 0 && write(disk, expected + at, PAGE) == PAGE && done;
    }
    return done;
}

/* Writes and reads the block of one of the crowd, first as another has it and then as its own. */
static bool meet_crowd(int number, unsigned int seed)
{
    bool done = true;
    for (int turn = 1; turn >= 0; turn--) {
        done = write_block("/dev/vda", DIRECT, CROWD + number * BLOCK, seed + number + turn) && done;
        done = read_block("/dev/vda", CROWD + number * BLOCK) && is_expected() && done;
    }
    return done;
}

/* Processes that write, sync and read beside each other, while all scattered pages go to the disk. */
static void try_crowd(unsigned int seed)
{
    int status, disk = open("/dev/vda", O_RDWR, 0);
    bool written = scatter(disk, 0, seed + FILES + RAW_BLOCKS), met = true, same = true;
    for (int i = 0; i < CROWD_BLOCKS; i++)
        if (fork() == 0)
            exit(meet_crowd(i, seed + FILES + RAW_BLOCKS + SCATTERED_BLOCKS) ? 0 : 1);
    written = flush(disk) && scatter(disk, 1, seed + FILES + RAW_BLOCKS) && flush(disk) && written;
    for (int i = 0; i < CROWD_BLOCKS; i++)
        met = waitpid(-1, &status, 0) > 0 && status == 0 && met;
    close(disk);
    for (int i = 0; i < SCATTERED_BLOCKS; i++) {
        fill(expected, seed + FILES + RAW_BLOCKS + i);
        same = read_block("/dev/vda", SCATTERED + i * BLOCK) && is_expected() && same;
    }
    check(written, "scattered pages are written");
    check(same, "the disk has the scattered pages");
    check(met, "each of a crowd has its bytes");
}

/* ---- the console */

static void show_size(void)
{
    unsigned short size[4] = { 0, 0, 0, 0 };
    ioctl(0, WINDOW_SIZE, size);
    printf("the console has %d columns and %d rows\n", size[1], size[0]);
}

/* What the drivers negotiated: a digit for each bit, from bit 0 on. */
static void show_features(void)
{
    char digits[NAME + 1];
    read_text("/sys/bus/virtio/devices/virtio0/features", digits, sizeof digits);
    printf("features of the disk: %s\n", digits);
    read_text("/sys/bus/virtio/devices/virtio1/features", digits, sizeof digits);
    printf("features of the console: %s\n", digits);
}

#ifdef NETWORK

static void show_features_of_devices(void)
{
    char digits[NAME + 1];
    read_text("/sys/bus/virtio/devices/virtio2/features", digits, sizeof digits);
    printf("features of the entropy device: %s\n", digits);
    read_text("/sys/bus/virtio/devices/virtio3/features", digits, sizeof digits);
    printf("features of the network card: %s\n", digits);
}

/* ---- further disks: one with files, which can't be written, and one for data */

enum { COPIES = 4, DATA_BLOCKS = 32 };

/* Copies a file, and brings it to the disk. */
static bool copy(const char *from, const char *to)
{
    int length, in = open(from, O_RDONLY, 0), out = open(to, O_WRONLY | O_CREAT, 0600);
    bool done = in >= 0 && out >= 0;
    while (done && (length = read(in, found, BLOCK)) > 0)
        done = write(out, found, length) == length;
    done = done && flush(out);
    close(in);
    close(out);
    return done;
}

/* The sum of a file's bytes. */
static void show_sum(const char *path)
{
    struct sum sum = { 0, 0 };
    int length, file = open(path, O_RDONLY, 0);
    while ((length = read(file, found, BLOCK)) > 0)
        add(&sum, found, length);
    close(file);
    printf("sum of %s: %u %lu\n", path, end_of(&sum), sum.len);
}

/* Processes copy files from the one disk to the other, while this one writes to the first disk. */
static bool copy_all(unsigned int seed)
{
    char from[] = "/fixed/0", to[] = "/data/0";
    bool copied = true;
    int status;
    for (int i = 0; i < COPIES; i++) {
        from[7] = to[6] = '0' + i;
        if (fork() == 0)
            exit(copy(from, to) ? 0 : 1);
    }
    try_files(seed);
    for (int i = 0; i < COPIES; i++)
        copied = waitpid(-1, &status, 0) > 0 && status == 0 && copied;
    return copied;
}

static void show_sums(void)
{
    char path[] = "/fixed/0", of_copy[] = "/data/0";
    fill_powers();
    for (int i = 0; i < COPIES; i++) {
        path[7] = of_copy[6] = '0' + i;
        show_sum(path);
        show_sum(of_copy);
    }
}

static bool unmount(const char *path)
{
    return my_syscall2(__NR_umount2, path, 0) == 0;
}

static void try_disks(unsigned int seed)
{
    mkdir("/fixed", 0700);
    mkdir("/data", 0700);
    show_text("serial of the read-only disk", "/sys/block/vdb/serial");
    show_text("serial of the data disk", "/sys/block/vdc/serial");
    show_text("features of the read-only disk", "/sys/bus/virtio/devices/virtio4/features");
    show_text("features of the data disk", "/sys/bus/virtio/devices/virtio5/features");
    check(mount("/dev/vdb", "/fixed", "ext2", 0, NULL) != 0, "the read-only disk isn't mounted for writing");
    check(!write_block("/dev/vdb", DIRECT, 0, seed), "the read-only disk isn't written");
    check(mount("/dev/vdb", "/fixed", "ext2", MS_RDONLY, NULL) == 0, "the read-only disk is mounted");
    check(mount("/dev/vdc", "/data", "ext2", 0, NULL) == 0, "the data disk is mounted");
    check(copy_all(seed), "its files are copied to the data disk");
    bool again = unmount("/data") && mount("/dev/vdc", "/data", "ext2", MS_RDONLY, NULL) == 0;
    check(again, "the data disk is mounted again");
    show_sums();
    check(unmount("/data") && unmount("/fixed"), "both are let go of");
}

/* Whether both a write and a range of zeros end with an I/O error. */
static bool is_refused(const char *path, unsigned int seed)
{
    unsigned long long range[2] = { BLOCK, BLOCK };
    int disk = open(path, O_RDWR | DIRECT, 0);
    fill(expected, seed);
    bool refused = disk >= 0 && write(disk, expected, BLOCK) < 0 && errno == EIO;
    refused = ioctl(disk, BLKZEROOUT, range) < 0 && errno == EIO && refused;
    close(disk);
    return refused;
}

/* Writes all of the data disk; and the read-only one, whose driver isn't told that it is. */
static void try_raw_disks(unsigned int seed)
{
    try_blocks("/dev/vdc", 0, DATA_BLOCKS, seed);
    check(is_refused("/dev/vdb", seed), "the read-only disk refuses writes");
}

/* The words of further devices; false of another. */
static bool answer_of_devices(const char *line, unsigned int seed)
{
    static const char WORD[] = "talk-";
    if (strcmp(line, "devices") == 0) {
        show_features_of_devices();
    } else if (strcmp(line, "random") == 0) {
        show_random();
    } else if (strcmp(line, "disks") == 0) {
        try_disks(seed);
    } else if (strcmp(line, "raw") == 0) {
        try_raw_disks(seed + FILES + RAW_BLOCKS);
    } else if (strncmp(line, WORD, strlen(WORD)) == 0) {
        struct talk talk = try_talk(seed, atoi(line + strlen(WORD)));
        check(talk.first == talk.count, "all that was sent has come");
        check(talk.wanted == talk.count && talk.same, "all that came is the other guest's");
    } else {
        return false;
    }
    return true;
}

#else

static bool answer_of_devices(const char *line, unsigned int seed)
{
    (void)line;
    (void)seed;
    return false;
}

#endif

static void show_file(const char *path)
{
    int file = open(path, O_RDONLY, 0), length;
    while ((length = read(file, found, BLOCK)) > 0)
        write(1, found, length);
    close(file);
}

static void show_help(void)
{
    printf("size: of the console; serial: of the disk; features: of both; interrupts, version: of the kernel;\n"
           "lines: many of them; sync: all files go to the disk; crowd: many requests at once; off; all else is said again\n");
#ifdef NETWORK
    printf("devices: features of the others; random: bytes of the host; talk-1024: 1024 KiB go to another guest, and come from it\n"
           "disks: files go from one further disk to another; raw: both are written without a file system\n");
#endif
}

static void write_all(void)
{
    my_syscall0(__NR_sync);
    printf("all is on the disk\n");
}

static void show_lines(void)
{
    for (int i = 0; i < 500; i++)
        printf("%d and all that comes after it, up to the end of a line of the console\n", i);
}

static void answer(const char *line, unsigned int seed)
{
    if (strcmp(line, "size") == 0)
        show_size();
    else if (strcmp(line, "serial") == 0)
        show_text("serial", "/sys/block/vda/serial");
    else if (strcmp(line, "features") == 0)
        show_features();
    else if (strcmp(line, "interrupts") == 0)
        show_file("/proc/interrupts");
    else if (strcmp(line, "version") == 0)
        show_file("/proc/version");
    else if (strcmp(line, "lines") == 0)
        show_lines();
    else if (strcmp(line, "sync") == 0)
        write_all();
    else if (strcmp(line, "crowd") == 0)
        try_crowd(seed);
    else if (strcmp(line, "help") == 0)
        show_help();
    else if (!answer_of_devices(line, seed))
        printf("you said \"%s\"\n", line);
}

/* A line of the console; false at "off" or where there is none. */
static bool ask(char *line)
{
    printf("> ");
    int length = read(0, line, BLOCK - 1);
    if (length <= 0)
        return false;
    line[line[length - 1] == '\n' ? length - 1 : length] = 0;
    return strcmp(line, "off") != 0;
}

int main(void)
{
    static char line[BLOCK];
    char name[NAME];
    mount("proc", "/proc", "proc", 0, NULL);
    mount("sysfs", "/sys", "sysfs", 0, NULL);
    read_text("/name", name, sizeof name);
    printf("init of %s\n", name);
    unsigned int seed = name[strlen(name) - 1];
    try_files(seed);
    try_blocks("/dev/vda", RAW, RAW_BLOCKS, seed + FILES);
    try_zeroes(seed);
    while (ask(line))
        answer(line, seed);
    printf("going off\n");
    mount("none", "/", NULL, MS_REMOUNT | MS_RDONLY, NULL);
    reboot(LINUX_REBOOT_CMD_POWER_OFF);
    return 1;
}
