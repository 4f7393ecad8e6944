/*
 * The only program of a guest of stops, without a C library (the kernel's nolibc), on an ext4 file system. In rounds it
 * syncs a file and then says so on its console, "kept NAME LENGTH SEED", and does much else that it doesn't sync.
 */
#include <linux/fs.h>
#include <stdbool.h>

enum {
    TODAY = 1767225600, /* seconds: without a clock e2fsck takes times of deletion for numbers of inodes */
    ROUNDS = 24,
    LONGEST = 20000,
    PAGE = 4096,
    OTHERS = 6,        /* files that aren't synced */
    RAW = 64,          /* pages of the raw disk behind the file system, at its end */
    DIRECT = 040000    /* O_DIRECT: not by the page cache */
};

static char bytes[2 * LONGEST] __attribute__((aligned(PAGE)));
static struct { unsigned int seed, length; } kept[ROUNDS];
static unsigned int state;

static unsigned int dice(unsigned int sides)
{
    state = state * 1103515245 + 12345;
    return (state >> 16) % sides;
}

static void fill(unsigned int seed, unsigned int length)
{
    for (unsigned int i = 0; i < length; i++) {
        seed = seed * 1103515245 + 12345;
        bytes[i] = seed >> 16;
    }
}

static const char *named(char kind, unsigned int number)
{
    static char path[2][16];
    static int turn;
    char *name = path[turn ^= 1];
    strcpy(name, "/files/");
    name[7] = kind;
    name[8] = '0' + number / 10;
    name[9] = '0' + number % 10;
    name[10] = 0;
    return name;
}

static bool put(int file, unsigned int from, unsigned int length)
{
    return file >= 0 && write(file, bytes + from, length) == (int)length;
}

/* ---- what is synced, and told */

/* Writes a kept file from its length on, syncs it, and tells. */
static void keep(unsigned int number, unsigned int length)
{
    unsigned int before = kept[number].length, seed = kept[number].seed;
    const char *path = named('k', number);
    int file = open(path, O_WRONLY | O_CREAT | O_APPEND, 0600);
    fill(seed, length);
    bool done = put(file, before, length - before) && my_syscall1(__NR_fsync, file) == 0;
    close(file);
    kept[number].length = length;
    if (done)
        printf("kept %s %d %d\n", path + 7, (int)length, (int)seed);
    else
        printf("failed: %s\n", path);
}

/* ---- what isn't */

static void write_other(void)
{
    unsigned int length = 1 + dice(LONGEST);
    int file = open(named('u', dice(OTHERS)), O_WRONLY | O_CREAT | (dice(2) ? O_TRUNC : 0), 0600);
    fill(dice(30000), length);
    put(file, 0, length);
    close(file);
}

static void write_direct(void)
{
    int file = open(named('d', dice(2)), O_WRONLY | O_CREAT | DIRECT, 0600);
    fill(dice(30000), PAGE);
    lseek(file, PAGE * dice(OTHERS), SEEK_SET);
    put(file, 0, PAGE);
    close(file);
}

static void rename_other(void)
{
    const char *from = named('u', dice(OTHERS)), *to = named('u', dice(OTHERS));
    my_syscall5(__NR_renameat2, AT_FDCWD, from, AT_FDCWD, to, 0);
}

/* Pages of the raw disk are written or zeroed, behind the file system. */
static void write_raw(void)
{
    int disk = open("/dev/vda", O_RDWR | DIRECT, 0);
    long end = lseek(disk, 0, SEEK_END);
    unsigned long long range[2] = { end - PAGE * (1 + dice(RAW)), PAGE };
    fill(dice(30000), PAGE);
    lseek(disk, range[0], SEEK_SET);
    if (dice(2))
        put(disk, 0, PAGE);
    else
        ioctl(disk, BLKZEROOUT, range);
    close(disk);
}

static void do_other(void)
{
    switch (dice(7)) {
    case 0:
    case 1: write_other(); break;
    case 2: write_direct(); break;
    case 3: rename_other(); break;
    case 4: write_raw(); break;
    case 5: unlink(named('u', dice(OTHERS))); break;
    default: sleep(dice(6)); break;
    }
}

int main(void)
{
    char name[16] = "";
    struct timespec now = { TODAY, 0 };
    int file = open("/name", O_RDONLY, 0);
    read(file, name, sizeof name - 1);
    close(file);
    state = atoi(name);
    my_syscall2(__NR_clock_settime, CLOCK_REALTIME, &now);
    printf("guest %d\n", (int)state);
    for (unsigned int round = 0; round < ROUNDS; round++) {
        for (unsigned int i = dice(4); i > 0; i--)
            do_other();
        unsigned int old = dice(2 * ROUNDS);
        unsigned int longer = 1 + dice(LONGEST / 4);
        if (old < round && kept[old].length + longer <= sizeof bytes) {
            keep(old, kept[old].length + longer);
        } else {
            kept[round].seed = dice(30000);
            keep(round, 1 + dice(LONGEST));
        }
    }
    printf("going off\n");
    reboot(LINUX_REBOOT_CMD_POWER_OFF);
    return 1;
}
