/*
 * timeless < DISK: a disk without what the moments of its writes decide, for comparing two runs. Zero is what its ext2 file
 * system has of times, and of each inode's generation, which is by chance. All else stands as it is.
 */
#include <stdint.h>
#include <stdio.h>
#include <stdlib.h>
#include <string.h>

enum { ROOM = 1 << 26, SUPERBLOCK = 1024, DESCRIPTOR = 32 };

/* Where the superblock, a group's descriptor and an inode have what (fs/ext4/ext4.h of Linux). */
enum { INODES = 0, FIRST_BLOCK = 20, LOG_BLOCK_SIZE = 24, INODES_OF_GROUP = 40, MARK = 56, INODE_SIZE = 88, INODE_TABLE = 8 };
struct field {
    unsigned at, len;
};
static const struct field OF_SUPERBLOCK = { 44, 8 }; /* mounted, written */
static const struct field OF_INODE[] = { { 8, 12 } /* accessed, changed, written */, { 100, 4 } /* generation */,
                                         { 132, 20 } /* parts of seconds, and when it was made */ };

static uint8_t disk[ROOM];

static uint32_t number(size_t at)
{
    uint32_t value;
    memcpy(&value, disk + at, sizeof value);
    return value;
}

static void clear(size_t at, const struct field *fields, size_t count)
{
    for (size_t i = 0; i < count; i++)
        memset(disk + at + fields[i].at, 0, fields[i].len);
}

int main(void)
{
    size_t len = fread(disk, 1, sizeof disk, stdin);
    if (len < 2 * SUPERBLOCK || len == sizeof disk || (number(SUPERBLOCK + MARK) & 0xffff) != 0xef53)
        return fprintf(stderr, "timeless: no file system that it knows\n"), 2;
    size_t block = (size_t)1024 << number(SUPERBLOCK + LOG_BLOCK_SIZE), inode_size = number(SUPERBLOCK + INODE_SIZE) & 0xffff;
    uint32_t of_group = number(SUPERBLOCK + INODES_OF_GROUP);
    clear(SUPERBLOCK, &OF_SUPERBLOCK, 1);
    for (uint32_t inode = 0; inode < number(SUPERBLOCK + INODES); inode++) {
        size_t descriptor = (number(SUPERBLOCK + FIRST_BLOCK) + 1) * block + inode / of_group * DESCRIPTOR;
        size_t at = number(descriptor + INODE_TABLE) * block + inode % of_group * inode_size;
        clear(at, OF_INODE, inode_size > 128 ? 3 : 2);
    }
    return fwrite(disk, 1, len, stdout) == len ? 0 : 2;
}
