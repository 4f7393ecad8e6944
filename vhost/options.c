/* options: each bad option is refused by its name. */
#include "options.h"

#include <errno.h>
#include <getopt.h>
#include <limits.h>
#include <stdio.h>
#include <stdlib.h>
#include <string.h>
#include <sys/socket.h>
#include <sys/un.h>

#include "front_end.h"
#include "say.h"
#include "store.h"

enum { BAD = 2 };

static const char HELP[] =
    "kalyubos-vhost serves a disk to a virtual machine by vhost-user-blk.\n"
    "\n"
    "  kalyubos-vhost --socket-path PATH --blk-file FILE [OPTION ..]\n"
    "\n"
    "  --socket-path PATH    make a socket there and serve who connects; given again, one more socket\n"
    "  --fd N                serve the socket that is open as file N, connected or listening\n"
    "  --print-capabilities  print as JSON what the program can, and end\n"
    "  --blk-file PATH       the disk: a file or a block device\n"
    "  --nbd URI             the disk: a server of NBD, as nbd+unix:///?socket=PATH or nbd://HOST/EXPORT\n"
    "  --read-only           refuse writes\n"
    "  --shared              let several sockets or programs write one disk: its guests must expect that\n"
    "  --serial ID           what the disk says it is, up to 20 bytes\n"
    "  --direct              pass by the page cache (O_DIRECT)\n"
    "  --queues N            offer up to N queues, each with a thread: 1 to 16 (1)\n"
    "  --depth N             have up to N operations of a queue in flight: 1 to 64 (64)\n"
    "  --packed              offer packed rings too\n"
    "  --unordered           complete requests as they end: a killed program may lose some\n"
    "  --spin US             look again for so many microseconds before a queue sleeps (0)\n"
    "  --drain S             wait so many seconds for transfers where a queue stops: 1 to 3600 (30)\n"
    "  --user NAME           keep the rights of this user only, once all is open\n"
    "  --no-sandbox          don't filter system calls, for debuggers\n"
    "  --verbose             say when queues start and stop\n"
    "  --help, --version\n"
    "\n"
    "Examples:\n"
    "  kalyubos-vhost --socket-path /run/disk.sock --blk-file disk.img --direct --serial DISK-1\n"
    "  kalyubos-vhost --socket-path /run/disk.sock --nbd 'nbd+unix:///?socket=/run/nbd.sock'\n"
    "  qemu-system-x86_64 -m 1G -object memory-backend-memfd,id=mem,size=1G,share=on -numa node,memdev=mem \\\n"
    "    -chardev socket,id=disk,path=/run/disk.sock -device vhost-user-blk-pci,chardev=disk ..\n";

enum {
    SOCKET_PATH = 256, FD, PRINT_CAPABILITIES, BLK_FILE, NBD, READ_ONLY, SHARED, SERIAL, DIRECT, QUEUES_OPTION, DEPTH, PACKED,
    UNORDERED, SPIN, DRAIN, USER, NO_SANDBOX, VERBOSE, HELP_OPTION, VERSION
};

static const struct option OPTIONS[] = {
    { "socket-path", required_argument, NULL, SOCKET_PATH },
    { "fd", required_argument, NULL, FD },
    { "print-capabilities", no_argument, NULL, PRINT_CAPABILITIES },
    { "blk-file", required_argument, NULL, BLK_FILE },
    { "nbd", required_argument, NULL, NBD },
    { "read-only", no_argument, NULL, READ_ONLY },
    { "shared", no_argument, NULL, SHARED },
    { "serial", required_argument, NULL, SERIAL },
    { "direct", no_argument, NULL, DIRECT },
    { "queues", required_argument, NULL, QUEUES_OPTION },
    { "depth", required_argument, NULL, DEPTH },
    { "packed", no_argument, NULL, PACKED },
    { "unordered", no_argument, NULL, UNORDERED },
    { "spin", required_argument, NULL, SPIN },
    { "drain", required_argument, NULL, DRAIN },
    { "user", required_argument, NULL, USER },
    { "no-sandbox", no_argument, NULL, NO_SANDBOX },
    { "verbose", no_argument, NULL, VERBOSE },
    { "help", no_argument, NULL, HELP_OPTION },
    { "version", no_argument, NULL, VERSION },
    { NULL, 0, NULL, 0 }
};

/* A whole number from `least` to `most`. */
static bool read_number(const char *option, unsigned long least, unsigned long most, unsigned *number)
{
    char *end;
    errno = 0;
    unsigned long read = strtoul(optarg, &end, 10);
    if (*optarg >= '0' && *optarg <= '9' && *end == 0 && errno == 0 && read >= least && read <= most) {
        *number = (unsigned)read;
        return true;
    }
    say(NULL, "--%s takes a number from %lu to %lu, not '%s'", option, least, most, optarg);
    return false;
}

static bool read_path(struct options *options)
{
    if (options->paths_len == SOCKETS)
        say(NULL, "--socket-path is given more than %d times", SOCKETS);
    else if (*optarg == 0 || strlen(optarg) >= sizeof ((struct sockaddr_un *)NULL)->sun_path)
        say(NULL, "--socket-path takes a path of 1 to 107 bytes, not '%s'", optarg);
    else {
        options->paths[options->paths_len++] = optarg;
        return true;
    }
    return false;
}

static bool read_file(struct options *options)
{
    int is_socket;
    socklen_t len = sizeof is_socket;
    if (!read_number("fd", 0, INT_MAX, (unsigned *)&options->file))
        return false;
    if (getsockopt(options->file, SOL_SOCKET, SO_TYPE, &is_socket, &len) == 0)
        return true;
    say(NULL, "--fd %d isn't an open socket", options->file);
    return false;
}

static bool read_disk(struct disk *disk, const struct store_kind *kind)
{
    if (disk->path != NULL) {
        say(NULL, "a program serves one disk: --blk-file or --nbd, once");
        return false;
    }
    disk->path = optarg;
    disk->kind = kind;
    return true;
}

static bool read_serial(struct disk *disk)
{
    size_t len = strlen(optarg);
    if (len > sizeof disk->identity) {
        say(NULL, "--serial takes up to %zu bytes, not '%s'", sizeof disk->identity, optarg);
        return false;
    }
    memcpy(disk->identity, optarg, len);
    return true;
}

/* Takes one option; those that end the program aren't among them. */
static bool take(struct options *options, int option)
{
    struct disk *disk = options->disk;
    switch (option) {
    case SOCKET_PATH: return read_path(options);
    case FD: return read_file(options);
    case BLK_FILE: return read_disk(disk, &file_kind);
    case NBD: return read_disk(disk, &nbd_kind);
    case READ_ONLY: return disk->read_only = true;
    case SHARED: return disk->is_shared = true;
    case SERIAL: return read_serial(disk);
    case DIRECT: return disk->direct = true;
    case QUEUES_OPTION: return read_number("queues", 1, QUEUES, &disk->queues);
    case DEPTH: return read_number("depth", 1, KALYUBOS_TAGS, &disk->depth);
    case PACKED: return disk->packed = true;
    case UNORDERED: return disk->unordered = true;
    case SPIN: return read_number("spin", 0, 1000000, &disk->spin);
    case DRAIN: return read_number("drain", 1, 3600, &disk->drain);
    case USER: return (options->user = optarg) != NULL;
    case NO_SANDBOX: return options->is_bare = true;
    default: return disk->verbose = true;
    }
}

/* Whether the options fit each other. */
static bool fit(struct options *options)
{
    struct disk *disk = options->disk;
    const char *why = NULL;
    disk->connections = disk->queues * (options->paths_len > 1 ? options->paths_len : 1);
    if (disk->path == NULL)
        why = "there is no disk: give --blk-file PATH or --nbd URI (--help has examples)";
    else if (options->paths_len == 0 && options->file < 0)
        why = "there is no socket: give --socket-path PATH or --fd N (--help has examples)";
    else if (options->paths_len != 0 && options->file >= 0)
        why = "--socket-path and --fd exclude each other";
    else if (disk->direct && disk->kind == &nbd_kind)
        why = "--direct is for --blk-file";
    else if (options->paths_len > 1 && !disk->read_only && !disk->is_shared)
        why = "guests behind several sockets would write one disk: give --read-only, or --shared where they expect that";
    if (why != NULL)
        say(NULL, "%s", why);
    return why == NULL;
}

/* The text of a library that no proof was made of; NULL of a proved one. */
extern const char kalyubos_unproved[] __attribute__((weak));

static int print_version(void)
{
    uint32_t version = kalyubos_version();
    printf("kalyubos-vhost %u.%u.%u\n", version / 10000, version / 100 % 100, version % 100);
    if (kalyubos_unproved != NULL)
        printf("%s\n", kalyubos_unproved);
    return 0;
}

static bool has_word(int words_len, char **words, const char *word)
{
    for (int i = 1; i < words_len; i++)
        if (strcmp(words[i], word) == 0)
            return true;
    return false;
}

int options_read(struct options *options, int words_len, char **words)
{
    if (has_word(words_len, words, "--print-capabilities")) { /* other options are ignored then */
        puts("{\n  \"type\": \"block\",\n  \"features\": [\n    \"read-only\",\n    \"blk-file\"\n  ]\n}");
        return 0;
    }
    opterr = 0;
    for (int option; (option = getopt_long(words_len, words, ":", OPTIONS, NULL)) != -1;) {
        if (option == '?' || option == ':') {
            say(NULL, option == ':' ? "%s needs a value" : "%s isn't an option, or takes no value (--help lists all)", words[optind - 1]);
            return BAD;
        }
        if (option == HELP_OPTION)
            return fputs(HELP, stdout) < 0;
        if (option == VERSION)
            return print_version();
        if (!take(options, option))
            return BAD;
    }
    if (optind < words_len) {
        say(NULL, "'%s' isn't an option (--help lists all)", words[optind]);
        return BAD;
    }
    return fit(options) ? -1 : BAD;
}
