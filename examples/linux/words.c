/* The words of words.h. */
#include "words.h"

#include <errno.h>
#include <getopt.h>
#include <stdio.h>
#include <stdlib.h>
#include <string.h>

enum { GUESTS = 16 };

_Noreturn void fail(const char *what)
{
    fprintf(stderr, "linux-machine: %s: %s\n", what, errno != 0 ? strerror(errno) : "not as it should be");
    exit(2);
}

static uint64_t number(const char *word)
{
    char *end;
    uint64_t found = strtoull(word, &end, 0);
    if (*word == 0 || *end != 0)
        fail(word);
    return found;
}

/* A feature's bit by its name, of a disk or of any device (VIRTIO 1.2, 5.2.3 and 6). */
static uint64_t feature(const char *word)
{
    static const struct {
        const char *name;
        unsigned bit;
    } features[] = {
        { "RO", 5 },
        { "WRITE_ZEROES", 14 },
        { "INDIRECT_DESC", 28 },
        { "EVENT_IDX", 29 },
        { "RING_PACKED", 34 },
    };
    for (size_t i = 0; i < sizeof features / sizeof *features; i++)
        if (strcmp(word, features[i].name) == 0)
            return (uint64_t)1 << features[i].bit;
    fail(word);
}

static const struct option OPTIONS[] = {
    { "bytes", required_argument, NULL, 'y' },   { "cache", required_argument, NULL, 'c' },
    { "chains", required_argument, NULL, 'a' },  { "copies", no_argument, NULL, 'p' },
    { "cycles", required_argument, NULL, 'n' },  { "depth", required_argument, NULL, 'f' },
    { "devices", no_argument, NULL, 'z' },       { "disks", required_argument, NULL, 'D' },
    { "frames", required_argument, NULL, 'F' },
    { "hosted", required_argument, NULL, 'h' },  { "image", required_argument, NULL, 'm' },
    { "interactive", no_argument, NULL, 'i' },   { "keep", required_argument, NULL, 'b' },
    { "kernel", required_argument, NULL, 'k' },  { "large", no_argument, NULL, 'j' },
    { "late", no_argument, NULL, 'l' },          { "latency", required_argument, NULL, 'u' },
    { "outlet", required_argument, NULL, 'o' },  { "quiet", no_argument, NULL, 'q' },
    { "record", required_argument, NULL, 'r' },  { "save", required_argument, NULL, 'v' },
    { "save-at", required_argument, NULL, 'e' }, { "script", required_argument, NULL, 's' },
    { "seed", required_argument, NULL, 'x' },    { "show", required_argument, NULL, 'g' },
    { "spare", no_argument, NULL, 'S' },         { "to", required_argument, NULL, 'd' },
    { "tree", required_argument, NULL, 't' },    { "without", required_argument, NULL, 'w' },
    { NULL, 0, NULL, 0 },
};

/* How the host serves the disks: `ring` or `threads`. */
static void host(struct words *words, const char *way)
{
    words->hosted = true;
    words->threads = strcmp(way, "threads") == 0;
    if (!words->threads && strcmp(way, "ring") != 0)
        fail(way);
}

static void take(struct words *words, int option)
{
    switch (option) {
    case 'a': words->chains = number(optarg); break;
    case 'b': words->kept = number(optarg); break;
    case 'c': words->cache = number(optarg); break;
    case 'd': words->to = optarg; break;
    case 'e': words->save_at = number(optarg); break;
    case 'f': words->depth = number(optarg); break;
    case 'g': words->shown = number(optarg); break;
    case 'h': host(words, optarg); break;
    case 'i': words->interactive = true; break;
    case 'j': words->large = true; break;
    case 'k': words->kernel = optarg; break;
    case 'l': words->late = true; break;
    case 'm': words->image = optarg; break;
    case 'n': words->cycles = number(optarg); break;
    case 'o': words->outlet = number(optarg); break;
    case 'p': words->copies = true; break;
    case 'q': words->quiet = true; break;
    case 'r': words->record = optarg; break;
    case 's': words->script = optarg; break;
    case 't': words->tree = optarg; break;
    case 'u': words->latency = strcmp(optarg, "real") == 0 ? UINT64_MAX : number(optarg); break;
    case 'v': words->save = optarg; break;
    case 'w': words->hidden |= feature(optarg); break;
    case 'x': words->seed = number(optarg); break;
    case 'y': words->bytes = number(optarg); break;
    case 'z': words->devices = true; break;
    case 'D': words->disks = optarg; break;
    case 'F': words->frames = optarg; break;
    case 'S': words->spare = true; break;
    default: exit(2);
    }
}

const char *saved_file(const char *word)
{
    static const char SAVED[] = "saved:";
    size_t len = strlen(SAVED);
    return strncmp(word, SAVED, len) == 0 ? word + len : NULL;
}

static bool has_saved_guest(const struct words *words)
{
    bool found = words->save != NULL;
    for (size_t i = 0; i < words->count; i++)
        found = found || saved_file(words->guests[i]) != NULL;
    return found;
}

struct words words_of(int argc, char **argv)
{
    struct words words = {
        .to = ".", .script = "", .cache = 1024, .outlet = 0x8000, .bytes = 0x10000, .cycles = 4000000000, .latency = 10000,
        .depth = 1, .shown = -1, .kept = -1,
    };
    int option;
    while ((option = getopt_long(argc, argv, "", OPTIONS, NULL)) != -1)
        take(&words, option);
    words.guests = argv + optind;
    words.count = argc - optind;
    if (words.kernel == NULL || words.tree == NULL || words.count == 0 || words.count > GUESTS)
        fail("--kernel, --tree and one to sixteen guests are wanted");
    if (words.image != NULL && words.kept >= 0)
        fail("--image beside --keep");
    if (has_saved_guest(&words) && (words.image != NULL || words.record != NULL))
        fail("a saved guest beside --image or --record");
    if (words.devices && (has_saved_guest(&words) || words.record != NULL))
        fail("--devices beside a saved guest or --record");
    if ((words.frames != NULL || words.disks != NULL) && !words.devices)
        fail("--frames or --disks without --devices");
    if (words.spare && (words.disks == NULL || words.hosted))
        fail("--spare without --disks, or beside --hosted");
    if (words.hosted && (words.image != NULL || words.kept >= 0))
        fail("--hosted beside --image or --keep");
    if (words.depth == 0 || words.depth > 64)
        fail("--depth is 1 to 64");
    return words;
}
