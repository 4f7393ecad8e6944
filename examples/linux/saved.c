/* The file of saved.h: a head, and each part behind the one before. */
#include "saved.h"

#include <stdlib.h>
#include <string.h>
#include <time.h>

#include "board.h"
#include "files.h"
#include "watch.h"
#include "words.h"

static const char MARK[8] = "LINUX-1";

struct head {
    char mark[sizeof MARK];
    uint64_t machine_len, windows_len; /* of another build they may be others */
    uint64_t name_len, script_len, devices_len, disk_len, memory_len;
    struct timespec stopped;
};

enum { WINDOWS = 2 };

struct saved {
    struct head head;
    struct machine *machine;
    struct window *windows; /* as watch.c knows them */
    char *name, *script;
    uint8_t *devices, *disk, *memory;
};

static struct timespec now(void)
{
    struct timespec time;
    clock_gettime(CLOCK_REALTIME, &time);
    return time;
}

static double milliseconds_since(struct timespec then)
{
    struct timespec time = now();
    return (time.tv_sec - then.tv_sec) * 1e3 + (time.tv_nsec - then.tv_nsec) / 1e6;
}

/* The size of a guest's memory, all regions together. */
static uint64_t memory_len(uint8_t slot)
{
    const struct memory *memory = board_memory(slot);
    uint64_t len = 0;
    for (size_t i = 0; i < memory->count; i++)
        len += memory->regions[i].len;
    return len;
}

/* ---- saving */

static void put(FILE *file, const void *bytes, size_t len)
{
    if (fwrite(bytes, 1, len, file) != len)
        fail("the file of a guest that is saved");
}

/* Its memory, its files and where its pages lie are this process's. */
static void put_machine(FILE *file, const struct machine *machine)
{
    static struct machine kept;
    kept = *machine;
    kept.early = kept.mistakes = kept.terminal.log = NULL;
    kept.terminal.script = NULL;
    kept.cpu.memory = (struct memory){ 0 };
    kept.cpu.bus = (struct cpu_bus){ 0 };
    memset(kept.cpu.tlb, 0, sizeof kept.cpu.tlb);
    put(file, &kept, sizeof kept);
}

static void put_disk(FILE *file, uint8_t slot, size_t len)
{
    uint8_t *bytes = malloc(len + 1);
    if (bytes == NULL)
        fail("the disk's bytes");
    board_disk(slot, bytes, len);
    put(file, bytes, len);
    free(bytes);
}

void saved_write(const char *path, const struct machine *machine, const char *disk_name, uint64_t disk_len)
{
    struct head head = { .machine_len = sizeof *machine, .windows_len = WINDOWS * sizeof(struct window),
                         .name_len = strlen(disk_name), .script_len = strlen(machine->terminal.script),
                         .disk_len = disk_len, .memory_len = memory_len(machine->slot), .stopped = now() };
    size_t devices_len;
    uint8_t *devices = board_save(machine->slot, &devices_len);
    FILE *file = open_file(path, "wb");
    memcpy(head.mark, MARK, sizeof MARK);
    head.devices_len = devices_len;
    put(file, &head, sizeof head);
    put_machine(file, machine);
    put(file, watch_windows(machine->slot), head.windows_len);
    put(file, disk_name, head.name_len);
    put(file, machine->terminal.script, head.script_len);
    put(file, devices, devices_len);
    put_disk(file, machine->slot, head.disk_len);
    const struct memory *memory = board_memory(machine->slot);
    for (size_t i = 0; i < memory->count; i++)
        put(file, memory->regions[i].bytes, memory->regions[i].len);
    if (fclose(file) != 0)
        fail(path);
    free(devices);
    printf("guest %u: saved after %llu cycles, its devices in %zu bytes, in %.1f ms\n", machine->slot,
           (unsigned long long)machine->cpu.cycles, devices_len, milliseconds_since(head.stopped));
}

/* ---- bringing back */

/* The next bytes, with a NUL behind them. */
static void *take(FILE *file, size_t len)
{
    uint8_t *bytes = malloc(len + 1);
    if (bytes == NULL || fread(bytes, 1, len, file) != len)
        fail("a saved guest that isn't whole");
    bytes[len] = 0;
    return bytes;
}

static bool is_ours(const struct head *head)
{
    return memcmp(head->mark, MARK, sizeof MARK) == 0 && head->machine_len == sizeof(struct machine) &&
           head->windows_len == WINDOWS * sizeof(struct window);
}

struct saved *saved_read(const char *path)
{
    FILE *file = open_file(path, "rb");
    struct saved *saved = malloc(sizeof *saved);
    if (saved == NULL || fread(&saved->head, 1, sizeof saved->head, file) != sizeof saved->head || !is_ours(&saved->head))
        fail("no guest that this build saved");
    const struct head *head = &saved->head;
    saved->machine = take(file, head->machine_len);
    saved->windows = take(file, head->windows_len);
    saved->name = take(file, head->name_len);
    saved->script = take(file, head->script_len);
    saved->devices = take(file, head->devices_len);
    saved->disk = take(file, head->disk_len);
    saved->memory = take(file, head->memory_len);
    fclose(file);
    return saved;
}

char *saved_disk_name(struct saved *saved)
{
    return saved->name;
}

struct machine_file saved_disk(const struct saved *saved)
{
    return (struct machine_file){ saved->disk, saved->head.disk_len };
}

/* Puts back the bytes of the memory, one region behind the other. */
static void put_back(const struct saved *saved, uint8_t slot)
{
    const struct memory *memory = board_memory(slot);
    const uint8_t *bytes = saved->memory;
    if (saved->head.memory_len != memory_len(slot))
        fail("a saved guest with another memory");
    for (size_t i = 0; i < memory->count; bytes += memory->regions[i++].len)
        memcpy(memory->regions[i].bytes, bytes, memory->regions[i].len);
}

/* The memory, then the devices, then the machine, which sets both interrupt lines. */
void saved_resume(struct saved *saved, struct machine *machine)
{
    put_back(saved, machine->slot);
    board_restore(machine->slot, saved->devices, saved->head.devices_len);
    memcpy(watch_windows(machine->slot), saved->windows, saved->head.windows_len);
    machine_resume(machine, saved->machine, saved->script);
    printf("guest %u: goes on after %llu cycles; it stood for %.1f ms\n", machine->slot,
           (unsigned long long)machine->cpu.cycles, milliseconds_since(saved->head.stopped));
    free(saved->machine);
    free(saved->windows);
    free(saved->devices);
    free(saved->memory);
    free(saved);
}
