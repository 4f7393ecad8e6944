/* The report of report.h. */
#include "report.h"

#include <stdlib.h>

#include "board.h"
#include "files.h"
#include "words.h"

/* FNV-1a of 64 bits. */
static uint64_t sum_of(const struct memory *memory)
{
    uint64_t sum = 0xcbf29ce484222325;
    for (const struct region *region = memory->regions; region < memory->regions + memory->count; region++)
        for (size_t i = 0; i < region->len; i++)
            sum = (sum ^ region->bytes[i]) * 0x100000001b3;
    return sum;
}

void report_disk(size_t guest, size_t len, const char *folder, const char *kept)
{
    uint8_t *bytes = malloc(len);
    FILE *file = create_file(folder, guest, "disk");
    if (bytes == NULL)
        fail("the disk's bytes");
    board_disk(guest, bytes, len);
    if (fwrite(bytes, 1, len, file) != len || fclose(file) != 0)
        fail("the disk's file");
    if (kept != NULL)
        replace_file(kept, bytes, len);
    free(bytes);
}

static void report_window(FILE *report, const char *name, const struct machine_counts *counts)
{
    fprintf(report, "%s: %llu reads, %llu writes, %llu interrupts\n", name, (unsigned long long)counts->reads,
            (unsigned long long)counts->writes, (unsigned long long)counts->rises);
}

void report_further(uint8_t slot)
{
    static const char *const names[BOARD_DISKS] = { [BOARD_FIXED] = "read-only disk", [BOARD_DATA] = "data disk" };
    for (uint8_t disk = BOARD_FIXED; disk < BOARD_DISKS; disk++) {
        struct board_flights flights = board_flights(slot, disk);
        if (flights.operations > 0)
            printf("guest %u: its %s was asked %zu times by %s, up to %zu at once, and other guests made %zu calls meanwhile\n",
                   slot, names[disk], flights.operations, flights.way, flights.together, flights.calls);
    }
}

/* Says what else went on while the host served the guest's disk. */
static void show_flights(uint8_t slot)
{
    struct board_flights flights = board_flights(slot, BOARD_OWN);
    if (flights.operations > 0)
        printf("guest %u: its disk was asked %zu times by %s, and other guests made %zu calls meanwhile\n", slot,
               flights.operations, flights.way, flights.calls);
    if (flights.together > 1)
        printf("guest %u: up to %zu operations of its disk were in flight together\n", slot, flights.together);
    if (board_memory(slot)->count > 1)
        printf("guest %u: %zu of its disk's runs lay in the first region of its memory, %zu in the second\n", slot,
               flights.runs[0], flights.runs[1]);
}

/* Shows what was told of a guest's drivers. */
static void show_mistakes(const struct machine *machine)
{
    char line[1024];
    size_t count = board_mistakes(machine->slot);
    if (count > 0)
        printf("guest %u: its drivers did wrong %zu times\n", machine->slot, count);
    rewind(machine->mistakes);
    while (fgets(line, sizeof line, machine->mistakes) != NULL)
        printf("  %s", line);
}

bool report_machine(const struct machine *machine, const char *folder)
{
    FILE *report = create_file(folder, machine->slot, "report");
    fprintf(report, "%s after %llu cycles\n", machine->off ? "off" : "still on",
            (unsigned long long)machine->cpu.cycles);
    report_window(report, "block", &machine->counts[0]);
    report_window(report, "console", &machine->counts[1]);
    if (machine->windows > KALYUBOS_DEVICE) {
        report_window(report, "entropy", &machine->counts[BOARD_ENTROPY]);
        report_window(report, "network", &machine->counts[BOARD_CARD]);
    }
    if (machine->windows > BOARD_DEVICES) {
        report_window(report, "read-only disk", &machine->counts[BOARD_DEVICES]);
        report_window(report, "data disk", &machine->counts[BOARD_DEVICES + 1]);
    }
    fprintf(report, "memory: %016llx\n", (unsigned long long)sum_of(board_memory(machine->slot)));
    fclose(report);
    fclose(machine->terminal.log);
    fclose(machine->early);
    if (machine->refused > 0)
        printf("guest %u: %llu writes were made again\n", machine->slot, (unsigned long long)machine->refused);
    if (machine->pauses > 0)
        printf("guest %u: its services paused %llu times\n", machine->slot, (unsigned long long)machine->pauses);
    show_flights(machine->slot);
    show_mistakes(machine);
    fclose(machine->mistakes);
    return machine->off;
}
