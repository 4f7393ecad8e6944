/* The library's calls behind board.h. */
#include "board.h"

#include <poll.h>
#include <stdio.h>
#include <stdlib.h>
#include <string.h>
#include <sys/stat.h>
#include <unistd.h>

#include "../embed/support/file_disk.h"
#include "disk.h"
#include "record.h"
#include "watch.h"

enum { GUESTS = 16, COLUMNS = 80, ROWS = 25, QUEUE_NOTIFY = 0x050, PATH = 4096, SECTOR = 512 };

static const struct kalyubos_region SMALL[KALYUBOS_REGIONS] = { { MEMORY_BASE, MEMORY_LEN } };
static const struct kalyubos_region LARGE[KALYUBOS_REGIONS] = { { MEMORY_BASE, 0x20000000 }, { 0x100000000, 0x20000000 } };

static struct kalyubos board;
static struct board_settings settings;
static struct memory memories[GUESTS];
static struct kalyubos_pending waits[GUESTS]; /* after the slot's last call */
static struct watch_call served[GUESTS];      /* the last call that a service came of */
static bool paused[GUESTS];                   /* and whether that is paused */

/* Of disks that the host serves: all are slots of one board, whose calls so stand in the middle of each other's flights. */
static struct file_disk disks[GUESTS][BOARD_DISKS];
static struct board_flights flights[GUESTS][BOARD_DISKS];
static struct {
    uint64_t all, failed; /* the tags whose files have ended, and that aren't completed; and those that failed */
} ended[GUESTS][BOARD_DISKS];

static void must(uint32_t answer, const char *what)
{
    if (answer != KALYUBOS_DONE) {
        fprintf(stderr, "%s: %s\n", what, kalyubos_answer(answer));
        exit(1);
    }
}

/* ---- opening and closing */

/* A region of the slot's memory in place, or one of our own that calls copy. */
static struct region region_of(uint8_t slot, const struct kalyubos_region *described)
{
    struct region region = { .base = described->base, .len = described->len };
    if (!settings.copies)
        must(kalyubos_memory(&board, slot, region.base, &region.bytes, &region.len), "memory");
    else if ((region.bytes = calloc(region.len, 1)) == NULL)
        must(KALYUBOS_NO_MEMORY, "memory");
    return region;
}

static void open_memory(uint8_t slot, const struct kalyubos_slot *described)
{
    struct memory *memory = &memories[slot];
    for (memory->count = 0; described->regions[memory->count].len != 0; memory->count++)
        memory->regions[memory->count] = region_of(slot, &described->regions[memory->count]);
}

static uint8_t window_of(uint8_t disk)
{
    return disk == BOARD_OWN ? KALYUBOS_BLOCK : BOARD_DEVICES + disk - BOARD_FIXED;
}

static uint8_t disk_of(uint8_t window)
{
    return window == KALYUBOS_BLOCK ? BOARD_OWN : BOARD_FIXED + window - BOARD_DEVICES;
}

/* Whether the host serves it. */
static bool is_hosted(uint8_t disk)
{
    return disk == BOARD_OWN ? settings.hosted : settings.disks != NULL && !settings.spare;
}

/* Whether a window is that of a disk over the image. */
static bool is_over_image(uint8_t window)
{
    return window == KALYUBOS_BLOCK ? !settings.hosted : window >= BOARD_DEVICES && settings.spare;
}

const char *board_file(const char *folder, const uint8_t address[BOARD_ADDRESS], uint8_t disk)
{
    static char path[PATH];
    const char *name = disk == BOARD_FIXED ? "fixed" : "data";
    if (address[BOARD_ADDRESS - 2] != 0)
        snprintf(path, sizeof path, "%s/%s-noise", folder, name);
    else
        snprintf(path, sizeof path, "%s/%s-%c", folder, name, address[BOARD_ADDRESS - 1]);
    return path;
}

/* The file of a disk; that of a further one ends as the own disk's name, which the card's address has too. */
static const char *path_of(uint8_t slot, uint8_t disk)
{
    return disk == BOARD_OWN ? settings.names[slot] : board_file(settings.disks, settings.addresses[slot], disk);
}

_Noreturn static void fail_of(const char *path, const char *wrong)
{
    fprintf(stderr, "linux-machine: %s: %s\n", path, wrong);
    exit(2);
}

/* The serial of a disk: the name of its file, as far as it fits. */
static void name_disk(uint8_t identity[20], const char *path)
{
    const char *slash = strrchr(path, '/');
    const char *name = slash != NULL ? slash + 1 : path;
    memcpy(identity, name, strnlen(name, 20));
}

static uint64_t sectors_of(uint8_t slot, uint8_t disk)
{
    struct stat file;
    if (disk == BOARD_OWN)
        return settings.sectors[slot];
    if (stat(path_of(slot, disk), &file) != 0)
        fail_of(path_of(slot, disk), "isn't there");
    return file.st_size / SECTOR;
}

/* How many spare sectors stand before those of a slot's further disk, or behind the last how many there are. */
static uint64_t spare_before(uint8_t slot, uint8_t disk)
{
    uint64_t sectors = 0;
    for (uint8_t other = BOARD_FIXED; settings.spare && other < disk; other++)
        sectors += sectors_of(slot, other);
    return sectors;
}

static void open_disk(uint8_t slot, uint8_t disk)
{
    struct file_disk *file = &disks[slot][disk];
    const char *wrong = file_disk_open(file, &board, slot, window_of(disk), settings.depth, path_of(slot, disk),
                                       sectors_of(slot, disk) * SECTOR, disk == BOARD_FIXED,
                                       settings.threads ? &file_thread : &file_ring);
    if (wrong != NULL)
        fail_of(path_of(slot, disk), wrong);
    flights[slot][disk].way = file->way->name;
}

/* A board of one image, with the budget, or one whose disks the host serves. */
static void create(const struct kalyubos_slot *slots, uint64_t sectors)
{
    struct kalyubos_config config = kalyubos_config_of(slots, settings.guests);
    config.cache = settings.cache;
    if (!settings.hosted) {
        config.image = settings.image;
        config.image_len = sectors * SECTOR;
        config.chains = settings.chains;
        config.bytes = settings.bytes;
    }
    must(record_create(&board, &config), "create");
    if (!settings.hosted)
        disk_serve(&board);
    for (size_t i = 0; i < settings.guests; i++)
        for (uint8_t disk = 0; disk < BOARD_DISKS; disk++)
            if (is_hosted(disk))
                open_disk(i, disk);
}

static void add_devices(struct kalyubos_slot *slot, const uint8_t address[BOARD_ADDRESS])
{
    slot->devices[BOARD_ENTROPY - KALYUBOS_DEVICE] = (struct kalyubos_device){ .kind = KALYUBOS_ENTROPY };
    slot->devices[BOARD_CARD - KALYUBOS_DEVICE] = (struct kalyubos_device){ .kind = KALYUBOS_NETWORK, .mtu = BOARD_MTU };
    memcpy(slot->devices[BOARD_CARD - KALYUBOS_DEVICE].mac, address, BOARD_ADDRESS);
}

static void add_disks(struct kalyubos_slot *of, uint8_t slot)
{
    for (uint8_t disk = BOARD_FIXED; disk < BOARD_DISKS; disk++) {
        struct kalyubos_device *device = &of->devices[window_of(disk) - KALYUBOS_DEVICE];
        *device = (struct kalyubos_device){ .kind = settings.spare ? KALYUBOS_IMAGE_DISK : KALYUBOS_DISK,
                                            .sectors = sectors_of(slot, disk), .start = spare_before(slot, disk),
                                            .read_only = disk == BOARD_FIXED, .depth = settings.depth };
        name_disk(device->identity, path_of(slot, disk));
    }
}

void board_open(const struct board_settings *wanted)
{
    struct kalyubos_slot slots[GUESTS];
    uint64_t start = 0;
    settings = *wanted;
    for (size_t i = 0; i < settings.guests; i++) {
        slots[i] = (struct kalyubos_slot){ .size = sizeof *slots, .start = start, .count = settings.sectors[i],
                                           .spare = spare_before(i, BOARD_DISKS), .cols = COLUMNS, .rows = ROWS,
                                           .outlet = settings.outlet, .hosted = settings.hosted, .depth = settings.depth };
        if (settings.addresses != NULL)
            add_devices(&slots[i], settings.addresses[i]);
        if (settings.disks != NULL)
            add_disks(&slots[i], i);
        memcpy(slots[i].regions, settings.large ? LARGE : SMALL, sizeof slots[i].regions);
        name_disk(slots[i].identity, settings.names[i]);
        start += slots[i].count + slots[i].spare;
    }
    if (settings.record != NULL && !record_to(settings.record))
        must(KALYUBOS_NO_ROOM, settings.record);
    create(slots, start);
    for (size_t i = 0; i < settings.guests; i++)
        open_memory(i, &slots[i]);
}

/* Completes all that is in flight of a disk. */
static void end_flights(uint8_t slot, uint8_t disk)
{
    while (disks[slot][disk].begun != 0)
        if (board_complete(slot, disk, &(uint8_t){ BOARD_ANY }) == KALYUBOS_MORE)
            board_wait();
}

void board_close(void)
{
    for (size_t i = 0; i < settings.guests; i++)
        for (uint8_t disk = 0; disk < BOARD_DISKS; disk++)
            if (is_hosted(disk))
                end_flights(i, disk);
    for (size_t i = 0; i < settings.guests && settings.copies; i++)
        for (size_t j = 0; j < memories[i].count; j++)
            free(memories[i].regions[j].bytes);
    for (size_t i = 0; i < settings.guests; i++)
        for (uint8_t disk = 0; disk < BOARD_DISKS; disk++)
            if (is_hosted(disk))
                file_disk_close(&disks[i][disk]);
    must(kalyubos_destroy(&board), "destroy");
    disk_close();
    if (!record_end())
        must(KALYUBOS_NO_ROOM, "the record");
}

const struct memory *board_memory(uint8_t slot)
{
    return &memories[slot];
}

/* A memory that calls copy isn't the board's while a call runs. */
void board_watch(uint8_t slot, FILE *told)
{
    if (!settings.copies)
        watch_guest(slot, &memories[slot], told);
}

size_t board_mistakes(uint8_t slot)
{
    return watch_count(slot);
}

/* ---- the calls */

/* Where memories are copied: what stands round each call that may look at a memory. */
static void before(uint8_t slot)
{
    const struct region *regions = memories[slot].regions;
    for (size_t i = 0; settings.copies && i < memories[slot].count; i++)
        must(kalyubos_write_memory(&board, slot, regions[i].base, regions[i].bytes, regions[i].len), "write_memory");
}

static void after(uint8_t slot)
{
    const struct region *regions = memories[slot].regions;
    for (size_t i = 0; settings.copies && i < memories[slot].count; i++)
        must(kalyubos_read_memory(&board, slot, regions[i].base, regions[i].bytes, regions[i].len), "read_memory");
}

/* Counts a call of a guest for those of whom operations are under way. */
static void count_call(uint8_t slot)
{
    for (size_t i = 0; i < settings.guests; i++)
        for (uint8_t disk = 0; disk < BOARD_DISKS; disk++)
            flights[i][disk].calls += disks[i][disk].begun != 0 && i != slot;
}

uint32_t board_read(uint8_t slot, uint8_t window, uint16_t offset, uint8_t width)
{
    uint32_t value;
    count_call(slot);
    must(record_read(&board, slot, window, offset, width, &value), "read");
    watch_after(&board, &(struct watch_call){ WATCH_READ, slot, window, offset, width, 0, 0 }, record_line());
    return value;
}

static void begin(const struct watch_call *call)
{
    count_call(call->slot);
    watch_before(call);
    served[call->slot] = *call;
}

/* Counts an operation that begins. */
static void count_operation(const struct memory *memory, struct board_flights *counts, const struct file_flight *flight)
{
    counts->operations++;
    for (uint32_t i = 0; i < flight->asked.runs && flight->asked.kind != KALYUBOS_ZEROES; i++)
        for (size_t j = 0; j < memory->count; j++)
            counts->runs[j] += flight->runs[i].at - memory->regions[j].base < memory->regions[j].len;
}

/* Operations of a disk begin. */
static void take_off(uint8_t slot, uint8_t number)
{
    struct file_disk *disk = &disks[slot][number];
    struct board_flights *counts = &flights[slot][number];
    uint64_t before = disk->begun;
    (void)file_disk_begin(disk); /* one that the kernel doesn't take has failed: board_wait doesn't wait for it */
    for (uint8_t tag = 0; tag < disk->depth; tag++)
        if ((disk->begun & ~before) >> tag & 1)
            count_operation(&memories[slot], counts, &disk->flights[tag]);
    size_t together = (size_t)__builtin_popcountll(disk->begun);
    if (together > counts->together)
        counts->together = together;
}

/*
 * What stands behind a call that may pause, and behind each that goes on. The library doesn't tell of a flush, so each
 * notify of a disk ends only when what it wrote is below the file.
 */
static uint32_t settle(uint8_t slot, uint32_t answer)
{
    const struct watch_call *call = &served[slot];
    paused[slot] = answer == KALYUBOS_MORE;
    if (paused[slot] || answer == KALYUBOS_BUSY)
        return answer;
    watch_after(&board, call, record_line());
    after(slot);
    if (is_over_image(call->window) && call->offset == QUEUE_NOTIFY)
        disk_sync();
    if (answer == KALYUBOS_IO)
        take_off(slot, disk_of(call->window));
    else if (answer != KALYUBOS_NO_ROOM)
        must(answer, "a service");
    return answer;
}

uint32_t board_write(uint8_t slot, uint8_t window, uint16_t offset, uint8_t width, uint32_t value)
{
    before(slot);
    begin(&(struct watch_call){ WATCH_WRITE, slot, window, offset, width, value, 0 });
    return settle(slot, record_write(&board, slot, window, offset, width, value, &waits[slot]));
}

uint64_t board_in_flight(uint8_t slot, uint8_t disk)
{
    return disks[slot][disk].begun;
}

/* Takes in what has ended. It stays begun until it is completed. */
static void take_in_ended(uint8_t slot, uint8_t disk)
{
    uint8_t tag;
    bool failed;
    before(slot);
    while (file_disk_go_on(&disks[slot][disk], &tag, &failed)) {
        disks[slot][disk].begun |= (uint64_t)1 << tag;
        ended[slot][disk].all |= (uint64_t)1 << tag;
        ended[slot][disk].failed |= (uint64_t)failed << tag;
    }
    after(slot);
}

/* A trace has the slot's own disk alone. */
static uint32_t complete(uint8_t slot, uint8_t disk, uint8_t tag, bool failed)
{
    if (disk == BOARD_OWN)
        return record_completed(&board, slot, tag, failed, &waits[slot]);
    return kalyubos_completed(&board, slot, window_of(disk), tag, failed, &waits[slot]);
}

uint32_t board_complete(uint8_t slot, uint8_t disk, uint8_t *tag)
{
    if (disks[slot][disk].begun == 0)
        return KALYUBOS_DONE;
    take_in_ended(slot, disk);
    uint64_t all = ended[slot][disk].all;
    if (all == 0 || (*tag != BOARD_ANY && (all >> *tag & 1) == 0))
        return KALYUBOS_MORE;
    if (*tag == BOARD_ANY)
        *tag = (uint8_t)__builtin_ctzll(all);
    uint64_t others = ~((uint64_t)1 << *tag);
    bool failed = ended[slot][disk].failed >> *tag & 1;
    before(slot);
    begin(&(struct watch_call){ .kind = WATCH_COMPLETION, .slot = slot, .window = window_of(disk),
                                .value = failed, .tag = *tag });
    disks[slot][disk].begun &= others;
    ended[slot][disk].all &= others;
    ended[slot][disk].failed &= others;
    return settle(slot, complete(slot, disk, *tag, failed));
}

void board_wait(void)
{
    enum { MILLISECONDS = 10 };
    struct pollfd ready[GUESTS * BOARD_DISKS];
    bool is_refused = false;
    for (size_t i = 0; i < settings.guests * BOARD_DISKS; i++) {
        const struct file_disk *disk = &disks[i / BOARD_DISKS][i % BOARD_DISKS];
        ready[i] = (struct pollfd){ .fd = disk->begun != 0 ? disk->ready : -1, .events = POLLIN };
        is_refused = is_refused || disk->refused != 0;
    }
    if (!is_refused)
        poll(ready, settings.guests * BOARD_DISKS, MILLISECONDS);
}

struct board_flights board_flights(uint8_t slot, uint8_t disk)
{
    return flights[slot][disk];
}

/* Whether operations began that this host doesn't know of: a service that paused doesn't tell. */
static bool has_asked(uint8_t slot, uint8_t window)
{
    uint64_t tags = 0;
    return window >= BOARD_DEVICES && is_hosted(disk_of(window))
           && kalyubos_in_flight(&board, slot, window, &tags) == KALYUBOS_DONE && (tags & ~disks[slot][disk_of(window)].begun) != 0;
}

uint32_t board_go_on(uint8_t slot)
{
    uint32_t answer = record_go_on(&board, slot, &waits[slot]);
    return settle(slot, answer == KALYUBOS_DONE && has_asked(slot, served[slot].window) ? KALYUBOS_IO : answer);
}

bool board_is_paused(uint8_t slot)
{
    return paused[slot];
}

size_t board_type(uint8_t slot, const uint8_t *bytes, size_t len)
{
    size_t took;
    before(slot);
    begin(&(struct watch_call){ .kind = WATCH_INPUT, .slot = slot, .window = KALYUBOS_CONSOLE });
    settle(slot, record_input(&board, slot, bytes, len, &took, &waits[slot]));
    return took;
}

void board_resize(uint8_t slot, uint16_t cols, uint16_t rows)
{
    must(record_resize(&board, slot, cols, rows, &waits[slot]), "resize");
}

size_t board_output(uint8_t slot, uint8_t *into, size_t len)
{
    size_t taken = 0;
    if (waits[slot].output > 0)
        must(record_take_output(&board, slot, into, len, &taken), "take_output");
    waits[slot].output -= taken;
    return taken;
}

/* ---- further devices */

static struct kalyubos_device_pending wait_of(uint8_t slot, uint8_t window)
{
    struct kalyubos_device_pending pending;
    before(slot);
    must(kalyubos_device_pending(&board, slot, window, &pending), "device_pending");
    return pending;
}

/* Brings to its end what comes of something that a device was handed, or that was taken from it. */
static void bring_to_end(uint8_t slot, uint32_t answer, const char *what)
{
    while (answer == KALYUBOS_MORE)
        answer = kalyubos_go_on(&board, slot, &waits[slot]);
    must(answer, what);
    after(slot);
}

bool board_starved(uint8_t slot)
{
    return wait_of(slot, BOARD_ENTROPY).starved;
}

size_t board_supply(uint8_t slot, const uint8_t *bytes, size_t len)
{
    size_t taken;
    before(slot);
    bring_to_end(slot, kalyubos_supply(&board, slot, BOARD_ENTROPY, bytes, len, &taken), "supply");
    return taken;
}

bool board_receive(uint8_t slot, const uint8_t *frame, size_t len)
{
    bool taken;
    before(slot);
    bring_to_end(slot, kalyubos_receive(&board, slot, BOARD_CARD, frame, len, &taken), "receive");
    return taken;
}

size_t board_take_frame(uint8_t slot, uint8_t into[BOARD_ANY_FRAME])
{
    size_t len;
    before(slot);
    bring_to_end(slot, kalyubos_take_frame(&board, slot, BOARD_CARD, into, BOARD_ANY_FRAME, &len), "take_frame");
    return len;
}

bool board_line(uint8_t slot, uint8_t window)
{
    if (window >= KALYUBOS_DEVICE)
        return wait_of(slot, window).interrupt != 0;
    return (window == KALYUBOS_BLOCK ? waits[slot].block : waits[slot].console) != 0;
}

uint8_t *board_save(uint8_t slot, size_t *len)
{
    must(kalyubos_saved_len(&board, slot, len), "saved_len");
    uint8_t *devices = malloc(*len);
    if (devices == NULL)
        must(KALYUBOS_NO_MEMORY, "save");
    must(kalyubos_save(&board, slot, devices, *len, len), "save");
    if (settings.hosted && fdatasync(disks[slot][BOARD_OWN].file) != 0)
        must(KALYUBOS_BAD_RANGE, settings.names[slot]);
    return devices;
}

void board_restore(uint8_t slot, const uint8_t *devices, size_t len)
{
    before(slot);
    must(kalyubos_restore(&board, slot, devices, len, &waits[slot]), "restore");
}

void board_disk(uint8_t slot, uint8_t *into, size_t len)
{
    uint64_t start = 0;
    for (size_t i = 0; i < slot; i++)
        start += (settings.sectors[i] + spare_before(i, BOARD_DISKS)) * SECTOR;
    if (!settings.hosted)
        must(kalyubos_read_image(&board, start, into, len), "read_image");
    else if (pread(disks[slot][BOARD_OWN].file, into, len, 0) != (ssize_t)len)
        must(KALYUBOS_BAD_RANGE, settings.names[slot]);
}
