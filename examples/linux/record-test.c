/*
 * record-test FILE: a host with one guest, whose calls record.c writes to FILE and watch.c looks at. What must stand in
 * FILE, FILE.records and FILE.mistakes was written by hand: record-test.trace and its neighbours. With a word `hosted` behind
 * FILE it has two guests whose disks it serves; record-hosted.trace has their calls. It is linked to the library, or to
 * record-stub.c, which answers the same.
 */
#include <stdio.h>
#include <stdlib.h>
#include <string.h>

#include "record.h"
#include "watch.h"

enum { BASE = 0x80000000u, LEN = 0x10000, SECTORS = 2, TABLE = 0x1000, AVAILABLE = 0x2000, HEADER = 0x4000 };

static struct kalyubos board;
static struct kalyubos_pending pending;
static uint8_t *memory;

static void must(bool holds, const char *what)
{
    if (!holds) {
        fprintf(stderr, "record-test: %s\n", what);
        exit(1);
    }
}

static uint32_t try_to_write(uint8_t window, uint16_t offset, uint8_t width, uint32_t value)
{
    struct watch_call call = { WATCH_WRITE, 0, window, offset, width, value, 0 };
    watch_before(&call);
    uint32_t answer = record_write(&board, 0, window, offset, width, value, &pending);
    if (answer != KALYUBOS_BUSY)
        watch_after(&board, &call, record_line());
    return answer;
}

static void write_register(uint8_t window, uint16_t offset, uint8_t width, uint32_t value)
{
    must(try_to_write(window, offset, width, value) == KALYUBOS_DONE, "a write");
}

static uint32_t read_register(uint8_t window, uint16_t offset, uint8_t width)
{
    uint32_t value = 0;
    must(record_read(&board, 0, window, offset, width, &value) == KALYUBOS_DONE, "a read");
    watch_after(&board, &(struct watch_call){ WATCH_READ, 0, window, offset, width, 0, 0 }, record_line());
    return value;
}

/* Bytes of its memory change in three places, of which two are near; then its console puts a byte out. */
static void use_memory_and_console(void)
{
    uint8_t taken[4];
    size_t count = 0, took = 0;
    memory[0x10] = 1;
    memory[0x11] = 2;
    memory[0x14] = 3;
    memory[0x100] = 4;
    write_register(KALYUBOS_CONSOLE, 0x108, 1, 0x12e);
    must(record_take_output(&board, 0, taken, sizeof taken, &count) == KALYUBOS_DONE && count == 1 && taken[0] == '.',
         "the output");
    must(record_input(&board, 0, (const uint8_t *)"hi\n", 3, &took, &pending) == KALYUBOS_DONE && took == 3, "input");
    must(record_resize(&board, 0, 100, 30, &pending) == KALYUBOS_DONE, "a resize");
}

/* Brings a window up with one split virtqueue of four places, at `areas`. */
static void bring_up(uint8_t window, uint32_t queue, uint32_t areas)
{
    const struct {
        uint16_t offset;
        uint32_t value;
    } writes[] = {
        { 0x070, 0 },     { 0x070, 1 },     { 0x070, 3 },              { 0x024, 1 },
        { 0x020, 1 },     { 0x070, 11 },    { 0x030, queue },          { 0x038, 4 },
        { 0x080, areas }, { 0x090, areas + 0x1000 }, { 0x0a0, areas + 0x2000 }, { 0x044, 1 },
    };
    for (size_t i = 0; i < sizeof writes / sizeof *writes; i++)
        write_register(window, writes[i].offset, 4, writes[i].value);
}

/* A read of the first sector that isn't there: the header, 512 bytes of data, the status. */
static void ask_past_the_end(void)
{
    static const uint8_t DESCRIPTORS[] = {
        0x00, 0x40, 0x00, 0x80, 0, 0, 0, 0, 0x10, 0x00, 0, 0, 1, 0, 1, 0,
        0x00, 0x50, 0x00, 0x80, 0, 0, 0, 0, 0x00, 0x02, 0, 0, 3, 0, 2, 0,
        0x00, 0x60, 0x00, 0x80, 0, 0, 0, 0, 0x01, 0x00, 0, 0, 2, 0, 0, 0,
    };
    memcpy(memory + TABLE, DESCRIPTORS, sizeof DESCRIPTORS);
    memory[HEADER + 8] = SECTORS;
    memory[AVAILABLE + 2] = 1;
    write_register(KALYUBOS_BLOCK, 0x050, 4, 0);
}

/* The same chain once more, whose last descriptor now goes on to the first. */
static void ask_in_a_circle(void)
{
    memory[TABLE + 0x2c] = 3;
    memory[AVAILABLE + 2] = 2;
    write_register(KALYUBOS_BLOCK, 0x050, 4, 0);
}

/* Two chains of ten bytes, where sixteen may wait: the notify is made twice. */
static void transmit_more_than_fits(void)
{
    static const uint8_t DESCRIPTORS[] = {
        0x00, 0xb0, 0x00, 0x80, 0, 0, 0, 0, 10, 0, 0, 0, 0, 0, 0, 0,
        0x0a, 0xb0, 0x00, 0x80, 0, 0, 0, 0, 10, 0, 0, 0, 0, 0, 0, 0,
    };
    uint8_t taken[32];
    size_t count = 0;
    memcpy(memory + 0x8000, DESCRIPTORS, sizeof DESCRIPTORS);
    memory[0x9002] = 2;
    memory[0x9006] = 1;
    memcpy(memory + 0xb000, "0123456789abcdefghij", 20);
    must(try_to_write(KALYUBOS_CONSOLE, 0x050, 4, 1) == KALYUBOS_NO_ROOM && pending.output == 10, "a full outlet");
    must(record_take_output(&board, 0, taken, sizeof taken, &count) == KALYUBOS_DONE && count == 10, "ten bytes");
    must(try_to_write(KALYUBOS_CONSOLE, 0x050, 4, 1) == KALYUBOS_DONE && pending.output == 10, "the write again");
}

/* ---- over an image */

static const struct kalyubos_slot SLOT = {
    .size = sizeof(struct kalyubos_slot), .regions = { { BASE, LEN } }, .count = SECTORS, .cols = 80, .rows = 25,
    .outlet = 16, .identity = "a disk of two",
};

/* Lends guest 0's memory, and watches its drivers. */
static void begin(FILE *mistakes)
{
    size_t len;
    must(kalyubos_memory(&board, 0, BASE, &memory, &len) == KALYUBOS_DONE && len == LEN, "the memory");
    watch_guest(0, &(struct memory){ 1, { { BASE, LEN, memory } } }, mistakes);
}

static void use_image(FILE *mistakes)
{
    static const uint8_t IMAGE[SECTORS * 512];
    struct kalyubos_config config = kalyubos_config_of(&SLOT, 1);
    config.image = IMAGE;
    config.image_len = sizeof IMAGE;
    must(record_create(&board, &config) == KALYUBOS_DONE, "create");
    begin(mistakes);
    must(read_register(KALYUBOS_BLOCK, 0x000, 4) == 0x74726976, "MagicValue");
    use_memory_and_console();
    bring_up(KALYUBOS_BLOCK, 0, BASE + TABLE);
    write_register(KALYUBOS_BLOCK, 0x050, 4, 0);
    write_register(KALYUBOS_BLOCK, 0x070, 4, 15);
    ask_past_the_end();
    ask_in_a_circle();
    must(read_register(KALYUBOS_BLOCK, 0x070, 4) == 0x4f, "Status");
    must(read_register(KALYUBOS_BLOCK, 0x070, 1) == 0, "a byte of Status");
    bring_up(KALYUBOS_CONSOLE, 1, BASE + 0x8000);
    write_register(KALYUBOS_CONSOLE, 0x070, 4, 15);
    transmit_more_than_fits();
    must(watch_count(0) == 4, "four mistakes");
}

/* ---- with disks that the host serves */

static void complete(uint8_t tag, bool failed, uint32_t expected)
{
    struct watch_call call = { .kind = WATCH_COMPLETION, .window = KALYUBOS_BLOCK, .value = failed, .tag = tag };
    watch_before(&call);
    must(record_completed(&board, 0, tag, failed, &pending) == expected, "a completion");
    watch_after(&board, &call, record_line());
}

/* A read of sector 1 and a write of sector 0, each of two descriptors, by one notify. */
static void ask_for_two(void)
{
    static const uint8_t DESCRIPTORS[] = {
        0x00, 0x40, 0x00, 0x80, 0, 0, 0, 0, 0x10, 0x00, 0, 0, 1, 0, 1, 0,
        0x00, 0x50, 0x00, 0x80, 0, 0, 0, 0, 0x01, 0x02, 0, 0, 2, 0, 0, 0,
        0x00, 0x60, 0x00, 0x80, 0, 0, 0, 0, 0x10, 0x02, 0, 0, 1, 0, 3, 0,
        0x00, 0x70, 0x00, 0x80, 0, 0, 0, 0, 0x01, 0x00, 0, 0, 2, 0, 0, 0,
    };
    memcpy(memory + TABLE, DESCRIPTORS, sizeof DESCRIPTORS);
    memory[AVAILABLE + 2] = memory[AVAILABLE + 6] = 2;
    memory[HEADER + 8] = 1;
    memory[0x6000] = 1;
    memcpy(memory + 0x6010, "new", 3);
    memory[0x5200] = memory[0x7000] = 0xff;
    must(try_to_write(KALYUBOS_BLOCK, 0x050, 4, 0) == KALYUBOS_IO, "two operations");
}

/* While both are in flight guest 1 goes on, and guest 0 too, but for a reset of its disk. */
static void go_on_meanwhile(void)
{
    uint32_t value;
    must(record_read(&board, 1, KALYUBOS_BLOCK, 0x008, 4, &value) == KALYUBOS_DONE && value == 2, "DeviceID of guest 1");
    memory[0x10] = 1;
    write_register(KALYUBOS_CONSOLE, 0x108, 1, '.');
    must(try_to_write(KALYUBOS_BLOCK, 0x070, 4, 0) == KALYUBOS_BUSY, "a reset that waits");
}

/* A read of sector 0 into two buffers, which fails. */
static void ask_for_what_fails(void)
{
    static const uint8_t DESCRIPTORS[] = {
        0x00, 0x50, 0x00, 0x80, 0, 0, 0, 0, 0x00, 0x01, 0, 0, 3, 0, 2, 0,
        0x00, 0x58, 0x00, 0x80, 0, 0, 0, 0, 0x01, 0x01, 0, 0, 2, 0, 0, 0,
    };
    memcpy(memory + TABLE + 16, DESCRIPTORS, sizeof DESCRIPTORS);
    memory[AVAILABLE + 2] = 3;
    memory[HEADER + 8] = 0;
    memory[0x5900] = 0xff;
    must(try_to_write(KALYUBOS_BLOCK, 0x050, 4, 0) == KALYUBOS_IO, "one more operation");
}

static void hold_and_release(void)
{
    must(record_hold(&board, 0, &pending) == KALYUBOS_DONE, "a hold");
    must(record_hold(&board, 0, &pending) == KALYUBOS_IDLE, "a hold of a held slot");
    must(record_release(&board, 0, &pending) == KALYUBOS_DONE, "a release");
}

/* The same read once more, which the host gives up. */
static void ask_for_what_is_dropped(void)
{
    memory[AVAILABLE + 2] = 4;
    must(try_to_write(KALYUBOS_BLOCK, 0x050, 4, 0) == KALYUBOS_IO, "an operation to be dropped");
    must(record_drop(&board, 0, &pending) == KALYUBOS_DONE && pending.block == 3, "a drop");
    must(record_drop(&board, 0, &pending) == KALYUBOS_IDLE, "a drop of nothing");
}

static void serve_disks(FILE *mistakes)
{
    struct kalyubos_slot slots[] = { SLOT, SLOT };
    slots[0].hosted = slots[1].hosted = true;
    slots[0].depth = 2;
    slots[1].regions[1] = (struct kalyubos_region){ BASE + 2 * LEN, 0x1000 };
    struct kalyubos_config config = kalyubos_config_of(slots, 2);
    must(record_create(&board, &config) == KALYUBOS_DONE, "create");
    begin(mistakes);
    bring_up(KALYUBOS_BLOCK, 0, BASE + TABLE);
    write_register(KALYUBOS_BLOCK, 0x070, 4, 15);
    ask_for_two();
    go_on_meanwhile();
    complete(1, false, KALYUBOS_DONE);
    memcpy(memory + 0x5000, "host", 4);
    complete(0, false, KALYUBOS_DONE);
    complete(1, false, KALYUBOS_IDLE);
    ask_for_what_fails();
    complete(0, true, KALYUBOS_DONE);
    hold_and_release();
    ask_for_what_is_dropped();
    write_register(KALYUBOS_BLOCK, 0x070, 4, 0);
    must(watch_count(0) == 1, "a mistake");
}

int main(int argc, char **argv)
{
    char told[4096];
    bool hosted = argc == 3 && strcmp(argv[2], "hosted") == 0;
    must((argc == 2 || hosted) && record_to(argv[1]), "a file is wanted");
    snprintf(told, sizeof told, "%s.mistakes", argv[1]);
    FILE *mistakes = fopen(told, "w");
    must(mistakes != NULL, told);
    (hosted ? serve_disks : use_image)(mistakes);
    must(kalyubos_destroy(&board) == KALYUBOS_DONE && record_end() && fclose(mistakes) == 0, "the end");
    return 0;
}
