/*
 * A guest that runs on, by hand: over words in two regions its driver brings up a disk and a console, writes a sector, puts out a
 * line, reads one that is typed, offers broken chains, goes on where another device left its queue, and is moved to other memory.
 * Between these each queue has more than a service's budget of chains, and the output more than its room. The host does what the disk
 * is asked for, and prints what each call answers and what then stands in the guest's memory. Both read and write that memory by
 * atomic accesses, as the CPUs of such a guest and its host's threads do.
 *
 * Its heap is open for the calls that make, move and destroy a guest alone, and refuses each block once.
 */
#include <inttypes.h>
#include <limits.h>
#include <stdio.h>
#include <stdlib.h>
#include <string.h>

#include "kalyubos.h"

/* Both regions have one length, so that only what is found in them tells whose words are whose. */
enum { SECTOR = 512, SECTORS = 8, SIZE = 8, CHAINS = 2, RAM_LEN = 0x10000, HIGH_LEN = 0x10000 };
static const uint64_t RAM = 0x80000000, HIGH = 0x90000000;

/* The queues' areas in RAM, 0x1000 apart from each other: a table, an available ring and a used ring (2.7). */
enum { DISK_QUEUE = 0x1000, RECEIVE_QUEUE = 0x2000, TRANSMIT_QUEUE = 0x3000, AVAILABLE = 0x400, USED = 0x800 };
/* Requests' headers and statuses, an identity, lines that are put out, and where typed bytes go. Data are in the other region. */
enum { HEADER = 0x4000, REQUEST_STATUS = 0x4010, IDENTITY = 0x4080, LINE = 0x4100, TYPED = 0x4200 };
enum { IDENTITY_LEN = 20, LINE_LEN = 64, TYPED_LEN = 16 };
enum { NEXT = 1, WRITE = 2, PACKED_USED = 1 << 15, VERSION_1 = 1, RING_PACKED = 4, IN = 0, OUT = 1, FLUSH = 4, GET_ID = 8, UNTOLD = 0xff };
/* Offsets of registers (4.2.2). */
enum { MAGIC = 0x000, DEVICE_ID = 0x008, DRIVER_FEATURES = 0x020, DRIVER_FEATURES_SEL = 0x024, QUEUE_SEL = 0x030,
       QUEUE_SIZE = 0x038, QUEUE_READY = 0x044, NOTIFY = 0x050, INTERRUPT_STATUS = 0x060, INTERRUPT_ACK = 0x064,
       STATUS = 0x070, QUEUE_DESC = 0x080, QUEUE_DRIVER = 0x090, QUEUE_DEVICE = 0x0a0 };

/* The guest's memory, and other memory that it is moved to. */
static uint64_t ram[RAM_LEN / 8], high[HIGH_LEN / 8], other_ram[RAM_LEN / 8], other_high[HIGH_LEN / 8];
static uint64_t *ram_now = ram, *high_now = high;
static uint8_t disk[SECTORS * SECTOR];
static struct kalyubos_guest guest;
static struct kalyubos_pending pending;

static struct kalyubos_slot described(void)
{
    struct kalyubos_slot slot = {
        .size = sizeof slot, .regions = { { RAM, RAM_LEN }, { HIGH, HIGH_LEN } }, .count = SECTORS, .cols = 80, .rows = 25,
        .outlet = 64, .hosted = true, .identity = "racing", .depth = 4,
    };
    return slot;
}

/* ---- the heap */

static bool is_open;
static unsigned blocks_left = UINT_MAX, blocks;

static void need_open(void)
{
    if (!is_open) {
        puts("a call asks the heap for something");
        exit(1);
    }
}

struct kalyubos_block kalyubos_alloc(size_t size, size_t align)
{
    need_open();
    void *at = blocks_left > 0 ? malloc(size != 0 ? size : align) : NULL;
    blocks_left -= at != NULL;
    blocks += at != NULL;
    return (struct kalyubos_block){ at != NULL, at };
}

struct kalyubos_block kalyubos_realloc(void *at, size_t kept, size_t size, size_t align)
{
    need_open();
    void *moved = blocks_left > 0 ? realloc(at, size != 0 ? size : align) : NULL;
    (void)kept;
    return (struct kalyubos_block){ moved != NULL, moved };
}

void kalyubos_dealloc(void *at)
{
    need_open();
    blocks--;
    free(at);
}

static uint32_t create(struct kalyubos_guest_config config)
{
    is_open = true;
    uint32_t number = kalyubos_guest_create(&guest, &config);
    is_open = false;
    return number;
}


static const char *answer(uint32_t number)
{
    static char text[200];
    snprintf(text, sizeof text, "%" PRIu32 ", %s", number, kalyubos_answer(number));
    return text;
}

/* Gives the guest these regions, over the other memory. */
static uint32_t move(const char *what, const struct kalyubos_region *regions, size_t regions_len, size_t words_len)
{
    struct kalyubos_words words[] = { { other_ram, regions[0].len / 8 }, { other_high, regions[1].len / 8 } };
    is_open = true;
    uint32_t number = kalyubos_guest_set_memory(&guest, regions, regions_len, words, words_len);
    is_open = false;
    printf("%s: %s\n", what, answer(number));
    printf("  %s\n", words[0].words == other_ram ? "the words are the host's" : "the words were taken");
    return number;
}

static void destroy(void)
{
    is_open = true;
    uint32_t number = kalyubos_guest_destroy(&guest);
    is_open = false;
    printf("destroy: %s, %u blocks are left\n", answer(number), blocks);
}

/* ---- the guest's memory, byte by byte */

static uint8_t *place(uint64_t addr)
{
    return addr >= HIGH ? (uint8_t *)high_now + (addr - HIGH) : (uint8_t *)ram_now + (addr - RAM);
}

static void put(uint64_t addr, uint64_t value, unsigned len)
{
    for (unsigned i = 0; i < len; i++)
        __atomic_store_n(place(addr + i), (uint8_t)(value >> 8 * i), __ATOMIC_SEQ_CST);
}

static uint64_t get(uint64_t addr, unsigned len)
{
    uint64_t value = 0;
    for (unsigned i = 0; i < len; i++)
        value |= (uint64_t)__atomic_load_n(place(addr + i), __ATOMIC_SEQ_CST) << 8 * i;
    return value;
}

static void put_text(uint64_t addr, const char *text)
{
    for (size_t i = 0; i < strlen(text); i++)
        put(addr + i, (uint8_t)text[i], 1);
}

/* ---- the driver */

static void set(uint8_t window, uint16_t offset, uint32_t value)
{
    uint32_t number = kalyubos_guest_write(&guest, window, offset, 4, value, &pending);
    if (number != KALYUBOS_DONE) {
        printf("a step of the driver at %#x: %s\n", offset, answer(number));
        exit(1);
    }
}

static uint32_t reg(uint8_t window, uint16_t offset)
{
    uint32_t value = 0;
    uint32_t number = kalyubos_guest_read(&guest, window, offset, 4, &value);
    if (number != KALYUBOS_DONE)
        printf("a read at %#x: %s\n", offset, answer(number));
    return value;
}

/* Brings a window up to FEATURES_OK, with these features of the higher word (3.1.1). */
static void begin_with(uint8_t window, const char *name, uint32_t features)
{
    printf("%s: magic %#" PRIx32 ", device %" PRIu32 "\n", name, reg(window, MAGIC), reg(window, DEVICE_ID));
    set(window, STATUS, 0);
    set(window, STATUS, 3);
    set(window, DRIVER_FEATURES_SEL, 1);
    set(window, DRIVER_FEATURES, features);
    set(window, STATUS, 11);
}

static void begin(uint8_t window, const char *name)
{
    begin_with(window, name, VERSION_1);
}

static void queue(uint8_t window, uint32_t number, uint64_t at)
{
    set(window, QUEUE_SEL, number);
    set(window, QUEUE_SIZE, SIZE);
    set(window, QUEUE_DESC, (uint32_t)(RAM + at));
    set(window, QUEUE_DRIVER, (uint32_t)(RAM + at + AVAILABLE));
    set(window, QUEUE_DEVICE, (uint32_t)(RAM + at + USED));
    set(window, QUEUE_READY, 1);
}

static void describe(uint64_t at, uint32_t index, uint64_t addr, uint32_t len, uint16_t flags)
{
    put(RAM + at + 16 * index, addr, 8);
    put(RAM + at + 16 * index + 8, len, 4);
    put(RAM + at + 16 * index + 12, flags, 2);
    put(RAM + at + 16 * index + 14, index + 1, 2);
}

/* Puts the chain from a descriptor on on offer (2.7.13). */
static void put_on_offer(uint64_t at, uint64_t head)
{
    uint64_t idx = get(RAM + at + AVAILABLE + 2, 2);
    put(RAM + at + AVAILABLE + 4 + 2 * (idx % SIZE), head, 2);
    put(RAM + at + AVAILABLE + 2, idx + 1, 2);
}

static uint32_t notify(uint8_t window, uint32_t number)
{
    return kalyubos_guest_write(&guest, window, NOTIFY, 4, number, &pending);
}

static uint32_t offer(uint8_t window, uint32_t number, uint64_t at)
{
    put_on_offer(at, 0);
    return notify(window, number);
}

/* Prints the last entries of a used ring, so many. */
static void show_used(const char *name, uint64_t at, unsigned count)
{
    uint64_t idx = get(RAM + at + USED + 2, 2);
    printf("%s: used idx %" PRIu64, name, idx);
    for (uint64_t i = idx - count; i < idx; i++) {
        uint64_t entry = RAM + at + USED + 4 + 8 * (i % SIZE);
        printf(", entry of head %" PRIu64 " with %" PRIu64 " bytes", get(entry, 4), get(entry + 4, 4));
    }
    putchar('\n');
}

static void show_pending(void)
{
    printf("  waits: block %" PRIu32 ", console %" PRIu32 ", %" PRIu64 " bytes of output\n", pending.block, pending.console,
           pending.output);
}

static void go_on(void)
{
    printf("go on: %s\n", answer(kalyubos_guest_go_on(&guest, &pending)));
    show_pending();
}

static void acknowledge(uint8_t window, const char *name)
{
    set(window, INTERRUPT_ACK, reg(window, INTERRUPT_STATUS));
    printf("%s: its interrupt is acknowledged\n", name);
    show_pending();
}

/* ---- the host */

/* Does what the disk is asked for with a tag, in place. */
static void serve(uint8_t tag)
{
    static const char *const KINDS[] = { "IN", "OUT", "FLUSH", "ZEROES" };
    struct kalyubos_operation it;
    struct kalyubos_run runs[KALYUBOS_RUNS];
    uint32_t number = kalyubos_guest_operation(&guest, tag, &it, runs, KALYUBOS_RUNS);
    printf("tag %u: %s\n", tag, answer(number));
    if (number != KALYUBOS_DONE)
        return;
    printf("  %s of %" PRIu64 " bytes from byte %" PRIu64 " on%s\n", KINDS[it.kind], it.len, it.start, it.stable ? ", stable" : "");
    uint64_t at = it.start;
    for (uint32_t i = 0; i < it.runs; i++) {
        printf("  a run of %" PRIu64 " bytes at %#" PRIx64 "\n", runs[i].len, runs[i].at);
        for (uint64_t j = 0; j < runs[i].len; j++, at++)
            if (it.kind == KALYUBOS_IN)
                put(runs[i].at + j, disk[at], 1);
            else
                disk[at] = (uint8_t)get(runs[i].at + j, 1);
    }
}

static void show_in_flight(void)
{
    uint64_t tags = 0;
    printf("in flight: %s", answer(kalyubos_guest_in_flight(&guest, &tags)));
    printf(", tags %#" PRIx64 "\n", tags);
}

/* Completes what the disk was asked for with a tag, in place. */
static void complete(uint8_t tag)
{
    printf("completed: %s\n", answer(kalyubos_guest_completed(&guest, tag, false, &pending)));
    show_pending();
}

/* The header of a request and its status, of so many requests, which lie behind each other (5.2.6). */
static void put_request(uint32_t number, uint32_t type, uint64_t sector)
{
    put(RAM + HEADER + 32 * number, type, 8);
    put(RAM + HEADER + 32 * number + 8, sector, 8);
    put(RAM + REQUEST_STATUS + 32 * number, UNTOLD, 1);
}

static void write_a_sector(void)
{
    begin(KALYUBOS_BLOCK, "disk");
    queue(KALYUBOS_BLOCK, 0, DISK_QUEUE);
    set(KALYUBOS_BLOCK, STATUS, 15);
    put_request(0, OUT, 3);
    put_text(HIGH, "a sector");
    describe(DISK_QUEUE, 0, RAM + HEADER, 16, NEXT);
    describe(DISK_QUEUE, 1, HIGH, SECTOR, NEXT);
    describe(DISK_QUEUE, 2, RAM + REQUEST_STATUS, 1, WRITE);
    printf("disk is notified: %s\n", answer(offer(KALYUBOS_BLOCK, 0, DISK_QUEUE)));
    show_pending();
    printf("a reset meanwhile: %s\n", answer(kalyubos_guest_write(&guest, KALYUBOS_BLOCK, STATUS, 4, 0, &pending)));
    show_in_flight();
    serve(0);
    complete(0);
    show_used("disk", DISK_QUEUE, 1);
    printf("disk: status %" PRIu64 ", sector 3 begins with \"%.8s\"\n", get(RAM + REQUEST_STATUS, 1), (char *)disk + 3 * SECTOR);
    acknowledge(KALYUBOS_BLOCK, "disk");
    printf("completed again: %s\n", answer(kalyubos_guest_completed(&guest, 0, false, &pending)));
    serve(0);
}

/* A GET_ID, which asks the host for nothing, a read and a flush: one more than the budget. The flush is completed first. */
static void make_three_requests(void)
{
    static const uint32_t types[] = { GET_ID, IN, FLUSH };
    for (uint32_t i = 0; i < 3; i++) {
        put_request(i, types[i], types[i] == IN ? 3 : 0);
        describe(DISK_QUEUE, 3 * i, RAM + HEADER + 32 * i, 16, NEXT);
        put_on_offer(DISK_QUEUE, 3 * i);
    }
    describe(DISK_QUEUE, 1, RAM + IDENTITY, IDENTITY_LEN, NEXT | WRITE);
    describe(DISK_QUEUE, 2, RAM + REQUEST_STATUS, 1, WRITE);
    describe(DISK_QUEUE, 4, HIGH + SECTOR, SECTOR, NEXT | WRITE);
    describe(DISK_QUEUE, 5, RAM + REQUEST_STATUS + 32, 1, WRITE);
    describe(DISK_QUEUE, 7, RAM + REQUEST_STATUS + 64, 1, WRITE);
    printf("three requests: %s\n", answer(notify(KALYUBOS_BLOCK, 0)));
    show_pending();
    show_in_flight();
    go_on();
    show_in_flight();
    acknowledge(KALYUBOS_BLOCK, "disk");
    for (uint8_t tag = 2; tag-- > 0;) {
        serve(tag);
        complete(tag);
    }
    show_used("disk", DISK_QUEUE, 3);
    printf("disk: statuses");
    for (unsigned i = 0; i < 3; i++)
        printf(" %" PRIu64, get(RAM + REQUEST_STATUS + 32 * i, 1));
    printf(", it is \"%.20s\", and the sector begins with \"%.8s\"\n", (char *)place(RAM + IDENTITY), (char *)place(HIGH + SECTOR));
    acknowledge(KALYUBOS_BLOCK, "disk");
}

static void take_output(void)
{
    char text[64];
    size_t count = 0;
    printf("output: %s", answer(kalyubos_guest_take_output(&guest, (uint8_t *)text, sizeof text, &count)));
    printf(", %zu bytes: %.*s", count, (int)count, text);
}

static void put_out_a_line(void)
{
    begin(KALYUBOS_CONSOLE, "console");
    queue(KALYUBOS_CONSOLE, 0, RECEIVE_QUEUE);
    queue(KALYUBOS_CONSOLE, 1, TRANSMIT_QUEUE);
    set(KALYUBOS_CONSOLE, STATUS, 15);
    put_text(RAM + LINE, "what time is it?\n");
    describe(TRANSMIT_QUEUE, 0, RAM + LINE, 17, 0);
    printf("console is notified: %s\n", answer(offer(KALYUBOS_CONSOLE, 1, TRANSMIT_QUEUE)));
    show_pending();
    take_output();
    show_used("console", TRANSMIT_QUEUE, 1);
    acknowledge(KALYUBOS_CONSOLE, "console");
}

/* Two lines, of which the second one doesn't fit behind the first: it stays on offer until that is taken. */
static void put_out_too_much(void)
{
    static const char *const lines[] = { "one two three four five six seven eight\n", "nine ten eleven twelve thirteen\n" };
    for (uint32_t i = 0; i < 2; i++) {
        put_text(RAM + LINE + LINE_LEN * i, lines[i]);
        describe(TRANSMIT_QUEUE, i, RAM + LINE + LINE_LEN * i, (uint32_t)strlen(lines[i]), 0);
        put_on_offer(TRANSMIT_QUEUE, i);
    }
    printf("two lines: %s\n", answer(notify(KALYUBOS_CONSOLE, 1)));
    show_pending();
    go_on();
    printf("an acknowledgement meanwhile: %s\n",
           answer(kalyubos_guest_write(&guest, KALYUBOS_CONSOLE, INTERRUPT_ACK, 4, 1, &pending)));
    show_pending();
    take_output();
    go_on();
    take_output();
    show_used("console", TRANSMIT_QUEUE, 2);
    acknowledge(KALYUBOS_CONSOLE, "console");
}

static void read_a_line(void)
{
    size_t took = 0;
    describe(RECEIVE_QUEUE, 0, RAM + TYPED, TYPED_LEN, WRITE);
    printf("a buffer for input: %s\n", answer(offer(KALYUBOS_CONSOLE, 0, RECEIVE_QUEUE)));
    show_pending();
    printf("typed: %s", answer(kalyubos_guest_input(&guest, (const uint8_t *)"ten\n", 4, &took, &pending)));
    printf(", %zu bytes taken\n", took);
    show_pending();
    show_used("console", RECEIVE_QUEUE, 1);
    printf("console: the buffer has \"");
    for (unsigned i = 0; i < 3; i++)
        putchar((int)get(RAM + TYPED + i, 1));
    printf("\" and %" PRIu64 "\n", get(RAM + TYPED + 3, 1));
    printf("another size: %s\n", answer(kalyubos_guest_resize(&guest, 100, 30, &pending)));
    show_pending();
}

/* A line that fills two buffers, the budget, and a part of a third one. */
static void read_a_long_line(void)
{
    static const char line[] = "a line that fills two buffers and more\n";
    size_t took = 0;
    acknowledge(KALYUBOS_CONSOLE, "console");
    for (uint32_t i = 0; i < 3; i++) {
        describe(RECEIVE_QUEUE, i, RAM + TYPED + TYPED_LEN * i, TYPED_LEN, WRITE);
        put_on_offer(RECEIVE_QUEUE, i);
    }
    printf("three buffers for input: %s\n", answer(notify(KALYUBOS_CONSOLE, 0)));
    show_pending();
    printf("typed: %s", answer(kalyubos_guest_input(&guest, (const uint8_t *)line, strlen(line), &took, &pending)));
    printf(", %zu bytes taken\n", took);
    show_pending();
    show_used("console", RECEIVE_QUEUE, 2);
    go_on();
    show_used("console", RECEIVE_QUEUE, 3);
    printf("console: the buffers have \"%.38s\" and %" PRIu64 "\n", (char *)place(RAM + TYPED), get(RAM + TYPED + 38, 1));
}

/*
 * A text of one byte more than the whole outlet: it is refused where no output waits, so the host asks no more, and the disk is served
 * beside it. Its queue is due until its driver has reset the console.
 */
static void put_out_what_never_fits(void)
{
    enum { LONGER = 65 };
    acknowledge(KALYUBOS_CONSOLE, "console");
    describe(TRANSMIT_QUEUE, 0, RAM + LINE, LONGER, 0);
    printf("%d bytes into %d: %s\n", LONGER, LONGER - 1, answer(offer(KALYUBOS_CONSOLE, 1, TRANSMIT_QUEUE)));
    show_pending();
    go_on();
    (void)move("other memory while a queue is due", described().regions, 2, 2);
    put_request(0, FLUSH, 0);
    describe(DISK_QUEUE, 0, RAM + HEADER, 16, NEXT);
    describe(DISK_QUEUE, 1, RAM + REQUEST_STATUS, 1, WRITE);
    printf("a flush meanwhile: %s\n", answer(offer(KALYUBOS_BLOCK, 0, DISK_QUEUE)));
    show_in_flight();
    complete(0);
    show_used("disk", DISK_QUEUE, 1);
    printf("the console is reset: %s\n", answer(kalyubos_guest_write(&guest, KALYUBOS_CONSOLE, STATUS, 4, 0, &pending)));
    go_on();
    acknowledge(KALYUBOS_BLOCK, "disk");
}

/* The last fault of each window. */
static void show_faults(void)
{
    static const char *const NAMES[] = { [KALYUBOS_BLOCK] = "disk", [KALYUBOS_CONSOLE] = "console" };
    for (uint8_t window = KALYUBOS_BLOCK; window <= KALYUBOS_CONSOLE; window++) {
        struct kalyubos_fault fault = { 0 };
        printf("%s's last fault: %s", NAMES[window], answer(kalyubos_guest_last_fault(&guest, window, &fault)));
        printf(", %s; queue %" PRIu32 ", head %#" PRIx32 ", place %" PRIu32 "\n", kalyubos_fault_text(fault.kind), fault.queue,
               fault.head, fault.place);
    }
}

/* The disk's driver offers a chain whose head isn't in the table, behind the one that was served. */
static void make_a_mistake(void)
{
    show_faults();
    put_on_offer(DISK_QUEUE, SIZE);
    printf("a head outside the table: %s\n", answer(notify(KALYUBOS_BLOCK, 0)));
    show_pending();
    printf("disk: status %#" PRIx32 "\n", reg(KALYUBOS_BLOCK, STATUS));
    show_faults();
}

/* The console's driver, anew, offers a line, and behind it one that lies outside the memory. The disk's fault stays. */
static void make_another_mistake(void)
{
    put(RAM + TRANSMIT_QUEUE + AVAILABLE + 2, 0, 2);
    begin(KALYUBOS_CONSOLE, "console");
    queue(KALYUBOS_CONSOLE, 1, TRANSMIT_QUEUE);
    set(KALYUBOS_CONSOLE, STATUS, 15);
    put_text(RAM + LINE, "and bye\n");
    describe(TRANSMIT_QUEUE, 0, RAM + LINE, 8, 0);
    describe(TRANSMIT_QUEUE, 1, HIGH + HIGH_LEN - 4, 8, 0);
    put_on_offer(TRANSMIT_QUEUE, 0);
    put_on_offer(TRANSMIT_QUEUE, 1);
    printf("a line outside memory: %s\n", answer(notify(KALYUBOS_CONSOLE, 1)));
    show_pending();
    printf("console: status %#" PRIx32 "\n", reg(KALYUBOS_CONSOLE, STATUS));
    take_output();
    show_faults();
}

/* ---- the place of a queue */

static void show_place(uint8_t window, uint16_t number)
{
    uint16_t at = 0;
    uint32_t told = kalyubos_guest_place(&guest, window, number, &at);
    printf("window %u, queue %u: %s, place %u\n", window, number, answer(told), at);
}

static void put_to(uint16_t at)
{
    printf("the disk's queue to %u: %s\n", at, answer(kalyubos_guest_set_place(&guest, KALYUBOS_BLOCK, 0, at)));
}

/* A flush from the disk's driver, which is completed; a place meanwhile is refused. */
static void flush(void)
{
    printf("a flush: %s\n", answer(notify(KALYUBOS_BLOCK, 0)));
    put_to(5);
    complete(0);
    printf("disk: status %" PRIu64 "\n", get(RAM + REQUEST_STATUS, 1));
    show_place(KALYUBOS_BLOCK, 0);
}

/* The driver's next chain is number 65535 of its ring, and behind it both indices are 0 (2.7.6, 2.7.8). */
static void go_on_in_a_split_ring(void)
{
    begin(KALYUBOS_BLOCK, "disk");
    show_place(KALYUBOS_BLOCK, 0);
    queue(KALYUBOS_BLOCK, 0, DISK_QUEUE);
    set(KALYUBOS_BLOCK, STATUS, 15);
    show_place(KALYUBOS_BLOCK, 0);
    put_to(65535);
    show_place(KALYUBOS_BLOCK, 0);
    put(RAM + DISK_QUEUE + AVAILABLE + 2, 65535, 2);
    put_request(0, FLUSH, 0);
    describe(DISK_QUEUE, 0, RAM + HEADER, 16, NEXT);
    describe(DISK_QUEUE, 1, RAM + REQUEST_STATUS, 1, WRITE);
    put_on_offer(DISK_QUEUE, 0);
    flush();
    printf("used idx %" PRIu64 ", entry 7 of head %" PRIu64 " with %" PRIu64 " bytes\n", get(RAM + DISK_QUEUE + USED + 2, 2),
           get(RAM + DISK_QUEUE + USED + 4 + 8 * 7, 4), get(RAM + DISK_QUEUE + USED + 4 + 8 * 7 + 4, 4));
}

/* Descriptor `at` of a packed ring, on offer in the second turn, in which the wrap counter is 0 (2.8.1). */
static void describe_packed(uint32_t at, uint64_t addr, uint32_t len, uint16_t flags)
{
    put(RAM + DISK_QUEUE + 16 * at, addr, 8);
    put(RAM + DISK_QUEUE + 16 * at + 8, len, 4);
    put(RAM + DISK_QUEUE + 16 * at + 12, 9, 2);
    put(RAM + DISK_QUEUE + 16 * at + 14, flags | PACKED_USED, 2);
}

/* The driver's next list begins at position 3 in the second turn of its ring: its place is 11, and 13 behind its two descriptors. */
static void go_on_in_a_packed_ring(void)
{
    begin_with(KALYUBOS_BLOCK, "disk", VERSION_1 | RING_PACKED);
    queue(KALYUBOS_BLOCK, 0, DISK_QUEUE);
    set(KALYUBOS_BLOCK, STATUS, 15);
    put_to(2 * SIZE);
    put_to(SIZE + 3);
    put_request(0, FLUSH, 0);
    describe_packed(3, RAM + HEADER, 16, NEXT);
    describe_packed(4, RAM + REQUEST_STATUS, 1, WRITE);
    flush();
    printf("descriptor 3: id %" PRIu64 ", %" PRIu64 " bytes, flags %#" PRIx64 "\n", get(RAM + DISK_QUEUE + 16 * 3 + 12, 2),
           get(RAM + DISK_QUEUE + 16 * 3 + 8, 4), get(RAM + DISK_QUEUE + 16 * 3 + 14, 2));
}

static void go_on_at_a_place(void)
{
    go_on_in_a_split_ring();
    go_on_in_a_packed_ring();
    show_place(KALYUBOS_BLOCK, 1);
    show_place(KALYUBOS_CONSOLE, 1);
    show_place(KALYUBOS_DEVICE, 0);
    acknowledge(KALYUBOS_BLOCK, "disk");
}

/* ---- other memory */

/* None of this memory is taken: the disk's queue, which is ready, lies in RAM. */
static void refuse_to_move(void)
{
    struct kalyubos_region nine[9] = { { RAM, RAM_LEN }, { HIGH, HIGH_LEN } };
    struct kalyubos_region close[] = { { RAM, RAM_LEN }, { RAM + RAM_LEN, HIGH_LEN } };
    struct kalyubos_region apart[] = { { RAM + DISK_QUEUE + 0x1000, RAM_LEN }, { HIGH, HIGH_LEN } };
    struct kalyubos_region before[] = { { RAM - RAM_LEN + DISK_QUEUE, RAM_LEN }, { HIGH, HIGH_LEN } };
    (void)move("words of one region", nine, 2, 1);
    (void)move("nine regions", nine, 9, 2);
    (void)move("no region", nine, 0, 0);
    (void)move("regions without a gap", close, 2, 2);
    (void)move("regions behind the disk's queue", apart, 2, 2);
    (void)move("regions before the disk's queue", before, 2, 2);
    blocks_left = 0;
    (void)move("a heap without a block", nine, 2, 2);
    blocks_left = UINT_MAX;
    show_place(KALYUBOS_BLOCK, 0);
}

/* What the driver laid out in RAM is copied, and then none of it is left where it was. The second region is shorter than before. */
static void move_to_other_memory(void)
{
    struct kalyubos_region regions[] = { { RAM, RAM_LEN }, { HIGH, HIGH_LEN / 2 } };
    memcpy(other_ram, ram, sizeof ram);
    if (move("other memory", regions, 2, 2) != KALYUBOS_DONE)
        return;
    ram_now = other_ram;
    high_now = other_high;
    memset(ram, UNTOLD, sizeof ram);
    memset(high, UNTOLD, sizeof high);
}

/* Reads sector 3 into HIGH, from this place on. */
static void read_into(uint64_t at)
{
    put_request(0, IN, 3);
    describe(DISK_QUEUE, 0, RAM + HEADER, 16, NEXT);
    describe(DISK_QUEUE, 1, HIGH + at, SECTOR, NEXT | WRITE);
    describe(DISK_QUEUE, 2, RAM + REQUEST_STATUS, 1, WRITE);
    printf("a read: %s\n", answer(offer(KALYUBOS_BLOCK, 0, DISK_QUEUE)));
}

/* The disk's queue goes on in the other memory, where a buffer that lay in the memory before lies outside. */
static void go_on_in_other_memory(void)
{
    put(RAM + DISK_QUEUE + AVAILABLE + 2, 0, 2);
    put(RAM + DISK_QUEUE + USED + 2, 0, 2);
    begin(KALYUBOS_BLOCK, "disk");
    queue(KALYUBOS_BLOCK, 0, DISK_QUEUE);
    set(KALYUBOS_BLOCK, STATUS, 15);
    read_into(0);
    (void)move("other memory while a read is in flight", described().regions, 2, 2);
    serve(0);
    complete(0);
    refuse_to_move();
    move_to_other_memory();
    show_place(KALYUBOS_BLOCK, 0);
    read_into(SECTOR);
    serve(0);
    complete(0);
    show_used("disk", DISK_QUEUE, 2);
    printf("disk: status %" PRIu64 ", and the sector begins with \"%.8s\"\n", get(RAM + REQUEST_STATUS, 1),
           (char *)place(HIGH + SECTOR));
    printf("the memory before: %#" PRIx64 ", %#" PRIx64 "\n", ram[REQUEST_STATUS / 8], high[SECTOR / 8]);
    read_into(HIGH_LEN / 2);
    printf("disk: status %#" PRIx32 "\n", reg(KALYUBOS_BLOCK, STATUS));
}

/* ---- what is refused */

static void try_config(const char *what, struct kalyubos_slot slot, size_t words_len)
{
    struct kalyubos_words words[] = { { ram, slot.regions[0].len / 8 }, { high, slot.regions[1].len / 8 } };
    printf("%s: %s\n", what, answer(create(kalyubos_guest_config_of(&slot, words, words_len))));
    printf("  %s\n", words[0].words == ram ? "the words are the host's" : "the words were taken");
}

static void refuse(void)
{
    struct kalyubos_slot slot = described();
    uint8_t block = 0, console = 0;
    printf("an empty handle: %s\n", answer(kalyubos_guest_interrupts(&guest, &block, &console)));
    slot.hosted = false;
    try_config("a disk of an image", slot, 2);
    slot = described();
    slot.devices[0].kind = KALYUBOS_DISK;
    try_config("a further disk", slot, 2);
    slot = described();
    slot.size--;
    try_config("another size", slot, 2);
    try_config("words of one region", described(), 1);
    slot = described();
    slot.regions[1].base = RAM + RAM_LEN;
    try_config("regions without a gap", slot, 2);
    slot = described();
    slot.regions[1].base += 8;
    try_config("a base of no page", slot, 2);
    slot = described();
    slot.regions[1].len -= 8;
    try_config("a region of no whole pages", slot, 2);
    slot = described();
    slot.regions[0].len = 0;
    try_config("no region", slot, 0);
    slot = described();
    slot.depth = 65;
    try_config("depth 65", slot, 2);
    slot = described();
    slot.count = (uint64_t)1 << 55;
    try_config("2^55 sectors", slot, 2);
    slot = described();
    slot.outlet = (1 << 24) + 1;
    try_config("an outlet of more than 2^24 bytes", slot, 2);
}

/* Each block that a guest is made of is refused once, and none is kept. */
static void refuse_memory(void)
{
    struct kalyubos_slot slot = described();
    uint32_t number = KALYUBOS_NO_MEMORY;
    for (unsigned left = 0; number == KALYUBOS_NO_MEMORY; left++) {
        struct kalyubos_words words[] = { { ram, RAM_LEN / 8 }, { high, HIGH_LEN / 8 } };
        blocks_left = left;
        number = create(kalyubos_guest_config_of(&slot, words, 2));
        if (number == KALYUBOS_NO_MEMORY && (blocks > 0 || guest.guest != NULL))
            puts("a refused guest is kept");
    }
    blocks_left = UINT_MAX;
    printf("with all blocks: %s\n", answer(number));
    destroy();
}

int main(void)
{
    struct kalyubos_words words[] = { { ram, RAM_LEN / 8 }, { high, HIGH_LEN / 8 } };
    struct kalyubos_slot slot = described();
    struct kalyubos_guest_config config = kalyubos_guest_config_of(&slot, words, 2);
    uint32_t value = 0;
    config.chains = CHAINS;
    refuse();
    refuse_memory();
    printf("create: %s\n", answer(create(config)));
    printf("  the words are %s\n", words[0].words == NULL && words[1].len == 0 ? "taken" : "left");
    printf("create again: %s\n", answer(create(kalyubos_guest_config_of(&slot, words, 2))));
    printf("window 2: %s\n", answer(kalyubos_guest_read(&guest, KALYUBOS_DEVICE, MAGIC, 4, &value)));
    write_a_sector();
    make_three_requests();
    put_out_a_line();
    put_out_too_much();
    read_a_line();
    read_a_long_line();
    put_out_what_never_fits();
    make_a_mistake();
    make_another_mistake();
    go_on_at_a_place();
    go_on_in_other_memory();
    printf("nothing is due: %s\n", answer(kalyubos_guest_go_on(&guest, &pending)));
    printf("hold: %s\n", answer(kalyubos_guest_hold(&guest, &pending)));
    printf("hold again: %s\n", answer(kalyubos_guest_hold(&guest, &pending)));
    printf("release: %s\n", answer(kalyubos_guest_release(&guest, &pending)));
    printf("drop: %s\n", answer(kalyubos_guest_drop(&guest, &pending)));
    destroy();
    destroy();
    return 0;
}
