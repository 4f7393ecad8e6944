/*
 * A bare guest whose block driver does wrong what watch.c looks for, one thing after another, and then goes off. What
 * it does between them is right.
 */
#include <stdint.h>

enum { BLOCK_WINDOW = 0x10000000, SIZE = 4, NEXT = 1, WRITE = 2, SECTORS = 8192 };

/* The registers (VIRTIO 1.2, 4.2.2). */
enum {
    DRIVER_FEATURES = 0x020, DRIVER_FEATURES_SEL = 0x024, QUEUE_SEL = 0x030, QUEUE_NUM = 0x038, QUEUE_READY = 0x044,
    QUEUE_NOTIFY = 0x050, INTERRUPT_ACK = 0x064, STATUS = 0x070, QUEUE_DESC = 0x080, QUEUE_DRIVER = 0x090,
    QUEUE_DEVICE = 0x0a0
};

enum { ACKNOWLEDGE = 1, DRIVER = 2, DRIVER_OK = 4, FEATURES_OK = 8, VERSION_1_OF_WORD_1 = 1 };

static struct {
    struct {
        uint64_t addr;
        uint32_t len;
        uint16_t flags, next;
    } descriptors[SIZE];
} table __attribute__((aligned(16)));
static struct {
    uint16_t flags, idx, ring[SIZE], used_event;
} available;
static struct {
    uint16_t flags, idx;
    struct {
        uint32_t id, len;
    } ring[SIZE];
    uint16_t avail_event;
} used __attribute__((aligned(4)));
static struct {
    uint32_t type, reserved;
    uint64_t sector;
} header;
static uint8_t content[512], status;

static void set(unsigned offset, uint32_t value)
{
    *(volatile uint32_t *)(uintptr_t)(BLOCK_WINDOW + offset) = value;
}

/* A read of all 32 bits of the status, or of its low byte alone. */
static void look(void)
{
    (void)*(volatile uint32_t *)(BLOCK_WINDOW + STATUS);
}

static void look_at_a_byte(void)
{
    (void)*(volatile uint8_t *)(BLOCK_WINDOW + STATUS);
}

static void negotiate(uint32_t word_1)
{
    set(STATUS, 0);
    set(STATUS, ACKNOWLEDGE);
    set(STATUS, ACKNOWLEDGE | DRIVER);
    set(DRIVER_FEATURES_SEL, 1);
    set(DRIVER_FEATURES, word_1);
    set(STATUS, ACKNOWLEDGE | DRIVER | FEATURES_OK);
    look();
}

static void set_queue_up(void)
{
    set(QUEUE_SEL, 0);
    set(QUEUE_DESC, (uintptr_t)&table);
    set(QUEUE_DRIVER, (uintptr_t)&available);
    set(QUEUE_DEVICE, (uintptr_t)&used);
    set(QUEUE_NUM, SIZE - 1);
    set(QUEUE_READY, 1); /* a split queue's size is a power of two */
    set(QUEUE_NUM, SIZE);
    set(QUEUE_READY, 1);
}

/* A request over descriptors 0 to 2, of which the last goes on to `next` by `flags`. */
static void ask(uint32_t type, uint64_t sector, uint16_t flags, uint16_t next)
{
    header.type = type;
    header.sector = sector;
    table.descriptors[0].addr = (uintptr_t)&header;
    table.descriptors[0].len = sizeof header;
    table.descriptors[0].flags = NEXT;
    table.descriptors[0].next = 1;
    table.descriptors[1].addr = (uintptr_t)content;
    table.descriptors[1].len = sizeof content;
    table.descriptors[1].flags = NEXT | WRITE;
    table.descriptors[1].next = 2;
    table.descriptors[2].addr = (uintptr_t)&status;
    table.descriptors[2].len = sizeof status;
    table.descriptors[2].flags = WRITE | flags;
    table.descriptors[2].next = next;
    available.ring[available.idx % SIZE] = 0;
    __atomic_thread_fence(__ATOMIC_SEQ_CST);
    available.idx++;
    __atomic_thread_fence(__ATOMIC_SEQ_CST);
    set(QUEUE_NOTIFY, 0);
    set(INTERRUPT_ACK, 1);
}

/* The SBI's system reset: a shutdown. */
static void go_off(void)
{
    register uint64_t type __asm__("a0") = 0, reason __asm__("a1") = 0, function __asm__("a6") = 0,
                      extension __asm__("a7") = 0x53525354;
    __asm__ volatile("ecall" : "+r"(type), "+r"(reason) : "r"(function), "r"(extension) : "memory");
}

void run(void)
{
    negotiate(0);
    negotiate(VERSION_1_OF_WORD_1);
    set_queue_up();
    set(QUEUE_NOTIFY, 0);
    set(STATUS, ACKNOWLEDGE | DRIVER | FEATURES_OK | DRIVER_OK);
    look_at_a_byte();
    ask(0, SECTORS - 1, 0, 0);
    ask(0, SECTORS, 0, 0);
    ask(99, 0, 0, 0);
    set(STATUS, FEATURES_OK | DRIVER_OK);
    ask(0, 0, NEXT, 0);
    set(STATUS, 0);
    for (;;)
        go_off();
}

/* The first instructions, at the address where the machine begins. */
__asm__(".pushsection .start, \"ax\"\n"
        ".globl _start\n"
        "_start: li sp, 0x80400000\n"
        "j run\n"
        ".popsection\n");
