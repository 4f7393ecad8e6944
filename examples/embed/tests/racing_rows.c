/*
 * A guest that runs on, by rows: which bytes of its words a service reads and writes, what its driver then finds in its rings and its
 * window, where a service stops, and what comes of a word that its CPU writes between two reads. Each value is worked out from the
 * standard, or from what kalyubos.h says of a budget.
 */
#define _GNU_SOURCE
#include <inttypes.h>
#include <stdio.h>
#include <stdlib.h>
#include <string.h>
#include <sys/mman.h>
#include <unistd.h>

#include "kalyubos.h"
#include "racing_accesses.h"

enum { LEN = 0x2000, SIZE = 4, LONG_SIZE = 32, SECTOR = 512, SECTORS = 8, IDENTITY_LEN = 20, OUTLET = 64, GUARD = 8 };
enum { NEXT = 1, WRITE = 2, VERSION_1 = 1, RING_PACKED = 4, IN = 0, OUT = 1, GET_ID = 8, WRITE_ZEROES = 13, RECEIVE = 0, TRANSMIT = 1 };
enum { DEVICE_ID = 0x008, NOTIFY = 0x050, INTERRUPT_STATUS = 0x060, STATUS = 0x070 };
/* The further devices' windows, and one that isn't there. A frame has a header of 12 bytes before it (5.1.6). */
enum { ENTROPY = KALYUBOS_DEVICE, CARD, SECOND_CONSOLE, NO_WINDOW, HEADER_LEN = 12, FRAME_LEN = 14, MTU = 1500, UNTOLD = 0x77 };

/* Two regions, and in the lower one a queue's table, its available and its used ring, headers, texts, statuses and data. */
static const uint64_t LOW = 0x80000000, HIGH = 0x90000000, DRIVER = 0x80000100, DEVICE = 0x80000200;
static const uint64_t HEADER = 0x80000300, REQUEST_STATUS = 0x80000380, DATA = 0x80001000;
static const char IDENTITY[] = "an identity of 20 b.";

static uint64_t low[LEN / 8], plain[LEN / 8], other[LEN / 8];
/* HIGH as its CPUs have it, and as the library has it. */
static uint64_t *high = plain, *lent = plain;
static struct kalyubos_guest guest;
static struct kalyubos_pending pending;

static void need(bool holds, const char *what, uint64_t row)
{
    if (holds)
        return;
    printf("%s (%#" PRIx64 ")\n", what, row);
    exit(1);
}

static uint8_t *place(uint64_t addr)
{
    return addr >= HIGH ? (uint8_t *)high + (addr - HIGH) : (uint8_t *)low + (addr - LOW);
}

static void put(uint64_t addr, uint64_t value, unsigned len)
{
    for (unsigned i = 0; i < len; i++)
        *place(addr + i) = (uint8_t)(value >> 8 * i);
}

static uint64_t get(uint64_t addr, unsigned len)
{
    uint64_t value = 0;
    for (unsigned i = 0; i < len; i++)
        value |= (uint64_t)*place(addr + i) << 8 * i;
    return value;
}

/* A guest anew, over zeros, whose services take so many chains; 0 is no limit. */
static void begin(uint32_t chains)
{
    struct kalyubos_slot slot = {
        .size = sizeof slot, .regions = { { LOW, LEN }, { HIGH, LEN } }, .count = SECTORS, .cols = 80, .rows = 25,
        .outlet = OUTLET, .hosted = true, .depth = 3,
        .devices = { { .kind = KALYUBOS_ENTROPY }, { .kind = KALYUBOS_NETWORK, .mtu = MTU, .mac = { 2, 0, 0, 0, 0, 1 } },
                     { .kind = KALYUBOS_CONSOLE_DEVICE, .cols = 80, .rows = 25 } },
    };
    struct kalyubos_words words[] = { { low, LEN / 8 }, { lent, LEN / 8 } };
    struct kalyubos_guest_config config = kalyubos_guest_config_of(&slot, words, 2);
    memcpy(slot.identity, IDENTITY, IDENTITY_LEN);
    config.chains = chains;
    if (guest.guest != NULL)
        kalyubos_guest_destroy(&guest);
    memset(low, 0, sizeof low);
    memset(high, 0, LEN);
    need(kalyubos_guest_create(&guest, &config) == KALYUBOS_DONE, "a guest", chains);
}

static uint32_t set(uint8_t window, uint16_t offset, uint32_t value)
{
    return kalyubos_guest_write(&guest, window, offset, 4, value, &pending);
}

static uint32_t reg(uint8_t window, uint16_t offset)
{
    uint32_t value = 0;
    need(kalyubos_guest_read(&guest, window, offset, 4, &value) == KALYUBOS_DONE, "a register", offset);
    return value;
}

/* Where a queue's areas lie. */
struct areas {
    uint32_t size;
    uint64_t table, driver, device;
};
static const struct areas USUAL = { SIZE, 0x80000000, 0x80000100, 0x80000200 };

/* Makes a queue of a window ready (3.1.1, 4.2.3.2). */
static void bring_up(uint8_t window, uint32_t features, uint32_t queue, struct areas at)
{
    const uint32_t steps[][2] = { { STATUS, 3 }, { 0x24, 1 }, { 0x20, features }, { STATUS, 11 }, { 0x30, queue }, { 0x38, at.size },
                                  { 0x80, (uint32_t)at.table }, { 0x90, (uint32_t)at.driver }, { 0xa0, (uint32_t)at.device },
                                  { 0x44, 1 }, { STATUS, 15 } };
    for (size_t i = 0; i < sizeof steps / sizeof *steps; i++)
        need(set(window, (uint16_t)steps[i][0], steps[i][1]) == KALYUBOS_DONE, "a driver's step", i);
}

static void describe(uint32_t index, uint64_t addr, uint32_t len, uint16_t flags)
{
    put(LOW + 16 * index, addr, 8);
    put(LOW + 16 * index + 8, len, 4);
    put(LOW + 16 * index + 12, flags, 2);
    put(LOW + 16 * index + 14, index + 1, 2);
}

/* Puts the chain of a head on offer at a place of the usual queue (2.7.13). */
static void offer(uint16_t at, uint16_t head)
{
    put(DRIVER + 4 + 2 * at, head, 2);
    put(DRIVER + 2, at + 1, 2);
}

/* Descriptors `first` and the two behind it are a request, of one buffer between its header and its status (5.2.6). */
static void request(uint32_t first, uint64_t header, uint32_t type, uint64_t sector, uint64_t addr, uint32_t len, uint64_t status)
{
    put(header, type, 8);
    put(header + 8, sector, 8);
    put(status, 0xff, 1);
    describe(first, header, 16, NEXT);
    describe(first + 1, addr, len, (uint16_t)(NEXT | (type == OUT || type == WRITE_ZEROES ? 0 : WRITE)));
    describe(first + 2, status, 1, WRITE);
}

/* Whether `len` bytes from an address in HIGH on are these, and those beside them are still ff. */
static bool stands(uint64_t addr, const char *bytes, size_t len)
{
    bool is_so = memcmp(place(addr), bytes, len) == 0;
    for (size_t i = 1; i <= GUARD; i++)
        is_so = is_so && *place(addr - i) == 0xff && *place(addr + len + i - 1) == 0xff;
    return is_so;
}

/* ---- which bytes are written and read */

/* An identity from each byte of a word on. */
static void identities(void)
{
    for (uint64_t at = HIGH + GUARD; at <= HIGH + 2 * GUARD; at++) {
        begin(0);
        memset(high, 0xff, LEN);
        bring_up(KALYUBOS_BLOCK, VERSION_1, 0, USUAL);
        request(0, HEADER, GET_ID, 0, at, IDENTITY_LEN, REQUEST_STATUS);
        offer(0, 0);
        need(set(KALYUBOS_BLOCK, NOTIFY, 0) == KALYUBOS_DONE, "an identity is told", at);
        need(stands(at, IDENTITY, IDENTITY_LEN) && get(REQUEST_STATUS, 1) == 0, "the bytes of an identity", at);
        need(get(DEVICE, 8) == 0x10000 && get(DEVICE + 8, 4) == IDENTITY_LEN + 1, "the used entry of an identity", at);
    }
}

/* One to nine typed bytes from each byte of a word on. */
static void typed_bytes(void)
{
    static const char TYPED[] = "123456789";
    for (uint32_t len = 1; len < sizeof TYPED; len++)
        for (uint64_t at = HIGH + GUARD; at <= HIGH + 2 * GUARD; at++) {
            size_t took = 0;
            begin(0);
            memset(high, 0xff, LEN);
            bring_up(KALYUBOS_CONSOLE, VERSION_1, RECEIVE, USUAL);
            describe(0, at, len, WRITE);
            offer(0, 0);
            need(kalyubos_guest_input(&guest, (const uint8_t *)TYPED, len, &took, &pending) == KALYUBOS_DONE && took == len, "bytes are typed", len);
            need(stands(at, TYPED, len), "the bytes of what is typed", at);
        }
}

/* Used rings in HIGH from a word on and from its middle, so that an entry lies across two words and in one. What isn't theirs stays ff. */
static void used_rings(void)
{
    for (uint64_t at = HIGH + GUARD; at <= HIGH + GUARD + 4; at += 4) {
        struct areas areas = USUAL;
        areas.device = at;
        begin(0);
        memset(high, 0xff, LEN);
        put(at, 0, 4);
        bring_up(KALYUBOS_CONSOLE, VERSION_1, RECEIVE, areas);
        describe(2, DATA, 5, WRITE);
        offer(0, 2);
        size_t took = 0;
        need(kalyubos_guest_input(&guest, (const uint8_t *)"12345", 5, &took, &pending) == KALYUBOS_DONE && took == 5, "five bytes", at);
        need(stands(at, "\0\0\1\0\2\0\0\0\5\0\0\0", 12), "flags, idx and entry of a used ring", at);
    }
}

/* The four bytes by which a device says when it wants to be notified (2.8.10), in either half of a word: all zeros behind a service. */
static void event_areas(void)
{
    for (uint64_t at = HIGH + GUARD; at <= HIGH + GUARD + 4; at += 4) {
        struct areas areas = USUAL;
        areas.device = at;
        begin(0);
        memset(high, 0xff, LEN);
        bring_up(KALYUBOS_CONSOLE, VERSION_1 | RING_PACKED, TRANSMIT, areas);
        need(set(KALYUBOS_CONSOLE, NOTIFY, TRANSMIT) == KALYUBOS_DONE, "a service of nothing", at);
        need(stands(at, "\0\0\0\0", 4), "a device's event suppression", at);
    }
}

/* Typed bytes over two buffers, of which the second lies before the first in the same word. */
static void a_row_over_two_buffers(void)
{
    static const uint8_t TYPED[] = { 0x00, 0x11, 0x22, 0x33 };
    size_t took = 0;
    begin(0);
    bring_up(KALYUBOS_CONSOLE, VERSION_1, RECEIVE, USUAL);
    describe(0, HIGH + 4, 2, NEXT | WRITE);
    describe(1, HIGH, 3, WRITE);
    offer(0, 0);
    need(kalyubos_guest_input(&guest, TYPED, sizeof TYPED, &took, &pending) == KALYUBOS_DONE && took == sizeof TYPED, "four bytes are typed", took);
    need(get(HIGH, 8) == 0x0000110000003322, "four bytes in two buffers", get(HIGH, 8));
}

/* The header of a write to sector 5 from each byte of a word on. */
static void headers(void)
{
    for (uint64_t at = HIGH; at <= HIGH + 8; at++) {
        struct kalyubos_operation it;
        struct kalyubos_run runs[KALYUBOS_RUNS];
        begin(0);
        bring_up(KALYUBOS_BLOCK, VERSION_1, 0, USUAL);
        request(0, at, OUT, 5, DATA, SECTOR, REQUEST_STATUS);
        offer(0, 0);
        need(set(KALYUBOS_BLOCK, NOTIFY, 0) == KALYUBOS_IO, "a write is asked for", at);
        need(kalyubos_guest_operation(&guest, 0, &it, runs, KALYUBOS_RUNS) == KALYUBOS_DONE, "its operation", at);
        need(it.kind == KALYUBOS_OUT && it.start == 5 * SECTOR && it.len == SECTOR, "where it writes", at);
        need(it.runs == 1 && runs[0].at == DATA && runs[0].len == SECTOR, "what it writes", at);
    }
}

/* A text of nine bytes from each byte of a word on. */
static void texts(void)
{
    static const char TEXT[] = "123456789";
    for (uint64_t at = HIGH; at <= HIGH + 8; at++) {
        char found[OUTLET];
        size_t count = 0;
        begin(0);
        bring_up(KALYUBOS_CONSOLE, VERSION_1, TRANSMIT, USUAL);
        memcpy(place(at), TEXT, 9);
        describe(0, at, 9, 0);
        offer(0, 0);
        need(set(KALYUBOS_CONSOLE, NOTIFY, TRANSMIT) == KALYUBOS_DONE && pending.output == 9, "a text is put out", at);
        need(kalyubos_guest_take_output(&guest, (uint8_t *)found, sizeof found, &count) == KALYUBOS_DONE, "it is taken", at);
        need(count == 9 && memcmp(found, TEXT, 9) == 0, "the bytes of a text", at);
    }
}

/* Buffers at the ends of both regions: a zero-length one needs its address inside, the end itself included. */
static void ends_of_regions(void)
{
    static const struct { uint64_t at; uint32_t len; bool is_inside; } ROWS[] = {
        { 0x80000000, 16, true }, { 0x80001ffe, 2, true }, { 0x80001fff, 2, false }, { 0x80002000, 0, true }, { 0x80002001, 0, false },
        { 0x80002001, 1, false }, { 0x7fffffff, 1, false }, { 0x80000000, 0x10000010, false }, { 0x90000000, 16, true },
        { 0x8fffffff, 2, false }, { 0x90001fff, 1, true }, { 0x90001fff, 2, false },
    };
    for (size_t i = 0; i < sizeof ROWS / sizeof *ROWS; i++) {
        struct kalyubos_fault fault = { 0 };
        begin(0);
        bring_up(KALYUBOS_CONSOLE, VERSION_1, TRANSMIT, USUAL);
        describe(0, ROWS[i].at, ROWS[i].len, 0);
        offer(0, 0);
        need(set(KALYUBOS_CONSOLE, NOTIFY, TRANSMIT) == KALYUBOS_DONE, "a buffer is put out", i);
        need(kalyubos_guest_last_fault(&guest, KALYUBOS_CONSOLE, &fault) == KALYUBOS_DONE, "a fault", i);
        need(fault.kind == (ROWS[i].is_inside ? KALYUBOS_NO_FAULT : KALYUBOS_FAULT_RANGE), "whether a buffer lies inside", i);
        need(get(DEVICE + 2, 2) == ROWS[i].is_inside && pending.output == (ROWS[i].is_inside ? ROWS[i].len : 0), "what is used", i);
        need(reg(KALYUBOS_CONSOLE, INTERRUPT_STATUS) == (ROWS[i].is_inside ? 1 : 2), "its interrupt", i);
    }
}

/* ---- what a driver finds behind a service, and where that stops */

/* Two texts on offer: both are used, or one where the budget is one chain, and then more is due. */
static void used_buffers_are_shown(void)
{
    static const struct { uint32_t chains, answer, used; } ROWS[] = { { 9, KALYUBOS_DONE, 2 }, { 1, KALYUBOS_MORE, 1 } };
    for (size_t i = 0; i < sizeof ROWS / sizeof *ROWS; i++) {
        begin(ROWS[i].chains);
        bring_up(KALYUBOS_CONSOLE, VERSION_1, TRANSMIT, USUAL);
        describe(0, HEADER, 4, 0);
        describe(1, HEADER + 8, 8, 0);
        offer(0, 0);
        offer(1, 1);
        need(set(KALYUBOS_CONSOLE, NOTIFY, TRANSMIT) == ROWS[i].answer, "two texts", i);
        need(reg(KALYUBOS_CONSOLE, INTERRUPT_STATUS) == 1 && get(DEVICE + 2, 2) == ROWS[i].used, "what is shown of them", i);
    }
}

/* More heads are on offer than there are descriptors: the fault is noted, without a head. */
static void a_fault_is_shown_and_noted(void)
{
    struct kalyubos_fault fault = { 0 };
    begin(9);
    bring_up(KALYUBOS_CONSOLE, VERSION_1, TRANSMIT, USUAL);
    put(DRIVER + 2, 9, 2);
    need(set(KALYUBOS_CONSOLE, NOTIFY, TRANSMIT) == KALYUBOS_DONE, "a jump", 9);
    need(reg(KALYUBOS_CONSOLE, INTERRUPT_STATUS) == 2 && reg(KALYUBOS_CONSOLE, STATUS) == 0x4f, "what is shown of a jump", 9);
    need(kalyubos_guest_last_fault(&guest, KALYUBOS_CONSOLE, &fault) == KALYUBOS_DONE, "its fault", 9);
    need(fault.kind == KALYUBOS_FAULT_JUMP && fault.queue == TRANSMIT && fault.head == KALYUBOS_NO_HEAD && fault.place == 0, "the note of a jump", 9);
}

/* A size of 3 is none of a split queue, which is then not ready (2.7). */
static void a_queue_that_is_not_ready_is_left(void)
{
    struct areas at = USUAL;
    at.size = 3;
    begin(9);
    bring_up(KALYUBOS_CONSOLE, VERSION_1, TRANSMIT, at);
    describe(0, HEADER, 4, 0);
    offer(0, 0);
    need(set(KALYUBOS_CONSOLE, NOTIFY, TRANSMIT) == KALYUBOS_DONE, "a queue of 3", 3);
    need(reg(KALYUBOS_CONSOLE, INTERRUPT_STATUS) == 0 && get(DEVICE + 2, 2) == 0 && pending.output == 0, "what is shown of it", 3);
}

/*
 * The available ring begins 2 bytes behind the used ring, so that the id of used entry 0 stands at the available idx: the used entry of
 * chain 2 tells one more chain. It is served too, or waits where the budget is one chain.
 */
static void a_chain_that_is_offered_meanwhile(void)
{
    static const struct { uint32_t chains, answer; uint64_t used; } ROWS[] = {
        { 9, KALYUBOS_DONE, 0x0000000200020000 }, { 1, KALYUBOS_MORE, 0x0000000200010000 },
    };
    for (size_t i = 0; i < sizeof ROWS / sizeof *ROWS; i++) {
        struct areas at = USUAL;
        at.driver = DEVICE + 2;
        begin(ROWS[i].chains);
        bring_up(KALYUBOS_CONSOLE, VERSION_1, TRANSMIT, at);
        describe(0, HEADER, 4, 0);
        describe(2, HEADER + 8, 8, 0);
        put(DEVICE, 0x0002000100000000, 8);
        need(set(KALYUBOS_CONSOLE, NOTIFY, TRANSMIT) == ROWS[i].answer, "a chain that tells of another", i);
        need(get(DEVICE, 8) == ROWS[i].used, "what is used of both", i);
    }
}

/*
 * Each buffer lies over the available idx, and what is typed into it offers the next chain. A service stops behind the sixteenth time;
 * the next one serves the four that are left.
 */
static void chains_that_are_offered_again_and_again(void)
{
    enum { CHAINS = 20 };
    static const struct areas AT = { LONG_SIZE, 0x80000000, 0x80000400, 0x80000600 };
    uint8_t typed[2 * CHAINS] = { 0 };
    size_t took = 0;
    begin(0);
    bring_up(KALYUBOS_CONSOLE, VERSION_1, RECEIVE, AT);
    for (uint16_t i = 0; i < CHAINS; i++) {
        describe(i, AT.driver + 2, 2, WRITE);
        put(AT.driver + 4 + 2 * i, i, 2);
        typed[2 * i] = (uint8_t)(i + 2 < CHAINS ? i + 2 : CHAINS);
    }
    put(AT.driver + 2, 1, 2);
    need(kalyubos_guest_input(&guest, typed, sizeof typed, &took, &pending) == KALYUBOS_MORE && took == sizeof typed, "twenty chains, one after another", took);
    need(get(AT.device + 2, 2) == 16, "sixteen of twenty", get(AT.device + 2, 2));
    need(kalyubos_guest_go_on(&guest, &pending) == KALYUBOS_DONE && get(AT.device + 2, 2) == CHAINS, "all twenty", get(AT.device + 2, 2));
}

/* A list of one descriptor, of buffer id 7, is used with both flags of its turn (2.8.1). */
static void a_list_of_a_packed_ring(void)
{
    begin(9);
    bring_up(KALYUBOS_CONSOLE, VERSION_1 | RING_PACKED, TRANSMIT, USUAL);
    put(LOW, HEADER, 8);
    put(LOW + 8, 0x0080000700000004, 8);
    need(set(KALYUBOS_CONSOLE, NOTIFY, TRANSMIT) == KALYUBOS_DONE && pending.output == 4, "a list", 7);
    need(get(LOW + 8, 8) == 0x8080000700000000, "a list that is used", get(LOW + 8, 8));
}

/* Reads of sectors 1 and 3 are in flight at once, and the second is completed first. */
static void two_reads_are_completed_the_other_way_round(void)
{
    static const struct areas AT = { 8, 0x80000000, 0x80000100, 0x80000200 };
    uint64_t tags = 0;
    begin(9);
    bring_up(KALYUBOS_BLOCK, VERSION_1, 0, AT);
    for (uint16_t i = 0; i < 2; i++) {
        request(3 * i, HEADER + 16 * i, IN, 1 + 2 * i, HIGH + SECTOR * i, SECTOR, REQUEST_STATUS + 8 * i);
        offer(i, 3 * i);
    }
    need(set(KALYUBOS_BLOCK, NOTIFY, 0) == KALYUBOS_IO, "two reads", 2);
    need(kalyubos_guest_in_flight(&guest, &tags) == KALYUBOS_DONE && tags == 3, "both are in flight", tags);
    for (uint8_t tag = 0; tag < 2; tag++) {
        struct kalyubos_operation it;
        struct kalyubos_run runs[KALYUBOS_RUNS];
        need(kalyubos_guest_operation(&guest, tag, &it, runs, KALYUBOS_RUNS) == KALYUBOS_DONE, "the operation of a read", tag);
        need(it.kind == KALYUBOS_IN && it.start == (tag == 0 ? 512 : 1536) && it.len == SECTOR, "where it reads", tag);
    }
    need(kalyubos_guest_completed(&guest, 1, false, &pending) == KALYUBOS_DONE, "the second read", 1);
    need(kalyubos_guest_completed(&guest, 0, false, &pending) == KALYUBOS_DONE, "the first read", 0);
    need(get(DEVICE, 8) == 0x0000000300020000 && get(DEVICE + 8, 8) == 0x201 && get(DEVICE + 16, 8) == 0x201, "both used entries", 2);
    need(get(REQUEST_STATUS, 1) == 0 && get(REQUEST_STATUS + 8, 1) == 0, "both statuses", 2);
}

/* ---- further devices */

static struct kalyubos_device_pending waits(uint8_t window)
{
    struct kalyubos_device_pending found;
    need(kalyubos_guest_device_pending(&guest, window, &found) == KALYUBOS_DONE, "what waits for a device", window);
    need(!found.starved && found.tags == 0 && found.padding[0] == 0, "what isn't told of a device", window);
    return found;
}

/* What each is, and what a call answers of a window that isn't there, or of a device that takes no such thing. */
static void what_devices_take(void)
{
    static const uint32_t IDS[] = { 4, 1, 3 };
    static const uint8_t BYTES[MTU + FRAME_LEN + 1];
    struct kalyubos_device_pending found;
    struct kalyubos_fault fault;
    uint8_t into[1];
    size_t count = UNTOLD;
    uint32_t value = UNTOLD;
    bool taken = true;
    begin(0);
    for (uint8_t i = 0; i < 3; i++)
        need(reg(KALYUBOS_DEVICE + i, DEVICE_ID) == IDS[i] && waits(KALYUBOS_DEVICE + i).interrupt == 0, "a device", i);
    for (uint8_t window = 0; window <= NO_WINDOW; window++) {
        bool is_card = window == CARD, is_console = window == SECOND_CONSOLE;
        if (window != ENTROPY && !is_console)
            need(kalyubos_guest_supply(&guest, window, BYTES, 1, &count) == KALYUBOS_BAD_WINDOW && count == UNTOLD, "a supply", window);
        if (!is_card && !is_console)
            need(kalyubos_guest_take_frame(&guest, window, into, 1, &count) == KALYUBOS_BAD_WINDOW && count == UNTOLD, "a taking", window);
        if (!is_card)
            need(kalyubos_guest_receive(&guest, window, BYTES, FRAME_LEN, &taken) == KALYUBOS_BAD_WINDOW && taken, "a frame", window);
        if (!is_card)
            need(kalyubos_guest_set_link(&guest, window, false) == KALYUBOS_BAD_WINDOW, "a link", window);
        if (!is_console)
            need(kalyubos_guest_resize_device(&guest, window, 132, 43) == KALYUBOS_BAD_WINDOW, "a size", window);
    }
    need(kalyubos_guest_receive(&guest, CARD, BYTES, 0, &taken) == KALYUBOS_BAD_WINDOW && taken, "a frame of no bytes", 0);
    need(kalyubos_guest_receive(&guest, CARD, BYTES, sizeof BYTES, &taken) == KALYUBOS_BAD_WINDOW && taken, "a frame that is too long", sizeof BYTES);
    need(kalyubos_guest_read(&guest, NO_WINDOW, DEVICE_ID, 4, &value) == KALYUBOS_BAD_WINDOW && value == UNTOLD, "no window", NO_WINDOW);
    need(set(NO_WINDOW, NOTIFY, 0) == KALYUBOS_BAD_WINDOW, "a write of no window", NO_WINDOW);
    need(kalyubos_guest_device_pending(&guest, NO_WINDOW, &found) == KALYUBOS_BAD_WINDOW, "what waits for none", NO_WINDOW);
    need(kalyubos_guest_last_fault(&guest, NO_WINDOW, &fault) == KALYUBOS_BAD_WINDOW, "the fault of none", NO_WINDOW);
}

/* A chain of eight bytes waits for random ones: three that are supplied fill it. The pool keeps 4096 of more than it has room for. */
static void random_bytes(void)
{
    enum { POOL = 4096 };
    static const uint8_t BYTES[POOL + 1] = { 0x11, 0x22, 0x33 };
    size_t count = 0;
    begin(0);
    memset(high, 0xff, LEN);
    bring_up(ENTROPY, VERSION_1, 0, USUAL);
    describe(0, HIGH + GUARD, 8, WRITE);
    offer(0, 0);
    need(set(ENTROPY, NOTIFY, 0) == KALYUBOS_DONE && get(DEVICE + 2, 2) == 0 && waits(ENTROPY).interrupt == 0, "no bytes", 0);
    need(kalyubos_guest_supply(&guest, ENTROPY, BYTES, 3, &count) == KALYUBOS_DONE && count == 3, "three bytes", count);
    need(stands(HIGH + GUARD, "\x11\x22\x33", 3) && get(DEVICE, 8) == 0x10000 && get(DEVICE + 8, 4) == 3, "the bytes of a chain", get(DEVICE + 8, 4));
    need(waits(ENTROPY).interrupt == 1, "the interrupt of a chain", 1);
    need(kalyubos_guest_supply(&guest, ENTROPY, BYTES, sizeof BYTES, &count) == KALYUBOS_DONE && count == POOL, "a full pool", count);
}

/* A frame of the host behind its header, whose num_buffers is 1 (5.1.6.4.1). */
static void a_frame_is_received(void)
{
    static const uint8_t FRAME[FRAME_LEN] = { 2, 0, 0, 0, 0, 1, 2, 0, 0, 0, 0, 2, 0x88, 0xb5 };
    bool taken = false;
    begin(0);
    memset(high, 0xff, LEN);
    bring_up(CARD, VERSION_1, RECEIVE, USUAL);
    describe(0, HIGH + GUARD, 64, WRITE);
    offer(0, 0);
    need(kalyubos_guest_receive(&guest, CARD, FRAME, FRAME_LEN, &taken) == KALYUBOS_DONE && taken, "a frame", taken);
    need(get(HIGH + GUARD, 8) == 0 && get(HIGH + GUARD + 8, 4) == 0x10000, "the header of a frame", get(HIGH + GUARD + 8, 4));
    need(memcmp(place(HIGH + GUARD + HEADER_LEN), FRAME, FRAME_LEN) == 0 && get(HIGH + GUARD + HEADER_LEN + FRAME_LEN, 1) == 0xff, "a frame's bytes", 0);
    need(get(DEVICE, 8) == 0x10000 && get(DEVICE + 8, 4) == HEADER_LEN + FRAME_LEN, "the used entry of a frame", get(DEVICE + 8, 4));
    need(kalyubos_guest_set_link(&guest, CARD, false) == KALYUBOS_DONE && waits(CARD).interrupt == 3, "a link that is down", 3);
}

/* Two frames of the driver, and a budget of one chain: the second is due. The first is taken where it finds room. */
static void two_frames_are_sent(void)
{
    uint8_t into[FRAME_LEN];
    size_t len = 0;
    begin(1);
    bring_up(CARD, VERSION_1, TRANSMIT, USUAL);
    for (uint16_t i = 0; i < 2; i++) {
        put(HEADER + 64 * i + HEADER_LEN, 0x0100000002 + i, 8);
        describe(i, HEADER + 64 * i, HEADER_LEN + FRAME_LEN, 0);
        offer(i, i);
    }
    need(set(CARD, NOTIFY, TRANSMIT) == KALYUBOS_MORE && get(DEVICE + 2, 2) == 1, "one frame of two", get(DEVICE + 2, 2));
    need(waits(CARD).interrupt == 1 && waits(CARD).frame == FRAME_LEN, "what waits of it", waits(CARD).frame);
    need(kalyubos_guest_take_frame(&guest, CARD, into, FRAME_LEN - 1, &len) == KALYUBOS_SHORT_BUFFER && len == FRAME_LEN, "too little room", len);
    need(kalyubos_guest_go_on(&guest, &pending) == KALYUBOS_DONE && get(DEVICE + 2, 2) == 2, "both frames", get(DEVICE + 2, 2));
    for (uint8_t i = 0; i < 2; i++) {
        need(kalyubos_guest_take_frame(&guest, CARD, into, FRAME_LEN, &len) == KALYUBOS_DONE && len == FRAME_LEN, "a frame is taken", i);
        need(into[0] == 2 + i && into[4] == 1, "its bytes", into[0]);
    }
    need(kalyubos_guest_take_frame(&guest, CARD, into, FRAME_LEN, &len) == KALYUBOS_DONE && len == 0, "no frame", len);
}

/* A second console: what is typed, what it puts out, its size. */
static void a_second_console(void)
{
    static const char TYPED[] = "ab", TEXT[] = "123456789";
    uint8_t found[OUTLET];
    size_t count = 0;
    begin(0);
    memset(high, 0xff, LEN);
    bring_up(SECOND_CONSOLE, VERSION_1, RECEIVE, USUAL);
    describe(0, HIGH + GUARD, 2, WRITE);
    offer(0, 0);
    need(kalyubos_guest_supply(&guest, SECOND_CONSOLE, (const uint8_t *)TYPED, 2, &count) == KALYUBOS_DONE && count == 2, "two bytes", count);
    need(stands(HIGH + GUARD, TYPED, 2) && get(DEVICE + 8, 4) == 2, "what was typed", get(DEVICE + 8, 4));
    begin(0);
    bring_up(SECOND_CONSOLE, VERSION_1, TRANSMIT, USUAL);
    memcpy(place(HIGH), TEXT, 9);
    describe(0, HIGH, 9, 0);
    offer(0, 0);
    need(set(SECOND_CONSOLE, NOTIFY, TRANSMIT) == KALYUBOS_DONE && waits(SECOND_CONSOLE).frame == 9 && pending.output == 0, "a text", 9);
    need(kalyubos_guest_take_frame(&guest, SECOND_CONSOLE, found, sizeof found, &count) == KALYUBOS_DONE && count == 9, "it is taken", count);
    need(memcmp(found, TEXT, 9) == 0 && waits(SECOND_CONSOLE).frame == 0, "its bytes", 9);
    need(kalyubos_guest_resize_device(&guest, SECOND_CONSOLE, 132, 43) == KALYUBOS_DONE && waits(SECOND_CONSOLE).interrupt == 3, "a size", 132);
    need(reg(SECOND_CONSOLE, 0x100) == (132 | 43 << 16), "the size that is read", reg(SECOND_CONSOLE, 0x100));
}

/* A jump of a card's queue is noted for its window alone. */
static void a_devices_fault_is_noted(void)
{
    struct kalyubos_fault fault = { 0 };
    begin(9);
    bring_up(CARD, VERSION_1, TRANSMIT, USUAL);
    put(DRIVER + 2, 9, 2);
    need(set(CARD, NOTIFY, TRANSMIT) == KALYUBOS_DONE && waits(CARD).interrupt == 2, "a jump of a card", waits(CARD).interrupt);
    need(kalyubos_guest_last_fault(&guest, CARD, &fault) == KALYUBOS_DONE && fault.kind == KALYUBOS_FAULT_JUMP && fault.queue == TRANSMIT, "its fault", fault.kind);
    need(kalyubos_guest_last_fault(&guest, SECOND_CONSOLE, &fault) == KALYUBOS_DONE && fault.kind == KALYUBOS_NO_FAULT, "no fault", fault.kind);
}

/* Other memory holds a card's ready queue, or the guest keeps its own. */
static void a_devices_queue_in_other_memory(void)
{
    static const struct { uint64_t base; uint32_t answer; } ROWS[] = { { 0x90000000, KALYUBOS_BAD_RANGE }, { 0x80000000, KALYUBOS_DONE } };
    begin(0);
    bring_up(CARD, VERSION_1, TRANSMIT, USUAL);
    for (size_t i = 0; i < sizeof ROWS / sizeof *ROWS; i++) {
        const struct kalyubos_region region = { ROWS[i].base, LEN };
        struct kalyubos_words words = { other, LEN / 8 };
        need(kalyubos_guest_set_memory(&guest, &region, 1, &words, 1) == ROWS[i].answer, "other memory", i);
    }
}

/* ---- which pages are marked */

/* One bit for each page from LOW to the end of HIGH: HIGH's first page is number 65536, the lowest bit of byte 8192. */
enum { PAGES_LEN = 8193, LEAST_FAR = 8192 };
static uint8_t bits[PAGES_LEN], none[PAGES_LEN];

/* These bits of the first byte and of the last are set, and no other. */
static bool marked(uint8_t front, uint8_t back)
{
    return bits[0] == front && bits[LEAST_FAR] == back && memcmp(bits + 1, none, LEAST_FAR - 1) == 0;
}

/* Puts a buffer of five bytes on offer, which marks no page, and has five bytes typed into it. */
static void type_into(uint16_t chain, uint64_t at)
{
    size_t took = 0;
    memset(bits, 0, sizeof bits);
    describe(chain, at, 5, WRITE);
    offer(chain, chain);
    need(marked(0, 0), "what its driver stores", at);
    need(kalyubos_guest_input(&guest, (const uint8_t *)"12345", 5, &took, &pending) == KALYUBOS_DONE && took == 5, "five bytes", at);
}

/* The used ring lies in LOW's first page, and DATA in its second. */
static void pages_of_stores_are_marked(void)
{
    begin(0);
    bring_up(KALYUBOS_CONSOLE, VERSION_1, RECEIVE, USUAL);
    need(kalyubos_guest_keep_pages(&guest, (struct kalyubos_loan){ bits, LEAST_FAR }) == KALYUBOS_BAD_LOAN, "a page without a bit", 0);
    need(kalyubos_guest_keep_pages(&guest, (struct kalyubos_loan){ bits, PAGES_LEN }) == KALYUBOS_DONE, "bits enough", 0);
    type_into(0, HIGH + 4096 - 8);
    need(marked(1, 1), "the page of a used ring and that of a buffer", 0);
    type_into(1, HIGH + 4096 - 2);
    need(marked(1, 3), "a buffer across two pages", 0);
    type_into(2, DATA);
    need(marked(3, 0), "two pages of one region", 0);
    need(kalyubos_guest_keep_pages(&guest, (struct kalyubos_loan){ NULL, 0 }) == KALYUBOS_DONE, "no bits", 0);
    type_into(3, DATA);
    need(marked(0, 0), "no bits are kept", 0);
}

/* ---- a CPU that writes between two reads */

/* HIGH is a file's from now on, and the library has it where each access is seen. A CPU adds 3 to its first word behind each. */
static void meddle(void)
{
    int file = memfd_create("high", 0);
    need(file >= 0 && ftruncate(file, LEN) == 0, "a file", LEN);
    high = mmap(NULL, LEN, PROT_READ | PROT_WRITE, MAP_SHARED, file, 0);
    need(high != MAP_FAILED, "a file in memory", LEN);
    lent = (uint64_t *)racing_accesses_watch(file, LEN);
    racing_accesses_meddle((const uint8_t *)lent, (_Atomic uint64_t *)high, 3);
}

/* A chain names one byte twice: it is `A` as the first buffer is copied, and `D` as the second one is. */
static void each_buffer_goes_out_as_it_was_copied(void)
{
    uint8_t found[OUTLET];
    size_t count = 0;
    begin(0);
    bring_up(KALYUBOS_CONSOLE, VERSION_1, TRANSMIT, USUAL);
    put(HIGH, 'A', 1);
    describe(0, HIGH, 1, NEXT);
    describe(1, HIGH, 1, 0);
    offer(0, 0);
    need(set(KALYUBOS_CONSOLE, NOTIFY, TRANSMIT) == KALYUBOS_DONE, "a byte is put out twice", 2);
    need(kalyubos_guest_take_output(&guest, found, sizeof found, &count) == KALYUBOS_DONE, "both are taken", count);
    need(count == 2 && found[0] == 'A' && found[1] == 'D', "a byte as each buffer had it", found[1]);
}

/* A segment of two sectors from sector 4 on, of which its CPU makes 7 once it was read: 4 and 5 are zeroed, as was judged; 8 is no sector. */
static void the_segment_that_is_judged_is_told(void)
{
    struct kalyubos_operation it;
    struct kalyubos_run runs[KALYUBOS_RUNS];
    begin(0);
    bring_up(KALYUBOS_BLOCK, VERSION_1, 0, USUAL);
    request(0, HEADER, WRITE_ZEROES, 0, HIGH, 16, REQUEST_STATUS);
    put(HIGH, 4, 8);
    put(HIGH + 8, 2, 4);
    offer(0, 0);
    need(set(KALYUBOS_BLOCK, NOTIFY, 0) == KALYUBOS_IO && get(HIGH, 8) == 7, "a segment that changes", get(HIGH, 8));
    need(kalyubos_guest_operation(&guest, 0, &it, runs, KALYUBOS_RUNS) == KALYUBOS_DONE, "its operation", 0);
    need(it.kind == KALYUBOS_ZEROES && it.runs == 1, "what is zeroed", it.runs);
    need(runs[0].at == 4 * SECTOR && runs[0].len == 2 * SECTOR, "the sectors that were judged", runs[0].at);
}

int main(void)
{
    identities();
    typed_bytes();
    used_rings();
    event_areas();
    a_row_over_two_buffers();
    headers();
    texts();
    ends_of_regions();
    used_buffers_are_shown();
    a_fault_is_shown_and_noted();
    a_queue_that_is_not_ready_is_left();
    a_chain_that_is_offered_meanwhile();
    chains_that_are_offered_again_and_again();
    a_list_of_a_packed_ring();
    two_reads_are_completed_the_other_way_round();
    what_devices_take();
    random_bytes();
    a_frame_is_received();
    two_frames_are_sent();
    a_second_console();
    a_devices_fault_is_noted();
    a_devices_queue_in_other_memory();
    pages_of_stores_are_marked();
    meddle();
    each_buffer_goes_out_as_it_was_copied();
    the_segment_that_is_judged_is_told();
    kalyubos_guest_destroy(&guest);
    puts("racing_rows: which bytes of its words a guest that runs on finds changed, what its queues show, where a service stops, which"
         " pages are marked, and what comes of a CPU that writes between two reads");
    return 0;
}
