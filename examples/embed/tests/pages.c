/*
 * Which pages of a guest's memory its devices write to (kalyubos_keep_pages), as a migration asks it. Behind each call a
 * page whose bit is clear is as it was before; the bits that are set are those of the pages that the call wrote to, and of
 * no other; and none is ever cleared. Over memory of the library's and over memory that the host lends, of one region and
 * of two, of a disk on the image and one that the host serves.
 */
#include <stdbool.h>
#include <stdio.h>
#include <string.h>

#include "kalyubos.h"
#include "shut_heap.h"

enum { PAGE = 4096, PAGES = 32, LEN = PAGES * PAGE, BITS = PAGES / 8, SECTOR = 512, IMAGE_LEN = 64 * SECTOR };
enum { TABLE = 0, AVAILABLE = PAGE, USED = 2 * PAGE, HEADER = 3 * PAGE, STATUS_BYTE = 4 * PAGE, DATA = 8 * PAGE };
enum { NEXT = 1, WRITE = 2, IN = 0, OUT = 1, UNKNOWN = 99, NOTIFY = 0x050, STATUS = 0x070 };
#define BASE 0x80000000ull

struct descriptor {
    uint64_t addr;
    uint32_t len;
    uint16_t flags, next;
};

static struct kalyubos board;
static struct kalyubos_pending pending;
static uint8_t lent[LEN], before[LEN], bits[BITS], seen[BITS], other[BITS + 4], image[IMAGE_LEN];
static uint16_t offered;

/* The guest's memory as it stands: where two regions have a gap between them, its bytes are none. */
static void copy_memory(uint8_t *into)
{
    memset(into, 0, LEN);
    for (uint64_t at = 0; at < LEN; at += PAGE)
        (void)kalyubos_read_memory(&board, 0, BASE + at, into + at, PAGE);
}

static bool is_set(const uint8_t *of, unsigned page)
{
    return (of[page / 8] >> page % 8 & 1) != 0;
}

/* Before a call: what stood, and the bits that were set. */
static void begin(void)
{
    copy_memory(before);
    memcpy(seen, bits, sizeof bits);
}

/* Behind it the bits of these pages are set besides those that were, and no page changed whose bit is clear. */
static void marked(uint32_t pages, const char *what)
{
    static uint8_t now[LEN];
    copy_memory(now);
    for (unsigned page = 0; page < PAGES; page++) {
        bool wanted = is_set(seen, page) || (pages >> page & 1) != 0;
        need(is_set(bits, page) == wanted, what, page);
        need(is_set(bits, page) || memcmp(now + page * PAGE, before + page * PAGE, PAGE) == 0, "a page that isn't marked", page);
    }
}

static uint32_t pages_of(uint64_t at, uint64_t len)
{
    uint32_t pages = 0;
    for (uint64_t page = at / PAGE; page <= (at + len - 1) / PAGE; page++)
        pages |= UINT32_C(1) << page;
    return pages;
}

static void clear(void)
{
    memset(bits, 0, sizeof bits);
}

/* ---- the guest's driver, whose own stores are the host's */

static void store(uint64_t at, const void *from, size_t len)
{
    begin();
    need(kalyubos_write_memory(&board, 0, BASE + at, from, len) == KALYUBOS_DONE, "a store to memory", at);
    need(memcmp(bits, seen, sizeof bits) == 0, "the host's own write marks nothing", at);
}

static void set(uint16_t offset, uint32_t value)
{
    begin();
    need(kalyubos_write(&board, 0, KALYUBOS_BLOCK, offset, 4, value, &pending) == KALYUBOS_DONE, "a store", offset);
    marked(0, "a register that serves nothing");
}

static void bring_up(void)
{
    const uint32_t at = (uint32_t)BASE;
    set(STATUS, 0);
    set(STATUS, 1);
    set(STATUS, 3);
    set(0x24, 1);
    set(0x20, 1);
    set(STATUS, 11);
    set(0x38, 8);
    set(0x80, at + TABLE);
    set(0x90, at + AVAILABLE);
    set(0xa0, at + USED);
    set(0x44, 1);
    set(STATUS, 15);
    offered = 0;
}

/* Offers a request of these sectors with its data at a place, and notifies. */
static uint32_t ask(uint32_t type, uint64_t sector, uint64_t data, uint32_t len)
{
    const struct { uint32_t type, reserved; uint64_t sector; } header = { type, 0, sector };
    const struct descriptor chain[] = {
        { BASE + HEADER, 16, NEXT, 1 },
        { BASE + data, len, NEXT | (type == IN ? WRITE : 0), 2 },
        { BASE + STATUS_BYTE, 1, WRITE, 0 },
    };
    store(HEADER, &header, sizeof header);
    store(TABLE, chain, sizeof chain);
    offered++;
    store(AVAILABLE + 2, &offered, sizeof offered);
    begin();
    return kalyubos_write(&board, 0, KALYUBOS_BLOCK, NOTIFY, 4, 0, &pending);
}

/* ---- what is marked */

static uint32_t keep(uint8_t *at, size_t len)
{
    return kalyubos_keep_pages(&board, 0, (struct kalyubos_loan){ at, len });
}

/* Requests of a disk on the image: data that cross pages, and the rings' own page. */
static void check_image(void)
{
    const uint32_t ring = pages_of(USED, 1) | pages_of(STATUS_BYTE, 1);
    bring_up();
    need(ask(IN, 0, DATA, SECTOR) == KALYUBOS_DONE, "a read", 0);
    marked(ring | pages_of(DATA, SECTOR), "a read of a sector");
    clear();
    need(ask(IN, 1, DATA + PAGE - 1, SECTOR) == KALYUBOS_DONE, "a read", 1);
    marked(ring | pages_of(DATA + PAGE - 1, SECTOR), "a read over a page's end");
    need(ask(IN, 2, DATA + 4 * PAGE, 24 * SECTOR) == KALYUBOS_DONE, "a read", 2);
    marked(ring | pages_of(DATA + 4 * PAGE, 24 * SECTOR), "a read of three pages, beside those before");
    clear();
    need(ask(OUT, 3, DATA, SECTOR) == KALYUBOS_DONE, "a write", 3);
    marked(ring, "a write marks no data");
    need(keep(other, sizeof bits - 1) == KALYUBOS_BAD_LOAN, "a byte too few", 1);
    clear();
    need(ask(IN, 0, DATA, SECTOR) == KALYUBOS_DONE, "a read", 0);
    marked(ring | pages_of(DATA, SECTOR), "the bits that were kept are kept behind a refusal");
    need(keep(other, sizeof other) == KALYUBOS_DONE && other[BITS] == 0, "bytes behind the last page's bit", 0);
    need(keep(bits, sizeof bits) == KALYUBOS_DONE, "all bits again", 0);
}

/* Of a disk that the host serves: the data are the host's, status and ring are marked with the completion. */
static void check_hosted(void)
{
    bring_up();
    need(ask(IN, 0, DATA, SECTOR) == KALYUBOS_IO, "a read", 0);
    marked(0, "a request that is in flight");
    begin();
    need(kalyubos_completed(&board, 0, KALYUBOS_BLOCK, 0, false, &pending) == KALYUBOS_DONE, "a completion", 0);
    marked(pages_of(USED, 1) | pages_of(STATUS_BYTE, 1), "a completion");
    clear();
    begin();
    need(kalyubos_hold(&board, 0, KALYUBOS_BLOCK, &pending) == KALYUBOS_DONE, "a hold", 0);
    marked(0, "a hold");
    need(ask(UNKNOWN, 0, DATA, SECTOR) == KALYUBOS_DONE, "a request of no type", 0);
    marked(0, "a request of a held slot");
    begin();
    need(kalyubos_release(&board, 0, KALYUBOS_BLOCK, &pending) == KALYUBOS_DONE, "a release", 0);
    marked(pages_of(USED, 1) | pages_of(STATUS_BYTE, 1), "a release");
    clear();
    need(ask(IN, 0, DATA, SECTOR) == KALYUBOS_IO, "a read", 0);
    begin();
    need(kalyubos_drop(&board, 0, KALYUBOS_BLOCK, &pending) == KALYUBOS_DONE, "a drop", 0);
    marked(0, "a drop");
}

static void check_none(void)
{
    clear();
    need(keep(lent, 0) == KALYUBOS_DONE, "no bits", 0);
    offered = 0;
    bring_up();
    (void)ask(IN, 0, DATA, SECTOR);
    need(memcmp(bits, seen, sizeof bits) == 0, "no bits are kept", 0);
    need(kalyubos_keep_pages(&board, 1, (struct kalyubos_loan){ bits, sizeof bits }) == KALYUBOS_BAD_SLOT, "no such slot", 1);
}

static void check(bool is_lent, bool is_hosted, bool has_gap)
{
    struct kalyubos_slot slot = { .size = sizeof slot, .regions = { { BASE, LEN } }, .count = 64, .hosted = is_hosted };
    if (has_gap) {
        slot.regions[0].len = 6 * PAGE;
        slot.regions[1] = (struct kalyubos_region){ BASE + DATA, LEN - DATA };
    }
    struct kalyubos_loan loans[2] = { { lent, (size_t)slot.regions[0].len }, { lent + DATA, (size_t)slot.regions[1].len } };
    struct kalyubos_config config = over_image(&slot, 1, image, sizeof image);
    if (is_lent) {
        memset(lent, 0, sizeof lent);
        config.loans = loans;
        config.loans_len = has_gap ? 2 : 1;
    }
    memset(image, 'i', sizeof image);
    make(&board, config);
    clear();
    need(keep(bits, sizeof bits) == KALYUBOS_DONE, "bits", 0);
    if (is_hosted)
        check_hosted();
    else
        check_image();
    check_none();
    end(&board);
    need(keep(bits, sizeof bits) == KALYUBOS_NO_BOARD, "no board", 0);
}

/* ---- how many bytes there must be: a bit for each page from the first region's base to the last one's end */

enum { FAR_BYTES = 0x100001 }; /* for 2^23 + 1 pages */

static const struct {
    struct kalyubos_region first, second;
    size_t bytes;
} LENGTHS[] = {
    { { BASE, PAGE }, { 0, 0 }, 1 },
    { { BASE, 8 * PAGE }, { 0, 0 }, 1 },
    { { BASE, 9 * PAGE }, { 0, 0 }, 2 },
    { { BASE, PAGE }, { BASE + 7 * PAGE, PAGE }, 1 },
    { { BASE, PAGE }, { BASE + 8 * PAGE, PAGE }, 2 },
    { { BASE, PAGE }, { BASE + ((uint64_t)1 << 35), PAGE }, FAR_BYTES },
};

static void check_lengths(void)
{
    static uint8_t many[FAR_BYTES + 1];
    for (size_t i = 0; i < sizeof LENGTHS / sizeof *LENGTHS; i++) {
        struct kalyubos_slot slots[] = {
            { .size = sizeof *slots, .regions = { LENGTHS[i].first, LENGTHS[i].second }, .hosted = true },
            { .size = sizeof *slots, .regions = { { BASE, LEN } }, .hosted = true },
        };
        make(&board, over_image(slots, 2, image, 0));
        need(keep(many, LENGTHS[i].bytes - 1) == (LENGTHS[i].bytes == 1 ? KALYUBOS_DONE : KALYUBOS_BAD_LOAN), "a byte less", i);
        need(keep(many, LENGTHS[i].bytes) == KALYUBOS_DONE, "a bit for each page", i);
        need(keep(many, LENGTHS[i].bytes + 1) == KALYUBOS_DONE, "a byte more", i);
        need(keep(many, 0) == KALYUBOS_DONE, "no bits", i);
        need(kalyubos_keep_pages(&board, 1, (struct kalyubos_loan){ bits, BITS - 1 }) == KALYUBOS_BAD_LOAN, "the other slot's", i);
        need(kalyubos_keep_pages(&board, 1, (struct kalyubos_loan){ bits, BITS }) == KALYUBOS_DONE, "the other slot's", i);
        end(&board);
    }
}

int main(void)
{
    for (int kind = 0; kind < 8; kind++)
        check((kind & 1) != 0, (kind & 2) != 0, (kind & 4) != 0);
    check_lengths();
    puts("pages: what devices write to is marked, and nothing else: own and lent memory, one region and two, both kinds of disk");
    return 0;
}
