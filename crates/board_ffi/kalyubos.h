/*
 * kalyubos.h: up to sixty-four guests, each with a block device, a console and up to six further devices (disks, network
 * cards, consoles, entropy devices) over virtio-mmio, behind a CPU loop of your own. docs/model.md says what the devices do, and
 * docs/EMBEDDING.md how an exit of a guest becomes a call.
 *
 * `make install` installs it, and `pkg-config --cflags --libs kalyubos` says how to link it. Its heap is malloc's,
 * unless the host defines the functions at the end of this file.
 *
 * What each call promises is proved, for a caller that keeps these duties:
 *  - A handle is zeroed before its first call, and is then changed by calls alone. It is never copied: a copy
 *    would be a second owner of one board.
 *  - One call at a time for a handle, from any thread, and none from a signal handler, also where the handle is
 *    `const`: that says that the call changes nothing. What orders the calls of several threads is the host's: a lock
 *    round them, or a thread's start and end. Calls on other handles may run at the same time, if the heap may; what it
 *    gave on one thread it takes back on any.
 *  - No pointer is null, also where its length is 0, and none in a config. A buffer is as long as its length says, and
 *    none of a call's buffers, structs and out parameters overlaps another, or the handle.
 *  - A `bool` is 0 or 1. 128 KiB of stack are free: kalyubos_create of a library without a proof takes 112, and no
 *    other call more than 30. A guard page behind them turns a smaller stack into a fault.
 *  - No call is made in the forked child of a process that had threads. The heap functions return: they neither jump
 *    out by longjmp nor throw.
 *  - Eleven calls touch a guest's memory: kalyubos_write at offset 0x050 (QueueNotify), kalyubos_input, kalyubos_go_on,
 *    kalyubos_completed, kalyubos_release, kalyubos_read_memory, kalyubos_write_memory, kalyubos_supply,
 *    kalyubos_receive, kalyubos_take_frame and kalyubos_device_pending. While one of them runs for a
 *    guest, and from a KALYUBOS_MORE until its service is done, no CPU of that guest runs, and nobody else reads or
 *    writes its memory in place (kalyubos_memory), also by DMA. Other guests' CPUs may run: a call touches its own
 *    guest's memory alone. During every other call but kalyubos_destroy the guest's CPUs and DMA may run. Each
 *    kalyubos_read is such a call, and so is each kalyubos_write at another offset; Linux's interrupt handler makes one
 *    of either. It is proved that such a call on a board, for no further device, changes no byte of guest memory, and
 *    that none decides what it does or tells, but for the numbers of kalyubos_counters. That it doesn't read one all the
 *    same, and that a call for a further device touches none, is tested (examples/embed/tests/untouched.c).
 *  - A guest that runs on (struct kalyubos_guest) is free of that: its CPUs, and whoever else has its memory, read and
 *    write it at any moment. The host's own threads do so by atomic accesses.
 *  - Where the host serves a disk, it says of an operation that it is done only once it is, as kalyubos_operation has
 *    it. It ends each transfer before kalyubos_drop, and before kalyubos_destroy; the same of a guest that runs on.
 *
 * The library is built for x86-64-v2 (SSE4.2 and POPCNT) and Linux's calling convention.
 *
 * The library keeps no pointer of the caller but those of loans (kalyubos_create, kalyubos_keep_pages,
 * kalyubos_guest_create, kalyubos_guest_set_memory, kalyubos_guest_keep_pages): a call copies what it needs.
 *
 * Each call answers a number. After any but KALYUBOS_DONE its out parameters are unchanged, with these exceptions. A
 * struct kalyubos_pending is told after every answer where the slot exists. What was taken of what is handed in
 * (kalyubos_input, kalyubos_supply, kalyubos_receive) is told after KALYUBOS_MORE too, and so is a frame that is taken,
 * whose `len` is told after KALYUBOS_SHORT_BUFFER too; kalyubos_judge tells what its answer is about. The numbers never
 * change; a later version only adds some.
 *
 * A struct that the host fills begins with its `size`, its sizeof in the header that the host was built with. This
 * version takes its own size alone, and answers KALYUBOS_BAD_SIZE for any other before it looks at another field. A
 * later version that this header fits (kalyubos_version) also takes this version's size, and then does what this
 * version does. It adds fields behind all others. The structs of an array lie `size` bytes apart, so all have one size.
 * The handles, struct kalyubos_region, struct kalyubos_device, struct kalyubos_loan, struct kalyubos_words,
 * struct kalyubos_pending, struct kalyubos_device_pending, struct kalyubos_counters, struct kalyubos_fault and
 * struct kalyubos_block have no size and never change: a later version tells more by further calls.
 *
 * Slot by slot a disk is of one of two kinds. It is an extent of an image in the library's memory, or the host serves
 * it. Then the board says what it wants of the disk, one to sixty-four operations at a time; the host does them as it
 * likes and says of each that it is done, in any order; meanwhile the guest runs on. A board may have disks of both. So
 * may the further disks of a slot be: the host serves those of kind KALYUBOS_DISK, and those of kind KALYUBOS_IMAGE_DISK
 * show spare sectors of a slot whose own disk is of the image.
 *
 * kalyubos_create takes all memory that a board needs, and kalyubos_destroy gives it back; kalyubos_guest_create and
 * kalyubos_guest_destroy do so for a guest that runs on, and kalyubos_guest_set_memory takes a new list of its words and gives
 * the one before back. kalyubos_judge takes some, and gives it back before it answers. No other call takes or gives any, so no
 * guest can be refused memory for what another did: what a guest sees is decided by its own slot's calls alone, those for its
 * disk among them.
 *
 * crates/c_values/api/make makes this file of a table.
 */
#ifndef KALYUBOS_H
#define KALYUBOS_H

#include <stdbool.h>
#include <stddef.h>
#include <stdint.h>

#ifdef __cplusplus
extern "C" {
#endif

/* An answer that a host must look at: a lost KALYUBOS_MORE or KALYUBOS_IO leaves the guest waiting for ever. */
#if defined(__GNUC__) || defined(__clang__)
#define KALYUBOS_LOOK_AT_IT __attribute__((warn_unused_result))
#else
#define KALYUBOS_LOOK_AT_IT
#endif

/* The version of this header, 0.3.0: 10000 for each major version, 100 for each minor one, and the patch. */
#define KALYUBOS_VERSION 300

/*
 * The KALYUBOS_VERSION that the library was built with. A host fits a library of the same major version and, before
 * 1.0.0, of the same minor one.
 */
uint32_t kalyubos_version(void);

/* What a call answers. */
enum {
    KALYUBOS_DONE = 0,
    KALYUBOS_NO_BOARD = 1,           /* the handle is empty */
    KALYUBOS_HAS_BOARD = 2,          /* the handle holds a board already, and goes on holding it */
    KALYUBOS_BAD_SLOT = 3,           /* the board has no such slot; nothing changed */
    KALYUBOS_BAD_RANGE = 4,          /* no region, nor the image, holds all of the range; nothing changed */
    KALYUBOS_NO_MEMORY = 5,          /* the heap refused; only the calls that make or judge something and
                                        kalyubos_guest_set_memory answer this */
    KALYUBOS_BAD_WINDOW = 6,         /* the slot has no such window, or no device there takes this; nothing changed */
    KALYUBOS_BAD_IMAGE = 7,          /* the image isn't whole sectors of 512 bytes */
    KALYUBOS_NO_SLOTS = 8,           /* a board needs a slot */
    KALYUBOS_TOO_MANY_SLOTS = 9,     /* a board has sixty-four slots at most */
    KALYUBOS_BAD_MEMORY_SIZE = 10,   /* a region's size is no multiple of 4096, or with it there are over 2^46 bytes */
    KALYUBOS_BAD_MEMORY_BASE = 11,   /* a region's base is no multiple of 4096, or the region passes 2^64 */
    KALYUBOS_EXTENT_OUTSIDE = 12,    /* a slot's sectors pass the image's end, or its disk 2^64 bytes */
    KALYUBOS_EXTENTS_OVERLAP = 13,   /* two slots share a sector */
    KALYUBOS_BAD_CACHE = 14,         /* a cache keeps 1 to 65536 sectors */
    KALYUBOS_NO_ROOM = 15,           /* the console's next output doesn't fit behind what waits; see kalyubos_write */
    KALYUBOS_BAD_OUTLET = 16,        /* an outlet keeps 2^24 bytes at most */
    KALYUBOS_BAD_SIZE = 17,          /* a struct says another size than this version's */
    KALYUBOS_MORE = 18,              /* the slot's service pauses; see kalyubos_go_on, and kalyubos_guest_go_on */
    KALYUBOS_BUSY = 19,              /* the slot's service is paused, or one of its disks is at work; nothing changed */
    KALYUBOS_IO = 20,                /* done, and operations began; see kalyubos_in_flight */
    KALYUBOS_IDLE = 21,              /* there is nothing to complete, drop, hold or release, or a queue isn't live or
                                        has no such place; nothing changed */
    KALYUBOS_NO_IMAGE = 22,          /* the image has no bytes; nothing changed */
    KALYUBOS_BAD_SNAPSHOT = 23,      /* the bytes are no snapshot; nothing changed */
    KALYUBOS_OTHER_SLOT = 24,        /* the snapshot is of a slot of another description; nothing changed */
    KALYUBOS_BAD_STATE = 25,         /* the snapshot has a state that no driver can bring about; nothing changed */
    KALYUBOS_SHORT_BUFFER = 26,      /* the snapshot or the frame doesn't fit into the buffer; nothing is written */
    KALYUBOS_NO_REGIONS = 27,        /* a slot has no region of memory */
    KALYUBOS_REGIONS_NOT_APART = 28, /* a region doesn't begin behind a gap after the one before it */
    KALYUBOS_BAD_LOAN = 29,          /* the loans have another number or length than the regions, or there are too few
                                        bits for the pages */
    KALYUBOS_BAD_DEPTH = 30,         /* a disk that the host serves has a depth above 64 */
    KALYUBOS_OTHER_DEVICES = 31,     /* the snapshot has other further devices than the slot; nothing changed */
    KALYUBOS_BAD_DEVICE = 32,        /* a further device's kind isn't known, a network card's MTU is below 68, or a disk
                                        that the host serves has 2^55 sectors or more or a depth above 64; or a guest
                                        that runs on has a further disk */
    KALYUBOS_NOT_HOSTED = 33,        /* the host serves the disk of a guest that runs on, which is no extent of an
                                        image */
    KALYUBOS_RUNS_ON = 34,           /* a guest that runs on is on no board; see kalyubos_guest_create */
    KALYUBOS_BAD_EXTENT = 35,        /* a disk over the image has no sectors, one that isn't a spare one, or one that
                                        another has */
    KALYUBOS_BAD_WAITING = 36        /* the snapshot has in a further device what can't wait there; nothing changed */
};

/* What an answer says, as a sentence for a person. It is never null: a number of a later version has a sentence too. */
const char *kalyubos_answer(uint32_t number);

/* A slot's windows, each of 4096 bytes. That of its further device n is KALYUBOS_DEVICE + n. */
enum {
    KALYUBOS_BLOCK = 0,
    KALYUBOS_CONSOLE = 1,
    KALYUBOS_DEVICE = 2
};

/* A board, or none where it is zeroed. */
struct kalyubos {
    void *at;
};

/* What waits once a call is answered. */
struct kalyubos_pending {
    uint32_t block;   /* InterruptStatus of the slot's block window; its line is high while this isn't 0 */
    uint32_t console; /* and of its console window */
    uint64_t output;  /* how many bytes of its console's output wait to be taken */
};

/*
 * What the devices of a slot did since its board was made, each number modulo 2^64. kalyubos_restore keeps
 * the numbers. They are counted beside the proof: tests compare them, and no promise speaks of them.
 */
struct kalyubos_counters {
    uint64_t notifies;  /* writes to QueueNotify that named a ready queue of a live window */
    uint64_t chains;    /* chains that were given back as used */
    uint64_t bytes_in;  /* bytes that devices wrote into the guest's memory: the sum of the used lengths */
    uint64_t bytes_out; /* bytes of the readable buffers of used chains, headers included */
    uint64_t faults;    /* services that ended by a fault, so that a window asks for a reset */
    uint64_t refusals;  /* calls answered NO_ROOM, and completions that said that an operation failed */
    uint64_t pauses;    /* calls answered MORE */
};

/* How many regions the memory of a guest has at most. */
enum { KALYUBOS_REGIONS = 8 };

/* `len` bytes of a guest's memory, from address `base` on. */
struct kalyubos_region {
    uint64_t base;
    uint64_t len;
};

/* The kinds of further devices, by the standard's device IDs (5), but for the last. */
enum {
    KALYUBOS_NO_DEVICE = 0,
    KALYUBOS_NETWORK = 1,        /* a network card (5.1) */
    KALYUBOS_DISK = 2,           /* a disk that the host serves (5.2) */
    KALYUBOS_CONSOLE_DEVICE = 3, /* a console (5.3) */
    KALYUBOS_ENTROPY = 4,        /* an entropy device (5.4) */
    KALYUBOS_IMAGE_DISK = 258    /* a disk over spare sectors of the image (5.2); its DeviceID is 2 */
};

/* How many further devices a slot has at most. */
enum { KALYUBOS_DEVICES = 6 };

/* How many operations of a disk that the host serves are in flight at most. */
enum { KALYUBOS_TAGS = 64 };

/* A further device. Of a field that is for another kind of device nothing is read. */
struct kalyubos_device {
    uint32_t kind;        /* KALYUBOS_NO_DEVICE, _NETWORK, _DISK, _CONSOLE_DEVICE, _ENTROPY or _IMAGE_DISK */
    uint16_t mtu;         /* of a network card: how many bytes a frame has behind its header of Ethernet at most, 68 or
                             more */
    uint8_t mac[6];       /* and its address */
    uint32_t depth;       /* of a disk that the host serves: how many operations may be in flight, 1 to KALYUBOS_TAGS; 0
                             is 1 */
    uint64_t sectors;     /* of a disk of either kind: how many sectors it has, fewer than 2^55; over the image one at
                             least */
    uint64_t start;       /* of a disk over the image: which of the slot's spare sectors is its first, from 0 on */
    uint8_t identity[20]; /* of a disk of either kind: what it answers to GET_ID, as of a slot's disk */
    bool read_only;       /* and whether it refuses writes */
    uint16_t cols;        /* of a console: its columns */
    uint16_t rows;        /* and its rows */
};

/*
 * One guest. Its regions stand in ascending order, with a gap between each two: what follows a region without a gap is
 * part of it. A range that a driver names lies inside where one region holds all of it.
 */
struct kalyubos_slot {
    size_t size;          /* sizeof(struct kalyubos_slot) */
    struct kalyubos_region regions[KALYUBOS_REGIONS]; /* of its memory: those before the first one of `len` 0 */
    uint64_t start;       /* the first sector of the image that its disk shows; not read where the host serves it */
    uint64_t count;       /* how many sectors its disk has */
    uint64_t spare;       /* how many sectors of the image behind them are its too, for its further disks over the
                             image; not read where the host serves its disk */
    uint16_t cols;        /* the columns of its console */
    uint16_t rows;        /* and its rows */
    uint32_t outlet;      /* how many bytes of what it puts out may wait to be taken */
    bool read_only;       /* whether its disk refuses writes */
    bool hosted;          /* whether the host serves its disk; else it shows an extent of the image */
    bool runs;            /* whether its CPUs run on while it is served: kalyubos_create refuses it, whatever its disk,
                             and kalyubos_guest_create is for it */
    uint8_t identity[20]; /* what its disk answers to GET_ID, a shorter text with NULs behind it; Linux's `serial` */
    uint32_t depth;       /* how many operations may be in flight where the host serves its disk, 1 to KALYUBOS_TAGS; 0
                             is 1. It isn't looked at where the disk is of the image. */
    struct kalyubos_device devices[KALYUBOS_DEVICES]; /* its further devices: those before the first of no kind */
};

/* What is wanted of a disk that the host serves. */
enum {
    KALYUBOS_IN = 0,    /* bytes of the disk go into the runs */
    KALYUBOS_OUT = 1,   /* the bytes of the runs go to the disk */
    KALYUBOS_FLUSH = 2, /* what was written before reaches the medium */
    KALYUBOS_ZEROES = 3 /* the runs, which are of the disk, become zeros */
};

/* How many runs an operation has at most. */
enum { KALYUBOS_RUNS = 256 };

/* `len` bytes from `at` on: an address of guest memory, or of a ZEROES a byte of the disk. */
struct kalyubos_run {
    uint64_t at;
    uint64_t len;
};

/* One operation on a disk, which the library fills. It never changes, as struct kalyubos_pending doesn't. */
struct kalyubos_operation {
    uint32_t kind;  /* KALYUBOS_IN, _OUT, _FLUSH or _ZEROES */
    uint32_t runs;  /* how many runs it has: 0 of FLUSH, KALYUBOS_RUNS at most */
    uint64_t start; /* the first byte on the disk; 0 of FLUSH and ZEROES */
    uint64_t len;   /* how many bytes the runs of an IN or OUT have together; 0 of FLUSH and ZEROES */
    bool stable;    /* what it writes is to be on the medium before it is completed: the driver can't flush (5.2.6.2) */
};

/* `len` bytes of the host's, from `bytes` on. Where there are none, `bytes` may be null. It never changes. */
struct kalyubos_loan {
    uint8_t *bytes;
    size_t len;
};

/* A board, as the host describes it: fill one in by kalyubos_config_of, then change what is to be otherwise. */
struct kalyubos_config {
    size_t size;                       /* sizeof(struct kalyubos_config) */
    const struct kalyubos_slot *slots; /* its guests */
    size_t slots_len;
    struct kalyubos_loan *loans;       /* a loan for each region of all slots, slot by slot, of the region's length; or
                                          none: then the library makes the memory, of zeros */
    size_t loans_len;
    const uint8_t *image;              /* the image, which is copied; of no bytes where the host serves every disk */
    size_t image_len;
    uint32_t cache;                    /* how many sectors a cache before the image keeps at most */
    uint32_t chains;                   /* the budget of one call, in chains */
    uint64_t bytes;                    /* and in bytes; 0 is no limit */
};

/* A config of these slots: no loans, no image, a cache of one sector, no limit. */
static inline struct kalyubos_config kalyubos_config_of(const struct kalyubos_slot *slots, size_t slots_len)
{
    static const uint8_t no_image[1] = { 0 };
    static struct kalyubos_loan no_loans[1];
    struct kalyubos_config config = { sizeof config, slots, slots_len, no_loans, 0, no_image, 0, 1, 0, 0 };
    return config;
}

/*
 * Makes a board and puts it into an empty handle. A refusal leaves the handle as it was and keeps no memory. The first
 * of these that holds is answered:
 *  - HAS_BOARD; BAD_SIZE, where the config's `size` or a slot's is another than its sizeof, and nothing behind it is
 *    read; RUNS_ON; BAD_LOAN, where there are loans; BAD_IMAGE; BAD_OUTLET; BAD_DEVICE; BAD_EXTENT; NO_SLOTS;
 *    TOO_MANY_SLOTS;
 *  - slot by slot NO_REGIONS, then region by region BAD_MEMORY_SIZE, BAD_MEMORY_BASE and REGIONS_NOT_APART, then
 *    BAD_DEPTH, EXTENT_OUTSIDE and EXTENTS_OVERLAP;
 *  - BAD_CACHE.
 * NO_MEMORY may come in the place of one of the numbers from NO_SLOTS on, and over loans in the place of all but
 * HAS_BOARD, BAD_SIZE and RUNS_ON.
 *
 * A sector is read where it lies in the image, so `cache` is judged and changes nothing else.
 *
 * A call serves no more than `chains` chains, and begins no further chain once those before it had `bytes` bytes in
 * their buffers. So one call moves `bytes` and one chain at most. Without a limit nothing ever pauses. No service of a
 * disk that the host serves does.
 *
 * Choose each outlet for the longest chain that the guest's driver sends: one that is longer than `outlet` is never
 * let through, however often it is tried. Linux's console sends up to 32 KiB at once.
 *
 * With loans the memories are the lent bytes, for the board's life. None is copied, cleared or touched by this call or
 * by kalyubos_destroy, which frees none: a guest of 64 GiB is made at once. Its memory begins as the bytes stand, and
 * kalyubos_memory lends them back. Each loan is taken: null and 0 are left in its place. After HAS_BOARD, BAD_SIZE
 * and RUNS_ON all loans are as they were; after another refusal the first of them are taken, which may be none or all, and the
 * others are as they were. The bytes of a refused call are the host's again; it fills the array before it tries again.
 * Until kalyubos_destroy the bytes stay mapped where they are, and no two loans of any boards share a byte. The duty
 * above on a guest's memory in place holds of them.
 *
 * Guests whose disks the host serves share nothing. With a handle for each guest, a board of one slot, they need no
 * lock between them: what orders the calls of a guest's CPUs and of its disk is that guest's own.
 */
KALYUBOS_LOOK_AT_IT
uint32_t kalyubos_create(struct kalyubos *board, struct kalyubos_config *config);

/*
 * Judges a config as kalyubos_create does for an empty handle, and makes no board: it answers what that call would
 * answer, want of memory aside, and takes no loan. `slot` is told where the answer is about one: its place in the
 * array, of its BAD_SIZE, RUNS_ON, BAD_OUTLET, BAD_DEVICE and BAD_EXTENT too. So is `region`: its place in the slot's
 * `regions`. NO_MEMORY may come in the place of a number from NO_SLOTS on.
 */
uint32_t kalyubos_judge(const struct kalyubos_config *config, size_t *slot, size_t *region);

/*
 * Ends the board, frees its memory and leaves the handle empty. Take the image's bytes out before, let go of
 * memory in place, and end each transfer of a disk that the host serves: what was in flight is never completed.
 */
uint32_t kalyubos_destroy(struct kalyubos *board);

/*
 * A guest's read of `width` bytes (1, 2 or 4) at an offset of a window: `value` is what its register gets, extended
 * by zeros. Every offset and width has an answer. A read changes nothing: no interrupt word, and no output. BAD_WINDOW
 * where the slot has no window of this number.
 */
uint32_t kalyubos_read(const struct kalyubos *board, uint8_t slot, uint8_t window, uint16_t offset, uint8_t width,
                       uint32_t *value);

/*
 * A guest's write. What it notifies is served before the call returns, or up to the budget: then the answer is MORE.
 * `pending` is what then waits, also after NO_ROOM and MORE: set both lines by it, and take the output where there is
 * some.
 *
 * NO_ROOM: what the console puts out next, a chain of its transmit queue or the byte of an emergency write, doesn't
 * fit behind what waits in the slot's outlet. The chains before it are served; it is still on offer, and nothing of it
 * is put out. Take the output and make the same write again, as long as it is answered NO_ROOM and there was output to
 * take. With `pending.output` 0 it is longer than the whole outlet, and is never put out. A driver that waits for its
 * buffer doesn't notify again, and Linux's console spins for ever on it.
 *
 * Of the window of a disk that the host serves: IO says that the write is done, and that operations began with it, one
 * at least; no other answer says so. MORE, of a further disk: operations may have begun with it, and may with each
 * kalyubos_go_on; kalyubos_in_flight tells them. BUSY: the write, to Status (0x070) or QueueReady (0x044), waits for all that is in
 * flight of this disk. The CPU that made it waits with it; make the same write again once all is completed or dropped.
 * All else goes on meanwhile.
 *
 * BUSY in a pause of the slot, and BAD_WINDOW where the slot has no such window. Of a further device's window
 * kalyubos_device_pending tells the line.
 */
KALYUBOS_LOOK_AT_IT
uint32_t kalyubos_write(struct kalyubos *board, uint8_t slot, uint8_t window, uint16_t offset, uint8_t width,
                        uint32_t value, struct kalyubos_pending *pending);

/*
 * Goes on with the service of a slot that is paused, within the budget, and answers as the call did that it serves:
 * DONE at its end, NO_ROOM, or MORE again. Where none is paused it answers DONE and changes nothing. `pending` is what
 * then waits. The line of a further device moves at the end of its service, as kalyubos_device_pending tells.
 *
 * From MORE until the end of the service the guest waits as in a long call. Every call for its slot but this one is
 * answered BUSY then and changes nothing, except kalyubos_interrupts, kalyubos_lines, kalyubos_device_pending,
 * kalyubos_disturbed, kalyubos_counters, kalyubos_last_fault, kalyubos_in_flight, kalyubos_operation,
 * kalyubos_keep_pages and kalyubos_take_output; kalyubos_completed answers IDLE where nothing is in flight with its tag.
 * Calls for other slots may stand in between, and no guest sees that one paused.
 */
KALYUBOS_LOOK_AT_IT
uint32_t kalyubos_go_on(struct kalyubos *board, uint8_t slot, struct kalyubos_pending *pending);

/*
 * The following six calls are for a disk that the host serves: with the `window` KALYUBOS_BLOCK for the slot's own disk,
 * and from KALYUBOS_DEVICE on for the further device whose window it is. BAD_WINDOW where that isn't one. `pending` tells
 * what then waits of the slot's disk and console; for a further disk kalyubos_device_pending tells the line. The last four are
 * BUSY while a service of the slot is paused.
 *
 * This one tells which operations of the disk are in flight. Each has a tag, a number below the disk's `depth`: bit n of
 * `tags` is set where the operation of tag n is in flight. It is 0 for a slot whose disk is of the image.
 *
 * An operation keeps its tag until it is completed or dropped; then the tag is free for another. Several may begin with
 * one call, each with the lowest tag that is free then. The host remembers the tags that it has begun. After IO, and of a
 * further disk after MORE and at the end of its service, it asks kalyubos_operation for each tag that is in flight and not
 * begun, and begins it. It forgets a tag once kalyubos_completed has taken it, and before it asks again what is in flight:
 * that call may have used the tag for another operation.
 */
uint32_t kalyubos_in_flight(const struct kalyubos *board, uint8_t slot, uint8_t window, uint64_t *tags);

/*
 * Tells what the disk is asked for with a tag: the operation, and its first runs, as many as find room in
 * `runs`. There is room for all in KALYUBOS_RUNS. It tells the same until kalyubos_completed of this tag, or
 * kalyubos_drop, whatever else begins and is completed. IDLE where nothing is in flight with this tag.
 *
 * Each run lies inside the guest's memory, or of a ZEROES inside the disk, and none is empty; `start` and `len` lie
 * inside the disk. They were judged when the operation began, and nothing is read again from guest memory: a guest that
 * rewrites its rings or its request meanwhile changes nothing of it. The runs of an IN may overlap. Operations in flight
 * may overlap too, in memory and on the disk. The host does them in any order: a driver that needs one waits for the
 * first before it asks for the second.
 *
 * Before the host says that it is done:
 *  - IN: the bytes of the disk stand in the runs.
 *  - OUT and ZEROES: each later IN of the guest finds them. With `stable` they are on the medium; else they may be lost
 *    with the host's machine until a FLUSH is done.
 *  - FLUSH: all that was completed before it began is on the medium, as after fdatasync. It needs to wait for nothing
 *    that is in flight beside it.
 * A host that moves bytes between the file and the guest's memory in place keeps the duty above: no transfer touches
 * the memory while a call that touches it runs for this guest. examples/embed/support/file_disk.c has buffers of its own, so
 * that the guest's calls go on during its transfers.
 */
uint32_t kalyubos_operation(const struct kalyubos *board, uint8_t slot, uint8_t window, uint8_t tag,
                            struct kalyubos_operation *operation, struct kalyubos_run *runs, size_t runs_len);

/*
 * Says that the disk's operation of a tag is done, or that it failed: then the guest is told IOERR, and what it asked
 * to be read may stand in its memory in part. Operations are completed in any order. The guest's request is completed,
 * the tag is free, and the queue is looked at again, as after a notification, unless the disk is on hold: the answer is
 * IO where operations began with that, else DONE. `pending` is what then waits. IDLE where nothing is in flight with
 * this tag.
 *
 * BUSY while a service of the slot is paused, also one of its console: nothing changed, and the operation is in flight as before.
 * The host keeps what it came to, and makes this call again once kalyubos_go_on has answered something else than MORE. Bytes
 * that it moves by kalyubos_read_memory and kalyubos_write_memory wait for that too.
 *
 * In a window that asks for a reset (DEVICE_NEEDS_RESET) a completion only frees its tag: it writes nothing into the
 * guest's memory, and nothing begins. The answer is DONE.
 */
KALYUBOS_LOOK_AT_IT
uint32_t kalyubos_completed(struct kalyubos *board, uint8_t slot, uint8_t window, uint8_t tag, bool failed,
                            struct kalyubos_pending *pending);

/*
 * Gives up all that is in flight of the disk, where the host can't complete it. All tags are free, none of the requests
 * is completed, and nothing is written into the guest's memory. The disk's window asks for a reset, as after a fault,
 * though kalyubos_last_fault stays; nothing begins until the driver has reset it. A write of the window that was BUSY
 * passes when it is made again. `pending` is what then waits. IDLE where nothing is in flight.
 *
 * By this call the host promises that no transfer of this disk touches the slot's memory any more, neither to write nor
 * to read it: before it, the host has cancelled each, or waited for its end. What was to be written may stand on the disk in part.
 * A write that reaches the disk later would overwrite what the guest writes behind its reset.
 */
KALYUBOS_LOOK_AT_IT
uint32_t kalyubos_drop(struct kalyubos *board, uint8_t slot, uint8_t window, struct kalyubos_pending *pending);

/*
 * Puts the disk on hold: no further chain of its queue is taken, until kalyubos_release. All else goes on: the guest
 * runs, its notifications are DONE, and what is in flight is completed as ever. So a host that saves the guest waits for
 * that alone, and the requests behind it stay on offer. Neither a reset nor kalyubos_drop ends a hold. `pending` is what
 * then waits. IDLE where the disk is on hold already, or is of the image.
 */
KALYUBOS_LOOK_AT_IT
uint32_t kalyubos_hold(struct kalyubos *board, uint8_t slot, uint8_t window, struct kalyubos_pending *pending);

/*
 * Ends a hold: the queue is looked at, as after a notification, and the answer is IO where operations began with that,
 * else DONE. `pending` is what then waits. IDLE where the disk isn't on hold.
 */
KALYUBOS_LOOK_AT_IT
uint32_t kalyubos_release(struct kalyubos *board, uint8_t slot, uint8_t window, struct kalyubos_pending *pending);

/*
 * Lends the slot's memory in place, from address `addr` to the end of the region that holds it: `bytes` is where the
 * byte of `addr` lies, and `len` how many there are from it on. BAD_RANGE where no region holds `addr`. Both stay until
 * kalyubos_destroy. Read and write the bytes as you like, but during the calls that touch them, or map them to
 * the slot's CPUs; what is written in place is the event of a memory write of that guest. Each region that isn't lent
 * is one block of the heap, of exactly as many bytes: a heap that begins such blocks at a page makes it fit to be
 * mapped.
 */
uint32_t kalyubos_memory(struct kalyubos *board, uint8_t slot, uint64_t addr, uint8_t **bytes, size_t *len);

/* Copies bytes out of the slot's memory, and into it, from address `addr` on. */
uint32_t kalyubos_read_memory(const struct kalyubos *board, uint8_t slot, uint64_t addr, uint8_t *into,
                              size_t into_len);
uint32_t kalyubos_write_memory(struct kalyubos *board, uint8_t slot, uint64_t addr, const uint8_t *from,
                               size_t from_len);

/*
 * Has the pages of the slot's memory marked in `bits` that its devices write to, for a host that moves the guest: KVM's
 * dirty log doesn't see what the library writes. Bit k % 8 of byte k / 8 stands for the page of 4096 bytes that begins
 * 4096 k bytes behind the base of the first region. The calls that touch guest memory set bits, but for
 * kalyubos_write_memory, and no call clears one: between two of them the host reads the bits, and clears what it has
 * seen. A page whose bit stays clear is as it was, but for what the host wrote itself: by kalyubos_write_memory, in
 * place, by an operation of a disk that it serves, or by DMA.
 *
 * The bits go on through gaps: there is one for each 4096 addresses from the base of the first region to the end of the last.
 * BAD_LOAN where `bits` has fewer, which changes nothing; more bytes, as of whole words, are left as they are. Of no bytes no bits
 * are kept.
 *
 * `bits` is lent until kalyubos_destroy or the next such call that is DONE. It takes no memory, and is answered in a pause too,
 * and while something is in flight. After BAD_SLOT and BAD_LOAN `bits` is the host's again.
 */
uint32_t kalyubos_keep_pages(struct kalyubos *board, uint8_t slot, struct kalyubos_loan bits);

/*
 * Types bytes to the slot's console; `took` is how many it took, the first ones: it keeps 4096 until its guest reads
 * them. `pending` is what then waits. Type the others again until none is taken, then after the guest's next calls:
 * what was taken may have gone to the guest's buffers at once, and a driver that finds buffers enough doesn't notify
 * for more. After MORE too `took` bytes were taken; kalyubos_go_on brings them to the guest.
 */
KALYUBOS_LOOK_AT_IT
uint32_t kalyubos_input(struct kalyubos *board, uint8_t slot, const uint8_t *bytes, size_t bytes_len, size_t *took,
                        struct kalyubos_pending *pending);

/* Gives the slot's console another size, of which its driver is told; `pending` is what then waits. */
uint32_t kalyubos_resize(struct kalyubos *board, uint8_t slot, uint16_t cols, uint16_t rows,
                         struct kalyubos_pending *pending);

/*
 * Moves out the first bytes of what the slot's console put out, as many as find room; `taken` is how many they
 * are. The others stay for the next call.
 */
uint32_t kalyubos_take_output(struct kalyubos *board, uint8_t slot, uint8_t *into, size_t into_len, size_t *taken);

/*
 * The following calls are for further devices: `window` is KALYUBOS_DEVICE or above. BAD_WINDOW where it isn't, where the
 * slot has no such device, and where that takes no such thing: an entropy device is supplied, a network card has frames and
 * a link, and a console input, output and a size. Each call but kalyubos_device_pending is BUSY while a service of the slot is
 * paused.
 */

/* What waits for a further device's driver and for its host. */
struct kalyubos_device_pending {
    uint32_t interrupt; /* InterruptStatus of its window; its line is high while this isn't 0 */
    bool starved;       /* whether its driver waits for the host: a chain is on offer for bytes, a frame or input */
    uint8_t padding[3]; /* zeros */
    uint64_t frame;     /* how many bytes kalyubos_take_frame moves out; 0 where nothing waits */
    uint64_t tags;      /* of a disk: what is in flight, as kalyubos_in_flight has it */
};

/*
 * Tells what waits for a further device. Set its window's line by `interrupt` after each kalyubos_write to the window,
 * after each of the other calls for it, and where one was answered MORE after the last kalyubos_go_on. It touches the
 * guest's memory; a kalyubos_read of InterruptStatus (0x060) tells `interrupt` too, and touches none.
 */
uint32_t kalyubos_device_pending(const struct kalyubos *board, uint8_t slot, uint8_t window,
                                 struct kalyubos_device_pending *pending);

/*
 * Supplies an entropy device with random bytes, or types to a console; `taken` is how many bytes it took, the first ones: it
 * keeps 4096 until its driver takes them. After MORE too; kalyubos_go_on brings them to the driver.
 */
KALYUBOS_LOOK_AT_IT
uint32_t kalyubos_supply(struct kalyubos *board, uint8_t slot, uint8_t window, const uint8_t *bytes, size_t bytes_len,
                         size_t *taken);

/*
 * Hands a network card a frame, which begins with the addresses of Ethernet and has no check sequence. `taken` says
 * whether the card took it, whole. Where there is no room it takes nothing, until its driver has taken others: it keeps
 * 64 frames, of 65536 bytes together. BAD_WINDOW also of a frame without bytes, or of more than the card's MTU and 14.
 * After MORE the card took it; kalyubos_go_on brings to the driver what waits.
 */
KALYUBOS_LOOK_AT_IT
uint32_t kalyubos_receive(struct kalyubos *board, uint8_t slot, uint8_t window, const uint8_t *frame, size_t frame_len,
                          bool *taken);

/*
 * Moves out the oldest frame that a network card's driver sent, whole, to the front of `into`. `len` is how many bytes
 * it has, and 0 where none waits. SHORT_BUFFER where `into` is shorter: `len` is how many bytes it needs, and the frame
 * stays. No frame has more than 65536 bytes, and none of a driver that keeps to the MTU more than that and 14.
 *
 * Take frames after each kalyubos_write to the window, until there is none. The card keeps as many as the other way;
 * where there is no room the driver's next frame waits, until the call that takes the last one that is kept. After MORE too the
 * frame was moved out; kalyubos_go_on serves the others.
 *
 * From a console it moves out all output that waits, in place of a frame: `into` of 65536 bytes takes all that there may be.
 * Call it once after each kalyubos_write to the window. What finds no room waits with its driver for such a call, but the byte
 * of an emergency write (5.3.4) is lost then.
 */
KALYUBOS_LOOK_AT_IT
uint32_t kalyubos_take_frame(struct kalyubos *board, uint8_t slot, uint8_t window, uint8_t *into, size_t into_len,
                             size_t *len);

/* Sets whether a network card's link is up, and tells its driver. It is up when the board is made. */
uint32_t kalyubos_set_link(struct kalyubos *board, uint8_t slot, uint8_t window, bool up);

/* Gives a further console another size, of which its driver is told. */
uint32_t kalyubos_resize_device(struct kalyubos *board, uint8_t slot, uint8_t window, uint16_t cols, uint16_t rows);

/* InterruptStatus of the block window and the console window. A window's line is high while its word isn't 0. */
uint32_t kalyubos_interrupts(const struct kalyubos *board, uint8_t slot, uint8_t *block, uint8_t *console);

/*
 * The lines of all windows of the slot: bit n of `lines` is set where the line of window n is high. No other bit is set.
 * It touches no guest memory.
 */
uint32_t kalyubos_lines(const struct kalyubos *board, uint8_t slot, uint32_t *lines);

/* Whether a call of the image ever failed for the slot: never, since the image is in memory, or there is none. */
uint32_t kalyubos_disturbed(const struct kalyubos *board, uint8_t slot, bool *disturbed);

/* What the slot's devices did since the board was made; told in a pause too, and while something is in flight. */
uint32_t kalyubos_counters(const struct kalyubos *board, uint8_t slot, struct kalyubos_counters *counters);

/* Why a window asks for a reset (DEVICE_NEEDS_RESET): what is wrong with what its driver wrote. */
enum {
    KALYUBOS_NO_FAULT = 0,          /* no fault came yet */
    KALYUBOS_FAULT_JUMP = 1,        /* more chains on offer than the queue has descriptors (2.7.13.3) */
    KALYUBOS_FAULT_INDEX = 2,       /* an index of a descriptor outside its table (2.7.5) */
    KALYUBOS_FAULT_LOOP = 3,        /* a list of descriptors that goes on after as many as its table has (2.7.5.2) */
    KALYUBOS_FAULT_TOO_MANY = 4,    /* a chain of more than 256 buffers */
    KALYUBOS_FAULT_TABLE = 5,       /* an indirect table of length 0, no multiple of 16 or above 4096 (2.7.5.3) */
    KALYUBOS_FAULT_NESTED = 6,      /* an indirect table inside an indirect table (2.7.5.3.1) */
    KALYUBOS_FAULT_JOINED = 7,      /* an indirect table that is joined to other descriptors (2.7.5.3.1) */
    KALYUBOS_FAULT_NO_INDIRECT = 8, /* an indirect table without VIRTIO_F_INDIRECT_DESC (2.7.5.3.1) */
    KALYUBOS_FAULT_RANGE = 9,       /* a buffer or a table that isn't inside one region of the guest's memory */
    KALYUBOS_FAULT_TOO_LONG = 10    /* a chain of more than 2^32 - 1 bytes (2.7.5.2) */
};

/* What `head` is where no head was read. */
#define KALYUBOS_NO_HEAD UINT32_MAX

/* The last fault of a window, and the chain on offer at which it was met. */
struct kalyubos_fault {
    uint32_t kind;  /* KALYUBOS_NO_FAULT, and then the rest says nothing; else the fault */
    uint32_t queue; /* the number of the queue, as a notification names it */
    uint32_t head;  /* The index of the chain's first descriptor. In a split queue: the head in the available ring. In a
                       packed one: the position where the list begins. KALYUBOS_NO_HEAD of a JUMP. */
    uint32_t place; /* The place of that chain. In a split queue: its idx, from 0 to 65535; its entry is `place` modulo
                       the queue's size. In a packed one: the position, and the queue's size more where the wrap counter
                       is 0. */
};

/*
 * The last fault of a slot's window; told in a pause too, and while something is in flight. It stays until the
 * window's next fault: neither a reset nor kalyubos_restore takes it away. So a host may ask once it sees the
 * window's InterruptStatus bit 1 or the next reset, and log what kalyubos_fault_text says of `kind`. BAD_WINDOW of a
 * further device's window: its faults aren't noted.
 */
uint32_t kalyubos_last_fault(const struct kalyubos *board, uint8_t slot, uint8_t window, struct kalyubos_fault *fault);

/* What a fault is, as a sentence for a person. It is never null: a number of a later version has a sentence too. */
const char *kalyubos_fault_text(uint32_t kind);

/*
 * How many bytes the slot's snapshot has: some 300, some 150 for each further device, its pending input, and what waits
 * in further devices. It stays so until the next call for the slot. BUSY while a service of the slot is paused, or an
 * operation of one of its disks is in flight.
 */
uint32_t kalyubos_saved_len(const struct kalyubos *board, uint8_t slot, size_t *len);

/*
 * Writes the slot's snapshot to the front of `into`: what its devices keep, the pending input, what waits in further
 * devices each way, and the description of the slot. `written` is how many bytes it has; those behind them stay. BUSY as
 * kalyubos_saved_len; SHORT_BUFFER where `into` is shorter, and then nothing is written. Nothing of the board changes.
 *
 * A snapshot has neither memory nor disk, nor the output of the slot's own console that waits. Before it the host
 *  - stops the guest's CPUs, and keeps a write that was answered NO_ROOM: its CPU makes it again behind the restore;
 *  - brings a paused service to its end by kalyubos_go_on;
 *  - puts each disk that it serves on hold by kalyubos_hold, and completes all that is in flight by kalyubos_completed;
 *  - takes the output.
 * Then, with no call for the slot between, it saves the devices, and copies the memory and the disk.
 */
KALYUBOS_LOOK_AT_IT
uint32_t kalyubos_save(const struct kalyubos *board, uint8_t slot, uint8_t *into, size_t into_len, size_t *written);

/*
 * Puts the slot's devices into the state of a snapshot, and the guest goes on where it was saved. Memory and disk stay.
 * The slot may be of any board, whoever has its disk. Where its memory begins and ends, `count`, `read_only` and
 * `identity` are as of the slot that was saved, or the answer is OTHER_SLOT; and so are its further devices, or it is
 * OTHER_DEVICES. That its regions are the same is the host's to see. The console's size is the snapshot's. `pending` is
 * what then waits.
 *
 * A slot whose own disk was on hold when it was saved is on hold behind this call, and kalyubos_release begins there what
 * stayed on offer. Only a slot whose disk the host serves takes such a snapshot; for another it is OTHER_SLOT. Further
 * devices are as they were: what waits in them, links, sizes, and which disks are on hold. A disk over the image never
 * is. A snapshot of an earlier version has nothing of that, and it stays as it is.
 *
 * Each snapshot that kalyubos_save wrote of such a slot is taken. Of other bytes the first of BAD_SNAPSHOT,
 * OTHER_SLOT, OTHER_DEVICES, BAD_STATE and BAD_WAITING that holds is answered, or they are taken as they spell: there is
 * no checksum. A snapshot that was changed on its way harms its own guest alone. BUSY as kalyubos_saved_len.
 *
 * Before it the host puts back the guest's memory and its disk, those of an image by the board that it makes. Behind it
 * the host
 *  - releases each disk that is on hold;
 *  - notifies each further disk that was on hold and now lies over the image: it writes 0 to QueueNotify (0x050) of its
 *    window by kalyubos_write;
 *  - sets the lines of all windows, by kalyubos_lines;
 *  - makes a write again that was answered NO_ROOM, and starts the guest's CPUs.
 */
KALYUBOS_LOOK_AT_IT
uint32_t kalyubos_restore(struct kalyubos *board, uint8_t slot, const uint8_t *from, size_t from_len,
                          struct kalyubos_pending *pending);

/*
 * Lends the image in place, to read between calls: `bytes` is where its first byte lies, and `len` how many there are.
 * Both stay until kalyubos_destroy. NO_IMAGE where the image has no bytes, as it may where the host serves every disk.
 */
uint32_t kalyubos_image(const struct kalyubos *board, const uint8_t **bytes, size_t *len);

/*
 * The image's length in bytes, and a copy of bytes of it from byte `start` on, as they stand; NO_IMAGE as
 * kalyubos_image.
 */
uint32_t kalyubos_image_len(const struct kalyubos *board, size_t *len);
uint32_t kalyubos_read_image(const struct kalyubos *board, size_t start, uint8_t *into, size_t into_len);

/*
 * A guest whose CPUs run on while it is served: a block device, whose disk the host serves, a console, and further network
 * cards, consoles and entropy devices, over memory that the host lends. It has a handle of its own, empty where it is zeroed, and shares nothing with a board or with another
 * guest. So one call at a time for a handle, and calls for different handles at the same time.
 *
 * While a call runs, and between calls, the guest's CPUs, its transfers and the host's threads read and write its memory as
 * they like. Whatever they write, the host is asked for nothing outside the guest's memory and its disk: what it is told
 * was read from that memory once, was judged, and is never read again.
 *
 * The library reads and writes that memory by single atomic steps of 8 bytes, each of which keeps what others write beside
 * it in a word. A used entry is written before the used idx, and that before the interrupt is told (2.7.8).
 */
struct kalyubos_guest {
    void *guest;
};

/* `len` words of 8 bytes that the host lends, from `words` on, which is aligned to 8. It never changes. */
struct kalyubos_words {
    uint64_t *words;
    size_t len;
};

/* A guest that runs on, as the host describes it: fill one in by kalyubos_guest_config_of. */
struct kalyubos_guest_config {
    size_t size;                      /* sizeof(struct kalyubos_guest_config) */
    const struct kalyubos_slot *slot; /* the guest: `hosted` is true, and no further device is a disk */
    struct kalyubos_words *words;     /* a run for each region of the slot, in their order, of its `len` / 8 words */
    size_t words_len;
    uint32_t chains;                  /* the budget of a service of one queue, in chains */
    uint64_t bytes;                   /* and in bytes; 0 is no limit */
};

/* A config of this slot over these words, without a limit. */
static inline struct kalyubos_guest_config kalyubos_guest_config_of(const struct kalyubos_slot *slot,
                                                                    struct kalyubos_words *words, size_t words_len)
{
    struct kalyubos_guest_config config = { sizeof config, slot, words, words_len, 0, 0 };
    return config;
}

/*
 * Makes a guest and puts it into an empty handle. A refusal leaves the handle as it was and keeps no memory. The first of
 * these that holds is answered: HAS_BOARD; BAD_SIZE; NOT_HOSTED; BAD_DEVICE; BAD_LOAN, where `words` isn't as the regions
 * are; BAD_OUTLET; NO_REGIONS, then region by region BAD_MEMORY_SIZE, BAD_MEMORY_BASE and REGIONS_NOT_APART; BAD_DEPTH;
 * EXTENT_OUTSIDE, where `count` is 2^55 or more. NO_MEMORY may come in the place of those from BAD_LOAN on.
 *
 * Each run of words is taken: null and 0 are left in its place. After HAS_BOARD, BAD_SIZE, NOT_HOSTED and BAD_DEVICE all are
 * as they were. After another refusal the first of them are taken, which may be none or all, and the words are the host's
 * again. No word is read or written by this call or by kalyubos_guest_destroy. Until kalyubos_guest_destroy, or a
 * kalyubos_guest_set_memory that is done, they stay mapped where they are, and no two runs of any guests or boards share a
 * word.
 *
 * Choose `outlet` as for kalyubos_create: a chain that is longer is never let through.
 *
 * A service serves no more than `chains` chains, and begins no further chain once those before it had `bytes` bytes. It
 * also stops where its driver put chains on offer sixteen times while it was served. What is left then is due: MORE.
 */
KALYUBOS_LOOK_AT_IT
uint32_t kalyubos_guest_create(struct kalyubos_guest *guest, struct kalyubos_guest_config *config);

/* Ends the guest, frees its memory and leaves the handle empty. What was in flight is never completed. */
uint32_t kalyubos_guest_destroy(struct kalyubos_guest *guest);

/* A guest's read, as kalyubos_read: of any window, those of the further devices from KALYUBOS_DEVICE on too. */
uint32_t kalyubos_guest_read(const struct kalyubos_guest *guest, uint8_t window, uint16_t offset, uint8_t width,
                             uint32_t *value);

/*
 * A guest's write. What it notifies is served before the call returns, as far as the budget goes, and the answer is one of
 * these. `pending` is what then waits: set both lines by it, and take the output where there is some.
 *  - DONE. IO: done, and operations of the disk began.
 *  - MORE: done, and a queue is due, of which the driver may never notify again. Call kalyubos_guest_go_on, until it
 *    answers something else; other calls may stand in between, and none is refused for it. A driver that refills its ring
 *    keeps it due for ever: a thread with other work makes one such call in each turn. Operations may have begun.
 *    Until then a write, an input, what the host says of the disk and a call for a further device are answered MORE where they
 *    would be DONE or IO.
 *  - NO_ROOM: what the console puts out next doesn't fit behind what waits. Take the output and make the same write again,
 *    as long as it is answered NO_ROOM and there was output to take. With `pending.output` 0 it is longer than the whole
 *    outlet, and is never put out: its queue is due until the driver has reset the console. All else is served.
 *  - BUSY: the write, to Status (0x070) or QueueReady (0x044) of the block window, waits for all that is in flight of the
 *    disk. Make it again once all is completed or dropped.
 *  - BAD_WINDOW.
 * Of a further device's window kalyubos_guest_device_pending tells the line, and the answer is DONE, MORE or BAD_WINDOW.
 */
KALYUBOS_LOOK_AT_IT
uint32_t kalyubos_guest_write(struct kalyubos_guest *guest, uint8_t window, uint16_t offset, uint8_t width,
                              uint32_t value, struct kalyubos_pending *pending);

/*
 * Serves each queue that is due, those of the further devices last, within the budget, and answers as kalyubos_guest_write does:
 * MORE where one is due again. NO_ROOM: take the output and make this call again, as long as there was output to take; with
 * `pending.output` 0 it would never end. Operations may have begun after IO, MORE and NO_ROOM.
 */
KALYUBOS_LOOK_AT_IT
uint32_t kalyubos_guest_go_on(struct kalyubos_guest *guest, struct kalyubos_pending *pending);

/* Types bytes to the console, as kalyubos_input: after DONE and MORE `took` were taken. */
KALYUBOS_LOOK_AT_IT
uint32_t kalyubos_guest_input(struct kalyubos_guest *guest, const uint8_t *bytes, size_t bytes_len, size_t *took,
                              struct kalyubos_pending *pending);

/* Gives the console another size, as kalyubos_resize. */
uint32_t kalyubos_guest_resize(struct kalyubos_guest *guest, uint16_t cols, uint16_t rows,
                               struct kalyubos_pending *pending);

/* Moves out the first bytes of what the console put out, as kalyubos_take_output. */
uint32_t kalyubos_guest_take_output(struct kalyubos_guest *guest, uint8_t *into, size_t into_len, size_t *taken);

/*
 * The calls for further devices, as those of a board: kalyubos_device_pending, kalyubos_supply, kalyubos_receive,
 * kalyubos_take_frame, kalyubos_set_link and kalyubos_resize_device. But MORE says, as of kalyubos_guest_write, that a queue of the
 * guest is due: the call is done, and none is refused for it. In `pending` `starved` is false and `tags` 0: whether a chain waits for
 * bytes or a frame isn't asked of a ring that its guest writes. The host supplies until fewer are taken, and again after the guest's
 * next write to the window.
 */
uint32_t kalyubos_guest_device_pending(const struct kalyubos_guest *guest, uint8_t window,
                                       struct kalyubos_device_pending *pending);
KALYUBOS_LOOK_AT_IT
uint32_t kalyubos_guest_supply(struct kalyubos_guest *guest, uint8_t window, const uint8_t *bytes, size_t bytes_len,
                               size_t *taken);
KALYUBOS_LOOK_AT_IT
uint32_t kalyubos_guest_receive(struct kalyubos_guest *guest, uint8_t window, const uint8_t *frame, size_t frame_len,
                                bool *taken);
KALYUBOS_LOOK_AT_IT
uint32_t kalyubos_guest_take_frame(struct kalyubos_guest *guest, uint8_t window, uint8_t *into, size_t into_len,
                                   size_t *len);
uint32_t kalyubos_guest_set_link(struct kalyubos_guest *guest, uint8_t window, bool up);
uint32_t kalyubos_guest_resize_device(struct kalyubos_guest *guest, uint8_t window, uint16_t cols, uint16_t rows);

/*
 * What the disk is asked for, and what the host did, as kalyubos_in_flight, kalyubos_operation, kalyubos_completed,
 * kalyubos_drop, kalyubos_hold and kalyubos_release. After IO, and after MORE and NO_ROOM too, ask which tags are in flight
 * that the host hasn't begun. A transfer may go on in place during each call.
 */
uint32_t kalyubos_guest_in_flight(const struct kalyubos_guest *guest, uint64_t *tags);
uint32_t kalyubos_guest_operation(const struct kalyubos_guest *guest, uint8_t tag, struct kalyubos_operation *operation,
                                  struct kalyubos_run *runs, size_t runs_len);
KALYUBOS_LOOK_AT_IT
uint32_t kalyubos_guest_completed(struct kalyubos_guest *guest, uint8_t tag, bool failed,
                                  struct kalyubos_pending *pending);
KALYUBOS_LOOK_AT_IT
uint32_t kalyubos_guest_drop(struct kalyubos_guest *guest, struct kalyubos_pending *pending);
KALYUBOS_LOOK_AT_IT
uint32_t kalyubos_guest_hold(struct kalyubos_guest *guest, struct kalyubos_pending *pending);
KALYUBOS_LOOK_AT_IT
uint32_t kalyubos_guest_release(struct kalyubos_guest *guest, struct kalyubos_pending *pending);

/*
 * Where a queue of a window stands: the place of its next used entry. Of a split queue it is the used idx; of a packed one the
 * position, and behind it QueueNum where the wrap counter is 0. IDLE: the window isn't live (a live one has DRIVER_OK and
 * FEATURES_OK, and neither FAILED nor DEVICE_NEEDS_RESET), or has no such queue that is ready.
 */
uint32_t kalyubos_guest_place(const struct kalyubos_guest *guest, uint8_t window, uint16_t queue, uint16_t *place);

/*
 * Puts a queue to the place where another device left it: from there on it is served, once it is notified. BUSY: an operation of
 * it is in flight, or it is due. IDLE: as kalyubos_guest_place, or the queue is packed and `place` is twice QueueNum or more.
 */
uint32_t kalyubos_guest_set_place(struct kalyubos_guest *guest, uint8_t window, uint16_t queue, uint16_t place);

/*
 * Gives the guest these regions over these words, in the place of its memory: memory was plugged in or out, or lies elsewhere.
 * Its devices go on where they stand, and the words before are the host's again. As the new ones share none with those before,
 * map memory that stays a second time. The first of these that holds is answered; after each but DONE the guest is as it was.
 *  - BUSY: an operation of the disk is in flight, or a queue is due, of a further device too. Hold the disk (kalyubos_guest_hold), let what is in flight
 *    be completed, call kalyubos_guest_go_on while it answers MORE, and make the call again.
 *  - BAD_LOAN: `words` isn't as the regions are, or there are more than KALYUBOS_REGIONS.
 *  - NO_REGIONS, then region by region BAD_MEMORY_SIZE, BAD_MEMORY_BASE and REGIONS_NOT_APART.
 *  - BAD_RANGE: the areas of a ready queue don't lie in these regions, each in one.
 * NO_MEMORY may come in the place of those from BAD_LOAN on. Each run of words is taken, as kalyubos_guest_create has it: after
 * BUSY all are as they were. No word is read or written. After DONE no bits of pages are kept: lend others by
 * kalyubos_guest_keep_pages, for the pages of this memory, before another call touches it.
 */
KALYUBOS_LOOK_AT_IT
uint32_t kalyubos_guest_set_memory(struct kalyubos_guest *guest, const struct kalyubos_region *regions,
                                   size_t regions_len, struct kalyubos_words *words, size_t words_len);

/*
 * Has the pages of the guest's memory marked in `bits` that its devices write to, as kalyubos_keep_pages; KVM's dirty log has
 * those that its CPUs write to. `bits` is lent until kalyubos_guest_destroy, a kalyubos_guest_set_memory that is done, or the
 * next such call that is DONE. A call sets bits while it is made, so read and clear them between two calls of this guest.
 */
uint32_t kalyubos_guest_keep_pages(struct kalyubos_guest *guest, struct kalyubos_loan bits);

/* InterruptStatus of both windows, as kalyubos_interrupts. */
uint32_t kalyubos_guest_interrupts(const struct kalyubos_guest *guest, uint8_t *block, uint8_t *console);

/*
 * The last fault of a window, as kalyubos_last_fault, of a further device's too. Of a split queue `head` is KALYUBOS_NO_HEAD: it isn't read once more,
 * since it may be another one by then.
 */
uint32_t kalyubos_guest_last_fault(const struct kalyubos_guest *guest, uint8_t window, struct kalyubos_fault *fault);

/*
 * The heap. The installed library has it over malloc, as examples/embed/support/heap.c does; a host that defines one of these
 * defines all of them. They are of one heap, and are called within the calls that make, judge or destroy a board or a
 * guest, or give a guest other memory, alone. A block is aligned to `align`, a power of two up to 16. `found` is false where
 * there is no memory, and `at` is then any address; a block that couldn't be resized stands as it was. Of a block that is
 * resized the first `kept` bytes stay. A block of size 0 is a block as any other.
 */
struct kalyubos_block {
    bool found;
    void *at;
};
struct kalyubos_block kalyubos_alloc(size_t size, size_t align);
struct kalyubos_block kalyubos_realloc(void *at, size_t kept, size_t size, size_t align);
void kalyubos_dealloc(void *at);

#ifdef __cplusplus
}
#endif

#endif
