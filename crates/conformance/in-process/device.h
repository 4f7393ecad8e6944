/*
 * device.h: a virtio-mmio device that lives in this process, as the suite drives it.
 *
 * Fill a `struct device` in with your device, link it to run.c, and the program replays traces on it:
 *
 *     cc -std=c11 -O2 -o my_device run.c trace.c my_device.c
 *     ../run-on --adapter --after --save ./my_device
 */
#ifndef DEVICE_H
#define DEVICE_H

#include <stdbool.h>
#include <stddef.h>
#include <stdint.h>

/* How many regions a guest's memory has at most, and one of them: `len` bytes from address `base` on. */
enum { MOST_REGIONS = 8 };
struct region {
    uint64_t base, len;
};

/* How many further devices a guest has at most, and one of them: an entropy device, a network card, a disk that the trace
 * serves, with as many sectors, the identity, and at most so many operations in flight, a disk over spare sectors of the
 * guest, from its spare sector `place` on, or a console of such a size. */
enum { MOST_DEVICES = 6 };
struct further_device {
    bool is_card, is_disk, is_image_disk, is_console;
    uint8_t mac[6];
    uint16_t mtu;
    bool read_only;
    uint8_t depth;
    uint64_t place, sectors;
    uint8_t identity[20];
    uint16_t cols, rows;
};

/* One guest: its memory, the sectors of the image that its disk shows, its console's size, what its disk answers to
 * GET_ID, and all further devices that the trace ever plugs in. */
struct guest {
    struct region regions[MOST_REGIONS];
    size_t regions_len;
    uint64_t start, count;
    uint64_t spare; /* how many sectors of the image behind those are spare ones; 0 where the trace serves the disk */
    bool hosted;   /* the trace serves the disk, which has `count` sectors; its start says nothing, */
    uint8_t depth; /* and up to so many operations of it may be in flight; 0 and more than 64 are BadDepth */
    bool read_only;
    uint16_t cols, rows;
    uint8_t identity[20];
    struct further_device devices[MOST_DEVICES];
    size_t devices_len;
};

/* How many bytes the regions of a guest have together. */
static inline uint64_t memory_size(const struct guest *guest)
{
    uint64_t size = 0;
    for (size_t i = 0; i < guest->regions_len; i++)
        size += guest->regions[i].len;
    return size;
}

/* Whether one region of a guest holds all of `len` bytes from `address` on. */
static inline bool is_in_memory(const struct guest *guest, uint64_t address, uint64_t len)
{
    for (size_t i = 0; i < guest->regions_len; i++) {
        const struct region *region = &guest->regions[i];
        if (address >= region->base && len <= region->len && address - region->base <= region->len - len)
            return true;
    }
    return false;
}

/* All guests, and the image behind their disks: whole sectors of 512 bytes, the device's to read and to write. */
struct setup {
    const struct guest *guests;
    size_t guests_len;
    uint8_t *image;
    size_t image_len;
    uint32_t cache;
    const uint64_t *fails; /* the numbers of the image's calls that fail, for a device with calls of an image */
    size_t fails_len;
    bool hosted; /* the trace serves a disk, or all */
};

/* The windows of a guest; further device n has FURTHER_WINDOW + n. */
enum { BLOCK_WINDOW = 0, CONSOLE_WINDOW = 1, FURTHER_WINDOW = 2 };

/* An operation on a disk that the host serves, and where its bytes lie (docs/model.md#asking). */
struct operation {
    enum { IN, OUT, FLUSH, ZEROES } kind;
    bool stable;
    uint64_t start, len;
    size_t runs_len;
    struct run {
        uint64_t at, len;
    } runs[256];
};

/* What a device has besides where a trace may serve its disks. The calls are of guests whose disk it serves, and of further
 * disks: a disk is named by its window. */
struct hosting {
    /* Whether other guests of the same board may have disks on the image; whether guests may have further disks. */
    bool beside_extents, further_disks;
    /* As `write` of a device. False, and nothing changed: it waits for what is in flight. */
    bool (*write)(unsigned guest, unsigned window, unsigned offset, unsigned width, uint32_t value);
    /* Says of the operation of a tag that it was done or that it failed. False: nothing is in flight of the disk with it. */
    bool (*complete)(unsigned guest, unsigned window, unsigned tag, bool failed);
    /* The operations that began with the guest's last write, completion or release: bit n is set for the one of tag n. */
    uint64_t (*began)(unsigned guest);
    /* The operation of such a tag. */
    void (*asked)(unsigned guest, unsigned window, unsigned tag, struct operation *operation);
    /* Gives up what is in flight of a disk; takes no further chain of it; takes them again. False: there is nothing to do.
     * Null: no trace may say so. */
    bool (*drop)(unsigned guest, unsigned window);
    bool (*hold)(unsigned guest, unsigned window);
    bool (*release)(unsigned guest, unsigned window);
};

/* What a device has besides where guests may have further devices (docs/model.md#further-devices), which are named by their
 * numbers. False, and nothing changed: the guest's device of that number takes no such thing. A disk is written by
 * `write` of the hosting. */
struct further {
    bool (*read)(unsigned guest, unsigned number, unsigned offset, unsigned width, uint32_t *value);
    bool (*write)(unsigned guest, unsigned number, unsigned offset, unsigned width, uint32_t value);
    /* Supplies an entropy device with bytes, or types them to a console; how many of them it took, the first ones. */
    bool (*supply)(unsigned guest, unsigned number, const uint8_t *bytes, size_t len, size_t *taken);
    /* Hands a network card a frame; whether it took it. Takes the oldest that the card's driver sent, or all output of a
     * console, which has `len` bytes, or 0 where none waits. */
    bool (*receive)(unsigned guest, unsigned number, const uint8_t *frame, size_t len, bool *taken);
    bool (*take)(unsigned guest, unsigned number, uint8_t *frame, size_t room, size_t *len);
    bool (*set_link)(unsigned guest, unsigned number, bool up);
    /* Gives a console another size. Null: guests have no further consoles. */
    bool (*resize)(unsigned guest, unsigned number, uint16_t cols, uint16_t rows);
    /* Whether guests may have spare sectors of the image, and disks over them: such a disk is read and written by `read` and
     * `write` here, and done with what was asked when these return. */
    bool image_disks;
};

/* The device. What a write or an input notifies is served before the call returns. */
struct device {
    /* A guest reads or writes `width` bytes (1, 2 or 4) at an offset of a window. A read has no effect. */
    uint32_t (*read)(unsigned guest, unsigned window, unsigned offset, unsigned width);
    void (*write)(unsigned guest, unsigned window, unsigned offset, unsigned width, uint32_t value);
    /* Copies bytes into a guest's memory (`put`) or out of it. False, and nothing changed: not all of them lie in it. */
    bool (*memory)(unsigned guest, uint64_t address, uint8_t *bytes, size_t len, bool put);
    /* Types bytes to a guest's console; how many of them it took, the first ones. */
    size_t (*input)(unsigned guest, const uint8_t *bytes, size_t len);
    /* Gives a guest's console another size. */
    void (*resize)(unsigned guest, uint16_t cols, uint16_t rows);
    /*
     * Makes the device before the first event, with memories of zeros; a null pointer, or the name of the fault for
     * which there is none, as "BadSize". And ends it: the image then holds what the guests wrote.
     */
    const char *(*make)(const struct setup *setup);
    void (*end)(void);
    /* Takes up a snapshot; "done", or "badstate" or "busy" where nothing changed. Null: the device takes none. */
    const char *(*restore)(unsigned guest, const uint8_t *bytes, size_t len);
    /* Null: no trace may serve the disks. */
    const struct hosting *hosting;
    /* Null: no guest may have further devices. */
    const struct further *further;
};

/* The device that run.c drives, and that fuzz.c compares with the C library of this repository. */
extern const struct device device;

/* A device calls this with what a guest's console puts out. */
void put_out(unsigned guest, const uint8_t *bytes, size_t len);

#endif
