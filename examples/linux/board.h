/* The board behind the machines: the library's calls, one board for the process. A refusal ends the process. */
#ifndef BOARD_H
#define BOARD_H

#include <stdbool.h>
#include <stddef.h>
#include <stdint.h>
#include <stdio.h>

#include "kalyubos.h"
#include "memory.h"

/* Where each guest's memory begins, and its size; a large one has two regions, of 512 MiB each. */
enum { MEMORY_LEN = 0x01000000 };
static const uint64_t MEMORY_BASE = 0x80000000;

/* The windows of a guest that has further devices, the last two where it has further disks; and the MTU of its network card. */
enum { BOARD_ENTROPY = KALYUBOS_DEVICE, BOARD_CARD, BOARD_DEVICES, BOARD_WINDOWS = BOARD_DEVICES + 2 };
enum { BOARD_MTU = 1500, BOARD_ADDRESS = 6 };

/* A guest's disks: its own, one that it can't write, and one for its data. */
enum { BOARD_OWN, BOARD_FIXED, BOARD_DATA, BOARD_DISKS };

/* The longest frame of a driver that keeps to the MTU, and that of any. */
enum { BOARD_FRAME = BOARD_MTU + 14, BOARD_ANY_FRAME = 65536 };

struct board_settings {
    size_t guests;
    const uint64_t *sectors; /* of each guest's disk; the disks stand in the image one after the other */
    char *const *names; /* of its file; the file's own is the disk's serial */
    const uint8_t *image;
    uint32_t cache;  /* how many sectors the board keeps */
    uint32_t outlet; /* how many bytes of a console's output may wait */
    uint32_t chains; /* the budget of a call, or 0 for no limit */
    uint64_t bytes;
    const char *record; /* the file that the guests' calls are written to as a trace, or NULL */
    bool copies;        /* each call copies a guest's whole memory into the board and back, and none is lent */
    bool hosted;        /* there is no image: each disk is the file of its name, which the host serves, */
    bool threads;       /* without io_uring */
    bool large;         /* each guest's memory is a large one */
    uint32_t depth;     /* how many operations of a disk that the host serves may be in flight */
    const uint8_t (*addresses)[BOARD_ADDRESS]; /* of each guest's network card, which stands behind an entropy device; or NULL:
                                                  there are no further devices */
    const char *disks; /* the folder with the files of each guest's further disks (board_file), which the host serves; or NULL */
    bool spare;        /* they lie over spare sectors of the image instead, behind the guest's own disk in their order */
};

/* The file of a further disk in such a folder: fixed-0 of a guest whose card's address ends with 0, fixed-noise of noise. */
const char *board_file(const char *folder, const uint8_t address[BOARD_ADDRESS], uint8_t disk);

void board_open(const struct board_settings *settings);
void board_close(void);

/* A guest's memory, which its CPU may change between calls. */
const struct memory *board_memory(uint8_t slot);

/* Tells what the guest's drivers do wrong, a line each (watch.h), unless memories are copied; and how often they did. */
void board_watch(uint8_t slot, FILE *told);
size_t board_mistakes(uint8_t slot);

uint32_t board_read(uint8_t slot, uint8_t window, uint16_t offset, uint8_t width);

/*
 * What became of a write: KALYUBOS_DONE; NO_ROOM where the console's output has none: take some, and make the write again;
 * MORE where its service pauses: from then until board_go_on answers another the guest must not run or be typed to. Of a
 * disk that the host serves: IO where operations began; BUSY where the write is to be made again, once nothing is in flight.
 */
uint32_t board_write(uint8_t slot, uint8_t window, uint16_t offset, uint8_t width, uint32_t value);

/* Goes on with the service of a slot that is paused, and answers as the write. */
uint32_t board_go_on(uint8_t slot);

/* Whether a service of the slot is paused. */
bool board_is_paused(uint8_t slot);

/* The tags of what is in flight of a slot's disk that the host serves. */
uint64_t board_in_flight(uint8_t slot, uint8_t disk);

/*
 * Completes the operation of a tag once its file has ended, or with BOARD_ANY the first that has, and tells its tag: DONE, or
 * IO where others began. Before it answers MORE, and the guest sees nothing; board_wait waits, for a while, until that has
 * changed for some slot. Where nothing is in flight it is DONE.
 */
enum { BOARD_ANY = 0xff };
uint32_t board_complete(uint8_t slot, uint8_t disk, uint8_t *tag);
void board_wait(void);

/*
 * Of a slot's disk that the host serves: by what, its operations so far, how many were in flight together at most, how many calls
 * other guests made during them, and how many of their runs lay in which region of its memory.
 */
struct board_flights {
    const char *way;
    size_t operations, together, calls, runs[MEMORY_REGIONS];
};
struct board_flights board_flights(uint8_t slot, uint8_t disk);

/* How many of the bytes the console took. The service that brings them to the guest may pause. */
size_t board_type(uint8_t slot, const uint8_t *bytes, size_t len);
void board_resize(uint8_t slot, uint16_t cols, uint16_t rows);

/* Takes output, and tells how many bytes it was. */
size_t board_output(uint8_t slot, uint8_t *into, size_t len);

/* Of a slot's entropy device: whether its driver waits for bytes, and how many of these were taken. */
bool board_starved(uint8_t slot);
size_t board_supply(uint8_t slot, const uint8_t *bytes, size_t len);

/* Of its network card: whether that took a frame, and the length of the oldest frame that its driver sent, or 0. */
bool board_receive(uint8_t slot, const uint8_t *frame, size_t len);
size_t board_take_frame(uint8_t slot, uint8_t into[BOARD_ANY_FRAME]);

/* Whether a window's interrupt line is high. */
bool board_line(uint8_t slot, uint8_t window);

/*
 * Saves the slot's devices, of which nothing is paused or in flight, as `len` bytes that the caller frees; and brings them
 * back, on a slot of the same description with the bytes of its memory and disk.
 */
uint8_t *board_save(uint8_t slot, size_t *len);
void board_restore(uint8_t slot, const uint8_t *devices, size_t len);

/* Copies the bytes of the slot's disk. */
void board_disk(uint8_t slot, uint8_t *into, size_t len);

#endif
