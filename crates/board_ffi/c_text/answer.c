/* What an answer says, as a sentence for a person. Made by crates/c_values/api/make. */
#include "kalyubos.h"

const char *kalyubos_answer(uint32_t number)
{
    switch (number) {
    case KALYUBOS_DONE:
        return "done";
    case KALYUBOS_NO_BOARD:
        return "the handle holds no board";
    case KALYUBOS_HAS_BOARD:
        return "the handle holds a board already";
    case KALYUBOS_BAD_SLOT:
        return "the board has no such slot";
    case KALYUBOS_BAD_RANGE:
        return "the range isn't all inside one region of the memory, or inside the image";
    case KALYUBOS_NO_MEMORY:
        return "out of memory";
    case KALYUBOS_BAD_WINDOW:
        return "the slot has no such window, or the device there takes no such thing";
    case KALYUBOS_BAD_IMAGE:
        return "the image isn't whole sectors of 512 bytes";
    case KALYUBOS_NO_SLOTS:
        return "a board needs a slot";
    case KALYUBOS_TOO_MANY_SLOTS:
        return "a board has sixty-four slots at most";
    case KALYUBOS_BAD_MEMORY_SIZE:
        return "a region's size is a multiple of 4096, and a guest has 2^46 bytes at most";
    case KALYUBOS_BAD_MEMORY_BASE:
        return "a region begins at a multiple of 4096, and ends at 2^64 or before";
    case KALYUBOS_EXTENT_OUTSIDE:
        return "a slot's sectors pass the image's end, or its disk 2^64 bytes";
    case KALYUBOS_EXTENTS_OVERLAP:
        return "two slots share a sector";
    case KALYUBOS_BAD_CACHE:
        return "a cache keeps 1 to 65536 sectors";
    case KALYUBOS_NO_ROOM:
        return "the console's next output doesn't fit behind what waits: take the output, and make the call again";
    case KALYUBOS_BAD_OUTLET:
        return "an outlet keeps 2^24 bytes at most";
    case KALYUBOS_BAD_SIZE:
        return "a struct's size isn't that of this version: set it to its sizeof";
    case KALYUBOS_MORE:
        return "the service pauses: kalyubos_go_on goes on with it";
    case KALYUBOS_BUSY:
        return "a service of the slot is paused, or one of its disks is at work: make the call again later";
    case KALYUBOS_IO:
        return "done, and operations of the disk began: kalyubos_in_flight says which";
    case KALYUBOS_IDLE:
        return "there is nothing to complete, drop, hold or release, or the queue isn't live or has no such place";
    case KALYUBOS_NO_IMAGE:
        return "the board has no image, or one of no bytes";
    case KALYUBOS_BAD_SNAPSHOT:
        return "the bytes are no snapshot";
    case KALYUBOS_OTHER_SLOT:
        return "the snapshot is of a slot with another memory, another disk or other features";
    case KALYUBOS_BAD_STATE:
        return "the snapshot has a state that no driver can bring a window into";
    case KALYUBOS_SHORT_BUFFER:
        return "the buffer is shorter than the snapshot or the frame: kalyubos_saved_len or `len` tells its length";
    case KALYUBOS_NO_REGIONS:
        return "a slot needs a region of memory";
    case KALYUBOS_REGIONS_NOT_APART:
        return "regions stand in ascending order, with a gap between each two";
    case KALYUBOS_BAD_LOAN:
        return "each region needs a loan of its length, and each page of the memory a bit";
    case KALYUBOS_BAD_DEPTH:
        return "a disk that the host serves has 1 to 64 operations in flight";
    case KALYUBOS_OTHER_DEVICES:
        return "the snapshot has other devices";
    case KALYUBOS_BAD_DEVICE:
        return "a further device is of a known kind, a card's MTU 68 or more, and the host's disk below 2^55 sectors and depth 65";
    case KALYUBOS_NOT_HOSTED:
        return "the host serves the disk of a guest that runs on: set the slot's `hosted`";
    case KALYUBOS_RUNS_ON:
        return "a guest that runs on is on no board: kalyubos_guest_create makes it";
    case KALYUBOS_BAD_EXTENT:
        return "a disk over the image has one or more spare sectors of its slot, which no other disk has";
    case KALYUBOS_BAD_WAITING:
        return "the snapshot has in a further device what can't wait there";
    default:
        return "a number that this version of kalyubos.h doesn't know";
    }
}
