/* wire: vhost-user messages, as QEMU's docs/interop/vhost-user.rst has them, and their way over a socket. */
#ifndef WIRE_H
#define WIRE_H

#include <stdint.h>

enum request {
    GET_FEATURES = 1,
    SET_FEATURES = 2,
    SET_OWNER = 3,
    RESET_OWNER = 4,
    SET_MEM_TABLE = 5,
    SET_LOG_BASE = 6,
    SET_LOG_FD = 7,
    SET_VRING_NUM = 8,
    SET_VRING_ADDR = 9,
    SET_VRING_BASE = 10,
    GET_VRING_BASE = 11,
    SET_VRING_KICK = 12,
    SET_VRING_CALL = 13,
    SET_VRING_ERR = 14,
    GET_PROTOCOL_FEATURES = 15,
    SET_PROTOCOL_FEATURES = 16,
    GET_QUEUE_NUM = 17,
    SET_VRING_ENABLE = 18,
    GET_CONFIG = 24,
    SET_CONFIG = 25,
    RESET_DEVICE = 34,
    GET_MAX_MEM_SLOTS = 36,
    ADD_MEM_REG = 37,
    REM_MEM_REG = 38,
    SET_STATUS = 39,
    GET_STATUS = 40,
    REQUESTS = 41
};

/* A message's flags: the version in the lowest two bits, a reply, and that an answer is wanted (REPLY_ACK). */
enum { FLAG_VERSION = 1, FLAG_VERSION_MASK = 3, FLAG_REPLY = 4, FLAG_NEED_REPLY = 8 };

/* Of a number that names a queue: the queue, and that no file comes with it. */
enum { QUEUE_MASK = 0xff, QUEUE_NO_FILE = 0x100 };

/* Protocol features, by bit. */
enum {
    PROTOCOL_MQ = 0,
    PROTOCOL_LOG_SHMFD = 1,
    PROTOCOL_REPLY_ACK = 3,
    PROTOCOL_CONFIG = 9,
    PROTOCOL_RESET_DEVICE = 13,
    PROTOCOL_MEM_SLOTS = 15,
    PROTOCOL_STATUS = 16
};

enum { MESSAGE_HEAD = 12, MESSAGE_REGIONS = 8, MESSAGE_FILES = 8, MESSAGE_CONFIG = 256, CONFIG_HEAD = 12 };

struct wire_region {
    uint64_t guest, size, user, offset;
};

/* On the wire a message is the 12 bytes from `request` on, and `size` bytes of `it` right behind them. */
struct message {
    uint32_t unused; /* aligns what follows */
    uint32_t request, flags, size;
    union {
        uint64_t number;
        struct { uint32_t index, number; } state;
        struct { uint32_t index, flags; uint64_t desc, used, avail, log; } addresses;
        struct { uint32_t len, padding; struct wire_region regions[MESSAGE_REGIONS]; } memory;
        struct { uint64_t padding; struct wire_region region; } one;
        struct { uint64_t len, offset; } log;
        struct { uint32_t offset, size, flags; uint8_t bytes[MESSAGE_CONFIG]; } config;
        uint8_t bytes[MESSAGE_REGIONS * sizeof(struct wire_region) + 8];
    } it;
    int files[MESSAGE_FILES]; /* those that came with it; one that is taken is -1 */
    unsigned files_len;
};

/*
 * Waits for a message. NULL once it is whole; else why there is none: WIRE_END where the front end has gone, WIRE_OVER where the
 * program ends.
 */
extern const char WIRE_END[], WIRE_OVER[];
const char *wire_receive(int socket, int ending, struct message *message);
/* Sends a message back with a payload of `size` bytes. */
const char *wire_reply(int socket, struct message *message, uint32_t size);
/* Takes the first file of a message, or -1; and closes those that nobody took. */
int wire_take_file(struct message *message);
void wire_close_files(struct message *message);

#endif
