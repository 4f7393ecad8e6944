/* The switch of switch.h. */
#include "switch.h"

#include <string.h>

enum { PORTS = 16, SHARE = 64 /* frames of a sender that may wait at a port */, ROOM = PORTS * SHARE, GROUP = 1 };

struct frame {
    uint8_t from;
    uint16_t len;
    uint8_t bytes[BOARD_FRAME];
};

/* A port: its frames stand in a ring. */
static struct port {
    bool plugged;
    uint8_t address[BOARD_ADDRESS];
    struct switch_counts counts;
    size_t first, waiting;
    size_t shares[PORTS]; /* how many of these each sender has */
    struct frame frames[ROOM];
} ports[PORTS];

void switch_plug(uint8_t port, const uint8_t address[BOARD_ADDRESS])
{
    ports[port].plugged = true;
    memcpy(ports[port].address, address, BOARD_ADDRESS);
}

static bool is_for(const struct port *port, const uint8_t *frame)
{
    return port->plugged && (frame[0] & GROUP || memcmp(frame, port->address, BOARD_ADDRESS) == 0);
}

static bool put(struct port *port, uint8_t from, const uint8_t *bytes, size_t len)
{
    if (len > BOARD_FRAME || port->shares[from] == SHARE)
        return false;
    struct frame *frame = &port->frames[(port->first + port->waiting++) % ROOM];
    port->shares[from]++;
    frame->from = from;
    frame->len = len;
    memcpy(frame->bytes, bytes, len);
    return true;
}

void switch_send(uint8_t from, const uint8_t *frame, size_t len)
{
    struct switch_counts *counts = &ports[from].counts;
    counts->sent++;
    for (uint8_t to = 0; to < PORTS && len >= BOARD_ADDRESS; to++) {
        if (to == from || !is_for(&ports[to], frame))
            continue;
        if (put(&ports[to], from, frame, len))
            counts->passed++;
        else
            counts->lost++;
    }
}

const uint8_t *switch_waiting(uint8_t port, size_t *len)
{
    const struct frame *frame = &ports[port].frames[ports[port].first];
    *len = frame->len;
    return ports[port].waiting > 0 ? frame->bytes : NULL;
}

void switch_forget(uint8_t port)
{
    struct port *of = &ports[port];
    of->shares[of->frames[of->first].from]--;
    of->first = (of->first + 1) % ROOM;
    of->waiting--;
}

struct switch_counts switch_counts(uint8_t port)
{
    return ports[port].counts;
}
