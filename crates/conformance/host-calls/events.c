/* The calls that lines of a trace are: of registers, memory, consoles, snapshots, what a host says of a disk, and further devices. */
#include <stdlib.h>
#include <string.h>

#include "../in-process/slot.h"
#include "../in-process/trace.h"
#include "calls.h"

/* What stands for no bytes: no pointer of a call is null. */
static uint8_t no_bytes[1];

/* Reads a line as an event; its bytes are to be freed. */
static bool read_line(const char *words, struct event *event)
{
    static char line[2 * MOST_BYTES + 128];
    static struct trace trace;
    size_t len = strlen(words);
    if (len + 1 >= sizeof line)
        return false;
    memcpy(line, words, len);
    line[len] = '\n';
    trace.events = line;
    trace.end = line + len + 1;
    return read_event(&trace, event) && trace.events == trace.end;
}

bool read_device(const char *words, unsigned *slot, unsigned *place, struct kalyubos_device *further)
{
    static char line[256] = "plug ";
    struct event event;
    if (strlen(words) + sizeof "plug " > sizeof line)
        return false;
    strcpy(line + strlen("plug "), words);
    if (!read_line(line, &event) || event.kind != PLUG)
        return false;
    *slot = event.guest;
    *place = event.number;
    *further = device_of(&event.device);
    return true;
}

/* The window of an event: of the slot's own devices, or of a further one. */
static uint8_t window_of(const struct event *event)
{
    return (uint8_t)(event->kind >= PLUG ? KALYUBOS_DEVICE + event->number : event->window);
}

/* --- what is answered */

static void put_value(uint32_t code, uint32_t value)
{
    if (code == KALYUBOS_DONE)
        put("%x", (unsigned)value);
    else
        put_code(code);
}

void put_taken(uint32_t code, size_t taken)
{
    if (code == KALYUBOS_DONE || code == KALYUBOS_MORE)
        put("%zx ", taken);
    put_code(code);
}

void put_sent(uint8_t slot, uint8_t window, bool shows_bytes)
{
    static uint8_t sent[1 << 16];
    size_t len = 0;
    uint32_t code = kalyubos_take_frame(&board, slot, window, sent, sizeof sent, &len);
    if (shows_bytes && len > 0) {
        put_bytes(sent, len);
        put(" ");
    }
    put_taken(code, len);
}

/* --- calls */

static void read_register(const struct event *event)
{
    uint32_t value = 0;
    uint32_t code = kalyubos_read(&board, (uint8_t)event->guest, window_of(event), (uint16_t)event->offset,
                                  (uint8_t)event->width, &value);
    put_value(code, value);
}

static void write_register(const struct event *event)
{
    struct kalyubos_pending pending;
    put_code(kalyubos_write(&board, (uint8_t)event->guest, window_of(event), (uint16_t)event->offset, (uint8_t)event->width,
                            event->value, &pending));
}

/* Reads into a room of dots. */
static enum made read_memory(const struct event *event)
{
    static uint8_t room[MOST_BYTES];
    if (event->len > sizeof room)
        return NO_CONDITIONS;
    memset(room, '.', event->len);
    uint32_t code = kalyubos_read_memory(&board, (uint8_t)event->guest, event->address, room, event->len);
    if (code != KALYUBOS_DONE) {
        put_code(code);
        put(" ");
    }
    put_bytes(room, event->len);
    return ANSWERED;
}

/* Types, supplies, or hands a frame. */
static void hand(const struct event *event)
{
    const uint8_t *bytes = event->bytes ? event->bytes : no_bytes;
    uint8_t slot = (uint8_t)event->guest;
    struct kalyubos_pending pending;
    size_t taken = 0;
    bool took = false;
    uint32_t code;
    if (event->kind == INPUT) {
        code = kalyubos_input(&board, slot, bytes, event->len, &taken, &pending);
    } else if (event->kind == SUPPLY) {
        code = kalyubos_supply(&board, slot, window_of(event), bytes, event->len, &taken);
    } else {
        code = kalyubos_receive(&board, slot, window_of(event), bytes, event->len, &took);
        taken = took ? event->len : 0;
    }
    put_taken(code, taken);
}

/* What the host says of a disk. */
static void say(const struct event *event)
{
    uint8_t slot = (uint8_t)event->guest, window = window_of(event);
    struct kalyubos_pending pending;
    switch (event->kind) {
    case COMPLETE:
    case DISK_COMPLETE:
        put_code(kalyubos_completed(&board, slot, window, (uint8_t)event->tag, event->failed, &pending));
        break;
    case DROP:
    case DISK_DROP: put_code(kalyubos_drop(&board, slot, window, &pending)); break;
    case HOLD:
    case DISK_HOLD: put_code(kalyubos_hold(&board, slot, window, &pending)); break;
    default: put_code(kalyubos_release(&board, slot, window, &pending)); break;
    }
}

/* What else is done to a slot: its memory, its console and its snapshot, and the link and size of a further device. */
static enum made change(const struct event *event)
{
    const uint8_t *bytes = event->bytes ? event->bytes : no_bytes;
    uint8_t slot = (uint8_t)event->guest;
    struct kalyubos_pending pending;
    switch (event->kind) {
    case MEMORY_WRITE: put_code(kalyubos_write_memory(&board, slot, event->address, bytes, event->len)); break;
    case RESIZE: put_code(kalyubos_resize(&board, slot, event->cols, event->rows, &pending)); break;
    case RESTORE: put_code(kalyubos_restore(&board, slot, bytes, event->len, &pending)); break;
    case SET_LINK: put_code(kalyubos_set_link(&board, slot, window_of(event), event->up)); break;
    case DEVICE_RESIZE: put_code(kalyubos_resize_device(&board, slot, window_of(event), event->cols, event->rows)); break;
    default: return NO_CONDITIONS; /* a board has its devices from its beginning */
    }
    return ANSWERED;
}

static enum made make(const struct event *event)
{
    switch (event->kind) {
    case READ:
    case DEVICE_READ: read_register(event); return ANSWERED;
    case WRITE:
    case DEVICE_WRITE: write_register(event); return ANSWERED;
    case MEMORY_READ: return read_memory(event);
    case INPUT:
    case SUPPLY:
    case RECEIVE: hand(event); return ANSWERED;
    case TAKE:
    case DROP_SENT: put_sent((uint8_t)event->guest, window_of(event), event->kind == TAKE); return ANSWERED;
    case COMPLETE:
    case DROP:
    case HOLD:
    case RELEASE:
    case DISK_COMPLETE:
    case DISK_DROP:
    case DISK_HOLD:
    case DISK_RELEASE: say(event); return ANSWERED;
    default: return change(event);
    }
}

enum made make_event(const char *line)
{
    struct event event;
    if (!read_line(line, &event))
        return NO_CALL;
    enum made made = make(&event);
    free(event.bytes);
    return made;
}
