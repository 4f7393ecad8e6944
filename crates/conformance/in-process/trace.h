/* trace.h: a trace's text, read line by line and replayed on a device. */
#ifndef TRACE_H
#define TRACE_H

#include "device.h"

enum { MOST_GUESTS = 64 };

/* What stands before a trace's events. */
struct trace {
    bool hosted, has_extents; /* the trace serves a disk, or all; a disk is on the image */
    bool has_spare;           /* a guest has spare sectors */
    uint32_t cache;
    struct guest guests[MOST_GUESTS];
    size_t guests_len;
    const char *events, *end;
    size_t plugged[MOST_GUESTS]; /* how many further devices each guest has before these events */
};

/* One event, with its bytes in `bytes`. */
struct event {
    enum {
        READ, WRITE, MEMORY_READ, MEMORY_WRITE, INPUT, RESIZE, RESTORE, COMPLETE, DROP, HOLD, RELEASE,
        PLUG, DEVICE_READ, DEVICE_WRITE, SUPPLY, RECEIVE, TAKE, DROP_SENT, SET_LINK, DEVICE_RESIZE, /* of a further device */
        DISK_COMPLETE, DISK_DROP, DISK_HOLD, DISK_RELEASE
    } kind;
    bool failed;
    bool is_there, up; /* the guest has the further device, or it may be plugged in; its link goes up */
    bool is_disk, is_console; /* the further device is a disk, or a console */
    unsigned guest, window, offset, width, tag, number;
    uint64_t address;
    uint32_t value;
    uint16_t cols, rows;
    uint8_t *bytes;
    size_t len;
    struct further_device device; /* that is plugged in */
};

/* A text that grows. */
struct text {
    char *at;
    size_t len, room;
};

/* Why the device can't be asked for the disks of a trace, in a sentence, or NULL. */
const char *why_no_disks(const struct device *device, const struct trace *trace);

/* Reads what stands before the events. False: the text isn't a trace that this program can replay. */
bool read_setup(const char *text, size_t len, struct trace *trace);

/* Reads the next event and moves `trace->events` behind it; its bytes are to be freed. False: it isn't one. */
bool read_event(struct trace *trace, struct event *event);

/* Whether the device can be asked for an event. */
bool can_be_asked(const struct device *device, const struct trace *trace, const struct event *event);

/* Has the device do such an event, and writes its record, a line with its LF. */
void replay_event(const struct device *device, const struct trace *trace, const struct event *event,
                  struct text *record);

#endif
