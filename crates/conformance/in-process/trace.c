#include "trace.h"

#include <stdio.h>
#include <stdlib.h>
#include <string.h>

/* What the event that is replayed puts out. */
static struct text output;

static void append(struct text *text, const void *bytes, size_t len)
{
    if (text->len + len > text->room) {
        text->room = 2 * (text->len + len);
        text->at = realloc(text->at, text->room);
        if (!text->at) {
            fputs("no memory\n", stderr);
            exit(3);
        }
    }
    if (len)
        memcpy(text->at + text->len, bytes, len);
    text->len += len;
}

void put_out(unsigned guest, const uint8_t *bytes, size_t len)
{
    (void)guest;
    append(&output, bytes, len);
}

/* --- reading */

/* The most fields that an event has. */
enum { MOST_FIELDS = 8 };

/* A field of a line: up to the next space or the line's end. */
struct field {
    const char *at;
    size_t len;
};

/* Splits a line into at most `most` fields; how many there are, or 0. */
static size_t split(const char *line, size_t len, struct field *fields, size_t most)
{
    size_t count = 0;
    const char *end = line + len;
    for (const char *at = line; count < most; at++) {
        const char *space = memchr(at, ' ', (size_t)(end - at));
        fields[count++] = (struct field){at, (size_t)((space ? space : end) - at)};
        if (!space)
            return count;
        at = space;
    }
    return 0;
}

static int digit(char c)
{
    return c >= '0' && c <= '9' ? c - '0' : c >= 'a' && c <= 'f' ? c - 'a' + 10 : -1;
}

/* A number of at most 64 bits. */
static bool number(struct field field, uint64_t most, uint64_t *value)
{
    *value = 0;
    if (!field.len || field.len > 16)
        return false;
    for (size_t i = 0; i < field.len; i++) {
        if (digit(field.at[i]) < 0)
            return false;
        *value = *value << 4 | (unsigned)digit(field.at[i]);
    }
    return *value <= most;
}

static bool is(struct field field, const char *word)
{
    return field.len == strlen(word) && !memcmp(field.at, word, field.len);
}

/* The next line of a text, without its LF. */
static bool next_line(const char **at, const char *end, struct field *line)
{
    const char *feed = *at < end ? memchr(*at, '\n', (size_t)(end - *at)) : NULL;
    if (!feed)
        return false;
    *line = (struct field){*at, (size_t)(feed - *at)};
    *at = feed + 1;
    return true;
}

/* Whether a field begins with a word, and what stands behind it. */
static bool begins(struct field field, const char *word, struct field *rest)
{
    size_t len = strlen(word);
    if (field.len < len || memcmp(field.at, word, len))
        return false;
    *rest = (struct field){field.at + len, field.len - len};
    return true;
}

/* The identity of a guest: in version 1 always the same, else a field. */
static bool read_identity(const struct field *field, struct guest *guest)
{
    enum { LEN = sizeof guest->identity };
    if (!field) {
        memcpy(guest->identity, "vreplay-block\0\0\0\0\0\0\0", LEN);
        return true;
    }
    if (field->len != 2 * LEN)
        return false;
    for (size_t i = 0; i < LEN; i++) {
        int high = digit(field->at[2 * i]), low = digit(field->at[2 * i + 1]);
        if (high < 0 || low < 0)
            return false;
        guest->identity[i] = (uint8_t)(16 * high + low);
    }
    return true;
}

/* The fields of a slot's line behind its regions. */
static bool read_guest(const struct field *fields, bool named, struct guest *guest)
{
    uint64_t cols, rows;
    bool good = number(fields[0], UINT64_MAX, &guest->start) && number(fields[1], UINT64_MAX, &guest->count) &&
                (is(fields[2], "rw") || is(fields[2], "ro")) && number(fields[3], 0xffff, &cols) &&
                number(fields[4], 0xffff, &rows) && read_identity(named ? &fields[5] : NULL, guest);
    guest->read_only = is(fields[2], "ro");
    guest->cols = good ? (uint16_t)cols : 0;
    guest->rows = good ? (uint16_t)rows : 0;
    return good;
}

/* The one region of versions 1 and 2, of two fields. */
static bool read_region(const struct field *fields, struct guest *guest)
{
    guest->regions_len = 1;
    return number(fields[0], UINT64_MAX, &guest->regions[0].base) && number(fields[1], UINT64_MAX, &guest->regions[0].len);
}

/* The regions of an extended trace, one field: BASE+LEN of each, and a comma between two. */
static bool read_regions(struct field field, struct guest *guest)
{
    for (const char *at = field.at, *end = field.at + field.len; guest->regions_len < MOST_REGIONS; at++) {
        struct region *region = &guest->regions[guest->regions_len++];
        const char *comma = memchr(at, ',', (size_t)(end - at)), *last = comma ? comma : end;
        const char *plus = memchr(at, '+', (size_t)(last - at));
        if (!plus || !number((struct field){at, (size_t)(plus - at)}, UINT64_MAX, &region->base) ||
            !number((struct field){plus + 1, (size_t)(last - plus - 1)}, UINT64_MAX, &region->len))
            return false;
        if (!comma)
            return true;
        at = comma;
    }
    return false;
}

/* Who has the disk, in an extended trace: `image`, with `+` and how many sectors where there are spare ones, or `host:` and how
 * many operations may be in flight. */
static bool read_disk(struct field field, struct guest *guest)
{
    struct field rest;
    uint64_t depth;
    if (begins(field, "image+", &rest))
        return number(rest, UINT64_MAX, &guest->spare) && guest->spare > 0;
    if (!begins(field, "host:", &rest))
        return is(field, "image");
    guest->hosted = number(rest, 0xff, &depth);
    guest->depth = guest->hosted ? (uint8_t)depth : 0;
    return guest->hosted;
}

/* A further disk's sectors, mode and identity. */
static bool read_sectors(const struct field *fields, struct further_device *device)
{
    struct guest its = {0};
    bool good = number(fields[0], UINT64_MAX, &device->sectors) && (is(fields[1], "rw") || is(fields[1], "ro")) &&
                read_identity(&fields[2], &its);
    device->read_only = is(fields[1], "ro");
    memcpy(device->identity, its.identity, sizeof device->identity);
    return good;
}

/* A disk that the trace serves, of four fields behind its word. */
static bool read_further_disk(const struct field *fields, struct further_device *device)
{
    uint64_t depth;
    bool good = read_sectors(fields, device) && number(fields[3], 0xff, &depth);
    device->is_disk = true;
    device->depth = good ? (uint8_t)depth : 0;
    return good;
}

/* A disk over spare sectors, of four fields behind its word. */
static bool read_image_disk(const struct field *fields, struct further_device *device)
{
    device->is_image_disk = true;
    return number(fields[0], UINT64_MAX, &device->place) && read_sectors(&fields[1], device);
}

/* A console's columns and rows, behind its word. */
static bool read_console(struct field field, struct further_device *device)
{
    const char *colon = memchr(field.at, ':', field.len);
    uint64_t cols, rows;
    if (!colon || !number((struct field){field.at, (size_t)(colon - field.at)}, 0xffff, &cols) ||
        !number((struct field){colon + 1, field.len - (size_t)(colon + 1 - field.at)}, 0xffff, &rows))
        return false;
    device->is_console = true;
    device->cols = (uint16_t)cols;
    device->rows = (uint16_t)rows;
    return true;
}

/* A card's address and its MTU, behind its word. */
static bool read_card(struct field field, struct further_device *device)
{
    size_t digits = 2 * sizeof device->mac;
    uint64_t mtu;
    device->is_card = true;
    if (field.len < digits + 1 || field.at[digits] != ':')
        return false;
    for (size_t i = 0; i < sizeof device->mac; i++) {
        int high = digit(field.at[2 * i]), low = digit(field.at[2 * i + 1]);
        if (high < 0 || low < 0)
            return false;
        device->mac[i] = (uint8_t)(16 * high + low);
    }
    if (!number((struct field){field.at + digits + 1, field.len - digits - 1}, 0xffff, &mtu))
        return false;
    device->mtu = (uint16_t)mtu;
    return true;
}

/* What a further device is, of the fields behind its number. */
static bool read_kind(const struct field *fields, size_t count, struct further_device *device)
{
    struct field field = fields[0], rest;
    if (count == 5 && is(field, "image"))
        return read_image_disk(&fields[1], device);
    if (is(field, "disk") || count != 1)
        return is(field, "disk") && count == 5 && read_further_disk(&fields[1], device);
    if (begins(field, "console:", &rest))
        return read_console(rest, device);
    return begins(field, "network:", &rest) ? read_card(rest, device) : is(field, "entropy");
}

/* Whether a disk's spare sectors are those of its guest, and no other disk's among so many devices. */
static bool are_free(const struct guest *guest, size_t plugged, const struct further_device *device)
{
    uint64_t place = device->place, sectors = device->sectors;
    if (sectors == 0 || place > guest->spare || sectors > guest->spare - place)
        return false;
    for (size_t i = 0; i < plugged; i++) {
        const struct further_device *other = &guest->devices[i];
        if (other->is_image_disk && place < other->place + other->sectors && other->place < place + sectors)
            return false;
    }
    return true;
}

/* Whether a guest with so many further devices takes this one as its next. */
static bool may_plug(const struct guest *guest, size_t plugged, unsigned number, const struct further_device *device)
{
    enum { LEAST_MTU = 68, MOST_DEPTH = 64 };
    return number == plugged && plugged < MOST_DEVICES && (!device->is_card || device->mtu >= LEAST_MTU) &&
           (!device->is_disk || (device->sectors >> 55 == 0 && device->depth >= 1 && device->depth <= MOST_DEPTH)) &&
           (!device->is_image_disk || are_free(guest, plugged, device));
}

/* Gives each guest the devices that the events plug in: those that aren't plugged in yet take no event. */
static void read_plugs(struct trace *trace)
{
    struct field line, fields[MOST_FIELDS];
    uint64_t guest, which;
    for (const char *at = trace->events; next_line(&at, trace->end, &line);) {
        struct further_device device = {0};
        size_t count = split(line.at, line.len, fields, MOST_FIELDS);
        if (count < 4 || !is(fields[0], "plug") || !number(fields[1], 0xff, &guest) || !number(fields[2], 0xff, &which) ||
            !read_kind(&fields[3], count - 3, &device) || guest >= trace->guests_len)
            continue;
        struct guest *its = &trace->guests[guest];
        if (may_plug(its, its->devices_len, (unsigned)which, &device))
            its->devices[its->devices_len++] = device;
    }
}

/* Line 2: the cache's capacity. */
static bool read_cache(struct field line, struct trace *trace)
{
    struct field fields[2];
    uint64_t value = 0;
    if (split(line.at, line.len, fields, 2) != 2 || !is(fields[0], "cache") || !number(fields[1], UINT32_MAX, &value))
        return false;
    trace->cache = (uint32_t)value;
    return true;
}

bool read_setup(const char *text, size_t len, struct trace *trace)
{
    struct field line, fields[9];
    size_t most;
    *trace = (struct trace){.events = text, .end = text + len};
    if (!next_line(&trace->events, trace->end, &line) ||
        (!is(line, "vreplay 1") && !is(line, "vreplay 2") && !is(line, "kalyubos 1")))
        return false;
    bool named = !is(line, "vreplay 1"), extended = is(line, "kalyubos 1");
    if (!next_line(&trace->events, trace->end, &line) || !read_cache(line, trace))
        return false;
    most = named ? MOST_GUESTS : 16;
    for (const char *at = trace->events; next_line(&at, trace->end, &line); trace->events = at) {
        if (line.len < 5 || memcmp(line.at, "slot ", 5)) {
            if (extended)
                read_plugs(trace);
            return true;
        }
        struct guest *guest = &trace->guests[trace->guests_len];
        if (trace->guests_len++ == most || split(line.at, line.len, fields, 9) != (named ? 9 : 8) ||
            !(extended ? read_regions(fields[1], guest) && read_disk(fields[2], guest)
                       : read_region(&fields[1], guest)) ||
            !read_guest(&fields[3], named, guest))
            return false;
        trace->hosted = trace->hosted || guest->hosted;
        trace->has_extents = trace->has_extents || !guest->hosted;
        trace->has_spare = trace->has_spare || guest->spare > 0;
    }
    return true;
}

const char *why_no_disks(const struct device *device, const struct trace *trace)
{
    if (trace->has_spare && !(device->further && device->further->image_disks))
        return "no guest may have spare sectors of the image";
    if (!trace->hosted)
        return NULL;
    if (!device->hosting)
        return "no trace may serve the device's disks";
    return device->hosting->beside_extents || !trace->has_extents ? NULL : "a trace may serve all of the device's disks, or none";
}

static bool read_bytes(struct field field, struct event *event)
{
    if (is(field, "-"))
        return true;
    if (!field.len || field.len % 2)
        return false;
    event->bytes = malloc(field.len / 2);
    if (!event->bytes)
        return false;
    for (; event->len < field.len / 2; event->len++) {
        int high = digit(field.at[2 * event->len]), low = digit(field.at[2 * event->len + 1]);
        if (high < 0 || low < 0)
            return false;
        event->bytes[event->len] = (uint8_t)(16 * high + low);
    }
    return true;
}

/* The offset and width of a register access, in the fields behind its window. */
static bool read_offset(const struct field *fields, struct event *event)
{
    uint64_t offset, width;
    if (fields[3].len != 3 || !number(fields[3], 0xfff, &offset) || !number(fields[4], 4, &width))
        return false;
    event->offset = (unsigned)offset;
    event->width = (unsigned)width;
    return width == 1 || width == 2 || width == 4;
}

/* The window, offset and width. */
static bool read_place(const struct field *fields, struct event *event)
{
    if (!is(fields[2], "b") && !is(fields[2], "c"))
        return false;
    event->window = is(fields[2], "c") ? CONSOLE_WINDOW : BLOCK_WINDOW;
    return read_offset(fields, event);
}

/* The value of a write, of as many digits as its width has. */
static bool read_value(struct field field, struct event *event)
{
    uint64_t value;
    if (field.len != 2 * event->width || !number(field, UINT32_MAX, &value))
        return false;
    event->value = (uint32_t)value;
    return true;
}

/* A tag, and what came of its operation. */
static bool read_completion(const struct field *fields, struct event *event)
{
    uint64_t value;
    if (!number(fields[0], 0xff, &value))
        return false;
    event->tag = (unsigned)value;
    event->failed = is(fields[1], "failed");
    return event->failed || is(fields[1], "done");
}

/* The columns and rows of a console. */
static bool read_size(const struct field *fields, struct event *event)
{
    uint64_t cols, rows;
    if (!number(fields[0], 0xffff, &cols) || !number(fields[1], 0xffff, &rows))
        return false;
    event->cols = (uint16_t)cols;
    event->rows = (uint16_t)rows;
    return true;
}

/* A line for a further device, behind its slot's number. */
static bool read_device_fields(const struct field *fields, size_t count, struct event *event, struct trace *trace)
{
    static const struct { const char *word; int kind; size_t count; } lines[] = {
        {"plug", PLUG, 4}, {"dr", DEVICE_READ, 5}, {"dw", DEVICE_WRITE, 6}, {"supply", SUPPLY, 4}, {"frame", RECEIVE, 4},
        {"take", TAKE, 3}, {"dsent", DROP_SENT, 3}, {"link", SET_LINK, 4}, {"plug", PLUG, 8}, {"dsz", DEVICE_RESIZE, 5},
        {"dio", DISK_COMPLETE, 5}, {"ddrop", DISK_DROP, 3}, {"dhold", DISK_HOLD, 3}, {"drelease", DISK_RELEASE, 3},
    };
    uint64_t value;
    size_t i = 0, of = sizeof lines / sizeof *lines;
    while (i < of && !(is(fields[0], lines[i].word) && count == lines[i].count))
        i++;
    if (i == of || !number(fields[2], 0xff, &value))
        return false;
    size_t *plugged = event->guest < trace->guests_len ? &trace->plugged[event->guest] : NULL;
    event->kind = lines[i].kind;
    event->number = (unsigned)value;
    event->is_there = plugged && event->number < *plugged;
    const struct further_device *there = event->is_there ? &trace->guests[event->guest].devices[event->number] : &event->device;
    event->is_disk = there->is_disk;
    event->is_console = there->is_console;
    switch (lines[i].kind) {
    case PLUG:
        if (!read_kind(&fields[3], count - 3, &event->device))
            return false;
        event->is_disk = event->device.is_disk;
        event->is_console = event->device.is_console;
        event->is_there = plugged && may_plug(&trace->guests[event->guest], *plugged, event->number, &event->device);
        if (event->is_there)
            ++*plugged;
        return true;
    case DEVICE_READ: return read_offset(fields, event);
    case DEVICE_WRITE: return read_offset(fields, event) && read_value(fields[5], event);
    case SUPPLY:
    case RECEIVE: return read_bytes(fields[3], event);
    case SET_LINK:
        event->up = is(fields[3], "up");
        return event->up || is(fields[3], "down");
    case DEVICE_RESIZE: return read_size(&fields[3], event);
    case DISK_COMPLETE: return read_completion(&fields[3], event);
    default: return true;
    }
}

static bool read_fields(const struct field *fields, size_t count, struct event *event, struct trace *trace)
{
    uint64_t value;
    if (!number(fields[1], 0xff, &value))
        return false;
    event->guest = (unsigned)value;
    if (count >= 3 && read_device_fields(fields, count, event, trace))
        return true;
    if (is(fields[0], "r") && count == 5) {
        event->kind = READ;
        return read_place(fields, event);
    }
    if (is(fields[0], "w") && count == 6) {
        event->kind = WRITE;
        return read_place(fields, event) && read_value(fields[5], event);
    }
    if (is(fields[0], "mr") && count == 4) {
        event->kind = MEMORY_READ;
        if (!number(fields[2], UINT64_MAX, &event->address) || !number(fields[3], UINT32_MAX, &value))
            return false;
        event->len = (size_t)value;
        return true;
    }
    if (is(fields[0], "mw") && count == 4) {
        event->kind = MEMORY_WRITE;
        return number(fields[2], UINT64_MAX, &event->address) && read_bytes(fields[3], event);
    }
    if (is(fields[0], "in") && count == 3) {
        event->kind = INPUT;
        return read_bytes(fields[2], event);
    }
    if (is(fields[0], "sz") && count == 4) {
        event->kind = RESIZE;
        return read_size(&fields[2], event);
    }
    if (is(fields[0], "st") && count == 3) {
        event->kind = RESTORE;
        return read_bytes(fields[2], event);
    }
    if (is(fields[0], "io") && count == 4) {
        event->kind = COMPLETE;
        return read_completion(&fields[2], event);
    }
    event->kind = is(fields[0], "drop") ? DROP : is(fields[0], "hold") ? HOLD : RELEASE;
    return count == 2 && (event->kind != RELEASE || is(fields[0], "release"));
}

bool read_event(struct trace *trace, struct event *event)
{
    struct field line, fields[MOST_FIELDS];
    *event = (struct event){0};
    if (!next_line(&trace->events, trace->end, &line))
        return false;
    size_t count = split(line.at, line.len, fields, MOST_FIELDS);
    if (count >= 2 && read_fields(fields, count, event, trace))
        return true;
    free(event->bytes);
    event->bytes = NULL;
    return false;
}

/* --- replaying */

static void append_word(struct text *text, const char *word)
{
    append(text, word, strlen(word));
}

static void append_bytes(struct text *text, const uint8_t *bytes, size_t len)
{
    static const char digits[] = "0123456789abcdef";
    if (!len)
        append_word(text, "-");
    for (size_t i = 0; i < len; i++) {
        char pair[2] = {digits[bytes[i] >> 4], digits[bytes[i] & 15]};
        append(text, pair, 2);
    }
}

/* What a look at a guest's memory answers. */
static void look(const struct device *device, const struct trace *trace, const struct event *event,
                 struct text *record)
{
    uint8_t *into = event->len <= memory_size(&trace->guests[event->guest]) ? malloc(event->len + 1) : NULL;
    if (into && device->memory(event->guest, event->address, into, event->len, false)) {
        append_word(record, "b:");
        append_bytes(record, into, event->len);
    } else {
        append_word(record, "badrange");
    }
    free(into);
}

typedef bool say(unsigned guest, unsigned window);

/* What a device has for a drop, a hold or a release. */
static say *call_of(const struct hosting *hosting, const struct event *event)
{
    bool is_drop = event->kind == DROP || event->kind == DISK_DROP, is_hold = event->kind == HOLD || event->kind == DISK_HOLD;
    return is_drop ? hosting->drop : is_hold ? hosting->hold : hosting->release;
}

/* Whether the device can be asked for a further device, and for what the host says of a disk among these. */
static bool has_such_devices(const struct device *device, const struct event *event)
{
    bool of_host = event->kind == DISK_DROP || event->kind == DISK_HOLD || event->kind == DISK_RELEASE;
    return device->further && (!event->is_disk || (device->hosting && device->hosting->further_disks)) &&
           (!event->is_disk || !of_host || call_of(device->hosting, event)) && (!event->is_console || device->further->resize);
}

/* Whether a guest is restored before the trace has plugged in all that the device has from the beginning. */
static bool is_early(const struct trace *trace, const struct event *event)
{
    return event->kind == RESTORE && event->guest < trace->guests_len &&
           trace->plugged[event->guest] < trace->guests[event->guest].devices_len;
}

bool can_be_asked(const struct device *device, const struct trace *trace, const struct event *event)
{
    bool of_host = (event->kind == DROP || event->kind == HOLD || event->kind == RELEASE) &&
                   event->guest < trace->guests_len && trace->guests[event->guest].hosted;
    return (event->kind != RESTORE || device->restore) && (!of_host || call_of(device->hosting, event)) &&
           (event->kind < PLUG || has_such_devices(device, event)) && !is_early(trace, event);
}

/* What an event of a disk is answered whose word no other device has, and a write; false: it is no such event. */
static bool reply_disk(const struct hosting *hosting, const struct event *event, struct text *record)
{
    unsigned window = FURTHER_WINDOW + event->number;
    switch (event->kind) {
    case DEVICE_WRITE:
        append_word(record, hosting->write(event->guest, window, event->offset, event->width, event->value) ? "done" : "busy");
        return true;
    case DISK_COMPLETE:
        append_word(record, hosting->complete(event->guest, window, event->tag, event->failed) ? "done" : "idle");
        return true;
    case DISK_DROP:
    case DISK_HOLD:
    case DISK_RELEASE:
        append_word(record, call_of(hosting, event)(event->guest, window) ? "done" : "idle");
        return true;
    default: return false;
    }
}

/* What an event of a further device is answered that its guest has; false: it takes no such thing. */
static bool reply_device(const struct further *further, const struct event *event, struct text *record)
{
    static uint8_t frame[1 << 16];
    char word[32] = "done";
    uint32_t value;
    size_t len;
    bool taken;
    switch (event->kind) {
    case DEVICE_READ:
        if (!further->read(event->guest, event->number, event->offset, event->width, &value))
            return false;
        snprintf(word, sizeof word, "v:%08x", (unsigned)value);
        break;
    case DEVICE_WRITE:
        if (!further->write(event->guest, event->number, event->offset, event->width, event->value))
            return false;
        break;
    case SUPPLY:
        if (!further->supply(event->guest, event->number, event->bytes, event->len, &len))
            return false;
        snprintf(word, sizeof word, "took:%zx", len);
        break;
    case RECEIVE:
        if (!further->receive(event->guest, event->number, event->bytes, event->len, &taken))
            return false;
        snprintf(word, sizeof word, "took:%zx", taken ? event->len : 0);
        break;
    case TAKE:
        if (!further->take(event->guest, event->number, frame, sizeof frame, &len))
            return false;
        append_word(record, "b:");
        append_bytes(record, frame, len);
        return true;
    case DROP_SENT:
        if (!further->take(event->guest, event->number, frame, sizeof frame, &len))
            return false;
        snprintf(word, sizeof word, "took:%zx", len);
        break;
    case SET_LINK:
        if (!further->set_link(event->guest, event->number, event->up))
            return false;
        break;
    case DEVICE_RESIZE:
        if (!event->is_console || !further->resize(event->guest, event->number, event->cols, event->rows))
            return false;
        break;
    case PLUG: break; /* the device has it from the beginning */
    default: return false;
    }
    append_word(record, word);
    return true;
}

static void reply(const struct device *device, const struct trace *trace, const struct event *event,
                  struct text *record)
{
    char word[32] = "done";
    if (event->kind >= PLUG) {
        bool is_answered = event->is_there && ((event->is_disk && reply_disk(device->hosting, event, record)) ||
                                               reply_device(device->further, event, record));
        append_word(record, is_answered ? "" : "baddevice");
        return;
    }
    switch (event->kind) {
    case READ:
        snprintf(word, sizeof word, "v:%08x",
                 (unsigned)device->read(event->guest, event->window, event->offset, event->width));
        break;
    case WRITE:
        if (!trace->guests[event->guest].hosted)
            device->write(event->guest, event->window, event->offset, event->width, event->value);
        else if (!device->hosting->write(event->guest, event->window, event->offset, event->width, event->value))
            strcpy(word, "busy");
        break;
    case RESTORE:
        strcpy(word, device->restore(event->guest, event->bytes, event->len));
        break;
    case COMPLETE:
        if (!trace->guests[event->guest].hosted || !device->hosting->complete(event->guest, BLOCK_WINDOW, event->tag, event->failed))
            strcpy(word, "idle");
        break;
    case DROP:
    case HOLD:
    case RELEASE:
        if (!trace->guests[event->guest].hosted || !call_of(device->hosting, event)(event->guest, BLOCK_WINDOW))
            strcpy(word, "idle");
        break;
    case MEMORY_READ:
        look(device, trace, event, record);
        return;
    case MEMORY_WRITE:
        if (!device->memory(event->guest, event->address, event->bytes, event->len, true))
            strcpy(word, "badrange");
        break;
    case INPUT:
        snprintf(word, sizeof word, "took:%zx", device->input(event->guest, event->bytes, event->len));
        break;
    case RESIZE:
        device->resize(event->guest, event->cols, event->rows);
        break;
    default: break;
    }
    append_word(record, word);
}

static void append_operation(const struct device *device, unsigned guest, unsigned window, unsigned tag, struct text *record)
{
    static const char *const kinds[] = {"in", "out", "flush", "zeroes"};
    static struct operation operation;
    char word[64];
    device->hosting->asked(guest, window, tag, &operation);
    if (window >= FURTHER_WINDOW) {
        snprintf(word, sizeof word, "%x/", window - FURTHER_WINDOW);
        append_word(record, word);
    }
    snprintf(word, sizeof word, "%x=%s%s:%llx:%llx:%s", tag, kinds[operation.kind], operation.stable ? "-stable" : "",
             (unsigned long long)operation.start, (unsigned long long)operation.len, operation.runs_len ? "" : "-");
    append_word(record, word);
    for (size_t i = 0; i < operation.runs_len; i++) {
        snprintf(word, sizeof word, "%s%llx+%llx", i ? "," : "", (unsigned long long)operation.runs[i].at,
                 (unsigned long long)operation.runs[i].len);
        append_word(record, word);
    }
}

/* The operations that began with the event, in the order of their tags, or that none did. */
static void append_asked(const struct device *device, bool hosted, const struct event *event, struct text *record)
{
    bool of_disk = event->is_disk && (event->kind == DEVICE_WRITE || event->kind == DISK_COMPLETE || event->kind == DISK_RELEASE);
    bool may_ask = of_disk || (hosted && (event->kind == WRITE || event->kind == COMPLETE || event->kind == RELEASE));
    unsigned window = of_disk ? FURTHER_WINDOW + event->number : BLOCK_WINDOW;
    uint64_t began = may_ask ? device->hosting->began(event->guest) : 0;
    const char *before = " ";
    if (!began)
        append_word(record, " -");
    for (unsigned tag = 0; tag < 64; tag++) {
        if (!(began >> tag & 1))
            continue;
        append_word(record, before);
        append_operation(device, event->guest, window, tag, record);
        before = ";";
    }
}

void replay_event(const struct device *device, const struct trace *trace, const struct event *event,
                  struct text *record)
{
    char word[32];
    snprintf(word, sizeof word, "%x ", event->guest);
    append_word(record, word);
    if (event->guest >= trace->guests_len) {
        append_word(record, trace->hosted ? "badslot - 0 0 -\n" : "badslot - 0 0\n");
        return;
    }
    output.len = 0;
    reply(device, trace, event, record);
    append_word(record, " ");
    append_bytes(record, (const uint8_t *)output.at, output.len);
    snprintf(word, sizeof word, " %x %x", (unsigned)device->read(event->guest, BLOCK_WINDOW, 0x060, 4),
             (unsigned)device->read(event->guest, CONSOLE_WINDOW, 0x060, 4));
    append_word(record, word);
    if (trace->hosted)
        append_asked(device, trace->guests[event->guest].hosted, event, record);
    append_word(record, "\n");
}
