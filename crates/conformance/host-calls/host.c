/* The calls of rows that no line of a trace is: which board there is, what is seen of it, and what a host does beside its guests. */
#include "calls.h"

#include <stdio.h>
#include <string.h>

enum { MOST_IMAGE = 1 << 16, MOST_SLOTS = 65, SHOWN = 8 };

struct kalyubos board;

/* What the next board is asked for. */
static uint8_t image[MOST_IMAGE];
static size_t image_len, slots_len;
static struct kalyubos_slot slots[MOST_SLOTS];
static uint32_t budget_chains;
static uint64_t budget_bytes;

static uint8_t next_slot(struct words *words)
{
    return (uint8_t)next_number(words, UINT8_MAX);
}

/* A window: `b` and `c` of the slot's own devices, or the number of a further one. */
static uint8_t next_window(struct words *words)
{
    struct words number = *words;
    struct word word = next_word(words);
    if (is_word(word, "b") || is_word(word, "c"))
        return is_word(word, "b") ? KALYUBOS_BLOCK : KALYUBOS_CONSOLE;
    return (uint8_t)(KALYUBOS_DEVICE + next_number(&number, KALYUBOS_DEVICES));
}

static uint8_t next_device(struct words *words)
{
    return (uint8_t)(KALYUBOS_DEVICE + next_number(words, UINT8_MAX - KALYUBOS_DEVICE));
}

/* --- which board there is */

static void drop_board(void)
{
    refuse_from(0);
    if (board.at)
        (void)kalyubos_destroy(&board);
}

static enum made begin(struct words *words)
{
    drop_board();
    image_len = (size_t)next_number(words, MOST_IMAGE);
    for (size_t i = 0; i < image_len; i++)
        image[i] = (uint8_t)(0x10 | (i / 512 % 16));
    slots_len = 0;
    budget_chains = 0;
    budget_bytes = 0;
    put_code(KALYUBOS_DONE);
    return ANSWERED;
}

static enum made ask(struct words *words)
{
    uint64_t times = next_number(words, MOST_SLOTS);
    struct kalyubos_slot slot = { .size = sizeof slot, .cols = 80, .rows = 25 };
    slot.outlet = (uint32_t)next_number(words, UINT32_MAX);
    slot.regions[0].base = next_number(words, UINT64_MAX);
    slot.regions[0].len = next_number(words, UINT64_MAX);
    slot.start = next_number(words, UINT64_MAX);
    slot.count = next_number(words, UINT64_MAX);
    memcpy(slot.identity, "disk-of-the-tests-01", sizeof slot.identity);
    for (size_t i = 1; words->left && i < KALYUBOS_REGIONS; i++) {
        slot.regions[i].base = next_number(words, UINT64_MAX);
        slot.regions[i].len = next_number(words, UINT64_MAX);
    }
    for (; times > 0 && slots_len < MOST_SLOTS; times--)
        slots[slots_len++] = slot;
    put_code(KALYUBOS_DONE);
    return times == 0 ? ANSWERED : NO_CONDITIONS;
}

/* A further device of a slot. */
static enum made ask_device(struct words *words)
{
    unsigned slot, place;
    struct kalyubos_device device;
    const char *line = words->left ? words->left : "";
    words->left = NULL;
    if (!read_device(line, &slot, &place, &device))
        return NO_CALL;
    if (slot >= slots_len || place >= KALYUBOS_DEVICES)
        return NO_CONDITIONS;
    slots[slot].devices[place] = device;
    put_code(KALYUBOS_DONE);
    return ANSWERED;
}

static enum made limit(struct words *words)
{
    struct word word = next_word(words);
    if (is_word(word, "chains"))
        budget_chains = (uint32_t)next_number(words, UINT32_MAX);
    else if (is_word(word, "bytes"))
        budget_bytes = next_number(words, UINT64_MAX);
    else
        return NO_CALL;
    put_code(KALYUBOS_DONE);
    return ANSWERED;
}

static struct kalyubos_config config_of(uint32_t cache)
{
    struct kalyubos_config config = kalyubos_config_of(slots, slots_len);
    config.image = image;
    config.image_len = image_len;
    config.cache = cache;
    config.chains = budget_chains;
    config.bytes = budget_bytes;
    return config;
}

/* What kalyubos_judge says of a config that kalyubos_create refused, and of which slot, and region. */
static void put_judged(const struct kalyubos_config *config, uint32_t refused)
{
    size_t slot = SIZE_MAX, region = SIZE_MAX;
    uint32_t judged = kalyubos_judge(config, &slot, &region);
    put_code(refused);
    if (slot != SIZE_MAX)
        put(" %zx", slot);
    if (region != SIZE_MAX)
        put(" %zx", region);
    if (judged != refused) {
        put(" judged ");
        put_code(judged);
    }
}

static enum made make_board(struct words *words)
{
    struct kalyubos_config config = config_of((uint32_t)next_number(words, UINT32_MAX));
    drop_board();
    uint32_t code = kalyubos_create(&board, &config);
    if (code != KALYUBOS_DONE)
        put_judged(&config, code);
    else
        put_code(code);
    refuse_from(1);
    return ANSWERED;
}

/* Makes and ends a board with the nth request for memory refused, and those behind it. */
static uint32_t made_with_refused(uint64_t n, uint32_t cache, uint64_t *asked)
{
    struct kalyubos other = { 0 };
    struct kalyubos_config config = config_of(cache);
    refuse_from(n);
    uint32_t code = kalyubos_create(&other, &config);
    *asked = requests();
    refuse_from(0);
    if (code == KALYUBOS_DONE)
        (void)kalyubos_destroy(&other);
    return code;
}

static enum made make_boards(struct words *words)
{
    uint32_t cache = (uint32_t)next_number(words, UINT32_MAX);
    uint64_t asked, all, before = blocks();
    uint32_t code = made_with_refused(0, cache, &all);
    if (code != KALYUBOS_DONE || blocks() != before) {
        put_code(code);
        put(" of ample memory");
        return ANSWERED;
    }
    for (uint64_t n = 1; n <= all; n++) {
        if (made_with_refused(n, cache, &asked) != KALYUBOS_NO_MEMORY || blocks() != before) {
            put("%llx", (unsigned long long)n);
            return ANSWERED;
        }
    }
    put(all > slots_len ? "ok" : "too few");
    return ANSWERED;
}

/* Is the image as it was? Ends the board. */
static enum made end(struct words *words)
{
    static uint8_t left[MOST_IMAGE];
    size_t len = 0;
    (void)words;
    if (kalyubos_image_len(&board, &len) != KALYUBOS_DONE || len > sizeof left ||
        kalyubos_read_image(&board, 0, left, len) != KALYUBOS_DONE)
        return NO_CONDITIONS;
    put(len == image_len && memcmp(left, image, len) == 0 ? "ok" : "another image");
    drop_board();
    return ANSWERED;
}

/* --- what is seen of it */

static enum made count_requests(struct words *words)
{
    (void)words;
    put("%llx", (unsigned long long)(requests() + returns()));
    return ANSWERED;
}

static enum made count_used(struct words *words)
{
    (void)words;
    put("%llx", (unsigned long long)blocks());
    return ANSWERED;
}

/* How much output waits, and whether a service is paused, is told by a call that has nothing to do: of the slot's own disk, which
 * is of the image, nothing is ever in flight to be dropped. */
static enum made see(struct words *words)
{
    struct kalyubos_pending pending = { 0 };
    uint8_t slot = next_slot(words), block, console;
    uint32_t code = kalyubos_interrupts(&board, slot, &block, &console);
    if (code != KALYUBOS_DONE) {
        put_code(code);
        return ANSWERED;
    }
    code = kalyubos_drop(&board, slot, KALYUBOS_BLOCK, &pending);
    if (pending.block != block || pending.console != console || (code != KALYUBOS_BUSY && code != KALYUBOS_IDLE))
        return NO_CONDITIONS;
    put("%x %x %llx%s", block, console, (unsigned long long)pending.output, code == KALYUBOS_BUSY ? " paused" : "");
    return ANSWERED;
}

static enum made see_device(struct words *words)
{
    struct kalyubos_device_pending pending;
    uint8_t slot = next_slot(words), window = next_device(words);
    uint32_t code = kalyubos_device_pending(&board, slot, window, &pending);
    if (code != KALYUBOS_DONE)
        put_code(code);
    else
        put("%x %s %llx %llx", (unsigned)pending.interrupt, pending.starved ? "yes" : "no", (unsigned long long)pending.frame,
            (unsigned long long)pending.tags);
    return ANSWERED;
}

static enum made see_operation(struct words *words)
{
    static const char *const kinds[] = { "IN", "OUT", "FLUSH", "ZEROES" };
    static struct kalyubos_run runs[KALYUBOS_RUNS];
    struct kalyubos_operation operation;
    uint8_t slot = next_slot(words), window = next_device(words), tag = (uint8_t)next_number(words, UINT8_MAX);
    uint32_t code = kalyubos_operation(&board, slot, window, tag, &operation, runs, KALYUBOS_RUNS);
    if (code != KALYUBOS_DONE) {
        put_code(code);
        return ANSWERED;
    }
    put("%s %llx %llx", kinds[operation.kind], (unsigned long long)operation.start, (unsigned long long)operation.len);
    for (size_t i = 0; i < operation.runs; i++)
        put(" %llx+%llx", (unsigned long long)runs[i].at, (unsigned long long)runs[i].len);
    put("%s", operation.stable ? " stable" : "");
    return ANSWERED;
}

/* --- what a host does */

static enum made go_on(struct words *words)
{
    struct kalyubos_pending pending;
    put_code(kalyubos_go_on(&board, next_slot(words), &pending));
    return ANSWERED;
}

/* Takes output into a room of dots, and shows the room's front. */
static enum made take(struct words *words)
{
    static uint8_t room[UINT16_MAX];
    uint8_t slot = next_slot(words);
    size_t len = (size_t)next_number(words, sizeof room), taken = 0;
    memset(room, '.', sizeof room);
    uint32_t code = kalyubos_take_output(&board, slot, room, len, &taken);
    if (code != KALYUBOS_DONE) {
        put_code(code);
        return ANSWERED;
    }
    put("%zx ", taken);
    put_bytes(room, len < SHOWN ? len : SHOWN);
    return ANSWERED;
}

static enum made take_sent(struct words *words)
{
    uint8_t slot = next_slot(words);
    put_sent(slot, next_device(words), true);
    return ANSWERED;
}

/* Puts bytes into a slot's memory where it is lent. */
static enum made lend(struct words *words)
{
    static uint8_t bytes[MOST_BYTES];
    uint8_t slot = next_slot(words), *lent;
    uint64_t address = next_number(words, UINT64_MAX);
    size_t room, len = next_bytes(words, bytes);
    if (kalyubos_memory(&board, slot, address, &lent, &room) != KALYUBOS_DONE || room < len)
        return NO_CONDITIONS;
    memcpy(lent, bytes, len);
    put_code(KALYUBOS_DONE);
    return ANSWERED;
}

/* Writes a slot's snapshot into a room of so many bytes: how many it has. */
static enum made save_into(struct words *words)
{
    static uint8_t bytes[MOST_BYTES];
    uint8_t slot = next_slot(words);
    size_t len = (size_t)next_number(words, sizeof bytes), written = 0;
    uint32_t code = kalyubos_save(&board, slot, bytes, len, &written);
    if (code == KALYUBOS_DONE)
        put("%zx", written);
    else
        put_code(code);
    return ANSWERED;
}

/* A slot's snapshot, which has as many bytes as is told before. */
static enum made save(struct words *words)
{
    static uint8_t bytes[MOST_BYTES];
    uint8_t slot = next_slot(words);
    size_t len = 0, written = 0;
    uint32_t code = kalyubos_saved_len(&board, slot, &len);
    if (code == KALYUBOS_DONE && len <= sizeof bytes)
        code = kalyubos_save(&board, slot, bytes, len, &written);
    if (code == KALYUBOS_DONE)
        put_bytes(bytes, written);
    else
        put_code(code);
    return ANSWERED;
}

/* A driver that accepts VERSION_1 alone makes a queue ready (3.1.1, 4.2.3.2). */
static enum made bring_up(struct words *words)
{
    uint8_t slot = next_slot(words), window = next_window(words);
    uint32_t queue = (uint32_t)next_number(words, UINT32_MAX), size = (uint32_t)next_number(words, UINT32_MAX);
    const struct { uint16_t offset; uint32_t value; } writes[] = {
        { 0x070, 0x1 }, { 0x070, 0x3 }, { 0x024, 1 }, { 0x020, 1 }, { 0x070, 0xb }, { 0x030, queue }, { 0x038, size },
        { 0x080, 0x80001000 }, { 0x090, 0x80002000 }, { 0x0a0, 0x80003000 }, { 0x044, 1 }, { 0x070, 0xf },
    };
    struct kalyubos_pending pending;
    uint32_t code = KALYUBOS_DONE;
    for (size_t i = 0; code == KALYUBOS_DONE && i < sizeof writes / sizeof *writes; i++)
        code = kalyubos_write(&board, slot, window, writes[i].offset, 4, writes[i].value, &pending);
    put_code(code);
    return ANSWERED;
}

enum made make_call(const char *line)
{
    static const struct { const char *name; enum made (*call)(struct words *); } calls[] = {
        { "image", begin }, { "guests", ask }, { "gets", ask_device }, { "budget", limit }, { "session", make_board },
        { "sessions", make_boards }, { "end", end }, { "requests", count_requests }, { "used", count_used }, { "see", see },
        { "waits", see_device }, { "asked", see_operation }, { "go_on", go_on }, { "take", take }, { "drop_sent", take_sent },
        { "lend", lend }, { "save", save }, { "save_into", save_into }, { "up", bring_up },
    };
    struct words words = { line, false };
    struct word name = next_word(&words);
    for (size_t i = 0; i < sizeof calls / sizeof *calls; i++) {
        if (!is_word(name, calls[i].name))
            continue;
        enum made made = calls[i].call(&words);
        return words.is_wrong || (made == ANSWERED && words.left) ? NO_CALL : made;
    }
    return make_event(line);
}
