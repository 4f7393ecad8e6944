#include <stdbool.h>
#include <string.h>

#include "sessions.h"
#include "shut_heap.h"

enum { ROOM = 1 << 20, ONE_IN = 16, FRAMES = 1 << 16 };
static uint8_t saved[ROOM], again[ROOM];
static size_t saved_len;

/* The host's dice, which aren't the guest's: alone it is never saved, and its own must fall alike. */
static uint64_t thrown(uint64_t below)
{
    static uint64_t state = 0x9e3779b97f4a7c15;
    state ^= state << 13;
    state ^= state >> 7;
    state ^= state << 17;
    return (state >> 11) % below;
}

static void save(const struct seat *seat, uint8_t *into, size_t *len)
{
    size_t told = 0;
    need(kalyubos_saved_len(seat->board, seat->slot, &told) == KALYUBOS_DONE, "saved_len", seat->slot);
    need(kalyubos_save(seat->board, seat->slot, into, ROOM, len) == KALYUBOS_DONE, "save", seat->slot);
    need(*len == told, "a snapshot of another length", *len);
}

static void words_of(const struct seat *seat, uint8_t words[2])
{
    need(kalyubos_interrupts(seat->board, seat->slot, &words[0], &words[1]) == KALYUBOS_DONE, "interrupts", seat->slot);
}

/* A write of a slot in which nothing is paused or in flight, and which serves nothing. */
static void write_register(const struct seat *seat, uint8_t window, uint16_t offset, uint32_t value)
{
    struct kalyubos_pending pending;
    need(kalyubos_write(seat->board, seat->slot, window, offset, 4, value, &pending) == KALYUBOS_DONE, "a write", seat->slot);
}

static void is_of_a_kind(uint32_t answer)
{
    need(answer == KALYUBOS_DONE || answer == KALYUBOS_BAD_WINDOW, "a call of a further device", answer);
}

/* Resets the windows of its further devices too, and leaves random bytes, frames and a link of its own there: each call is taken by the
 * devices of its kind, and by no other. Some of what waits for the host is taken. */
static void use_devices_as_a_stranger(const struct seat *seat)
{
    static uint8_t bytes[FRAMES];
    for (size_t i = 0; i < seat->guest->devices_len; i++) {
        uint8_t window = (uint8_t)(KALYUBOS_DEVICE + i);
        size_t len;
        bool taken;
        write_register(seat, window, 0x70, 0);
        is_of_a_kind(kalyubos_supply(seat->board, seat->slot, window, bytes, thrown(64), &len));
        for (uint64_t left = thrown(3); left != 0; left--) {
            is_of_a_kind(kalyubos_receive(seat->board, seat->slot, window, bytes, 1 + thrown(64), &taken));
            is_of_a_kind(kalyubos_take_frame(seat->board, seat->slot, window, bytes, sizeof bytes, &len));
        }
        is_of_a_kind(kalyubos_set_link(seat->board, seat->slot, window, thrown(2) != 0));
    }
}

/* Resets both windows, and leaves registers, queues, a size, a hold and typed bytes of its own there. It notifies nothing. */
static void use_as_a_stranger(const struct seat *seat)
{
    static const uint16_t offsets[] = { 0x14, 0x24, 0x20, 0x30, 0x38, 0x44, 0x64, 0x70, 0x80, 0x84, 0x90, 0x94, 0xa0, 0xa4 };
    struct kalyubos_pending pending;
    uint8_t typed[64];
    size_t took;
    for (uint8_t window = KALYUBOS_BLOCK; window <= KALYUBOS_CONSOLE; window++) {
        write_register(seat, window, 0x70, 0);
        for (uint64_t left = thrown(12); left != 0; left--) {
            uint16_t offset = offsets[thrown(sizeof offsets / sizeof *offsets)];
            write_register(seat, window, offset, (uint32_t)thrown(16));
        }
        write_register(seat, window, 0x70, 0); /* no queue is live when bytes are typed */
    }
    memset(typed, 's', sizeof typed);
    need(kalyubos_input(seat->board, seat->slot, typed, thrown(sizeof typed), &took, &pending) == KALYUBOS_DONE, "an input", seat->slot);
    kalyubos_resize(seat->board, seat->slot, (uint16_t)thrown(300), (uint16_t)thrown(300), &pending);
    uint32_t answer = (thrown(2) ? kalyubos_hold : kalyubos_release)(seat->board, seat->slot, KALYUBOS_BLOCK, &pending);
    need(answer == KALYUBOS_IDLE || (answer == KALYUBOS_DONE && seat->disk != NULL), "a hold or a release", answer);
    use_devices_as_a_stranger(seat);
}

void check_no_save(struct seat *seat)
{
    size_t len;
    struct kalyubos_pending pending;
    need(kalyubos_saved_len(seat->board, seat->slot, &len) == KALYUBOS_BUSY, "saved_len isn't busy", seat->slot);
    need(kalyubos_save(seat->board, seat->slot, again, ROOM, &len) == KALYUBOS_BUSY, "a save isn't busy", seat->slot);
    need(kalyubos_restore(seat->board, seat->slot, saved, saved_len, &pending) == KALYUBOS_BUSY, "a restore isn't busy",
         seat->slot);
}

void save_by_chance(struct seat *seat)
{
    uint8_t before[2], behind[2];
    struct kalyubos_pending pending;
    size_t again_len;
    if (thrown(ONE_IN) != 0)
        return;
    if (seat->disk != NULL && seat->disk->begun != 0) {
        check_no_save(seat);
        return;
    }
    words_of(seat, before);
    save(seat, saved, &saved_len);
    use_as_a_stranger(seat);
    need(kalyubos_restore(seat->board, seat->slot, saved, saved_len, &pending) == KALYUBOS_DONE, "restore", seat->slot);
    words_of(seat, behind);
    need(memcmp(before, behind, sizeof before) == 0, "other interrupts behind a restore", seat->slot);
    need(pending.block == before[0] && pending.console == before[1], "a restore tells something else", seat->slot);
    save(seat, again, &again_len);
    need(again_len == saved_len && memcmp(again, saved, saved_len) == 0, "another snapshot", seat->slot);
    seat->counts.saves++;
}
