/*
 * One thread that serves two guests that run on, in turns. Guest 0 fills its console's ring again as soon as chains of it are used,
 * so its queue is always due; guest 1 reads sectors, one after the other. In a turn each guest has at most one part of what is
 * due, one exit and one operation, so guest 0 keeps nobody waiting.
 *
 * The guests are C as well, and their CPUs run between the host's turns, so that each run prints the same.
 */
#include <inttypes.h>
#include <stdio.h>
#include <stdlib.h>
#include <string.h>

#include "kalyubos.h"
#include "racing_guest.h"

enum { GUESTS = 2, CHAINS = 2, LINE_LEN = 16, OUTLET = CHAINS * LINE_LEN, READS = 100, NOTIFY = 0x50 };
enum { LINES = LOW + 0x8000, SECTOR_AT = LOW + 0x9000 };

struct running {
    struct kalyubos_guest guest;
    struct kalyubos_pending lines; /* as its last call left them */
    bool is_due;                   /* a queue of it is due: kalyubos_guest_go_on serves it */
    bool has_exit;                 /* a CPU waits for its store to QueueNotify */
    uint64_t begun, output;        /* operations that aren't completed yet, and bytes that the console put out */
    _Alignas(8) uint8_t memory[REGION_LEN];
    struct machine machine;
    struct control control;
    struct queue queue;
};

static struct running guests[GUESTS];
static uint64_t turns;

static void need(bool holds, const char *what)
{
    if (!holds) {
        fprintf(stderr, "turns: %s\n", what);
        exit(1);
    }
}

/* ---- the host */

/* What is in flight and wasn't begun. This disk's reads are done at once, and told in the guest's turn. */
static void begin_operations(struct running *guest)
{
    struct kalyubos_operation it;
    struct kalyubos_run run;
    uint64_t tags = 0;
    need(kalyubos_guest_in_flight(&guest->guest, &tags) == KALYUBOS_DONE, "in_flight");
    for (uint8_t tag = 0; tag < KALYUBOS_TAGS; tag++)
        if ((tags & ~guest->begun) >> tag & 1) {
            guest->begun |= (uint64_t)1 << tag;
            need(kalyubos_guest_operation(&guest->guest, tag, &it, &run, 1) == KALYUBOS_DONE && it.runs == 1, "operation");
            for (uint64_t i = 0; i < run.len; i++)
                store_8(guest->machine.memory, run.at + i, (uint8_t)(it.start / SECTOR));
        }
}

/* What follows each call: whether there was output to take. */
static bool settle(struct running *guest, uint32_t answer)
{
    uint8_t out[OUTLET];
    size_t taken;
    need(answer == KALYUBOS_DONE || answer == KALYUBOS_IO || answer == KALYUBOS_MORE || answer == KALYUBOS_NO_ROOM, kalyubos_answer(answer));
    need(kalyubos_guest_take_output(&guest->guest, out, sizeof out, &taken) == KALYUBOS_DONE, "take_output");
    guest->output += taken;
    begin_operations(guest);
    guest->is_due = answer == KALYUBOS_MORE || (answer == KALYUBOS_NO_ROOM && taken > 0);
    return taken > 0;
}

static uint32_t notify(struct running *guest)
{
    uint8_t window = guest == guests ? KALYUBOS_CONSOLE : KALYUBOS_BLOCK;
    return kalyubos_guest_write(&guest->guest, window, NOTIFY, 4, window == KALYUBOS_CONSOLE, &guest->lines);
}

/* A store that finds no room is made again in the next turn. */
static void take_exit(struct running *guest)
{
    uint32_t answer = notify(guest);
    guest->has_exit = settle(guest, answer) && answer == KALYUBOS_NO_ROOM;
}

static void end_operation(struct running *guest)
{
    uint8_t tag = (uint8_t)__builtin_ctzll(guest->begun);
    uint32_t answer = kalyubos_guest_completed(&guest->guest, tag, false, &guest->lines);
    guest->begun &= guest->begun - 1;
    settle(guest, answer);
}

static void turn(void)
{
    for (struct running *guest = guests; guest < guests + GUESTS; guest++) {
        if (guest->is_due)
            settle(guest, kalyubos_guest_go_on(&guest->guest, &guest->lines));
        if (guest->has_exit)
            take_exit(guest);
        if (guest->begun != 0)
            end_operation(guest);
    }
}

/* ---- the guests */

static void store(struct machine *machine, uint32_t window, uint32_t offset, uint32_t value)
{
    struct running *guest = &guests[machine->control->seed];
    uint32_t answer = kalyubos_guest_write(&guest->guest, (uint8_t)window, (uint16_t)offset, 4, value, &guest->lines);
    need(answer == KALYUBOS_DONE, "a driver's step");
}

static void power_on(struct running *guest, uint32_t number)
{
    struct kalyubos_slot slot = {
        .size = sizeof slot, .regions = { { LOW, REGION_LEN } }, .count = SECTORS, .cols = 80, .rows = 25, .outlet = OUTLET,
        .hosted = true, .depth = 1, .runs = true,
    };
    struct kalyubos_words words = { (uint64_t *)guest->memory, REGION_LEN / 8 };
    struct kalyubos_guest_config config = kalyubos_guest_config_of(&slot, &words, 1);
    config.chains = CHAINS;
    need(kalyubos_guest_create(&guest->guest, &config) == KALYUBOS_DONE, "create");
    guest->control.seed = number;
    guest->machine = (struct machine){ .control = &guest->control, .memory = (uintptr_t)guest->memory - LOW, .store = store };
    bring_up(&guest->machine, number == 0 ? CONSOLE : BLOCK, false, false, false);
    guest->queue = queue_of(&guest->machine, number == 0 ? TRANSMIT : DISK_QUEUE);
}

/* Puts each line on offer again that is used: how many. Its driver notifies once. */
static unsigned refill(struct running *guest)
{
    unsigned count = 0;
    uint16_t id = 0;
    uint32_t len;
    bool is_first = turns == 0;
    for (; is_first ? count < IDS : has_used(&guest->queue); count++) {
        if (is_first)
            id = (uint16_t)count;
        else
            need(take(&guest->queue, &id, &len) && len == 0, "a used line");
        const struct part line = { LINES + LINE_LEN * (uint64_t)id, LINE_LEN, false };
        offer(&guest->queue, id, &line, 1, 0);
    }
    guest->has_exit = is_first;
    return count;
}

/* Asks for a sector. */
static void ask_for(struct running *guest, uint64_t sector)
{
    const struct part parts[] = { { HEADERS, 16, false }, { SECTOR_AT, SECTOR, true }, { HEADERS + 16, 1, true } };
    store_64(guest->machine.memory, HEADERS, IN);
    store_64(guest->machine.memory, HEADERS + 8, sector);
    store_8(guest->machine.memory, HEADERS + 16, 0xff);
    offer(&guest->queue, 0, parts, 3, 0);
    guest->has_exit = true;
}

/* Whether the sector that was asked for came. */
static bool has_read(struct running *guest, uint64_t sector)
{
    uint16_t id;
    uint32_t len;
    if (!has_used(&guest->queue))
        return false;
    need(take(&guest->queue, &id, &len) && len == SECTOR + 1 && load_8(guest->machine.memory, HEADERS + 16) == 0, "a read");
    need(load_8(guest->machine.memory, SECTOR_AT) == (uint8_t)sector, "a sector's bytes");
    return true;
}

int main(void)
{
    uint64_t reads = 0, dues = 0, refills = 0;
    for (uint32_t i = 0; i < GUESTS; i++)
        power_on(&guests[i], i);
    for (ask_for(&guests[1], 0); reads < READS; turns++) {
        refills += refill(&guests[0]);
        turn();
        dues += guests[0].is_due;
        if (!has_read(&guests[1], reads))
            continue;
        reads++;
        ask_for(&guests[1], reads);
    }
    printf("guest 0: due behind %" PRIu64 " turns, %" PRIu64 " lines on offer, %" PRIu64 " bytes put out\n", dues, refills,
           guests[0].output);
    printf("guest 1: %" PRIu64 " reads in %" PRIu64 " turns\n", reads, turns);
    for (uint32_t i = 0; i < GUESTS; i++)
        need(kalyubos_guest_destroy(&guests[i].guest) == KALYUBOS_DONE, "destroy");
    return 0;
}
