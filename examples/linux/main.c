/*
 * linux-machine --kernel FILE --tree FILE [OPTION].. GUEST..: a guest for each word, which is the file of its disk,
 * "noise", or saved:FILE, a guest that --save saved and that goes on. All share one board: one image of their disks,
 * and one cache. They run in turns until each is off.
 *
 *   --to FOLDER       where each guest's console, disk and report go, as guest-0.console
 *   --script TEXT     lines to type, one at each prompt
 *   --show GUEST      shows one guest's console; --quiet shows none
 *   --interactive     gives a person the console of guest 0, with the terminal's size
 *   --cache SECTORS   how many the board keeps
 *   --outlet BYTES    how many a console may put out before they are taken
 *   --chains COUNT    serves so many chains a call at most; then a service pauses until the guest's next turn. 0 is no
 *                     limit, as where it isn't said
 *   --bytes COUNT     begins no chain in a call after so many bytes: 65536 where it isn't said; 0 is no limit
 *   --late            takes them only where there is no room for more, and while the guest waits
 *   --large           gives each guest 1 GiB in two regions, which the tree has to tell
 *   --devices         gives each guest an entropy device and a network card, which the tree has to tell; the cards hang on a
 *                     switch. What the one was supplied with and the other was handed goes to guest-0.random and guest-0.frames
 *   --frames FILE     hands guest 0's card the frames of such a file, each after as many instructions as then, in place of those
 *                     of the switch
 *   --disks FOLDER    gives each guest two further disks beside these devices, which the tree has to tell, and serves them from
 *                     files in place: of a guest whose disk's name ends with 0 FOLDER/fixed-0, which it can't write, and
 *                     FOLDER/data-0; of noise fixed-noise and data-noise. By threads with `--hosted threads`, else by io_uring,
 *                     and with the depth and the latency below
 *   --spare           has these two over spare sectors of the image, behind the guest's own disk, the read-only one first; the
 *                     files have the bytes that they begin with
 *   --copies          copies each guest's memory into the board and back round each call
 *   --without FEATURE a feature that no driver is shown, as RING_PACKED
 *   --cycles COUNT    leaves a guest that isn't off by then
 *   --record FILE     writes what the guests did as a trace, and the answers to FILE.records
 *   --keep GUEST      writes that guest's disk back to its file at the end
 *   --save FILE       saves guest 0, its disk among it, to FILE, a file or a pipe, and leaves it then
 *   --save-at COUNT   once it has run so many cycles, and nothing of it is paused or under way
 *   --image FILE      serves all disks of the image in place from FILE, where they stand one after the other; of their own
 *                     files only the names and the lengths count
 *   --hosted WAY      serves each disk from its guest's file in place, by a board whose disks are the host's: WAY is `ring`,
 *                     by io_uring where that is to be had, or `threads`
 *   --depth COUNT     has up to so many operations of such a disk in flight, 1 where it isn't said, and 64 at most
 *   --latency COUNT   such an operation is done after so many of its guest's instructions, 10000 where it isn't said, so that
 *                     runs stay the same; beside others after up to 16 times as many, by chance. A guest whose file takes
 *                     longer waits for it. `real`: it is done when its file is
 *   --seed NUMBER     of that chance, and so of the order in which operations are completed
 *
 * What a guest's drivers do wrong is told in guest-0.mistakes, and at the end on the screen.
 */
#include <poll.h>
#include <stdlib.h>
#include <string.h>
#include <sys/ioctl.h>
#include <termios.h>
#include <unistd.h>

#include "board.h"
#include "disk.h"
#include "files.h"
#include "machine.h"
#include "noise.h"
#include "report.h"
#include "saved.h"
#include "switch.h"
#include "words.h"

enum { GUESTS = 16, PATH = 4096, SECTOR = 512, TURN = 1000000, STEP = 100, ACTS = 5000, NOISE_SECTORS = 64 };

struct guest {
    bool is_noise;
    bool left; /* it was saved, and goes on elsewhere */
    struct saved *saved;
    uint64_t sectors;
    struct machine machine;
    struct noise noise;
};

static struct words words;
static struct guest guests[GUESTS];

/* ---- the guests */

static enum terminal_screen screen_of(int guest)
{
    if (words.interactive)
        return guest == 0 ? TERMINAL_BYTES : TERMINAL_HIDDEN;
    if (words.quiet || (words.shown >= 0 && words.shown != guest))
        return TERMINAL_HIDDEN;
    return TERMINAL_LINES;
}

/* The size of the person's terminal, or else one that isn't the board's first. */
static struct winsize size_of_terminal(void)
{
    struct winsize size;
    if (!words.interactive || ioctl(0, TIOCGWINSZ, &size) != 0)
        size = (struct winsize){ .ws_col = 100, .ws_row = 30 };
    return size;
}

static unsigned windows(void)
{
    return words.disks != NULL ? BOARD_WINDOWS : words.devices ? BOARD_DEVICES : KALYUBOS_DEVICE;
}

/* The address of a guest's card: by the last character of its disk's name, as its program has it; of noise by its slot. */
static void set_address(size_t guest, uint8_t address[BOARD_ADDRESS])
{
    const char *name = words.guests[guest];
    bool is_noise = guests[guest].is_noise;
    uint8_t last = is_noise ? (uint8_t)guest : (uint8_t)name[strlen(name) - 1];
    memcpy(address, (uint8_t[BOARD_ADDRESS]){ 2, 0, 0, 0, is_noise, last }, BOARD_ADDRESS);
}

/* The host's part of a guest's further devices; its random bytes are of a seed of the guest's own. */
static struct devices devices_of(size_t guest)
{
    uint8_t address[BOARD_ADDRESS];
    set_address(guest, address);
    struct devices devices = { .seed = (uint64_t)address[BOARD_ADDRESS - 1] << 32 };
    switch_plug(guest, address);
    if (!guests[guest].is_noise) {
        devices.random = create_file(words.to, guest, "random");
        devices.handed = create_file(words.to, guest, "frames");
    }
    if (guest == 0 && words.frames != NULL)
        devices.frames = open_file(words.frames, "rb");
    return devices;
}

static void power_on(size_t index, struct machine_file kernel, struct machine_file tree)
{
    struct machine *machine = &guests[index].machine;
    struct winsize size = size_of_terminal();
    machine->late = words.late;
    machine->hidden = words.hidden;
    machine->latency = words.latency;
    machine->chance = words.seed;
    machine->early = create_file(words.to, index, "early");
    machine->mistakes = create_file(words.to, index, "mistakes");
    machine->terminal.number = index;
    machine->terminal.cols = size.ws_col;
    machine->terminal.rows = size.ws_row;
    machine->terminal.screen = screen_of(index);
    machine->terminal.log = create_file(words.to, index, "console");
    machine->terminal.script = words.script;
    machine_open(machine, index, windows());
    if (words.devices)
        machine->devices = devices_of(index);
    board_watch(index, machine->mistakes);
    if (guests[index].saved != NULL)
        saved_resume(guests[index].saved, machine);
    else
        machine_start(machine, kernel, tree);
}

/* The disk of noise is zeros; where the host serves it, they are a file in the folder. */
static struct machine_file disk_of_noise(size_t guest)
{
    static char paths[GUESTS][PATH];
    uint8_t *zeros = calloc(NOISE_SECTORS, SECTOR);
    if (zeros == NULL)
        fail("the disk of noise");
    snprintf(paths[guest], PATH, "%s/guest-%zu.noise", words.to, guest);
    if (words.hosted) {
        replace_file(paths[guest], zeros, NOISE_SECTORS * SECTOR);
        words.guests[guest] = paths[guest];
    }
    return (struct machine_file){ zeros, NOISE_SECTORS * SECTOR };
}

/* The disk of a guest that was saved; where the host serves it, its file gets the bytes that it had then. */
static struct machine_file disk_of_saved(size_t guest, const char *path)
{
    struct saved *saved = saved_read(path);
    guests[guest].saved = saved;
    struct machine_file disk = saved_disk(saved);
    words.guests[guest] = saved_disk_name(saved);
    if (words.hosted)
        replace_file(words.guests[guest], disk.bytes, disk.len);
    return disk;
}

static struct machine_file disk_of(size_t guest)
{
    const char *word = words.guests[guest], *saved = saved_file(word);
    guests[guest].is_noise = strcmp(word, "noise") == 0;
    if (guests[guest].is_noise)
        return disk_of_noise(guest);
    return saved != NULL ? disk_of_saved(guest, saved) : read_file(word);
}

/* Puts a disk's bytes behind an image's, and lets go of them. */
static uint8_t *append(uint8_t *image, size_t *len, struct machine_file disk)
{
    image = realloc(image, *len + disk.len);
    if (image == NULL)
        fail("the image");
    memcpy(image + *len, disk.bytes, disk.len);
    free((void *)disk.bytes);
    *len += disk.len;
    return image;
}

/* The disks' bytes, one disk after the other, and how many they are. */
static uint8_t *image_of_guests(size_t *len)
{
    uint8_t *image = NULL, address[BOARD_ADDRESS];
    *len = 0;
    for (size_t i = 0; i < words.count; i++) {
        struct machine_file own = disk_of(i);
        guests[i].sectors = own.len / SECTOR;
        image = append(image, len, own);
        set_address(i, address);
        for (uint8_t disk = BOARD_FIXED; words.spare && disk < BOARD_DISKS; disk++)
            image = append(image, len, read_file(board_file(words.disks, address, disk)));
    }
    return image;
}

static void start_noise(size_t guest)
{
    noise_open(&guests[guest].noise, guest, windows());
    if (words.devices)
        guests[guest].noise.devices = devices_of(guest);
}

static void open_guests(void)
{
    static uint64_t sectors[GUESTS]; /* the board keeps both */
    static uint8_t addresses[GUESTS][BOARD_ADDRESS];
    size_t len;
    uint8_t *image = image_of_guests(&len);
    const uint8_t *served = words.image != NULL ? disk_open(words.image, len) : image;
    struct machine_file kernel = read_file(words.kernel), tree = read_file(words.tree);
    for (size_t i = 0; i < words.count; i++) {
        sectors[i] = guests[i].sectors;
        set_address(i, addresses[i]);
    }
    board_open(&(struct board_settings){ words.count, sectors, words.guests, served, words.cache, words.outlet,
                                         words.chains, words.bytes, words.record, words.copies, words.hosted,
                                         words.threads, words.large, words.depth,
                                         words.devices ? (const uint8_t (*)[BOARD_ADDRESS])addresses : NULL, words.disks,
                                         words.spare });
    free(image);
    for (size_t i = 0; i < words.count; i++)
        if (guests[i].is_noise)
            start_noise(i);
        else
            power_on(i, kernel, tree);
    free((void *)kernel.bytes);
    free((void *)tree.bytes);
}

/* ---- turns */

static bool is_on(const struct guest *guest)
{
    return !guest->is_noise && !guest->left && !guest->machine.off && guest->machine.cpu.cycles < words.cycles;
}

static bool is_saved_here(const struct guest *guest)
{
    return words.save != NULL && guest == &guests[0] && guest->machine.cpu.cycles >= words.save_at;
}

/* How far a guest runs in its turn: guest 0 no further than to where it is saved, and then by steps until it can be. */
static uint64_t cycles_of_turn(const struct guest *guest)
{
    uint64_t cycles = guest->machine.cpu.cycles;
    if (is_saved_here(guest))
        return STEP;
    bool comes_near = words.save != NULL && guest == &guests[0] && words.save_at - cycles < TURN;
    return comes_near ? words.save_at - cycles : TURN;
}

/*
 * A guest whose service is paused waits for it: nothing else is done for it in this turn but a piece of the service. Behind it the
 * guest goes on with the turn that the pause cut short: so a wait for a file moves none of the moments at which it is handed frames.
 */
static void take_turn(struct guest *guest)
{
    struct machine *machine = &guest->machine;
    machine_go_on(machine);
    if (machine->rest == 0)
        machine_serve(machine);
    if (machine_stands(machine))
        return;
    machine_run(machine, machine->rest != 0 ? machine->rest : cycles_of_turn(guest));
    if (machine->cpu.waits || machine->off)
        machine_talk(machine);
    if (machine->cpu.waits)
        machine_pass(machine);
}

/* Saves a guest once its moment has come, and leaves it. */
static void save(struct guest *guest)
{
    if (!is_saved_here(guest) || !machine_stop(&guest->machine))
        return;
    saved_write(words.save, &guest->machine, words.guests[0], guest->sectors * SECTOR);
    guest->left = true;
}

/* Gives each guest that is on a turn; waits where all wait for their disks. */
static void turn(void)
{
    bool stand = true;
    for (size_t i = 0; i < words.count; i++)
        if (guests[i].is_noise)
            noise_run(&guests[i].noise, ACTS);
        else if (is_on(&guests[i]))
            take_turn(&guests[i]);
    if (is_on(&guests[0]))
        save(&guests[0]);
    for (size_t i = 0; i < words.count; i++)
        stand = stand && (!is_on(&guests[i]) || machine_stands(&guests[i].machine));
    if (stand && (words.hosted || (words.disks != NULL && !words.spare)))
        board_wait();
}

/* Whether a guest is on that is waited for: with a person, guest 0. */
static bool goes_on(void)
{
    for (size_t i = 0; i < (words.interactive ? 1 : words.count); i++)
        if (is_on(&guests[i]))
            return true;
    return false;
}

/* ---- a person at guest 0 */

static struct termios before;

static void leave_terminal(void)
{
    tcsetattr(0, TCSANOW, &before);
}

static void enter_terminal(void)
{
    struct termios raw;
    if (!words.interactive || tcgetattr(0, &before) != 0)
        return;
    raw = before;
    cfmakeraw(&raw);
    tcsetattr(0, TCSANOW, &raw);
    atexit(leave_terminal);
}

/* Types what the person typed; a machine that waits lets a hundredth of a second pass. */
static void listen(struct machine *machine)
{
    uint8_t bytes[256];
    struct pollfd input = { 0, POLLIN, 0 };
    fflush(stdout);
    if (poll(&input, 1, machine->cpu.waits ? 10 : 0) <= 0)
        return;
    ssize_t len = read(0, bytes, sizeof bytes);
    if (len > 0)
        terminal_type(&machine->terminal, bytes, len);
    machine_talk(machine);
}

/* ---- the end */

/* Says what became of the frames that a guest's card sent. */
static void report_card(size_t guest)
{
    struct switch_counts counts = switch_counts(guest);
    if (words.devices)
        printf("guest %zu: its card sent %llu frames, of which %llu came to another and %llu were lost before it\n", guest,
               (unsigned long long)counts.sent, (unsigned long long)counts.passed, (unsigned long long)counts.lost);
}

/* Whether all went off, or on elsewhere. */
static bool report_guests(void)
{
    bool good = words.save == NULL || guests[0].left;
    if (!good)
        printf("guest 0: it was off before it was to be saved\n");
    for (size_t i = 0; i < words.count; i++) {
        const char *kept = words.kept == (int)i && !guests[i].is_noise ? words.guests[i] : NULL;
        report_disk(i, guests[i].sectors * SECTOR, words.to, kept);
        report_card(i);
        report_further(i);
        if (guests[i].is_noise)
            printf("guest %zu: noise, %llu writes\n", i, (unsigned long long)guests[i].noise.writes);
        else
            good = (report_machine(&guests[i].machine, words.to) || guests[i].left) && good;
    }
    return good;
}

int main(int argc, char **argv)
{
    words = words_of(argc, argv);
    open_guests();
    enter_terminal();
    while (goes_on()) {
        turn();
        if (words.interactive)
            listen(&guests[0].machine);
    }
    bool good = report_guests();
    board_close();
    return good || words.interactive ? 0 : 1;
}
