/*
 * A host over KVM: two guests run the program of kvm-guest.S, each on a virtual CPU and a thread of its own. KVM maps
 * the board's memory of a guest, so its loads and stores need no call; its windows are nobody's memory, so a load or
 * store there is an exit, which becomes one call; and its devices' lines are interrupts of the virtual CPU.
 *
 * `kvm flood` gives guest 0 the program of kvm-flood.S, which puts out more than its outlet keeps; guest 1 ends as before.
 * `kvm pair` gives guest 0 a second CPU, with the program of kvm-second.S, which counts in memory: during a store to a window
 * both CPUs stand, by cpus.c, so the count stays. A load touches no memory of the guest, and stops none.
 * `kvm hosted` has no image: each disk is a file of its own, which file_disk.c reads while the guest runs on.
 * `kvm lent` has the guests' memory in a file of memory, which it maps and lends to the board.
 * `kvm cards` gives each guest a network card and the program of kvm-card.S, and they send one another frames over a switch.
 * Their windows and vectors lie apart. Each finds its own in a device tree, which device_tree.c writes into its memory.
 * Two words behind it say what the guests' queues are: `split`, `split-event`, `packed` or `packed-event`.
 * Where /dev/kvm can't be opened the host says so, with status 77.
 */
#define _GNU_SOURCE
#include <errno.h>
#include <fcntl.h>
#include <linux/kvm.h>
#include <poll.h>
#include <pthread.h>
#include <sched.h>
#include <signal.h>
#include <stdio.h>
#include <stdlib.h>
#include <string.h>
#include <sys/eventfd.h>
#include <sys/ioctl.h>
#include <sys/mman.h>
#include <unistd.h>

#include "cpus.h"
#include "device_tree.h"
#include "file_disk.h"
#include "kvm-card.h"
#include "kvm-flood.h"
#include "kvm-guest.h"
#include "kvm-second.h"

enum { GUESTS = 2, PROGRAM = 0x1000, WINDOWS = 0xd0000, PAGE = 0x1000, OUTLET = 64, NO_KVM = 77 };
enum { CHAINS = 1 /* that a call serves */ };

/* A guest's memory: the program and its rings lie in the first region, what it reads from its disk in the second. */
enum { REGIONS = 2 };
static const struct kalyubos_region MEMORY[REGIONS] = { { 0, 0x10000 }, { 0x20000, 0x10000 } };

/* Where the second CPU's program lies, what it counts, and how many microseconds a call takes in which it mustn't. */
enum { SECOND = 0x6000, COUNT = 0x7000, CALL_TIME = 200 };

/* The vectors of a guest's lines, and how far those and the windows of the guests with cards lie apart. */
enum { BLOCK_VECTOR = 0x20, CONSOLE_VECTOR = 0x21, CARD_VECTOR = 0x22, VECTORS_APART = 0x10, WINDOWS_APART = 0x8000 };

/* Where a guest's device tree lies, and how much room there is for it. */
enum { TREE = 0xf000, TREE_ROOM = 0x1000 };

/* The window of a network card, how long a frame is, and how many frames wait at a port of the switch. */
enum { CARD = KALYUBOS_DEVICE, ADDRESS = 6, ETHERNET = 14, MTU = 1500, FRAME = MTU + ETHERNET, ANY_FRAME = 65536, PORT_ROOM = 64 };

/* How many frames a guest sends, and how many milliseconds it waits for one. */
enum { FRAMES = 256, PATIENCE = 10000 };

/* A port of the switch: the frames that came for its card, and that the card hasn't taken. The board's lock is over it. */
struct port {
    uint8_t address[ADDRESS];
    int ready; /* can be read, as poll tells, once frames came */
    size_t first, waiting, lost;
    struct frame {
        size_t len;
        uint8_t bytes[FRAME];
    } frames[PORT_ROOM];
};

struct guest {
    uint8_t slot;
    uint32_t windows, vectors; /* where its windows lie, and by how much its vectors are higher */
    int machine, cpu;
    struct kvm_run *run;
    FILE *terminal;                /* what its console put out */
    struct kalyubos_pending lines; /* as the last call of this guest left them */
    struct cpus cpus;
    struct kvm_run *second; /* of the second CPU, or null */
    uint8_t *bytes;         /* its memory's first region */
    uint32_t count;         /* what its second CPU had counted when a call began, */
    bool ran_on;            /* and whether it went on in a call */
    pthread_t thread;       /* of its first CPU */
    struct file_disk disk;  /* where the host serves it */
    struct port port;       /* of its card, where it has one */
    struct kalyubos_device_pending card; /* as it was told last */
};

static const char *const DISKS[GUESTS] = { "the first half of the image\n", "the second half\n" };
enum { DISK_LEN = 2 * 512, DEPTH = 4 };

/* What a guest runs, and what it finds in its registers. */
struct program {
    const uint8_t *bytes;
    size_t len;
    struct kvm_regs registers;
};

static struct kalyubos board;
static struct guest guests[GUESTS];
static bool hosted, lent, cards;
static pthread_mutex_t lock = PTHREAD_MUTEX_INITIALIZER;

static int must(int result, const char *what)
{
    if (result < 0) {
        perror(what);
        exit(1);
    }
    return result;
}

static void must_do(uint32_t answer, const char *what)
{
    if (answer != KALYUBOS_DONE) {
        fprintf(stderr, "%s: %s\n", what, kalyubos_answer(answer));
        exit(1);
    }
}

/* ---- the machine */

/* A region of a guest's memory lies where the board says; heap.c aligns it to pages, as KVM wants it. */
static uint8_t *map_region(const struct guest *guest, uint32_t number)
{
    uint8_t *bytes;
    size_t len;
    must_do(kalyubos_memory(&board, guest->slot, MEMORY[number].base, &bytes, &len), "memory");
    struct kvm_userspace_memory_region region = {
        .slot = number, .guest_phys_addr = MEMORY[number].base, .memory_size = len, .userspace_addr = (uintptr_t)bytes,
    };
    must(ioctl(guest->machine, KVM_SET_USER_MEMORY_REGION, &region), "KVM_SET_USER_MEMORY_REGION");
    return bytes;
}

/* The guest's memory tells where its devices are. */
static void describe(const struct guest *guest)
{
    const struct tree_device devices[] = {
        { guest->windows + KALYUBOS_BLOCK * PAGE, BLOCK_VECTOR + guest->vectors },
        { guest->windows + KALYUBOS_CONSOLE * PAGE, CONSOLE_VECTOR + guest->vectors },
        { guest->windows + CARD * PAGE, CARD_VECTOR + guest->vectors },
    };
    size_t len = device_tree(guest->bytes + TREE, TREE_ROOM, devices, cards ? 3 : 2);
    must(len > 0 ? 0 : -1, "a device tree");
}

static void map_memory(struct guest *guest, const struct program *program)
{
    guest->bytes = map_region(guest, 0);
    map_region(guest, 1);
    memcpy(guest->bytes + PROGRAM, program->bytes, program->len);
    describe(guest);
}

/* Adds a CPU to a guest, which begins with such registers at an address, and answers what it shares with KVM. */
static struct kvm_run *add_cpu(struct guest *guest, int kvm, struct kvm_regs registers, uint64_t start)
{
    struct kvm_sregs segments;
    int cpu = must(ioctl(guest->machine, KVM_CREATE_VCPU, guest->cpus.len), "KVM_CREATE_VCPU");
    size_t len = (size_t)must(ioctl(kvm, KVM_GET_VCPU_MMAP_SIZE, 0), "KVM_GET_VCPU_MMAP_SIZE");
    struct kvm_run *run = mmap(NULL, len, PROT_READ | PROT_WRITE, MAP_SHARED, cpu, 0);
    must(run == MAP_FAILED ? -1 : 0, "the CPU's exits");
    must(ioctl(cpu, KVM_GET_SREGS, &segments), "KVM_GET_SREGS");
    segments.cs.base = segments.cs.selector = 0;
    registers.rip = start;
    registers.rflags = 2;
    must(ioctl(cpu, KVM_SET_SREGS, &segments), "KVM_SET_SREGS");
    must(ioctl(cpu, KVM_SET_REGS, &registers), "KVM_SET_REGS");
    cpus_add(&guest->cpus, cpu, run);
    return run;
}

static void power_on(struct guest *guest, int kvm, const struct program *program)
{
    guest->terminal = tmpfile();
    must(guest->terminal == NULL ? -1 : 0, "a terminal");
    guest->machine = must(ioctl(kvm, KVM_CREATE_VM, 0), "KVM_CREATE_VM");
    map_memory(guest, program);
    cpus_begin(&guest->cpus);
    guest->run = add_cpu(guest, kvm, program->registers, PROGRAM);
    guest->cpu = guest->cpus.all[0].file;
}

/* A second CPU, which has begun to count when the first one begins. */
static void power_on_second(struct guest *guest, int kvm)
{
    memcpy(guest->bytes + SECOND, KVM_SECOND, sizeof KVM_SECOND);
    guest->second = add_cpu(guest, kvm, (struct kvm_regs){ 0 }, SECOND);
}

/* ---- the calls that may touch a guest's memory, in which its CPUs stand */

static uint32_t counted(const struct guest *guest)
{
    return *(const volatile uint32_t *)(guest->bytes + COUNT);
}

static void begin_calls(struct guest *guest)
{
    cpus_stop(&guest->cpus);
    pthread_mutex_lock(&lock);
    guest->count = counted(guest);
    if (guest->second != NULL)
        usleep(CALL_TIME);
}

static void end_calls(struct guest *guest)
{
    guest->ran_on |= counted(guest) != guest->count;
    pthread_mutex_unlock(&lock);
    cpus_go(&guest->cpus);
}

/* What a call is answered at the end of its service. One that pauses leaves the lock to the other guests before it goes on. */
static uint32_t ended(struct guest *guest, uint32_t answer)
{
    while (answer == KALYUBOS_MORE) {
        pthread_mutex_unlock(&lock);
        pthread_mutex_lock(&lock);
        answer = kalyubos_go_on(&board, guest->slot, &guest->lines);
    }
    return answer;
}

/* ---- a disk that the host serves */

static void open_disk(struct guest *guest)
{
    char path[] = "/tmp/kalyubos-kvm-XXXXXX";
    int file = must(mkstemp(path), "a disk");
    must(ftruncate(file, DISK_LEN), "a disk");
    must((int)write(file, DISKS[guest->slot], strlen(DISKS[guest->slot])), "a disk");
    const char *wrong = file_disk_open(&guest->disk, &board, guest->slot, KALYUBOS_BLOCK, DEPTH, path, DISK_LEN, false,
                                       &file_thread);
    if (wrong != NULL) {
        fprintf(stderr, "%s: %s\n", path, wrong);
        exit(1);
    }
    close(file);
    unlink(path);
}

static bool disk_can_go_on(const struct guest *guest, int milliseconds)
{
    struct pollfd wake = { .fd = guest->disk.ready, .events = POLLIN };
    return poll(&wake, 1, milliseconds) > 0;
}

/* What the disk came to. This may complete what the guest asked for, so it is a call for the guest. */
static void go_on_with_disk(struct guest *guest)
{
    uint8_t tag;
    bool failed;
    while (file_disk_go_on(&guest->disk, &tag, &failed)) {
        uint32_t answer = kalyubos_completed(&board, guest->slot, KALYUBOS_BLOCK, tag, failed, &guest->lines);
        if (answer == KALYUBOS_IO)
            (void)file_disk_begin(&guest->disk); /* the loop tells what the kernel doesn't take */
        else
            must_do(answer, "completed");
    }
}

/* ---- network cards, and the switch that they hang on */

static void open_port(struct guest *guest, const uint8_t address[ADDRESS])
{
    memcpy(guest->port.address, address, ADDRESS);
    guest->port.ready = must(eventfd(0, EFD_NONBLOCK | EFD_CLOEXEC), "eventfd");
}

/* A frame goes to the port of the address that it begins with. Where that has no room it is lost, as on a wire. */
static void forward(const struct guest *from, const uint8_t *bytes, size_t len)
{
    for (struct guest *to = guests; to < guests + GUESTS; to++) {
        struct port *port = &to->port;
        if (to == from || len < ETHERNET || len > FRAME || memcmp(bytes, port->address, ADDRESS) != 0)
            continue;
        if (port->waiting == PORT_ROOM) {
            port->lost++;
            continue;
        }
        struct frame *frame = &port->frames[(port->first + port->waiting++) % PORT_ROOM];
        frame->len = len;
        memcpy(frame->bytes, bytes, len);
        must(eventfd_write(port->ready, 1), "a port");
    }
}

/* Takes all frames that the guest's card has sent. A driver may send longer ones than the MTU allows. Each is passed on before a
 * service that pauses leaves the lock, and with it these bytes, to others. */
static void take_frames(struct guest *guest)
{
    static uint8_t frame[ANY_FRAME];
    size_t len = 0;
    do {
        uint32_t answer = kalyubos_take_frame(&board, guest->slot, CARD, frame, sizeof frame, &len);
        forward(guest, frame, len);
        must_do(ended(guest, answer), "take_frame");
    } while (len > 0);
}

/* Hands in the frames of the guest's port, until the card has no room: the others wait until its driver has taken some. */
static void hand_in_frames(struct guest *guest)
{
    struct port *port = &guest->port;
    eventfd_t count;
    bool taken = true;
    (void)eventfd_read(port->ready, &count); /* there may be none */
    while (port->waiting > 0 && taken) {
        const struct frame *frame = &port->frames[port->first];
        must_do(ended(guest, kalyubos_receive(&board, guest->slot, CARD, frame->bytes, frame->len, &taken)), "receive");
        port->first = (port->first + taken) % PORT_ROOM;
        port->waiting -= taken;
    }
}

/* What there is to do for a card: behind each store to its window, and where frames came. */
static void serve_card(struct guest *guest)
{
    take_frames(guest);
    hand_in_frames(guest);
    must_do(kalyubos_device_pending(&board, guest->slot, CARD, &guest->card), "device_pending");
}

/* ---- what comes from outside while a guest runs on */

/* Waits so many milliseconds, -1 without end, until the disk can go on or frames have come, and tells whether it is so. */
static bool has_news(const struct guest *guest, int milliseconds)
{
    struct pollfd wakes[] = { { .fd = guest->disk.ready, .events = POLLIN }, { .fd = guest->port.ready, .events = POLLIN } };
    int found;
    do
        found = poll(wakes, 2, milliseconds);
    while (found < 0 && errno == EINTR);
    return found > 0;
}

/* Waits so many milliseconds for news, and goes on with what there is: false where there was none. */
static bool look_around(struct guest *guest, int milliseconds)
{
    if ((guest->disk.begun == 0 && !cards) || !has_news(guest, milliseconds))
        return false;
    begin_calls(guest);
    if (hosted)
        go_on_with_disk(guest);
    if (cards)
        serve_card(guest);
    end_calls(guest);
    return true;
}

/*
 * A signal ends KVM_RUN once there is news. One that comes too early, before KVM_RUN, is lost: so it is sent again,
 * a millisecond later, until the CPU's thread has looked.
 */
static void *kick(void *user)
{
    const struct guest *guest = user;
    for (;;) {
        has_news(guest, -1);
        pthread_kill(guest->thread, SIGUSR1);
        usleep(1000);
    }
    return NULL;
}

/* ---- what a guest's exits come to */

/* The guest's terminal takes what its console put out, and tells whether there was any. */
static bool show(const struct guest *guest)
{
    uint8_t out[OUTLET];
    size_t taken;
    must_do(kalyubos_take_output(&board, guest->slot, out, sizeof out, &taken), "take_output");
    fwrite(out, 1, taken, guest->terminal);
    return taken != 0;
}

/* A store that waits for the disk, or for room in the console's output: whether it can be made again. */
static bool makes_way(struct guest *guest, uint32_t answer)
{
    if (answer != KALYUBOS_BUSY)
        return answer == KALYUBOS_NO_ROOM && show(guest);
    pthread_mutex_unlock(&lock);
    disk_can_go_on(guest, -1);
    pthread_mutex_lock(&lock);
    go_on_with_disk(guest);
    return true;
}

/*
 * A store. Where the console has no room for what comes of it, room is made, and the same store is made again. What is
 * longer than the whole outlet is never put out: no other guest sees that.
 */
static void store(struct guest *guest, uint8_t window, uint16_t offset, uint8_t width, uint32_t value)
{
    uint32_t answer;
    do {
        answer = ended(guest, kalyubos_write(&board, guest->slot, window, offset, width, value, &guest->lines));
    } while (makes_way(guest, answer));
    if (answer == KALYUBOS_IO) {
        if (!file_disk_begin(&guest->disk))
            go_on_with_disk(guest);
    } else if (answer != KALYUBOS_NO_ROOM) {
        must_do(answer, "write");
    }
}

/* A load, during which the guest's other CPUs run on. Where one of them has a service paused, it waits for the end of that. */
static uint32_t load(const struct guest *guest, uint8_t window, uint16_t offset, uint8_t width)
{
    uint32_t value, answer;
    do {
        pthread_mutex_lock(&lock);
        answer = kalyubos_read(&board, guest->slot, window, offset, width, &value);
        pthread_mutex_unlock(&lock);
    } while (answer == KALYUBOS_BUSY);
    must_do(answer, "read");
    return value;
}

/* A load or a store of a CPU at a window. In a store all CPUs of its guest stand until its service has ended. */
static void access_window(struct guest *guest, struct kvm_run *run)
{
    uint64_t place = run->mmio.phys_addr - guest->windows;
    uint8_t window = (uint8_t)(place / PAGE), *data = run->mmio.data, width = (uint8_t)run->mmio.len;
    uint32_t value = 0;
    if (place >= (cards ? 3 : 2) * PAGE) { /* nobody is there */
        memset(data, 0xff, sizeof run->mmio.data);
        return;
    }
    if (run->mmio.is_write) {
        memcpy(&value, data, width < 4 ? width : 4);
        begin_calls(guest);
        store(guest, window, place % PAGE, width, value);
        if (window == CARD)
            serve_card(guest);
        end_calls(guest);
    } else {
        value = load(guest, window, place % PAGE, width);
        memset(data, 0, sizeof run->mmio.data);
        memcpy(data, &value, sizeof value);
    }
}

/* The vector of a line that is high, or 0. */
static uint32_t vector_of(const struct guest *guest)
{
    if (guest->lines.block != 0)
        return BLOCK_VECTOR + guest->vectors;
    if (guest->lines.console != 0)
        return CONSOLE_VECTOR + guest->vectors;
    return guest->card.interrupt != 0 ? CARD_VECTOR + guest->vectors : 0;
}

/* A line that is high interrupts the CPU as soon as it can be, and until its driver has acknowledged what it tells. */
static void set_lines(const struct guest *guest)
{
    struct kvm_interrupt line = { vector_of(guest) };
    bool high = line.irq != 0;
    if (high && guest->run->ready_for_interrupt_injection)
        must(ioctl(guest->cpu, KVM_INTERRUPT, &line), "KVM_INTERRUPT");
    guest->run->request_interrupt_window = high && !guest->run->ready_for_interrupt_injection;
}

/* A CPU that has halted waits for a line: false where nothing comes that could raise one. */
static bool wait_for_line(struct guest *guest)
{
    while (vector_of(guest) == 0)
        if (!look_around(guest, cards ? PATIENCE : -1))
            return false;
    return true;
}

/* Runs a guest until it halts with nothing left that could wake it, or makes an exit that this machine has no answer to. */
static void run_cpu(struct guest *guest)
{
    for (;;) {
        look_around(guest, 0);
        set_lines(guest);
        if (cpus_run(&guest->cpus, 0) < 0) {
            must(errno == EINTR ? 0 : -1, "KVM_RUN"); /* a signal came, as from the other CPU or its disk */
            continue;
        }
        switch (guest->run->exit_reason) {
        case KVM_EXIT_MMIO:
            access_window(guest, guest->run);
            break;
        case KVM_EXIT_INTR:
        case KVM_EXIT_IRQ_WINDOW_OPEN:
            break;
        case KVM_EXIT_HLT:
            if (!guest->run->if_flag || !wait_for_line(guest))
                return;
            break;
        default:
            return;
        }
    }
}

static void *run(void *user)
{
    struct guest *guest = user;
    pthread_t kicks;
    guest->thread = pthread_self();
    if (hosted || cards)
        must(-pthread_create(&kicks, NULL, kick, guest), "a thread");
    run_cpu(guest);
    if (hosted || cards) {
        pthread_cancel(kicks);
        pthread_join(kicks, NULL);
    }
    return NULL;
}

/* Runs a guest's second CPU until its first one has ended. The devices' lines are the first one's. */
static void *run_second(void *user)
{
    struct guest *guest = user;
    for (;;) {
        if (cpus_run(&guest->cpus, 1) < 0) {
            if (errno == ECANCELED)
                return NULL;
            must(errno == EINTR ? 0 : -1, "KVM_RUN");
            continue;
        }
        if (guest->second->exit_reason != KVM_EXIT_MMIO)
            return NULL;
        access_window(guest, guest->second);
    }
}

/* Runs a guest's CPUs, the second one first: it has counted before the first one begins. */
static void *run_both(void *user)
{
    struct guest *guest = user;
    pthread_t second;
    must(-pthread_create(&second, NULL, run_second, guest), "a thread");
    while (counted(guest) == 0)
        sched_yield();
    run_cpu(guest);
    cpus_end(&guest->cpus);
    must(-pthread_join(second, NULL), "a thread's end");
    return NULL;
}

/* The frames that a guest counted in its registers; and how often it told its card of some, and was told, which varies. */
static void report_card(const struct guest *guest, const struct kvm_regs *registers)
{
    printf("frames: %llu sent, %llu got, %zu lost\n", registers->rbx % 0x10000, registers->rcx % 0x10000, guest->port.lost);
    fprintf(stderr, "guest %u: %llu notifications, %llu interrupts\n", guest->slot, registers->rdx % 0x10000,
            registers->rsi % 0x10000);
}

static void report_console(const struct guest *guest)
{
    printf("console: ");
    while (show(guest))
        continue;
    rewind(guest->terminal);
    for (int byte; (byte = getc(guest->terminal)) != EOF;)
        putchar(byte);
}

static void report(const struct guest *guest)
{
    struct kvm_regs registers;
    bool disturbed;
    must(ioctl(guest->cpu, KVM_GET_REGS, &registers), "KVM_GET_REGS");
    must_do(kalyubos_disturbed(&board, guest->slot, &disturbed), "disturbed");
    if (guest->run->exit_reason != KVM_EXIT_HLT)
        printf("guest %u: ended by exit %u\n", guest->slot, guest->run->exit_reason);
    else if (guest->run->if_flag)
        printf("guest %u: waits at %llx\n", guest->slot, (unsigned long long)registers.rip);
    else if (registers.rax % 0x10000 != 0)
        printf("guest %u: step %u failed\n", guest->slot, (unsigned)(registers.rax % 0x10000));
    else
        printf("guest %u: done\n", guest->slot);
    if (guest->second != NULL)
        printf("its second CPU %s\n", guest->second->exit_reason == KVM_EXIT_HLT ? "halted"
                                      : guest->ran_on                            ? "ran on in a call"
                                                                                 : "stood in each call");
    if (!cards)
        report_console(guest);
    else if (!guest->run->if_flag)
        report_card(guest, &registers);
    printf("interrupts: %u and %u, disturbed: %d\n", guest->lines.block, guest->lines.console, disturbed);
}

/* Each region of each guest lies in one file of memory, which another process could map too. */
static void lend(struct kalyubos_loan *loans)
{
    int file = must(memfd_create("guests", MFD_CLOEXEC), "memfd_create");
    off_t at = 0;
    for (unsigned i = 0; i < GUESTS * REGIONS; i++) {
        size_t len = MEMORY[i % REGIONS].len;
        must(ftruncate(file, at + (off_t)len), "ftruncate");
        void *bytes = mmap(NULL, len, PROT_READ | PROT_WRITE, MAP_SHARED, file, at);
        must(bytes == MAP_FAILED ? -1 : 0, "a region");
        loans[i] = (struct kalyubos_loan){ bytes, len };
        at += (off_t)len;
    }
    close(file);
}

/* A network card for a guest, and its port. */
static void add_card(struct guest *guest, struct kalyubos_slot *slot)
{
    const uint8_t address[ADDRESS] = { 2, 0, 0, 0, 0, guest->slot };
    slot->devices[CARD - KALYUBOS_DEVICE] = (struct kalyubos_device){ .kind = KALYUBOS_NETWORK, .mtu = MTU };
    memcpy(slot->devices[CARD - KALYUBOS_DEVICE].mac, address, ADDRESS);
    open_port(guest, address);
}

/* A board of both guests, over an image of both disks or with a file for each. */
static void create(void)
{
    static uint8_t image[GUESTS * DISK_LEN];
    struct kalyubos_slot slots[GUESTS] = {
        { .size = sizeof *slots, .start = 0, .count = 2, .cols = 80, .rows = 25, .outlet = OUTLET, .hosted = hosted,
          .depth = DEPTH, .identity = "first half" },
        { .size = sizeof *slots, .start = 2, .count = 2, .cols = 80, .rows = 25, .outlet = OUTLET, .hosted = hosted,
          .depth = DEPTH, .identity = "second half" },
    };
    struct kalyubos_config config = kalyubos_config_of(slots, GUESTS);
    struct kalyubos_loan loans[GUESTS * REGIONS];
    for (uint8_t slot = 0; slot < GUESTS; slot++) {
        memcpy(slots[slot].regions, MEMORY, sizeof MEMORY);
        guests[slot].slot = slot;
        guests[slot].windows = WINDOWS - (cards ? slot * WINDOWS_APART : 0);
        guests[slot].vectors = cards ? slot * VECTORS_APART : 0;
        guests[slot].disk.ready = guests[slot].port.ready = -1;
        if (cards)
            add_card(&guests[slot], &slots[slot]);
        strcpy((char *)image + slot * DISK_LEN, DISKS[slot]);
    }
    if (lent) {
        lend(loans);
        config.loans = loans;
        config.loans_len = GUESTS * REGIONS;
    }
    if (!hosted) {
        config.image = image;
        config.image_len = sizeof image;
    }
    config.chains = CHAINS;
    must_do(kalyubos_create(&board, &config), "create");
    for (unsigned i = 0; i < GUESTS && hosted; i++)
        open_disk(&guests[i]);
}

/* The features that the guest of kvm-card.S takes by a word: the card's address, VERSION_1, and by that of its queues. */
static struct program card_program(const char *word)
{
    static const char *const queues[] = { "split", "split-event", "packed", "packed-event" };
    unsigned number = 0;
    while (number < 4 && strcmp(word, queues[number]) != 0)
        number++;
    must(number < 4 ? 0 : -1, word);
    return (struct program){ KVM_CARD, sizeof KVM_CARD,
                             { .rbx = 1 << 5 | (number & 1) << 29, .rcx = 1 | (number & 2) << 1, .rdx = FRAMES, .rsi = TREE } };
}

/* What each guest runs, by the words. */
static struct program program_of(uint8_t slot, int words_len, char **words)
{
    if (cards)
        return card_program(slot + 2 < words_len ? words[slot + 2] : "split");
    if (slot == 0 && words_len == 2 && strcmp(words[1], "flood") == 0)
        return (struct program){ .bytes = KVM_FLOOD, .len = sizeof KVM_FLOOD };
    return (struct program){ .bytes = KVM_GUEST, .len = sizeof KVM_GUEST };
}

int main(int words_len, char **words)
{
    const char *word = words_len >= 2 ? words[1] : "";
    hosted = strcmp(word, "hosted") == 0;
    lent = strcmp(word, "lent") == 0;
    cards = strcmp(word, "cards") == 0;
    int kvm = open("/dev/kvm", O_RDWR | O_CLOEXEC);
    if (kvm < 0) {
        perror("/dev/kvm");
        return NO_KVM;
    }
    pthread_t threads[GUESTS];
    create();
    for (uint8_t slot = 0; slot < GUESTS; slot++) {
        struct program program = program_of(slot, words_len, words);
        power_on(&guests[slot], kvm, &program);
    }
    if (strcmp(word, "pair") == 0)
        power_on_second(&guests[0], kvm);
    for (unsigned i = 0; i < GUESTS; i++)
        must(-pthread_create(&threads[i], NULL, guests[i].second != NULL ? run_both : run, &guests[i]), "a thread");
    for (unsigned i = 0; i < GUESTS; i++)
        must(-pthread_join(threads[i], NULL), "a thread's end");
    for (unsigned i = 0; i < GUESTS; i++)
        report(&guests[i]);
    for (unsigned i = 0; i < GUESTS && hosted; i++)
        file_disk_close(&guests[i].disk);
    must_do(kalyubos_destroy(&board), "destroy");
    return 0;
}
