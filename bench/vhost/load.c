/*
 * load: a front end of vhost-user-blk without a machine. It reads or writes blocks of 4 KiB at random over split rings with EVENT_IDX,
 * by kicks and calls, and prints the rate and the processor time that the back end's process took for a request.
 *
 *     load SOCKET PID QUEUES DEPTH SECONDS read|write
 *
 * DEPTH requests are in flight on each queue. One thread drives all queues.
 */
#define _GNU_SOURCE
#include <linux/virtio_blk.h>
#include <linux/virtio_ring.h>
#include <poll.h>
#include <stdbool.h>
#include <stdint.h>
#include <stdio.h>
#include <stdlib.h>
#include <string.h>
#include <sys/eventfd.h>
#include <sys/mman.h>
#include <sys/socket.h>
#include <sys/un.h>
#include <time.h>
#include <unistd.h>

#include "../../vhost/wire.h"

enum { SIZE = 256, QUEUES_MOST = 16, BLOCK = 4096, PART = 4 << 20, HEADERS = 1 << 16, DATA = 1 << 20, WAIT_MS = 5000 };
static const uint64_t GUEST = 0x80000000u;

struct load_queue {
    uint8_t *room;
    uint64_t guest;
    struct vring ring;
    int kick, call;
    unsigned free[SIZE], free_len;
    uint16_t offered, seen;
};

struct load {
    int socket;
    bool writes, ends;
    unsigned queues, depth, seed;
    uint64_t blocks, done, kicks;
    uint8_t *memory;
    struct load_queue queue[QUEUES_MOST];
};

static void must(bool holds, const char *what)
{
    if (!holds) {
        perror(what);
        exit(1);
    }
}

static double clock_of(clockid_t clock)
{
    struct timespec time;
    must(clock_gettime(clock, &time) == 0, "a clock");
    return (double)time.tv_sec + (double)time.tv_nsec / 1e9;
}

/* ---- messages: a head of three words, a payload, and a file or none (-1) */

struct said {
    uint32_t request, flags, size;
    uint8_t payload[272];
} __attribute__((packed));

static void tell(const struct load *load, uint32_t request, const void *payload, uint32_t size, int file)
{
    struct said message = { request, 1, size, { 0 } };
    union { struct cmsghdr head; uint8_t bytes[CMSG_SPACE(sizeof(int))]; } control;
    struct iovec part = { &message, 12 + size };
    struct msghdr header = { .msg_iov = &part, .msg_iovlen = 1 };
    memcpy(message.payload, payload, size);
    if (file >= 0) {
        header.msg_control = &control;
        header.msg_controllen = sizeof control;
        control.head = (struct cmsghdr){ .cmsg_len = CMSG_LEN(sizeof file), .cmsg_level = SOL_SOCKET, .cmsg_type = SCM_RIGHTS };
        memcpy(CMSG_DATA(&control.head), &file, sizeof file);
    }
    must(sendmsg(load->socket, &header, 0) == (ssize_t)(12 + size), "a message");
}

static void tell_number(const struct load *load, uint32_t request, uint64_t number, int file)
{
    tell(load, request, &number, sizeof number, file);
}

static void tell_pair(const struct load *load, uint32_t request, uint32_t one, uint32_t other)
{
    const uint32_t pair[2] = { one, other };
    tell(load, request, pair, sizeof pair, -1);
}

static uint64_t answer(const struct load *load, uint32_t at)
{
    struct said message;
    uint64_t number;
    must(recv(load->socket, &message, 12, MSG_WAITALL) == 12 && message.size <= sizeof message.payload, "an answer");
    must(recv(load->socket, message.payload, message.size, MSG_WAITALL) == (ssize_t)message.size, "an answer's payload");
    memcpy(&number, message.payload + at, sizeof number);
    return number;
}

static uint64_t ask(const struct load *load, uint32_t request)
{
    tell(load, request, NULL, 0, -1);
    return answer(load, 0);
}

/* ---- the start */

static void negotiate(struct load *load)
{
    const uint64_t wanted = 1ull << 32 | 1 << 30 | 1 << 29 | 1 << 12 | 1 << 9;
    const uint32_t config[18] = { 0, 60 };
    uint64_t features = ask(load, GET_FEATURES);
    tell_number(load, SET_PROTOCOL_FEATURES, ask(load, GET_PROTOCOL_FEATURES) & (1 << 9 | 1 << 0), -1);
    tell(load, SET_OWNER, NULL, 0, -1);
    tell(load, GET_CONFIG, config, sizeof config, -1);
    load->blocks = answer(load, 12) / (BLOCK / 512);
    must(load->blocks != 0, "a disk of no block");
    tell_number(load, SET_FEATURES, features & wanted, -1);
}

static void share_memory(struct load *load)
{
    uint64_t len = (uint64_t)PART * load->queues;
    int file = memfd_create("memory", MFD_CLOEXEC);
    must(file >= 0 && ftruncate(file, (off_t)len) == 0, "memory");
    load->memory = mmap(NULL, len, PROT_READ | PROT_WRITE, MAP_SHARED | MAP_POPULATE, file, 0);
    must(load->memory != MAP_FAILED, "memory");
    const uint64_t table[5] = { 1, GUEST, len, (uintptr_t)load->memory, 0 };
    tell(load, SET_MEM_TABLE, table, sizeof table, file);
}

static void start_queue(struct load *load, uint32_t index)
{
    struct load_queue *queue = &load->queue[index];
    queue->room = load->memory + (uint64_t)PART * index;
    queue->guest = GUEST + (uint64_t)PART * index;
    vring_init(&queue->ring, SIZE, queue->room, 4096);
    queue->kick = eventfd(0, EFD_CLOEXEC);
    queue->call = eventfd(0, EFD_CLOEXEC | EFD_NONBLOCK);
    for (unsigned slot = 0; slot < load->depth; slot++)
        queue->free[queue->free_len++] = slot;
    const struct { uint32_t index, flags; uint64_t areas[4]; } address = {
        index, 0, { (uintptr_t)queue->ring.desc, (uintptr_t)queue->ring.used, (uintptr_t)queue->ring.avail, 0 } };
    tell_pair(load, SET_VRING_NUM, index, SIZE);
    tell_pair(load, SET_VRING_BASE, index, 0);
    tell(load, SET_VRING_ADDR, &address, sizeof address, -1);
    tell_number(load, SET_VRING_KICK, index, queue->kick);
    tell_number(load, SET_VRING_CALL, index, queue->call);
    tell_pair(load, SET_VRING_ENABLE, index, 1);
}

static void start(struct load *load, const char *path)
{
    struct sockaddr_un at = { .sun_family = AF_UNIX };
    must(strlen(path) < sizeof at.sun_path, path);
    strcpy(at.sun_path, path);
    load->socket = socket(AF_UNIX, SOCK_STREAM | SOCK_CLOEXEC, 0);
    must(load->socket >= 0 && connect(load->socket, (struct sockaddr *)&at, sizeof at) == 0, path);
    negotiate(load);
    share_memory(load);
    for (uint32_t index = 0; index < load->queues; index++)
        start_queue(load, index);
}

/* ---- requests: slot n has the descriptors 3n to 3n + 2, a header, a status and a block */

static void put(struct load *load, struct load_queue *queue, unsigned slot)
{
    uint64_t header_at = HEADERS + 64u * slot;
    struct virtio_blk_outhdr *header = (void *)(queue->room + header_at);
    uint16_t head = (uint16_t)(3 * slot), data_flags = VRING_DESC_F_NEXT | (load->writes ? 0 : VRING_DESC_F_WRITE);
    load->seed = load->seed * 1664525 + 1013904223;
    *header = (struct virtio_blk_outhdr){ load->writes ? VIRTIO_BLK_T_OUT : VIRTIO_BLK_T_IN, 0, (load->seed >> 4) % load->blocks * (BLOCK / 512) };
    queue->room[header_at + 32] = 0xff;
    queue->ring.desc[head] = (struct vring_desc){ queue->guest + header_at, 16, VRING_DESC_F_NEXT, head + 1 };
    queue->ring.desc[head + 1] = (struct vring_desc){ queue->guest + DATA + (uint64_t)BLOCK * slot, BLOCK, data_flags, head + 2 };
    queue->ring.desc[head + 2] = (struct vring_desc){ queue->guest + header_at + 32, 1, VRING_DESC_F_WRITE, 0 };
    queue->ring.avail->ring[queue->offered++ % SIZE] = head;
}

static void offer(struct load *load, struct load_queue *queue)
{
    uint16_t before = queue->offered;
    while (!load->ends && queue->free_len > 0)
        put(load, queue, queue->free[--queue->free_len]);
    if (queue->offered == before)
        return;
    __atomic_store_n(&queue->ring.avail->idx, queue->offered, __ATOMIC_RELEASE);
    __atomic_thread_fence(__ATOMIC_SEQ_CST);
    if (vring_need_event(vring_avail_event(&queue->ring), queue->offered, before)) {
        must(eventfd_write(queue->kick, 1) == 0, "a kick");
        load->kicks++;
    }
}

/* Takes what is used, and asks to be told of the next one. */
static bool take(struct load *load, struct load_queue *queue)
{
    uint16_t seen = queue->seen, now = __atomic_load_n(&queue->ring.used->idx, __ATOMIC_ACQUIRE);
    for (; queue->seen != now; queue->seen++, load->done++) {
        unsigned slot = queue->ring.used->ring[queue->seen % SIZE].id / 3;
        must(queue->room[HEADERS + 64u * slot + 32] == VIRTIO_BLK_S_OK, "a status");
        queue->free[queue->free_len++] = slot;
    }
    vring_used_event(&queue->ring) = queue->seen;
    __atomic_thread_fence(__ATOMIC_SEQ_CST);
    return queue->seen != seen || __atomic_load_n(&queue->ring.used->idx, __ATOMIC_ACQUIRE) != now;
}

static void wait_for_calls(struct load *load)
{
    struct pollfd files[QUEUES_MOST];
    eventfd_t value;
    for (unsigned i = 0; i < load->queues; i++)
        files[i] = (struct pollfd){ load->queue[i].call, POLLIN, 0 };
    must(poll(files, load->queues, WAIT_MS) > 0, "no call came");
    for (unsigned i = 0; i < load->queues; i++)
        if (files[i].revents != 0)
            (void)eventfd_read(files[i].fd, &value);
}

static bool is_idle(const struct load *load)
{
    for (unsigned i = 0; i < load->queues; i++)
        if (load->queue[i].free_len != load->depth)
            return false;
    return true;
}

static void run(struct load *load, double until)
{
    while (!load->ends || !is_idle(load)) {
        bool took = false;
        for (unsigned i = 0; i < load->queues; i++) {
            offer(load, &load->queue[i]);
            took |= take(load, &load->queue[i]);
        }
        if (!took && !is_idle(load))
            wait_for_calls(load);
        load->ends |= clock_of(CLOCK_MONOTONIC) > until;
    }
}

int main(int words_len, char **words)
{
    static struct load load = { .seed = 1 };
    clockid_t other;
    must(words_len == 7, "load SOCKET PID QUEUES DEPTH SECONDS read|write");
    load.queues = (unsigned)atoi(words[3]);
    load.depth = (unsigned)atoi(words[4]);
    load.writes = words[6][0] == 'w';
    must(load.queues >= 1 && load.queues <= QUEUES_MOST && load.depth >= 1 && load.depth <= SIZE / 3, "QUEUES or DEPTH");
    must(clock_getcpuclockid(atoi(words[2]), &other) == 0, "PID");
    start(&load, words[1]);
    double began = clock_of(CLOCK_MONOTONIC), before = clock_of(other);
    run(&load, began + atof(words[5]));
    double took = clock_of(CLOCK_MONOTONIC) - began, cost = clock_of(other) - before;
    printf("%.0f %.3f\n", (double)load.done / took, cost / (double)load.done * 1e6);
    return 0;
}
