/*
 * What the guest's program does with an entropy device and a network card: it shows random bytes of the one, and over the other two
 * guests send one another bytes. Each frame has a piece of them with its number, and the number of the piece that its sender wants
 * next; the pieces that the other doesn't want in time are sent again.
 */
#ifndef TALK_H
#define TALK_H

#include <linux/if_ether.h>
#include <linux/if_packet.h>
#include <linux/sockios.h>
#include <stdbool.h>

#include "pattern.h"
#include "sum.h"

enum { RANDOM = 256, LINE = 32 };
/* What only a C library's headers have: AF_PACKET, SOCK_RAW, SOL_SOCKET, SO_RCVTIMEO, IFF_UP. */
enum { PACKETS = 17, RAW_FRAMES = 3, OF_SOCKET = 1, RECEIVE_TIMEOUT = 20, IS_UP = 1 };
enum { KIND = 0xb588 /* 88b5, the first of those for experiments (IEEE 802), as it lies in memory */ };
enum { WINDOW = 32 /* pieces under way at most */, OFTEN = 8 /* pieces without an answer at most */ };
enum { TIMEOUT = 100000 /* microseconds without a frame until pieces are sent again */ };
enum { MOST_QUIET = 100, LAST_QUIET = 3 /* timeouts until a talk is given up, and until it is at its end */ };
#define NO_PIECE 0xffffffffu

struct frame {
    unsigned char to[ETH_ALEN], from[ETH_ALEN];
    unsigned short kind, unused;
    unsigned int number, wanted;
    char bytes[PIECE];
};
enum { HEAD = sizeof(struct frame) - PIECE };

/* What the kernel is asked of a card (struct ifreq). */
struct card {
    char name[16];
    union {
        short flags;
        int index;
        char room[24];
    };
};

struct talk {
    int socket;
    unsigned int count, seed, peer; /* how many pieces go each way, and by what they are filled */
    unsigned int next, first;       /* the piece that is sent next, and the first that the other wants */
    unsigned int fresh, again;      /* the first that was never sent, and how many were sent again */
    unsigned int wanted;            /* the piece that is wanted next */
    bool same;                      /* all bytes that came were the other's */
    struct sum sent, got;
    struct frame out, in;
};

/* ---- random bytes */

static void show_random(void)
{
    unsigned char bytes[RANDOM];
    int file = open("/dev/hwrng", O_RDONLY, 0), found = 0, length = 1;
    while (found < RANDOM && (length = read(file, bytes + found, RANDOM - found)) > 0)
        found += length;
    close(file);
    for (int i = 0; i < found; i++)
        printf("%s%x%x%s", i % LINE == 0 ? "bytes: " : "", bytes[i] >> 4, bytes[i] & 15, i % LINE == LINE - 1 ? "\n" : "");
}

/* ---- the card */

/* A socket for frames of the kind, on the first card, which is up then; or a number below 0. */
static int open_card(void)
{
    struct card card = { .name = "eth0" };
    struct sockaddr_ll at = { .sll_family = PACKETS, .sll_protocol = KIND };
    long timeout[2] = { 0, TIMEOUT };
    int it = my_syscall3(__NR_socket, PACKETS, RAW_FRAMES, KIND);
    if (it < 0 || ioctl(it, SIOCGIFFLAGS, &card) != 0)
        return -1;
    card.flags |= IS_UP;
    if (ioctl(it, SIOCSIFFLAGS, &card) != 0 || ioctl(it, SIOCGIFINDEX, &card) != 0)
        return -1;
    at.sll_ifindex = card.index;
    if (my_syscall3(__NR_bind, it, &at, sizeof at) != 0 ||
        my_syscall5(__NR_setsockopt, it, OF_SOCKET, RECEIVE_TIMEOUT, timeout, sizeof timeout) != 0)
        return -1;
    return it;
}

/* The address of the card of the guest of this seed, as the host has it. */
static void put_address(unsigned char *address, unsigned int seed)
{
    memset(address, 0, ETH_ALEN);
    address[0] = 2;
    address[ETH_ALEN - 1] = seed;
}

/* ---- the talk */

/* Sends the next piece, or where `number` is NO_PIECE what is wanted alone. */
static void send(struct talk *talk, unsigned int number)
{
    struct frame *out = &talk->out;
    out->number = number;
    out->wanted = talk->wanted;
    if (number != NO_PIECE)
        fill_piece(out->bytes, talk->seed, number);
    if (number == talk->fresh) {
        add(&talk->sent, out->bytes, PIECE);
        talk->fresh++;
    } else if (number != NO_PIECE) {
        talk->again++;
    }
    write(talk->socket, out, number == NO_PIECE ? (int)HEAD : (int)sizeof *out);
}

static bool may_send(const struct talk *talk)
{
    return talk->next < talk->count && talk->next < talk->first + WINDOW;
}

/* Takes the piece of a frame where it is the one that is wanted. */
static void take(struct talk *talk)
{
    static char expected[PIECE];
    if (talk->in.number != talk->wanted || talk->wanted == talk->count)
        return;
    fill_piece(expected, talk->peer, talk->wanted);
    talk->same = talk->same && memcmp(expected, talk->in.bytes, PIECE) == 0;
    add(&talk->got, talk->in.bytes, PIECE);
    talk->wanted++;
}

/* Takes in a frame of the other; false where none comes in time. */
static bool listen(struct talk *talk)
{
    struct frame *in = &talk->in;
    int length;
    do
        length = read(talk->socket, in, sizeof *in);
    while (length >= (int)HEAD && memcmp(in->from, talk->out.to, ETH_ALEN) != 0);
    if (length < (int)HEAD)
        return false;
    if (in->wanted > talk->first && in->wanted <= talk->fresh)
        talk->first = in->wanted;
    if (talk->next < talk->first)
        talk->next = talk->first;
    if (in->number == NO_PIECE || length < (int)sizeof *in)
        return true;
    unsigned int before = talk->wanted;
    take(talk);
    if (!may_send(talk) && (talk->wanted == before || talk->wanted % OFTEN == 0 || talk->wanted == talk->count))
        send(talk, NO_PIECE);
    return true;
}

static bool is_done(const struct talk *talk)
{
    return talk->first == talk->count && talk->wanted == talk->count;
}

/* Talks until all has come and is wanted by neither, and then until the other is quiet too. */
static void talk_on(struct talk *talk)
{
    int quiet = 0;
    while (quiet < (is_done(talk) ? LAST_QUIET : MOST_QUIET)) {
        while (may_send(talk))
            send(talk, talk->next++);
        if (listen(talk)) {
            quiet = 0;
            continue;
        }
        quiet++;
        talk->next = talk->first;
        if (!is_done(talk))
            send(talk, NO_PIECE);
    }
}

/* Sends as many pieces to the other guest of a pair as it gets; what became of them. */
static struct talk try_talk(unsigned int seed, unsigned int count)
{
    static struct talk talk;
    talk = (struct talk){ .socket = open_card(), .count = count, .seed = seed, .peer = seed ^ 1, .same = true };
    fill_powers();
    put_address(talk.out.to, talk.peer);
    put_address(talk.out.from, talk.seed);
    talk.out.kind = KIND;
    if (talk.socket >= 0)
        talk_on(&talk);
    close(talk.socket);
    printf("sent: %u %lu, %u pieces again\n", end_of(&talk.sent), talk.sent.len, talk.again);
    printf("got: %u %lu\n", end_of(&talk.got), talk.got.len);
    return talk;
}

#endif
