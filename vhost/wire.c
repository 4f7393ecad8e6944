/*
 * wire: reads a message whole and judges what is the same for all: version, flags, length, number of files. A message that stops
 * halfway, and a front end that doesn't read its replies, end by the socket's own limit of time.
 */
#include "wire.h"

#include <errno.h>
#include <poll.h>
#include <stdbool.h>
#include <stddef.h>
#include <string.h>
#include <sys/socket.h>
#include <sys/uio.h>
#include <unistd.h>

const char WIRE_END[] = "the front end has gone", WIRE_OVER[] = "the program ends";

_Static_assert(offsetof(struct message, it) == offsetof(struct message, request) + MESSAGE_HEAD, "the payload follows the head");

/* Waits until there is something to read. False where the program ends. */
static bool wait_for_bytes(int socket, int ending)
{
    struct pollfd files[2] = { { .fd = socket, .events = POLLIN }, { .fd = ending, .events = POLLIN } };
    while (poll(files, 2, -1) < 0)
        if (errno != EINTR)
            return false;
    return files[1].revents == 0;
}

static void take_files(struct msghdr *header, struct message *message)
{
    for (struct cmsghdr *it = CMSG_FIRSTHDR(header); it != NULL; it = CMSG_NXTHDR(header, it)) {
        if (it->cmsg_level != SOL_SOCKET || it->cmsg_type != SCM_RIGHTS)
            continue;
        unsigned len = (unsigned)((it->cmsg_len - CMSG_LEN(0)) / sizeof(int));
        for (unsigned i = 0; i < len; i++) {
            int file;
            memcpy(&file, CMSG_DATA(it) + i * sizeof file, sizeof file);
            if (message->files_len < MESSAGE_FILES)
                message->files[message->files_len++] = file;
            else
                close(file);
        }
    }
}

/* Reads `len` bytes, and the files that come with them. */
static const char *receive_part(int socket, struct message *message, void *into, size_t len)
{
    union {
        struct cmsghdr head;
        uint8_t bytes[CMSG_SPACE(MESSAGE_FILES * sizeof(int))];
    } control;
    for (size_t done = 0; done < len;) {
        struct iovec part = { (uint8_t *)into + done, len - done };
        struct msghdr header = { .msg_iov = &part, .msg_iovlen = 1, .msg_control = &control, .msg_controllen = sizeof control };
        ssize_t got = recvmsg(socket, &header, MSG_CMSG_CLOEXEC);
        if (got < 0 && errno == EINTR)
            continue;
        if (got < 0)
            return errno == EAGAIN ? "a message stops halfway" : strerror(errno);
        if (got == 0)
            return done == 0 && into == &message->request ? WIRE_END : "the front end went in the middle of a message";
        take_files(&header, message);
        if ((header.msg_flags & MSG_CTRUNC) != 0)
            return "more files come with a message than any may have";
        done += (size_t)got;
    }
    return NULL;
}

const char *wire_receive(int socket, int ending, struct message *message)
{
    memset(message, 0, sizeof *message);
    if (!wait_for_bytes(socket, ending))
        return WIRE_OVER;
    const char *why = receive_part(socket, message, &message->request, MESSAGE_HEAD);
    if (why != NULL)
        return why;
    if ((message->flags & FLAG_VERSION_MASK) != FLAG_VERSION)
        return "a message isn't of version 1";
    if ((message->flags & FLAG_REPLY) != 0)
        return "a message says that it is a reply";
    if (message->size > sizeof message->it)
        return "a message is longer than any may be";
    return receive_part(socket, message, &message->it, message->size);
}

const char *wire_reply(int socket, struct message *message, uint32_t size)
{
    message->flags = FLAG_VERSION | FLAG_REPLY;
    message->size = size;
    const uint8_t *bytes = (const uint8_t *)&message->request;
    for (size_t done = 0, len = MESSAGE_HEAD + size; done < len;) {
        ssize_t sent = send(socket, bytes + done, len - done, MSG_NOSIGNAL);
        if (sent < 0 && errno != EINTR)
            return errno == EAGAIN ? "the front end doesn't read its replies" : WIRE_END;
        done += sent > 0 ? (size_t)sent : 0;
    }
    return NULL;
}

int wire_take_file(struct message *message)
{
    int file = message->files_len > 0 ? message->files[0] : -1;
    message->files[0] = -1;
    return file;
}

void wire_close_files(struct message *message)
{
    for (unsigned i = 0; i < message->files_len; i++)
        if (message->files[i] >= 0)
            close(message->files[i]);
    message->files_len = 0;
}
