/* front_end: accepts connections, and hands their messages to the protocol until one is bad, the front end goes, or the program ends. */
#include "front_end.h"

#include <errno.h>
#include <poll.h>
#include <string.h>
#include <sys/eventfd.h>
#include <sys/socket.h>
#include <sys/time.h>
#include <unistd.h>

#include "protocol.h"
#include "say.h"

/* For how many seconds the rest of a message, or room for a reply, is waited for. */
enum { PATIENCE = 10 };

const char *front_end_make(struct front_end *front_end, const char *name, struct disk *disk, int listener, int socket, int ending)
{
    memset(front_end, 0, sizeof *front_end);
    front_end->name = name;
    front_end->disk = disk;
    front_end->listener = listener;
    front_end->socket = socket;
    front_end->ending = ending;
    for (unsigned i = 0; i < disk->queues; i++) {
        struct queue *queue = &front_end->queues[i];
        queue->index = i;
        queue->kick = -1;
        queue->call = eventfd(0, EFD_CLOEXEC | EFD_NONBLOCK);
        queue->error = eventfd(0, EFD_CLOEXEC | EFD_NONBLOCK);
        if (queue->call < 0 || queue->error < 0)
            return strerror(errno);
    }
    return protocol_offer(front_end);
}

static void serve_connection(struct front_end *front_end)
{
    struct message message;
    struct timeval patience = { .tv_sec = PATIENCE };
    const char *why, *name;
    (void)setsockopt(front_end->socket, SOL_SOCKET, SO_RCVTIMEO, &patience, sizeof patience);
    (void)setsockopt(front_end->socket, SOL_SOCKET, SO_SNDTIMEO, &patience, sizeof patience);
    do {
        why = wire_receive(front_end->socket, front_end->ending, &message);
        name = why == NULL ? protocol_name(message.request) : "receiving";
        if (why == NULL)
            why = protocol_handle(front_end, &message);
        wire_close_files(&message);
    } while (why == NULL);
    if (why != WIRE_END && why != WIRE_OVER)
        say(front_end->name, "the front end is let go: %s: %s", name, why);
    protocol_forget(front_end, why == WIRE_OVER);
    close(front_end->socket);
    front_end->socket = -1;
}

/* The next connection, or -1 where the program ends. */
static int accept_next(const struct front_end *front_end)
{
    struct pollfd files[2] = { { .fd = front_end->listener, .events = POLLIN }, { .fd = front_end->ending, .events = POLLIN } };
    for (;;) {
        if (poll(files, 2, -1) < 0 && errno != EINTR)
            return -1;
        if (files[1].revents != 0)
            return -1;
        int socket = accept4(front_end->listener, NULL, NULL, SOCK_CLOEXEC);
        if (socket >= 0)
            return socket;
        if (errno != EINTR && errno != EAGAIN && errno != ECONNABORTED) {
            say(front_end->name, "no connection: %s", strerror(errno));
            (void)poll(&files[1], 1, 1000);
        }
    }
}

void front_end_serve(struct front_end *front_end)
{
    if (front_end->listener < 0)
        return serve_connection(front_end);
    while ((front_end->socket = accept_next(front_end)) >= 0)
        serve_connection(front_end);
}
