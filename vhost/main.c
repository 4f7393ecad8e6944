/*
 * kalyubos-vhost: a vhost-user-blk back end over the proved library: a disk of a virtual machine of QEMU or another that speaks
 * vhost-user. The rings, chains, requests and notifications are the library's. This program brings messages to it, and does the disk's
 * operations.
 *
 * main: opens the disk and the sockets, and starts a thread for each. The program ends by SIGTERM or SIGINT, or with the last front end
 * of a connected socket.
 */
#include <errno.h>
#include <fcntl.h>
#include <pthread.h>
#include <signal.h>
#include <stdio.h>
#include <stdlib.h>
#include <string.h>
#include <sys/eventfd.h>
#include <sys/socket.h>
#include <sys/stat.h>
#include <sys/un.h>
#include <unistd.h>

#include "front_end.h"
#include "options.h"
#include "sandbox.h"
#include "say.h"
#include "store.h"

static struct disk disk = { .file = -1, .buffered = -1, .depth = KALYUBOS_TAGS, .queues = 1, .drain = 30 };
static struct options options = { .disk = &disk, .file = -1 };
static struct front_end front_ends[SOCKETS];
static unsigned front_ends_len;

/* Takes away a socket that nobody serves any more. */
static bool make_room(const struct sockaddr_un *at)
{
    struct stat stat;
    if (lstat(at->sun_path, &stat) != 0)
        return true;
    int probe = socket(AF_UNIX, SOCK_STREAM | SOCK_CLOEXEC, 0);
    bool is_served = probe < 0 || connect(probe, (const struct sockaddr *)at, sizeof *at) == 0 || errno != ECONNREFUSED;
    if (probe >= 0)
        close(probe);
    if (S_ISSOCK(stat.st_mode) && !is_served)
        return unlink(at->sun_path) == 0;
    say(at->sun_path, S_ISSOCK(stat.st_mode) ? "another program serves this socket" : "there is a file that isn't a socket");
    return false;
}

/* A socket that listens at a path, or -1. */
static int listen_at(const char *path)
{
    struct sockaddr_un at = { .sun_family = AF_UNIX };
    strcpy(at.sun_path, path); /* its length was judged with the option */
    if (!make_room(&at))
        return -1;
    int listener = socket(AF_UNIX, SOCK_STREAM | SOCK_CLOEXEC | SOCK_NONBLOCK, 0);
    if (listener >= 0 && bind(listener, (struct sockaddr *)&at, sizeof at) == 0 && listen(listener, 1) == 0)
        return listener;
    say(path, "%s", strerror(errno));
    return -1;
}

static bool add_front_end(const char *name, int listener, int socket, int ending)
{
    const char *why = front_end_make(&front_ends[front_ends_len], name, &disk, listener, socket, ending);
    if (why == NULL)
        front_ends_len++;
    else
        say(name, "%s", why);
    return why == NULL;
}

/* A front end for each socket of the options. */
static bool add_front_ends(int ending)
{
    static char name[32];
    int listens = 0;
    socklen_t len = sizeof listens;
    for (unsigned i = 0; i < options.paths_len; i++) {
        int listener = listen_at(options.paths[i]);
        if (listener < 0 || !add_front_end(options.paths[i], listener, -1, ending))
            return false;
    }
    if (options.file < 0)
        return true;
    snprintf(name, sizeof name, "--fd %d", options.file);
    (void)getsockopt(options.file, SOL_SOCKET, SO_ACCEPTCONN, &listens, &len);
    int flags = fcntl(options.file, F_GETFL) & ~O_NONBLOCK; /* as of a socket that is made here */
    (void)fcntl(options.file, F_SETFL, flags | (listens != 0 ? O_NONBLOCK : 0));
    (void)fcntl(options.file, F_SETFD, FD_CLOEXEC);
    return add_front_end(name, listens != 0 ? options.file : -1, listens != 0 ? -1 : options.file, ending);
}

static void *serve(void *user)
{
    front_end_serve(user);
    (void)kill(getpid(), SIGTERM); /* the program ends, or the only front end has gone */
    return NULL;
}

static void interrupt(int number)
{
    (void)number; /* it ends a system call that waits */
}

/* The signals that end the program, which one thread waits for. */
static void prepare_signals(sigset_t *ends)
{
    struct sigaction action = { .sa_handler = interrupt };
    (void)sigaction(SIGUSR1, &action, NULL);
    (void)signal(SIGPIPE, SIG_IGN);
    (void)signal(SIGXFSZ, SIG_IGN); /* a limit of files is an error of what passes it */
    sigemptyset(ends);
    sigaddset(ends, SIGTERM);
    sigaddset(ends, SIGINT);
    (void)pthread_sigmask(SIG_BLOCK, ends, NULL);
    mapping_handle_faults();
}

static void take_away_sockets(void)
{
    for (unsigned i = 0; i < options.paths_len && i < front_ends_len; i++)
        (void)unlink(options.paths[i]);
}

int main(int words_len, char **words)
{
    sigset_t ends;
    int number, status = options_read(&options, words_len, words);
    if (status >= 0)
        return status;
    prepare_signals(&ends);
    int ending = eventfd(0, EFD_CLOEXEC);
    if (ending < 0 || !disk.kind->look(&disk) || !add_front_ends(ending) || !sandbox_enter(&options)) {
        take_away_sockets();
        return 1;
    }
    for (unsigned i = 0; i < front_ends_len; i++)
        if (pthread_create(&front_ends[i].thread, NULL, serve, &front_ends[i]) != 0) {
            say(NULL, "there is no thread for %s", front_ends[i].name);
            take_away_sockets();
            return 1;
        }
    (void)sigwait(&ends, &number);
    (void)eventfd_write(ending, 1);
    for (unsigned i = 0; i < front_ends_len; i++)
        (void)pthread_join(front_ends[i].thread, NULL);
    take_away_sockets();
    return 0;
}
