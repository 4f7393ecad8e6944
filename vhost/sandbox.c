/*
 * sandbox: rights and system calls. A call that isn't listed ends the program. Without NBD no file can be opened and no connection be
 * made; over NBD files are opened for reading (names of hosts, certificates), and connections are made again.
 */
#include "sandbox.h"

#include <errno.h>
#include <fcntl.h>
#include <grp.h>
#include <linux/capability.h>
#include <pwd.h>
#include <seccomp.h>
#include <stddef.h>
#include <string.h>
#include <sys/prctl.h>
#include <sys/syscall.h>
#include <unistd.h>

#include "say.h"
#include "store.h"

/* What the C library calls with threads, memory and time is among them. */
static const int ALWAYS[] = {
    SCMP_SYS(read), SCMP_SYS(write), SCMP_SYS(close), SCMP_SYS(dup3), SCMP_SYS(poll), SCMP_SYS(ppoll), SCMP_SYS(eventfd2),
    SCMP_SYS(accept4), SCMP_SYS(recvmsg), SCMP_SYS(sendto), SCMP_SYS(setsockopt), SCMP_SYS(shutdown), SCMP_SYS(unlink),
    SCMP_SYS(fstat), SCMP_SYS(newfstatat), SCMP_SYS(io_uring_setup), SCMP_SYS(io_uring_enter), SCMP_SYS(io_uring_register),
    SCMP_SYS(mmap), SCMP_SYS(munmap), SCMP_SYS(mprotect), SCMP_SYS(mremap), SCMP_SYS(madvise), SCMP_SYS(brk), SCMP_SYS(clone),
    SCMP_SYS(clone3), SCMP_SYS(set_robust_list), SCMP_SYS(rseq), SCMP_SYS(futex), SCMP_SYS(sched_yield), SCMP_SYS(sched_getaffinity),
    SCMP_SYS(rt_sigprocmask), SCMP_SYS(rt_sigaction), SCMP_SYS(rt_sigreturn), SCMP_SYS(rt_sigtimedwait), SCMP_SYS(sigaltstack),
    SCMP_SYS(getpid), SCMP_SYS(gettid), SCMP_SYS(kill), SCMP_SYS(tgkill), SCMP_SYS(clock_gettime), SCMP_SYS(clock_nanosleep),
    SCMP_SYS(restart_syscall), SCMP_SYS(getrandom), SCMP_SYS(prlimit64), SCMP_SYS(exit), SCMP_SYS(exit_group)
};

/* What libnbd and the look-up of a host's name call beside. */
static const int FOR_NBD[] = {
    SCMP_SYS(socket), SCMP_SYS(connect), SCMP_SYS(bind), SCMP_SYS(getsockname), SCMP_SYS(getpeername), SCMP_SYS(getsockopt),
    SCMP_SYS(recvfrom), SCMP_SYS(sendmsg), SCMP_SYS(sendmmsg), SCMP_SYS(fcntl), SCMP_SYS(lseek), SCMP_SYS(ioctl), SCMP_SYS(uname),
    SCMP_SYS(access), SCMP_SYS(readlink), SCMP_SYS(statfs), SCMP_SYS(geteuid), SCMP_SYS(getuid), SCMP_SYS(getgid), SCMP_SYS(getegid),
    SCMP_SYS(sysinfo), SCMP_SYS(pread64), SCMP_SYS(writev), SCMP_SYS(readv)
};

static int allow(scmp_filter_ctx filter, const int *calls, size_t len)
{
    int error = 0;
    for (size_t i = 0; i < len && error == 0; i++)
        error = seccomp_rule_add(filter, SCMP_ACT_ALLOW, calls[i], 0);
    return error;
}

static int filter_calls(bool is_nbd)
{
    scmp_filter_ctx filter = seccomp_init(SCMP_ACT_KILL_PROCESS);
    if (filter == NULL)
        return -ENOMEM;
    int error = allow(filter, ALWAYS, sizeof ALWAYS / sizeof ALWAYS[0]);
    if (error == 0 && is_nbd)
        error = allow(filter, FOR_NBD, sizeof FOR_NBD / sizeof FOR_NBD[0]);
    if (error == 0)
        error = is_nbd ? seccomp_rule_add(filter, SCMP_ACT_ALLOW, SCMP_SYS(openat), 1,
                                          SCMP_A2(SCMP_CMP_MASKED_EQ, O_ACCMODE | O_CREAT, O_RDONLY))
                       : seccomp_rule_add(filter, SCMP_ACT_ERRNO(EACCES), SCMP_SYS(openat), 0);
    if (error == 0)
        error = seccomp_load(filter);
    seccomp_release(filter);
    return error;
}

static bool become(const char *name)
{
    const struct passwd *user = getpwnam(name);
    if (user == NULL)
        say(NULL, "--user %s: there is no such user", name);
    else if (setgroups(0, NULL) != 0 || setgid(user->pw_gid) != 0 || setuid(user->pw_uid) != 0)
        say(NULL, "--user %s: %s", name, strerror(errno));
    else
        return true;
    return false;
}

static bool drop_capabilities(void)
{
    struct __user_cap_header_struct header = { .version = _LINUX_CAPABILITY_VERSION_3 };
    struct __user_cap_data_struct none[2];
    memset(none, 0, sizeof none);
    return syscall(SYS_capset, &header, none) == 0 && prctl(PR_SET_NO_NEW_PRIVS, 1, 0, 0, 0) == 0;
}

bool sandbox_enter(const struct options *options)
{
    if (options->user != NULL && !become(options->user))
        return false;
    if (!drop_capabilities()) {
        say(NULL, "capabilities can't be dropped: %s", strerror(errno));
        return false;
    }
    int error = options->is_bare ? 0 : filter_calls(options->disk->kind == &nbd_kind);
    if (error != 0)
        say(NULL, "system calls can't be filtered: %s", strerror(-error));
    return error == 0;
}
