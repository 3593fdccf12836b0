// Stands before C's write, fdatasync and send in tests/standby.py: it can die in one of them on the way to the copy or to a line, let a sync fail, and keep a list of them.
// DISK_COPY is the copy's name. DISK_DIES_AT n: killed within the n-th step, by turns before it, half-way and after it. DISK_FAILS_AT n: the n-th sync fails. DISK_ORDER: the list.
#define _GNU_SOURCE
#include <dlfcn.h>
#include <errno.h>
#include <fcntl.h>
#include <limits.h>
#include <signal.h>
#include <stdio.h>
#include <stdlib.h>
#include <string.h>
#include <sys/socket.h>
#include <sys/types.h>
#include <unistd.h>

static ssize_t (*real_write)(int, const void *, size_t);
static ssize_t (*real_send)(int, const void *, size_t, int);
static int (*real_sync)(int);

__attribute__((constructor)) static void find(void) {
    real_write = (ssize_t (*)(int, const void *, size_t))dlsym(RTLD_NEXT, "write");
    real_send = (ssize_t (*)(int, const void *, size_t, int))dlsym(RTLD_NEXT, "send");
    real_sync = (int (*)(int))dlsym(RTLD_NEXT, "fdatasync");
}

static int is_copy(int fd) {
    char link[64], name[PATH_MAX];
    snprintf(link, sizeof link, "/proc/self/fd/%d", fd);
    ssize_t len = readlink(link, name, sizeof name - 1);
    const char *copy = getenv("DISK_COPY");
    if (len < 0 || copy == NULL) return 0;
    name[len] = 0;
    return strcmp(name, copy) == 0;
}

// Whether it dies in this step: 1 before, 2 half-way, 3 after it.
static int dies(void) {
    static int steps;
    const char *at = getenv("DISK_DIES_AT");
    if (at == NULL || ++steps != (atoi(at) + 2) / 3) return 0;
    return 1 + atoi(at) % 3;
}

static void die(void) { kill(getpid(), SIGKILL); }

static void list(const char *step, ssize_t count) {
    const char *order = getenv("DISK_ORDER");
    if (order == NULL || count < 0) return;
    char line[64];
    int len = snprintf(line, sizeof line, "%s %zd\n", step, count);
    int fd = open(order, O_WRONLY | O_APPEND | O_CREAT, 0600);
    real_write(fd, line, (size_t)len);
    close(fd);
}

ssize_t write(int fd, const void *bytes, size_t len) {
    if (!is_copy(fd)) return real_write(fd, bytes, len);
    int how = dies();
    if (how == 1) die();
    if (how == 2) {
        real_write(fd, bytes, len / 2);
        die();
    }
    ssize_t count = real_write(fd, bytes, len);
    if (how == 3) die();
    list("write", count);
    return count;
}

int fdatasync(int fd) {
    static int syncs;
    const char *at = getenv("DISK_FAILS_AT");
    if (!is_copy(fd)) return real_sync(fd);
    if (at != NULL && ++syncs == atoi(at)) {
        errno = EIO;
        return -1;
    }
    int how = dies();
    if (how == 1) die();
    int result = real_sync(fd);
    if (how > 1) die();
    list("sync", 0);
    return result;
}

ssize_t send(int fd, const void *bytes, size_t len, int flags) {
    int how = dies();
    if (how == 1) die();
    if (how == 2) {
        real_send(fd, bytes, len / 2, flags);
        die();
    }
    // Before the other side can have it; a send of so few bytes is never cut.
    list("send", (ssize_t)len);
    ssize_t count = real_send(fd, bytes, len, flags);
    if (how == 3) die();
    return count;
}
