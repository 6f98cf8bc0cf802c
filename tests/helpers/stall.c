// Has writes to one file wait: to be preloaded. The environment's STALL_PATH names the file; behind its first STALL_AFTER writes
// each one waits for STALL_SECONDS before it is made, or for ever where that is 0.
#define _GNU_SOURCE
#include <dlfcn.h>
#include <stdio.h>
#include <stdlib.h>
#include <string.h>
#include <sys/uio.h>
#include <unistd.h>

static void stall(int fd) {
    static int writes;
    const char *wanted = getenv("STALL_PATH"), *after = getenv("STALL_AFTER"), *seconds = getenv("STALL_SECONDS");
    char link[64], path[4096];
    snprintf(link, sizeof link, "/proc/self/fd/%d", fd);
    ssize_t n = wanted ? readlink(link, path, sizeof path - 1) : -1;
    if (n < 0) return;
    path[n] = 0;
    if (strcmp(path, wanted) || __sync_fetch_and_add(&writes, 1) < (after ? atoi(after) : 0)) return;
    int rest = seconds ? atoi(seconds) : 0;
    if (!rest) for (;;) sleep(3600);
    while (rest > 0) rest = sleep(rest);
}

#define REAL(name) ((ssize_t (*)())dlsym(RTLD_NEXT, name))
ssize_t write(int fd, const void *p, size_t n) { stall(fd); return REAL("write")(fd, p, n); }
ssize_t writev(int fd, const struct iovec *p, int n) { stall(fd); return REAL("writev")(fd, p, n); }
ssize_t pwrite(int fd, const void *p, size_t n, off_t at) { stall(fd); return REAL("pwrite")(fd, p, n, at); }
ssize_t pwrite64(int fd, const void *p, size_t n, off_t at) { stall(fd); return REAL("pwrite64")(fd, p, n, at); }
