// Has each write to standard output take one byte at most: to be preloaded.
#define _GNU_SOURCE
#include <dlfcn.h>
#include <sys/uio.h>
#include <unistd.h>

#define REAL(name) ((ssize_t (*)())dlsym(RTLD_NEXT, name))
ssize_t write(int fd, const void *p, size_t n) { return REAL("write")(fd, p, fd == 1 && n > 1 ? 1 : n); }
ssize_t writev(int fd, const struct iovec *p, int n) {
    for (int i = 0; fd == 1 && i < n; i++) {
        if (p[i].iov_len > 0) return write(fd, p[i].iov_base, 1);
    }
    return REAL("writev")(fd, p, n);
}
