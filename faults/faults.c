// Has calls of the C library fail: to be preloaded. The file of the environment's FAULT_PAGE is shared with the test. While `on` is set the
// calls of each kind are counted, and those of the wanted kind numbered nth to nth + run - 1 fail with `error` before anything is done.
// Requests for memory of the sizes BEGIN, END and ASK are not counted; no other request has these sizes. The first two set and reset `on`.
// The third fails if and only if a request was refused since the last of these.
#define _GNU_SOURCE
#include <dlfcn.h>
#include <errno.h>
#include <fcntl.h>
#include <pthread.h>
#include <stdarg.h>
#include <stdlib.h>
#include <string.h>
#include <sys/epoll.h>
#include <sys/eventfd.h>
#include <sys/ioctl.h>
#include <sys/mman.h>
#include <sys/resource.h>
#include <sys/socket.h>
#include <time.h>
#include <unistd.h>

enum { BEGIN = 1000003, END = 1000033, ASK = 1000037, FILES = 65536 };
enum kind {
    MEMORY, ACCEPT, RECEIVE, SEND, POLL_MAKE, POLL_CHANGE, POLL_WAIT, WAKE_MAKE, WAKE, CLOCK, THREAD, OPEN, WRITE,
    SOCKET, OPTION, OPTION_READ, BIND, LISTEN, COPY, MODE, LIMIT, KINDS
};
struct page { volatile int on, kind, nth, run, error, refused, room, count[KINDS]; };
static struct page none, *page = &none;
static volatile char wakes[FILES], records[FILES];
static struct { volatile int poll; struct epoll_event what; } watched[FILES];

void *__libc_malloc(size_t), *__libc_calloc(size_t, size_t), *__libc_realloc(void *, size_t), *__libc_memalign(size_t, size_t);

__attribute__((constructor)) static void open_page(void) {
    const char *path = getenv("FAULT_PAGE");
    int fd = path ? open(path, O_RDWR | O_CLOEXEC) : -1;
    void *at = fd < 0 ? MAP_FAILED : mmap(0, sizeof none, PROT_READ | PROT_WRITE, MAP_SHARED, fd, 0);
    if (at != MAP_FAILED) page = at;
    if (fd >= 0) close(fd);
}

// Whether this call fails; errno says why.
static int fails(enum kind kind) {
    if (!page->on) return 0;
    int number = __sync_add_and_fetch(&page->count[kind], 1);
    if (page->kind != kind || number < page->nth || number - page->nth >= page->run) return 0;
    __sync_add_and_fetch(&page->refused, 1);
    errno = page->error;
    return 1;
}

static void *memory_fails(size_t n) {
    static char refused;
    static int unasked;
    if (n == ASK) return __sync_lock_test_and_set(&unasked, 0) ? &refused : 0;
    if (n == BEGIN || n == END) {
        page->on = n == BEGIN;
        return 0;
    }
    if (!fails(MEMORY)) return 0;
    __sync_add_and_fetch(&unasked, 1);
    return &refused;
}

void *malloc(size_t n) { return memory_fails(n) ? 0 : __libc_malloc(n); }
void *calloc(size_t m, size_t n) { return memory_fails(n) ? 0 : __libc_calloc(m, n); }
void *realloc(void *p, size_t n) { return memory_fails(n) ? 0 : __libc_realloc(p, n); }
void *memalign(size_t a, size_t n) { return memory_fails(n) ? 0 : __libc_memalign(a, n); }
void *aligned_alloc(size_t a, size_t n) { return memory_fails(n) ? 0 : __libc_memalign(a, n); }
int posix_memalign(void **at, size_t a, size_t n) {
    void *p = memory_fails(n) ? 0 : __libc_memalign(a, n);
    if (!p) return ENOMEM;
    *at = p;
    return 0;
}

#define REAL(name) ((__typeof__(&name))dlsym(RTLD_NEXT, #name))
#define IS(of, fd) ((fd) >= 0 && (fd) < FILES && of[fd])
static void note(volatile char *of, int fd) {
    if (fd >= 0 && fd < FILES) of[fd] = 1;
}

// Whether this call on a socket fails. EAGAIN says that the poll will report more, so it is made to.
static int fails_at(enum kind kind, int fd) {
    if (!fails(kind)) return 0;
    if (errno == EAGAIN && fd >= 0 && fd < FILES && watched[fd].poll) {
        REAL(epoll_ctl)(watched[fd].poll, EPOLL_CTL_MOD, fd, &watched[fd].what);
        errno = EAGAIN;
    }
    return 1;
}

int accept4(int fd, struct sockaddr *a, socklen_t *n, int flags) {
    if (fails_at(ACCEPT, fd)) return -1;
    int got = REAL(accept4)(fd, a, n, flags), room = page->room;
    if (got >= 0 && got < FILES) watched[got].poll = 0;
    if (got >= 0 && room) setsockopt(got, SOL_SOCKET, SO_SNDBUF, &room, sizeof room);
    return got;
}

ssize_t recv(int fd, void *p, size_t n, int f) { return fails_at(RECEIVE, fd) ? -1 : REAL(recv)(fd, p, n, f); }
ssize_t send(int fd, const void *p, size_t n, int f) { return fails_at(SEND, fd) ? -1 : REAL(send)(fd, p, n, f); }
int epoll_create1(int flags) { return fails(POLL_MAKE) ? -1 : REAL(epoll_create1)(flags); }
// EEXIST says that the poll has it already, so it is made to.
int epoll_ctl(int fd, int what, int of, struct epoll_event *e) {
    int error = what != EPOLL_CTL_DEL && fails(POLL_CHANGE) ? errno : 0;
    if (error && error != EEXIST) return -1;
    int done = REAL(epoll_ctl)(fd, what, of, e);
    if (of >= 0 && of < FILES) {
        watched[of].poll = what == EPOLL_CTL_DEL || done ? 0 : fd;
        if (e) watched[of].what = *e;
    }
    if (error) errno = error;
    return error ? -1 : done;
}
int epoll_wait(int fd, struct epoll_event *e, int n, int patience) {
    return fails(POLL_WAIT) ? -1 : REAL(epoll_wait)(fd, e, n, patience);
}
int eventfd(unsigned count, int flags) {
    if (fails(WAKE_MAKE)) return -1;
    int fd = REAL(eventfd)(count, flags);
    note(wakes, fd);
    return fd;
}
int clock_gettime(clockid_t id, struct timespec *at) { return fails(CLOCK) ? -1 : REAL(clock_gettime)(id, at); }
int pthread_create(pthread_t *at, const pthread_attr_t *how, void *(*what)(void *), void *with) {
    return fails(THREAD) ? page->error : REAL(pthread_create)(at, how, what, with);
}

// The recording is what is made, and was not there before.
int open(const char *path, int flags, ...) {
    va_list rest;
    va_start(rest, flags);
    mode_t mode = flags & (O_CREAT | O_TMPFILE) ? va_arg(rest, mode_t) : 0;
    va_end(rest);
    int is_recording = (flags & O_EXCL) != 0;
    if (is_recording && fails(OPEN)) return -1;
    int fd = REAL(open)(path, flags, mode);
    if (is_recording) note(records, fd);
    return fd;
}
ssize_t write(int fd, const void *p, size_t n) {
    if ((IS(records, fd) && fails(WRITE)) || (IS(wakes, fd) && fails(WAKE))) return -1;
    return REAL(write)(fd, p, n);
}

int socket(int family, int type, int protocol) { return fails(SOCKET) ? -1 : REAL(socket)(family, type, protocol); }
int setsockopt(int fd, int level, int name, const void *value, socklen_t n) {
    return fails(OPTION) ? -1 : REAL(setsockopt)(fd, level, name, value, n);
}
int getsockopt(int fd, int level, int name, void *value, socklen_t *n) {
    return fails(OPTION_READ) ? -1 : REAL(getsockopt)(fd, level, name, value, n);
}
int bind(int fd, const struct sockaddr *a, socklen_t n) { return fails(BIND) ? -1 : REAL(bind)(fd, a, n); }
int listen(int fd, int backlog) { return fails(LISTEN) ? -1 : REAL(listen)(fd, backlog); }
int fcntl(int fd, int what, ...) {
    va_list rest;
    va_start(rest, what);
    long with = va_arg(rest, long);
    va_end(rest);
    return fails(COPY) ? -1 : REAL(fcntl)(fd, what, with);
}
int ioctl(int fd, unsigned long what, ...) {
    va_list rest;
    va_start(rest, what);
    void *with = va_arg(rest, void *);
    va_end(rest);
    return fails(MODE) ? -1 : REAL(ioctl)(fd, what, with);
}
int getrlimit(__rlimit_resource_t what, struct rlimit *limit) { return fails(LIMIT) ? -1 : REAL(getrlimit)(what, limit); }
