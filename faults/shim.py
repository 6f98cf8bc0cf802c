"""Has calls of a process fail: the page that is shared with faults.c, and which errors the manual pages list for which call."""
import errno, mmap, os, struct, sys, tempfile

HERE = os.path.dirname(os.path.abspath(__file__))
sys.path.append(os.path.join(HERE, "..", "tests", "helpers"))
from daemon import preload

# The kinds of calls, in the order of faults.c: the call, and the errors that its manual page lists.
CALLS = {
    "memory": "ENOMEM",
    "accept4": "EAGAIN EBADF ECONNABORTED EFAULT EINTR EINVAL EMFILE ENFILE ENOBUFS ENOMEM ENOTSOCK EOPNOTSUPP EPERM EPROTO "
    "ENETDOWN ENOPROTOOPT EHOSTDOWN ENONET EHOSTUNREACH ENETUNREACH ENOSR ESOCKTNOSUPPORT EPROTONOSUPPORT ETIMEDOUT",
    "recv": "EAGAIN EBADF ECONNREFUSED EFAULT EINTR EINVAL ENOMEM ENOTCONN ENOTSOCK ECONNRESET ETIMEDOUT",
    "send": "EACCES EAGAIN EALREADY EBADF ECONNRESET EDESTADDRREQ EFAULT EINTR EINVAL EISCONN EMSGSIZE ENOBUFS ENOMEM ENOTCONN "
    "ENOTSOCK EOPNOTSUPP EPIPE",
    "epoll_create1": "EINVAL EMFILE ENFILE ENOMEM",
    "epoll_ctl": "EBADF EEXIST EINVAL ELOOP ENOENT ENOMEM ENOSPC EPERM",
    "epoll_wait": "EBADF EFAULT EINTR EINVAL",
    "eventfd": "EINVAL EMFILE ENFILE ENODEV ENOMEM",
    "write to wake": "EAGAIN EBADF EFAULT EINTR EINVAL EIO",
    "clock_gettime": "EACCES EFAULT EINVAL ENODEV ENOTSUP EPERM",
    "pthread_create": "EAGAIN EINVAL EPERM",
    "open to record": "EACCES EBADF EBUSY EDQUOT EEXIST EFAULT EFBIG EINTR EINVAL EISDIR ELOOP EMFILE ENAMETOOLONG ENFILE ENODEV "
    "ENOENT ENOMEM ENOSPC ENOTDIR ENXIO EOPNOTSUPP EOVERFLOW EPERM EROFS ETXTBSY EWOULDBLOCK",
    "write to record": "EAGAIN EBADF EDESTADDRREQ EDQUOT EFAULT EFBIG EINTR EINVAL EIO ENOSPC EPERM EPIPE",
    "socket": "EACCES EAFNOSUPPORT EINVAL EMFILE ENFILE ENOBUFS ENOMEM EPROTONOSUPPORT",
    "setsockopt": "EBADF EFAULT EINVAL ENOPROTOOPT ENOTSOCK",
    "getsockopt": "EBADF EFAULT EINVAL ENOPROTOOPT ENOTSOCK",
    "bind": "EACCES EADDRINUSE EBADF EINVAL ENOTSOCK EADDRNOTAVAIL EFAULT ENOMEM",
    "listen": "EADDRINUSE EBADF ENOTSOCK EOPNOTSUPP",
    "fcntl": "EACCES EAGAIN EBADF EBUSY EDEADLK EFAULT EINTR EINVAL EMFILE ENOLCK ENOTDIR EPERM",
    "ioctl": "EBADF EFAULT EINVAL ENOTTY",
    "getrlimit": "EFAULT EINVAL EPERM",
}
KINDS = list(CALLS)
FIELDS = "on", "kind", "nth", "run", "error", "refused", "room"
FOR_EVER = 1 << 30


class Faults:
    """A page: `env` has a process use it, and its fields are read and written by their names."""

    def __init__(self):
        with tempfile.NamedTemporaryFile(delete=False) as file:
            file.truncate(mmap.PAGESIZE)
            self.__dict__["path"] = file.name
            self.__dict__["page"] = mmap.mmap(file.fileno(), mmap.PAGESIZE)

    def __enter__(self):
        return self

    def __exit__(self, *_):
        os.unlink(self.path)

    @property
    def env(self):
        return {"LD_PRELOAD": preload("faults", HERE), "FAULT_PAGE": self.path}

    def __getattr__(self, name):
        return struct.unpack_from("i", self.page, 4 * FIELDS.index(name))[0]

    def __setattr__(self, name, value):
        struct.pack_into("i", self.page, 4 * FIELDS.index(name), value)

    def refuse(self, kind, nth, error="ENOMEM", run=1):
        """From when it is `on`, the calls of this kind numbered nth to nth + run - 1 fail so."""
        self.kind, self.nth, self.run, self.error = KINDS.index(kind), nth, run, getattr(errno, error)

    def counts(self):
        """How many calls of each kind were made while it was on."""
        return dict(zip(KINDS, struct.unpack_from(f"{len(KINDS)}i", self.page, 4 * len(FIELDS))))


def say(ok, *words):
    """Prints the line of a case. Whether it was as expected."""
    print(*words, "OK" if ok else "BAD", flush=True)
    return ok
