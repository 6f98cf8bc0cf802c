// Makes each call of the client for C, over and over: client_rounds PORT ROUNDS. Every buffer is one of its own and has just the bytes
// that it needs, or one fewer, so that valgrind sees each access beside it. Calls over a socket have a port mapper that is played here;
// each hundredth round asks the one at PORT too. Prints how many calls were made and how many returned a wrong result.
#include "epmd_client.h"

#include <arpa/inet.h>
#include <stdio.h>
#include <stdlib.h>
#include <string.h>
#include <sys/socket.h>
#include <unistd.h>

static unsigned long calls, wrong;

static void check(int ok, const char *what) {
    calls++;
    if (!ok && wrong++ < 10) printf("wrong: %s\n", what);
}

// A copy of that many bytes, and never NULL.
static uint8_t *own(const void *bytes, size_t size) {
    uint8_t *copy = malloc(size ? size : 1);
    if (bytes) memcpy(copy, bytes, size);
    return copy;
}

static const struct epmd_node NODE = {5000, 6, 5, 77, 0};

// Writes one request into room for exactly its bytes, and into one byte fewer.
#define WRITE(call, wanted, ...)                                                     \
    do {                                                                             \
        for (size_t room = sizeof(wanted) - 2; room < sizeof(wanted); room++) {      \
            uint8_t *out = own(NULL, room);                                          \
            size_t size = 77;                                                        \
            int32_t status = call(__VA_ARGS__ out, room, &size);                     \
            int fits = room == sizeof(wanted) - 1;                                   \
            check(status == (fits ? EPMD_OK : EPMD_BUFFER_TOO_SMALL) && size == sizeof(wanted) - 1 && (!fits || !memcmp(out, wanted, room)), #call); \
            free(out);                                                               \
        }                                                                            \
    } while (0)

static void requests(void) {
    uint8_t *name = own("a", 1), *bad = own("a\n", 2), *none = own("", 0), *extra = own(NULL, 8179);
    memset(extra, 7, 8179);
    WRITE(epmd_write_register, "\0\x0e\x78\x13\x88\x4d\0\0\6\0\5\0\1a\0\0", &NODE, name, 1, none, 0,);
    WRITE(epmd_write_lookup, "\0\2za", name, 1,);
    WRITE(epmd_write_stop, "\0\2sa", name, 1,);
    WRITE(epmd_write_names, "\0\1n", );
    WRITE(epmd_write_dump, "\0\1d", );
    WRITE(epmd_write_kill, "\0\1k", );
    uint8_t *out = own(NULL, EPMD_REQUEST_MOST);
    size_t size = 77;
    check(epmd_write_register(&NODE, name, 1, extra, 8178, out, EPMD_REQUEST_MOST, &size) == EPMD_OK && size == EPMD_REQUEST_MOST, "the largest");
    check(epmd_write_register(&NODE, name, 1, extra, 8179, out, EPMD_REQUEST_MOST, &size) == EPMD_EXTRA_TOO_LONG && size == 0, "one more");
    check(epmd_write_lookup(bad, 2, out, EPMD_REQUEST_MOST, &size) == EPMD_NAME_BAD_BYTE && size == 0, "a bad byte");
    check(epmd_write_stop(none, 0, out, EPMD_REQUEST_MOST, &size) == EPMD_NAME_EMPTY && size == 0, "no name");
    check(epmd_write_stop(extra, 1021, out, EPMD_REQUEST_MOST, &size) == EPMD_NAME_TOO_LONG && size == 0, "a long name");
    free(name), free(bad), free(none), free(extra), free(out);
}

#define ALIVE "\x76\0\0\0\0\4"
#define FOUND "\x77\0\x13\x88\x4d\0\0\6\0\5\0\1a\0\3xyz"
#define LIST "\0\0\x11\x11name a at port 5000\nname b at port 5 at port 7\n"

static void answers(void) {
    for (size_t front = 0; front < sizeof ALIVE; front++) {
        uint8_t *bytes = own(ALIVE, front);
        struct epmd_alive alive = {0, 9};
        int whole = front == sizeof ALIVE - 1;
        check(epmd_read_alive(bytes, front, &alive) == (whole ? EPMD_OK : EPMD_SHORT) && alive.code == (whole ? 0 : 9), "read_alive");
        check((epmd_alive_missing(bytes, front) == 0) == whole, "alive_missing");
        free(bytes);
    }
    for (size_t front = 0; front < sizeof FOUND; front++) {
        uint8_t *bytes = own(FOUND, front);
        struct epmd_found found = {{0, 0}, {0, 0}, {0, 0, 0, 0, 0}};
        int whole = front == sizeof FOUND - 1;
        check(epmd_read_port2(bytes, front, &found) == (whole ? EPMD_OK : EPMD_SHORT) && (!whole || !memcmp(bytes + found.extra.at, "xyz", found.extra.size)), "read_port2");
        check((epmd_port2_missing(bytes, front) == 0) == whole, "port2_missing");
        free(bytes);
    }
    for (size_t front = 0; front < sizeof LIST; front++) {
        uint8_t *bytes = own(LIST, front);
        uint32_t port;
        size_t at = 0, lines = 0;
        struct epmd_line line;
        int32_t status;
        check(epmd_read_list(bytes, front, &port, &at) == (front < 4 ? EPMD_SHORT : EPMD_OK), "read_list");
        while ((status = epmd_read_names_line(bytes, front, &at, &line)) == EPMD_OK) lines++;
        int ended = front == 4 || front == 24 || front == sizeof LIST - 1;
        check(status == (front < 4 ? EPMD_SHORT : ended ? EPMD_LIST_END : EPMD_STRANGE_LINE), "read_names_line");
        check(lines == (front < 24 ? 0 : front < sizeof LIST - 1 ? 1 : 2), "lines");
        free(bytes);
    }
}

// A socket whose peer has answered so already, and sends no more.
static int32_t played(const void *answer, size_t size, int pair[2]) {
    if (socketpair(AF_UNIX, SOCK_STREAM, 0, pair) || write(pair[1], answer, size) != (ssize_t)size || shutdown(pair[1], SHUT_WR)) abort();
    return pair[0];
}

#define OVER(answer, size, ...)                              \
    do {                                                     \
        int pair[2];                                         \
        int32_t peer = played(answer, size, pair);           \
        __VA_ARGS__                                          \
        close(pair[0]), close(pair[1]);                      \
    } while (0)

static void sockets(void) {
    uint8_t *name = own("a", 1), *none = own("", 0), *texts = own(NULL, 4), *list = own(NULL, sizeof LIST - 1);
    struct epmd_alive alive;
    struct epmd_found found;
    size_t size;
    OVER(ALIVE, 6, check(epmd_register(peer, &NODE, name, 1, none, 0, &alive) == EPMD_OK && alive.creation == 4, "register"););
    OVER(ALIVE, 5, check(epmd_register(peer, &NODE, name, 1, none, 0, &alive) == EPMD_SHORT, "register, short"););
    OVER("\x76\2", 2, check(epmd_register(peer, &NODE, name, 1, none, 0, &alive) == EPMD_REFUSED && alive.code == 2, "register, refused"););
    OVER(FOUND, sizeof FOUND - 1, check(epmd_lookup(peer, name, 1, texts, 4, &found) == EPMD_OK && !memcmp(texts, "axyz", 4), "lookup"););
    OVER(FOUND, sizeof FOUND - 1, check(epmd_lookup(peer, name, 1, texts, 3, &found) == EPMD_BUFFER_TOO_SMALL && found.node.port == 5000, "lookup, small"););
    OVER("\x77\1", 2, check(epmd_lookup(peer, name, 1, texts, 4, &found) == EPMD_NOT_REGISTERED, "lookup, none"););
    OVER("X", 1, check(epmd_lookup(peer, name, 1, texts, 4, &found) == EPMD_BAD_TAG, "lookup, tag"););
    OVER(LIST, sizeof LIST - 1, check(epmd_names(peer, list, sizeof LIST - 1, &size) == EPMD_OK && !memcmp(list, LIST, size), "names"););
    OVER(LIST, sizeof LIST - 1, check(epmd_names(peer, list, sizeof LIST - 2, &size) == EPMD_BUFFER_TOO_SMALL && size == sizeof LIST - 1, "names, small"););
    OVER(LIST, sizeof LIST - 2, check(epmd_names(peer, list, sizeof LIST - 1, &size) == EPMD_STRANGE && size == 0, "names, strange"););
    OVER(LIST, sizeof LIST - 1, check(epmd_dump(peer, list, sizeof LIST - 1, &size) == EPMD_OK && !memcmp(list, LIST, size), "dump"););
    OVER("OK", 2, check(epmd_kill(peer) == EPMD_OK, "kill"););
    OVER("", 0, check(epmd_kill(peer) == EPMD_NOT_ALLOWED, "kill, silence"););
    OVER("NOEXIST", 7, check(epmd_stop(peer, name, 1) == EPMD_NO_EXIST, "stop"););
    check(epmd_kill(-1) == EPMD_WRITE, "no socket");
    int pair[2];
    if (socketpair(AF_UNIX, SOCK_STREAM, 0, pair)) abort();
    close(pair[1]);
    check(epmd_kill(pair[0]) == EPMD_WRITE, "a peer that has left, and no SIGPIPE");
    close(pair[0]);
    free(name), free(none), free(texts), free(list);
}

static int32_t connected(int port) {
    struct sockaddr_in to = {.sin_family = AF_INET, .sin_port = htons((uint16_t)port), .sin_addr.s_addr = htonl(INADDR_LOOPBACK)};
    int peer = socket(AF_INET, SOCK_STREAM, 0);
    if (connect(peer, (struct sockaddr *)&to, sizeof to)) abort();
    return peer;
}

// A peer that says nothing, at a socket that does not block.
static void silence(void) {
    int pair[2];
    if (socketpair(AF_UNIX, SOCK_STREAM | SOCK_NONBLOCK, 0, pair)) abort();
    check(epmd_kill(pair[0]) == EPMD_TOO_MANY_TURNS, "silence");
    close(pair[0]), close(pair[1]);
}

static void real(int port) {
    uint8_t *name = own("rounds", 6), *none = own("", 0), *texts = own(NULL, EPMD_BODY_MOST);
    struct epmd_alive alive;
    struct epmd_found found;
    int32_t held = connected(port), peer = connected(port);
    check(epmd_register(held, &NODE, name, 6, none, 0, &alive) == EPMD_OK && alive.creation >= 4, "real register");
    check(epmd_lookup(peer, name, 6, texts, EPMD_BODY_MOST, &found) == EPMD_OK && found.node.port == 5000, "real lookup");
    close(held), close(peer), free(name), free(none), free(texts);
    // The name is free once the port mapper has seen that the connection is closed.
    usleep(20000);
}

int main(int count, char **words) {
    if (count != 3) return 2;
    for (int round = 0; round < atoi(words[2]); round++) {
        requests();
        answers();
        sockets();
        if (round % 100 == 0) {
            silence();
            real(atoi(words[1]));
        }
    }
    printf("%lu calls, %lu wrong\n", calls, wrong);
    return wrong != 0;
}
