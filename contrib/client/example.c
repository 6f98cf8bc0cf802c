/*
 * Registers a node until its input ends, looks one up, or lists all of them, at the port mapper of this host.
 *
 *     cc -o example example.c $(pkg-config --cflags --libs epmd_client)
 *     ./example register PORT-OF-EPMD NAME PORT
 *     ./example lookup PORT-OF-EPMD NAME
 *     ./example names PORT-OF-EPMD
 */
#include "epmd_client.h"

#include <arpa/inet.h>
#include <stdio.h>
#include <stdlib.h>
#include <string.h>
#include <sys/socket.h>
#include <sys/time.h>
#include <unistd.h>

/* How many bytes of a list there is room for. */
#define LIST_ROOM 65536

/* One read or write waits for so long, and a call for at most 1,000 of them: ten seconds. */
static const struct timeval TURN = {0, 10000};

static int fail(const char *what, int32_t status) {
    fprintf(stderr, "%s: status %d\n", what, (int)status);
    return 1;
}

/* A connection to the port mapper of this host, for one call. */
static int32_t connected(const char *port) {
    struct sockaddr_in address = {.sin_family = AF_INET, .sin_port = htons((uint16_t)atoi(port))};
    address.sin_addr.s_addr = htonl(INADDR_LOOPBACK);
    int32_t peer = socket(AF_INET, SOCK_STREAM | SOCK_CLOEXEC, 0);
    if (peer < 0 || setsockopt(peer, SOL_SOCKET, SO_RCVTIMEO, &TURN, sizeof TURN) != 0 ||
        setsockopt(peer, SOL_SOCKET, SO_SNDTIMEO, &TURN, sizeof TURN) != 0 ||
        connect(peer, (struct sockaddr *)&address, sizeof address) != 0) {
        perror("epmd");
        exit(1);
    }
    return peer;
}

static int do_register(int32_t peer, const char *name, const char *port) {
    const struct epmd_node node = {
        .port = (uint16_t)atoi(port), .highest = 6, .lowest = 5, .kind = EPMD_HIDDEN_NODE, .protocol = EPMD_TCP_IPV4};
    struct epmd_alive alive;
    int32_t status = epmd_register(peer, &node, (const uint8_t *)name, strlen(name), (const uint8_t *)"", 0, &alive);
    if (status == EPMD_REFUSED) {
        printf("refused %u\n", alive.code);
        return 1;
    }
    if (status != EPMD_OK) return fail("register", status);
    printf("creation %u\n", (unsigned)alive.creation);
    fflush(stdout);
    while (getchar() != EOF) {
    }
    return 0;
}

static int do_lookup(int32_t peer, const char *name) {
    uint8_t texts[EPMD_BODY_MOST];
    struct epmd_found found;
    int32_t status = epmd_lookup(peer, (const uint8_t *)name, strlen(name), texts, sizeof texts, &found);
    if (status == EPMD_NOT_REGISTERED) {
        printf("not registered\n");
        return 0;
    }
    if (status != EPMD_OK) return fail("lookup", status);
    printf("%.*s at port %u, kind %u, versions %u to %u, %zu extra bytes\n", (int)found.name.size, texts + found.name.at, found.node.port,
           found.node.kind, found.node.lowest, found.node.highest, found.extra.size);
    return 0;
}

static int do_names(int32_t peer) {
    static uint8_t list[LIST_ROOM];
    struct epmd_line line;
    size_t size, at;
    uint32_t port;
    int32_t status = epmd_names(peer, list, sizeof list, &size);
    if (status == EPMD_OK) status = epmd_read_list(list, size, &port, &at);
    if (status != EPMD_OK) return fail("names", status);
    while ((status = epmd_read_names_line(list, size, &at, &line)) == EPMD_OK)
        printf("%.*s at port %u\n", (int)line.name.size, list + line.name.at, line.port);
    return status == EPMD_LIST_END ? 0 : fail("names", status);
}

int main(int count, char **words) {
    if (count == 5 && strcmp(words[1], "register") == 0) return do_register(connected(words[2]), words[3], words[4]);
    if (count == 4 && strcmp(words[1], "lookup") == 0) return do_lookup(connected(words[2]), words[3]);
    if (count == 3 && strcmp(words[1], "names") == 0) return do_names(connected(words[2]));
    fprintf(stderr, "usage: %s register|lookup|names PORT-OF-EPMD [NAME [PORT]]\n", words[0]);
    return 2;
}
