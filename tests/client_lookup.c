// Looks a name up, over and over: client_lookup PORT NAME ROUNDS. With EI the call is the one that ei_connect of erl_interface makes, and
// without it that of the client for C. Prints how many were found, and how many nanoseconds a look-up took.
#include <arpa/inet.h>
#include <stdio.h>
#include <stdlib.h>
#include <string.h>
#include <sys/socket.h>
#include <time.h>
#include <unistd.h>

#ifdef EI
// What ei_connect and its kind call. No header that is installed declares it.
int ei_epmd_port_tmo(struct in_addr *address, const char *name, int *version, unsigned milliseconds);
int ei_init(void);

static int port_of(const char *port, const char *name) {
    struct in_addr address = {htonl(INADDR_LOOPBACK)};
    int version;
    (void)port; // It is in the environment.
    return ei_epmd_port_tmo(&address, name, &version, 0);
}
#else
#include "epmd_client.h"

static int port_of(const char *port, const char *name) {
    struct sockaddr_in to = {.sin_family = AF_INET, .sin_port = htons((uint16_t)atoi(port)), .sin_addr.s_addr = htonl(INADDR_LOOPBACK)};
    uint8_t texts[EPMD_BODY_MOST];
    struct epmd_found found;
    int peer = socket(AF_INET, SOCK_STREAM, 0);
    int32_t status = EPMD_WRITE;
    if (connect(peer, (struct sockaddr *)&to, sizeof to) == 0) status = epmd_lookup(peer, (const uint8_t *)name, strlen(name), texts, sizeof texts, &found);
    close(peer);
    return status == EPMD_OK ? found.node.port : -1;
}
#endif

int main(int count, char **words) {
    if (count != 4) return 2;
#ifdef EI
    ei_init();
#endif
    struct timespec began, ended;
    int rounds = atoi(words[3]), found = 0;
    clock_gettime(CLOCK_MONOTONIC, &began);
    for (int i = 0; i < rounds; i++) found += port_of(words[1], words[2]) == 5000;
    clock_gettime(CLOCK_MONOTONIC, &ended);
    printf("%d %.0f\n", found, ((ended.tv_sec - began.tv_sec) * 1e9 + (ended.tv_nsec - began.tv_nsec)) / rounds);
    return 0;
}
