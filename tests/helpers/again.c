// again PORT NAME ROUNDS a|b: registers a name, closes the connection and registers it again at once, over and over.
// In way a it closes and then connects; in way b the next connection is there before the old one is closed.
// Prints how many replies had a result other than 0, and how many rounds had no complete reply within 30 seconds. Then it prints how many
// microseconds a round took at most. Ten rounds without a reply end it.
#include <arpa/inet.h>
#include <netinet/tcp.h>
#include <stdio.h>
#include <stdlib.h>
#include <string.h>
#include <sys/socket.h>
#include <sys/time.h>
#include <time.h>
#include <unistd.h>

static struct sockaddr_in to;

static int connection(void) {
    int s = socket(AF_INET, SOCK_STREAM, 0), on = 1;
    struct timeval patience = {30, 0};
    setsockopt(s, SOL_SOCKET, SO_RCVTIMEO, &patience, sizeof patience);
    setsockopt(s, SOL_SOCKET, SO_SNDTIMEO, &patience, sizeof patience);
    setsockopt(s, IPPROTO_TCP, TCP_NODELAY, &on, sizeof on);
    if (!connect(s, (void *)&to, sizeof to)) return s;
    close(s);
    return -1;
}

static double now(void) {
    struct timespec t;
    clock_gettime(CLOCK_MONOTONIC, &t);
    return t.tv_sec * 1e6 + t.tv_nsec / 1e3;
}

int main(int n, char **words) {
    if (n < 5) return 2;
    int name = strlen(words[2]), rounds = atoi(words[3]), early = words[4][0] == 'b', length = 15 + name, old = -1;
    unsigned char request[300] = {0, 13 + name, 120, 5000 >> 8, 5000 & 255, 77, 0, 0, 6, 0, 5, 0, name}, answer[6];
    memcpy(request + 13, words[2], name);
    to.sin_family = AF_INET, to.sin_port = htons(atoi(words[1])), to.sin_addr.s_addr = htonl(INADDR_LOOPBACK);
    long refused = 0, without = 0;
    double most = 0;
    for (int i = 0; i < rounds && without < 10; i++) {
        double start = now();
        int s = early ? connection() : -1, got = 0, some;
        if (old >= 0) close(old);
        if (!early) s = connection();
        if (s >= 0 && send(s, request, length, MSG_NOSIGNAL) == length)
            while (got < 6 && (some = read(s, answer + got, 6 - got)) > 0) got += some;
        if (got < 6 || answer[0] != 118) without++;
        else if (answer[1] != 0) refused++;
        double took = now() - start;
        if (took > most) most = took;
        old = s;
    }
    printf("%ld %ld %.0f\n", refused, without, most);
    return 0;
}
