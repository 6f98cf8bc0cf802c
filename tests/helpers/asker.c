// Asks a port mapper the same request over and over, a connection each: asker PORT THREADS COUNT BODY-IN-HEX [ADDRESS].
// Prints how many were answered, refused by a close without a byte, and silent for 2 seconds. Ten silences end a thread.
#include <arpa/inet.h>
#include <pthread.h>
#include <stdio.h>
#include <stdlib.h>
#include <string.h>
#include <sys/socket.h>
#include <sys/time.h>
#include <unistd.h>

static struct sockaddr_in to;
static char request[512];
static int length, count;
static long answered, refused, silent;

static void *ask_all(void *unused) {
    static __thread char bytes[65536];
    int silences = 0;
    for (int i = 0; i < count && silences < 10; i++) {
        int s = socket(AF_INET, SOCK_STREAM, 0);
        struct timeval patience = {2, 0};
        setsockopt(s, SOL_SOCKET, SO_RCVTIMEO, &patience, sizeof patience);
        setsockopt(s, SOL_SOCKET, SO_SNDTIMEO, &patience, sizeof patience);
        long got = -1, n = -1;
        if (!connect(s, (void *)&to, sizeof to) && write(s, request, length) == length)
            for (got = 0; (n = read(s, bytes, sizeof bytes)) > 0;) got += n;
        if (got > 0 && n == 0) __sync_add_and_fetch(&answered, 1);
        else if (got == 0 && n == 0) __sync_add_and_fetch(&refused, 1);
        else __sync_add_and_fetch(&silent, 1), silences++;
        close(s);
    }
    return unused;
}

int main(int n, char **words) {
    if (n < 5) return 2;
    int threads = atoi(words[2]);
    count = atoi(words[3]) / threads;
    length = strlen(words[4]) / 2 + 2;
    request[0] = (length - 2) >> 8, request[1] = length - 2;
    for (int i = 2; i < length; i++) sscanf(words[4] + 2 * (i - 2), "%2hhx", (unsigned char *)request + i);
    to.sin_family = AF_INET, to.sin_port = htons(atoi(words[1])), to.sin_addr.s_addr = inet_addr(n > 5 ? words[5] : "127.0.0.1");
    pthread_t all[64];
    for (int i = 0; i < threads && i < 64; i++) pthread_create(all + i, 0, ask_all, 0);
    for (int i = 0; i < threads && i < 64; i++) pthread_join(all[i], 0);
    printf("%ld %ld %ld\n", answered, refused, silent);
    return 0;
}
