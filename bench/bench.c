/* bench: measures two port mappers side by side.
 *
 *     bench OTHER OURS          each is the path of a port mapper
 *
 * It starts each with -port N -address 127.0.0.1, on a free port of its own, and measures them alternately, round by round. At
 * the end, and if it is interrupted, it ends both by their process ids. A figure is the median of its rounds. Compare figures
 * only by their ratios within one run: machine and client are then the same for both. The status is 0, 1 if a reply was wrong, or
 * 2 if it could not measure.
 */
#define _GNU_SOURCE
#include <arpa/inet.h>
#include <fcntl.h>
#include <pthread.h>
#include <signal.h>
#include <stdarg.h>
#include <stdatomic.h>
#include <stdint.h>
#include <stdio.h>
#include <stdlib.h>
#include <string.h>
#include <sys/prctl.h>
#include <sys/resource.h>
#include <sys/socket.h>
#include <sys/wait.h>
#include <time.h>
#include <unistd.h>

enum {
    CLIENTS = 8,        /* threads of the client, one connection each */
    ROUNDS = 7,         /* for each figure and port mapper */
    ROUND_MS = 800,
    FEW = 10,           /* names held */
    MANY = 900,
    NAME_LENGTH = 9,    /* of a name that is held */
    RING = 64,          /* names that a client registers in rotation, so that no name returns at once */
    SECONDS_MOST = 170, /* for the whole run */
    NOISY_SPREAD = 30,  /* per cent between the fastest and the slowest round, of the median */
    NOISY_OTHERS = 10,  /* per cent of the processors that other programs took */
};

/* ---- the two port mappers ---- */

struct mapper {
    const char *label, *path;
    int port;
    pid_t pid;
    clockid_t clock;    /* its processor time */
    int held[MANY];     /* connections that hold a name */
    int names;
};

static struct mapper mappers[2] = {{.label = "other"}, {.label = "ours"}};
static atomic_ulong wrong_answers;

static void end_all(void)
{
    for (int i = 0; i < 2; i++) {
        if (mappers[i].pid > 0) {
            kill(mappers[i].pid, SIGTERM);
            waitpid(mappers[i].pid, NULL, 0);
            mappers[i].pid = 0;
        }
    }
}

static void on_signal(int number)
{
    static const char text[] = "bench: interrupted, or too slow\n";
    ssize_t ignored = write(2, text, sizeof text - 1);
    (void)ignored;
    (void)number;
    for (int i = 0; i < 2; i++)
        if (mappers[i].pid > 0)
            kill(mappers[i].pid, SIGKILL);
    _exit(2);
}

static void give_up(const char *format, ...)
{
    va_list rest;
    va_start(rest, format);
    fputs("bench: ", stderr);
    vfprintf(stderr, format, rest);
    fputc('\n', stderr);
    va_end(rest);
    end_all();
    exit(2);
}

static double seconds_of(clockid_t clock)
{
    struct timespec t = {0};
    clock_gettime(clock, &t);
    return (double)t.tv_sec + (double)t.tv_nsec / 1e9;
}

static void rest_for(double seconds)
{
    struct timespec t = {(time_t)seconds, (long)((seconds - (double)(time_t)seconds) * 1e9)};
    nanosleep(&t, NULL);
}

static struct sockaddr_in loopback(unsigned last, int port)
{
    struct sockaddr_in at = {.sin_family = AF_INET, .sin_port = htons((uint16_t)port)};
    at.sin_addr.s_addr = htonl(0x7F000000u | last);
    return at;
}

/* Returns a connection, or -1. `from` is the lower part of its loopback address. The peer that closes first keeps the pair of
 * addresses for a minute. The client ends registrations, so these come from many addresses. */
static int dial(const struct mapper *mapper, unsigned from)
{
    struct timeval patience = {.tv_sec = 5};
    struct sockaddr_in to = loopback(1, mapper->port), own = loopback(from, 0);
    int one = 1, fd = socket(AF_INET, SOCK_STREAM | SOCK_CLOEXEC, 0);
    if (fd < 0)
        return -1;
    setsockopt(fd, SOL_SOCKET, SO_RCVTIMEO, &patience, sizeof patience);
    setsockopt(fd, SOL_SOCKET, SO_SNDTIMEO, &patience, sizeof patience);
    setsockopt(fd, IPPROTO_IP, IP_BIND_ADDRESS_NO_PORT, &one, sizeof one);
    if ((from > 1 && bind(fd, (struct sockaddr *)&own, sizeof own)) || connect(fd, (struct sockaddr *)&to, sizeof to)) {
        close(fd);
        return -1;
    }
    return fd;
}

static int free_port(int first)
{
    for (int port = first; port < first + 1000; port++) {
        struct sockaddr_in at = loopback(1, port);
        int fd = socket(AF_INET, SOCK_STREAM | SOCK_CLOEXEC, 0);
        int is_free = bind(fd, (struct sockaddr *)&at, sizeof at) == 0;
        close(fd);
        if (is_free)
            return port;
    }
    give_up("no free port");
    return 0;
}

static void start(struct mapper *mapper, int first_port)
{
    char port[16];
    mapper->port = free_port(first_port);
    snprintf(port, sizeof port, "%d", mapper->port);
    mapper->pid = fork();
    if (mapper->pid == 0) {
        struct rlimit files = {4096, 4096};
        int null = open("/dev/null", O_RDWR);
        prctl(PR_SET_PDEATHSIG, SIGKILL);
        setrlimit(RLIMIT_NOFILE, &files);
        dup2(null, 0);
        dup2(null, 1);
        dup2(null, 2);
        execl(mapper->path, mapper->path, "-port", port, "-address", "127.0.0.1", (char *)NULL);
        _exit(127);
    }
    if (mapper->pid < 0 || clock_getcpuclockid(mapper->pid, &mapper->clock))
        give_up("%s can't be started", mapper->path);
    for (int i = 0; i < 200; i++) {
        int fd = dial(mapper, 1);
        if (fd >= 0) {
            close(fd);
            return;
        }
        if (waitpid(mapper->pid, NULL, WNOHANG) == mapper->pid) {
            mapper->pid = 0;
            break;
        }
        rest_for(0.05);
    }
    give_up("%s doesn't listen", mapper->path);
}

/* Returns the resident memory of a port mapper, in kB. */
static double memory_of(const struct mapper *mapper)
{
    char line[256];
    long kb = 0;
    snprintf(line, sizeof line, "/proc/%d/status", (int)mapper->pid);
    FILE *file = fopen(line, "r");
    while (file && fgets(line, sizeof line, file))
        if (sscanf(line, "VmRSS: %ld", &kb) == 1)
            break;
    if (file)
        fclose(file);
    return (double)kb;
}

/* ---- requests and their replies ---- */

static size_t put_length(uint8_t *to, size_t length)
{
    to[0] = (uint8_t)(length >> 8);
    to[1] = (uint8_t)length;
    return 2;
}

static size_t make_lookup(uint8_t *to, const char *name)
{
    size_t length = strlen(name);
    put_length(to, 1 + length);
    to[2] = 122;
    memcpy(to + 3, name, length);
    return 3 + length;
}

static size_t make_registration(uint8_t *to, const char *name, int port)
{
    size_t length = strlen(name);
    put_length(to, 13 + length);
    to[2] = 120;
    put_length(to + 3, (size_t)port);
    memcpy(to + 5, (uint8_t[]){77, 0, 0, 6, 0, 5}, 6);
    put_length(to + 11, length);
    memcpy(to + 13, name, length);
    put_length(to + 13 + length, 0);
    return 15 + length;
}

/* Reads to the end of the connection, or `most` bytes. Returns the number of bytes, or -1. */
static ssize_t read_all(int fd, uint8_t *to, size_t most)
{
    size_t have = 0;
    while (have < most) {
        ssize_t more = recv(fd, to + have, most - have, 0);
        if (more < 0)
            return -1;
        if (more == 0)
            break;
        have += (size_t)more;
    }
    return (ssize_t)have;
}

static int is_sent(int fd, const uint8_t *bytes, size_t length)
{
    return send(fd, bytes, length, MSG_NOSIGNAL) == (ssize_t)length;
}

static int held_port(int number) { return 10000 + number; }

static void held_name(char *to, int number) { snprintf(to, NAME_LENGTH + 1, "held-%04d", number); }

/* Each of these makes one request, and returns if the reply was right. */

static int look_up(const struct mapper *mapper, unsigned client, unsigned turn)
{
    uint8_t out[64], in[64];
    char name[NAME_LENGTH + 1];
    int number = (int)((client * 7919 + turn) % (unsigned)mapper->names);
    held_name(name, number);
    int fd = dial(mapper, 1), is_right = 0;
    if (fd < 0)
        return 0;
    if (is_sent(fd, out, make_lookup(out, name)))
        is_right = read_all(fd, in, sizeof in) == 14 + NAME_LENGTH && in[0] == 119 && in[1] == 0
                   && in[2] * 256 + in[3] == held_port(number) && memcmp(in + 12, name, NAME_LENGTH) == 0;
    close(fd);
    return is_right;
}

/* A registration and its end. */
static int register_once(const struct mapper *mapper, unsigned client, unsigned turn)
{
    uint8_t out[64], in[8];
    char name[32];
    snprintf(name, sizeof name, "new-%u-%u", client, turn % RING);
    int fd = dial(mapper, (1 + client) * 256 + 1 + turn % 200), is_right = 0;
    if (fd < 0)
        return 0;
    if (is_sent(fd, out, make_registration(out, name, 20000)))
        is_right = read_all(fd, in, 6) == 6 && in[0] == 118 && in[1] == 0;
    close(fd);
    return is_right;
}

static int ask_list(const struct mapper *mapper, unsigned client, unsigned turn)
{
    static _Thread_local uint8_t in[65536];
    size_t line = strlen("name ") + NAME_LENGTH + strlen(" at port 10000\n");
    int fd = dial(mapper, 1), is_right = 0;
    (void)client;
    (void)turn;
    if (fd < 0)
        return 0;
    if (is_sent(fd, (const uint8_t[]){0, 1, 110}, 3))
        is_right = read_all(fd, in, sizeof in) == (ssize_t)(4 + line * (size_t)mapper->names)
                   && in[2] * 256 + in[3] == mapper->port;
    close(fd);
    return is_right;
}

/* Registers names until the port mapper holds `names` of them. */
static void hold(struct mapper *mapper, int names)
{
    while (mapper->names < names) {
        uint8_t out[64], in[8];
        char name[NAME_LENGTH + 1];
        int fd = dial(mapper, 1);
        held_name(name, mapper->names);
        if (fd < 0 || !is_sent(fd, out, make_registration(out, name, held_port(mapper->names)))
            || read_all(fd, in, 6) != 6 || in[1] != 0)
            give_up("%s holds only %d names", mapper->path, mapper->names);
        mapper->held[mapper->names++] = fd;
    }
}

/* ---- rounds ---- */

typedef int (*Request)(const struct mapper *, unsigned client, unsigned turn);

struct job {
    const struct mapper *mapper;
    Request request;
    unsigned client, turn;
    double until;
    unsigned long right, wrong;
};

static void *work(void *given)
{
    struct job *job = given;
    while (seconds_of(CLOCK_MONOTONIC) < job->until) {
        if (job->request(job->mapper, job->client, job->turn++))
            job->right++;
        else if (++job->wrong > 100)
            break;
    }
    return NULL;
}

/* The result of one round: right replies in a second, and processor seconds for 100,000 of them. */
struct round {
    double rate, processor;
};

static struct round run_round(const struct mapper *mapper, Request request, double seconds)
{
    static unsigned turns;
    struct job jobs[CLIENTS];
    pthread_t threads[CLIENTS];
    unsigned long right = 0;
    double begun = seconds_of(CLOCK_MONOTONIC), used = seconds_of(mapper->clock);
    for (unsigned i = 0; i < CLIENTS; i++) {
        jobs[i] = (struct job){mapper, request, i, turns, begun + seconds, 0, 0};
        if (pthread_create(&threads[i], NULL, work, &jobs[i]))
            give_up("no thread can be started");
    }
    turns += 100003;
    for (unsigned i = 0; i < CLIENTS; i++) {
        pthread_join(threads[i], NULL);
        right += jobs[i].right;
        atomic_fetch_add(&wrong_answers, jobs[i].wrong);
    }
    double took = seconds_of(CLOCK_MONOTONIC) - begun;
    rest_for(0.05);
    used = seconds_of(mapper->clock) - used;
    if (right == 0)
        give_up("%s sent no right reply", mapper->path);
    return (struct round){(double)right / took, used * 100000 / (double)right};
}

static int compare(const void *one, const void *other)
{
    double a = *(const double *)one, b = *(const double *)other;
    return (a > b) - (a < b);
}

/* Returns the median of the rounds. Raises `spread` to the distance of the outer rounds in per cent of the median. */
static double median(double *values, int *spread)
{
    qsort(values, ROUNDS, sizeof *values, compare);
    double middle = values[ROUNDS / 2];
    int is = (int)(100 * (values[ROUNDS - 1] - values[0]) / middle);
    if (spread && is > *spread)
        *spread = is;
    return middle;
}

/* ---- the table ---- */

static int noisy_rows;

static void print_row(const char *what, double other, double ours, int spread)
{
    int digits = other < 100 ? 2 : 0;
    printf("%-46s %10.*f %10.*f %8.2f", what, digits, other, digits, ours, ours / other);
    if (spread >= 0)
        printf(" %5d %%%s", spread, spread > NOISY_SPREAD ? "  noisy" : "");
    if (spread > NOISY_SPREAD)
        noisy_rows++;
    putchar('\n');
    fflush(stdout);
}

static void measure(const char *what, Request request)
{
    double rate[2][ROUNDS], processor[2][ROUNDS], rates[2], costs[2];
    int spread = 0, cost_spread = 0;
    char text[64];
    for (int i = 0; i < 2; i++)
        run_round(&mappers[i], request, 0.2);
    for (int r = 0; r < ROUNDS; r++) {
        for (int i = 0; i < 2; i++) {
            struct round got = run_round(&mappers[i], request, ROUND_MS / 1e3);
            rate[i][r] = got.rate;
            processor[i][r] = got.processor;
        }
    }
    for (int i = 0; i < 2; i++) {
        rates[i] = median(rate[i], &spread);
        costs[i] = median(processor[i], &cost_spread);
    }
    snprintf(text, sizeof text, "%s, a second", what);
    print_row(text, rates[0], rates[1], spread);
    print_row("    processor seconds for 100,000", costs[0], costs[1], cost_spread);
}

static void print_memory(const char *what)
{
    print_row(what, memory_of(&mappers[0]), memory_of(&mappers[1]), -1);
}

/* Returns the processor time of the whole machine that was used or stolen, in seconds. */
static double machine_time(void)
{
    unsigned long long part[8] = {0}, used = 0;
    FILE *file = fopen("/proc/stat", "r");
    if (!file)
        return 0;
    int found = fscanf(file, "cpu %llu %llu %llu %llu %llu %llu %llu %llu", &part[0], &part[1], &part[2], &part[3], &part[4],
                      &part[5], &part[6], &part[7]);
    fclose(file);
    for (int i = 0; i < found; i++)
        used += i == 3 || i == 4 ? 0 : part[i];
    return (double)used / (double)sysconf(_SC_CLK_TCK);
}

static double own_time(void)
{
    return seconds_of(CLOCK_PROCESS_CPUTIME_ID) + seconds_of(mappers[0].clock) + seconds_of(mappers[1].clock);
}

int main(int count, char **words)
{
    if (count != 3) {
        fputs("bench OTHER OURS, the paths of two port mappers\n", stderr);
        return 2;
    }
    struct rlimit files;
    getrlimit(RLIMIT_NOFILE, &files);
    files.rlim_cur = files.rlim_max;
    setrlimit(RLIMIT_NOFILE, &files);
    unsetenv("ERL_EPMD_PORT");
    unsetenv("ERL_EPMD_ADDRESS");
    for (int i = 0; i < 2; i++)
        mappers[i].path = words[1 + i];
    signal(SIGPIPE, SIG_IGN);
    signal(SIGINT, on_signal);
    signal(SIGTERM, on_signal);
    signal(SIGALRM, on_signal);
    alarm(SECONDS_MOST);
    for (int i = 0; i < 2; i++)
        start(&mappers[i], 24400 + 1000 * i);

    long processors = sysconf(_SC_NPROCESSORS_ONLN);
    double begun = seconds_of(CLOCK_MONOTONIC), machine = machine_time(), own = own_time();
    printf("other: %s\nours:  %s\n%d rounds of %d ms for each, alternately; %d clients, a connection for each request; %ld processors\n\n",
           words[1], words[2], ROUNDS, ROUND_MS, CLIENTS, processors);
    printf("%-46s %10s %10s %8s %7s\n", "", "other", "ours", "ratio", "spread");
    print_memory("memory at the start, kB");
    for (int i = 0; i < 2; i++)
        hold(&mappers[i], FEW);
    measure("lookups with 10 names held", look_up);
    measure("registrations and their ends, 10 held", register_once);
    for (int i = 0; i < 2; i++)
        hold(&mappers[i], MANY);
    print_memory("memory with 900 names held, kB");
    measure("lookups with 900 names held", look_up);
    measure("lists of 900 names", ask_list);
    print_memory("memory at the end, kB");

    double took = seconds_of(CLOCK_MONOTONIC) - begun;
    double others = 100 * ((machine_time() - machine) - (own_time() - own)) / (took * (double)processors);
    unsigned long wrong = atomic_load(&wrong_answers);
    printf("\n%lu replies were wrong or missing; other programs took %.0f %% of the processors; %.0f seconds\n", wrong,
           others < 0 ? 0 : others, took);
    if (noisy_rows > 0 || others > NOISY_OTHERS)
        printf("TOO NOISY: %d figures spread by more than %d %%%s. Run it again on a quiet machine.\n", noisy_rows,
               NOISY_SPREAD, others > NOISY_OTHERS ? ", and other programs ran beside it" : "");
    end_all();
    return wrong > 0;
}
