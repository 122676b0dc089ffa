/*
 * Once a second, at a drawn moment: counter and system clock together, which are the truth, and what NTP servers on 127.0.0.1 say.
 *
 *   probe SECONDS PORT... > FILE
 *
 *   truth COUNT NANOS WINDOW      the counter, the system's clock in ns, and how many counts passed while both were read
 *   asked PORT T1 T2 T3 T4 LEAP DELAY DISPERSION
 *
 * T1 and T4 are the system's clock when the query left and when the kernel took the reply in, T2 and T3 the server's two times, all
 * in ns; the last two are the server's root delay and dispersion in 2^-16 s. The counter is read as `collect` reads it.
 */
#define _GNU_SOURCE
#include "../../tools/collect/collect.h"

#include <arpa/inet.h>
#include <inttypes.h>
#include <poll.h>
#include <stdarg.h>
#include <stdio.h>
#include <stdlib.h>
#include <string.h>
#include <sys/socket.h>

#define NANOS (int64_t)NANOS_PER_SECOND
#define MOST 64 /* ports */
#define WAIT 50 /* ms for a reply */
#define TRIES 9 /* of counter and clock; the tightest counts */

void say(const char *text, ...)
{
    va_list values;
    va_start(values, text);
    vfprintf(stderr, text, values);
    fputc('\n', stderr);
    va_end(values);
}

static int64_t now(void) { return (int64_t)clock_nanos(CLOCK_REALTIME); }

static uint32_t word(const unsigned char *at)
{
    uint32_t big;
    memcpy(&big, at, sizeof big);
    return ntohl(big);
}

/* A time of NTP in ns since 1970, rounded to the nearest. */
static int64_t time_at(const unsigned char *at)
{
    return (int64_t)(word(at) - 2208988800u) * NANOS
         + (int64_t)(((uint64_t)word(at + 4) * NANOS_PER_SECOND + (UINT64_C(1) << 31)) >> 32);
}

static void tell_truth(const struct counter *counter)
{
    uint64_t count = 0, window = UINT64_MAX;
    int64_t nanos = 0;
    for (int i = 0; i < TRIES; i++) {
        uint64_t before = read_counter(counter);
        int64_t time = now();
        uint64_t took = read_counter(counter) - before;
        if (took >= window) continue;
        count = before + took / 2;
        nanos = time;
        window = took;
    }
    printf("truth %" PRIu64 " %" PRId64 " %" PRIu64 "\n", count, nanos, window);
}

/* The reply to a query, and when the kernel took it in; 0 where none comes. Others are passed over. */
static int64_t reply_to(int socket, const unsigned char *query, unsigned char *reply)
{
    for (;;) {
        struct pollfd polled = {socket, POLLIN, 0};
        if (poll(&polled, 1, WAIT) <= 0) return 0;
        char control[256];
        struct iovec io = {reply, 512};
        struct msghdr m = {.msg_iov = &io, .msg_iovlen = 1, .msg_control = control, .msg_controllen = sizeof control};
        ssize_t size = recvmsg(socket, &m, MSG_DONTWAIT);
        int64_t came = now();
        for (struct cmsghdr *c = size < 0 ? NULL : CMSG_FIRSTHDR(&m); c != NULL; c = CMSG_NXTHDR(&m, c)) {
            if (c->cmsg_level != SOL_SOCKET || c->cmsg_type != SCM_TIMESTAMPNS) continue;
            struct timespec stamp;
            memcpy(&stamp, CMSG_DATA(c), sizeof stamp);
            came = stamp.tv_sec * NANOS + stamp.tv_nsec;
        }
        if (size < 0) return 0;
        if (size >= 48 && memcmp(reply + 24, query + 40, 8) == 0) return came;
    }
}

static void ask(int socket, const char *port, bool told)
{
    unsigned char query[48] = {4 << 3 | 3}, reply[512];
    for (int i = 40; i < 48; i++) query[i] = (unsigned char)(lrand48() >> 8);
    int64_t left = now();
    if (send(socket, query, sizeof query, 0) < 0) return;
    int64_t came = reply_to(socket, query, reply);
    if (came == 0 || !told) return;
    printf("asked %s %" PRId64 " %" PRId64 " %" PRId64 " %" PRId64 " %d %" PRIu32 " %" PRIu32 "\n", port, left,
           time_at(reply + 32), time_at(reply + 40), came, reply[0] >> 6, word(reply + 4), word(reply + 8));
}

static int open_to(const char *port)
{
    struct sockaddr_in at = {.sin_family = AF_INET, .sin_port = htons((uint16_t)atoi(port))};
    at.sin_addr.s_addr = htonl(INADDR_LOOPBACK);
    int s = socket(AF_INET, SOCK_DGRAM, 0);
    setsockopt(s, SOL_SOCKET, SO_TIMESTAMPNS, &(int){1}, sizeof(int));
    return connect(s, (struct sockaddr *)&at, sizeof at) == 0 ? s : -1;
}

int main(int argc, char **argv)
{
    int sockets[MOST];
    if (argc < 3 || argc - 2 > MOST) return fputs("usage: probe SECONDS PORT...\n", stderr), 2;
    for (int i = 2; i < argc; i++) sockets[i - 2] = open_to(argv[i]);
    struct counter counter = pick_counter(false, 10);
    int64_t start = (int64_t)clock_nanos(CLOCK_MONOTONIC);
    srand48(12345);
    for (int second = 0; second < atoi(argv[1]); second++) {
        int64_t at = start + second * NANOS + (int64_t)(drand48() * 0.9 * (double)NANOS);
        struct timespec time = {at / NANOS, at % NANOS};
        clock_nanosleep(CLOCK_MONOTONIC, TIMER_ABSTIME, &time, NULL);
        tell_truth(&counter);
        ask(sockets[0], argv[2], false); /* the first query finds a cold processor, so it does not count */
        for (int i = 2; i < argc; i++) ask(sockets[i - 2], argv[i], true);
        fflush(stdout);
    }
}
