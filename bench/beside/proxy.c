/*
 * Stands between an NTP client and its server on 127.0.0.1, makes each datagram late by a law, and logs the true delays.
 *
 *   proxy LISTEN SERVER LOG [NAME=NUMBER]...     ports, a file, and the law (draws.h)
 *   proxy --draws COUNT [NAME=NUMBER]...         the first delays of both ways, in ns, and no proxy
 *
 * A line of LOG: way, number, when it came by the kernel's stamp, how late it was to be, when it left, all in ns. A datagram that is
 * lost leaves at 0.
 */
#define _GNU_SOURCE
#include "draws.h"

#include <arpa/inet.h>
#include <inttypes.h>
#include <poll.h>
#include <stdio.h>
#include <stdlib.h>
#include <string.h>
#include <sys/prctl.h>
#include <sys/socket.h>
#include <time.h>

#define ROOM 64          /* datagrams that wait, and requests whose reply is to come */
#define SPIN 150000      /* ns: so long before a datagram is due the clock is watched */
#define ERA 2208988800u  /* from 1900 to 1970, in s */
enum { REFERENCE = 16, ORIGIN = 24, RECEIVED = 32, SENT = 40, LEAST = 48 }; /* places in an NTP packet */

struct datagram {
    enum way way;
    long number;
    int64_t came, due;
    struct sockaddr_in to;
    size_t size;
    unsigned char bytes[512];
};

struct proxy {
    struct law law;
    int socket[2]; /* the one that a datagram of each way comes to: from the client, from the server */
    long count[2];
    struct datagram waiting[ROOM];
    int held;
    struct { unsigned char sent[8]; struct sockaddr_in client; } asked[ROOM];
    int next_asked;
    FILE *log;
};

static int64_t now(void)
{
    struct timespec time;
    clock_gettime(CLOCK_REALTIME, &time);
    return time.tv_sec * NANOS + time.tv_nsec;
}

/* ---- The server's times ---- */

static uint32_t word(const unsigned char *at)
{
    uint32_t big;
    memcpy(&big, at, sizeof big);
    return ntohl(big);
}

static void put(unsigned char *at, uint32_t value)
{
    uint32_t big = htonl(value);
    memcpy(at, &big, sizeof big);
}

/* Makes a time of a reply that of the server of the law. */
static void set_ahead(const struct law *law, unsigned char *at)
{
    uint32_t seconds = word(at), fraction = word(at + 4);
    if (seconds == 0) return;
    int64_t nanos = (int64_t)(seconds - ERA) * NANOS + (int64_t)(((uint64_t)fraction * (uint64_t)NANOS) >> 32);
    int64_t add = (int64_t)((double)ahead(law, nanos) * 4.294967296); /* in 2^-32 s */
    uint64_t time = ((uint64_t)seconds << 32 | fraction) + (uint64_t)add;
    put(at, (uint32_t)(time >> 32));
    put(at + 4, (uint32_t)time);
}

/* ---- Datagrams that come ---- */

/* Of the datagrams of one way: who asked, or whom the reply is for. False where nobody asked. */
static bool address(struct proxy *p, struct datagram *d, const struct sockaddr_in *from)
{
    if (d->way == OUT) {
        memcpy(p->asked[p->next_asked].sent, d->bytes + SENT, 8);
        p->asked[p->next_asked].client = *from;
        p->next_asked = (p->next_asked + 1) % ROOM;
        return true;
    }
    for (int i = 0; i < ROOM; i++) {
        if (memcmp(p->asked[i].sent, d->bytes + ORIGIN, 8) != 0) continue;
        d->to = p->asked[i].client;
        return true;
    }
    return false;
}

/* When the kernel took it in, or now where it does not say. */
static int64_t stamp_of(struct msghdr *message)
{
    for (struct cmsghdr *c = CMSG_FIRSTHDR(message); c != NULL; c = CMSG_NXTHDR(message, c)) {
        if (c->cmsg_level != SOL_SOCKET || c->cmsg_type != SCM_TIMESTAMPNS) continue;
        struct timespec time;
        memcpy(&time, CMSG_DATA(c), sizeof time);
        return time.tv_sec * NANOS + time.tv_nsec;
    }
    return now();
}

static void note(const struct proxy *p, const struct datagram *d, int64_t left)
{
    fprintf(p->log, "%d %ld %" PRId64 " %" PRId64 " %" PRId64 "\n", d->way, d->number, d->came, d->due - d->came, left);
    fflush(p->log);
}

static void take(struct proxy *p, enum way way)
{
    struct datagram d = {.way = way};
    struct sockaddr_in from = {0};
    char control[256];
    struct iovec io = {d.bytes, sizeof d.bytes};
    struct msghdr message = {.msg_name = &from, .msg_namelen = sizeof from, .msg_iov = &io, .msg_iovlen = 1,
                             .msg_control = control, .msg_controllen = sizeof control};
    ssize_t size = recvmsg(p->socket[way], &message, MSG_DONTWAIT);
    if (size < LEAST || !address(p, &d, &from)) return;
    d.size = (size_t)size;
    d.came = stamp_of(&message);
    d.number = p->count[way]++;
    struct draw draw = draw_of(&p->law, way, d.number);
    d.due = d.came + delay(&p->law, way, &draw, in_burst(d.came));
    if (way == BACK && p->law.from > 0) {
        set_ahead(&p->law, d.bytes + REFERENCE);
        set_ahead(&p->law, d.bytes + RECEIVED);
        set_ahead(&p->law, d.bytes + SENT);
    }
    if (draw.lost || p->held == ROOM) note(p, &d, 0);
    else p->waiting[p->held++] = d;
}

/* ---- Datagrams that leave ---- */

static struct datagram *next_due(struct proxy *p)
{
    struct datagram *next = NULL;
    for (int i = 0; i < p->held; i++) {
        if (next == NULL || p->waiting[i].due < next->due) next = &p->waiting[i];
    }
    return next;
}

static void pass_on(struct proxy *p, struct datagram *d)
{
    while (now() < d->due) {
    }
    int64_t left = now();
    if (d->way == OUT) send(p->socket[BACK], d->bytes, d->size, 0);
    else sendto(p->socket[OUT], d->bytes, d->size, 0, (struct sockaddr *)&d->to, sizeof d->to);
    note(p, d, left);
    *d = p->waiting[--p->held];
}

static void go(struct proxy *p)
{
    for (;;) {
        struct datagram *next = next_due(p);
        int64_t rest = next == NULL ? NANOS : next->due - now();
        if (rest < SPIN) {
            pass_on(p, next);
            continue;
        }
        rest -= SPIN;
        struct timespec time = {rest / NANOS, rest % NANOS};
        struct pollfd polled[2] = {{p->socket[OUT], POLLIN, 0}, {p->socket[BACK], POLLIN, 0}};
        if (ppoll(polled, 2, &time, NULL) <= 0) continue;
        if (polled[OUT].revents != 0) take(p, OUT);
        if (polled[BACK].revents != 0) take(p, BACK);
    }
}

/* ---- The start ---- */

static int print_draws(long count, const struct law *law)
{
    for (long i = 0; i < count; i++) {
        for (enum way way = OUT; way <= BACK; way++) {
            struct draw draw = draw_of(law, way, i);
            printf("%d %ld %d %" PRId64 " %" PRId64 "\n", way, i, draw.lost, delay(law, way, &draw, false),
                   delay(law, way, &draw, true));
        }
    }
    return 0;
}

static bool open_sockets(struct proxy *p, const char *listen_at, const char *server)
{
    struct sockaddr_in client = {.sin_family = AF_INET, .sin_port = htons((uint16_t)atoi(listen_at))}, up = client;
    client.sin_addr.s_addr = up.sin_addr.s_addr = htonl(INADDR_LOOPBACK);
    up.sin_port = htons((uint16_t)atoi(server));
    for (int way = OUT; way <= BACK; way++) {
        p->socket[way] = socket(AF_INET, SOCK_DGRAM, 0);
        setsockopt(p->socket[way], SOL_SOCKET, SO_TIMESTAMPNS, &(int){1}, sizeof(int));
    }
    return bind(p->socket[OUT], (struct sockaddr *)&client, sizeof client) == 0
        && connect(p->socket[BACK], (struct sockaddr *)&up, sizeof up) == 0;
}

int main(int argc, char **argv)
{
    static struct proxy p;
    bool draws = argc > 2 && strcmp(argv[1], "--draws") == 0;
    if ((!draws && argc < 4) || !law_of(&p.law, argv + (draws ? 3 : 4))) {
        fputs("usage: proxy LISTEN SERVER LOG [NAME=NUMBER]...\n       proxy --draws COUNT [NAME=NUMBER]...\n", stderr);
        return 2;
    }
    if (draws) return print_draws(atol(argv[2]), &p.law);
    prctl(PR_SET_TIMERSLACK, 1); /* ns */
    p.log = fopen(argv[3], "w");
    if (p.log == NULL || !open_sockets(&p, argv[1], argv[2])) {
        perror("proxy");
        return 1;
    }
    go(&p);
}
