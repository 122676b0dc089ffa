/* One exchange with the server: what is sent, what comes back, and when. */
#define _GNU_SOURCE
#include "collect.h"

#include <ctype.h>
#include <errno.h>
#include <linux/errqueue.h>
#include <linux/net_tstamp.h>
#include <netdb.h>
#include <poll.h>
#include <string.h>
#include <sys/random.h>
#include <sys/socket.h>
#include <unistd.h>

enum { DATAGRAM_BYTES = 1024, CONTROL_BYTES = 512 };

#define UNIX_EPOCH INT64_C(2208988800) /* from 1900 to 1970, in seconds */
#define ERA INT64_C(4294967296)        /* seconds of an era of NTP */

/* ---- Packets ---- */

static uint32_t word_at(const unsigned char *packet, int place)
{
    const unsigned char *b = packet + place;
    return (uint32_t)b[0] << 24 | (uint32_t)b[1] << 16 | (uint32_t)b[2] << 8 | b[3];
}

/*
 * A time of NTP has 32 bits of seconds. From 2^31 on they are those of the era that began in 1900
 * and ends in 2036; below, those of the next one. The fraction is rounded down to a nanosecond.
 */
static struct server_time time_at(const unsigned char *packet, int place)
{
    int64_t seconds = word_at(packet, place);
    if (seconds < ERA / 2) seconds += ERA;
    uint64_t fraction = word_at(packet, place + 4);
    uint32_t nanos = (uint32_t)(fraction * NANOS_PER_SECOND >> 32);
    return (struct server_time){seconds - UNIX_EPOCH, nanos};
}

static bool is_zero(const unsigned char *packet, int place)
{
    return word_at(packet, place) == 0 && word_at(packet, place + 4) == 0;
}

/*
 * A request of version 4 says nothing but its transmit time, and that one is drawn: so only who saw
 * the request can answer it, and an earlier reply cannot pass for this one.
 */
static bool make_request(unsigned char *packet)
{
    memset(packet, 0, PACKET_BYTES);
    packet[0] = 4 << 3 | 3;
    return getrandom(packet + 40, 8, 0) == 8;
}

static void say_kiss(const unsigned char *reply)
{
    char code[5] = "????";
    for (int i = 0; i < 4; i++) {
        if (isalnum(reply[12 + i])) code[i] = (char)reply[12 + i];
    }
    say("the server refuses: %s", code);
}

/* What datagram this is, for this request. Fills in what the server says in a good reply. */
static enum verdict judge(const unsigned char *request, const unsigned char *reply, ssize_t bytes,
                          struct exchange *e)
{
    if (bytes < PACKET_BYTES || (reply[0] & 7) != 4) return NO_REPLY;
    if (memcmp(reply + 24, request + 40, 8) != 0) return NO_REPLY;
    if (reply[1] == 0) return KISS;
    e->leap = reply[0] >> 6;
    e->stratum = reply[1];
    bool synchronised = e->leap != 3 && e->stratum < 16;
    if (!synchronised || is_zero(reply, 32) || is_zero(reply, 40)) return UNUSABLE;
    e->came = time_at(reply, 32);
    e->left = time_at(reply, 40);
    return e->came.seconds < 0 || e->left.seconds < 0 ? UNUSABLE : GOOD;
}

/* ---- The socket ---- */

static int connected_socket(const char *name, const char *port)
{
    struct addrinfo hints = {.ai_socktype = SOCK_DGRAM}, *found;
    int error = getaddrinfo(name, port, &hints, &found);
    if (error != 0) {
        say("the server is not found: %s", gai_strerror(error));
        return -1;
    }
    int s = -1;
    for (struct addrinfo *a = found; a != NULL && s < 0; a = a->ai_next) {
        s = socket(a->ai_family, a->ai_socktype | SOCK_CLOEXEC, a->ai_protocol);
        if (s >= 0 && connect(s, a->ai_addr, a->ai_addrlen) != 0) {
            close(s);
            s = -1;
        }
    }
    if (s < 0) say("the server cannot be reached: %s", strerror(errno));
    freeaddrinfo(found);
    return s;
}

/* Stamps of the network card are another clock's, so only the system's own are asked for. */
static bool wants_stamps(int s)
{
    int wanted = SOF_TIMESTAMPING_SOFTWARE | SOF_TIMESTAMPING_RX_SOFTWARE |
                 SOF_TIMESTAMPING_TX_SOFTWARE | SOF_TIMESTAMPING_OPT_TSONLY;
    bool given = setsockopt(s, SOL_SOCKET, SO_TIMESTAMPING, &wanted, sizeof wanted) == 0;
    if (!given) say("the system gives no stamps, so counts are taken at the calls");
    return given;
}

bool reach(struct server *server, const char *name, const char *port, bool plain)
{
    server->socket = connected_socket(name, port);
    if (server->socket < 0) return false;
    server->stamped = !plain && wants_stamps(server->socket);
    return true;
}

/* ---- Stamps of the system ---- */

/* The software stamp that came with a message, in ns of CLOCK_REALTIME, or 0 where none did. */
static uint64_t stamp_of(struct msghdr *message)
{
    for (struct cmsghdr *c = CMSG_FIRSTHDR(message); c != NULL; c = CMSG_NXTHDR(message, c)) {
        if (c->cmsg_level != SOL_SOCKET || c->cmsg_type != SCM_TIMESTAMPING) continue;
        struct scm_timestamping stamps;
        memcpy(&stamps, CMSG_DATA(c), sizeof stamps);
        const struct timespec *software = &stamps.ts[0];
        return (uint64_t)software->tv_sec * NANOS_PER_SECOND + (uint64_t)software->tv_nsec;
    }
    return 0;
}

/* Receives what is there, with its stamp. */
static ssize_t receive(int s, int flags, unsigned char *place, size_t room, uint64_t *stamp)
{
    _Alignas(struct cmsghdr) char control[CONTROL_BYTES];
    struct iovec whole = {place, room};
    struct msghdr message = {.msg_iov = &whole, .msg_iovlen = 1, .msg_control = control,
                             .msg_controllen = sizeof control};
    ssize_t bytes = recvmsg(s, &message, flags | MSG_DONTWAIT);
    *stamp = bytes < 0 ? 0 : stamp_of(&message);
    return bytes;
}

/*
 * The system tells in the error queue when it let a request go. The latest that stands there, or
 * `known`: an earlier request's is older than this request's call, which shows.
 */
static uint64_t latest_departure(int s, uint64_t known)
{
    unsigned char nothing[1];
    uint64_t stamp;
    while (receive(s, MSG_ERRQUEUE, nothing, sizeof nothing, &stamp) >= 0) {
        if (stamp > known) known = stamp;
    }
    return known;
}

/*
 * What surely passed where the system's clock says so many ns. Both that clock and the counter's
 * nominal frequency may be off by 500 parts in a million, so a thousandth is left out.
 */
static uint64_t sure_nanos(uint64_t nanos)
{
    return nanos - nanos / 1000 - (nanos % 1000 != 0);
}

static uint64_t counts_in(const struct counter *counter, uint64_t nanos)
{
    uint64_t f = counter->frequency;
    return nanos / NANOS_PER_SECOND * f + nanos % NANOS_PER_SECOND * f / NANOS_PER_SECOND;
}

/*
 * Whether the system's clock ran no faster over the exchange than it may. Where it was set forward
 * in between, less has passed since a stamp than it says, and a count would be moved too far.
 */
static bool clock_ran_evenly(const struct counter *counter, const struct exchange *e)
{
    if (e->received.nanos < e->sent.nanos) return false;
    uint64_t passed = sure_nanos(e->received.nanos - e->sent.nanos);
    return counts_in(counter, passed) <= e->received.count - e->sent.count;
}

static enum basis basis_of(uint64_t stamp, uint64_t earliest, uint64_t latest, bool even)
{
    if (stamp == 0) return NO_STAMP;
    if (!even) return UNEVEN_CLOCK;
    if (stamp < earliest) return OLD_STAMP;
    return stamp > latest ? FUTURE_STAMP : BY_STAMP;
}

/*
 * Moves the counts from the calls to the system's stamps: the request's forward to when it left,
 * the reply's back to when it came. Neither is moved past its stamp, so the way there and back
 * still lies between the two.
 */
static void move_to_stamps(const struct counter *counter, struct exchange *e, uint64_t departure,
                           uint64_t arrival)
{
    bool even = clock_ran_evenly(counter, e);
    e->request = basis_of(departure, e->sent.nanos, e->received.nanos, even);
    uint64_t began = e->request == BY_STAMP ? departure : e->sent.nanos;
    e->reply = basis_of(arrival, began, e->received.nanos, even);
    if (e->request == BY_STAMP) {
        uint64_t later = sure_nanos(departure - e->sent.nanos);
        e->sent.count += counts_in(counter, later);
        e->sent.nanos += later;
    }
    if (e->reply == BY_STAMP) {
        uint64_t earlier = sure_nanos(e->received.nanos - arrival);
        e->received.count -= counts_in(counter, earlier);
        e->received.nanos -= earlier;
    }
}

/* ---- The exchange ---- */

/* Waits for something to receive until this time of CLOCK_MONOTONIC, in ns. */
static bool has_come(int s, uint64_t until)
{
    uint64_t now = clock_nanos(CLOCK_MONOTONIC);
    struct pollfd wanted = {.fd = s, .events = POLLIN};
    return now < until && poll(&wanted, 1, (int)((until - now) / 1000000 + 1)) > 0;
}

/* What came too late for the exchange before: stamps of its request, and that nobody was there. */
static void forget_what_is_late(const struct server *server)
{
    int error;
    socklen_t size = sizeof error;
    if (server->stamped) latest_departure(server->socket, 0);
    getsockopt(server->socket, SOL_SOCKET, SO_ERROR, &error, &size);
}

/*
 * The clock is read behind the counter at the request and before it at the reply: so no less time
 * lies between a count and a stamp than between the clock's reading and that stamp.
 */
static bool send_request(const struct server *server, const unsigned char *request,
                         struct moment *at)
{
    at->count = read_counter(server->counter);
    at->nanos = clock_nanos(CLOCK_REALTIME);
    return send(server->socket, request, PACKET_BYTES, 0) == PACKET_BYTES;
}

static ssize_t receive_reply(const struct server *server, unsigned char *reply, struct moment *at,
                             uint64_t *stamp)
{
    ssize_t bytes = receive(server->socket, 0, reply, DATAGRAM_BYTES, stamp);
    at->nanos = clock_nanos(CLOCK_REALTIME);
    at->count = read_counter(server->counter);
    return bytes;
}

struct datagram {
    unsigned char bytes[DATAGRAM_BYTES];
    ssize_t size;
};

/* Waits for the reply to this request until this time of CLOCK_MONOTONIC, in ns. */
static enum verdict await(const struct server *server, const unsigned char *request, uint64_t until,
                          struct exchange *e, struct datagram *reply, long *foreign)
{
    uint64_t departure = 0, arrival;
    while (has_come(server->socket, until)) {
        reply->size = receive_reply(server, reply->bytes, &e->received, &arrival);
        int error = errno;
        if (server->stamped) departure = latest_departure(server->socket, departure);
        if (reply->size < 0 && (error == EAGAIN || error == EINTR)) continue;
        if (reply->size < 0) return error == ECONNREFUSED ? NOBODY : NO_REPLY;
        enum verdict verdict = judge(request, reply->bytes, reply->size, e);
        if (verdict == KISS) say_kiss(reply->bytes);
        if (verdict == GOOD && server->stamped) {
            move_to_stamps(server->counter, e, departure, arrival);
        }
        if (verdict != NO_REPLY) return verdict;
        hear(server->record, e->received.count, reply->bytes, (size_t)reply->size);
        ++*foreign;
    }
    return NO_REPLY;
}

/*
 * One request, and what comes of it. The counter is read right before the request is handed to the
 * system, and right behind each datagram, before it is looked at.
 */
enum verdict exchange(const struct server *server, long wait, struct exchange *e, long *foreign)
{
    unsigned char request[PACKET_BYTES];
    struct datagram reply;
    uint64_t until = clock_nanos(CLOCK_MONOTONIC) + (uint64_t)wait * 1000000;
    if (!make_request(request)) return NO_REPLY;
    forget_what_is_late(server);
    if (!send_request(server, request, &e->sent)) return errno == ECONNREFUSED ? NOBODY : NO_REPLY;
    enum verdict verdict = await(server, request, until, e, &reply, foreign);
    bool came = verdict != NO_REPLY && verdict != NOBODY;
    put_exchange(server->record, e, request, came ? reply.bytes : NULL, came ? (size_t)reply.size : 0);
    return verdict;
}
