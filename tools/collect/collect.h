/* What the parts of `collect` share. */
#ifndef COLLECT_H
#define COLLECT_H

#include <stdbool.h>
#include <stdint.h>
#include <stdio.h>
#include <time.h>

#define NANOS_PER_SECOND 1000000000u
#define LEAST_FREQUENCY 1000000u        /* of a stamp file, in Hz */
#define GREATEST_FREQUENCY 16000000000u /* of a stamp file, in Hz */

/* ---- collect.c ---- */

void say(const char *text, ...) __attribute__((format(printf, 1, 2)));

/* ---- counter.c ---- */

struct counter {
    bool raw_clock;     /* it is CLOCK_MONOTONIC_RAW, and not the processor's */
    uint64_t frequency; /* in Hz */
    uint64_t base;      /* what is taken off each count */
};

uint64_t clock_nanos(clockid_t clock);
uint64_t read_counter(const struct counter *counter);
struct counter pick_counter(bool raw_clock, long measured_ms);

/* ---- exchange.c ---- */

enum { PACKET_BYTES = 48 }; /* of a request, and at least of a reply */

struct server {
    int socket;
    const struct counter *counter;
    bool stamped;          /* the system stamps what comes and goes */
    struct record *record; /* of all packets, or NULL */
};

struct server_time {
    int64_t seconds; /* since 1970 */
    uint32_t nanos;
};

/* One moment by the counter and by the system's clock. */
struct moment {
    uint64_t count;
    uint64_t nanos; /* of CLOCK_REALTIME */
};

/* Whether a count is that of the system's stamp, or why it is that of the call. */
enum basis { BY_STAMP, NO_STAMP, FUTURE_STAMP, OLD_STAMP, UNEVEN_CLOCK, BASES };

struct exchange {
    struct moment sent, received;
    enum basis request, reply;
    struct server_time came, left; /* when the request came to the server, and the reply left it */
    unsigned stratum, leap;        /* as the server says them */
};

enum verdict { GOOD, NO_REPLY, NOBODY, UNUSABLE, KISS };

bool reach(struct server *server, const char *name, const char *port, bool plain);
enum verdict exchange(const struct server *server, long wait, struct exchange *e, long *foreign);

/* ---- record.c ---- */

struct record {
    const char *path;
    FILE *file;
    FILE *heard; /* what came before the reply of the exchange that is open, or NULL */
    char *text;
    size_t size;
};

bool begin_record(struct record *record, const char *path, const struct counter *counter);
void hear(struct record *record, uint64_t count, const unsigned char *packet, size_t bytes);
void put_exchange(struct record *record, const struct exchange *e, const unsigned char *request,
                  const unsigned char *reply, size_t bytes);
bool end_record(struct record *record);

/* ---- file.c ---- */

struct file {
    bool first;   /* it is of version 1 */
    bool stamped; /* counts are those of the system's stamps */
};

void begin_file(const struct file *file, const struct counter *counter);
bool take_over(const char *path, struct file *file, struct counter *counter);
bool go_on_with(const char *path, const struct file *file);
bool write_exchange(const struct file *file, const struct exchange *e);

#endif
