/*
 * Takes exchanges with an NTP server and writes them as a stamp file to standard output. See
 * README.md. Nothing here is proved.
 */
#define _GNU_SOURCE
#include "collect.h"

#include <errno.h>
#include <getopt.h>
#include <inttypes.h>
#include <poll.h>
#include <signal.h>
#include <stdarg.h>
#include <stdio.h>
#include <stdlib.h>

struct options {
    const char *server;
    const char *port;
    const char *file;    /* that goes on, or NULL */
    const char *capture; /* of all packets, or NULL */
    long exchanges;      /* how many are tried */
    long spacing;        /* from one to the next, in ms */
    long wait;           /* for a reply, in ms */
    long telling;        /* from one line of progress to the next, in s */
    bool raw_clock;      /* the counter is CLOCK_MONOTONIC_RAW */
    bool first;          /* the file is of version 1 */
    bool plain;          /* counts are those at the calls */
    bool quiet;          /* no lines of progress */
    bool now;            /* the counter alone is wanted */
    bool system;         /* and the system's clock beside it */
};

struct totals {
    long sent, written, lost, foreign, unusable;
    long requests[BASES], replies[BASES]; /* of those written, by what their counts are */
};

/* What is told while it goes. */
struct progress {
    uint64_t start, next;  /* of CLOCK_MONOTONIC, in ns */
    uint64_t trip, least;  /* the last round trip and the least, in counts */
    long row;              /* how many were lost one behind the other */
    bool told_row, nobody; /* what was said already */
};

void say(const char *text, ...)
{
    va_list values;
    va_start(values, text);
    fputs("collect: ", stderr);
    vfprintf(stderr, text, values);
    fputc('\n', stderr);
    va_end(values);
}

/* ---- The end by a signal ---- */

static volatile sig_atomic_t stopped;

static void stop(int signal)
{
    (void)signal;
    stopped = 1;
}

/*
 * Ctrl-C and SIGTERM end the collecting between two exchanges: they are held back but for the time
 * in which it sleeps, so that no line is left half written. Gives the mask for that time.
 */
static sigset_t catch_signals(void)
{
    static const int ends[] = {SIGINT, SIGTERM};
    sigset_t held, before;
    sigemptyset(&held);
    for (size_t i = 0; i < sizeof ends / sizeof *ends; i++) {
        struct sigaction old, caught = {.sa_handler = stop};
        sigaction(ends[i], NULL, &old);
        if (old.sa_handler == SIG_IGN) continue; /* as for a job in the background */
        sigaction(ends[i], &caught, NULL);
        sigaddset(&held, ends[i]);
    }
    sigprocmask(SIG_BLOCK, &held, &before);
    return before;
}

/* False where a signal ended it. */
static bool sleep_until(uint64_t nanos, const sigset_t *mask)
{
    uint64_t now;
    do {
        now = clock_nanos(CLOCK_MONOTONIC);
        uint64_t rest = now < nanos ? nanos - now : 0; /* 0 lets a signal in that came before */
        struct timespec time = {.tv_sec = (time_t)(rest / NANOS_PER_SECOND),
                                .tv_nsec = (long)(rest % NANOS_PER_SECOND)};
        ppoll(NULL, 0, &time, mask);
    } while (!stopped && now < nanos);
    return !stopped;
}

/* ---- What is told ---- */

static double micros(uint64_t counts, const struct counter *counter)
{
    return (double)counts * 1e6 / (double)counter->frequency;
}

static void tell_losses(struct progress *p, enum verdict verdict, const struct options *o)
{
    bool lost = verdict == NO_REPLY || verdict == NOBODY;
    p->row = lost ? p->row + 1 : 0;
    if (verdict == NOBODY && !p->nobody) {
        say("nobody is at port %s of %s; it goes on asking", o->port, o->server);
        p->nobody = true;
    }
    if (p->row == 3 && !p->told_row && !p->nobody) {
        say("three requests in a row had no reply; it goes on asking");
        p->told_row = true;
    }
}

static void tell_progress(struct progress *p, const struct totals *t, const struct options *o,
                          const struct counter *counter)
{
    uint64_t now = clock_nanos(CLOCK_MONOTONIC), every = (uint64_t)o->telling * NANOS_PER_SECOND;
    if (o->quiet || now < p->next) return;
    p->next += ((now - p->next) / every + 1) * every;
    uint64_t seconds = (now - p->start) / NANOS_PER_SECOND;
    if (t->written == 0) {
        say("after %" PRIu64 " s: %ld sent, none written, %ld lost", seconds, t->sent, t->lost);
        return;
    }
    say("after %" PRIu64 " s: %ld sent, %ld written, %ld lost; round trip %.1f us, least %.1f us",
        seconds, t->sent, t->written, t->lost, micros(p->trip, counter), micros(p->least, counter));
}

static void tell_stamps(const char *what, const long *by, long written)
{
    say("%s by the system's stamp %ld, by the call %ld (no stamp %ld, ahead %ld, too old %ld, clock uneven %ld)",
        what, by[BY_STAMP], written - by[BY_STAMP], by[NO_STAMP], by[FUTURE_STAMP], by[OLD_STAMP],
        by[UNEVEN_CLOCK]);
}

static void tell_totals(const struct totals *t, bool stamped)
{
    if (stamped && t->written > 0) {
        tell_stamps("requests", t->requests, t->written);
        tell_stamps("replies", t->replies, t->written);
    }
    say("%ld sent, %ld written, %ld lost, %ld foreign, %ld unusable", t->sent, t->written, t->lost,
        t->foreign, t->unusable);
}

/* ---- Collecting ---- */

static void count_verdict(struct totals *t, enum verdict verdict)
{
    t->sent++;
    t->lost += verdict == NO_REPLY || verdict == NOBODY;
    t->unusable += verdict == UNUSABLE || verdict == KISS;
}

static void count_written(struct totals *t, struct progress *p, const struct exchange *e)
{
    t->written++;
    t->requests[e->request]++;
    t->replies[e->reply]++;
    p->trip = e->received.count - e->sent.count;
    if (t->written == 1 || p->trip < p->least) p->least = p->trip;
}

/* False where the server refused, or an exchange could not be written. */
static bool collect(const struct server *server, const struct file *file, const struct options *o,
                    struct totals *t)
{
    sigset_t mask = catch_signals();
    uint64_t start = clock_nanos(CLOCK_MONOTONIC);
    struct progress p = {.start = start, .next = start + (uint64_t)o->telling * NANOS_PER_SECOND};
    for (long i = 0; i < o->exchanges; i++) {
        struct exchange e = {0};
        if (!sleep_until(start + (uint64_t)i * (uint64_t)o->spacing * 1000000, &mask)) break;
        enum verdict verdict = exchange(server, o->wait, &e, &t->foreign);
        count_verdict(t, verdict);
        if (verdict == KISS || (verdict == GOOD && !write_exchange(file, &e))) return false;
        if (verdict == GOOD) count_written(t, &p, &e);
        tell_losses(&p, verdict, o);
        tell_progress(&p, t, o, server->counter);
    }
    return true;
}

/* ---- The words ---- */

static int usage(void)
{
    fputs("usage: collect [OPTIONS] SERVER >FILE\n"
          "       collect [OPTIONS] -a FILE SERVER\n"
          "       collect --now [--system] [-m] [-a FILE]\n"
          "  -1  the file is of version 1, without strata and leap seconds\n"
          "  -a  goes on with this file, which was taken by the same counter\n"
          "  -r  writes a capture of all packets to this new file\n"
          "  -p  the server's port (123)\n"
          "  -n  how many exchanges are tried, 1 to 65536 (500)\n"
          "  -i  from one to the next in ms, 100 to 3600000 (16000)\n"
          "  -w  how long a reply is waited for in ms, 1 to 1000, at most the spacing (1000)\n"
          "  -m  the counter is CLOCK_MONOTONIC_RAW, of 1 GHz, and not the processor's\n"
          "  -e  how often it says how it goes, in s, 1 to 86400 (60)\n"
          "  -q  it does not say how it goes\n"
          "  --plain  counts are those at the calls, not those of the system's stamps\n"
          "  --now    prints the counter as it stands, and asks no server\n"
          "  --system prints behind it the system's clock, read right before and right behind it\n",
          stderr);
    return 2;
}

static bool number(const char *word, long least, long greatest, long *value)
{
    char *end;
    errno = 0;
    *value = strtol(word, &end, 10);
    return errno == 0 && end != word && *end == 0 && *value >= least && *value <= greatest;
}

static bool read_option(int letter, struct options *o)
{
    switch (letter) {
    case '1': o->first = true; return true;
    case 'a': o->file = optarg; return true;
    case 'r': o->capture = optarg; return true;
    case 'p': o->port = optarg; return true;
    case 'n': return number(optarg, 1, 65536, &o->exchanges);
    case 'i': return number(optarg, 100, 3600000, &o->spacing);
    case 'w': return number(optarg, 1, 1000, &o->wait);
    case 'e': return number(optarg, 1, 86400, &o->telling);
    case 'm': o->raw_clock = true; return true;
    case 'q': o->quiet = true; return true;
    case 'P': o->plain = true; return true;
    case 'N': o->now = true; return true;
    case 'S': o->system = true; return true;
    default: return false;
    }
}

static bool read_words(int argc, char **argv, struct options *o)
{
    static const struct option longs[] = {
        {"plain", no_argument, NULL, 'P'},
        {"now", no_argument, NULL, 'N'},
        {"system", no_argument, NULL, 'S'},
        {0}};
    *o = (struct options){.port = "123", .exchanges = 500, .spacing = 16000, .wait = 1000,
                          .telling = 60};
    int letter;
    while ((letter = getopt_long(argc, argv, "1a:r:p:n:i:w:e:mq", longs, NULL)) != -1) {
        if (!read_option(letter, o)) return false;
    }
    if (o->wait > o->spacing) o->wait = o->spacing;
    if (optind < argc) o->server = argv[optind];
    return argc - optind == (o->now ? 0 : 1) && (o->now || !o->system);
}

static void print_system(uint64_t nanos)
{
    printf(" %" PRIu64 ".%09" PRIu64, nanos / NANOS_PER_SECOND, nanos % NANOS_PER_SECOND);
}

static int print_now(const struct options *o)
{
    struct counter counter = pick_counter(o->raw_clock, 10);
    struct file file = {.first = o->first};
    if (o->file != NULL && !take_over(o->file, &file, &counter)) return 1;
    uint64_t before = clock_nanos(CLOCK_REALTIME);
    uint64_t count = read_counter(&counter);
    uint64_t behind = clock_nanos(CLOCK_REALTIME);
    printf("%" PRIu64, count);
    if (o->system) {
        print_system(before);
        print_system(behind);
    }
    putchar('\n');
    return !ferror(stdout) && fclose(stdout) == 0 ? 0 : 1;
}

int main(int argc, char **argv)
{
    struct options o;
    if (!read_words(argc, argv, &o)) return usage();
    if (o.now) return print_now(&o);
    struct server server;
    if (!reach(&server, o.server, o.port, o.plain)) return 1;
    struct counter counter = pick_counter(o.raw_clock, 1000);
    struct file file = {.first = o.first, .stamped = server.stamped};
    struct record record;
    server.counter = &counter;
    struct totals t = {0};
    setvbuf(stdout, NULL, _IOLBF, 0);
    if (o.file == NULL) begin_file(&file, &counter);
    else if (!take_over(o.file, &file, &counter) || !go_on_with(o.file, &file)) return 1;
    if (o.capture != NULL && !begin_record(&record, o.capture, &counter)) return 1;
    server.record = o.capture == NULL ? NULL : &record;
    bool whole = collect(&server, &file, &o, &t);
    tell_totals(&t, server.stamped);
    bool closed = (o.capture == NULL || end_record(&record)) && fclose(stdout) == 0;
    return whole && closed && t.written > 0 ? 0 : 1;
}
