/* The stamp file: a new one on standard output, or one that is there and goes on. */
#define _GNU_SOURCE
#include "collect.h"

#include <errno.h>
#include <inttypes.h>
#include <stdio.h>
#include <stdlib.h>
#include <string.h>

enum { LINE_BYTES = 257, BOOT_BYTES = 64 }; /* of a line of a stamp file with its end and a zero */

#define COUNT_LIMIT (UINT64_C(1) << 62) /* of a stamp file */
#define COUNTER_LINE "# The counter is "
#define BASE_LINE "# Each count is written less "
#define BOOT_LINE "# This computer's start is "

/* What the head of a file says. */
struct head {
    bool first, named, raw_clock;
    uint64_t frequency, base;
    char boot[BOOT_BYTES];
};

static const char *counter_name(bool raw_clock)
{
    return raw_clock ? "CLOCK_MONOTONIC_RAW, in ns" : "the processor's";
}

/* A name that the system draws at its start, when the counter begins anew. Empty where it says none. */
static void read_boot(char *boot)
{
    FILE *named = fopen("/proc/sys/kernel/random/boot_id", "r");
    if (named == NULL || fgets(boot, BOOT_BYTES, named) == NULL) boot[0] = 0;
    boot[strcspn(boot, "\n")] = 0;
    if (named != NULL) fclose(named);
}

static void write_how(bool stamped)
{
    puts(stamped ? "# Counts are moved to the system's stamps, where it gives them."
                 : "# Counts are those at the calls.");
}

void begin_file(const struct file *file, const struct counter *counter)
{
    char boot[BOOT_BYTES];
    read_boot(boot);
    printf("radclock-stamps %d\nfreq %" PRIu64 "\n", file->first ? 1 : 2, counter->frequency);
    printf(COUNTER_LINE "%s.\n", counter_name(counter->raw_clock));
    if (counter->base != 0) printf(BASE_LINE "%" PRIu64 ".\n", counter->base);
    if (boot[0] != 0) printf(BOOT_LINE "%s.\n", boot);
    write_how(file->stamped);
}

/* ---- A file that is there ---- */

/* Takes in a comment of the head. */
static void read_comment(const char *line, struct head *head)
{
    size_t length = strcspn(line, "\r\n");
    if (strncmp(line, BASE_LINE, strlen(BASE_LINE)) == 0) {
        head->base = strtoull(line + strlen(BASE_LINE), NULL, 10);
    } else if (strncmp(line, COUNTER_LINE, strlen(COUNTER_LINE)) == 0) {
        const char *name = line + strlen(COUNTER_LINE);
        head->raw_clock = strncmp(name, counter_name(true), strlen(counter_name(true))) == 0;
        head->named = head->raw_clock || strncmp(name, counter_name(false), strlen(counter_name(false))) == 0;
    } else if (strncmp(line, BOOT_LINE, strlen(BOOT_LINE)) == 0 && line[length - 1] == '.') {
        size_t least = strlen(BOOT_LINE);
        snprintf(head->boot, BOOT_BYTES, "%.*s", (int)(length - 1 - least), line + least);
    }
}

/* The first two lines and the comments right behind them. False where it is no stamp file. */
static bool read_head(FILE *in, struct head *head)
{
    char line[LINE_BYTES];
    if (fgets(line, sizeof line, in) == NULL) return false;
    line[strcspn(line, "\r\n")] = 0;
    head->first = strcmp(line, "radclock-stamps 1") == 0;
    if (!head->first && strcmp(line, "radclock-stamps 2") != 0) return false;
    if (fgets(line, sizeof line, in) == NULL) return false;
    if (sscanf(line, "freq %" SCNu64, &head->frequency) != 1) return false;
    while (fgets(line, sizeof line, in) != NULL && line[0] == '#') read_comment(line, head);
    return head->frequency >= LEAST_FREQUENCY && head->frequency <= GREATEST_FREQUENCY;
}

static bool ends_a_line(FILE *in)
{
    return fseek(in, -1, SEEK_END) == 0 && fgetc(in) == '\n';
}

/* Why this counter is not the one that the file goes by, or NULL where it is. */
static const char *difference(const struct head *head, const struct counter *counter)
{
    char boot[BOOT_BYTES];
    read_boot(boot);
    uint64_t more = head->frequency > counter->frequency ? head->frequency : counter->frequency;
    uint64_t less = head->frequency + counter->frequency - more;
    if (!head->named) return "it does not say by which counter it was taken";
    if (head->raw_clock != counter->raw_clock) return "it was taken by another counter";
    if (more - less > less / 10000) return "its frequency is not that of the counter";
    if (head->boot[0] == 0) return "it does not say in which start of the computer it was taken";
    if (strcmp(head->boot, boot) != 0) return "the computer has been started anew, and the counter with it";
    return NULL;
}

/* Takes version, frequency and base from the file, where it can go on by this counter. */
bool take_over(const char *path, struct file *file, struct counter *counter)
{
    FILE *in = fopen(path, "r");
    if (in == NULL) {
        say("%s cannot be opened: %s", path, strerror(errno));
        return false;
    }
    struct head head = {0};
    const char *cause = NULL;
    if (!read_head(in, &head)) cause = "it is no stamp file";
    else if (!ends_a_line(in)) cause = "its last line has no end";
    else if (file->first && !head.first) cause = "it is of version 2";
    else cause = difference(&head, counter);
    fclose(in);
    if (cause != NULL) {
        say("%s cannot go on: %s", path, cause);
        return false;
    }
    file->first = head.first;
    counter->frequency = head.frequency;
    counter->base = head.base;
    return true;
}

/* What is printed from here on goes behind what the file says. */
bool go_on_with(const char *path, const struct file *file)
{
    if (freopen(path, "a", stdout) == NULL) {
        say("%s cannot be written: %s", path, strerror(errno));
        return false;
    }
    setvbuf(stdout, NULL, _IOLBF, 0);
    puts("# Collected from here on by another run.");
    write_how(file->stamped);
    return true;
}

/* ---- Exchanges ---- */

static void write_stamp(const struct exchange *e, bool first)
{
    printf("%" PRIu64 " %" PRId64 ".%09" PRIu32 " %" PRId64 ".%09" PRIu32 " %" PRIu64, e->sent.count,
           e->came.seconds, e->came.nanos, e->left.seconds, e->left.nanos, e->received.count);
    if (!first) printf(" %u %u", e->stratum, e->leap);
    putchar('\n');
}

/* Writes a good exchange. False where its counts or the output do not allow it. */
bool write_exchange(const struct file *file, const struct exchange *e)
{
    if (e->received.count >= COUNT_LIMIT) {
        say("the counter is past what a stamp file may say");
        return false;
    }
    printf("# system %" PRIu64 ".%09" PRIu64 "\n", e->received.nanos / NANOS_PER_SECOND,
           e->received.nanos % NANOS_PER_SECOND);
    write_stamp(e, file->first);
    if (ferror(stdout)) say("the output cannot be written: %s", strerror(errno));
    return !ferror(stdout);
}
