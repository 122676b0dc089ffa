/*
 * A plain reader of captures, beside which the proved one is counted. It proves nothing. `capture read`
 * tests and matches all records, `capture write` also writes the stamp file, at the end.
 */
#include <stdbool.h>
#include <stdint.h>
#include <stdio.h>
#include <stdlib.h>
#include <string.h>
#include <unistd.h>

enum { PIECE = 4096, FRONT = 11, PACKET = 48, LONGEST = FRONT + 65535, REQUESTS = 16 };

#define UNIX_EPOCH UINT64_C(2208988800)

struct request {
    uint64_t count;
    unsigned char mark[8];
    bool taken;
};

struct answer {
    bool unused;
    uint64_t index, ta, tf, came, left;
    uint32_t came_nanos, left_nanos;
    unsigned stratum, leap;
};

struct reader {
    unsigned char open[LONGEST]; /* a unit that has not ended */
    size_t kept;
    bool behind_head;
    uint64_t frequency, records;
    struct request requests[REQUESTS]; /* the latest first */
    int known;
    struct answer *answers;
    size_t count, room;
};

static uint64_t number(const unsigned char *bytes, int size)
{
    uint64_t n = 0;
    while (size--) n = n << 8 | *bytes++;
    return n;
}

static uint32_t nanos(const unsigned char *time)
{
    return (uint32_t)(number(time + 4, 4) * 1000000000 >> 32);
}

static void keep(struct reader *r, struct answer a)
{
    if (r->count == r->room) {
        r->room = r->room == 0 ? 64 : 2 * r->room;
        r->answers = realloc(r->answers, r->room * sizeof *r->answers);
        if (r->answers == NULL) exit(5);
    }
    r->answers[r->count++] = a;
}

static void note_request(struct reader *r, uint64_t count, const unsigned char *packet)
{
    if (r->known == REQUESTS) r->known--;
    memmove(r->requests + 1, r->requests, (size_t)r->known * sizeof *r->requests);
    r->requests[0].count = count;
    memcpy(r->requests[0].mark, packet + 40, 8);
    r->requests[0].taken = false;
    r->known++;
}

static void take_reply(struct reader *r, uint64_t count, const unsigned char *p, uint64_t index)
{
    static const unsigned char none[8];
    struct answer a = {.unused = true, .index = index};
    uint64_t came = number(p + 32, 4), left = number(p + 40, 4);
    bool usable = memcmp(p + 24, none, 8) != 0 && came >= UNIX_EPOCH && left >= UNIX_EPOCH;
    for (int i = 0; usable && i < r->known; i++) {
        struct request *q = &r->requests[i];
        if (q->taken || memcmp(q->mark, p + 24, 8) != 0) continue;
        q->taken = true;
        a = (struct answer){false, index, q->count, count, came - UNIX_EPOCH, left - UNIX_EPOCH,
                            nanos(p + 32), nanos(p + 40), p[1], p[0] >> 6};
        break;
    }
    keep(r, a);
}

static void unit(struct reader *r, const unsigned char *u)
{
    if (!r->behind_head) {
        if (memcmp(u, "RADCAP01", 8) != 0) exit(7);
        r->frequency = number(u + 8, 8);
        r->behind_head = true;
        return;
    }
    uint64_t count = number(u, 8), index = r->records++;
    if (count >> 62 || u[8] > 1 || number(u + 9, 2) < PACKET) exit(7);
    int mode = u[FRONT] & 7;
    if (u[8] == 0 && mode == 3) note_request(r, count, u + FRONT);
    if (u[8] == 1 && mode == 4) take_reply(r, count, u + FRONT, index);
}

static size_t size_of(const struct reader *r, const unsigned char *u, size_t have)
{
    if (!r->behind_head) return 16;
    return have < FRONT ? FRONT : FRONT + (size_t)number(u + 9, 2);
}

/* How many bytes of the piece it takes: a whole unit where one is there, else a part of one. */
static size_t take(struct reader *r, const unsigned char *piece, size_t have)
{
    if (r->kept == 0) {
        size_t size = size_of(r, piece, have);
        if (size <= have && size >= 16) {
            unit(r, piece);
            return size;
        }
    }
    size_t wanted = size_of(r, r->open, r->kept) - r->kept, taken = wanted < have ? wanted : have;
    memcpy(r->open + r->kept, piece, taken);
    r->kept += taken;
    if (r->kept >= 16 && r->kept == size_of(r, r->open, r->kept)) {
        unit(r, r->open);
        r->kept = 0;
    }
    return taken;
}

/* ---- Digits by hand, since printf takes several times as long ---- */

static char *put_digits(char *to, uint64_t n, int least)
{
    char digits[20];
    int many = 0;
    do {
        digits[many++] = (char)('0' + n % 10);
        n /= 10;
    } while (n > 0 || many < least);
    while (many > 0) *to++ = digits[--many];
    return to;
}

static char *put_text(char *to, const char *text)
{
    size_t size = strlen(text);
    memcpy(to, text, size);
    return to + size;
}

static char *put_time(char *to, uint64_t seconds, uint32_t nanos)
{
    to = put_digits(to, seconds, 1);
    *to++ = '.';
    to = put_digits(to, nanos, 9);
    *to++ = ' ';
    return to;
}

static char *put_answer(char *to, const struct answer *a)
{
    if (a->unused) return put_digits(put_text(to, "# unused "), a->index, 1);
    to = put_digits(to, a->ta, 1);
    *to++ = ' ';
    to = put_time(to, a->came, a->came_nanos);
    to = put_time(to, a->left, a->left_nanos);
    to = put_digits(to, a->tf, 1);
    *to++ = ' ';
    to = put_digits(to, a->stratum, 1);
    *to++ = ' ';
    return put_digits(to, a->leap, 1);
}

static void write_file(const struct reader *r)
{
    char line[128], *end = put_digits(put_text(line, "radclock-stamps 2\nfreq "), r->frequency, 1);
    *end++ = '\n';
    fwrite(line, 1, (size_t)(end - line), stdout);
    for (size_t i = 0; i < r->count; i++) {
        end = put_answer(line, &r->answers[i]);
        *end++ = '\n';
        fwrite(line, 1, (size_t)(end - line), stdout);
    }
}

int main(int argc, char **argv)
{
    static struct reader r;
    static unsigned char piece[PIECE];
    ssize_t have;
    while ((have = read(0, piece, PIECE)) > 0) {
        for (size_t at = 0; at < (size_t)have;) at += take(&r, piece + at, (size_t)have - at);
    }
    if (have < 0 || r.kept > 0 || !r.behind_head) return 7;
    if (argc > 1 && strcmp(argv[1], "write") == 0) write_file(&r);
    return 0;
}
