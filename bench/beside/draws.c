/* The draws of the proxy. The one of a datagram goes by the seed, its way and its number alone, so two proxies with one law agree. */
#define _GNU_SOURCE
#include "draws.h"

#include <math.h>
#include <stdlib.h>
#include <string.h>

/* The words are NAME=NUMBER, the names those of `struct law`. */
bool law_of(struct law *law, char **words)
{
    struct { const char *name; double *at; } const all[] = {
        {"seed", &law->seed},   {"out", &law->out},     {"back", &law->back}, {"shape", &law->shape},
        {"mean", &law->mean},   {"burst", &law->burst}, {"loss", &law->loss}, {"from", &law->from},
        {"ppm", &law->ppm},     {"swing", &law->swing}, {"over", &law->over},
    };
    *law = (struct law){.shape = 1, .over = 1};
    for (; *words != NULL; words++) {
        char *value = strchr(*words, '='), *end = NULL;
        double *at = NULL;
        for (size_t i = 0; value != NULL && i < sizeof all / sizeof *all; i++) {
            size_t length = (size_t)(value - *words);
            if (strlen(all[i].name) == length && strncmp(all[i].name, *words, length) == 0) at = all[i].at;
        }
        if (at == NULL) return false;
        *at = strtod(value + 1, &end);
        if (end == value + 1 || *end != 0 || !(*at >= 0)) return false;
    }
    return law->shape > 0 && law->over > 0;
}

/* A number that looks drawn, by another one (the last steps of splitmix64). */
static uint64_t mixed(uint64_t x)
{
    x += UINT64_C(0x9e3779b97f4a7c15);
    x = (x ^ (x >> 30)) * UINT64_C(0xbf58476d1ce4e5b9);
    x = (x ^ (x >> 27)) * UINT64_C(0x94d049bb133111eb);
    return x ^ (x >> 31);
}

/* Above 0 and below 1. */
static double uniform(uint64_t *state)
{
    *state = mixed(*state);
    return ((double)(*state >> 12) + 0.5) * 0x1p-52;
}

static double normal(uint64_t *state)
{
    double radius = sqrt(-2 * log(uniform(state)));
    return radius * cos(2 * M_PI * uniform(state));
}

/* A gamma law of mean 1, as Marsaglia and Tsang draw it; of a shape below 1 by one of a shape above. */
static double gamma_of(double shape, uint64_t *state)
{
    double boost = shape < 1 ? pow(uniform(state), 1 / shape) : 1;
    double d = (shape < 1 ? shape + 1 : shape) - 1.0 / 3, c = 1 / sqrt(9 * d);
    for (;;) {
        double x = normal(state), v = 1 + c * x;
        if (v <= 0) continue;
        v = v * v * v;
        if (log(uniform(state)) < x * x / 2 + d - d * v + d * log(v)) return d * v * boost / shape;
    }
}

struct draw draw_of(const struct law *law, enum way way, long index)
{
    uint64_t state = mixed(mixed((uint64_t)law->seed * 2 + (uint64_t)way) + (uint64_t)index);
    bool lost = uniform(&state) < law->loss;
    return (struct draw){.lost = lost, .queue = gamma_of(law->shape, &state)};
}

/* One burst of 3 to 8 s begins in each minute of the system's clock, at a place that goes by the minute alone. */
bool in_burst(int64_t nanos)
{
    int64_t minute = nanos / (60 * NANOS);
    for (int64_t m = minute - 1; m <= minute; m++) {
        uint64_t drawn = mixed((uint64_t)m);
        int64_t begin = m * 60 * NANOS + (int64_t)(drawn % (60 * NANOS));
        int64_t length = 3 * NANOS + (int64_t)(mixed(drawn) % (5 * NANOS));
        if (begin <= nanos && nanos < begin + length) return true;
    }
    return false;
}

/* In ns. */
int64_t delay(const struct law *law, enum way way, const struct draw *draw, bool burst)
{
    double least = way == OUT ? law->out : law->back;
    return (int64_t)(1000 * (least + draw->queue * (burst ? law->burst : law->mean)));
}

/* By how many ns the server is ahead at a time of the system's clock. The same stands in cases.py. */
int64_t ahead(const struct law *law, int64_t nanos)
{
    double seconds = (double)(nanos - (int64_t)law->from * NANOS) / 1e9, turn = 2 * M_PI / law->over;
    return llround(1000 * (law->ppm * seconds + law->swing / turn * sin(turn * seconds)));
}
