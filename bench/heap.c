/* Calls one kind of step of a plain binary heap of timers a number of times, so that its instructions can be counted
   beside those of the timing wheel. The words are those of timer_cost: what to call, how many timers live meanwhile, and
   how often. A timer that is cancelled is marked, and taken out when it comes to the top. */
#include <stdint.h>
#include <stdio.h>
#include <stdlib.h>

typedef unsigned __int128 grains;

struct timer {
    grains due;
    uint64_t id;
};

static struct timer *heap;
static size_t count;
static uint64_t added;
static unsigned char *dead;

static int is_before(const struct timer *one, const struct timer *other)
{
    return one->due < other->due || (one->due == other->due && one->id < other->id);
}

static uint64_t add(uint32_t sec)
{
    struct timer timer = {(grains)sec << 64, added++};
    size_t place = count++;
    while (place > 0 && is_before(&timer, &heap[(place - 1) / 2])) {
        heap[place] = heap[(place - 1) / 2];
        place = (place - 1) / 2;
    }
    heap[place] = timer;
    return timer.id;
}

static void take_top(void)
{
    struct timer last = heap[--count];
    size_t place = 0;
    for (;;) {
        size_t kid = 2 * place + 1;
        if (kid >= count)
            break;
        if (kid + 1 < count && is_before(&heap[kid + 1], &heap[kid]))
            kid++;
        if (is_before(&last, &heap[kid]))
            break;
        heap[place] = heap[kid];
        place = kid;
    }
    heap[place] = last;
}

/* The id of the first timer that is due by a time, or all ones. */
static uint64_t fire(uint32_t sec)
{
    while (count > 0 && dead[heap[0].id])
        take_top();
    if (count == 0 || heap[0].due > (grains)sec << 64)
        return UINT64_MAX;
    uint64_t id = heap[0].id;
    take_top();
    return id;
}

/* From 1 to 256 s, spread by the number. */
static uint32_t spread(uint32_t number)
{
    return (number * 2654435761u >> 24) + 1;
}

int main(int argc, char **argv)
{
    if (argc != 4)
        return 2;
    char call = argv[1][0];
    uint32_t live = strtoul(argv[2], NULL, 10), times = strtoul(argv[3], NULL, 10), pace = live / 128 + 1;
    uint64_t sum = 0;
    heap = malloc(((size_t)live + times + 1) * sizeof *heap);
    dead = calloc((size_t)live + times + 1, 1);
    if (!heap || !dead)
        return 5;
    for (uint32_t i = 0; i < live; i++)
        sum ^= add(spread(i));
    for (uint32_t i = 0; i < times; i++) {
        if (call == 'n') /* none */
            sum ^= fire(0);
        else if (call == 'c') /* cancel */
            dead[add(spread(i))] = 1;
        else if (call == 'f') /* fire */
            sum ^= fire(256) ^ add(spread(i));
        else /* hold */
            sum ^= fire(UINT32_MAX) ^ add(i / pace + spread(i));
    }
    /* What the calls answered is told, so that none is left out. */
    fprintf(stderr, "%llu\n", (unsigned long long)sum);
    return 0;
}
