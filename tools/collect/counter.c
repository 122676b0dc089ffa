/* The counter that stamps exchanges. */
#define _GNU_SOURCE
#include "collect.h"

#if defined(__x86_64__) || defined(__i386__)
#include <cpuid.h>
#include <x86intrin.h>
#endif

#define COUNT_UNIT (UINT64_C(1) << 61) /* counts are written less a whole number of these */

uint64_t clock_nanos(clockid_t clock)
{
    struct timespec now;
    clock_gettime(clock, &now);
    return (uint64_t)now.tv_sec * NANOS_PER_SECOND + (uint64_t)now.tv_nsec;
}

/* Whether the processor has a counter that runs evenly, at all speeds and in all sleeps. */
static bool has_processor_counter(void)
{
#if defined(__x86_64__) || defined(__i386__)
    unsigned a, b, c, d;
    return __get_cpuid(0x80000007, &a, &b, &c, &d) && (d >> 8 & 1);
#elif defined(__aarch64__)
    return true;
#else
    return false;
#endif
}

/* What comes before in the program has come before the reading, and what comes behind, behind. */
static uint64_t processor_count(void)
{
#if defined(__x86_64__) || defined(__i386__)
    _mm_lfence();
    uint64_t count = __rdtsc();
    _mm_lfence();
    return count;
#elif defined(__aarch64__)
    uint64_t count;
    __asm__ volatile("isb; mrs %0, cntvct_el0; isb" : "=r"(count) : : "memory");
    return count;
#else
    return 0;
#endif
}

/* Counts may wrap at 2^64; less the base they do not. */
uint64_t read_counter(const struct counter *counter)
{
    uint64_t raw = counter->raw_clock ? clock_nanos(CLOCK_MONOTONIC_RAW) : processor_count();
    return raw - counter->base;
}

/* The processor's count and CLOCK_MONOTONIC_RAW at one moment: the tightest of many tries. */
static void both_counts(uint64_t *count, uint64_t *nanos)
{
    uint64_t tightest = UINT64_MAX;
    for (int i = 0; i < 1000; i++) {
        uint64_t before = processor_count();
        uint64_t now = clock_nanos(CLOCK_MONOTONIC_RAW);
        uint64_t took = processor_count() - before;
        if (took < tightest) {
            tightest = took;
            *count = before + took / 2;
            *nanos = now;
        }
    }
}

/* In Hz, over so many ms of CLOCK_MONOTONIC_RAW. */
static uint64_t measured_frequency(long ms)
{
    uint64_t count0, nanos0, count1, nanos1;
    both_counts(&count0, &nanos0);
    nanosleep(&(struct timespec){.tv_sec = ms / 1000, .tv_nsec = ms % 1000 * 1000000}, NULL);
    both_counts(&count1, &nanos1);
    long double seconds = (long double)(nanos1 - nanos0) / NANOS_PER_SECOND;
    return (uint64_t)((long double)(count1 - count0) / seconds + 0.5L);
}

/* The frequency of the processor's counter, or 0 where it cannot be used. */
static uint64_t usable_frequency(long measured_ms)
{
    uint64_t frequency = has_processor_counter() ? measured_frequency(measured_ms) : 0;
    bool usable = frequency >= LEAST_FREQUENCY && frequency <= GREATEST_FREQUENCY;
    if (!usable) say("the processor has no counter to use, so CLOCK_MONOTONIC_RAW is read");
    return usable ? frequency : 0;
}

struct counter pick_counter(bool raw_clock, long measured_ms)
{
    uint64_t frequency = raw_clock ? 0 : usable_frequency(measured_ms);
    struct counter counter = {.raw_clock = frequency == 0};
    counter.frequency = counter.raw_clock ? NANOS_PER_SECOND : frequency;
    counter.base = read_counter(&counter) / COUNT_UNIT * COUNT_UNIT;
    return counter;
}
