/* By how much the proxy makes a datagram late: a law, and draws of it by a seed. */
#ifndef DRAWS_H
#define DRAWS_H

#include <stdbool.h>
#include <stdint.h>

#define NANOS INT64_C(1000000000) /* of a second */

enum way { OUT, BACK };

/* Delays in us. All are numbers of the command's words, see `law_of`. */
struct law {
    double seed;
    double out, back;   /* what each way takes at least */
    double shape, mean; /* of the queues: a gamma law */
    double burst;       /* the mean in a burst */
    double loss;        /* how many of all datagrams are lost */
    double from;        /* the second since 1970 at which the server is right */
    double ppm;         /* by how much it runs fast */
    double swing, over; /* how many ppm it swings beside, and over how many seconds */
};

struct draw {
    bool lost;
    double queue; /* in units of the mean */
};

bool law_of(struct law *law, char **words);
struct draw draw_of(const struct law *law, enum way way, long index);
bool in_burst(int64_t nanos);
int64_t delay(const struct law *law, enum way way, const struct draw *draw, bool burst);
int64_t ahead(const struct law *law, int64_t nanos);

#endif
