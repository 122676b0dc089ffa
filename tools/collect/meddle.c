/*
 * For the tests: laid before the C library by LD_PRELOAD, it does to stamps, to the system's clock and
 * to the program's time what a system may do. What it does is in MEDDLE:
 *   hold       the program is held up for 20 ms between its call of send and the system's
 *   none, ahead, old          stamps of replies are left out, or are a second off
 *   sent-none, sent-ahead, sent-old   the same for those of requests
 *   forward    the system's clock is set forward by a second between request and reply
 */
#define _GNU_SOURCE
#include <dlfcn.h>
#include <stdlib.h>
#include <string.h>
#include <sys/socket.h>
#include <time.h>
#include <unistd.h>

static int sent; /* how many requests */

static int is_on(const char *what)
{
    const char *word = getenv("MEDDLE");
    return word != NULL && strcmp(word, what) == 0;
}

ssize_t send(int s, const void *bytes, size_t length, int flags)
{
    if (is_on("hold")) usleep(20000);
    sent++;
    return sendto(s, bytes, length, flags, NULL, 0);
}

static void change(struct msghdr *message, const char *none, const char *ahead, const char *old)
{
    struct cmsghdr *c = CMSG_FIRSTHDR(message);
    if (is_on(none)) message->msg_controllen = 0;
    if (c == NULL || c->cmsg_level != SOL_SOCKET || c->cmsg_type != SCM_TIMESTAMPING) return;
    struct timespec stamp;
    memcpy(&stamp, CMSG_DATA(c), sizeof stamp);
    stamp.tv_sec += is_on(ahead) - is_on(old);
    memcpy(CMSG_DATA(c), &stamp, sizeof stamp);
}

ssize_t recvmsg(int s, struct msghdr *message, int flags)
{
    ssize_t (*real)(int, struct msghdr *, int) = (ssize_t (*)(int, struct msghdr *, int))dlsym(RTLD_NEXT, "recvmsg");
    ssize_t bytes = real(s, message, flags);
    if (bytes < 0) return bytes;
    if (flags & MSG_ERRQUEUE) change(message, "sent-none", "sent-ahead", "sent-old");
    else change(message, "none", "ahead", "old");
    return bytes;
}

int clock_gettime(clockid_t clock, struct timespec *now)
{
    int (*real)(clockid_t, struct timespec *) = (int (*)(clockid_t, struct timespec *))dlsym(RTLD_NEXT, "clock_gettime");
    int error = real(clock, now);
    if (clock == CLOCK_REALTIME && is_on("forward")) now->tv_sec += sent;
    return error;
}
