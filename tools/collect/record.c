/* A capture of the packets that are sent and received, each with its count. */
#define _GNU_SOURCE
#include "collect.h"

#include <errno.h>
#include <stdlib.h>
#include <string.h>

enum { FRONT_BYTES = 11 }; /* the count in eight, the direction in one, the packet's length in two */

static void put_number(unsigned char *place, uint64_t number, int bytes)
{
    for (int i = bytes - 1; i >= 0; i--) {
        place[i] = (unsigned char)number;
        number >>= 8;
    }
}

static void put_record(FILE *file, uint64_t count, bool received, const unsigned char *packet,
                       size_t bytes)
{
    unsigned char front[FRONT_BYTES];
    put_number(front, count, 8);
    front[8] = received;
    put_number(front + 9, bytes, 2);
    fwrite(front, 1, sizeof front, file);
    fwrite(packet, 1, bytes, file);
}

/* The file must not be there yet: a capture holds what cannot be had again. */
bool begin_record(struct record *record, const char *path, const struct counter *counter)
{
    unsigned char head[16];
    memcpy(head, "RADCAP01", 8);
    put_number(head + 8, counter->frequency, 8);
    *record = (struct record){.path = path, .file = fopen(path, "wbx")};
    if (record->file == NULL) {
        say("the capture %s is not begun: %s", path, strerror(errno));
        return false;
    }
    return fwrite(head, 1, sizeof head, record->file) == sizeof head;
}

/* What else is heard before the reply stands behind the request, whose count is not known yet. */
void hear(struct record *record, uint64_t count, const unsigned char *packet, size_t bytes)
{
    if (record == NULL || bytes < PACKET_BYTES) return;
    if (record->heard == NULL) record->heard = open_memstream(&record->text, &record->size);
    if (record->heard != NULL) put_record(record->heard, count, true, packet, bytes);
}

static void put_heard(struct record *record)
{
    if (record->heard == NULL) return;
    fclose(record->heard);
    fwrite(record->text, 1, record->size, record->file);
    free(record->text);
    record->heard = NULL;
}

/* The request of an exchange, what was heard, and the reply, where there is one. */
void put_exchange(struct record *record, const struct exchange *e, const unsigned char *request,
                  const unsigned char *reply, size_t bytes)
{
    if (record == NULL) return;
    put_record(record->file, e->sent.count, false, request, PACKET_BYTES);
    put_heard(record);
    if (reply != NULL) put_record(record->file, e->received.count, true, reply, bytes);
    fflush(record->file);
}

bool end_record(struct record *record)
{
    bool failed = ferror(record->file) != 0;
    if (fclose(record->file) == 0 && !failed) return true;
    say("the capture %s is not whole", record->path);
    return false;
}
