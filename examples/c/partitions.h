/* A partition that reads a sampling port, and one that takes of a queuing port, each on a thread of its own; the ports are `pos`
   and `nav`, or have names of the command line. */
#ifndef PARTITIONS_H
#define PARTITIONS_H
#include "fault.h"

#include <inttypes.h>
#include <pthread.h>
#include <stdatomic.h>
#include <stdio.h>
#include <stdlib.h>

/* One partition reads. */
enum { READERS = 1 };

static uint64_t pos_room[YELUNNAVI_READER_OCTETS / 8U], nav_room[YELUNNAVI_QUEUE_OCTETS / 8U];
static struct yelunnavi_reader pos;
static struct yelunnavi_queue nav;
static struct yelunnavi_place pos_place, nav_place;
static pthread_t partitions[2];
static atomic_bool is_over;
static const char *pos_name = "pos", *nav_name = "nav";
static uint64_t newest, taken;

/* Reads the newest message at each of its turns. Its clock is that of the arrival times: here, the newest of them. */
static void *read_pos(void *unused) {
    uint8_t out[YELUNNAVI_LONGEST_SAMPLE];
    struct yelunnavi_read read = {0};
    for (bool is_last = false; !is_last;) {
        is_last = atomic_load(&is_over);
        if (yelunnavi_reader_read(&pos, read.time, out, sizeof out, &read) != YELUNNAVI_DONE) abort();
        if (read.found == 1 && read.number < newest) abort();
        if (read.found == 1) newest = read.number;
    }
    return unused;
}

/* Takes what waits at each of its turns. */
static void *take_nav(void *unused) {
    uint8_t out[YELUNNAVI_LONGEST_QUEUED];
    struct yelunnavi_taken message = {0};
    for (bool is_last = false; !is_last;) {
        is_last = atomic_load(&is_over);
        do {
            if (yelunnavi_queue_take(&nav, out, sizeof out, &message) != YELUNNAVI_DONE) abort();
            taken += message.found;
        } while (message.found);
    }
    return unused;
}

/* Whether an opening was done. The fault of a configuration is printed. */
static bool is_opened(const char *program, uint32_t code, const struct yelunnavi_fault *fault) {
    if (code == YELUNNAVI_FAULTY) show_fault(program, fault);
    return code == YELUNNAVI_DONE;
}

static bool make_partitions(void) {
    return yelunnavi_reader_init(&pos, pos_room, sizeof pos_room) == YELUNNAVI_DONE
        && yelunnavi_queue_init(&nav, nav_room, sizeof nav_room) == YELUNNAVI_DONE;
}

static bool start_partitions(void) {
    return !pthread_create(&partitions[0], NULL, read_pos, NULL) && !pthread_create(&partitions[1], NULL, take_nav, NULL);
}

/* Whether a frame had this verdict at the port at this place. */
static bool is_at(const struct yelunnavi_verdict *reply, uint32_t kind, const struct yelunnavi_place *place) {
    return reply->kind == kind && reply->link == place->link && reply->port == place->port;
}

/* Lets the partitions have their last turn, and says what each saw: whether it is what was delivered. */
static bool end_partitions(uint64_t sampled, uint64_t queued) {
    atomic_store(&is_over, true);
    for (int k = 0; k < 2; k++) pthread_join(partitions[k], NULL);
    printf("%s: the newest message is number %" PRIu64 " of %" PRIu64 "\n", pos_name, newest, sampled);
    printf("%s: %" PRIu64 " taken of %" PRIu64 " queued\n", nav_name, taken, queued);
    yelunnavi_reader_close(&pos);
    yelunnavi_queue_close(&nav);
    return newest == sampled && taken == queued;
}
#endif
