/* A queue that is found empty in the midst of its slots, after it was full and before: it begins again at the first one, and
   hands out its messages in order. And what it says of the messages that it lost. */
#ifndef DEEP_QUEUE_H
#define DEEP_QUEUE_H
#include "wanted.h"
#include <string.h>

/* With a queue of six messages of no octets. */
static const char WITH_DEEP[] = LINK_17
    "[[link.port]]\nname = \"deep\"\nkind = \"queuing\"\naddress = \"224.224.0.17\"\nudp = 5003\nmax = 0\ndepth = 6\n";
/* A message of no octets for port 5003, with sequence number 1. */
static const uint8_t NO_OCTETS[60] = {3, 0, 0, 0, 0, 17, 2, 0, 0, 0, 1, 32, 8, 0, 69, 0, 0, 28, 0, 2, 0, 0, 1, 17, 205, 220, 10, 1, 1, 1,
    224, 224, 0, 17, 19, 137, 19, 139, 0, 8, 0, 0, [59] = 1};

typedef uint32_t (*give_frame)(uint64_t time, const uint8_t *frame, size_t len, struct yelunnavi_verdict *verdict);

/* Gives the messages with these numbers, of which each comes to this. Each comes at a thousand times its number. */
static void give_messages(give_frame give, uint8_t first, uint8_t last, uint32_t kind) {
    struct yelunnavi_verdict verdict;
    uint8_t frame[sizeof NO_OCTETS];
    memcpy(frame, NO_OCTETS, sizeof frame);
    for (uint8_t number = first; number <= last; number++) {
        frame[59] = number;
        WANT(DONE, give(1000u * number, frame, sizeof frame, &verdict));
        if (verdict.kind != kind) exit(40);
    }
}

/* Takes the messages with these numbers, of which the first one tells of so many that were lost. */
static void take_messages(struct yelunnavi_queue *queue, uint8_t first, uint8_t last, uint64_t lost) {
    struct yelunnavi_taken taken;
    uint8_t out[1];
    for (uint8_t number = first; number <= last; number++) {
        WANT(DONE, yelunnavi_queue_take(queue, out, 0, &taken));
        if (taken.found != 1 || taken.time != 1000u * number || taken.lost != (number == first ? lost : 0)) exit(41);
    }
}

static void of_a_queue_that_begins_again(struct yelunnavi_queue *queue, give_frame give) {
    give_messages(give, 1, 6, YELUNNAVI_VERDICT_QUEUED);
    take_messages(queue, 1, 5, 0);
    give_messages(give, 7, 11, YELUNNAVI_VERDICT_QUEUED);
    take_messages(queue, 6, 11, 0);
    give_messages(give, 12, 17, YELUNNAVI_VERDICT_QUEUED);
    give_messages(give, 18, 20, YELUNNAVI_VERDICT_OVERFLOW);
    take_messages(queue, 12, 12, 0);
    give_messages(give, 21, 21, YELUNNAVI_VERDICT_QUEUED);
    take_messages(queue, 13, 17, 0);
    take_messages(queue, 21, 21, 3);
    for (uint8_t number = 22; number < 32; number++) {
        give_messages(give, number, number, YELUNNAVI_VERDICT_QUEUED);
        take_messages(queue, number, number, 0);
    }
}
#endif
