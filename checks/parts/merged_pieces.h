/* Pieces of a datagram in an order in which the first one meets what the others made one run, not all of it known as such. */
#ifndef MERGED_PIECES_H
#define MERGED_PIECES_H
#include "deep_queue.h"

/* Sets the checksum of a frame's IPv4 header of 20 octets. */
static void set_checksum(uint8_t *frame) {
    uint32_t sum = 0;
    frame[24] = frame[25] = 0;
    for (int at = 14; at < 34; at += 2) sum += (uint32_t)(frame[at] << 8 | frame[at + 1]);
    sum = (sum & 0xFFFF) + (sum >> 16);
    sum = ~((sum & 0xFFFF) + (sum >> 16)) & 0xFFFF;
    frame[24] = (uint8_t)(sum >> 8);
    frame[25] = (uint8_t)sum;
}

/* Four pieces of 8 octets: the second, the last, the third and the first. Their message is too long for the port. */
static void of_merged_pieces(give_frame give) {
    static const uint8_t order[] = {1, 3, 2, 0};
    struct yelunnavi_verdict verdict;
    uint8_t frame[sizeof NO_OCTETS];
    memcpy(frame, NO_OCTETS, sizeof frame);
    frame[39] = 32;
    for (uint8_t k = 0; k < sizeof order; k++) {
        frame[20] = order[k] == 3 ? 0 : 0x20;
        frame[21] = order[k];
        frame[59] = (uint8_t)(k + 1);
        set_checksum(frame);
        WANT(DONE, give(1000u * (k + 1), frame, sizeof frame, &verdict));
        if (verdict.kind != (order[k] == 0 ? YELUNNAVI_VERDICT_TOO_LONG : YELUNNAVI_VERDICT_FRAGMENT_HELD)) exit(42);
    }
}
#endif
