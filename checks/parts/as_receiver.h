/* A system and both of its passes, which one thread has, under the names of a receiver: what drive.c and stack.c call is a system then, and has
   to answer as the model of a receiver does. A network that there isn't has no pass: the answer is that of a receiver. */
#include "yelunnavi.h"
#include <stdlib.h>

struct both {
    struct yelunnavi_system system;
    struct yelunnavi_pass passes[2];
};

static uint64_t pass_rooms[2][64];

static uint32_t both_init(struct both *h, void *room, size_t octets) {
    uint32_t code = yelunnavi_system_init(&h->system, room, octets);
    for (int net = 0; net < 2 && code == YELUNNAVI_DONE; net++)
        code = yelunnavi_pass_init(&h->passes[net], pass_rooms[net], sizeof pass_rooms[net]);
    return code;
}

/* Each pass is handed out at once, and not a second time. */
static uint32_t both_handed(struct both *h, uint32_t code) {
    struct yelunnavi_pass other;
    static uint64_t room[64];
    if (code != YELUNNAVI_DONE) return code;
    if (yelunnavi_pass_init(&other, room, sizeof room) != YELUNNAVI_DONE) abort();
    for (uint32_t net = 0; net < 2; net++)
        if (yelunnavi_system_hand_pass(&h->system, net, &h->passes[net]) != YELUNNAVI_DONE
            || yelunnavi_system_hand_pass(&h->system, net, &h->passes[net]) != YELUNNAVI_ALREADY_OPEN
            || yelunnavi_system_hand_pass(&h->system, net, &other) != YELUNNAVI_NONE_LEFT) abort();
    if (yelunnavi_system_hand_pass(&h->system, 2, &other) != YELUNNAVI_NO_NETWORK) abort();
    return code;
}

static uint32_t both_open(struct both *h, const uint8_t *text, size_t len, size_t readers, struct yelunnavi_fault *fault) {
    return both_handed(h, yelunnavi_system_open(&h->system, text, len, readers, fault));
}

static uint32_t both_open_table(struct both *h, const uint8_t *constant, const struct yelunnavi_link_row *links, size_t links_len,
                                const struct yelunnavi_port_row *ports, size_t ports_len, size_t readers, struct yelunnavi_fault *fault) {
    return both_handed(h, yelunnavi_system_open_table(&h->system, constant, links, links_len, ports, ports_len, readers, fault));
}

static void both_close(struct both *h) {
    yelunnavi_system_close(&h->system);
    for (int net = 0; net < 2; net++) yelunnavi_pass_close(&h->passes[net]);
}

/* What a receiver answers of a network that there isn't. */
static uint32_t of_no_network(struct both *h) {
    size_t links;
    return yelunnavi_system_links(&h->system, &links) == YELUNNAVI_DONE ? YELUNNAVI_NO_NETWORK : YELUNNAVI_NOT_OPEN;
}

static inline uint32_t both_receive(struct both *h, uint32_t net, uint64_t now, const uint8_t *frame, size_t len, struct yelunnavi_verdict *told) {
    return net < 2 ? yelunnavi_pass_receive(&h->passes[net], now, frame, len, told) : of_no_network(h);
}

static inline uint32_t both_count(struct both *h, size_t link, uint32_t net, uint32_t kind, uint64_t *count) {
    return net < 2 ? yelunnavi_pass_count(&h->passes[net], link, kind, count) : of_no_network(h);
}

static inline uint32_t both_filtered(struct both *h, uint32_t net, uint32_t cause, uint64_t *count) {
    return net < 2 ? yelunnavi_pass_filtered(&h->passes[net], cause, count) : of_no_network(h);
}

#define yelunnavi_receiver both
#define yelunnavi_receiver_init both_init
#define yelunnavi_receiver_open both_open
#define yelunnavi_receiver_open_table both_open_table
#define yelunnavi_receiver_close both_close
#define yelunnavi_receiver_receive both_receive
#define yelunnavi_receiver_count both_count
#define yelunnavi_receiver_filtered both_filtered
#define yelunnavi_receiver_fill(h, ...) yelunnavi_pass_fill(&(h)->passes[0], __VA_ARGS__)
#define yelunnavi_receiver_port_counts(h, ...) yelunnavi_pass_port_counts(&(h)->passes[0], __VA_ARGS__)
#define yelunnavi_receiver_links(h, ...) yelunnavi_system_links(&(h)->system, __VA_ARGS__)
#define yelunnavi_receiver_link(h, ...) yelunnavi_system_link(&(h)->system, __VA_ARGS__)
#define yelunnavi_receiver_port(h, ...) yelunnavi_system_port(&(h)->system, __VA_ARGS__)
#define yelunnavi_receiver_place(h, ...) yelunnavi_system_place(&(h)->system, __VA_ARGS__)
#define yelunnavi_receiver_hand_reader(h, ...) yelunnavi_system_hand_reader(&(h)->system, __VA_ARGS__)
#define yelunnavi_receiver_hand_queue(h, ...) yelunnavi_system_hand_queue(&(h)->system, __VA_ARGS__)
