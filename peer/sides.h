/*
 * The receivers that are put beside one another, each behind the same calls: the library for C, and the peer's in each form
 * of shared_ports.h. There is one of either at a time.
 */
#ifndef SIDES_H
#define SIDES_H
#include "shared_ports.h"
#include "traces.h"
#include "yelunnavi.h"

typedef struct {
    Frame frame;
    u8 net, kind;
} Arrived;

typedef struct {
    const char *word;
    bool is_library;
    bool is_equal; /* with the library's promises */
    Form form;
    unsigned readers; /* of each sampling port */
} Side;

/* Why the program ends. */
_Noreturn void stop(const char *why);

/* Reads the configuration. Comes once, before the rest. */
void read_config(const char *name);

/* What a word names: library, plain, seqlock, triple or equal, and perhaps a colon and the number of readers, else 1. */
Side side_of(const char *word);

/* A new receiver, and the ends of all its ports. */
void open_side(const Side *side, bool touched);

extern struct yelunnavi_receiver library;
extern Receiver peer;
extern Handle equal;

/* Takes a frame that comes so much later than it did. Returns the kind of its verdict. */
static inline u8 by_library(const Arrived *arrived, u64 later)
{
    struct yelunnavi_verdict reply;
    const Frame *frame = &arrived->frame;
    yelunnavi_receiver_receive(&library, arrived->net, frame->time + later, frame->octets, frame->len, &reply);
    return (u8)reply.kind;
}

static inline u8 by_peer(const Arrived *arrived, u64 later)
{
    const Frame *frame = &arrived->frame;
    return receive(&peer, arrived->net, frame->time + later, frame->octets, frame->len).kind;
}

static inline u8 by_equal(const Arrived *arrived, u64 later)
{
    Reply reply;
    const Frame *frame = &arrived->frame;
    receive_by_handle(&equal, arrived->net, frame->time + later, frame->octets, frame->len, &reply);
    return (u8)reply.kind;
}

/* Gives a side a frame. */
static inline u8 by_side(const Side *side, const Arrived *arrived, u64 later)
{
    if (side->is_library)
        return by_library(arrived, later);
    return side->is_equal ? by_equal(arrived, later) : by_peer(arrived, later);
}

/* ---- partitions: the ports have places from 0 on, in the order of the configuration */

size_t count_of_ports(void);
bool is_sampling(size_t port);

/* Reads a sampling port by the reader at this place. */
Found read_at(const Side *side, size_t port, unsigned reader, u8 *out);

/* Takes a message of a queue. */
Found take_at(const Side *side, size_t port, u8 *out);

/* Takes all that waits in the queues. Returns how many messages that were. */
size_t take_all(const Side *side);

#endif
