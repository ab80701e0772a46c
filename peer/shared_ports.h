/*
 * Ports that partitions on threads of their own use while the receiver takes frames. Without these a port is for the
 * receiver's thread alone: the form PLAIN.
 *
 *   SEQLOCK   a counter round one message, which is kept in relaxed atomic words. Any number of readers, each of which
 *             begins again if a publication comes between
 *   TRIPLE    three messages for each reader, of octets as they are. A publication changes their owners by one exchange,
 *             and a read that finds something newer by one: nobody waits or begins again
 *   rings     queues of octets, for one taker each, in which a message takes as much as it is long; and two counters
 *
 * All three are without a data race by the memory model of C11.
 */
#ifndef SHARED_PORTS_H
#define SHARED_PORTS_H
#include "promises.h"
#include "receiver.h"

#include <stdatomic.h>
#include <string.h>

enum { SAMPLE_WORDS = (MOST_SAMPLE + 7) / 8, MOST_READERS = 8 };

/* ---- a sampling port by a seqlock */

struct Seqlock {
    _Alignas(64) _Atomic u64 sequence; /* odd while a message is written */
    _Atomic u64 number, time, len;
    _Atomic u64 words[SAMPLE_WORDS];
};

static inline void set_word(_Atomic u64 *word, u64 value)
{
    atomic_store_explicit(word, value, memory_order_relaxed);
}

static inline u64 get_word(_Atomic u64 *word)
{
    return atomic_load_explicit(word, memory_order_relaxed);
}

static inline void publish_by_seqlock(struct Seqlock *lock, u64 number, u64 time, const u8 *octets, u32 len)
{
    u64 sequence = get_word(&lock->sequence), value = 0;
    set_word(&lock->sequence, sequence + 1);
    atomic_thread_fence(memory_order_release);
    set_word(&lock->number, number);
    set_word(&lock->time, time);
    set_word(&lock->len, len);
    size_t i = 0, whole = len / 8;
    for (; i < whole; i++) {
        memcpy(&value, octets + 8 * i, 8);
        set_word(&lock->words[i], value);
    }
    if (len % 8) {
        value = 0;
        memcpy(&value, octets + 8 * i, len % 8);
        set_word(&lock->words[i], value);
    }
    atomic_store_explicit(&lock->sequence, sequence + 2, memory_order_release);
}

/* ---- a sampling port by a triple buffer for each reader */

typedef struct {
    u64 number, time;
    u32 len;
    u8 octets[MOST_SAMPLE + 1];
} Sample;

enum { NEWER = 4 };

struct Triple {
    /* the place of the message between both ends, and NEWER if the reader hasn't had it; and the place of the writer's */
    _Alignas(64) _Atomic u32 between;
    u32 of_writer;
    /* the place of the reader's */
    _Alignas(64) u32 of_reader;
    Sample samples[3];
};

static inline void publish_by_triple(struct Triple *triple, u64 number, u64 time, const u8 *octets, u32 len)
{
    Sample *sample = &triple->samples[triple->of_writer];
    sample->number = number;
    sample->time = time;
    sample->len = len;
    memcpy(sample->octets, octets, len);
    u32 was = atomic_exchange_explicit(&triple->between, triple->of_writer | NEWER, memory_order_acq_rel);
    triple->of_writer = was & 3;
}

static inline void publish(Port *port, u64 time, const u8 *octets, u32 len)
{
    if (port->form == SEQLOCK) {
        publish_by_seqlock(port->seqlock, port->number, time, octets, len);
        return;
    }
    for (unsigned i = 0; i < port->readers; i++)
        publish_by_triple(&port->triples[i], port->number, time, octets, len);
}

/* ---- a queue */

struct Ring {
    /* the receiver's: how many messages it put, where the next one comes, and how many it knows to be taken */
    _Alignas(64) _Atomic u32 put;
    u32 put_at, known_taken;
    u32 depth, last; /* where a message may begin at the latest, so that the longest one ends with the ring */
    u8 *octets;      /* of each message its time, its length, and its octets */
    u32 greatest;    /* number that waited, where that is promised */
    /* the taker's */
    _Alignas(64) _Atomic u32 taken;
    u32 take_at, known_put;
};

enum { RING_HEAD = 16 };

#define PUT_ORDER (PROMISES & ONE_ORDER ? memory_order_seq_cst : memory_order_release)

/* Where the message comes that follows one of this length. The ring has room for one more than it is deep: so there is
   room for it, wherever that is. */
static inline u32 after(const struct Ring *ring, u32 at, u32 len)
{
    u32 next = at + RING_HEAD + (u32)arena_rounded(len);
    return next > ring->last ? 0 : next;
}

/* Notes the greatest number that waited, of so many messages that were put. */
static inline void note_fill(struct Ring *ring, u32 many)
{
    if (many - ring->known_taken <= ring->greatest)
        return;
    ring->known_taken = atomic_load_explicit(&ring->taken, memory_order_acquire);
    if (many - ring->known_taken > ring->greatest)
        ring->greatest = many - ring->known_taken;
}

/* Puts a message. False if the queue is full. */
static inline bool put(struct Ring *ring, u64 time, const u8 *octets, u32 len)
{
    u32 many = atomic_load_explicit(&ring->put, memory_order_relaxed);
    if (many - ring->known_taken == ring->depth)
        ring->known_taken = atomic_load_explicit(&ring->taken, memory_order_acquire);
    if (many - ring->known_taken == ring->depth)
        return false;
    u8 *place = ring->octets + ring->put_at;
    memcpy(place, &time, sizeof time);
    memcpy(place + 8, &len, sizeof len);
    memcpy(place + RING_HEAD, octets, len);
    ring->put_at = after(ring, ring->put_at, len);
    atomic_store_explicit(&ring->put, many + 1, PUT_ORDER);
    if (PROMISES & FILL)
        note_fill(ring, many + 1);
    return true;
}

/* ---- what partitions call */

/* A message that was read or taken, if there was one. */
typedef struct {
    bool found;
    u32 len;
    u64 number; /* of a sample */
    u64 time;
} Found;

/* Makes the ports of a receiver that has its settings, and took no frame yet, ports for partitions: sampling ports of this
   form, PLAIN too, with so many readers, 1 to MOST_READERS, and queues that are rings. */
void share_ports(Receiver *receiver, Form form, unsigned readers);

/* Reads the newest message of a sampling port, by the reader at this place. One of the form PLAIN is for the receiver's
   thread alone. `out` has room for MOST_SAMPLE octets. */
Found read_sample(Port *port, unsigned reader, u8 *out);

/* Takes the oldest message of a queue. `out` has room for the longest one. */
Found take_message(Port *port, u8 *out);

#endif
