/*
 * Ports for partitions: see shared_ports.h.
 */
#include "shared_ports.h"

/* ---- reading */

/* Copies the message that stands there, if its length is one. */
static bool copy_words(struct Seqlock *lock, Found *found, u8 *out)
{
    found->number = get_word(&lock->number);
    found->time = get_word(&lock->time);
    found->len = (u32)get_word(&lock->len);
    if (found->len > MOST_SAMPLE)
        return false;
    size_t i = 0, whole = found->len / 8;
    for (; i < whole; i++) {
        u64 value = get_word(&lock->words[i]);
        memcpy(out + 8 * i, &value, 8);
    }
    if (found->len % 8) {
        u64 value = get_word(&lock->words[i]);
        memcpy(out + 8 * i, &value, found->len % 8);
    }
    return true;
}

static Found read_by_seqlock(struct Seqlock *lock, u8 *out)
{
    for (;;) {
        Found found = {.found = true};
        u64 sequence = atomic_load_explicit(&lock->sequence, memory_order_acquire);
        if (sequence == 0)
            return (Found){.found = false};
        if (sequence & 1 || !copy_words(lock, &found, out))
            continue;
        atomic_thread_fence(memory_order_acquire);
        if (get_word(&lock->sequence) == sequence)
            return found;
    }
}

static Found read_by_triple(struct Triple *triple, u8 *out)
{
    if (atomic_load_explicit(&triple->between, memory_order_relaxed) & NEWER) {
        u32 was = atomic_exchange_explicit(&triple->between, triple->of_reader, memory_order_acq_rel);
        triple->of_reader = was & 3;
    }
    const Sample *sample = &triple->samples[triple->of_reader];
    memcpy(out, sample->octets, sample->len);
    return (Found){.found = sample->number > 0, .len = sample->len, .number = sample->number, .time = sample->time};
}

static Found read_plain(const Port *port, u8 *out)
{
    memcpy(out, port->newest, port->len);
    return (Found){.found = port->number > 0, .len = port->len, .number = port->number, .time = port->time};
}

Found read_sample(Port *port, unsigned reader, u8 *out)
{
    if (port->form == PLAIN)
        return read_plain(port, out);
    return port->form == SEQLOCK ? read_by_seqlock(port->seqlock, out) : read_by_triple(&port->triples[reader], out);
}

/* ---- taking */

Found take_message(Port *port, u8 *out)
{
    struct Ring *ring = port->ring;
    u32 many = atomic_load_explicit(&ring->taken, memory_order_relaxed);
    if (many == ring->known_put)
        ring->known_put = atomic_load_explicit(&ring->put, memory_order_acquire);
    if (many == ring->known_put)
        return (Found){.found = false};
    const u8 *place = ring->octets + ring->take_at;
    Found found = {.found = true};
    memcpy(&found.time, place, sizeof found.time);
    memcpy(&found.len, place + 8, sizeof found.len);
    memcpy(out, place + RING_HEAD, found.len);
    ring->take_at = after(ring, ring->take_at, found.len);
    atomic_store_explicit(&ring->taken, many + 1, memory_order_release);
    return found;
}

/* ---- making them */

/* So many octets of zeros that begin a line of the cache. */
static void *aligned(size_t size)
{
    uintptr_t at = (uintptr_t)arena(size + 63);
    return memset((void *)((at + 63) & ~(uintptr_t)63), 0, size);
}

static void make_samples(Port *port, Form form, unsigned readers)
{
    port->form = (u8)form;
    port->readers = (u8)readers;
    if (form == SEQLOCK)
        port->seqlock = aligned(sizeof *port->seqlock);
    if (form != TRIPLE)
        return;
    port->triples = aligned(readers * sizeof *port->triples);
    for (unsigned i = 0; i < readers; i++) {
        atomic_init(&port->triples[i].between, 1);
        port->triples[i].of_writer = 0;
        port->triples[i].of_reader = 2;
    }
}

static void make_ring(Port *port)
{
    struct Ring *ring = port->ring = aligned(sizeof *ring);
    u32 longest = RING_HEAD + (u32)arena_rounded(port->max);
    ring->depth = port->depth;
    ring->last = ring->depth * longest;
    ring->octets = arena(ring->last + longest);
}

void share_ports(Receiver *receiver, Form form, unsigned readers)
{
    for (size_t i = 0; i < receiver->links_n; i++)
        for (unsigned j = 0; j < receiver->links[i].ports_n; j++) {
            Port *port = &receiver->links[i].ports[j];
            if (port->sampling)
                make_samples(port, form, readers);
            else
                make_ring(port);
        }
}
