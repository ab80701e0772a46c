/*
 * The receiver: see receiver.h.
 */
#include "receiver.h"
#include "promises.h"
#include "shared_ports.h"

#include <string.h>

static inline void count_up(u64 *count)
{
    u64 next = *count + 1;
    *count = (PROMISES & COUNTS_STOP) && next == 0 ? *count : next;
}

static inline unsigned be16(const u8 *octets)
{
    return (unsigned)octets[0] << 8 | octets[1];
}

static inline u32 be32(const u8 *octets)
{
    return (u32)octets[0] << 24 | (u32)octets[1] << 16 | (u32)octets[2] << 8 | octets[3];
}

/* ---- sequence numbers: 1 follows 255, and nothing is followed by 0 */

static inline unsigned next_number(unsigned number)
{
    return number == 255 ? 1 : number + 1;
}

/* Integrity checking of a frame with this number. */
static inline bool passes(Link *link, unsigned net, unsigned number)
{
    bool passed = !link->had[net] || number == 0;
    unsigned next = link->previous[net];
    for (unsigned i = 0; i < link->window && !passed; i++) {
        next = next_number(next);
        passed = number == next;
    }
    link->had[net] = true;
    link->previous[net] = (u8)number;
    return passed;
}

/* Whether a number is among the 127 that come after another. */
static inline bool is_ahead(unsigned before, unsigned number)
{
    if (before == 0)
        return number >= 1 && number <= 127;
    if (number == 0)
        return before >= 128;
    unsigned steps = number >= before ? number - before : number + 255 - before;
    return steps >= 1 && steps <= 127;
}

/* Redundancy management of a frame with this number, if the link has it. */
static inline bool is_forwarded(Link *link, u64 now, unsigned number)
{
    if (!link->redundancy)
        return true;
    if (link->forwarded) {
        u64 elapsed = now < link->forwarded_time ? 0 : now - link->forwarded_time;
        if (elapsed <= link->skew_max && !is_ahead(link->forwarded_number, number))
            return false;
    }
    if (!link->forwarded || now > link->forwarded_time)
        link->forwarded_time = now;
    link->forwarded = true;
    link->forwarded_number = (u8)number;
    return true;
}

/* ---- the IPv4 header */

typedef struct {
    u32 source, destination;
    u16 ident;
    bool more;
    u32 offset;
    const u8 *octets; /* what the packet carries */
    u32 len;
} Packet;

/* Reads the header of a frame's packet. Returns what is bad in it, or -1. */
static inline int read_header(const u8 *frame, u32 len, Packet *packet)
{
    const u8 *head = frame + 14;
    if (head[0] >> 4 != 4)
        return VERSION;
    if ((head[0] & 15) != 5)
        return HEADER_LENGTH;
    u32 total = be16(head + 2);
    if (total < 20 || 14 + total + 1 > len)
        return TOTAL_LENGTH;
    u32 sum = 0;
    for (int i = 0; i < 20; i += 2)
        sum += be16(head + i);
    sum = (sum & 0xFFFF) + (sum >> 16);
    sum = (sum & 0xFFFF) + (sum >> 16);
    if (sum != 0xFFFF)
        return CHECKSUM;
    if (head[9] != 17)
        return PROTOCOL;
    unsigned word = be16(head + 6);
    *packet = (Packet){.source = be32(head + 12),
                       .destination = be32(head + 16),
                       .ident = (u16)be16(head + 4),
                       .more = (word & 0x2000) != 0,
                       .offset = (word & 0x1FFF) * 8,
                       .octets = head + 20,
                       .len = total - 20};
    return -1;
}

/* ---- reassembly */

/* Lets a datagram go. It comes after those that are held; its octets stay until it is used again. */
static void partial_drop(Link *link, int at)
{
    Partial *dropped = link->partial[at];
    for (int i = at; i + 1 < link->partials; i++)
        link->partial[i] = link->partial[i + 1];
    link->partial[--link->partials] = dropped;
}

/* Lets a datagram go that isn't whole. */
static void partial_give_up(Link *link, int at)
{
    if (PROMISES & HEALTH)
        count_up(&link->given_up);
    partial_drop(link, at);
}

/* The place of the datagram that a packet is of, or -1. */
static int partial_find(const Link *link, const Packet *packet)
{
    for (int i = 0; i < link->partials; i++) {
        const Partial *held = link->partial[i];
        if (held->ident == packet->ident && held->source == packet->source && held->destination == packet->destination)
            return i;
    }
    return -1;
}

/* Begins a datagram: the oldest one is given up if as many are held as may be. Returns its place. */
static int partial_begin(Link *link, u64 now, const Packet *packet)
{
    if (link->partials == MOST_PARTIALS)
        partial_give_up(link, 0);
    int at = link->partials++;
    if (!link->partial[at])
        link->partial[at] = arena_zero(sizeof(Partial));
    Partial *held = link->partial[at];
    held->source = packet->source;
    held->destination = packet->destination;
    held->ident = packet->ident;
    held->total_known = false;
    held->total = 0;
    held->begin = now;
    held->full = 0;
    memset(held->marks, 0, sizeof held->marks);
    return at;
}

/* Adds what a packet carries, over what is there. Returns whether the datagram is complete. */
static bool partial_add(Partial *held, const Packet *packet)
{
    memcpy(held->octets + packet->offset, packet->octets, packet->len);
    /* the offset is a multiple of 8 */
    memset(held->marks + packet->offset / 8, 0xFF, packet->len / 8);
    if (packet->len % 8)
        held->marks[(packet->offset + packet->len) / 8] |= (u8)((1u << (packet->len % 8)) - 1);
    if (!packet->more) {
        held->total_known = true;
        held->total = packet->offset + packet->len;
    }
    while (held->full < 1025 && held->marks[held->full] == 0xFF)
        held->full++;
    if (!held->total_known)
        return false;
    u32 covered = held->full * 8;
    for (u8 mark = held->marks[held->full]; mark & 1; mark >>= 1)
        covered++;
    return covered >= held->total;
}

/* Reassembly of a fragment. Returns the verdict that ends its way, or FILTERED where the packet is a whole one now. */
static unsigned join(Link *link, u64 now, Packet *packet)
{
    if ((packet->more && (packet->len == 0 || packet->len % 8 != 0)) || packet->offset + packet->len > 8200)
        return BAD_FRAGMENT;
    int at = partial_find(link, packet);
    if (at >= 0) {
        u64 begin = link->partial[at]->begin;
        u64 elapsed = now < begin ? 0 : now - begin;
        if (elapsed > link->reassembly) {
            partial_give_up(link, at);
            at = -1;
        }
    }
    if (at < 0)
        at = partial_begin(link, now, packet);
    Partial *held = link->partial[at];
    if (!partial_add(held, packet))
        return FRAGMENT_HELD;
    packet->octets = held->octets;
    packet->len = held->total;
    partial_drop(link, at);
    return FILTERED;
}

/* ---- ports */

static Verdict sample(Port *port, Verdict verdict, u64 now, const u8 *payload, u32 len)
{
    if (port->number == ((u64)1 << 60) - 1) {
        verdict.kind = EXHAUSTED;
        return verdict;
    }
    verdict.kind = SAMPLED;
    verdict.number = ++port->number;
    if (port->form != PLAIN) {
        publish(port, now, payload, len);
        return verdict;
    }
    port->time = now;
    port->len = len;
    memcpy(port->newest, payload, len);
    return verdict;
}

static Verdict queue(Port *port, Verdict verdict, u64 now, const u8 *payload, u32 len)
{
    if (port->ring) {
        verdict.kind = put(port->ring, now, payload, len) ? QUEUED : OVERFLOWED;
        return verdict;
    }
    if (port->queued == port->depth) {
        verdict.kind = OVERFLOWED;
        return verdict;
    }
    verdict.kind = QUEUED;
    u8 *copy = arena(len);
    memcpy(copy, payload, len);
    port->queue[port->queued++] = (Message){.time = now, .len = len, .octets = copy};
    return verdict;
}

/* Gives a datagram to its port. */
static inline Verdict deliver(Link *link, u64 now, const Packet *packet, bool joined)
{
    if (packet->len < 8)
        return (Verdict){.kind = BAD_UDP};
    u32 stated = be16(packet->octets + 4);
    if (stated < 8 || stated > packet->len)
        return (Verdict){.kind = BAD_UDP};
    u64 key = (u64)packet->destination << 16 | be16(packet->octets + 2);
    unsigned at = 0;
    while (at < link->ports_n && link->keys[at] != key)
        at++;
    if (at == link->ports_n)
        return (Verdict){.kind = NO_PORT};
    Port *port = &link->ports[at];
    Verdict verdict = {.port = (u8)at};
    const u8 *payload = packet->octets + 8;
    u32 len = stated - 8;
    if (port->sampling && joined)
        verdict.kind = FRAGMENTED_SAMPLE;
    else if (len > port->max)
        verdict.kind = TOO_LONG;
    else
        return port->sampling ? sample(port, verdict, now, payload, len) : queue(port, verdict, now, payload, len);
    return verdict;
}

/* ---- a frame */

static inline Verdict take(Link *link, unsigned net, u64 now, const u8 *frame, u32 len)
{
    unsigned number = frame[len - 1];
    if (PROMISES & HEALTH) {
        link->came[net] = true;
        link->latest[net] = now;
    }
    if (!passes(link, net, number))
        return (Verdict){.kind = OUT_OF_SEQUENCE};
    if (!is_forwarded(link, now, number))
        return (Verdict){.kind = REDUNDANT};
    Packet packet;
    int bad = read_header(frame, len, &packet);
    if (bad >= 0)
        return (Verdict){.kind = BAD_HEADER, .cause = (u8)bad};
    bool is_fragment = packet.offset != 0 || packet.more;
    if (is_fragment) {
        unsigned kind = join(link, now, &packet);
        if (kind != FILTERED)
            return (Verdict){.kind = (u8)kind};
    } else if (link->partials) {
        int at = partial_find(link, &packet);
        if (at >= 0)
            partial_give_up(link, at);
    }
    return deliver(link, now, &packet, is_fragment);
}

/* Why a frame is to be filtered, or 0. */
static inline unsigned filter_of(const Receiver *receiver, const u8 *frame, u32 len)
{
    if (len < 60)
        return TOO_SHORT_FRAME;
    if (len > 1514)
        return TOO_LONG_FRAME;
    if (frame[12] != 0x08 || frame[13] != 0x00)
        return NOT_IP;
    if (memcmp(frame, receiver->constant, 4) != 0)
        return FOREIGN_CONSTANT;
    return receiver->link_of[be16(frame + 4)] ? 0 : UNKNOWN_LINK;
}

static inline Verdict receive_one(Receiver *receiver, unsigned net, u64 time, const u8 *frame, u32 len)
{
    unsigned cause = filter_of(receiver, frame, len);
    if (UNLIKELY(cause)) {
        count_up(&receiver->filtered[net][cause]);
        return (Verdict){.kind = FILTERED, .cause = (u8)cause};
    }
    Link *link = receiver->link_of[be16(frame + 4)];
    Verdict verdict = take(link, net, time, frame, len);
    verdict.link = (u8)(link - receiver->links);
    count_up(&link->taken);
    count_up(&link->count[net][verdict.kind]);
    if (PROMISES & HEALTH && (verdict.kind == SAMPLED || verdict.kind == QUEUED))
        count_up(&link->delivered[verdict.port]);
    return verdict;
}

Verdict receive(Receiver *receiver, unsigned net, u64 time, const u8 *frame, u32 len)
{
    return receive_one(receiver, net, time, frame, len);
}
