/*
 * The receiver: it takes frames that are in memory, one call a frame, and keeps no history. So it can be called in a
 * loop. What becomes of a frame is said in docs/RECEIVER.md, and the kinds are numbered in docs/FORMATS.md.
 */
#ifndef RECEIVER_H
#define RECEIVER_H
#include "base.h"

enum { MOST_LINKS = 64, MOST_PORTS = 32, MOST_PARTIALS = 4, MOST_SAMPLE = 1471, MOST_MESSAGE = 8192 };

/* The kinds of verdicts. A frame that was filtered has none. */
enum {
    FILTERED,
    OUT_OF_SEQUENCE,
    REDUNDANT,
    BAD_HEADER,
    BAD_FRAGMENT,
    FRAGMENT_HELD,
    BAD_UDP,
    NO_PORT,
    TOO_LONG,
    FRAGMENTED_SAMPLE,
    SAMPLED,
    QUEUED,
    OVERFLOWED,
    EXHAUSTED,
    KINDS
};

/* Why a frame was filtered, and what was bad in a header. */
enum { TOO_SHORT_FRAME = 1, TOO_LONG_FRAME, NOT_IP, FOREIGN_CONSTANT, UNKNOWN_LINK, FILTERS };
enum { VERSION, HEADER_LENGTH, TOTAL_LENGTH, CHECKSUM, PROTOCOL };

/* How a sampling port keeps its newest message: for the receiver's thread alone, or for partitions on threads of their own
   (shared_ports.h). */
typedef enum { PLAIN, SEQLOCK, TRIPLE } Form;

struct Seqlock;
struct Triple;
struct Ring;

typedef struct {
    u64 time;
    u32 len;
    const u8 *octets;
} Message;

typedef struct {
    /* settings */
    char name[17];
    u8 name_len;
    bool sampling;
    u8 form; /* PLAIN, if nobody says otherwise */
    u8 readers;
    u16 udp;
    u16 max;
    u8 depth;
    u32 address;
    u64 refresh;
    /* a sampling port: how many messages were published, and the newest one */
    u64 number;
    u64 time;
    u32 len;
    u8 *newest;
    /* a queuing port: its messages */
    u32 queued;
    Message *queue;
    /* those that partitions on threads of their own have in place of these, else NULL: see shared_ports.h */
    struct Seqlock *seqlock;
    struct Triple *triples; /* one for each reader */
    struct Ring *ring;
} Port;

/* A datagram of which fragments are held. */
typedef struct {
    u32 source, destination;
    u16 ident;
    bool total_known;
    u32 total;
    u64 begin;
    u32 full; /* units of 8 octets that are known to be there from the beginning on */
    u8 marks[1026];
    u8 octets[8208];
} Partial;

typedef struct {
    /* settings */
    u16 vl;
    bool redundancy;
    u8 window;
    u8 ports_n;
    u64 skew_max, reassembly;
    Port *ports;
    u64 *keys; /* the address and the UDP port of each port */
    /* integrity checking, by network */
    bool had[2];
    u8 previous[2];
    /* redundancy management */
    bool forwarded;
    u8 forwarded_number;
    u64 forwarded_time;
    /* reassembly, in the order in which the datagrams began; after them those that are free */
    Partial *partial[MOST_PARTIALS];
    int partials;
    /* how many frames it took, and of which kinds, by network */
    u64 taken;
    u64 count[2][KINDS];
    /* with the library's promises (promises.h): the latest frame on each network, and what was given up and delivered */
    bool came[2];
    u64 latest[2];
    u64 given_up;
    u64 delivered[MOST_PORTS];
} Link;

typedef struct {
    u8 constant[4];
    size_t links_n;
    Link *links;
    Link *link_of[65536];
    u64 filtered[2][FILTERS];
} Receiver;

/* What became of a frame. Which fields there are depends on the kind. */
typedef struct {
    u8 kind;
    u8 cause;
    u8 link; /* its place */
    u8 port; /* its place */
    u64 number;
} Verdict;

/* Takes a frame, without its FCS, that came at this time on network 0 or 1. */
Verdict receive(Receiver *receiver, unsigned net, u64 time, const u8 *frame, u32 len);

/* ---- the same with the library's promises (promises.h) */

enum { SLOT_MARK = 0x534C4F54 };

typedef struct {
    u64 mark; /* SLOT_MARK */
    Receiver *receiver;
} Slot;

typedef struct {
    Slot *slot;
} Handle;

/* The reply to a frame. Which fields there are depends on the kind. */
typedef struct {
    u32 kind, cause;
    size_t link; /* its place */
    u32 vl, port;
    u64 place; /* of the frame, among all of its link */
    u64 number;
} Reply;

/* As `receive`. Returns 0, or why no frame was taken. */
unsigned receive_by_handle(const Handle *handle, unsigned net, u64 time, const u8 *frame, size_t len, Reply *reply);

#endif
