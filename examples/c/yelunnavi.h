/* Yelunnavi for C: an AFDX receiver for one task that polls both networks, or for two threads, one a network; and ends of its
   ports for partitions.

   FIVE KINDS OF HANDLES, each of a slot in room of the caller's: a receiver, for one task; a system, for two threads, and a pass
   for each of its networks; a reader of a sampling port, and the queue of a queuing port, the end from which messages are
   taken. Readers and queues are handed out of a receiver or of a system, by the names of their ports, into slots of their
   own, and so is each network's pass out of a system.

   Static room:   static uint64_t room[YELUNNAVI_RECEIVER_OCTETS / 8U];
                  static struct yelunnavi_receiver receiver;
                  if (yelunnavi_abi() != YELUNNAVI_ABI) ...;
                  if (yelunnavi_receiver_init(&receiver, room, sizeof room) != YELUNNAVI_DONE) ...;

   A room begins with a mark of the kind of its slot. A call looks at it first: where .._init made no slot of its kind it answers
   NOT_MADE, or does nothing if it answers no code, and neither reads nor writes the rest of the room. A handle of zeros, as
   `struct yelunnavi_reader reader = {0};` makes it, has no room: a call answers NOT_MADE, and a close does nothing.

   WHO MAY CALL. Each handle may be used by any one thread at a time, and handed on to another. Different handles may be
   used by different threads at once, those of one receiver or of one system too. No call waits for another thread, none blocks,
   and none tries again: each reader of a sampling port has a copy of the newest message to itself. A reader that stops in the midst
   of a call, that holds a message for ever or that nobody uses any more holds up neither the receiver nor another reader.

   BUSY. Each link of a system stands under a lock, since both networks bring its frames. No call waits for it:
   yelunnavi_pass_receive answers BUSY if the thread of the other network has the link just then, and nothing has happened: the
   thread gives the same frame again, and before the next one. The other thread has a link as long as one receive of its own takes,
   and no longer. What that asks of the program:
   - Each pass has one thread. Between two calls with one frame a thread yields (sched_yield, or the pause of a driver's loop).
   - The thread that has the link has to get its turn. So where both threads run on one processor by strict priorities, the higher
     one doesn't call again and again: it sleeps, or both have one priority, or one task has both passes and never finds BUSY.
   - A thread that is stopped for good in the midst of a receive leaves its link taken: then every frame of that link is BUSY for
     the other network. The other links go on.
   Which of two threads finds BUSY isn't said, nor how often: no order of turns is promised. Nothing else of a system is shared by
   its passes: frames of different links, filtered frames, counts and the ends of ports never meet.

   MEMORY. yelunnavi_receiver_open and .._open_table, and those of a system, ask for memory, by rattle_alloc, rattle_realloc and
   rattle_dealloc below; .._close give some back. No other call asks for any or gives any back. yelunnavi_table.h tells how much
   an opening of a table asks for, and examples/c/memory.c of a text; docs/EMBEDDING.md has it by links, ports, readers and queues. A program that has no such functions compiles heap.c, which lies beside the
   library: it has them by malloc. Beside these three the library needs memcpy, memmove and memset, and nothing else: no
   operating system, no C library's start-up. It never prints, never ends the process, and has no state of its own outside of
   the rooms and of what it asked for.

   MEMORY AND THREADS. Each .._close gives memory back, on the thread that calls it. So where several threads close their handles,
   or one opens another receiver meanwhile, the three functions are called by several threads at once. malloc and free are made
   for that; a list of free blocks of the program's own needs a lock, or all is opened and closed by one task.

   TOUCHED MEMORY. The opening doesn't write to all that it asks for. An operating system may bring a page of memory in only
   when it is first touched: with such memory a receive that comes to a new page, of a queue or of a datagram in pieces, takes
   as long as that needs, many times what the rest of the call takes. So the three functions had better write to each page
   that they give, as examples/c/pool.c does. Where pages may be taken out again the program locks them too (mlockall).

   AFTER A CLOSE the room holds nothing: it may be given up, or used again for a handle of the same kind, without .._init. Ends
   live on when their receiver is closed, and a second opening doesn't reach them: an old reader finds the last message of the
   old receiver for ever, with `valid` 0 once it is too old, and an old queue what is left in it. So close them too, and hand
   out new ones. A pass lives on, too, when its system is closed: its frames go to the same links and ports still. The links'
   memory goes back with the last of the system and its two passes that is closed, on that thread. An end that is closed
   doesn't come back: a queue fills up then, and overflows for good.

   STACK. An opening takes up to 28 KiB if the text is a configuration with no keys but its own, or is none for a fault that
   stands in one of its ports. Other keys whose values are nested take more: 2.6 MB for 80 levels of tables, each by a key of
   80 parts, the most that is read. So a task with a short stack opens no text of a stranger's. An opening of a table takes up to
   28 KiB, a close up to 4 KiB, and every other call up to 1 KiB. What the program's own functions take comes on top. docs/MEASURED.md has
   the stack of each call, and the sizes of the library's code and data.

   REGISTERS. The library uses the vector registers of its processor (SSE2, Advanced SIMD), in a receive and in nearly every
   other call: a task or an interrupt handler that may not use them may not call it.

   ANSWERS. Each call but abi, room, make and close answers a code, YELUNNAVI_DONE or why nothing was done. After any other
   code what the call was passed is as it was, but for the fault that FAULTY tells and the handle of an .._init that is refused.
   NOT_MADE is tested first, and comes of each call but .._init, of a handle of zeros too; the calls below don't say so again.

   NULL. A pointer may be null where the length after it is 0.

   WHAT NOTHING CHECKS, and what is undefined where it is not kept:
   - A handle went through .._init, once, before any other call, .._close too, or is of zeros: one of other octets is undefined,
     as a variable that was never set. Its room has as many octets as .._init was told, and is of no other handle. The program
     neither reads, writes nor moves it, nor changes the handle.
   - One call at a time is made on a handle: no interrupt handler makes another one in its midst. Two threads in one reader may
     write where the receiver's task writes, and into memory that was given back: then no other handle is safe either.
   - No other pointer is null; each reaches as many octets as the length after it says, or its type.
   - No two things that a call is passed overlap, nor does one reach into a room; no handle is passed twice.
   - What a frame or a text has doesn't change during a call.
   - Arrival times and the `now` of reads and holds are of one clock.
   - The three functions for memory do what is said there.

   MISRA C:2012, by cppcheck's addon. Of this header, yelunnavi_words.h and yelunnavi_table.h it finds, in a program
   that uses no more:
   - Rule 2.3: the type that a compiler of another machine refuses is used by nobody.
   - Rule 2.4: an enum's tag is used by nobody, since calls pass and tell its numbers as uint32_t.
   - Rule 2.5: a macro that the program doesn't use.
   - Rule 11.6: a room's address is looked at as a number, for whether it is aligned.

   TIMES are in microseconds, lengths in octets, places from 0. A count stops at 2^64 - 1. Targets: x86-64 and aarch64, both
   little-endian. */
#ifndef YELUNNAVI_H
#define YELUNNAVI_H
#include <stdbool.h>
#include <stddef.h>
#include <stdint.h>

#if defined(__BYTE_ORDER__) && __BYTE_ORDER__ != __ORDER_LITTLE_ENDIAN__
#error "the library is for little-endian machines"
#endif

#ifdef __cplusplus
extern "C" {
#endif

/* Casts as both languages want them. */
#ifdef __cplusplus
#define YELUNNAVI_CODE(code) static_cast<uint32_t>(code)
#define YELUNNAVI_ADDRESS(pointer) reinterpret_cast<uintptr_t>(pointer)
#else
#define YELUNNAVI_CODE(code) ((uint32_t)(code))
#define YELUNNAVI_ADDRESS(pointer) ((uintptr_t)(pointer))
#endif

/* Refused by the compiler of a machine that isn't of 64 bits. */
typedef char yelunnavi_is_of_64_bits[((sizeof(size_t) == 8U) && (sizeof(void *) == 8U)) ? 1 : -1];

/* The number of this interface: raised with each change of a struct, a call or a number. */
#define YELUNNAVI_ABI 9

/* The release of this header; one between two releases has that of the first. */
#define YELUNNAVI_VERSION "0.4.0"

/* The number of the library's interface. A program compares both before its first opening: if they differ, the header that
   it was compiled with is of another library. */
uint32_t yelunnavi_abi(void);

/* ---- numbers by their names: calls pass and tell them as uint32_t. yelunnavi_words.h has a word for each */

/* What a call answers. */
enum yelunnavi_code {
    YELUNNAVI_DONE = 0,         /* what was asked was done */
    YELUNNAVI_NOT_OPEN = 1,     /* nothing is open in the slot */
    YELUNNAVI_ALREADY_OPEN = 2, /* something is open already in the slot that is to be opened, or to get an end */
    YELUNNAVI_FAULTY = 3,       /* the configuration has a fault */
    YELUNNAVI_NO_MEMORY = 4,    /* memory ran out */
    YELUNNAVI_NO_NETWORK = 5,   /* there is no such network */
    YELUNNAVI_NO_KIND = 6,      /* there is no such kind of verdict, or no such cause */
    YELUNNAVI_NO_PLACE = 7,     /* the configuration has no such link, or the link no such port */
    YELUNNAVI_NO_NAME = 8,      /* no port has this name */
    YELUNNAVI_NONE_LEFT = 9,    /* the port has no such end, or no queue; or its ends, or the pass, were handed out already */
    YELUNNAVI_HOLDS_ONE = 10,   /* the reader holds a message */
    YELUNNAVI_HOLDS_NONE = 11,  /* it holds none */
    YELUNNAVI_OUT_OF_RANGE = 12, /* the message has no such octets, or a sampling port can't have so many readers */
    YELUNNAVI_TOO_SHORT = 13,   /* there may be messages for which there is no room; or the room of a slot is too short */
    YELUNNAVI_NOT_MADE = 14,    /* no slot of this kind was made in the room: none, or one of another kind; or the handle is of zeros */
    YELUNNAVI_NO_ROOM = 15,     /* the room can't hold a slot: it is null, or isn't aligned to 8 */
    YELUNNAVI_BUSY = 16,        /* the thread of the other network has the frame's link just now: see BUSY above */
    YELUNNAVI_STRAY_KEY = 17    /* the text has a key that means nothing where it stands, and no fault */
};

/* The networks. */
enum yelunnavi_network { YELUNNAVI_A = 0, YELUNNAVI_B = 1 };

/* What became of a frame: the kind of its verdict, in the order in which it is tested. Those from TOO_LONG on name a port. */
enum yelunnavi_verdict_kind {
    YELUNNAVI_VERDICT_FILTERED = 0,          /* no verdict: it came to no link */
    YELUNNAVI_VERDICT_OUT_OF_SEQUENCE = 1,   /* integrity checking refuses its sequence number */
    YELUNNAVI_VERDICT_REDUNDANT = 2,         /* redundancy management doesn't forward it */
    YELUNNAVI_VERDICT_BAD_HEADER = 3,        /* its IPv4 header has a fault */
    YELUNNAVI_VERDICT_BAD_FRAGMENT = 4,      /* it is a fragment, and no piece of a datagram */
    YELUNNAVI_VERDICT_FRAGMENT_HELD = 5,     /* it is a fragment of a datagram that isn't complete */
    YELUNNAVI_VERDICT_BAD_UDP = 6,           /* its UDP header has a fault */
    YELUNNAVI_VERDICT_NO_PORT = 7,           /* no port takes its datagram */
    YELUNNAVI_VERDICT_TOO_LONG = 8,          /* its message is longer than its port takes */
    YELUNNAVI_VERDICT_FRAGMENTED_SAMPLE = 9, /* its datagram was joined of fragments, and its port samples */
    YELUNNAVI_VERDICT_SAMPLED = 10,          /* its message is the newest one of its sampling port */
    YELUNNAVI_VERDICT_QUEUED = 11,           /* its message stands in the queue of its port */
    YELUNNAVI_VERDICT_OVERFLOW = 12,         /* the queue of its port had no room: its message is lost */
    YELUNNAVI_VERDICT_EXHAUSTED = 13         /* its sampling port has used up its message numbers */
};

/* Why a frame was filtered, in the order in which it is tested. */
enum yelunnavi_filter_cause {
    YELUNNAVI_FILTER_TOO_SHORT = 1,        /* below 60 octets */
    YELUNNAVI_FILTER_TOO_LONG = 2,         /* above 1,514 octets */
    YELUNNAVI_FILTER_NOT_IP = 3,           /* another EtherType than that of IPv4 */
    YELUNNAVI_FILTER_FOREIGN_CONSTANT = 4, /* another constant field than that of the configuration */
    YELUNNAVI_FILTER_UNKNOWN_LINK = 5      /* no link of the configuration has its link number */
};

/* The fault of a bad IPv4 header, in the order in which it is tested. */
enum yelunnavi_header_fault {
    YELUNNAVI_BAD_VERSION = 1,
    YELUNNAVI_BAD_HEADER_LENGTH = 2,
    YELUNNAVI_BAD_TOTAL_LENGTH = 3,
    YELUNNAVI_BAD_CHECKSUM = 4,
    YELUNNAVI_BAD_PROTOCOL = 5
};

/* The fault of a configuration. */
enum yelunnavi_config_fault {
    YELUNNAVI_FAULT_TEXT = 1,        /* the text isn't TOML */
    YELUNNAVI_FAULT_MISSING = 2,     /* a key is missing */
    YELUNNAVI_FAULT_KIND = 3,        /* the value of a key has another kind, as a text in place of an integer */
    YELUNNAVI_FAULT_RANGE = 4,       /* the value of a key is out of range */
    YELUNNAVI_FAULT_DOUBLE_LINK = 5, /* two links have one link number */
    YELUNNAVI_FAULT_DOUBLE_PORT = 6, /* two ports of a link have one address and UDP port */
    YELUNNAVI_FAULT_DOUBLE_NAME = 7, /* two ports have one name */
    YELUNNAVI_FAULT_TOO_MANY = 8     /* too many links, or too many ports at a link */
};

/* The keys of a configuration. */
enum yelunnavi_key {
    YELUNNAVI_KEY_NONE = 0,
    YELUNNAVI_KEY_CONSTANT = 1,
    YELUNNAVI_KEY_LINK = 2,
    YELUNNAVI_KEY_VL = 3,
    YELUNNAVI_KEY_SKEW_MAX_US = 4,
    YELUNNAVI_KEY_REDUNDANCY = 5,
    YELUNNAVI_KEY_REASSEMBLY_US = 6,
    YELUNNAVI_KEY_WINDOW = 7,
    YELUNNAVI_KEY_PORT = 8,
    YELUNNAVI_KEY_NAME = 9,
    YELUNNAVI_KEY_KIND = 10,
    YELUNNAVI_KEY_ADDRESS = 11,
    YELUNNAVI_KEY_UDP = 12,
    YELUNNAVI_KEY_MAX = 13,
    YELUNNAVI_KEY_REFRESH_US = 14,
    YELUNNAVI_KEY_DEPTH = 15,
    YELUNNAVI_KEY_READERS = 16 /* of a table alone: the field `readers` of a port's row */
};

/* What a fault of a configuration is about. */
enum yelunnavi_level { YELUNNAVI_LEVEL_DOCUMENT = 0, YELUNNAVI_LEVEL_LINK = 1, YELUNNAVI_LEVEL_PORT = 2 };

/* The services of ports. */
enum yelunnavi_service { YELUNNAVI_SERVICE_SAMPLING = 1, YELUNNAVI_SERVICE_QUEUING = 2 };

/* Bounds, for room of the program's. */
enum yelunnavi_bound {
    YELUNNAVI_MOST_LINKS = 64,
    YELUNNAVI_MOST_PORTS = 32,       /* of a link */
    YELUNNAVI_MOST_READERS = 8,      /* of a sampling port */
    YELUNNAVI_LONGEST_NAME = 16,     /* octets of the name of a port */
    YELUNNAVI_LONGEST_SAMPLE = 1471, /* octets of a message of a sampling port */
    YELUNNAVI_LONGEST_QUEUED = 8192, /* octets of a message of a queuing port */
    YELUNNAVI_DEEPEST_QUEUE = 64     /* messages that wait in a queue */
};

/* ---- handles: where the room is */

struct yelunnavi_receiver { void *room; };
struct yelunnavi_system { void *room; };
struct yelunnavi_pass { void *room; };
struct yelunnavi_reader { void *room; };
struct yelunnavi_queue { void *room; };

/* How many octets of room a slot takes. */
size_t yelunnavi_receiver_room(void);
size_t yelunnavi_system_room(void);
size_t yelunnavi_pass_room(void);
size_t yelunnavi_reader_room(void);
size_t yelunnavi_queue_room(void);

/* Octets that are enough for a slot with every library of this YELUNNAVI_ABI, for static rooms: a room is of uint64_t, so that it
   is aligned. .._init says TOO_SHORT if they weren't. */
#define YELUNNAVI_RECEIVER_OCTETS 512U
#define YELUNNAVI_SYSTEM_OCTETS 1024U
#define YELUNNAVI_PASS_OCTETS 512U
#define YELUNNAVI_READER_OCTETS 128U
#define YELUNNAVI_QUEUE_OCTETS 128U

/* Makes a slot in a room as large as .._room() says, aligned to 8: for .._init, and what does its work in another language. A
   program in C calls .._init, never .._make, which takes any pointer for a room, a handle's address too. */
void yelunnavi_receiver_make(void *room);
void yelunnavi_system_make(void *room);
void yelunnavi_pass_make(void *room);
void yelunnavi_reader_make(void *room);
void yelunnavi_queue_make(void *room);

/* The room of a handle that has none: no slot is made there, so each call answers NOT_MADE. */
static inline void *yelunnavi_nowhere(void) {
    static uint64_t none[64];
    return none;
}

/* Why a room of so many octets can't hold a slot that needs as many, if it can't. */
static inline uint32_t yelunnavi_room_code(const void *room, size_t octets, size_t needed) {
    uint32_t code = YELUNNAVI_CODE(YELUNNAVI_DONE);
    if ((room == NULL) || ((YELUNNAVI_ADDRESS(room) % 8U) != 0U)) {
        code = YELUNNAVI_CODE(YELUNNAVI_NO_ROOM);
    } else if (octets < needed) {
        code = YELUNNAVI_CODE(YELUNNAVI_TOO_SHORT);
    } else {
        /* it can */
    }
    return code;
}

/* Makes a slot in which nothing is open in a room of so many octets, and the handle to it. NO_ROOM if the room is null or
   isn't aligned to 8; TOO_SHORT if a slot needs more octets. Then each further call on the handle answers NOT_MADE. */
static inline uint32_t yelunnavi_receiver_init(struct yelunnavi_receiver *h, void *room, size_t octets) {
    uint32_t code = yelunnavi_room_code(room, octets, yelunnavi_receiver_room());
    if (code == YELUNNAVI_CODE(YELUNNAVI_DONE)) {
        h->room = room;
        yelunnavi_receiver_make(room);
    } else {
        h->room = yelunnavi_nowhere();
    }
    return code;
}

static inline uint32_t yelunnavi_system_init(struct yelunnavi_system *h, void *room, size_t octets) {
    uint32_t code = yelunnavi_room_code(room, octets, yelunnavi_system_room());
    if (code == YELUNNAVI_CODE(YELUNNAVI_DONE)) {
        h->room = room;
        yelunnavi_system_make(room);
    } else {
        h->room = yelunnavi_nowhere();
    }
    return code;
}

static inline uint32_t yelunnavi_pass_init(struct yelunnavi_pass *h, void *room, size_t octets) {
    uint32_t code = yelunnavi_room_code(room, octets, yelunnavi_pass_room());
    if (code == YELUNNAVI_CODE(YELUNNAVI_DONE)) {
        h->room = room;
        yelunnavi_pass_make(room);
    } else {
        h->room = yelunnavi_nowhere();
    }
    return code;
}

static inline uint32_t yelunnavi_reader_init(struct yelunnavi_reader *h, void *room, size_t octets) {
    uint32_t code = yelunnavi_room_code(room, octets, yelunnavi_reader_room());
    if (code == YELUNNAVI_CODE(YELUNNAVI_DONE)) {
        h->room = room;
        yelunnavi_reader_make(room);
    } else {
        h->room = yelunnavi_nowhere();
    }
    return code;
}

static inline uint32_t yelunnavi_queue_init(struct yelunnavi_queue *h, void *room, size_t octets) {
    uint32_t code = yelunnavi_room_code(room, octets, yelunnavi_queue_room());
    if (code == YELUNNAVI_CODE(YELUNNAVI_DONE)) {
        h->room = room;
        yelunnavi_queue_make(room);
    } else {
        h->room = yelunnavi_nowhere();
    }
    return code;
}

/* ---- the receiver: open and close */

/* The first fault of a configuration, in the order in which its keys are tested. */
struct yelunnavi_fault {
    uint32_t fault; /* enum yelunnavi_config_fault */
    uint32_t key;   /* enum yelunnavi_key, with MISSING, KIND and RANGE; else KEY_NONE */
    uint32_t level; /* enum yelunnavi_level */
    size_t link;    /* LEVEL_LINK and LEVEL_PORT: the place of the link in the document */
    size_t port;    /* LEVEL_PORT: the place of the port in the link */
    uint64_t line;  /* the line of the text, from 1: of FAULT_TEXT where TOML's reading stops, or of the first octet that is no
                       UTF-8; else of the key, or of the heading of its table; the document's own keys begin at line 1, of an
                       empty text too. The key of a DOUBLE_LINK is `vl`, of a DOUBLE_PORT `udp`, of a DOUBLE_NAME `name`. 0 if
                       none is found: headings are known as [[link]] and [[link.port]] alone, and keys where they begin a line,
                       without quotes. What else looks like one counts */
};

/* Reads the configuration of a text as the call below does, and opens nothing. FAULTY, and `fault` says why. STRAY_KEY if that text
   has no fault, but a key that no table of docs/FORMATS.md has where it stands, as one that is misspelt: an opening ignores it.
   Then `fault` tells the first table with one by its level, link and port, and the line of the key, or of the table's heading; its
   `fault` and `key` are 0. NO_MEMORY. All memory that it takes it gives back; its stack is that of an opening. */
uint32_t yelunnavi_check_text(const uint8_t *text, size_t len, struct yelunnavi_fault *fault);

/* Opens the receiver of a configuration: a TOML text, as docs/FORMATS.md says, `len` octets without a 0 after them. It is
   copied. Each sampling port gets so many readers, 1 to 8. Its messages are copied once for each of them, whether or not it
   was handed out: that takes time in a receive, and memory, so ask for no more than there are partitions that read a port.
   All memory is taken here; after an error none is kept. ALREADY_OPEN; OUT_OF_RANGE for 0 readers and for 9 or more; FAULTY,
   and `fault` says why; NO_MEMORY, tested in this order. */
uint32_t yelunnavi_receiver_open(struct yelunnavi_receiver *h, const uint8_t *text, size_t len, size_t readers,
                                 struct yelunnavi_fault *fault);

/* A configuration without a text: a table of its links, and of their ports one after another, as tools/c_table.py writes one
   of a text. A program that opens no text and is linked with --gc-sections has none of the library's reading of TOML. */
struct yelunnavi_link_row {
    uint32_t vl;         /* its link number, 0 to 65,535 */
    uint32_t redundancy; /* 1: redundancy management is on. 0: it is off */
    uint64_t skew_max;   /* SkewMax, up to 1,000,000 */
    uint64_t reassembly; /* the limit of reassembly, up to 10,000,000 */
    uint32_t window;     /* of integrity checking, 1 to 4 */
    size_t ports;        /* how many ports it has, up to 32: the next of the table's */
};

struct yelunnavi_port_row {
    uint32_t service;  /* enum yelunnavi_service */
    uint32_t address;  /* the IPv4 address of its datagrams: the first octet is the most significant one */
    uint32_t udp;      /* their UDP port, 0 to 65,535 */
    uint32_t max;      /* the longest message: up to 1,471 of a sampling port, 8,192 of a queuing port */
    uint64_t limit;    /* the refresh period, up to 1,000,000,000; or the depth of the queue, 1 to 64 messages */
    size_t name_len;   /* how many octets its name has, 1 to 16 */
    uint8_t name[16];  /* of a-z 0-9 _ -, at the beginning. YELUNNAVI_NAME of yelunnavi_table.h makes both fields of a literal */
    uint32_t readers;  /* of a sampling port: how many readers it gets, 1 to 8; 0: as many as the opening is told. Of another
                          port it says nothing */
};

/* Opens the receiver of a table, whose constant field has the 4 octets at `constant`, as the call above opens that of a text:
   with the same limits, answers, faults and places, tested in the same order. A fault has no line. A value that a text can't
   have is out of range: a `service` or `redundancy` of another number, and `readers` above 8, which is tested after `limit`. Ports that belong to no link are too many; if a link has
   more ports than are left, KEY_PORT is missing there. */
uint32_t yelunnavi_receiver_open_table(struct yelunnavi_receiver *h, const uint8_t *constant,
                                       const struct yelunnavi_link_row *links, size_t links_len,
                                       const struct yelunnavi_port_row *ports, size_t ports_len, size_t readers,
                                       struct yelunnavi_fault *fault);

/* Gives the receiver away, if one is open. Ends that were handed out live on: see AFTER A CLOSE. */
void yelunnavi_receiver_close(struct yelunnavi_receiver *h);

/* ---- the receiver: frames */

struct yelunnavi_verdict {
    uint32_t kind;   /* enum yelunnavi_verdict_kind */
    uint32_t cause;  /* with VERDICT_FILTERED enum yelunnavi_filter_cause, with VERDICT_BAD_HEADER enum
                        yelunnavi_header_fault, else 0 */
    size_t link;     /* the place of its link in the configuration */
    uint32_t vl;     /* its link number */
    uint32_t port;   /* VERDICT_TOO_LONG and those after it: the place of its port in the link */
    uint64_t place;  /* how many frames of the link came before it */
    uint64_t number; /* VERDICT_SAMPLED: the number of its message, from 1 */
};

/* Takes a frame that came on a network at `now`, without its check sequence; of any length and content. `reply` says what
   became of it; what it doesn't speak of is 0. The message that it delivers, if any, is in its port then. Times may fall.
   NOT_OPEN, NO_NETWORK. */
uint32_t yelunnavi_receiver_receive(struct yelunnavi_receiver *h, uint32_t net, uint64_t now, const uint8_t *frame, size_t len,
                                    struct yelunnavi_verdict *reply);

/* Tells how many frames of the link at this place came on this network with a verdict of this kind; VERDICT_FILTERED is none.
   NOT_OPEN, NO_NETWORK, NO_KIND, NO_PLACE, tested in this order. */
uint32_t yelunnavi_receiver_count(struct yelunnavi_receiver *h, size_t link, uint32_t net, uint32_t kind, uint64_t *count);

/* Tells how many frames were filtered on this network for this cause. NOT_OPEN, NO_NETWORK, NO_KIND. */
uint32_t yelunnavi_receiver_filtered(struct yelunnavi_receiver *h, uint32_t net, uint32_t cause, uint64_t *count);

struct yelunnavi_health {
    uint32_t came_a;   /* 1: a frame came on network A. 0: none did */
    uint32_t came_b;   /* the same of network B */
    uint64_t latest_a; /* when the latest frame came on network A, as it was given; 0 if none came */
    uint64_t latest_b; /* the same of network B */
    uint64_t given_up; /* how many datagrams of which fragments came were given up before they were complete */
};

/* Tells how the link at this place is. Each of its frames counts as one that came, whatever became of it. NOT_OPEN, NO_PLACE. */
uint32_t yelunnavi_receiver_health(struct yelunnavi_receiver *h, size_t link, struct yelunnavi_health *reply);

struct yelunnavi_port_counts {
    uint64_t delivered;  /* how many messages it was given */
    uint64_t overflowed; /* of a queuing port: how many its queue had no room for */
    uint64_t too_long;   /* how many were longer than it takes */
    uint64_t fragmented; /* of a sampling port: how many were joined of fragments */
    uint32_t came;       /* 1: it was given a message. 0: none */
    uint32_t net;        /* enum yelunnavi_network: which network brought the newest; 0 if none came */
    uint64_t latest;     /* when the frame that brought it came, as it was given; 0 if none came */
};

/* Tells what became of the messages for this port of a link, on both networks: each counts once, by the copy that was
   forwarded. NOT_OPEN, NO_PLACE. */
uint32_t yelunnavi_receiver_port_counts(struct yelunnavi_receiver *h, size_t link, size_t port, struct yelunnavi_port_counts *reply);

struct yelunnavi_fill {
    size_t waiting;  /* how many messages wait: those that were delivered and that weren't taken when it was looked */
    size_t greatest; /* the greatest number that waited since the opening, counted after each message that was delivered: what
                        a partition has taken by then isn't in it */
};

/* Tells how full the queue of this port of a link is, by one look at what was taken. NOT_OPEN, NO_PLACE; NONE_LEFT: the port
   samples. */
uint32_t yelunnavi_receiver_fill(struct yelunnavi_receiver *h, size_t link, size_t port, struct yelunnavi_fill *reply);

/* ---- the receiver: links and ports */

struct yelunnavi_link {
    uint32_t vl;         /* its link number */
    uint32_t redundancy; /* 1: redundancy management is on. 0: it is off */
    uint64_t skew_max;   /* SkewMax, up to 1,000,000 */
    uint64_t reassembly; /* the limit of reassembly, up to 10,000,000 */
    uint32_t window;     /* of integrity checking: how many sequence numbers after another pass, 1 to 4 */
    size_t ports;        /* how many ports it has, up to 32 */
};

struct yelunnavi_port {
    uint32_t service; /* enum yelunnavi_service */
    uint32_t address; /* the IPv4 address of its datagrams: the first octet is the most significant one */
    uint32_t udp;     /* their UDP port */
    uint32_t max;     /* the longest message: up to 1,471 of a sampling port, 8,192 of a queuing port */
    uint64_t limit;   /* the refresh period in microseconds; or the depth of the queue, 1 to 64 messages */
    size_t name_len;  /* how many octets its name has, 1 to 16 */
};

struct yelunnavi_place {
    size_t link;   /* the place of its link in the configuration */
    uint32_t port; /* its place in the link */
};

/* Tells how many links there are, 1 to 64. NOT_OPEN. */
uint32_t yelunnavi_receiver_links(struct yelunnavi_receiver *h, size_t *links);

/* Tells the settings of the link at this place. NOT_OPEN, NO_PLACE. */
uint32_t yelunnavi_receiver_link(struct yelunnavi_receiver *h, size_t link, struct yelunnavi_link *reply);

/* Tells of a port, and writes its name over the beginning of `name`, without a 0 after it. NOT_OPEN, NO_PLACE. */
uint32_t yelunnavi_receiver_port(struct yelunnavi_receiver *h, size_t link, size_t port, struct yelunnavi_port *reply, uint8_t (*name)[16]);

/* Tells where the port with this name is. NOT_OPEN, NO_NAME. */
uint32_t yelunnavi_receiver_place(struct yelunnavi_receiver *h, const uint8_t *name, size_t len, struct yelunnavi_place *reply);

/* ---- the receiver: ends of ports

   Moves an end of the port with this name into a slot in which nothing is open. A sampling port has as many readers as the
   opening was told, a queuing port one queue; one that was closed doesn't come back. A reader that is handed out late finds
   what was published before. NOT_OPEN (the receiver), ALREADY_OPEN (`to`), NO_NAME, NONE_LEFT, tested in this order. */

uint32_t yelunnavi_receiver_hand_reader(struct yelunnavi_receiver *h, struct yelunnavi_reader *to, const uint8_t *name, size_t len);
uint32_t yelunnavi_receiver_hand_queue(struct yelunnavi_receiver *h, struct yelunnavi_queue *to, const uint8_t *name, size_t len);

/* ---- a system: a receiver for two threads, one a network. It keeps no frame either, and its links, ports, verdicts and limits
   are those of a receiver: the same frames in the same order come to the same. Its passes tell how a link is and how
   full a queue is: that needs a look at the link, which the thread of the other network may have just then. See BUSY above */

/* Opens the system of a configuration: as yelunnavi_receiver_open, and with its answers. */
uint32_t yelunnavi_system_open(struct yelunnavi_system *h, const uint8_t *text, size_t len, size_t readers, struct yelunnavi_fault *fault);

/* Opens the system of a table: as yelunnavi_receiver_open_table. */
uint32_t yelunnavi_system_open_table(struct yelunnavi_system *h, const uint8_t *constant, const struct yelunnavi_link_row *links,
                                     size_t links_len, const struct yelunnavi_port_row *ports, size_t ports_len, size_t readers,
                                     struct yelunnavi_fault *fault);

/* Gives the system away, if one is open, with the passes and ends that weren't handed out. Those that were live on. */
void yelunnavi_system_close(struct yelunnavi_system *h);

/* Moves the pass of a network into a slot in which nothing is open: once; one that was closed doesn't come back. NOT_OPEN (the
   system), ALREADY_OPEN (`to`), NO_NETWORK, NONE_LEFT, tested in this order. */
uint32_t yelunnavi_system_hand_pass(struct yelunnavi_system *h, uint32_t net, struct yelunnavi_pass *to);

/* Move an end of the port with this name: as those of a receiver, and with their answers. */
uint32_t yelunnavi_system_hand_reader(struct yelunnavi_system *h, struct yelunnavi_reader *to, const uint8_t *name, size_t len);
uint32_t yelunnavi_system_hand_queue(struct yelunnavi_system *h, struct yelunnavi_queue *to, const uint8_t *name, size_t len);

/* Tell of its links and ports: as those of a receiver, and with their answers. */
uint32_t yelunnavi_system_links(struct yelunnavi_system *h, size_t *links);
uint32_t yelunnavi_system_link(struct yelunnavi_system *h, size_t link, struct yelunnavi_link *reply);
uint32_t yelunnavi_system_port(struct yelunnavi_system *h, size_t link, size_t port, struct yelunnavi_port *reply, uint8_t (*name)[16]);
uint32_t yelunnavi_system_place(struct yelunnavi_system *h, const uint8_t *name, size_t len, struct yelunnavi_place *reply);

/* ---- a network's pass of a system, for the thread of that network */

/* Takes a frame that came on the network of the pass at `now`, as yelunnavi_receiver_receive does. The place that is told is
   among the frames of both networks on its link. NOT_OPEN; BUSY, and then the same frame is given again: see BUSY above. A frame
   that is filtered is never BUSY. */
uint32_t yelunnavi_pass_receive(struct yelunnavi_pass *h, uint64_t now, const uint8_t *frame, size_t len, struct yelunnavi_verdict *reply);

/* Tells how many frames of the link at this place came on the network of the pass with a verdict of this kind; VERDICT_FILTERED is
   none. The pass of the other network tells of that one. NOT_OPEN, NO_KIND, NO_PLACE, tested in this order. */
uint32_t yelunnavi_pass_count(struct yelunnavi_pass *h, size_t link, uint32_t kind, uint64_t *count);

struct yelunnavi_link_health {
    uint32_t came;     /* 1: a frame came on the network of the pass. 0: none did */
    uint64_t latest;   /* when the latest of these came, as it was given; 0 if none came */
    uint64_t received; /* how many frames came to the link, on both networks */
    uint64_t given_up; /* how many datagrams of which fragments came were given up before they were complete */
};

/* Tells how the link at this place is: what is of both networks, as it was at one moment of the call. The pass of the other network
   tells of the latest there. NOT_OPEN, NO_PLACE; BUSY, and then nothing is told: see BUSY above. */
uint32_t yelunnavi_pass_health(struct yelunnavi_pass *h, size_t link, struct yelunnavi_link_health *reply);

/* Tells what became of the messages for this port of a link, as yelunnavi_receiver_port_counts does, as it was at one moment of
   the call, and each pass the same. NOT_OPEN, NO_PLACE; BUSY, and then nothing is told: see BUSY above. */
uint32_t yelunnavi_pass_port_counts(struct yelunnavi_pass *h, size_t link, size_t port, struct yelunnavi_port_counts *reply);

/* Tells how full the queue of this port of a link is, as yelunnavi_receiver_fill does, and each pass the same. NOT_OPEN, NO_PLACE;
   NONE_LEFT: the port samples; BUSY, and then nothing is told: see BUSY above. */
uint32_t yelunnavi_pass_fill(struct yelunnavi_pass *h, size_t link, size_t port, struct yelunnavi_fill *reply);

/* Tells how many frames were filtered on the network of the pass for this cause. NOT_OPEN, NO_KIND. */
uint32_t yelunnavi_pass_filtered(struct yelunnavi_pass *h, uint32_t cause, uint64_t *count);

/* Gives the pass away, if there is one. The frames of its network reach the system no more; the other pass goes on. A program asks
   a pass what it wants to know before it closes it: once the other network's thread gives no more frames, no call is BUSY. */
void yelunnavi_pass_close(struct yelunnavi_pass *h);

/* ---- a reader of a sampling port (ARINC 664 Part 7, sampling service) */

struct yelunnavi_read {
    uint32_t found;  /* 0: nothing was published yet. 1: a message. The number 2 stays free */
    uint32_t valid;  /* 1: its age at `now` is at most the refresh period of its port (ARINC 653, READ_SAMPLING_MESSAGE). A message
                        from the future, whose `time` is after `now`, is valid: a clock of arrivals that runs ahead hides age */
    uint64_t number; /* of the message, from 1 */
    uint64_t time;   /* when it came */
    size_t len;      /* how many octets the whole message has */
};

struct yelunnavi_limits {
    size_t max;       /* the longest message of the port: an `out` of this length is always long enough */
    uint64_t refresh; /* its refresh period */
};

/* Reads the newest message at `now`: as many of its octets as there is room for stand at the beginning of `out`, and what
   follows is as it was. It finds a message whenever one was published. NOT_OPEN, HOLDS_ONE. */
uint32_t yelunnavi_reader_read(struct yelunnavi_reader *h, uint64_t now, uint8_t *out, size_t len, struct yelunnavi_read *reply);

/* Holds the newest message where it stands, and tells of it as a read does; with `found` 0 none is held. It stays as it is
   until it is released. The receiver goes on all the while, and so do the port's other readers. NOT_OPEN, HOLDS_ONE. */
uint32_t yelunnavi_reader_hold(struct yelunnavi_reader *h, uint64_t now, struct yelunnavi_read *reply);

/* Octets of the library: they are read, and neither written nor given back. */
struct yelunnavi_octets {
    const uint8_t *at; /* the first */
    size_t len;        /* how many there are */
};

/* Tells where the octets of the message that is held stand. They stay there, and as they are, until it is released or the
   reader is closed; the receiver goes on all the while, and so do the port's other readers. HOLDS_NONE. */
uint32_t yelunnavi_reader_octets(struct yelunnavi_reader *h, struct yelunnavi_octets *octets);

/* Fills `out` with octets of the message that is held, from `first` on. HOLDS_NONE; OUT_OF_RANGE if it has not so many. */
uint32_t yelunnavi_reader_copy(struct yelunnavi_reader *h, size_t first, uint8_t *out, size_t len);

/* Gives the message back. HOLDS_NONE. */
uint32_t yelunnavi_reader_release(struct yelunnavi_reader *h);

/* Tells of the port. NOT_OPEN, HOLDS_ONE. */
uint32_t yelunnavi_reader_limits(struct yelunnavi_reader *h, struct yelunnavi_limits *reply);

/* Gives the reader away, if there is one, with the message that it holds. */
void yelunnavi_reader_close(struct yelunnavi_reader *h);

/* ---- the queue of a queuing port (ARINC 664 Part 7, queuing service) */

struct yelunnavi_taken {
    uint32_t found; /* 0: there was nothing to take. 1: a message */
    uint64_t time;  /* when it came */
    size_t len;     /* how many octets it has */
    uint64_t lost;  /* how many messages overflowed since the one before it was put */
};

/* Takes the oldest message: it stands whole at the beginning of `out`, and what follows is as it was. NOT_OPEN; TOO_SHORT if
   `len` is less than the port's longest message, and then nothing is taken. What overflowed is told with the next message
   that was put, so of the last losses nothing is told before one comes. */
uint32_t yelunnavi_queue_take(struct yelunnavi_queue *h, uint8_t *out, size_t len, struct yelunnavi_taken *reply);

/* Tells how many messages wait: put and not taken. NOT_OPEN. */
uint32_t yelunnavi_queue_waiting(struct yelunnavi_queue *h, size_t *waiting);

/* Tells the longest message of the port. NOT_OPEN. */
uint32_t yelunnavi_queue_longest(struct yelunnavi_queue *h, size_t *max);

/* Gives the end of the queue away, if there is one. What waits in the queue is lost. */
void yelunnavi_queue_close(struct yelunnavi_queue *h);

/* ---- what the library calls: the program has them, or links the toolchain's, which are malloc, realloc and free */

struct rattle_tried {
    bool ok;  /* false if there is no memory */
    void *at; /* never null, with false too */
};

/* So many octets, aligned to `align`, which is at most 16. Several threads may call these at once: see MEMORY AND THREADS. */
struct rattle_tried rattle_alloc(size_t octets, size_t align);
/* The same octets, of which the first `kept` count, with room for so many. With false nothing has changed. */
struct rattle_tried rattle_realloc(void *at, size_t kept, size_t octets, size_t align);
void rattle_dealloc(void *at);

#ifdef __cplusplus
}
#endif
#endif
