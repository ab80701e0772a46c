/* Each answer of examples/c/yelunnavi.h comes from the library where the header says so; an opening with its Nth request for
   memory refused answers NO_MEMORY, for each N, and gives everything back; a port has as many readers as the opening was told,
   and one that holds a message holds nobody up; a null pointer with a length of 0 does what another one does. Fails with the line
   of the first call that answers something else, or with a status. */
#include "merged_pieces.h"
#include "memory.h"
#include "wanted.h"
#include <string.h>

/* With a port for messages of no octets. */
static const char WITH_ACK[] = LINK_17
    "[[link.port]]\nname = \"ack\"\nkind = \"queuing\"\naddress = \"224.224.0.17\"\nudp = 5003\nmax = 0\ndepth = 2\n";
static uint64_t rooms[4][64];
static struct yelunnavi_receiver receiver;
static struct yelunnavi_reader reader, other;
static struct yelunnavi_queue queue;

/* ---- memory */

/* Opens for so many readers with each request refused in turn, and then with none. */
static void of_memory(size_t readers) {
    struct yelunnavi_fault fault = {77, 77, 77, 77, 77, 77};
    uint32_t code = YELUNNAVI_NO_MEMORY;
    for (refused = 1; code == YELUNNAVI_NO_MEMORY; refused++) {
        requests = 0;
        code = yelunnavi_receiver_open(&receiver, TEXT(CONFIG), readers, &fault);
        if (code == YELUNNAVI_NO_MEMORY && (blocks || requests < refused)) exit(10);
    }
    if (code != YELUNNAVI_DONE || refused < 20 || requests >= refused || fault.fault != 77) exit(11);
    refused = 0;
    yelunnavi_receiver_close(&receiver);
    if (blocks) exit(12);
    fprintf(stderr, "%lu requests for %zu readers were refused, one at a time\n", requests, readers);
}

/* Numbers of readers that no port may have, told before the text is looked at. */
static void of_no_readers(void) {
    static const size_t wrong[] = {0, YELUNNAVI_MOST_READERS + 1, YELUNNAVI_MOST_READERS + 2, 256 + 1, SIZE_MAX};
    struct yelunnavi_fault fault = {77, 77, 77, 77, 77, 77};
    for (size_t k = 0; k < sizeof wrong / sizeof *wrong; k++) {
        WANT(OUT_OF_RANGE, yelunnavi_receiver_open(&receiver, TEXT(CONFIG), wrong[k], &fault));
        WANT(OUT_OF_RANGE, yelunnavi_receiver_open(&receiver, TEXT("no TOML"), wrong[k], &fault));
    }
    if (fault.fault != 77 || fault.level != 77 || fault.port != 77 || blocks) exit(15);
}

/* As many readers as the opening was told are handed out, and no more. One that was closed doesn't come back. */
static void of_readers(size_t readers) {
    struct yelunnavi_fault fault;
    struct yelunnavi_limits limits;
    WANT(DONE, yelunnavi_receiver_open(&receiver, TEXT(CONFIG), readers, &fault));
    WANT(ALREADY_OPEN, yelunnavi_receiver_open(&receiver, TEXT(CONFIG), 0, &fault));
    for (size_t k = 0; k < readers; k++) {
        WANT(DONE, yelunnavi_receiver_hand_reader(&receiver, &reader, TEXT("pos")));
        WANT(DONE, yelunnavi_reader_limits(&reader, &limits));
        if (limits.max != YELUNNAVI_LONGEST_SAMPLE || limits.refresh != 20000) exit(16);
        yelunnavi_reader_close(&reader);
    }
    WANT(NONE_LEFT, yelunnavi_receiver_hand_reader(&receiver, &reader, TEXT("pos")));
    yelunnavi_receiver_close(&receiver);
    if (blocks) exit(17);
}

/* What calls of the receiver do that are passed no octets. */
static void of_no_octets_in(const uint8_t *in) {
    struct yelunnavi_fault fault = {0};
    struct yelunnavi_verdict verdict;
    struct yelunnavi_place place;
    WANT(FAULTY, yelunnavi_receiver_open(&receiver, in, 0, 1, &fault));
    if (fault.fault != YELUNNAVI_FAULT_MISSING || fault.key != YELUNNAVI_KEY_LINK || fault.level != YELUNNAVI_LEVEL_DOCUMENT) exit(22);
    WANT(NOT_OPEN, yelunnavi_receiver_receive(&receiver, YELUNNAVI_A, 0, in, 0, &verdict));
    WANT(DONE, yelunnavi_receiver_open(&receiver, TEXT(WITH_ACK), 1, &fault));
    WANT(ALREADY_OPEN, yelunnavi_receiver_open(&receiver, in, 0, 1, &fault));
    WANT(DONE, yelunnavi_receiver_receive(&receiver, YELUNNAVI_A, 0, in, 0, &verdict));
    if (verdict.kind != YELUNNAVI_VERDICT_FILTERED || verdict.cause != YELUNNAVI_FILTER_TOO_SHORT) exit(23);
    WANT(NO_NAME, yelunnavi_receiver_place(&receiver, in, 0, &place));
    WANT(NO_NAME, yelunnavi_receiver_hand_reader(&receiver, &reader, in, 0));
    WANT(NO_NAME, yelunnavi_receiver_hand_queue(&receiver, &queue, in, 0));
}

/* What calls of a reader do that have no room for octets: of a message of 17 of them. */
static void of_no_room_to_read(uint8_t *out) {
    struct yelunnavi_octets held;
    struct yelunnavi_verdict verdict;
    struct yelunnavi_read read;
    WANT(NOT_OPEN, yelunnavi_reader_read(&reader, 0, out, 0, &read));
    WANT(HOLDS_NONE, yelunnavi_reader_copy(&reader, 0, out, 0));
    WANT(HOLDS_NONE, yelunnavi_reader_octets(&reader, &held));
    WANT(DONE, yelunnavi_receiver_hand_reader(&receiver, &reader, TEXT("pos")));
    WANT(DONE, yelunnavi_reader_read(&reader, 0, out, 0, &read));
    if (read.found != 0) exit(24);
    WANT(DONE, yelunnavi_receiver_receive(&receiver, YELUNNAVI_A, 1000, FRAME, sizeof FRAME, &verdict));
    WANT(DONE, yelunnavi_reader_read(&reader, 1000, out, 0, &read));
    if (read.found != 1 || read.valid != 1 || read.number != 1 || read.time != 1000 || read.len != 17) exit(25);
    WANT(HOLDS_NONE, yelunnavi_reader_copy(&reader, 0, out, 0));
    WANT(DONE, yelunnavi_reader_hold(&reader, 1000, &read));
    WANT(DONE, yelunnavi_reader_copy(&reader, 0, out, 0));
    WANT(DONE, yelunnavi_reader_copy(&reader, 17, out, 0));
    WANT(OUT_OF_RANGE, yelunnavi_reader_copy(&reader, 18, out, 0));
    WANT(DONE, yelunnavi_reader_octets(&reader, &held));
    if (held.len != 17 || memcmp(held.at, FRAME + 42, 17) != 0) exit(26);
    WANT(HOLDS_ONE, yelunnavi_reader_read(&reader, 1000, out, 0, &read));
    yelunnavi_reader_close(&reader);
}

/* What a take does that has no room for octets: at a port whose messages have none, and at one whose messages have. */
static void of_no_room_to_take(uint8_t *out) {
    struct yelunnavi_verdict verdict;
    struct yelunnavi_taken taken;
    size_t waiting;
    WANT(NOT_OPEN, yelunnavi_queue_take(&queue, out, 0, &taken));
    WANT(NOT_OPEN, yelunnavi_queue_waiting(&queue, &waiting));
    WANT(DONE, yelunnavi_receiver_hand_queue(&receiver, &queue, TEXT("ack")));
    WANT(DONE, yelunnavi_queue_take(&queue, out, 0, &taken));
    if (taken.found != 0) exit(26);
    WANT(DONE, yelunnavi_receiver_receive(&receiver, YELUNNAVI_A, 2000, NO_OCTETS, sizeof NO_OCTETS, &verdict));
    if (verdict.kind != YELUNNAVI_VERDICT_QUEUED || verdict.port != 2) exit(27);
    WANT(DONE, yelunnavi_queue_waiting(&queue, &waiting));
    if (waiting != 1) exit(31);
    WANT(DONE, yelunnavi_queue_take(&queue, out, 0, &taken));
    if (taken.found != 1 || taken.time != 2000 || taken.len != 0) exit(28);
    yelunnavi_queue_close(&queue);
    WANT(DONE, yelunnavi_receiver_hand_queue(&receiver, &queue, TEXT("nav")));
    WANT(TOO_SHORT, yelunnavi_queue_take(&queue, out, 0, &taken));
    yelunnavi_queue_close(&queue);
}

/* With a length of 0 a null pointer does what another one does. */
static void of_no_octets(const uint8_t *in, uint8_t *out) {
    of_no_octets_in(in);
    of_no_room_to_read(out);
    of_no_room_to_take(out);
    yelunnavi_receiver_close(&receiver);
    if (blocks) exit(29);
}

static uint32_t give(uint64_t time, const uint8_t *frame, size_t len, struct yelunnavi_verdict *verdict) {
    return yelunnavi_receiver_receive(&receiver, YELUNNAVI_A, time, frame, len, verdict);
}

static void of_a_deep_queue(void) {
    struct yelunnavi_fault fault;
    WANT(DONE, yelunnavi_receiver_open(&receiver, TEXT(WITH_DEEP), 1, &fault));
    WANT(DONE, yelunnavi_receiver_hand_queue(&receiver, &queue, TEXT("deep")));
    of_a_queue_that_begins_again(&queue, give);
    yelunnavi_queue_close(&queue);
    yelunnavi_receiver_close(&receiver);
    if (blocks) exit(32);
}

static void of_pieces(void) {
    struct yelunnavi_fault fault;
    WANT(DONE, yelunnavi_receiver_open(&receiver, TEXT(WITH_DEEP), 1, &fault));
    of_merged_pieces(give);
    yelunnavi_receiver_close(&receiver);
}

static void of_the_receiver(void) {
    struct yelunnavi_fault fault = {0};
    struct yelunnavi_verdict verdict;
    struct yelunnavi_link link;
    struct yelunnavi_place place;
    uint64_t count;
    WANT(NOT_OPEN, yelunnavi_receiver_receive(&receiver, YELUNNAVI_A, 0, FRAME, sizeof FRAME, &verdict));
    WANT(FAULTY, yelunnavi_receiver_open(&receiver, TEXT("[[link]]\nvl = 1\nskew_max_us = -1"), 2, &fault));
    if (fault.fault != YELUNNAVI_FAULT_RANGE || fault.key != YELUNNAVI_KEY_SKEW_MAX_US || fault.level != YELUNNAVI_LEVEL_LINK
        || fault.link != 0) exit(2);
    WANT(DONE, yelunnavi_receiver_open(&receiver, TEXT(CONFIG), 2, &fault));
    WANT(ALREADY_OPEN, yelunnavi_receiver_open(&receiver, TEXT(CONFIG), 2, &fault));
    WANT(NO_NETWORK, yelunnavi_receiver_receive(&receiver, 2, 0, FRAME, sizeof FRAME, &verdict));
    WANT(DONE, yelunnavi_receiver_receive(&receiver, YELUNNAVI_A, 1000, FRAME, sizeof FRAME, &verdict));
    if (verdict.kind != YELUNNAVI_VERDICT_SAMPLED || verdict.vl != 17 || verdict.number != 1) exit(3);
    WANT(DONE, yelunnavi_receiver_receive(&receiver, YELUNNAVI_B, 1000, FRAME, sizeof FRAME, &verdict));
    if (verdict.kind != YELUNNAVI_VERDICT_REDUNDANT || verdict.place != 1) exit(4);
    WANT(DONE, yelunnavi_receiver_count(&receiver, 0, YELUNNAVI_B, YELUNNAVI_VERDICT_REDUNDANT, &count));
    if (count != 1) exit(5);
    WANT(NO_KIND, yelunnavi_receiver_count(&receiver, 0, YELUNNAVI_A, YELUNNAVI_VERDICT_EXHAUSTED + 1, &count));
    WANT(NO_PLACE, yelunnavi_receiver_link(&receiver, 1, &link));
    WANT(NO_NAME, yelunnavi_receiver_place(&receiver, TEXT("nav2"), &place));
}

static void of_the_ends(void) {
    struct yelunnavi_read read;
    struct yelunnavi_taken taken;
    uint8_t out[64];
    WANT(NONE_LEFT, yelunnavi_receiver_hand_reader(&receiver, &reader, TEXT("nav")));
    WANT(DONE, yelunnavi_receiver_hand_reader(&receiver, &reader, TEXT("pos")));
    WANT(ALREADY_OPEN, yelunnavi_receiver_hand_reader(&receiver, &reader, TEXT("pos")));
    WANT(HOLDS_NONE, yelunnavi_reader_release(&reader));
    WANT(HOLDS_NONE, yelunnavi_reader_copy(&reader, 0, out, 0));
    WANT(DONE, yelunnavi_reader_hold(&reader, 21000, &read));
    if (read.found != 1 || read.valid != 1 || read.number != 1 || read.time != 1000 || read.len != 17) exit(6);
    WANT(HOLDS_ONE, yelunnavi_reader_hold(&reader, 0, &read));
    WANT(HOLDS_ONE, yelunnavi_reader_read(&reader, 0, out, sizeof out, &read));
    WANT(OUT_OF_RANGE, yelunnavi_reader_copy(&reader, 17, out, 1));
    WANT(DONE, yelunnavi_reader_copy(&reader, 1, out, 2));
    if (out[0] != 2 || out[1] != 3) exit(7);
    WANT(DONE, yelunnavi_reader_release(&reader));
    WANT(NOT_OPEN, yelunnavi_reader_hold(&other, 0, &read));
    WANT(DONE, yelunnavi_receiver_hand_queue(&receiver, &queue, TEXT("nav")));
    WANT(TOO_SHORT, yelunnavi_queue_take(&queue, out, 63, &taken));
    WANT(DONE, yelunnavi_queue_take(&queue, out, 64, &taken));
    if (taken.found) exit(8);
}

/* A reader holds the first message while others are published, and is closed with it: the other reader finds the newest. The
   octets of the first stay where they stand. */
static void of_a_hold(void) {
    struct yelunnavi_octets held;
    struct yelunnavi_verdict verdict;
    struct yelunnavi_read read;
    uint8_t next[sizeof FRAME], out[64];
    memcpy(next, FRAME, sizeof next);
    WANT(DONE, yelunnavi_reader_hold(&reader, 1000, &read));
    WANT(DONE, yelunnavi_reader_octets(&reader, &held));
    WANT(DONE, yelunnavi_receiver_hand_reader(&receiver, &other, TEXT("pos")));
    for (uint8_t number = 1; number < 10; number++) {
        next[59] = next[42] = number;
        WANT(DONE, yelunnavi_receiver_receive(&receiver, YELUNNAVI_A, 1000u * number, next, sizeof next, &verdict));
        if (verdict.kind != YELUNNAVI_VERDICT_SAMPLED || verdict.number != number + 1u) exit(18);
        WANT(DONE, yelunnavi_reader_read(&other, 1000u * number, out, sizeof out, &read));
        if (read.found != 1 || read.number != number + 1u || out[0] != number) exit(19);
        WANT(DONE, yelunnavi_reader_copy(&reader, 0, out, 17));
        if (memcmp(out, FRAME + 42, 17) != 0 || held.len != 17 || memcmp(held.at, out, 17) != 0) exit(20);
    }
    yelunnavi_reader_close(&reader);
    WANT(NONE_LEFT, yelunnavi_receiver_hand_reader(&receiver, &reader, TEXT("pos")));
}

/* A reader and a queue outlive their receiver. */
static void of_a_closed_receiver(void) {
    struct yelunnavi_read read;
    struct yelunnavi_taken taken;
    uint8_t out[64];
    yelunnavi_receiver_close(&receiver);
    WANT(DONE, yelunnavi_reader_read(&other, 29001, out, sizeof out, &read));
    if (read.found != 1 || read.valid != 0 || read.number != 10 || out[2] != 3) exit(13);
    WANT(DONE, yelunnavi_queue_take(&queue, out, sizeof out, &taken));
    yelunnavi_reader_close(&other);
    yelunnavi_queue_close(&queue);
}

/* ---- rooms */

/* Each call on a receiver's handle answers NOT_MADE. */
static void want_no_receiver(struct yelunnavi_receiver *h) {
    struct yelunnavi_fault fault;
    struct yelunnavi_verdict verdict;
    struct yelunnavi_link link;
    struct yelunnavi_port port;
    struct yelunnavi_place place;
    struct yelunnavi_health health;
    struct yelunnavi_fill fill;
    struct yelunnavi_port_counts counts;
    uint8_t name[YELUNNAVI_LONGEST_NAME];
    uint64_t count;
    size_t links;
    WANT(NOT_MADE, yelunnavi_receiver_open(h, TEXT(CONFIG), 1, &fault));
    WANT(NOT_MADE, yelunnavi_receiver_open_table(h, FRAME, NULL, 0, NULL, 0, 1, &fault));
    WANT(NOT_MADE, yelunnavi_receiver_receive(h, YELUNNAVI_A, 0, FRAME, sizeof FRAME, &verdict));
    WANT(NOT_MADE, yelunnavi_receiver_count(h, 0, YELUNNAVI_A, YELUNNAVI_VERDICT_SAMPLED, &count));
    WANT(NOT_MADE, yelunnavi_receiver_filtered(h, YELUNNAVI_A, YELUNNAVI_FILTER_TOO_SHORT, &count));
    WANT(NOT_MADE, yelunnavi_receiver_health(h, 0, &health));
    WANT(NOT_MADE, yelunnavi_receiver_fill(h, 0, 0, &fill));
    WANT(NOT_MADE, yelunnavi_receiver_port_counts(h, 0, 0, &counts));
    WANT(NOT_MADE, yelunnavi_receiver_links(h, &links));
    WANT(NOT_MADE, yelunnavi_receiver_link(h, 0, &link));
    WANT(NOT_MADE, yelunnavi_receiver_port(h, 0, 0, &port, &name));
    WANT(NOT_MADE, yelunnavi_receiver_place(h, TEXT("pos"), &place));
    WANT(NOT_MADE, yelunnavi_receiver_hand_reader(h, &reader, TEXT("pos")));
    WANT(NOT_MADE, yelunnavi_receiver_hand_queue(h, &queue, TEXT("nav")));
    yelunnavi_receiver_close(h);
}

static void want_no_reader(struct yelunnavi_reader *h) {
    struct yelunnavi_read read;
    struct yelunnavi_limits limits;
    struct yelunnavi_octets held;
    uint8_t out[8];
    WANT(NOT_MADE, yelunnavi_reader_octets(h, &held));
    WANT(NOT_MADE, yelunnavi_reader_read(h, 0, out, sizeof out, &read));
    WANT(NOT_MADE, yelunnavi_reader_hold(h, 0, &read));
    WANT(NOT_MADE, yelunnavi_reader_copy(h, 0, out, sizeof out));
    WANT(NOT_MADE, yelunnavi_reader_release(h));
    WANT(NOT_MADE, yelunnavi_reader_limits(h, &limits));
    yelunnavi_reader_close(h);
}

static void want_no_queue(struct yelunnavi_queue *h) {
    struct yelunnavi_taken taken;
    size_t max, waiting;
    uint8_t out[8];
    WANT(NOT_MADE, yelunnavi_queue_take(h, out, sizeof out, &taken));
    WANT(NOT_MADE, yelunnavi_queue_waiting(h, &waiting));
    WANT(NOT_MADE, yelunnavi_queue_longest(h, &max));
    yelunnavi_queue_close(h);
}

/* A room that is none, or isn't aligned, or is too short: no slot is made there, and each further call says so. */
static void of_rooms(void) {
    size_t sizes[3] = {yelunnavi_receiver_room(), yelunnavi_reader_room(), yelunnavi_queue_room()};
    unsigned char *odd = (unsigned char *)rooms[0] + 4;
    size_t enough[3] = {YELUNNAVI_RECEIVER_OCTETS, YELUNNAVI_READER_OCTETS, YELUNNAVI_QUEUE_OCTETS};
    for (int k = 0; k < 3; k++) if (sizes[k] > sizeof rooms[0] || sizes[k] > enough[k]) exit(9);
    WANT(NO_ROOM, yelunnavi_receiver_init(&receiver, NULL, 512)); want_no_receiver(&receiver);
    WANT(NO_ROOM, yelunnavi_receiver_init(&receiver, odd, 400)); want_no_receiver(&receiver);
    WANT(TOO_SHORT, yelunnavi_receiver_init(&receiver, rooms[0], sizes[0] - 1)); want_no_receiver(&receiver);
    WANT(NO_ROOM, yelunnavi_reader_init(&reader, NULL, 512)); want_no_reader(&reader);
    WANT(NO_ROOM, yelunnavi_reader_init(&reader, odd, 400)); want_no_reader(&reader);
    WANT(TOO_SHORT, yelunnavi_reader_init(&reader, rooms[0], sizes[1] - 1)); want_no_reader(&reader);
    WANT(NO_ROOM, yelunnavi_queue_init(&queue, NULL, 512)); want_no_queue(&queue);
    WANT(NO_ROOM, yelunnavi_queue_init(&queue, odd, 400)); want_no_queue(&queue);
    WANT(TOO_SHORT, yelunnavi_queue_init(&queue, rooms[0], sizes[2] - 1)); want_no_queue(&queue);
    for (size_t k = 0; k < 64; k++) if (rooms[0][k]) exit(22);
}

/* The room of a handle of another kind, and one in which no slot was made, whatever it has: it isn't written. */
static void of_other_rooms(void) {
    static const unsigned char fills[] = {0, 1, 0x7f, 0x80, 0xff};
    uint64_t room[64], before[64];
    struct yelunnavi_receiver of_reader = {reader.room}, of_queue = {queue.room}, receiver_of_none = {room};
    struct yelunnavi_reader of_receiver = {receiver.room}, from_queue = {queue.room}, reader_of_none = {room};
    struct yelunnavi_queue from_receiver = {receiver.room}, from_reader = {reader.room}, queue_of_none = {room};
    memcpy(before, rooms[0], sizeof before);
    want_no_receiver(&of_reader), want_no_receiver(&of_queue), want_no_reader(&of_receiver), want_no_reader(&from_queue);
    want_no_queue(&from_receiver), want_no_queue(&from_reader);
    if (memcmp(before, rooms[0], sizeof before)) exit(23);
    for (size_t k = 0; k < sizeof fills; k++) {
        memset(room, fills[k], sizeof room), memset(before, fills[k], sizeof before);
        want_no_receiver(&receiver_of_none), want_no_reader(&reader_of_none), want_no_queue(&queue_of_none);
        WANT(NOT_MADE, yelunnavi_receiver_hand_reader(&receiver, &reader_of_none, TEXT("pos")));
        WANT(NOT_MADE, yelunnavi_receiver_hand_queue(&receiver, &queue_of_none, TEXT("nav")));
        if (memcmp(before, room, sizeof room)) exit(24);
    }
}

/* A handle of zeros has no room: each call answers NOT_MADE, a close does nothing, and an end that would go to one isn't lost. */
static void of_zeros(void) {
    struct yelunnavi_receiver no_receiver = {0};
    struct yelunnavi_reader no_reader = {0};
    struct yelunnavi_queue no_queue = {0};
    struct yelunnavi_fault fault;
    want_no_receiver(&no_receiver), want_no_reader(&no_reader), want_no_queue(&no_queue);
    WANT(NOT_MADE, yelunnavi_receiver_hand_reader(&no_receiver, &no_reader, TEXT("pos")));
    WANT(NOT_MADE, yelunnavi_receiver_hand_queue(&no_receiver, &no_queue, TEXT("nav")));
    WANT(DONE, yelunnavi_receiver_open(&receiver, TEXT(CONFIG), 1, &fault));
    WANT(NOT_MADE, yelunnavi_receiver_hand_reader(&receiver, &no_reader, TEXT("pos")));
    WANT(NOT_MADE, yelunnavi_receiver_hand_queue(&receiver, &no_queue, TEXT("nav")));
    WANT(DONE, yelunnavi_receiver_hand_reader(&receiver, &reader, TEXT("pos")));
    WANT(DONE, yelunnavi_receiver_hand_queue(&receiver, &queue, TEXT("nav")));
    yelunnavi_reader_close(&reader), yelunnavi_queue_close(&queue), yelunnavi_receiver_close(&receiver);
    if (no_receiver.room || no_reader.room || no_queue.room || blocks) exit(33);
}

/* A text that is checked opens nothing: its faults are an opening's, and a key that means nothing where it stands is told, by its
   table and its line. With each request for memory refused in turn it answers NO_MEMORY, and keeps none. */
static void of_checks(void) {
    struct yelunnavi_fault fault = {77, 77, 77, 77, 77, 77};
    uint32_t code = YELUNNAVI_NO_MEMORY;
    for (refused = 1; code == YELUNNAVI_NO_MEMORY; refused++) {
        requests = 0;
        code = yelunnavi_check_text(TEXT(CONFIG), &fault);
        if (blocks || (code == YELUNNAVI_NO_MEMORY && requests < refused)) exit(34);
    }
    if (code != YELUNNAVI_DONE || refused < 20 || requests >= refused || fault.fault != 77 || fault.line != 77) exit(35);
    refused = 0;
    WANT(FAULTY, yelunnavi_check_text(TEXT("windw = 3\n[[link]]\nvl = 65536\n"), &fault));
    if (fault.fault != YELUNNAVI_FAULT_RANGE || fault.key != YELUNNAVI_KEY_VL || fault.line != 3) exit(36);
    WANT(STRAY_KEY, yelunnavi_check_text(TEXT(LINK_17 "dpth = 3\n"), &fault));
    if (fault.fault || fault.key || fault.level != YELUNNAVI_LEVEL_PORT || fault.link || fault.port != 1 || fault.line != 18) exit(37);
    WANT(STRAY_KEY, yelunnavi_check_text(TEXT("[[link]]\nvl = 17\nredundency = false\nskew_max_us = 1\nreassembly_us = 1\n"), &fault));
    if (fault.level != YELUNNAVI_LEVEL_LINK || fault.link || fault.line != 3 || blocks) exit(38);
    /* So many keys that the first ones fill a node of the map. */
    WANT(STRAY_KEY, yelunnavi_check_text(TEXT(LINK_17 "readers = 1\nread_us = 1\ntake_us = 1\nza = 1\nzb = 1\nzc = 1\nzd = 1\nze = 1\nzf = 1\nzg = 1\n"), &fault));
    if (fault.level != YELUNNAVI_LEVEL_PORT || fault.link || fault.port != 1 || fault.line != 21) exit(49);
    WANT(FAULTY, yelunnavi_check_text(NULL, 0, &fault));
}

/* ---- the lines of faults */

#define WANT_LINE(number, what, text)                                                            \
    do {                                                                                         \
        struct yelunnavi_fault told = {0};                                                      \
        WANT(FAULTY, yelunnavi_receiver_open(&receiver, TEXT(text), 1, &told));                 \
        if (told.fault != YELUNNAVI_FAULT_##what || told.line != (number)) {                   \
            fprintf(stderr, "line %d: %u at line %u\n", __LINE__, (unsigned)told.fault, (unsigned)told.line); \
            exit(1);                                                                             \
        }                                                                                        \
    } while (0)
#define LINK(vl) "[[link]]\nvl = " vl "\nskew_max_us = 1\nreassembly_us = 1\n"
#define PORT(name, kind) "  [[link.port]]\n\tname = \"" name "\"\n  kind= \"" kind "\"\naddress = \"1.2.3.4\"\n"

static void of_lines(void) {
    WANT_LINE(1, MISSING, "");
    WANT_LINE(2, TEXT, "constant = \"03000000\"\nlink = = 3\n");
    WANT_LINE(3, TEXT, "\n\n# \xff\n");
    WANT_LINE(2, RANGE, "# first\nconstant = \"03\"\n" LINK("17"));
    WANT_LINE(2, RANGE, "[[link]]\nvl = 65536\n");
    WANT_LINE(1, MISSING, "[[link]]\nvl = 1\n");
    WANT_LINE(6, DOUBLE_LINK, LINK("17") "[[link]]\nvl = 17\nskew_max_us = 1\nreassembly_us = 1\n");
    WANT_LINE(6, KIND, LINK("17") "[[link]]\nvl = \"8\"\n");
    WANT_LINE(7, RANGE, LINK("17") PORT("pos", "samplin"));
    WANT_LINE(5, MISSING, LINK("17") PORT("pos", "sampling"));
    WANT_LINE(9, RANGE, LINK("17") PORT("pos", "queuing") "udp = 70000\n[other]\nudp = 2\n");
    WANT_LINE(0, RANGE, "link = [{vl = 65536}]\n");
}

/* ---- faults of tables: one value of a table that has none is another, and so has the fault of a text with that value */

static const struct yelunnavi_link_row LINKS[2] = {{17, 1, 1000, 50000, 2, 2}, {18, 0, 0, 0, 4, 1}};
static const struct yelunnavi_port_row PORTS[3] = {
    {YELUNNAVI_SERVICE_SAMPLING, 0xe0e00011, 5000, 1471, 20000, 3, {'p', 'o', 's'}, 0},
    {YELUNNAVI_SERVICE_QUEUING, 0xe0e00011, 5002, 8192, 64, 3, {'n', 'a', 'v'}, 0},
    {YELUNNAVI_SERVICE_QUEUING, 0xe0e00011, 5002, 0, 1, 16, "abcdefghijklmno-", 0},
};
static struct yelunnavi_link_row links_of[65];
static struct yelunnavi_port_row ports_of[66];

static void fill_table(void) {
    memset(ports_of, 0, sizeof ports_of);
    memcpy(links_of, LINKS, sizeof LINKS), memcpy(ports_of, PORTS, sizeof PORTS);
}

static uint32_t open_rows(size_t links, size_t ports, struct yelunnavi_fault *fault) {
    return yelunnavi_receiver_open_table(&receiver, FRAME, links_of, links, ports_of, ports, 1, fault);
}

/* The fault, its key, and where it stands, of a table with this change. */
#define WANT_FAULT(change, ports, what, of_key, of_level, at_link, at_port)                                          \
    do {                                                                                                             \
        struct yelunnavi_fault told = {77, 77, 77, 77, 77, 77};                                                      \
        fill_table();                                                                                                \
        change;                                                                                                      \
        WANT(FAULTY, open_rows(2, (ports), &told));                                                                  \
        if (told.fault != YELUNNAVI_FAULT_##what || told.key != YELUNNAVI_KEY_##of_key || told.line                  \
            || told.level != YELUNNAVI_LEVEL_##of_level || told.link != (at_link) || told.port != (at_port)) {       \
            fprintf(stderr, "line %d: %u %u at %u %zu %zu\n", __LINE__, (unsigned)told.fault, (unsigned)told.key,    \
                    (unsigned)told.level, told.link, told.port);                                                     \
            exit(1);                                                                                                 \
        }                                                                                                            \
    } while (0)

static void of_table_faults(void) {
    WANT_FAULT(links_of[1].vl = 65536, 3, RANGE, VL, LINK, 1, 0);
    WANT_FAULT(links_of[1].vl = 17, 3, DOUBLE_LINK, NONE, LINK, 1, 0);
    WANT_FAULT(links_of[0].skew_max = 1000001, 3, RANGE, SKEW_MAX_US, LINK, 0, 0);
    WANT_FAULT(links_of[0].redundancy = 2, 3, RANGE, REDUNDANCY, LINK, 0, 0);
    WANT_FAULT(links_of[1].reassembly = 10000001, 3, RANGE, REASSEMBLY_US, LINK, 1, 0);
    WANT_FAULT(links_of[1].window = 0, 3, RANGE, WINDOW, LINK, 1, 0);
    WANT_FAULT(links_of[1].window = 5, 3, RANGE, WINDOW, LINK, 1, 0);
    WANT_FAULT(links_of[1].ports = 33, 3, TOO_MANY, NONE, LINK, 1, 0);
    WANT_FAULT(links_of[1].ports = SIZE_MAX, 3, TOO_MANY, NONE, LINK, 1, 0);
    WANT_FAULT(links_of[1].ports = 2, 3, MISSING, PORT, LINK, 1, 0);
    WANT_FAULT(links_of[1].ports = 0, 3, TOO_MANY, NONE, DOCUMENT, 0, 0);
    WANT_FAULT(ports_of[2].name_len = 17, 3, RANGE, NAME, PORT, 1, 0);
    WANT_FAULT(ports_of[2].name_len = SIZE_MAX, 3, RANGE, NAME, PORT, 1, 0);
    WANT_FAULT(ports_of[2].name_len = 0, 3, RANGE, NAME, PORT, 1, 0);
    WANT_FAULT(ports_of[1].name[1] = 'A', 3, RANGE, NAME, PORT, 0, 1);
    WANT_FAULT(ports_of[1].name[1] = 0xff, 3, RANGE, NAME, PORT, 0, 1);
    WANT_FAULT(ports_of[1].service = 3, 3, RANGE, KIND, PORT, 0, 1);
    WANT_FAULT(ports_of[1].udp = 65536, 3, RANGE, UDP, PORT, 0, 1);
    WANT_FAULT(ports_of[0].max = 1472, 3, RANGE, MAX, PORT, 0, 0);
    WANT_FAULT(ports_of[1].max = 8193, 3, RANGE, MAX, PORT, 0, 1);
    WANT_FAULT(ports_of[0].limit = 1000000001, 3, RANGE, REFRESH_US, PORT, 0, 0);
    WANT_FAULT(ports_of[1].limit = 65, 3, RANGE, DEPTH, PORT, 0, 1);
    WANT_FAULT(ports_of[1].limit = 0, 3, RANGE, DEPTH, PORT, 0, 1);
    WANT_FAULT(ports_of[0].readers = 9, 3, RANGE, READERS, PORT, 0, 0);
    WANT_FAULT(ports_of[0].readers = UINT32_MAX, 3, RANGE, READERS, PORT, 0, 0);
    WANT_FAULT(ports_of[1].udp = 5000, 3, DOUBLE_PORT, NONE, PORT, 0, 1);
    WANT_FAULT(ports_of[2] = PORTS[0], 3, DOUBLE_NAME, NONE, PORT, 1, 0);
    WANT_FAULT(links_of[0].vl = 65536; ports_of[0].udp = 65536, 3, RANGE, VL, LINK, 0, 0);
    WANT_FAULT(links_of[0].vl = 65536; ports_of[0].readers = 9, 3, RANGE, VL, LINK, 0, 0);
    WANT_FAULT(ports_of[1].readers = 9; ports_of[2].udp = 65536, 3, RANGE, UDP, PORT, 1, 0);
}

/* Tables of no link, of 65, and of 64, with each request for memory refused in turn. */
static void of_tables(void) {
    struct yelunnavi_fault fault = {77, 77, 77, 77, 77, 77};
    uint32_t code = YELUNNAVI_NO_MEMORY;
    fill_table();
    WANT(OUT_OF_RANGE, yelunnavi_receiver_open_table(&receiver, FRAME, links_of, 2, ports_of, 3, 0, &fault));
    if (fault.fault != 77) exit(25);
    WANT(FAULTY, open_rows(0, 0, &fault));
    if (fault.fault != YELUNNAVI_FAULT_MISSING || fault.key != YELUNNAVI_KEY_LINK || fault.level) exit(26);
    for (uint32_t k = 0; k < 65; k++) links_of[k] = (struct yelunnavi_link_row){k, 1, 0, 0, 1, 0};
    WANT(FAULTY, open_rows(65, 0, &fault));
    if (fault.fault != YELUNNAVI_FAULT_TOO_MANY || fault.key || fault.level) exit(27);
    WANT(DONE, open_rows(64, 0, &fault));
    yelunnavi_receiver_close(&receiver);
    fill_table();
    for (refused = 1; code == YELUNNAVI_NO_MEMORY; refused++) {
        requests = 0;
        code = open_rows(2, 3, &fault);
        if (code == YELUNNAVI_NO_MEMORY && (blocks || requests < refused)) exit(28);
    }
    if (code != YELUNNAVI_DONE || refused < 10) exit(29);
    refused = 0;
    WANT(ALREADY_OPEN, open_rows(2, 3, &fault));
    yelunnavi_receiver_close(&receiver);
    if (blocks) exit(30);
}

int main(void) {
    uint8_t some[1] = {0};
    if (yelunnavi_abi() != YELUNNAVI_ABI) return 21;
    of_rooms();
    WANT(DONE, yelunnavi_receiver_init(&receiver, rooms[0], sizeof rooms[0]));
    WANT(DONE, yelunnavi_reader_init(&reader, rooms[1], sizeof rooms[1]));
    WANT(DONE, yelunnavi_reader_init(&other, rooms[2], sizeof rooms[2]));
    WANT(DONE, yelunnavi_queue_init(&queue, rooms[3], sizeof rooms[3]));
    of_other_rooms();
    of_zeros();
    of_checks();
    of_lines();
    of_table_faults();
    of_tables();
    of_memory(1);
    of_memory(YELUNNAVI_MOST_READERS);
    of_no_readers();
    of_readers(1);
    of_readers(YELUNNAVI_MOST_READERS);
    of_no_octets(some, some);
    of_no_octets(NULL, NULL);
    of_a_deep_queue();
    of_pieces();
    of_the_receiver();
    of_the_ends();
    of_a_hold();
    of_a_closed_receiver();
    return blocks ? 14 : 0;
}
