/* The answers of a system and of its passes (examples/c/yelunnavi.h, BUSY): each comes from the library where the header says so; an
   opening with its Nth request for memory refused answers NO_MEMORY, for each N, and gives everything back; passes and ends outlive
   the system, and the last of them gives its memory back. A pass that is given a frame, or tells a fill, while the other one copies a message of that
   link finds BUSY. Two threads that give frames of one link at once find it now and then, and no frame is lost or taken twice. Fails with the line of the first call that answers something else, or with a status. */
#include "merged_pieces.h"
#include "memory.h"
#include "wanted.h"
#include <pthread.h>
#include <sched.h>
#include <string.h>

enum { TURNS = 100000 };

static uint64_t rooms[5][128];
static struct yelunnavi_system both;
static struct yelunnavi_pass passes[2];
static struct yelunnavi_reader reader;
static struct yelunnavi_queue queue;
static struct yelunnavi_fault fault;

/* ---- memory */

static void of_memory(void) {
    uint32_t code = YELUNNAVI_NO_MEMORY;
    for (refused = 1; code == YELUNNAVI_NO_MEMORY; refused++) {
        requests = 0;
        code = yelunnavi_system_open(&both, TEXT(CONFIG), 2, &fault);
        if (code == YELUNNAVI_NO_MEMORY && (blocks || requests < refused)) exit(10);
    }
    if (code != YELUNNAVI_DONE || refused < 20 || requests >= refused) exit(11);
    refused = 0;
    yelunnavi_system_close(&both);
    if (blocks) exit(12);
}

/* ---- rooms in which no slot of the kind was made */

static void want_no_system(struct yelunnavi_system *h) {
    struct yelunnavi_link link;
    struct yelunnavi_port port;
    struct yelunnavi_place place;
    uint8_t name[YELUNNAVI_LONGEST_NAME];
    size_t links;
    WANT(NOT_MADE, yelunnavi_system_open(h, TEXT(CONFIG), 1, &fault));
    WANT(NOT_MADE, yelunnavi_system_open_table(h, FRAME, NULL, 0, NULL, 0, 1, &fault));
    WANT(NOT_MADE, yelunnavi_system_hand_pass(h, YELUNNAVI_A, &passes[0]));
    WANT(NOT_MADE, yelunnavi_system_hand_reader(h, &reader, TEXT("pos")));
    WANT(NOT_MADE, yelunnavi_system_hand_queue(h, &queue, TEXT("nav")));
    WANT(NOT_MADE, yelunnavi_system_links(h, &links));
    WANT(NOT_MADE, yelunnavi_system_link(h, 0, &link));
    WANT(NOT_MADE, yelunnavi_system_port(h, 0, 0, &port, &name));
    WANT(NOT_MADE, yelunnavi_system_place(h, TEXT("pos"), &place));
    yelunnavi_system_close(h);
}

static void want_no_pass(struct yelunnavi_pass *h) {
    struct yelunnavi_verdict told;
    struct yelunnavi_link_health health;
    struct yelunnavi_fill fill;
    struct yelunnavi_port_counts counts;
    uint64_t count;
    WANT(NOT_MADE, yelunnavi_pass_receive(h, 0, FRAME, sizeof FRAME, &told));
    WANT(NOT_MADE, yelunnavi_pass_count(h, 0, YELUNNAVI_VERDICT_SAMPLED, &count));
    WANT(NOT_MADE, yelunnavi_pass_filtered(h, YELUNNAVI_FILTER_TOO_SHORT, &count));
    WANT(NOT_MADE, yelunnavi_pass_health(h, 0, &health));
    WANT(NOT_MADE, yelunnavi_pass_fill(h, 0, 1, &fill));
    WANT(NOT_MADE, yelunnavi_pass_port_counts(h, 0, 1, &counts));
    yelunnavi_pass_close(h);
}

/* A room that is none, or is too short, or has another kind of slot; it isn't written. */
static void of_rooms(void) {
    uint64_t before[128];
    struct yelunnavi_system none = {0}, of_pass = {passes[0].room};
    struct yelunnavi_pass no_pass = {0}, of_system = {both.room}, of_reader = {reader.room};
    struct yelunnavi_reader reader_of_queue = {queue.room};
    struct yelunnavi_queue queue_of_reader = {reader.room};
    if (yelunnavi_system_room() > YELUNNAVI_SYSTEM_OCTETS || yelunnavi_pass_room() > YELUNNAVI_PASS_OCTETS) exit(12);
    WANT(NO_ROOM, yelunnavi_system_init(&none, NULL, 1024)); want_no_system(&none);
    WANT(TOO_SHORT, yelunnavi_system_init(&none, rooms[4], yelunnavi_system_room() - 1)); want_no_system(&none);
    WANT(NO_ROOM, yelunnavi_pass_init(&no_pass, NULL, 1024)); want_no_pass(&no_pass);
    WANT(TOO_SHORT, yelunnavi_pass_init(&no_pass, rooms[4], yelunnavi_pass_room() - 1)); want_no_pass(&no_pass);
    memcpy(before, passes[0].room, yelunnavi_pass_room());
    want_no_system(&of_pass);
    if (memcmp(before, passes[0].room, yelunnavi_pass_room()) != 0) exit(13);
    memcpy(before, both.room, yelunnavi_system_room());
    want_no_pass(&of_system), want_no_pass(&of_reader);
    if (memcmp(before, both.room, yelunnavi_system_room()) != 0) exit(14);
    WANT(DONE, yelunnavi_system_open(&both, TEXT(CONFIG), 1, &fault));
    WANT(NOT_MADE, yelunnavi_system_hand_pass(&both, YELUNNAVI_A, &of_reader));
    WANT(NOT_MADE, yelunnavi_system_hand_reader(&both, &reader_of_queue, TEXT("pos")));
    WANT(NOT_MADE, yelunnavi_system_hand_queue(&both, &queue_of_reader, TEXT("nav")));
    yelunnavi_system_close(&both);
}

/* A handle of zeros has no room: each call answers NOT_MADE, a close does nothing, and what would go to one isn't lost. */
static void of_zeros(void) {
    struct yelunnavi_system no_system = {0};
    struct yelunnavi_pass no_pass = {0};
    struct yelunnavi_reader no_reader = {0};
    struct yelunnavi_queue no_queue = {0};
    want_no_system(&no_system), want_no_pass(&no_pass);
    WANT(NOT_MADE, yelunnavi_system_hand_pass(&no_system, YELUNNAVI_A, &no_pass));
    WANT(NOT_MADE, yelunnavi_system_hand_reader(&no_system, &no_reader, TEXT("pos")));
    WANT(NOT_MADE, yelunnavi_system_hand_queue(&no_system, &no_queue, TEXT("nav")));
    WANT(DONE, yelunnavi_system_open(&both, TEXT(CONFIG), 1, &fault));
    WANT(NOT_MADE, yelunnavi_system_hand_pass(&both, YELUNNAVI_A, &no_pass));
    WANT(NOT_MADE, yelunnavi_system_hand_reader(&both, &no_reader, TEXT("pos")));
    WANT(NOT_MADE, yelunnavi_system_hand_queue(&both, &no_queue, TEXT("nav")));
    WANT(DONE, yelunnavi_system_hand_pass(&both, YELUNNAVI_A, &passes[0]));
    WANT(DONE, yelunnavi_system_hand_reader(&both, &reader, TEXT("pos")));
    WANT(DONE, yelunnavi_system_hand_queue(&both, &queue, TEXT("nav")));
    yelunnavi_pass_close(&passes[0]), yelunnavi_reader_close(&reader), yelunnavi_queue_close(&queue);
    yelunnavi_system_close(&both);
    if (no_system.room || no_pass.room || no_reader.room || no_queue.room || blocks) exit(37);
}

/* ---- one thread has both passes */

static void of_passes(void) {
    struct yelunnavi_verdict told;
    struct yelunnavi_link_health health;
    struct yelunnavi_fill fill;
    struct yelunnavi_port_counts counts;
    uint64_t count = 77;
    WANT(NOT_OPEN, yelunnavi_system_hand_pass(&both, YELUNNAVI_A, &passes[0]));
    WANT(NOT_OPEN, yelunnavi_pass_receive(&passes[0], 0, FRAME, sizeof FRAME, &told));
    WANT(NOT_OPEN, yelunnavi_pass_health(&passes[0], 0, &health));
    WANT(NOT_OPEN, yelunnavi_pass_fill(&passes[0], 0, 1, &fill));
    WANT(NOT_OPEN, yelunnavi_pass_port_counts(&passes[0], 0, 1, &counts));
    WANT(FAULTY, yelunnavi_system_open(&both, TEXT("[[link]]\nvl = 1\nskew_max_us = -1"), 1, &fault));
    if (fault.fault != YELUNNAVI_FAULT_RANGE || fault.key != YELUNNAVI_KEY_SKEW_MAX_US || fault.line != 3) exit(15);
    WANT(DONE, yelunnavi_system_open(&both, TEXT(CONFIG), 1, &fault));
    WANT(ALREADY_OPEN, yelunnavi_system_open(&both, TEXT(CONFIG), 1, &fault));
    WANT(NO_NETWORK, yelunnavi_system_hand_pass(&both, 2, &passes[0]));
    WANT(DONE, yelunnavi_system_hand_pass(&both, YELUNNAVI_A, &passes[0]));
    WANT(ALREADY_OPEN, yelunnavi_system_hand_pass(&both, YELUNNAVI_B, &passes[0]));
    WANT(NONE_LEFT, yelunnavi_system_hand_pass(&both, YELUNNAVI_A, &passes[1]));
    WANT(DONE, yelunnavi_system_hand_pass(&both, YELUNNAVI_B, &passes[1]));
    WANT(DONE, yelunnavi_pass_receive(&passes[0], 1000, FRAME, sizeof FRAME, &told));
    if (told.kind != YELUNNAVI_VERDICT_SAMPLED || told.vl != 17 || told.number != 1 || told.place != 0) exit(16);
    WANT(DONE, yelunnavi_pass_receive(&passes[1], 1000, FRAME, sizeof FRAME, &told));
    if (told.kind != YELUNNAVI_VERDICT_REDUNDANT || told.place != 1) exit(17);
    WANT(DONE, yelunnavi_pass_receive(&passes[1], 1000, NULL, 0, &told));
    if (told.kind != YELUNNAVI_VERDICT_FILTERED || told.cause != YELUNNAVI_FILTER_TOO_SHORT) exit(18);
    WANT(DONE, yelunnavi_pass_count(&passes[1], 0, YELUNNAVI_VERDICT_REDUNDANT, &count));
    if (count != 1) exit(19);
    WANT(DONE, yelunnavi_pass_filtered(&passes[1], YELUNNAVI_FILTER_TOO_SHORT, &count));
    WANT(NO_KIND, yelunnavi_pass_count(&passes[1], 1, YELUNNAVI_VERDICT_FILTERED, &count));
    WANT(NO_PLACE, yelunnavi_pass_count(&passes[1], 1, YELUNNAVI_VERDICT_SAMPLED, &count));
    WANT(NO_KIND, yelunnavi_pass_filtered(&passes[1], 6, &count));
    if (count != 1) exit(20);
    WANT(DONE, yelunnavi_pass_health(&passes[1], 0, &health));
    if (health.came != 1 || health.latest != 1000 || health.received != 2 || health.given_up != 0) exit(29);
    WANT(NO_PLACE, yelunnavi_pass_health(&passes[1], 1, &health));
    WANT(DONE, yelunnavi_pass_fill(&passes[1], 0, 1, &fill));
    if (fill.waiting != 0 || fill.greatest != 0) exit(34);
    WANT(NONE_LEFT, yelunnavi_pass_fill(&passes[1], 0, 0, &fill));
    WANT(NO_PLACE, yelunnavi_pass_fill(&passes[1], 0, 2, &fill));
    WANT(NO_PLACE, yelunnavi_pass_fill(&passes[1], 1, 0, &fill));
    WANT(DONE, yelunnavi_pass_port_counts(&passes[1], 0, 0, &counts));
    if (counts.delivered != 1 || counts.overflowed || counts.too_long || counts.fragmented) exit(40);
    if (counts.came != 1 || counts.net != YELUNNAVI_A || counts.latest != 1000) exit(41);
    WANT(DONE, yelunnavi_pass_port_counts(&passes[0], 0, 1, &counts));
    if (counts.delivered || counts.came || counts.latest) exit(42);
    WANT(NO_PLACE, yelunnavi_pass_port_counts(&passes[1], 0, 2, &counts));
    WANT(NO_PLACE, yelunnavi_pass_port_counts(&passes[1], 1, 0, &counts));
}

/* Passes and ends outlive the system, and each other. */
static void of_a_closed_system(void) {
    struct yelunnavi_verdict told;
    struct yelunnavi_read read;
    uint8_t next[sizeof FRAME], out[64];
    WANT(DONE, yelunnavi_system_hand_reader(&both, &reader, TEXT("pos")));
    WANT(DONE, yelunnavi_system_hand_queue(&both, &queue, TEXT("nav")));
    yelunnavi_system_close(&both);
    WANT(NOT_OPEN, yelunnavi_system_hand_pass(&both, YELUNNAVI_A, &passes[0]));
    memcpy(next, FRAME, sizeof next);
    next[59] = next[42] = 1;
    WANT(DONE, yelunnavi_pass_receive(&passes[1], 2000, next, sizeof next, &told));
    if (told.kind != YELUNNAVI_VERDICT_SAMPLED || told.number != 2) exit(21);
    yelunnavi_pass_close(&passes[0]), yelunnavi_pass_close(&passes[0]);
    next[59] = next[42] = 2;
    WANT(DONE, yelunnavi_pass_receive(&passes[1], 3000, next, sizeof next, &told));
    WANT(NOT_OPEN, yelunnavi_pass_receive(&passes[0], 3000, next, sizeof next, &told));
    yelunnavi_pass_close(&passes[1]);
    WANT(DONE, yelunnavi_reader_read(&reader, 3000, out, sizeof out, &read));
    if (read.number != 3 || out[0] != 2) exit(22);
    yelunnavi_reader_close(&reader), yelunnavi_queue_close(&queue);
    if (blocks) exit(23);
}

/* ---- a link that is in use: what the library copies by memmove is copied here, and a call is made in the midst of it */

static void (*meanwhile)(void);

/* Volatile, so that no compiler makes a call of memmove of the loop. */
void *memmove(void *to, const void *from, size_t octets) {
    volatile uint8_t *out = to;
    const volatile uint8_t *in = from;
    void (*call)(void) = meanwhile;
    if (call) meanwhile = NULL, call();
    bool is_forward = (uintptr_t)to <= (uintptr_t)from;
    for (size_t k = 0; k < octets; k++) {
        size_t place = is_forward ? k : octets - 1 - k;
        out[place] = in[place];
    }
    return to;
}

static void find_busy(void) {
    struct yelunnavi_verdict told = {.kind = 77};
    struct yelunnavi_fill fill = {.waiting = 77, .greatest = 77};
    struct yelunnavi_port_counts counts = {.delivered = 77};
    WANT(BUSY, yelunnavi_pass_receive(&passes[1], 1000, FRAME, sizeof FRAME, &told));
    if (told.kind != 77) exit(31);
    WANT(BUSY, yelunnavi_pass_fill(&passes[1], 0, 1, &fill));
    if (fill.waiting != 77 || fill.greatest != 77) exit(35);
    WANT(NONE_LEFT, yelunnavi_pass_fill(&passes[1], 0, 0, &fill));
    WANT(BUSY, yelunnavi_pass_port_counts(&passes[1], 0, 0, &counts));
    WANT(NO_PLACE, yelunnavi_pass_port_counts(&passes[1], 0, 2, &counts));
    if (counts.delivered != 77) exit(43);
}

static void of_a_link_in_use(void) {
    struct yelunnavi_verdict told;
    WANT(DONE, yelunnavi_system_open(&both, TEXT(CONFIG), 1, &fault));
    for (uint32_t net = 0; net < 2; net++) WANT(DONE, yelunnavi_system_hand_pass(&both, net, &passes[net]));
    meanwhile = find_busy;
    WANT(DONE, yelunnavi_pass_receive(&passes[0], 1000, FRAME, sizeof FRAME, &told));
    if (meanwhile || told.kind != YELUNNAVI_VERDICT_SAMPLED) exit(32);
    WANT(DONE, yelunnavi_pass_receive(&passes[1], 1000, FRAME, sizeof FRAME, &told));
    if (told.kind != YELUNNAVI_VERDICT_REDUNDANT) exit(33);
    for (int net = 0; net < 2; net++) yelunnavi_pass_close(&passes[net]);
    yelunnavi_system_close(&both);
}

/* ---- two threads, at one link at once */

static unsigned long again[2];

/* Frames with the numbers of one sender, which each network brings: whichever is first is a sample, and the other one redundant. The
   clock of both is how many frames were given. */
static void *give_all(void *of_pass) {
    size_t net = (size_t)((struct yelunnavi_pass *)of_pass - passes);
    static _Atomic unsigned at[2];
    struct yelunnavi_verdict told;
    uint8_t next[sizeof FRAME];
    memcpy(next, FRAME, sizeof next);
    for (unsigned turn = 0; turn < TURNS; turn++) {
        uint32_t code;
        while (atomic_load(&at[!net]) + 64 < turn) sched_yield();
        next[59] = (uint8_t)(turn ? (turn - 1) % 255 + 1 : 0);
        while ((code = yelunnavi_pass_receive(of_pass, 10 * turn, next, sizeof next, &told)) == YELUNNAVI_BUSY) again[net]++, sched_yield();
        if (code != YELUNNAVI_DONE) exit(24);
        if (told.kind != YELUNNAVI_VERDICT_SAMPLED && told.kind != YELUNNAVI_VERDICT_REDUNDANT) exit(25);
        atomic_store(&at[net], turn + 1);
    }
    return NULL;
}

/* Once no thread gives frames, each pass tells all at once: none is BUSY. */
static void of_settled_passes(const uint64_t sampled[2]) {
    struct yelunnavi_link_health health;
    struct yelunnavi_port_counts counts;
    struct yelunnavi_fill fill;
    for (int net = 0; net < 2; net++) {
        WANT(DONE, yelunnavi_pass_health(&passes[net], 0, &health));
        if (health.came != 1 || health.received != 2 * (uint64_t)TURNS || health.given_up) exit(44);
        WANT(DONE, yelunnavi_pass_port_counts(&passes[net], 0, 0, &counts));
        if (counts.delivered != sampled[0] + sampled[1] || counts.came != 1 || counts.latest != 10 * (uint64_t)(TURNS - 1)) exit(45);
        WANT(DONE, yelunnavi_pass_fill(&passes[net], 0, 1, &fill));
        if (fill.waiting || fill.greatest) exit(46);
    }
}

static void of_two_threads(void) {
    pthread_t threads[2];
    uint64_t sampled[2], redundant[2];
    struct yelunnavi_read read;
    uint8_t out[64];
    WANT(DONE, yelunnavi_system_open(&both, TEXT(CONFIG), 1, &fault));
    WANT(DONE, yelunnavi_system_hand_reader(&both, &reader, TEXT("pos")));
    for (uint32_t net = 0; net < 2; net++) WANT(DONE, yelunnavi_system_hand_pass(&both, net, &passes[net]));
    for (int net = 0; net < 2; net++) if (pthread_create(&threads[net], NULL, give_all, &passes[net])) exit(26);
    for (int net = 0; net < 2; net++) pthread_join(threads[net], NULL);
    for (int net = 0; net < 2; net++) {
        WANT(DONE, yelunnavi_pass_count(&passes[net], 0, YELUNNAVI_VERDICT_SAMPLED, &sampled[net]));
        WANT(DONE, yelunnavi_pass_count(&passes[net], 0, YELUNNAVI_VERDICT_REDUNDANT, &redundant[net]));
        if (sampled[net] + redundant[net] != TURNS) exit(27);
    }
    if (sampled[0] + sampled[1] != TURNS) exit(28);
    WANT(DONE, yelunnavi_reader_read(&reader, 0, out, sizeof out, &read));
    if (read.number != TURNS) exit(29);
    of_settled_passes(sampled);
    fprintf(stderr, "of %d frames a network %lu and %lu times BUSY\n", TURNS, again[0], again[1]);
    yelunnavi_reader_close(&reader);
    for (int net = 0; net < 2; net++) yelunnavi_pass_close(&passes[net]);
    yelunnavi_system_close(&both);
    if (blocks) exit(30);
}

static uint32_t give(uint64_t time, const uint8_t *frame, size_t len, struct yelunnavi_verdict *verdict) {
    return yelunnavi_pass_receive(&passes[0], time, frame, len, verdict);
}

static void of_a_deep_queue(void) {
    WANT(DONE, yelunnavi_system_open(&both, TEXT(WITH_DEEP), 1, &fault));
    WANT(DONE, yelunnavi_system_hand_pass(&both, YELUNNAVI_A, &passes[0]));
    WANT(DONE, yelunnavi_system_hand_queue(&both, &queue, TEXT("deep")));
    of_a_queue_that_begins_again(&queue, give);
    yelunnavi_queue_close(&queue);
    yelunnavi_pass_close(&passes[0]);
    yelunnavi_system_close(&both);
    if (blocks) exit(36);
}

static void of_pieces(void) {
    WANT(DONE, yelunnavi_system_open(&both, TEXT(WITH_DEEP), 1, &fault));
    WANT(DONE, yelunnavi_system_hand_pass(&both, YELUNNAVI_A, &passes[0]));
    of_merged_pieces(give);
    yelunnavi_pass_close(&passes[0]);
    yelunnavi_system_close(&both);
}

int main(void) {
    if (yelunnavi_abi() != YELUNNAVI_ABI) return 2;
    WANT(DONE, yelunnavi_system_init(&both, rooms[0], sizeof rooms[0]));
    for (int net = 0; net < 2; net++) WANT(DONE, yelunnavi_pass_init(&passes[net], rooms[1 + net], sizeof rooms[0]));
    WANT(DONE, yelunnavi_reader_init(&reader, rooms[3], sizeof rooms[3] / 2));
    WANT(DONE, yelunnavi_queue_init(&queue, rooms[3] + 64, sizeof rooms[3] / 2));
    of_rooms();
    of_zeros();
    of_memory();
    of_passes();
    of_a_closed_system();
    of_a_link_in_use();
    of_two_threads();
    of_a_deep_queue();
    of_pieces();
    return 0;
}
