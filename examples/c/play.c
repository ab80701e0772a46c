/* play CONFIG A B [AT]: plays two traces as afdx_play does, and prints the same lines, the report's too. */
#include "fault.h"
#include "trace.h"

#include <inttypes.h>
#include <string.h>

/* The requests of pool.c. */
extern unsigned long pool_requests;

static uint64_t receiver_room[YELUNNAVI_RECEIVER_OCTETS / 8U];
static struct yelunnavi_receiver receiver;

/* An end of each port. */
static struct end {
    uint64_t room[16];
    struct yelunnavi_reader reader;
    struct yelunnavi_queue queue;
    struct yelunnavi_port port;
    char name[YELUNNAVI_LONGEST_NAME + 1];
} ends[YELUNNAVI_MOST_LINKS][YELUNNAVI_MOST_PORTS];

static void check(bool is_so, const char *what) {
    if (is_so) return;
    fprintf(stderr, "play: %s\n", what);
    exit(1);
}

/* Hands the end of a port out, into room of its own. */
static void hand_out(size_t link, uint32_t port) {
    struct end *end = &ends[link][port];
    uint8_t name[YELUNNAVI_LONGEST_NAME];
    check(yelunnavi_receiver_port(&receiver, link, port, &end->port, &name) == YELUNNAVI_DONE, "a port");
    memcpy(end->name, name, end->port.name_len);
    struct yelunnavi_place place;
    check(yelunnavi_receiver_place(&receiver, name, end->port.name_len, &place) == YELUNNAVI_DONE, "a name");
    check(place.link == link && place.port == port, "the place of a name");
    if (end->port.service == YELUNNAVI_SERVICE_SAMPLING) {
        check(yelunnavi_reader_init(&end->reader, end->room, sizeof end->room) == YELUNNAVI_DONE, "room for a reader");
        check(yelunnavi_receiver_hand_reader(&receiver, &end->reader, name, end->port.name_len) == YELUNNAVI_DONE, "a reader");
    } else {
        check(yelunnavi_queue_init(&end->queue, end->room, sizeof end->room) == YELUNNAVI_DONE, "room for a queue");
        check(yelunnavi_receiver_hand_queue(&receiver, &end->queue, name, end->port.name_len) == YELUNNAVI_DONE, "a queue");
    }
}

static size_t open_all(const char *config, struct yelunnavi_link *of_links) {
    static uint8_t text[1 << 20];
    struct yelunnavi_fault fault = {0};
    size_t links = 0;
    check(yelunnavi_abi() == YELUNNAVI_ABI, "the header of this library");
    check(yelunnavi_receiver_init(&receiver, receiver_room, sizeof receiver_room) == YELUNNAVI_DONE, "room for the receiver");
    size_t len = read_file(config, text, sizeof text);
    uint32_t code = yelunnavi_receiver_open(&receiver, text, len, YELUNNAVI_MOST_READERS, &fault);
    if (code == YELUNNAVI_FAULTY) show_fault("play", &fault);
    check(code == YELUNNAVI_DONE, yelunnavi_code_word(code));
    check(yelunnavi_receiver_links(&receiver, &links) == YELUNNAVI_DONE, "links");
    for (size_t link = 0; link < links; link++) {
        check(yelunnavi_receiver_link(&receiver, link, &of_links[link]) == YELUNNAVI_DONE, "a link");
        for (uint32_t port = 0; port < of_links[link].ports; port++) hand_out(link, port);
    }
    return links;
}

static void show_frame(int net, const struct frame *frame) {
    struct yelunnavi_verdict reply;
    uint32_t code = yelunnavi_receiver_receive(&receiver, (uint32_t)net, frame->time, frame->octets, frame->len, &reply);
    check(code == YELUNNAVI_DONE, "receive");
    printf("%" PRIu64 " %s", frame->time, yelunnavi_network_word((uint32_t)net));
    if (reply.kind != YELUNNAVI_VERDICT_FILTERED) printf(" vl %" PRIu32 " %" PRIu64, reply.vl, reply.place);
    printf(" %s", yelunnavi_verdict_word(reply.kind));
    if (reply.kind == YELUNNAVI_VERDICT_FILTERED) printf(" %s", yelunnavi_filter_word(reply.cause));
    if (reply.kind == YELUNNAVI_VERDICT_BAD_HEADER) printf(" %s", yelunnavi_header_word(reply.cause));
    if (reply.kind >= YELUNNAVI_VERDICT_TOO_LONG) printf(" %s", ends[reply.link][reply.port].name);
    if (reply.kind == YELUNNAVI_VERDICT_SAMPLED) printf(" %" PRIu64, reply.number);
    putchar('\n');
}

/* The octets of a message, after a space, and the end of the line. */
static void show_octets(const uint8_t *octets, size_t len) {
    if (len) putchar(' ');
    for (size_t k = 0; k < len; k++) printf("%02x", octets[k]);
    putchar('\n');
}

/* Reads a sampling port, and holds its message: both find the same. */
static void show_sampling(struct end *end, uint64_t at) {
    static uint8_t out[YELUNNAVI_LONGEST_SAMPLE], held[YELUNNAVI_LONGEST_SAMPLE];
    struct yelunnavi_reader *reader = &end->reader;
    struct yelunnavi_read found, again;
    check(yelunnavi_reader_read(reader, at, out, sizeof out, &found) == YELUNNAVI_DONE, "read");
    check(yelunnavi_reader_hold(reader, at, &again) == YELUNNAVI_DONE && !memcmp(&found.number, &again.number, 24), "hold");
    printf("port %s sampling", end->name);
    if (found.found != 1) {
        puts(" empty");
        return;
    }
    check(yelunnavi_reader_copy(reader, 0, held, found.len) == YELUNNAVI_DONE && !memcmp(out, held, found.len), "copy");
    check(yelunnavi_reader_release(reader) == YELUNNAVI_DONE, "release");
    printf(" %" PRIu64 " %" PRIu64 " %zu %s", found.number, found.time, found.len, found.valid ? "fresh" : "stale");
    show_octets(out, found.len);
}

static void show_queue(struct end *end) {
    static uint8_t out[YELUNNAVI_DEEPEST_QUEUE][YELUNNAVI_LONGEST_QUEUED];
    struct yelunnavi_taken taken[YELUNNAVI_DEEPEST_QUEUE];
    size_t count = 0;
    while (count < YELUNNAVI_DEEPEST_QUEUE) {
        check(yelunnavi_queue_take(&end->queue, out[count], sizeof out[count], &taken[count]) == YELUNNAVI_DONE, "take");
        if (!taken[count].found) break;
        count++;
    }
    printf("port %s queuing %zu\n", end->name, count);
    for (size_t k = 0; k < count; k++) {
        printf("message %s %" PRIu64 " %zu", end->name, taken[k].time, taken[k].len);
        show_octets(out[k], taken[k].len);
    }
}

static void show_counts(size_t links, const struct yelunnavi_link *of_links) {
    uint64_t count = 0;
    for (size_t link = 0; link < links; link++)
        for (uint32_t net = YELUNNAVI_A; net <= YELUNNAVI_B; net++) {
            printf("count %" PRIu32 " %s", of_links[link].vl, yelunnavi_network_word(net));
            for (uint32_t kind = YELUNNAVI_VERDICT_OUT_OF_SEQUENCE; kind <= YELUNNAVI_VERDICT_EXHAUSTED; kind++) {
                check(yelunnavi_receiver_count(&receiver, link, net, kind, &count) == YELUNNAVI_DONE, "a count");
                printf(" %" PRIu64, count);
            }
            putchar('\n');
        }
    for (uint32_t net = YELUNNAVI_A; net <= YELUNNAVI_B; net++) {
        printf("filtered %s", yelunnavi_network_word(net));
        for (uint32_t cause = YELUNNAVI_FILTER_TOO_SHORT; cause <= YELUNNAVI_FILTER_UNKNOWN_LINK; cause++) {
            check(yelunnavi_receiver_filtered(&receiver, net, cause, &count) == YELUNNAVI_DONE, "a count of filtered frames");
            printf(" %" PRIu64, count);
        }
        putchar('\n');
    }
}

int main(int argc, char **argv) {
    static struct traces traces;
    struct yelunnavi_link of_links[YELUNNAVI_MOST_LINKS];
    if (argc < 4 || !open_traces(&traces, argv[2], argv[3])) {
        fputs("play CONFIG A B [AT]\n", stderr);
        return 2;
    }
    size_t links = open_all(argv[1], of_links);
    unsigned long requests = pool_requests;
    uint64_t at = 0;
    for (int net; (net = next_network(&traces)) >= 0; read_frame(traces.files[net], &traces.next[net])) {
        show_frame(net, &traces.next[net]);
        at = traces.next[net].time;
    }
    if (argc > 4) at = strtoull(argv[4], NULL, 10);
    for (size_t link = 0; link < links; link++)
        for (uint32_t port = 0; port < of_links[link].ports; port++) {
            struct end *end = &ends[link][port];
            if (end->port.service == YELUNNAVI_SERVICE_SAMPLING) show_sampling(end, at); else show_queue(end);
        }
    show_counts(links, of_links);
    check(pool_requests == requests, "memory was asked for after the opening");
    fprintf(stderr, "play: %lu requests for memory, all of them at the opening\n", requests);
    return 0;
}
