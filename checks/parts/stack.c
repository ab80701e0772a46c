/* stack CONFIG A B: how many octets of stack each call of the library takes, the most that was seen, as lines of a name and a
   number: of openings, of this configuration, of the largest one, of those with a fault at their end, and of texts that are
   nested as deep as they may be; of each frame of two traces, by the kind of its verdict; of all other calls, after the frames.
   With SYSTEM the calls are those of a system and of both its passes, but for those of health, fill and counts of ports.
   A call runs on a stack that was painted before, and what it has written to is counted, less what a call that does nothing
   writes to. */
#define _XOPEN_SOURCE 700
#include "yelunnavi_words.h"
#include "trace.h"
#include <string.h>
#include <ucontext.h>
#ifdef SYSTEM
#include "as_receiver.h"
/* The calls of a pass as they are: there are both networks. */
#undef yelunnavi_receiver_receive
#undef yelunnavi_receiver_count
#undef yelunnavi_receiver_filtered
#define yelunnavi_receiver_receive(h, net, ...) yelunnavi_pass_receive(&(h)->passes[net], __VA_ARGS__)
#define yelunnavi_receiver_count(h, link, net, ...) yelunnavi_pass_count(&(h)->passes[net], link, __VA_ARGS__)
#define yelunnavi_receiver_filtered(h, net, ...) yelunnavi_pass_filtered(&(h)->passes[net], __VA_ARGS__)
#endif

enum { PAINT = 0xa5, SHORT = 1 << 16, LONG = 1 << 22, TEXT = 1 << 20, NAMES = 64 };
/* What TOML is read to: so many levels of a value, and parts of a key. */
enum { LEVELS = 80 };

static uint64_t stack[LONG / 8];
static ucontext_t caller, called;

/* ---- the most of each name */

static struct most { const char *name; size_t octets; } most[NAMES];
static size_t least;

/* What a call leaves written of a stack of so many octets. */
static size_t written_by(void (*call)(void), size_t octets) {
    size_t k = 0;
    memset(stack, PAINT, octets);
    const uint64_t painted = stack[0];
    getcontext(&called);
    called.uc_stack.ss_sp = stack;
    called.uc_stack.ss_size = octets;
    called.uc_link = &caller;
    makecontext(&called, call, 0);
    swapcontext(&caller, &called);
    while (k < octets / 8 && stack[k] == painted) k++;
    if (k == 0) exit(5);
    return octets - 8 * k;
}

static void note(const char *name, size_t octets) {
    size_t k = 0;
    while (most[k].name && strcmp(most[k].name, name)) k++;
    most[k].name = name;
    if (octets - least > most[k].octets) most[k].octets = octets - least;
}

static void call(const char *name, void (*it)(void)) { note(name, written_by(it, SHORT)); }

/* ---- the calls, and what they are passed */

static uint64_t room[128], end_rooms[YELUNNAVI_MOST_PORTS][64];
static struct yelunnavi_receiver receiver;
static struct yelunnavi_reader reader;
static struct yelunnavi_queue queue;
static uint8_t text[TEXT], out[YELUNNAVI_LONGEST_QUEUED], name[YELUNNAVI_LONGEST_NAME];
static struct yelunnavi_fault fault;
static struct yelunnavi_verdict verdict;
static struct yelunnavi_read found;
static struct yelunnavi_limits limits;
static struct yelunnavi_octets held;
static struct yelunnavi_taken taken;
static struct yelunnavi_link link_reply;
static struct yelunnavi_port port_reply;
static struct yelunnavi_place place;
static size_t text_len, links, at_link, at_port, longest;
static const struct frame *given;
static uint32_t code, net;
static uint64_t count;

static void nothing(void) {}
static void open_it(void) { code = yelunnavi_receiver_open(&receiver, text, text_len, YELUNNAVI_MOST_READERS, &fault); }
static void close_it(void) { yelunnavi_receiver_close(&receiver); }
static void receive(void) { code = yelunnavi_receiver_receive(&receiver, net, given->time, given->octets, given->len, &verdict); }
static void tell_count(void) { code = yelunnavi_receiver_count(&receiver, 0, net, YELUNNAVI_VERDICT_SAMPLED, &count); }
static void tell_filtered(void) { code = yelunnavi_receiver_filtered(&receiver, net, YELUNNAVI_FILTER_NOT_IP, &count); }
#ifndef SYSTEM
static struct yelunnavi_health health_reply;
static struct yelunnavi_fill fill_reply;
static struct yelunnavi_port_counts counts_reply;
static void tell_health(void) { code = yelunnavi_receiver_health(&receiver, at_link, &health_reply); }
static void tell_port_counts(void) { code = yelunnavi_receiver_port_counts(&receiver, at_link, at_port, &counts_reply); }
static void tell_fill(void) { code = yelunnavi_receiver_fill(&receiver, at_link, at_port, &fill_reply); }
#endif
static void tell_links(void) { code = yelunnavi_receiver_links(&receiver, &links); }
static void tell_link(void) { code = yelunnavi_receiver_link(&receiver, at_link, &link_reply); }
static void tell_port(void) { code = yelunnavi_receiver_port(&receiver, at_link, at_port, &port_reply, &name); }
static void tell_place(void) { code = yelunnavi_receiver_place(&receiver, name, port_reply.name_len, &place); }
static void hand_reader(void) { code = yelunnavi_receiver_hand_reader(&receiver, &reader, name, port_reply.name_len); }
static void hand_queue(void) { code = yelunnavi_receiver_hand_queue(&receiver, &queue, name, port_reply.name_len); }
static void read_it(void) { code = yelunnavi_reader_read(&reader, 0, out, sizeof out, &found); }
static void hold(void) { code = yelunnavi_reader_hold(&reader, 0, &found); }
static void tell_octets(void) { code = yelunnavi_reader_octets(&reader, &held); }
static void copy(void) { code = yelunnavi_reader_copy(&reader, 0, out, found.len); }
static void release(void) { code = yelunnavi_reader_release(&reader); }
static void tell_limits(void) { code = yelunnavi_reader_limits(&reader, &limits); }
static void close_reader(void) { yelunnavi_reader_close(&reader); }
static void take(void) { code = yelunnavi_queue_take(&queue, out, sizeof out, &taken); }
static void tell_waiting(void) { code = yelunnavi_queue_waiting(&queue, &longest); }
static void tell_longest(void) { code = yelunnavi_queue_longest(&queue, &longest); }
static void close_queue(void) { yelunnavi_queue_close(&queue); }

static void add(const char *words) {
    size_t len = strlen(words);
    if (text_len + len > sizeof text) exit(3);
    memcpy(text + text_len, words, len);
    text_len += len;
}

/* Opens the receiver of the text, for this answer. */
static void open_text(const char *as, uint32_t wanted) {
    note(as, written_by(open_it, LONG));
    if (code != wanted) exit(4);
}

static void try_text(const char *as, uint32_t wanted) {
    open_text(as, wanted);
    if (code == YELUNNAVI_DONE) call("close", close_it);
    text_len = 0;
}

/* The largest configuration, with this UDP port at the last of its ports. */
static void add_largest(unsigned last) {
    char words[256];
    for (unsigned link = 0; link < YELUNNAVI_MOST_LINKS; link++) {
        snprintf(words, sizeof words, "[[link]]\nvl = %u\nskew_max_us = 1000\nreassembly_us = 50000\n", link + 1);
        add(words);
        for (unsigned port = 0; port < YELUNNAVI_MOST_PORTS; port++) {
            bool is_last = link + 1 == YELUNNAVI_MOST_LINKS && port + 1 == YELUNNAVI_MOST_PORTS;
            snprintf(words, sizeof words, "[[link.port]]\nname = \"p%u-%u\"\nkind = \"sampling\"\naddress = \"224.224.0.1\"\n"
                     "udp = %u\nrefresh_us = 1000\nmax = 1\n", link, port, is_last ? last : port + 1);
            add(words);
        }
    }
}

static void add_key(unsigned parts) {
    while (--parts) add("a.");
    add("a");
}

/* A value of so many levels of tables, each with a key of so many parts. */
static void add_tables(unsigned levels, unsigned parts) {
    for (unsigned k = 0; k < levels; k++) add("{"), add_key(parts), add(" = ");
    add("1");
    while (levels--) add("}");
}

/* The largest table: 64 links of 32 ports, and such a one with a fault at its end. */
static struct yelunnavi_link_row link_rows[YELUNNAVI_MOST_LINKS];
static struct yelunnavi_port_row port_rows[YELUNNAVI_MOST_LINKS * YELUNNAVI_MOST_PORTS];

static void open_table(void) {
    static const uint8_t constant[4] = {3};
    code = yelunnavi_receiver_open_table(&receiver, constant, link_rows, YELUNNAVI_MOST_LINKS, port_rows,
                                         YELUNNAVI_MOST_LINKS * YELUNNAVI_MOST_PORTS, YELUNNAVI_MOST_READERS, &fault);
}

static void of_tables(void) {
    for (uint32_t at = 0; at < YELUNNAVI_MOST_LINKS * YELUNNAVI_MOST_PORTS; at++) {
        port_rows[at] = (struct yelunnavi_port_row){YELUNNAVI_SERVICE_SAMPLING, 0xe0e00001, at, 1, 1000, 5, {'p'}, 0};
        for (uint32_t place = 1, rest = at; place < 5; place++, rest /= 10) port_rows[at].name[place] = (uint8_t)('0' + rest % 10);
        link_rows[at / YELUNNAVI_MOST_PORTS] = (struct yelunnavi_link_row){at / YELUNNAVI_MOST_PORTS, 1, 0, 0, 1, YELUNNAVI_MOST_PORTS};
    }
    note("open, a table", written_by(open_table, LONG));
    if (code != YELUNNAVI_DONE) exit(4);
    call("close", close_it);
    port_rows[YELUNNAVI_MOST_LINKS * YELUNNAVI_MOST_PORTS - 1].max = 1472;
    note("open, a fault at the end of a table", written_by(open_table, LONG));
    if (code != YELUNNAVI_FAULTY) exit(4);
}

static void of_texts(void) {
    text_len = 0;
    add_largest(5000);
    try_text("open, a configuration", YELUNNAVI_DONE);
    add_largest(70000);
    try_text("open, a fault at its end", YELUNNAVI_FAULTY);
    for (unsigned k = 0; k < LEVELS; k++) add(k ? "[" : "a = [");
    try_text("open, nested arrays", YELUNNAVI_FAULTY);
    add("a = "), add_tables(LEVELS, 1);
    try_text("open, nested tables", YELUNNAVI_FAULTY);
    add("["), add_key(LEVELS), add("]\n"), add_key(LEVELS), add(" = 1\n");
    try_text("open, a long key in a long header", YELUNNAVI_FAULTY);
    add("["), add_key(LEVELS), add("]\n"), add_key(LEVELS), add(" = "), add_tables(LEVELS, LEVELS);
    try_text("open, nested tables by long keys", YELUNNAVI_FAULTY);
    add("["), add_key(LEVELS), add("]\n"), add_key(LEVELS), add(" = "), add_tables(LEVELS, LEVELS);
    add("\n["), add_key(LEVELS), add("]\n");
    try_text("open, nested tables by long keys, no TOML", YELUNNAVI_FAULTY);
}

static void of_frames(char **files) {
    static struct traces traces;
    if (!open_traces(&traces, files[1], files[2])) exit(2);
    text_len = read_file(files[0], text, sizeof text);
    open_text("open, a configuration", YELUNNAVI_DONE);
    for (int next; (next = next_network(&traces)) >= 0; read_frame(traces.files[next], &traces.next[next])) {
        given = &traces.next[next], net = (uint32_t)next;
        size_t octets = written_by(receive, SHORT);
        note(yelunnavi_verdict_word(verdict.kind), octets);
    }
}

static void of_a_reader(void) {
    if (yelunnavi_reader_init(&reader, end_rooms[at_port], sizeof end_rooms[0]) != YELUNNAVI_DONE) exit(9);
    call("hand_reader", hand_reader), call("limits", tell_limits), call("read", read_it), call("hold", hold);
    if (found.found) call("octets", tell_octets), call("copy", copy), call("release", release);
    call("hold", hold), call("close_reader", close_reader);
}

static void of_a_queue(void) {
    if (yelunnavi_queue_init(&queue, end_rooms[at_port], sizeof end_rooms[0]) != YELUNNAVI_DONE) exit(9);
    call("hand_queue", hand_queue), call("longest", tell_longest), call("waiting", tell_waiting);
    do call("take", take); while (taken.found);
    call("close_queue", close_queue);
}

/* How a link is, how full each of its queues, before the messages in it are taken, and what became of each port's messages. */
static void of_health(void) {
#ifndef SYSTEM
    call("health", tell_health);
    if (code != YELUNNAVI_DONE) exit(4);
    for (at_port = 0; at_port < link_reply.ports; at_port++) call("fill", tell_fill), call("port_counts", tell_port_counts);
#endif
}

static void of_ends(void) {
    call("links", tell_links), call("count", tell_count), call("count of filtered", tell_filtered);
    for (at_link = 0; at_link < links; at_link++) {
        call("link", tell_link);
        of_health();
        for (at_port = 0; at_port < link_reply.ports; at_port++) {
            call("port", tell_port), call("place", tell_place);
            if (port_reply.service == YELUNNAVI_SERVICE_SAMPLING) of_a_reader(); else of_a_queue();
        }
    }
    call("close", close_it);
}

int main(int argc, char **argv) {
    if (argc != 4) return 2;
    if (yelunnavi_abi() != YELUNNAVI_ABI) return 10;
    if (yelunnavi_receiver_init(&receiver, room, sizeof room) != YELUNNAVI_DONE) return 9;
    least = written_by(nothing, SHORT);
    of_frames(argv + 1);
    of_ends();
    of_texts();
    of_tables();
    for (size_t k = 0; most[k].name; k++) printf("%s: %zu\n", most[k].name, most[k].octets);
    return 0;
}
