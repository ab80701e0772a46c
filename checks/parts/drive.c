/* drive < SCRIPT: what the library for C answers to the calls of a script, a line each: the code, and what was told with
   DONE. Octets are in hexadecimal, `-` if there are none. Each buffer has just the room that the call is told, and was
   filled with 0xa5. Ends stand in slots by number. At the end a line says how many blocks of memory weren't given back.
   `open_each`, `open_table_each` and `check_each` open or check with each request for memory refused, one at a time, and then with
   none. With SYSTEM the
   calls are those of a system and of both its passes. With COUNTED callgrind writes what each call took, by the call's word. */
#include "yelunnavi.h"
#include <inttypes.h>
#include <stdio.h>
#include <stdlib.h>
#include <string.h>
#ifdef SYSTEM
#include "as_receiver.h"
#endif
#ifdef COUNTED
#include <valgrind/callgrind.h>
#define COUNT(call) __extension__({ \
    CALLGRIND_ZERO_STATS; \
    uint32_t answer = (call); \
    CALLGRIND_DUMP_STATS_AT(called); \
    answer; })
#else
#define COUNT(call) (call)
#endif

enum { SLOTS = 64, FILL = 0xa5 };

static uint64_t receiver_room[128], reader_rooms[SLOTS][64], queue_rooms[SLOTS][64];
static struct yelunnavi_receiver receiver;
static struct yelunnavi_reader readers[SLOTS];
static struct yelunnavi_queue queues[SLOTS];
static long blocks;
static bool may_ask, may_give_back;
static uint64_t refused; /* the number of a request for memory, from now on, that is refused; 0: none, or it was */

/* ---- memory: blocks that weren't given back are counted; none is asked for but by an opening, nor given back but by an
   opening or a close */

/* Whether a request is granted. */
static bool asked(void) {
    if (!may_ask) puts("memory was asked for"), exit(4);
    return !refused || --refused;
}

struct rattle_tried rattle_alloc(size_t octets, size_t align) {
    (void)align;
    if (!asked()) return (struct rattle_tried){false, &blocks};
    blocks++;
    return (struct rattle_tried){true, malloc(octets ? octets : 1)};
}

struct rattle_tried rattle_realloc(void *at, size_t kept, size_t octets, size_t align) {
    (void)kept, (void)align;
    if (!asked()) return (struct rattle_tried){false, at};
    return (struct rattle_tried){true, realloc(at, octets ? octets : 1)};
}

void rattle_dealloc(void *at) {
    if (!may_ask && !may_give_back) puts("memory was given back"), exit(4);
    blocks--;
    free(at);
}

/* ---- the script */

/* The script, and where its next word begins. */
static char *whole, *script;

static void read_script(void) {
    size_t len = 0, room = 1 << 20;
    whole = malloc(room);
    for (size_t more; (more = fread(whole + len, 1, room - len - 1, stdin)) > 0;)
        if ((len += more) + 1 == room) whole = realloc(whole, room *= 2);
    whole[len] = 0;
    script = whole;
}

/* The next word, which ends where the next space was; null at the end. */
static const char *word_or_end(void) {
    while (*script && *script <= ' ') script++;
    const char *word = script;
    while (*script > ' ') script++;
    if (*script) *script++ = 0;
    return *word ? word : NULL;
}

static const char *next_word(void) {
    const char *word = word_or_end();
    if (!word) exit(3);
    return word;
}

static uint64_t number(void) { return strtoull(next_word(), NULL, 10); }

static uint8_t nibble(char digit) { return (uint8_t)(digit <= '9' ? digit - '0' : digit - 'a' + 10); }

/* Octets in a block of their own, of just their length. */
static uint8_t *octets(size_t *len) {
    const char *text = next_word();
    *len = *text == '-' ? 0 : strlen(text) / 2;
    uint8_t *made = malloc(*len ? *len : 1);
    for (size_t k = 0; k < *len; k++) made[k] = (uint8_t)(nibble(text[2 * k]) << 4 | nibble(text[2 * k + 1]));
    return made;
}

static uint8_t *buffer(size_t len) { return memset(malloc(len ? len : 1), FILL, len ? len : 1); }

static void show(const uint8_t *out, size_t len) {
#ifdef COUNTED
    len = 0;
#endif
    printf(len ? " " : " -");
    for (size_t k = 0; k < len; k++) putchar("0123456789abcdef"[out[k] >> 4]), putchar("0123456789abcdef"[out[k] & 15]);
}

/* The word of the call. */
static const char *called;

/* The code, and whether there is more to tell. */
static bool show_code(uint32_t answer) {
    printf("%" PRIu32, answer);
    return answer == YELUNNAVI_DONE;
}
#define code(call) show_code(COUNT(call))

/* ---- the calls */

static void open_it(void) {
    struct yelunnavi_fault fault;
    size_t readers_each = number(), len;
    uint8_t *text = octets(&len);
    may_ask = true;
    code(yelunnavi_receiver_open(&receiver, text, len, readers_each, &fault));
    may_ask = false;
    memset(text, FILL, len);
    free(text);
}

/* Until an opening doesn't come to the request; what it answered then. One that is refused may be asked again, of less. */
static void open_each(void) {
    struct yelunnavi_fault fault;
    uint32_t answer = YELUNNAVI_DONE;
    size_t readers_each = number(), len;
    uint8_t *text = octets(&len);
    may_ask = true;
    for (uint64_t request = 1; !refused; request++) {
        yelunnavi_receiver_close(&receiver);
        refused = request;
        answer = yelunnavi_receiver_open(&receiver, text, len, readers_each, &fault);
    }
    may_ask = false, refused = 0;
    show_code(answer);
    free(text);
}

/* Checks a text, as `open_each` opens one if `each`, else once. */
static void check(bool each) {
    struct yelunnavi_fault fault;
    uint32_t answer = YELUNNAVI_DONE;
    size_t len;
    uint8_t *text = octets(&len);
    may_ask = true;
    for (uint64_t request = 1; each && !refused; request++) {
        refused = request;
        answer = yelunnavi_check_text(text, len, &fault);
    }
    refused = 0;
    if (!each) answer = COUNT(yelunnavi_check_text(text, len, &fault));
    may_ask = false;
    show_code(answer);
    free(text);
}

static struct yelunnavi_port_row port_row(void) {
    struct yelunnavi_port_row row = {0};
    row.service = (uint32_t)number(), row.address = (uint32_t)number(), row.udp = (uint32_t)number();
    row.max = (uint32_t)number(), row.limit = number();
    uint8_t *name = octets(&row.name_len);
    memcpy(row.name, name, row.name_len);
    free(name);
    row.readers = (uint32_t)number();
    return row;
}

/* As `open_each` if `each`, else once. */
static void open_table(bool each) {
    static const uint8_t constant[4] = {3};
    struct yelunnavi_fault fault;
    uint32_t answer = YELUNNAVI_DONE;
    size_t readers_each = number(), links_len = number();
    struct yelunnavi_link_row *links = calloc(links_len + 1, sizeof *links);
    for (size_t k = 0; k < links_len; k++) {
        links[k].vl = (uint32_t)number(), links[k].redundancy = (uint32_t)number(), links[k].skew_max = number();
        links[k].reassembly = number(), links[k].window = (uint32_t)number(), links[k].ports = number();
    }
    size_t ports_len = number();
    struct yelunnavi_port_row *ports = calloc(ports_len + 1, sizeof *ports);
    for (size_t k = 0; k < ports_len; k++) ports[k] = port_row();
    may_ask = true;
    for (uint64_t request = 1; each && !refused; request++) {
        yelunnavi_receiver_close(&receiver);
        refused = request;
        answer = yelunnavi_receiver_open_table(&receiver, constant, links, links_len, ports, ports_len, readers_each, &fault);
    }
    refused = 0;
    if (!each)
        answer = COUNT(yelunnavi_receiver_open_table(&receiver, constant, links, links_len, ports, ports_len, readers_each, &fault));
    may_ask = false;
    show_code(answer);
    free(links), free(ports);
}

static void receive(void) {
    struct yelunnavi_verdict told;
    uint32_t net = (uint32_t)number();
    uint64_t now = number();
    size_t len;
    uint8_t *frame = octets(&len);
    if (code(yelunnavi_receiver_receive(&receiver, net, now, frame, len, &told)))
        printf(" %" PRIu32 " %" PRIu32 " %zu %" PRIu32 " %" PRIu32 " %" PRIu64 " %" PRIu64, told.kind, told.cause, told.link,
               told.vl, told.port, told.place, told.number);
    free(frame);
}

static void hand(bool samples) {
    size_t slot = number(), len;
    uint8_t *name = octets(&len);
    code(samples ? yelunnavi_receiver_hand_reader(&receiver, &readers[slot], name, len)
                 : yelunnavi_receiver_hand_queue(&receiver, &queues[slot], name, len));
    free(name);
}

static void show_read(const struct yelunnavi_read *told) {
    printf(" %" PRIu32 " %" PRIu32 " %" PRIu64 " %" PRIu64 " %zu", told->found, told->valid, told->number, told->time, told->len);
}

static void read_it(void) {
    struct yelunnavi_read told;
    size_t slot = number();
    uint64_t now = number();
    size_t len = number();
    uint8_t *out = buffer(len);
    if (code(yelunnavi_reader_read(&readers[slot], now, out, len, &told))) show_read(&told);
    show(out, len);
    free(out);
}

static void hold(void) {
    struct yelunnavi_read told;
    size_t slot = number();
    if (code(yelunnavi_reader_hold(&readers[slot], number(), &told))) show_read(&told);
}

static void copy(void) {
    size_t slot = number(), first = number(), len = number();
    uint8_t *out = buffer(len);
    code(yelunnavi_reader_copy(&readers[slot], first, out, len));
    show(out, len);
    free(out);
}

static void tell_octets(void) {
    struct yelunnavi_octets told;
    if (code(yelunnavi_reader_octets(&readers[number()], &told))) show(told.at, told.len);
}

static void limits(void) {
    struct yelunnavi_limits told;
    if (code(yelunnavi_reader_limits(&readers[number()], &told))) printf(" %zu %" PRIu64, told.max, told.refresh);
}

static void take(void) {
    struct yelunnavi_taken told;
    size_t slot = number(), len = number();
    uint8_t *out = buffer(len);
    if (code(yelunnavi_queue_take(&queues[slot], out, len, &told)))
        printf(" %" PRIu32 " %" PRIu64 " %zu %" PRIu64, told.found, told.time, told.len, told.lost);
    show(out, len);
    free(out);
}

static void waiting(void) {
    size_t count;
    if (code(yelunnavi_queue_waiting(&queues[number()], &count))) printf(" %zu", count);
}

static void longest(void) {
    size_t max;
    if (code(yelunnavi_queue_longest(&queues[number()], &max))) printf(" %zu", max);
}

static void count(void) {
    uint64_t told;
    size_t link = number();
    uint32_t net = (uint32_t)number();
    if (code(yelunnavi_receiver_count(&receiver, link, net, (uint32_t)number(), &told))) printf(" %" PRIu64, told);
}

static void filtered(void) {
    uint64_t told;
    uint32_t net = (uint32_t)number();
    if (code(yelunnavi_receiver_filtered(&receiver, net, (uint32_t)number(), &told))) printf(" %" PRIu64, told);
}

#ifndef SYSTEM /* which tells no health */
static void health(void) {
    struct yelunnavi_health told;
    if (code(yelunnavi_receiver_health(&receiver, number(), &told)))
        printf(" %" PRIu32 " %" PRIu32 " %" PRIu64 " %" PRIu64 " %" PRIu64, told.came_a, told.came_b, told.latest_a, told.latest_b,
               told.given_up);
}
#endif

static void port_counts(void) {
    struct yelunnavi_port_counts told;
    size_t link = number();
    if (code(yelunnavi_receiver_port_counts(&receiver, link, number(), &told)))
        printf(" %" PRIu64 " %" PRIu64 " %" PRIu64 " %" PRIu64 " %" PRIu32 " %" PRIu32 " %" PRIu64, told.delivered, told.overflowed,
               told.too_long, told.fragmented, told.came, told.net, told.latest);
}

static void fill(void) {
    struct yelunnavi_fill told;
    size_t link = number();
    if (code(yelunnavi_receiver_fill(&receiver, link, number(), &told))) printf(" %zu %zu", told.waiting, told.greatest);
}

static void links(void) {
    size_t told;
    if (code(yelunnavi_receiver_links(&receiver, &told))) printf(" %zu", told);
}

static void tell_link(void) {
    struct yelunnavi_link told;
    if (code(yelunnavi_receiver_link(&receiver, number(), &told))) printf(" %" PRIu32 " %zu", told.vl, told.ports);
}

static void tell_port(void) {
    struct yelunnavi_port told;
    uint8_t name[YELUNNAVI_LONGEST_NAME];
    size_t link = number();
    if (code(yelunnavi_receiver_port(&receiver, link, number(), &told, &name))) show(name, told.name_len);
}

static void place(void) {
    struct yelunnavi_place told;
    size_t len;
    uint8_t *name = octets(&len);
    if (code(yelunnavi_receiver_place(&receiver, name, len, &told))) printf(" %zu %" PRIu32, told.link, told.port);
    free(name);
}

static void close_it(const char *name) {
    may_give_back = true;
    if (!strcmp(name, "close")) yelunnavi_receiver_close(&receiver);
    else if (!strcmp(name, "close_reader")) yelunnavi_reader_close(&readers[number()]);
    else if (!strcmp(name, "close_queue")) yelunnavi_queue_close(&queues[number()]);
    else exit(3);
    may_give_back = false;
}

static void call(const char *name) {
    if (!strcmp(name, "open")) open_it();
    else if (!strcmp(name, "open_table")) open_table(false);
    else if (!strcmp(name, "open_table_each")) open_table(true);
    else if (!strcmp(name, "open_each")) open_each();
    else if (!strcmp(name, "check")) check(false);
    else if (!strcmp(name, "check_each")) check(true);
    else if (!strcmp(name, "receive")) receive();
    else if (!strcmp(name, "hand_reader")) hand(true);
    else if (!strcmp(name, "hand_queue")) hand(false);
    else if (!strcmp(name, "read")) read_it();
    else if (!strcmp(name, "hold")) hold();
    else if (!strcmp(name, "copy")) copy();
    else if (!strcmp(name, "octets")) tell_octets();
    else if (!strcmp(name, "release")) code(yelunnavi_reader_release(&readers[number()]));
    else if (!strcmp(name, "limits")) limits();
    else if (!strcmp(name, "take")) take();
    else if (!strcmp(name, "longest")) longest();
    else if (!strcmp(name, "waiting")) waiting();
    else if (!strcmp(name, "count")) count();
    else if (!strcmp(name, "filtered")) filtered();
#ifndef SYSTEM
    else if (!strcmp(name, "health")) health();
#endif
    else if (!strcmp(name, "fill")) fill();
    else if (!strcmp(name, "port_counts")) port_counts();
    else if (!strcmp(name, "links")) links();
    else if (!strcmp(name, "link")) tell_link();
    else if (!strcmp(name, "port")) tell_port();
    else if (!strcmp(name, "place")) place();
    else if (!strncmp(name, "close", 5)) close_it(name);
    else exit(3);
    putchar('\n');
}

int main(void) {
    bool are_made = yelunnavi_receiver_init(&receiver, receiver_room, sizeof receiver_room) == YELUNNAVI_DONE;
    for (int k = 0; k < SLOTS && are_made; k++)
        are_made = yelunnavi_reader_init(&readers[k], reader_rooms[k], sizeof reader_rooms[k]) == YELUNNAVI_DONE
            && yelunnavi_queue_init(&queues[k], queue_rooms[k], sizeof queue_rooms[k]) == YELUNNAVI_DONE;
    if (!are_made || yelunnavi_abi() != YELUNNAVI_ABI) return 2;
    read_script();
    while ((called = word_or_end())) call(called);
    may_give_back = true;
    for (int k = 0; k < SLOTS; k++) yelunnavi_reader_close(&readers[k]), yelunnavi_queue_close(&queues[k]);
    yelunnavi_receiver_close(&receiver);
    printf("%ld blocks kept\n", blocks);
    free(whole);
    return 0;
}
