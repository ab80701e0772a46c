/*
 * Receivers beside one another: see sides.h.
 */
#include "sides.h"
#include "pass_pool.h"
#include "settings.h"

#include <stdio.h>
#include <stdlib.h>

enum { MOST_ENDS = MOST_LINKS * MOST_PORTS, END_ROOM = 128 };

static u8 text[1 << 22];
static size_t text_len;

/* A port, and the ends of it that the library handed out. */
static struct {
    u8 name[16];
    size_t name_len;
    u8 link, place;
    bool sampling;
    _Alignas(64) unsigned char rooms[MOST_READERS][END_ROOM];
} ports[MOST_ENDS];
static size_t ports_n;

static u64 room[64];
struct yelunnavi_receiver library;
Receiver peer;
static Slot slot = {.mark = SLOT_MARK, .receiver = &peer};
Handle equal = {&slot};

_Noreturn void stop(const char *why)
{
    fprintf(stderr, "library_peer: %s\n", why);
    exit(1);
}

static void check(bool is_so, const char *why)
{
    if (!is_so)
        stop(why);
}

Side side_of(const char *word)
{
    static const struct {
        const char *word;
        Side side;
    } sides[] = {{"plain", {.form = PLAIN}},
                 {"seqlock", {.form = SEQLOCK}},
                 {"triple", {.form = TRIPLE}},
                 {"equal", {.form = TRIPLE, .is_equal = true}},
                 {"library", {.form = PLAIN, .is_library = true}}};
    const char *colon = strchr(word, ':');
    size_t len = colon ? (size_t)(colon - word) : strlen(word);
    unsigned readers = colon ? (unsigned)strtoul(colon + 1, NULL, 10) : 1;
    check(readers >= 1 && readers <= MOST_READERS, "1 to 8 readers");
    for (size_t i = 0; i < sizeof sides / sizeof *sides; i++)
        if (strlen(sides[i].word) == len && strncmp(word, sides[i].word, len) == 0) {
            Side side = sides[i].side;
            side.word = word;
            side.readers = readers;
            return side;
        }
    stop("a side is library, plain, seqlock, triple or equal, and perhaps :READERS");
}

/* ---- opening */

static void init_rooms(void)
{
    struct yelunnavi_reader sampled;
    struct yelunnavi_queue queued;
    check(yelunnavi_receiver_init(&library, room, sizeof room) == YELUNNAVI_DONE, "room for the receiver");
    for (size_t i = 0; i < ports_n; i++)
        for (unsigned reader = 0; reader < MOST_READERS; reader++)
            if (ports[i].sampling)
                check(yelunnavi_reader_init(&sampled, ports[i].rooms[reader], END_ROOM) == YELUNNAVI_DONE, "room for a reader");
            else
                check(yelunnavi_queue_init(&queued, ports[i].rooms[reader], END_ROOM) == YELUNNAVI_DONE, "room for a queue");
}

void read_config(const char *name)
{
    FILE *file = fopen(name, "rb");
    check(file, "no configuration");
    text_len = fread(text, 1, sizeof text, file);
    fclose(file);
    read_settings(&peer, text, text_len);
    for (size_t i = 0; i < peer.links_n; i++)
        for (unsigned j = 0; j < peer.links[i].ports_n; j++) {
            const Port *port = &peer.links[i].ports[j];
            ports[ports_n].name_len = port->name_len;
            memcpy(ports[ports_n].name, port->name, port->name_len);
            ports[ports_n].link = (u8)i;
            ports[ports_n].place = (u8)j;
            ports[ports_n++].sampling = port->sampling;
        }
    init_rooms();
}

/* Closes what the library has open: its memory is used anew. */
static void close_library(void)
{
    for (size_t i = 0; i < ports_n; i++)
        for (unsigned reader = 0; reader < MOST_READERS; reader++) {
            struct yelunnavi_reader sampled = {ports[i].rooms[reader]};
            struct yelunnavi_queue queued = {ports[i].rooms[reader]};
            if (ports[i].sampling)
                yelunnavi_reader_close(&sampled);
            else
                yelunnavi_queue_close(&queued);
        }
    yelunnavi_receiver_close(&library);
}

static void open_library(unsigned readers)
{
    struct yelunnavi_fault fault;
    uint32_t code = yelunnavi_receiver_open(&library, text, text_len, readers, &fault);
    check(code == YELUNNAVI_DONE, "the configuration is refused");
    for (size_t i = 0; i < ports_n; i++)
        for (unsigned reader = 0; reader < (ports[i].sampling ? readers : 1); reader++) {
            struct yelunnavi_reader sampled = {ports[i].rooms[reader]};
            struct yelunnavi_queue queued = {ports[i].rooms[reader]};
            const u8 *name = ports[i].name;
            size_t len = ports[i].name_len;
            code = ports[i].sampling ? yelunnavi_receiver_hand_reader(&library, &sampled, name, len)
                                     : yelunnavi_receiver_hand_queue(&library, &queued, name, len);
            check(code == YELUNNAVI_DONE, "an end isn't handed out");
        }
}

void open_side(const Side *side, bool touched)
{
    close_library();
    begin_pool(touched);
    if (side->is_library) {
        open_library(side->readers);
        return;
    }
    memset(&peer, 0, sizeof peer);
    read_settings(&peer, text, text_len);
    share_ports(&peer, side->form, side->readers);
}

/* ---- partitions */

size_t count_of_ports(void)
{
    return ports_n;
}

bool is_sampling(size_t port)
{
    return ports[port].sampling;
}

static Port *port_of_peer(size_t port)
{
    return &peer.links[ports[port].link].ports[ports[port].place];
}

Found read_at(const Side *side, size_t port, unsigned reader, u8 *out)
{
    if (!side->is_library)
        return read_sample(port_of_peer(port), reader, out);
    struct yelunnavi_reader end = {ports[port].rooms[reader]};
    struct yelunnavi_read read;
    uint32_t code = yelunnavi_reader_read(&end, 0, out, MOST_SAMPLE, &read);
    check(code == YELUNNAVI_DONE && read.found <= 1, "a read");
    return (Found){.found = read.found == 1, .len = (u32)read.len, .number = read.number, .time = read.time};
}

Found take_at(const Side *side, size_t port, u8 *out)
{
    if (!side->is_library)
        return take_message(port_of_peer(port), out);
    struct yelunnavi_queue end = {ports[port].rooms[0]};
    struct yelunnavi_taken taken;
    check(yelunnavi_queue_take(&end, out, MOST_MESSAGE, &taken) == YELUNNAVI_DONE, "a take");
    return (Found){.found = taken.found == 1, .len = (u32)taken.len, .time = taken.time};
}

size_t take_all(const Side *side)
{
    static u8 out[MOST_MESSAGE];
    size_t many = 0;
    for (size_t i = 0; i < ports_n; i++)
        while (!ports[i].sampling && take_at(side, i, out).found)
            many++;
    return many;
}
