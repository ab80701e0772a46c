/*
 * afdx_peer: a second player of traces, written for itself, to compare the program with and to time it beside.
 *
 *   afdx_peer --config FILE --a FILE --b FILE [--at MICROSECONDS] [--no-history] [--no-huge-pages]
 *   afdx_peer            (no words: trace A on standard input, B empty, and the configuration that is built in)
 *
 * It writes the bytes and ends with the exit status that docs/FORMATS.md states for afdx_play, but has no `--threads`,
 * and its text for words that are refused is its own. --no-history keeps no list of the frames that came;
 * --no-huge-pages doesn't advise the system to take huge pages. The configuration is read by toml.c, which leaves a few
 * things out.
 *
 * C11 with POSIX's open, read and write; `build` beside it compiles it.
 */
#define _DEFAULT_SOURCE
#include "command_line.h"
#include "output.h"
#include "receiver.h"
#include "report.h"
#include "settings.h"
#include "traces.h"

#include <errno.h>
#include <fcntl.h>
#include <signal.h>
#include <stdio.h>
#include <stdlib.h>
#include <string.h>
#include <sys/stat.h>
#include <unistd.h>

/* The configuration that is built in. */
static const char BUILT_IN[] = "[[link]]\n"
                               "vl = 17\n"
                               "skew_max_us = 1000\n"
                               "reassembly_us = 50000\n"
                               "\n"
                               "[[link.port]]\n"
                               "name = \"pos\"\n"
                               "kind = \"sampling\"\n"
                               "address = \"224.224.0.17\"\n"
                               "udp = 5000\n"
                               "refresh_us = 20000\n"
                               "\n"
                               "[[link.port]]\n"
                               "name = \"nav\"\n"
                               "kind = \"queuing\"\n"
                               "address = \"224.224.0.17\"\n"
                               "udp = 5002\n"
                               "depth = 4\n";

static Receiver receiver;
static Trace trace_a, trace_b;

/* ---- history */

/* A frame that came, and what became of it. */
typedef struct {
    u64 time;
    u8 *frame;
    u64 number;
    u16 len;
    u8 net, kind, cause, port;
} Event;

typedef struct {
    Event *events;
    size_t len, room;
    /* what a line of the link has after the time, by network */
    char head[2][24];
    u8 head_len[2];
} History;

static History histories[MOST_LINKS];
static bool keeps_history = true;

static void prepare_histories(void)
{
    for (size_t i = 0; i < receiver.links_n; i++)
        for (int net = 0; net < 2; net++) {
            char *head = histories[i].head[net];
            histories[i].head_len[net] =
                (u8)snprintf(head, sizeof histories[i].head[net], " %c vl %u ", "AB"[net], receiver.links[i].vl);
        }
}

static inline void remember(History *history, unsigned net, const Frame *frame, Verdict verdict)
{
    if (UNLIKELY(history->len == history->room)) {
        history->room = history->room ? history->room * 2 : 256;
        history->events = grow_memory(history->events, history->room * sizeof(Event));
    }
    u8 *copy = arena(frame->len);
    memcpy(copy, frame->octets, frame->len);
    history->events[history->len++] = (Event){.time = frame->time,
                                              .frame = copy,
                                              .number = verdict.number,
                                              .len = (u16)frame->len,
                                              .net = (u8)net,
                                              .kind = verdict.kind,
                                              .cause = verdict.cause,
                                              .port = verdict.port};
}

/* ---- the line of a frame */

typedef struct {
    const char *octets;
    size_t len;
} Text;

#define TEXT(text) {text, sizeof(text) - 1}

static inline void add_text(Text text)
{
    output_raw(text.octets, text.len);
}

static void line_of_filtered(unsigned net, unsigned cause)
{
    static const Text texts[FILTERS] = {
        [TOO_SHORT_FRAME] = TEXT(" filtered too-short\n"),
        [TOO_LONG_FRAME] = TEXT(" filtered too-long\n"),
        [NOT_IP] = TEXT(" filtered not-ip\n"),
        [FOREIGN_CONSTANT] = TEXT(" filtered foreign-constant\n"),
        [UNKNOWN_LINK] = TEXT(" filtered unknown-link\n"),
    };
    output_raw(net ? " B" : " A", 2);
    add_text(texts[cause]);
}

static inline void line_of_verdict(const Link *link, Verdict verdict)
{
    static const Text causes[] = {
        [VERSION] = TEXT("version\n"),
        [HEADER_LENGTH] = TEXT("header-length\n"),
        [TOTAL_LENGTH] = TEXT("total-length\n"),
        [CHECKSUM] = TEXT("checksum\n"),
        [PROTOCOL] = TEXT("protocol\n"),
    };
    static const Text texts[KINDS] = {
        [OUT_OF_SEQUENCE] = TEXT("out-of-sequence\n"),
        [REDUNDANT] = TEXT("redundant\n"),
        [BAD_HEADER] = TEXT("bad-header "),
        [BAD_FRAGMENT] = TEXT("bad-fragment\n"),
        [FRAGMENT_HELD] = TEXT("fragment-held\n"),
        [BAD_UDP] = TEXT("bad-udp\n"),
        [NO_PORT] = TEXT("no-port\n"),
        [TOO_LONG] = TEXT("too-long "),
        [FRAGMENTED_SAMPLE] = TEXT("fragmented-sample "),
        [SAMPLED] = TEXT("sampled "),
        [QUEUED] = TEXT("queued "),
        [OVERFLOWED] = TEXT("overflow "),
        [EXHAUSTED] = TEXT("exhausted "),
    };
    add_text(texts[verdict.kind]);
    if (verdict.kind == BAD_HEADER)
        add_text(causes[verdict.cause]);
    if (verdict.kind < TOO_LONG)
        return;
    const Port *port = &link->ports[verdict.port];
    output_raw(port->name, port->name_len);
    if (verdict.kind == SAMPLED) {
        OUTPUT(" ");
        output_number(verdict.number);
    }
    OUTPUT("\n");
}

static void play_frame(unsigned net, const Frame *frame)
{
    output_need(192);
    output_number(frame->time);
    Verdict verdict = receive(&receiver, net, frame->time, frame->octets, frame->len);
    if (UNLIKELY(verdict.kind == FILTERED)) {
        line_of_filtered(net, verdict.cause);
        return;
    }
    const Link *link = &receiver.links[verdict.link];
    History *history = &histories[verdict.link];
    if (keeps_history)
        remember(history, net, frame, verdict);
    output_raw(history->head[net], history->head_len[net]);
    output_number(link->taken - 1);
    OUTPUT(" ");
    line_of_verdict(link, verdict);
}

/* Merges the traces by time. On equal times the frames of A come first. */
static void play(void)
{
    const Trace *a = &trace_a, *b = &trace_b;
    output_need((a->len + b->len) * 40 + 4096);
    size_t i = 0, j = 0;
    while (i < a->len || j < b->len) {
        if (j >= b->len || (i < a->len && a->frames[i].time <= b->frames[j].time))
            play_frame(0, &a->frames[i++]);
        else
            play_frame(1, &b->frames[j++]);
    }
}

/* ---- files */

/* Returns false where a read failed. */
static bool read_all(int file, u8 **text, size_t *len)
{
    size_t room = 65536;
    struct stat status;
    if (fstat(file, &status) == 0 && S_ISREG(status.st_mode) && status.st_size > 0)
        room = (size_t)status.st_size + 1;
    *text = take_memory(room);
    *len = 0;
    for (;;) {
        if (*len == room) {
            if (room > SIZE_MAX / 2)
                out_of_memory();
            room *= 2;
            *text = grow_memory(*text, room);
        }
        ssize_t count = read(file, *text + *len, room - *len);
        if (count == 0)
            return true;
        if (count < 0 && errno != EINTR)
            return false;
        *len += count > 0 ? (size_t)count : 0;
    }
}

static void open_config(const char *path)
{
    u8 *text;
    size_t len;
    int file = open(path, O_RDONLY | O_CLOEXEC);
    if (file < 0 || !read_all(file, &text, &len))
        fail(ST_IO, "config not read");
    close(file);
    read_settings(&receiver, text, len);
}

static int open_trace(char net, const char *path)
{
    int file = open(path, O_RDONLY | O_CLOEXEC);
    if (file < 0)
        trace_not_read(net);
    return file;
}

/* The time of the last frame, or 0. */
static u64 last_time(const Trace *trace)
{
    return trace->len ? trace->frames[trace->len - 1].time : 0;
}

int main(int count, char **words)
{
    signal(SIGPIPE, SIG_IGN);
    Words given = {0};
    int file_a = 0, file_b = -1;
    if (count <= 1) {
        read_settings(&receiver, (const u8 *)BUILT_IN, sizeof BUILT_IN - 1);
    } else {
        given = read_words(count - 1, words + 1);
        keeps_history = !given.no_history;
        huge_pages = !given.no_huge_pages;
        open_config(given.config);
        file_a = open_trace('A', given.a);
        file_b = open_trace('B', given.b);
    }
    prepare_histories();
    prepare_traces();
    trace_a = read_trace('A', file_a);
    if (file_b >= 0)
        trace_b = read_trace('B', file_b);
    play();
    u64 last = last_time(&trace_a) > last_time(&trace_b) ? last_time(&trace_a) : last_time(&trace_b);
    report(&receiver, given.at_word ? given.at : last);
    output_write();
    return ST_OK;
}
