/* schedules SECONDS [SEED]: systems under threads, round after round. Two threads, one a network, give both networks' copies of one
   schedule of frames to 2 or 32 links: samples, messages for queues, datagrams in four fragments out of order, bad headers and
   datagrams, frames that are filtered; each network loses, repeats and swaps some, and may be 16 to 100,000 frames ahead of the other.
   Half of all frames are for the first two links. Of the first link eight threads read, hold and copy the newest message, and one
   takes the messages of its queue; all other queues fill.

   On the spot: a message's octets follow from its first one, so one that is torn shows; a reader's numbers never fall, and none is less
   than one that a network was told of before the look. After a round, link by link: the replies of both networks stand at places 0, 1,
   2 .., each once; a receiver for one task that is given the frames in this order replies the same, if its queue is emptied where the
   reply says that there was room; what was read and taken is what was delivered; and the counts are those of the replies. Nothing is
   asked of memory after the opening, and all is given back. The exit status is 1 if anything differed. */
#define _POSIX_C_SOURCE 200809L
#include "memory.h"
#include <inttypes.h>
#include <pthread.h>
#include <sched.h>
#include <stdio.h>
#include <string.h>
#include <time.h>

/* How many a round has of each network. */
#ifndef FRAMES
#define FRAMES 100000
#endif
enum { MOST_LINKS = 32, READERS = 8, DEPTH = 8, HEADERS = 14 + 20, MOST = 1514, GROUP = 4, PART = 1472, FILTERED = UINT16_MAX };

/* A message as the schedule says it: the first octet says the others. */
struct message { uint64_t number, time; size_t len; uint8_t first; };
/* A frame as one network brought it, and what was replied. */
struct call { uint64_t time; uint32_t k; uint16_t link; uint8_t net; struct yelunnavi_verdict reply; };
struct seen { struct message *list; size_t len; uint64_t looks, holds; };

static uint64_t seed, rounds, busy, looks, holds, taken_in_all;
static size_t links, lead;
static struct { uint16_t link; uint32_t k; } schedule[FRAMES];
static struct call *calls[2];
static size_t calls_len[2];
static atomic_size_t at[2], differences;
static atomic_bool is_over;
static atomic_uint_fast64_t told;
static struct yelunnavi_system both;
static struct yelunnavi_pass passes[2];
static struct yelunnavi_reader readers[READERS];
static struct yelunnavi_queue queue;
static struct seen seen[READERS + 1];
static uint64_t rooms[3 + READERS + 4][128];

static void differ(const char *what, uint64_t place) {
    if (atomic_fetch_add(&differences, 1) < 10) fprintf(stderr, "round %" PRIu64 ": %s, %" PRIu64 "\n", rounds, what, place);
}

static void must(bool is_so, const char *what) {
    if (!is_so) fprintf(stderr, "%s\n", what), exit(2);
}

/* ---- frames */

/* A number by chance that follows from these (splitmix64, own use of its constants). */
static uint64_t chance(uint64_t one, uint64_t two, uint64_t three) {
    uint64_t z = seed + one * 0x9e3779b97f4a7c15u + two * 0xbf58476d1ce4e5b9u + three * 0x94d049bb133111ebu;
    z = (z ^ (z >> 30)) * 0xbf58476d1ce4e5b9u;
    z = (z ^ (z >> 27)) * 0x94d049bb133111ebu;
    return z ^ (z >> 31);
}

static void put16(uint8_t *octets, size_t number) {
    octets[0] = (uint8_t)(number >> 8), octets[1] = (uint8_t)number;
}

/* The datagram of frame k of a link: of one frame, or of the four of its group. Its payload, and the UDP port. */
static bool is_in_parts(size_t link, uint32_t k) { return chance(1, link, k / GROUP) % 8 >= 6; }
static bool is_sample(size_t link, uint32_t k) { return chance(1, link, k / GROUP) % 8 < 3; }
static uint32_t datagram_of(size_t link, uint32_t k) { return is_in_parts(link, k) ? k / GROUP : k; }
static uint8_t first_of(size_t link, uint32_t k) { return (uint8_t)chance(2, link, datagram_of(link, k)); }

static size_t payload_of(size_t link, uint32_t k) {
    size_t by_chance = (size_t)chance(3, link, datagram_of(link, k));
    return is_in_parts(link, k) ? (GROUP - 1) * PART + by_chance % (PART - 8) : by_chance % 1472;
}

/* An octet of the datagram: of the UDP header, or of the payload. */
static uint8_t octet_of(size_t link, uint32_t k, size_t i, const uint8_t *udp) {
    return i < 8 ? udp[i] : (uint8_t)(first_of(link, k) + 7 * (i - 8));
}

/* Frame k of a link as a network brings it; its length. Of each 64 frames in a row that are alone four are bad. */
static size_t make_frame(uint8_t *frame, size_t link, uint32_t k, size_t net) {
    static const uint8_t ADDRESSES[8] = {10, 1, 1, 1, 224, 224, 0, 0};
    size_t datagram = payload_of(link, k) + 8, bad = is_in_parts(link, k) || chance(4, link, k) % 16 ? 0 : 1 + chance(5, link, k) % 3;
    size_t part = is_in_parts(link, k) ? (3 * (size_t)k + chance(6, link, k / GROUP)) % GROUP : 0, from = part * PART;
    size_t len = datagram - from < PART || !is_in_parts(link, k) ? datagram - from : PART, sum = 0;
    uint8_t udp[8] = {0};
    memset(frame, 0, 60);
    frame[0] = 3, put16(frame + 4, link), frame[6] = 2, frame[11] = (uint8_t)(net ? 0x40 : 0x20), frame[12] = 8;
    frame[14] = 0x45, put16(frame + 16, 20 + len), put16(frame + 18, datagram_of(link, k)), frame[22] = 1, frame[23] = 17;
    put16(frame + 20, (from + len < datagram ? 0x2000 : 0) + from / 8);
    memcpy(frame + 26, ADDRESSES, 8), frame[33] = (uint8_t)link;
    for (int i = 14; i < HEADERS; i += 2) sum += (size_t)frame[i] * 256 + frame[i + 1];
    while (sum > 0xffff) sum = sum % 65536 + sum / 65536;
    put16(frame + 24, (~sum & 0xffff) ^ (bad == 1 ? 4 : 0));
    put16(udp, 5001), put16(udp + 2, bad == 2 ? 5005 : is_sample(link, k) ? 5000 : 5002), put16(udp + 4, bad == 3 ? datagram + 1 : datagram);
    for (size_t i = 0; i < len; i++) frame[HEADERS + i] = octet_of(link, k, from + i, udp);
    len = HEADERS + len + 1 < 60 ? 60 : HEADERS + len + 1;
    frame[len - 1] = (uint8_t)(k ? (k - 1) % 255 + 1 : 0);
    return len;
}

static size_t configuration(char *text, size_t room) {
    size_t len = 0;
    for (size_t link = 0; link < links; link++)
        len += (size_t)snprintf(text + len, room - len, "[[link]]\nvl = %zu\nskew_max_us = 1000\nreassembly_us = 50000\n"
            "[[link.port]]\nname = \"s%zu\"\nkind = \"sampling\"\naddress = \"224.224.0.%zu\"\nudp = 5000\nrefresh_us = 20000\n"
            "[[link.port]]\nname = \"q%zu\"\nkind = \"queuing\"\naddress = \"224.224.0.%zu\"\nudp = 5002\ndepth = %d\n",
            link, link, link, link, link, DEPTH);
    return len;
}

/* ---- the threads */

/* Gives a frame again as long as the other thread has its link, and keeps what was replied. */
static uint64_t give(size_t net, uint64_t now, size_t link, uint32_t k) {
    struct call *call = &calls[net][calls_len[net]++];
    uint8_t frame[MOST];
    size_t len = link == FILTERED ? k % 60 : make_frame(frame, link, k, net);
    uint64_t again = 0;
    uint32_t code;
    if (link == FILTERED) memset(frame, 0, sizeof frame);
    *call = (struct call){.time = now, .k = k, .link = (uint16_t)link, .net = (uint8_t)net};
    while ((code = yelunnavi_pass_receive(&passes[net], now, frame, len, &call->reply)) == YELUNNAVI_BUSY) again++, sched_yield();
    must(code == YELUNNAVI_DONE, "a frame is refused");
    if (link == 0 && call->reply.kind == YELUNNAVI_VERDICT_SAMPLED) {
        uint64_t newest = atomic_load(&told);
        while (newest < call->reply.number && !atomic_compare_exchange_weak(&told, &newest, call->reply.number)) {}
    }
    return again;
}

static void *drive(void *of_network) {
    size_t net = (size_t)of_network, n = 0;
    uint64_t again = 0;
    for (; n < FRAMES; n++) {
        uint64_t by_chance = chance(7 + net, rounds, n), now = 20 * n + 200 * net + by_chance / 64 % 300;
        while (atomic_load(&at[!net]) + lead < n) sched_yield();
        switch (by_chance % 64) {
        case 0: case 1: case 2: break;
        case 3: again += give(net, now, FILTERED, (uint32_t)n);
            break;
        case 4: case 5: again += give(net, now, schedule[n].link, schedule[n].k) + give(net, now + 5, schedule[n].link, schedule[n].k);
            break;
        case 6: case 7:
            if (n + 1 < FRAMES) again += give(net, now, schedule[n + 1].link, schedule[n + 1].k);
            again += give(net, now + 5, schedule[n].link, schedule[n].k), n++;
            break;
        default: again += give(net, now, schedule[n].link, schedule[n].k);
        }
        atomic_store(&at[net], n + 1);
    }
    atomic_store(&at[net], FRAMES);
    return (void *)(uintptr_t)again;
}

static void keep(struct seen *one, struct message found, const uint8_t *octets, size_t len) {
    for (size_t i = 0; i < len; i++)
        if (octets[i] != (uint8_t)(octets[0] + 7 * i)) { differ("a torn message", found.number); break; }
    found.first = len ? octets[0] : 0;
    one->list[one->len++] = found;
}

static void rest(void) { nanosleep(&(struct timespec){0, 20000}, NULL); }

/* Reads the newest message, or holds it for a while, 32 times between two rests. */
static void *read_all(void *of_reader) {
    struct yelunnavi_reader *reader = of_reader;
    struct seen *one = &seen[reader - readers];
    uint8_t out[YELUNNAVI_LONGEST_SAMPLE];
    uint64_t last = 0;
    for (bool is_last = false; !is_last; one->looks++) {
        struct yelunnavi_read read;
        struct yelunnavi_octets held = {out, 0};
        bool is_held = one->looks % 3 == 2;
        if (one->looks % 32 == 0) rest();
        is_last = atomic_load(&is_over);
        uint64_t least = atomic_load(&told);
        uint32_t code = is_held ? yelunnavi_reader_hold(reader, 0, &read) : yelunnavi_reader_read(reader, 0, out, sizeof out, &read);
        must(code == YELUNNAVI_DONE, "a read is refused");
        if (read.found ? read.number < last || read.number < least : last || least) differ("an older message", read.number);
        if (!read.found) continue;
        if (is_held && one->looks % 2) must(yelunnavi_reader_octets(reader, &held) == YELUNNAVI_DONE, "no octets");
        else if (is_held) must(yelunnavi_reader_copy(reader, 0, out, read.len) == YELUNNAVI_DONE, "no copy");
        if (read.number != last) keep(one, (struct message){read.number, read.time, read.len, 0}, held.at, read.len);
        last = read.number, one->holds += is_held;
        if (is_held) must(yelunnavi_reader_release(reader) == YELUNNAVI_DONE, "no release");
    }
    return NULL;
}

static void *take_all(void *unused) {
    static uint8_t out[YELUNNAVI_LONGEST_QUEUED];
    struct yelunnavi_taken taken = {0};
    for (bool is_last = false; !is_last;) {
        is_last = atomic_load(&is_over);
        do {
            must(yelunnavi_queue_take(&queue, out, sizeof out, &taken) == YELUNNAVI_DONE, "a take is refused");
            if (taken.found) keep(&seen[READERS], (struct message){0, taken.time, taken.len, 0}, out, taken.len);
        } while (taken.found);
        rest();
    }
    return unused;
}

/* ---- what is compared */

static bool is_message(const struct message *found, const struct call *call) {
    size_t len = payload_of(call->link, call->k);
    return found->time == call->time && found->len == len && (!len || found->first == first_of(call->link, call->k));
}

/* Gives a link's frames in the order of their places to a receiver for one task, whose queue is emptied by one where there was room. */
static void replay(struct yelunnavi_receiver *one, size_t link, struct call **by_place, size_t len) {
    static uint8_t frame[MOST], out[YELUNNAVI_LONGEST_QUEUED];
    struct yelunnavi_queue of_one;
    struct yelunnavi_taken taken;
    char name[16];
    size_t waiting = 0, queued = 0, next[READERS] = {0};
    must(yelunnavi_queue_init(&of_one, rooms[READERS + 5], sizeof rooms[0]) == YELUNNAVI_DONE, "no room");
    int name_len = snprintf(name, sizeof name, "q%zu", link);
    must(yelunnavi_receiver_hand_queue(one, &of_one, (uint8_t *)name, (size_t)name_len) == YELUNNAVI_DONE, "no queue");
    for (size_t place = 0; place < len; place++) {
        const struct call *call = by_place[place];
        struct yelunnavi_verdict reply;
        if (!call) { differ("no frame at a place", place); continue; }
        if (call->reply.kind == YELUNNAVI_VERDICT_QUEUED && waiting == DEPTH) {
            must(yelunnavi_queue_take(&of_one, out, sizeof out, &taken) == YELUNNAVI_DONE && taken.found, "nothing to take");
            waiting--;
        }
        size_t octets = make_frame(frame, link, call->k, call->net);
        must(yelunnavi_receiver_receive(one, call->net, call->time, frame, octets, &reply) == YELUNNAVI_DONE, "a frame is refused");
        if (reply.kind != call->reply.kind || reply.cause != call->reply.cause || reply.port != call->reply.port || reply.place != place
            || reply.number != call->reply.number || reply.link != call->reply.link || reply.vl != call->reply.vl)
            differ("another reply", place);
        waiting += reply.kind == YELUNNAVI_VERDICT_QUEUED;
        if (link == 0 && reply.kind == YELUNNAVI_VERDICT_QUEUED) {
            if (queued >= seen[READERS].len || !is_message(&seen[READERS].list[queued], call)) differ("another message was taken", place);
            queued++;
        }
        for (int r = 0; link == 0 && reply.kind == YELUNNAVI_VERDICT_SAMPLED && r < READERS; r++) {
            if (next[r] < seen[r].len && seen[r].list[next[r]].number == reply.number && !is_message(&seen[r].list[next[r]++], call))
                differ("another message was read", place);
        }
    }
    if (link == 0 && queued != seen[READERS].len) differ("more messages were taken", queued);
    for (int r = 0; link == 0 && r < READERS; r++)
        if (next[r] != seen[r].len || (seen[r].len ? seen[r].list[seen[r].len - 1].number : 0) != atomic_load(&told)) differ("not all was read", (uint64_t)r);
    yelunnavi_queue_close(&of_one);
}

static void compare_counts(size_t net) {
    static uint64_t counts[MOST_LINKS][14];
    uint64_t count, filtered = 0;
    memset(counts, 0, sizeof counts);
    for (size_t i = 0; i < calls_len[net]; i++)
        if (calls[net][i].reply.kind) counts[calls[net][i].reply.link][calls[net][i].reply.kind]++;
        else filtered += calls[net][i].reply.cause == YELUNNAVI_FILTER_TOO_SHORT;
    for (size_t link = 0; link < links; link++)
        for (uint32_t kind = 1; kind <= YELUNNAVI_VERDICT_EXHAUSTED; kind++)
            if (yelunnavi_pass_count(&passes[net], link, kind, &count) != YELUNNAVI_DONE || count != counts[link][kind]) differ("another count", kind);
    if (yelunnavi_pass_filtered(&passes[net], YELUNNAVI_FILTER_TOO_SHORT, &count) != YELUNNAVI_DONE || count != filtered) differ("another count", 0);
}

static void compare(const uint8_t *text, size_t len) {
    static struct call *by_place[4 * FRAMES];
    struct yelunnavi_receiver one;
    struct yelunnavi_fault fault;
    must(yelunnavi_receiver_init(&one, rooms[READERS + 4], sizeof rooms[0]) == YELUNNAVI_DONE
        && yelunnavi_receiver_open(&one, text, len, 1, &fault) == YELUNNAVI_DONE, "no receiver");
    for (size_t link = 0; link < links; link++) {
        size_t came = 0;
        memset(by_place, 0, sizeof by_place);
        for (size_t net = 0; net < 2; net++)
            for (size_t i = 0; i < calls_len[net]; i++) came += calls[net][i].link == link;
        for (size_t net = 0; net < 2; net++)
            for (size_t i = 0; i < calls_len[net]; i++) {
                struct call *call = &calls[net][i];
                if (call->link != link) continue;
                if (call->reply.place >= came || by_place[call->reply.place]) differ("a place that another frame has", call->reply.place);
                else by_place[call->reply.place] = call;
            }
        replay(&one, link, by_place, came);
    }
    for (size_t net = 0; net < 2; net++) compare_counts(net);
    yelunnavi_receiver_close(&one);
}

/* ---- a round */

static void make_schedule(void) {
    uint32_t next[MOST_LINKS] = {0};
    links = rounds % 2 ? 32 : 2;
    lead = (size_t[]){16, 1000, 100000}[chance(9, rounds, 0) % 3];
    for (size_t n = 0; n < FRAMES; n++) {
        uint64_t by_chance = chance(10, rounds, n);
        schedule[n].link = (uint16_t)(by_chance % 2 ? by_chance / 2 % 2 : by_chance / 2 % links);
        schedule[n].k = next[schedule[n].link]++;
    }
}

static void play_round(void) {
    static char text[MOST_LINKS * 400];
    pthread_t threads[2], partitions[READERS + 1];
    struct yelunnavi_fault fault;
    void *again;
    make_schedule();
    size_t len = configuration(text, sizeof text);
    must(yelunnavi_system_open(&both, (uint8_t *)text, len, READERS, &fault) == YELUNNAVI_DONE, "no system");
    for (uint32_t net = 0; net < 2; net++) must(yelunnavi_system_hand_pass(&both, net, &passes[net]) == YELUNNAVI_DONE, "no pass");
    for (int r = 0; r < READERS; r++) must(yelunnavi_system_hand_reader(&both, &readers[r], (uint8_t *)"s0", 2) == YELUNNAVI_DONE, "no reader");
    must(yelunnavi_system_hand_queue(&both, &queue, (uint8_t *)"q0", 2) == YELUNNAVI_DONE, "no queue");
    atomic_store(&is_over, false), atomic_store(&told, 0);
    unsigned long before = atomic_load(&requests);
    for (int r = 0; r <= READERS; r++) seen[r].len = 0;
    for (int r = 0; r < READERS; r++) must(!pthread_create(&partitions[r], NULL, read_all, &readers[r]), "no thread");
    must(!pthread_create(&partitions[READERS], NULL, take_all, NULL), "no thread");
    for (size_t net = 0; net < 2; net++) atomic_store(&at[net], 0), calls_len[net] = 0;
    for (size_t net = 0; net < 2; net++) must(!pthread_create(&threads[net], NULL, drive, (void *)net), "no thread");
    for (size_t net = 0; net < 2; net++) pthread_join(threads[net], &again), busy += (uintptr_t)again;
    atomic_store(&is_over, true);
    for (int r = 0; r <= READERS; r++) pthread_join(partitions[r], NULL);
    if (atomic_load(&requests) != before) differ("memory was asked for", 0);
    compare((uint8_t *)text, len);
    for (int r = 0; r < READERS; r++) yelunnavi_reader_close(&readers[r]), looks += seen[r].looks, holds += seen[r].holds, seen[r].looks = seen[r].holds = 0;
    taken_in_all += seen[READERS].len;
    yelunnavi_queue_close(&queue), yelunnavi_system_close(&both);
    for (int net = 0; net < 2; net++) yelunnavi_pass_close(&passes[net]);
    if (atomic_load(&blocks)) differ("memory isn't given back", atomic_load(&blocks));
}

int main(int argc, char **argv) {
    uint64_t frames = 0;
    time_t end = time(NULL) + (argc > 1 ? atol(argv[1]) : 10);
    seed = argc > 2 ? strtoull(argv[2], NULL, 10) : 1;
    for (size_t net = 0; net < 2; net++) must((calls[net] = malloc(2 * FRAMES * sizeof *calls[net])) != NULL, "no memory");
    for (int r = 0; r <= READERS; r++) must((seen[r].list = malloc(4 * FRAMES * sizeof *seen[r].list)) != NULL, "no memory");
    must(yelunnavi_abi() == YELUNNAVI_ABI && yelunnavi_system_init(&both, rooms[0], sizeof rooms[0]) == YELUNNAVI_DONE
        && yelunnavi_queue_init(&queue, rooms[3], sizeof rooms[0]) == YELUNNAVI_DONE, "no room");
    for (int net = 0; net < 2; net++) must(yelunnavi_pass_init(&passes[net], rooms[1 + net], sizeof rooms[0]) == YELUNNAVI_DONE, "no room");
    for (int r = 0; r < READERS; r++) must(yelunnavi_reader_init(&readers[r], rooms[4 + r], sizeof rooms[0]) == YELUNNAVI_DONE, "no room");
    do {
        play_round(), frames += calls_len[0] + calls_len[1], rounds++;
    } while (time(NULL) < end);
    printf("%" PRIu64 " rounds: %" PRIu64 " frames, %" PRIu64 " times BUSY, %" PRIu64 " reads, %" PRIu64 " of them held, %" PRIu64 " taken; "
        "%zu differences\n", rounds, frames, busy, looks, holds, taken_in_all, atomic_load(&differences));
    return atomic_load(&differences) != 0;
}
