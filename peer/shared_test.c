/*
 * shared_test [MESSAGES [READERS]]: the receiver takes so many samples and as many messages for a queue (default 200,000),
 * once for each form of shared_ports.h, while readers (default 2) read the port and a taker takes of the queue, each on a
 * thread of its own. Each message that is read has to be whole, its number no lower than that of the one before, and the
 * last one the last that came; each that is taken, the next one that was put. It prints a line for each form, and ends by
 * itself. The exit status is 1 if something was not so.
 *
 * `build` compiles it; with -fsanitize=thread it tells of a data race too.
 */
#define _DEFAULT_SOURCE
#include "settings.h"
#include "shared_ports.h"

#include <pthread.h>
#include <sched.h>
#include <stdio.h>
#include <stdlib.h>

static const char CONFIG[] = "[[link]]\nvl = 17\nskew_max_us = 1000\nreassembly_us = 50000\n"
                             "[[link.port]]\nname = \"pos\"\nkind = \"sampling\"\naddress = \"224.224.0.17\"\n"
                             "udp = 5000\nrefresh_us = 20000\n"
                             "[[link.port]]\nname = \"nav\"\nkind = \"queuing\"\naddress = \"224.224.0.17\"\n"
                             "udp = 5002\nmax = 1471\ndepth = 5\n";
/* The headers of a frame, without lengths and sums. */
static const u8 HEADERS[42] = {3, 0, 0, 0, 0, 17, 2, 0, 0, 0, 1, 32, 8, 0, 69, 0, 0, 0, 0, 1, 0,
                               0, 1, 17, 0, 0, 10, 1, 1, 1, 224, 224, 0, 17, 19, 137, 19, 136, 0, 0, 0, 0};

static Receiver receiver;
static Port *pos, *nav;
static u64 messages = 200000;
static _Atomic bool is_over;
/* How many messages were put into the queue, once all were. */
static _Atomic u64 all_put;

static void check(bool is_so, const char *what)
{
    if (is_so)
        return;
    fprintf(stderr, "shared_test: %s\n", what);
    exit(1);
}

/* ---- messages: the length and the octets of each follow from its number, which stands at its beginning */

static u32 length_of(u64 number)
{
    static const u32 lengths[] = {17, 1471, 60, 8, 400, 64, 1000};
    return lengths[number % 7];
}

static void write_message(u8 *octets, u64 number)
{
    memset(octets, (int)(number % 251), length_of(number));
    memcpy(octets, &number, sizeof number);
}

/* Whether a message is that of the number at its beginning, which was sent at this time. Returns the number. */
static u64 check_message(const u8 *octets, const Found *found)
{
    u64 number;
    u8 whole[MOST_SAMPLE];
    memcpy(&number, octets, sizeof number);
    write_message(whole, number);
    check(found->len == length_of(number) && memcmp(octets, whole, found->len) == 0, "a torn message");
    check(found->time == number, "the time of another message");
    return number;
}

/* ---- frames */

static void write_16(u8 *octets, u32 number)
{
    octets[0] = (u8)(number >> 8);
    octets[1] = (u8)number;
}

/* The frame of the message with this number, for `pos` or `nav`. Returns its length. */
static u32 write_frame(u8 *frame, u64 number, bool is_sample, u8 sequence_number)
{
    u32 len = length_of(number), sum = 0;
    memcpy(frame, HEADERS, sizeof HEADERS);
    write_16(frame + 16, 28 + len);
    write_16(frame + 36, is_sample ? 5000 : 5002);
    write_16(frame + 38, 8 + len);
    for (int i = 14; i < 34; i += 2)
        sum += (u32)frame[i] << 8 | frame[i + 1];
    write_16(frame + 24, 0xFFFF - (sum % 0xFFFF));
    write_message(frame + 42, number);
    u32 end = 42 + len < 59 ? 59 : 42 + len;
    memset(frame + 42 + len, 0, end - 42 - len);
    frame[end] = sequence_number;
    return end + 1;
}

/* ---- partitions */

static void *read_on(void *place)
{
    unsigned reader = (unsigned)(uintptr_t)place;
    static _Thread_local u8 out[MOST_SAMPLE];
    u64 last = 0, newer = 0;
    for (bool is_last = false; !is_last;) {
        is_last = atomic_load(&is_over);
        Found found = read_sample(pos, reader, out);
        if (!found.found)
            continue;
        u64 number = check_message(out, &found);
        check(number == found.number && number >= last, "an older message, or another number");
        newer += number > last;
        last = number;
    }
    check(last == messages, "the last message wasn't read");
    return (void *)(uintptr_t)newer;
}

static void *take_on(void *unused)
{
    (void)unused;
    static u8 out[MOST_SAMPLE];
    u64 last = 0, taken = 0;
    for (bool is_last = false; !is_last;) {
        is_last = atomic_load(&is_over);
        for (Found found; (found = take_message(nav, out)).found; taken++) {
            u64 number = check_message(out, &found);
            check(number > last, "a message that was taken before");
            last = number;
        }
    }
    check(taken == atomic_load(&all_put), "not as many taken as put");
    return NULL;
}

/* Takes the frames. Returns how many messages the queue took. */
static u64 receive_all(void)
{
    u8 frame[1600], sequence_number = 0;
    u64 queued = 0;
    for (u64 number = 1; number <= messages; number++)
        for (int is_sample = 0; is_sample < 2; is_sample++) {
            u32 len = write_frame(frame, number, is_sample, sequence_number);
            u8 kind = receive(&receiver, 0, number, frame, len).kind;
            check(kind == (is_sample ? SAMPLED : QUEUED) || (!is_sample && kind == OVERFLOWED), "another verdict");
            queued += kind == QUEUED;
            if (kind == OVERFLOWED)
                sched_yield(); /* so that the taker has its turn */
            sequence_number = sequence_number == 255 ? 1 : sequence_number + 1;
        }
    return queued;
}

static void try_form(const char *word, Form form, unsigned readers)
{
    pthread_t threads[MOST_READERS + 1];
    u64 newer = 0;
    memset(&receiver, 0, sizeof receiver);
    read_settings(&receiver, (const u8 *)CONFIG, sizeof CONFIG - 1);
    share_ports(&receiver, form, readers);
    pos = &receiver.links[0].ports[0];
    nav = &receiver.links[0].ports[1];
    atomic_store(&is_over, false);
    check(pthread_create(&threads[0], NULL, take_on, NULL) == 0, "no thread");
    for (unsigned i = 0; i < readers; i++)
        check(pthread_create(&threads[i + 1], NULL, read_on, (void *)(uintptr_t)i) == 0, "no thread");
    u64 queued = receive_all();
    atomic_store(&all_put, queued);
    atomic_store(&is_over, true);
    pthread_join(threads[0], NULL);
    for (unsigned i = 0; i < readers; i++) {
        void *many;
        pthread_join(threads[i + 1], &many);
        newer += (u64)(uintptr_t)many;
    }
    printf("%-8s %llu samples, %llu newer ones read by %u readers, %llu messages put and taken\n", word,
           (unsigned long long)messages, (unsigned long long)newer, readers, (unsigned long long)queued);
}

int main(int count, char **words)
{
    unsigned readers = 2;
    if (count > 1)
        messages = strtoull(words[1], NULL, 10);
    if (count > 2)
        readers = (unsigned)strtoul(words[2], NULL, 10);
    check(count <= 3 && messages > 0 && readers > 0 && readers <= MOST_READERS, "shared_test [MESSAGES [READERS]]");
    try_form("seqlock", SEQLOCK, readers);
    try_form("triple", TRIPLE, readers);
    return 0;
}
