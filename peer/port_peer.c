/*
 * port_peer: sampling ports in C with one writer and up to eight readers, to time the port of this tree beside.
 *
 *   seqlock   a counter round one message, which is kept in relaxed atomic words
 *   mutex     a message under a mutex
 *   slots     the protocol of docs/SAMPLING.md, with its table of words, each step one sequentially consistent load or
 *             store
 *
 *   port_peer [MILLISECONDS [REPEATS [READERS]]]     (default 300 3 2)
 *
 * Prints nanoseconds a call for messages of 0, 17, 64 and 1471 octets. The lines with 0 readers come from one thread
 * alone; the others from a writer and so many readers beside it, which run for the time given without a pause. Each
 * repeat is measured by itself, and the least is printed. Each message that is read is checked: its number is its time,
 * and its first, middle and last octet are what follows from it.
 *
 * C11 with POSIX threads: cc -std=c11 -O2 -pthread -o port_peer port_peer.c
 */
#define _DEFAULT_SOURCE
#include <pthread.h>
#include <stdatomic.h>
#include <stdbool.h>
#include <stdint.h>
#include <stdio.h>
#include <stdlib.h>
#include <string.h>
#include <time.h>

typedef uint8_t u8;
typedef uint64_t u64;
typedef _Atomic uint64_t word;

enum {
    MOST = 1471,
    READERS = 8,
    SLOTS = READERS + 2,
    MESSAGE_WORDS = (MOST + 7) / 8,
    SLOT_WORDS = 2 + MESSAGE_WORDS,
    FIRST_SLOT = 1 + READERS,
    TABLE = FIRST_SLOT + SLOTS * SLOT_WORDS,
    TRIES = 8
};
enum { EMPTY, BUSY, MESSAGE };

typedef struct {
    int kind;
    u64 number, time, len;
    u64 tries; /* looks that failed */
} Read;

static inline u64 be_load(const u8 *octets)
{
    u64 value;
    memcpy(&value, octets, 8);
    return __builtin_bswap64(value);
}

static inline void be_store(u8 *octets, u64 value)
{
    value = __builtin_bswap64(value);
    memcpy(octets, &value, 8);
}

/* The word of fewer than eight octets, with zeros after them. */
static inline u64 be_tail(const u8 *octets, size_t len)
{
    u8 all[8] = {0};
    memcpy(all, octets, len);
    return be_load(all);
}

/* ---- seqlock */

static struct {
    _Alignas(64) word sequence;
    word len, time, number;
    word octets[MESSAGE_WORDS];
} locked;

#define SET(place, value) atomic_store_explicit(&locked.place, (value), memory_order_relaxed)
#define GET(place) atomic_load_explicit(&locked.place, memory_order_relaxed)

static u64 seqlock_publish(u64 time, const u8 *octets, size_t len)
{
    u64 sequence = GET(sequence), number = sequence / 2 + 1;
    SET(sequence, sequence + 1);
    atomic_thread_fence(memory_order_release);
    SET(len, len);
    SET(time, time);
    SET(number, number);
    size_t i = 0, whole = len / 8;
    for (; i < whole; i++) {
        u64 value;
        memcpy(&value, octets + 8 * i, 8);
        SET(octets[i], value);
    }
    if (len % 8) {
        u64 value = 0;
        memcpy(&value, octets + 8 * i, len % 8);
        SET(octets[i], value);
    }
    atomic_store_explicit(&locked.sequence, sequence + 2, memory_order_release);
    return number;
}

/* Copies the message that stands there, if its length is one. */
static bool seqlock_copy(Read *read, u8 *out)
{
    read->len = GET(len);
    read->time = GET(time);
    read->number = GET(number);
    if (read->len > MOST)
        return false;
    size_t i = 0, whole = read->len / 8;
    for (; i < whole; i++) {
        u64 value = GET(octets[i]);
        memcpy(out + 8 * i, &value, 8);
    }
    if (read->len % 8) {
        u64 value = GET(octets[i]);
        memcpy(out + 8 * i, &value, read->len % 8);
    }
    return true;
}

static Read seqlock_read(int place, u8 *out)
{
    (void)place;
    Read read = {.kind = MESSAGE};
    for (;; read.tries++) {
        u64 sequence = atomic_load_explicit(&locked.sequence, memory_order_acquire);
        if (sequence == 0)
            return (Read){.kind = EMPTY, .tries = read.tries};
        if (sequence & 1 || !seqlock_copy(&read, out))
            continue;
        atomic_thread_fence(memory_order_acquire);
        if (GET(sequence) == sequence)
            return read;
    }
}

/* ---- mutex */

static struct {
    _Alignas(64) pthread_mutex_t lock;
    u64 number, time, len;
    u8 octets[MOST + 1];
} guarded = {.lock = PTHREAD_MUTEX_INITIALIZER};

static u64 mutex_publish(u64 time, const u8 *octets, size_t len)
{
    pthread_mutex_lock(&guarded.lock);
    u64 number = ++guarded.number;
    guarded.time = time;
    guarded.len = len;
    memcpy(guarded.octets, octets, len);
    pthread_mutex_unlock(&guarded.lock);
    return number;
}

static Read mutex_read(int place, u8 *out)
{
    (void)place;
    Read read = {.kind = EMPTY};
    pthread_mutex_lock(&guarded.lock);
    if (guarded.number) {
        read = (Read){.kind = MESSAGE, .number = guarded.number, .time = guarded.time, .len = guarded.len};
        memcpy(out, guarded.octets, guarded.len);
    }
    pthread_mutex_unlock(&guarded.lock);
    return read;
}

/* ---- slots */

static _Alignas(64) word table[TABLE];
static u64 latest; /* what the writer stored last in the word `latest` */

#define LOAD(i) atomic_load_explicit(&table[i], memory_order_seq_cst)
#define STORE(i, value) atomic_store_explicit(&table[i], (value), memory_order_seq_cst)

static size_t words_of_slot(u64 value)
{
    return FIRST_SLOT + (size_t)SLOT_WORDS * (value & 15);
}

/* A slot that no reader has announced, and that isn't the latest. */
static unsigned free_slot(void)
{
    unsigned used = 0;
    for (int reader = 0; reader < READERS; reader++) {
        u64 announced = LOAD(1 + reader);
        if (announced)
            used |= 1u << (announced & 15);
    }
    if (latest)
        used |= 1u << (latest & 15);
    return (unsigned)__builtin_ctz(~used);
}

static u64 slots_publish(u64 time, const u8 *octets, size_t len)
{
    unsigned slot = free_slot();
    size_t at = words_of_slot(slot), i = 0, whole = len / 8;
    STORE(at, len);
    STORE(at + 1, time);
    for (; i < whole; i++)
        STORE(at + 2 + i, be_load(octets + 8 * i));
    if (len % 8)
        STORE(at + 2 + i, be_tail(octets + 8 * i, len % 8));
    u64 number = latest / 16 + 1;
    latest = number * 16 + slot;
    STORE(0, latest);
    return number;
}

/* Copies the message of the slot that is announced. */
static void slots_copy(u64 value, Read *read, u8 *out)
{
    size_t at = words_of_slot(value), i = 0;
    read->kind = MESSAGE;
    read->number = value / 16;
    read->len = LOAD(at);
    read->time = LOAD(at + 1);
    size_t whole = read->len / 8;
    for (; i < whole; i++)
        be_store(out + 8 * i, LOAD(at + 2 + i));
    if (read->len % 8) {
        u8 last[8];
        be_store(last, LOAD(at + 2 + i));
        memcpy(out + 8 * i, last, read->len % 8);
    }
}

static Read slots_read(int place, u8 *out)
{
    Read read = {.kind = EMPTY};
    u64 value = LOAD(0);
    if (!value)
        return read;
    for (int i = 0; i < TRIES; i++) {
        STORE(1 + place, value);
        u64 second = LOAD(0);
        if (second == value) {
            slots_copy(value, &read, out);
            STORE(1 + place, 0);
            return read;
        }
        value = second;
        read.tries++;
    }
    STORE(1 + place, 0);
    read.kind = BUSY;
    read.number = value / 16;
    return read;
}

/* ---- what is timed */

typedef struct {
    const char *name;
    u64 (*publish)(u64, const u8 *, size_t);
    Read (*read)(int, u8 *);
} Port;

static const Port ports[] = {{"seqlock", seqlock_publish, seqlock_read},
                             {"mutex", mutex_publish, mutex_read},
                             {"slots", slots_publish, slots_read}};
static const size_t sizes[] = {0, 17, 64, MOST};

/* The messages: all octets of one are the same, and follow from its number. */
static u8 fills[251][MOST + 1];
/* How long calls are timed, in nanoseconds, and how many readers there are beside the writer. */
static u64 span = 300000000;
static int beside = 2;
static _Atomic int stop, ready;

static void begin_anew(void)
{
    locked.sequence = 0;
    guarded.number = 0;
    for (int i = 0; i < TABLE; i++)
        table[i] = 0;
    latest = 0;
    atomic_store(&stop, 0);
    atomic_store(&ready, 0);
}

static u64 now(void)
{
    struct timespec time;
    clock_gettime(CLOCK_MONOTONIC, &time);
    return (u64)time.tv_sec * 1000000000u + (u64)time.tv_nsec;
}

static void check(const Read *read, const u8 *out, size_t len)
{
    u8 octet = (u8)(read->number % 251);
    bool is_right = read->number == read->time && read->len == len;
    if (len)
        is_right = is_right && out[0] == octet && out[len / 2] == octet && out[len - 1] == octet;
    if (!is_right) {
        fprintf(stderr, "port_peer: torn or wrong message\n");
        exit(1);
    }
}

/* Waits until the writer and all readers are there. */
static void meet(void)
{
    atomic_fetch_add(&ready, 1);
    while (atomic_load(&ready) < 1 + beside)
        ;
}

typedef struct {
    const Port *port;
    int place;
    size_t len;
    u64 calls, time, tries, busy, fell;
} Reader;

static void look(Reader *reader, u8 *out, u64 *last)
{
    Read read = reader->port->read(reader->place, out);
    reader->calls++;
    reader->tries += read.tries;
    if (read.kind == MESSAGE)
        check(&read, out, reader->len);
    reader->busy += read.kind == BUSY;
    reader->fell += read.number < *last;
    *last = read.number;
}

static void *run_reader(void *given)
{
    Reader *reader = given;
    static _Thread_local u8 out[MOST + 9];
    u64 last = 0;
    meet();
    u64 begin = now();
    while (!atomic_load_explicit(&stop, memory_order_relaxed))
        for (int i = 0; i < 16; i++)
            look(reader, out, &last);
    reader->time = now() - begin;
    return NULL;
}

typedef struct {
    double publish, read, tries, busy;
} Figures;

/* Nanoseconds of a publication, for this long. */
static double publish_for(const Port *port, size_t len, u64 time)
{
    u64 number = 0, begin = now(), elapsed;
    do {
        for (int i = 0; i < 64; i++) {
            number++;
            port->publish(number, fills[number % 251], len);
        }
        elapsed = now() - begin;
    } while (elapsed < time);
    return (double)elapsed / (double)number;
}

/* Nanoseconds of a read that finds a message, for this long. */
static double read_for(const Port *port, size_t len, u64 time)
{
    static u8 out[MOST + 9];
    u64 calls = 0, begin = now(), elapsed;
    do {
        for (int i = 0; i < 64; i++) {
            Read read = port->read(0, out);
            if (read.kind != MESSAGE)
                exit(1);
            check(&read, out, len);
        }
        calls += 64;
        elapsed = now() - begin;
    } while (elapsed < time);
    return (double)elapsed / (double)calls;
}

static Figures time_alone(const Port *port, size_t len)
{
    begin_anew();
    double publish = publish_for(port, len, span / 2);
    return (Figures){.publish = publish, .read = read_for(port, len, span / 2)};
}

static void add(Reader *all, const Reader *reader)
{
    if (reader->fell) {
        fprintf(stderr, "port_peer: a reader's numbers fell\n");
        exit(1);
    }
    all->calls += reader->calls;
    all->time += reader->time;
    all->tries += reader->tries;
    all->busy += reader->busy;
}

static Figures time_beside(const Port *port, size_t len)
{
    Reader readers[READERS], all = {0};
    pthread_t threads[READERS];
    begin_anew();
    for (int i = 0; i < beside; i++) {
        readers[i] = (Reader){.port = port, .place = i, .len = len};
        if (pthread_create(&threads[i], NULL, run_reader, &readers[i]))
            exit(1);
    }
    meet();
    double publish = publish_for(port, len, span);
    atomic_store(&stop, 1);
    for (int i = 0; i < beside; i++) {
        pthread_join(threads[i], NULL);
        add(&all, &readers[i]);
    }
    double calls = (double)all.calls;
    return (Figures){publish, (double)all.time / calls, (double)all.tries / calls, (double)all.busy / calls};
}

static void keep_least(Figures *least, Figures figures)
{
    if (least->publish == 0 || figures.publish < least->publish)
        least->publish = figures.publish;
    if (least->read == 0 || figures.read < least->read) {
        least->read = figures.read;
        least->tries = figures.tries;
        least->busy = figures.busy;
    }
}

static void time_port(const Port *port, size_t len, int repeats)
{
    Figures alone = {0}, others = {0};
    for (int i = 0; i < repeats; i++) {
        keep_least(&alone, time_alone(port, len));
        keep_least(&others, time_beside(port, len));
    }
    printf("%-8s %6zu %8d %12.1f %12.1f %14s %10s\n", port->name, len, 0, alone.publish, alone.read, "-", "-");
    printf("%-8s %6zu %8d %12.1f %12.1f %14.3f %10.5f\n", port->name, len, beside, others.publish, others.read,
           others.tries, others.busy);
}

int main(int count, char **words)
{
    int repeats = 3;
    if (count > 1)
        span = strtoull(words[1], NULL, 10) * 1000000u;
    if (count > 2)
        repeats = atoi(words[2]);
    if (count > 3)
        beside = atoi(words[3]);
    if (count > 4 || span == 0 || repeats < 1 || beside < 1 || beside > READERS) {
        fprintf(stderr, "usage: port_peer [MILLISECONDS [REPEATS [READERS]]], with 1 to %d readers\n", READERS);
        return 2;
    }
    for (int i = 0; i < 251; i++)
        memset(fills[i], i, sizeof fills[i]);
    printf("%-8s %6s %8s %12s %12s %14s %10s\n", "port", "octets", "readers", "publish ns", "read ns", "lost looks",
           "busy");
    for (size_t i = 0; i < sizeof ports / sizeof *ports; i++)
        for (size_t j = 0; j < sizeof sizes / sizeof *sizes; j++)
            time_port(&ports[i], sizes[j], repeats);
    return 0;
}
