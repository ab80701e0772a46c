/*
 * library_peer CONFIG A B time POOL QUEUES PASSES SIDE ..
 *     nanoseconds of a frame, the least of so many passes by turns, for each side
 * library_peer CONFIG A B count QUEUES KIND SIDE
 *     takes all frames; those of one kind of verdict, 0 for filtered ones, by a function of their own, whose instructions
 *     callgrind counts. Prints how many there were
 * library_peer CONFIG A B longest POOL BESIDE ROUNDS PASSES SIDE
 *     what longest.h says, of all frames so many times
 *
 * A SIDE is `library`, or the peer's receiver: `plain`, whose sampling ports are for its own thread alone; `seqlock` or
 * `triple`, whose ports a reader on another thread may read at any time (shared_ports.h); `equal`, which is `triple` with the
 * library's promises (promises.h). `library:8`, `triple:8` and `equal:8` have eight readers a port, else it is one. POOL is `touched` or `untouched` (pass_pool.h). QUEUES are `taken`, all of them
 * after each 1,024 frames, or `left`, so that they fill up. BESIDE is `alone`, or `beside`: then readers read and a taker
 * takes meanwhile, on threads of their own.
 *
 * The frames of both traces are in memory, in the order of their times. Each pass begins with a receiver that is new; what
 * partitions read and take isn't timed. The exit status is 1 if two sides don't come to the same verdict of a frame, or if
 * partitions don't find the same.
 */
#define _DEFAULT_SOURCE
#include "longest.h"
#include "sides.h"

#include <fcntl.h>
#include <stdio.h>
#include <stdlib.h>
#include <time.h>

/* No queue of the traces gets as many messages from so many frames as it has places. */
enum { BETWEEN_TAKES = 1024, MOST_SIDES = 16 };

static Arrived *frames;
static size_t frames_n;

static void read_traces(char **names)
{
    prepare_traces();
    Trace a = read_trace('A', open(names[0], O_RDONLY)), b = read_trace('B', open(names[1], O_RDONLY));
    frames = take_memory((a.len + b.len + 1) * sizeof *frames);
    for (size_t i = 0, j = 0; i < a.len || j < b.len;) {
        bool is_b = i == a.len || (j < b.len && b.frames[j].time < a.frames[i].time);
        frames[frames_n++] = (Arrived){.frame = is_b ? b.frames[j++] : a.frames[i++], .net = is_b};
    }
    free(a.frames);
    free(b.frames);
    if (frames_n == 0)
        stop("no frames");
}

/* ---- whether the sides agree */

/* A sum of what partitions found, and of what they found before. */
static u64 with_found(u64 sum, const Found *found, const u8 *octets)
{
    u64 words[4] = {found->found, found->number, found->found ? found->time : 0, found->found ? found->len : 0};
    for (int i = 0; i < 4; i++)
        sum = (sum ^ words[i]) * 0x100000001B3u;
    for (size_t i = 0; found->found && i < found->len; i++)
        sum = (sum ^ octets[i]) * 0x100000001B3u;
    return sum;
}

static u64 with_takes(u64 sum, const Side *side)
{
    static u8 out[MOST_MESSAGE];
    for (size_t port = 0; port < count_of_ports(); port++)
        for (Found found = {.found = !is_sampling(port)}; found.found;) {
            found = take_at(side, port, out);
            sum = with_found(sum, &found, out);
        }
    return sum;
}

/* What the reader at this place finds in all sampling ports. */
static u64 with_reads(u64 sum, const Side *side, unsigned reader)
{
    static u8 out[MOST_SAMPLE];
    for (size_t port = 0; port < count_of_ports(); port++)
        if (is_sampling(port)) {
            Found found = read_at(side, port, reader, out);
            sum = with_found(sum, &found, out);
        }
    return sum;
}

/* Takes all frames. Their kinds are noted, or have to be those that were. Returns the sum of what partitions found. */
static u64 run_through(const Side *side, bool taken, bool is_first)
{
    u64 sum = 0;
    open_side(side, true);
    for (size_t i = 0; i < frames_n; i++) {
        u8 kind = by_side(side, &frames[i], 0);
        if (!is_first && kind != frames[i].kind)
            stop("two verdicts of a frame");
        frames[i].kind = kind;
        if (taken && i % BETWEEN_TAKES == BETWEEN_TAKES - 1)
            sum = with_takes(sum, side);
    }
    sum = with_takes(sum, side);
    u64 read = with_reads(sum, side, 0);
    for (unsigned reader = 1; reader < side->readers; reader++)
        if (with_reads(sum, side, reader) != read)
            stop("two readers of a port don't find the same");
    return read;
}

/* Notes the kinds of the frames' verdicts, on which the plain receiver and all sides have to agree. */
static void note_kinds(const Side *sides, size_t count, bool taken)
{
    const Side plain = {.word = "plain", .form = PLAIN, .readers = 1};
    u64 sum = run_through(&plain, taken, true);
    for (size_t i = 0; i < count; i++)
        if (run_through(&sides[i], taken, false) != sum)
            stop("partitions don't find the same");
}

/* ---- time */

static double nanoseconds(void)
{
    struct timespec now;
    clock_gettime(CLOCK_PROCESS_CPUTIME_ID, &now);
    return 1e9 * (double)now.tv_sec + (double)now.tv_nsec;
}

/* Takes the frames of this range. Returns the time that it took. */
static double time_of(const Side *side, size_t from, size_t to)
{
    unsigned long kinds = 0;
    double begun = nanoseconds();
    if (side->is_library)
        for (size_t i = from; i < to; i++)
            kinds += by_library(&frames[i], 0);
    else if (side->is_equal)
        for (size_t i = from; i < to; i++)
            kinds += by_equal(&frames[i], 0);
    else
        for (size_t i = from; i < to; i++)
            kinds += by_peer(&frames[i], 0);
    double took = nanoseconds() - begun;
    return kinds == (unsigned long)-1 ? 0 : took;
}

static double timed(const Side *side, bool touched, bool taken)
{
    double took = 0;
    open_side(side, touched);
    for (size_t from = 0; from < frames_n; from += BETWEEN_TAKES) {
        size_t to = from + BETWEEN_TAKES < frames_n ? from + BETWEEN_TAKES : frames_n;
        took += time_of(side, from, to);
        if (taken)
            (void)take_all(side);
    }
    return took / (double)frames_n;
}

static void print_times(const Side *sides, size_t count, bool touched, bool taken, int passes)
{
    double least[MOST_SIDES];
    for (int pass = 0; pass < passes; pass++)
        for (size_t i = 0; i < count; i++) {
            double took = timed(&sides[i], touched, taken);
            least[i] = pass == 0 || took < least[i] ? took : least[i];
        }
    for (size_t i = 0; i < count; i++)
        printf("%.1f%c", least[i], i + 1 == count ? '\n' : ' ');
}

/* ---- instructions */

/* What callgrind counts. */
__attribute__((noinline)) static u8 counted(const Side *side, const Arrived *arrived)
{
    return by_side(side, arrived, 0);
}

static void print_counted(const Side *side, bool taken, u8 kind)
{
    size_t many = 0;
    open_side(side, true);
    for (size_t i = 0; i < frames_n; i++) {
        if (frames[i].kind == kind)
            many += counted(side, &frames[i]) == kind;
        else
            by_side(side, &frames[i], 0);
        if (taken && i % BETWEEN_TAKES == BETWEEN_TAKES - 1)
            (void)take_all(side);
    }
    printf("%zu\n", many);
}

/* ---- words */

static bool is_word(const char *word, const char *yes, const char *no)
{
    if (strcmp(word, yes) != 0 && strcmp(word, no) != 0)
        stop(word);
    return strcmp(word, yes) == 0;
}

static size_t read_sides(Side *sides, char **words)
{
    size_t count = 0;
    for (; words[count]; count++) {
        if (count == MOST_SIDES)
            stop("too many sides");
        sides[count] = side_of(words[count]);
    }
    return count;
}

int main(int count, char **words)
{
    Side sides[MOST_SIDES];
    if (count < 8)
        stop("CONFIG A B time | count | longest, and its words");
    read_config(words[1]);
    read_traces(words + 2);
    const char *what = words[4];
    if (strcmp(what, "time") == 0) {
        size_t many = read_sides(sides, words + 8);
        bool touched = is_word(words[5], "touched", "untouched"), taken = is_word(words[6], "taken", "left");
        note_kinds(sides, many, taken);
        print_times(sides, many, touched, taken, atoi(words[7]));
    } else if (strcmp(what, "count") == 0) {
        bool taken = is_word(words[5], "taken", "left");
        read_sides(sides, words + 7);
        note_kinds(sides, 1, taken);
        print_counted(&sides[0], taken, (u8)atoi(words[6]));
    } else if (strcmp(what, "longest") == 0 && count == 10) {
        Calls calls = {.frames = frames, .len = frames_n};
        calls.touched = is_word(words[5], "touched", "untouched");
        calls.beside = is_word(words[6], "beside", "alone");
        calls.rounds = (unsigned)atoi(words[7]);
        calls.passes = (unsigned)atoi(words[8]);
        read_sides(sides, words + 9);
        print_longest(&sides[0], &calls);
    } else {
        stop(what);
    }
    return 0;
}
