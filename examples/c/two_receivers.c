/* two_receivers CONFIG A B [SAMPLING QUEUING]: a driver's thread for each network, each with its own pass of one system, and the two
   partitions of partitions.h. The frames come from two traces, in the place of a driver. At the end it says what each partition
   saw, and how many frames of both networks had a verdict of each kind; it fails if a partition saw something else than what was
   delivered. */
#define _POSIX_C_SOURCE 200809L
#include "partitions.h"
#include "trace.h"

#include <sched.h>
#include <string.h>

/* The driver's period: each thread gives the frames of its network that came in it, in microseconds, one after another, while the
   other thread does the same. */
enum { PERIOD = 500 };

struct driver {
    struct yelunnavi_pass pass;
    FILE *file;
    struct frame *next;
    uint64_t sampled, queued, again;
};

static uint64_t system_room[YELUNNAVI_SYSTEM_OCTETS / 8U], pass_rooms[2][YELUNNAVI_PASS_OCTETS / 8U];
static struct yelunnavi_system end_system;
static struct driver drivers[2];
static struct traces traces;
static pthread_barrier_t turn;
static uint64_t last;
static bool is_left;

static bool open_all(const char *config) {
    static uint8_t text[1 << 20];
    struct yelunnavi_fault fault;
    const uint8_t *of_pos = (const uint8_t *)pos_name, *of_nav = (const uint8_t *)nav_name;
    if (yelunnavi_abi() != YELUNNAVI_ABI) return false;
    size_t len = read_file(config, text, sizeof text);
    return yelunnavi_system_init(&end_system, system_room, sizeof system_room) == YELUNNAVI_DONE && make_partitions()
        && yelunnavi_pass_init(&drivers[0].pass, pass_rooms[0], sizeof pass_rooms[0]) == YELUNNAVI_DONE
        && yelunnavi_pass_init(&drivers[1].pass, pass_rooms[1], sizeof pass_rooms[1]) == YELUNNAVI_DONE
        && is_opened("two_receivers", yelunnavi_system_open(&end_system, text, len, READERS, &fault), &fault)
        && yelunnavi_system_hand_pass(&end_system, YELUNNAVI_A, &drivers[0].pass) == YELUNNAVI_DONE
        && yelunnavi_system_hand_pass(&end_system, YELUNNAVI_B, &drivers[1].pass) == YELUNNAVI_DONE
        && yelunnavi_system_place(&end_system, of_pos, strlen(pos_name), &pos_place) == YELUNNAVI_DONE
        && yelunnavi_system_place(&end_system, of_nav, strlen(nav_name), &nav_place) == YELUNNAVI_DONE
        && yelunnavi_system_hand_reader(&end_system, &pos, of_pos, strlen(pos_name)) == YELUNNAVI_DONE
        && yelunnavi_system_hand_queue(&end_system, &nav, of_nav, strlen(nav_name)) == YELUNNAVI_DONE;
}

/* Gives the thread's next frame: again, after a yield, as long as the other thread has its link. */
static void give(struct driver *driver) {
    struct yelunnavi_verdict reply;
    const struct frame *frame = driver->next;
    uint32_t code;
    while ((code = yelunnavi_pass_receive(&driver->pass, frame->time, frame->octets, frame->len, &reply)) == YELUNNAVI_BUSY) {
        driver->again++;
        sched_yield();
    }
    if (code != YELUNNAVI_DONE) abort();
    driver->sampled += is_at(&reply, YELUNNAVI_VERDICT_SAMPLED, &pos_place);
    driver->queued += is_at(&reply, YELUNNAVI_VERDICT_QUEUED, &nav_place);
}

/* The period of the next frame of either network, if one is left. */
static void next_period(void) {
    int net = next_network(&traces);
    is_left = net >= 0;
    if (is_left) last = traces.next[net].time > UINT64_MAX - PERIOD ? UINT64_MAX : traces.next[net].time + PERIOD;
}

/* A network's thread. One of the two, no matter which, says what the next period is, while the other one waits. */
static void *drive(void *of_network) {
    struct driver *driver = of_network;
    for (;;) {
        if (pthread_barrier_wait(&turn) == PTHREAD_BARRIER_SERIAL_THREAD) next_period();
        pthread_barrier_wait(&turn);
        if (!is_left) return NULL;
        for (; driver->next->is_there && driver->next->time <= last; read_frame(driver->file, driver->next)) give(driver);
    }
}

/* How many frames of both networks had a verdict of this kind. */
static uint64_t frames_of(uint32_t kind) {
    uint64_t all = 0, count;
    size_t links = 0;
    yelunnavi_system_links(&end_system, &links);
    for (size_t link = 0; link < links; link++)
        for (int net = 0; net < 2; net++)
            if (yelunnavi_pass_count(&drivers[net].pass, link, kind, &count) == YELUNNAVI_DONE) all += count;
    return all;
}

int main(int argc, char **argv) {
    pthread_t threads[2];
    if (argc == 6) pos_name = argv[4], nav_name = argv[5];
    if ((argc != 4 && argc != 6) || !open_traces(&traces, argv[2], argv[3]) || !open_all(argv[1])) return 2;
    if (pthread_barrier_init(&turn, NULL, 2) || !start_partitions()) return 2;
    for (int net = 0; net < 2; net++) {
        drivers[net].file = traces.files[net], drivers[net].next = &traces.next[net];
        if (pthread_create(&threads[net], NULL, drive, &drivers[net])) return 2;
    }
    for (int net = 0; net < 2; net++) pthread_join(threads[net], NULL);
    bool is_right = end_partitions(drivers[0].sampled + drivers[1].sampled, drivers[0].queued + drivers[1].queued);
    for (uint32_t kind = YELUNNAVI_VERDICT_OUT_OF_SEQUENCE; kind <= YELUNNAVI_VERDICT_EXHAUSTED; kind++)
        printf("%s: %" PRIu64 "\n", yelunnavi_verdict_word(kind), frames_of(kind));
    for (int net = 0; net < 2; net++) yelunnavi_pass_close(&drivers[net].pass);
    yelunnavi_system_close(&end_system);
    return !is_right;
}
