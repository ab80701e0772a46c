/* Memory that is given back by several threads at once: a pool of blocks with a lock, from which a receiver is opened again and
   again. Two partitions close their ends on threads of their own, while the task that opened them closes the receiver and opens
   the next one. Each end reads or takes before it is closed. Fails with a status if a call answers something else, or if a block
   isn't given back. */
#include "wanted.h"
#include <pthread.h>
#include <string.h>

enum { TURNS = 200, READERS = 4 };

/* ---- the pool: a list of blocks that were given back, and where the next one begins, under one lock */

struct block { size_t octets; struct block *next; };
static _Alignas(16) struct { unsigned char octets[8u << 20]; } pool;
static size_t used, given;
static struct block *returned;
static pthread_mutex_t lock = PTHREAD_MUTEX_INITIALIZER;

static void *take_block(size_t octets) {
    for (struct block **at = &returned; *at; at = &(*at)->next)
        if ((*at)->octets == octets) {
            struct block *found = *at;
            *at = found->next;
            return found + 1;
        }
    if (octets + sizeof(struct block) > sizeof pool - used) return NULL;
    struct block *made = (struct block *)(pool.octets + used);
    used += octets + sizeof(struct block);
    made->octets = octets;
    return made + 1;
}

struct rattle_tried rattle_alloc(size_t octets, size_t align) {
    (void)align;
    pthread_mutex_lock(&lock);
    void *at = take_block((octets + 31) / 16 * 16);
    given += at != NULL;
    pthread_mutex_unlock(&lock);
    return (struct rattle_tried){at != NULL, at ? at : (void *)&pool};
}

void rattle_dealloc(void *at) {
    struct block *block = (struct block *)at - 1;
    pthread_mutex_lock(&lock);
    block->next = returned, returned = block, given--;
    pthread_mutex_unlock(&lock);
}

struct rattle_tried rattle_realloc(void *at, size_t kept, size_t octets, size_t align) {
    struct rattle_tried made = rattle_alloc(octets, align);
    if (made.ok) memcpy(made.at, at, kept < octets ? kept : octets), rattle_dealloc(at);
    return made;
}

/* ---- two partitions, and the task that opens */

static uint64_t receiver_room[64], reader_rooms[2][READERS][64], queue_rooms[2][64];
static struct yelunnavi_receiver receiver;
static struct yelunnavi_reader readers[2][READERS];
static struct yelunnavi_queue queues[2];

static void want(bool is_so, int status) {
    if (!is_so) exit(status);
}

/* A turn's reader ends of one thread, or its queue. */
static void *close_readers(void *of_turn) {
    struct yelunnavi_reader *mine = of_turn;
    struct yelunnavi_read read;
    uint8_t out[32];
    for (int k = 0; k < READERS; k++) {
        want(yelunnavi_reader_read(&mine[k], 1, out, sizeof out, &read) == YELUNNAVI_DONE && read.found == 1, 10);
        if (k % 2) want(yelunnavi_reader_hold(&mine[k], 1, &read) == YELUNNAVI_DONE, 11);
        yelunnavi_reader_close(&mine[k]);
    }
    return NULL;
}

static void *close_queue(void *of_turn) {
    struct yelunnavi_taken taken;
    uint8_t out[64];
    want(yelunnavi_queue_take(of_turn, out, sizeof out, &taken) == YELUNNAVI_DONE && !taken.found, 12);
    yelunnavi_queue_close(of_turn);
    return NULL;
}

static void open_turn(int turn) {
    struct yelunnavi_fault fault;
    struct yelunnavi_verdict verdict;
    want(yelunnavi_receiver_open(&receiver, (const uint8_t *)CONFIG, sizeof CONFIG - 1, READERS, &fault) == YELUNNAVI_DONE, 13);
    for (int k = 0; k < READERS; k++)
        want(yelunnavi_receiver_hand_reader(&receiver, &readers[turn][k], (const uint8_t *)"pos", 3) == YELUNNAVI_DONE, 14);
    want(yelunnavi_receiver_hand_queue(&receiver, &queues[turn], (const uint8_t *)"nav", 3) == YELUNNAVI_DONE, 15);
    want(yelunnavi_receiver_receive(&receiver, YELUNNAVI_A, 0, FRAME, sizeof FRAME, &verdict) == YELUNNAVI_DONE, 16);
}

int main(void) {
    pthread_t threads[2][2];
    want(yelunnavi_abi() == YELUNNAVI_ABI, 2);
    want(yelunnavi_receiver_init(&receiver, receiver_room, sizeof receiver_room) == YELUNNAVI_DONE, 3);
    for (int turn = 0; turn < 2; turn++) {
        want(yelunnavi_queue_init(&queues[turn], queue_rooms[turn], sizeof queue_rooms[turn]) == YELUNNAVI_DONE, 4);
        for (int k = 0; k < READERS; k++)
            want(yelunnavi_reader_init(&readers[turn][k], reader_rooms[turn][k], sizeof reader_rooms[turn][k]) == YELUNNAVI_DONE, 5);
    }
    for (int turn = 0; turn < TURNS; turn++) {
        int of = turn % 2;
        if (turn > 1) for (int k = 0; k < 2; k++) pthread_join(threads[of][k], NULL);
        open_turn(of);
        want(!pthread_create(&threads[of][0], NULL, close_readers, readers[of])
             && !pthread_create(&threads[of][1], NULL, close_queue, &queues[of]), 6);
        yelunnavi_receiver_close(&receiver);
    }
    for (int k = 0; k < 4; k++) pthread_join(threads[k / 2][k % 2], NULL);
    return given ? 17 : 0;
}
