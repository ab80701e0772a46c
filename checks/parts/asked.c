/* asked LINKS SAMPLING QUEUING DEPTH QUEUED SAMPLE READERS APART: opens a table of so many links, each with so many sampling ports
   of SAMPLE octets and READERS readers and so many queues of DEPTH messages of QUEUED octets, whose link numbers are APART from one
   another; and prints what was asked for in all, what stayed, and in how many requests, beside what
   examples/c/yelunnavi_table.h says. Fails with a status if it isn't opened, or keeps something after its close. */
#include "yelunnavi_table.h"
#include <stdio.h>
#include <stdlib.h>
#include <string.h>

static size_t asked, stays, requests;

/* A block, behind its length. */
static void *block(void *old, size_t octets) {
    size_t *at = realloc(old ? (size_t *)old - 2 : NULL, octets + 16);
    if (!at) exit(9);
    requests++, asked += octets, stays += octets - (old ? at[0] : 0);
    at[0] = octets;
    return at + 2;
}

struct rattle_tried rattle_alloc(size_t octets, size_t align) {
    (void)align;
    return (struct rattle_tried){true, block(NULL, octets)};
}

struct rattle_tried rattle_realloc(void *at, size_t kept, size_t octets, size_t align) {
    (void)kept, (void)align;
    return (struct rattle_tried){true, block(at, octets)};
}

void rattle_dealloc(void *at) {
    stays -= ((size_t *)at)[-2];
    free((size_t *)at - 2);
}

#ifdef SYSTEM
#define HANDLE yelunnavi_system
#define CALL(name) yelunnavi_system_##name
#else
#define HANDLE yelunnavi_receiver
#define CALL(name) yelunnavi_receiver_##name
#endif

static struct yelunnavi_link_row links[YELUNNAVI_MOST_LINKS];
static struct yelunnavi_port_row ports[YELUNNAVI_MOST_LINKS * YELUNNAVI_MOST_PORTS];
static const uint8_t constant[4] = {3, 0, 0, 0};
static uint64_t room[128];

int main(int argc, char **argv) {
    size_t given[8], many = 0;
    if (argc != 9) return 2;
    for (int k = 0; k < 8; k++) given[k] = strtoul(argv[k + 1], NULL, 10);
    for (size_t link = 0; link < given[0]; link++) {
        links[link] = (struct yelunnavi_link_row){(uint32_t)(link * given[7]), 1, 1000, 1000, 2, given[1] + given[2]};
        for (size_t port = 0; port < given[1] + given[2]; port++) {
            bool samples = port < given[1];
            struct yelunnavi_port_row row = {samples ? YELUNNAVI_SERVICE_SAMPLING : YELUNNAVI_SERVICE_QUEUING, (uint32_t)port, 1,
                (uint32_t)given[samples ? 5 : 4], samples ? 1000 : given[3], 0, {0}, samples ? (uint32_t)given[6] : 0};
            row.name_len = (size_t)sprintf((char *)row.name, "p%zu-%zu", link, port);
            ports[many++] = row;
        }
    }
    struct yelunnavi_fault fault;
    struct HANDLE handle;
    if (CALL(init)(&handle, room, sizeof room) != YELUNNAVI_DONE) return 3;
    if (CALL(open_table)(&handle, constant, links, given[0], ports, many, 1, &fault) != YELUNNAVI_DONE) return 4;
    struct yelunnavi_memory said = CALL(memory_of_table)(links, given[0], ports, many, 1);
    printf("%zu %zu %zu %zu %zu %zu\n", asked, stays, requests, said.asked, said.stays, said.requests);
    CALL(close)(&handle);
    return stays ? 5 : 0;
}
