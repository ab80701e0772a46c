/* memory CONFIG [READERS]: how much memory the library asks for as it opens the configuration of a text, as a receiver and as a
   system, counted. It hangs on the text and on the readers alone, so a target's opening asks for the same: a pool to which nothing
   comes back needs the first number, and 15 octets more for each request if it rounds each up to 16. */
#include "fault.h"
#include "yelunnavi.h"

#include <stdlib.h>
#include <string.h>

static size_t asked, requests, now, most;

/* A block's length stands before it, 16 octets, as malloc aligns. */
static struct rattle_tried counted(size_t octets) {
    static uint8_t nothing[16];
    uint8_t *at = malloc(octets + 16);
    if (!at) return (struct rattle_tried){false, nothing};
    memcpy(at, &octets, sizeof octets);
    asked += octets, requests++, now += octets;
    if (now > most) most = now;
    return (struct rattle_tried){true, at + 16};
}

struct rattle_tried rattle_alloc(size_t octets, size_t align) {
    (void)align;
    return counted(octets);
}

void rattle_dealloc(void *at) {
    size_t octets;
    uint8_t *block = (uint8_t *)at - 16;
    memcpy(&octets, block, sizeof octets);
    now -= octets;
    free(block);
}

struct rattle_tried rattle_realloc(void *at, size_t kept, size_t octets, size_t align) {
    struct rattle_tried made = rattle_alloc(octets, align);
    if (made.ok) memcpy(made.at, at, kept < octets ? kept : octets), rattle_dealloc(at);
    return made;
}

/* What a file has, up to `size` octets; false, and why on the standard error, if it can't be opened. */
static bool are_read(const char *name, uint8_t *to, size_t size, size_t *len) {
    FILE *file = fopen(name, "rb");
    if (!file) return perror(name), false;
    *len = fread(to, 1, size, file);
    fclose(file);
    return true;
}

static void show(const char *roof) {
    printf("%s: %zu octets in %zu requests, of which %zu stay; at most %zu at once\n", roof, asked, requests, now, most);
}

static bool is_told(const char *roof, uint32_t code, const struct yelunnavi_fault *fault) {
    if (code == YELUNNAVI_FAULTY) show_fault("memory", fault);
    else if (code != YELUNNAVI_DONE) fprintf(stderr, "memory: %s\n", yelunnavi_code_word(code));
    else show(roof);
    asked = requests = most = 0;
    return code == YELUNNAVI_DONE;
}

int main(int argc, char **argv) {
    static uint8_t text[1 << 20];
    static uint64_t rooms[2][YELUNNAVI_SYSTEM_OCTETS / 8U];
    struct yelunnavi_receiver receiver;
    struct yelunnavi_system both;
    struct yelunnavi_fault fault;
    if (argc < 2 || argc > 3) return fputs("usage: memory CONFIG [READERS]\n", stderr), 2;
    size_t len, readers = argc == 3 ? strtoul(argv[2], NULL, 10) : 1;
    if (!are_read(argv[1], text, sizeof text, &len)) return 1;
    if (yelunnavi_abi() != YELUNNAVI_ABI || yelunnavi_receiver_init(&receiver, rooms[0], sizeof rooms[0]) != YELUNNAVI_DONE
        || yelunnavi_system_init(&both, rooms[1], sizeof rooms[1]) != YELUNNAVI_DONE) return 1;
    if (!is_told("receiver", yelunnavi_receiver_open(&receiver, text, len, readers, &fault), &fault)) return 1;
    yelunnavi_receiver_close(&receiver);
    if (!is_told("system", yelunnavi_system_open(&both, text, len, readers, &fault), &fault)) return 1;
    yelunnavi_system_close(&both);
    return now ? 1 : 0;
}
