/* The receiver for C on a machine with nothing on it: no operating system and no C library. It takes the frames of a table and
   writes a line for each to the machine's serial port, as afdx_play prints it; or a line for the fault of the configuration. */
#include "../c/yelunnavi_words.h"
#include "frames.h"

static uint64_t room[YELUNNAVI_RECEIVER_OCTETS / 8U];
static struct yelunnavi_receiver receiver;

/* How many readers each sampling port has. */
enum { READERS = 1 };

/* ---- what the compiler and the library call */

void *memmove(void *to, const void *from, size_t octets) {
    unsigned char *t = to;
    const unsigned char *f = from;
    if (t < f) for (size_t k = 0; k < octets; k++) t[k] = f[k];
    else while (octets--) t[octets] = f[octets];
    return to;
}

void *memcpy(void *to, const void *from, size_t octets) { return memmove(to, from, octets); }

void *memset(void *to, int octet, size_t octets) {
    for (unsigned char *t = to; octets--; t++) *t = (unsigned char)octet;
    return to;
}

/* ---- the serial port of QEMU's machine `virt` */

static void put(const char *text) {
    volatile uint32_t *const serial = (volatile uint32_t *)0x09000000;
    while (*text) *serial = (unsigned char)*text++;
}

static void put_number(uint64_t number) {
    char digits[21];
    char *at = digits + 20;
    *at = 0;
    do *--at = (char)('0' + number % 10); while (number /= 10);
    put(at);
}

static void put_name(size_t link, uint32_t port) {
    struct yelunnavi_port reply;
    uint8_t name[YELUNNAVI_LONGEST_NAME];
    char text[YELUNNAVI_LONGEST_NAME + 1] = {0};
    if (yelunnavi_receiver_port(&receiver, link, port, &reply, &name) != YELUNNAVI_DONE) return;
    memcpy(text, name, reply.name_len);
    put(" "), put(text);
}

static void show(const struct frame *frame) {
    struct yelunnavi_verdict reply;
    if (yelunnavi_receiver_receive(&receiver, frame->net, frame->time, frame->octets, frame->len, &reply) != YELUNNAVI_DONE) return;
    put_number(frame->time), put(" "), put(yelunnavi_network_word(frame->net));
    if (reply.kind != YELUNNAVI_VERDICT_FILTERED) put(" vl "), put_number(reply.vl), put(" "), put_number(reply.place);
    put(" "), put(yelunnavi_verdict_word(reply.kind));
    if (reply.kind == YELUNNAVI_VERDICT_FILTERED) put(" "), put(yelunnavi_filter_word(reply.cause));
    if (reply.kind == YELUNNAVI_VERDICT_BAD_HEADER) put(" "), put(yelunnavi_header_word(reply.cause));
    if (reply.kind >= YELUNNAVI_VERDICT_TOO_LONG) put_name(reply.link, reply.port);
    if (reply.kind == YELUNNAVI_VERDICT_SAMPLED) put(" "), put_number(reply.number);
    put("\n");
}

/* The fault of the configuration as afdx_play words it, where it stands, and what is allowed. */
static void show_fault(const struct yelunnavi_fault *fault) {
    const char *key = yelunnavi_key_word(fault->key);
    put("bare: "), put(yelunnavi_fault_before(fault->fault)), put(key), put(yelunnavi_fault_after(fault->fault));
    if (fault->level >= YELUNNAVI_LEVEL_LINK) put(", link "), put_number(fault->link);
    if (fault->level == YELUNNAVI_LEVEL_PORT) put(", port "), put_number(fault->port);
    if (fault->line) put(", line "), put_number(fault->line);
    if (fault->key) put(" ("), put(key), put(": "), put(yelunnavi_key_allowed(fault->key)), put(")");
    put("\n");
}

void main(void) {
    struct yelunnavi_fault fault;
    if (yelunnavi_abi() != YELUNNAVI_ABI || yelunnavi_receiver_init(&receiver, room, sizeof room) != YELUNNAVI_DONE) return;
    uint32_t code = yelunnavi_receiver_open(&receiver, (const uint8_t *)CONFIG, sizeof CONFIG - 1, READERS, &fault);
    if (code == YELUNNAVI_FAULTY) show_fault(&fault);
    if (code != YELUNNAVI_DONE) return;
    for (size_t k = 0; k < sizeof FRAMES / sizeof FRAMES[0]; k++) show(&FRAMES[k]);
}
