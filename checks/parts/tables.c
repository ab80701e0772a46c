/* tables CONFIG: the receiver of a table, the file TABLE that this is compiled with, and that of the text CONFIG tell the same
   links and ports, and have the same constant field, or both are refused. Without a word the table alone is opened, and no text. Fails with a status. */
#include "yelunnavi.h"
#include <stdio.h>
#include <string.h>
#include TABLE

static uint64_t rooms[2][64];
static struct yelunnavi_receiver of_table;

static bool open_table(void) {
    struct yelunnavi_fault fault;
    return yelunnavi_receiver_init(&of_table, rooms[0], sizeof rooms[0]) == YELUNNAVI_DONE
        && yelunnavi_receiver_open_table(&of_table, table_constant, table_links, TABLE_LINKS, table_ports, TABLE_PORTS, 1, &fault)
            == YELUNNAVI_DONE;
}

#ifdef WITH_TEXT
static struct yelunnavi_receiver of_text;

static bool open_text(const char *name) {
    static uint8_t text[1 << 20];
    struct yelunnavi_fault fault;
    FILE *file = fopen(name, "rb");
    if (!file) return false;
    size_t len = fread(text, 1, sizeof text, file);
    fclose(file);
    return yelunnavi_receiver_init(&of_text, rooms[1], sizeof rooms[1]) == YELUNNAVI_DONE
        && yelunnavi_receiver_open(&of_text, text, len, 1, &fault) == YELUNNAVI_DONE;
}

/* What a receiver tells of a link, in a block that was empty; false if there is none. */
static bool is_same_link(size_t at, size_t *ports) {
    struct yelunnavi_link links[2];
    memset(links, 0, sizeof links);
    if (yelunnavi_receiver_link(&of_table, at, &links[0]) != YELUNNAVI_DONE) return false;
    if (yelunnavi_receiver_link(&of_text, at, &links[1]) != YELUNNAVI_DONE) return false;
    *ports = links[0].ports;
    return links[0].vl == links[1].vl && links[0].redundancy == links[1].redundancy && links[0].skew_max == links[1].skew_max
        && links[0].reassembly == links[1].reassembly && links[0].window == links[1].window && links[0].ports == links[1].ports;
}

static bool is_same_port(size_t link, size_t at) {
    struct yelunnavi_port ports[2];
    uint8_t names[2][YELUNNAVI_LONGEST_NAME];
    memset(names, 0, sizeof names);
    if (yelunnavi_receiver_port(&of_table, link, at, &ports[0], &names[0]) != YELUNNAVI_DONE) return false;
    if (yelunnavi_receiver_port(&of_text, link, at, &ports[1], &names[1]) != YELUNNAVI_DONE) return false;
    return ports[0].service == ports[1].service && ports[0].address == ports[1].address && ports[0].udp == ports[1].udp
        && ports[0].max == ports[1].max && ports[0].limit == ports[1].limit && ports[0].name_len == ports[1].name_len
        && !memcmp(names[0], names[1], sizeof names[0]);
}

/* A frame with the table's constant field, and with another one, has the same cause from both. */
static bool is_same_constant(void) {
    struct yelunnavi_verdict replies[2];
    uint8_t frame[60] = {[4] = 0xfe, [5] = 0xdc, [12] = 8};
    for (int bit = 0; bit < 32; bit++) {
        memcpy(frame, table_constant, 4);
        if (bit) frame[bit / 8] ^= (uint8_t)(1 << bit % 8);
        yelunnavi_receiver_receive(&of_table, YELUNNAVI_A, 0, frame, sizeof frame, &replies[0]);
        yelunnavi_receiver_receive(&of_text, YELUNNAVI_A, 0, frame, sizeof frame, &replies[1]);
        if (replies[0].cause != replies[1].cause || (bit && replies[0].cause != YELUNNAVI_FILTER_FOREIGN_CONSTANT)) return false;
    }
    return true;
}

static int compare(void) {
    size_t links[2] = {0, 0}, ports = 0;
    yelunnavi_receiver_links(&of_table, &links[0]), yelunnavi_receiver_links(&of_text, &links[1]);
    if (links[0] != links[1]) return 12;
    for (size_t link = 0; link < links[0]; link++) {
        if (!is_same_link(link, &ports)) return 13;
        for (size_t port = 0; port < ports; port++) if (!is_same_port(link, port)) return 14;
    }
    return is_same_constant() ? 0 : 15;
}
#endif

int main(int argc, char **argv) {
    if (yelunnavi_abi() != YELUNNAVI_ABI) return 2;
    bool is_open = open_table();
#ifdef WITH_TEXT
    if (argc != 2 || is_open != open_text(argv[1])) return 11;
    return is_open ? compare() : 0;
#else
    (void)argv;
    return argc != 1 || !is_open;
#endif
}
