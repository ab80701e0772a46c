/* two_partitions CONFIG A B [SAMPLING QUEUING]: a driver's task that polls both networks, and the two partitions of partitions.h. The
   frames come from two traces, in the place of a driver. At the end it says what each partition saw, and fails if that isn't
   what was delivered. */
#include "partitions.h"
#include "trace.h"

#include <string.h>

static uint64_t receiver_room[YELUNNAVI_RECEIVER_OCTETS / 8U];
static struct yelunnavi_receiver receiver;

static bool open_all(const char *config) {
    static uint8_t text[1 << 20];
    struct yelunnavi_fault fault;
    const uint8_t *of_pos = (const uint8_t *)pos_name, *of_nav = (const uint8_t *)nav_name;
    if (yelunnavi_abi() != YELUNNAVI_ABI) return false;
    size_t len = read_file(config, text, sizeof text);
    return yelunnavi_receiver_init(&receiver, receiver_room, sizeof receiver_room) == YELUNNAVI_DONE && make_partitions()
        && is_opened("two_partitions", yelunnavi_receiver_open(&receiver, text, len, READERS, &fault), &fault)
        && yelunnavi_receiver_place(&receiver, of_pos, strlen(pos_name), &pos_place) == YELUNNAVI_DONE
        && yelunnavi_receiver_place(&receiver, of_nav, strlen(nav_name), &nav_place) == YELUNNAVI_DONE
        && yelunnavi_receiver_hand_reader(&receiver, &pos, of_pos, strlen(pos_name)) == YELUNNAVI_DONE
        && yelunnavi_receiver_hand_queue(&receiver, &nav, of_nav, strlen(nav_name)) == YELUNNAVI_DONE;
}

int main(int argc, char **argv) {
    static struct traces traces;
    struct yelunnavi_verdict reply;
    uint64_t sampled = 0, queued = 0;
    if (argc == 6) pos_name = argv[4], nav_name = argv[5];
    if ((argc != 4 && argc != 6) || !open_traces(&traces, argv[2], argv[3]) || !open_all(argv[1])) return 2;
    if (!start_partitions()) return 2;
    for (int net; (net = next_network(&traces)) >= 0; read_frame(traces.files[net], &traces.next[net])) {
        const struct frame *frame = &traces.next[net];
        yelunnavi_receiver_receive(&receiver, (uint32_t)net, frame->time, frame->octets, frame->len, &reply);
        sampled += is_at(&reply, YELUNNAVI_VERDICT_SAMPLED, &pos_place);
        queued += is_at(&reply, YELUNNAVI_VERDICT_QUEUED, &nav_place);
    }
    bool is_right = end_partitions(sampled, queued);
    yelunnavi_receiver_close(&receiver);
    return !is_right;
}
