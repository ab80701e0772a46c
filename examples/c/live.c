/* live CONFIG INTERFACE_A INTERFACE_B [SECONDS]: an AFDX receiver on two network interfaces of Linux, by packet sockets, with the
   kernel's time stamps. One task polls both networks and hands each frame to the receiver; a partition reads the first sampling
   port of the configuration, and another takes of its first queuing port, each on a thread of its own. It stops after so many
   seconds, or when SIGINT or SIGTERM comes, and then tells what came. Packet sockets want CAP_NET_RAW.

   An interface hands in frames without their check sequence, as the receiver wants them. Arrival times are the kernel's
   (SO_TIMESTAMPNS), of CLOCK_REALTIME, and so is the `now` of the partition that reads: both are of one clock, and a step of that
   clock is a step of both. */
#define _GNU_SOURCE
#include "fault.h"

#include <arpa/inet.h>
#include <errno.h>
#include <inttypes.h>
#include <linux/if_ether.h>
#include <linux/if_packet.h>
#include <net/if.h>
#include <poll.h>
#include <pthread.h>
#include <signal.h>
#include <stdatomic.h>
#include <stdio.h>
#include <stdlib.h>
#include <string.h>
#include <sys/socket.h>
#include <time.h>
#include <unistd.h>

/* One partition reads. What waits in a socket: some thousand frames. */
enum { READERS = 1, NETWORKS = 2, SOCKET_OCTETS = 4 << 20, WAIT_MS = 100 };

static void stop(const char *why) {
    fprintf(stderr, "live: %s%s%s\n", why, errno ? ": " : "", errno ? strerror(errno) : "");
    exit(1);
}

static void check(bool is_so, const char *why) {
    if (!is_so) stop(why);
}

static uint64_t microseconds(const struct timespec *time) { return (uint64_t)time->tv_sec * 1000000 + (uint64_t)time->tv_nsec / 1000; }

static uint64_t time_now(void) {
    struct timespec now;
    clock_gettime(CLOCK_REALTIME, &now);
    return microseconds(&now);
}

/* ---- the receiver and its ends */

static uint64_t receiver_room[YELUNNAVI_RECEIVER_OCTETS / 8U], reader_room[YELUNNAVI_READER_OCTETS / 8U];
static uint64_t queue_room[YELUNNAVI_QUEUE_OCTETS / 8U];
static struct yelunnavi_receiver receiver;
static struct yelunnavi_reader reader;
static struct yelunnavi_queue queue;

/* A port that a partition has; `is_there` is false if the configuration has none of its kind. */
struct end {
    bool is_there;
    struct yelunnavi_place place;
    uint8_t name[YELUNNAVI_LONGEST_NAME];
    struct yelunnavi_port port;
};
static struct end sampling, queuing;

static void note_port(size_t link, size_t port) {
    struct end found = {.is_there = true, .place = {link, (uint32_t)port}};
    check(yelunnavi_receiver_port(&receiver, link, port, &found.port, &found.name) == YELUNNAVI_DONE, "a port");
    struct end *to = found.port.service == YELUNNAVI_SERVICE_SAMPLING ? &sampling : &queuing;
    if (!to->is_there) *to = found;
}

static void open_text(const char *name) {
    static uint8_t text[1 << 20];
    struct yelunnavi_fault fault = {0};
    FILE *file = fopen(name, "rb");
    check(file != NULL, name);
    size_t len = fread(text, 1, sizeof text, file);
    fclose(file);
    uint32_t code = yelunnavi_receiver_open(&receiver, text, len, READERS, &fault);
    if (code == YELUNNAVI_FAULTY) show_fault("live", &fault);
    errno = 0;
    check(code == YELUNNAVI_DONE, yelunnavi_code_word(code));
}

static void open_all(const char *config) {
    struct yelunnavi_link link;
    size_t links = 0;
    check(yelunnavi_abi() == YELUNNAVI_ABI, "the header is of another library");
    check(yelunnavi_receiver_init(&receiver, receiver_room, sizeof receiver_room) == YELUNNAVI_DONE
          && yelunnavi_reader_init(&reader, reader_room, sizeof reader_room) == YELUNNAVI_DONE
          && yelunnavi_queue_init(&queue, queue_room, sizeof queue_room) == YELUNNAVI_DONE, "room");
    open_text(config);
    check(yelunnavi_receiver_links(&receiver, &links) == YELUNNAVI_DONE, "links");
    for (size_t at = 0; at < links; at++) {
        check(yelunnavi_receiver_link(&receiver, at, &link) == YELUNNAVI_DONE, "a link");
        for (size_t port = 0; port < link.ports; port++) note_port(at, port);
    }
    if (sampling.is_there)
        check(yelunnavi_receiver_hand_reader(&receiver, &reader, sampling.name, sampling.port.name_len) == YELUNNAVI_DONE, "a reader");
    if (queuing.is_there)
        check(yelunnavi_receiver_hand_queue(&receiver, &queue, queuing.name, queuing.port.name_len) == YELUNNAVI_DONE, "a queue");
}

/* ---- partitions, each with a turn every few milliseconds */

static atomic_bool is_over;
static uint64_t turns, fresh, newest, taken;

static void wait_for_turn(long milliseconds) {
    struct timespec wait = {0, milliseconds * 1000000};
    nanosleep(&wait, NULL);
}

/* Reads the newest message at each turn. Message numbers never fall. */
static void *read_turns(void *unused) {
    uint8_t out[YELUNNAVI_LONGEST_SAMPLE];
    struct yelunnavi_read read;
    for (bool is_last = false; !is_last; wait_for_turn(5)) {
        is_last = atomic_load(&is_over);
        if (yelunnavi_reader_read(&reader, time_now(), out, sizeof out, &read) != YELUNNAVI_DONE) abort();
        if (read.number < newest) abort();
        newest = read.number, fresh += read.valid, turns++;
    }
    return unused;
}

/* Takes all that waits at each turn. */
static void *take_turns(void *unused) {
    static uint8_t out[YELUNNAVI_LONGEST_QUEUED];
    struct yelunnavi_taken message;
    for (bool is_last = false; !is_last; wait_for_turn(1)) {
        is_last = atomic_load(&is_over);
        do {
            if (yelunnavi_queue_take(&queue, out, sizeof out, &message) != YELUNNAVI_DONE) abort();
            taken += message.found;
        } while (message.found);
    }
    return unused;
}

/* ---- networks */

/* A packet socket, and the frame that was read of it and not handed in yet. */
struct network {
    int socket;
    bool has_frame;
    uint64_t time;
    size_t len;
    uint8_t octets[2048];
};
static struct network networks[NETWORKS];

static void open_socket(struct network *to, const char *interface) {
    int one = 1, octets = SOCKET_OCTETS;
    unsigned index = if_nametoindex(interface);
    check(index != 0, interface);
    to->socket = socket(AF_PACKET, SOCK_RAW | SOCK_NONBLOCK | SOCK_CLOEXEC, 0);
    check(to->socket >= 0, "a packet socket");
    setsockopt(to->socket, SOL_SOCKET, SO_RCVBUF, &octets, sizeof octets);
    check(!setsockopt(to->socket, SOL_SOCKET, SO_TIMESTAMPNS, &one, sizeof one), "time stamps");
    /* The addresses of virtual links are multicast ones that the interface doesn't know. */
    struct packet_mreq all = {.mr_ifindex = (int)index, .mr_type = PACKET_MR_PROMISC};
    check(!setsockopt(to->socket, SOL_PACKET, PACKET_ADD_MEMBERSHIP, &all, sizeof all), interface);
    struct sockaddr_ll at = {.sll_family = AF_PACKET, .sll_protocol = htons(ETH_P_ALL), .sll_ifindex = (int)index};
    check(!bind(to->socket, (struct sockaddr *)&at, sizeof at), interface);
}

/* The kernel's time stamp of a frame. */
static uint64_t stamp_of(struct msghdr *message) {
    struct timespec stamp;
    for (struct cmsghdr *at = CMSG_FIRSTHDR(message); at; at = CMSG_NXTHDR(message, at))
        if (at->cmsg_level == SOL_SOCKET && at->cmsg_type == SCM_TIMESTAMPNS) {
            memcpy(&stamp, CMSG_DATA(at), sizeof stamp);
            return microseconds(&stamp);
        }
    return time_now();
}

/* Reads the next frame that came from outside, if one waits. A frame longer than the room is longer than any of AFDX: its
   first octets are enough for the receiver to say so. */
static void fill(struct network *from) {
    _Alignas(struct cmsghdr) char control[CMSG_SPACE(sizeof(struct timespec))];
    struct sockaddr_ll sender;
    struct iovec room = {from->octets, sizeof from->octets};
    while (!from->has_frame) {
        struct msghdr message = {.msg_name = &sender, .msg_namelen = sizeof sender, .msg_iov = &room, .msg_iovlen = 1,
                                 .msg_control = control, .msg_controllen = sizeof control};
        ssize_t len = recvmsg(from->socket, &message, 0);
        if (len < 0) return;
        from->has_frame = sender.sll_pkttype != PACKET_OUTGOING;
        from->time = stamp_of(&message), from->len = (size_t)len;
    }
}

/* The network whose frame came first; none if no frame waits. Both sockets were asked: so if one has no frame, what it gets
   later came later too, and a frame is handed in out of its order by no more than the kernel's own delay. */
static int first(void) {
    bool a = networks[YELUNNAVI_A].has_frame, b = networks[YELUNNAVI_B].has_frame;
    if (!a && !b) return -1;
    return !a || (b && networks[YELUNNAVI_B].time < networks[YELUNNAVI_A].time) ? YELUNNAVI_B : YELUNNAVI_A;
}

static void receive_all(void) {
    struct yelunnavi_verdict reply;
    for (;;) {
        for (int net = 0; net < NETWORKS; net++) fill(&networks[net]);
        int net = first();
        if (net < 0) return;
        struct network *from = &networks[net];
        if (yelunnavi_receiver_receive(&receiver, (uint32_t)net, from->time, from->octets, from->len, &reply) != YELUNNAVI_DONE) abort();
        from->has_frame = false;
    }
}

/* ---- the run */

static volatile sig_atomic_t is_asked_to_end;

static void ask_to_end(int signal) {
    (void)signal;
    is_asked_to_end = 1;
}

static void run_until(uint64_t end) {
    struct pollfd sockets[NETWORKS];
    for (int net = 0; net < NETWORKS; net++) sockets[net] = (struct pollfd){networks[net].socket, POLLIN, 0};
    puts("ready");
    fflush(stdout);
    while (!is_asked_to_end && time_now() < end) {
        if (poll(sockets, NETWORKS, WAIT_MS) < 0 && errno != EINTR) stop("poll");
        receive_all();
    }
}

/* How many frames of all links had this verdict. */
static uint64_t count_of(uint32_t net, uint32_t kind) {
    uint64_t count = 0, all = 0;
    size_t links = 0;
    yelunnavi_receiver_links(&receiver, &links);
    for (size_t link = 0; link < links; link++)
        if (yelunnavi_receiver_count(&receiver, link, net, kind, &count) == YELUNNAVI_DONE) all += count;
    return all;
}

static void tell(uint32_t net) {
    struct tpacket_stats lost = {0};
    socklen_t size = sizeof lost;
    uint64_t count;
    for (uint32_t kind = YELUNNAVI_VERDICT_OUT_OF_SEQUENCE; kind <= YELUNNAVI_VERDICT_EXHAUSTED; kind++)
        if ((count = count_of(net, kind))) printf("%s %s %" PRIu64 "\n", yelunnavi_network_word(net), yelunnavi_verdict_word(kind), count);
    for (uint32_t cause = YELUNNAVI_FILTER_TOO_SHORT; cause <= YELUNNAVI_FILTER_UNKNOWN_LINK; cause++)
        if (yelunnavi_receiver_filtered(&receiver, net, cause, &count) == YELUNNAVI_DONE && count)
            printf("%s filtered %s %" PRIu64 "\n", yelunnavi_network_word(net), yelunnavi_filter_word(cause), count);
    if (!getsockopt(networks[net].socket, SOL_PACKET, PACKET_STATISTICS, &lost, &size))
        printf("%s lost by the kernel %u\n", yelunnavi_network_word(net), lost.tp_drops);
}

int main(int argc, char **argv) {
    pthread_t of_reader, of_queue;
    struct sigaction ending = {.sa_handler = ask_to_end};
    if (argc != 4 && argc != 5) {
        fputs("live CONFIG INTERFACE_A INTERFACE_B [SECONDS]\n", stderr);
        return 2;
    }
    open_all(argv[1]);
    for (int net = 0; net < NETWORKS; net++) open_socket(&networks[net], argv[2 + net]);
    sigaction(SIGINT, &ending, NULL), sigaction(SIGTERM, &ending, NULL);
    if (sampling.is_there) check(!pthread_create(&of_reader, NULL, read_turns, NULL), "a thread");
    if (queuing.is_there) check(!pthread_create(&of_queue, NULL, take_turns, NULL), "a thread");
    run_until(argc == 5 ? time_now() + strtoull(argv[4], NULL, 10) * 1000000 : UINT64_MAX);
    receive_all();
    atomic_store(&is_over, true);
    if (sampling.is_there) pthread_join(of_reader, NULL);
    if (queuing.is_there) pthread_join(of_queue, NULL);
    for (uint32_t net = 0; net < NETWORKS; net++) tell(net), close(networks[net].socket);
    printf("%.*s: %" PRIu64 " turns, %" PRIu64 " with a fresh message, the newest is number %" PRIu64 "\n",
           (int)sampling.port.name_len, sampling.name, turns, fresh, newest);
    printf("%.*s: %" PRIu64 " taken\n", (int)queuing.port.name_len, queuing.name, taken);
    yelunnavi_reader_close(&reader), yelunnavi_queue_close(&queue), yelunnavi_receiver_close(&receiver);
    return 0;
}
