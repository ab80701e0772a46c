/* The names of examples/c/arinc653.h do what ARINC 653 says of them: a partition creates its ports, and reads and receives
   what two frames bring. Fails with the line of the first call that answers something else, or with a status. */
#include "arinc653.h"
#include <stdio.h>
#include <stdlib.h>

#define WANT(code, call)                                                                      \
    do {                                                                                      \
        RETURN_CODE_TYPE answer = TIMED_OUT;                                                  \
        call;                                                                                 \
        if (answer != (code)) {                                                               \
            fprintf(stderr, "line %d: %s, and not %d\n", __LINE__, #code, (int)answer);       \
            exit(1);                                                                          \
        }                                                                                     \
    } while (0)

static const char CONFIG[] =
    "[[link]]\nvl = 17\nskew_max_us = 1000\nreassembly_us = 50000\n"
    "[[link.port]]\nname = \"pos\"\nkind = \"sampling\"\naddress = \"224.224.0.17\"\nudp = 5000\nrefresh_us = 20000\n"
    "[[link.port]]\nname = \"nav\"\nkind = \"queuing\"\naddress = \"224.224.0.17\"\nudp = 5002\nmax = 64\ndepth = 2\n";
/* 17 octets for `pos`, or with another octet at 37 for `nav`; the sequence number is the last octet. */
static uint8_t frame[60] = {3, 0, 0, 0, 0, 17, 2, 0, 0, 0, 1, 32, 8, 0, 69, 0, 0, 45, 0, 1, 0, 0, 1, 17, 205, 204, 10, 1, 1, 1,
    224, 224, 0, 17, 19, 137, 19, 136, 0, 25, 0, 0, 1, 2, 3};
enum { OF_PORT = 37, OF_NAV = 138 };

static uint64_t now;
static uint64_t room[YELUNNAVI_RECEIVER_OCTETS / 8U];
static struct yelunnavi_receiver receiver;
static uint8_t out[YELUNNAVI_LONGEST_QUEUED];
static SAMPLING_PORT_NAME_TYPE pos_name = "pos";
static QUEUING_PORT_NAME_TYPE nav_name = "nav";
static SAMPLING_PORT_ID_TYPE pos;
static QUEUING_PORT_ID_TYPE nav;

uint64_t apex_now(void) { return now; }

static void of_creating(void) {
    APEX_INTEGER other = 0;
    SAMPLING_PORT_NAME_TYPE no_name = "posn";
    WANT(INVALID_CONFIG, CREATE_SAMPLING_PORT(no_name, 1471, DESTINATION, 20000000, &other, &answer));
    WANT(INVALID_CONFIG, CREATE_SAMPLING_PORT(nav_name, 64, DESTINATION, 2000, &other, &answer));
    WANT(INVALID_CONFIG, CREATE_SAMPLING_PORT(pos_name, 1470, DESTINATION, 20000000, &other, &answer));
    WANT(INVALID_CONFIG, CREATE_SAMPLING_PORT(pos_name, 1471, SOURCE, 20000000, &other, &answer));
    WANT(INVALID_CONFIG, CREATE_SAMPLING_PORT(pos_name, 1471, DESTINATION, 20001000, &other, &answer));
    WANT(INVALID_CONFIG, CREATE_SAMPLING_PORT(pos_name, 1471, DESTINATION, 20000001, &other, &answer));
    WANT(INVALID_CONFIG, CREATE_QUEUING_PORT(nav_name, 64, 3, DESTINATION, FIFO, &other, &answer));
    WANT(INVALID_CONFIG, CREATE_QUEUING_PORT(nav_name, 64, 2, DESTINATION, PRIORITY, &other, &answer));
    if (other) exit(2);
    WANT(NO_ERROR, CREATE_SAMPLING_PORT(pos_name, 1471, DESTINATION, 20000000, &pos, &answer));
    WANT(NO_ERROR, CREATE_QUEUING_PORT(nav_name, 64, 2, DESTINATION, FIFO, &nav, &answer));
    WANT(NO_ACTION, CREATE_SAMPLING_PORT(pos_name, 1471, DESTINATION, 20000000, &other, &answer));
    WANT(NO_ACTION, CREATE_QUEUING_PORT(nav_name, 64, 2, DESTINATION, FIFO, &other, &answer));
    if (other || pos == nav) exit(3);
}

static void of_empty_ports(void) {
    MESSAGE_SIZE_TYPE len = 7;
    VALIDITY_TYPE validity = VALID;
    WANT(NO_ACTION, READ_SAMPLING_MESSAGE(pos, out, &len, &validity, &answer));
    if (len != 0 || validity != INVALID) exit(4);
    len = 7;
    WANT(NOT_AVAILABLE, RECEIVE_QUEUING_MESSAGE(nav, 0, out, &len, &answer));
    if (len != 0) exit(5);
    WANT(INVALID_PARAM, READ_SAMPLING_MESSAGE(nav, out, &len, &validity, &answer));
    WANT(INVALID_PARAM, RECEIVE_QUEUING_MESSAGE(0, 0, out, &len, &answer));
    WANT(INVALID_PARAM, RECEIVE_QUEUING_MESSAGE(3, 0, out, &len, &answer));
}

static uint32_t kind_of(uint8_t number) {
    struct yelunnavi_verdict reply;
    frame[59] = number;
    if (yelunnavi_receiver_receive(&receiver, YELUNNAVI_A, now, frame, sizeof frame, &reply) != YELUNNAVI_DONE) exit(6);
    return reply.kind;
}

static void receive(uint8_t number) {
    uint32_t kind = kind_of(number);
    if (kind != YELUNNAVI_VERDICT_SAMPLED && kind != YELUNNAVI_VERDICT_QUEUED) exit(7);
}

static void lose(uint8_t number) {
    if (kind_of(number) != YELUNNAVI_VERDICT_OVERFLOW) exit(19);
}

static void of_messages(void) {
    SAMPLING_PORT_STATUS_TYPE status;
    MESSAGE_SIZE_TYPE len = 0;
    VALIDITY_TYPE validity = INVALID;
    now = 1000;
    receive(0);
    frame[OF_PORT] = OF_NAV;
    receive(1);
    now = 21000;
    WANT(NO_ERROR, READ_SAMPLING_MESSAGE(pos, out, &len, &validity, &answer));
    if (len != 17 || validity != VALID || out[0] != 1 || out[2] != 3) exit(8);
    WANT(NO_ERROR, GET_SAMPLING_PORT_STATUS(pos, &status, &answer));
    if (status.LAST_MSG_VALIDITY != VALID) exit(15);
    now = 21001;
    WANT(NO_ERROR, READ_SAMPLING_MESSAGE(pos, out, &len, &validity, &answer));
    if (len != 17 || validity != INVALID) exit(9);
    WANT(NO_ERROR, RECEIVE_QUEUING_MESSAGE(nav, 0, out, &len, &answer));
    if (len != 17 || out[1] != 2) exit(10);
    WANT(NOT_AVAILABLE, RECEIVE_QUEUING_MESSAGE(nav, 0, out, &len, &answer));
}

/* Two messages fill the queue, and two overflow: the next one that is put tells it, and no other. */
static void of_overflow(void) {
    QUEUING_PORT_STATUS_TYPE status;
    MESSAGE_SIZE_TYPE len = 0;
    receive(2);
    receive(3);
    lose(4);
    lose(5);
    WANT(NO_ERROR, GET_QUEUING_PORT_STATUS(nav, &status, &answer));
    if (status.NB_MESSAGE != 2) exit(17);
    WANT(NO_ERROR, RECEIVE_QUEUING_MESSAGE(nav, 0, out, &len, &answer));
    receive(6);
    WANT(NO_ERROR, RECEIVE_QUEUING_MESSAGE(nav, 0, out, &len, &answer));
    WANT(INVALID_CONFIG, RECEIVE_QUEUING_MESSAGE(nav, 0, out, &len, &answer));
    if (len != 17) exit(18);
    receive(7);
    WANT(NO_ERROR, RECEIVE_QUEUING_MESSAGE(nav, 0, out, &len, &answer));
    WANT(NOT_AVAILABLE, RECEIVE_QUEUING_MESSAGE(nav, 0, out, &len, &answer));
}

static void of_status(void) {
    SAMPLING_PORT_STATUS_TYPE sampling;
    QUEUING_PORT_STATUS_TYPE queuing;
    WANT(NO_ERROR, GET_SAMPLING_PORT_STATUS(pos, &sampling, &answer));
    if (sampling.REFRESH_PERIOD != 20000000 || sampling.MAX_MESSAGE_SIZE != 1471 || sampling.PORT_DIRECTION != DESTINATION
        || sampling.LAST_MSG_VALIDITY != INVALID) exit(11);
    WANT(NO_ERROR, GET_QUEUING_PORT_STATUS(nav, &queuing, &answer));
    if (queuing.NB_MESSAGE != 0 || queuing.MAX_NB_MESSAGE != 2 || queuing.MAX_MESSAGE_SIZE != 64 || queuing.PORT_DIRECTION != DESTINATION) exit(12);
    WANT(INVALID_PARAM, GET_SAMPLING_PORT_STATUS(nav, &sampling, &answer));
    WANT(INVALID_PARAM, GET_QUEUING_PORT_STATUS(pos, &queuing, &answer));
}

int main(void) {
    struct yelunnavi_fault fault;
    if (yelunnavi_abi() != YELUNNAVI_ABI) return 16;
    if (yelunnavi_receiver_init(&receiver, room, sizeof room) != YELUNNAVI_DONE) return 13;
    if (yelunnavi_receiver_open(&receiver, (const uint8_t *)CONFIG, sizeof CONFIG - 1, 1, &fault) != YELUNNAVI_DONE) return 14;
    apex_receiver = &receiver;
    of_creating();
    of_empty_ports();
    of_messages();
    of_overflow();
    of_status();
    return 0;
}
