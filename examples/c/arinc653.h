/* The names of ARINC 653 Part 1 over yelunnavi.h, an example: the ports of one partition, in a table of the file that includes
   this. CREATE_.. calls the receiver, so a partition creates its ports before the task that receives begins; what it reads and
   receives afterwards is its own thread's. The program has apex_now, the clock of the arrival times. Otherwise than in ARINC
   653: a TIME_OUT isn't waited for, an overflow is told with the next message that was put, and not before, and a status has no
   WAITING_PROCESSES. */
#ifndef ARINC653_H
#define ARINC653_H
#include "yelunnavi.h"

/* A value as one of another type. */
#ifdef __cplusplus
#define APEX_AS(type, value) static_cast<type>(value)
#else
#define APEX_AS(type, value) ((type)(value))
#endif

typedef int32_t APEX_INTEGER, MESSAGE_SIZE_TYPE, MESSAGE_RANGE_TYPE, SAMPLING_PORT_ID_TYPE, QUEUING_PORT_ID_TYPE;
typedef int64_t SYSTEM_TIME_TYPE; /* nanoseconds */
typedef uint8_t *MESSAGE_ADDR_TYPE;
typedef char SAMPLING_PORT_NAME_TYPE[30], QUEUING_PORT_NAME_TYPE[30];
typedef enum { NO_ERROR, NO_ACTION, NOT_AVAILABLE, INVALID_PARAM, INVALID_CONFIG, INVALID_MODE, TIMED_OUT } RETURN_CODE_TYPE;
typedef enum { SOURCE, DESTINATION } PORT_DIRECTION_TYPE;
typedef enum { INVALID, VALID } VALIDITY_TYPE;
typedef enum { FIFO, PRIORITY } QUEUING_DISCIPLINE_TYPE;
typedef struct {
    SYSTEM_TIME_TYPE REFRESH_PERIOD;
    MESSAGE_SIZE_TYPE MAX_MESSAGE_SIZE;
    PORT_DIRECTION_TYPE PORT_DIRECTION;
    VALIDITY_TYPE LAST_MSG_VALIDITY;
} SAMPLING_PORT_STATUS_TYPE;
typedef struct {
    MESSAGE_RANGE_TYPE NB_MESSAGE, MAX_NB_MESSAGE;
    MESSAGE_SIZE_TYPE MAX_MESSAGE_SIZE;
    PORT_DIRECTION_TYPE PORT_DIRECTION;
} QUEUING_PORT_STATUS_TYPE;

enum { APEX_PORTS = 8 };
/* An end and its room, the settings of its port, and the validity of the message that was read last. */
static struct apex_port {
    uint64_t room[16];
    struct yelunnavi_reader reader;
    struct yelunnavi_queue queue;
    struct yelunnavi_port port;
    VALIDITY_TYPE validity;
} apex_ports[APEX_PORTS];
static APEX_INTEGER apex_created;
static struct yelunnavi_receiver *apex_receiver; /* whose ports these are: set once it is open */
uint64_t apex_now(void);                         /* the program's: microseconds, on the clock of the arrival times */

/* Takes an end of the port with this name, if it has this service, length and limit, into room of the table's. */
static inline void apex_create(const char *text, uint32_t service, MESSAGE_SIZE_TYPE max, SYSTEM_TIME_TYPE limit,
                               PORT_DIRECTION_TYPE direction, APEX_INTEGER *id, RETURN_CODE_TYPE *answer) {
    struct yelunnavi_place place;
    uint8_t name[YELUNNAVI_LONGEST_NAME];
    const void *octets = text;
    size_t len = 0;
    while (len < sizeof(SAMPLING_PORT_NAME_TYPE) && text[len]) len++;
    *answer = INVALID_CONFIG;
    if (apex_created == APEX_PORTS || direction != DESTINATION) return;
    struct apex_port *to = &apex_ports[apex_created];
    if (yelunnavi_receiver_place(apex_receiver, APEX_AS(const uint8_t *, octets), len, &place) != YELUNNAVI_DONE
        || yelunnavi_receiver_port(apex_receiver, place.link, place.port, &to->port, &name) != YELUNNAVI_DONE) return;
    if (to->port.service != service || APEX_AS(MESSAGE_SIZE_TYPE, to->port.max) != max
        || APEX_AS(SYSTEM_TIME_TYPE, to->port.limit) != limit) return;
    uint32_t code;
    if (service == YELUNNAVI_SERVICE_SAMPLING) {
        if (yelunnavi_reader_init(&to->reader, to->room, sizeof to->room) != YELUNNAVI_DONE) return;
        code = yelunnavi_receiver_hand_reader(apex_receiver, &to->reader, name, len);
    } else {
        if (yelunnavi_queue_init(&to->queue, to->room, sizeof to->room) != YELUNNAVI_DONE) return;
        code = yelunnavi_receiver_hand_queue(apex_receiver, &to->queue, name, len);
    }
    *answer = code == YELUNNAVI_DONE ? NO_ERROR : NO_ACTION;
    if (code == YELUNNAVI_DONE) *id = ++apex_created;
}

static inline struct apex_port *apex_port_of(APEX_INTEGER id, uint32_t service) {
    return id < 1 || id > apex_created || apex_ports[id - 1].port.service != service ? NULL : &apex_ports[id - 1];
}

static inline void CREATE_SAMPLING_PORT(SAMPLING_PORT_NAME_TYPE name, MESSAGE_SIZE_TYPE max, PORT_DIRECTION_TYPE direction,
                                        SYSTEM_TIME_TYPE period, SAMPLING_PORT_ID_TYPE *id, RETURN_CODE_TYPE *answer) {
    apex_create(name, YELUNNAVI_SERVICE_SAMPLING, max, period % 1000 ? -1 : period / 1000, direction, id, answer);
}

static inline void CREATE_QUEUING_PORT(QUEUING_PORT_NAME_TYPE name, MESSAGE_SIZE_TYPE max, MESSAGE_RANGE_TYPE depth, PORT_DIRECTION_TYPE
                                       direction, QUEUING_DISCIPLINE_TYPE discipline, QUEUING_PORT_ID_TYPE *id, RETURN_CODE_TYPE *answer) {
    if (discipline != FIFO) *answer = INVALID_CONFIG;
    else apex_create(name, YELUNNAVI_SERVICE_QUEUING, max, depth, direction, id, answer);
}

/* `message` has room for the longest message of the port. */
static inline void READ_SAMPLING_MESSAGE(SAMPLING_PORT_ID_TYPE id, MESSAGE_ADDR_TYPE message, MESSAGE_SIZE_TYPE *len,
                                         VALIDITY_TYPE *validity, RETURN_CODE_TYPE *answer) {
    struct apex_port *port = apex_port_of(id, YELUNNAVI_SERVICE_SAMPLING);
    struct yelunnavi_read found;
    *answer = INVALID_PARAM;
    if (!port) return;
    if (yelunnavi_reader_read(&port->reader, apex_now(), message, port->port.max, &found) != YELUNNAVI_DONE) return;
    *answer = found.found ? NO_ERROR : NO_ACTION;
    *len = APEX_AS(MESSAGE_SIZE_TYPE, found.len);
    *validity = port->validity = found.valid ? VALID : INVALID;
}

/* INVALID_CONFIG: a message was received, and the queue overflowed right before it was put. */
static inline void RECEIVE_QUEUING_MESSAGE(QUEUING_PORT_ID_TYPE id, SYSTEM_TIME_TYPE time_out, MESSAGE_ADDR_TYPE message,
                                           MESSAGE_SIZE_TYPE *len, RETURN_CODE_TYPE *answer) {
    struct apex_port *port = apex_port_of(id, YELUNNAVI_SERVICE_QUEUING);
    struct yelunnavi_taken taken;
    (void)time_out;
    *answer = INVALID_PARAM;
    if (!port) return;
    if (yelunnavi_queue_take(&port->queue, message, port->port.max, &taken) != YELUNNAVI_DONE) return;
    *answer = !taken.found ? NOT_AVAILABLE : taken.lost ? INVALID_CONFIG : NO_ERROR;
    *len = APEX_AS(MESSAGE_SIZE_TYPE, taken.len);
}

static inline void GET_SAMPLING_PORT_STATUS(SAMPLING_PORT_ID_TYPE id, SAMPLING_PORT_STATUS_TYPE *status, RETURN_CODE_TYPE *answer) {
    const struct apex_port *port = apex_port_of(id, YELUNNAVI_SERVICE_SAMPLING);
    *answer = port ? NO_ERROR : INVALID_PARAM;
    if (!port) return;
    status->REFRESH_PERIOD = APEX_AS(SYSTEM_TIME_TYPE, port->port.limit) * 1000;
    status->MAX_MESSAGE_SIZE = APEX_AS(MESSAGE_SIZE_TYPE, port->port.max);
    status->PORT_DIRECTION = DESTINATION;
    status->LAST_MSG_VALIDITY = port->validity;
}

static inline void GET_QUEUING_PORT_STATUS(QUEUING_PORT_ID_TYPE id, QUEUING_PORT_STATUS_TYPE *status, RETURN_CODE_TYPE *answer) {
    struct apex_port *port = apex_port_of(id, YELUNNAVI_SERVICE_QUEUING);
    size_t waiting;
    *answer = INVALID_PARAM;
    if (!port || yelunnavi_queue_waiting(&port->queue, &waiting) != YELUNNAVI_DONE) return;
    *answer = NO_ERROR;
    status->NB_MESSAGE = APEX_AS(MESSAGE_RANGE_TYPE, waiting);
    status->MAX_NB_MESSAGE = APEX_AS(MESSAGE_RANGE_TYPE, port->port.limit);
    status->MAX_MESSAGE_SIZE = APEX_AS(MESSAGE_SIZE_TYPE, port->port.max);
    status->PORT_DIRECTION = DESTINATION;
}
#endif
