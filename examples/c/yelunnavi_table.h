/* What a program wants of a table of rows before it opens it: names as literals, and how much memory the opening asks for.

   Octets are as the library asks for them. A program's functions for memory may take more: one that rounds each request up to
   16 octets takes up to 15 more for each. An opening of a text asks for what the opening of its table does, and while it reads
   the text for more, which it gives back before it opens anything: how much hangs on the text: memory.c of the examples counts it. */
#ifndef YELUNNAVI_TABLE_H
#define YELUNNAVI_TABLE_H
#include "yelunnavi.h"

#ifdef __cplusplus
extern "C" {
#endif

/* The fields `name_len` and `name` of a row, by a literal of 1 to 16 octets: C++ takes none of 16 for an array of 16. */
#ifdef __cplusplus
#define YELUNNAVI_OCTET(text, k) static_cast<uint8_t>((k) < sizeof(text) ? (text)[(k) < sizeof(text) ? (k) : 0U] : '\0')
#define YELUNNAVI_NAME(text)                                                                                                    \
    (sizeof(text) - 1U), {                                                                                                      \
        YELUNNAVI_OCTET(text, 0U), YELUNNAVI_OCTET(text, 1U), YELUNNAVI_OCTET(text, 2U), YELUNNAVI_OCTET(text, 3U),             \
        YELUNNAVI_OCTET(text, 4U), YELUNNAVI_OCTET(text, 5U), YELUNNAVI_OCTET(text, 6U), YELUNNAVI_OCTET(text, 7U),             \
        YELUNNAVI_OCTET(text, 8U), YELUNNAVI_OCTET(text, 9U), YELUNNAVI_OCTET(text, 10U), YELUNNAVI_OCTET(text, 11U),           \
        YELUNNAVI_OCTET(text, 12U), YELUNNAVI_OCTET(text, 13U), YELUNNAVI_OCTET(text, 14U), YELUNNAVI_OCTET(text, 15U)          \
    }
#else
#define YELUNNAVI_NAME(text) (sizeof(text) - 1U), text
#endif

struct yelunnavi_memory {
    size_t stays;    /* octets that stay until all is closed, with each end that was handed out: exactly */
    size_t asked;    /* octets of all requests together, at most: what a pool needs to which nothing comes back */
    size_t requests; /* how many requests there are, at most */
};

/* What of it is a receiver's, and what a system's. */
struct yelunnavi_share {
    size_t link;       /* octets of a link */
    size_t place;      /* of each place of the lists of links, which grow by doubling */
    size_t beside;     /* beside all links */
    size_t given_back; /* of a link, given back by the opening */
    size_t requests;   /* requests for what stands beside all links, lists that have grown to 4 places among it */
    size_t for_a_link; /* requests for a link */
    size_t lists;      /* how many lists of links there are, with that of the rows' configuration */
};

/* How often a list doubled from its first size, until it had room for so much. */
static inline size_t yelunnavi_doublings(size_t first, size_t needed) {
    size_t count = 0U;
    for (size_t size = first; size < needed; size *= 2U) {
        count++;
    }
    return count;
}

/* How many upper octets these links' numbers have: each takes a page of the places. */
static inline size_t yelunnavi_pages_for(const struct yelunnavi_link_row *links, size_t links_len) {
    size_t pages = 0U;
    for (size_t at = 0U; at < links_len; at++) {
        size_t earlier = 0U;
        while ((earlier < at) && ((links[earlier].vl / 256U) != (links[at].vl / 256U))) {
            earlier++;
        }
        pages += (earlier == at) ? 1U : 0U;
    }
    return pages;
}

/* Adds the links, their lists and their places by number; and those of the rows' configuration, which are given back. */
static inline void yelunnavi_add_links(struct yelunnavi_memory *memory, const struct yelunnavi_share *share,
                                       const struct yelunnavi_link_row *links, size_t links_len) {
    const size_t first_room = 4U;
    const size_t first_places = 4096U;
    const size_t doubled = yelunnavi_doublings(first_room, links_len);
    const size_t room = first_room << doubled;
    const size_t turned = yelunnavi_doublings(first_places, 512U * (yelunnavi_pages_for(links, links_len) + 1U));
    const size_t places = first_places << turned;
    memory->stays += share->beside + (links_len * share->link) + (room * share->place) + places;
    memory->asked += share->beside + (links_len * (share->link + share->given_back)) + (((2U * room) - first_room) * (share->place + 320U))
        + (2U * ((2U * places) - first_places));
    memory->requests += share->requests + (links_len * share->for_a_link) + (share->lists * doubled) + (2U * turned);
    for (size_t at = 0U; at < links_len; at++) {
        memory->requests += (links[at].ports == 0U) ? 0U : 5U;
    }
}

/* Adds a port, of which 48 octets are of the rows' configuration. */
static inline void yelunnavi_add_port(struct yelunnavi_memory *memory, const struct yelunnavi_port_row *port, size_t readers) {
    const size_t octets = port->max;
    if (port->service == YELUNNAVI_CODE(YELUNNAVI_SERVICE_SAMPLING)) {
        size_t count = readers;
        if (port->readers != 0U) {
            count = port->readers;
        }
        memory->stays += 272U + (count * (376U + (3U * octets)));
        memory->asked += 320U + (count * (632U + (3U * octets)));
        memory->requests += 2U + (count * 4U) + ((octets == 0U) ? 0U : (count * 3U)) + ((count == 1U) ? 0U : 1U);
    } else {
        const size_t depth = port->limit;
        memory->stays += 400U + (depth * (40U + octets));
        memory->asked += 448U + (depth * (80U + octets));
        memory->requests += 4U + ((octets == 0U) ? 0U : depth);
    }
}

/* Adds the names of so many ports, which are kept in a tree while rows are read. */
static inline void yelunnavi_add_names(struct yelunnavi_memory *memory, size_t ports_len) {
    size_t leaves = 0U;
    size_t branches = 0U;
    if (ports_len > 15U) {
        leaves = (ports_len + 1U) / 8U;
        branches = (leaves / 7U) + 1U;
    } else if (ports_len > 0U) {
        leaves = 1U;
    } else {
        /* none */
    }
    memory->asked += (368U * leaves) + (496U * branches);
    memory->requests += leaves + branches;
}

static inline struct yelunnavi_memory yelunnavi_memory_for(const struct yelunnavi_share *share,
                                                           const struct yelunnavi_link_row *links, size_t links_len,
                                                           const struct yelunnavi_port_row *ports, size_t ports_len, size_t readers) {
    struct yelunnavi_memory memory = {0U, 0U, 0U};
    yelunnavi_add_links(&memory, share, links, links_len);
    yelunnavi_add_names(&memory, ports_len);
    for (size_t at = 0U; at < ports_len; at++) {
        yelunnavi_add_port(&memory, &ports[at], readers);
    }
    return memory;
}

/* The memory that yelunnavi_receiver_open_table asks for, of rows that it takes. */
static inline struct yelunnavi_memory yelunnavi_receiver_memory_of_table(const struct yelunnavi_link_row *links, size_t links_len,
                                                                         const struct yelunnavi_port_row *ports, size_t ports_len,
                                                                         size_t readers) {
    const struct yelunnavi_share share = {68096U, 320U, 0U, 0U, 6U, 8U, 2U};
    return yelunnavi_memory_for(&share, links, links_len, ports, ports_len, readers);
}

/* The memory that yelunnavi_system_open_table asks for. What is said to stay is with both passes, and goes back with the last of
   the three that is closed. */
static inline struct yelunnavi_memory yelunnavi_system_memory_of_table(const struct yelunnavi_link_row *links, size_t links_len,
                                                                       const struct yelunnavi_port_row *ports, size_t ports_len,
                                                                       size_t readers) {
    const struct yelunnavi_share share = {70992U, 552U, 136U, 24U, 14U, 16U, 8U};
    return yelunnavi_memory_for(&share, links, links_len, ports, ports_len, readers);
}

#ifdef __cplusplus
}
#endif
#endif
