/* Words for the numbers of yelunnavi.h: those that afdx_play prints (docs/FORMATS.md), and of codes, levels and services their
   names. A number that has none is "?". */
#ifndef YELUNNAVI_WORDS_H
#define YELUNNAVI_WORDS_H
#include "yelunnavi.h"

static inline const char *yelunnavi_code_word(uint32_t code) {
    const char *word = "?";
    switch (code) {
    case YELUNNAVI_DONE: word = "done"; break;
    case YELUNNAVI_NOT_OPEN: word = "not-open"; break;
    case YELUNNAVI_ALREADY_OPEN: word = "already-open"; break;
    case YELUNNAVI_FAULTY: word = "faulty"; break;
    case YELUNNAVI_NO_MEMORY: word = "no-memory"; break;
    case YELUNNAVI_NO_NETWORK: word = "no-network"; break;
    case YELUNNAVI_NO_KIND: word = "no-kind"; break;
    case YELUNNAVI_NO_PLACE: word = "no-place"; break;
    case YELUNNAVI_NO_NAME: word = "no-name"; break;
    case YELUNNAVI_NONE_LEFT: word = "none-left"; break;
    case YELUNNAVI_HOLDS_ONE: word = "holds-one"; break;
    case YELUNNAVI_HOLDS_NONE: word = "holds-none"; break;
    case YELUNNAVI_OUT_OF_RANGE: word = "out-of-range"; break;
    case YELUNNAVI_TOO_SHORT: word = "too-short"; break;
    case YELUNNAVI_NOT_MADE: word = "not-made"; break;
    case YELUNNAVI_NO_ROOM: word = "no-room"; break;
    case YELUNNAVI_BUSY: word = "busy"; break;
    case YELUNNAVI_STRAY_KEY: word = "stray-key"; break;
    default: break;
    }
    return word;
}

static inline const char *yelunnavi_network_word(uint32_t net) {
    const char *word = "?";
    switch (net) {
    case YELUNNAVI_A: word = "A"; break;
    case YELUNNAVI_B: word = "B"; break;
    default: break;
    }
    return word;
}

static inline const char *yelunnavi_verdict_word(uint32_t kind) {
    const char *word = "?";
    switch (kind) {
    case YELUNNAVI_VERDICT_FILTERED: word = "filtered"; break;
    case YELUNNAVI_VERDICT_OUT_OF_SEQUENCE: word = "out-of-sequence"; break;
    case YELUNNAVI_VERDICT_REDUNDANT: word = "redundant"; break;
    case YELUNNAVI_VERDICT_BAD_HEADER: word = "bad-header"; break;
    case YELUNNAVI_VERDICT_BAD_FRAGMENT: word = "bad-fragment"; break;
    case YELUNNAVI_VERDICT_FRAGMENT_HELD: word = "fragment-held"; break;
    case YELUNNAVI_VERDICT_BAD_UDP: word = "bad-udp"; break;
    case YELUNNAVI_VERDICT_NO_PORT: word = "no-port"; break;
    case YELUNNAVI_VERDICT_TOO_LONG: word = "too-long"; break;
    case YELUNNAVI_VERDICT_FRAGMENTED_SAMPLE: word = "fragmented-sample"; break;
    case YELUNNAVI_VERDICT_SAMPLED: word = "sampled"; break;
    case YELUNNAVI_VERDICT_QUEUED: word = "queued"; break;
    case YELUNNAVI_VERDICT_OVERFLOW: word = "overflow"; break;
    case YELUNNAVI_VERDICT_EXHAUSTED: word = "exhausted"; break;
    default: break;
    }
    return word;
}

static inline const char *yelunnavi_filter_word(uint32_t cause) {
    const char *word = "?";
    switch (cause) {
    case YELUNNAVI_FILTER_TOO_SHORT: word = "too-short"; break;
    case YELUNNAVI_FILTER_TOO_LONG: word = "too-long"; break;
    case YELUNNAVI_FILTER_NOT_IP: word = "not-ip"; break;
    case YELUNNAVI_FILTER_FOREIGN_CONSTANT: word = "foreign-constant"; break;
    case YELUNNAVI_FILTER_UNKNOWN_LINK: word = "unknown-link"; break;
    default: break;
    }
    return word;
}

static inline const char *yelunnavi_header_word(uint32_t fault) {
    const char *word = "?";
    switch (fault) {
    case YELUNNAVI_BAD_VERSION: word = "version"; break;
    case YELUNNAVI_BAD_HEADER_LENGTH: word = "header-length"; break;
    case YELUNNAVI_BAD_TOTAL_LENGTH: word = "total-length"; break;
    case YELUNNAVI_BAD_CHECKSUM: word = "checksum"; break;
    case YELUNNAVI_BAD_PROTOCOL: word = "protocol"; break;
    default: break;
    }
    return word;
}

/* The fault of a configuration is these words before its key, the word of the key, and the words after it: for example
   printf("%s%s%s", yelunnavi_fault_before(f.fault), yelunnavi_key_word(f.key), yelunnavi_fault_after(f.fault)). */
static inline const char *yelunnavi_fault_before(uint32_t fault) {
    const char *word = "";
    switch (fault) {
    case YELUNNAVI_FAULT_TEXT: word = "not TOML"; break;
    case YELUNNAVI_FAULT_MISSING: word = "missing "; break;
    case YELUNNAVI_FAULT_KIND: word = "wrong kind of "; break;
    case YELUNNAVI_FAULT_RANGE: word = ""; break;
    case YELUNNAVI_FAULT_DOUBLE_LINK: word = "link given twice"; break;
    case YELUNNAVI_FAULT_DOUBLE_PORT: word = "port given twice"; break;
    case YELUNNAVI_FAULT_DOUBLE_NAME: word = "name given twice"; break;
    case YELUNNAVI_FAULT_TOO_MANY: word = "too many links or ports"; break;
    default: break;
    }
    return word;
}

static inline const char *yelunnavi_fault_after(uint32_t fault) {
    const char *word = "";
    switch (fault) {
    case YELUNNAVI_FAULT_RANGE: word = " out of range"; break;
    default: break;
    }
    return word;
}

/* A key as a configuration spells it, and nothing if it is none. */
static inline const char *yelunnavi_key_word(uint32_t key) {
    const char *word = "?";
    switch (key) {
    case YELUNNAVI_KEY_NONE: word = ""; break;
    case YELUNNAVI_KEY_CONSTANT: word = "constant"; break;
    case YELUNNAVI_KEY_LINK: word = "link"; break;
    case YELUNNAVI_KEY_VL: word = "vl"; break;
    case YELUNNAVI_KEY_SKEW_MAX_US: word = "skew_max_us"; break;
    case YELUNNAVI_KEY_REDUNDANCY: word = "redundancy"; break;
    case YELUNNAVI_KEY_REASSEMBLY_US: word = "reassembly_us"; break;
    case YELUNNAVI_KEY_WINDOW: word = "window"; break;
    case YELUNNAVI_KEY_PORT: word = "port"; break;
    case YELUNNAVI_KEY_NAME: word = "name"; break;
    case YELUNNAVI_KEY_KIND: word = "kind"; break;
    case YELUNNAVI_KEY_ADDRESS: word = "address"; break;
    case YELUNNAVI_KEY_UDP: word = "udp"; break;
    case YELUNNAVI_KEY_MAX: word = "max"; break;
    case YELUNNAVI_KEY_REFRESH_US: word = "refresh_us"; break;
    case YELUNNAVI_KEY_DEPTH: word = "depth"; break;
    case YELUNNAVI_KEY_READERS: word = "readers"; break;
    default: break;
    }
    return word;
}

/* What a key may have (docs/FORMATS.md, configuration), and nothing if it is none. */
static inline const char *yelunnavi_key_allowed(uint32_t key) {
    const char *word = "?";
    switch (key) {
    case YELUNNAVI_KEY_NONE: word = ""; break;
    case YELUNNAVI_KEY_CONSTANT: word = "a string of 8 hexadecimal digits"; break;
    case YELUNNAVI_KEY_LINK: word = "1 to 64 tables"; break;
    case YELUNNAVI_KEY_VL: word = "an integer from 0 to 65535"; break;
    case YELUNNAVI_KEY_SKEW_MAX_US: word = "an integer from 0 to 1000000"; break;
    case YELUNNAVI_KEY_REDUNDANCY: word = "true or false"; break;
    case YELUNNAVI_KEY_REASSEMBLY_US: word = "an integer from 0 to 10000000"; break;
    case YELUNNAVI_KEY_WINDOW: word = "an integer from 1 to 4"; break;
    case YELUNNAVI_KEY_PORT: word = "0 to 32 tables"; break;
    case YELUNNAVI_KEY_NAME: word = "a string of 1 to 16 of a-z 0-9 _ -"; break;
    case YELUNNAVI_KEY_KIND: word = "\"sampling\" or \"queuing\""; break;
    case YELUNNAVI_KEY_ADDRESS: word = "a string of four numbers from 0 to 255 with dots between them"; break;
    case YELUNNAVI_KEY_UDP: word = "an integer from 0 to 65535"; break;
    case YELUNNAVI_KEY_MAX: word = "an integer from 0 to 1471 of a sampling port, 8192 of a queuing port"; break;
    case YELUNNAVI_KEY_REFRESH_US: word = "an integer from 0 to 1000000000"; break;
    case YELUNNAVI_KEY_DEPTH: word = "an integer from 1 to 64"; break;
    case YELUNNAVI_KEY_READERS: word = "an integer from 0 to 8"; break;
    default: break;
    }
    return word;
}

static inline const char *yelunnavi_level_word(uint32_t level) {
    const char *word = "?";
    switch (level) {
    case YELUNNAVI_LEVEL_DOCUMENT: word = "document"; break;
    case YELUNNAVI_LEVEL_LINK: word = "link"; break;
    case YELUNNAVI_LEVEL_PORT: word = "port"; break;
    default: break;
    }
    return word;
}

static inline const char *yelunnavi_service_word(uint32_t service) {
    const char *word = "?";
    switch (service) {
    case YELUNNAVI_SERVICE_SAMPLING: word = "sampling"; break;
    case YELUNNAVI_SERVICE_QUEUING: word = "queuing"; break;
    default: break;
    }
    return word;
}
#endif
