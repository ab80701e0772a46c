/*
 * A reader of TOML documents.
 *
 * It reads all of TOML 1.0's statements and values (bare, quoted and dotted keys, tables, arrays of tables, inline
 * tables, arrays over several lines, the four kinds of string, the four kinds of integer within 64 bits, floats,
 * booleans, dates and times), but
 *
 *   - arrays and inline tables that are nested more than 80 deep are refused;
 *   - a dotted key may go on in a table only where that table was made by a dotted key of the same section, or by a
 *     longer header alone;
 *   - what TOML 1.1 has beyond 1.0 is refused.
 *
 * A byte order mark at the beginning is skipped. A document that is refused ends the program.
 */
#ifndef TOML_H
#define TOML_H
#include "base.h"

typedef enum { V_STRING, V_INTEGER, V_FLOAT, V_BOOLEAN, V_DATE, V_ARRAY, V_TABLE } ValueKind;

typedef struct Value Value;
typedef struct {
    const u8 *key;
    size_t len;
    Value *value;
} Entry;

struct Value {
    ValueKind kind;
    int made_by;     /* of a table: what made it */
    bool of_headers; /* of an array: whether headers made it */
    unsigned section;
    int64_t number; /* an integer, a boolean */
    const u8 *text; /* a string */
    size_t len;     /* of a string, or how many members there are */
    size_t room;
    Value **items;
    Entry *entries;
};

/* Reads a document. */
Value *toml_read(const u8 *text, size_t len);
/* The value of a key in a table, or NULL. */
Value *toml_get(const Value *table, const u8 *key, size_t len);

/* The value of a hexadecimal digit, or -1. */
int digit_of(int octet);
bool is_utf8(const u8 *text, size_t len);

#endif
