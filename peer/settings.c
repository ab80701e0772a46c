/*
 * The settings of a receiver: see settings.h.
 */
#include "settings.h"
#include "toml.h"

#include <stdio.h>
#include <string.h>

enum { MOST_NAME = 16, MOST_DEPTH = 64, MOST_WINDOW = 4, USUAL_WINDOW = 2 };

/* ---- faults */

static _Noreturn void refuse(const char *form, const char *key)
{
    char rest[96];
    snprintf(rest, sizeof rest, form, key);
    fail(ST_REFUSED, rest);
}

static _Noreturn void missing(const char *key)
{
    refuse("config: missing %s", key);
}

static _Noreturn void wrong_kind(const char *key)
{
    refuse("config: wrong kind of %s", key);
}

static _Noreturn void out_of_range(const char *key)
{
    refuse("config: %s out of range", key);
}

static _Noreturn void given_twice(const char *what)
{
    refuse("config: %s given twice", what);
}

/* ---- keys of a table */

static Value *value_of(const Value *table, const char *key, ValueKind kind)
{
    Value *value = toml_get(table, (const u8 *)key, strlen(key));
    if (value && value->kind != kind)
        wrong_kind(key);
    return value;
}

static u64 integer_or(const Value *table, const char *key, u64 least, u64 most, u64 otherwise)
{
    Value *value = value_of(table, key, V_INTEGER);
    if (!value)
        return otherwise;
    if (value->number < 0 || (u64)value->number < least || (u64)value->number > most)
        out_of_range(key);
    return (u64)value->number;
}

static u64 integer(const Value *table, const char *key, u64 least, u64 most)
{
    if (!toml_get(table, (const u8 *)key, strlen(key)))
        missing(key);
    return integer_or(table, key, least, most, 0);
}

static Value *string(const Value *table, const char *key)
{
    Value *value = value_of(table, key, V_STRING);
    if (!value)
        missing(key);
    return value;
}

/* The tables of an array, or NULL if there is none. */
static Value *tables(const Value *table, const char *key)
{
    Value *value = value_of(table, key, V_ARRAY);
    for (size_t i = 0; value && i < value->len; i++)
        if (value->items[i]->kind != V_TABLE)
            wrong_kind(key);
    return value;
}

static bool is_text(const Value *value, const char *text)
{
    return value->len == strlen(text) && memcmp(value->text, text, value->len) == 0;
}

/* ---- a port */

static void read_name(Port *port, const Value *table)
{
    Value *name = string(table, "name");
    if (name->len < 1 || name->len > MOST_NAME)
        out_of_range("name");
    for (size_t i = 0; i < name->len; i++) {
        u8 c = name->text[i];
        if (!((c >= 'a' && c <= 'z') || (c >= '0' && c <= '9') || c == '_' || c == '-'))
            out_of_range("name");
    }
    memcpy(port->name, name->text, name->len);
    port->name_len = (u8)name->len;
}

/* One of the four numbers of an address, from here on. Returns where it ends, or 0 where there is none. */
static size_t address_part(const Value *text, size_t from, u32 *part)
{
    size_t at = from;
    *part = 0;
    while (at < text->len && text->text[at] >= '0' && text->text[at] <= '9' && at - from < 4)
        *part = *part * 10 + (u32)(text->text[at++] - '0');
    size_t digits = at - from;
    bool is_part = digits >= 1 && digits <= 3 && (digits == 1 || text->text[from] != '0') && *part <= 255;
    return is_part ? at : 0;
}

static void read_address(Port *port, const Value *table)
{
    Value *text = string(table, "address");
    size_t at = 0;
    for (int i = 0; i < 4; i++) {
        u32 part;
        if (i > 0 && (at >= text->len || text->text[at++] != '.'))
            out_of_range("address");
        at = address_part(text, at, &part);
        if (at == 0)
            out_of_range("address");
        port->address = port->address << 8 | part;
    }
    if (at != text->len)
        out_of_range("address");
}

static void read_port(Port *port, const Value *table)
{
    read_name(port, table);
    Value *kind = string(table, "kind");
    port->sampling = is_text(kind, "sampling");
    if (!port->sampling && !is_text(kind, "queuing"))
        out_of_range("kind");
    read_address(port, table);
    port->udp = (u16)integer(table, "udp", 0, 65535);
    u64 most = port->sampling ? MOST_SAMPLE : MOST_MESSAGE;
    port->max = (u16)integer_or(table, "max", 0, most, most);
    if (port->sampling)
        port->refresh = integer(table, "refresh_us", 0, 1000000000);
    else
        port->depth = (u8)integer(table, "depth", 1, MOST_DEPTH);
}

/* No port before this one has its name, and none of its link its address and UDP port. */
static void check_port(const Receiver *receiver, Link *link)
{
    Port *port = &link->ports[link->ports_n];
    for (const Link *each = receiver->links; each <= link; each++)
        for (unsigned i = 0; i < each->ports_n; i++)
            if (strcmp(each->ports[i].name, port->name) == 0)
                given_twice("name");
    u64 key = (u64)port->address << 16 | port->udp;
    for (unsigned i = 0; i < link->ports_n; i++)
        if (link->keys[i] == key)
            given_twice("port");
    link->keys[link->ports_n++] = key;
}

/* ---- links */

static void read_link(Receiver *receiver, Link *link, const Value *table)
{
    link->vl = (u16)integer(table, "vl", 0, 65535);
    if (receiver->link_of[link->vl])
        given_twice("link");
    receiver->link_of[link->vl] = link;
    link->skew_max = integer(table, "skew_max_us", 0, 1000000);
    Value *redundancy = value_of(table, "redundancy", V_BOOLEAN);
    link->redundancy = redundancy ? redundancy->number != 0 : true;
    link->reassembly = integer(table, "reassembly_us", 0, 10000000);
    link->window = (u8)integer_or(table, "window", 1, MOST_WINDOW, USUAL_WINDOW);
    Value *ports = tables(table, "port");
    size_t count = ports ? ports->len : 0;
    if (count > MOST_PORTS)
        refuse("config: too many %s", "links or ports");
    link->ports = arena_zero(count * sizeof(Port));
    link->keys = arena_zero(count * sizeof(u64));
    for (size_t i = 0; i < count; i++) {
        read_port(&link->ports[i], ports->items[i]);
        check_port(receiver, link);
    }
}

static void read_constant(Receiver *receiver, const Value *root)
{
    static const u8 usual[4] = {3, 0, 0, 0};
    memcpy(receiver->constant, usual, sizeof usual);
    Value *constant = value_of(root, "constant", V_STRING);
    if (!constant)
        return;
    if (constant->len != 8)
        out_of_range("constant");
    for (int i = 0; i < 4; i++) {
        int upper = digit_of(constant->text[2 * i]), lower = digit_of(constant->text[2 * i + 1]);
        if (upper < 0 || lower < 0)
            out_of_range("constant");
        receiver->constant[i] = (u8)(upper << 4 | lower);
    }
}

/* The places for messages, once all is known to be right. */
static void make_places(Receiver *receiver)
{
    for (size_t i = 0; i < receiver->links_n; i++)
        for (unsigned j = 0; j < receiver->links[i].ports_n; j++) {
            Port *port = &receiver->links[i].ports[j];
            if (port->sampling)
                port->newest = arena(MOST_SAMPLE + 1);
            else
                port->queue = arena(port->depth * sizeof(Message));
        }
}

void read_settings(Receiver *receiver, const u8 *text, size_t len)
{
    Value *root = toml_read(text, len);
    read_constant(receiver, root);
    Value *links = toml_get(root, (const u8 *)"link", 4);
    if (!links || (links->kind == V_ARRAY && links->len == 0))
        missing("link");
    links = tables(root, "link");
    if (links->len > MOST_LINKS)
        refuse("config: too many %s", "links or ports");
    receiver->links_n = links->len;
    receiver->links = arena_zero(links->len * sizeof(Link));
    for (size_t i = 0; i < links->len; i++)
        read_link(receiver, &receiver->links[i], links->items[i]);
    make_places(receiver);
}
