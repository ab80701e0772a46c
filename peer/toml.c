/*
 * A reader of TOML documents: see toml.h.
 */
#include "toml.h"

#include <string.h>

/* What made a table. */
enum { BY_LONGER_HEADER, BY_HEADER, BY_DOTTED_KEY, INLINE };
enum { MOST_DEPTH = 80 };

typedef struct {
    const u8 *at, *end;
    unsigned section;
    int depth;
} Reader;

static _Noreturn void not_toml(void)
{
    fail(ST_REFUSED, "config: not TOML");
}

/* ---- octets */

int digit_of(int octet)
{
    if (octet >= '0' && octet <= '9')
        return octet - '0';
    if (octet >= 'a' && octet <= 'f')
        return octet - 'a' + 10;
    if (octet >= 'A' && octet <= 'F')
        return octet - 'A' + 10;
    return -1;
}

/* How many octets of a character follow its first one, and the range of the second; 0 for none, -1 for a wrong one. */
static int more_octets(u8 first, u8 *least, u8 *most)
{
    *least = first == 0xE0 ? 0xA0 : first == 0xF0 ? 0x90 : 0x80;
    *most = first == 0xED ? 0x9F : first == 0xF4 ? 0x8F : 0xBF;
    if (first < 0x80)
        return 0;
    if (first >= 0xC2 && first <= 0xDF)
        return 1;
    if (first >= 0xE0 && first <= 0xEF)
        return 2;
    return first >= 0xF0 && first <= 0xF4 ? 3 : -1;
}

bool is_utf8(const u8 *text, size_t len)
{
    for (size_t i = 0; i < len;) {
        u8 least, most;
        int more = more_octets(text[i++], &least, &most);
        if (more < 0 || (size_t)more > len - i)
            return false;
        for (int k = 0; k < more; k++, i++) {
            if (text[i] < least || text[i] > most)
                return false;
            least = 0x80;
            most = 0xBF;
        }
    }
    return true;
}

/* Writes a character, and returns how many octets it has. */
static size_t put_utf8(u8 *to, u32 character)
{
    if (character < 0x80) {
        to[0] = (u8)character;
        return 1;
    }
    if (character < 0x800) {
        to[0] = (u8)(0xC0 | character >> 6);
        to[1] = (u8)(0x80 | (character & 63));
        return 2;
    }
    if (character < 0x10000) {
        to[0] = (u8)(0xE0 | character >> 12);
        to[1] = (u8)(0x80 | (character >> 6 & 63));
        to[2] = (u8)(0x80 | (character & 63));
        return 3;
    }
    to[0] = (u8)(0xF0 | character >> 18);
    to[1] = (u8)(0x80 | (character >> 12 & 63));
    to[2] = (u8)(0x80 | (character >> 6 & 63));
    to[3] = (u8)(0x80 | (character & 63));
    return 4;
}

static bool is_control(int octet)
{
    return (octet >= 0 && octet < 0x20 && octet != '\t') || octet == 0x7F;
}

static bool is_digit(int octet)
{
    return octet >= '0' && octet <= '9';
}

static bool is_bare(int octet)
{
    return is_digit(octet) || (octet >= 'a' && octet <= 'z') || (octet >= 'A' && octet <= 'Z') || octet == '_' ||
           octet == '-';
}

/* ---- values */

static Value *new_value(ValueKind kind)
{
    Value *value = arena_zero(sizeof *value);
    value->kind = kind;
    return value;
}

static Value *new_table(int made_by)
{
    Value *table = new_value(V_TABLE);
    table->made_by = made_by;
    return table;
}

static Value *new_integer(u64 number)
{
    Value *value = new_value(V_INTEGER);
    value->number = (int64_t)number;
    return value;
}

Value *toml_get(const Value *table, const u8 *key, size_t len)
{
    for (size_t i = 0; i < table->len; i++)
        if (table->entries[i].len == len && memcmp(table->entries[i].key, key, len) == 0)
            return table->entries[i].value;
    return NULL;
}

static void add_entry(Value *table, const u8 *key, size_t len, Value *value)
{
    if (table->len == table->room) {
        size_t room = table->room ? table->room * 2 : 8;
        Entry *entries = arena(room * sizeof *entries);
        if (table->len)
            memcpy(entries, table->entries, table->len * sizeof *entries);
        table->entries = entries;
        table->room = room;
    }
    table->entries[table->len++] = (Entry){.key = key, .len = len, .value = value};
}

static void add_item(Value *array, Value *value)
{
    if (array->len == array->room) {
        size_t room = array->room ? array->room * 2 : 8;
        Value **items = arena(room * sizeof *items);
        if (array->len)
            memcpy(items, array->items, array->len * sizeof *items);
        array->items = items;
        array->room = room;
    }
    array->items[array->len++] = value;
}

/* Nothing is added to an inline table, nor to those in it. */
static void freeze(Value *value)
{
    if (value->kind != V_TABLE)
        return;
    value->made_by = INLINE;
    for (size_t i = 0; i < value->len; i++)
        freeze(value->entries[i].value);
}

/* ---- where the reader stands */

static int peek(const Reader *reader)
{
    return reader->at < reader->end ? *reader->at : -1;
}

static int peek_at(const Reader *reader, size_t steps)
{
    return (size_t)(reader->end - reader->at) > steps ? reader->at[steps] : -1;
}

/* Goes on where this octet stands. */
static bool eat(Reader *reader, int octet)
{
    if (peek(reader) != octet)
        return false;
    reader->at++;
    return true;
}

static void expect(Reader *reader, int octet)
{
    if (!eat(reader, octet))
        not_toml();
}

static void skip_blank(Reader *reader)
{
    while (peek(reader) == ' ' || peek(reader) == '\t')
        reader->at++;
}

static bool is_newline(const Reader *reader)
{
    return peek(reader) == '\n' || (peek(reader) == '\r' && peek_at(reader, 1) == '\n');
}

static bool eat_newline(Reader *reader)
{
    if (!is_newline(reader))
        return false;
    reader->at += *reader->at == '\r' ? 2 : 1;
    return true;
}

static void skip_comment(Reader *reader)
{
    if (peek(reader) != '#')
        return;
    for (; reader->at < reader->end && !is_newline(reader); reader->at++)
        if (is_control(*reader->at))
            not_toml();
}

/* The end of a statement. */
static void end_of_line(Reader *reader)
{
    skip_blank(reader);
    skip_comment(reader);
    if (reader->at < reader->end && !eat_newline(reader))
        not_toml();
}

static void skip_lines(Reader *reader)
{
    do {
        skip_blank(reader);
        skip_comment(reader);
    } while (eat_newline(reader));
}

/* ---- strings */

/* A string that is read: what of it was written. */
typedef struct {
    u8 quote;
    bool multi;
    u8 *octets;
    size_t len;
} Text;

static void put(Text *text, int octet)
{
    text->octets[text->len++] = (u8)octet;
}

/* A character by its number, of 4 or 8 digits. */
static void read_number_escape(Reader *reader, Text *text, int digits)
{
    u32 character = 0;
    for (int i = 0; i < digits; i++, reader->at++) {
        int digit = digit_of(peek(reader));
        if (digit < 0)
            not_toml();
        character = character << 4 | (u32)digit;
    }
    if (character > 0x10FFFF || (character >= 0xD800 && character <= 0xDFFF))
        not_toml();
    text->len += put_utf8(text->octets + text->len, character);
}

/* A backslash at the end of a line, which skips the blanks and the line ends that follow. */
static void read_line_escape(Reader *reader, const Text *text)
{
    if (!text->multi)
        not_toml();
    skip_blank(reader);
    if (!eat_newline(reader))
        not_toml();
    do
        skip_blank(reader);
    while (eat_newline(reader));
}

static void read_escape(Reader *reader, Text *text)
{
    static const char names[] = "btnfr\"\\", octets[] = "\b\t\n\f\r\"\\";
    int name = peek_at(reader, 1);
    const char *found = name > 0 ? strchr(names, name) : NULL;
    reader->at++;
    if (found) {
        reader->at++;
        put(text, octets[found - names]);
    } else if (name == 'u' || name == 'U') {
        reader->at++;
        read_number_escape(reader, text, name == 'u' ? 4 : 8);
    } else {
        read_line_escape(reader, text);
    }
}

/* Quotes in a string: those of the text are written. Returns whether they end it. */
static bool read_quotes(Reader *reader, Text *text)
{
    size_t run = 0;
    while (peek_at(reader, run) == text->quote)
        run++;
    if (!text->multi) {
        reader->at++;
        return true;
    }
    if (run > 5)
        not_toml();
    for (size_t i = run >= 3 ? 3 : 0; i < run; i++)
        put(text, text->quote);
    reader->at += run;
    return run >= 3;
}

/* The reader stands at the opening quote; `many` says whether three are allowed. */
static void read_string(Reader *reader, bool many, const u8 **octets, size_t *len)
{
    Text text = {.quote = *reader->at};
    text.multi = peek_at(reader, 1) == text.quote && peek_at(reader, 2) == text.quote;
    if (text.multi && !many)
        not_toml();
    reader->at += text.multi ? 3 : 1;
    if (text.multi)
        (void)eat_newline(reader);
    /* A string is no longer than its text, and the rest of the piece goes back. */
    text.octets = arena((size_t)(reader->end - reader->at) + 4);
    for (bool ended = false; !ended;) {
        int octet = peek(reader);
        if (octet == text.quote) {
            ended = read_quotes(reader, &text);
        } else if (text.multi && eat_newline(reader)) {
            put(&text, '\n');
        } else if (octet < 0 || is_control(octet)) {
            not_toml();
        } else if (octet == '\\' && text.quote == '"') {
            read_escape(reader, &text);
        } else {
            put(&text, octet);
            reader->at++;
        }
    }
    arena_cut(text.octets, text.len);
    *octets = text.octets;
    *len = text.len;
}

/* ---- dates and times */

/* The number that two digits are, or -1. */
static int two(const u8 *text)
{
    return is_digit(text[0]) && is_digit(text[1]) ? (text[0] - '0') * 10 + (text[1] - '0') : -1;
}

/* Whether a text begins with a time; `used` is its length. */
static bool begins_with_time(const u8 *text, size_t len, size_t *used)
{
    if (len < 8 || text[2] != ':' || text[5] != ':')
        return false;
    int hour = two(text), minute = two(text + 3), second = two(text + 6);
    if (hour < 0 || hour > 23 || minute < 0 || minute > 59 || second < 0 || second > 60)
        return false;
    *used = 8;
    if (len == 8 || text[8] != '.')
        return true;
    *used = 9;
    while (*used < len && is_digit(text[*used]))
        ++*used;
    return *used > 9;
}

static bool is_day(const u8 *text)
{
    static const int days[12] = {31, 28, 31, 30, 31, 30, 31, 31, 30, 31, 30, 31};
    int century = two(text), year_of = two(text + 2), month = two(text + 5), day = two(text + 8);
    if (text[4] != '-' || text[7] != '-' || century < 0 || year_of < 0 || month < 1 || month > 12 || day < 1)
        return false;
    int year = century * 100 + year_of;
    bool leaps = (year % 4 == 0 && year % 100 != 0) || year % 400 == 0;
    return day <= (month == 2 && leaps ? 29 : days[month - 1]);
}

static bool is_zone(const u8 *text, size_t len)
{
    if (len == 1)
        return text[0] == 'Z' || text[0] == 'z';
    if (len != 6 || (text[0] != '+' && text[0] != '-') || text[3] != ':')
        return false;
    int hours = two(text + 1), minutes = two(text + 4);
    return hours >= 0 && hours <= 23 && minutes >= 0 && minutes <= 59;
}

static bool is_date(const u8 *text, size_t len)
{
    size_t used;
    if (len >= 3 && text[2] == ':')
        return begins_with_time(text, len, &used) && used == len;
    if (len < 10 || !is_day(text))
        return false;
    if (len == 10)
        return true;
    if (text[10] != 'T' && text[10] != 't' && text[10] != ' ')
        return false;
    if (!begins_with_time(text + 11, len - 11, &used))
        return false;
    return 11 + used == len || is_zone(text + 11 + used, len - 11 - used);
}

static bool looks_like_date(const u8 *text, size_t len)
{
    return (len >= 5 && text[4] == '-' && two(text) >= 0 && two(text + 2) >= 0) ||
           (len >= 3 && text[2] == ':' && two(text) >= 0);
}

/* ---- numbers */

/* Whether these are digits, with single underscores between them. */
static bool are_digits(const u8 *text, size_t len, int base)
{
    if (len == 0)
        return false;
    for (size_t i = 0; i < len; i++) {
        if (text[i] == '_') {
            if (i == 0 || i + 1 == len || text[i - 1] == '_')
                return false;
            continue;
        }
        int digit = digit_of(text[i]);
        if (digit < 0 || digit >= base)
            return false;
    }
    return true;
}

/* The number that digits are, at most this. */
static u64 number_of(const u8 *text, size_t len, u64 base, u64 most)
{
    u64 number = 0;
    for (size_t i = 0; i < len; i++) {
        if (text[i] == '_')
            continue;
        u64 digit = (u64)digit_of(text[i]);
        if (number > (most - digit) / base)
            not_toml();
        number = number * base + digit;
    }
    return number;
}

static size_t digits_from(const u8 *text, size_t len, size_t from)
{
    while (from < len && (is_digit(text[from]) || text[from] == '_'))
        from++;
    return from;
}

/* Digits of a float that have to stand from here on. Returns where they end. */
static size_t float_digits(const u8 *text, size_t len, size_t from)
{
    size_t end = digits_from(text, len, from);
    if (!are_digits(text + from, end - from, 10))
        not_toml();
    return end;
}

static Value *decimal(const u8 *text, size_t len)
{
    bool is_negative = len > 0 && text[0] == '-';
    size_t begin = len > 0 && (text[0] == '+' || is_negative);
    if (len - begin == 3 && (memcmp(text + begin, "inf", 3) == 0 || memcmp(text + begin, "nan", 3) == 0))
        return new_value(V_FLOAT);
    size_t at = float_digits(text, len, begin);
    if (text[begin] == '0' && at - begin > 1)
        not_toml();
    if (at == len) {
        u64 number = number_of(text + begin, len - begin, 10, (u64)INT64_MAX + is_negative);
        return new_integer(is_negative ? 0 - number : number);
    }
    if (text[at] == '.')
        at = float_digits(text, len, at + 1);
    if (at < len && (text[at] == 'e' || text[at] == 'E')) {
        at++;
        if (at < len && (text[at] == '+' || text[at] == '-'))
            at++;
        at = float_digits(text, len, at);
    }
    if (at != len)
        not_toml();
    return new_value(V_FLOAT);
}

static Value *based(const u8 *text, size_t len)
{
    int base = text[1] == 'x' ? 16 : text[1] == 'o' ? 8 : 2;
    if (!are_digits(text + 2, len - 2, base))
        not_toml();
    return new_integer(number_of(text + 2, len - 2, (u64)base, INT64_MAX));
}

static size_t skip_scalar(Reader *reader, const u8 *from)
{
    while (is_bare(peek(reader)) || peek(reader) == '+' || peek(reader) == '.' || peek(reader) == ':')
        reader->at++;
    return (size_t)(reader->at - from);
}

static Value *read_scalar(Reader *reader)
{
    const u8 *text = reader->at;
    size_t len = skip_scalar(reader, text);
    bool is_true = len == 4 && memcmp(text, "true", 4) == 0;
    if (is_true || (len == 5 && memcmp(text, "false", 5) == 0)) {
        Value *value = new_value(V_BOOLEAN);
        value->number = is_true;
        return value;
    }
    if (looks_like_date(text, len)) {
        /* one space may part the date and the time */
        if (len == 10 && reader->end - reader->at >= 3 && *reader->at == ' ' && two(reader->at + 1) >= 0) {
            reader->at++;
            len = skip_scalar(reader, text);
        }
        if (!is_date(text, len))
            not_toml();
        return new_value(V_DATE);
    }
    if (len > 2 && text[0] == '0' && (text[1] == 'x' || text[1] == 'o' || text[1] == 'b'))
        return based(text, len);
    return decimal(text, len);
}

/* ---- keys, arrays and tables */

static Value *read_value(Reader *reader);

static void read_key(Reader *reader, const u8 **key, size_t *len)
{
    int octet = peek(reader);
    if (octet == '"' || octet == '\'') {
        read_string(reader, false, key, len);
        return;
    }
    *key = reader->at;
    while (is_bare(peek(reader)))
        reader->at++;
    *len = (size_t)(reader->at - *key);
    if (*len == 0)
        not_toml();
}

/* The table that a part of a dotted key names: a new one, or one that such keys may go on in. */
static Value *dotted_table(const Reader *reader, Value *table, const u8 *key, size_t len)
{
    Value *found = toml_get(table, key, len);
    if (!found) {
        found = new_table(BY_DOTTED_KEY);
        found->section = reader->section;
        add_entry(table, key, len, found);
        return found;
    }
    bool goes_on = found->kind == V_TABLE && (found->made_by == BY_LONGER_HEADER ||
                                              (found->made_by == BY_DOTTED_KEY && found->section == reader->section));
    if (!goes_on)
        not_toml();
    return found;
}

/* `key = value` into a table. Dotted keys make tables. */
static void read_pair(Reader *reader, Value *table)
{
    const u8 *key;
    size_t len;
    read_key(reader, &key, &len);
    skip_blank(reader);
    while (eat(reader, '.')) {
        skip_blank(reader);
        table = dotted_table(reader, table, key, len);
        read_key(reader, &key, &len);
        skip_blank(reader);
    }
    expect(reader, '=');
    skip_blank(reader);
    Value *value = read_value(reader);
    if (toml_get(table, key, len))
        not_toml();
    add_entry(table, key, len, value);
}

static Value *read_array(Reader *reader)
{
    Value *array = new_value(V_ARRAY);
    do {
        skip_lines(reader);
        if (peek(reader) == ']')
            break;
        add_item(array, read_value(reader));
        skip_lines(reader);
    } while (eat(reader, ','));
    expect(reader, ']');
    return array;
}

static Value *read_inline_table(Reader *reader)
{
    Value *table = new_table(INLINE);
    skip_blank(reader);
    if (eat(reader, '}'))
        return table;
    do {
        skip_blank(reader);
        read_pair(reader, table);
        skip_blank(reader);
    } while (eat(reader, ','));
    expect(reader, '}');
    freeze(table);
    return table;
}

static Value *read_value(Reader *reader)
{
    int octet = peek(reader);
    if (octet == '"' || octet == '\'') {
        Value *value = new_value(V_STRING);
        read_string(reader, true, &value->text, &value->len);
        return value;
    }
    if (octet != '[' && octet != '{')
        return read_scalar(reader);
    if (++reader->depth > MOST_DEPTH)
        not_toml();
    reader->at++;
    Value *value = octet == '[' ? read_array(reader) : read_inline_table(reader);
    reader->depth--;
    return value;
}

/* The table that a part of a header names, before its last one. */
static Value *table_on_the_way(Value *table, const u8 *key, size_t len)
{
    Value *found = toml_get(table, key, len);
    if (!found) {
        found = new_table(BY_LONGER_HEADER);
        add_entry(table, key, len, found);
    }
    if (found->kind == V_ARRAY && found->of_headers)
        found = found->items[found->len - 1];
    if (found->kind != V_TABLE || found->made_by == INLINE)
        not_toml();
    return found;
}

/* A table more in the array that a header names. */
static Value *added_table(Value *table, const u8 *key, size_t len)
{
    Value *array = toml_get(table, key, len);
    if (!array) {
        array = new_value(V_ARRAY);
        array->of_headers = true;
        add_entry(table, key, len, array);
    } else if (array->kind != V_ARRAY || !array->of_headers) {
        not_toml();
    }
    Value *member = new_table(BY_HEADER);
    add_item(array, member);
    return member;
}

/* The table that a header names: a new one, or one that longer headers made. */
static Value *headed_table(Value *table, const u8 *key, size_t len)
{
    Value *found = toml_get(table, key, len);
    if (!found) {
        found = new_table(BY_HEADER);
        add_entry(table, key, len, found);
    } else if (found->kind != V_TABLE || found->made_by != BY_LONGER_HEADER) {
        not_toml();
    }
    found->made_by = BY_HEADER;
    return found;
}

/* [a.b] or [[a.b]]. Returns the table that the next pairs go into. */
static Value *read_header(Reader *reader, Value *table)
{
    const u8 *key;
    size_t len;
    reader->at++;
    bool is_array = eat(reader, '[');
    for (;;) {
        skip_blank(reader);
        read_key(reader, &key, &len);
        skip_blank(reader);
        if (!eat(reader, '.'))
            break;
        table = table_on_the_way(table, key, len);
    }
    expect(reader, ']');
    if (is_array)
        expect(reader, ']');
    return is_array ? added_table(table, key, len) : headed_table(table, key, len);
}

Value *toml_read(const u8 *text, size_t len)
{
    if (!is_utf8(text, len))
        not_toml();
    Reader reader = {.at = text, .end = text + len};
    if (len >= 3 && memcmp(text, "\xEF\xBB\xBF", 3) == 0)
        reader.at += 3;
    Value *root = new_table(BY_HEADER), *table = root;
    for (;;) {
        skip_lines(&reader);
        if (reader.at >= reader.end)
            return root;
        if (*reader.at == '[') {
            table = read_header(&reader, root);
            reader.section++;
        } else {
            read_pair(&reader, table);
        }
        end_of_line(&reader);
    }
}
