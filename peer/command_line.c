/*
 * The words that the player is called with: see command_line.h.
 */
#include "command_line.h"
#include "output.h"
#include "toml.h"

#include <stdio.h>
#include <stdlib.h>
#include <string.h>

static const char USAGE[] = "Usage: afdx_peer --config <FILE> --a <FILE> --b <FILE> [--at <MICROSECONDS>]\n"
                            "                 [--no-history] [--no-huge-pages]\n";

static _Noreturn void refuse(const char *why, const char *word)
{
    char line[512];
    snprintf(line, sizeof line, "error: %s '%.200s'\n\n%s", why, word, USAGE);
    tell(line);
    exit(ST_LINE);
}

static bool is_help(const char *word)
{
    return strcmp(word, "--help") == 0 || strcmp(word, "-h") == 0;
}

/* A time: one plus may stand first, and zeros before the number. */
static bool read_at(const char *word, u64 *at)
{
    if (*word == '+')
        word++;
    if (!*word)
        return false;
    *at = 0;
    for (; *word; word++) {
        if (*word < '0' || *word > '9')
            return false;
        u64 digit = (u64)(*word - '0');
        if (*at > ((u64)INT64_MAX - digit) / 10)
            return false;
        *at = *at * 10 + digit;
    }
    return true;
}

/* Where the value of an option is kept, or NULL where there is no such option. */
static const char **place_of(Words *words, const char *option, size_t len)
{
    static const char *const names[] = {"config", "a", "b", "at"};
    const char **places[] = {&words->config, &words->a, &words->b, &words->at_word};
    for (int i = 0; i < 4; i++)
        if (strlen(names[i]) == len && memcmp(names[i], option, len) == 0)
            return places[i];
    return NULL;
}

/* Reads an option and its value, which may be the next word. Returns how many words these are. */
static int read_option(Words *words, const char *word, const char *next)
{
    const char *equals = strchr(word, '=');
    const char **place = place_of(words, word + 2, equals ? (size_t)(equals - word) - 2 : strlen(word) - 2);
    if (!place)
        refuse("unexpected argument", word);
    if (!equals && next && is_help(next))
        return 1;
    if (!equals && (!next || (next[0] == '-' && next[1] != 0)))
        refuse("a value is required for", word);
    const char *value = equals ? equals + 1 : next;
    if (*place)
        refuse("given twice", word);
    if (!is_utf8((const u8 *)value, strlen(value)))
        refuse("not UTF-8 for", word);
    *place = value;
    if (place == &words->at_word && !read_at(value, &words->at))
        refuse("invalid value for", word);
    return equals ? 1 : 2;
}

/* Reads an option without a value. Returns whether the word is one. */
static bool read_switch(Words *words, const char *word)
{
    bool *place = NULL;
    if (strcmp(word, "--no-history") == 0)
        place = &words->no_history;
    else if (strcmp(word, "--no-huge-pages") == 0)
        place = &words->no_huge_pages;
    if (place && *place)
        refuse("given twice", word);
    if (place)
        *place = true;
    return place != NULL;
}

Words read_words(int count, char **words)
{
    Words given = {0};
    for (int i = 0; i < count;) {
        const char *word = words[i], *next = i + 1 < count ? words[i + 1] : NULL;
        if (is_help(word)) {
            write_all((const u8 *)USAGE, sizeof USAGE - 1);
            exit(ST_OK);
        }
        if (strcmp(word, "--") == 0) {
            if (next)
                refuse("unexpected argument", next);
            break;
        }
        if (strncmp(word, "--", 2) != 0)
            refuse("unexpected argument", word);
        i += read_switch(&given, word) ? 1 : read_option(&given, word, next);
    }
    const char *values[] = {given.config, given.a, given.b};
    static const char *const names[] = {"--config <FILE>", "--a <FILE>", "--b <FILE>"};
    for (int i = 0; i < 3; i++)
        if (!values[i])
            refuse("a required argument is missing:", names[i]);
    return given;
}
