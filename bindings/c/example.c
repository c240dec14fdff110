/* Answers the lines of standard input over the graph of a file, by one call, or by a session, line by line as they come.
 *
 *     cc -o example example.c -I../../lib ../../lib/libsymq.a
 *     ./example graph.json < queries                or --strict graph.json, by strict rules
 *     ./example --session graph.json < queries      or --session --strict graph.json
 *     ./example --keyed graph.json < queries        with random keys, for a graph that isn't trusted; before --session too
 *
 * It ends with the status of the call, as symq does. */
#define _DEFAULT_SOURCE
#define _POSIX_C_SOURCE 200809L
#include <stdio.h>
#include <stdlib.h>
#include <string.h>
#include <unistd.h>

#include "symq.h"

struct bytes {
    uint8_t *items;
    size_t length;
};

/* Returns all bytes of a stream. It exits if an allocation fails. */
static struct bytes read_all(FILE *stream) {
    struct bytes found = {NULL, 0};
    size_t room = 1 << 16, got;
    do {
        room *= 2;
        found.items = realloc(found.items, room);
        if (!found.items)
            exit(SYMQ_NO_MEMORY);
        got = fread(found.items + found.length, 1, room - found.length, stream);
        found.length += got;
    } while (found.length == room);
    return found;
}

/* The buffer for the output of calls. */
struct room {
    uint8_t *items;
    size_t length;
};

/* Makes room for this many bytes. It exits if an allocation fails. */
static void make_room(struct room *room, size_t needed) {
    free(room->items);
    room->length = needed;
    room->items = malloc(needed);
    if (!room->items)
        exit(SYMQ_NO_MEMORY);
}

/* Writes the output of a call: answers, or the line that says why there are none. */
static void write_told(uint8_t status, const struct room *out, size_t needed) {
    fwrite(out->items, 1, needed, status == SYMQ_DONE ? stdout : stderr);
    if (status != SYMQ_DONE)
        fputc('\n', stderr);
}

/* The keys that maps hash with, if there are any. */
struct keys {
    int are_given;
    uint64_t items[2];
};

/* Calls what answers by these rules, with keys or without. */
static uint8_t call_answer(int is_strict, const struct keys *keys, struct bytes text, struct bytes lines, struct room *out, size_t *needed) {
    if (keys->are_given)
        return (is_strict ? symq_strict_keyed_answer : symq_keyed_answer)(keys->items[0], keys->items[1], text.items, text.length, lines.items,
                                                                          lines.length, out->items, out->length, needed);
    return (is_strict ? symq_strict_answer : symq_answer)(text.items, text.length, lines.items, lines.length, out->items, out->length, needed);
}

/* Calls what opens a session by these rules, with keys or without. */
static uint8_t call_open(int is_strict, const struct keys *keys, struct bytes text, struct symq_session *session, struct room *out, size_t *needed) {
    if (keys->are_given)
        return (is_strict ? symq_strict_keyed_open : symq_keyed_open)(keys->items[0], keys->items[1], text.items, text.length, session,
                                                                      out->items, out->length, needed);
    return (is_strict ? symq_strict_open : symq_open)(text.items, text.length, session, out->items, out->length, needed);
}

/* Answers by one call, and a second one if the answers don't fit. */
static int answer(int is_strict, const struct keys *keys, struct bytes text, struct bytes lines, struct room *out) {
    size_t needed;
    uint8_t status;
    while (1) {
        status = call_answer(is_strict, keys, text, lines, out, &needed);
        if (needed <= out->length)
            break;
        make_room(out, needed);
    }
    write_told(status, out, needed);
    return status;
}

/* Answers by a session, in the same way. */
static int ask(struct symq_session *session, struct bytes line, struct room *out) {
    size_t needed;
    uint8_t status;
    while (1) {
        status = symq_ask(session, line.items, line.length, out->items, out->length, &needed);
        if (needed <= out->length)
            break;
        make_room(out, needed);
    }
    write_told(status, out, needed);
    fflush(stdout);
    return status;
}

/* Answers line after line by a session over the graph. If it can't be opened, a long line with the reason is cut off. */
static int serve(int is_strict, const struct keys *keys, struct bytes text, struct room *out) {
    struct symq_session session = {0};
    size_t needed, line_room = 0;
    char *line = NULL;
    ssize_t got;
    int status = call_open(is_strict, keys, text, &session, out, &needed);
    if (status != SYMQ_DONE)
        write_told(status, out, needed < out->length ? needed : out->length);
    while (status == SYMQ_DONE && (got = getline(&line, &line_room, stdin)) > 0)
        status = ask(&session, (struct bytes){(uint8_t *)line, got}, out);
    symq_close(&session);
    free(line);
    return status;
}

int main(int count, char **words) {
    struct keys keys = {count > 2 && !strcmp(words[1], "--keyed"), {0, 0}};
    int first = 1 + keys.are_given, is_session = count > first + 1 && !strcmp(words[first], "--session");
    first += is_session;
    int is_strict = count == first + 2 && !strcmp(words[first], "--strict");
    FILE *file = count == first + 1 || is_strict ? fopen(words[count - 1], "rb") : NULL;
    if (!file) {
        fputs("usage: example [--keyed] [--session] [--strict] GRAPH < QUERIES\n", stderr);
        return 2;
    }
    if (keys.are_given && getentropy(keys.items, sizeof keys.items)) {
        perror("getentropy");
        return 1;
    }
    struct bytes text = read_all(file), lines = {NULL, 0};
    struct room out = {NULL, 0};
    make_room(&out, 1 << 16);
    if (!is_session)
        lines = read_all(stdin);
    int status = is_session ? serve(is_strict, &keys, text, &out) : answer(is_strict, &keys, text, lines, &out);
    fclose(file);
    free(text.items);
    free(lines.items);
    free(out.items);
    return status;
}
