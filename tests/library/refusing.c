/* A host with an allocator of its own, which refuses one call after the other: refusing GRAPH QUERIES MODULE. It answers by one
 * call of the library, by a session, and by a session after the module is put.
 *
 * It defines the three functions that the library takes its memory by. The numbers of refused calls go up until none is
 * refused, each alone and with all behind it. What is wanted: status 7 and its line, or the status and the bytes of the
 * call without a refusal; and nothing that was allocated is left. It prints how many calls there were, and ends with 0. */
#include <stdint.h>
#include <stdio.h>
#include <stdlib.h>
#include <string.h>

#include "symq.h"

/* whether memory was given, and where; where none was, the pointer isn't null */
struct given {
    unsigned char is_given;
    void *at;
};

static size_t calls, refused, held;
static int is_each_behind;

static int refuses(void) {
    calls++;
    return is_each_behind ? refused <= calls : refused == calls;
}

struct given rattle_alloc(size_t size, size_t align);
struct given rattle_realloc(void *old, size_t kept, size_t size, size_t align);
void rattle_dealloc(void *old);

struct given rattle_alloc(size_t size, size_t align) {
    void *at = refuses() ? NULL : malloc(size ? size : align);
    held += at != NULL;
    return (struct given){at != NULL, at ? at : &held};
}

struct given rattle_realloc(void *old, size_t kept, size_t size, size_t align) {
    void *at = refuses() ? NULL : realloc(old, size ? size : align);
    (void)kept;
    return (struct given){at != NULL, at ? at : &held};
}

void rattle_dealloc(void *old) {
    held--;
    free(old);
}

struct bytes {
    uint8_t items[1 << 20];
    size_t length;
};

static struct bytes text, lines, module, wanted, told, before;

static void read_file(const char *path, struct bytes *to) {
    FILE *file = fopen(path, "rb");
    if (!file)
        exit(2);
    to->length = fread(to->items, 1, sizeof to->items, file);
    fclose(file);
}

static uint8_t by_call(struct bytes *to) {
    return symq_answer(text.items, text.length, lines.items, lines.length, to->items, sizeof to->items, &to->length);
}

/* A session that was refused memory when it was asked answers once it has it. */
static uint8_t by_session(struct bytes *to) {
    struct symq_session session = {0};
    uint8_t status = symq_open(text.items, text.length, &session, to->items, sizeof to->items, &to->length);
    if (status == SYMQ_DONE) {
        status = symq_ask(&session, lines.items, lines.length, to->items, sizeof to->items, &to->length);
        if (status == SYMQ_NO_MEMORY) {
            refused = SIZE_MAX;
            status = symq_ask(&session, lines.items, lines.length, to->items, sizeof to->items, &to->length);
        }
    } else if (session.is_open) {
        printf("a session is open where call %zu is refused\n", refused);
        exit(1);
    }
    symq_close(&session);
    return status;
}

static int is_same(const struct bytes *a, const struct bytes *b) {
    return a->length == b->length && memcmp(a->items, b->items, a->length) == 0;
}

/* A session that was refused memory when a module was put answers as before, and takes the module once it has memory. */
static uint8_t by_put(struct bytes *to) {
    struct symq_session session = {0};
    uint8_t status = symq_open(text.items, text.length, &session, to->items, sizeof to->items, &to->length);
    if (status == SYMQ_DONE)
        status = symq_put(&session, module.items, module.length, to->items, sizeof to->items, &to->length);
    if (status == SYMQ_NO_MEMORY && session.is_open) {
        refused = SIZE_MAX;
        status = symq_ask(&session, lines.items, lines.length, to->items, sizeof to->items, &to->length);
        if (status != SYMQ_DONE || !is_same(to, &before)) {
            printf("a session has other answers where a module isn't put\n");
            exit(1);
        }
        status = symq_put(&session, module.items, module.length, to->items, sizeof to->items, &to->length);
    }
    if (status == SYMQ_DONE)
        status = symq_ask(&session, lines.items, lines.length, to->items, sizeof to->items, &to->length);
    symq_close(&session);
    return status;
}

static uint8_t (*const ways[])(struct bytes *) = {by_call, by_session, by_put};

static uint8_t answer(int way, struct bytes *to) {
    calls = 0;
    uint8_t status = ways[way](to);
    if (held != 0) {
        printf("%zu blocks are left where call %zu is refused\n", held, refused);
        exit(1);
    }
    return status;
}

static int is_line(const struct bytes *it, const char *line) {
    return it->length == strlen(line) && memcmp(it->items, line, it->length) == 0;
}

/* How many calls of memory there are by a way, once it went well with each refused. */
static size_t refuse_each(int way) {
    refused = SIZE_MAX;
    uint8_t status = answer(way, &wanted);
    size_t all = calls, number;
    for (is_each_behind = 0; is_each_behind < 2; is_each_behind++)
        for (number = 1; number <= all; number++) {
            refused = number;
            uint8_t got = answer(way, &told);
            if (!(got == status && is_same(&told, &wanted)) && !(got == SYMQ_NO_MEMORY && is_line(&told, "symq: out of memory"))) {
                printf("status %d where call %zu is refused\n", got, number);
                exit(1);
            }
        }
    return all;
}

int main(int count, char **words) {
    if (count != 4)
        return 2;
    read_file(words[1], &text);
    read_file(words[2], &lines);
    read_file(words[3], &module);
    size_t all = refuse_each(0);
    before = wanted;
    size_t in_session = refuse_each(1);
    if (in_session < all || refuse_each(2) < in_session) {
        printf("a session takes less than a call, or less with a module put\n");
        return 1;
    }
    printf("%zu\n", all);
    return 0;
}
