/* A host that calls the library in a thread with a stack of STACK bytes: deep [--strict] GRAPH QUERIES STACK ROOM. It writes the answers, as far as
 * they have room in ROOM bytes, and ends with the status of the call. */
#define _POSIX_C_SOURCE 200809L
#include <pthread.h>
#include <stdio.h>
#include <stdlib.h>
#include <string.h>

#include "symq.h"

struct bytes {
    uint8_t *items;
    size_t length;
};

struct call {
    int is_strict;
    struct bytes text, lines, out;
    size_t needed;
    uint8_t status;
};

static struct bytes bytes_of(const char *path) {
    struct bytes to = {NULL, 0};
    FILE *file = fopen(path, "rb");
    if (!file || fseek(file, 0, SEEK_END))
        exit(2);
    to.length = (size_t)ftell(file);
    rewind(file);
    to.items = malloc(to.length + 1);
    if (!to.items || fread(to.items, 1, to.length, file) != to.length)
        exit(2);
    fclose(file);
    return to;
}

static void *answered(void *given) {
    struct call *it = given;
    it->status = (it->is_strict ? symq_strict_answer : symq_answer)(it->text.items, it->text.length, it->lines.items, it->lines.length, it->out.items,
                                                                    it->out.length, &it->needed);
    return NULL;
}

/* Makes the call in a thread of this stack. */
static void run(struct call *it, size_t stack) {
    pthread_attr_t how;
    pthread_t thread;
    if (pthread_attr_init(&how) || pthread_attr_setstacksize(&how, stack) || pthread_create(&thread, &how, answered, it) || pthread_join(thread, NULL))
        exit(2);
    pthread_attr_destroy(&how);
}

int main(int count, char **words) {
    struct call it = {0};
    it.is_strict = count == 6 && strcmp(words[1], "--strict") == 0;
    if (count != 5 && !it.is_strict)
        return 2;
    it.text = bytes_of(words[count - 4]);
    it.lines = bytes_of(words[count - 3]);
    it.out.length = strtoul(words[count - 1], NULL, 10);
    it.out.items = malloc(it.out.length + 1);
    if (!it.out.items)
        return 2;
    run(&it, strtoul(words[count - 2], NULL, 10));
    size_t written = it.needed < it.out.length ? it.needed : it.out.length;
    if (fwrite(it.out.items, 1, written, stdout) != written)
        return 2;
    free(it.text.items);
    free(it.lines.items);
    free(it.out.items);
    return it.status;
}
