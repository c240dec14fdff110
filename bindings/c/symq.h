/* symq.h: the answers of symq within the calling process. docs/LIBRARY.md lists the duties of a caller.
 *
 * A call reads the text of a graph (docs/GRAPH.md) and answers query lines (docs/QUERIES.md). A session retains the graph
 * between calls. All arguments stay the caller's and are read during the call only; only `out`, `needed` and a session are
 * written. A call frees what it allocates, except for the state of a session. No pointer may be null, not even with a
 * length of 0. `out`, `needed` and a session overlap neither each other nor any other argument. Any number of threads may
 * be in calls at once, but a session is in one call at a time.
 *
 * A call returns a status, and writes bytes to the front of `out`, cut off at its end; the remaining bytes stay as they
 * were. `*needed` is the full length of the bytes. If it is more than `out_length`, only the beginning was written.
 *
 *   SYMQ_DONE       0   the answers
 *   SYMQ_CLOSED     1   "symq: the session is closed": it holds no graph
 *   SYMQ_NO_GRAPH   4   "symq: not a graph: json" or "symq: not a graph: form": the text is no graph, or for `symq_put` not that of a module
 *   SYMQ_REFUSED    5   "symq: graph refused: N ..": the graph has a fault, or would have it with the module
 *   SYMQ_NO_MEMORY  7   "symq: out of memory"
 *
 * The lines have neither a line end nor a terminating 0. */
#ifndef SYMQ_H
#define SYMQ_H

#include <stdbool.h>
#include <stddef.h>
#include <stdint.h>

#ifdef __cplusplus
extern "C" {
#endif

enum { SYMQ_DONE = 0, SYMQ_CLOSED = 1, SYMQ_NO_GRAPH = 4, SYMQ_REFUSED = 5, SYMQ_NO_MEMORY = 7 };

/* Answers lines by Deno's rules, each ended by '\n' (the last needs none), with a line each. The same call has the same answers:
 * if `out` was too small, repeat it with room for `*needed`. The graph is read anew each time. */
uint8_t symq_answer(const uint8_t *text, size_t text_length, const uint8_t *lines, size_t lines_length, uint8_t *out,
                    size_t out_length, size_t *needed);

/* Answers lines as `symq_answer` does, by strict rules, like `symq --strict`. */
uint8_t symq_strict_answer(const uint8_t *text, size_t text_length, const uint8_t *lines, size_t lines_length, uint8_t *out,
                           size_t out_length, size_t *needed);

/* Answers lines as `symq_answer` and `symq_strict_answer` do, over a graph whose maps hash with these keys: 16 random bytes, as of
 * getentropy. Without keys the library hashes with fixed ones, and a graph can be written whose names all collide, so that a call
 * takes time quadratic in its size. With keys that its writer doesn't know no graph can. Answers don't depend on keys. */
uint8_t symq_keyed_answer(uint64_t first_key, uint64_t second_key, const uint8_t *text, size_t text_length, const uint8_t *lines,
                          size_t lines_length, uint8_t *out, size_t out_length, size_t *needed);
uint8_t symq_strict_keyed_answer(uint64_t first_key, uint64_t second_key, const uint8_t *text, size_t text_length,
                                 const uint8_t *lines, size_t lines_length, uint8_t *out, size_t out_length, size_t *needed);

/* A session, which retains a graph between calls. It begins closed, with all fields 0, as by `struct symq_session it = {0}`.
 * Only the calls write its fields or follow the pointer, and only one of its copies may be used. It may move to another
 * thread between calls, by a lock or by that thread's start or end. */
struct symq_session {
    bool is_open;
    void *kept;
};

/* Opens a session over the text of a graph, by Deno's rules: the text is read and checked once. It returns SYMQ_DONE and sets
 * `*needed` to 0. Otherwise it returns a status of `symq_answer` with its line, and the session is closed. The former state
 * of the session is freed. */
uint8_t symq_open(const uint8_t *text, size_t text_length, struct symq_session *session, uint8_t *out, size_t out_length,
                  size_t *needed);

/* Opens a session as `symq_open` does, by strict rules. */
uint8_t symq_strict_open(const uint8_t *text, size_t text_length, struct symq_session *session, uint8_t *out, size_t out_length,
                         size_t *needed);

/* Opens a session as `symq_open` and `symq_strict_open` do, with keys as of `symq_keyed_answer`. */
uint8_t symq_keyed_open(uint64_t first_key, uint64_t second_key, const uint8_t *text, size_t text_length,
                        struct symq_session *session, uint8_t *out, size_t out_length, size_t *needed);
uint8_t symq_strict_keyed_open(uint64_t first_key, uint64_t second_key, const uint8_t *text, size_t text_length,
                               struct symq_session *session, uint8_t *out, size_t out_length, size_t *needed);

/* Answers lines as `symq_answer` does, over the graph of the session. The session doesn't change, not even with SYMQ_NO_MEMORY. */
uint8_t symq_ask(struct symq_session *session, const uint8_t *lines, size_t lines_length, uint8_t *out, size_t out_length,
                 size_t *needed);

/* Puts the module of a text into the graph of the session, in place of the one of its specifier, or after all if there is none. The text is
 * that of a graph with this module alone, its resolutions, and no redirect. They replace all resolutions of that module. It returns
 * SYMQ_DONE and sets `*needed` to 0; from then on the session answers as one opened anew over the graph with the module in place.
 * Otherwise it writes the line of its status, and the session is as before: SYMQ_CLOSED, SYMQ_NO_GRAPH, SYMQ_REFUSED or SYMQ_NO_MEMORY. */
uint8_t symq_put(struct symq_session *session, const uint8_t *text, size_t text_length, uint8_t *out, size_t out_length, size_t *needed);

/* Frees the graph of the session, and leaves it closed. A session that is never closed leaks it. */
void symq_close(struct symq_session *session);

#ifdef __cplusplus
}
#endif

#endif
