/* Preloaded into a program, refuses one of its calls. The words are read from the environment:

       REFUSED   memory, file, input or output: which calls are counted, from the beginning of the program's main on. memory:
                 those for memory; file, input: reads of a file that is opened, of standard input; output: writes to standard output
       NUMBER    the number of the call that is refused, from 1 on; none where it is 0
       REST      where it is set, all counted calls behind that one are refused, too
       STEP      where it is set, a line: calls are counted from the write of this line to standard output on
       UNTIL     where it is set, too, only up to the next write to standard output
       EMPTY     where it is set, a write that is refused takes nothing in place of failing
       INTERRUPT where it is set, a read or a write that is refused fails as one that a signal interrupts
       PIECES    where it is set, a read or a write takes one byte at most
       TOLD      a descriptor, to which a byte is written when the first call is refused */
#define _GNU_SOURCE
#include <errno.h>
#include <stdlib.h>
#include <string.h>
#include <sys/syscall.h>
#include <unistd.h>

void *__libc_malloc(size_t), *__libc_calloc(size_t, size_t), *__libc_realloc(void *, size_t), *__libc_memalign(size_t, size_t);

static const char *refused = "", *step;
static long number, count;
static int rest, until, empty, error = EIO, pieces, told, counts = 1;

static int word(const char *name)
{
    const char *value = getenv(name);
    return value ? atoi(value) : 0;
}

__attribute__((constructor)) static void begin(void)
{
    number = word("NUMBER");
    told = word("TOLD");
    rest = getenv("REST") != NULL;
    step = getenv("STEP");
    counts = step == NULL;
    until = getenv("UNTIL") != NULL;
    error = getenv("INTERRUPT") ? EINTR : EIO;
    empty = getenv("EMPTY") != NULL;
    pieces = getenv("PIECES") != NULL;
    refused = getenv("REFUSED") ? getenv("REFUSED") : "";
}

/* Counts a call of this sort, and says whether it is refused. */
static int refuses(const char *sort)
{
    if (number == 0 || !counts || strcmp(sort, refused) != 0)
        return 0;
    count++;
    if (count == number)
        syscall(SYS_write, told, "", 1);
    return count == number || (rest && count > number);
}

/* Whether calls are counted behind a write of these bytes to standard output. */
static int counts_behind(const char *bytes, size_t size)
{
    if (step == NULL)
        return 1;
    if (size == strlen(step) + 1 && bytes[size - 1] == '\n' && memcmp(bytes, step, size - 1) == 0)
        return 1;
    return counts && !until;
}

static void *no_memory(void)
{
    errno = ENOMEM;
    return NULL;
}

void *malloc(size_t size) { return refuses("memory") ? no_memory() : __libc_malloc(size); }
void *calloc(size_t items, size_t size) { return refuses("memory") ? no_memory() : __libc_calloc(items, size); }
void *realloc(void *old, size_t size) { return refuses("memory") ? no_memory() : __libc_realloc(old, size); }
void *aligned_alloc(size_t align, size_t size) { return refuses("memory") ? no_memory() : __libc_memalign(align, size); }

int posix_memalign(void **found, size_t align, size_t size)
{
    void *memory = aligned_alloc(align, size);
    if (memory)
        *found = memory;
    return memory ? 0 : ENOMEM;
}

ssize_t read(int from, void *bytes, size_t size)
{
    if (refuses(from == 0 ? "input" : "file")) {
        errno = error;
        return -1;
    }
    return syscall(SYS_read, from, bytes, pieces && size > 1 ? 1 : size);
}

ssize_t write(int to, const void *bytes, size_t size)
{
    if (to == 1 && refuses("output")) {
        errno = error;
        return empty ? 0 : -1;
    }
    if (to == 1)
        counts = counts_behind(bytes, size);
    return syscall(SYS_write, to, bytes, pieces && size > 1 ? 1 : size);
}

/* The names by which a build may call them. */
ssize_t __read(int from, void *bytes, size_t size) { return read(from, bytes, size); }
ssize_t __write(int to, const void *bytes, size_t size) { return write(to, bytes, size); }
