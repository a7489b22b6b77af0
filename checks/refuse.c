/* Loaded before the C library: counts the requests for memory in each window of a test, and
 * refuses some of them.
 *
 * A test opens a window by asking for a block of OPENS bytes, and closes it by asking for one of
 * CLOSES bytes. The latter is refused where a request in the window was, so that the test knows.
 *
 * Where REFUSE_WHOLE is set, the whole run of a program is one window.
 *
 * REFUSE_REQUESTS has four numbers: the window, from 1, or 0 for all; the first and the last
 * request in it to refuse, from 1; and one more of them, or 0. For each window that is closed, a
 * line goes to the file descriptor REFUSE_REPORT: how many requests it held, and how many of them
 * were refused. */
#define _GNU_SOURCE
#include <dlfcn.h>
#include <errno.h>
#include <stddef.h>
#include <stdio.h>
#include <stdlib.h>
#include <unistd.h>

enum { OPENS = 650651, CLOSES = 650652 };

static long chosen, first, last, another;
static int report;
static int is_open;
static long window, requests, refused;

__attribute__((constructor)) static void begin(void) {
    const char *numbers = getenv("REFUSE_REQUESTS");
    const char *file = getenv("REFUSE_REPORT");
    if (!numbers || !file)
        _exit(98);
    if (sscanf(numbers, "%ld %ld %ld %ld", &chosen, &first, &last, &another) != 4)
        _exit(98);
    report = atoi(file);
    if (getenv("REFUSE_WHOLE"))
        is_open = window = 1;
}

static void open_window(void) {
    if (is_open)
        _exit(97);
    is_open = 1;
    window++;
    requests = refused = 0;
}

/* Closes the window, and tells whether a request in it was refused. */
static int close_window(void) {
    char line[64];
    int length = snprintf(line, sizeof line, "%ld %ld\n", requests, refused);
    if (!is_open || write(report, line, length) != length)
        _exit(96);
    is_open = 0;
    return refused > 0;
}

__attribute__((destructor)) static void end(void) {
    if (is_open)
        close_window();
}

/* Whether this request is to be refused. */
static int refuses(void) {
    if (!is_open)
        return 0;
    requests++;
    if (chosen != 0 && chosen != window)
        return 0;
    if ((requests < first || requests > last) && requests != another)
        return 0;
    refused++;
    errno = ENOMEM;
    return 1;
}

void *malloc(size_t size) {
    static void *(*next)(size_t);
    if (!next)
        next = dlsym(RTLD_NEXT, "malloc");
    if (size == OPENS) {
        open_window();
        return next(size);
    }
    if (size == CLOSES)
        return close_window() ? NULL : next(size);
    return refuses() ? NULL : next(size);
}

void *realloc(void *at, size_t size) {
    static void *(*next)(void *, size_t);
    if (!next)
        next = dlsym(RTLD_NEXT, "realloc");
    return refuses() ? NULL : next(at, size);
}

void *aligned_alloc(size_t alignment, size_t size) {
    static void *(*next)(size_t, size_t);
    if (!next)
        next = dlsym(RTLD_NEXT, "aligned_alloc");
    return refuses() ? NULL : next(alignment, size);
}

int posix_memalign(void **at, size_t alignment, size_t size) {
    static int (*next)(void **, size_t, size_t);
    if (!next)
        next = dlsym(RTLD_NEXT, "posix_memalign");
    return refuses() ? ENOMEM : next(at, alignment, size);
}
