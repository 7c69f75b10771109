/* The C library's calls that a program makes of its host, of which one fails or each is cut short. `faults.py` builds it
 * and puts it before the C library. Environment:
 *   FAIL=KIND:N   the N-th call of KIND fails, counted from 1: malloc (realloc too), open, read, write, pthread_create
 *   MOST=N        a read or a write moves N bytes at most
 *   TOLD=FILE     when a call fails, so many files had been opened: written to FILE
 */
#define _GNU_SOURCE
#include <dlfcn.h>
#include <errno.h>
#include <fcntl.h>
#include <pthread.h>
#include <stdarg.h>
#include <stdio.h>
#include <stdlib.h>
#include <string.h>
#include <unistd.h>

#define NEXT(name) ((__typeof__(&name))dlsym(RTLD_NEXT, #name))

static int opened;

/* Whether this call of a kind is the one that fails. */
static int fails(const char *kind, int *made) {
    const char *which = getenv("FAIL");
    size_t length = strlen(kind);
    if (!which || strncmp(which, kind, length) || which[length] != ':') return 0;
    if (__atomic_add_fetch(made, 1, __ATOMIC_SEQ_CST) != atoi(which + length + 1)) return 0;
    const char *told = getenv("TOLD");
    char text[16];
    int fd = told ? NEXT(open)(told, O_WRONLY | O_CREAT | O_TRUNC, 0600) : -1;
    if (fd >= 0) {
        int size = 0;
        for (int n = opened, digit = 1000; digit; digit /= 10) text[size++] = '0' + n / digit % 10;
        if (NEXT(write)(fd, text, size) != size) abort();
        close(fd);
    }
    return 1;
}

static size_t cut(size_t count) {
    const char *most = getenv("MOST");
    return most && (size_t)atol(most) < count ? (size_t)atol(most) : count;
}

static int allocated;

void *malloc(size_t size) {
    if (fails("malloc", &allocated)) return NULL;
    return NEXT(malloc)(size);
}

void *realloc(void *old, size_t size) {
    if (fails("malloc", &allocated)) return NULL;
    return NEXT(realloc)(old, size);
}

int open(const char *path, int flags, ...) {
    static int made;
    va_list rest;
    va_start(rest, flags);
    int mode = va_arg(rest, int);
    va_end(rest);
    if (fails("open", &made)) return errno = EACCES, -1;
    int fd = NEXT(open)(path, flags, mode);
    if (fd >= 0) opened++;
    return fd;
}

ssize_t read(int fd, void *to, size_t count) {
    static int made;
    if (fails("read", &made)) return errno = EIO, -1;
    return NEXT(read)(fd, to, cut(count));
}

ssize_t write(int fd, const void *from, size_t count) {
    static int made;
    if (fails("write", &made)) return errno = EIO, -1;
    return NEXT(write)(fd, from, cut(count));
}

int pthread_create(pthread_t *thread, const pthread_attr_t *attributes, void *(*body)(void *), void *of) {
    static int made;
    if (fails("pthread_create", &made)) return EAGAIN;
    return NEXT(pthread_create)(thread, attributes, body, of);
}
