/* To be loaded before a program (LD_PRELOAD): kills it, and who started it, at a call of the system that changes or opens a
 * file. WORD is the subcommand that is meant, as `close`; AT is the number of the call, from 1; where HALF is set a write
 * is done by half before. A program of another subcommand is left alone.
 */
#define _GNU_SOURCE
#include <dlfcn.h>
#include <fcntl.h>
#include <signal.h>
#include <stdarg.h>
#include <stdio.h>
#include <stdlib.h>
#include <string.h>
#include <sys/types.h>
#include <unistd.h>

static long left = -1;
static int half;

__attribute__((constructor)) static void begin(void) {
    char words[4096];
    const char *word = getenv("WORD"), *at = getenv("AT");
    FILE *file = fopen("/proc/self/cmdline", "rb");
    if (file == NULL || word == NULL || at == NULL) return;
    size_t count = fread(words, 1, sizeof words - 2, file);
    fclose(file);
    words[count] = words[count + 1] = '\0';
    const char *name = strrchr(words, '/');
    if (strcmp(name == NULL ? words : name + 1, "culprit_finder") != 0) return;
    if (strcmp(words + strlen(words) + 1, word) == 0) left = atol(at);
    half = getenv("HALF") != NULL;
}

static void end(void) {
    kill(getppid(), SIGKILL);
    raise(SIGKILL);
}

static int is_due(void) { return left > 0 && --left == 0; }

int open(const char *path, int flags, ...) {
    static int (*real)(const char *, int, ...);
    if (real == NULL) real = (int (*)(const char *, int, ...)) dlsym(RTLD_NEXT, "open");
    va_list more;
    va_start(more, flags);
    int mode = va_arg(more, int);
    va_end(more);
    if (is_due()) end();
    return real(path, flags, mode);
}

ssize_t write(int fd, const void *bytes, size_t count) {
    static ssize_t (*real)(int, const void *, size_t);
    if (real == NULL) real = (ssize_t (*)(int, const void *, size_t)) dlsym(RTLD_NEXT, "write");
    if (is_due()) {
        if (half) real(fd, bytes, count / 2);
        end();
    }
    return real(fd, bytes, count);
}

ssize_t pwrite(int fd, const void *bytes, size_t count, off_t at) {
    static ssize_t (*real)(int, const void *, size_t, off_t);
    if (real == NULL) real = (ssize_t (*)(int, const void *, size_t, off_t)) dlsym(RTLD_NEXT, "pwrite");
    if (is_due()) {
        if (half) real(fd, bytes, count / 2, at);
        end();
    }
    return real(fd, bytes, count, at);
}

#define ONE(name, type, passed)                                                                                              \
    int name type {                                                                                                          \
        static int(*real) type;                                                                                              \
        if (real == NULL) real = (int(*) type) dlsym(RTLD_NEXT, #name);                                                      \
        if (is_due()) end();                                                                                                 \
        return real passed;                                                                                                  \
    }

ONE(fsync, (int fd), (fd))
ONE(fdatasync, (int fd), (fd))
ONE(ftruncate, (int fd, off_t size), (fd, size))
ONE(close, (int fd), (fd))
