/* To be loaded before a program (LD_PRELOAD): plays a system that drops what it could not store. The file whose name ends with
 * JOURNAL has a second one beside it, named STORED, which has what is stored for good: a sync that is done stores what was written
 * since the last one, and a sync that fails drops it, so that the next one passes without it, as ext4 and XFS do. The syncs whose
 * numbers, from 1, stand in FAILS fail, as in `2,5-7,9-`, the last of which is each from the ninth on. KIND is the error's number,
 * 5 if not said.
 */
#define _GNU_SOURCE
#include <dlfcn.h>
#include <errno.h>
#include <fcntl.h>
#include <pthread.h>
#include <stdarg.h>
#include <stdlib.h>
#include <string.h>
#include <sys/stat.h>
#include <sys/types.h>
#include <unistd.h>

enum { MOST = 65536 };

static struct { off_t at; size_t count; } dirty[MOST];
static int writes, syncs, journal = -1, stored = -1, kind = EIO;
static const char *fails = "", *name = NULL;
static pthread_mutex_t lock = PTHREAD_MUTEX_INITIALIZER;

__attribute__((constructor)) static void begin(void) {
    if (getenv("FAILS") != NULL) fails = getenv("FAILS");
    if (getenv("KIND") != NULL) kind = atoi(getenv("KIND"));
    name = getenv("JOURNAL");
}

static int fails_at(int sync) {
    const char *at = fails;
    while (*at != '\0') {
        char *end;
        long first = strtol(at, &end, 10), last = first;
        if (*end == '-') {
            at = end + 1;
            last = strtol(at, &end, 10);
            if (end == at) last = sync;
        }
        if (first <= sync && sync <= last) return 1;
        at = *end == '\0' ? end : end + 1;
    }
    return 0;
}

int open(const char *path, int flags, ...) {
    static int (*real)(const char *, int, ...);
    if (real == NULL) real = (int (*)(const char *, int, ...)) dlsym(RTLD_NEXT, "open");
    va_list more;
    va_start(more, flags);
    int mode = va_arg(more, int);
    va_end(more);
    int fd = real(path, flags, mode);
    size_t length = strlen(path), most = name == NULL ? length + 1 : strlen(name);
    if (fd >= 0 && length >= most && strcmp(path + length - most, name) == 0 && getenv("STORED") != NULL) {
        journal = fd;
        if (stored < 0) stored = real(getenv("STORED"), O_RDWR | O_CREAT, 0666);
    }
    return fd;
}

ssize_t pwrite(int fd, const void *bytes, size_t count, off_t at) {
    static ssize_t (*real)(int, const void *, size_t, off_t);
    if (real == NULL) real = (ssize_t (*)(int, const void *, size_t, off_t)) dlsym(RTLD_NEXT, "pwrite");
    ssize_t put = real(fd, bytes, count, at);
    if (fd == journal && fd >= 0 && put > 0) {
        pthread_mutex_lock(&lock);
        if (writes == MOST) abort();
        dirty[writes].at = at;
        dirty[writes++].count = (size_t) put;
        pthread_mutex_unlock(&lock);
    }
    return put;
}

int ftruncate(int fd, off_t size) {
    static int (*real)(int, off_t);
    if (real == NULL) real = (int (*)(int, off_t)) dlsym(RTLD_NEXT, "ftruncate");
    if (fd == journal && stored >= 0) real(stored, size);
    return real(fd, size);
}

/* What was written goes from the one file to the other. */
static void store(void) {
    static ssize_t (*real)(int, const void *, size_t, off_t);
    if (real == NULL) real = (ssize_t (*)(int, const void *, size_t, off_t)) dlsym(RTLD_NEXT, "pwrite");
    for (int i = 0; i < writes; i++) {
        char *bytes = malloc(dirty[i].count);
        ssize_t count = bytes == NULL ? -1 : pread(journal, bytes, dirty[i].count, dirty[i].at);
        if (count < 0 || real(stored, bytes, (size_t) count, dirty[i].at) != count) abort();
        free(bytes);
    }
}

int fdatasync(int fd) {
    static int (*real)(int);
    if (real == NULL) real = (int (*)(int)) dlsym(RTLD_NEXT, "fdatasync");
    if (fd != journal || stored < 0) return real(fd);
    pthread_mutex_lock(&lock);
    int failed = fails_at(++syncs);
    if (!failed) store();
    writes = 0;
    pthread_mutex_unlock(&lock);
    errno = kind;
    return failed ? -1 : 0;
}
