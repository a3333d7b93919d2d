/* To be loaded before a program (LD_PRELOAD): while there is a file of the name HANG, each sync waits, for a minute at most. */
#define _GNU_SOURCE
#include <dlfcn.h>
#include <stdlib.h>
#include <unistd.h>

static void wait_for_it(void) {
    const char *name = getenv("HANG");
    for (int i = 0; name != NULL && i < 6000 && access(name, F_OK) == 0; i++) usleep(10000);
}

int fdatasync(int fd) {
    static int (*real)(int);
    if (real == NULL) real = (int (*)(int)) dlsym(RTLD_NEXT, "fdatasync");
    wait_for_it();
    return real(fd);
}

int fsync(int fd) {
    static int (*real)(int);
    if (real == NULL) real = (int (*)(int)) dlsym(RTLD_NEXT, "fsync");
    wait_for_it();
    return real(fd);
}
