/* To be loaded before a program (LD_PRELOAD): the allocation whose number, from 1, stands in FAILS finds no memory. It then
 * makes the file that TOLD names.
 */
#include <fcntl.h>
#include <stddef.h>
#include <stdlib.h>
#include <unistd.h>

extern void *__libc_malloc(size_t);
extern void *__libc_calloc(size_t, size_t);
extern void *__libc_realloc(void *, size_t);

static long asked, fails;
static const char *told;

__attribute__((constructor)) static void begin(void) {
    const char *number = getenv("FAILS");
    fails = number == NULL ? 0 : atol(number);
    told = getenv("TOLD");
    asked = 0;
}

static int refused(void) {
    if (++asked != fails) {
        return 0;
    }
    if (told != NULL) {
        close(open(told, O_CREAT | O_WRONLY, 0600));
    }
    return 1;
}

void *malloc(size_t size) { return refused() ? NULL : __libc_malloc(size); }

void *calloc(size_t count, size_t size) { return refused() ? NULL : __libc_calloc(count, size); }

void *realloc(void *old, size_t size) { return refused() ? NULL : __libc_realloc(old, size); }
