/* Plain appends to a file, to compare times with: for each payload the same two writes and two syncs as a journal makes,
 * and nothing else.
 *
 * Its words are a path, the number of payloads and their length. It prints the nanoseconds that the appends took.
 */
#include <fcntl.h>
#include <stdint.h>
#include <stdio.h>
#include <stdlib.h>
#include <string.h>
#include <time.h>
#include <unistd.h>

static void fail(const char *what) {
    perror(what);
    exit(1);
}

static void put(int file, const void *bytes, size_t count, off_t at) {
    if (pwrite(file, bytes, count, at) != (ssize_t)count || fdatasync(file) != 0)
        fail("append");
}

static int64_t now(void) {
    struct timespec t;
    clock_gettime(CLOCK_MONOTONIC, &t);
    return t.tv_sec * INT64_C(1000000000) + t.tv_nsec;
}

int main(int count, char **words) {
    if (count != 4)
        return 2;
    int payloads = atoi(words[2]);
    size_t length = atoi(words[3]);
    int file = open(words[1], O_RDWR | O_CREAT | O_TRUNC, 0666);
    unsigned char *record = calloc(1, 4 + length + 1);
    if (file < 0 || record == NULL)
        fail("open");
    for (int i = 0; i < 4; i++)
        record[i] = length >> (24 - 8 * i);
    memset(record + 4, 'x', length);
    off_t gate = 16;
    put(file, "\0CulpritFinder 2", 17, 0);
    int64_t began = now();
    for (int i = 0; i < payloads; i++) {
        put(file, record, 4 + length + 1, gate + 1);
        put(file, "\1", 1, gate);
        gate += 5 + length;
    }
    printf("%lld\n", (long long)(now() - began));
    return 0;
}
