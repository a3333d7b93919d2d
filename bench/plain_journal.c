/* Writes the records of a journal again, to compare times with: for each record the same two writes and two syncs as the
 * journal made, and nothing else.
 *
 * Its words are the path of the journal and that of the file that it makes.
 */
#include <fcntl.h>
#include <stdint.h>
#include <stdio.h>
#include <stdlib.h>
#include <sys/stat.h>
#include <unistd.h>

enum { FIRST_GATE = 16 };

static void fail(const char *what) {
    perror(what);
    exit(1);
}

static void put(int file, const void *bytes, size_t count, off_t at) {
    if (pwrite(file, bytes, count, at) != (ssize_t)count || fdatasync(file) != 0)
        fail("write");
}

/* How long the record behind an open gate is: its length in 4 bytes, its payload and the next gate. */
static size_t record_length(const unsigned char *gate) {
    return 4 + ((size_t)gate[1] << 24 | gate[2] << 16 | gate[3] << 8 | gate[4]) + 1;
}

int main(int count, char **words) {
    if (count != 3)
        return 2;
    int from = open(words[1], O_RDONLY);
    int file = open(words[2], O_RDWR | O_CREAT | O_TRUNC, 0666);
    struct stat seen;
    if (from < 0 || file < 0 || fstat(from, &seen) != 0)
        fail("open");
    unsigned char *bytes = malloc(seen.st_size);
    unsigned char closed = 0;
    if (bytes == NULL || read(from, bytes, seen.st_size) != seen.st_size)
        fail("read");
    off_t gate = FIRST_GATE;
    gate += record_length(bytes + gate);
    put(file, bytes, gate, 0);
    put(file, &closed, 1, gate);
    while (bytes[gate] != 0) {
        size_t length = record_length(bytes + gate);
        unsigned char open_gate = bytes[gate];
        unsigned char next = bytes[gate + length];
        bytes[gate + length] = 0;
        put(file, bytes + gate + 1, length, gate + 1);
        put(file, &open_gate, 1, gate);
        bytes[gate + length] = next;
        gate += length;
    }
    return 0;
}
