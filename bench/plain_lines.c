/* Reads the lines of a script and writes a line for each, to compare times with: it finds the moment and the word of
 * each line, decides nothing, and writes as many bytes as the farm's reply has, by a call of its own for each line as
 * `run` does.
 *
 * Its word is the path of a file with the lengths of the replies, in decimal, a line each.
 */
#include <stdio.h>
#include <stdlib.h>
#include <string.h>
#include <unistd.h>

enum { PIECE = 1 << 16, MOST = 1 << 20 };

static char line[MOST];
static char reply[MOST];
static unsigned long told;

static void fail(const char *what) {
    perror(what);
    exit(1);
}

/* Looks at every byte of the line once, for the moment and the word, as a reader of JSON has to. */
static void look(const char *at, const char *end) {
    unsigned long depth = 0, moment = 0;
    const char *word = NULL;
    for (; at < end; at++) {
        if (*at == '[' || *at == '{')
            depth++;
        else if (*at == ']' || *at == '}')
            depth--;
        else if (*at == '"') {
            const char *name = ++at;
            while (*at != '"') at += *at == '\\' ? 2 : 1;
            if (depth == 1 && at - name == 2 && memcmp(name, "at", 2) == 0 && at[1] == ':')
                moment = strtoul(at + 2, NULL, 10);
            else if (depth == 1 && at - name == 2 && memcmp(name, "do", 2) == 0 && at[1] == ':')
                word = at + 3;
        }
    }
    told += moment + (word != NULL);
}

static size_t next_length(FILE *lengths) {
    unsigned long length;
    if (fscanf(lengths, "%lu", &length) != 1 || length >= MOST)
        fail("lengths");
    return length;
}

int main(int count, char **words) {
    if (count != 2)
        return 2;
    FILE *lengths = fopen(words[1], "r");
    if (lengths == NULL)
        fail("open");
    memset(reply, 'x', MOST);
    size_t held = 0;
    ssize_t got;
    while ((got = read(0, line + held, held + PIECE < MOST ? PIECE : MOST - held)) > 0) {
        char *from = line, *end = line + held + got, *stop;
        while ((stop = memchr(from, '\n', end - from)) != NULL) {
            look(from, stop);
            size_t length = next_length(lengths);
            reply[length] = '\n';
            if (write(1, reply, length + 1) != (ssize_t)length + 1)
                fail("write");
            reply[length] = 'x';
            from = stop + 1;
        }
        held = end - from;
        memmove(line, from, held);
    }
    return got < 0 || told == 0;
}
