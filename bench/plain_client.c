/* A plain client of HTTP, where wrk isn't there: so many connections, a thread each, ask for one path again and again, one request at a
 * time, and read each answer to its end by its Content-Length.
 *
 * Its words are a port, a path, a number of connections and seconds, and maybe a number: then each connection posts leases to the
 * path, each under a key of its own, so many sent ahead. It prints the requests a second of all together.
 */
#include <arpa/inet.h>
#include <netinet/in.h>
#include <netinet/tcp.h>
#include <pthread.h>
#include <stdio.h>
#include <stdlib.h>
#include <string.h>
#include <strings.h>
#include <sys/socket.h>
#include <time.h>
#include <unistd.h>

static int port;
static char request[4096];
static size_t request_length;
static int ahead = 1, leases;
static int next_connection;
static double until;

static double now(void) {
    struct timespec t;
    clock_gettime(CLOCK_MONOTONIC, &t);
    return t.tv_sec + t.tv_nsec / 1e9;
}

static void fail(const char *what) {
    perror(what);
    exit(1);
}

/* How many bytes the answer held has, or 0 where it isn't whole. */
static size_t answer(const char *held, size_t count) {
    const char *end = memmem(held, count, "\r\n\r\n", 4);
    if (end == NULL)
        return 0;
    for (const char *line = held; line < end; line = (char *)memchr(line, '\n', end + 2 - line) + 1)
        if (strncasecmp(line, "Content-Length:", 15) == 0) {
            size_t size = end + 4 - held + strtoul(line + 15, NULL, 10);
            return size <= count ? size : 0;
        }
    fail("an answer without Content-Length");
    return 0;
}

static void *client(void *made) {
    static __thread char held[1 << 20];
    struct sockaddr_in at = {.sin_family = AF_INET, .sin_port = htons(port)};
    at.sin_addr.s_addr = htonl(INADDR_LOOPBACK);
    int link = socket(AF_INET, SOCK_STREAM, 0), one = 1;
    if (connect(link, (void *)&at, sizeof at) != 0)
        fail("connect");
    setsockopt(link, IPPROTO_TCP, TCP_NODELAY, &one, sizeof one);
    static __thread char lines[1 << 16];
    int number = __atomic_add_fetch(&next_connection, 1, __ATOMIC_SEQ_CST);
    for (long key = 0; now() < until;) {
        const char *out = request;
        size_t length = request_length, count = 0, size;
        if (leases) {
            out = lines;
            length = 0;
            for (int i = 0; i < ahead; i++)
                length += snprintf(lines + length, sizeof lines - length,
                                   "POST %s HTTP/1.1\r\nHost: farm\r\nContent-Length: 59\r\n\r\n"
                                   "{\"key\":\"%08x-0000-0000-0000-%012ld\",\"worker\":\"w\"}", request, number, ++key);
        }
        if (write(link, out, length) != (ssize_t)length)
            fail("write");
        for (int left = ahead; left > 0;) {
            ssize_t n = read(link, held + count, sizeof held - count);
            if (n <= 0)
                fail("read");
            count += n;
            for (; left > 0 && (size = answer(held, count)) > 0; left--) {
                *(long *)made += !leases || memcmp(held, "HTTP/1.1 200", 12) == 0;
                memmove(held, held + size, count -= size);
            }
        }
    }
    close(link);
    return NULL;
}

int main(int count, char **words) {
    if (count != 5 && count != 6)
        return 2;
    int connections = atoi(words[3]);
    double seconds = atof(words[4]), began = now();
    long *made = calloc(connections, 64), all = 0;
    pthread_t *threads = calloc(connections, sizeof *threads);
    port = atoi(words[1]);
    request_length = snprintf(request, sizeof request, "GET %s HTTP/1.1\r\nHost: farm\r\n\r\n", words[2]);
    if (count == 6) {
        ahead = atoi(words[5]);
        leases = snprintf(request, sizeof request, "%s", words[2]);
    }
    until = began + seconds;
    for (int i = 0; i < connections; i++)
        pthread_create(&threads[i], NULL, client, made + 8 * i);
    for (int i = 0; i < connections; i++) {
        pthread_join(threads[i], NULL);
        all += made[8 * i];
    }
    printf("%.0f\n", all / (now() - began));
    return 0;
}
