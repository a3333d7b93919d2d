/* A plain responder of HTTP, to compare times with: it frames requests by the empty line that ends a head and by a
 * Content-Length, and answers each with one constant answer. It reads nothing else of a request and keeps nothing.
 *
 * Its words are a port, a number of threads, and the body of the answer. Each thread accepts a connection, serves it to its
 * end, and accepts the next one, as the service's handlers do. All answers to what one read brought go out in one write.
 */
#include <arpa/inet.h>
#include <netinet/in.h>
#include <netinet/tcp.h>
#include <pthread.h>
#include <stdio.h>
#include <stdlib.h>
#include <string.h>
#include <strings.h>
#include <sys/socket.h>
#include <unistd.h>

static int listener;
static char answer[65536];
static size_t answer_length;

/* The bytes of the first request held, or 0 where it isn't whole. */
static size_t request(const char *held, size_t count) {
    const char *end = memmem(held, count, "\r\n\r\n", 4);
    if (end == NULL)
        return 0;
    size_t head = end + 4 - held, body = 0;
    for (const char *line = held; line < end;) {
        const char *next = memchr(line, '\n', end - line + 2);
        if (strncasecmp(line, "Content-Length:", 15) == 0)
            body = strtoul(line + 15, NULL, 10);
        if (next == NULL)
            break;
        line = next + 1;
    }
    return head + body <= count ? head + body : 0;
}

static void serve(int link) {
    static __thread char held[1 << 20], out[1 << 20];
    size_t count = 0;
    for (;;) {
        ssize_t n = read(link, held + count, sizeof held - count);
        if (n <= 0)
            return;
        count += n;
        size_t from = 0, size, put = 0;
        while ((size = request(held + from, count - from)) > 0) {
            from += size;
            if (put + answer_length > sizeof out) {
                if (write(link, out, put) != (ssize_t)put)
                    return;
                put = 0;
            }
            memcpy(out + put, answer, answer_length);
            put += answer_length;
        }
        memmove(held, held + from, count -= from);
        if (put > 0 && write(link, out, put) != (ssize_t)put)
            return;
    }
}

static void *handler(void *unused) {
    for (;;) {
        int link = accept(listener, NULL, NULL), one = 1;
        if (link < 0)
            return unused;
        setsockopt(link, IPPROTO_TCP, TCP_NODELAY, &one, sizeof one);
        serve(link);
        close(link);
    }
}

int main(int count, char **words) {
    if (count != 4)
        return 2;
    struct sockaddr_in at = {.sin_family = AF_INET, .sin_port = htons(atoi(words[1]))};
    at.sin_addr.s_addr = htonl(INADDR_LOOPBACK);
    int one = 1, threads = atoi(words[2]);
    answer_length = snprintf(answer, sizeof answer, "HTTP/1.1 200 OK\r\nContent-Type: application/json\r\nContent-Length: %zu\r\n\r\n%s",
                             strlen(words[3]), words[3]);
    listener = socket(AF_INET, SOCK_STREAM, 0);
    setsockopt(listener, SOL_SOCKET, SO_REUSEADDR, &one, sizeof one);
    if (bind(listener, (void *)&at, sizeof at) != 0 || listen(listener, 128) != 0) {
        perror("listen");
        return 1;
    }
    pthread_t thread;
    for (int i = 1; i < threads; i++)
        pthread_create(&thread, NULL, handler, NULL);
    handler(NULL);
    return 0;
}
