/* A plain worker, to compare times with: it makes the same exchanges as a worker whose verdicts stand in a table, and decides nothing else.
 *
 * Its words are a port, a number of runs and the path of a table with lines `COMMIT VERDICT TEST`. It leases and reports, each request on a
 * connection of its own, until so many runs were reported or no run is due, and prints how many it reported.
 */
#include <arpa/inet.h>
#include <netinet/in.h>
#include <netinet/tcp.h>
#include <stdio.h>
#include <stdlib.h>
#include <string.h>
#include <strings.h>
#include <sys/socket.h>
#include <unistd.h>

static int port;
static char held[65536];

static void fail(const char *what) {
    fprintf(stderr, "%s: %s\n", what, held);
    exit(1);
}

/* Sends a request, reads the answer by its Content-Length into `held`, and gives its body. */
static char *exchange(const char *path, const char *body) {
    struct sockaddr_in at = {.sin_family = AF_INET, .sin_port = htons(port)};
    at.sin_addr.s_addr = htonl(INADDR_LOOPBACK);
    char request[4096];
    int size = snprintf(request, sizeof request, "POST %s HTTP/1.1\r\nHost: farm\r\nContent-Length: %zu\r\nConnection: close\r\n\r\n%s", path,
                        strlen(body), body);
    int link = socket(AF_INET, SOCK_STREAM, 0), one = 1;
    if (connect(link, (void *)&at, sizeof at) != 0)
        fail("connect");
    setsockopt(link, IPPROTO_TCP, TCP_NODELAY, &one, sizeof one);
    if (write(link, request, size) != size)
        fail("write");
    size_t count = 0;
    for (;;) {
        ssize_t n = read(link, held + count, sizeof held - 1 - count);
        if (n <= 0)
            fail("read");
        held[count += n] = 0;
        char *end = strstr(held, "\r\n\r\n"), *length = strcasestr(held, "Content-Length:");
        if (end != NULL && length != NULL && end + 4 - held + strtoul(length + 15, NULL, 10) <= count) {
            close(link);
            return end + 4;
        }
    }
}

/* The text of a member of a JSON object without blanks. */
static char *member(char *body, const char *name) {
    char *found = strstr(body, name);
    if (found == NULL)
        fail(name);
    return found + strlen(name);
}

int main(int count, char **words) {
    if (count != 4)
        return 2;
    port = atoi(words[1]);
    int runs = atoi(words[2]), made = 0;
    FILE *file = fopen(words[3], "r");
    if (file == NULL)
        fail("table");
    fseek(file, 0, SEEK_END);
    long size = ftell(file);
    rewind(file);
    char *table = calloc(size + 1, 1);
    if (fread(table, 1, size, file) != (size_t)size)
        fail("table");
    while (made < runs) {
        char body[256], path[64], commit[41] = {0};
        snprintf(body, sizeof body, "{\"key\":\"00000000-0000-4000-8000-%012x\",\"worker\":\"plain\"}", made + 1);
        char *lease = exchange("/v1/leases", body);
        if (strncmp(held, "HTTP/1.1 409", 12) == 0)
            break;
        memcpy(commit, member(lease, "\"commit\":\""), 40);
        int run = atoi(member(lease, "\"run\":"));
        char *line = strstr(table, commit);
        if (line == NULL)
            fail("no verdict");
        snprintf(path, sizeof path, "/v1/runs/%d/report", run);
        snprintf(body, sizeof body, "{\"verdict\":\"%.4s\"}", line + 41);
        exchange(path, body);
        if (strncmp(held, "HTTP/1.1 200", 12) != 0)
            fail("report");
        made++;
    }
    printf("%d\n", made);
    return 0;
}
