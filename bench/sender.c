/* A client of a server that sends lines at once, so many, again and again, each time once the replies to the last ones are there. The lines add
   entries to a table of its own, one a line, and then take them out, over and over.
   Usage: sender PORT NUMBER SIZE ENTRIES BEGINS SECONDS: the server's port at 127.0.0.1, the client's number, lines at once, entries, the moment to
   begin at by the monotonic clock, and for how many seconds. It prints how many lines were answered `applied` and when the last one was; anything
   else ends it with status 1. */
#include <arpa/inet.h>
#include <netinet/tcp.h>
#include <stdio.h>
#include <stdlib.h>
#include <string.h>
#include <sys/socket.h>
#include <time.h>
#include <unistd.h>

static double now(void) {
    struct timespec it;
    clock_gettime(CLOCK_MONOTONIC, &it);
    return it.tv_sec + it.tv_nsec / 1e9;
}

static void fail(const char *what) {
    perror(what);
    exit(1);
}

static int connected(int port) {
    struct sockaddr_in to = {.sin_family = AF_INET, .sin_port = htons(port), .sin_addr.s_addr = htonl(INADDR_LOOPBACK)};
    int one = 1, stream = socket(AF_INET, SOCK_STREAM, 0);
    if (stream < 0 || connect(stream, (struct sockaddr *)&to, sizeof to) || setsockopt(stream, IPPROTO_TCP, TCP_NODELAY, &one, sizeof one))
        fail("connect");
    return stream;
}

static void send_all(int stream, const char *text, size_t length) {
    while (length) {
        ssize_t sent = write(stream, text, length);
        if (sent <= 0)
            fail("write");
        text += sent;
        length -= sent;
    }
}

/* Reads so many replies, each of which begins as it should. */
static void hear(int stream, long count) {
    static const char begin[] = "applied ";
    static char said[1 << 16];
    static size_t place;
    while (count) {
        ssize_t got = read(stream, said, sizeof said);
        if (got <= 0)
            fail("read");
        for (ssize_t i = 0; i < got; i++) {
            if (place < sizeof begin - 1 && said[i] != begin[place]) {
                fprintf(stderr, "another reply: %.*s\n", (int)(got < 200 ? got : 200), said);
                exit(1);
            }
            place = said[i] == '\n' ? 0 : place + 1;
            count -= said[i] == '\n';
        }
    }
}

int main(int count, char **words) {
    if (count != 7)
        return 2;
    int stream = connected(atoi(words[1]));
    long number = atol(words[2]), size = atol(words[3]), entries = atol(words[4]), parts = 2 * entries / size, total = 0;
    double begins = atof(words[5]), ends = begins + atof(words[6]);
    char *text = malloc(2 * entries * 64);
    size_t *starts = malloc((parts + 1) * sizeof *starts), length = 0;
    if (!text || !starts)
        fail("malloc");
    for (long line = 0; line < parts * size; line++) {
        long place = line % entries;
        if (line % size == 0)
            starts[line / size] = length;
        length += sprintf(text + length, "%s - t%ld 10.%ld.%ld.%ld\n", line < entries ? "tadd" : "tdel", number, place >> 16, place >> 8 & 255, place & 255);
    }
    starts[parts] = length;
    while (now() < begins)
        usleep(100);
    for (long part = 0; now() < ends; part = (part + 1) % parts) {
        send_all(stream, text + starts[part], starts[part + 1] - starts[part]);
        hear(stream, size);
        total += size;
    }
    printf("%ld %.9f\n", total, now());
    return 0;
}
