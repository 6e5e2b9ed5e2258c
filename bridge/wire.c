/* wire A B NANOSECONDS    joins two sockets as two wires between serial ports would: each byte takes its tick.
 *
 * For scripts/live_uart.py: the serial ports of a virtual machine hand on bytes at once, however slow they are
 * set. It ends when one of the sockets does. */
#define _GNU_SOURCE
#include <poll.h>
#include <stdint.h>
#include <stdio.h>
#include <stdlib.h>
#include <string.h>
#include <sys/socket.h>
#include <sys/un.h>
#include <time.h>
#include <unistd.h>

typedef int64_t nanos;
enum { ROOM = 1 << 16, TRIES = 200 };

/* The bytes on their way from one end, each with the time at which it has gone. */
typedef struct { uint8_t byte[ROOM]; nanos gone[ROOM]; unsigned first, count; nanos busy_till; } way;
static way ways[2];

static nanos now(void)
{
    struct timespec t;
    clock_gettime(CLOCK_MONOTONIC, &t);
    return (nanos)t.tv_sec * 1000000000 + t.tv_nsec;
}

/* Waits until the socket is there. */
static int join(const char *path)
{
    struct sockaddr_un at = {.sun_family = AF_UNIX};
    int end = socket(AF_UNIX, SOCK_STREAM, 0);
    strncpy(at.sun_path, path, sizeof at.sun_path - 1);
    for (int i = 0; end >= 0 && i < TRIES; i++) {
        if (connect(end, (struct sockaddr *)&at, sizeof at) == 0) return end;
        usleep(50000);
    }
    perror(path);
    exit(1);
}

static int take(way *w, int from, nanos tick)
{
    uint8_t bytes[256];
    ssize_t got = read(from, bytes, sizeof bytes);
    for (ssize_t i = 0; i < got; i++) {
        unsigned at = (w->first + w->count) % ROOM;
        nanos t = now();
        if (w->count == ROOM) return 0;
        w->busy_till = (t > w->busy_till ? t : w->busy_till) + tick;
        w->byte[at] = bytes[i], w->gone[at] = w->busy_till, w->count++;
    }
    return got > 0;
}

/* Returns when the next byte has gone. */
static nanos give(way *w, int to)
{
    for (; w->count > 0 && w->gone[w->first] <= now(); w->first = (w->first + 1) % ROOM, w->count--)
        if (write(to, &w->byte[w->first], 1) != 1) exit(0);
    return w->count > 0 ? w->gone[w->first] : now() + 100000000;
}

int main(int argc, char **argv)
{
    if (argc != 4) return 2;
    int ends[2] = {join(argv[1]), join(argv[2])};
    for (;;) {
        nanos a = give(&ways[0], ends[1]), b = give(&ways[1], ends[0]), wait = (a < b ? a : b) - now();
        struct timespec t = {0, wait > 0 ? wait : 0};
        struct pollfd f[2] = {{ends[0], POLLIN, 0}, {ends[1], POLLIN, 0}};
        ppoll(f, 2, &t, NULL);
        for (int i = 0; i < 2; i++)
            if (f[i].revents && !take(&ways[i], ends[i], atoll(argv[3]))) return 0;
    }
}
