/* uart_polls polls BAUD COUNT TRAILER WORD.. = WORD..    polls a device through two adapters over two serial ports
 * uart_polls later TICKS                                 the program of such an adapter, if there is no other
 *
 * For scripts/live_uart.py, in its virtual machine. `polls` starts two programs, in whose words %d is a
 * pseudo-terminal of its own. At the first one it is the master, at the second one the device, which sends each
 * request back. A request is a frame and, three silent ticks later, TRAILER bytes. It prints how many polls were
 * answered, and how late the requests came, in ms after their last byte. What the two say on standard error goes
 * into `first.said` and `second.said`. `later` tells each tick again so many ticks later, and at the end says on standard error how many bursts
 * on the link had three silent ticks behind their frame, and how many other gaps of up to six ticks there were. */
#define _GNU_SOURCE
#include <fcntl.h>
#include <poll.h>
#include <signal.h>
#include <stdint.h>
#include <stdio.h>
#include <stdlib.h>
#include <string.h>
#include <sys/wait.h>
#include <termios.h>
#include <time.h>
#include <unistd.h>

enum { FRAME = 8, MOST_BYTES = 64, MOST = 10000, LATER = 4096 };

static int size = FRAME; /* the bytes of a request */

static double now(void)
{
    struct timespec t;
    clock_gettime(CLOCK_MONOTONIC, &t);
    return (double)t.tv_sec * 1e3 + (double)t.tv_nsec / 1e6;
}

static void wait_until(double at)
{
    double left = at - now();
    if (left > 0) usleep((useconds_t)(left * 1e3));
}

/* A request of a master with a number of its own: a frame with its CRC, and the bytes behind it. */
static void make_request(uint8_t *request, int number)
{
    unsigned crc = 0xffff;
    uint8_t bytes[FRAME - 2] = {1, 0x41, 0, 0, (uint8_t)(number >> 8), (uint8_t)number};
    for (int i = 0; i < FRAME - 2; i++) {
        crc ^= bytes[i];
        for (int bit = 0; bit < 8; bit++) crc = crc & 1 ? crc >> 1 ^ 0xa001 : crc >> 1;
    }
    memcpy(request, bytes, sizeof bytes);
    request[FRAME - 2] = (uint8_t)crc, request[FRAME - 1] = (uint8_t)(crc >> 8);
    for (int i = FRAME; i < size; i++) request[i] = (uint8_t)(0x80 + i);
}

/* Opens a pseudo-terminal, and returns this end of it. */
static int open_port(char *path, size_t size)
{
    struct termios t;
    int here = posix_openpt(O_RDWR | O_NOCTTY | O_CLOEXEC), there;
    if (here < 0 || grantpt(here) != 0 || unlockpt(here) != 0 || ptsname_r(here, path, size) != 0) exit(3);
    there = open(path, O_RDWR | O_NOCTTY | O_CLOEXEC);
    if (there < 0 || tcgetattr(there, &t) != 0) exit(3);
    cfmakeraw(&t);
    tcsetattr(there, TCSANOW, &t);
    return here;
}

/* Starts the program of these words, up to the word `=`. What it says goes into a file. */
static pid_t begin(char **words, char *path, const char *said)
{
    char *argv[64];
    int n = 0;
    for (; words[n] && strcmp(words[n], "=") != 0 && n < 63; n++) argv[n] = strcmp(words[n], "%d") == 0 ? path : words[n];
    argv[n] = NULL;
    pid_t child = fork();
    if (child == 0) dup2(open(said, O_WRONLY | O_CREAT | O_APPEND, 0600), 2), execv(argv[0], argv), perror(argv[0]), _exit(127);
    return child;
}

static void send_bytes(int port, const uint8_t *bytes, double tick)
{
    double at = now();
    for (int i = 0; i < size; i++, at += tick) {
        if (i == FRAME) at += 3 * tick;
        wait_until(at);
        if (write(port, bytes + i, 1) != 1) exit(4);
    }
}

/* Waits until all of these bytes have come to a port, one after another. */
static int come(int port, const uint8_t *bytes, double till)
{
    int right = 0;
    while (right < size && now() < till) {
        struct pollfd f = {port, POLLIN, 0};
        uint8_t byte;
        if (poll(&f, 1, 20) > 0 && read(port, &byte, 1) == 1) right = byte == bytes[right] ? right + 1 : byte == bytes[0];
    }
    return right == size;
}

static int is_before(const void *a, const void *b)
{
    const double *one = a, *other = b;
    return (*one > *other) - (*one < *other);
}

static int polls(int baud, int count, char **words)
{
    static double late[MOST];
    char paths[2][64];
    int master = open_port(paths[0], sizeof paths[0]), device = open_port(paths[1], sizeof paths[1]), came = 0, answered = 0;
    char **second = words;
    while (*second && strcmp(*second, "=") != 0) second++;
    if (!*second) return 2;
    pid_t a = begin(words, paths[0], "first.said"), b = begin(second + 1, paths[1], "second.said");
    sleep(1);
    for (int i = 0; i < count; i++) {
        uint8_t request[MOST_BYTES];
        make_request(request, i);
        send_bytes(master, request, 11e3 / baud);
        double sent = now();
        if (come(device, request, sent + 1500)) {
            late[came++] = now() - sent;
            wait_until(now() + 6 * 11e3 / baud);
            send_bytes(device, request, 11e3 / baud);
            answered += come(master, request, now() + 1500);
        }
        wait_until(now() + 40 * 11e3 / baud + 20);
    }
    qsort(late, (size_t)came, sizeof *late, is_before);
    printf("uart: %d requests of %d came, %d were answered, median %.1f ms, 99th percentile %.1f ms\n", came, count, answered,
           came ? late[came / 2] : 0, came ? late[came * 99 / 100] : 0);
    int one = 0, other = 0;
    kill(a, SIGTERM), kill(b, SIGTERM);
    waitpid(a, &one, 0), waitpid(b, &other, 0);
    printf("uart: the adapters ended with %d and %d\n", WEXITSTATUS(one), WEXITSTATUS(other));
    return 0;
}

/* A direction of the stream: the ticks that wait (-1 is silence), the silent ticks since the last byte, the bytes of
 * its burst, and the gaps in place and elsewhere. */
typedef struct { int kept[LATER], first, silent, bytes; long pauses, others; } direction;

static void tell(direction *d, char letter, int tick, int later)
{
    int told = d->kept[d->first];
    d->kept[d->first] = tick, d->first = (d->first + 1) % later;
    if (tick >= 0 && d->silent > 6) d->bytes = 0;
    else if (tick >= 0 && d->silent == 3 && d->bytes == FRAME) d->pauses++;
    else if (tick >= 0 && d->silent > 0) d->others++;
    d->silent = tick >= 0 ? 0 : d->silent + 1, d->bytes += tick >= 0;
    if (told < 0) printf("%c-1\n", letter);
    else printf("%c+%02x\n", letter, (unsigned)told);
}

static int later(int ticks)
{
    static direction ways[2];
    static char line[256];
    unsigned byte;
    if (ticks < 1 || ticks > LATER) return 2;
    for (int i = 0; i < ticks; i++) ways[0].kept[i] = ways[1].kept[i] = -1;
    while (fgets(line, sizeof line, stdin)) {
        direction *d = &ways[*line == '<'];
        if (line[1] == '-') for (int i = atoi(line + 2); i > 0; i--) tell(d, *line, -1, ticks);
        else for (char *at = line + 2; sscanf(at, "%2x", &byte) == 1; at += 2) tell(d, *line, (int)byte, ticks);
        fflush(stdout);
    }
    fprintf(stderr, "link: %ld pauses of three ticks behind a frame, %ld other gaps\n", ways[1].pauses, ways[1].others);
    return 0;
}

int main(int argc, char **argv)
{
    if (argc == 3 && strcmp(argv[1], "later") == 0) return later(atoi(argv[2]));
    if (argc < 7 || strcmp(argv[1], "polls") != 0) return 2;
    int baud = atoi(argv[2]), count = atoi(argv[3]);
    size += atoi(argv[4]);
    return baud < 300 || count < 1 || count > MOST || size < FRAME || size > MOST_BYTES ? 2 : polls(baud, count, argv + 5);
}
