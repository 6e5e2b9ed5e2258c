/* tty_ticks [options] DEVICE LINK -- PROGRAM WORD..    or, for a program that waits at a socket, unix:SOCKET
 *
 * Two serial ports as one stream of ticks. It writes what both ports hear to the standard input of a
 * program, and plays what the program writes to its standard output on both ports. It knows no key, no
 * journal and no frame. A line of either stream is `>` (from the device to the link) or `<` (from the link
 * to the device), and then `+` and 1 to 32 bytes in hex, one a tick, or `-` and a number of silent ticks,
 * 1 to 1000000, or `#` and a comment. Tick k of a direction is played `hold` and `playout` after the time
 * of tick k, and no tick may be told before it was heard. What the program writes to its standard error is
 * handed on as far as it is taken. A program at a socket keeps its own notes and status. */
#define _GNU_SOURCE
#include <errno.h>
#include <fcntl.h>
#include <linux/serial.h>
#include <poll.h>
#include <signal.h>
#include <stdint.h>
#include <stdio.h>
#include <stdlib.h>
#include <string.h>
#include <sys/file.h>
#include <sys/ioctl.h>
#include <sys/socket.h>
#include <sys/un.h>
#include <sys/wait.h>
#include <termios.h>
#include <time.h>
#include <unistd.h>

typedef int64_t nanos;
static const nanos MS = 1000000;
enum { ROOM = 1 << 16, TEXT = 1 << 16, LINE = 128, SETTLED = 64 };
/* What may wait at most, in ms: bytes that a port heard, before they are ticks; a burst that the program told,
 * beyond its time; bytes that a port doesn't take; the program's end, after a stop. And the most ticks that
 * it may tell behind its last one, once its input has ended. */
enum { HEARD_MS = 2000, LATE_MS = 500, TAKEN_MS = 2000, END_MS = 10000, REST = 1000000 };

/* Bytes, each with the time at which it came or is to leave. */
typedef struct { uint8_t byte[ROOM]; nanos at[ROOM]; size_t first, count; } queue;

/* How many bytes went by, and a sum that depends on each of them and on their order. */
typedef struct { long long count; uint64_t sum; } tally;

/* What comes from the program, as far as its last line hasn't ended. */
typedef struct { int from; size_t held; char kept[1 << 13]; } stream;

typedef struct {
    /* A serial driver keeps the rate of what it writes and reads. */
    const char *path; int fd, is_link, has_rate;
    queue heard, play;
    /* When the last byte that became a tick came; silent ticks since then; whether this burst had its one pause. */
    nanos last_came; int silents, snapped;
    /* The line of the heard text that isn't ended yet: bytes, or silence. */
    uint8_t run[32]; int run_len, run_silent;
    nanos ticks, byte_tick;         /* ticks that the program told; the tick of the last byte among them */
    tally told, played; int drops;  /* whether the burst that is told came too late, and isn't played */
    nanos last_at, went, busy_till; /* of the last byte written: when it was due, went, and has gone */
} port;

static struct { int baud, stop, hold, playout, deaf, rs485; char parity; } opt = {9600, 1, 20, 25, -1, 0, 'e'};
static port ports[2];
static nanos len, started, next_tick, beat_at, worst_late, stopped_at;
static long long late, dropped, echoes, lost_lines, lost_said; /* the last two: of notes */
static char text[TEXT], said[512]; /* what waits for the program; a line for standard error */
static size_t text_len;
static int to_program, notes_to, failed, child; /* the program, or 0 if it waited at a socket */
static stream told, notes;
static volatile sig_atomic_t stopping;
static const char usage[] =
    "tty_ticks [-b BAUD] [-P none|even|odd] [-S 1|2] [-H HOLD] [-D PLAYOUT] [-2 MS] [-R] DEVICE LINK -- PROGRAM WORD..\n"
    "  BAUD: 1200 to 230400 (9600), even parity, 1 stop bit   HOLD: how long a byte waits for those after it (20 ms)\n"
    "  PLAYOUT: how long the program may take (25 ms)   -2: two wires, deaf while sending and MS later   -R: RS-485\n"
    "  PROGRAM: or unix:SOCKET   Statuses: the program's, or 2 words; 3 a port; 4 a fault while running.\n";

static nanos now(void)
{
    struct timespec t;
    return clock_gettime(CLOCK_MONOTONIC, &t), t.tv_sec * 1000 * MS + t.tv_nsec;
}

/* ---- notes: they never hold up the line. Lines that aren't taken at once are dropped, and counted. */

#define say(...) note(said, (size_t)snprintf(said, sizeof said, "tty_ticks: " __VA_ARGS__))

static void note(char *lines, size_t size)
{
    if (write(notes_to, lines, size) < (ssize_t)size) lost_lines++;
    else if (lost_lines > lost_said) lost_said = lost_lines, say("%lld lines were dropped so far\n", lost_lines);
}

/* Ends the line: no more ticks are told to the program, and all that it still tells is played. */
static void fail(const char *what, const char *why) { if (!failed++) say("%s: %s\n", what, why); stopping = 1; }

static void lose_port(port *p, const char *why) { fail(p->path, why), close(p->fd), p->fd = -1, p->play.count = 0; }

static void count(tally *t, uint8_t byte) { t->count++, t->sum = (t->sum ^ byte) * 0x100000001b3; }

static int push(queue *q, uint8_t byte, nanos at)
{
    size_t i = (q->first + q->count) % ROOM;
    return q->count == ROOM ? 0 : (q->byte[i] = byte, q->at[i] = at, q->count++, 1);
}

static void drop(queue *q, size_t n) { q->first = (q->first + n) % ROOM, q->count -= n; }

/* ---- what the ports hear, as ticks */

static void end_run(port *p)
{
    char way = p->is_link ? '<' : '>', *end = text + text_len;
    if (TEXT - text_len < LINE) fail("the program", "it doesn't read"), p->run_len = p->run_silent = 0;
    if (p->run_silent) end += sprintf(end, "%c-%d\n", way, p->run_silent);
    if (p->run_len) end += sprintf(end, "%c+", way);
    for (int i = 0; i < p->run_len; i++) end += sprintf(end, i + 1 < p->run_len ? "%02x" : "%02x\n", p->run[i]);
    text_len = (size_t)(end - text), p->run_silent = 0, p->run_len = 0;
}

/* The next tick of a port, whose time is `at`. A byte that came up to 2.5 ticks after the one before is in
 * the tick after it: that is Modbus's limit inside a frame, and the middle of a link's gaps, one tick or four.
 * On the link the first later gap of a burst, if not above 6.5 ticks, is three silent ticks, and a further one
 * none. Any other byte is in the tick of its time. */
static void take_tick(port *p, nanos at)
{
    int take = 0, pause = 0;
    if (p->heard.count > 0) {
        nanos came = p->heard.at[p->heard.first], gap = came - p->last_came;
        int apart = gap > len * 5 / 2;
        pause = p->is_link && apart && gap <= len * 13 / 2;
        if (p->silents <= 1 && (!apart || (pause && p->snapped))) take = 1;
        else if (pause && !p->snapped) take = p->silents >= 3;
        else take = at >= came;
    }
    if (take ? p->run_silent || p->run_len == 32 : p->run_len || p->run_silent == 1000000) end_run(p);
    if (take) {
        p->run[p->run_len++] = p->heard.byte[p->heard.first], p->last_came = p->heard.at[p->heard.first];
        p->silents = 0, p->snapped |= pause, drop(&p->heard, 1);
    } else p->run_silent++, p->silents += p->silents < 1000000, p->snapped &= p->silents <= 3;
}

/* On a port that keeps its rate, bytes that are read at once came one a tick, the last of them just now. */
static void hear(port *p)
{
    uint8_t bytes[512];
    ssize_t got = read(p->fd, bytes, sizeof bytes);
    nanos came = now();
    if (got == 0 || (got < 0 && errno != EAGAIN && errno != EINTR)) lose_port(p, "the port is gone");
    for (ssize_t i = 0; i < got && !stopping; i++) {
        nanos at = p->has_rate ? came - (got - 1 - i) * len : came;
        if (opt.deaf >= 0 && at < p->busy_till + len + opt.deaf * MS) echoes++; /* what it sent comes back to it */
        else if ((nanos)p->heard.count * len > HEARD_MS * MS || !push(&p->heard, bytes[i], at))
            fail(p->path, "it brings more than its rate");
    }
}

/* ---- what the program tells, played at its times */

/* A burst begins behind four silent ticks or more. It isn't played if it comes too late. */
static void told_byte(port *p, const char *hex)
{
    nanos t = now(), at = started + p->ticks * len + (opt.hold + opt.playout) * MS;
    uint8_t byte = (uint8_t)strtoul((char[]){hex[0], hex[1], 0}, NULL, 16);
    if (p->ticks - p->byte_tick > 4) p->drops = t - at > LATE_MS * MS;
    if (t - at > worst_late) worst_late = t - at;
    late += t > at, p->byte_tick = p->ticks++;
    if (p->drops) { if (!dropped++) say("%s: what comes over %d ms late isn't played\n", p->path, LATE_MS); return; }
    count(&p->told, byte);
    if (p->fd >= 0 && !push(&p->play, byte, at)) fail(p->path, "too many bytes wait for it");
}

/* Returns the number that the whole of a word is, if it isn't above `most`, or else -1. */
static int number(const char *word, int most)
{
    size_t n = strlen(word);
    return n > 0 && n < 8 && strspn(word, "0123456789") == n && atoi(word) <= most ? atoi(word) : -1;
}

/* Takes a line that the program told. After one that is none, or has ticks that weren't heard yet, it takes no more. */
static void told_line(char *line, size_t size)
{
    static const char *wrong;
    port *p = &ports[line[0] == '>'];
    int ends = size > 2 && line[size - 1] == '\n' && memchr(line, 0, size) == NULL, ticks = 0;
    if (wrong) return;
    line[size - 1] = 0, size -= 3;
    if (line[1] == '-') ticks = number(line + 2, REST);
    if (line[1] == '+' && size <= 64 && size % 2 == 0 && strspn(line + 2, "0123456789abcdef") == size) ticks = (int)size / 2;
    if (!ends || (*line != '>' && *line != '<') || (line[1] != '#' && ticks < 1)) wrong = "it told a line that is none";
    else if (p->ticks + ticks > next_tick + (to_program < 0 ? REST : 0)) wrong = "it told a tick that wasn't heard yet";
    if (wrong) return fail("the program", wrong);
    if (line[1] != '+') p->ticks += ticks;
    else for (line += 2; *line; line += 2) told_byte(p, line);
}

/* Takes the lines that have come. */
static void take_lines(stream *s, void (*take)(char *line, size_t size))
{
    char *line = s->kept, *end;
    ssize_t got = read(s->from, s->kept + s->held, sizeof s->kept - s->held);
    if (got < 0 && (errno == EAGAIN || errno == EINTR)) return;
    if (got > 0) s->held += (size_t)got;
    for (; (end = memchr(line, '\n', s->held - (size_t)(line - s->kept))) != NULL; line = end + 1)
        take(line, (size_t)(end + 1 - line));
    memmove(s->kept, line, s->held -= (size_t)(line - s->kept));
    if (s->held == sizeof s->kept || (s->held > 0 && got <= 0)) take(s->kept, s->held), s->held = 0;
    if (got <= 0) close(s->from), s->from = -1;
}

static nanos at_of(const port *p, size_t i) { return p->play.at[(p->play.first + i) % ROOM]; }

/* When the first byte that waits is to be written: at its time, but what is late keeps its gaps, up to a long
 * silence. */
static nanos due_of(const port *p)
{
    nanos at = at_of(p, 0), gap = at - p->last_at, kept = p->went + (gap < SETTLED * len ? gap : SETTLED * len);
    return p->fd < 0 || p->play.count == 0 ? INT64_MAX : p->played.count && gap > len * 3 / 2 && at < kept ? kept : at;
}

/* Writes what is due, with what follows it without a gap: on a port that keeps its rate up to two ticks ahead,
 * so that it isn't idle between bytes. Returns when the next byte is due. */
static nanos play(port *p)
{
    uint8_t bytes[256];
    size_t n = 0;
    nanos t = now(), ahead = p->has_rate ? 2 * len : 0;
    if (due_of(p) > t) return due_of(p);
    do bytes[n] = p->play.byte[(p->play.first + n) % ROOM], n++;
    while (n < p->play.count && n < 256 && at_of(p, n) <= t + ahead && at_of(p, n) <= at_of(p, n - 1) + len * 3 / 2);
    ssize_t done = write(p->fd, bytes, n);
    if (done < 0 && errno != EAGAIN && errno != EINTR) lose_port(p, strerror(errno));
    else if (done <= 0 && t - at_of(p, 0) > TAKEN_MS * MS) lose_port(p, "it takes less than its rate");
    if (done <= 0) return t + MS;
    for (ssize_t i = 0; i < done; i++) count(&p->played, bytes[i]);
    p->last_at = at_of(p, (size_t)done - 1), drop(&p->play, (size_t)done);
    p->busy_till = (t > p->busy_till ? t : p->busy_till) + done * len;
    p->went = p->has_rate ? p->busy_till - len : t;
    return due_of(p);
}

/* ---- ports, the program, options */

static speed_t speed_of(int baud)
{
    static const struct { int baud; speed_t speed; } known[] = {{1200, B1200}, {2400, B2400}, {4800, B4800},
        {9600, B9600}, {19200, B19200}, {38400, B38400}, {57600, B57600}, {115200, B115200}, {230400, B230400}};
    for (size_t i = 0; i < sizeof known / sizeof *known; i++) if (known[i].baud == baud) return known[i].speed;
    return B0;
}

static void refuse(const char *what, const char *why) { fprintf(stderr, "tty_ticks: %s: %s\n", what, why), exit(3); }

/* A 16550 hands bytes on in blocks of eight, which hides the pause before a trailer, unless it is told not to. */
static void each_byte_at_once(int fd)
{
    char *path = ttyname(fd), in[300];
    snprintf(in, sizeof in, "/sys/class/tty/%.250s/rx_trig_bytes", path ? strrchr(path, '/') + 1 : "");
    FILE *f = fopen(in, "r+");
    if (f ? fputs("1", f) < 0 || fclose(f) != 0 : errno != ENOENT) perror(in);
}

static void open_port(port *p, const char *path, int is_link)
{
    struct termios t, is;
    struct serial_struct s;
    struct serial_rs485 r = {.flags = SER_RS485_ENABLED | SER_RS485_RTS_ON_SEND};
    tcflag_t asked = CSIZE | CSTOPB | PARENB | PARODD | CMSPAR | CRTSCTS;
    p->path = path, p->is_link = is_link, p->fd = open(path, O_RDWR | O_NOCTTY | O_NONBLOCK | O_CLOEXEC);
    if (p->fd < 0 || tcgetattr(p->fd, &t) != 0) refuse(path, strerror(errno));
    if (flock(p->fd, LOCK_EX | LOCK_NB) != 0) refuse(path, "another run has it, or it is both ports");
    cfmakeraw(&t), cfsetspeed(&t, speed_of(opt.baud));
    t.c_cflag = (t.c_cflag & ~asked) | CLOCAL | CREAD | CS8 | (opt.stop == 2 ? CSTOPB : 0)
        | (opt.parity != 'n' ? PARENB : 0) | (opt.parity == 'o' ? PARODD : 0);
    t.c_iflag = INPCK | IGNPAR | IGNBRK; /* a byte with a wrong parity or stop bit is none, and none is added */
    if (tcsetattr(p->fd, TCSANOW, &t) != 0 || tcgetattr(p->fd, &is) != 0) refuse(path, strerror(errno));
    if (((is.c_cflag ^ t.c_cflag) & asked) || is.c_iflag != t.c_iflag || is.c_ospeed != t.c_ospeed)
        refuse(path, "it can't do this rate, parity or number of stop bits");
    p->has_rate = ioctl(p->fd, TIOCGSERIAL, &s) == 0;
    if (p->has_rate) s.flags = (int)((unsigned)s.flags | ASYNC_LOW_LATENCY), ioctl(p->fd, TIOCSSERIAL, &s);
    if (opt.rs485 && (ioctl(p->fd, TIOCSRS485, &r) != 0 || !(r.flags & SER_RS485_ENABLED)))
        refuse(path, "its driver doesn't switch RS-485");
    each_byte_at_once(p->fd), tcflush(p->fd, TCIOFLUSH);
}

static void begin(char **argv)
{
    int in[2], out[2], err[2];
    child = pipe2(in, O_CLOEXEC) || pipe2(out, O_CLOEXEC) || pipe2(err, O_CLOEXEC) ? -1 : fork();
    if (child < 0) refuse("the program", strerror(errno));
    if (child == 0) /* in a group of its own, where no signal of a terminal comes to it */
        setpgid(0, 0), dup2(in[0], 0), dup2(out[1], 1), dup2(err[1], 2), execvp(*argv, argv), perror(*argv), _exit(127);
    close(in[0]), close(out[1]), close(err[1]), to_program = in[1], told.from = out[0], notes.from = err[0];
    fcntl(in[1], F_SETFL, O_NONBLOCK), fcntl(out[0], F_SETFL, O_NONBLOCK), fcntl(err[0], F_SETFL, O_NONBLOCK);
}

static void join(const char *path)
{
    struct sockaddr_un at = {.sun_family = AF_UNIX};
    strncpy(at.sun_path, path, sizeof at.sun_path - 1);
    told.from = socket(AF_UNIX, SOCK_STREAM | SOCK_CLOEXEC, 0), notes.from = -1;
    if (told.from < 0 || connect(told.from, (struct sockaddr *)&at, sizeof at) != 0) refuse(path, strerror(errno));
    fcntl(told.from, F_SETFL, O_NONBLOCK), to_program = fcntl(told.from, F_DUPFD_CLOEXEC, 3);
}

static void on_signal(int signal) { (void)signal, stopping = 1; }

/* One turn: ticks to the program when a beat is due, what is due to the ports, and then a wait for whatever
 * comes first. An answer of the program makes no beat, or each would ask for the next. Returns 0 when the
 * program has ended and all that it told is played. */
static int turn(void)
{
    port *a = &ports[0], *b = &ports[1];
    int idle = a->silents > 400 && b->silents > 400 && !a->heard.count && !b->heard.count;
    nanos beat = MS > len ? MS : len, t = now(), next = t + 8 * MS;
    struct pollfd f[] = {{a->fd, POLLIN, 0}, {b->fd, POLLIN, 0}, {told.from, POLLIN, 0}, {notes.from, POLLIN, 0}};
    if (!stopping && t >= beat_at) {
        for (; started + next_tick * len + opt.hold * MS <= t; next_tick++)
            for (int i = 0; i < 2; i++) take_tick(&ports[i], started + next_tick * len);
        end_run(a), end_run(b), beat_at = t + (idle ? 8 * MS : beat);
    }
    if (!idle && beat_at > t + beat) beat_at = t + beat;
    if (!stopping) next = beat_at, stopped_at = t;
    ssize_t done = text_len > 0 ? write(to_program, text, text_len) : 0;
    if (done > 0) memmove(text, text + done, text_len -= (size_t)done);
    if (done < 0 && errno == EPIPE) text_len = 0, stopping = 1;
    if (stopping && text_len == 0) shutdown(to_program, SHUT_WR), close(to_program), to_program = -1;
    for (int i = 0; i < 2; i++) { nanos due = play(&ports[i]); if (due < next) next = due; }
    if (f[2].fd < 0 && f[3].fd < 0) { if (a->play.count + b->play.count == 0) return 0; }
    else if (stopping && t > stopped_at + END_MS * MS) return fail("the program", "it doesn't end"), 0;
    struct timespec wait = {0, next > (t = now()) ? next - t : 0};
    if (ppoll(f, 4, &wait, NULL) < 0) return errno == EINTR;
    for (int i = 0; i < 2; i++) if (f[i].revents) hear(&ports[i]);
    if (f[2].revents) take_lines(&told, told_line);
    if (f[3].revents) take_lines(&notes, note);
    if (told.from < 0 && !stopping) child > 0 ? (void)(stopping = 1) : fail("the program", "it ended");
    return 1;
}

static int read_options(int argc, char **argv)
{
    for (int c; (c = getopt(argc, argv, "+b:P:S:H:D:2:R")) != -1;) switch (c) {
    case 'b': opt.baud = number(optarg, 230400); break;
    case 'P': opt.parity = strcmp(optarg, "none") && strcmp(optarg, "even") && strcmp(optarg, "odd") ? 0 : *optarg; break;
    case 'S': opt.stop = number(optarg, 2); break;
    case 'H': opt.hold = number(optarg, 1000); break;
    case 'D': opt.playout = number(optarg, 1000); break;
    case '2': if ((opt.deaf = number(optarg, 1000)) < 0) return 0; break;
    case 'R': opt.rs485 = 1; break;
    default: return 0;
    }
    return argc - optind >= 4 && strcmp(argv[optind + 2], "--") == 0 && speed_of(opt.baud) != B0 && opt.parity
        && opt.stop > 0 && opt.hold >= 0 && opt.playout >= 0;
}

/* Returns the program's status, or 4 after a fault, or if what was played isn't what was told. */
static int finish(void)
{
    /* -1 is no status of a program that ended. */
    int status = child > 0 ? -1 : 0, ms = told.from >= 0 || notes.from >= 0 ? END_MS : 0;
    for (; child > 0 && ms <= 2 * END_MS && waitpid(child, &status, WNOHANG) == 0; ms++, usleep(1000))
        if (ms == END_MS) kill(child, SIGKILL);
    for (port *p = ports; p < ports + 2; p++)
        if (p->told.count != p->played.count || p->told.sum != p->played.sum)
            say("%s: %lld bytes were told, and %lld played\n", p->path, p->told.count, p->played.count), failed = 1;
    say("%lld ticks; %lld bytes came late from the program, by %.1f ms at worst; %lld came too late and weren't "
        "played; %lld came while it sent; %lld lines were dropped\n",
        (long long)next_tick, late, (double)worst_late / 1e6, dropped, echoes, lost_lines);
    return failed || !WIFEXITED(status) ? 4 : WEXITSTATUS(status);
}

int main(int argc, char **argv)
{
    for (int place = open("/dev/null", O_RDWR | O_CLOEXEC); place >= 0 && place < 3;)
        place = dup(place); /* no port takes the place of a closed stream */
    if (!read_options(argc, argv)) return fputs(usage, stderr), 2;
    len = (nanos)((1 + 8 + (opt.parity != 'n') + opt.stop) * 1e9 / opt.baud);
    open_port(&ports[0], argv[optind], 0), open_port(&ports[1], argv[optind + 1], 1);
    strncmp(argv[optind + 3], "unix:", 5) == 0 ? join(argv[optind + 3] + 5) : begin(argv + optind + 3);
    /* No full pipe may hold it up. Standard error may be others' too, or a socket, which can't be opened. */
    notes_to = open("/proc/self/fd/2", O_WRONLY | O_NONBLOCK | O_APPEND | O_NOCTTY | O_CLOEXEC);
    if (notes_to < 0) notes_to = 2, fcntl(2, F_SETFL, O_NONBLOCK);
    signal(SIGINT, on_signal), signal(SIGTERM, on_signal), signal(SIGHUP, on_signal), signal(SIGPIPE, SIG_IGN);
    for (stopped_at = started = now(); turn();) {}
    return finish();
}
