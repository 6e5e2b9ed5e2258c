/* A box as a filter: it reads tick text, writes the other line as canonical tick text, and writes a
 * line for each note to standard error. Its words, what it reads and writes, its fault lines and its
 * statuses are those of `link_replay seal` and `link_replay check`, with two differences: it refuses
 * a journal whose old slots aren't zeros, and says in its own words why a journal can't be used.
 *
 *     filter seal|check rtu|dnp3|rtu24|dnp24 ab|ba KEY JOURNAL */
#define _GNU_SOURCE
#include "yasir.h"
#include <errno.h>
#include <fcntl.h>
#include <inttypes.h>
#include <signal.h>
#include <stdarg.h>
#include <stdio.h>
#include <stdlib.h>
#include <string.h>
#include <sys/file.h>
#include <unistd.h>

/* The exit statuses, apart from 0. */
enum { BAD_WORDS = 2, BAD_KEY, BAD_TICKS, NO_READ, NO_WRITE, JOURNAL_FAULT, BAD_JOURNAL, NO_MEMORY,
       TOO_LONG, WRONG_LINK = 12, NO_PLACES };

enum { LINE_BYTES = 32, LINE_SILENCE = 1000000, COMMENT_LEN = 120 };
enum { MOST_TICKS = 1 << 24, MOST_BYTES = 1 << 28 };

static yasir_handle box;
/* The open journal: its file, and slot A and then slot B as they were when it was opened. */
static struct { int file; uint8_t slots[YASIR_SLOTS_LEN]; } kept;
static uint8_t out[LINE_BYTES];
static size_t out_bytes;
static uint64_t out_silent;

static int digit(int c)
{
    return c >= '0' && c <= '9' ? c - '0' : c >= 'a' && c <= 'f' ? c - 'a' + 10
         : c >= 'A' && c <= 'F' ? c - 'A' + 10 : -1;
}

/* ---- key and journal as files, in the form of link_replay */

enum { OLD_LEN = 16, FIRST = 2 * OLD_LEN, FILE_LEN = FIRST + YASIR_SLOTS_LEN };

/* Opens the folder `/` at each of the places 0, 1 and 2 that is closed, so that no file that is opened later
 * gets the place of a standard stream. Returns 0, or -1 if it can't be opened. */
static int take_places(void)
{
    int place;
    do place = open("/", O_RDONLY | O_CLOEXEC); while (place >= 0 && place <= 2);
    return place < 0 ? -1 : close(place);
}

/* Reads up to `len` bytes, fewer only at the end of the file. Returns how many, or -1. */
static ssize_t read_all(int file, uint8_t *bytes, size_t len)
{
    size_t got = 0;
    while (got < len) {
        ssize_t done = pread(file, bytes + got, len - got, (off_t)got);
        if (done < 0 && errno == EINTR) continue;
        if (done < 0) return -1;
        if (done == 0) break;
        got += (size_t)done;
    }
    return (ssize_t)got;
}

static int write_at(int file, const uint8_t *bytes, size_t len, off_t at)
{
    while (len > 0) {
        ssize_t done = pwrite(file, bytes, len, at);
        if (done < 0 && errno == EINTR) continue;
        if (done <= 0) return -1;
        bytes += done, at += done, len -= (size_t)done;
    }
    return 0;
}

/* Returns the number in the first bytes of a slot of either form, or -1 if its second half isn't the
 * complement of its first one, or the number is above the greatest, 2^48 - 1. */
static int64_t number_in(const uint8_t *slot, size_t len)
{
    int64_t number = 0;
    size_t i;
    for (i = 0; i < len / 2; i++)
        if (slot[len / 2 + i] != 255 - slot[i]) return -1;
    if (slot[0] != 0 || slot[1] != 0) return -1;
    for (i = 2; i < 8; i++) number = number << 8 | slot[i];
    return number;
}

/* Returns the number that a slot holds, for whatever link, or -1 if it holds none. */
static int64_t journal_number(const uint8_t *slot)
{
    return slot[11] == 2 ? number_in(slot, YASIR_SLOT_LEN) : -1;
}

static _Noreturn void refuse_journal(const char *path, const char *why)
{
    fprintf(stderr, "journal %s: %s\n", path, why);
    exit(JOURNAL_FAULT);
}

/* Opens, locks and syncs the journal at `path`, and reads its slots. */
static void journal_open(const char *path)
{
    static const uint8_t none[FIRST];
    uint8_t all[FILE_LEN] = {0};
    kept.file = open(path, O_RDWR | O_CLOEXEC);
    if (kept.file < 0) refuse_journal(path, strerror(errno));
    if (flock(kept.file, LOCK_EX | LOCK_NB) != 0) refuse_journal(path, "in use");
    if (fsync(kept.file) != 0 || read_all(kept.file, all, sizeof all) < 0) refuse_journal(path, strerror(errno));
    if (number_in(all, OLD_LEN) >= 0 || number_in(all + OLD_LEN, OLD_LEN) >= 0)
        refuse_journal(path, "has old slots with a number: docs/JOURNAL.md says how to take it over");
    if (memcmp(all, none, sizeof none) != 0)
        refuse_journal(path, "isn't a journal, or is damaged: docs/JOURNAL.md says what to do");
    memcpy(kept.slots, all + FIRST, sizeof kept.slots);
}

/* Writes 24 bytes into the slot that `commit` names (YASIR_SLOT_A or YASIR_SLOT_B), and syncs. Returns 0, or -1
 * if the write or the sync failed. */
static int journal_commit(uint8_t commit, const uint8_t *slot)
{
    off_t at = FIRST + (commit == YASIR_SLOT_B ? YASIR_SLOT_LEN : 0);
    if (write_at(kept.file, slot, YASIR_SLOT_LEN, at) != 0) return -1;
    return fsync(kept.file) == 0 ? 0 : -1;
}

/* Reads a key of 32 to 128 hex digits from the file at `path`. Returns its length in bytes (16 to 64), 0 if the
 * file has no such key, or -1 if it can't be read. `*place` is the length of the longest beginning of the file
 * that begins a key. */
static int key_read(const char *path, uint8_t key[64], size_t *place)
{
    char text[131];
    size_t got, len = 0, end, i;
    int failed;
    FILE *file = fopen(path, "rb");
    if (!file) return -1;
    got = fread(text, 1, sizeof text, file);
    failed = ferror(file);
    fclose(file);
    if (failed) return -1;
    while (len < got && len < 128 && digit(text[len]) >= 0) len++;
    end = len;
    if (len >= 32 && len % 2 == 0) {
        if (end < got && text[end] == '\r') end++;
        if (end < got && text[end] == '\n') end++;
    }
    *place = end;
    if (len < 32 || len % 2 != 0 || end != got || (end > len && text[end - 1] != '\n')) return 0;
    for (i = 0; i < len; i += 2) key[i / 2] = (uint8_t)(digit(text[i]) * 16 + digit(text[i + 1]));
    return (int)(len / 2);
}

/* ---- what is written */

static void flush_bytes(void)
{
    size_t i;
    if (out_bytes == 0) return;
    putchar('+');
    for (i = 0; i < out_bytes; i++) printf("%02x", out[i]);
    putchar('\n');
    out_bytes = 0;
}

static void flush_silence(void)
{
    if (out_silent > 0) printf("-%" PRIu64 "\n", out_silent);
    out_silent = 0;
}

/* Writes the text of all ticks so far, then the fault line if `fault` isn't NULL, and ends. */
static _Noreturn void end(int status, const char *fault, ...)
{
    va_list words;
    flush_bytes();
    flush_silence();
    if (fflush(stdout) != 0 || ferror(stdout)) exit(NO_WRITE);
    if (fault) {
        va_start(words, fault);
        fputs("fault: ", stderr);
        vfprintf(stderr, fault, words);
        fputc('\n', stderr);
        va_end(words);
    }
    exit(status);
}

static void put_tick(int is_byte, uint8_t byte)
{
    if (is_byte) {
        flush_silence();
        out[out_bytes++] = byte;
        if (out_bytes == LINE_BYTES) flush_bytes();
    } else {
        flush_bytes();
        if (++out_silent == LINE_SILENCE) flush_silence();
    }
    if (ferror(stdout)) exit(NO_WRITE);
}

static void put_note(const yasir_answer *a)
{
    static const char *const unsealed[] = {"", "early", "form", "spent"};
    static const char *const refused[] = {"", "trailer", "form", "number", "tag"};
    static const char *const dropped[] = {"", "busy", "head"};
    switch (a->note) {
    case YASIR_SEALED: case YASIR_PASSED:
        fprintf(stderr, "%s %" PRIu64 " at %" PRIu64 " len %u\n",
                a->note == YASIR_SEALED ? "sealed" : "passed", a->number, a->start, a->len);
        break;
    case YASIR_UNSEALED: fprintf(stderr, "unsealed at %" PRIu64 " %s\n", a->start, unsealed[a->why]); break;
    case YASIR_REFUSED: fprintf(stderr, "refused at %" PRIu64 " %s\n", a->start, refused[a->why]); break;
    case YASIR_DROPPED: fprintf(stderr, "dropped at %" PRIu64 " %s\n", a->start, dropped[a->why]); break;
    }
    if (ferror(stderr)) exit(NO_WRITE);
}

/* ---- the box */

static void step(int is_byte, uint8_t byte)
{
    yasir_answer answer;
    uint8_t slot[YASIR_SLOT_LEN];
    uint8_t status = yasir_step(&box, is_byte ? byte : YASIR_SILENT, &answer, slot, sizeof slot);
    if (status == YASIR_COMMIT) {
        int failed = journal_commit(answer.commit, slot) != 0;
        status = yasir_committed(&box, !failed, &answer);
        if (failed) end(JOURNAL_FAULT, "journal");
    }
    if (status != YASIR_OK) end(TOO_LONG, "the box takes no more ticks");
    put_note(&answer);
    put_tick(answer.is_byte, answer.byte);
}

/* Takes a run of `count` bytes, or of `count` silent ticks if `bytes` is NULL: with the calls for runs
 * as far as they take it, and otherwise by single steps. */
static void run(const uint8_t *bytes, uint32_t count)
{
    while (count > 0) {
        uint8_t sent[YASIR_RUN_LEN];
        size_t sent_count = 0, taken, i;
        taken = bytes ? yasir_take_bytes(&box, bytes, count, sent, sizeof sent, &sent_count)
                      : yasir_take_silence(&box, count, sent, sizeof sent, &sent_count);
        for (i = 0; i < taken; i++) put_tick(sent_count > 0, sent_count > 0 ? sent[i] : 0);
        if (taken == 0) {
            step(bytes != NULL, bytes ? *bytes : 0);
            taken = 1;
        }
        count -= (uint32_t)taken;
        if (bytes) bytes += taken;
    }
}

/* ---- tick text (docs/TICK_TEXT.md), one byte at a time */

static struct {
    uint32_t line;        /* the line of the next byte, from 1 */
    int first;            /* the line's first byte, or 0 before it */
    int has_cr;           /* 1 after a CR that isn't in a comment */
    uint32_t count;       /* digits after `+`, bytes after `#`, or the number after `-` */
    uint8_t bytes[LINE_BYTES];
    uint32_t ticks, read; /* ticks and bytes of the whole input */
} text = {.line = 1};

static _Noreturn void refuse(const char *cause) { end(BAD_TICKS, "line %" PRIu32 " %s", text.line, cause); }

/* Takes the ticks of the line, which has ended, and begins the next line. */
static void end_line(void)
{
    uint32_t more = text.first == '+' ? text.count / 2 : text.first == '-' ? text.count : 0;
    text.ticks += more;
    if (text.ticks > MOST_TICKS) end(TOO_LONG, "too long %" PRIu32 " ticks", text.ticks);
    run(text.first == '+' ? text.bytes : NULL, more);
    text.line++;
    text.first = text.has_cr = 0, text.count = 0;
}

/* Refuses a line that can't end here. */
static void see_end(void)
{
    if ((text.first == '+' || text.first == '-') && text.count == 0) refuse("empty");
    if (text.first == '+' && text.count % 2 == 1) refuse("odd");
}

static void take_first(int c)
{
    if (c != '#' && c != '+' && c != '-') refuse("char");
    text.first = c;
}

static void take_digit(int c)
{
    int value = digit(c);
    if (value < 0) refuse("char");
    if (text.count == 2 * LINE_BYTES) refuse("long");
    if (text.count % 2 == 0) text.bytes[text.count / 2] = (uint8_t)(value << 4);
    else text.bytes[text.count / 2] |= (uint8_t)value;
    text.count++;
}

static void take_decimal(int c)
{
    uint32_t value = (uint32_t)digit(c);
    if (c < '0' || c > '9') refuse("char");
    if (text.count == 0 && value == 0) refuse("count");
    text.count = text.count * 10 + value;
    if (text.count > LINE_SILENCE) refuse("count");
}

static void take_char(int c)
{
    if (text.first == '#' && c != '\n') {
        if (text.count++ == COMMENT_LEN) refuse("long");
    } else if (c == '\n') {
        see_end();
        end_line();
    } else if (text.has_cr) refuse("char");
    else if (c == '\r') {
        see_end();
        text.has_cr = 1;
    } else if (text.first == 0) take_first(c);
    else if (text.first == '+') take_digit(c);
    else take_decimal(c);
}

static void take_text(void)
{
    int c;
    while ((c = getchar()) != EOF) {
        if (text.read++ == MOST_BYTES) end(TOO_LONG, "too long %" PRIu32 " bytes", text.read);
        take_char(c);
    }
    if (ferror(stdin)) end(NO_READ, "read");
    see_end();
    end_line();
}

/* ---- words, key and journal */

static uint8_t one_of(const char *word, const char *const *words)
{
    uint8_t i;
    for (i = 0; words[i]; i++) if (strcmp(word, words[i]) == 0) return i;
    end(BAD_WORDS, "usage");
}

static yasir_kind kind_of(int argc, char **argv)
{
    static const char *const parts[] = {"seal", "check", NULL}, *const directions[] = {"ab", "ba", NULL},
        *const protocols[] = {"rtu", "dnp3", "rtu24", "dnp24", NULL};
    yasir_kind kind;
    uint8_t protocol;
    if (argc != 6) end(BAD_WORDS, "usage");
    kind.part = one_of(argv[1], parts) ? YASIR_CHECKER : YASIR_SEALER;
    protocol = one_of(argv[2], protocols);
    kind.protocol = protocol % 2 ? YASIR_DNP3 : YASIR_RTU;
    kind.profile = protocol / 2 ? YASIR_Y24 : YASIR_Y18;
    kind.direction = one_of(argv[3], directions) ? YASIR_BA : YASIR_AB;
    return kind;
}

/* A slot as hex digits, in one of two places. */
static const char *hex_of(const uint8_t *slot)
{
    static char texts[2][2 * YASIR_SLOT_LEN + 1], *text_at = texts[0];
    int i;
    text_at = text_at == texts[0] ? texts[1] : texts[0];
    for (i = 0; i < YASIR_SLOT_LEN; i++) sprintf(text_at + 2 * i, "%02x", slot[i]);
    return text_at;
}

static void make_box(const yasir_kind *kind, const char *key_path, const char *journal_path)
{
    uint8_t key[64], *a = kept.slots, *b = a + YASIR_SLOT_LEN;
    size_t place;
    int key_len = key_read(key_path, key, &place);
    if (key_len < 0) end(NO_READ, "read");
    if (key_len == 0) end(BAD_KEY, "key at %zu", place);
    journal_open(journal_path);
    switch (yasir_new(&box, kind, key, (size_t)key_len, kept.slots, sizeof kept.slots)) {
    case YASIR_OK: break;
    case YASIR_NO_JOURNAL: end(BAD_JOURNAL, "bad journal %s %s", hex_of(a), hex_of(b));
    case YASIR_OTHER_LINK:
        end(WRONG_LINK, "wrong link %s", hex_of(journal_number(a) >= journal_number(b) ? a : b));
    default: end(NO_MEMORY, "memory");
    }
}

int main(int argc, char **argv)
{
    yasir_kind kind;
    if (take_places() != 0) return NO_PLACES;
    signal(SIGPIPE, SIG_IGN);
    kind = kind_of(argc, argv);
    make_box(&kind, argv[4], argv[5]);
    take_text();
    run(NULL, kind.part == YASIR_SEALER ? kind.profile + 6u : 320u);
    yasir_free(&box);
    end(0, NULL);
}
