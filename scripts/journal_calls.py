"""Runs a program with a small library that notes its calls on its journal, and makes them fail, for journal_faults.py, failing_calls.py and two_runs.py.

The library is compiled by `cc` and loaded before the C library. It sees lock, read, write and sync of the file that is the journal, and
the sync of a folder.
"""
import collections, os, re, subprocess

LIBRARY = r"""
#define _GNU_SOURCE
#include <dlfcn.h>
#include <errno.h>
#include <fcntl.h>
#include <stdio.h>
#include <stdlib.h>
#include <string.h>
#include <sys/file.h>
#include <sys/stat.h>
#include <sys/syscall.h>
#include <time.h>
#include <unistd.h>

/* Adds a line to the file CALLS: the letter of a call, where and how much, how long the files of standard output and error are, and
 * the time. */
static void note(char letter, long at, long size) {
    struct stat out = {0}, log = {0};
    struct timespec t;
    char line[160];
    int file = open(getenv("CALLS"), O_WRONLY | O_APPEND | O_CLOEXEC), length;
    if (file < 0) return;
    fstat(1, &out), fstat(2, &log), clock_gettime(CLOCK_MONOTONIC, &t);
    length = snprintf(line, sizeof line, "%c %ld %ld %ld %ld %ld.%09ld\n", letter, at, size, (long)out.st_size, (long)log.st_size,
                      (long)t.tv_sec, t.tv_nsec);
    if (syscall(SYS_write, file, line, (size_t)length) != length) _exit(99);
    close(file);
}

/* The letter of a call on this file: `letter` if the file is JOURNAL, 'd' for the sync of a folder, or 0. */
static char letter_of(int file, char letter) {
    struct stat one, other;
    if (fstat(file, &one) != 0) return 0;
    if (letter == 'F' && S_ISDIR(one.st_mode)) return 'd';
    return stat(getenv("JOURNAL"), &other) == 0 && one.st_dev == other.st_dev && one.st_ino == other.st_ino ? letter : 0;
}

/* Notes a call. Returns what happens at it, and how many bytes it moves first: FAULT is "LETTER NUMBER WHAT BYTES", where NUMBER counts
 * the calls of this letter from 1, and 0 is each of them. */
static const char *met(char letter, long at, long size, size_t *some) {
    static int calls[128];
    static char what[16];
    const char *fault = getenv("FAULT");
    char of;
    int number;
    if (!letter) return "";
    note(letter, at, size);
    calls[(int)letter]++;
    if (!fault || sscanf(fault, "%c %d %15s %zu", &of, &number, what, some) != 4) return "";
    return of == letter && (number == 0 || number == calls[(int)letter]) ? what : "";
}

static int fails(const char *what) {
    if (strcmp(what, "kill") == 0) _exit(97);
    errno = strcmp(what, "intr") == 0 ? EINTR : EIO;
    return what[0] && strcmp(what, "short") != 0;
}

int flock(int file, int operation) {
    int (*real)(int, int) = dlsym(RTLD_NEXT, "flock");
    size_t some;
    return fails(met(letter_of(file, 'l'), 0, 0, &some)) ? -1 : real(file, operation);
}

ssize_t pread(int file, void *to, size_t size, off_t at) {
    ssize_t (*real)(int, void *, size_t, off_t) = dlsym(RTLD_NEXT, "pread");
    size_t some = size;
    const char *what = met(letter_of(file, 'r'), at, (long)size, &some);
    return fails(what) ? -1 : real(file, to, what[0] && some < size ? some : size, at);
}

ssize_t read(int file, void *to, size_t size) {
    ssize_t (*real)(int, void *, size_t) = dlsym(RTLD_NEXT, "read");
    size_t some = size;
    const char *what = met(letter_of(file, 'r'), -1, (long)size, &some);
    return fails(what) ? -1 : real(file, to, what[0] && some < size ? some : size);
}

ssize_t pwrite(int file, const void *from, size_t size, off_t at) {
    ssize_t (*real)(int, const void *, size_t, off_t) = dlsym(RTLD_NEXT, "pwrite");
    size_t some = 0;
    const char *what = met(letter_of(file, 'w'), at, (long)size, &some);
    if (!what[0] || some > size) some = size;
    if (some > 0 && strcmp(what, "intr") != 0 && real(file, from, some, at) != (ssize_t)some) _exit(99);
    return fails(what) ? -1 : (ssize_t)some;
}

ssize_t write(int file, const void *from, size_t size) {
    ssize_t (*real)(int, const void *, size_t) = dlsym(RTLD_NEXT, "write");
    const char *most = getenv("MOST");
    char letter = letter_of(file, 'w');
    size_t some = 0;
    const char *what = met(letter, lseek(file, 0, SEEK_CUR), (long)size, &some);
    if (!letter) return real(file, from, most && file > 2 && size > (size_t)atoi(most) ? (size_t)atoi(most) : size);
    if (!what[0] || some > size) some = size;
    if (some > 0 && strcmp(what, "intr") != 0 && real(file, from, some) != (ssize_t)some) _exit(99);
    return fails(what) ? -1 : (ssize_t)some;
}

static int synced(int file, const char *name) {
    int (*real)(int) = dlsym(RTLD_NEXT, name), done;
    const char *delay = getenv("DELAY");
    char letter = letter_of(file, 'F');
    size_t some;
    if (fails(met(letter, 0, 0, &some))) return -1;
    if (delay) usleep((useconds_t)atoi(delay) * 1000);
    done = real(file);
    if (letter) note(letter == 'd' ? 'e' : 'f', 0, 0);
    return done;
}

int fsync(int file) { return synced(file, "fsync"); }

int fdatasync(int file) { return synced(file, "fdatasync"); }
"""

# A call: its letter (l lock, r read, w write, F begin of a sync, f its end, d and e those of the sync of a folder), where and how many
# bytes, how long the files of standard output and error are, and the time.
Call = collections.namedtuple("Call", "letter at size out log time")
Run = collections.namedtuple("Run", "status out log calls")


class Calls:
    """Runs of programs whose calls on the file `journal` are noted."""

    def __init__(self, folder, journal):
        self.folder, self.journal = folder, journal
        self.library, self.noted = os.path.join(folder, "calls.so"), os.path.join(folder, "calls")
        source = os.path.join(folder, "calls.c")
        with open(source, "w") as file:
            file.write(LIBRARY)
        subprocess.run(["cc", "-shared", "-fPIC", "-O1", "-o", self.library, source, "-ldl"], check=True)

    def around(self, fault=None, delay=0, most=0):
        """The environment of a run. `fault` is the letter of a call, which of these calls it is (from 1, 0 for all), what happens at it
        (error, short, intr or kill) and how many bytes it moves first. A sync is delayed by so many milliseconds, and a write to
        another file than the journal takes at most so many bytes."""
        open(self.noted, "w").close()
        more = dict(os.environ, LD_PRELOAD=self.library, CALLS=self.noted, JOURNAL=self.journal)
        more.update({name: str(value) for name, value in (("DELAY", delay), ("MOST", most)) if value})
        return dict(more, FAULT="%s %d %s %d" % fault) if fault else more

    def calls(self):
        with open(self.noted) as file:
            rows = [line.split() for line in file]
        return [Call(row[0], *map(int, row[1:5]), float(row[5])) for row in rows]

    def letters(self):
        return "".join(call.letter for call in self.calls())

    def run(self, words, text=b"", **how):
        """Runs a program to its end, with files as its three streams."""
        paths = [os.path.join(self.folder, name) for name in ("in", "out", "log")]
        with open(paths[0], "wb") as file:
            file.write(text)
        with open(paths[0], "rb") as source, open(paths[1], "wb") as out, open(paths[2], "wb") as log:
            status = subprocess.run(words, stdin=source, stdout=out, stderr=log, env=self.around(**how), timeout=60).returncode
        return Run(status, *(open(path, "rb").read() for path in paths[1:]), self.calls())


def open_files(process):
    """The paths of the files that a process has open, or no paths if they can't be seen."""
    try:
        places = "/proc/%d/fd" % process
        return [os.readlink(os.path.join(places, place)) for place in os.listdir(places)]
    except OSError:
        return []


def numbers(log):
    """The numbers of the notes sealed and passed, in their order."""
    return [int(number) for number in re.findall(rb"^(?:sealed|passed) (\d+) at \d+ len \d+$", log, re.M)]
