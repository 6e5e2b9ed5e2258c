#!/usr/bin/env python3
"""Refuses each call of `link_replay` for memory in turn, and checks how the run ends.

    python3 scripts/refused_memory.py [PROGRAM]

A small library, compiled by `cc` and loaded before the C library, counts the calls that take or grow memory. For every N up to
the last call that a whole run makes, one run has only its N-th call refused, and another its N-th call and all after it. `replay`,
`space`, `audit`, `duplex`, `poll` and `live line` must end with NoMemory, with nothing in their output and only their fault line in the log, or as they
do when nothing is refused. The other commands take no memory after their words are read. It ends with 1 if a run ends in another
way. It is no part of the gate.
"""
import os, subprocess, sys, tempfile

import built
from killed import slot_of
from model import AUDIT_STATUS

ROOT = os.path.dirname(os.path.dirname(os.path.abspath(__file__)))
EXAMPLES = os.path.join(ROOT, "examples")
JOURNALS = {name: bytes(32) + slot_of(0, ("rtu", way)) + bytes(24) for name, way in (("JOURNAL", "ab"), ("GOT", "ba"))}
NO_MEMORY, NO_WORDS = 9, 13

LIBRARY = r"""
#define _GNU_SOURCE
#include <dlfcn.h>
#include <errno.h>
#include <stdio.h>
#include <stdlib.h>

static long calls, refused = -1, all_behind, started;
static char spare[4096];

__attribute__((constructor)) static void start(void) {
    const char *at = getenv("REFUSED_CALL"), *behind = getenv("REFUSED_BEHIND");
    refused = at ? atol(at) : -1;
    all_behind = behind != NULL;
    calls = 0;
    started = 1;
}

__attribute__((destructor)) static void end(void) {
    const char *path = getenv("REFUSED_COUNT");
    long made = calls;
    started = 0;
    FILE *file = path ? fopen(path, "w") : NULL;
    if (file) { fprintf(file, "%ld", made); fclose(file); }
}

static int refuse(void) {
    if (!started) return 0;
    calls++;
    if (calls == refused || (all_behind && refused > 0 && calls > refused)) { errno = ENOMEM; return 1; }
    return 0;
}

void *malloc(size_t size) {
    static void *(*real)(size_t);
    if (!real) real = dlsym(RTLD_NEXT, "malloc");
    return refuse() ? NULL : real(size);
}

void *calloc(size_t count, size_t size) {
    static void *(*real)(size_t, size_t);
    static int looking;
    if (looking) return spare;
    if (!real) { looking = 1; real = dlsym(RTLD_NEXT, "calloc"); looking = 0; }
    return refuse() ? NULL : real(count, size);
}

void *realloc(void *old, size_t size) {
    static void *(*real)(void *, size_t);
    if (!real) real = dlsym(RTLD_NEXT, "realloc");
    return refuse() ? NULL : real(old, size);
}

void *aligned_alloc(size_t alignment, size_t size) {
    static void *(*real)(size_t, size_t);
    if (!real) real = dlsym(RTLD_NEXT, "aligned_alloc");
    return refuse() ? NULL : real(alignment, size);
}

int posix_memalign(void **to, size_t alignment, size_t size) {
    static int (*real)(void **, size_t, size_t);
    if (!real) real = dlsym(RTLD_NEXT, "posix_memalign");
    return refuse() ? ENOMEM : real(to, alignment, size);
}
"""


def recordings(*names):
    """A text of these recordings, with a mark between each one and the next."""
    return b"%\n".join(open(os.path.join(EXAMPLES, name), "rb").read() for name in names)


class Runs:
    def __init__(self, program, folder):
        self.program, self.folder = program, folder
        source, self.library = os.path.join(folder, "refuse.c"), os.path.join(folder, "refuse.so")
        open(source, "w").write(LIBRARY)
        subprocess.run(["cc", "-shared", "-fPIC", "-O1", "-fno-builtin", "-o", self.library, source, "-ldl"], check=True)

    def run(self, words, text, refused=None, behind=False):
        """The status, output and log of a run, and the number of its calls that take memory."""
        count, places = os.path.join(self.folder, "count"), {"KEY": os.path.join(EXAMPLES, "key.txt")}
        for name, slots in JOURNALS.items():
            places[name] = os.path.join(self.folder, name)
            open(places[name], "wb").write(slots)
        around = dict(os.environ, LD_PRELOAD=self.library, REFUSED_COUNT=count)
        if refused:
            around["REFUSED_CALL"] = str(refused)
            if behind:
                around["REFUSED_BEHIND"] = "1"
        words = [places.get(word, word) for word in words]
        done = subprocess.run([self.program] + words, input=text, capture_output=True, env=around)
        return done.returncode, done.stdout, done.stderr, int(open(count).read() or 0)


def main():
    program = built.program(sys.argv, 1)
    requests, device = recordings("requests.ticks", "altered.ticks"), recordings("outstation.ticks", "outstation_altered.ticks")
    session = recordings("requests.ticks", "altered.ticks", "expected/altered.received.ticks")
    long = b"%\n".join([b"+01030000000ac5cd\n-40\n" * 3000] * 2)
    cases = [
        ("replay rtu ab KEY", requests), ("replay dnp3 ab KEY", device), ("replay rtu ab KEY", long), ("read rtu", requests.split(b"%\n")[0]),
        ("audit rtu ab KEY 0 0", session), ("audit rtu ab KEY 0 0", long + b"%\n" + long.split(b"%\n")[0]),
        ("duplex rtu ab KEY", requests), ("duplex dnp3 ba KEY", device), ("duplex rtu ab KEY", long),
        ("poll rtu 7 3", b""), ("live line rtu ab KEY JOURNAL GOT", b">+01030000000ac5cd\n>-40\n<-40\n"), ("space rtu", requests.split(b"%\n")[0]), ("space dnp24", device.split(b"%\n")[0]),
        ("seal rtu ab KEY JOURNAL", requests.split(b"%\n")[0]), ("check rtu ab KEY JOURNAL", requests.split(b"%\n")[1]), ("vectors", b""), ("help", b""), ("version", b""), ("trial rtu 7 20", b""),
    ]
    wrong = 0
    with tempfile.TemporaryDirectory() as folder:
        runs = Runs(program, folder)
        for words, text in cases:
            words = words.split()
            status, out, log, calls = runs.run(words, text)
            ends, wrong_here = {}, status not in (AUDIT_STATUS.values() if words[0] == "audit" else (0,))
            for n in range(1, calls + 1):
                for behind in (False, True):
                    end = runs.run(words, text, n, behind)[:3]
                    right = end == (status, out, log) or end[:2] == (NO_WORDS, b"") or end == (NO_MEMORY, b"", b"")
                    if words[0] in ("replay", "space", "audit", "duplex", "poll", "live"):
                        right = right or end == (NO_MEMORY, b"", b"fault: memory\n")
                    ends[end[0]] = ends.get(end[0], 0) + 1
                    if not right:
                        print("wrong:", " ".join(words), "call", n, "and all after it" if behind else "alone", end[0],
                              end[1][:60], end[2][-60:])
                        wrong_here += 1
            print("%-28s %5d bytes  %3d calls, how the runs ended: %s" % (" ".join(words), len(text), calls, " ".join("%d: %d times" % it for it in sorted(ends.items()))))
            wrong += bool(wrong_here)
    sys.exit(wrong > 0)


main()
