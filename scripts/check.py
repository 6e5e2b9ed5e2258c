#!/usr/bin/env python3
"""Runs the scripts that try the built program from outside, those of one level, and says which were skipped and why.

    python3 scripts/check.py [LEVEL] [PROGRAM] [--before BEFORE]

    quick      the scripts that take seconds: for each change
    change     these and the scripts that take minutes: before a change to the program goes in. It is the level if none is given
    release    all scripts, with more runs

BEFORE is the last version, a program or a checkout in which `make demo` has built one: the level `release` compares the
instructions that each command takes with those of BEFORE. PROGRAM is crates/link_replay/out/link_replay if none is given, which
`make demo` proves and builds. docs/TESTING.md says what each script sees. What a script prints goes into out/check/NAME.log. The
exit status is 0 only if all scripts that ran passed and there was a program to try, 1 if a script failed, and 2 if there was no
program or the words are wrong. No script is part of the gate, and none proves anything.
"""
import collections, os, shutil, subprocess, sys, time

import browser, built, guard, live_uart

ROOT = os.path.dirname(os.path.dirname(os.path.abspath(__file__)))
LOGS = os.path.join(ROOT, "out", "check")
LEVELS = ("quick", "change", "release")
MEMORY = "/dev/shm"
TOOLS = ("cc", "nm", "strace", "valgrind", "mbpoll", "tshark", "text2pcap", "editcap", "sigrok-cli", *live_uart.NEEDED)
LIBRARY = os.path.join(ROOT, "crates", "yasir_c", "out", "libyasir_c.a")

# A script, what it needs, and its words at each level, or None if the level doesn't run it. PROGRAM, BEFORE and MEMORY are replaced
# by paths.
Check = collections.namedtuple("Check", "name needs quick change release")


def same(*words):
    return [list(words)] * 3


CHECKS = [
    Check("prove_check", (), *same()),
    Check("docs_check", (), *same()),
    Check("reading", (), *same()),
    Check("claims", (), *same()),
    Check("reach", (), *same()),
    Check("refusals", (), *same()),
    Check("rows", ("program",), *same("PROGRAM")),
    Check("docs_commands", ("program",), *same("PROGRAM")),
    Check("trial_model", ("program",), *same("compare", "PROGRAM")),
    Check("random_lines", ("program",), ["200", "PROGRAM"], ["2000", "PROGRAM", "2"], ["20000", "PROGRAM", "3"]),
    Check("audit", ("program",), ["330", "PROGRAM"], ["3300", "PROGRAM", "2"], ["13200", "PROGRAM", "3"]),
    Check("duplex", ("program",), ["150", "PROGRAM"], ["1500", "PROGRAM", "2"], ["6000", "PROGRAM", "3"]),
    Check("two_wire", ("program",), ["100", "PROGRAM"], ["1000", "PROGRAM", "2"], ["6000", "PROGRAM", "3"]),
    Check("poll", ("program",), ["PROGRAM", "2", "50"], ["PROGRAM", "10"], ["PROGRAM"]),
    Check("try_check", ("program", "line_capture"), *same("PROGRAM")),
    Check("closed_streams", ("program",), *same("PROGRAM")),
    Check("init_over", ("program",), *same("PROGRAM")),
    Check("fault_lines", ("program",), *same("PROGRAM")),
    Check("live_pipe", ("program",), *same("PROGRAM")),
    Check("both_ways", ("program",), *same("PROGRAM")),
    Check("two_runs", ("program",), ["PROGRAM", "2"], ["PROGRAM", "10"], ["PROGRAM", "60"]),
    Check("taken_over", ("program", "cc"), *same("PROGRAM")),
    Check("settles", ("program", "strace"), *same("PROGRAM")),
    Check("inlined", ("program", "nm"), None, ["PROGRAM"], ["PROGRAM"]),
    Check("killed_seal", ("program", "memory"), None, ["40", "PROGRAM", "MEMORY"], ["400", "PROGRAM", "MEMORY"]),
    Check("killed_check", ("program", "memory"), None, ["40", "PROGRAM", "MEMORY"], ["400", "PROGRAM", "MEMORY"]),
    Check("failing_calls", ("program", "cc"), None, ["PROGRAM"], ["PROGRAM"]),
    Check("refused_memory", ("program", "cc"), None, ["PROGRAM"], ["PROGRAM"]),
    Check("guard", ("program", "libmodbus"), None, ["PROGRAM"], ["PROGRAM", "2000", "2"]),
    Check("clib_check", ("program", "library", "cc"), None, ["PROGRAM", "10000"], ["PROGRAM"]),
    Check("clib_spacer", ("library", "cc"), None, ["2000"], ["20000", "2"]),
    Check("journal_faults", ("program", "library", "cc"), *same("PROGRAM")),
    Check("filter_words", ("program", "library", "cc"), ["PROGRAM"], ["PROGRAM", "1000", "2"], ["PROGRAM", "10000", "3"]),
    Check("tty_ticks_check", ("cc",), None, [], ["planted"]),
    Check("live", ("program", "cc", "libmodbus", "mbpoll"), None, None, ["--over", "PROGRAM"]),
    Check("live_kinds", ("program", "cc"), None, None, ["--over", "PROGRAM"]),
    Check("live_killed", ("program", "cc"), None, ["10", "--over", "PROGRAM"], ["100", "--over", "PROGRAM"]),
    Check("live_uart", ("program", "cc", "kernel", *live_uart.NEEDED), None, None, ["--over", "PROGRAM"]),
    Check("captures", ("line_capture", "tshark", "text2pcap", "editcap", "sigrok-cli"), None, [], []),
    Check("dissector_check", ("program", "tshark", "text2pcap"), None, ["PROGRAM"], ["PROGRAM"]),
    Check("timeline_check", ("chromium",), None, [], []),
    Check("tag_instructions", ("program", "valgrind"), None, None, ["PROGRAM"]),
    Check("measure", ("program", "before", "valgrind"), None, None, ["PROGRAM", "--instructions", "--beside", "BEFORE"]),
    Check("limits", ("program",), None, None, ["PROGRAM"]),
]


def lacking(need, program, before=None):
    """Why something that a script needs is missing, or None if it is there."""
    if need == "before" and before is None:
        return "no program of the last version is named, by --before"
    if need == "program":
        return built.lacking(program)
    if need == "line_capture":
        return built.lacking(built.path_of(need), need)
    if need == "memory" and not os.path.isdir(MEMORY):
        return "there is no folder in memory, %s" % MEMORY
    if need == "kernel" and live_uart.kernel() is None:
        return "no kernel for a virtual machine is named by LIVE_UART_KERNEL, and none is in /boot"
    if need == "chromium" and browser.find() is None:
        return "no Chromium is on the path"
    if need == "libmodbus":
        return guard.lacking()
    if need == "library" and not os.access(LIBRARY, os.R_OK):
        return "there is no library %s; `python3 scripts/bridge_build.py` proves and builds it" % os.path.relpath(LIBRARY)
    if need in TOOLS and shutil.which(need) is None:
        return "%s isn't on the path" % need
    return None


def older(program):
    """A source file that is newer than the program, or None if there is none."""
    built = os.path.getmtime(program)
    for folder, folders, files in os.walk(os.path.join(ROOT, "crates")):
        folders[:] = [name for name in folders if name not in ("out", "must-fail", "proofs", "specs")]
        for name in files:
            path = os.path.join(folder, name)
            if name.endswith(".rt") and os.path.getmtime(path) > built:
                return os.path.relpath(path, ROOT)
    return None


def run(check, words, program, before):
    """Runs one script. Returns whether it passed, how many seconds it took, and the end of what it printed."""
    paths = {"PROGRAM": program, "BEFORE": before, "MEMORY": MEMORY}
    line = [sys.executable, os.path.join("scripts", check.name + ".py")] + [paths.get(word, word) for word in words]
    log, began = os.path.join(LOGS, check.name + ".log"), time.monotonic()
    with open(log, "w") as file:
        ran = subprocess.run(line, cwd=ROOT, stdin=subprocess.DEVNULL, stdout=file, stderr=subprocess.STDOUT)
    with open(log, errors="replace") as file:
        said = file.read().splitlines()
    return ran.returncode == 0, time.monotonic() - began, said[-3:]


def main(words):
    before = None
    if "--before" in words[:-1]:
        at = words.index("--before")
        before = os.path.abspath(words[at + 1])
        words = words[:at] + words[at + 2:]
    level = words[0] if words else "change"
    if level not in LEVELS or len(words) > 2:
        print(__doc__.strip())
        return 2
    program = os.path.abspath(words[1]) if len(words) > 1 else built.path_of("link_replay")
    os.makedirs(LOGS, exist_ok=True)
    counts = collections.Counter()
    if os.path.exists(program) and older(program):
        print("Note: the program is older than %s" % older(program))
    for check in CHECKS:
        given = check[2 + LEVELS.index(level)]
        why = "not asked for by the level %s" % level if given is None else None
        why = why or next(filter(None, (lacking(need, program, before) for need in check.needs)), None)
        if why:
            counts["skipped"] += 1
            print("%-17s skipped: %s" % (check.name, why), flush=True)
            continue
        passed, seconds, said = run(check, given, program, before)
        counts["passed" if passed else "failed"] += 1
        print("%-17s %s in %.0f s" % (check.name, "passed" if passed else "FAILED", seconds), flush=True)
        if not passed:
            print("".join("    %s\n" % text[:200] for text in said) + "    all of it: out/check/%s.log" % check.name, flush=True)
    print("%d passed, %d failed, %d skipped" % (counts["passed"], counts["failed"], counts["skipped"]))
    return 1 if counts["failed"] else 2 if lacking("program", program) else 0


if __name__ == "__main__":
    sys.exit(main(sys.argv[1:]))
