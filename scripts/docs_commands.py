#!/usr/bin/env python3
"""Runs each command that a page shows after a `$`, and compares what it writes with what the page shows below it.

    python3 scripts/docs_commands.py [PROGRAM]

The pages are README, CONTRIBUTING, examples/README and all of docs/. The commands of a page run in the order of the page, in one new
folder with a copy of examples/, with scripts/, and with the programs at their usual places, so a file that one command leaves is there
for the next. If a program that a page needs isn't there, the page is skipped, and a line says so. A page may show what goes to standard
error before or after what goes to standard output, or what both write in the order of the calls. It ends with 1 if a command writes
something other than what the page shows, or if a page shows a command without a `$` that isn't among those of NOT_RUN. It is no part of
the gate.
"""
import glob, os, re, shutil, subprocess, sys, tempfile

import built
from killed import slot_of

ROOT = os.path.dirname(os.path.dirname(os.path.abspath(__file__)))

# The files that the commands of a page find.
FILES = {"docs/SECURITY.md": {"journal": bytes(32) + slot_of(41)},
         "docs/JOURNAL.md": {"JOURNAL": bytes(32) + slot_of(41) + bytes(24)}}

# What a page needs beside link_replay.
NEEDS = {"docs/LINE_CAPTURE.md": ("line_capture",), "examples/README.md": ("openssl", "xxd")}

# The first line of a command that a page shows and that isn't run here, and why.
NOT_RUN = {
    "docs/C_LIBRARY.md": {
        "python3 scripts/bridge_build.py": "`make check` runs it"},
    "docs/LIVE.md": {
        "cc -O2 bridge/tty_ticks.c -o tty_ticks": "the adapter needs two serial ports",
        "make live": "by hand, for a minute"},
    "docs/PERFORMANCE.md": {
        "make demo": "minutes, and what it prints depends on the machine",
        "python3 scripts/measure.py --instructions --beside FOLDER": "`make check LEVEL=release` runs it",
        "rt run --cpu x86-64-v3 -- read rtu < LINE": "it proves the program, for another processor"},
}

# What begins a command.
COMMAND = re.compile(r"(crates/|bridge/|python3 |make |rt |dd |for |cc |\(|[a-z_]+=\S+$)")

# The other program, which some pages call.
CAPTURE = built.path_of("line_capture")


def goes_on(command):
    """Whether the next line belongs to a command, too."""
    last = command.rstrip().splitlines()[-1].strip()
    return last.endswith(("|", "\\")) or command.startswith("for ") and last != "done"


def shown(text):
    """The commands of a page, and the lines that are shown below each of them."""
    found = []
    for line in text.splitlines():
        code = re.match(r" {4,}(.*)", line)
        if not code:
            continue
        if code[1].startswith("$ "):
            found.append([code[1][2:], []])
        elif found and not found[-1][1] and goes_on(found[-1][0]):
            found[-1][0] += "\n" + code[1]
        elif found:
            found[-1][1].append(code[1])
    return found


def unmarked(page, text):
    """The commands of a page without a `$` that aren't among those of NOT_RUN."""
    firsts = [block.splitlines()[0].strip() for block in blocks(text)]
    return [first for first in firsts if COMMAND.match(first) and first not in NOT_RUN.get(page, {})]


def blocks(text):
    """The parts of a page that are indented as code."""
    return re.findall(r"(?:^ {4,}\S.*\n)+", text, re.M)


def writes(ran, lines):
    """Whether a command has written these lines."""
    out, log = ran.stdout.splitlines(), ran.stderr.splitlines()
    return lines in (out + log, log + out)


def run_in(folder, program, page):
    """Makes the folder in which the commands of a page run."""
    shutil.copytree(os.path.join(ROOT, "examples"), os.path.join(folder, "examples"))
    os.symlink(os.path.join(ROOT, "scripts"), os.path.join(folder, "scripts"))
    for path, name in ((program, "link_replay"), (CAPTURE, "line_capture")):
        if os.path.exists(path):
            os.makedirs(os.path.join(folder, "crates", name, "out"))
            os.symlink(path, os.path.join(folder, "crates", name, "out", name))
    for name, content in FILES.get(page, {}).items():
        with open(os.path.join(folder, name), "wb") as file:
            file.write(content)


def differing(page, program):
    """What is wrong with the commands of a page, in words, and how many there are."""
    with open(os.path.join(ROOT, page)) as file:
        text = file.read()
    commands = [command for block in blocks(text) for command in shown(block)]
    wrong = ["%s: `%s` has no `$`, and isn't run" % (page, first) for first in unmarked(page, text)]
    with tempfile.TemporaryDirectory(prefix="docs_commands.") as folder:
        run_in(folder, program, page)
        for command, lines in commands:
            words = ["bash", "-c", command]
            ran = subprocess.run(words, cwd=folder, stdin=subprocess.DEVNULL, capture_output=True, text=True)
            if not writes(ran, lines):
                wrong.append("%s: `%s` writes\n    %s" % (page, command, (ran.stderr + ran.stdout).replace("\n", "\n    ")))
    return wrong, len(commands)


def missing(page):
    """What a page needs and isn't there."""
    there = {"line_capture": os.path.exists(CAPTURE)}
    return [name for name in NEEDS.get(page, ()) if not there.get(name, shutil.which(name))]


def main():
    program, faults = built.program(sys.argv, 1), 0
    pages = sorted(glob.glob(os.path.join(ROOT, "docs", "*.md")))
    pages = ["README.md", "CONTRIBUTING.md", "examples/README.md"] + [os.path.relpath(path, ROOT) for path in pages]
    for page in pages:
        if missing(page):
            print("%s: skipped, since there is no %s" % (page, missing(page)[0]))
            continue
        wrong, commands = differing(page, program)
        faults += len(wrong)
        if wrong or commands:
            print("\n".join(wrong + ["%s: %d commands, %d faults" % (page, commands, len(wrong))]))
    return 1 if faults else 0


if __name__ == "__main__":
    sys.exit(main())
