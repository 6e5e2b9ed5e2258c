#!/usr/bin/env python3
"""Makes the programs fail, and compares what they say with texts that were written by hand.

    python3 scripts/fault_lines.py [PROGRAM [LINE_CAPTURE]]

Keys, journals and inputs are missing, folders, locked, on a full file system, or may not be read; words fit no command. The fault
line must name the object and the system's reason, and after a fault of words the words that the command wants. PROGRAM is
crates/link_replay/out/link_replay unless it is given, LINE_CAPTURE likewise; without the latter its words aren't tried. It ends
with 1 if a text differs. What needs an own file system, or another user than root, is left out where it can't be had, and this is
said. It is no part of the gate: errors are the system's.
"""
import fcntl, os, subprocess, sys, tempfile

import built
from killed import KEY, slot_of

NEW, BACK = (bytes(32) + slot_of(0, ("rtu", way)) + bytes(24) for way in ("ab", "ba"))
REQUEST = b"+01030000000ac5cd\n-40\n"
LINK = ["rtu", "ab"]

# The words that each command wants, by its first word.
WANTED = {
    "read": ["read P"],
    "init": ["init P DIR JOURNAL"],
    "seal": ["seal P DIR KEY JOURNAL"],
    "check": ["check P DIR KEY JOURNAL"],
    "live": ["live seal P DIR KEY JOURNAL", "live check P DIR KEY JOURNAL", "live line P DIR KEY SENT GOT"],
    "space": ["space P"],
    "replay": ["replay P DIR KEY"],
    "audit": ["audit P DIR KEY F G [LEAST..MOST] [spaced]"],
    "duplex": ["duplex P DIR KEY"],
    "two_wire": ["two_wire P DIR SIDE WINDOW PAUSE KEY"],
    "trial": ["trial P SEED COUNT"],
    "poll": ["poll P SEED COUNT"],
    "vectors": ["vectors"],
    "help": ["help"],
    "version": ["version"],
}
COMMANDS = "commands: read init seal check live space replay audit duplex two_wire trial poll vectors help version\n"
CAPTURE_WANTED = {"take": ["take FORM RATE WAY [frames]"], "give": ["give FORM RATE"], "help": ["help"], "version": ["version"]}
CAPTURE_COMMANDS = "commands: take give help version\n"
# Words behind the first one that fit no command, and first words that name none.
REST, NONE = ([], ["x"], ["rtu", "ab", "key", "journal", "more", "and", "more"]), ([], [""], ["x"], ["SEAL", "rtu"], ["rtu", "read"])


class Tried:
    def __init__(self, folder):
        self.folder, self.made, self.wrong, self.left_out = folder, 0, 0, []

    def path(self, name, content=None):
        path = os.path.join(self.folder, name)
        if content is not None:
            with open(path, "wb") as file:
                file.write(content)
        return path

    def see(self, what, run, status, log):
        self.made += 1
        if (run.returncode, run.stdout, run.stderr) != (status, b"", log.encode()):
            self.wrong += 1
            print("WRONG: %s: status %d, %r, %r" % (what, run.returncode, run.stdout, run.stderr), flush=True)


def ran(words, source=None, **how):
    """A run over this input, or over an empty one."""
    if source is None:
        how["input"] = how.get("input", b"")
    else:
        how["stdin"] = source
    return subprocess.run(words, stdout=subprocess.PIPE, stderr=subprocess.PIPE, **how)


def usages(tried, program, name, wanted, commands):
    for word, lines in wanted.items():
        said = "fault: usage\n" + "".join("usage: %s %s\n" % (name, line) for line in lines)
        for rest in REST:
            # a command that is a word by itself
            if rest or word not in ("vectors", "help", "version"):
                tried.see("%s %s" % (word, rest), ran([program, word, *rest]), 2, said)
    for words in NONE:
        tried.see("words %s" % words, ran([program, *words]), 2, "fault: usage\n" + commands)


def keys(tried, program):
    """Keys that can't be read, for each command that has one."""
    journal, missing = tried.path("journal", NEW), tried.path("missing")
    hidden = tried.path("hidden", KEY.encode())
    os.chmod(hidden, 0)
    cases = [(missing, "no such file"), (tried.folder, "is a folder")]
    if os.access(hidden, os.R_OK):
        tried.left_out.append("a key that may not be read: this user reads all files")
    else:
        cases.append((hidden, "permission denied"))
    for path, why in cases:
        for words in (["seal", *LINK, path, journal], ["check", *LINK, path, journal], ["live", "seal", *LINK, path, journal],
                      ["live", "line", *LINK, path, journal, journal], ["replay", *LINK, path], ["duplex", *LINK, path], ["audit", *LINK, path, "0", "0"],
                      ["two_wire", *LINK, "answers", "45", "4", path]):
            tried.see(" ".join(words[:2]), ran([program, *words], input=REQUEST), 5, "fault: read key: %s\n" % why)


def inputs(tried, program):
    """Inputs that can't be read."""
    key, journal = tried.path("key", KEY.encode()), tried.path("journal", NEW)
    for words in (["read", "rtu"], ["space", "rtu"], ["seal", *LINK, key, journal], ["live", "check", *LINK, key, journal],
                  ["live", "line", *LINK, key, journal, tried.path("got", BACK)], ["replay", *LINK, key]):
        folder = os.open(tried.folder, os.O_RDONLY)
        tried.see("%s of a folder" % words[0], ran([program, *words], source=folder), 5, "fault: read input: is a folder\n")
        os.close(folder)
        closed = ran([program, *words], preexec_fn=lambda: os.close(0))
        tried.see("%s of a closed input" % words[0], closed, 5, "fault: read input: is a folder\n")


def journals(tried, program):
    """Journals that can't be opened, are held, or can't be written."""
    key, journal, missing = tried.path("key", KEY.encode()), tried.path("journal", NEW), tried.path("missing")
    got = tried.path("got", BACK)
    for path, why in ((missing, "no such file"), (tried.folder, "is a folder"), (os.path.join(missing, "x"), "no such file"),
                      (os.path.join(key, "x"), "error 20 of the system")):
        for words in (["seal", *LINK, key, path], ["check", *LINK, key, path], ["live", "check", *LINK, key, path]):
            tried.see("%s at %s" % (words[0], path), ran([program, *words], input=REQUEST), 7, "fault: journal: %s\n" % why)
        for name, paths in (("SENT", (path, got)), ("GOT", (journal, path))):
            tried.see("live line with %s at %s" % (name, path), ran([program, "live", "line", *LINK, key, *paths]), 7,
                      "fault: journal %s: %s\n" % (name, why))
    for path, why in ((tried.folder, "is a folder"), (os.path.join(missing, "x"), "no such file"), (key, "not empty")):
        tried.see("init at %s" % path, ran([program, "init", *LINK, path]), 7, "fault: journal: %s\n" % why)
    for name, path in (("SENT", journal), ("GOT", got)):
        with open(path) as held:
            fcntl.flock(held, fcntl.LOCK_EX)
            tried.see("live line with %s held" % name, ran([program, "live", "line", *LINK, key, journal, got]), 7,
                      "fault: journal %s: held by another run\n" % name)
    with open(journal) as held:
        fcntl.flock(held, fcntl.LOCK_EX)
        for words in (["init", *LINK, journal], ["seal", *LINK, key, journal], ["live", "seal", *LINK, key, journal]):
            tried.see("%s of a held journal" % words[0], ran([program, *words], input=REQUEST), 7, "fault: journal: held by another run\n")


def full(tried, program):
    """A journal on a full file system, and on one that may only be read."""
    place = tried.path("mounted")
    os.mkdir(place)
    script = "mount -t tmpfs -o size=16k none %(at)s && head -c 16384 /dev/zero > %(at)s/rest 2>/dev/null; %(run)s init rtu ab %(at)s/journal"
    only = "mount -t tmpfs -o size=64k none %(at)s && mount -o remount,ro %(at)s && %(run)s init rtu ab %(at)s/journal"
    for what, text, why in (("full", script, "no space left"), ("read-only", only, "read-only file system")):
        can = subprocess.run(["unshare", "-rm", "mount", "-t", "tmpfs", "none", place], stdout=subprocess.DEVNULL, stderr=subprocess.DEVNULL)
        if can.returncode:
            tried.left_out.append("a %s file system: none can be mounted here" % what)
            continue
        tried.see("init on a %s file system" % what, ran(["unshare", "-rm", "sh", "-c", text % {"at": place, "run": program}]), 7,
                  "fault: journal: %s\n" % why)


def captures(tried, program):
    usages(tried, program, "line_capture", CAPTURE_WANTED, CAPTURE_COMMANDS)
    for words in (["take", "text", "9600x11", "a"], ["take", "pcap", "9600x10", "both"], ["give", "pcap", "9600x11"]):
        folder = os.open(tried.folder, os.O_RDONLY)
        run = ran([program, *words], source=folder)
        os.close(folder)
        tried.made += 1
        if run.returncode != 5 or not run.stderr.endswith(b"fault: read input: is a folder\n"):
            tried.wrong += 1
            print("WRONG: line_capture %s of a folder: status %d, %r" % (words[0], run.returncode, run.stderr), flush=True)


def main():
    program = built.program(sys.argv, 1)
    capture = os.path.abspath(sys.argv[2]) if len(sys.argv) > 2 else built.path_of("line_capture")
    with tempfile.TemporaryDirectory() as folder:
        tried = Tried(folder)
        usages(tried, program, "link_replay", WANTED, COMMANDS)
        for part in (keys, inputs, journals, full):
            part(tried, program)
        if built.lacking(capture, "line_capture"):
            tried.left_out.append("line_capture: it isn't built")
        else:
            captures(tried, capture)
    for what in tried.left_out:
        print("left out: %s" % what)
    print("%d runs, %d wrong" % (tried.made, tried.wrong))
    sys.exit(tried.wrong > 0)


main()
