"""Builds programs without proving them, and keeps them in out/try/, for try.py. Nothing is promised of such a build.

`rt try` builds a program in a folder below TMPDIR, runs it, and removes all of it. So it is run with a TMPDIR of its own, over work
that takes a moment, and the program is linked into out/try/ meanwhile. A program is built anew if a source file of its crates or
the toolchain has changed.
"""
import glob, hashlib, os, shutil, subprocess, tempfile, time

from prove import crates_below

ROOT = os.path.dirname(os.path.dirname(os.path.abspath(__file__)))
OUT = os.path.join(ROOT, "out", "try")

# What each program does while it is linked: its words, and its standard input.
WORK = {"link_replay": (["trial", "rtu", "1", "1000"], ""), "line_capture": (["give", "pcap", "9600x11"], ("+" + "00" * 32 + "\n-4\n") * 3000)}

# How often a folder is looked at, in seconds.
STEP = 0.01


class Failed(Exception):
    """A program wasn't built, or wasn't kept."""


def version():
    """The toolchain in one line."""
    return subprocess.run(["rt", "version"], capture_output=True, text=True).stdout


def sum_of(name):
    """A sum of the toolchain's version and of all source files of a program's crates."""
    found = hashlib.sha256(version().encode())
    for crate in sorted(crates_below(name)):
        for path in sorted(glob.glob(os.path.join(ROOT, "crates", crate, "src", "**", "*.rt"), recursive=True)):
            with open(path, "rb") as file:
                found.update(b"%s %s\n" % (os.path.relpath(path, ROOT).encode(), hashlib.sha256(file.read()).hexdigest().encode()))
    return found.hexdigest()


def keep(work, target, known):
    """Links a program that stands in a folder of `rt try` to the target, if it isn't the known one. Returns the one that is known now."""
    for path in glob.glob(os.path.join(work, "*", "*", "program")):
        try:
            number = os.stat(path).st_ino
            if number not in known:
                os.link(path, target + ".new")
                os.replace(target + ".new", target)
                known = known | {number}
        except FileNotFoundError:
            pass
    return known


def build(name):
    """Builds a program into out/try/."""
    target, work, known = os.path.join(OUT, name), tempfile.mkdtemp(prefix="build.", dir=OUT), frozenset()
    words, given = WORK[name]
    try:
        with tempfile.TemporaryFile("w+") as stdin, tempfile.TemporaryFile("w+") as log:
            stdin.write(given)
            stdin.seek(0)
            ran = subprocess.Popen(["rt", "try", "--", *words], cwd=os.path.join(ROOT, "crates", name), env=dict(os.environ, TMPDIR=work),
                                   stdin=stdin, stdout=subprocess.DEVNULL, stderr=log)
            while ran.poll() is None:
                known = keep(work, target, known)
                time.sleep(STEP)
            log.seek(0)
            if ran.returncode != 0:
                raise Failed("`rt try -- %s` in crates/%s ended with status %d:\n%s" % (" ".join(words), name, ran.returncode, log.read()))
    finally:
        shutil.rmtree(work, ignore_errors=True)
    if not known:
        raise Failed("`rt try` built %s, and it wasn't seen where it was built: this toolchain keeps it elsewhere" % name)
    os.chmod(target, 0o755)


def program(name):
    """The path of a program in out/try/, which is built if it isn't there or isn't that of these sources."""
    os.makedirs(OUT, exist_ok=True)
    target, wanted = os.path.join(OUT, name), sum_of(name)
    mark = target + ".sum"
    if os.path.exists(target) and os.path.exists(mark) and open(mark).read() == wanted:
        return target
    print("== Building %s without proving it, which takes a minute or two" % name, flush=True)
    if os.path.exists(mark):
        os.remove(mark)
    build(name)
    with open(mark, "w") as file:
        file.write(wanted)
    return target
