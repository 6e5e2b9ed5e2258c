#!/usr/bin/env python3
"""Builds the programs of bridge/ into bridge/out/. One of them uses the proved library crates/yasir_c.

    python3 scripts/bridge_build.py

The adapter tty_ticks uses no library, so it is built first. It needs a C compiler (CC, or cc if CC isn't set), and libmodbus for bridge/out/server. The library is proved first, and isn't
built if a proof fails. The exit status is 0 if all was built, and 2 if something isn't installed or can't be built, which is named.
"""
import os, shutil, subprocess, sys, time

ROOT = os.path.dirname(os.path.dirname(os.path.abspath(__file__)))
BRIDGE = os.path.join(ROOT, "bridge")
OUT = os.path.join(BRIDGE, "out")
CRATE = os.path.join(ROOT, "crates", "yasir_c")
LIBRARY = os.path.join(CRATE, "out", "libyasir_c.a")
PROVED = os.path.join(OUT, "proved")  # an empty file that is as old as the last proof that ended well
FLAGS = ["-std=gnu11", "-O2", "-Wall", "-Wextra", "-Wconversion"]
PROGRAMS = ("filter",)


class Missing(Exception):
    """Something isn't installed, or can't be built."""


def ran(words, **more):
    done = subprocess.run(words, capture_output=True, text=True, **more)
    if done.returncode != 0:
        raise Missing("`%s` ended with status %d:\n%s%s" % (" ".join(words), done.returncode, done.stdout, done.stderr))
    return done.stdout


def compiler():
    found = os.environ.get("CC") or shutil.which("cc") or shutil.which("gcc") or shutil.which("clang")
    if not found:
        raise Missing("there is no C compiler: apt-get install gcc")
    return found


def kit():
    """The folder of the toolchain, whose C code allocates for the library."""
    if not shutil.which("rt"):
        raise Missing("`rt` isn't on the path; it comes with the toolchain")
    return os.path.dirname(ran(["rt", "doc"]).strip())


def newest():
    """When a source of a crate was changed last."""
    paths = [os.path.join(ROOT, "crates.txt")]
    for folder, folders, files in os.walk(os.path.join(ROOT, "crates")):
        folders[:] = [name for name in folders if name not in ("out", "must-fail")]
        paths += [os.path.join(folder, name) for name in files]
    return max(map(os.path.getmtime, paths))


def is_proved():
    """Whether nothing has changed since the last proof that ended well."""
    built = os.path.exists(PROVED) and os.path.exists(LIBRARY)
    return built and max(newest(), os.path.getmtime(LIBRARY)) <= os.path.getmtime(PROVED)


def library():
    """Proves and builds the library and the crates that it uses, as far as they have changed."""
    allocator = os.path.join(kit(), "c", "liblibc_c.a")
    if not is_proved():
        print("bridge_build: proves and builds crates/yasir_c and all that it uses: many minutes the first time", file=sys.stderr)
        begun = time.time()
        ran(["rt", "lib"], cwd=CRATE)
        os.makedirs(OUT, exist_ok=True)
        if newest() < begun:
            open(PROVED, "w").close()
    return [LIBRARY, allocator]


def build(name, path=None, more=()):
    """Builds a program of bridge/, and returns its path: the one that is given, or the one in bridge/out/. `more` is further words for
    the compiler."""
    os.makedirs(OUT, exist_ok=True)
    path = path or os.path.join(OUT, name)
    ran([compiler(), *FLAGS, "-I", BRIDGE, os.path.join(BRIDGE, name + ".c"), *more, *library(), "-o", path])
    return path


def adapter():
    """Builds the adapter between two serial ports and one stream, and returns its path."""
    os.makedirs(OUT, exist_ok=True)
    path = os.path.join(OUT, "tty_ticks")
    made = "%s.%d" % (path, os.getpid())  # another script may be running it
    ran([compiler(), *FLAGS, os.path.join(BRIDGE, "tty_ticks.c"), "-o", made])
    os.replace(made, path)
    return path


def server():
    """Builds the server, which uses libmodbus, and returns its path."""
    os.makedirs(OUT, exist_ok=True)
    path, words = os.path.join(OUT, "server"), [compiler(), *FLAGS]
    try:
        ran([*words, os.path.join(BRIDGE, "server.c"), "-lmodbus", "-o", path])
    except Missing as why:
        raise Missing("libmodbus isn't installed: apt-get install libmodbus-dev\n%s" % why)
    return path


def main():
    print(adapter())
    for name in PROGRAMS:
        print(build(name))
    print(server())


if __name__ == "__main__":
    try:
        main()
    except Missing as why:
        print("bridge_build: %s" % why, file=sys.stderr)
        sys.exit(2)
