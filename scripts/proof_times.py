#!/usr/bin/env python3
"""Says which functions take longest to prove, while something is proved.

    python3 scripts/proof_times.py [SECONDS [COUNT]]

Start it beside `rt check`, `make demo` or the gate. After SECONDS (600 without a number), or when it is interrupted, it prints
for each crate the COUNT (20) functions that took longest. The prover writes each module that it has checked to a file, in a
folder of its own below /tmp or in the crate's out/incremental. The time of a module is that between its file and the one
before it in the same folder, so what else the machine does is in it, and with several processes for one crate (`--jobs`) the
times of a folder are mixed: take one. Modules of a function: `Lts` is the function with all that is known at each step,
`Tie` what it calls, with all type arguments written out, `Answers` and `Proof` the proof. It needs the files of /proc.
"""
import collections, glob, os, re, sys, time

# Gaps of more seconds than this aren't a module's: the folder was left alone in between.
LONGEST = 300
LOOK_EVERY = 3

# Modules that are parts of another one, such as `Lts.View` of `Lts`.
PART = re.compile(r"\.(Lts|Goals|Code)\.\w+$")


def words_of(process):
    """The words with which a process was called, or none if it has ended."""
    try:
        with open("/proc/%s/cmdline" % process) as file:
            return file.read().split("\0")
    except OSError:
        return []


def after(words, name):
    """The word after this one, or None if there is none."""
    return words[words.index(name) + 1] if name in words[:-1] else None


def written_by(process, kept):
    """The folders to which a prover writes: the one that it was told to keep, as seen from where it runs, or its own."""
    if not kept:
        return glob.glob("/tmp/rattle-logic-built-locked-%s-*" % process)
    try:
        return [os.path.join(os.readlink("/proc/%s/cwd" % process), kept)]
    except OSError:
        return []


def folders():
    """For each folder to which a prover writes now, the crate that it proves."""
    found = {}
    for process in filter(str.isdigit, os.listdir("/proc")):
        words = words_of(process)
        crate = after(words, "--crate-name")
        if not crate or not words[0].endswith("rattle"):
            continue
        if "--test" in words:
            crate += " (tests)"
        for folder in written_by(process, after(words, "--incremental")):
            found[folder] = crate
    return found


def module_in(path):
    """The name of the module that a file has, or None if it has none."""
    try:
        with open(path, errors="replace") as file:
            found = re.search(r"^--@ module \S*?-(?:proofs|specs)\.(\S+)", file.read(700), re.M)
    except OSError:
        return None
    return found and found[1]


def look(folder, seen):
    """Adds the modules that are new in a folder to `seen`: for each path when it was written, its module and its size."""
    for place, _, names in os.walk(folder):
        for path in (os.path.join(place, name) for name in names if os.path.basename(place) != "records"):
            if path in seen:
                continue
            try:
                file = os.stat(path)
            except OSError:
                continue
            seen[path] = file.st_mtime, module_in(path), file.st_size


def times_of(seen, since):
    """The seconds that each function took, those of each kind of its modules, and the size of its `Lts` in bytes."""
    files = sorted((file for file in seen.values() if file[0] >= since), key=lambda file: file[0])
    total, kinds, sizes = collections.Counter(), collections.defaultdict(collections.Counter), {}
    for (before, _, _), (at, module, size) in zip(files, files[1:]):
        if module and "." in module and at - before < LONGEST:
            function, kind = PART.sub(r".\1", module).rsplit(".", 1)
            total[function] += at - before
            kinds[function][kind] += at - before
            if kind == "Lts":
                sizes[function] = size
    return total, kinds, sizes


def main():
    seconds, count = ([int(word) for word in sys.argv[1:]] + [600, 20][len(sys.argv) - 1:])[:2]
    since, crates, seen = time.time(), {}, collections.defaultdict(dict)
    try:
        while time.time() < since + seconds:
            for folder, crate in folders().items():
                crates[folder] = crate
                look(folder, seen[folder])
            time.sleep(LOOK_EVERY)
    except KeyboardInterrupt:
        pass
    for folder, crate in sorted(crates.items(), key=lambda each: each[1]):
        total, kinds, sizes = times_of(seen[folder], since)
        if not total:
            continue
        print("== %s: %d s" % (crate, sum(total.values())))
        for function, took in total.most_common(count):
            parts = ", ".join("%s %.1f" % each for each in kinds[function].most_common(3))
            print("%7.1f s  %5.1f MB  %s (%s)" % (took, sizes.get(function, 0) / 1e6, function, parts))


if __name__ == "__main__":
    main()
