#!/usr/bin/env python3
"""Looks for wrong bodies of crates/NAME/must-fail/ whose refusal shows nothing of a contract.

    python3 scripts/refusals.py
    python3 scripts/refusals.py check [NAME..]
    python3 scripts/refusals.py logs FOLDER

A wrong body shows that a contract catches it only if a promise can't be proved of it. If it takes a name away that a proof cites,
the check fails too, and says nothing of the contract. `rt must-fail` prints one line of each refusal, and a missing name may stand
on a later one.

Without a word it tries nothing. It lists each wrong body of which a function has lost a name that a proof of this function cites:
a call, a variable, a case, a number that something is compared with, or a call whose result has a name. What else changes the names
of steps, such as a `return` that is gone, it doesn't see. With `check` it checks each wrong body by `rt check`, in a copy of the checkout, and reads all that
the check says. It lists a wrong body if no promise is among what failed, or if it is still proved. Each NAME is a crate whose
folder out/ has what `rt check` proved; without a NAME all such crates are tried, one after the other, 10 seconds or more for each
wrong body. What a check says goes into out/refusals/NAME/EDIT.log. With `logs` it reads such logs. It ends with 1 if it lists a
wrong body. It is no part of the gate.
"""
import glob, os, re, shutil, subprocess, sys, tempfile

ROOT = os.path.dirname(os.path.dirname(os.path.abspath(__file__)))
LOGS = os.path.join(ROOT, "out", "refusals")

FUNCTION = re.compile(r"^[ \t]*(?:pub(?:\([a-z]+\))? )?(?:const )?fn\s+(\w+)", re.M)
# The names that a proof cites of a function's steps and goals.
CITED = re.compile(r"\b(?:[cg]|goal)\.[\w.\-]+")
COMPARED = re.compile(r"(?:eq|ne|lt|le|gt|ge)(\d+)")
# A name that gets a value, and the value.
BOUND = re.compile(r"\blet (?:mut )?(\w+) = ([^;]*);")
# These are also names of the two cases of an `if`.
CASES = {"true", "false"}
# The place of an error or a note, which begins what is said of it. Lines that belong to it follow, with two blanks in front.
PLACE = re.compile(r"(note: )?\S+:\d+:\d+: ")
# What the prover says of a name that it can't find.
MISSING = re.compile(r"has no field|is not in scope|has no `|is no name|was not admitted|did not admit|operand is missing|expected the end|cannot continue")


def text_of(path):
    with open(path, encoding="utf-8") as file:
        return file.read()


def edits_of(crate):
    return sorted(glob.glob(os.path.join(crate, "must-fail", "*.edit")))


def changes_of(path, crate):
    """The changes of a wrong body: each is a file's path in the crate, its text before and after, and the place of the change."""
    texts, file, old = {}, None, None
    for line in text_of(path).split("\n"):
        if line.startswith("file: "):
            file = line[6:].strip()
        elif line.startswith("old: "):
            old = line[5:]
        elif line.startswith("new:"):
            before = texts.get(file) or text_of(os.path.join(crate, file))
            if before.count(old) != 1:
                sys.exit("%s: its old text is in %s %d times, and not once" % (os.path.relpath(path, ROOT), file, before.count(old)))
            texts[file] = before.replace(old, line[4:].removeprefix(" "))
            yield file, before, texts[file], before.index(old)


def parts(text):
    """The functions of a file: the name of each, and where its text begins and ends."""
    starts = [(found.group(1), found.start()) for found in FUNCTION.finditer(text)]
    ends = [start for _, start in starts[1:]] + [len(text)]
    return [(name, start, end) for (name, start), end in zip(starts, ends)]


def last_call(value):
    """The name of the call that makes this value, or nothing if none does."""
    deep = 0
    for place in range(len(value) - 1, -1, -1):
        deep += {")": 1, "(": -1}.get(value[place], 0)
        if deep == 0:
            found = re.search(r"(\w+)$", value[:place])
            return found.group(1) if found and value[place] == "(" else ""
    return ""


def names_in(text, function):
    """The names in all functions of a file that have this name, without comments. A number that something is compared with is one:
    the names of an `if` and of its goals end with it. So is a call whose result gets a name: its step has the names of both."""
    bodies = [text[start:end] for name, start, end in parts(text) if name == function]
    code = re.sub(r"//.*", "", "".join(bodies))
    steps = {"%s-%s" % (last_call(value), name) for name, value in BOUND.findall(code)}
    return set(re.findall(r"[A-Za-z_]\w*", code)) | set(re.findall(r"[=<>] (\d+)\b", code)) | steps


def tokens(cited):
    """The names and compared numbers of which the name of a step or goal is made: `if-ok-eq0` has `if`, `ok` and `0`."""
    words = re.split(r"[.\-]", cited)
    return set(words) | {found.group(1) for found in map(COMPARED.fullmatch, words) if found} | set(cited.split("."))


def lost_names(path, crate):
    """The names that a wrong body takes from a function, and that a proof of this function cites."""
    firsts, lasts, functions = {}, {}, set()
    for file, before, after, place in changes_of(path, crate):
        firsts.setdefault(file, before)
        lasts[file] = after
        functions |= {(file, name) for name, start, end in parts(before) if start <= place < end}
    lost = set()
    for file, function in functions:
        gone = names_in(firsts[file], function) - names_in(lasts[file], function) - CASES
        for proof in glob.glob(os.path.join(crate, "proofs", "**", function, "*.antt"), recursive=True):
            for cited in CITED.findall(text_of(proof)):
                lost |= gone & tokens(cited)
    return sorted(lost)


def look_at_names():
    edits = listed = 0
    for crate in sorted(glob.glob(os.path.join(ROOT, "crates", "*"))):
        for path in edits_of(crate):
            lost = lost_names(path, crate)
            edits += 1
            if lost:
                print("%s: a proof cites what it takes away: %s" % (os.path.relpath(path, ROOT), ", ".join(lost)))
            listed += bool(lost)
    print("%d wrong bodies, %d of which take away what a proof cites" % (edits, listed))
    return listed


def sayings(text):
    """What a check says of each place: its first line, and all of its lines."""
    found = []
    for line in text.split("\n"):
        if PLACE.match(line):
            found.append([line])
        elif found and line.startswith("  "):
            found[-1].append(line)
    return [(lines[0], "\n".join(lines)) for lines in found]


def refusal(text):
    """Which promises aren't proved, and which names are missing, by what a check says."""
    promises, names = [], []
    for first, whole in sayings(text):
        if "it is not proved that" in first:
            promises.append(whole)
        elif ": error" in first:
            (names if MISSING.search(whole) else promises).append(whole)
    return promises, names


def shows_nothing(label, text):
    """Whether a check shows nothing of a contract. If so, it prints why."""
    if re.search("^logic=proved", text, re.M):
        print("%s: it is still proved" % label, flush=True)
        return True
    promises, names = refusal(text)
    if promises:
        return False
    print("%s: no promise is among what failed" % label)
    for whole in names[:3]:
        print("".join("    %s\n" % line[:160] for line in whole.split("\n")[:3]), end="")
    sys.stdout.flush()
    return True


def write(path, text):
    """Writes a file anew: its other names keep the text that they had."""
    os.remove(path)
    with open(path, "w", encoding="utf-8") as file:
        file.write(text)


def try_crate(name, room):
    """Checks each wrong body of a crate in a copy of the checkout. Returns how many were tried, and how many show nothing."""
    crate, copy = os.path.join(ROOT, "crates", name), os.path.join(room, "crates", name)
    os.makedirs(os.path.join(LOGS, name), exist_ok=True)
    nothing = 0
    for path in edits_of(crate):
        texts = {file: after for file, _, after, _ in changes_of(path, crate)}
        for file, text in texts.items():
            write(os.path.join(copy, file), text)
        ran = subprocess.run(["rt", "check"], cwd=copy, stdin=subprocess.DEVNULL, stdout=subprocess.PIPE, stderr=subprocess.STDOUT, text=True, errors="replace")
        for file in texts:
            write(os.path.join(copy, file), text_of(os.path.join(crate, file)))
        edit = os.path.splitext(os.path.basename(path))[0]
        with open(os.path.join(LOGS, name, edit + ".log"), "w", encoding="utf-8") as log:
            log.write(ran.stdout)
        nothing += shows_nothing("%s/%s" % (name, edit), ran.stdout)
    return len(edits_of(crate)), nothing


def try_all(names):
    tried = nothing = 0
    with tempfile.TemporaryDirectory(dir=os.path.dirname(ROOT)) as room:
        for file in ("crates.txt", "HANDLES"):
            shutil.copy(os.path.join(ROOT, file), room)
        # second names of the same files
        shutil.copytree(os.path.join(ROOT, "crates"), os.path.join(room, "crates"), copy_function=os.link, symlinks=True)
        for name in names:
            if not os.path.isdir(os.path.join(ROOT, "crates", name, "out", "incremental")):
                print("%s: not tried, since `rt check` hasn't been run in it" % name, flush=True)
                continue
            made, of_these = try_crate(name, room)
            tried, nothing = tried + made, nothing + of_these
    print("%d wrong bodies tried, %d of which show nothing" % (tried, nothing))
    return nothing


def read_logs(folder):
    logs = sorted(glob.glob(os.path.join(folder, "*", "*.log")))
    nothing = sum(shows_nothing(os.path.relpath(log, folder)[:-4], text_of(log)) for log in logs)
    print("%d logs, %d of wrong bodies that show nothing" % (len(logs), nothing))
    return nothing


def main(words):
    every = sorted(os.path.basename(crate) for crate in glob.glob(os.path.join(ROOT, "crates", "*")) if edits_of(crate))
    if not words:
        return 1 if look_at_names() else 0
    if words[0] == "check" and set(words[1:]) <= set(every):
        return 1 if try_all(words[1:] or every) else 0
    if words[0] == "logs" and len(words) == 2:
        return 1 if read_logs(words[1]) else 0
    print(__doc__.strip())
    return 2


if __name__ == "__main__":
    sys.exit(main(sys.argv[1:]))
