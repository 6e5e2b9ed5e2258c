#!/usr/bin/env python3
"""Prints how many lines of definitions, code, contracts, proofs and tests each crate has, what the headline rests on, and how far
names, protocols and profiles reach.

    python3 scripts/sizes.py

It counts the lines that are neither blank nor only a comment:

    code          of src/, without contracts and tests
    contracts     clauses (requires, ensures), ghost members and fields, and the imports that these need
    tests         modules under #[cfg(test)], and the crates of tests
    definitions   of specs/
    proofs        of proofs/
    edits         wrong bodies in must-fail/ (files)

Under the table are these counts:

    what the headline rests on     the definitions that its record uses, those that these use, and so on, as scripts/definitions.py
                                   finds them: a definition is a record, a data type or a function of specs/. Imports and `module`
                                   lines aren't counted, nor are types and constants of src/ and words of the toolchain. Then the
                                   same for the record of `replay` with all statuses, and for those of all commands. For comparison,
                                   whole files: the headline's, and all that it imports, directly or through others
    names in two or more crates    the names of definitions and stated laws of specs/ that are defined in more than one crate, and the
                                   lines of all of their definitions but the longest of each name
    a third protocol               the files outside dnp_link_frame with a line that has `dnp` in a word, in any case
    a third profile                the files outside link_format with a line that has `y24`, `rtu24`, `dnp24`, or the MAC
                                   `HmacSha256` in a word, in any case and with or without `_`

The last two leave out comments and tests, and tell files of src/, of specs/ and of proofs/ apart.
"""
import collections, glob, os, re, sys

from definitions import Spec, Specs, counts_of, rests_on

ROOT = os.path.dirname(os.path.dirname(os.path.abspath(__file__)))
COLUMNS = ("code", "contracts", "tests", "definitions", "proofs", "edits")
CLAUSE = re.compile(r"(pub )?(requires|ensures|ghost)\b")
TESTS = ("disk_tests", "line_tests", "capture_tests", "box_tests", "replay_tests")
HEADLINE = os.path.join("link_replay", "specs", "ReplayCommand.antt")
RECORDS = (("the headline rests on", Spec("link_replay", "ReplayCommand", "Headline")),
           ("with all statuses of `replay` it is", Spec("link_replay", "ReplayCommand", "Replays")),
           ("with all commands it is", Spec("link_replay", "Commands", "Does")))
PARTS = (("src", "rt"), ("specs", "antt"), ("proofs", "antt"))
# What names a protocol or a profile as a third one would be named, and the crates that are its own.
THIRD = (("DNP3, as a third protocol would be,", re.compile(r"dnp", re.I), ("dnp_link_frame",)),
         ("y24, as a third profile would be,", re.compile(r"y24|rtu24|dnp24|hmac_?sha_?256", re.I), ("link_format",)))


def lines_of(path):
    with open(path, encoding="utf-8") as file:
        return file.read().splitlines()


def counts(line):
    return bool(line.strip()) and not line.strip().startswith(("//", "--"))


def test_files(folder):
    """The files of modules that are under #[cfg(test)], and of the modules inside them."""
    found = set()
    for path in glob.glob(os.path.join(folder, "**", "*.rt"), recursive=True):
        head = os.path.dirname(path) if os.path.basename(path) in ("lib.rt", "main.rt") else path[:-len(".rt")]
        for name in re.findall(r"#\[cfg\(test\)\]\s*(?:pub )?mod (\w+);", "\n".join(lines_of(path))):
            found.add(os.path.join(head, name + ".rt"))
            found.update(glob.glob(os.path.join(head, name, "**", "*.rt"), recursive=True))
    return found


def end_of(lines, place, opened, closed):
    """The place after the item that begins at `place`: the item ends with its last closing bracket, or at a line that ends with `;`."""
    depth = 0
    for at in range(place, len(lines)):
        depth += lines[at].count(opened) - lines[at].count(closed)
        if depth <= 0 and (closed in lines[at] or lines[at].rstrip().endswith(";")):
            return at + 1
    return len(lines)


def parts_of(lines):
    """How many lines of a source file are code, contracts and tests."""
    found, at = collections.Counter(), 0
    while at < len(lines):
        line = lines[at].strip()
        if line == "#[cfg(test)]":
            behind, kind = end_of(lines, at + 1, "{", "}"), "tests"
        elif CLAUSE.match(line):
            behind, kind = (end_of(lines, at, "{", "}"), "contracts")
        else:
            behind, kind = at + 1, "code"
        found[kind] += sum(map(counts, lines[at:behind]))
        at = behind
    return found


def sizes_of(crate):
    folder, found = os.path.join(ROOT, "crates", crate), collections.Counter()
    tests = test_files(os.path.join(folder, "src"))
    for path in glob.glob(os.path.join(folder, "src", "**", "*.rt"), recursive=True):
        lines = lines_of(path)
        if path in tests or crate in TESTS:
            found["tests"] += sum(map(counts, lines))
        else:
            found += parts_of(lines)
    for column, part in (("definitions", "specs"), ("proofs", "proofs")):
        for path in glob.glob(os.path.join(folder, part, "**", "*.antt"), recursive=True):
            found[column] += sum(map(counts, lines_of(path)))
    found["edits"] = len(glob.glob(os.path.join(folder, "must-fail", "*.edit")))
    return found


def brought_in(first):
    """A file of specs/, and all files of specs/ that it imports, directly or through others."""
    found, left = set(), [first]
    while left:
        path = left.pop()
        if path in found or not os.path.exists(os.path.join(ROOT, "crates", path)):
            continue
        found.add(path)
        text = "\n".join(lines_of(os.path.join(ROOT, "crates", path)))
        left += [os.path.join(crate, "specs", name + ".antt") for crate, name in re.findall(r"use Rattle\.(\w+)\.specs\.(\w+)\.", text)]
    return found


def definitions_in(path):
    """How many lines of a file of specs/ are neither blank, nor only a comment, nor an import."""
    lines = [line for line in lines_of(os.path.join(ROOT, "crates", path)) if counts(line)]
    return sum(not re.match(r"(unfoldable )?(pub )?use ", line) for line in lines)


def files_of(crate, part, ending):
    return glob.glob(os.path.join(ROOT, "crates", crate, part, "**", "*." + ending), recursive=True)


def names_in_many(specs, crates):
    """How many names are defined in two or more crates, and how many lines their definitions have beside the longest of each name."""
    sizes, where = collections.defaultdict(list), collections.defaultdict(set)
    for crate in crates:
        for path in files_of(crate, "specs", "antt"):
            module = os.path.relpath(path, os.path.join(ROOT, "crates", crate, "specs"))[:-len(".antt")].replace(os.sep, ".")
            file = specs.file(crate, module)
            for name, item in file.items.items():
                sizes[name].append(file.size_of(item))
                where[name].add(crate)
    many = [name for name in sizes if len(where[name]) > 1]
    return len(many), sum(sum(sizes[name]) - max(sizes[name]) for name in many)


def files_that_name(crates, pattern, own):
    """The files of src/, of specs/ and of proofs/ outside these crates that have a word with the pattern, outside comments and tests."""
    found = []
    for part, ending in PARTS:
        found.append([])
        for crate in crates:
            if crate in own or crate in TESTS:
                continue
            tests = test_files(os.path.join(ROOT, "crates", crate, "src"))
            for path in files_of(crate, part, ending):
                if path not in tests and any(pattern.search(line) for line in lines_of(path) if counts(line)):
                    found[-1].append(path)
    return found


def print_reach(specs, crates):
    """Prints on what the headline rests, and how far names, protocols and profiles reach."""
    for what, record in RECORDS:
        found = counts_of(specs, rests_on(specs, record))
        print("%s %d definitions, %d lines, in %d files" % (what, found["definitions"], found["lines"], found["files"]))
    files = brought_in(HEADLINE)
    print("with whole files it is %d lines, in %d files" % (sum(map(definitions_in, files)), len(files)))
    print("names in two or more crates: %d, with %d lines beside the longest of each" % names_in_many(specs, crates))
    for what, pattern, own in THIRD:
        found = tuple(map(len, files_that_name(crates, pattern, own)))
        print("%s is named outside its crates in %d files of src/, %d of specs/, %d of proofs/" % ((what,) + found))


def crates_listed():
    named = (line.split("#")[0] for line in lines_of(os.path.join(ROOT, "crates.txt")))
    return [line.split(":")[0].split()[0] for line in named if line.strip()]


def main():
    crates = crates_listed()
    row = "%-18s" + "%12s" * len(COLUMNS)
    print(row % (("crate",) + COLUMNS))
    whole = collections.Counter()
    for crate in crates:
        sizes = sizes_of(crate)
        whole += sizes
        print(row % ((crate,) + tuple(sizes[column] for column in COLUMNS)))
    print(row % (("all",) + tuple(whole[column] for column in COLUMNS)))
    print()
    print_reach(Specs(), crates)
    print("lines of proof for a line of code: %.1f; of definitions and contracts: %.1f"
          % (whole["proofs"] / whole["code"], (whole["definitions"] + whole["contracts"]) / whole["code"]))


if __name__ == "__main__":
    if len(sys.argv) > 1:
        sys.exit(__doc__.strip())
    main()
