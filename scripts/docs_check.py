#!/usr/bin/env python3
"""Checks the documents: what they name must be there, and no paragraph may be too long.

    python3 scripts/docs_check.py

- Each link, and each file of this repository that is named in backquotes, must be there.
- A file of code, of definitions or of proofs that is named in backquotes must be in some crate, and in the one that is named
  before it in the same brackets.
- A page that another page names must be a link there, outside headings and code.
- Each page of docs/ must be named by another page.
- Each name in backquotes that has an underscore or a capital inside must be somewhere in the code.
- A row of a table of docs/PROOF.md whose last column is a file of crates/ names functions and definitions in backquotes and
  clauses in italics: each must be in one of the row's files, a clause as a clause or a field.
- A function in backquotes with a clause in italics behind it must have this clause, as scripts/claims.py finds them.
- No paragraph may have more than 120 words. A row of a table is a paragraph.
- Each page is in one group of BOUNDS, and neither a group nor all groups together may have more words than stand there, as
  `wc -w` counts them. The newest version of CHANGELOG.md may have at most 40 lines.
- The map of docs/ARCHITECTURE.md must show each crate of crates.txt in one row, above all that it uses, and fit one screen.
- The page of `help` must have the words of each command of docs/USAGE.md, and `version` must print the newest version of
  CHANGELOG.md.
- Of the page out/claims.md, which isn't in the repository, the text that scripts/claims.py would write is checked: the names
  in its sentences must be in the code.

It ends with 1 if something is wrong. It can't see whether a sentence says more than its clause.
"""
import glob, os, re, sys

import claims

ROOT = os.path.dirname(os.path.dirname(os.path.abspath(__file__)))
LONGEST = 120
# The most words of each group of pages, and of all of them.
BOUNDS = (
    (1200, ("README.md",)),
    (7000, ("docs/USAGE.md", "docs/FIT.md", "docs/LINE_CAPTURE.md", "docs/TICK_TEXT.md", "docs/LIVE.md", "docs/TIMELINE.md")),
    (600, ("docs/AUDIT.md",)),
    (5500, ("docs/LINK.md", "docs/MODBUS.md", "docs/DNP3.md", "docs/DEVICES.md")),
    (4000, ("docs/SECURITY.md",)),
    (2500, ("docs/JOURNAL.md",)),
    (3500, ("docs/PROOF.md", "docs/HEADLINE.md")),
    (2000, ("docs/CLAIMS.md",)),
    (5000, ("docs/ARCHITECTURE.md", "docs/DECISIONS.md")),
    (2000, ("docs/PERFORMANCE.md",)),
    (1050, ("examples/README.md",)),
    (1950, ("docs/C_LIBRARY.md", "docs/CAPTURES.md", "examples/captures/README.md")),
    (6000, ("CONTRIBUTING.md", "docs/TESTING.md", "docs/GLOSSARY.md", "CHANGELOG.md")),
)
IN_ALL = 41500
LINES_OF_A_VERSION = 40
# The most rows and columns of the map.
SCREEN = (60, 150)
# Pages about the past, which may name what is gone.
OF_THE_PAST = ("CHANGELOG.md",)
# Names of the toolchain.
OF_OTHERS = ("black_box",)


def read(path):
    with open(os.path.join(ROOT, path)) as file:
        return file.read()


def pages():
    return sorted(os.path.relpath(path, ROOT) for path in glob.glob(os.path.join(ROOT, "*.md"))
                  + glob.glob(os.path.join(ROOT, "docs", "*.md")) + glob.glob(os.path.join(ROOT, "examples", "**", "*.md"), recursive=True))


def paragraphs(text):
    """The paragraphs of a page. Each item and each row of a table is one. Code is left out."""
    text = re.sub(r"^```.*?^```", "", text, flags=re.S | re.M)
    for part in re.split(r"\n\s*\n", text):
        lines = [line for line in part.split("\n") if not line.startswith("    ")]
        yield from re.split(r"\n(?=\||\s*[-*] |\s*\d+\. |> )", "\n".join(lines))


def places(page):
    """The folders in which a page's names are looked for."""
    return [os.path.dirname(page), "", "docs", "scripts"]


def missing_files(page, text):
    for name in sorted(set(re.findall(r"\]\(([^)#:]+)\)", text))):
        if not os.path.exists(os.path.join(ROOT, os.path.dirname(page), name)):
            yield "no file is at the link %s" % name
    named = re.findall(r"`((?:docs/|scripts/|crates/|examples/)[\w./*-]+|[A-Z_0-9]+\.md|[a-z_]+\.py)`", text)
    for name in sorted(set(named)):
        if "NAME" in name or "/out/" in name:
            continue
        if not any(glob.glob(os.path.join(ROOT, folder, name)) for folder in places(page)):
            yield "there is no %s" % name


def files_of_crates():
    """The files of the crates, as paths that begin with the crate's name."""
    return ["/" + os.path.relpath(path, os.path.join(ROOT, "crates"))
            for end in ("rt", "antt") for path in glob.glob(os.path.join(ROOT, "crates", "*", "**", "*." + end), recursive=True)]


def misplaced_files(text, files):
    """Files of crates that are named and in no crate, or not in the crate that the same brackets name."""
    for name in sorted(set(re.findall(r"`(?:crates/)?([\w/]+\.(?:rt|antt))`", text))):
        if not any(file.endswith("/" + name) for file in files):
            yield "%s is in no crate" % name
    crates = {file.split("/")[1] for file in files}
    for inside in re.findall(r"\(([^()]*)\)", text):
        crate = None
        for name in re.findall(r"`([\w/.]+)`", inside):
            crate = name if name in crates else crate
            if crate and name.endswith((".rt", ".antt")) and not any(
                    file.startswith("/%s/" % crate) and file.endswith("/" + name) for file in files):
                yield "%s isn't in %s" % (name, crate)


def unlinked_pages(page, text):
    """Pages that are named in backquotes, and so can't be followed."""
    prose = "\n".join(line for line in text.split("\n") if not line.startswith(("    ", "#")))
    for name in sorted(set(re.findall(r"(?<!\[)`((?:\w+/)*\w+\.md)`", prose))):
        if os.path.basename(name) != os.path.basename(page):
            yield "%s is named without a link" % name


def missing_names(text):
    for row in re.findall(r"^\|.*\|$", text, re.M):
        cells = [cell.strip() for cell in row.strip("|").split("|")]
        files = re.findall(r"`(crates/[\w/]+\.(?:rt|antt))`", cells[-1])
        if not files:
            continue
        found = "\n".join(read(file) for file in files if os.path.exists(os.path.join(ROOT, file)))
        named = "|".join(cells[:-1])
        for name in re.findall(r"`([\w:]+)`", named):
            if not re.search(r"(fn|struct|enum|trait|type|impl|record|data|abbrev pub|abbrev|unfoldable pub|pub) (\w+ for )?%s\b" % name.split("::")[-1], found):
                yield "%s isn't in %s" % (name, ", ".join(files))
        for clause in re.findall(r"(?<!\*)\*(\w+)\*(?!\*)", named):
            if not re.search(r"(ensures\*? %s \{|pub %s :|law %s\b|ghost %s\b)" % ((clause,) * 4), found):
                yield "no clause %s is in %s" % (clause, ", ".join(files))


def clauses_of_the_code():
    """The names of the clauses of each function, and of the clauses and members of each type and trait."""
    found = {}
    for path in glob.glob(os.path.join(ROOT, "crates", "*", "src", "**", "*.rt"), recursive=True):
        for item in claims.items_of(read(path)):
            owner, name = ([""] + item.path.split("::"))[-2:]
            names = {name} if item.is_member else {clause.name for clause in item.clauses}
            for of in (owner, "" if item.is_member else name):
                found.setdefault(of, set()).update(names)
    return found


def missing_clauses(text, clauses):
    """Clauses that a page names behind their function or trait, which has no such clause."""
    for owner, name in sorted(set(re.findall(r"`([\w:]+)` \*(\w+)\*(?!\*)", text))):
        of = owner.split("::")[-1]
        if of in clauses and name not in clauses[of]:
            yield "%s has no clause %s" % (owner, name)


def words_of_the_code():
    """All words of the crates' code, definitions and proofs, of crates.txt and of the scripts."""
    found = set(re.findall(r"\w+", read("crates.txt")))
    for pattern in ("crates/*/src/**/*.rt", "crates/*/specs/**/*.antt", "crates/*/proofs/**/*.antt", "scripts/*.py"):
        for path in glob.glob(os.path.join(ROOT, pattern), recursive=True):
            found.update(re.findall(r"\w+", read(path)))
            found.add(os.path.basename(path).split(".")[0])
    return found


def unknown_names(text, words):
    """Names that a page has in backquotes and no file has, of more than one word, or of capital and small letters."""
    for name in sorted(set(re.findall(r"`(\w+(?:::\w+)*)`", text))):
        parts = [part for part in name.split("::") if re.search(r"[a-z]_[a-z]|[a-z][A-Z]", part)]
        if any(part not in words and part not in OF_OTHERS for part in parts):
            yield "%s is named, and is nowhere in the code" % name


def printed(name):
    """The value of a constant among the program's texts."""
    return re.search(r'pub const %s: .*?=\s*\*b"(.*?)";' % name, read("crates/link_replay/src/commands/about.rt"), re.S)[1]


def wrong_texts():
    """What is wrong with what `help` and `version` print."""
    page = printed("HELP_PAGE")
    table = re.search(r"^## Commands\n(.*?)^- ", read("docs/USAGE.md"), re.S | re.M)[1]
    for words in re.findall(r"^\| `([^`]+)`", table, re.M):
        if not re.search(r"^  %s  +\S" % re.escape(words), page, re.M):
            yield "help has no line for `%s`" % words
    newest = re.search(r"^## ([\d.]+)", read("CHANGELOG.md"), re.M)[1]
    if printed("VERSION_LINE") != "link_replay %s\\n" % newest:
        yield "version isn't %s, the newest one of CHANGELOG.md" % newest


def words_of(text):
    return len(text.split())


def too_long(texts):
    """Groups of pages with too many words, pages in no group, and a newest version with too many lines."""
    bounded = [page for _, group in BOUNDS for page in group]
    for page in texts:
        if page not in bounded:
            yield "%s has no bound" % page
    for most, group in BOUNDS:
        words = sum(words_of(texts[page]) for page in group if page in texts)
        if words > most:
            yield "%s: %d words, and %d at most" % (", ".join(group), words, most)
    words = sum(words_of(text) for page, text in texts.items() if page in bounded)
    if words > IN_ALL:
        yield "all pages with bounds: %d words, and %d at most" % (words, IN_ALL)
    newest = re.search(r"^## .*?(?=^## |\Z)", texts["CHANGELOG.md"], re.S | re.M)[0].rstrip().split("\n")
    if len(newest) > LINES_OF_A_VERSION:
        yield "CHANGELOG.md: %d lines for the newest version, and %d at most" % (len(newest), LINES_OF_A_VERSION)


def uses():
    """The crates that each crate uses, as crates.txt has them."""
    rows = [line.split(":") for line in read("crates.txt").split("\n") if ":" in line and not line.startswith("#")]
    return {head.split()[0]: names.split() for head, names in rows}


def wrong_map(text):
    """What is wrong with the map: crates that it lacks, that it has twice, or that aren't above what they use."""
    rows = re.search(r"^## The map\n.*?((?:^    [^\n]*\n)+)", text, re.S | re.M)[1].rstrip("\n").split("\n")
    if len(rows) > SCREEN[0] or max(map(len, rows)) > SCREEN[1]:
        yield "the map has %d rows, and up to %d columns" % (len(rows), max(map(len, rows)))
    crates = uses()
    order = [row.split()[0] for row in rows if row.split()[0] in crates]
    for crate, used in sorted(crates.items()):
        if order.count(crate) != 1:
            yield "the map has %s %d times" % (crate, order.count(crate))
        else:
            below = order[order.index(crate):]
            yield from ("the map doesn't have %s above %s" % (crate, name) for name in used if name in crates and name not in below)


def main():
    wrong, words = ["about.rt: " + fault for fault in wrong_texts()], words_of_the_code()
    texts, files, clauses = {page: read(page) for page in pages()}, files_of_crates(), clauses_of_the_code()
    wrong += too_long(texts)
    for page, text in texts.items():
        faults = list(missing_files(page, text)) if page not in OF_THE_PAST else []
        faults += list(misplaced_files(text, files)) if page not in OF_THE_PAST else []
        faults += unlinked_pages(page, text)
        faults += missing_names(text) if page == "docs/PROOF.md" else []
        faults += missing_clauses(text, clauses) if page not in OF_THE_PAST else []
        faults += wrong_map(text) if page == "docs/ARCHITECTURE.md" else []
        faults += unknown_names(text, words) if page not in OF_THE_PAST else []
        faults += ["%d words: %s .." % (len(part.split()), part.strip()[:60]) for part in paragraphs(text) if len(part.split()) > LONGEST]
        if page.startswith("docs/") and not any(os.path.basename(page) in other for name, other in texts.items() if name != page):
            faults.append("no other page names it")
        wrong += ["%s: %s" % (page, fault) for fault in faults]
    wrong += ["%s: %s" % (claims.PAGE, fault) for fault in unknown_names(claims.page()[0], words)]
    print("\n".join(wrong + ["%d pages, %d faults" % (len(texts), len(wrong))]))
    return 1 if wrong else 0


if __name__ == "__main__":
    sys.exit(main())
