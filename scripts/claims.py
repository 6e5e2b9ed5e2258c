#!/usr/bin/env python3
"""Lists what is proved of each public function, clause by clause, each with the sentence that stands beside it in the code.

    python3 scripts/claims.py

It writes the page out/claims.md: crate by crate, in the order of the map of docs/ARCHITECTURE.md, each public function with its
clauses and each public trait with its members; and last the files of proofs/ in which definitions are computed at known values, each
with the comment at its head.

- The sentence of a clause is the doc comment (`///`) above it. The only `ensures` of a function needs none if the function has a doc
  comment, which then is its sentence.
- Public is what the root file of a crate exports by its name or in a public module, and what C calls.
- A clause of a function of a trait stands at the trait, once for all its impls.

It ends with 1 if a public clause, or a member of a public trait, has no sentence. It can't see whether a sentence says more than its
clause.
"""
import collections, glob, os, re, sys

ROOT = os.path.dirname(os.path.dirname(os.path.abspath(__file__)))
PAGE = os.path.join("out", "claims.md")
COMPUTED = ("Rows", "Worked", "KnownAnswers", "StandardFacts")

# What a file has: a function, or a member of a trait that is no function (`is_member`). `line` is where it begins, counted from 0,
# and `path` is as `Sealer::step`. `reach` is "C" if C calls it, "named" if it is public where its owner is exported, and "" otherwise.
Item = collections.namedtuple("Item", "line path reach is_member doc clauses")
# A clause: its kind is `ensures` or `requires`, and its name is "" if it has none.
Clause = collections.namedtuple("Clause", "line kind name doc")

FUNCTION = re.compile(r'( *)(pub )?(?:const )?(?:unsafe )?(?:extern "C" )?fn (\w+)')
CLAUSE = re.compile(r" *(ensures|requires)\b\*? *(\w+)? *\{")
MEMBER = re.compile(r"    ghost (\w+): \{")
OWNER = re.compile(r"(?:pub )?(?:unsafe )?(impl|trait)\b(.*)")


def read(path, root=ROOT):
    with open(os.path.join(root, path), encoding="utf-8") as file:
        return file.read()


def crates_of_the_map(root=ROOT):
    """The crates in the order of the map, each with what the map says of it."""
    rows = re.search(r"^## The map\n.*?((?:^    [^\n]*\n)+)", read("docs/ARCHITECTURE.md", root), re.S | re.M)[1].split("\n")
    rows = [row.split(None, 1) for row in rows if len(row.split()) > 1]
    return [(row[0], row[1]) for row in rows if os.path.isdir(os.path.join(root, "crates", row[0]))]


def comment_above(lines, line, mark="///"):
    """The comment above a line, without its marks, and the lines that it takes. Attributes may stand between the two."""
    last = line
    while last > 0 and lines[last - 1].strip().startswith("#["):
        last -= 1
    first = last
    while first > 0 and re.match(r" *%s( |$)" % mark, lines[first - 1]):
        first -= 1
    return "\n".join(row.strip()[len(mark):].strip() for row in lines[first:last]), first, last


def without_generics(text):
    """A text without what stands in angle brackets."""
    found, depth = "", 0
    for at, sign in enumerate(text):
        depth += (sign == "<") - (sign == ">" and text[at - 1] != "-")
        found += sign if depth == 0 and sign != ">" else ""
    return found


def owner_of(line):
    """The kind and the name of the type or trait whose members follow this line, and whether they may be public; or None."""
    head = OWNER.match(line)
    if head is None:
        return None
    name = without_generics(head[2]).split("{")[0].split(" where ")[0].strip()
    if head[1] == "trait":
        return "trait", re.match(r"\w+", name)[0], line.startswith("pub ")
    return "impl", re.findall(r"\w+", name)[-1], " for " not in name


def clauses_of(lines, first, indent):
    """The clauses of a function that begins on this line."""
    found, open_braces = [], 0
    for line in range(first, len(lines)):
        row = lines[line]
        deep, is_comment = len(row) - len(row.lstrip()), row.strip().startswith("//")
        head = CLAUSE.match(row)
        if head and deep == indent + 4:
            found.append(Clause(line, head[1], head[2] or "", comment_above(lines, line)[0]))
        if deep == indent and (row.strip().startswith("{") or row.endswith("{")):
            break
        open_braces += 0 if is_comment else row.count("{") - row.count("}")
        if row.endswith(";") and not is_comment and open_braces == 0:
            break
    return found


def items_of(text):
    """The functions of a file, and the members of its traits."""
    lines, owner, in_macro = text.split("\n"), None, False
    for line, row in enumerate(lines):
        if row.startswith("macro_rules!") or row.startswith("}"):
            owner, in_macro = None, row.startswith("macro_rules!")
        owner = owner if row.startswith(" ") else owner_of(row) or owner
        in_trait = owner is not None and owner[0] == "trait"
        member, head = MEMBER.match(row), FUNCTION.match(row)
        if in_macro or not (member and in_trait or head):
            continue
        doc = comment_above(lines, line)[0]
        if member:
            yield Item(line, "%s::%s" % (owner[1], member[1]), "named" if owner[2] else "", True, doc, [])
        elif len(head[1]) == (4 if owner else 0):
            of_c = "no_mangle" in "".join(lines[max(0, line - 2):line])
            public = owner[2] if in_trait else head[2] and (owner is None or owner[2])
            path = "%s::%s" % (owner[1], head[3]) if owner else head[3]
            yield Item(line, path, "C" if of_c else "named" if public else "", False, doc, clauses_of(lines, line, len(head[1])))


def exported_by(text):
    """The names that the root file of a crate exports, and its public modules."""
    names = set()
    for use in re.findall(r"^pub use (.*?);", text, re.S | re.M):
        names.update(re.findall(r"\w+", use[use.index("{"):] if "{" in use else use.split("::")[-1]))
    return names, set(re.findall(r"^pub mod (\w+);", text, re.M))


def public_items(crate, root=ROOT):
    """The public functions and members of traits of a crate, each with the path of its file."""
    folder = os.path.join(root, "crates", crate, "src")
    head = next(path for path in (os.path.join(folder, name) for name in ("lib.rt", "main.rt")) if os.path.exists(path))
    names, modules = exported_by(read(head))
    for path in sorted(glob.glob(os.path.join(folder, "**", "*.rt"), recursive=True)):
        module = os.path.relpath(path, folder).split(os.sep)[0].split(".")[0]
        for item in items_of(read(path)):
            exported = item.path.split("::")[0] in names or module in modules or path == head
            if item.reach == "C" or item.reach and exported:
                yield os.path.relpath(path, root), item


def sentence_of(item, clause):
    """The sentence of a clause: its own, or that of a function with one `ensures`."""
    only = clause.kind == "ensures" and sum(other.kind == "ensures" for other in item.clauses) == 1
    return clause.doc or (item.doc if only else "")


def owed(item):
    """The clauses of an item that have no sentence, or the item itself if it is a member without one."""
    if item.is_member:
        return [] if item.doc else [item.path]
    return ["%s %s" % (item.path, " ".join((clause.kind, clause.name)).strip())
            for clause in item.clauses if not sentence_of(item, clause)]


def joined(doc):
    return re.sub(r"\s+", " ", doc).strip()


def rows_of(path, item):
    """The lines of the page on an item."""
    if item.is_member:
        return ["- member `%s`: %s" % (item.path, joined(item.doc))]
    rows = ["", "**`%s`** (%s): %s" % (item.path, path.split("/", 2)[2], joined(item.doc) or "no doc comment.")]
    for clause in item.clauses:
        what = "asks" if clause.kind == "requires" else "proved"
        text = joined(clause.doc) or ("As above." if sentence_of(item, clause) else "NO SENTENCE")
        rows.append("- %s%s: %s" % (what, " *%s*" % clause.name if clause.name else "", text))
    return rows


def computed(root=ROOT):
    """The files of proofs/ in which definitions are computed at known values, each with the comment at its head."""
    for path in sorted(glob.glob(os.path.join(root, "crates", "*", "proofs", "*.antt"))):
        head = re.match(r"((?:--[^\n]*\n)+)", read(path))
        if any(word in os.path.basename(path) for word in COMPUTED) and head:
            yield os.path.relpath(path, root), joined(re.sub(r"^-- ?", "", head[1], flags=re.M))


def listed(root=ROOT):
    """The crates of the map that have public items, each with what the map says of it and these items."""
    for crate, meaning in crates_of_the_map(root):
        items = list(public_items(crate, root))
        if items:
            yield crate, meaning, items


def page(root=ROOT):
    """The page, and what has no sentence."""
    rows, lacking, count = [], [], 0
    for crate, meaning, items in listed(root):
        rows += ["", "## %s" % crate, "", meaning[0].upper() + meaning[1:] + "."]
        for path, item in items:
            rows += rows_of(path, item)
            lacking += ["%s: %s" % (path, what) for what in owed(item)]
            count += len(item.clauses) + item.is_member
    rows += ["", "## Computed in proofs", "", "The check computes these, and refuses the crate if one is wrong.", ""]
    rows += ["- `%s`: %s" % row for row in computed(root)]
    head = ["# What is proved of each public function", "",
            "Written by scripts/claims.py: %d clauses and members of traits. docs/CLAIMS.md says how to read them." % count]
    return "\n".join(head + rows) + "\n", lacking


def main():
    text, lacking = page()
    os.makedirs(os.path.join(ROOT, os.path.dirname(PAGE)), exist_ok=True)
    with open(os.path.join(ROOT, PAGE), "w", encoding="utf-8") as file:
        file.write(text)
    print("\n".join(["%s has no sentence" % what for what in lacking] + ["%s: %d without a sentence" % (PAGE, len(lacking))]))
    return 1 if lacking else 0


if __name__ == "__main__":
    sys.exit(main())
