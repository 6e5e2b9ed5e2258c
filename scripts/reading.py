#!/usr/bin/env python3
"""Writes the page out/reading.md: all definitions on which the headline's record rests, in order of use, with their comments.

    python3 scripts/reading.py

The headline is the record `Headline` of crates/link_replay/specs/ReplayCommand.antt, which the clause *runs* of `run` has for a
`replay` that ended with status 0. The page has the definitions that the record uses, those that these use, and so on, each behind
all that it uses; before them a line on each word of the toolchain that they use, and the types and constants of src/ that they
name. Definitions of the same files that the headline doesn't use aren't on it.

A definition is a record, a data type or a function of specs/. Its lines are those of its type, fields and clauses that are neither
blank nor only a comment; imports and `module` lines aren't counted. The status is 1 if a name isn't found, if a word of the toolchain has
no line, or if a definition stands before one that it uses.
"""
import collections, os, re, sys

from definitions import ROOT, TOKEN, NotFound, Rust, Spec, Specs, Word, code_of, counts_of, lines_of, rests_on

HEADLINE = Spec("link_replay", "ReplayCommand", "Headline")
PAGE = os.path.join(ROOT, "out", "reading.md")

# A line on each word of the toolchain.
WORDS = {
    "ℕ": "the natural numbers 0, 1, 2 and so on",
    "zero": "0, as a pattern",
    "suc": "`suc n` is n + 1",
    "◌+◌": "the sum",
    "◌-◌": "the difference, or 0 if the second number is the greater one",
    "◌*◌": "the product",
    "◌/◌": "the quotient, rounded down",
    "◌%◌": "the remainder",
    "◌^◌": "the power",
    "min": "the lesser of two numbers",
    "◌<◌": "the proposition that the first number is less than the second",
    "◌≤◌": "the proposition that the first number is at most the second",
    "◌≡◌": "the proposition that both are equal",
    "◌≢◌": "the proposition that both aren't equal",
    "Bool": "`true` or `false`",
    "true": "one of the two values of `Bool`",
    "false": "one of the two values of `Bool`",
    "not": "the other value of `Bool`",
    "◌&&◌": "whether both are true",
    "◌||◌": "whether one of both is true, or both are",
    "◌==◌": "whether two numbers are equal",
    "nat_lt": "`nat_lt m n` is whether m is less than n",
    "nat_le": "`nat_le m n` is whether m is at most n",
    "if◌then◌else◌": "the first value if the condition is true, otherwise the second",
    "List": "the lists of a type",
    "[]": "the list without elements",
    "◌∷◌": "`x ∷ xs` is the list that begins with x and goes on with xs",
    "◌++◌": "the elements of the first list, and then those of the second",
    "length": "how many elements a list has",
    "map": "`map f xs` is the list of f of each element of xs",
    "take": "`take n xs` is the first n elements of xs, or all if there are fewer",
    "drop": "`drop n xs` is xs without its first n elements",
    "replicate": "`replicate n x` is the list of n times x",
    "get_or": "`get_or xs i d` is the element of xs at place i, counted from 0, or d if there is none",
    "slice_index_or": "the same as `get_or`",
    "filter": "`filter test xs` is the elements of xs at which `test` gives `true`",
    "filter_map": "`filter_map f xs` is what f gives of the elements of xs, without those where it gives `None`",
    "flat_map": "`flat_map f xs` is the lists that f gives of the elements of xs, one after the other",
    "list_all": "`list_all test xs` is whether `test` gives `true` at each element of xs",
    "range_with_len": "`range_with_len a n` is the list of the n numbers a, a + 1 and so on",
    "AllPairs": "`AllPairs R xs` is the proposition that R holds of each element of xs and each later one",
    "Option": "`Some x` or `None`",
    "Some": "`Some x` is the value x, where there may be none",
    "None": "no value",
    "option_map": "`option_map f o` is `Some (f x)` if o is `Some x`, and otherwise `None`",
    "option_and_then": "`option_and_then f o` is `f x` if o is `Some x`, and otherwise `None`",
    "result_ok": "`result_ok r` is `Some x` if the result r is `Ok x`, and otherwise `None`",
    "bytes_eq": "whether two lists of bytes are equal",
    "codes": "the bytes of a text in quotes",
    "decimal": "the decimal digits of a number, as `{}` writes it",
    "bit_xor": "the exclusive or of two numbers, bit by bit",
    "bytes_high_first": "`bytes_high_first n x` is the lowest n bytes of the number x, the highest of them first",
    "to_be_bytes": "`to_be_bytes w64 x` is the lowest 8 bytes of the number x, the highest of them first",
    "w64": "the width of 64 bits",
    "big_number": "`big_number n bytes` is the number in the first n bytes, the highest first",
    "encode_lower": "the hex text of some bytes, in lower case",
    "decode_of": "the bytes that a hex text of either case stands for, as `Ok`, or why it is no hex text, as `Err`",
    "sha1": "SHA-1 of a list of bytes, as FIPS 180-4 defines it",
    "sha256": "SHA-256 of a list of bytes, as FIPS 180-4 defines it",
    "append_known": "`append_known known bytes` is the known bytes and then these, and `None` if nothing is known",
    "prepend_known": "`prepend_known bytes known` is these bytes and then the known ones, and `None` if nothing is known",
    "IsAtEnd": "the proposition that no byte is left, which always holds if it isn't known what is left",
}

HEAD = """# The definitions under the headline

> {words}

By `python3 scripts/reading.py` (`make reading`), from the definitions themselves. docs/HEADLINE.md says in words what the record
means, and docs/PROOF.md how it is proved.

The record is the last definition on this page, `Headline`. The clause *runs* of `run` has it for each `replay` that ended with
status 0. It rests on {definitions} definitions, itself among them, of {lines} lines in {files} files, on {known} words of the
toolchain, and on {types} types and {constants} constants of the program. Each definition stands behind all that it uses. Of a file
only what the headline uses is here. Comments, imports and `module` lines aren't counted.

## How to read them

- `abbrev` and `unfoldable` begin a definition by its type. Its clauses stand under it; the first one whose patterns fit holds. The
  two differ only in what the prover unfolds by itself. `pub` says that other files may use the name.
- A `record` is a value with these fields. One with propositions among its fields holds if there are values for the other fields with
  which all of them hold. A value of a `data` type is made by one of its constructors.
- `Type 0` is the type of types and of propositions. `Unit` is a proposition that holds, and `⊥` one that doesn't.
- `A → B` is a function, or the proposition that B holds if A does. `(x : A) → B` says so for each x of A.
- `A × B` is a pair, or the proposition that both hold.
- `λ x. e` is the function that takes x to e. `r.f` is the field f of r.
- `module _ (x : A) where` gives all that stands indented under it the parameter x.
- Ticks and places are counted from 0.
"""


def plain(comment):
    """A comment as lines of text."""
    return [re.sub(r"^\s*-- ?", "", line) for line in comment]


def in_words(file):
    """The headline in words, as the head of its file says it."""
    text = " ".join(plain(file.intro))
    return text[text.index("For every key"):]


def rust_item(specs, thing):
    """The lines of an item of src/, with its comment and without attributes."""
    lines = lines_of(os.path.join(specs.root, thing.path))
    item = re.compile(r"\s*(pub(\(\w+\))? )?(struct|enum|trait|const|type) %s\b" % thing.name)
    found = [place for place, line in enumerate(lines) if item.match(line)]
    if len(found) != 1:
        raise NotFound("%s has no one item `%s`" % (thing.path, thing.name))
    begin = end = found[0]
    while lines[begin - 1].lstrip().startswith(("///", "#[")):
        begin -= 1
    depth = 0
    while True:
        depth += lines[end].count("{") - lines[end].count("}")
        if depth == 0:
            break
        end += 1
    return [line for line in lines[begin:end + 1] if not line.lstrip().startswith("#[")]


def is_constant(specs, thing):
    return isinstance(thing, Rust) and " const " in " %s" % rust_item(specs, thing)[-1]


def by_file(specs, things):
    """The definitions by file, the files in an order in which each stands behind those that it uses, and each file's in its own."""
    of_file, order = collections.OrderedDict(), []
    for thing in things:
        if isinstance(thing, Spec):
            of_file.setdefault((thing.crate, thing.module), set()).add(thing.name)

    def visit(key):
        if key in order or key in going:
            return
        going.add(key)
        for name in specs.file(*key).items:
            for use in specs.uses_of(Spec(*key, name)) if name in of_file[key] else ():
                if isinstance(use, Spec):
                    visit((use.crate, use.module))
        order.append(key)

    going = set()
    visit((things[-1].crate, things[-1].module))
    return [(specs.file(*key), [name for name in specs.file(*key).items if name in of_file[key]]) for key in order]


def stands_before(specs, files):
    """The definitions that stand before one that they use."""
    order = [Spec(file.crate, file.module, name) for file, names in files for name in names]
    place = {thing: at for at, thing in enumerate(order)}
    return [(thing, use) for thing in place for use in specs.uses_of(thing) if isinstance(use, Spec) and place[use] > place[thing]]


def page_of_file(file, names):
    """The definitions of a file, with the comments and the `module` lines over them."""
    lines, modules, section, items = [], [], [], {name: file.items[name] for name in names}
    for name, item in items.items():
        if item.section != section and item.section and item.section != file.intro:
            lines += [""] + item.section
        section = item.section
        for module in item.modules:
            if module not in modules:
                lines += [""] + module.comment + file.lines[module.at:module.end]
        modules = item.modules
        shared = item.shares.comment if item.shares and item.shares.name not in items else []
        lines += [""] + shared + item.comment + file.text_of(item)
    return lines[1:]


def path_of(specs, thing):
    return thing.path if isinstance(thing, Rust) else specs.file(thing.crate, thing.module).path


def other_names(specs, file, names, often):
    """What a file calls by another name than the page does, and which of two things with one name it means."""
    shown = {token for name in names for line in file.text_of(file.items[name]) for token in TOKEN.findall(code_of(line))}
    found = []
    for called in sorted(shown & set(file.brought)):
        module, name = file.brought[called]
        thing = specs.named(module, name)
        if isinstance(thing, Word) or (called == name and (often[name] < 2 or thing.name != name)):
            continue
        means = "that" if called == name else "`%s`" % name
        within = "" if thing.name == name else " of `%s`" % thing.name
        found.append("`%s` is %s%s in `%s`" % (called, means, within, path_of(specs, thing)))
    return found


def words_table(where):
    """The words of the toolchain that are used, each with its line and its module."""
    for word in where:
        if word not in WORDS:
            raise NotFound("no line says what `%s` of %s means" % (word, where[word]))
    rows = [(word, WORDS[word], where[word]) for word in WORDS if word in where]
    return ["## The words of the toolchain", "", "`◌` stands for an argument.", "", "| word | what it means | where it is |", "|---|---|---|"] + [
        "| `%s` | %s | `%s` |" % tuple(cell.replace("|", "\\|") for cell in row) for row in rows] + [""]


def constants_table(specs, constants):
    """The constants of src/, with their values."""
    lines = ["## The constants of the program", "", "| constant | value | what it is | where it is |", "|---|---|---|---|"]
    for thing in constants:
        item = rust_item(specs, thing)
        value = re.search(r"= (.*);", item[-1]).group(1).replace("_", "")
        lines.append("| `%s` | %s | %s | `%s` |" % (thing.name, value, " ".join(line.strip("/ ") for line in item[:-1]), thing.path))
    return lines + [""]


def types_as_they_stand(specs, types):
    lines = ["## The types of the program", ""]
    for thing in types:
        lines += ["`%s` in `%s`:" % (thing.name, thing.path), "", "```rust"] + rust_item(specs, thing) + ["```", ""]
    return lines


def definitions_by_file(specs, things):
    files = by_file(specs, things)
    for thing, use in stands_before(specs, files):
        raise NotFound("`%s` stands before `%s`, which it uses" % (thing.name, use.name))
    often = collections.Counter(thing.name for thing in things if not isinstance(thing, Word))
    lines = ["## The definitions", ""]
    for file, names in files:
        lines += ["### " + file.path, ""] + (plain(file.intro) + [""] if file.intro else [])
        also = other_names(specs, file, names, often)
        lines += ["Here " + ", and ".join(also) + ".", ""] if also else []
        lines += ["```"] + page_of_file(file, names) + ["```", ""]
    return lines


def page(specs):
    """The page, and what is counted on it."""
    things = rests_on(specs, HEADLINE)
    items = [thing for thing in things if isinstance(thing, Rust)]
    constants = [thing for thing in items if is_constant(specs, thing)]
    types = [thing for thing in items if thing not in constants]
    where = {thing.name: thing.module for thing in reversed(things) if isinstance(thing, Word)}
    counts = counts_of(specs, things)
    head = HEAD.format(words=in_words(specs.file(HEADLINE.crate, HEADLINE.module)), known=len(where), types=len(types),
                       constants=len(constants), **counts)
    lines = words_table(where) + constants_table(specs, constants) + types_as_they_stand(specs, types)
    lines += definitions_by_file(specs, things)
    return head + "\n" + "\n".join(lines), counts


def main():
    try:
        text, counts = page(Specs())
    except NotFound as missing:
        sys.exit("reading: %s" % missing)
    os.makedirs(os.path.dirname(PAGE), exist_ok=True)
    with open(PAGE, "w", encoding="utf-8") as file:
        file.write(text)
    print("%s: %d definitions, %d lines, %d files" % (os.path.relpath(PAGE, ROOT), counts["definitions"], counts["lines"], counts["files"]))


if __name__ == "__main__":
    if len(sys.argv) > 1:
        sys.exit(__doc__.strip())
    main()
