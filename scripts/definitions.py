"""The definitions of specs/, and which of them one definition rests on, for the scripts that print or count them.

A definition is a record, a data type, a function or a stated law of a file in specs/. It rests on the names that its text uses, in
its type as well as in its clauses and fields, and on what those rest on in turn; names that the text itself binds are no uses. A
definition in a `module _ (..) where` uses the names of that line, too. A name that isn't found ends the walk with NotFound, so what
is listed lacks nothing.
"""
import collections, os, re

ROOT = os.path.dirname(os.path.dirname(os.path.abspath(__file__)))
TOKEN = re.compile(r'"(?:\\.|[^"\\])*"|\[\]|[()\[\]{};,]|[^\s()\[\]{};,"]+')
USE = re.compile(r"(?:unfoldable )?(pub )?use (.*)$")
PLAIN = re.compile(r'[^\W\d]|◌')
# Signs of the language and words that need no import.
OWN = set("Type λ → : = | ∀ × ⊥ ¬ ∥ ∥₁ Unit tt absurd record let in then else where".split())
# The constructors among the toolchain's words: in the patterns of a clause any other word is a variable.
MADE = set("[] ◌∷◌ true false zero suc Some None Ok Err".split())

Word = collections.namedtuple("Word", "module name")             # of the toolchain
Rust = collections.namedtuple("Rust", "crate path name")         # an item of src/
Spec = collections.namedtuple("Spec", "crate module name")       # a definition of specs/
Module = collections.namedtuple("Module", "comment at end")      # a line `module _ (..) where`, and where its text ends


class NotFound(Exception):
    """A name, or a file, that isn't there."""


def lines_of(path):
    with open(path, encoding="utf-8") as file:
        return file.read().splitlines()


def code_of(line):
    return "" if line.lstrip().startswith("--") else line.rstrip()


def indent_of(line):
    return len(line) - len(line.lstrip())


def grouped(text):
    """The tokens of a text, those between brackets as lists that begin with the opening bracket."""
    stack = [[]]
    for token in TOKEN.findall(text):
        if token in "({[":
            stack.append([token])
        elif token in ")}]" and len(stack) > 1:
            stack[-2].append(stack.pop())
        else:
            stack[-1].append(token)
    return stack[0]


def pieces_of(lines):
    """The lines in pieces, each of which begins at the depth of the first line."""
    pieces = []
    for line in filter(str.strip, lines):
        if not pieces or indent_of(line) == indent_of(pieces[0][0]):
            pieces.append([])
        pieces[-1].append(line)
    return pieces


def parts_by(tokens, sign):
    """The tokens between such signs."""
    parts = [[]]
    for token in tokens:
        if token == sign:
            parts.append([])
        else:
            parts[-1].append(token)
    return parts


class Item:
    """A definition as it stands in its file: the places of its lines, its comment, and the modules around it."""

    def __init__(self, name, kind, modules, comment):
        self.name, self.kind, self.modules, self.comment = name, kind, modules, comment
        self.pieces, self.section, self.law, self.shares = [], [], False, None


class File:
    """A file of specs/: what it brings in, and its definitions by name, in order."""

    def __init__(self, root, crate, module):
        self.crate, self.module = crate, module
        self.path = os.path.join("crates", crate, "specs", *module.split(".")) + ".antt"
        if not os.path.isfile(os.path.join(root, self.path)):
            raise NotFound("there is no file %s" % self.path)
        self.lines = lines_of(os.path.join(root, self.path))
        self.brought, self.aliases, self.items, self.made, self.intro = {}, {}, {}, {}, []
        self.read()

    def end_of(self, at):
        """The place after the last line of the piece that begins here: deeper lines, and closing brackets, belong to it."""
        level, end = indent_of(self.lines[at]), at + 1
        for place in range(at + 1, len(self.lines)):
            line = self.lines[place]
            if line.strip() and not (indent_of(line) > level or (indent_of(line) == level and line.strip()[0] in "})")):
                break
            end = place + 1 if line.strip() else end
        return end

    def read(self):
        at, modules, comment, section, last = 0, [], [], [], None
        while at < len(self.lines):
            line, text = self.lines[at], self.lines[at].strip()
            if text and not text.startswith("--"):
                modules = [module for module in modules if indent_of(self.lines[module.at]) < indent_of(line)]
            if not text:
                section, comment, at = (comment or section), [], at + 1
            elif text.startswith("--"):
                comment, at = comment + [line], at + 1
            elif USE.match(text):
                self.intro = self.intro or comment
                self.bring(text)
                comment, at = [], at + 1
            elif text.startswith("module "):
                end = next(place for place in range(at, len(self.lines)) if self.lines[place].rstrip().endswith("where"))
                modules, comment, at = modules + [Module(comment, at, end + 1)], [], end + 1
            else:
                end = self.end_of(at)
                last = self.piece(at, end, modules, comment, section, last)
                comment, at = [], end

    def bring(self, text):
        """Takes the names that a `use` line brings in, each with its module and its name there."""
        path, _, braces = USE.match(text).group(2).partition(".{")
        if not braces:
            path, _, called = path.partition(" as ")
            self.aliases[called or path.rpartition(".")[2]] = path
            return
        for word in braces.rstrip("}").split(","):
            word, _, called = word.strip().partition(" as ")
            module, _, name = ("%s.%s" % (path, word)).rpartition(".")
            self.brought[called or name] = (module, name)

    def piece(self, at, end, modules, comment, section, last):
        """Takes the declaration or the clause in these lines. Returns the definition that it belongs to."""
        tokens = grouped(" ".join(map(code_of, self.lines[at:end])))
        marks = 0
        while tokens[marks] in ("pub", "abbrev", "unfoldable"):
            marks += 1
        if tokens[0] in ("unfolding", "mod") or tokens[marks] == "mod":
            return last
        kind = tokens[marks] if tokens[marks] in ("record", "data") else ""
        name = tokens[marks + bool(kind)]
        declares = kind or ":" in (tokens[:tokens.index("=")] if "=" in tokens else tokens)
        if not declares:
            if last is None:
                raise NotFound("%s, line %d: nothing is declared yet" % (self.path, at + 1))
            last.pieces.append((at, end))
            return last
        above, last = last, Item(name, kind, modules, comment)
        if above and not comment and above.section == section:
            # A definition without a comment of its own shares that of the one above.
            last.shares = above.shares or above
        self.items[name], last.section = last, section
        last.pieces.append((at, end))
        last.law = not kind and not ({"abbrev", "unfoldable"} & set(tokens[:marks]))
        if kind == "data":
            for place in range(at, end):
                made = re.match(r" *([^:({]+?) :", code_of(self.lines[place]))
                if made and place > at and indent_of(self.lines[place]) == indent_of(self.lines[at]) + 2:
                    self.made.update((one, name) for one in made.group(1).split())
        return last

    def text_of(self, item):
        """The lines of a definition, and the comments inside it."""
        return [line for at, end in item.pieces for line in self.lines[at:end]]

    def size_of(self, item):
        """How many of these lines are neither blank nor only a comment."""
        return sum(bool(code_of(line).strip()) for line in self.text_of(item))


class Specs:
    """The files of specs/ of a checkout, and what each definition in them uses."""

    def __init__(self, root=ROOT):
        self.root, self.files, self.found = root, {}, {}

    def file(self, crate, module):
        if (crate, module) not in self.files:
            self.files[crate, module] = File(self.root, crate, module)
        return self.files[crate, module]

    def has_file(self, crate, module):
        return os.path.isfile(os.path.join(self.root, "crates", crate, "specs", *module.split(".")) + ".antt")

    def named(self, module, name):
        """What a name of a module is: a Spec, a Rust item or a Word of the toolchain."""
        parts = module.split(".")
        if parts[0] != "Rattle" or not os.path.isdir(os.path.join(self.root, "crates", parts[1])):
            return Word(module, name)
        crate, below = parts[1], parts[3:]
        if parts[2:3] != ["specs"] or not below:
            raise NotFound("%s.%s is no definition" % (module, name))
        if below[0] == "declared":
            return self.declared(crate, below[1:], name)
        if not self.has_file(crate, ".".join(below)):
            # The constructors of a data type stand in a module of its name.
            return self.named(".".join(parts[:-1]), below[-1])
        file = self.file(crate, ".".join(below))
        if name in file.items or name in file.made:
            return Spec(crate, file.module, file.made.get(name, name))
        if name in file.brought:
            return self.named(*file.brought[name])
        raise NotFound("%s has no `%s`" % (file.path, name))

    def declared(self, crate, below, name):
        """The item of src/ that a name of a `declared` module stands for."""
        if below[-1] == "TheConstants":
            below = below[:-1]
        elif below[-1] == "TheVariants":
            name, below = below[-2], below[:-2]
        else:
            name, below = below[-1], below[:-1]
        tries = [below + [".rt"], below + ["/mod.rt"]] if below else [["lib.rt"], ["main.rt"]]
        for words in tries:
            path = os.path.join("crates", crate, "src", *words[:-1])
            path = path + words[-1] if below else os.path.join(path, words[-1])
            if os.path.isfile(os.path.join(self.root, path)):
                return Rust(crate, path, name)
        raise NotFound("no file of crates/%s/src has `%s`" % (crate, ".".join(below + [name])))

    def is_made(self, file, token):
        """Whether a word in a pattern is a constructor, and no variable."""
        if token in file.made:
            return True
        if "." in token and token.partition(".")[0] in file.aliases:
            return True
        if token not in file.brought:
            return False
        module, name = file.brought[token]
        if ".TheVariants" in module or name in MADE:
            return True
        found = self.named(module, name)
        return isinstance(found, Spec) and name in self.file(found.crate, found.module).made

    def uses_of(self, spec):
        """What the text of a definition uses, in order."""
        if spec not in self.found:
            self.found[spec] = list(dict.fromkeys(Reading(self, spec).found))
        return self.found[spec]


class Reading:
    """One walk over the text of a definition, which finds the names that it uses."""

    def __init__(self, specs, spec):
        self.specs, self.file, self.found = specs, specs.file(spec.crate, spec.module), []
        self.item, bound = self.file.items[spec.name], {spec.name}
        for module in self.item.modules:
            bound = self.walk(grouped(" ".join(map(code_of, self.file.lines[module.at:module.end])))[2:-1], bound)
        for place, (at, end) in enumerate(self.item.pieces):
            lines = [code_of(line) for line in self.file.lines[at:end]]
            if place == 0:
                self.declaration(lines, bound)
            else:
                self.clause(lines, bound)

    def declaration(self, lines, bound):
        """Walks over a type, or over the fields of a record or the constructors of a data type."""
        tokens = grouped(" ".join(lines))
        if not self.item.kind:
            self.walk(tokens[tokens.index(self.item.name) + 1:], bound)
            return
        head = next(place for place, line in enumerate(lines) if line.endswith("where")) if "where" in tokens else len(lines) - 1
        bound = self.walk(grouped(" ".join(lines[:head + 1]))[tokens.index(self.item.name) + 1:], bound | {"where"})
        for field in pieces_of(lines[head + 1:]):
            tokens = [token for token in grouped(" ".join(field)) if token != "pub"]
            names = tokens[:tokens.index(":")]
            self.walk(tokens[len(names):], bound)
            if self.item.kind == "record":
                bound = bound | set(names)

    def clause(self, lines, bound):
        """Walks over a clause: its patterns bind their variables for what stands behind the sign `=`, and so do the functions that
        stand under it, behind `where`."""
        below = next((place for place, line in enumerate(lines) if line.strip() == "where"), len(lines))
        pieces = [grouped(" ".join(piece)) for piece in pieces_of(lines[below + 1:])]
        bound = bound | {piece[0] for piece in pieces}
        for piece in pieces:
            if piece[1] == ":":
                self.walk(piece, bound)
        for piece in [grouped(" ".join(lines[:below]))] + [piece for piece in pieces if piece[1] != ":"]:
            at = piece.index("=")
            self.walk(piece[at + 1:], bound | self.pattern(piece[:at]))

    def pattern(self, tokens):
        """The variables of a pattern. Its constructors are uses."""
        variables = set()
        for token in tokens:
            if isinstance(token, list):
                variables |= self.pattern(token[1:])
            elif self.specs.is_made(self.file, token) or self.mixed(token) or token in ("[]", "if"):
                self.use(token)
            elif PLAIN.match(token):
                variables.add(token)
        return variables

    def mixed(self, token):
        """The name of an operator that is written between its arguments."""
        name = "◌%s◌" % token
        return name if name in self.file.brought or name in self.file.items else None

    def use(self, token):
        """Takes a name that isn't bound."""
        name = self.mixed(token) or ("if◌then◌else◌" if token == "if" else token)
        first, _, rest = name.partition(".")
        if first in self.file.aliases and rest:
            self.found.append(self.specs.named(self.file.aliases[first], rest.partition(".")[0]))
        elif first in self.file.items or first in self.file.made:
            self.found.append(Spec(self.file.crate, self.file.module, self.file.made.get(first, first)))
        elif first in self.file.brought:
            self.found.append(self.specs.named(*self.file.brought[first]))
        else:
            raise NotFound("%s: `%s` uses `%s`, which nothing brings in" % (self.file.path, self.item.name, token))

    def walk(self, tokens, bound):
        """Walks over the tokens of a group. Returns the names that are bound behind it."""
        at = 0
        while at < len(tokens):
            token, before = tokens[at], tokens[at - 1] if at else None
            if isinstance(token, list):
                bound = self.group(token, tokens[:at], bound)
            elif token == "λ":
                end = next(place for place in range(at, len(tokens)) if isinstance(tokens[place], str) and tokens[place].endswith("."))
                for part in tokens[at + 1:end]:
                    bound = self.group(part, [], bound) if isinstance(part, list) else bound | {part}
                bound, at = bound | ({tokens[end][:-1]} - {""}), end
            elif token == "let":
                at, bound = self.let(tokens, at, bound)
            elif token == "if" or not (token in OWN or token in bound or token.startswith(('"', ".")) or token in ";,_"
                                       or token[0].isdigit() or token.partition(".")[0] in bound):
                self.use(token)
            at += 1
        return bound

    def let(self, tokens, at, bound):
        """Walks over `let NAME = .. in`. Returns the place of the `in` and what is bound behind it."""
        depth, end = 0, at
        while True:
            depth += {"let": 1, "in": -1}.get(tokens[end] if isinstance(tokens[end], str) else "", 0)
            if depth == 0:
                break
            end += 1
        self.walk(tokens[at + 2:end], bound)
        return end, bound | {tokens[at + 1]}

    def group(self, group, before, bound):
        """Walks over what stands between brackets. Returns what is bound behind it: a binder `(x y : T)` binds its names."""
        inside, last = group[1:], before[-1] if before else None
        if group[0] == "{" and ("record" in (last, before[-2] if len(before) > 1 else None)):
            for part in parts_by(inside, ";"):
                self.walk(part[2:] if part[1:2] == ["="] else part, bound)
            return bound
        names = inside[:inside.index(":")] if ":" in inside else []
        if names and all(isinstance(name, str) and PLAIN.match(name) for name in names):
            self.walk(inside[len(names):], bound)
            return bound | set(names)
        if group[0] == "{" and inside[1:2] == ["="]:
            inside = inside[2:]
        self.walk(inside, bound)
        return bound


def rests_on(specs, first):
    """What a definition rests on, itself last: each thing stands behind all that it uses."""
    found, open_ones = {}, [(first, iter(specs.uses_of(first)))]
    seen = {first}
    while open_ones:
        thing, uses = open_ones[-1]
        below = next((use for use in uses if use not in seen), None)
        if below is None:
            found[thing] = None
            open_ones.pop()
        else:
            seen.add(below)
            open_ones.append((below, iter(specs.uses_of(below) if isinstance(below, Spec) else [])))
    return list(found)


def counts_of(specs, things):
    """How many definitions are among these things, how many lines they have, and in how many files they stand."""
    found = [(specs.file(thing.crate, thing.module), thing.name) for thing in things if isinstance(thing, Spec)]
    return {"definitions": len(found), "lines": sum(file.size_of(file.items[name]) for file, name in found),
            "files": len({file.path for file, _ in found})}
