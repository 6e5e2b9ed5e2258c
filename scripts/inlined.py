#!/usr/bin/env python3
"""Fails if a built program has a function that the source marks `#[inline(always)]`: the compiler leaves the hint out without a
word where the function that it would be put into grows too large.

    python3 scripts/inlined.py [PROGRAM..]

PROGRAM is a program or a static library, crates/link_replay/out/link_replay if none is given, which `make demo` proves and builds.
`nm` lists a function by its crate, modules, type and name. A method is found by its crate, type and name, and any other function by
all of it. The marks are those of src/, outside tests. Only a build of what is proved (`rt run`, `rt lib`) shows something: in one by
`rt try` (`make try`) every function that is called is there. The status is 0 if no marked function is there, 1 if one is, and 2 if
there is no program or no `nm`, or if the program has no names or is built by `rt try`.
"""
import collections, glob, os, re, shutil, subprocess, sys

import built
from sizes import TESTS, lines_of, test_files

ROOT = built.ROOT
MARK = "#[inline(always)]"
FN = re.compile(r"(?:pub(?:\(\w+\))? )?(?:const |unsafe )*fn (\w+)")
BLOCK = re.compile(r"(?:pub(?:\(\w+\))? )?(?:unsafe )?(impl|trait|mod)\b(.*)")
UNOPTIMIZED = "__asan_init"


def parameters_of(text):
    """The parameters in angle brackets after `impl`, by their names, and what follows them."""
    depth = 0
    for place, sign in enumerate(text if text.startswith("<") else ""):
        depth += {"<": 1, ">": -1}.get(sign, 0) if text[place - 1:place + 1] != "->" else 0
        if depth == 0:
            return set(re.findall(r"[<,]\s*(?:const )?('?\w+)", text[:place])), text[place + 1:]
    return set(), text


def block_name(kind, text):
    """How `nm` names what stands in a block: by the words of the type, and behind them by those of the trait where it is one's."""
    parameters, text = parameters_of(text.strip()) if kind == "impl" else (set(), text.strip())
    text = re.split(r"\{|\bwhere\b", text)[0].strip()
    if kind != "impl":
        return re.match(r"\w+", text).group(0)
    trait, _, of = text.rpartition(" for ")
    words = [word.split("::")[-1] for part in (of, trait) for word in re.findall(r"'?\w+(?:::\w+)*", part)]
    return "".join(word for word in words if word not in parameters and not word.startswith("'"))


def module_of(crate, path):
    """The modules of a file of src/."""
    words = os.path.relpath(path, os.path.join(ROOT, "crates", crate, "src"))[:-len(".rt")].split(os.sep)
    return [crate] + [word for word in words if word not in ("lib", "main", "mod")]


def marked():
    """The functions with the mark, each with its file and line. A method is named by its crate, its type and its own name: `nm` has
    the module of the type, and the method may stand in another one."""
    found = collections.OrderedDict()
    for crate in sorted(os.listdir(os.path.join(ROOT, "crates"))):
        src = os.path.join(ROOT, "crates", crate, "src")
        tests = test_files(src)
        for path in sorted(glob.glob(os.path.join(src, "**", "*.rt"), recursive=True)):
            if crate in TESTS or path in tests:
                continue
            blocks, lines = [], lines_of(path)
            for place, line in enumerate(lines):
                indent, text = len(line) - len(line.lstrip()), line.strip()
                if text and not text.startswith("//"):
                    blocks = [block for block in blocks if block[0] < indent or text.startswith(("where", "{"))]
                block = BLOCK.match(text)
                if block and not text.endswith(";"):
                    blocks.append((indent, block_name(block.group(1), block.group(2)), block.group(1)))
                if text == MARK:
                    name = next(filter(None, (FN.match(after.strip()) for after in lines[place + 1:])))
                    if blocks and blocks[-1][2] != "mod":
                        whole = [crate, blocks[-1][1]]
                    else:
                        whole = module_of(crate, path) + [block[1] for block in blocks]
                    found["::".join(whole + [name.group(1)])] = "%s, line %d" % (os.path.relpath(path, ROOT), place + 1)
    return found


def name_of(symbol):
    """A function's name as `marked` has it, without the types of an instance and what the compiler puts behind a name."""
    words = re.split(r"::<|\.", symbol)[0].split("::")
    return "::".join(words[:1] + words[-2:] if len(words) > 2 and words[-2][:1].isupper() else words)


def functions_in(program):
    """How often each function is in a program, instances of one generic function counted together."""
    listed = subprocess.run(["nm", program], capture_output=True, text=True, errors="replace")
    symbols = [line.split(None, 2)[2] for line in listed.stdout.splitlines() if re.match(r"[0-9a-f]+ [tTwW] ", line)]
    return collections.Counter(map(name_of, symbols))


def look_at(program, marks):
    """Says which marked functions a program has, and returns its status."""
    functions, shown = functions_in(program), os.path.relpath(program, os.getcwd())
    if UNOPTIMIZED in functions:
        print("%s is built by `rt try`: each function that is called is there, marked or not" % shown)
        return 2
    crates = set(os.listdir(os.path.join(ROOT, "crates")))
    if not any(name.partition("::")[0] in crates for name in functions):
        print("%s has no names of this repository's functions" % shown)
        return 2
    there = [name for name in marks if name in functions]
    for name in there:
        print("%s has `%s` (%d times), which %s marks" % (shown, name, functions[name], marks[name]))
    print("%s: %d of %d marked functions are there" % (shown, len(there), len(marks)))
    return 1 if there else 0


def main(words):
    if shutil.which("nm") is None:
        print("inlined: nm isn't on the path", file=sys.stderr)
        return 2
    programs = [os.path.abspath(word) for word in words] or [built.program([], 0)]
    for program in programs:
        if not os.path.isfile(program):
            print("inlined: there is no program %s" % program, file=sys.stderr)
            return 2
    marks = marked()
    return max(look_at(program, marks) for program in programs)


if __name__ == "__main__":
    sys.exit(main(sys.argv[1:]))
