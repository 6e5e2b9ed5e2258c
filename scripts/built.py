"""Where the built programs are, for the scripts that try them from outside."""
import os, sys

ROOT = os.path.dirname(os.path.dirname(os.path.abspath(__file__)))

# What proves and builds each program.
BUILDERS = {"link_replay": "`make demo`", "line_capture": "`rt run` in crates/line_capture"}


def path_of(name, checkout=ROOT):
    """The path of a program once it is built in a checkout."""
    return os.path.join(checkout, "crates", name, "out", name)


def lacking(path, name="link_replay"):
    """Why the program at this path can't run, or None if it can."""
    if os.path.isfile(path) and os.access(path, os.X_OK):
        return None
    return "there is no program %s; %s proves and builds it" % (os.path.relpath(path), BUILDERS[name])


def program(words, place, name="link_replay"):
    """The path of the program that the words of a command line name at this place, or of the built one if they have no such place.
    If no program is there, it says so, and ends the script with status 2."""
    path = os.path.abspath(words[place]) if len(words) > place else path_of(name)
    why = lacking(path, name)
    if why:
        print("%s: %s" % (os.path.splitext(os.path.basename(sys.argv[0]))[0], why), file=sys.stderr)
        sys.exit(2)
    return path
