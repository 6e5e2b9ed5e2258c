#!/usr/bin/env python3
"""Checks how far a protocol and a profile reach: how many files of src/ would name a third one, outside its own crate and outside
comments and tests, as scripts/sizes.py counts them.

    python3 scripts/reach.py

It prints each of these files, and ends with 1 if they are more than BOUNDS allows.
"""
import os, sys

from sizes import ROOT, THIRD, crates_listed, files_that_name

# The most files that may name a third protocol, and a third profile.
BOUNDS = (6, 4)


def main():
    crates, wrong = crates_listed(), False
    for (what, pattern, own), most in zip(THIRD, BOUNDS):
        files = files_that_name(crates, pattern, own)[0]
        print("%s is named in %d files of src/, of %d that it may be named in:" % (what, len(files), most))
        print("\n".join("    " + os.path.relpath(path, ROOT) for path in sorted(files)))
        wrong = wrong or len(files) > most
    return int(wrong)


if __name__ == "__main__":
    if len(sys.argv) > 1:
        sys.exit(__doc__.strip())
    sys.exit(main())
