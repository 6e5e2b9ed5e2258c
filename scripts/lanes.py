"""Lanes: copies of this checkout in which crates are proved side by side.

Within one checkout `rt` proves crates that share a library one after another, since each run holds the libraries that it uses.
In copies of their own they don't wait for each other. What is proved in a copy is linked into the checkout and all other copies,
so that nothing is proved twice. `rt` itself checks, by the sums of all sources, that a library is the one that it needs. If a
folder can't have such links to the checkout, as on another file system, no copies are made.
"""
import os, queue, shutil, subprocess, tempfile

ROOT = os.path.dirname(os.path.dirname(os.path.abspath(__file__)))

# What `rt` leaves in the folder out/ of a crate: the library, and what it knows of its functions for the next check.
LIBRARY, KNOWN = "rlib", "incremental"


def out_of(lane, crate, part):
    return os.path.join(lane, "crates", crate, "out", part)


def link_tree(source, target):
    """Replaces a folder by links to the files of another one, if that exists."""
    if not os.path.isdir(source):
        return
    shutil.rmtree(target, ignore_errors=True)
    shutil.copytree(source, target, copy_function=os.link)


def can_link_to(folder):
    """Whether a file of this checkout can be linked into the folder."""
    probe = os.path.join(folder, "probe")
    try:
        os.link(os.path.join(ROOT, "crates.txt"), probe)
        os.remove(probe)
        return True
    except OSError:
        return False


class Lanes:
    """The checkout and up to `most` - 1 copies of it. Each serves one crate at a time. The copies are removed at the end."""

    def __init__(self, most):
        self.all, self.free, self.copies = [ROOT], queue.LifoQueue(), tempfile.mkdtemp(prefix="yasir-lanes-")
        if can_link_to(self.copies):
            self.all += [self.copy(os.path.join(self.copies, str(number))) for number in range(1, most)]
        for lane in reversed(self.all):
            self.free.put(lane)

    def copy(self, lane):
        os.makedirs(lane)
        shutil.copytree(os.path.join(ROOT, "crates"), os.path.join(lane, "crates"), ignore=shutil.ignore_patterns("out"))
        for name in ("crates.txt", "HANDLES"):
            shutil.copy(os.path.join(ROOT, name), lane)
        for crate in os.listdir(os.path.join(ROOT, "crates")):
            link_tree(out_of(ROOT, crate, LIBRARY), out_of(lane, crate, LIBRARY))
        return lane

    def run(self, crate, words):
        """Runs these words in the folder of a crate of a free copy, and returns the result."""
        lane = self.free.get()
        try:
            if lane != ROOT:
                link_tree(out_of(ROOT, crate, KNOWN), out_of(lane, crate, KNOWN))
            ran = run_in(lane, crate, words)
            if ran.returncode == 0:
                self.share(lane, crate)
            return ran
        finally:
            self.free.put(lane)

    def share(self, lane, crate):
        """Links what one copy has proved of a crate into the checkout and the other copies."""
        for other in self.all:
            if other != lane:
                link_tree(out_of(lane, crate, LIBRARY), out_of(other, crate, LIBRARY))
        if lane != ROOT:
            link_tree(out_of(lane, crate, KNOWN), out_of(ROOT, crate, KNOWN))

    def __enter__(self):
        return self

    def __exit__(self, *_):
        shutil.rmtree(self.copies, ignore_errors=True)


def run_in(lane, crate, words):
    """Runs these words in the folder of a crate of this copy."""
    return subprocess.run(words, cwd=os.path.join(lane, "crates", crate), stdin=subprocess.DEVNULL,
                          stdout=subprocess.PIPE, stderr=subprocess.STDOUT, text=True, errors="replace")
