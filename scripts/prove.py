"""Proves a crate and all crates that it depends on, as many side by side as processors and memory allow.

crates.txt says which crate depends on which. Of the crates that are ready, those with the longest chain of crates above them,
counted in lines, begin first, because no run is shorter than its longest chain. At most as many crates run side by side as
there are processors, and 4 GB of memory are set aside for each. If no crate waits for a processor, it goes to a crate that
begins, as a second process with another 2.5 GB. On four processors or more, a crate with the longest chain of all that haven't
begun gets two processes even if no processor is idle: some of them then share a processor, but the longest chain ends sooner,
and nothing is idle while a process waits for another one. prove_check.py tests this with crates that take almost no time.
"""
import collections, concurrent.futures, glob, os, re, time

ROOT = os.path.dirname(os.path.dirname(os.path.abspath(__file__)))

# The gigabytes that are set aside for a crate, and for each process after its first one, and the most processes that a crate gets.
CRATE_MEMORY, JOB_MEMORY, MOST_JOBS = 4, 2.5, 4

# A crate of the longest chain gets two processes if there are at least this many processors.
SHARING_FROM = 4

# What can be used for proving: processors, and gigabytes of memory.
Room = collections.namedtuple("Room", "processors memory")


def number_in(path, pattern):
    """The first number that the pattern finds in a file, or None if there is no such file or number."""
    try:
        with open(path) as file:
            found = re.search(pattern, file.read(), re.M)
        return int(found[1]) if found else None
    except OSError:
        return None


def room_here():
    """The processors that this process may use, and the memory that is free, within the limits of its control group."""
    processors = len(os.sched_getaffinity(0)) if hasattr(os, "sched_getaffinity") else os.cpu_count() or 1
    quota, period = (number_in("/sys/fs/cgroup/cpu.max", pattern) for pattern in (r"^(\d+) ", r"^\d+ (\d+)"))
    if quota and period:
        processors = max(1, min(processors, quota // period))
    free = [(number_in("/proc/meminfo", r"^MemAvailable: +(\d+)") or 0) * 1024]
    limit, held = (number_in("/sys/fs/cgroup/memory." + name, r"^(\d+)") for name in ("max", "current"))
    if limit and held is not None:
        free.append(limit - held)
    return Room(processors, min(free) / 1e9)


def crates_below(name, listing=None):
    """The crate `name` and each crate of this repository that it depends on, each with its own dependencies in this repository."""
    lines = (line.split("#")[0] for line in listing or open(os.path.join(ROOT, "crates.txt")))
    named = dict(line.split(":") for line in lines if line.strip())
    below = {crate.split()[0]: others.split() for crate, others in named.items()}
    found, left = {}, [name]
    while left:
        crate = left.pop()
        if crate not in found:
            found[crate] = [other for other in below[crate] if other in below]
            left += found[crate]
    return found


def lines_of(crate):
    """How many lines of code, definitions and proofs a crate has: roughly a measure of the time to prove it."""
    files = glob.glob(os.path.join(ROOT, "crates", crate, "*", "**", "*.rt"), recursive=True)
    files += glob.glob(os.path.join(ROOT, "crates", crate, "*", "**", "*.antt"), recursive=True)
    return sum(open(file, "rb").read().count(b"\n") for file in files if "/out/" not in file)


def longest_chains(below, work):
    """For each crate the work of the longest chain of crates that begins with it, each crate depending on the one before it."""
    above = {crate: [other for other in below if crate in below[other]] for crate in below}
    chains = {}

    def chain(crate):
        if crate not in chains:
            chains[crate] = work[crate] + max(map(chain, above[crate]), default=0)
        return chains[crate]

    for crate in below:
        chain(crate)
    return chains


def jobs_for(ready, used, room, most, is_longest=False):
    """How many processes the first of `ready` ready crates gets, or 0 if it must wait. `used` has the number for each running crate.

    `is_longest` says that no crate that hasn't begun has a longer chain than this one.
    """
    most = min(most, room.processors)
    free = room.memory - sum(CRATE_MEMORY + JOB_MEMORY * (jobs - 1) for jobs in used)
    if used and (len(used) >= most or free < CRATE_MEMORY):
        return 0
    crates = max(1, min(ready, most - len(used), int(free / CRATE_MEMORY)))
    idle = room.processors - sum(used)
    jobs = max(1, min(MOST_JOBS, idle // crates, 1 + int((free / crates - CRATE_MEMORY) / JOB_MEMORY)))
    shares = is_longest and room.processors >= SHARING_FROM and free >= CRATE_MEMORY + JOB_MEMORY
    return max(jobs, 2) if shares else jobs


def prove_all(below, work, prove, said, room, most=None):
    """Calls `prove(crate, jobs)` for each crate once those below it are proved, and `said(crate, seconds, left)` as each one ends.

    If a call raises, no other one begins, and what it raised is raised after those that are running have ended. `most` is the
    most crates that are proved side by side.
    """
    chains, waiting, running, done = longest_chains(below, work), dict(below), {}, set()
    most = most or room.processors
    with concurrent.futures.ThreadPoolExecutor(max(most, 1)) as pool:
        while waiting or running:
            ready = sorted((c for c in waiting if done.issuperset(waiting[c])), key=lambda c: -chains[c])
            while ready:
                is_longest = chains[ready[0]] == max(chains[crate] for crate in waiting)
                jobs = jobs_for(len(ready), [each[1] for each in running.values()], room, most, is_longest)
                if not jobs:
                    break
                crate = ready.pop(0)
                del waiting[crate]
                running[pool.submit(prove, crate, jobs)] = crate, jobs, time.monotonic()
            if not running:
                raise RuntimeError("crates.txt goes round in a circle: %s" % ", ".join(sorted(waiting)))
            for future in concurrent.futures.wait(running, return_when=concurrent.futures.FIRST_COMPLETED).done:
                crate, _, began = running.pop(future)
                future.result()
                done.add(crate)
                said(crate, time.monotonic() - began, len(waiting) + len(running))
