"""What try.py shows: the recorded session of examples/, or a capture of the user's own, through programs that are handed in."""
import collections, os, re, subprocess

import timeline

ROOT = os.path.dirname(os.path.dirname(os.path.abspath(__file__)))
EXAMPLES = os.path.join(ROOT, "examples")
NOT_PROVED = "This build isn't proved: it shows what the program does, and no promise holds of it. `make demo` proves the program and runs it."
REMARK = "remark=Made by make try, whose build isn't proved: no promise holds of it."

# The most lines of a list that are printed.
MOST = 24

# The delay of the receiver in ticks, and the silent ticks that the transmitter needs between frames, by the protocol's word.
DELAYS = {"rtu": 18, "dnp3": 18, "rtu24": 24, "dnp24": 24}

# The word by which `read` has a protocol, which has no profile.
READERS = {"rtu": "rtu", "dnp3": "dnp3", "rtu24": "rtu", "dnp24": "dnp3"}

# What the notes mean, by their words and causes.
MEANINGS = {
    "sealed": "forwarded, with its number and tag behind it", "unsealed form": "no frame: forwarded, with nothing behind it",
    "unsealed early": "fewer than %d silent ticks after a sealed frame: not forwarded", "unsealed spent": "no number is left for it",
    "passed": "its number is new and its tag right: it leaves as it came", "refused trailer": "no number and tag behind it: it leaves with a wrong ending",
    "refused form": "no frame: it leaves with a wrong ending", "refused number": "no number is left that it can have: it leaves with a wrong ending",
    "refused tag": "its tag isn't that of its bytes and a new number: it leaves with a wrong ending",
    "dropped busy": "an earlier burst still leaves: nothing of it leaves", "dropped head": "no good header: nothing of it leaves",
}

# A form of capture, by what its first bytes look like.
FORMS = (("pcap", rb"\xd4\xc3\xb2\xa1|\xa1\xb2\xc3\xd4|\x4d\x3c\xb2\xa1|\xa1\xb2\x3c\x4d|\x0a\x0d\x0d\x0a"), ("sigrok", rb"\s*[{\[]"),
         ("logic2", rb"\"?name\"?,"), ("ticks", rb"(#.*\n|\s)*[-+%]"), ("text", rb"(#.*\n|\s)*[0-9.]"))

# The programs, by their paths; `line_capture` is called only if a capture isn't tick text.
Programs = collections.namedtuple("Programs", "link_replay line_capture")

# A capture of the user's own: its file, its rate as `line_capture` takes it, the protocol's word, the time of its first byte (or ""),
# and whether each record is taken for a frame.
Capture = collections.namedtuple("Capture", "path rate protocol start is_of_frames")


class Failed(Exception):
    """A program ended otherwise than it should, or an input can't be used."""


def text_of(path):
    with open(path) as file:
        return file.read()


def example(*name):
    return os.path.join(EXAMPLES, *name)


def run(program, words, given=b"", statuses=(0,)):
    """Runs a program over an input. Returns what it writes to standard output and to standard error, and its status."""
    ran = subprocess.run([program, *words], input=given, capture_output=True)
    log = ran.stderr.decode(errors="replace")
    if ran.returncode not in statuses:
        raise Failed("`%s %s` ended with status %d: %s" % (os.path.basename(program), " ".join(words), ran.returncode, log.strip()))
    return ran.stdout, log, ran.returncode


class Bench:
    """The programs, and a folder into which texts are written for the picture, and for a look at them."""

    def __init__(self, programs, folder):
        self.programs, self.folder = programs, folder

    def name(self, name):
        return os.path.join(self.folder, name)

    def write(self, name, content):
        with open(self.name(name), "wb") as file:
            file.write(content if isinstance(content, bytes) else content.encode())
        return self.name(name)

    def replay(self, words, given=b""):
        """Runs `link_replay` over an input. Returns what it writes to standard output and to standard error."""
        return run(self.programs.link_replay, words, given)[:2]

    def box(self, command, link, line, name):
        """Runs `seal` or `check` over a line, with a new journal. Writes the line that leaves and the notes into files, and returns both."""
        journal = self.name(name + ".journal")
        if os.path.exists(journal):
            os.remove(journal)
        self.replay(["init", *link, journal])
        out, notes = self.replay([command, *link, example("key.txt"), journal], line)
        self.write(name + ".ticks", out)
        self.write(name + ".notes.txt", notes)
        return out, notes


def kind_of(note):
    """The word of a note, and its cause if it has one."""
    words = note.split()
    return words[0] if words[0] in ("sealed", "passed") else "%s %s" % (words[0], words[3])


def print_meanings(notes, protocol):
    """Prints what each word and cause of some notes means."""
    for kind in dict.fromkeys(map(kind_of, notes)):
        meaning = MEANINGS[kind]
        print("    %-15s %s" % (kind, meaning % (DELAYS[protocol] + 3) if "%" in meaning else meaning))


def print_some(rows, where):
    """Prints rows, and of very many the first ones alone and where all of them are."""
    print("\n".join(rows[:MOST] or ["    none"]))
    if len(rows) > MOST:
        print("    .. and %d more: %s" % (len(rows) - MOST, os.path.relpath(where)))


def what_was_done(path):
    """The comments of a tick text: of each `# Tick T.` the tick, and what is said behind it in its first sentence."""
    found = re.findall(r"^# Tick (\d+)\. (.*\n(?:#.*\n)*)", text_of(path), re.M)
    return [(int(tick), re.split(r"(?<=[.])\s", comment.replace("\n# ", " "))[0]) for tick, comment in found]


def show_attack(notes):
    """Prints what examples/altered.ticks says was done at each tick, and the notes on what came from there on."""
    done = what_was_done(example("altered.ticks"))
    ticks = [tick for tick, _ in done] + [float("inf")]
    for place, (tick, words) in enumerate(done):
        print(words)
        for note in notes:
            if tick <= int(note.split(" at ")[1].split()[0]) < ticks[place + 1]:
                print("    " + note)
    print("\nWhat these notes mean:\n")
    print_meanings(notes, "rtu")


def show_example(bench):
    """Shows the requests of examples/ and their link as an attacker left it. Returns what differs from examples/expected/."""
    link = ["rtu", "ab"]
    line, altered = text_of(example("requests.ticks")).encode(), text_of(example("altered.ticks")).encode()
    sent, sealed = bench.box("seal", link, line, "sent")
    received, checked = bench.box("check", link, altered, "received")
    acts = bench.replay(["read", "rtu"], received)[0].decode()
    lists = bench.replay(["replay", *link, example("key.txt")], line + b"%\n" + altered)[0].decode()
    print("== What came over the link to the receiver, by examples/altered.ticks, and what became of it\n")
    show_attack(checked.splitlines())
    print("\n== What the device reads, 18 ticks later: the two frames that the transmitter sealed, and nothing of the attacker's\n")
    print("".join("    %s\n" % row for row in acts.splitlines()))
    lines = {"device": example("requests.ticks"), "sent": bench.name("sent.ticks"), "came": example("altered.ticks"), "received": bench.name("received.ticks")}
    notes = bench.name("sent.notes.txt"), bench.name("received.notes.txt"), bench.write("read.txt", acts)
    names = ["title.device=the control centre's line", "title.received=the line to the device"]
    draw(bench.name("session.html"), ["rtu", "title=Requests, as an attacker left the link", REMARK, *names, *words_of(lines, notes)])
    written = {"requests.link.ticks": sent.decode(), "requests.notes.txt": sealed, "altered.received.ticks": received.decode(), "altered.verdicts.txt": checked,
               "altered.acts.txt": acts, "session.lists.txt": lists}
    return [name for name, text in written.items() if text != text_of(example("expected", name))]


def words_of(lines, notes):
    """The words by which timeline.py takes these lines, by their lanes, and notes."""
    return ["%s=%s" % pair for pair in lines.items()] + ["notes=" + path for path in notes]


def draw(page, session):
    timeline.main([page] + session)
    print("A picture of it, for a browser: %s (docs/TIMELINE.md says what it shows)" % os.path.relpath(page))


def form_of(content):
    """The form of a capture, by its first bytes, or None."""
    return next((form for form, start in FORMS if re.match(start, content)), None)


def content_of(path):
    """What is in a file, and its form."""
    try:
        with open(path, "rb") as file:
            content = file.read()
    except OSError as why:
        raise Failed("%s: %s" % (path, why.strerror))
    form = form_of(content)
    if form is None:
        raise Failed("%s is neither tick text nor a capture: see docs/LINE_CAPTURE.md" % path)
    return content, form


def taken(bench, capture):
    """The ticks of the two ways of a capture, and whether the whole of it was taken. Prints what there is to say of it."""
    content, form = content_of(capture.path)
    log, status = "", 0
    if form != "ticks":
        words = ["take", form, capture.rate, "a" if form == "text" else "both"] + ["frames"] * capture.is_of_frames
        content, log, status = run(bench.programs.line_capture, words, content, (0, 4, 10))
    print("%s is of the form %s.\n%s" % (os.path.basename(capture.path), form, log), end="")
    if status:
        print("It is refused there, and what comes before that place is shown (docs/LINE_CAPTURE.md).")
    if "overlap" in log and status:
        print("If each of its records is a frame, say so: FRAMES=1.")
    print()
    return dict(zip(("a", "b"), re.split(rb"^%\r?\n", content, flags=re.M))), status == 0


def has_bytes(line):
    return re.search(rb"^\+", line, re.M) is not None


def show_way(bench, capture, way, line):
    """Shows the frames of one way of a capture, and what `seal` makes of it. Returns the words by which timeline.py shows it."""
    protocol, reader = capture.protocol, READERS[capture.protocol]
    link = [protocol, {"a": "ab", "b": "ba"}[way]]
    bench.write(way + ".ticks", line)
    frames = bench.replay(["read", reader], line)[0].decode()
    sent, sealed = bench.box("seal", link, line, way + ".sent")
    received, _ = bench.box("check", link, sent, way + ".received")
    acts = bench.replay(["read", reader], received)[0].decode()
    print("== Way %s: the frames that a device reads (`read %s`)\n" % (way, reader))
    print_some(["    " + frame for frame in frames.splitlines()], bench.write(way + ".read.txt", frames))
    print("\n== Way %s: what the transmitter makes of it (`seal %s`, with a new journal)\n" % (way, " ".join(link)))
    print_some(["    " + note for note in sealed.splitlines()], bench.name(way + ".sent.notes.txt"))
    print()
    print_meanings(sealed.splitlines(), protocol)
    kinds = collections.Counter(map(kind_of, sealed.splitlines()))
    print("\n%s\n" % judged(capture, len(frames.splitlines()), kinds, len(acts.splitlines())))
    lines = {"device": bench.name(way + ".ticks"), "sent": bench.name(way + ".sent.ticks"), "came": bench.name(way + ".sent.ticks"),
             "received": bench.name(way + ".received.ticks")}
    notes = bench.name(way + ".sent.notes.txt"), bench.name(way + ".received.notes.txt"), bench.write(way + ".acts.txt", acts)
    names = ["title.device=way %s" % way, "title.received=way %s, behind the receiver" % way]
    return [protocol, "title=Way %s, sealed, over an untouched link" % way, REMARK, *names, *words_of(lines, notes)]


def judged(capture, frames, kinds, arrived):
    """What the counts of a way say, in sentences."""
    rows = ["Frames that are read: %d. Sealed: %d. Read behind the receiver, over an untouched link: %d." % (frames, kinds["sealed"], arrived)]
    if frames == 0:
        rows.append("If you know that frames were sent, RATE or P is wrong, or their bytes lie too far apart (docs/LINE_CAPTURE.md).")
    if kinds["unsealed early"]:
        least = "no" if capture.protocol.startswith("dnp") else "four"
        rows.append("`unsealed early`: `read` needs %s silent ticks between two frames, and the boxes need %d." % (least, DELAYS[capture.protocol] + 3))
        rows.append("With FRAMES=1 the silences aren't those of the line, and this says nothing about it." if capture.is_of_frames
                    else "A spacer in front of the transmitter sends such frames apart (docs/FIT.md).")
    return "\n".join(rows)


def show_capture(bench, capture):
    """Shows a capture of the user's own: the frames of each way, what `seal` says of them, and a picture. Returns whether all of the
    capture was taken."""
    ways, is_whole = taken(bench, capture)
    shown = {way: line for way, line in ways.items() if has_bytes(line)}
    if not shown:
        raise Failed("%s has no byte" % capture.path)
    more = ["rate=" + capture.rate] + (["start=" + capture.start] if capture.start else [])
    both = bench.write("capture.ticks", b"%\n".join(shown.values()))
    names = ",".join("way %s" % way for way in shown)
    pages = [capture.protocol, "title=%s, as it was captured" % os.path.basename(capture.path), REMARK, "--lane", "%s=%s" % (names, both), *more]
    for way, line in shown.items():
        pages += show_way(bench, capture, way, line) + more
    if len(shown) < len(ways):
        print("The other way has no byte. If the line has one pair of wires, this way has requests and replies: give it to")
        print("`link_replay two_wire` (docs/USAGE.md).\n")
    draw(bench.name("capture.html"), pages)
    return is_whole
