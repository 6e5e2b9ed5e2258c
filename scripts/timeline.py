#!/usr/bin/env python3
"""Makes one HTML file that shows a session, from the texts that the program reads and writes.

    python3 scripts/timeline.py OUT [P WORD..]..

OUT is the HTML file. P begins a session: it is rtu, rtu24, dnp3 or dnp24, as in the program's commands, or `any`, and then
the page finds protocol and profile by the bytes. Each WORD says what a text is, or something of the session:

    device=FILE        the device's line, which `seal` reads
    sent=FILE          the link as `seal` wrote it
    came=FILE          the link as it came, which `check` reads
    received=FILE      the line that `check` wrote
    both=FILE          a device's line, a line %, and a link, as `replay` reads them
    near=FILE          of a two-wire line: a device's wires, a line %, and the link's, as `two_wire` reads them
    near.drives=FILE   what `two_wire` wrote of these
    near.notes=FILE    its notes, and what `read` printed of what it wrote for its device
    far=FILE, far.drives=FILE, far.notes=FILE   the same of the box at the other end
    --lane NAME=FILE   a line of its own, called NAME, that no box reads or writes; NAME,NAME=FILE is two, with a line % between them
    notes=FILE         the notes of `seal` or `check`, or what `read` (for the received line) or `replay` printed; it may come several times
    title=TEXT         the session's name
    title.LANE=TEXT    the name of a lane (device, sent, came, received, near, link or far) in place of the usual one
    rate=BAUDxBITS     baud and bits of a character, such as 9600x11
    start=TIME         the date and time of tick 0, such as 2026-11-30T14:05:09.250; the page then shows the time of day
    remark=TEXT        a sentence that always stands above the lanes

A session needs at least one line; all other texts may be missing. The rate is 9600x11 for Modbus RTU and 9600x10 for DNP3
unless it is given, and can be changed in the page. Without a session the page is empty, and takes texts by drag and drop. The
page needs no network, and no other file. docs/TIMELINE.md says what it shows.
"""
import datetime, html, json, os, re, sys

PAGE = os.path.join(os.path.dirname(os.path.abspath(__file__)), "timeline_page")
PROTOCOLS = ("rtu", "rtu24", "dnp3", "dnp24", "any")
LANES = ("device", "sent", "came", "received")
WIRES = ("near", "link", "far")
LINES = LANES + ("both", "near", "near.drives", "far", "far.drives")
NOTES = ("notes", "near.notes", "far.notes")

# The page may run what is in it, and load nothing.
POLICY = "default-src 'none'; script-src 'unsafe-inline'; style-src 'unsafe-inline'; img-src data:"

# Characters that could end the element that has the texts.
ESCAPES = {ord(each): "\\u%04x" % ord(each) for each in "<>&"}


class Wrong(Exception):
    """Something is wrong with the words or a file."""


def text_of(lane, path):
    """A text for the page, from a file. Each byte is one character, so that the page counts bytes as the program does."""
    try:
        with open(path, "rb") as file:
            content = file.read().decode("latin-1")
    except OSError as why:
        raise Wrong("%s: %s" % (path, why.strerror))
    return {"name": os.path.basename(path), "lane": lane, "content": content}


def rate_of(value):
    found = re.fullmatch(r"([1-9][0-9]{2,6})x(10|11)", value)
    if not found:
        raise Wrong("the rate %s isn't baud x bits, such as 9600x11" % value)
    return {"baud": int(found.group(1)), "bits": int(found.group(2))}


def start_of(value):
    """The time of tick 0 in milliseconds since 1970, as a clock that is set to it counts, and the time zone that is said with it."""
    found = re.fullmatch(r"(\d{4}-\d\d-\d\d)[T ](\d\d:\d\d:\d\d)(\.\d{1,9})?(Z|[+-]\d\d:\d\d)?", value)
    try:
        whole = datetime.datetime.fromisoformat("%s %s+00:00" % found.group(1, 2))
    except (AttributeError, ValueError):
        raise Wrong("the start %s isn't a date and a time of day, such as 2026-11-30T14:05:09.250" % value)
    return {"milliseconds": 1000 * whole.timestamp() + 1000 * float(found.group(3) or 0), "zone": found.group(4) or ""}


def add_lanes(session, word):
    """Adds what `--lane NAME=FILE` says: a line with a name of its own, or two."""
    names, separator, path = word.partition("=")
    names = names.split(",")
    if not separator or not all(names) or len(names) > 2:
        raise Wrong("--lane %s isn't NAME=FILE or NAME,NAME=FILE" % word)
    session["texts"].append(dict(text_of("own", path), names=names))


def take(session, key, value):
    """Adds what a word KEY=VALUE says to a session."""
    if key in LINES and any(text["lane"] == key for text in session["texts"]):
        raise Wrong("%s is given twice" % key)
    if key in LINES + NOTES:
        session["texts"].append(text_of(key, value))
    elif key in ("title", "remark"):
        session[key] = value
    elif key in ["title." + lane for lane in LANES + WIRES]:
        session["titles"][key.split(".")[1]] = value
    elif key == "rate":
        session["rate"] = rate_of(value)
    elif key == "start":
        session["start"] = start_of(value)
    else:
        raise Wrong("%s is none of %s, title, title.LANE, rate, start and remark" % (key, ", ".join(LINES + NOTES)))


def sessions_of(words):
    sessions, words = [], list(words)
    while words:
        word = words.pop(0)
        if word in PROTOCOLS:
            sessions.append({"title": "", "protocol": word, "texts": [], "titles": {}})
        elif sessions and word == "--lane" and words:
            add_lanes(sessions[-1], words.pop(0))
        elif "=" not in word or not sessions:
            raise Wrong("%s begins no session, and is no word of one" % word)
        else:
            take(sessions[-1], *word.split("=", 1))
    for session in sessions:
        if all(text["lane"] in NOTES for text in session["texts"]):
            raise Wrong("a session has no line")
    return sessions


def holder(session):
    """The element of the page that has a session."""
    return '<script type="application/json" class="session">%s</script>' % json.dumps(session).translate(ESCAPES)


def page_of(sessions):
    """The page, with its style sheet, its scripts and the sessions in one text."""
    def part(name):
        with open(os.path.join(PAGE, name), encoding="utf-8") as file:
            return file.read()

    page = part("page.html")
    page = re.sub(r'<link rel="stylesheet" href="([a-z.]+)">', lambda found: "<style>\n%s</style>" % part(found.group(1)), page)
    page = re.sub(r'<script src="([a-z.]+)"></script>', lambda found: "<script>\n%s</script>" % part(found.group(1)), page)
    policy = '<meta http-equiv="Content-Security-Policy" content="%s">\n<title>' % html.escape(POLICY)
    page = page.replace("<title>", policy, 1)
    return page.replace("<!-- The sessions stand here. -->", "\n".join(holder(session) for session in sessions), 1)


def main(words):
    if not words or words[0] in ("-h", "--help"):
        raise Wrong(__doc__.strip())
    page = page_of(sessions_of(words[1:]))
    try:
        with open(words[0], "w", encoding="utf-8") as file:
            file.write(page)
    except OSError as why:
        raise Wrong("%s: %s" % (words[0], why.strerror))


if __name__ == "__main__":
    try:
        main(sys.argv[1:])
    except Wrong as why:
        sys.exit("timeline: %s" % why)
