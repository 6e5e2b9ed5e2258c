#!/usr/bin/env python3
"""Proves the program crate by crate, runs it over the recorded exchange in examples/, and compares what it writes with examples/expected/.

    python3 scripts/demo.py [JOBS]
    python3 scripts/demo.py --over PROGRAM

JOBS is the most crates that are proved side by side. Without it, as many are as processors and memory allow (prove.py). What the
prover prints goes into out/demo.log. With --over nothing is proved, and PROGRAM is run. The exit status is 0 if everything is proved,
unless PROGRAM was given, and nothing differs.
"""
import difflib, os, subprocess, sys, tempfile, threading, time

import built, timeline
from killed import old_slot_of
from lanes import Lanes, run_in
from model import AUDIT_STATUS, canonical, ticks_of
from prove import crates_below, lines_of, prove_all, room_here

ROOT = os.path.dirname(os.path.dirname(os.path.abspath(__file__)))
LOG = os.path.join(ROOT, "out", "demo.log")
PROGRAM = built.path_of("link_replay")
EXAMPLES = os.path.join(ROOT, "examples")
log_lock = threading.Lock()


def prove(lanes, crate, jobs):
    """Proves one crate, whose libraries are proved. The program is proved in this checkout, and is built and run there too."""
    if crate == "link_replay":
        words = ["rt", "run", "--jobs", str(jobs), "--", "vectors"]
        ran = run_in(ROOT, crate, words)
    else:
        words = ["rt", "lib", "--jobs", str(jobs)]
        ran = lanes.run(crate, words)
    with log_lock, open(LOG, "a") as log:
        log.write("== %s: %s\n%s\n" % (crate, " ".join(words), ran.stdout))
    if ran.returncode != 0:
        raise RuntimeError("%s is not proved; %s says why" % (crate, os.path.relpath(LOG, ROOT)))


def say_proved(crate, seconds, left):
    print("%-18s %5.0f s   %2d left" % (crate, seconds, left), flush=True)


def prove_program(most):
    """Proves the program and all crates that it uses, and builds it."""
    below, room, began = crates_below("link_replay"), room_here(), time.monotonic()
    print("== Proving the program: %d crates, over %d processors and %.0f GB of free memory" % (len(below), room.processors, room.memory))
    print("The first time this takes 12 to 25 minutes on four processors with nothing else to do, by how fast they are. Later only what changed is proved. What the prover says: %s\n" % os.path.relpath(LOG, ROOT), flush=True)
    with Lanes(most or room.processors) as lanes:
        work = {crate: lines_of(crate) for crate in below}
        prove_all(below, work, lambda crate, jobs: prove(lanes, crate, jobs), say_proved, room, most)
    print("\nProved in %.0f s.\n" % (time.monotonic() - began), flush=True)


def run(words, stdin=None, status=0):
    """Runs the program, which must end with this status. Returns its standard output and standard error."""
    with open(stdin or os.devnull) as given:
        ran = subprocess.run([PROGRAM] + words, stdin=given, capture_output=True, text=True, timeout=120)
    if ran.returncode != status:
        raise RuntimeError("`%s` ended with status %d: %s" % (" ".join(words), ran.returncode, ran.stderr.strip()))
    return ran.stdout, ran.stderr


def show(heading, text, expected=None):
    """Prints a text under a heading. Returns whether it is the expected one, and prints where it differs."""
    print("-- %s\n%s" % (heading, text), end="" if text.endswith("\n") or not text else "\n")
    if expected is None:
        print()
        return True
    wanted = open(os.path.join(EXAMPLES, "expected", expected)).read()
    if text != wanted:
        print("\nTHIS DIFFERS from examples/expected/%s:" % expected)
        print("\n".join(difflib.unified_diff(wanted.splitlines(), text.splitlines(), "expected", "written", lineterm="", n=1)))
    print()
    return text == wanted


def without_comments(path):
    return "".join(line for line in open(path) if line.strip() and not line.startswith("#"))


def slots_of(journal):
    """The journal's slots in hex: the two old ones, and slots A and B."""
    slots = open(journal, "rb").read(80).ljust(80, b"\0")
    return [slots[at:end].hex() + "\n" for at, end in ((0, 16), (16, 32), (32, 56), (56, 80))]


def show_journal(journal):
    show("the journal's slots A and B, in hex", "".join(slots_of(journal)[2:]))


def show_received(name, protocol, direction, reader, link, folder):
    """Shows the receiver, with a new journal, over a link: the line that it sends on, its notes, what a device reads, and the journal."""
    journal = os.path.join(folder, name + ".received.journal")
    run(["init", protocol, direction, journal])
    line, notes = run(["check", protocol, direction, os.path.join(EXAMPLES, "key.txt"), journal], link)
    same = show("check %s %s: the line that the receiver sends on" % (protocol, direction), line, name + ".received.ticks")
    same &= show("its notes, on standard error", notes, name + ".verdicts.txt")
    received = os.path.join(folder, name + ".received.ticks")
    with open(received, "w") as written:
        written.write(line)
    same &= show("read %s: the frames that the %s reads from it, 18 ticks late" % (protocol, reader),
                 run(["read", protocol], received)[0], name + ".acts.txt")
    show_journal(journal)
    return same


def show_side(side, protocol, direction, what, reader, folder):
    """Shows one direction of the exchange, from the line of the device that sends to what is read behind the receiver."""
    line = os.path.join(EXAMPLES, side + ".ticks")
    journal = os.path.join(folder, side + ".journal")
    print("== %s (examples/%s.ticks)\n" % (what, side))
    show("the line, without its comments", without_comments(line))
    same = show("read %s: the frames that the %s would read from it without the boxes" % (protocol, reader),
                run(["read", protocol], line)[0], side + ".read.txt")
    run(["init", protocol, direction, journal])
    link, notes = run(["seal", protocol, direction, os.path.join(EXAMPLES, "key.txt"), journal], line)
    same &= show("seal %s %s: the line of the link" % (protocol, direction), link, side + ".link.ticks")
    same &= show("the transmitter's notes, on standard error", notes, side + ".notes.txt")
    show_journal(journal)
    sealed = os.path.join(folder, side + ".link.ticks")
    with open(sealed, "w") as written:
        written.write(link)
    return same & show_received(side, protocol, direction, reader, sealed, folder)


def show_altered(name, protocol, what, reader, folder):
    """Shows the receiver over a link that an attacker has altered."""
    link = os.path.join(EXAMPLES, name + ".ticks")
    print("== %s, as an attacker left it (examples/%s.ticks)\n" % (what, name))
    show("the link", "".join(open(link)))
    return show_received(name, protocol, "ab", reader, link, folder)


def show_guarded(name, folder):
    """Shows a spacer behind the receiver, over a link with a right frame and one more byte, and says what a device that counts
    bytes reads of the receiver's line and of the spacer's."""
    same = show_altered(name, "rtu", "A link with a frame and one byte directly after it", "device", folder)
    print("A device that waits for silence reads these two frames. One that counts bytes takes eight bytes from tick 68 on, finds their")
    print("CRC right, and acts on 01050000ff008c3a too, though that burst was refused. The receiver alone doesn't protect it.\n")
    line, lost = run(["space", "rtu"], os.path.join(folder, name + ".received.ticks"))
    if lost:
        raise RuntimeError("a frame is lost that shouldn't be: %s" % lost.strip())
    same &= show("check rtu ab | space rtu: the line that the spacer sends on", line, name + ".guarded.ticks")
    print("Behind this spacer any device, also one that counts bytes, is given the two frames that passed, and silence.\n")
    return same


def silent_between(line, first, last):
    """The text of a line, with silence in the ticks from the first one to the last one."""
    ticks = ticks_of(line)
    return canonical(ticks[:first] + [None] * (last + 1 - first) + ticks[last + 1:])


def show_deaf(name, protocol, what, answer, folder):
    """Shows the receiver over a link, and what a device reads of its line that answers, and doesn't listen, in these ticks: from the
    first one to the last one."""
    same = show_altered(name, protocol, what, "device", folder)
    heard = os.path.join(folder, name + ".heard.ticks")
    with open(os.path.join(folder, name + ".received.ticks")) as line, open(heard, "w") as written:
        written.write(silent_between(line.read(), *answer))
    acts = run(["read", protocol], heard)[0]
    same &= show("read %s: the frames that it reads if it answers in ticks %d to %d, and doesn't listen meanwhile" % ((protocol,) + answer),
                 acts, name + ".deaf_acts.txt")
    print("A device that listens while it answers reads the first frame alone. One that doesn't misses the first byte of the burst, and acts")
    print("on %s too, though that burst was refused. The receiver alone doesn't protect it (docs/DEVICES.md).\n" % acts.split()[-1])
    return same


def show_gated(name, what, words, device, link, folder):
    """Shows a two-wire box at one end, and what the device there reads of the ticks that the box gives it."""
    print("== %s\n" % what)
    words = ["two_wire", "rtu"] + words.split()
    lines, notes = run(words + [os.path.join(EXAMPLES, "key.txt")], joined(folder, name + ".wires.ticks", device, link))
    same = show("%s: the link's ticks, and after the %% those that its device gets" % " ".join(words), lines, name + ".gated.txt")
    same &= show("its notes, on standard error", notes, name + ".gated_notes.txt")
    given = os.path.join(folder, name + ".given.ticks")
    with open(given, "w") as written:
        written.write(lines.split("%\n")[1])
    return same & show("read rtu: the frames that the device reads", run(["read", "rtu"], given)[0], name + ".gated_acts.txt")


def show_two_wire_line(folder):
    """Shows a line on one pair of wires at each end, with a box at both, under attack."""
    link = example("wires_link.ticks")
    same = show_gated("wires_master", "Two-wire lines at both ends of a link under attack (examples/wires_link.ticks): the master's box, which speaks "
                      "for the device", "ab answers 60 22", example("wires_master.ticks"), link, folder)
    return same & show_gated("wires_device", "The device's box, at the other end of this link, which speaks for the master", "ba asks 19 4",
                             example("wires_device.ticks"), link, folder)


def show_write_inside(folder):
    """Shows what a device reads that answers, and doesn't listen, while a sealed frame comes whose ending is a frame: behind a
    spacer, and behind a gate."""
    name, key = "write_inside", os.path.join(EXAMPLES, "key.txt")
    print("== A sealed request of function 16 whose ending is a frame (examples/%s.ticks), behind a spacer\n" % name)
    path = lambda what: os.path.join(folder, "%s.%s" % (name, what))
    run(["init", "rtu", "ab", path("sealed")])
    run(["init", "rtu", "ab", path("passed")])
    line = os.path.join(EXAMPLES, name + ".ticks")
    for words, what in ((["seal", "rtu", "ab", key, path("sealed")], "link"), (["check", "rtu", "ab", key, path("passed")], "received"),
                        (["space", "rtu"], "spaced")):
        text = run(words, line)[0]
        line = path(what)
        with open(line, "w") as written:
            written.write(text)
    same = show("seal rtu ab | check rtu ab | space rtu: the line that the spacer sends on", text, name + ".guarded.ticks")
    with open(path("heard"), "w") as written:
        written.write(silent_between(text, 70, 76))
    same &= show("read rtu: the frames that a device reads that answers in ticks 70 to 76, and doesn't listen meanwhile",
                 run(["read", "rtu"], path("heard"))[0], name + ".deaf_acts.txt")
    with open(path("link")) as link:
        return same & show_gated(name, "The same link behind a gate, which waits for an answer for up to 60 ticks and keeps the request back",
                                 "ba asks 60 4", "-124\n+010302002a399b\n", "-60\n" + link.read(), folder)


def show_session(name, protocol, line, link, what, folder):
    """Shows both boxes over a line and a link at once: what was sealed, passed and read, and what passed and was never sealed."""
    print("== %s\n" % what)
    session = os.path.join(folder, name + ".ticks")
    with open(session, "w") as written:
        written.write((open(line).read() if line else "") + "%\n" + open(link).read())
    lists, _ = run(["replay", protocol, "ab", os.path.join(EXAMPLES, "key.txt")], session)
    return show("replay %s ab" % protocol, lists, name + ".lists.txt")


def show_wrong_link(folder):
    """Shows that the transmitter of one direction is refused over the journal of the other one, and writes nothing."""
    print("== The wrong journal: that of the requests, for the transmitter of the replies\n")
    journal = os.path.join(folder, "requests.journal")
    before = slots_of(journal)
    words = ["seal", "rtu", "ba", os.path.join(EXAMPLES, "key.txt"), journal]
    line, log = run(words, os.path.join(EXAMPLES, "replies.ticks"), status=12)
    if line or slots_of(journal) != before:
        raise RuntimeError("the transmitter was refused, and yet wrote the line or the journal")
    return show("seal rtu ba: it ends with status 12, and says so on standard error", log, "wrong_link.txt")


def show_taken_over(folder):
    """Shows how the journal of an older program, whose slots name no link, is taken over."""
    print("== The journal of an older program, which has the number 5\n")
    journal = os.path.join(folder, "old.journal")
    with open(journal, "wb") as file:
        file.write(old_slot_of(5) + bytes(16))
    words = ["seal", "rtu", "ab", os.path.join(EXAMPLES, "key.txt"), journal]
    link, notes = run(words, os.path.join(EXAMPLES, "requests.ticks"))
    same = show("seal rtu ab: the line of the link, whose numbers go on from there", link, "taken_over.link.ticks")
    same &= show("the transmitter's notes, on standard error", notes, "taken_over.notes.txt")
    return same & show("the old slots, which stay, and slots A and B, in hex", "".join(slots_of(journal)), "taken_over.journal.txt")


def show_sessions(folder):
    """Shows what the headline speaks of: the sealed, passed, read and forged frames of a line and of a link that an attacker altered."""
    requests, altered, outstation, outstation_altered = [
        os.path.join(EXAMPLES, name + ".ticks") for name in ("requests", "altered", "outstation", "outstation_altered")]
    same = show_session("session", "rtu", requests, altered,
                        "Both at once: the line to the device, and its link as the attacker left it", folder)
    same &= show_session("session_outstation", "dnp3", outstation, outstation_altered, "The same for the outstation", folder)
    return same & show_session("session_forged", "rtu", None, altered,
                               "The same link without the line: nothing was sealed, so what passes is named as forged", folder)


def joined(folder, name, *parts):
    """A file with these texts, and a line % between each two of them."""
    path = os.path.join(folder, name)
    with open(path, "w") as written:
        written.write("%\n".join(parts))
    return path


def example(name):
    return open(os.path.join(EXAMPLES, name)).read()


def show_box_of_an_end(name, direction, what, link, folder):
    """Shows the box of one end, which seals its device's line and checks the link that comes to it. Returns whether all is as
    expected, and the link that it sends."""
    print("== %s\n" % what)
    both = joined(folder, name + ".both.ticks", example(name + ".ticks"), link)
    lines, notes = run(["duplex", "rtu", direction, os.path.join(EXAMPLES, "key.txt")], both)
    same = show("duplex rtu %s: the link's ticks, and after the %% those that its device gets" % direction, lines, name + ".both.txt")
    same &= show("its notes, on standard error", notes, name + ".both_notes.txt")
    return same, lines.split("%\n")[0]


def show_whole_line(folder):
    """Shows a line with one box for both directions at each end, and a packet that is sent back the way it came."""
    same, link = show_box_of_an_end("polls", "ab", "Both directions in one box: that of the control centre (examples/polls.ticks), "
                                    "and the link to it, on which a packet came back (examples/answers_link.ticks)",
                                    example("answers_link.ticks"), folder)
    other, _ = show_box_of_an_end("answers", "ba", "The box of the device (examples/answers.ticks), at the other end of this link",
                                  link, folder)
    return same and other


def show_audit(name, words, verdict, what, lists, folder):
    """Shows the answer of an audit of three recordings of one session, which must have this verdict."""
    print("== %s\n" % what)
    session = joined(folder, name + ".lists.ticks", *(example(part + ".ticks") for part in lists))
    command, protocol, direction, *floors = words.split()
    answer, _ = run([command, protocol, direction, os.path.join(EXAMPLES, "key.txt")] + floors, session, AUDIT_STATUS[verdict])
    heading = "%s: the recordings %s" % (words, ", ".join("examples/%s.ticks" % part for part in lists))
    return show(heading, answer, name + ".verdict.txt")


def show_incident(folder):
    """Shows the verdicts of an audit."""
    words, sent, link = "audit rtu ab 41 41", "incident", "incident_link"
    same = show_audit("incident", words, "clean", "An incident: did the device read a frame that wasn't sealed?",
                      (sent, link, "incident_received"), folder)
    same &= show_audit("incident_short_line", words, "differs", "The same, but somebody wrote to the line behind the receiver, too",
                       (sent, link, "incident_short_line"), folder)
    same &= show_audit("incident_insider", words, "forged", "The same, but somebody who has the key wrote to the link, too",
                       (sent, "incident_insider_link", "incident_insider_received"), folder)
    return same & show_audit("outstation_altered", "audit dnp3 ab 0 0", "clean", "The outstation, of whose frames the attacker has kept two off",
                             ("outstation", "outstation_altered", "expected/outstation_altered.received"), folder)


def session_of(protocol, title, side, altered):
    """The words for timeline.py by which it shows a line from the control centre and its link as an attacker left it, from texts
    that the program has just written."""
    expected = lambda name: os.path.join(EXAMPLES, "expected", name)
    return [protocol, "title=" + title, "title.device=the control centre's line", "title.received=the line to the device",
            "device=" + os.path.join(EXAMPLES, side + ".ticks"), "sent=" + expected(side + ".link.ticks"),
            "came=" + os.path.join(EXAMPLES, altered + ".ticks"), "received=" + expected(altered + ".received.ticks"),
            "notes=" + expected(side + ".notes.txt"), "notes=" + expected(altered + ".verdicts.txt"),
            "notes=" + expected(altered + ".acts.txt")]


def two_wire_session(folder):
    """The words by which it shows the two-wire line: of each end what its box reads and writes, and its notes."""
    words = ["rtu", "title=A two-wire line under attack", "title.near=the master's wires", "title.far=the device's wires"]
    for end, name in (("near", "wires_master"), ("far", "wires_device")):
        words.append("%s=%s" % (end, os.path.join(folder, name + ".wires.ticks")))
        words += ["%s.%s=%s" % (end, kind, os.path.join(EXAMPLES, "expected", "%s.gated%s.txt" % (name, behind)))
                  for kind, behind in (("drives", ""), ("notes", "_notes"), ("notes", "_acts"))]
    return words


def show_picture(folder):
    """Writes a page that shows the altered links and the two-wire line, tick by tick, and says where it is."""
    page = os.path.join(ROOT, "out", "timeline.html")
    timeline.main([page] + session_of("rtu", "Requests, as an attacker left the link", "requests", "altered")
                  + session_of("dnp3", "The same for the outstation", "outstation", "outstation_altered") + two_wire_session(folder))
    print("A picture of it, for a browser: %s (docs/TIMELINE.md says what it shows)" % os.path.relpath(page, ROOT))


def show_all(folder):
    """Runs the program over all of examples/. Returns whether all is as expected."""
    same = show_side("requests", "rtu", "ab", "From the control centre to a Modbus RTU device", "device", folder)
    same &= show_side("replies", "rtu", "ba", "From the device to the control centre", "master", folder)
    same &= show_altered("altered", "rtu", "The first of these links again", "device", folder)
    same &= show_side("outstation", "dnp3", "ab", "From the control centre to a DNP3 outstation", "outstation", folder)
    same &= show_altered("outstation_altered", "dnp3", "This link again", "outstation", folder)
    same &= show_guarded("byte_behind", folder)
    same &= show_deaf("deaf_device", "rtu", "A link with a byte and a frame directly after it", (41, 47), folder)
    same &= show_gated("deaf_device", "The same link, and that device (examples/deaf_answer.ticks) behind a gate", "ba asks 19 4",
                       example("deaf_answer.ticks"), example("deaf_device.ticks"), folder)
    same &= show_write_inside(folder)
    same &= show_two_wire_line(folder)
    same &= show_deaf("deaf_outstation", "dnp3", "A link with a frame inside a longer one", (40, 49), folder)
    same &= show_wrong_link(folder)
    same &= show_taken_over(folder)
    same &= show_sessions(folder)
    same &= show_whole_line(folder)
    return same & show_incident(folder)


def main(words):
    global PROGRAM
    if words[:1] == ["--over"] and len(words) == 2:
        PROGRAM = built.program(words, 1)
        print("== Over the program %s. Nothing is proved.\n" % os.path.relpath(PROGRAM))
    elif len(words) > 1 or not all(word.isdecimal() for word in words):
        raise RuntimeError(__doc__.strip())
    else:
        os.makedirs(os.path.dirname(LOG), exist_ok=True)
        open(LOG, "w").close()
        prove_program(int(words[0]) if words else None)
    with tempfile.TemporaryDirectory(prefix="demo.") as folder:
        same = show_all(folder)
        if same:
            show_picture(folder)
    print("All of it is what examples/expected/ has." if same else "Something differs from examples/expected/.")
    return 0 if same else 1


try:
    sys.exit(main(sys.argv[1:]))
except FileNotFoundError as missing:
    sys.exit("demo: %s isn't there. `rt` comes with the toolchain, and must be on the path." % missing.filename)
except RuntimeError as why:
    sys.exit("demo: %s" % why)
