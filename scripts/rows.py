#!/usr/bin/env python3
"""Runs `link_replay` over worked rows, and compares all that it writes with what the rows say.

    python3 scripts/rows.py [PROGRAM]

These are rows beyond those that the gate runs over ends in memory (crates/link_replay/src/rows.rt): the other profiles and protocols,
old journals and those of another link, verdicts and refusals, and the words of each command with those that fit none. Nothing here was
computed by the program: tags are by openssl, as rows.rt says, and the rest was worked out by hand. It also replays and audits more
frames than fit into a short list. It ends with 1 if a run writes anything else. It is no part of the gate.
"""
import os, subprocess, sys, tempfile

import built
from killed import KEY, floor_of, old_slot_of, slot_of

# A row: `$` and its words, `<` before each line of the input, `>` of the output and `!` of the log (`..` is the rest of a line), `=` and
# the exit status if it isn't 0, and `@` for each journal, JOURNAL and then GOT: its link or `old`, its direction, and the last number in
# it before and after the run.
ROWS = """
# The other profile, the other protocol, and the other direction.
$ seal rtu24 ab KEY JOURNAL
@ rtu24 ab 0 1
< +01030000000ac5cd
< -4
> +01030000000ac5cd
> -3
> +0000000165d245ba109509aa6c32ac3cfa228fd6
> -11
! sealed 1 at 0 len 8
$ check rtu24 ab KEY JOURNAL
@ rtu24 ab 0 1
< +01030000000ac5cd
< -3
< +0000000165d245ba109509aa6c32ac3cfa228fd6
< -11
> -24
> +01030000000ac5cd
> -330
! passed 1 at 0 len 8
$ seal dnp3 ab KEY JOURNAL
@ dnp3 ab 0 1
< +056405c001000004e921
< -4
> +056405c001000004e921
> -3
> +0001793484b9bdf858bbd82b559e
> -11
! sealed 1 at 0 len 10
$ check dnp3 ab KEY JOURNAL
@ dnp3 ab 0 1
< +056405c001000004e921
< -3
< +0001793484b9bdf858bbd82b559e
< -11
> -18
> +056405c001000004e921
> -330
! passed 1 at 0 len 10
$ seal dnp24 ab KEY JOURNAL
@ dnp24 ab 0 1
< +056405c001000004e921
< -4
> +056405c001000004e921
> -3
> +00000001cd525d6a6c119047d45db5ba9f9e4290
> -11
! sealed 1 at 0 len 10
$ check dnp24 ab KEY JOURNAL
@ dnp24 ab 0 1
< +056405c001000004e921
< -3
< +00000001cd525d6a6c119047d45db5ba9f9e4290
< -11
> -24
> +056405c001000004e921
> -330
! passed 1 at 0 len 10
# A link that was sealed with the other profile, and one that was sealed for the other direction.
$ check rtu24 ab KEY JOURNAL
@ rtu24 ab 0 0
< +01030000000ac5cd
< -3
< +0001014c5b8d33c6d29a347013b0
< -11
> -24
> +01030000000ac5cc
> -324
! refused at 0 trailer
$ check rtu ba KEY JOURNAL
@ rtu ba 0 0
< +01030000000ac5cd
< -3
< +0001014c5b8d33c6d29a347013b0
< -11
> -18
> +01030000000ac5cc
> -330
! refused at 0 tag
# The number of an old journal is taken over.
$ seal rtu ab KEY JOURNAL
@ old ab 5 6
< +01030000000ac5cd
< -4
> +01030000000ac5cd
> -3
> +0006bffa8bcd3f6ad232de11820a
> -11
! sealed 6 at 0 len 8
# Both ways of a live line, of which each line has a letter. The spacer sends the reply in the tick after the fourth silent one behind it.
$ live line rtu ab KEY JOURNAL GOT
@ rtu ab 0 1
@ rtu ba 0 1
< >+01030000000ac5cd
< >-4
< <+0103020007f986
< <-3
< <+0001cd6dbabb477e2c4fe8f0680e
< <-11
> >+01030000000ac5cd
> >-3
> >+00
> <-29
> <+0103020007f9
> >+01014c5b8d33c6d29a347013b0
> >-11
> <+86
> <-21319
! >sealed 1 at 0 len 8
! <passed 1 at 0 len 7
# A poll of this end that comes back to it doesn't pass.
$ live line rtu ab KEY JOURNAL GOT
@ rtu ab 4 4
@ rtu ba 7 7
< <+01030000000ac5cd
< <-3
< <+0001014c5b8d33c6d29a347013b0
< <-11
> <-36
> >-24
> <-21320
! <refused at 0 tag
# A refused line of each way, and one of no way: it is counted in the stream.
$ live line rtu ab KEY JOURNAL GOT
@ rtu ab 0 0
@ rtu ba 0 0
< >-4
< <-2
< >+0
> >-4
> <-2
! fault: line 3 odd
= 4
$ live line rtu ab KEY JOURNAL GOT
@ rtu ab 0 0
@ rtu ba 0 0
< >-4
< <%
> >-4
! fault: line 2 char
= 4
$ live line rtu ab KEY JOURNAL GOT
@ rtu ab 0 0
@ rtu ba 0 0
< -4
! fault: line 1 char
= 4
# The journals of both ways exchanged, one for both, one that is missing, and a key in place of one.
$ live line rtu ab KEY GOT JOURNAL
@ rtu ab 0 0
@ rtu ba 0 0
! fault: wrong link SENT 000000000000000001011202fffffffffffffffffefeedfd
= 12
$ live line rtu ba KEY GOT GOT
@ rtu ab 0 0
@ rtu ba 0 0
! fault: journal GOT: held by another run
= 7
$ live line rtu ab KEY JOURNAL missing
@ rtu ab 0 0
! fault: journal GOT: no such file
= 7
$ live line rtu ab KEY missing GOT
! fault: journal SENT: no such file
= 7
$ live line rtu ab KEY KEY GOT
! fault: bad journal SENT 0a0000000000000000000000000000000000000000000000 000000000000000000000000000000000000000000000000
= 8
$ live line rtu ab KEY JOURNAL KEY
@ rtu ab 0 0
! fault: bad journal GOT 0a0000000000000000000000000000000000000000000000 000000000000000000000000000000000000000000000000
= 8
# A journal of another link, a file that is no journal (a key, whose last byte begins slot A), and files that are missing. None is made.
$ seal rtu ab KEY JOURNAL
@ dnp3 ab 0 0
< +01030000000ac5cd
! fault: wrong link 000000000000000002001202fffffffffffffffffdffedfd
= 12
$ seal rtu ab KEY KEY
< +01030000000ac5cd
! fault: bad journal 0a0000000000000000000000000000000000000000000000 000000000000000000000000000000000000000000000000
= 8
$ seal rtu ab KEY missing
< +01030000000ac5cd
! fault: journal..
= 7
$ seal rtu ab missing JOURNAL
@ rtu ab 0 0
< +01030000000ac5cd
! fault: read..
= 5

$ space rtu
< +01030000000ac5cd
< -4
< +010300000001840a
> -12
> +01030000000ac5cd
> -21
> +010300000001840a
> -20971
$ trial dnp3 0 1000
> trial dnp3 0 1000 sealed 1000 passed 598 refused 363 dropped 21 read 598
$ duplex rtu ab KEY
< +01030000000ac5cd
< %
> +01030000000ac5cd
> -3
> +0001014c5b8d33c6d29a347013b0
> -303
> %
> -328
! sealed 1 at 0 len 8
# A burst of two bytes that would begin in the last tick of an answer is kept back.
$ two_wire rtu ba asks 19 4 KEY
< -42
< +010302002a399b
< %
< +01030000000ac5cd
< -3
< +0001014c5b8d33c6d29a347013b0
< -8
< +5501
> -43
> +010302002a399b
> -3
> +0001f39538b12dcd54a57ff24933
> -302
> %
> -19
> +01030000000ac5cd
> -342
! passed 1 at 0 len 8
! refused at 33 trailer
! sealed 1 at 42 len 7
! held at 52
$ two_wire rtu ab answers 45 4 KEY
< %
< -1
< %
! fault: line 3 char
= 4

# An untouched link, a frame on the link although none was sealed, and nothing.
$ replay rtu ab KEY
< +01030000000ac5cd
< -40
< %
< +01030000000ac5cd
< -3
< +0001014c5b8d33c6d29a347013b0
< -47
> sealed 1 at 0 01030000000ac5cd
> passed 1 at 0 01030000000ac5cd
> read at 18 01030000000ac5cd
$ replay rtu ab KEY
< -48
< %
< +01030000000ac5cd
< -3
< +0001014c5b8d33c6d29a347013b0
> passed 1 at 0 01030000000ac5cd
> read at 18 01030000000ac5cd
> forged 1 at 0 01030000000ac5cd
$ replay dnp3 ab KEY
< +056405c001000004e921
< -40
< %
< +056405c001000004e921
< -3
< +0001793484b9bdf858bbd82b559e
< -47
> sealed 1 at 0 056405c001000004e921
> passed 1 at 0 056405c001000004e921
> read at 18 056405c001000004e921
$ replay rtu ab KEY
< %
# A link of y18 that is taken for one of y24.
$ replay rtu24 ab KEY
< +01030000000ac5cd
< -40
< %
< +01030000000ac5cd
< -3
< +0001014c5b8d33c6d29a347013b0
< -47
> sealed 1 at 0 01030000000ac5cd
# Six polls by y24. On the link the second packet is altered, the third one comes twice, and the sixth one comes before the fifth.
$ replay rtu24 ab KEY
< +01030000000ac5cd
< -92
< +010300000001840a
< -92
< +1103006b00037687
< -92
< +01030000000ac5cd
< -92
< +010300000001840a
< -92
< +1103006b00037687
< -92
< %
< +01030000000ac5cd
< -3
< +0000000165d245ba109509aa6c32ac3cfa228fd6
< -69
< +010300000001840b
< -3
< +00000002e2eb9489571341cc1bc91db82735400c
< -69
< +1103006b00037687
< -3
< +000000036d7a1b98a7bf5e9d1f9566d8fd27b148
< -69
< +1103006b00037687
< -3
< +000000036d7a1b98a7bf5e9d1f9566d8fd27b148
< -69
< +01030000000ac5cd
< -3
< +000000041f37b6b9804308a69a3fcfb26a2aaa4e
< -69
< +1103006b00037687
< -3
< +000000068bfc4d1d04d6a4be47878f8aeeb57cfa
< -69
< +010300000001840a
< -3
< +00000005f7092fd8a3669861eb298b634644bc58
< -69
> sealed 1 at 0 01030000000ac5cd
> sealed 2 at 100 010300000001840a
> sealed 3 at 200 1103006b00037687
> sealed 4 at 300 01030000000ac5cd
> sealed 5 at 400 010300000001840a
> sealed 6 at 500 1103006b00037687
> passed 1 at 0 01030000000ac5cd
> passed 3 at 200 1103006b00037687
> passed 4 at 400 01030000000ac5cd
> passed 6 at 500 1103006b00037687
> read at 24 01030000000ac5cd
> read at 224 1103006b00037687
> read at 424 01030000000ac5cd
> read at 524 1103006b00037687

# The session of Modbus RTU, audited as one of DNP3.
$ audit dnp3 ab KEY 0 0
< +01030000000ac5cd
< -40
< %
< +01030000000ac5cd
< -3
< +0001014c5b8d33c6d29a347013b0
< -47
< %
< -18
< +01030000000ac5cd
< -366
> audit empty sealed 0 passed 0 read 0
= 16
# The bytes on the receiving device's line aren't a frame, since their CRC is wrong.
$ audit rtu ab KEY 0 0
< +01030000000ac5cd
< -40
< %
< +01030000000ac5cd
< -3
< +0001014c5b8d33c6d29a347013b0
< -47
< %
< +01030000000ac5cc
> audit differs 0 sealed 1 passed 1 read 0
> expected at 18 01030000000ac5cd
> found none
= 15
# The device's line is silent, so no frame was sealed.
$ audit rtu ab KEY 0 0
< -48
< %
< +01030000000ac5cd
< -3
< +0001014c5b8d33c6d29a347013b0
< -47
< %
< -18
< +01030000000ac5cd
< -366
> audit forged 1 at 0 sealed 0 passed 1 read 1
= 14
# One frame more was read than passed, and one fewer.
$ audit rtu ab KEY 0 0
< +01030000000ac5cd
< -40
< %
< +01030000000ac5cd
< -3
< +0001014c5b8d33c6d29a347013b0
< -47
< %
< -18
< +01030000000ac5cd
< -92
< +01030000000ac5cd
> audit differs 1 sealed 1 passed 1 read 2
> expected none
> found at 118 01030000000ac5cd
= 15
$ audit rtu ab KEY 0 0
< +01030000000ac5cd
< -40
< %
< +01030000000ac5cd
< -3
< +0001014c5b8d33c6d29a347013b0
< -47
< %
> audit differs 0 sealed 1 passed 1 read 0
> expected at 18 01030000000ac5cd
> found none
= 15
# Both boxes have floor 5.
$ audit rtu ab KEY 5 5
< +01030000000ac5cd
< -40
< %
< +01030000000ac5cd
< -3
< +0006bffa8bcd3f6ad232de11820a
< -47
< %
< -18
< +01030000000ac5cd
< -366
> audit clean sealed 1 passed 1 read 1
$ audit rtu24 ab KEY 0 0
< +01030000000ac5cd
< -40
< %
< +01030000000ac5cd
< -3
< +0000000165d245ba109509aa6c32ac3cfa228fd6
< -47
< %
< -24
< +01030000000ac5cd
< -366
> audit clean sealed 1 passed 1 read 1
$ audit dnp3 ab KEY 0 0
< +056405c001000004e921
< -40
< %
< +056405c001000004e921
< -3
< +0001793484b9bdf858bbd82b559e
< -47
< %
< -18
< +056405c001000004e921
< -366
> audit clean sealed 1 passed 1 read 1
$ audit rtu ab KEY 0 0
< %
! fault: line 2 mark
= 4
$ audit rtu ab KEY 0 0
< %
< %
< %
! fault: line 3 char
= 4
"""

# Words that fit no command, one command a line. `''` is a word without a letter.
WRONG = """
help x|help help|Help|-help|--h|-h --help|-V|version x|-version|
read|read dnp|read rtu x|read rtu24|read dnp24|read RTU|rtu read|vectors x
seal rtu|seal rtu ab key|seal rtu ab '' journal|seal rtu ab key ''|seal rtu AB key journal|seal dnp ab key journal
seal dnp324 ab key journal|seal rtu ab key journal x
check rtu ab key|check rtu ab '' journal|check rtu ab key ''|check dnp33 ab key journal|checks rtu ab key journal
live|live rtu ab key journal|live seal rtu ab key|live seal rtu ab key ''|live seal rtu ab '' journal|live seal rtu key ab journal
live init rtu ab key journal|live seal rtu ab key journal x
live line rtu ab key sent|live line rtu ab key sent ''|live line rtu ab key '' got|live line rtu ab '' sent got|live line rtu ab key sent got x
live lines rtu ab key sent got|live line rtu key ab sent got
replay rtu ab|replay rtu ab ''|replay dnp ab key|replay rtu AB key|replay rtu ab key journal
init|init ''|init journal|init rtu ab ''|init dnp ab journal|init rtu AB journal
audit rtu ab key 0 281474976710656|audit rtu ab key 281474976710656 0|audit rtu ab key 18446744073709551616 0|audit rtu ab key 00 0
audit rtu ab key +1 0|audit rtu ab '' 0 0|audit rtu ab key 0|audit rtu ac key 0 0
trial rtu 00 1|trial rtu 07 1|trial rtu +7 1|trial rtu -7 1|trial rtu '' 1|trial rtu 0x7 1|trial rtu 4294967296 1|trial rtu 7 0
trial rtu 7 10001|trial rtu 7 01|trial rtu 7 ''|trial rtu 7 100000000000
poll rtu 4294967296 1|poll rtu 7 0|poll rtu 7 10001|poll rtu 07 1
two_wire rtu ba asks 4 3 key|two_wire rtu ba asks 4 5 key|two_wire rtu ba asks 1000001 4 key|two_wire rtu ba answers 22 4 key
two_wire rtu24 ba answers 28 4 key|two_wire rtu ba answers 023 4 key|two_wire rtu ba ask 23 4 key|two_wire rtu ba answers 23 4
"""

# The words of each command, which are said of words that begin with its name and fit no command. For other words the commands are said.
USAGES = ("read P", "init P DIR JOURNAL", "seal P DIR KEY JOURNAL", "check P DIR KEY JOURNAL", "live seal P DIR KEY JOURNAL",
          "live check P DIR KEY JOURNAL", "live line P DIR KEY SENT GOT", "space P", "replay P DIR KEY", "audit P DIR KEY F G [LEAST..MOST] [spaced]", "duplex P DIR KEY",
          "two_wire P DIR SIDE WINDOW PAUSE KEY", "trial P SEED COUNT", "poll P SEED COUNT", "vectors", "help", "version")
COMMANDS = "read init seal check live space replay audit duplex two_wire trial poll vectors help version"

# Words that fit a command, over an input that it takes. What they write isn't looked at.
RIGHT = """
help|--help|-h|version|--version|vectors|read rtu|read dnp3|space dnp24|trial rtu 0 1|trial rtu 4294967295 1|trial rtu 10 9|trial rtu 7 10000
poll rtu 4294967295 2|poll dnp24 0 2
"""

# The same over two recordings in which nothing is.
RIGHT_OVER_TWO = """
replay rtu ab KEY|replay dnp24 ba KEY|duplex dnp24 ba KEY|two_wire rtu ba answers 23 4 KEY|two_wire dnp24 ba answers 29 30 KEY
two_wire dnp24 ba asks 4 4 KEY|two_wire dnp24 ba asks 1000000 1000000 KEY
"""

# How many frames a long recording has.
LONG = 2000


def all_words(text):
    """The words of each command in a text."""
    lines = [each for line in text.strip("\n").split("\n") for each in line.split("|")]
    return [["" if word == "''" else word for word in line.split()] for line in lines]


def rows(text):
    """The rows of a text: for each the words, the journal, and the lines by their first letter."""
    found = []
    for line in text.splitlines():
        if line.startswith("$"):
            found.append({"$": line[2:].split(), "@": [], "<": [], ">": [], "!": [], "=": 0})
        elif line.startswith("@"):
            link, direction, before, after = line[2:].split()
            found[-1]["@"].append(((link, direction), int(before), int(after)))
        elif line.startswith("="):
            found[-1]["="] = int(line[2:])
        elif line and not line.startswith("#"):
            found[-1][line[0]].append(line[2:])
    return found


def text_of(lines):
    return "".join(line + "\n" for line in lines)


class Runs:
    def __init__(self, program, folder):
        self.program, self.folder, self.made, self.wrong = program, folder, 0, 0
        self.key, self.journal, self.got = (os.path.join(folder, name) for name in ("key", "journal", "got"))
        with open(self.key, "w") as file:
            file.write(KEY)

    def run(self, words, text):
        """The exit status, the output and the log of a run."""
        words = [{"KEY": self.key, "JOURNAL": self.journal, "GOT": self.got}.get(word, word) for word in words]
        ran = subprocess.run([self.program] + words, cwd=self.folder, input=text, capture_output=True, text=True)
        return ran.returncode, ran.stdout, ran.stderr

    def see(self, words, found, wanted):
        """Notes whether a run left what is wanted."""
        self.made += 1
        if found != wanted:
            self.wrong += 1
            print("WRONG: %s\n    left   %s\n    wanted %s" % (" ".join(words), found, wanted), flush=True)

    def put_journal(self, link, before, path=None):
        """Makes the journal of a link, or an old one, with this number."""
        slots = old_slot_of(before) + bytes(16 + 48) if link[0] == "old" else bytes(32) + slot_of(before, link) + bytes(24)
        with open(path or self.journal, "wb") as file:
            file.write(slots)

    def compare(self, row):
        """Runs a row, and compares what it leaves."""
        journals = list(zip(row["@"], (self.journal, self.got)))
        for (link, before, _), path in journals:
            self.put_journal(link, before, path)
        found, log = self.run(row["$"], text_of(row["<"])), text_of(row["!"])
        if log.endswith("..\n") and found[2].count("\n") == 1 and found[2].startswith(log[:-3]):
            log = found[2]
        floors = tuple(floor_of(path, ("rtu" if link[0] == "old" else link[0], link[1])) for (link, _, _), path in journals)
        wanted = tuple(after for (_, _, after), _ in journals)
        self.see(row["$"], found + floors, (row["="], text_of(row[">"]), log) + wanted)

    def refuse(self, words):
        """Checks that words fit no command, and that the words of the command that was meant are said."""
        meant = [usage for usage in USAGES if words and usage.split()[0] == words[0]]
        said = "".join("usage: link_replay %s\n" % usage for usage in meant) or "commands: %s\n" % COMMANDS
        self.see(words, self.run(words, "+00\n"), (2, "", "fault: usage\n" + said))

    def show(self):
        """Checks that the page of `help` has a line for each command, with its words."""
        page = self.run(["help"], "")[1].split("\n")
        lacking = [usage for usage in USAGES if not any(line.startswith("  %s  " % usage) for line in page)]
        self.see(["help"], lacking, [])

    def take(self, words, text):
        """Checks that words fit a command, which is done and has no note."""
        found = self.run(words, text)
        self.see(words, found, (0, found[1], ""))

    def go_on(self):
        """Replays and audits many frames: each is sealed, passes, and is read 18 ticks later."""
        line = "+01030000000ac5cd\n-40\n" * LONG
        self.put_journal(("rtu", "ab"), 0)
        link = self.run(["seal", "rtu", "ab", "KEY", "JOURNAL"], line)[1]
        frames = [(number + 1, 48 * number) for number in range(LONG)]
        told = ["%s %d at %d 01030000000ac5cd" % (verb, number, start) for verb in ("sealed", "passed") for number, start in frames]
        told += ["read at %d 01030000000ac5cd" % (start + 18) for _, start in frames]
        words = ["replay", "rtu", "ab", "KEY"]
        self.see(words, self.run(words, line + "%\n" + link), (0, text_of(told), ""))
        words = ["audit", "rtu", "ab", "KEY", "0", "0"]
        session = "%\n".join([line, link, "-18\n" + line + "-400\n"])
        self.see(words, self.run(words, session), (0, "audit clean sealed %d passed %d read %d\n" % (LONG, LONG, LONG), ""))


def main():
    with tempfile.TemporaryDirectory(prefix="rows.") as folder:
        runs = Runs(built.program(sys.argv, 1), folder)
        for row in rows(ROWS):
            runs.compare(row)
        for words in all_words(WRONG):
            runs.refuse(words)
        for words in all_words(RIGHT):
            runs.take(words, "+00\n")
        for words in all_words(RIGHT_OVER_TWO):
            runs.take(words, "%\n")
        runs.show()
        runs.go_on()
        left = sorted(os.listdir(folder))
        runs.see(["the folder"], left, ["got", "journal", "key"])
    print("%d runs, %d wrong" % (runs.made, runs.wrong))
    return 1 if runs.wrong else 0


if __name__ == "__main__":
    sys.exit(main())
