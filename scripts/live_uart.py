#!/usr/bin/env python3
"""Runs the adapter bridge/tty_ticks.c over the serial ports of a virtual machine, with the driver that a real 16550 has.

    python3 scripts/live_uart.py [--over PROGRAM] [--kernel FILE] [BAUD..]

The machine has two serial ports, which a program on this one joins as two wires would: each byte takes its tick (bridge/wire.c). In the
machine two adapters stand back to back on these ports, and bridge/uart_polls.c polls a device through them. Behind each adapter
is PROGRAM, which has the words `live line P DIR KEY SENT GOT` and `init P DIR JOURNAL`. Without it each tick is told again 18 ticks
later, and a request has three silent ticks inside, which must come through the ports as three: on a machine that is busy an emulated
port can't keep them, so this isn't judged there. BAUD is 9600 if none is given.

It also looks at what the driver makes of the adapter's words: rate, parity and its check, RTS and DTR, bytes that are handed on at once
(`rx_trig_bytes`), a request for RS-485 that this driver refuses, and, with bytes in blocks of 8 again, what is lost.

It needs qemu-system-x86_64, busybox (static), cpio, a C compiler that links statically, and a kernel with a driver for 16550s,
which FILE or LIVE_UART_KERNEL names; without them the newest of /boot is taken. (`dpkg-deb -x` unpacks one from a package
linux-image-*-cloud-amd64.) If one of them is missing it says so, runs nothing and ends with 2. It ends with 1 if something is wrong. The
machine is emulated, so its times are worse than those of a real one. It is no part of the gate.
"""
import glob, os, re, shutil, subprocess, sys, tempfile

import bridge_build

TICK, PATIENCE, POLLS = 11, 240, 40
NEEDED = {"qemu-system-x86_64": "qemu-system-x86", "busybox": "busybox-static", "cpio": "cpio"}
# What a line of this script's programs, and of its commands in the machine, begins with.
OURS = re.compile(r"(?:.*?)uart: (.*)")

INIT = r"""#!/busybox sh
/busybox mkdir -p /proc /sys /dev /tmp
/busybox mount -t proc proc /proc; /busybox mount -t sysfs sysfs /sys; /busybox mount -t devtmpfs dev /dev
/busybox mkdir -p /dev/pts; /busybox mount -t devpts pts /dev/pts
say() { echo "uart: $*"; }
trigger() { /busybox cat /sys/class/tty/ttyS1/rx_trig_bytes; }
say "handed on in blocks of $(trigger) before"
/tty_ticks -b 9600 -P even /dev/ttyS1 /dev/ttyS2 -- /busybox sleep 3 2> /tmp/errors &
/busybox sleep 1.5
say "settings $(/busybox stty -F /dev/ttyS1 -a | /busybox tr '\n;' '  ')"
say "lines $(/busybox grep '^1:' /proc/tty/driver/serial)"
say "handed on in blocks of $(trigger)"
wait
/tty_ticks -b 9600 -P even -R /dev/ttyS1 /dev/ttyS2 -- /busybox true 2> /tmp/errors
say "RS-485 refused with $?: $(/busybox cat /tmp/errors)"
POLL
/busybox poweroff -f
"""
# What runs the polls, at a rate. `blocks` sets the ports back to blocks of 8 once the adapters have begun.
RUN = r"""
say "polls in %(blocks)s"
%(late)s
/busybox rm -f *.said
/uart_polls polls %(baud)d %(count)d %(trailer)d %(a)s = %(b)s
wait
/busybox cat *.said | while read line; do say "$line"; done
"""
LATE = "(/busybox sleep 0.8; for p in 1 2; do echo 8 > /sys/class/tty/ttyS$p/rx_trig_bytes; done) &"


def kernel():
    """The path of a kernel for the machine, or None."""
    return os.environ.get("LIVE_UART_KERNEL") or next(iter(sorted(glob.glob("/boot/vmlinuz-*"))[-1:]), None)


def lacking(kernel):
    """What isn't there, as lines, or none."""
    found = ["%s isn't installed: apt-get install %s" % (name, package) for name, package in NEEDED.items() if not shutil.which(name)]
    if not kernel:
        found.append("no kernel is named by --kernel or LIVE_UART_KERNEL, and none is in /boot")
    return found


def compiled(name, folder):
    path = os.path.join(folder, name)
    bridge_build.ran([bridge_build.compiler(), *bridge_build.FLAGS, "-static", os.path.join(bridge_build.BRIDGE, name + ".c"), "-o", path])
    return path


def libraries_of(program):
    """The files that a program loads, none if it is linked statically."""
    said = subprocess.run(["ldd", program], capture_output=True, text=True)
    return re.findall(r"(/\S+) \(0x", said.stdout) if said.returncode == 0 else []


def words_of(baud, end, over):
    """The words of an adapter and its program in the machine. `end` is a or b."""
    port, way = {"a": ("/dev/ttyS1", "ab"), "b": ("/dev/ttyS2", "ba")}[end]
    words = ["/tty_ticks", "-b", str(baud), "-P", "none", "-S", "2", "-H", "20", "-D", "60", "%d", port, "--"]
    words += ["/program", "live", "line", "rtu", way, "/key", "/tmp/%s.sent" % end, "/tmp/%s.got" % end] if over else ["/uart_polls", "later", "18"]
    return " ".join(words)


def script_of(rates, over):
    made = [" ".join(["/program", "init", "rtu", way, "/tmp/" + name]) for name, way in
            (("a.sent", "ab"), ("a.got", "ba"), ("b.sent", "ba"), ("b.got", "ab")) if over]
    runs = [RUN % {"baud": baud, "blocks": blocks, "late": LATE if blocks == "blocks" else "", "count": POLLS,
                   "trailer": 0 if over else 14, "a": words_of(baud, "a", over), "b": words_of(baud, "b", over)}
            for baud in rates for blocks in ("whole", "blocks")]
    return INIT.replace("POLL", "\n".join(made + runs))


def machine(folder, kernel, rates, over):
    """Builds the machine's files into a folder."""
    root = os.path.join(folder, "root")
    os.makedirs(root)
    shutil.copy(shutil.which("busybox"), os.path.join(root, "busybox"))
    for name in ("tty_ticks", "uart_polls"):
        compiled(name, root)
    compiled("wire", folder)
    if over:
        shutil.copy(over, os.path.join(root, "program"))
        for path in libraries_of(over):
            os.makedirs(os.path.join(root, os.path.dirname(path)[1:]), exist_ok=True)
            shutil.copy(path, os.path.join(root, path[1:]))
        with open(os.path.join(root, "key"), "w") as file:
            file.write("%s\n" % os.urandom(16).hex())
    with open(os.path.join(root, "init"), "w") as file:
        file.write(script_of(rates, over))
    os.chmod(os.path.join(root, "init"), 0o755)
    names = "\n".join(os.path.relpath(path, root) for path in glob.glob(os.path.join(root, "**"), recursive=True))
    with open(os.path.join(folder, "initrd"), "wb") as file:
        subprocess.run(["cpio", "-o", "-H", "newc", "--quiet"], cwd=root, input=names.encode(), stdout=file, check=True)
    shutil.copy(kernel, os.path.join(folder, "kernel"))


def started(folder, baud):
    """Runs the machine, and returns the lines of its programs."""
    sockets = [os.path.join(folder, name) for name in ("one", "other")]
    words = ["qemu-system-x86_64", "-accel", "tcg", "-cpu", "max", "-m", "256", "-nographic", "-no-reboot", "-nodefaults",
             "-kernel", os.path.join(folder, "kernel"), "-initrd", os.path.join(folder, "initrd"),
             "-append", "console=ttyS0 panic=-1 quiet", "-serial", "stdio"]
    for name, path, base, irq in (("a", sockets[0], "0x2f8", "3"), ("b", sockets[1], "0x3e8", "5")):
        words += ["-chardev", "socket,id=%s,path=%s,server=on,wait=off" % (name, path),
                  "-device", "isa-serial,chardev=%s,iobase=%s,irq=%s" % (name, base, irq)]
    wire = subprocess.Popen([os.path.join(folder, "wire"), *sockets, str(TICK * 10 ** 9 // baud)])
    try:
        ran = subprocess.run(words, stdin=subprocess.DEVNULL, capture_output=True, text=True, errors="replace", timeout=PATIENCE)
    finally:
        wire.kill()
        wire.wait()
    return [found[1].strip() for found in map(OURS.match, ran.stdout.splitlines()) if found], ran.stdout


def judged(said, whole, baud, over):
    """Prints what is right and what is wrong, and returns how much is wrong."""
    wrong = 0

    def see(holds, what):
        nonlocal wrong
        wrong += not holds
        print("%s %s" % ("right:" if holds else "WRONG:", what), flush=True)

    def line(begin):
        return next((each for each in said if each.startswith(begin)), "")

    settings, blocks = line("settings"), [each for each in said if each.startswith("handed on")]
    kept = ("speed 9600 baud", " parenb", "-parodd", "cs8", "-cstopb", "-crtscts", " ignpar", " inpck", " ignbrk", "-ixon", "-ixoff")
    see(all(word in settings for word in kept), "rate, parity and its check: %s" % [word for word in kept if word not in settings])
    see("RTS" in line("lines") and "DTR" in line("lines"), "the port's lines: %s" % line("lines"))
    see(len(blocks) == 2 and blocks[1].endswith(" 1"), "bytes are %s" % ", then ".join(blocks))
    see(line("RS-485").startswith("RS-485 refused with 3"), line("RS-485"))
    begins = [place for place, each in enumerate(said) if each.startswith("polls in ")] + [len(said)]
    runs = [said[one + 1:other] for one, other in zip(begins, begins[1:])]
    see(len(runs) == 2 and all(any("requests of" in each for each in run) for run in runs), "two runs ended, at %d baud" % baud)
    for name, run in zip(("each byte at once", "in blocks of 8"), runs):
        print("       %s:\n           %s" % (name, "\n           ".join(each for each in run if not each.startswith((">", "<")))))
    for run in runs[:1]:
        answered = next((int(each.split(" came, ")[1].split()[0]) for each in run if " came, " in each), 0)
        see(answered >= POLLS // 2, "at least half of the polls were answered")
        gaps = [list(map(int, re.findall(r"\d+", each))) for each in run if each.startswith("link:")]
        pauses, others = sum(gap[0] for gap in gaps), sum(gap[1] for gap in gaps)
        what = "of %d pauses on the link %d came as they were, and there were %d other gaps" % (2 * POLLS, pauses, others)
        if over or os.getloadavg()[0] > os.cpu_count() / 2:
            print("       %s%s" % (what, "" if over else "; not judged, since this machine is busy"))
        else:
            see(pauses >= POLLS, what)
    if wrong:
        print(whole[-2000:])
    return wrong


def main(words):
    options = {"--over": None, "--kernel": kernel()}
    while len(words) > 1 and words[0] in options:
        options[words[0]], words = os.path.abspath(words[1]), words[2:]
    if not all(word in ("1200", "2400", "4800", "9600", "19200", "38400", "57600", "115200") for word in words):
        print(__doc__.strip(), file=sys.stderr)
        return 2
    missing = lacking(options["--kernel"])
    if missing:
        print("live_uart: skipped:\n%s" % "\n".join(missing), file=sys.stderr)
        return 2
    wrong = 0
    for baud in map(int, words or ["9600"]):
        with tempfile.TemporaryDirectory() as folder:
            machine(folder, options["--kernel"], [baud], options["--over"])
            wrong += judged(*started(folder, baud), baud, options["--over"])
    return 1 if wrong else 0


if __name__ == "__main__":
    try:
        sys.exit(main(sys.argv[1:]))
    except bridge_build.Missing as why:
        print("live_uart: skipped:\n%s" % why, file=sys.stderr)
        sys.exit(2)
    except subprocess.TimeoutExpired as late:
        sys.exit("live_uart: the machine didn't end in %d seconds:\n%s" % (PATIENCE, (late.stdout or b"")[-2000:]))
