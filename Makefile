# try: builds the program without proving it, and runs one recorded session through it, or a capture of your own with
#      CAPTURE=FILE RATE=9600x11 P=rtu. Nothing is promised of that build, which is kept in out/try/.
# demo: proves the program crate by crate, runs it over a recorded exchange in both directions, and compares what it
#       writes with examples/expected/; then it writes a page that shows the exchange, out/timeline.html. JOBS is the most
#       crates that are proved side by side; without it, as many are as processors and memory allow.
# test: runs the gate. It proves each crate, tries the wrong bodies, and runs the tests and the program.
# check: runs the scripts that try the built program and are no part of the gate. LEVEL is quick, change or release.
#        BEFORE is the last version, a program or a checkout with one: the level release counts the instructions of both.
# reading: writes the page out/reading.md, with all definitions on which the headline rests, in order of use.
# live: shows mbpoll reading registers through four boxes, under attack. It needs mbpoll, libmodbus and a C compiler.
# live_uart: polls a device through two adapters over the serial ports of a virtual machine. Skipped without qemu or a kernel.
#            OVER is a program with the words `live line`; without it ticks are handed on as they come.
# claims: writes the page out/claims.md, with each public clause and its sentence, and fails if one has none.
.PHONY: try demo test check reading claims live live_uart

try:
	@python3 scripts/try.py $(if $(CAPTURE),$(foreach name,CAPTURE RATE P START FRAMES,$(if $($(name)),"$(name)=$($(name))")))

demo:
	@python3 scripts/demo.py $(JOBS)

test:
	@.ci/run

check:
	@python3 scripts/check.py $(LEVEL) $(if $(BEFORE),--before $(BEFORE))

reading:
	@python3 scripts/reading.py

claims:
	@python3 scripts/claims.py

live:
	@python3 scripts/live.py

live_uart:
	@python3 scripts/live_uart.py $(if $(OVER),--over $(OVER))
