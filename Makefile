# The commands of the README, the library, its installing and its packages, the measurements, tries from outside, the hosts of the
# library, and the suite. The first sentence above a target is its line in make help.
.PHONY: check unproved unproved-program unproved-fast unproved-fast-program run prove show vshow look-test look-picture show-check test help library install uninstall dist deb dist-check bench fuzz broken trouble stops embed linux linux-test linux-picture stress doors peer mutants matrix planted vhost vhost-needs vhost-program vhost-stress

TRACE ?= examples/two-guests.trace
IMAGE ?=
SAVE ?=
N ?= 1000
FROM ?= 0
# A word, as UNPROVED=1, has bench, fuzz, broken, trouble, stops, doors, linux and linux-test take what packaging/unproved builds,
# without a proof.
UNPROVED ?=
PREFIX ?= /usr/local
LIBDIR ?= $(PREFIX)/lib
INCLUDEDIR ?= $(PREFIX)/include

PROGRAM := $(CURDIR)/$(if $(UNPROVED),out/vreplay-unproved,crates/vreplay/out/vreplay)
BUILT := $(if $(UNPROVED),unproved-program)

# Replays TRACE=FILE over IMAGE=FILE, by the proved program if it is built, else by one without proofs. SAVE=FILE gets the image's bytes
# afterwards. Without IMAGE there are eight sectors of zeros.
run:
	@packaging/replay "$(TRACE)" "$(IMAGE)" "$(SAVE)"

# Proves what the program stands on, builds it, and replays TRACE by it. The first call takes
# some 35 minutes of processor time, a later one seconds; it shows how far it is.
prove:
	@packaging/replay --prove "$(TRACE)" "$(IMAGE)" "$(SAVE)"

# Says in the standard's words what happens in TRACE, and what its drivers do wrong; PAGE=FILE gets it as a page. IMAGE=FILE is an
# image to replay it over.
show: vshow
	@crates/show/out/vshow "$(TRACE)" $(if $(IMAGE),"$(IMAGE)") $(if $(PAGE),--page "$(PAGE)")

# Proves and builds vshow.
vshow:
	@packaging/progress show vshow crates/show/out/run.log run -- ../../examples/broken-driver.trace
	@cp --remove-destination crates/show/out/show crates/show/out/vshow

# Opens pages of vshow in a headless Chromium, and compares what they show with the text; it wants chromium and python3.
look-test: vshow
	@crates/show/look/test crates/show/out/vshow

# Draws the README's picture of vshow's page anew.
look-picture: look-test
	@cp crates/show/look/out/broken-driver.png examples/broken-driver.png

# Compares what vshow says with a model, over every scenario and N fuzzed traces from the seed FROM on. Before that it
# tries each rule on a driver's mistakes, over a trace that breaks it and one near it that doesn't.
show-check: vshow
	@crates/show/look/rules crates/show/out/vshow
	@crates/show/look/check --fuzz $(N) --from $(FROM) crates/show/out/vshow

# What a contributor runs, in minutes: all that can be tried of a change without proving what stands above it. A line for each
# check; .ci/check --only NAME makes one.
check:
	@.ci/check

# Builds the program and the library for C without a proof, as out/vreplay-unproved and out/libkalyubos-unproved.a.
unproved: unproved-program
	@packaging/unproved board_ffi

unproved-program:
	@packaging/unproved vreplay

# The same, which the compiler optimizes more.
unproved-fast: unproved-fast-program
	@packaging/unproved --fast board_ffi

unproved-fast-program:
	@packaging/unproved --fast vreplay

# The gate: every proof and the programs. It shows how far it is.
test:
	@.ci/gate

# Lists these commands.
help:
	@awk '/^#/ { text = text substr($$0, 2); next } /^[a-z-]+:/ && text { sub(/:.*/, ""); sub(/\. .*|\.$$/, "", text); \
		printf "make %-15s%s\n", $$0, text } { text = "" }' $(firstword $(MAKEFILE_LIST))

# Proves and builds the library for C.
library:
	@packaging/build

# Proves and builds the library for C if a source is newer, and installs it below PREFIX with its header, kalyubos.pc and pages.
# DESTDIR stands before each path.
install: packaging/out/libkalyubos.a
	@DESTDIR="$(DESTDIR)" LIBDIR="$(LIBDIR)" INCLUDEDIR="$(INCLUDEDIR)" packaging/install "$(PREFIX)"

packaging/out/libkalyubos.a: crates.txt crates/board_ffi/c_text/answer.c crates/board_ffi/c_text/fault_text.c examples/embed/support/heap.c packaging/archive \
		$(shell find crates -name out -prune -o -name '*.rt' -print -o -name '*.h' -print)
	@packaging/build

# Builds vhost/out/kalyubos-vhost, which serves a disk to QEMU by vhost-user, over the library for C. It wants liburing-dev, libnbd-dev
# and libseccomp-dev.
vhost-program: vhost-needs $(if $(UNPROVED),,packaging/out/libkalyubos.a)
	@$(if $(UNPROVED),packaging/unproved --fast board_ffi)
	@$(MAKE) --no-print-directory -C vhost LIBRARY=$(CURDIR)/$(if $(UNPROVED),out/libkalyubos-unproved.a,packaging/out/libkalyubos.a)

vhost-needs:
	@$(MAKE) --no-print-directory -s -C vhost needs

# Tries kalyubos-vhost under sanitizers, over the library without a proof: N hostile messages and N changes of rings (COUNT=N, a million), and
# 100 kills. A disk that hangs is tried where the user may mount file systems; it wants what make vhost-program wants.
vhost-stress:
	@vhost/tests/gate-run --stress

# Boots Debian's Linux in QEMU over what make vhost-program built, in six ways; it wants qemu-system-x86_64, busybox, cpio and fio. RUNS="verify
# migration" chooses some, and RUNS="restart --kills 100" kills the program so often.
vhost:
	@vhost/qemu/run vhost/out/kalyubos-vhost $(RUNS)

# Removes what make install installed.
uninstall:
	@DESTDIR="$(DESTDIR)" LIBDIR="$(LIBDIR)" INCLUDEDIR="$(INCLUDEDIR)" packaging/install --remove "$(PREFIX)"

# Packs what is built, the suite and the pages into an archive in packaging/out, for users without the toolchain. make
# library, make prove and make vshow build what it needs; vshow is left out if it isn't built.
dist:
	@packaging/release dist

# Packs the same into Debian packages, by dpkg-deb.
deb:
	@packaging/release deb

# Makes the archive and the packages twice, compares them byte for byte, checks the links of their pages, and has lintian judge the
# packages where it is installed.
dist-check:
	@packaging/release check --judge

# Measures the built program over generated traces.
bench: $(if $(UNPROVED),unproved-fast-program)
	@bench/run --program "$(PROGRAM)"

# Replays N traces of hostile and sane guests on the built program, from the seed FROM on.
fuzz: $(BUILT)
	@fuzz/run $(N) --from $(FROM) --program "$(PROGRAM)" --in-place

# Runs the built program on thousands of broken traces.
broken: $(BUILT)
	@tests/program/broken --program "$(PROGRAM)"

# Runs the built program with wrong arguments, closed streams, odd files, large guests, and failing system calls and memory. It also replays
# N traces in place over a file of which one call goes wrong, from the seed FROM on.
trouble: $(BUILT)
	@tests/program/calls --program "$(PROGRAM)"
	@tests/program/streams "$(PROGRAM)"
	@tests/program/files "$(PROGRAM)"
	@tests/program/places --program "$(PROGRAM)"
	@tests/program/large --program "$(PROGRAM)"
	@tests/power/trouble $(N) --from $(FROM) --program "$(PROGRAM)"

# Tries power losses: of N traces in place and N boots of Linux, from the seed FROM on. It makes the files that a stop may leave,
# and looks in them for what the guests were told. The boots want what make linux builds.
stops: $(BUILT)
	@tests/power/stops $(N) --from $(FROM) --program "$(PROGRAM)"

# Builds the library and the example hosts in C and Rust, runs them, and compares what they print. It leaves out hosts whose
# tools aren't installed.
embed:
	@examples/embed/run

# Boots Linux on the board: two guests, their consoles side by side; examples/linux has more ways. GUEST=0 shows one of them,
# INTERACTIVE=1 gives a person the console of guest 0, RECORD=FILE writes what the guests did as a trace, DISK=FILE keeps
# guest 0's disk, IMAGE=FILE has both disks in place, DISKS=hosted has the host serve each from a file, and SAVE_GUEST=FILE
# saves guest 0, which RESUME_GUEST=FILE goes on with. With DEVICES=1 both have an entropy device, a network card and two more disks.
linux:
	@examples/linux/run

# Boots Linux in many ways, and prints a line for each check.
linux-test: $(BUILT)
	@examples/linux/test

# Boots Linux, and draws both consoles as examples/linux/boot.svg.
linux-picture:
	@examples/linux/picture

# Calls the library from C ten million times at random, under a heap that refuses; also with hosted disks, from several threads, and
# for guests that run on.
stress:
	@examples/embed/stress-run

# Runs the test suite on what is built: the program, the program in place, the C library, and the library with hosted disks.
doors: $(if $(UNPROVED),unproved)
	@crates/conformance/in-process/doors $(if $(UNPROVED),--unproved)

# Runs the test suite on QEMU's devices, and compares the differences with a table; it wants qemu-system-arm.
peer:
	@crates/conformance/run-on --quiet --jobs 3 --adapter --in-place - --table crates/conformance/peers/QEMU.md crates/conformance/peers/qemu

# Makes wrong devices out of a small model, and checks that each fails the scenario that is meant for it.
mutants:
	@crates/conformance/mutants/run

# Has the prover judge the wrong bodies of crates/*/planted.edits, which it must refuse by what each names: when a contract changed. It
# wants the libraries that make test leaves.
planted:
	@.ci/planted

# Makes the scenarios of the suite that are made, and compares their sums with those checked in. DIFF=1 shows what differs from an earlier commit.
matrix:
	@crates/conformance/matrix/make $(if $(DIFF),--diff)
