# Ropepeach: a proved ResourceSync source.
#   make demo     runs the main job once, on examples/first.script
#   make test     passes every test and every proof (the merge gate), with the must-fail edits of what changed; as root it first installs
#                 what packages.txt has and this machine has not (SETUP=no leaves the machine alone)
#   make quick    looks in minutes at what a change since the last commit touches (CONTRIBUTING.md)
#   make setup    installs what packages.txt has and this machine has not, as root
#   make edits    tries every must-fail edit, or those of CRATES="rs_io rs_time", and records which were all refused
#   make build    builds the proved program
#   make statement  prints all that each promise means, definition by definition (of those with PROMISE="headline" in the title), and
#                 writes it as one page, out/statement.html
#   make crash    stops the program at each of its calls on a file, thousands of images over eleven sessions ('make test' has a short form)
#   make hostile  gives the program DISKS=100000 disks with bits turned, fields at their edges, cut, spliced, then LINES=100000 lines of
#                 scripts and REQUESTS=100000 requests of that kind ('make test' has short forms)
#   make ends     makes each read and each write of scripts and requests fail in turn ('make test' has a short form)
#   make memory   refuses each growth of memory of the program in turn, in scripts and in requests
#   make powercut cuts the power below ext4, XFS and btrfs, on a device whose writes are logged, IMAGES=20000 images (as root, with FUSE and
#                 loop devices; 'make test' has a short form)
#   make snapshots  opens snapshots that are taken while a source is put to (as root, with loop devices; 'make test' has it not)
#   make long     runs all tests in their long forms (`pytest --long`) and tries all must-fail edits
#   make rust     writes the sources as plain Rust, a Cargo workspace and its tarball, into out/rust (rust/README.md)
#   make twins    gives the proved program and the plain one the same CASES=1000000 lines, disks, requests and command lines
#   make planted  plants each bug of tests/planted, in the plain program and in `ropepeach`: the tests that it names have to fail ('make test'
#                 draws some; PLANTED=TEXT chooses by a text)
#   make pictures draws the pictures of docs/pictures anew, from runs of the proved program
#   make bench    measures speed (docs/keepers/BENCH.md has figures; it needs wrk, lighttpd and python3-lmdb of Debian)
#   make bench-more  measures what changes seldom: digests, `verify`, the writing of lists, and list makers that are killed (it needs jekyll)
#   make bench-two  measures the proved program and the plain one beside LMDB, SQLite and lighttpd, after `make twins`
#   make bench-month  measures what fill, mirror and the start of the command take of a processor, beside rsync and wget
#   make proof-times  tells what each part of the proofs of CRATES="rs_io rs_time" took
#   make help     prints these lines, and those of operations/Makefile: the targets of what stands around the program

SCRIPT ?= examples/first.script
BASE ?= http://127.0.0.1:8080
RT ?= rt
CRATES ?=
PROMISE ?=
PROGRAM ?= crates/rs_source/out/rs_source
# How many go side by side: checks of edits, if not as many as there are processors and memory for. (`make replicas` reads it too.)
LANES ?=

# Each target is told above, or in operations/Makefile; none is a file.
.PHONY: $(shell sed -n 's/^.   make \([a-z-]*\) .*/\1/p' Makefile operations/Makefile)

help:
	@sed -n 's/^#   //p' Makefile operations/Makefile

# Quick, and no more than an unproved build.
demo:
	@RT=$(RT) python3 examples/demo $(SCRIPT) $(BASE)

test:
	@python3 -m gate.gate

# What a change since the last commit touches: texts, types, layout, the statement, changed crates, checks.
quick:
	@python3 -m gate.quick

# All tests in their long forms, and all must-fail edits. A setting of a test goes behind `make`, as DISKS=1000.
long: build
	@python3 -m rust.build
	@python3 -m gate.tested --long
	@python3 -m gate.edits.edits

# What the tests use of Debian (as root).
setup:
	@python3 -m tests.house.setup

# What they stand on is proved and built first, over what earlier checks kept.
edits:
	@python3 -m gate.edits.edits --record $(if $(LANES),--jobs $(LANES)) $(CRATES)

# The proved program, its crates side by side; its path is printed last.
build:
	@python3 -m gate.build
	@python3 -B -m operations.package.stamp crates/rs_source/out/rs_source

# It reads texts alone: nothing is built.
statement:
	@python3 -m statement.statement --html out/statement.html
	@python3 -m statement.statement --promise "$(PROMISE)"

bench: build
	python3 -m bench.run
	python3 -m bench.many
	python3 -m bench.dropping
	python3 -m bench.copying
	python3 -m bench.grouping
	python3 -m bench.loopback
	/usr/bin/python3 -m bench.durable

bench-more: build
	python3 -m bench.verify
	python3 -m bench.lists
	python3 -m bench.sitemaps

bench-two: build
	/usr/bin/python3 -m bench.two

bench-month: build
	python3 -m bench.month

proof-times:
	@python3 -m bench.proofs $(CRATES)

# The long forms of the tests in these folders.
ends crash hostile powercut: build
	@python3 -m gate.tested --long tests/$@

memory snapshots: build
	@python3 -m gate.tested --long tests/system/test_$@.py

twins planted: build
	@python3 -m rust.build --no-tests
	@python3 -m gate.tested --long tests/$@

rust:
	@python3 -m rust

pictures: build
	@python3 -m tests.pictures --draw
	@python3 -m operations.tests.mirror.pictures --draw
	@python3 -m operations.tests.page --pictures

# What stands around the program: tools, units, the site, packages, and their checks.
include operations/Makefile
