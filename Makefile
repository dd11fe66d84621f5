# One way in to the commands of this repository: each target is one of them, which answers --help.
.POSIX:
.PHONY: help test relay ask listing bench interop compare c rust declared examples inputs plans

## make NAME runs the command beside it; the command itself answers --help and takes arguments
##
##   NAME      command           takes       does
help:
	@sed -n 's/^## \{0,1\}//p' Makefile

##   relay     ./run relay       seconds *   shows a packet of its own go over a bad line
relay:
	@./run relay <crates/relay/stdin

##   listing   ./run listing     seconds *   lists a packet of its own with its items
listing:
	@./run listing <crates/listing/stdin

##   ask       ./run ask         seconds *   answers questions on standard input, one a line
ask:
	@./run ask

##   plans     tools/plans       seconds *   prints what plans cost and stand, and draws docs/plans.svg
plans:
	@tools/plans

##   c         c/run             seconds *   calls the card from C: cuts a packet and rebuilds it
c:
	@c/run

##   rust      rust/run          seconds *   calls the card from Rust: the same
rust:
	@rust/run

##   test      .ci/run           minutes *   the gate: proves and tries everything
test:
	@.ci/run

##   inputs    tests/inputs      minutes     runs the programs on broken inputs
inputs:
	@tests/inputs

##   declared  tests/declared    a second    compares how Rattle, C and Rust declare the calls
declared:
	@tests/declared && echo alike

##   examples  tests/examples    a second    compiles the examples of the C headers
examples:
	@tests/examples

##   compare   rust/compare/run  minutes     compares the card with one in plain Rust, at random
compare:
	@rust/compare/run

##   interop   interop/run       seconds *   lets tshark read what the card sends
interop:
	@interop/run

##   bench     bench/run         minutes     measures the card beside libfec
bench:
	@bench/run

##
## * and longer the first time: what is not proved yet is proved first, and says how far it is.
## Each needs rt, the Rattle kit's command (kit.txt names the kit), but declared and examples; c,
## examples and bench need a C compiler, bench libfec too, rust and compare cargo, interop tshark.
