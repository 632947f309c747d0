# `make` alone prints what there is.
.PHONY: help gate run try tried check lamp tests deb wrong field bench figures

help:
	@echo "make lamp     a service, a lamp and a mail change, with the built program, or else with one compiled in a minute"
	@echo "make try      compiles notifyd without a proof (crates/notifyd/out/notifyd.tried), and runs one SUBSCRIBE"
	@echo "make tried    compiles it so, and runs nothing"
	@echo "make check    compiles it so, and tries it from outside: for who changes a test or a script, in some minutes"
	@echo "make run      proves and builds crates/notifyd/out/notifyd, and runs it: an hour or more"
	@echo "make gate     proves and tests everything, as a landing does: one to three hours on four processors"
	@echo "make tests    tries the built program from outside, as the gate does after its proofs"
	@echo "make deb      makes a Debian package of the built program"
	@echo "make wrong    for a release: tries all wrong bodies (make wrong CRATES=\"scripts refer\" tries those of two crates)"
	@echo "make field    tries the built program with real peers on this machine; field/run says what it needs"
	@echo "make bench    measures it beside an echo; bench/service says what it needs"
	@echo "make figures  draws the pictures of docs/measurements.md from its tables, and measures what they have anew"

gate:
	@.ci/run

run:
	@.ci/program
	@crates/notifyd/out/notifyd < crates/notifyd/stdin

TRIED = crates/notifyd/out/notifyd.tried

try: tried
	@$(TRIED) < crates/notifyd/stdin
	@echo "A service, a lamp and a voicemail, in three windows (make lamp shows them in one):"
	@echo "  $(TRIED) serve alice"
	@echo "  contrib/lamp 127.0.0.1:5060 alice"
	@echo "  $(TRIED) tell MAIL alice voice 2 8 0 2"

tried:
	@.ci/tried

check: tried
	@tests/run --tried

lamp:
	@.ci/lamp

tests:
	@tests/run

deb:
	@.ci/deb

wrong:
	@if [ -n "$(CRATES)" ]; then .ci/wrong $(CRATES); else .ci/wrong; status=$$?; .ci/run-refuses && exit $$status; fi

field:
	@field/run

bench:
	@bench/service

figures:
	@bench/draw
	@bench/figures
