# make run FOLDER=examples/first   proves, builds and runs the program on a folder of Luau modules
# make try FOLDER=examples/first   runs it at once, with checks at run time in the place of proofs
# make test                        the whole gate: proofs, edits that must be refused, tests and programs
# make build                       proves and builds, and leaves the program as bin/luau-nonstrict
# make install PREFIX=/usr/local   builds, and puts the program into PREFIX/bin

FOLDER ?= examples/first
PREFIX ?= /usr/local
PROGRAM := bin/luau-nonstrict
CRATE := crates/luau_nonstrict

.PHONY: run try build test install

# Shows the program's exit status. Where it isn't 0 make ends with a status of its own, which is 2.
run: build
	@./$(PROGRAM) "$(FOLDER)"; status=$$?; echo "exit status $$status" >&2; exit $$status

# The toolchain runs the program in a folder of its own, so it is given the whole path.
try:
	@echo "unproved: built with checks at run time, and nothing is proved" >&2
	@case "$(FOLDER)" in /*) folder="$(FOLDER)";; *) folder="$(CURDIR)/$(FOLDER)";; esac; \
	cd $(CRATE) && rt try -- "$$folder"

# The toolchain builds a program only to run it, so it is run once on a folder without modules.
build:
	@cd $(CRATE) && rt run -- "$(CURDIR)/.ci"
	@install -D -m 755 $(CRATE)/out/luau_nonstrict $(PROGRAM)

test:
	@.ci/run

install: build
	install -D -m 755 $(PROGRAM) "$(DESTDIR)$(PREFIX)/bin/luau-nonstrict"
