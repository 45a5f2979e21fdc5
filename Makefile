# The toolchain's command is `rt`; README.md says where it comes from, and how long a first build takes.
PROGRAM = crates/mvopt/out/mvopt
EXAMPLE = register
PREFIX = /usr/local
DESTDIR =

# The crates that the program stands on, each behind those under it, and the program last.
CRATES := $(shell awk -F '[: ]+' '!/^(#|$$)/ { uses[$$1] = $$0 } \
	function visit(name, i, n, words) { \
		if (!(name in uses) || name in seen) return; \
		seen[name]; \
		n = split(uses[name], words); \
		for (i = 2; i <= n; i++) visit(words[i]); \
		print name \
	} \
	END { visit("mvopt") }' crates.txt)

SHELL = /bin/bash
.SHELLFLAGS = -euc
.ONESHELL:
.PHONY: demo docs index install look pictures test uninstall

# Runs the proved program on each example, compares what it writes with what stands beside the example, and checks the notes.
demo: $(PROGRAM)
	@made=$$(mktemp -d)
	trap 'rm -r "$$made"' EXIT
	for net in examples/*.mv; do
		name=$${net%.mv}
		echo "$$ mvopt opt $$net $$name.script"
		$(PROGRAM) opt $$net $$name.script > $$made/out 2> $$made/notes || { cat $$made/notes; exit 1; }
		cat $$made/notes $$made/out
		diff $$name.notes $$made/notes
		diff $$name.out $$made/out
		$(PROGRAM) check $$net $$made/notes 2> $$made/checked | diff - $$made/out
	done
	echo "each output and its notes are those of examples/, and a check of the notes writes the same"

# Runs the program on one example (make look EXAMPLE=spare for another) before any proof. Nothing is proved of what it shows.
look:
	@echo "running examples/$(EXAMPLE).mv, unproved (about a minute)"
	cd crates/mvopt
	rt try --data net=../../examples/$(EXAMPLE).mv --data script=../../examples/$(EXAMPLE).script -- opt net script

# Proves the crates that the program stands on by the gate, in a copy that has these alone, without tests and wrong bodies, and takes
# the program. The gate keeps what it proved on this machine, so only what changed since is proved again, here and by `make test`.
$(PROGRAM): crates.txt HANDLES $(foreach crate,$(CRATES),$(shell find crates/$(crate) -name out -prune -o -type f -print))
	@copy=$$(mktemp -d)
	trap 'rm -r "$$copy"' EXIT
	mkdir $$copy/crates
	cp HANDLES $$copy
	for crate in $(CRATES); do
		grep "^$$crate:" crates.txt >> $$copy/crates.txt
		cp -r crates/$$crate $$copy/crates
		rm -rf $$copy/crates/$$crate/{out,must-fail}
	done
	echo "proving the $(words $(CRATES)) crates of the program"
	(cd $$copy && rt ci) > $$copy/log 2>&1 || { cat $$copy/log; exit 1; }
	mkdir -p $(dir $@)
	cp $$copy/$@ $@

# The documents, the gate, and then the commands that documents show.
test:
	@tools/docs
	.ci/run
	tools/shown

# Compares the documents with the tree: what they name is there, links lead somewhere, sentences are short. Runs the commands
# that they show, where the program is built.
docs:
	@tools/docs
	tools/shown

# Writes the list of all definitions anew.
index:
	@tools/index > docs/index.md

# Draws what the examples become, and the register as it is read. It needs Graphviz.
pictures:
	@set -o pipefail
	for net in examples/*.out; do
		name=$$(basename $$net .out)
		tools/picture $$net | dot -Tsvg > examples/pictures/$$name.svg
	done
	tools/picture examples/register.mv | dot -Tsvg > examples/pictures/register-read.svg

# Places the program, its manual page, the examples and the completion for bash below PREFIX.
install:
	@[ -x $(PROGRAM) ] || { echo "no program yet: make demo proves and builds it"; exit 1; }
	tools/install $(PROGRAM) "$(DESTDIR)$(PREFIX)"

# Removes exactly what `make install` placed.
uninstall:
	@tools/install --remove "$(DESTDIR)$(PREFIX)"
