# Each target is a command that could be typed instead. NAME is a crate, as in `make check NAME=btf_ext`.
NAME ?=
# The table of the running kernel, or one of this repository.
FILE ?= $(firstword $(wildcard /sys/kernel/btf/vmlinux) crates/btf_examples/data/kernel.btf)
PREFIX ?= $(HOME)/.local

.PHONY: try list build objects quick test check mutants bench install

# Lists the types of a small table by btftool as it is compiled without proofs, which takes a minute.
try:
	cd crates/btftool && rt try -- little types < ../btf_examples/data/kernel.btf

# Lists the types of a table. The first time, this proves and builds btftool.
list:
	./btftool little types < $(FILE)

# Proves and builds btftool where it is older than its sources.
build:
	./btftool little copy < crates/btftool/stdin > /dev/null

# Proves and builds btfobj where it is older than its sources.
objects:
	./btfobj --version

# Tries rows and other tools over programs that are compiled without proofs: some minutes, and it proves nothing.
quick:
	scripts/quick

# Proves and tests everything: the merge gate.
test:
	bash .ci/run

# Proves one crate, from what earlier checks cached.
check:
	cd crates/$(or $(NAME),btf_plain) && rt check

# Tries the mutants of one crate, or without NAME those of all crates.
mutants:
	scripts/mutants $(NAME)

# Times the calls of the library over a table.
bench:
	cd crates/btf_bench && rt run -- $(abspath $(FILE))

# Installs the C library, btftool and btfobj below PREFIX.
install: build objects
	bindings/install "$(PREFIX)"
	install -D crates/btftool/out/btftool "$(PREFIX)/bin/btftool"
	install -D crates/btfobj/out/btfobj "$(PREFIX)/bin/btfobj"
