# rt, the toolchain's command, proves and builds; see `rt help`.

.PHONY: build install demo first_look test bench

PREFIX ?= /usr/local

# Proves the program, crate by crate, and leaves it as crates/zcrx_cli/out/zcrx_cli.
build:
	tools/prove_program.sh

# Puts the program, its page and its completions in place: make install PREFIX=~/.local
install: build
	install -D crates/zcrx_cli/out/zcrx_cli $(DESTDIR)$(PREFIX)/bin/zcrx
	install -D -m 644 docs/zcrx.1 $(DESTDIR)$(PREFIX)/share/man/man1/zcrx.1
	install -D -m 644 completions/zcrx.bash $(DESTDIR)$(PREFIX)/share/bash-completion/completions/zcrx
	install -D -m 644 completions/_zcrx $(DESTDIR)$(PREFIX)/share/zsh/site-functions/_zcrx

# The demo capture, as it is committed.
demo-data/hello.pcap: tools/demo_capture.py tools/frames.py
	tools/demo_capture.py >$@

# A first look, and then what is proved.
demo: first_look build
	tools/demo.sh

first_look:
	tools/first_look.sh

test:
	.ci/run

bench: build
	bench/compare.sh
