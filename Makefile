# make install [PREFIX=/usr/local] [DESTDIR=]: the program, its launcher and tools, the man page, completions, docs, examples,
# the schema and the colours for editors. make uninstall takes the same words, and takes all of it away.
# make dist [OUT=dist] [GATE=LOG]: the folder OUT with a tar.gz and a .deb for those who have no kit; LOG is what `rt ci` printed.
# Proving and building is ./xrf build; testing is tests/run.
PREFIX ?= /usr/local
OUT ?= dist
root = $(DESTDIR)$(PREFIX)
library = $(root)/lib/xrf
data = $(root)/share/xrf
page = $(root)/share/man/man1/xrf.1
of_bash = $(root)/share/bash-completion/completions/xrf
of_zsh = $(root)/share/zsh/site-functions/_xrf
of_fish = $(root)/share/fish/vendor_completions.d/xrf.fish

.PHONY: help install uninstall dist
help:
	@sed -n 's/^# //p' Makefile

install:
	tools/build --is-current || ./xrf build
	install -D -m 755 xrf "$(library)/xrf"
	install -D -m 755 crates/xrf/out/xrf "$(library)/program"
	./xrf --version >"$(library)/version"
	find tools/xrf_tools -name __pycache__ -prune -o -type f -exec install -D -m 644 {} "$(library)/{}" \;
	find README.md CHANGELOG.md docs examples schema tools/editors -type f -exec install -D -m 644 {} "$(data)/{}" \;
	install -d "$(root)/bin" "$(root)/share/doc"
	ln -sfn ../lib/xrf/xrf "$(root)/bin/xrf"
	ln -sfn ../xrf "$(root)/share/doc/xrf"
	install -D -m 644 tools/man/xrf.1 "$(page)"
	install -D -m 644 tools/completions/xrf.bash "$(of_bash)"
	install -D -m 644 tools/completions/_xrf "$(of_zsh)"
	install -D -m 644 tools/completions/xrf.fish "$(of_fish)"

uninstall:
	rm -rf "$(library)" "$(data)"
	rm -f "$(root)/bin/xrf" "$(root)/share/doc/xrf" "$(page)" "$(of_bash)" "$(of_zsh)" "$(of_fish)"

dist:
	tools/dist "$(OUT)" $(GATE)
