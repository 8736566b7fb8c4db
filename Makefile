# make install PREFIX=..  puts the program, its launcher, its manual page and what completes its words in
# bash under a prefix, whose bin/ is on the path; what is installed needs nothing else. It is the program that ./rumble runs: that of release/, or the
# one that make has proved and built. make uninstall takes it away again.
PREFIX ?= /usr/local
bin = $(DESTDIR)$(PREFIX)/bin
libexec = $(DESTDIR)$(PREFIX)/libexec/rumble
manual = $(DESTDIR)$(PREFIX)/share/man/man1
completions = $(DESTDIR)$(PREFIX)/share/bash-completion/completions

all:
	./rumble --build

install:
	install -d '$(bin)' '$(libexec)/launcher' '$(manual)' '$(completions)'
	program=$$(./rumble --program) && install -m 755 "$$program" '$(libexec)/rumble_main' \
	  && install -m 644 "$${program%/*}/made" '$(libexec)/made'
	install -m 644 launcher/* '$(libexec)/launcher'
	install -m 644 share/rumble.1 '$(manual)/rumble.1'
	install -m 644 share/rumble.bash '$(completions)/rumble'
	install -m 755 rumble '$(bin)/rumble'

uninstall:
	rm -rf '$(libexec)'
	rm -f '$(bin)/rumble' '$(manual)/rumble.1' '$(completions)/rumble'

check:
	.ci/run

.PHONY: all install uninstall check
