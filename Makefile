# What there is to call. Each line calls a script, which says more of itself.
PREFIX = /usr/local

.PHONY: all install uninstall test prove
all:
	@./pgw --version

install:
	@tools/install "$(PREFIX)"

uninstall:
	@tools/install --remove "$(PREFIX)"

test:
	tests/all

prove:
	tools/prove.py
