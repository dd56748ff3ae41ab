# Puts the program, the recipes, their pages and completions below PREFIX: what tools/release packs into an archive.
PREFIX ?= /usr/local

.PHONY: install
install:
	tools/release --install "$(DESTDIR)$(PREFIX)"
