# Puts the programs that .ci/run left, or others that are named, where an operator has them: make install [PREFIX=/usr/local] [DESTDIR=] [LIVE=.. WORKBENCH=..].
# Both programs need the C library alone.
PREFIX = /usr/local
DESTDIR =
LIVE = crates/live/out/live
WORKBENCH = crates/workbench/out/workbench

bin = $(DESTDIR)$(PREFIX)/bin
share = $(DESTDIR)$(PREFIX)/share
units = $(DESTDIR)$(PREFIX)/lib/systemd/system
documents = README.md CHANGELOG.md docs/OPERATING.md docs/GUIDE.md docs/FAILOVER.md docs/FORMATS.md docs/PROVED.md

.PHONY: install
install:
	install -D -m 755 $(LIVE) $(bin)/live
	install -D -m 755 $(WORKBENCH) $(bin)/workbench
	install -D -m 644 -t $(share)/man/man1 share/man/man1/live.1 share/man/man1/workbench.1
	install -D -m 644 -t $(share)/bash-completion/completions share/bash-completion/completions/live share/bash-completion/completions/workbench
	install -D -m 644 -t $(share)/doc/wazhilom LICENSE VERSION $(documents)
	install -D -m 644 -t $(share)/wazhilom/guests/images guests/images/service.image
	install -D -m 755 -t $(share)/wazhilom/samples/live samples/live/pair.sh
	install -D -m 755 -t $(share)/wazhilom/samples/three samples/three/three.sh samples/three/door.sh
	install -d $(units)
	for unit in samples/systemd/*.service; do sed 's|/usr/share|$(PREFIX)/share|' "$$unit" > "$(units)/$${unit##*/}" || exit 1; done
