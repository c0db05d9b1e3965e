# Installs plan_ninja and plan_build from this tarball: make install [PREFIX=/usr/local] [DESTDIR=..]. It needs no other tool.
PREFIX ?= /usr/local
FILES = $(shell find bin share -type f)
LINKS = $(shell find libexec -type l)

.PHONY: install
install: check
	@for file in $(FILES); do \
	  mode=644; test -x "$$file" && mode=755; \
	  install -D -m $$mode "$$file" "$(DESTDIR)$(PREFIX)/$$file" || exit 1; \
	done
	@for link in $(LINKS); do \
	  install -d "$(DESTDIR)$(PREFIX)/$$(dirname "$$link")" && cp -Pf "$$link" "$(DESTDIR)$(PREFIX)/$$link" || exit 1; \
	done
	@echo "installed plan_ninja and plan_build in $(DESTDIR)$(PREFIX)/bin; for CMake and Meson put $(PREFIX)/libexec/plan_ninja on the PATH"

# Compares the files with their SHA-256 sums.
.PHONY: check
check:
	@sha256sum --quiet -c SHA256SUMS
