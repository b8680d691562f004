# make                              builds scf, which takes the Rattle kit
# make install [PREFIX=/usr/local]  puts it, its tools, manual pages and completions below PREFIX; with DESTDIR below
#                                   that folder
# make uninstall                    takes them away
# make lib                          builds libscf, the library for C, C++, Python, Rust and Go, in library/out
# make install-lib, uninstall-lib   puts its headers, archive, shared object, file for pkg-config, manual pages and
#                                   Python package below PREFIX; LIBDIR and PYTHON_DIR say where, if not in lib and
#                                   lib/python3/dist-packages
# make deb, make dist               makes Debian packages, or an archive, of both, in dist/
# make check                        runs the whole gate

PREFIX = /usr/local
DESTDIR =

TOOLS := $(filter-out start scftools scfhost tests __pycache__,$(notdir $(wildcard tools/*)))
PACKAGES := $(patsubst tools/%/__init__.py,%,$(wildcard $(foreach depth,* */* */*/*,tools/scf$(depth)/__init__.py)))
PROGRAM = crates/scf/out/scf
TO = $(DESTDIR)$(PREFIX)
BIN = $(TO)/bin
LIB = $(TO)/lib/scf
MAN = $(TO)/share/man/man1
DOC = $(TO)/share/doc/scf
# (the pages stand beside README there, whose links say so)
FLAT = sed 's|](docs/|](|g; s|](conformance/README.md|](CONFORMANCE.md|g'
# (units, which systemd finds there, a hook for podman and alerts for Prometheus; none of them is enabled by this)
UNITS = $(TO)/lib/systemd/system
SHARE = $(TO)/share/scf
HERE = sed 's|/usr/local/bin/scf-|$(call FOR_SED,$(PREFIX))/bin/scf-|'
# (a path as the replacement of sed's s|..|..|)
FOR_SED = $(subst |,\|,$(subst &,\&,$(1)))
# (where Debian's shells look below /usr, and below /usr/local)
BASH = $(TO)/share/bash-completion/completions
ZSH = $(TO)/share/zsh/$(if $(filter /usr,$(PREFIX)),vendor-completions,site-functions)
FISH = $(TO)/share/fish/vendor_completions.d

LIBSCF = library/out/libscf.so.0
LIBDIR = $(PREFIX)/lib
PYTHON_DIR = $(PREFIX)/lib/python3/dist-packages
MAN3 = $(TO)/share/man/man3
DOC_OF_LIB = $(TO)/share/doc/libscf
CALLS := libscf $(shell sed -n 's/^ *\(scf_[a-z_]*\);/\1/p' library/scf.map)
# (a folder below PREFIX is named by it, so that a packager can move both)
PC_LIBDIR = $(patsubst $(PREFIX)/%,$${prefix}/%,$(LIBDIR))
VERSION := $(shell cat VERSION)

.PHONY: all check install uninstall lib install-lib uninstall-lib deb dist

all:
	./build

$(PROGRAM):
	./build

check:
	./test

install: $(PROGRAM) uninstall
	install -d "$(BIN)" "$(LIB)/program" "$(LIB)/tools" "$(LIB)/tables" "$(LIB)/docs" "$(MAN)" "$(DOC)" \
	    "$(BASH)" "$(ZSH)" "$(FISH)" "$(UNITS)" "$(SHARE)/hooks.d" "$(SHARE)/prometheus"
	install $(PROGRAM) "$(LIB)/program"
	install tools/start "$(LIB)/tools"
	for tool in $(TOOLS); do ln -sf start "$(LIB)/tools/$$tool" || exit 1; done
	for package in $(PACKAGES); do install -d "$(LIB)/tools/$$package" && \
	    install -m 644 tools/$$package/*.py "$(LIB)/tools/$$package" || exit 1; done
	install -m 644 tables/* "$(LIB)/tables"
	install -m 644 docs/FAULTS.md "$(LIB)/docs"
	install -m 644 docs/scf.1 "$(MAN)"
	umask 022; dev/manual "$(MAN)" && dev/completion "$(BASH)/scf" "$(ZSH)/_scf" "$(FISH)/scf.fish"
	for tool in $(TOOLS); do ln -sf scf "$(BASH)/scf-$$tool" && ln -sf scf.fish "$(FISH)/scf-$$tool.fish" || exit 1; done
	install -m 644 LICENSE CONTRIBUTING.md docs/*.md docs/*.png docs/scf.schema.json "$(DOC)"
	install -m 644 conformance/README.md "$(DOC)/CONFORMANCE.md"
	umask 022; $(FLAT) README.md >"$(DOC)/README.md"
	install -m 644 contrib/systemd/scf-audit.timer "$(UNITS)"
	install -m 644 contrib/prometheus/scf.rules.yml "$(SHARE)/prometheus"
	umask 022; $(HERE) contrib/systemd/scf-audit.service >"$(UNITS)/scf-audit.service" && \
	    $(HERE) contrib/hooks.d/scf.json >"$(SHARE)/hooks.d/scf.json"
	umask 022; python3 -m compileall -q --invalidation-mode checked-hash $(if $(DESTDIR),-s "$(DESTDIR)") \
	    "$(LIB)/tools/scftools" "$(LIB)/tools/scfhost"
	sed 's|^beside=$$|beside=/../lib/scf|' scf >"$(BIN)/scf"
	chmod 755 "$(BIN)/scf"
	for tool in $(TOOLS); do ln -sf "../lib/scf/tools/$$tool" "$(BIN)/scf-$$tool" || exit 1; done

uninstall:
	for tool in "$(LIB)"/tools/*; do rm -f "$(BIN)/scf-$${tool##*/}" "$(MAN)/scf-$${tool##*/}.1" \
	    "$(BASH)/scf-$${tool##*/}" "$(FISH)/scf-$${tool##*/}.fish"; done
	rm -f "$(BIN)/scf" "$(MAN)/scf.1" "$(BASH)/scf" "$(ZSH)/_scf" "$(FISH)/scf.fish"
	rm -f "$(UNITS)/scf-audit.service" "$(UNITS)/scf-audit.timer"
	rm -rf "$(LIB)" "$(DOC)" "$(SHARE)"

lib:
	library/build

$(LIBSCF):
	library/build

install-lib: $(LIBSCF) uninstall-lib
	install -d "$(TO)/include" "$(DESTDIR)$(LIBDIR)/pkgconfig" "$(DESTDIR)$(PYTHON_DIR)/scf" "$(MAN3)" "$(DOC_OF_LIB)"
	install -m 644 library/scf.h library/scf.hpp "$(TO)/include"
	install -m 644 library/out/libscf.a $(LIBSCF) "$(DESTDIR)$(LIBDIR)"
	ln -sf libscf.so.0 "$(DESTDIR)$(LIBDIR)/libscf.so"
	umask 022; library/manual "$(MAN3)"
	umask 022; sed -e 's|@PREFIX@|$(call FOR_SED,$(PREFIX))|' -e 's|@LIBDIR@|$(call FOR_SED,$(PC_LIBDIR))|' \
	    -e 's|@VERSION@|$(VERSION)|' library/scf.pc.in >"$(DESTDIR)$(LIBDIR)/pkgconfig/scf.pc"
	install -m 644 library/python/scf/__init__.py library/python/scf/py.typed "$(DESTDIR)$(PYTHON_DIR)/scf"
	install -m 644 LICENSE docs/LICENCES.md docs/LIBRARY.md docs/FAULTS.md library/example/runtime.c "$(DOC_OF_LIB)"

uninstall-lib:
	rm -f "$(TO)/include/scf.h" "$(TO)/include/scf.hpp" "$(DESTDIR)$(LIBDIR)/libscf.a" "$(DESTDIR)$(LIBDIR)/libscf.so" \
	    "$(DESTDIR)$(LIBDIR)/libscf.so.0" "$(DESTDIR)$(LIBDIR)/pkgconfig/scf.pc" $(CALLS:%="$(MAN3)/%.3")
	rm -rf "$(DESTDIR)$(PYTHON_DIR)/scf" "$(DOC_OF_LIB)"

deb dist: $(PROGRAM) $(LIBSCF)
	dev/package $@ dist
