# `all`, `try`, `test` and `wrong-bodies` need the kit's command `rt` on the path, and `test` the packages of `packages`
# besides; `demo`, `examples`, `faults`, `pages`, `install` and `deb` take the program that is built, and build it where there
# is none. `check` builds nothing.
.PHONY: all try test check packages lint demo examples faults wrong-bodies test-tools pages pictures install deb library \
	install-library deb-library

program = crates/dnssec_check/out/dnssec_check
rows = crates/dnsv_rows/out/dnsv_rows
made = out/library
shared = $(made)/libdnssec_check.so.1
PREFIX = /usr/local
# What runs the tools, installed or not, and their tests: Debian's, which Debian's packages serve. Another one needs the
# packages that pyproject.toml names.
PYTHON ?= /usr/bin/python3

# Proves and builds the program, and asks it the question of examples/bind-www-a.
question = --moment 1795348800 --name www.bind.test. --type 1
all:
	cd crates/dnssec_check && rt run -- --version
	$(program) check --capture examples/bind-www-a/capture --anchors examples/anchors \
		--statements examples/bind-www-a/statements $(question)

# The same before any proof, so it proves nothing; no program is kept.
examples = ../../examples
try:
	cd crates/dnssec_check && rt try --data capture=$(examples)/bind-www-a/capture \
		--data anchors=$(examples)/anchors --data statements=$(examples)/bind-www-a/statements -- \
		check --capture capture --anchors anchors --statements statements $(question)

# The gate: every proof from nothing, the edits that must be refused, every test and the program. And then the guards.
test:
	tools/check --gate

# The guards: what is shown by running, of the program as it is built, the tools and the pages; of the library where
# `library` has built it. The last line counts all.
check:
	tools/check

# Debian's packages that the tools, their tests and the guards need.
packages:
	tools/packages

# What black, pylint and mypy say of the Python.
lint:
	$(PYTHON) tools/lint

# What each signature of a message that a real name server sent signs.
demo: | $(program)
	$(program) list --capture examples/www-a/capture --moment 1795348800 --all

# What the built program says to each command line of examples/, against what has to come.
examples: | $(program)
	tools/examples

# What the built program does where memory, a file or a write fails it, and on captures that are cut, changed or
# incomplete, and what the libraries do that are called again; needs python3 and cc. `check` does it too.
faults: | $(program) $(rows)
	tools/faults

# Every wrong body, those that the gate leaves out too, of all crates or of those named, as CRATES="dnsv_names"; with
# SINCE=COMMIT, of those that a change since that commit concerns; with UNTOLD=1, those that no file wrong-bodies/refused
# names. And every program that must not compile.
wrong-bodies:
	tools/wrong-bodies $(CRATES)
	tools/does-not-compile $(CRATES)

# The tests of the tools around the program, and of the program where it is built; they need nothing of the kit.
test-tools:
	$(PYTHON) -m unittest discover -s tools/tests

# The commands of the pages, against what the pages show, with the program and the tools as they are installed.
# CAPTURING.md and BREAKS.md need root, and the packages that they name; `check` runs the others. So does the table of
# incidents in BREAKS.md, of which `check` makes three where root has what they need. LIBRARY.md and NOTEBOOK.md run over
# the library that is built and not installed.
pages: | $(program)
	tools/pages --installed docs/CAPTURING.md
	tools/pages --installed docs/BREAKS.md
	tools/incidents --against docs/BREAKS.md
	tools/pages --installed docs/AUDITING.md
	tools/pages --installed docs/ODD.md
	tools/pages --installed examples/README.md
	tools/pages --installed README.md dnssec_check
	tools/pages --installed docs/INSTALL.md "To install program and tools"
	tools/pages --installed docs/VERDICTS.md
	tools/pages --installed docs/COMPACT.md
	tools/pages --installed docs/EXPLANATION.md
	if test -e $(shared); then tools/pages docs/LIBRARY.md && tools/pages docs/NOTEBOOK.md; fi

# The pictures that README.md shows, from the examples; needs chromium, fonts-liberation and pngquant besides what the page
# of `dnssec_check-judge --html` needs, and no program.
pictures:
	$(PYTHON) tools/pictures

# The program, the tools as dnssec_check-capture, -verify and -judge, their manual pages, the completions of bash, zsh and
# fish, and the schema of what the program writes in JSON. A tool starts the package that lies beside it; `pip install .` installs the
# tools alone, into Python's own place.
tools = capture verify judge
package = dnssec_check_tools
modules = $(shell cd tools && find $(package) -type f ! -path '*/__pycache__/*')
lib = $(DESTDIR)$(PREFIX)/lib/dnssec_check
man = $(DESTDIR)$(PREFIX)/share/man/man1
of_bash = $(DESTDIR)$(PREFIX)/share/bash-completion/completions
# Where zsh looks, which is another folder for Debian's packages.
ZSH_FOLDER = site-functions
of_zsh = $(DESTDIR)$(PREFIX)/share/zsh/$(ZSH_FOLDER)
of_fish = $(DESTDIR)$(PREFIX)/share/fish/vendor_completions.d
install: | $(program)
	install -d $(DESTDIR)$(PREFIX)/bin $(lib) $(man) $(of_bash) $(of_zsh) $(of_fish)
	install -m 755 $(program) $(DESTDIR)$(PREFIX)/bin
	rm -rf $(lib)/$(package)
	for module in $(modules); do install -D -m 644 tools/$$module $(lib)/$$module; done
	install -m 644 docs/dnssec_check.1 $(tools:%=docs/dnssec_check-%.1) $(man)
	install -m 644 tools/completion/dnssec_check $(of_bash)
	install -m 644 tools/completion/_dnssec_check $(of_zsh)
	install -m 644 tools/completion/dnssec_check.fish $(of_fish)
	install -D -m 644 docs/schema.json $(DESTDIR)$(PREFIX)/share/dnssec_check/schema.json
	for tool in $(tools); do \
		sed '1s|.*|#!$(PYTHON)|' tools/$$tool > $(lib)/$$tool; \
		chmod 755 $(lib)/$$tool; \
		ln -sf ../lib/dnssec_check/$$tool $(DESTDIR)$(PREFIX)/bin/dnssec_check-$$tool; \
		ln -sf dnssec_check $(of_bash)/dnssec_check-$$tool; \
		ln -sf dnssec_check.fish $(of_fish)/dnssec_check-$$tool.fish; \
	done
	if test -e $(shared); then $(MAKE) install-library; fi

# The library for C, as an archive and a shared library; docs/LIBRARY.md says how it is used. What it does is proved and built
# by the kit, where a crate changed since; what leads to it from C is library/calls.c.
calls = crates/dnssec_check_c/out/libdnssec_check_c.a
beside = dnssec_check dnsv_rows dnsv_record_rows dnsv_message_rows dnsv_row_text
proved = $(shell find crates -name out -prune $(beside:%=-o -path crates/% -prune) -o \
	'(' -name '*.rt' -o -name '*.antt' ')' -print 2> /dev/null)
kit = $(dir $(shell rt doc))
of_version = tools/$(package)/command.py
version = $(shell sed -n 's/^VERSION = "\([^"]*\)".*/\1/p' $(of_version))
library: $(made)/libdnssec_check.a $(shared)

$(calls): crates.txt $(proved)
	cd crates/dnssec_check_c && rt lib
	touch $@

# What is proved, as one object; a test has calls.c over it that was compiled otherwise.
$(made)/proved.o: $(calls)
	install -d $(made)
	$(LD) -r -o $@ --whole-archive $(calls) --no-whole-archive $(kit)c/liblibc_c.a

# One object, in which only the calls of the header are seen.
$(made)/dnssec_check.o: library/calls.c library/dnssec_check.h library/symbols $(of_version) $(made)/proved.o
	$(CC) -std=c99 -O2 -fPIC -Wall -Wextra -Werror -DDNSSEC_CHECK_VERSION='"$(version)"' -c library/calls.c -o $(made)/calls.o
	$(LD) -r -o $@ $(made)/calls.o $(made)/proved.o
	objcopy --keep-global-symbols=library/symbols $@

$(made)/libdnssec_check.a: $(made)/dnssec_check.o
	rm -f $@
	$(AR) rcs $@ $<

$(shared): $(made)/dnssec_check.o
	$(CC) -shared -Wl,-soname,$(notdir $@) -Wl,--gc-sections -Wl,-z,defs -Wl,-z,relro,-z,now -o $@ $<
	ln -sf $(notdir $@) $(made)/libdnssec_check.so

# Puts the library that is built below PREFIX; `install` does it too, where it is built. Python's module goes where the
# interpreter looks, where that lies below PREFIX, and else to the folder that has this place for one of that PREFIX; where
# the tools are installed, their package, of which it takes the verifier, is found beside it.
LIBRARY_FOLDER = $(PREFIX)/lib
of_library = $(DESTDIR)$(LIBRARY_FOLDER)
PYTHON_FOLDER ?= $(shell $(PYTHON) -c 'import sys, sysconfig; place = sysconfig.get_path("purelib"); \
	print(place if place.startswith("$(PREFIX)/lib/") else "$(PREFIX)/lib/python%d.%d/site-packages" % sys.version_info[:2])')
of_python = $(DESTDIR)$(PYTHON_FOLDER)/dnssec_check
install-library:
	install -D -m 644 $(made)/libdnssec_check.a $(of_library)/libdnssec_check.a
	install -m 644 $(shared) $(of_library)
	ln -sf libdnssec_check.so.1 $(of_library)/libdnssec_check.so
	install -D -m 644 library/dnssec_check.h $(DESTDIR)$(PREFIX)/include/dnssec_check.h
	install -d $(of_library)/pkgconfig $(of_python)
	sed 's|@PREFIX@|$(PREFIX)|; s|@FOLDER@|$(LIBRARY_FOLDER)|; s|@VERSION@|$(version)|' library/dnssec_check.pc.in \
		> $(of_library)/pkgconfig/dnssec_check.pc
	install -m 644 library/python/dnssec_check/*.py library/python/dnssec_check/py.typed $(of_python)
	if test -d $(lib)/$(package) && ! test -e $(of_python)_tools; then \
		ln -s $(PREFIX)/lib/dnssec_check/$(package) $(of_python)_tools; \
	fi

# The same as Debian packages: libdnssec-check1, libdnssec-check-dev and python3-dnssec-check.
deb-library:
	tools/deb library

# The program and the tools as a Debian package, out/dnssec-check_VERSION_amd64.deb; needs the packages debhelper, dh-python and dpkg-dev.
deb: | $(program)
	tools/deb

$(program):
	$(MAKE) all

$(rows):
	cd crates/dnsv_rows && rt run < /dev/null
