# make            builds the programs, ./bsonfind and ./bsonwide, and leaves ./bsonkit; with ANEW=1 from nothing, whatever was proved before
# make look       prints the documents of FILE, examples/shop.bson without it, by the program as it stands, with no proof
# make test       passes all tests
# make quick      passes what needs no proof, over the programs that are built or installed, in a few minutes
# make lint       looks at scripts and pages by mypy, pyflakes, shellcheck and man; what is missing is named
# make edits      tries wrong bodies, of CRATE alone where it is given, on all processors but one: the proofs must refuse each
# make release    runs what make test does not, such as all edits and hostile inputs, and names what it could not run
# make reference  writes docs/REFERENCE.md from the sources
# make bench      times the commands over a dump of MB megabytes, 20 without it, of documents of a KIND, mixed without it, and draws docs/performance.svg; of several MB how cost grows
# make install    puts the programs, bsonkit, their man pages, completions, licence, documents and package of Python below PREFIX
# make uninstall  takes them away
# make deb        builds the programs, and puts the same files in a package of Debian, below dist
# make dist       builds the programs, and puts the same files in a tar.gz, below dist
# make clean      removes the programs, the packages, and the proofs and builds that rt keeps
#
# Nothing but rt is wanted on PATH, and python3, which rt wants too.

VERSION := $(shell cat VERSION)
PYTHON = python3
FILE = examples/shop.bson
MB = 20
KIND = mixed
PREFIX = /usr/local
BIN = $(DESTDIR)$(PREFIX)/bin
SHARE = $(DESTDIR)$(PREFIX)/share
DOC = $(SHARE)/doc/bsonfind
MAN = $(SHARE)/man/man1
BASH = $(SHARE)/bash-completion/completions
ZSH = $(SHARE)/zsh/site-functions
FISH = $(SHARE)/fish/vendor_completions.d
# Where the Python at hand looks for packages below PREFIX.
PACKAGE = $(DESTDIR)$(shell $(PYTHON) tools/packages.py "$(PREFIX)")/bsonfind
# The way from the commands to that place, which bsonkit goes.
WAY = $(shell $(PYTHON) -c 'import os, sys; print(os.path.relpath(os.path.dirname(sys.argv[1]), sys.argv[2]))' "$(PACKAGE)" "$(BIN)")
FOLDERS = $(shell cd python/bsonfind && find . -type d ! -name __pycache__)
MODULES = $(shell cd python/bsonfind && find . -name '*.py' -o -name py.typed -o -name VERSION)

.PHONY: all build look test quick lint edits release reference bench install uninstall deb dist clean

all: build bsonkit

# Proves what has changed, as many crates side by side as there are processors and memory, and leaves ./bsonfind and ./bsonwide.
build:
	@$(PYTHON) tools/build.py $(if $(ANEW),--anew)

look:
	@echo 'make look: the program is run as it stands, and nothing of it is proved; make proves and builds it' >&2
	@cd crates/bsonfind && rt try --data 'dump.bson=$(abspath $(FILE))' -- dump dump.bson

# What was built is installed; it is built first only where there is none. One build makes both.
bsonfind:
	$(MAKE) build

bsonwide: | bsonfind
	$(MAKE) build

# The command of the package, as it stands here.
bsonkit: packaging/bsonkit
	@sed 's|@PACKAGES@|python|' packaging/bsonkit >bsonkit.new && chmod 755 bsonkit.new && mv bsonkit.new bsonkit

test:
	@tests/all.sh

quick:
	@tests/quick.py

lint:
	@tests/lint.sh

edits:
	@tests/edits.sh $(CRATE)

release:
	@tests/release.py $(NAMES)

reference:
	@$(PYTHON) tools/reference.py

bench: bsonfind bsonwide
	$(PYTHON) bench/bench.py $(MB) --kind $(KIND)

install: bsonfind bsonwide
	install -d "$(BIN)" "$(DOC)/docs" "$(DOC)/examples" "$(DOC)/python" "$(MAN)" "$(BASH)" "$(ZSH)" "$(FISH)"
	install -m 755 bsonfind bsonwide "$(BIN)"
	install -m 644 LICENSE CHANGELOG.md CONTRIBUTING.md README.md SECURITY.md "$(DOC)"
	install -m 644 docs/*.md docs/*.svg "$(DOC)/docs"
	install -m 644 examples/* "$(DOC)/examples"
	install -m 644 python/README.md "$(DOC)/python"
	install -m 644 man/bsonfind.1 man/bsonwide.1 man/bsonkit.1 "$(MAN)"
	sed -i 's/^\.Os$$/.Os bsonfind $(VERSION)/' "$(MAN)/bsonfind.1" "$(MAN)/bsonwide.1" "$(MAN)/bsonkit.1"
	install -m 644 completions/bsonfind.bash "$(BASH)/bsonfind"
	install -m 644 completions/bsonwide.bash "$(BASH)/bsonwide"
	install -m 644 completions/bsonkit.bash "$(BASH)/bsonkit"
	install -m 644 completions/_bsonfind completions/_bsonwide completions/_bsonkit "$(ZSH)"
	install -m 644 completions/bsonfind.fish completions/bsonwide.fish completions/bsonkit.fish "$(FISH)"
	if command -v $(PYTHON) >/dev/null; then for it in $(FOLDERS); do install -d "$(PACKAGE)/$$it" || exit; done && \
	  for it in $(MODULES); do install -m 644 "python/bsonfind/$$it" "$(PACKAGE)/$$it" || exit; done && \
	  $(PYTHON) python/backend.py "$(PACKAGE)/.." && install -m 755 packaging/bsonkit "$(BIN)" && \
	  sed -i 's|@PACKAGES@|$(WAY)|' "$(BIN)/bsonkit"; fi

uninstall:
	rm -f "$(BIN)/bsonfind" "$(MAN)/bsonfind.1" "$(BASH)/bsonfind" "$(ZSH)/_bsonfind" "$(FISH)/bsonfind.fish"
	rm -f "$(BIN)/bsonwide" "$(MAN)/bsonwide.1" "$(BASH)/bsonwide" "$(ZSH)/_bsonwide" "$(FISH)/bsonwide.fish"
	rm -f "$(BIN)/bsonkit" "$(MAN)/bsonkit.1" "$(BASH)/bsonkit" "$(ZSH)/_bsonkit" "$(FISH)/bsonkit.fish"
	rm -f "$(DOC)/LICENSE" "$(DOC)/CHANGELOG.md" "$(DOC)/CONTRIBUTING.md" "$(DOC)/README.md" "$(DOC)/SECURITY.md" "$(DOC)/GUIDE.md"
	rm -rf "$(DOC)/docs" "$(DOC)/examples" "$(DOC)/python"
	rmdir "$(DOC)" 2>/dev/null || true
	if command -v $(PYTHON) >/dev/null; then rm -rf "$(PACKAGE)" "$(PACKAGE)-$(VERSION).dist-info"; fi

# Both are made from what make install puts below /usr.
deb dist: build
	@$(PYTHON) tools/dist.py $@

clean:
	rm -f bsonfind bsonwide bsonkit
	rm -rf crates/*/out dist
