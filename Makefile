# make demo        shows what the programs answer on examples/, proves them, and runs them
# make             proves the two programs and the library for C, and leaves them in target/
# make test        the gate: everything that must hold before a change lands
# make install     command, programs, library, header, manual pages and pkg-config file below PREFIX
# make uninstall   takes them away again
# make lint        the manual pages, the scripts and the second implementation, each read by its linter
# make figures     measures, and writes docs/FIGURES.md
# make picture     draws docs/window.svg and docs/day.svg from sessions of examples/

PREFIX = /usr/local
DESTDIR =
VERSION := $(shell sed -n 's/^version=//p' bin/gekumosari)

programs = target/bin/calendar target/bin/dispatch
archive = target/staticlib/libagent.a
library = target/lib/libgekumosari.so.0
sources := crates.txt $(shell find crates -type f -not -path '*/must-fail/*' -not -path '*/out/*')

.PHONY: all demo test install uninstall lint figures picture
# Two runs of `rt` would be in each other's way.
.NOTPARALLEL:
all: $(programs) $(archive) $(library)

# Said where something is to be proved and there is no kit.
define kit
@command -v rt >/dev/null || { printf '%s\n' \
    'rt, the command of the Rattle kit, is not on the path. It proves and compiles the programs.' \
    'Without it, the second implementation gives the same answers, unproved:' \
    '    cd harness && cargo run --release --offline -- calendar < ../examples/p.plan' \
    '    cd harness && cargo run --release --offline -- dispatch < ../examples/p.session' >&2; exit 1; }
endef

# `rt` proves again only what has changed; nothing is made where something is not proved.
$(programs) &: $(sources)
	$(kit)
	@bin/prove calendar dispatch
	@touch -c $(programs)

$(archive): $(sources)
	$(kit)
	@bin/prove agent
	@touch -c $(archive)

# The archive's code has no fixed place, so the linker makes the shared library of it as it is.
$(library): $(archive)
	@command -v $(firstword $(CC)) >/dev/null || { echo 'A C compiler ($(CC)) is needed to link the shared library.' >&2; exit 1; }
	@mkdir -p target/lib
	$(CC) -shared -Wl,-soname,libgekumosari.so.0 -Wl,-z,text,-z,defs -Wl,-u,gekumosari_session $(archive) -o $(library)

# Until the programs are proved, which takes minutes, the second implementation shows what they will answer.
demo:
	@$(MAKE) --silent --question $(programs) || examples/demo harness
	@$(MAKE) --silent --no-print-directory $(programs)
	@examples/demo gekumosari

test:
	.ci/run

# The recipes read PREFIX and DESTDIR from the environment, so that they may have spaces; a relative PREFIX is one of this folder.
install uninstall: export prefix = $(if $(filter /%,$(firstword $(PREFIX))),,$(CURDIR)/)$(PREFIX)
install uninstall: export tree = $(DESTDIR)$(prefix)

manuals = gekumosari.1 gekumosari-calendar.1 gekumosari-dispatch.1
commands = calendar dispatch explain.awk
libraries = libgekumosari.a libgekumosari.so libgekumosari.so.0

install: $(programs) $(archive) $(library)
	install -d "$$tree/bin" "$$tree/libexec/gekumosari" "$$tree/lib/pkgconfig" "$$tree/include" "$$tree/share/man/man1" "$$tree/share/man/man3"
	install $(programs) "$$tree/libexec/gekumosari"
	install -m 644 bin/explain.awk "$$tree/libexec/gekumosari"
	install bin/gekumosari "$$tree/bin"
	install -m 644 $(archive) "$$tree/lib/libgekumosari.a"
	install -m 644 $(library) "$$tree/lib"
	ln -sf libgekumosari.so.0 "$$tree/lib/libgekumosari.so"
	install -m 644 include/gekumosari.h "$$tree/include"
	install -m 644 $(addprefix man/,$(manuals)) "$$tree/share/man/man1"
	install -m 644 man/gekumosari_session.3 "$$tree/share/man/man3"
	printf '%s\n' "prefix=$$prefix" 'libdir=$${prefix}/lib' 'includedir=$${prefix}/include' 'archive=$${libdir}/libgekumosari.a' '' \
	    'Name: gekumosari' 'Description: Verified dispatch of cyclic jobs' 'Version: $(VERSION)' \
	    'Libs: -L"$${libdir}" -lgekumosari' 'Cflags: -I"$${includedir}"' > "$$tree/lib/pkgconfig/gekumosari.pc"

# Folders that others use too are left, and so is whatever else stands in libexec/gekumosari.
uninstall:
	for file in $(addprefix libexec/gekumosari/,$(commands)) $(addprefix lib/,$(libraries)) $(addprefix share/man/man1/,$(manuals)) \
	    bin/gekumosari lib/pkgconfig/gekumosari.pc include/gekumosari.h share/man/man3/gekumosari_session.3; do rm -f "$$tree/$$file"; done
	rmdir "$$tree/libexec/gekumosari" 2>/dev/null || true

# Of the scripts, programs for sed, awk and bash stand in single quotes, and are meant so (SC2016).
lint:
	mandoc -T lint -W warning man/*.1 man/*.3
	shellcheck -e SC2016 tests/apply.sh $$(grep -lE '^#!.*[/ ](ba)?sh$$' .ci/run bin/* tests/*/run harness/fuzz/run)
	pyflakes3 $$(grep -lE '^#!.*python3$$' tests/*/run tests/*/test) tests/*/*.py
	cd harness && cargo fmt --check
	cd harness && cargo clippy --offline --quiet --all-targets -- -D warnings
	cd harness && GEKUMOSARI_ARCHIVE=/dev/null cargo clippy --offline --quiet --all-targets --features export -- -D warnings

figures: $(archive)
	cd harness && GEKUMOSARI_ARCHIVE="$(abspath $(archive))" cargo run --release --offline --quiet --features export -- figures > ../target/figures
	mv target/figures docs/FIGURES.md

picture:
	mkdir -p target
	cd harness && cargo build --release --offline --quiet
	harness/target/release/harness picture examples/tables.session examples/tables.answers 2 examples/tables.names > target/window.svg
	harness/target/release/harness offers examples/day.session examples/day.answers examples/tables.names > target/day.svg
	mv target/window.svg target/day.svg docs
