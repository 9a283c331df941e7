# Builds the library for C, report (examples/c/report.c) and tkcore from the assembler text in
# release/, and on x86-64 with a static glibc 2.32 or later tkrun. It needs a C compiler, binutils and
# bash, and no Rattle.
#
#     make                  makes dist/
#     make check            tests what is in dist/, with the programs that are installed
#     make install          installs dist/ in PREFIX (/usr/local) below DESTDIR, the library in
#                           PREFIX/LIBDIR (lib)
#     make clean            removes dist/
#
# tools/assemble says what goes wrong in one sentence. docs/C.md and docs/RUN.md describe the files.
PREFIX = /usr/local
LIBDIR = lib
MACHINE := $(firstword $(subst -, ,$(shell $(CC) -dumpmachine)))
PROGRAM := $(wildcard release/$(MACHINE)/program.s.gz)
BUILT = dist/lib/libtkcore.a dist/bin/report $(if $(filter x86_64,$(MACHINE)),dist/bin/tkrun) \
	$(if $(PROGRAM),dist/bin/tkcore)

all: $(BUILT)

dist/lib/libtkcore.a: $(wildcard release/$(MACHINE)/*.s include/*.h tools/c/*.* docs/tkcore.3)
	CC='$(CC)' tools/assemble library

dist/bin/tkcore: $(PROGRAM) $(wildcard release/*.c)
	CC='$(CC)' tools/assemble program

dist/bin/report: dist/lib/libtkcore.a examples/c/report.c
	mkdir -p dist/bin
	$(CC) -O2 -Idist/include examples/c/report.c dist/lib/libtkcore_session.a -o $@

dist/bin/tkrun: dist/lib/libtkcore.a $(wildcard run/*/*)
	tools/build_run --optional

# as many parts at once as there are processors, unless make was called with -j; what a part prints
# stays together
JOBS = $(if $(findstring jobserver,$(MAKEFLAGS)),,-j$(shell nproc))
PARTS = calls pages orders uses definitions

check: texts all
	@echo "make: tests what is in dist/, and prints it at the end"
	+@$(MAKE) --no-print-directory --keep-going --output-sync=target $(JOBS) \
	    check-run $(PARTS:%=check-%)

$(PARTS:%=check-%): check-%:
	tools/check_c --built dist $*

check-run:
	if [ -x dist/bin/tkrun ] && [ -x dist/bin/tkcore ]; then tools/check_run --built; fi

texts:
	@cd release && grep -E '^[0-9a-f]{64}  (x86_64|aarch64|wasm64|wasm32)/' MANIFEST | sha256sum -c --quiet 2>&- || \
	    { echo "make: a text in release/ isn't the one that release/MANIFEST lists" >&2; exit 1; }

install: all
	DESTDIR='$(DESTDIR)' LIBDIR='$(LIBDIR)' tools/install \
	    $$([ -x dist/bin/tkcore ] || echo --library) '$(PREFIX)'

clean:
	rm -rf dist

.PHONY: all check $(PARTS:%=check-%) check-run texts install clean
