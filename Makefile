# make run      proves the lister and lists a recording
# make test     everything: documents, proofs, tests, comparisons; the last line is that of the proofs
# make outside  the tests in outside/, and the comparisons with other codecs
# make soak     the comparisons again and again, for SECONDS, with a new seed in each round, from SEED on
# make archive  the library for C and Rust: build/lib/librpeltp.a
# make install  the library, its header, its pkg-config file and the programs, below PREFIX
# make dist     all of these, the Rust crate, an example and notes in one archive
# make bench    how fast ours is beside other codecs
.PHONY: run test outside soak ready archive install dist bench
SECONDS = 600
SEED = 1
PREFIX = /usr/local
VERSION = $(shell cat VERSION)
PROGRAMS = lister encode decode together encode_alaw decode_alaw expand
DIST = build/rpeltp-$(VERSION)
SOURCES = crates.txt $(shell find crates -type f -not -path '*/out/*')
PYTHON = $(wildcard outside/*.py outside/tests/*.py bench/*.py)

run:
	outside/make_proved lister
	@echo
	bin/rpeltp lister < recordings/speech.raw
	@cat recordings/lines.txt

# The documents are checked first, which takes seconds. Then come the proofs, and with them the layout of the sources.
# Where all goes well, the last line is that of rt ci.
test:
	outside/install_packages python3
	python3 outside/check_docs.py
	outside/prove_all
	$(MAKE) outside
	@tail -n 1 build/proofs.txt

outside: ready
	mypy --strict --cache-dir build/mypy $(PYTHON)
	python3 -m unittest discover --quiet -s outside/tests -t outside
	cargo test --quiet --offline --manifest-path outside/second/Cargo.toml --target-dir build/tests
	python3 outside/compare_operations.py --compare crates/test_operations/stdout
	python3 outside/compare_operations.py --libgsm build/libgsm.so
	python3 outside/write_trials.py outside/vectors --compare
	python3 outside/check_layout.py
	python3 outside/check_boundary.py
	python3 outside/compare.py --alaw
	python3 outside/compare.py --vectors outside/vectors
	python3 outside/compare.py --sequences
	python3 outside/compare.py --frames 20000 --seed 961
	python3 outside/compare.py --programs
	python3 outside/try_mutants.py
	$(MAKE) install PREFIX=build/root
	$(MAKE) dist
	python3 outside/check_boundary.py --installed build/root $(DIST).tar.gz

soak: ready
	outside/make_proved together
	python3 outside/compare.py --limit
	python3 outside/compare.py --soak $(SECONDS) --seed $(SEED)

# installs and builds what is compared; libgsm is built from Debian's source package
ready: archive build/bin
	outside/install_packages python3 gcc g++ libc6-dev cargo pkg-config libspandsp2 mypy x86
	python3 outside/build_libgsm.py
	outside/make_proved $(PROGRAMS) test_operations
	python3 outside/check_boundary.py --build

archive: build/lib/librpeltp.a

build/lib/librpeltp.a: $(SOURCES)
	outside/make_proved --archive boundary_c
	mkdir -p build/lib
	cp crates/boundary_c/out/libboundary_c.a $@

build/bin: $(SOURCES)
	outside/make_proved $(PROGRAMS)
	rm -rf $@
	mkdir -p $@
	for name in $(PROGRAMS); do cp crates/$$name/out/$$name $@/rpeltp-$$name; done

install: archive build/bin
	install -d $(PREFIX)/bin $(PREFIX)/include $(PREFIX)/lib/pkgconfig
	install -m 644 build/lib/librpeltp.a $(PREFIX)/lib
	install -m 644 c/rpeltp.h $(PREFIX)/include
	sed 's/@VERSION@/$(VERSION)/' c/rpeltp.pc.in > $(PREFIX)/lib/pkgconfig/rpeltp.pc
	install -m 755 build/bin/* $(PREFIX)/bin
	@outside/x86_tools native || \
		echo 'installed for x86-64: on this machine neither library nor programs run without an emulator'

dist:
	rm -rf $(DIST)
	$(MAKE) install PREFIX=$(DIST)
	mkdir -p $(DIST)/examples $(DIST)/recordings
	cp -r VERSION NOTES.md rust $(DIST)
	rm -rf $(DIST)/rust/target
	cp c/example.c $(DIST)/examples
	cp recordings/speech.raw $(DIST)/recordings
	tar --sort=name --mtime=@0 --owner=0 --group=0 --numeric-owner -C build -cf - rpeltp-$(VERSION) | \
		gzip -n > $(DIST).tar.gz
	@echo "$(DIST).tar.gz"

bench: archive build/bin
	outside/install_packages python3
	python3 bench/bench.py
