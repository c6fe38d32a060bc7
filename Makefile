# make demo   a fleet plays four rounds: sound, with a slow boat, with double signers, with a third certificate that names more of
#             them; then the harbour office makes one pack of the evidence; DEMO="--help" lists the options, as in
#             make demo DEMO="--double-signers 2 --lost-link 0-3"
# make join   the harbour office's tool: one pack of evidence from those that boats handed in, with who is named and by whom;
#             JOIN="--help" tells how, as in make join JOIN="--keys fleet.keys --round 3 --out one.pack a.pack b.pack"
# make test   the gate: every crate proved, every program run, the static libraries against the harness
# make soak   the long version of the harness's tests: load, faults, every call, and plain C
# make bench  speed as ratios to plain C and to OpenSSL's libcrypto, in one run; the part of a check that the round constants take
# make install PREFIX=/usr/local
#             header, archive and zolbine.pc for pkg-config; DESTDIR puts them under another root

CARGO = cargo --quiet
HARNESS = cd harness && $(CARGO)
DEMO =
JOIN = --help
ARCHIVE = target/staticlib/libzolbine.a
SOURCES = crates.txt $(shell find crates -name out -prune -o -name '*.rt' -print -o -name '*.antt' -print)
PREFIX = /usr/local
DESTDIR =

.PHONY: test demo join soak bench install archives zolbine probes toolchain libcrypto
.NOTPARALLEL:

test:
	@scripts/tools.sh g++
	@scripts/test.sh

demo: zolbine
	@echo "zolbine: compiling the demonstration; then it makes a key for each boat" >&2
	@$(HARNESS) run --release --offline --features zolbine --bin demo -- $(DEMO)

# from this folder, so that it finds the files that are named
join: $(ARCHIVE)
	@$(CARGO) run --manifest-path harness/Cargo.toml --release --offline --features zolbine --bin join -- $(JOIN)

soak: zolbine
	@cd harness && ZOLBINE_LONG=1 $(CARGO) test --release --offline --features zolbine \
		--test load --test compare_engine --test compare_notes --test compare_evidence --test compare_framing \
		--test compare_joining --test compare_dispatcher --test compare_lms --test compare_making --test plain_c

bench: archives libcrypto
	@$(HARNESS) run --release --offline --features zolbine,probes,libcrypto --bin bench

install: $(ARCHIVE)
	@scripts/install.sh $(ARCHIVE) '$(PREFIX)' '$(DESTDIR)'

$(ARCHIVE): $(SOURCES)
	@$(MAKE) --no-print-directory zolbine

# the static libraries, for C and for the harness
archives: zolbine probes

zolbine probes: toolchain
	@scripts/archive.sh $@

toolchain:
	@scripts/tools.sh

# OpenSSL's libcrypto, for the bench alone
libcrypto:
	@echo '#include <openssl/sha.h>' | gcc -E - >/dev/null 2>&1 || apt-get install -qq -y libssl-dev
