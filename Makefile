# make test     everything the merge gate checks; the last line is 'N passed, M failed'
# make demo     prove the program `scan`, build it and run it on the sample volume
# make help     the other targets
SHELL := /bin/bash
.SHELLFLAGS := -eu -o pipefail -c
.DEFAULT_GOAL := help
.PHONY: help test demo mutants

help:
	@grep -E '^# make ' Makefile

test:
	@python3 tools/gate.py

# make quick              what one runs ten times a day: what changed is proved, the programs and the C tests are run
.PHONY: quick
quick: docs-check
	@rt all check
	@$(MAKE) --no-print-directory demo-check example-check c-test tool-check

# make edits [CRATES=..]  the must-fail edits that are not in the gate (tests/edits), all or those of some crates (long)
.PHONY: edits
edits:
	@python3 tools/edits.py $(CRATES)

# make mutants            wrong edits of the definitions, each caught by a case or the theorem (long; not in the gate)
mutants:
	@python3 tools/mutants.py

# One tool proves a crate and all that it needs: a line for each crate, the prover's output in target/prove-NAME.log.
CHECK = python3 tools/prove.py check
STATICLIB = python3 tools/prove.py staticlib

# make scan VOLUME=file   the program on a volume of your own (at most 32,768 bytes)
.PHONY: scan scan-program demo-check
export VOLUME
# The file that a target is given by name, as VOLUME=file.
define GIVEN
@test -n "$${$(1):-}" || { echo "say which file: make $@ $(1)=file"; exit 2; }
@test -e "$$$(1)" || { echo "make $@: there is no file $$$(1)"; exit 2; }
@test -f "$$$(1)" && test -r "$$$(1)" || { echo "make $@: $$$(1) cannot be read as a file"; exit 2; }
endef

scan-program:
	@$(CHECK) scan

demo: scan-program
	@echo
	@echo "A sample volume of six pages after a night of power cuts:"
	@echo "page, class of its image on disk, where the repair starts, records replayed."
	@echo "\$$ scan < samples/demo.vol"
	@./target/bin/scan < samples/demo.vol

scan:
	$(call GIVEN,VOLUME)
	@$(MAKE) --no-print-directory scan-program
	@./target/bin/scan < "$$VOLUME"

# make rehearse [LIST=file]   frames and backup habits tried on the two lists, or on a list of events of one's own
.PHONY: rehearse
rehearse:
	@$(CHECK) rehearse
	@echo
	@./target/bin/rehearse < "$${LIST:-/dev/null}"

# make rehearse-check     a list of one's own: its figures in total and for each page; a refused list: one line
.PHONY: rehearse-check
rehearse-check:
	@$(CHECK) rehearse
	@printf '\201\202\1\203\2\201\201\201\3\11\1\202' | ./target/bin/rehearse 2>&1 | diff - samples/rehearsed.txt
	@printf '\201\101' | ./target/bin/rehearse 2>&1 | diff - <(echo REFUSED 25)
	@head -c 1025 /dev/zero | tr '\0' '\1' | ./target/bin/rehearse 2>&1 | diff - <(echo REFUSED 25)

# make demo-check         the programs on the sample volumes against what they must print, on either stream
demo-check: scan-program
	@for name in demo demo-first turned; do \
	    python3 tools/sample.py $$name target/$$name.vol && cmp target/$$name.vol samples/$$name.vol \
	    && ./target/bin/scan < samples/$$name.vol 2>&1 | diff - samples/$${name%-first}.txt || exit 1; \
	done
	@python3 tools/sample.py visit target/visit.vol \
	    && ./target/bin/scan < target/visit.vol 2>&1 | diff - <(echo REFUSED 23)

# make library            the store for C: target/libpagestore.a, the proved functions and the plain C of lib/
# make c-test             the C functions: K6 to K12, every refusal, full, smallest and random volumes, the stack they take
# make example-check      the program that docs/C.md quotes, on the sample volume, against what it must print
# make guide-check        the program of docs/C.md, compiled and run as it stands there
.PHONY: library c-test c-sanitized example-check guide-check
CC_TEST = gcc -Wall -Wextra -Werror -std=c11 -O2 -Iinclude
LIBRARY = target/libpagestore.a
# A test of the C functions, of tests/c/NAME_test.c and these files, built and run.
C_TEST = $(CC_TEST) -pthread tests/c/$(1)_test.c $(2) $(LIBRARY) -o target/c/$(1)_test && ./target/c/$(1)_test
library:
	@$(STATICLIB) capi
	@mkdir -p target/c/lib
	@for source in lib/*.c; do \
	    $(CC_TEST) -Ilib -c $$source -o target/c/lib/$$(basename $$source .c).o || exit 1; \
	done
	@cp target/staticlib/libcapi.a $(LIBRARY).part
	@ar rs $(LIBRARY).part target/c/lib/*.o 2> /dev/null
	@mv $(LIBRARY).part $(LIBRARY)

c-test: library
	@$(call C_TEST,inspect,tests/c/volume.c)
	@$(call C_TEST,forecast,tests/c/history.c tests/c/volume.c)
	@$(call C_TEST,archive,tests/c/history.c tests/c/volume.c)
	@$(call C_TEST,compare,tests/c/history.c tests/c/volume.c)
	@$(call C_TEST,store,tests/c/box.c tests/c/volume.c)
	@$(call C_TEST,cases,tests/c/box.c tests/c/volume.c)
	@$(call C_TEST,upkeep,tests/c/box.c tests/c/volume.c)
	@$(call C_TEST,stack,tests/c/painted.c tests/c/box.c tests/c/volume.c)
	@$(MAKE) --no-print-directory c-sanitized

# The header as C++, and the store's tests with the caller's side sanitized.
c-sanitized: library
	@echo '#include "pagestore.h"' | g++ -Wall -Wextra -Wpedantic -Werror -std=c++11 -Iinclude -x c++ -fsyntax-only -
	@for test in store cases upkeep; do \
	    $(CC_TEST) -g -fsanitize=address,undefined -fno-sanitize-recover=all tests/c/$${test}_test.c tests/c/box.c \
	        tests/c/volume.c $(LIBRARY) -o target/c/$${test}_sanitized && ./target/c/$${test}_sanitized | tail -1 \
	        || exit 1; \
	done

example-check: library
	@$(CC_TEST) examples/show.c $(LIBRARY) -o target/c/show
	@for page in 1 2 3 4 5 6 7; do \
	    ./target/c/show samples/demo.vol $$page || echo "exit status $$?"; \
	done > target/c/show.txt 2>&1
	@diff target/c/show.txt samples/show.txt

guide-check: library
	@sed -n '/^```c$$/,/^```$$/p;/^```$$/q' docs/C.md | sed '/^```/d' > target/c/guide.c
	@$(CC_TEST) target/c/guide.c $(LIBRARY) -o target/c/guide
	@rm -f target/c/guide.vol
	@./target/c/guide target/c/guide.vol > target/c/guide.txt
	@sed -n '/^    gcc .*guide/,/^$$/p' docs/C.md | sed '1d;$$d;s/^    //' | diff target/c/guide.txt -

# make torture            the store in a file, killed, cut and damaged, against an abstract log; ROUNDS=300, SEED=1,
#                         MODE=upkeep: small rings, and no call may be refused for room
# make torture-check      300 rounds of it, failing calls of the system, both sanitized too, faults planted in the layer
# make ward-check         docs/C.md's story of examples/ward.c, word by word
.PHONY: torture torture-check torture-program ward-check
ROUNDS ?= 300
SEED ?= 1
CC_FILE = $(CC_TEST) -pthread -Ilib -Wl,--wrap=pwrite,--wrap=fdatasync,--wrap=fsync,--wrap=posix_fadvise
SANITIZED = -g -fsanitize=address,undefined -fno-sanitize-recover=all
# a file system without a disk, where syncs cost nothing
ROOM = $(if $(wildcard /dev/shm),/dev/shm,/tmp)
TORTURE = $(patsubst %,tests/c/%.c,torture caller abstract_log harm disk volume)
FILE_TEST = $(patsubst %,tests/c/%.c,file_test file_faults file_upkeep disk volume)

torture-program: library
	@$(CC_FILE) $(TORTURE) $(LIBRARY) -o target/c/torture

torture: torture-program
	@./target/c/torture $(ROUNDS) $(SEED) $(ROOM) $(MODE)

torture-check: torture-program
	@$(CC_FILE) $(FILE_TEST) $(LIBRARY) -o target/c/file_test
	@./target/c/file_test
	@$(CC_FILE) $(SANITIZED) $(FILE_TEST) lib/pagestore_file.c $(LIBRARY) -o target/c/file_test_sanitized
	@./target/c/file_test_sanitized $(ROOM)
	@$(CC_FILE) $(SANITIZED) $(TORTURE) lib/pagestore_file.c $(LIBRARY) -o target/c/torture_sanitized
	@./target/c/torture_sanitized 300 2 $(ROOM) | tail -1
	@echo '#include "pagestore_file.h"' | g++ -Wall -Wextra -Werror -std=c++11 -Iinclude -Ilib -fsyntax-only -x c++ -
	@python3 tests/planted_faults.py $(ROOM) $(CC_FILE) $(LIBRARY)
	@./target/c/torture 300 1 $(ROOM)
	@./target/c/torture 2000 1 $(ROOM) upkeep

ward-check: library
	@python3 tests/ward.py
	@$(MAKE) --no-print-directory install PREFIX=target/c/installed
	@$(CC_TEST:-Iinclude=-Itarget/c/installed/include) $(SANITIZED) examples/ward.c -Ltarget/c/installed/lib -lpagestore \
	    -o target/c/ward
	@rm -f target/c/ward.vol && ./target/c/ward target/c/ward.vol new && ./target/c/ward target/c/ward.vol say 1 line \
	    && ./target/c/ward target/c/ward.vol read 1 | diff - <(echo line)
	@! ./target/c/ward target/c/ward.vol new 2> /dev/null && ! ./target/c/ward target/c/none.vol read 1 2> /dev/null

# make tool               the field engineer's tool: target/bin/pagestore, static
# make tool-check         every command, status, sentence, JSON name; 10,000 mutated files, sanitized; the pictures
.PHONY: tool tool-check pictures
TOOL = target/bin/pagestore
TOOL_PARTS = $(filter-out tool/main.c,$(wildcard tool/*.c))
# the sanitized tool has what is C of the library compiled along with it
CC_SANITIZED = $(CC_TEST) -Ilib $(SANITIZED) $(TOOL_PARTS) lib/*.c
MUTANTS ?= 10000
tool: library
	@mkdir -p target/bin
	@$(CC_TEST) -Ilib -static tool/*.c $(LIBRARY) -o $(TOOL)

tool-check: tool
	@python3 tests/tool/tool_test.py $(TOOL)
	@for name in demo turned; do $(TOOL) map samples/$$name.vol -o - | diff -q - samples/$$name.svg || exit 1; done
	@$(CC_SANITIZED) tool/main.c $(LIBRARY) -o target/c/pagestore_sanitized
	@python3 tests/tool/tool_test.py target/c/pagestore_sanitized
	@$(CC_SANITIZED) tests/tool/mutants.c $(LIBRARY) -o target/c/mutants
	@./target/c/mutants $(MUTANTS) 1 $(ROOM) samples/*.vol
	@python3 tools/sample.py full target/full.vol && ./target/c/mutants 40 2 $(ROOM) target/full.vol

# make pictures           writes the stored pictures anew (then look at them in a browser)
pictures: tool
	@for name in demo turned; do $(TOOL) map samples/$$name.vol -o samples/$$name.svg --force || exit 1; done

# make lesson             the trainer's four checks as a page to open offline: docs/lesson.html
# make dist               the bundle for a closed network: target/pagestore-VERSION-x86_64-linux.tar.gz
# make dist-check         the bundle built twice, unpacked and used where neither the kit nor the sources are
# make install            what the bundle holds to PREFIX (/usr/local), below DESTDIR if it is given; make uninstall
.PHONY: lesson lesson-check dist dist-check install uninstall
PREFIX ?= /usr/local
BUNDLE = target/pagestore-$(shell cat VERSION)-x86_64-linux.tar.gz
LESSON = $(CC_TEST) lesson/checks.c $(LIBRARY) -o target/c/checks && python3 tools/lesson.py target/c/checks $(TOOL)
lesson: tool
	@$(LESSON) docs/lesson.html

lesson-check: tool
	@$(LESSON) target/lesson.html
	@diff -q target/lesson.html docs/lesson.html

dist: tool
	@python3 tools/dist.py bundle $(BUNDLE)
	@echo $(BUNDLE)

dist-check: lesson-check
	@command -v pkg-config > /dev/null || { echo "dist-check wants the Debian package pkg-config"; exit 2; }
	@$(MAKE) --no-print-directory dist > /dev/null && mv $(BUNDLE) target/first.tar.gz && rm -f $(TOOL) $(LIBRARY)
	@$(MAKE) --no-print-directory dist > /dev/null && cmp $(BUNDLE) target/first.tar.gz
	@python3 tests/tool/dist_test.py $(BUNDLE)
	@rm -rf target/installed && $(MAKE) --no-print-directory install DESTDIR=target/installed PREFIX=/usr
	@./target/installed/usr/bin/pagestore show samples/demo.vol 4 | grep -q "06:10 bed 4 moved"
	@$(MAKE) --no-print-directory uninstall DESTDIR=target/installed PREFIX=/usr
	@test -z "$$(find target/installed -type f -o -path '*pagestore*')"

install: tool
	@DESTDIR="$(DESTDIR)" python3 tools/dist.py install "$(PREFIX)"

uninstall:
	@DESTDIR="$(DESTDIR)" python3 tools/dist.py uninstall "$(PREFIX)"

# make bench-sqlite       durable changes by ours and by SQLite, and the same damage done to both (wants libsqlite3-dev)
.PHONY: bench-sqlite
CC_SQLITE = $(CC_TEST) -Ilib -Wl,--wrap=pwrite,--wrap=pwrite64,--wrap=write,--wrap=fsync,--wrap=fdatasync
bench-sqlite: library
	@echo '#include <sqlite3.h>' | gcc -E - > /dev/null 2>&1 && test -f "$$(gcc -print-file-name=libsqlite3.a)" || \
	    { echo "bench-sqlite wants SQLite's header and static library: the Debian package libsqlite3-dev"; exit 2; }
	@$(CC_SQLITE) bench/sqlite/*.c $(LIBRARY) -l:libsqlite3.a -lm -o target/c/bench_sqlite
	@disk="$$(mktemp -d target/bench.XXXXXX)"; shm="$$(mktemp -d $(ROOM)/bench.XXXXXX)"; \
	    ./target/c/bench_sqlite "$$disk" "$$shm"; status=$$?; rm -rf "$$disk" "$$shm"; exit $$status

# make kit-check          tells which Rattle kit is at hand, and which the proofs were last run with (file rattle-kit)
# make docs               writes what tools make: the table of what functions ask, the names that the cases open
# make docs-check         the documents against the sources: refusals, names, the quoted example, columns
.PHONY: kit-check docs docs-check
docs:
	@python3 tools/requirements.py --write
	@python3 tools/opened.py

kit-check:
	@kit="$$(rt version)" || { echo "rt: the Rattle kit is needed (rt on the path)"; exit 1; }; \
	last="$$(cat rattle-kit)"; \
	if test "$$kit" = "$$last"; then echo "the kit is $$kit"; \
	else echo "the proofs were last run with '$$last' (file rattle-kit); the kit here is '$$kit'"; fi

docs-check:
	@python3 tools/documents.py
	@python3 tools/mutants.py --texts

# make vectors-check      the sums by products are vectors in the library: another shape of theirs costs half the speed
.PHONY: vectors-check
# a record, a note and an image's four parts of 64 bytes, each with two weights, 16 bytes a product
PRODUCTS = $$(( 2 * (64 + 16 + 4 * 64) / 16 ))
vectors-check: library
	@found=$$(objdump -d $(LIBRARY) | grep -c pmaddwd); test $$found -ge $(PRODUCTS) || \
	    { echo "of $(PRODUCTS) products by pmaddwd the library has $$found: see docs/PERFORMANCE.md"; exit 1; }

# make needs-check        what the proved functions for C need from outside: memcpy and memset, nothing else
.PHONY: needs-check
needs-check: library
	@needs="$$(nm -u target/staticlib/libcapi.a | awk '$$1 == "U" {print $$2}' | sort -u | xargs)"; \
	    test "$$needs" = "memcpy memset" || { echo "the proved functions for C need from outside: $$needs"; exit 1; }

# make reference-test     the second implementation: its tests, and its own histories against its own abstract log
.PHONY: reference-test
reference-test:
	@cd reference && cargo test -q --release --offline
	@cd reference && cargo build -q --release --offline && ./target/release/check_histories --seed 1 --count 200

# make fuzz               random scripts through both implementations; FUZZ_SECONDS=60, FUZZ_SEED=number (the clock)
# make against            the C function against the second implementation's inspection, on volumes of every kind
# make bench              times of the proved code and of peers in C, in turns; then against the second implementation
# make bench-check        the answers of the proved code and of the peers in C on every input of the benchmark
.PHONY: fuzz against bench bench-check bench-program
FUZZ_SECONDS ?= 60
fuzz:
	@python3 tools/fuzz.py --seconds $(FUZZ_SECONDS) $(if $(FUZZ_SEED),--seed $(FUZZ_SEED))

AGAINST = cd reference/against && cargo run --release --offline --quiet --target-dir ../target --bin

against: library
	@$(AGAINST) against_inspect
	@$(AGAINST) against_store

bench-program: library
	@$(STATICLIB) bench_calls
	@$(CC_TEST) bench/*.c tests/c/volume.c target/staticlib/libbench_calls.a $(LIBRARY) -o target/c/bench

bench-check: bench-program
	@./target/c/bench check

bench: bench-program
	@./target/c/bench
	@$(AGAINST) bench

# make checklist          the four checks that support staff are taught, played with the store's calls
.PHONY: checklist
checklist:
	@$(CHECK) checklist
	@echo
	@./target/bin/checklist
