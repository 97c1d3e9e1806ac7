CFLAGS = -std=c99 -O2 -Wall -Wextra -Wpedantic -Wconversion -Werror
CXXFLAGS = -std=c++11 -O2 -Wall -Wextra -Wpedantic -Wconversion -Werror
PREFIX = /usr/local
QUEUE = examples/chapter5-goal1.queue
SECONDS = 60
SEED := $(shell date +%s)

VERSION = $(shell sed -n 's/^.define KIPPERTARN_VERSION "\(.*\)"/\1/p' include/kippertarn.h)
PC = sed 's|@VERSION@|$(VERSION)|;s|@PREFIX@|$(1)|' kippertarn.pc.in
TESTS = cases source limits messages random orders splits
PROGRAMS = $(TESTS:%=target/c/%)
HEADERS = include/kippertarn.h examples/messages.h tests/c/reference.h tests/c/reference_split.h tests/c/lent.h tests/c/queues.h bench/plain.h
INSTALLED = target/include/kippertarn.h target/include/kippertarn_messages.h
RUNS = $(addprefix run-,program header agreement reached archive example text picture $(TESTS))

.PHONY: help run test lib install archive c-test soak bench valgrind clean $(RUNS)

help: ## this list
	@sed -n 's/^\([a-z-]*\):.*## /  make \1\t/p' Makefile | expand -t 20

# What the archive is made of, as one sum: `rt` asks the same of each crate, and takes ten seconds.
MADE_OF = find crates crates.txt include kippertarn.pc.in \( -name must-fail -o -name out \) -prune -o -type f -print | LC_ALL=C sort | xargs sha256sum | sha256sum

# What is no queue is said before anything is built.
run: ## a queue planned and drawn; QUEUE=FILE is a message or a text, SECOND_START=KIND splits it over two cutters
	@python3 tools/queue_text.py pack "$(QUEUE)" > /dev/null < /dev/null
ifneq ($(origin ARCHIVE),command line)
	@[ "$$($(MADE_OF))" = "$$(cat target/lib/made-of 2> /dev/null)" ] || $(MAKE) --no-print-directory lib
endif
	@$(MAKE) --no-print-directory -s ARCHIVE=$(ARCHIVE) target/c/answer
	@mkdir -p target/run
	@queue="$(QUEUE)" && name=$${queue##*/} && python3 tools/queue_text.py \
		$(if $(SECOND_START),split "$(SECOND_START)" "$$queue",plan "$$queue" "target/run/$${name%.*}.svg")

# Every crate proved, with the edits that must be refused; then the tests from C, on the archive of these proofs. An edit that cannot be tried fails the
# gate too. The last line is the toolchain's own `N passed, 0 failed`, held back until the tests have passed.
test: ## every crate proved, the edits that must be refused, c-test
	@said=$$(mktemp) && trap 'rm -f "$$said" "$$said.status"' EXIT && { rt ci; echo $$? > "$$said.status"; } | tee "$$said" | sed -u '$$d'; \
		status=$$(cat "$$said.status"); \
		if [ "$$status" != 0 ]; then tail -n 1 "$$said"; exit 1; fi; \
		if grep -q '^rt: ok.*, [0-9][0-9]* bad' "$$said"; then echo "Edits that cannot be tried: see BAD EDIT above"; exit 1; fi; \
		$(MAKE) --no-print-directory c-test && tail -n 1 "$$said"

# The headers as they are installed.
target/include/kippertarn.h: include/kippertarn.h
target/include/kippertarn_messages.h: examples/messages.h
$(INSTALLED):
	@mkdir -p $(@D)
	@cp $< $@

# The archive with each function at a multiple of 64, which changes no byte of code: the compiler asks for 16, and where a link then put the loops moved the
# time of a small queue by up to a quarter.
ALIGN = objcopy --set-section-alignment '.text*=64' $(1) $(2) 2> /dev/null || \
	{ echo "No objcopy that aligns sections here: the archive is as compiled, and by its link up to a quarter slower"; cp $(1) $(2); }

# A line for each crate, as it is proved.
lib: $(INSTALLED) ## the archive, both headers and a pkg-config file, in target/lib and target/include
	@command -v rt > /dev/null || { echo "The part is built with the Rattle toolchain: no command rt here"; exit 1; }
	@echo "Building the part: its crates are proved, then compiled. From nothing that takes some ten minutes."
	@mkdir -p target/lib/pkgconfig && rm -f target/lib/made-of && $(MADE_OF) > target/lib/made-of.part
	@cd crates/kippertarn && sh ../../tools/crate_lines.sh rt lib
	@$(call ALIGN,crates/kippertarn/out/libkippertarn.a,target/lib/libkippertarn.a)
	@$(call PC,$(CURDIR)/target) > target/lib/pkgconfig/kippertarn.pc
	@mv target/lib/made-of.part target/lib/made-of
	@echo "Built: target/lib/libkippertarn.a"; echo

install: lib ## the same under PREFIX=/usr/local, below DESTDIR
	install -d $(DESTDIR)$(PREFIX)/lib/pkgconfig $(DESTDIR)$(PREFIX)/include
	install -m 644 target/lib/libkippertarn.a $(DESTDIR)$(PREFIX)/lib
	install -m 644 $(INSTALLED) $(DESTDIR)$(PREFIX)/include
	$(call PC,$(PREFIX)) > $(DESTDIR)$(PREFIX)/lib/pkgconfig/kippertarn.pc

# ARCHIVE=FILE on the command line tests, or measures, another archive than the one built here.
ifeq ($(origin ARCHIVE),command line)
archive:
else
ARCHIVE = target/lib/libkippertarn.a
archive: lib
endif
$(ARCHIVE): archive ;

target/c/%: tests/c/%.c $(ARCHIVE) $(HEADERS)
	@mkdir -p target/c
	$(CC) $(CFLAGS) -pthread -Iinclude $< $(ARCHIVE) -o $@

target/c/plan target/c/split: target/c/%: examples/%.c $(ARCHIVE) $(HEADERS)
	@mkdir -p target/c
	$(CC) $(CFLAGS) -Iinclude $< $(ARCHIVE) -o $@

target/c/answer: tools/answer.c $(ARCHIVE) $(HEADERS)
	@mkdir -p target/c
	$(CC) $(CFLAGS) -Iinclude $< $(ARCHIVE) -o $@

# BEFORE=FILE measures an earlier archive beside this one, in turn with it. Entries that it does not have yet are passed over.
target/c/bench: bench/bench.c $(ARCHIVE) $(BEFORE) $(HEADERS)
	@mkdir -p target/c
	$(if $(BEFORE),objcopy $(foreach entry,plan split check_queue check_plan table_entries most_kept version,--redefine-sym kippertarn_$(entry)=before_$(entry)) $(BEFORE) target/c/before.a)
	$(CC) $(CFLAGS) -O3 -pthread -Iinclude $(if $(BEFORE),-DBEFORE) $< $(ARCHIVE) $(if $(BEFORE),target/c/before.a) -o $@

# the program plan_queue, proved and compiled
target/bin/plan_queue: archive
	@mkdir -p target/bin
	@cd crates/plan_queue && sh ../../tools/crate_lines.sh rt run < stdin
	@cp crates/plan_queue/out/plan_queue target/bin/plan_queue

# Two parts at a time.
c-test: archive ## the tests from C and of the tools, on the archive
	@$(MAKE) --no-print-directory -j 2 -O ARCHIVE=$(ARCHIVE) $(RUNS)

run-program: target/bin/plan_queue
	@sh tests/c/program.sh target/bin/plan_queue
run-header: $(INSTALLED)
	@CC='$(CC)' CFLAGS='$(CFLAGS)' CXX='$(CXX)' CXXFLAGS='$(CXXFLAGS)' sh tests/c/header.sh target/include
run-agreement:
	@python3 tests/tools/messages_doc.py
run-reached:
	@python3 tools/reached-definitions --check
run-archive:
	@sh tests/c/archive.sh $(ARCHIVE)
run-example: target/c/plan target/c/split
	@sh tests/c/example.sh target/c/plan target/c/split
run-text:
	@python3 tools/queue_text.py --self-test
run-picture: target/c/answer target/bin/plan_queue
	@python3 tests/tools/picture.py
$(TESTS:%=run-%): run-%: target/c/%
	@target/c/$*

# Random tests with new seeds, for SECONDS seconds in all; `SEED=n` repeats a run.
soak: $(PROGRAMS) ## the random ones with new seeds, for SECONDS=60 in all
	target/c/limits 5000 $(SEED)
	target/c/messages 0 $(SEED) $$(($(SECONDS) / 4))
	target/c/random 0 $(SEED) $$(($(SECONDS) / 4))
	target/c/orders 0 $(SEED) $$(($(SECONDS) / 4))
	target/c/splits 0 $(SEED) $$(($(SECONDS) / 4))

# The same tests, fewer rounds, each load and store watched.
valgrind: $(PROGRAMS) ## the same with fewer rounds, each load and store watched
	@command -v valgrind > /dev/null || { echo "valgrind is not installed"; exit 1; }
	@set -e; for test in cases source "limits 20" "messages 5000" "random 2000" "orders 500" "splits 1000"; do \
		valgrind -q --error-exitcode=1 target/c/$$test; done

# Time and stack of planning and splitting, beside both written by hand in C.
bench: target/c/bench ## time and stack, beside planning and splitting written by hand in C; BEFORE=FILE is an earlier archive
	target/c/bench

clean: ## removes all that was built
	rm -rf target tools/__pycache__ crates/*/out
