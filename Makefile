# make run                    the main job: proves and builds the program cutplan, runs it on document 01's recording R, and
#                             prints its listing; JOB=file runs it on a job of one's own, as tools/job makes it
# make test                   the gate, .ci/run: every crate proved by `rt ci`; the floors, the places in work memory, the trace,
#                             the reading lists and the declarations checked; trials and examples run, stored answers
#                             replayed; then the comparison with the Rust
# make compare N=.. SEED=..   the comparison alone, N inputs a subject; SUBJECTS=silences,path names some of them,
#                             LARGE=.. sets the number of the largest inputs
# make bench                  times beside the Rust's; PARTS=path names some of them
# make sample                 writes the stored answers anew, from the Rust alone, into samples/ and crates/answers_jobs;
#                             PART=candidates names one of the samples, COUNT=.. sets the number of records, of which
#                             64 KiB are kept, of jobs 128; samples/lines.txt and the crate's stdout say what a replay prints
#
# FEATURES names the parts that the library has beyond the frame grid: silences, candidates, path, plan, jobs.
# The published sources of the Rust stay in $(SHARED). Where they are not there, what needs them says so and does nothing.
SHARED ?= ../shared
JOB ?= examples/r.job
N ?= 200000
SEED ?= 1
SUBJECTS ?= all
LARGE ?=
PARTS ?= all
FEATURES ?= silences,candidates,path,plan,jobs
PART ?= grid silences candidates path plan jobs
COUNT ?= 1024

CUTPLAN := target/cutplan
STATICLIB := target/staticlib/libbuchawzer.a
DRIVER := target/reference/release/driver

.PHONY: run test reference compare bench sample

# The shell takes the name from its surroundings, so that blanks, quotes and dollars in it are its own; and a file that is not there is
# said before the minutes of proving.
.PHONY: job-there
run: override export JOB := $(value JOB)
run: job-there $(CUTPLAN)
	@$(CUTPLAN) <"$$JOB"

job-there:
	@[ -r "$$JOB" ] && [ ! -d "$$JOB" ] || \
		{ echo "make run: JOB=$$JOB is no file that can be read; tools/job makes one" >&2; exit 2; }

# The archive's reads name C's error number, which the kit's own archive tells.
$(CUTPLAN): program/cutplan.c target/staticlib/libcutplan_program.a include/buchawzer.h
	@$(CC) -O2 -Wall -Wextra -o $@ $(filter-out %.h,$^) "$$(dirname "$$(rt doc)")/c/libos_c.a"

# Proving takes minutes, so an archive is made anew only where something that it is made from changed.
target/staticlib/libcutplan_program.a: $(shell tools/prove_shown --sources cutplan_program)
	@tools/prove_shown cutplan_program

target/staticlib/libcapi_c.a: $(shell tools/prove_shown --sources capi_c)
	@tools/prove_shown capi_c

# The toolchain names an archive after its crate; programs link with the library's own name.
$(STATICLIB): target/staticlib/libcapi_c.a
	@cp $< $@

test:
	@.ci/run

ifeq ($(wildcard $(SHARED)/docs/src),)

reference compare bench sample:
	@echo "$@: skipped, no $(SHARED)/docs/src"

else

reference: $(STATICLIB)
	reference/prepare.sh $(SHARED) target/reference-src
	BUCHAWZER_LIB_DIR=$(CURDIR)/target/staticlib CARGO_TARGET_DIR=$(CURDIR)/target/reference \
		cargo build --release --offline --locked --manifest-path reference/Cargo.toml --features "$(FEATURES)"

compare: reference
	$(DRIVER) compare $(N) $(SEED) $(SUBJECTS) $(LARGE)

bench: reference
	$(DRIVER) bench $(PARTS)

sample: reference
	set -e; for part in $(PART); do \
		case $$part in jobs) file=crates/answers_jobs/stdin;; *) file=samples/$$part.bin;; esac; \
		$(DRIVER) sample $$part $(COUNT) $(SEED) > $$file; \
	done

endif
