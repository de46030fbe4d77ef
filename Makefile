# What a user and a developer of wire_up call. `run`, `libraries`, `try`, `test`, `quick`, `edits` and
# `parts` need the kit's `rt` on the path, and python3. `record` needs a C compiler and the headers of
# PMIx, `record-mpi` also `mpicc`; `ranks` needs what `record` needs.

PREFIX ?= /usr/local
# No program leaves compiled files in the tree.
export PYTHONDONTWRITEBYTECODE = 1

.PHONY: help run libraries parts try test quick lint lint-c edits soak waits inferred portable
.PHONY: bench figures record record-mpi record-suite newer-root ranks install deb picture

MPICC ?= mpicc
CFLAGS ?= -O2 -Wall -Wextra
SHARED = -std=gnu11 $(CFLAGS) -shared -fPIC -fvisibility=hidden -ftls-model=initial-exec -pthread \
	-Irecord

# What there is: `make` alone tells it.
help:
	@echo "make run                  proves and builds ./wire_up: 20 to 45 minutes the first time"
	@echo "make record record-mpi    builds what ./wire_up-record preloads, for PMIx and for MPI"
	@echo "make ranks                builds what ./wire_up-run starts"
	@echo "make install [PREFIX=..]  puts in place what is built; make deb makes a Debian package"
	@echo "make try FILE=my.plan     checks and replays a plan without a proof, in 2 minutes"
	@echo "make test                 every proof and every test: 40 minutes to two hours"
	@echo "More for developers: CONTRIBUTING.md"

# An example without proofs, then the proof, and the same example by the proved ./wire_up.
run:
	@python3 -m build.run

# For developers: all libraries, with the proof of each function kept, so that `rt check` in a crate
# begins at once.
libraries:
	@python3 -m build.libraries

# For tests and `make bench`: the program that has functions of the library by themselves.
parts:
	@python3 -m build.parts

# `make try FILE="my.plan other.plan"`: checks and replays files by a build without proofs, which is
# kept until a crate changes.
try:
	@test -n "$(FILE)" || { echo "which file? make try FILE=my.plan"; exit 1; }
	@python3 -m build.trying $(FILE)

# The gate: every proof, every test, and the program as a user calls it.
test:
	@python3 -m build.gate

# Some minutes: whether a change is sound so far, without a proof.
quick:
	@python3 -m build.quick

# Types and style of the Python programs, and the checks of C.
lint:
	@python3 -m build.checkers

lint-c:
	@test ! -x record/lint || record/lint

# The edits that the prover must refuse: all of them, or `make edits EDITS=wire_core`, or one by its
# file. What is below them is proved first.
edits:
	@python3 -m build.edits $(EDITS)

# Random and damaged files, for so many minutes: `make soak MINUTES=60`, and `SEED=1` for the same
# files again.
soak:
	@python3 -m build.soak --minutes $(or $(MINUTES),1) $(if $(SEED),--seed $(SEED))

# The same of patterns whose calls wait for each other, with plans of them at larger sizes.
waits:
	@python3 -m build.soak --waits --minutes $(or $(MINUTES),1) \
		$(if $(SEED),--seed $(SEED))

# Random patterns that are expanded, inferred from their plans, and judged again.
inferred:
	@python3 -m build.soak --inferred --minutes $(or $(MINUTES),1) \
		$(if $(SEED),--seed $(SEED))

# Small random plans, beside all that libraries may do with them.
portable:
	@python3 -m build.soak --portable --minutes $(or $(MINUTES),1) \
		$(if $(SEED),--seed $(SEED))

# Times ./wire_up on files near the limits, beside the unproved program of build/plain, where there is
# a rustc. `make bench BESIDE=program` times another program beside it.
bench:
	@python3 -m build.bench $(if $(BESIDE),--beside "$(BESIDE)")

# Measures, and writes docs/figures.md. Nothing else should be at work.
figures:
	@python3 -m build.figures "$(PROGRAM)"

# The recorder of PMIx calls, which ./wire_up-record preloads. `PMIX_CFLAGS=-I..` says where the
# headers are, if pkg-config doesn't know.
record: record/record.so

# The recorder of MPI's order beside it. It isn't linked with MPI, so that processes without MPI can
# load it.
record-mpi: record/record-mpi.so

# Where the C goes that is made of the headers: the wrappers of the functions in the tables, which
# are noted, and of all others that can order processes, which are counted.
RECORD_OUT ?= record/out
RECORD_MPI = $(wildcard record/mpi/*.c) $(RECORD_OUT)/mpi-noted.c $(RECORD_OUT)/mpi-counted.c
RECORD_PMIX = $(wildcard record/core/*.c record/pmix/*.c) \
	$(RECORD_OUT)/pmix-noted.c $(RECORD_OUT)/pmix-counted.c
RECORD_PYTHON = record/c_header.py record/frame.py
PMIX_FLAGS = $(or $(PMIX_CFLAGS),$(shell pkg-config --cflags pmix 2> /dev/null))
PMIX_INCLUDES = $(patsubst -I%,-isystem %,$(PMIX_FLAGS))
LIBRARY_mpi = MPI
LIBRARY_pmix = PMIx

$(RECORD_OUT)/pmix.i: Makefile
	@test -n "$(PMIX_CFLAGS)" || pkg-config --exists pmix || \
		{ echo "pkg-config doesn't find PMIx: on Debian it takes pkg-config and libpmix-dev"; exit 1; }
	@mkdir -p $(RECORD_OUT)
	@echo '#include <pmix_tool.h>' | $(CC) -E $(PMIX_INCLUDES) -x c - > $@.new
	@mv $@.new $@

$(RECORD_OUT)/mpi.i:
	@command -v $(MPICC) > /dev/null || \
		{ echo "there is no $(MPICC): on Debian the packages are openmpi-bin and libopenmpi-dev"; exit 1; }
	@mkdir -p $(RECORD_OUT)
	@echo '#include <mpi.h>' | $(MPICC) -DOMPI_OMIT_MPI1_COMPAT_DECLS=1 -E -x c - > $@.new
	@mv $@.new $@

$(RECORD_OUT)/%-noted.c: $(RECORD_OUT)/%.i record/%.table record/wrappers.py record/%_shapes.py \
		$(RECORD_PYTHON)
	@python3 -B record/wrappers.py $(LIBRARY_$*) record/$*.table < $< > $@.new
	@mv $@.new $@

$(RECORD_OUT)/%-counted.c: $(RECORD_OUT)/%.i record/%.table record/others.py $(RECORD_PYTHON)
	@python3 -B record/others.py $(LIBRARY_$*) record/$*.table < $< > $@.new
	@mv $@.new $@

record/record.so: $(RECORD_PMIX) record/record.h $(wildcard record/core/*.h record/pmix/*.h)
	$(CC) $(SHARED) $(PMIX_INCLUDES) -o $@.new $(filter %.c,$^) -ldl
	@mv $@.new $@

record/record-mpi.so: $(RECORD_MPI) record/record.h $(wildcard record/mpi/*.h)
	$(MPICC) $(SHARED) -Wl,--as-needed -o $@.new $(filter %.c,$^) -ldl
	@mv $@.new $@

# Records MPICH's test suite, or some parts of it: `make record-suite PARTS="pt2pt f77/coll"`; with
# TURN=1 turns the orders round of programs that call PMIx.
record-suite:
	@python3 -m build.record_suite "$(PROGRAM)" --parts $(PARTS) \
		$(if $(ROOM),--room "$(ROOM)") $(if $(SECONDS),--seconds $(SECONDS)) $(if $(JOBS),--jobs $(JOBS)) \
		$(if $(TURN),--turn)

# A folder with a newer Debian, whose MPI the gate's live tests then run with too; needs debootstrap.
newer-root:
	@python3 -m build.newer_root $(if $(ROOT),"$(ROOT)")

# The process that makes the calls of a rank of a plan, which ./wire_up-run starts.
ranks: run/wire_up-rank

COMMA = ,
PMIX_FOUND = $(or $(PMIX_LIBS),$(shell pkg-config --libs pmix 2> /dev/null),-lpmix)
# Where the loader finds the system's library by itself, no path to it is written down.
PMIX_BY_PATH = -Wl$(COMMA)-rpath -Wl$(COMMA)/usr/lib/%
PMIX_LIBRARIES = $(if $(and $(wildcard /usr/lib/*/libpmix.so.2),$(filter -Wl$(COMMA)/usr/lib/%,$(PMIX_FOUND))), \
	$(filter-out $(PMIX_BY_PATH),$(PMIX_FOUND)),$(PMIX_FOUND))

run/wire_up-rank: $(wildcard run/*.c) run/rank.h
	@test -n "$(PMIX_CFLAGS)" || pkg-config --exists pmix || \
		{ echo "pkg-config doesn't find PMIx: on Debian it takes pkg-config and libpmix-dev"; exit 1; }
	$(CC) -std=gnu11 $(CFLAGS) -pthread $(PMIX_INCLUDES) -o $@.new $(filter %.c,$^) $(PMIX_LIBRARIES)
	@mv $@.new $@

# Puts what `make run` built in place, with manual pages, completions, documents, and the recorders
# and the ranks that are built.
PROGRAM ?= wire_up
install:
	@python3 packaging/stage.py "$(PROGRAM)" "$(DESTDIR)$(PREFIX)"

# The Debian package of the same.
deb:
	@python3 packaging/deb.py "$(PROGRAM)"

# The picture of a report that README.md shows, by Chromium.
picture:
	@python3 packaging/picture.py "$(PROGRAM)"
