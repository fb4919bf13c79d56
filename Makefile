# `make demo` tells the story of the program; `make test` is the gate.
POOL := build/demo.pool

.PHONY: build demo test gate transcripts bench refuse soak pages clean

# The proved program, at build/pmempool. With no words it prints its usage and ends with status 2, which is how `rt run` is to
# end here; where `rt` ends otherwise, or did not come to run the program, there is no build/pmempool.
build:
	@mkdir -p build
	@rm -f build/pmempool build/status
	@echo 'The first build proves every crate, an hour or more (bench/gate.csv). A later one proves what has changed.'
	@{ cd crates/pmempool && rt run; echo $$? > ../../build/status; } 2>&1 | tee build/log
	@test "$$(cat build/status)" = 2 && grep -q '^rt: running out/pmempool' build/log
	@cp crates/pmempool/out/pmempool build/pmempool

# A pool is made and shown, and neither overwritten nor made of values out of range; a damaged one is told by its fault. Then a transaction
# writes eight bytes of its root, and stops at some call: a power failure leaves the root unchanged, or changed as a whole. Three more are run one
# after another: what the first wrote is read, the second is refused a write that it did not record, and the third reads what stands. Then
# two words are set by one publish: a power failure leaves both or neither. At last a transaction makes an object, and the next frees it and makes
# another: a power failure leaves each of these calls whole, or not at all. Then an object is reserved and written, one that is there is to be freed and a
# word to be set, and one publish does it all: a power failure leaves all of it, or nothing.
demo: build
	@rm -f $(POOL) build/damaged.pool build/demo-*.pool
	@printf 'lane 0\nbegin root\nadd root 0 8\nwrite root 0 0102030405060708\ncommit\n' > build/demo.script
	build/pmempool create $(POOL) --lanes 1 --zones 1 --id 7 --layout demo --root 64
	build/pmempool dump $(POOL)
	od -A d -t x8 -w32 $(POOL)
	build/pmempool create $(POOL) --lanes 1 --zones 1 --id 7 --layout demo --root 64; echo "status $$?"
	build/pmempool create build/other.pool --lanes 33 --zones 1 --id 7 --layout demo --root 64; echo "status $$?"
	@cp $(POOL) build/damaged.pool && printf '\101' | dd of=build/damaged.pool bs=1 seek=16456 conv=notrunc status=none
	build/pmempool dump build/damaged.pool; echo "status $$?"
	cat build/demo.script
	@for stop in 4 11 13 14 16; do for keep in 0 1; do \
	  echo "build/pmempool exec $(POOL) .. --stops 0:$$stop --keep $$keep"; \
	  build/pmempool exec $(POOL) --script build/demo.script --out build/demo-$$stop-$$keep.pool --layout demo --stops 0:$$stop --keep $$keep; \
	  build/pmempool dump build/demo-$$stop-$$keep.pool; \
	done; done
	build/pmempool exec build/demo-11-1.pool --script build/demo.script --out build/demo-again.pool --layout demo
	build/pmempool dump build/demo-again.pool
	@printf 'lane 0\nbegin root\nadd root 8 2\nwrite root 8 cafe\nread root 0 10\ncommit\nbegin root\nadd root 0 8\nwrite root 60 ff\ncommit\nbegin r:root\nread root 8 2\ncommit\n' > build/demo-more.script
	cat build/demo-more.script
	build/pmempool exec build/demo-again.pool --script build/demo-more.script --out build/demo-more.pool --layout demo
	build/pmempool dump build/demo-more.pool
	@printf 'lane 0\nset root 8 42\nset root 16 43\npublish\n' > build/demo-set.script
	cat build/demo-set.script
	@for stop in 9 10 12; do for keep in 0 1; do \
	  echo "build/pmempool exec $(POOL) .. --stops 0:$$stop --keep $$keep"; \
	  build/pmempool exec $(POOL) --script build/demo-set.script --out build/demo-set-$$stop-$$keep.pool --layout demo --stops 0:$$stop --keep $$keep; \
	  build/pmempool dump build/demo-set-$$stop-$$keep.pool; \
	done; done
	@printf 'lane 0\nbegin\nalloc a 100 7\nwrite $$a 0 cafe\ncommit\nbegin $$a\nfree $$a\nalloc b 8 9\ncommit\n' > build/demo-objects.script
	cat build/demo-objects.script
	@for stop in 43 44 46 80; do for keep in 0 1; do \
	  echo "build/pmempool exec $(POOL) .. --stops 0:$$stop --keep $$keep"; \
	  build/pmempool exec $(POOL) --script build/demo-objects.script --out build/demo-objects-$$stop-$$keep.pool --layout demo --stops 0:$$stop --keep $$keep; \
	  build/pmempool dump build/demo-objects-$$stop-$$keep.pool; \
	done; done
	@printf 'lane 0\nbegin\nalloc x 64 9\ncommit\n' > build/demo-old.script
	build/pmempool exec $(POOL) --script build/demo-old.script --out build/demo-old.pool --layout demo
	@printf 'lane 0\nreserve a 64 6\nput $$a 0 ff\ndefer 16640\nset root 8 42\npublish\n' > build/demo-publish.script
	cat build/demo-publish.script
	@for stop in 32 33 35 46; do for keep in 0 1; do \
	  echo "build/pmempool exec build/demo-old.pool .. --stops 0:$$stop --keep $$keep"; \
	  build/pmempool exec build/demo-old.pool --script build/demo-publish.script --out build/demo-publish-$$stop-$$keep.pool --layout demo --stops 0:$$stop --keep $$keep; \
	  build/pmempool dump build/demo-publish-$$stop-$$keep.pool; \
	done; done

# Times beside `cp` of the same file; the times of ten million stores and of ten thousand blocks reserved by one lane alone; those of a lane's
# steps on shared words beside the raw steps of the kit's table; and those of transactions beside PMDK's, where its libpmemobj is there.
bench: build
	bench/run.sh

# The gate: each proof, each edit that must fail, each test, the program.
test:
	rt ci

# The gate from nothing, in a clone outside of this folder: its minutes are added to bench/gate.csv.
gate:
	@clone=$$(mktemp -d) && git clone -q . $$clone && { tools/gate_minutes.py $$clone --anew; status=$$?; rm -rf $$clone; exit $$status; }

# Each transcript is compared with what is printed: a change of the text is one of both files.
transcripts:
	@for crate in pm_transcripts pm_damage_transcripts pm_stop_transcripts; do cp crates/$$crate/stdin crates/$$crate/stdout; done

# The tests with each allocation refused in turn, outside the gate: allocation n of each test, for n up to ALLOCS. A test then ends by its own
# want of memory, or sees it where it asked for another answer; what was told in its place is printed, to be read. A fault ends it all.
ALLOCS := 24

refuse:
	@mkdir -p build
	@for crate in pm_raw pm_shelf pm_objects pm_image pm_recover solo_memory solo_script pm_text pm_pool pm_commands; do for n in $$(seq 1 $(ALLOCS)); do \
	  status=0; (cd crates/$$crate && rt try --test --fail-alloc $$n) > build/refuse.log 2>&1 || status=$$?; \
	  echo "$$crate $$n: status $$status"; grep -E 'left:|error:' build/refuse.log | sort | uniq -c; \
	  if test $$status -eq 4; then cat build/refuse.log; exit 1; fi; \
	done; done

# Random scripts of 2 to 8 lanes on random pools for an hour, outside the gate: a plain model judges what is printed and written,
# and is itself tried first.
soak: build
	tools/soak.py --selftest
	tools/rehearsal.py
	tools/rehearsal.py --faults
	tools/rehearsal.py --program build/pmempool
	tools/soak.py --seconds 3600

# The table of claims in docs/VERIFICATION.md, made from the sources; and every link, clause and
# quotation of the pages is checked. It changes no other page; `tools/pages.py --check` changes none.
pages:
	tools/pages.py

clean:
	rm -rf build
